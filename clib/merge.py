#!/usr/bin/env python3
"""Makes libscramotp.a and libscramotp.so.0 of the archives that `rt lib` made.

Usage: merge.py FOLDER ARCHIVE ..

They are put into FOLDER, and the second once more as libscramotp.so, for the linker: no link, since rt refuses links in a repository. Both
have only the symbols scramotp_*, and in them what the kit links to each program for its memory, over malloc. Needs rt, ar, cc, ld and
objcopy.
"""
import pathlib
import shutil
import subprocess
import sys
import tempfile

# The version of the binary interface: it changes only if a program that was linked with an earlier one would no longer run.
SONAME = "libscramotp.so.0"
EXPORTS = "{ global: scramotp_*; local: *; };\n"


def run(*words: str | pathlib.Path, cwd: pathlib.Path | None = None) -> None:
    """Runs a command. Ends the script if it fails."""
    if subprocess.run(words, cwd=cwd, check=False).returncode != 0:
        sys.exit(f"merge.py: {words[0]} failed")


def of_kit() -> pathlib.Path:
    """The archive of the kit by which a program gets memory."""
    page = subprocess.run(["rt", "doc"], capture_output=True, text=True, check=True).stdout.strip()
    return pathlib.Path(page).parent / "c/liblibc_c.a"


def merged(archives: list[pathlib.Path], work: pathlib.Path) -> pathlib.Path:
    """One object of all those in the archives, in this empty folder. Of its symbols only scramotp_* can be seen from outside."""
    objects: list[pathlib.Path] = []
    for number, archive in enumerate([*archives, of_kit()]):
        folder = work / str(number)
        folder.mkdir()
        run("ar", "x", archive.resolve(), cwd=folder)
        objects += sorted(folder.iterdir())
    whole = work / "scramotp.o"
    run("ld", "-r", "-o", whole, *objects)
    run("objcopy", "--wildcard", "--keep-global-symbol=scramotp_*", whole)
    return whole


def make(folder: pathlib.Path, archives: list[pathlib.Path]) -> None:
    """Makes both libraries in this folder, which is made if it is not there."""
    folder.mkdir(parents=True, exist_ok=True)
    static, shared, link = folder / "libscramotp.a", folder / SONAME, folder / "libscramotp.so"
    with tempfile.TemporaryDirectory() as temporary:
        work = pathlib.Path(temporary)
        whole = merged(archives, work)
        static.unlink(missing_ok=True)
        run("ar", "rcsD", static, whole)
        (work / "exports").write_text(EXPORTS)
        flags = [f"-Wl,-soname,{SONAME}", f"-Wl,--version-script={work / 'exports'}", "-Wl,-z,relro,-z,now,-z,noexecstack,-z,defs"]
        run("cc", "-shared", "-o", shared, *flags, whole)
    shutil.copyfile(shared, link)


if __name__ == "__main__":
    if len(sys.argv) < 3:
        sys.exit("usage: merge.py FOLDER ARCHIVE ..")
    make(pathlib.Path(sys.argv[1]), [pathlib.Path(word) for word in sys.argv[2:]])
