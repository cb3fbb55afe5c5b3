#!/usr/bin/env python3
"""Makes the package for Debian of the program, looks into it, and installs it.

With FRESH=yes in the environment, root installs the package in a fresh Debian below a temporary folder, which mmdebstrap makes from the
packages of this machine's release, and removes it again. That takes over a minute. Needs `dpkg-deb`, and `lintian` for one test.
"""
import gzip
import hashlib
import io
import os
import pathlib
import platform
import re
import shutil
import subprocess
import tarfile

import suite
from checks import equal, holds
from expected import DATA
from installs import ENVIRONMENT, due_files, made
from limits import limit
from processes import ran
from suite import KEYS_OF_PENCIL, PROGRAM, SALT, TOP, each, has, not_tested, within

# 2026-11-30 04:00 UTC: the time of each file.
MOMENT = 1796011200
DOC = "usr/share/doc/scramotp"
# What a package has besides what is installed.
MORE = {f"{DOC}/copyright", f"{DOC}/changelog.gz", "usr/share/lintian/overrides/scramotp"}
# What a system has of packages that it had.
NOTES_OF_DPKG = re.compile(r"/var/(?:lib/dpkg|log|cache)(?:/|$)")


def packaged(folder: str | pathlib.Path, **how: int) -> pathlib.Path:
    """The package of the program, made in this folder by a script that is started so."""
    program = shutil.copy(PROGRAM, folder)
    words = ["python3", TOP / "packaging/make_deb.py", program, folder]
    answer = ran(words, env={**ENVIRONMENT, "SOURCE_DATE_EPOCH": str(MOMENT)}, **how)
    return pathlib.Path(answer.given("how the package was made").strip())


def same_bytes(folder: str) -> None:
    """`make deb`, and the script with another umask and in another folder, make the same bytes. Without a time, with too few words, or of a
    program that is older than its sources, the script makes nothing."""
    if not has("the package for Debian", "dpkg-deb"):
        return
    one, other = pathlib.Path(folder, "one"), within(folder, "other")
    done = made("deb", shutil.copy(PROGRAM, folder), DEB_FOLDER=one, SOURCE_DATE_EPOCH=MOMENT)
    equal((done.status, done.faults), (0, ""), "make deb", done.output)
    [package] = one.iterdir()
    holds(done.output.endswith(f"{package}\n"), "make deb does not end with the path of", package.name, done.output)
    again = packaged(other, umask=0o077)
    equal(again.name, package.name, "the package's name")
    holds(package.read_bytes() == again.read_bytes(), "with another umask, the package has other bytes")
    old, none = shutil.copy(PROGRAM, pathlib.Path(folder, "old")), f"{folder}/none"
    os.utime(old, (0, 0))
    for trial, (words, moment, fault) in each([
        ([PROGRAM], MOMENT, "make_deb.py PROGRAM FOLDER: makes the Debian package"),
        ([PROGRAM, none], "", "make_deb.py: SOURCE_DATE_EPOCH is not a time"),
        ([old, none], MOMENT, "The program is not built, or is older than its sources: run make build first."),
    ]):
        with trial:
            answer = ran(["python3", TOP / "packaging/make_deb.py", *words], env={**ENVIRONMENT, "SOURCE_DATE_EPOCH": str(moment)})
            equal((answer.status, answer.output, os.path.exists(none)), (1, "", False), words, answer.faults)
            holds(answer.faults.startswith(fault), "another fault is due:", fault, answer.faults)


def entries_of(package: pathlib.Path) -> dict[str, tuple[tarfile.TarInfo, bytes]]:
    """What is in a package, by its path: what tar says of it, and its bytes if it is a file."""
    archive = subprocess.run(["dpkg-deb", "--fsys-tarfile", package], capture_output=True, check=True).stdout
    with tarfile.open(fileobj=io.BytesIO(archive)) as tar:
        return {it.name.removeprefix("./"): (it, tar.extractfile(it).read() if it.isfile() else b"") for it in tar}


def in_debian(place: str, text: bytes) -> tuple[str, bytes]:
    """The path and the bytes that an installed file has in a package: man pages are compressed, which is undone here, tools name the
    system's Python, and zsh has another folder."""
    place = f"usr/{place.replace('zsh/site-functions', 'zsh/vendor-completions')}"
    is_page = place.startswith("usr/share/man/")
    return f"{place}.gz" if is_page else place, text.replace(b"#!/usr/bin/env python3\n", b"#!/usr/bin/python3\n")


def contents(folder: str) -> None:
    """The package has what `make install` installs, and MORE, with the right bytes and modes. All belongs to root, and has the same time.
    Its checksums are those of the files, its version is the program's, and its license that of the repository."""
    if not has("the package for Debian", "dpkg-deb"):
        return
    package = packaged(folder)
    entries = entries_of(package)
    files = {name: (it, text) for name, (it, text) in entries.items() if it.isfile()}
    due = {}
    for place, (text, mode) in due_files("/usr").items():
        name, text = in_debian(place, text)
        due[name] = text, mode
    names = {*due, *MORE}
    equal((sorted(files.keys() - names), sorted(names - files.keys())), ([], []), "files too many, and missing")
    plain = {name: gzip.decompress(text) if name.endswith(".gz") else text for name, (_, text) in files.items()}
    equal([name for name, (text, _) in due.items() if plain[name] != text], [], "the files with other bytes")
    due_modes = {name: due[name][1] if name in due else 0o644 if it.isfile() else 0o755 for name, (it, _) in entries.items()}
    equal({name: oct(it.mode) for name, (it, _) in entries.items()}, {name: oct(mode) for name, mode in due_modes.items()}, "the modes")
    owners = {(it.uname, it.gname, it.uid, it.gid, it.mtime) for it, _ in entries.values()}
    equal(owners, {("root", "root", 0, 0, MOMENT)}, "the owners and the times")
    sums = "".join(f"{hashlib.md5(text).hexdigest()}  {name}\n" for name, (_, text) in sorted(files.items()))
    equal(sorted(ran(["dpkg-deb", "--info", package, "md5sums"]).output.splitlines()), sorted(sums.splitlines()), "the checksums")
    fields = ran(["dpkg-deb", "--showformat=${Version} ${Architecture}\n", "--show", package]).output
    equal(fields, f"{ran([PROGRAM, '--version']).output.split()[1]} amd64\n", "the version and the architecture")
    terms = " ".join((TOP / "LICENSE").read_text(encoding="utf-8").split()).partition("Tivelumon ")[2]
    holds(terms in re.sub(r"\s+(?:\.\s+)?", " ", plain[f"{DOC}/copyright"].decode()), "the license is another one")


def lintian(folder: str) -> None:
    """lintian finds no fault in the package, and warns of none."""
    if has("the package for Debian", "dpkg-deb") and has("the rules for packages of Debian", "lintian"):
        words = ["lintian", "--fail-on", "error,warning", *["--allow-root"] * suite.ROOT, packaged(folder)]
        equal(ran(words), (0, "", ""), "what lintian says")


def sources() -> list[pathlib.Path]:
    """The lists of this machine's release, by which apt finds packages."""
    release = platform.freedesktop_os_release()["VERSION_CODENAME"]
    listed = [pathlib.Path("/etc/apt/sources.list"), *sorted(pathlib.Path("/etc/apt/sources.list.d").glob("*"))]
    return [path for path in listed if path.suffix in (".list", ".sources") and path.is_file() and release in path.read_text()]


def fresh_root(folder: str, package: pathlib.Path) -> pathlib.Path | None:
    """The folder of a fresh Debian that has what the package needs; or None, if it can't be made here, and then the script says so."""
    root, needs = pathlib.Path(folder, "root"), ran(["dpkg-deb", "--field", package, "Depends"]).output
    names = ",".join(re.findall(r"(?:^|, )([a-z0-9.+-]+)", needs))
    os.chmod(folder, 0o755)
    # What is mounted below the folder is gone with the process.
    words = ["unshare", "--mount", "mmdebstrap", "--quiet", "--variant=minbase", f"--include={names}"]
    words += [platform.freedesktop_os_release()["VERSION_CODENAME"], root, *sources()]
    done = subprocess.run(words, stdin=subprocess.DEVNULL, capture_output=True, text=True, timeout=limit(600))
    if done.returncode:
        not_tested(f"the installation in a fresh Debian: {' '.join(done.stderr.split())[-200:]}")
        return None
    return root


def does(root: pathlib.Path, words: list[str], text: str = "") -> str:
    """Runs a command in a fresh Debian, which has to succeed. Returns what it prints."""
    status, output, faults = ran(["chroot", root, *words], text, env={"PATH": "/usr/sbin:/usr/bin:/sbin:/bin", "LC_ALL": "C.UTF-8"})
    equal(status, 0, words, output, faults)
    return output


def files_of(root: pathlib.Path) -> set[str]:
    """All paths of a system, without what dpkg notes."""
    found = (os.path.join(folder, name).removeprefix(str(root)) for folder, *names in os.walk(root) for name in [*names[0], *names[1]])
    return {path for path in found if not NOTES_OF_DPKG.match(path)}


def works_in(root: pathlib.Path) -> None:
    """In a fresh Debian with the package, all files are as they were packaged, and the program and a tool work."""
    equal(does(root, ["dpkg", "--verify", "scramotp"]), "", "what dpkg finds changed")
    equal(does(root, ["scramotp", "--version"]), ran([PROGRAM, "--version"]).output, "the version")
    keys = ["scramotp", "keys", "--mechanism", "SCRAM-SHA-1", "--salt", SALT, "--count", "4096"]
    equal(does(root, keys, "pencil\n"), KEYS_OF_PENCIL, "the keys of RFC 5802's example")
    shutil.copy(DATA / "audits/keys.toml", root / "book.toml")
    equal(does(root, ["/usr/share/scramotp/list-accounts", "/book.toml"]), "user: sha1 keys\n", "what a tool prints")
    (root / "book.toml").unlink()


def in_a_fresh_debian(folder: str) -> None:
    """The package installs in a fresh Debian, and works there. Once it is purged, nothing of it is left."""
    if os.environ.get("FRESH") != "yes" or not suite.ROOT:
        return not_tested("the installation in a fresh Debian, which takes root and FRESH=yes, as make test-all sets it")
    if not (has("the package for Debian", "dpkg-deb") and has("the installation in a fresh Debian", "mmdebstrap")):
        return None
    package = packaged(folder)
    if root := fresh_root(folder, package):
        before = files_of(root)
        copied = pathlib.Path(shutil.copy(package, root))
        does(root, ["dpkg", "--install", f"/{package.name}"])
        copied.unlink()
        works_in(root)
        does(root, ["dpkg", "--purge", "scramotp"])
        after = files_of(root)
        equal((sorted(after - before), sorted(before - after)), ([], []), "what is left of the package, and what it took away")
    return None


suite.run_all()
