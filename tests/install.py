#!/usr/bin/env python3
"""Installs the built program with `make install`, below temporary folders, and runs it with `make run`. Where that would compile the
sources, stand-ins for rt and Python take their place, since that takes over a minute. Needs `make`."""
import os
import pathlib
import shutil
import stat
from collections.abc import Iterable

import suite
from checks import equal, holds
from installs import due_files, made
from suite import KEYS_OF_PENCIL, PROGRAM, TOP, each, script, within

REFUSED = "The program is not built, or is older than its sources: run make build first."
# What the Makefile takes from the PATH before it compiles the sources.
NEEDED = ["cat", "date", "find", "mkdir", "nproc", "sed"]
NOTHING_PROVED = "Nothing is proved yet: make build does that. This compiles the program from its sources, in some minutes.\n"


def files_of(folder: pathlib.Path) -> list[pathlib.Path]:
    """The files below a folder."""
    return [path for path in folder.rglob("*") if not path.is_dir()]


def modes_of(paths: Iterable[pathlib.Path]) -> dict[str, str]:
    """The permissions of these files, in octal."""
    return {str(path): oct(stat.S_IMODE(path.stat().st_mode)) for path in paths}


def installed(folder: str) -> None:
    """All files of an installation are there, with the right bytes, and no other file is. All users may run the program, the tools and the
    hosts, and read all, and only their owner may write them."""
    program = shutil.copy(PROGRAM, folder)
    for trial, (name, folders, place) in each([
        ("plain", {"DESTDIR": "{}"}, "usr/local"),
        ("with a space", {"DESTDIR": "{}"}, "usr/local"),
        ("both", {"DESTDIR": "{}", "PREFIX": "/srv/one of two"}, "srv/one of two"),
        ("of a user", {"PREFIX": "{}/.local"}, ".local"),
    ]):
        with trial:
            to = pathlib.Path(folder, name)
            variables = {variable: value.format(to) for variable, value in folders.items()}
            done = made("install", program, **variables, CLIB_FOLDER="none", PLUGIN_FOLDER="none")
            equal((done.status, done.faults), (0, ""), name)
            prefix = folders.get("PREFIX", "/usr/local").format(to)
            due = {to / place / path: file for path, file in due_files(prefix).items()}
            equal(sorted(files_of(to)), sorted(due), name)
            equal(modes_of(due), {str(path): oct(mode) for path, (_, mode) in due.items()}, name)
            equal([path for path, (text, _) in due.items() if path.read_bytes() != text], [], name, "where another file is")


def library_for_c(folder: str) -> None:
    """The library for C and the plug-in for Cyrus SASL are installed if they are built: here files stand in for them."""
    built, to = within(folder, "built"), pathlib.Path(folder, "to")
    due = {"lib/libscramotp.a": "a", "lib/libscramotp.so.0": "so", "lib/scramotp/sasl2/libscramotp-cyrus.so": "plug-in"}
    for path, text in due.items():
        (built / pathlib.Path(path).name).write_text(text)
    due["lib/libscramotp.so"] = "so"
    due["include/scramotp.h"] = (TOP / "clib/scramotp.h").read_text()
    due["lib/pkgconfig/scramotp.pc"] = (TOP / "clib/scramotp.pc.in").read_text().replace("@PREFIX@", "/it")
    done = made("install", shutil.copy(PROGRAM, folder), DESTDIR=to, PREFIX="/it", CLIB_FOLDER=built, PLUGIN_FOLDER=built)
    equal((done.status, done.faults), (0, ""))
    found = {str(path.relative_to(to / "it")) for path in files_of(to)} - {*due_files("/it")}
    equal(found, {*due})
    equal({path: (to / "it" / path).read_text() for path in due}, due)
    equal({*modes_of(to / "it" / path for path in due).values()}, {"0o644"})


def refused(folder: str) -> None:
    """A program that is not there, or is older than its sources, is not installed."""
    to, old = pathlib.Path(folder, "to"), shutil.copy(PROGRAM, pathlib.Path(folder, "old"))
    os.utime(old, (0, 0))
    for trial, program in each([f"{folder}/none", old]):
        with trial:
            done = made("install", program, DESTDIR=to)
            equal((done.status, done.output), (2, ""), program)
            holds(REFUSED in done.faults.splitlines(), program, "it is not refused", done.faults)
            equal(files_of(to), [], program)


def shown(folder: str) -> None:
    """`make run` has the program print the keys of the example, if it is built and newer than its sources."""
    done = made("run", shutil.copy(PROGRAM, folder))
    equal(done, (0, KEYS_OF_PENCIL, ""), "what make run prints")


def run_from_sources(folder: str) -> None:
    """Without a program that is newer than its sources, `make run` says that nothing is proved, has unproved.py compile it, and runs what
    that made. It prints what that prints; if it fails, its fault. Without rt it says so. Here a stand-in for Python copies the program."""
    top, path, old = (pathlib.Path(folder, name) for name in ["top", "path", "old"])
    source = top / "crates" / "scramotp" / "src" / "main.rt"
    source.parent.mkdir(parents=True)
    source.touch()
    for name in ["Makefile", "crates.txt", "HANDLES"]:
        shutil.copy(TOP / name, top)
    path.mkdir()
    for name in NEEDED:
        (path / name).symlink_to(shutil.which(name))
    os.utime(shutil.copy(PROGRAM, old), (0, 0))
    status, output, faults = made("run", old, top, path)
    equal((status, output), (2, ""), "without rt", faults)
    holds("rt, the command of the Rattle kit, is not on your PATH" in faults.splitlines(), "it does not say that rt is missing", faults)
    (path / "rt").symlink_to(shutil.which("true"))
    stand_in, asked = path / "python3", pathlib.Path(folder, "asked")
    copies = f'{shutil.which("mkdir")} -p out/unproved && {shutil.which("cp")} {PROGRAM} "$3"'
    for trial, (program, last, answer) in each([
        (f"{folder}/none", copies, (0, KEYS_OF_PENCIL, NOTHING_PROVED)),
        (old, copies, (0, KEYS_OF_PENCIL, NOTHING_PROVED)),
        (old, "echo it is wrong >&2; exit 3", None),
    ]):
        with trial:
            asked.unlink(missing_ok=True)
            script(stand_in, f'echo "$PWD: $*" >{asked}\n{last}')
            status, output, faults = done = made("run", program, top, path)
            due = f"{os.path.realpath(top)}: tests/unproved.py scramotp out/unproved/scramotp\n"
            equal(asked.read_text(), due, "where Python runs, and its words")
            if answer is None:
                equal((status, output), (2, ""), "a compilation that fails", faults)
                holds(faults.startswith(f"{NOTHING_PROVED}it is wrong\n"), "the fault is not shown", faults)
            else:
                equal(done, answer, "what make run prints")


suite.run_all()
