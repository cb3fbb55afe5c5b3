#!/usr/bin/env python3
"""Keeps on this machine what checks have proved of each crate. The next check of the crate begins with it, even if the crate has changed
since: it takes from there only what it finds by the checksum of what it would prove.

Usage: proved.py WORD ..

Runs a command that runs `rt ci`, and keeps what is proved there as the edits in must-fail/ are tried. rt does this in folders below
TMPDIR, which it removes in the end. The status is the command's, or 128 and the number of the signal that ended it.
"""
import os
import re
import shutil
import subprocess
import sys
import tempfile
import time
from pathlib import Path

# Seconds between two looks at the folders, and for how many a check has to have added nothing. The trial of an edit takes longer.
PAUSE = 0.5
QUIET = 5
# A file of what was proved, which has the crate's name.
MODULE = re.compile(r"Rattle-(\w+)-proofs")


def cache_home() -> Path:
    """The folder of what is kept on this machine."""
    return Path(os.environ.get("XDG_CACHE_HOME") or Path.home() / ".cache") / "scramotp"


def kept(crate: str) -> Path:
    """The folder of what was last proved of a crate."""
    return cache_home() / "proved" / crate


def linked(source: str, to: str) -> None:
    """Gives a file a second name, or copies it if that is on another file system. It is for files that nothing writes to."""
    try:
        os.link(source, to)
    except OSError:
        shutil.copyfile(source, to)


def copied(source: str, to: str) -> None:
    """Copies a file of what was proved. A check replaces a module, and changes none in its place, so a module may have a second name."""
    if source.endswith(".oantt"):
        linked(source, to)
    else:
        shutil.copy2(source, to)


def begin(crate: str, to: Path) -> None:
    """Makes a folder with what was last proved of a crate, if anything is kept."""
    try:
        shutil.copytree(kept(crate), to, copy_function=copied)
    except (OSError, shutil.Error):
        # nothing is kept, or another run has just replaced it
        shutil.rmtree(to, ignore_errors=True)


def keep(source: Path, crate: str) -> None:
    """Keeps this folder of what was proved of a crate, if the machine allows it."""
    to = kept(crate)
    try:
        to.parent.mkdir(parents=True, exist_ok=True)
        with tempfile.TemporaryDirectory(prefix="new-", dir=to.parent) as room:
            shutil.copytree(source, Path(room, "proved"), copy_function=copied)
            shutil.rmtree(to, ignore_errors=True)
            Path(room, "proved").rename(to)
    except (OSError, shutil.Error) as fault:
        print(f"what was proved of {crate} is not kept: {fault}", file=sys.stderr)


def keep_new(rooms: Path, done: dict[Path, float]) -> None:
    """Keeps what is proved in the folders of rt for trials of edits, but not what is kept already: `done` has when each of them had last
    changed. Kits differ in where it is: in the folder itself, or in `seed` there."""
    for place in [*rooms.glob("rt-edits-*/antt-checked-*"), *rooms.glob("rt-edits-*/seed/antt-checked-*")]:
        try:
            changed = place.stat().st_mtime
            names = [it[1] for file in place.iterdir() if (it := MODULE.match(file.name))]
        except FileNotFoundError:
            continue
        if names and changed + QUIET < time.time() and done.get(place) != changed:
            done[place] = changed
            keep(place.parent, names[0])


def main() -> int:
    done: dict[Path, float] = {}
    with tempfile.TemporaryDirectory(prefix="proved-") as rooms:
        with subprocess.Popen(sys.argv[1:], env={**os.environ, "TMPDIR": rooms}) as run:
            while True:
                try:
                    status = run.wait(PAUSE)
                    break
                except subprocess.TimeoutExpired:
                    keep_new(Path(rooms), done)
    return status if status >= 0 else 128 - status


if __name__ == "__main__":
    sys.exit(main())
