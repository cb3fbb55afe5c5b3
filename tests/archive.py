#!/usr/bin/env python3
"""Makes the library for C over the libraries that `rt ci` left in crates/NAME/out/. `rt lib` would prove each of these again.

Usage: archive.py

The crate c_library itself is proved once more, beginning with what was last proved of it. The archive is where `rt lib` leaves it.
"""
import subprocess
import sys
import tempfile
from pathlib import Path

from proved import begin
from rattle import TOP, kit, over_built, read_uses

CRATE = "c_library"
FOLDER = TOP / "crates" / CRATE
ARCHIVE = FOLDER / "out" / f"lib{CRATE}.a"


def main() -> int:
    """Makes the archive, prints what was said if it can't, and returns the exit status."""
    ARCHIVE.parent.mkdir(exist_ok=True)
    ARCHIVE.unlink(missing_ok=True)
    with tempfile.TemporaryDirectory(prefix="archive-") as room:
        begin(CRATE, Path(room, "kept"))
        words = ["--crate-name", CRATE, "src/lib.rt", "--crate-type", "staticlib", "--links", f"{CRATE}=", "--incremental", f"{room}/kept"]
        words += [*over_built(CRATE, read_uses(TOP / "crates.txt"), TOP), "--toolchain", f"{kit()}/toolchain", "--backend", "llvm"]
        made = [f"{kit()}/bin/rattle", "build", *words, "-o", ARCHIVE]
        ran = subprocess.run(made, cwd=FOLDER, stdin=subprocess.DEVNULL, stdout=subprocess.PIPE, stderr=subprocess.STDOUT, text=True)
    last = ran.stdout.rstrip().split("\n")
    print("\n".join(last if ran.returncode else last[-1:]))
    return ran.returncode


if __name__ == "__main__":
    sys.exit(main())
