#!/usr/bin/env python3
"""Runs a command, and appends what it took to a file: lines of a name, seconds of wall time and seconds of processor time.

Usage: timed.py [--crates] FILE NAME WORD ..

With --crates a line follows for each crate that the command checked, `NAME of CRATE`. It is made of the processes of this session that
have the word --crate-name, each of which is looked at twice a second. The status is the command's, or 128 and the number of the signal that
ended it.
"""
import os
import resource
import subprocess
import sys
import time
from collections import defaultdict
from pathlib import Path

TICKS = os.sysconf("SC_CLK_TCK")
PAUSE = 0.5


def crate_of(process: Path) -> str | None:
    """The crate that a process checks, if it does."""
    words = (process / "cmdline").read_bytes().decode(errors="replace").split("\0")
    return words[words.index("--crate-name") + 1] if "--crate-name" in words else None


def session_of(process: Path) -> tuple[int, float]:
    """A process's session, and its seconds of processor time."""
    fields = (process / "stat").read_text().rpartition(")")[2].split()
    return int(fields[3]), (int(fields[11]) + int(fields[12])) / TICKS


class Crates:
    """When each crate was checked, and how long each process that did has worked."""

    def __init__(self) -> None:
        self.seen: dict[str, list[float]] = defaultdict(list)
        self.used: dict[tuple[str, str], float] = {}

    def look(self) -> None:
        """Looks at the processes of this one's session."""
        own = os.getsid(0)
        for process in Path("/proc").glob("[0-9]*"):
            try:
                session, used = session_of(process)
                if session == own and (crate := crate_of(process)):
                    self.seen[crate].append(time.monotonic())
                    self.used[crate, process.name] = used
            except OSError:
                continue

    def lines(self, name: str) -> list[str]:
        """A line for each crate."""
        used = {crate: sum(it for (of, _), it in self.used.items() if of == crate) for crate in self.seen}
        return [f"{name} of {it},{at[-1] - at[0]:.1f},{used[it]:.1f}\n" for it, at in self.seen.items()]


def main() -> int:
    is_by_crate = sys.argv[1] == "--crates"
    to, name, *words = sys.argv[1 + is_by_crate:]
    began, crates = time.monotonic(), Crates()
    with subprocess.Popen(words) as run:
        while True:
            try:
                status = run.wait(PAUSE)
                break
            except subprocess.TimeoutExpired:
                if is_by_crate:
                    crates.look()
    used = resource.getrusage(resource.RUSAGE_CHILDREN)
    with open(to, "a", encoding="utf-8") as file:
        file.write(f"{name},{time.monotonic() - began:.1f},{used.ru_utime + used.ru_stime:.1f}\n")
        file.writelines(crates.lines(name))
    return status if status >= 0 else 128 - status


if __name__ == "__main__":
    sys.exit(main())
