#!/usr/bin/env python3
"""Compares the processor time of logins in a hall, 64 at a time, with that of logins at a desk, one after another; times logins that the
command `hall` judges; and measures the memory of a hall whose sessions come and go.

Usage: hall.py PROGRAM BENCH

BENCH is the built crate bench. It makes the same calls of a desk and of a hall in memory, for the login of RFC 7677's example; the times
are the best of several turns, without the start. `hall` gets such logins as lines, 64 at a time, all of them at once; its time is wall
time, and its log is read from a pipe. Memory is measured in bench, with logins, and in `hall`, where 63 sessions stay open while others
begin and end.
"""
import os
import pathlib
import subprocess
import sys
import tempfile
import time
from collections.abc import Callable
from typing import IO

from serve import LOGGED, book
from expected import AUDITS, SHA256_NONCES
from timed import TURNS, best, check, processor

# Each of these is a multiple of 64.
LOGINS = 200_000
FEW, MANY = 6_400, 1_000_000
# How many sessions, and a multiple of 64 logins, fit into an input of 16777216 bytes.
SESSIONS = 700_000
LOGINS_AS_LINES = 48_000
STAYING = 63
LINES = 7  # of each login in a log


def logged(count: int) -> int:
    """How many bytes a log has for `count` logins. Each line of a login has its session's number and a space."""
    return count * LOGGED + sum(LINES * (len(str(number)) + 1) for number in range(1, count + 1))


def serves(count: int, size: int) -> Callable[[str], bool]:
    """Returns a check that a run of bench says that it has served `count` logins, with `size` bytes of log."""
    return lambda printed: printed.startswith(f"served {count} logged {size} sent ")


def seconds(bench: str, kind: str, count: int, size: int, path: str) -> float:
    """The processor time of a run that serves `count` logins, with `size` bytes of log."""
    return processor([bench, kind, str(count), path], serves(count, size))


def rate(bench: str, kind: str, size: int, path: str) -> float:
    """The logins per second."""
    none = min(seconds(bench, kind, 0, 0, path) for _ in range(TURNS))
    all_of_them = min(seconds(bench, kind, LOGINS, size, path) for _ in range(TURNS))
    return LOGINS / (all_of_them - none)


def logins_as_lines(count: int) -> str:
    """Input for `hall`: logins of RFC 7677's example, 64 at a time, each of which sends a line in turn."""
    recorded = (AUDITS / "sha256.log").read_text().splitlines()
    sent = [line.removeprefix("C ") for line in recorded if line.startswith(("C AUTH ", "C RESP "))]
    nonce = SHA256_NONCES[SHA256_NONCES.index("--server-nonce") + 1]
    events = []
    for first in range(1, count + 1, 64):
        numbers = range(first, first + 64)
        events += [f"open {nonce}\n" for _ in numbers]
        events += [f"line {number} 5 {text}\n" for text in sent for number in numbers]
        events += [f"gone {number} 5\n" for number in numbers]
    return "".join(events)


def rate_of_program(program: str, path: str) -> float:
    """The logins per second of `hall` that are given as lines, all at once."""
    def seconds_of(count: int) -> float:
        return best([program, "hall", "--book", path], lambda log: log.count(" S OK ") == count, logins_as_lines(count))
    return LOGINS_AS_LINES / (seconds_of(LOGINS_AS_LINES) - seconds_of(0))


def peak(words: list, is_due: Callable[[str], bool], given: IO[bytes] | None = None) -> int:
    """The peak memory in KiB of a run, looked up until it ends."""
    most = 0
    with tempfile.TemporaryFile("w+") as output:
        child = subprocess.Popen(words, stdin=given, stdout=output)
        while child.poll() is None:
            status = pathlib.Path(f"/proc/{child.pid}/status").read_text()
            most = max(most, *[int(line.split()[1]) for line in status.splitlines() if line.startswith("VmHWM:")], 0)
            time.sleep(0.01)
        output.seek(0)
        check(words, child.returncode, output.read(), "", is_due)
    return most


def of_program(program: str, path: str, given: str, count: int) -> int:
    """The peak memory in KiB of a `hall` in which 63 sessions begin and stay, and `count` others begin and end, one after another."""
    with open(given, "w+b") as events:
        events.write(b"open z\n" * STAYING)
        events.writelines(b"open z\ngone %d 0\n" % number for number in range(STAYING + 1, STAYING + 1 + count))
        events.seek(0)
        return peak([program, "hall", "--book", path], lambda printed: printed.count(" S MECHS ") == STAYING + count, events)


def main() -> None:
    program, bench = sys.argv[1:]
    with tempfile.TemporaryDirectory() as folder:
        path, given = (os.path.join(folder, name) for name in ["book", "events"])
        pathlib.Path(path).write_text(book(1))
        alone = rate(bench, "alone", LOGINS * LOGGED, path)
        together = rate(bench, "together", logged(LOGINS), path)
        print(f"logins a second: {alone:,.0f} at a desk, {together:,.0f} in a hall with 64 open, ratio {together / alone:.2f}")
        print(f"logins a second: {rate_of_program(program, path):,.0f} by `hall`, given as lines, 64 at a time")
        few, many = (peak([bench, "together", str(count), path], serves(count, logged(count))) for count in (FEW, MANY))
        print(f"peak memory of a hall: {few} KiB for {FEW} logins, {many} KiB for {MANY}, ratio {many / few:.3f}")
        few, many = (of_program(program, path, given, count) for count in (FEW, SESSIONS))
        print(f"peak memory of `hall`: {few} KiB for {FEW} sessions, {many} KiB for {SESSIONS}, ratio {many / few:.3f}")


if __name__ == "__main__":
    main()
