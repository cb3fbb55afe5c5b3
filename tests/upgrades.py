#!/usr/bin/env python3
"""Upgrades logs of version 1 with the built program, and audits the logs of version 2 that it prints."""
import pathlib
import re
import subprocess

import suite
from audit_cases import cases
from checks import equal, holds, shown
from expected import AUDITS, SESSION_LEFT, numbered
from processes import Answer, processor_time, ran
from suite import PROGRAM, audit_says, each

LOGIN = (AUDITS / "sha1.log").read_bytes()
# A run that takes some six to thirteen times as much processor time as an upgrade of 990000 lines, where that was measured.
KEYS = ["keys", "--mechanism", "SCRAM-SHA-1", "--salt", "00", "--count", "2000000"]


def run(words: list, log: bytes) -> Answer:
    """The answer of a command that is given this log."""
    return ran([PROGRAM, *words, "--log", "/dev/stdin"], log)


def can_be_upgraded(log: bytes, answer: str) -> bool:
    """Whether a log of the table is of version 1, ends with a whole line, and has only lines with a line's form. After its first line at
    fault, no log of the table has a line without a line's form, so the audit's answer in the table decides."""
    return log.startswith(b"SCRAMLOG 1\n") and log.endswith(b"\n") and not answer.endswith(": not a line")


def same_answers(folder: str) -> None:
    """The audit's answer to each log of the table is the same after an upgrade. Logs with a first line in the middle are not compared:
    an upgrade numbers that line."""
    upgraded = 0
    for trial, (book, log, answer, shows) in each(cases()):
        with trial:
            got = run(["upgrade"], log)
            if can_be_upgraded(log, answer):
                equal(got, (0, numbered(log.decode()), ""), shows)
                if b"\nSCRAMLOG" not in log:
                    audit_says(book, "/dev/stdin", answer, shows, text=got.output)
                    upgraded += 1
                continue
            equal((got.status, got.output), (1, ""), shows)
            found = re.fullmatch(r"line (\d+): (cut|not a line)\n", got.faults)
            holds(found, f"{shows}: the fault names no line", shown(got.faults))
            first = re.match(r"line (\d+): ", answer)
            if log.startswith(b"SCRAMLOG 1"):
                holds(first and int(first[1]) <= int(found[1]), f"{shows}: the line is before that of {answer!r}", got.faults)
            else:
                equal(int(found[1]), 1, f"{shows}: the line")
    holds(upgraded > 0, "no log of the table could be upgraded")


def faults(folder: str) -> None:
    """For a log that can't be upgraded, only the line at fault is printed."""
    for trial, (what, log, status, fault) in each([
        ("without the last LF", LOGIN[:-1], 1, "line 8: cut"),
        ("the empty log", b"", 1, "line 1: cut"),
        ("version 2", numbered(LOGIN.decode()).encode(), 1, "line 1: not a line"),
        ("a first line cut", b"SCRAMLOG 1", 1, "line 1: cut"),
        ("a line that is none", LOGIN.replace(b"C GONE", b"C GONE "), 1, "line 7: not a line"),
        ("6202 bytes", b"SCRAMLOG 1\n" + b"E" * 6202, 1, "line 2: cut"),
        ("6203 bytes", b"SCRAMLOG 1\n" + b"E" * 6203, 1, "line 2: not a line"),
        ("1000000 lines and a byte", b"SCRAMLOG 1\n" + b"E\n" * 999999 + b"S", 1, "too many lines"),
    ]):
        with trial:
            equal(run(["upgrade"], log), (status, "", f"{fault}\n"), what)
    upgrade, missing = [PROGRAM, "upgrade", "--log"], pathlib.Path(folder, "missing")
    equal(ran([*upgrade, folder]), (3, "", "read fault\n"), "a folder")
    equal(ran([*upgrade, missing]), (3, "", f"scramotp: cannot read {missing}\n"), "no log")


def time_of(words: list, data: str | bytes = b"") -> float:
    """The processor time of a run on this input, which ends well."""
    before = processor_time()
    equal(ran([PROGRAM, *words], data, stdout=subprocess.DEVNULL), (0, "", ""), words)
    return processor_time() - before


def long_logs(folder: str) -> None:
    """1000000 lines are upgraded. For 990000 lines, the processor time is less than that of `keys` with a count of 2000000."""
    log = b"SCRAMLOG 1\n" + SESSION_LEFT * 333333
    equal(run(["upgrade"], log), (0, numbered(log.decode()), ""), "1000000 lines")
    path = pathlib.Path(folder, "log")
    path.write_bytes(b"SCRAMLOG 1\n" + SESSION_LEFT * 330000)
    taken, limit = time_of(["upgrade", "--log", path]), time_of(KEYS, "pencil\n")
    holds(taken < limit, "990000 lines take as many seconds of processor time as those keys", taken, limit)


suite.run_all()
