#!/usr/bin/env python3
"""Refuses each request for memory of each command in turn: in one run it alone, in another also all after it. `audit` and `upgrade`, with
logs of both versions, end with status 3 if a request that they need is refused; an audit of version 2 needs one more than an audit of
version 1. A report has printed whole rows by then. Every command ends with `no memory` if it can't end well, and the book is whole and has
what was reported before. Needs `cc`.
"""
import itertools
import os
import pathlib

import shims
import suite
from checks import equal, holds
from command_table import Command, book_of, commands, is_done, is_front, is_kept, left, new_book, prepare, printed_begins_clean
from expected import AUDITS, DATA
from processes import ran
from suite import PROGRAM, each, fault_text, within

# What a command reports if memory runs out, whatever it needed it for (docs/FORMATS.md).
FAULT = fault_text("no memory")


def run_refused(folder: str, words: list, refused: int, data: str = "", **lasting: str) -> tuple[int, str, str, int]:
    """The status, output and faults of a command with this input for which this request was refused, with all after it if `lasting` says
    so by a variable of the shim; and how many requests it made."""
    environment = {**os.environ, "LD_PRELOAD": shims.built("refuse_memory"), "REFUSED": str(refused), **lasting}
    status, output, said = ran(words, data, cwd=folder, env=environment)
    faults, requests = shims.requests(said, words, "request", refused, "status", status)
    return status, output, faults, requests


def each_is_told(folder: str, words: list, printed: str) -> int:
    """A command prints this, and only its fault if a request that it needs is refused. It needs more than half of its requests. Returns how
    many it needs."""
    *whole, requests = run_refused(folder, [PROGRAM, *words], 0)
    equal(whole, [0, printed, ""], words)
    needed = 0
    for trial, number in each(range(1, requests + 1)):
        with trial:
            *told, _ = run_refused(folder, [PROGRAM, *words], number)
            if told != whole:
                equal(told, [3, "", FAULT], words, number)
                needed += 1
    holds(2 * needed > requests, "at most half of the requests are needed", words, needed, requests)
    return needed


def audits_are_refused(folder: str) -> None:
    """Audits of a log of each version without sessions, and of one with two sessions, end well or with the fault. An audit of version 2
    needs one request more than one of version 1, however many sessions its log has."""
    words, needed = ["audit", "--book", AUDITS / "hotp.toml", "--log"], []
    for trial, text in each(["SCRAMLOG 1\n", "SCRAMLOG 2\n"]):
        with trial:
            pathlib.Path(folder, "log").write_text(text)
            needed.append(each_is_told(folder, [*words, "log"], "clean sessions=0 accepted=0 codes=0\n"))
    equal(needed[1], needed[0] + 1, needed)
    equal(each_is_told(folder, [*words, AUDITS / "interleaved.log"], "clean sessions=2 accepted=1 codes=1\n"), needed[1], needed)


def reports_are_refused(folder: str) -> None:
    """A report prints whole rows, and then the fault. Some requests are refused after the first row."""
    log = DATA / "reports" / "incident.log"
    words, rows = [PROGRAM, "report", "--book", log.with_suffix(".toml"), "--log", log], log.with_suffix(".rows").read_text()
    rows = rows.splitlines(True)
    *whole, requests = run_refused(folder, words, 0)
    equal(whole, [0, "".join(rows) + "clean sessions=23 accepted=5 codes=3\n", ""], "the report")
    printed = set()
    for trial, number in each(range(1, requests + 1)):
        with trial:
            *told, _ = run_refused(folder, words, number)
            if told != whole:
                printed.add(told[1].count("\n"))
                equal(told, [3, "".join(rows[:told[1].count("\n")]), FAULT], number)
    holds({0} < printed, "no request is refused after a row", printed)


def upgrades_are_refused(folder: str) -> None:
    """An upgrade prints the whole new log, or only the fault."""
    pathlib.Path(folder, "log").write_text("SCRAMLOG 1\nS BUSY\nE\nE\n")
    each_is_told(folder, ["upgrade", "--log", "log"], "SCRAMLOG 2\n1 S BUSY\n1 E\n2 E\n")


def requests_told(command: Command, here: str, lasting: dict[str, str]) -> tuple[int, int]:
    """Refuses each request of a command in turn, by itself or with all after it. Returns how many requests there are, and how many of
    them are told."""
    def refused(number: int) -> tuple[int, str, str, int]:
        prepare(here, command)
        return run_refused(here, command.in_folder(here), number, command.text, **lasting)

    *whole, requests = refused(0)
    equal(whole, [0, command.printed, ""], command.name)
    holds(is_done(here, command), "the command has not saved all", command.name, whole)
    told = 0
    for trial, number in each(range(1, requests + 1)):
        with trial:
            *answer, _ = refused(number)
            what = (command.name, number, *lasting, answer)
            holds(is_kept(here, command, answer[1]), what, "the book is not whole, or lacks what was reported", book_of(here))
            equal(left(here), set(), what, "the files that are left")
            holds(command.name not in ("login", "hall") or printed_begins_clean(here, answer[1]), what, "a line of the log is at fault")
            if answer != whole:
                equal((answer[0], answer[2]), (3, FAULT), what, "the status and the fault")
                holds(is_front(command, answer[1]), what, "its output is no beginning of", command.printed)
                told += 1
    return requests, told


def commands_are_refused(folder: str) -> None:
    """Whichever request of a command is refused, by itself or with all after it, it ends well, or with a fault after what it could print;
    what it reported is saved."""
    here, told, count = str(within(folder, "files")), 0, 0
    for trial, (command, lasting) in each(itertools.product([*commands(), new_book()], [{}, {"LASTING": "1"}])):
        with trial:
            requests, of_command = requests_told(command, here, lasting)
            count, told = count + requests, told + of_command
    holds(2 * told > count, "at most half of the requests are told", told, count)


suite.run_all()
