#!/usr/bin/env python3
"""Makes each system call of each command of the built program go wrong in turn, one in each run.

A call that fails, whether or not it was made, leaves the book whole, with each change that was reported and at most one more. The output
is the beginning of what is due, or the log of a desk that halted. The fault is that of FAULTS, reported with status 3, except that of a
call that NOT_TOLD names, which loses nothing. What the program takes from the C library can all go wrong here or in refused_memory.py, or
is listed as harmless. Needs `cc` and `nm`.
"""
import os
from collections.abc import Iterator

import shims
import suite
from checks import equal, holds
from command_table import Command, book_of, commands, is_done, is_front, is_kept, left, new_book, printed_begins_clean
from processes import Answer
from suite import PROGRAM, each, fault_text
from wrong_calls import MOVES, OTHERS, SOCKETS, Call, Turns

# What else the program may take from the C library. None of it can fail in a way that a command would have to report.
HARMLESS = {
    # The beginning and the end of a program
    "_ITM_deregisterTMCloneTable", "_ITM_registerTMCloneTable", "__cxa_finalize", "__gmon_start__", "__libc_start_main", "abort", "exit",
    # What can't fail: with bytes in memory, with variables, with what the process is
    "memcpy", "memmove", "memset", "memcmp", "bcmp", "strlen", "free", "__errno_location", "environ", "getenv", "geteuid",
    # What the processor can do
    "__x86_get_cpuid_feature_leaf",
    # That a broken pipe sends no signal, which fails only for a number that is no signal
    "signal", "__sysv_signal",
    # A file is closed after its last sync. A stream that can't be asked is no terminal. A wait can only end early.
    "close", "isatty", "nanosleep",
}
# The calls that note_files.c does not note: they change no byte, length or name of a plain file, make none durable, and tell nobody
# anything.
NOT_NOTED = {"read", "recv", "flock", "fchmod", "fchown", "lseek", "realpath", "statx", "ioctl", "clock_gettime", "malloc", "realloc"}
NOT_NOTED |= {*SOCKETS.split(",")}
# The calls whose failure is not told, by their command or as those of any, and by their file; and why: the command does all its work
# without them.
NOT_TOLD = {
    ("any", "lseek", "input"): "only what reads standard input after the command would find it at another place",
    ("login", "recv", "socket"): "its client has left by the last read, and a read that fails ends the login as the end of its lines does",
    ("login", "statx", "socket"): "login can't tell whether its socket still has its name, and removes what has it",
    ("login", "unlink", "socket"): "the socket is left, and the next login at its path says so",
    ("new book", "statx", "book"): "enrol can't tell whether the new book's path is a link to nothing, at which no book can be made anyway",
}
# The fault of a refused call, by its file, as docs/FORMATS.md has them; {} is the folder. That of a log which was
# opened, and those of the book, are told by `due`.
FAULTS = {
    "input": "cannot read input",
    "output": "cannot write output",
    "random": "cannot read {}/random",
    "log": "cannot read {}/log",
    "socket": "socket fault",
}
# What a command uses to read and to save the book: its file, the file of the next text, their folder, and the clock, by which it waits for
# other runs.
OF_THE_BOOK = {"book", "book.new", ".", "clock"}


def saves(before: list[Call], call: Call) -> bool:
    """Whether a call of a run, after these, is of a save, and not of holding and reading the book. A run that has looked for the book's
    real path begins to hold it. It goes to the start of the text to read it, and saves after that; or there is no book, and it makes the
    file of the first text, looks for the book again, and writes that file."""
    begins = [at for at, it in enumerate([*before, call]) if it == ("realpath", "book")]
    since = before[begins[-1]:] if begins else []
    if call.file == "book.new" and (call.name == "open" or ("open", "book.new") in since):
        return True
    return ("lseek", "book") in since and call != ("read", "book") or ("fsync", "book.new") in since


def due(folder: str, before: list[Call], call: Call) -> str:
    """The fault of a command whose call, after these, is refused, without its prefix."""
    if call == ("read", "log"):
        return "read fault"
    if call.file in OF_THE_BOOK:
        return f"cannot {'write' if saves(before, call) else 'read'} {folder}/book"
    return FAULTS[call.file].format(folder)


def harmless(here: Turns, command: Command, how: str) -> list[int]:
    """A command does its work, whichever of its reads and writes goes wrong in this way. Returns how many each of the runs made."""
    made = []
    for trial, (what, _, answer) in each(here.turns(command, MOVES, how)):
        with trial:
            equal(answer, (0, command.printed, ""), what)
            holds(is_done(here.folder, command), what, "the command has not saved all", book_of(here.folder), left(here.folder))
            made.append(here.calls)
    return made


def all_harmless(folder: str, how: str) -> None:
    """Each command does its work, whichever of its reads and writes goes wrong in this way. After most of them it makes one more."""
    here, count, again = Turns(folder), 0, 0
    for trial, command in each([*commands(), new_book()]):
        with trial:
            made = harmless(here, command, how)
            count += len(made)
            again += sum(calls > here.calls for calls in made)
    holds(2 * again > count, "at most half of the reads and writes are made again", how, again, count)


def every_call_is_known(folder: str) -> None:
    """The program takes nothing from the C library that neither this script nor refused_memory.py lets fail, except what is harmless; and
    nothing by which it could change a file or tell something that note_files.c does not note for power_loss.py."""
    shims_of_tests = [shims.built(name) for name in ("refuse_io", "refuse_memory")]
    refused = set().union(*map(shims.wrapped, shims_of_tests))
    # coverage.py gives the scripts a program that becomes the one it measures.
    taken = shims.imported(os.environ.get("MEASURED") or PROGRAM)
    holds({"malloc", "read", "rename"} <= taken, "nm does not list what the program takes", taken)
    equal(taken - refused - HARMLESS, set(), "what no test lets fail")
    named = {*f"{MOVES},{OTHERS}".split(","), "__write", "malloc", "realloc"}
    equal(refused, named, "what the C files let fail, and what the tests name")
    noted = shims.wrapped(shims.built("note_files"))
    equal(refused - noted - NOT_NOTED, set(), "what note_files.c does not note")
    equal(noted - (refused - NOT_NOTED), set(), "what note_files.c notes, and no test lets fail")


def reads_and_writes_that_are_interrupted(folder: str) -> None:
    """A read or a write that is interrupted is made again."""
    all_harmless(folder, "interrupted")


def reads_and_writes_that_move_one_byte(folder: str) -> None:
    """What a short read or write leaves is read or written next."""
    all_harmless(folder, "short")


def is_told(command: Command, answer: Answer, fault: str) -> bool:
    """Whether a run that did not do all its work reports this fault, after what it could print. `audit` prints that of a read of the log,
    `report` prints it after rows, and `upgrade` reports it without the prefix."""
    if fault == "read fault" and command.name == "report":
        rows = answer.output.removesuffix(f"{fault}\n")
        return (answer.status, answer.faults) == (3, "") and rows != answer.output and is_front(command, rows)
    if fault == "read fault":
        return answer == {"audit": (3, f"{fault}\n", ""), "upgrade": (3, "", f"{fault}\n")}[command.name]
    return answer.status == 3 and answer.faults == fault_text(fault) and is_front(command, answer.output)


def may_be_left(how: str, name: str) -> set[str]:
    """What a run may leave if this call failed: what it could not remove, or what was made by a call that was then reported as failed."""
    if how != "late":
        return {"book.new", "socket"} if name == "unlink" else set()
    return {"open": {"book.new"}, "openat": {"book.new"}}.get(name, set())


def failures(here: Turns, command: Command, how: str, calls: str) -> Iterator[tuple[str, str, str] | None]:
    """Lets each of these calls of a command fail, and yields None for each failure that is told, and for others their key in NOT_TOLD."""
    for trial, (what, call, answer) in each(here.turns(command, calls, how)):
        with trial:
            name, is_log = call.name, command.name in ("login", "hall")
            kind = "new book" if command.books[0] is None else command.name
            untold = ("any" if ("any", name, call.file) in NOT_TOLD else kind, name, call.file)
            if answer == (0, command.printed, ""):
                holds(untold in NOT_TOLD or how == "interrupted", what, "it ended well, but NOT_TOLD does not have this call")
            else:
                fault = due(here.folder, here.before, call)
                holds(is_told(command, answer, fault), what, "it neither ended well nor reported its fault, after what was due", fault)
                untold = None
            printed, book = answer.output, book_of(here.folder)
            holds(is_kept(here.folder, command, printed), what, "the book is not whole, or lacks what was reported", book)
            holds(left(here.folder) <= may_be_left(how, name), what, "files are left", left(here.folder))
            holds(not is_log or printed_begins_clean(here.folder, printed), what, "a line of the log is at fault")
            yield untold


def all_told(folder: str, how: str, calls: str) -> None:
    """Whichever of these calls fails, that is told, unless NOT_TOLD has the call. The book is whole and has what was reported before. Each
    of these calls that NOT_TOLD has is made, and its failure is not told."""
    here, names = Turns(folder), []
    for trial, command in each([*commands(), new_book()]):
        with trial:
            names += failures(here, command, how, calls)
    told = names.count(None)
    untold = {it for it in NOT_TOLD if it[1] in calls.split(",")}
    equal(untold - {*names}, set(), "calls of NOT_TOLD that no command makes, or whose failures are all told")
    holds(2 * told > len(names), "at most half of the calls are told", told, len(names))


def calls_that_are_refused(folder: str) -> None:
    """Each call fails without being made."""
    all_told(folder, "refused", f"{MOVES},{OTHERS}")


def calls_that_are_late(folder: str) -> None:
    """Each call is made, and then reported as failed, except reads and writes, which do nothing if they fail."""
    all_told(folder, "late", OTHERS)


def other_calls_that_are_interrupted(folder: str) -> None:
    """Any other call that is interrupted is made again, or is told as one that failed, unless NOT_TOLD has it. The book is whole."""
    here = Turns(folder)
    for trial, command in each([*commands(), new_book()]):
        with trial:
            runs = [(untold, here.calls) for untold in failures(here, command, "interrupted", OTHERS)]
            for untold, calls in runs:
                is_again = calls > here.calls
                holds(untold is None or untold in NOT_TOLD or is_again, untold, "it is neither made again nor told")


suite.run_all()
