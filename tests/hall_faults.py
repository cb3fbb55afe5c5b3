#!/usr/bin/env python3
"""How halls of the built program end early: what they have printed by then, the fault, the status, and what is saved."""
import resource
import socket
import time
from typing import Any

import clients
import suite
from checks import equal, holds
from clients import Account, book, dealt, gone, logged_in, opened, said
from hall_support import HOTP_BOOK, Hall, clean, login
from processes import Running, ran, whole
from suite import each, fault_text, verify_words

# Input lines that state no event when sessions 2 and 3 are open, session 1 has ended and no other has begun.
NO_EVENTS = [
    *[b"", b" ", b"close 2 5", b"Open zz", b"OPEN zz", b" open zz", b"\topen zz", b"opened zz", b"lines 2 5 ABORT", b"go 2 5"],
    *[b"open", b"open ", b"open  zz", b"open z z", b"open zz ", b"open z,z", b"open zz\r", b"open z\x7f", b"open \xc3\xa9"],
    *[b"open z\0", b"open " + b"z" * 257, b"open " + b"z" * 100_000],
    *[b"line", b"line ", b"line 2", b"line 2 ", b"line 2 5", b"line  2 5 ABORT", b"line 2  5 ABORT", b"line\t2 5 ABORT"],
    *[b"line 2 ABORT", b"gone", b"gone ", b"gone 2", b"gone 2 ", b"gone  2 5", b"gone 2  5", b"gone 2 5 ", b"gone 2 5\r"],
    *[b"gone 2 5 5", b"gone  5"],
]
NO_NUMBERS = [b"0", b"02", b"+2", b"-2", b"2.0", b"0x2", b"two", b"1", b"4", b"9223372036854775806", b"9223372036854775807"]
NO_NUMBERS += [b"18446744073709551618", b"340282366920938463463374607431768211458", b"2" * 7000]
NO_MOMENTS = [b"05", b"00", b"+5", b"-5", b"5.0", b"5s", b"now", b"0x5", b"253402300800", b"18446744073709551621", b"5" * 7000]


def let_in() -> tuple[str, str]:
    """The input and the log of a session that is let in and sends a code, and of two that begin."""
    visits = [login() + [said("CODE 755224", "S PASS 5 0"), gone()], [opened("aa")], [opened("bb")]]
    return dealt([0, 0, 0, 0, 0, 1, 2], visits)


def bad_events(folder: str) -> None:
    """A line that states no event ends the hall there: the log so far is printed, the book is saved as the log says, and no
    later line is heard."""
    here = Hall(folder)
    text, log = let_in()
    lines = [*NO_EVENTS]
    lines += [line for number in NO_NUMBERS for line in [b"line " + number + b" 5 ABORT", b"gone " + number + b" 5"]]
    lines += [line for moment in NO_MOMENTS for line in [b"line 2 " + moment + b" ABORT", b"gone 2 " + moment]]
    ends = [b"\nopen cc\ngone 2 5\n", b"\n", b""]
    for trial, (line, end) in each((line, end) for line in lines for end in ends if line + end):
        with trial:
            here.put(HOTP_BOOK)
            here.logs(text.encode() + line + end, 1, log, "bad event")
            here.token_has(line, next=1)
    here.audited(log, f"line {log.count(chr(10)) + 1}: cut")
    here.logs(b"\n", 1, clients.FIRST_LINE, "bad event")


def full_device(running: Running, _: Any) -> None:
    """Keeps a run from writing another byte to a file. Pipes are not files."""
    resource.prlimit(running.process.pid, resource.RLIMIT_FSIZE, (0, 0))


def taken_name(_: Any, here: Hall) -> None:
    """Makes a folder at the path where the book's next text is written."""
    here.next_text.mkdir()


def failed_saves(folder: str) -> None:
    """If the book can't be saved, the hall halts: its last line is sent to the client whose code it was, and nothing to anyone else."""
    anne, bob = Account("anne", "SCRAM-SHA-256"), Account("bob", "SCRAM-SHA-1")
    here = Hall(folder, book([anne, bob]))
    visits = [logged_in(anne, "abc", "def"), logged_in(bob, "uvw", "xyz"), [opened("zz")]]
    text, log = dealt([0, 1, 2, 0, 1, 1, 0], visits)
    for trial, block in each([full_device, taken_name]):
        with trial:
            here.put(book([anne, bob]))
            running = here.start(restore_signals=False)
            running.prints(log, text)
            kept, halted = here.book.read_bytes(), f"2 C CODE {bob.code(0)}\n2 S HALT\n"
            block(running, here)
            lines = f"line 2 5 CODE {bob.code(0)}\nline 1 5 CODE {anne.code(0)}\ngone 3 5\nno event\n"
            running.ends(3, halted, f"scramotp: cannot write {here.book}\n", lines)
            equal(here.book.read_bytes(), kept, "the book after", block.__name__)
            here.audited(log + halted, clean(3, 2))


def books_that_are_none(folder: str) -> None:
    """The book is read before any input is judged."""
    here = Hall(folder)
    for trial, text in each(["", "no event\n", let_in()[0]]):
        with trial:
            here.put("format = 2\n")
            here.refuses(text, 1, "bad book: 61")
            here.put(HOTP_BOOK.replace("digits = 6", "digits = 9"))
            here.refuses(text, 1, "bad book: 67")
            here.book.unlink()
            here.refuses(text, 3, f"cannot read {here.book}")
            holds(not here.book.exists(), "there is a book")


def held_books(folder: str) -> None:
    """A hall holds its book until its input ends. Another run that needs the book waits, and finds the code spent."""
    here = Hall(folder)
    text, log = let_in()
    running = here.start()
    running.prints(log, text)
    waiting = whole(verify_words(here.book), "755224\n")
    waiting.waits()
    time.sleep(0.5)
    waiting.goes_on()
    running.ends(0, "2 C GONE\n2 E\n", text="gone 2 5\n")
    waiting.ends(1, "FAIL 5\n")


def outputs_that_fail(folder: str) -> None:
    """If a line can't be printed, the hall ends: no code is judged that the log does not have."""
    here = Hall(folder)
    running = here.start()
    running.prints(clients.FIRST_LINE)
    running.process.stdout.close()
    running.process.stdout = None
    running.ends(3, "", "scramotp: cannot write output\n", let_in()[0])
    here.token_has(next=0)


def inputs_that_fail(folder: str) -> None:
    """If the input can't be read on, each event before that has been heard."""
    here = Hall(folder)
    text, log = let_in()
    ours, input_of_hall = socket.socketpair()
    # Once all is read, reading fails: our end is closed with a byte that was not read from it.
    input_of_hall.send(b"x")
    ours.sendall(text.encode())
    ours.close()
    with input_of_hall:
        equal(ran(here.words, stdin=input_of_hall), (3, log, fault_text("cannot read input")), "a hall whose input fails")
    here.token_has(next=1)


suite.run_all()
