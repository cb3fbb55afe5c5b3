#!/usr/bin/env python3
"""Books that can't be saved, at each save of a run of the built program: sometimes the old text stays, sometimes the new one takes its
place.

The run halts there: it prints no reply that is not saved. Another run, which goes on from the saved book, is sent the same codes, and no
code passes again that has passed. Each log is audited by the book that it began with. Needs `cc`.
"""
import itertools
import os
import pathlib
import re
from collections.abc import Iterator

import shims
import suite
from checks import equal
from command_table import BOOK, LIMIT_100, Command, audited, book_of, commands, left, new_book, prepare, run
from expected import ACCEPTED, GONE, numbered
from processes import Answer
from suite import CODES, each, token, within

# For the token of BOOK (RFC 4226, appendix D), a single code may be up to three counters ahead, and the first of two in a row has to be
# the next one.
AHEAD = 3
# What is sent: codes, and lines with two in a row.
SENT = [
    [CODES[0], CODES[1], CODES[2]],
    [f"SYNC {CODES[0]} {CODES[1]}", CODES[2], f"SYNC {CODES[3]} {CODES[4]}"],
    ["000000", CODES[1], f"SYNC {CODES[2]} {CODES[3]}"],
]
COUNTERS = {text: counter for counter, text in enumerate(CODES)}


def replied(next_counter: int, line: str) -> list[int]:
    """The counters that a line uses if it passes when this counter is the next; else none (RFC 4226, sections 7.2 and 7.4)."""
    texts = line.removeprefix("SYNC ").split()
    first, *second = (COUNTERS.get(text, -1) for text in texts)
    if second:
        return [first, *second] if first == next_counter else []
    return [first] if next_counter <= first <= next_counter + AHEAD else []


def exchanged(next_counter: int, lines: list[str]) -> Iterator[tuple[str, list[int], int]]:
    """The replies to these lines, the counters that each uses, and the next counter after each."""
    for line in lines:
        used = replied(next_counter, line)
        next_counter = used[-1] + 1 if used else next_counter
        yield f"PASS 5 {used[-1]}" if used else "FAIL 5", used, next_counter


def passed(lines: list[str], output: str) -> list[int]:
    """The counters that pass in a run that was sent these lines: the last of each pass from its reply, and whether it was one code or two
    from the line."""
    replies = re.findall(r"^(?:1 )?(?:S )?(?:FAIL 5|PASS 5 (\d+))$", output, re.M)
    both = [(line.startswith("SYNC"), int(last)) for line, last in zip(lines, replies) if last]
    return [counter for is_pair, last in both for counter in ([last - 1, last] if is_pair else [last])]


def printed(name: str, lines: list[str], replies: list[str], is_halted: bool) -> str:
    """What a run prints for lines with these replies. If it halted, it did so at the line after them."""
    if name == "verify":
        return "".join(f"{reply}\n" for reply in replies)
    words = [line if line.startswith("SYNC") else f"CODE {line}" for line in lines]
    log = ACCEPTED + "".join(f"C {word}\nS {reply}\n" for word, reply in zip(words, replies))
    log += f"C {words[len(replies)]}\nS HALT\n" if is_halted else GONE
    return numbered(log) if name == "hall" else log


def sent(command: Command, lines: list[str]) -> Command:
    """The command with these lines instead of its codes."""
    if command.name == "hall":
        codes = "".join(f"line 1 5 {line if line.startswith('SYNC') else f'CODE {line}'}\n" for line in lines)
        return command._replace(text=command.text.replace("gone", f"{codes}gone"))
    return command._replace(text=command.text + "".join(f"{line}\n" for line in lines))


class Saves:
    """A folder with a book that can't be saved at a given save."""

    # The call that fails at a save; how; how many such calls each save makes; how many of these come after it; and whether the new text
    # is then in place.
    WAYS = [
        ("rename", "refused", 1, 0, False),
        ("fsync", "refused", 2, 1, False),
        ("rename", "late", 1, 0, True),
        ("fsync", "refused", 2, 0, True),
    ]

    def __init__(self, folder: str) -> None:
        self.folder = str(within(folder, "files"))
        self.shim = shims.built("refuse_io")
        self.book = pathlib.Path(self.folder, "book")

    def fails(self, command: Command, number: int, way: tuple) -> Answer:
        """Runs a command whose save with this number fails, and returns its answer."""
        call, how, calls, before, _ = way
        more = {"LD_PRELOAD": self.shim, "CALLS": call, "REFUSED": str(number * calls - before), "HOW": how}
        return run(command, self.folder, env={**os.environ, **more})

    def unsaved(self, output: str) -> tuple[int, str, str]:
        return 3, output, f"scramotp: cannot write {self.book}\n"


def twice(here: Saves, command: Command, lines: list[str], number: int, way: tuple) -> None:
    """Makes a run whose save fails, and then a run that is sent the same lines: no counter passes in both."""
    first_save = 0 if command.name == "verify" else 1
    prepare(here.folder, command)
    here.book.write_text(LIMIT_100)
    opening, done = here.book.read_text(), number - first_save - 1
    turns = [*exchanged(0, lines)]
    log = printed(command.name, lines, [reply for reply, _, _ in turns[:done]], True)
    what = f"{command.name}, save {number} fails by {way}"
    answer = here.fails(sent(command, lines), number, way)
    equal(answer, here.unsaved(log), what, lines)
    kept = done + way[-1]
    after = turns[kept - 1][2] if kept else 0
    saved = here.book.read_text()
    equal(token(here.book)["next"], after, what, "the next counter", saved)
    equal(left(here.folder), set(), what, "the files that are left", saved)
    again = [*exchanged(after, lines)]
    more = printed(command.name, lines, [reply for reply, _, _ in again], False)
    status = 0 if command.name == "hall" or all(used for _, used, _ in again) else 1
    later = run(sent(command, lines), here.folder)
    equal(later, (status, more, ""), what, "the run after it", lines)
    spent = [*passed(lines, answer.output), *passed(lines, later.output)]
    equal(sorted(spent), sorted(set(spent)), what, "a counter passes twice", answer.output, later.output)
    if first_save:
        audited(here.folder, opening, answer.output)
        audited(here.folder, saved, later.output)


def codes_of_two_runs(folder: str) -> None:
    """Whichever save of a code fails, no counter passes in that run and again in the next."""
    here = Saves(folder)
    taking_codes = [command for command in commands(0) if command.name in ("verify", "login", "hall")]
    for trial, (command, lines, code, way) in each(itertools.product(taking_codes, SENT, range(3), Saves.WAYS)):
        with trial:
            first = 1 if command.name == "verify" else 2
            twice(here, command, lines, first + code, way)


def first_saves(folder: str) -> None:
    """If the first save fails, nothing is printed, and the book has the old text or the new one."""
    here = Saves(folder)
    saving = [command for command in commands() if len(command.books) > 1]
    new = [(new_book(), (call, how, 1, 0, how == "late")) for call, how in [("link", "refused"), ("fsync", "refused"), ("link", "late")]]
    for trial, (command, way) in each([*itertools.product(saving, Saves.WAYS), *new]):
        with trial:
            prepare(here.folder, command)
            equal(here.fails(command, 1, way), here.unsaved(""), command.name, way)
            equal(book_of(here.folder), command.books[way[-1]], command.name, way, "the book")
            equal(left(here.folder), set(), command.name, way, "the files that are left")
            if command in saving and not way[-1]:
                equal(here.book.read_text(), BOOK, "the old text", way)


suite.run_all()
