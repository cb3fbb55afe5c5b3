#!/usr/bin/env python3
"""What a loss of power may leave of a book, at each moment of runs of the built program. No power is lost: the script works out, from the
calls that a run has made, what a device may have kept by the rules of power_model.py.

In each state that a loss may leave before the first call of a run or after any, the book is whole: it has each save that was reported by
then, and at most one more. The program goes on from there, saves what is due, and leaves no other file. Needs `cc`.
"""
import os
import pathlib
import re
from collections.abc import Callable, Iterable
from typing import Any, NamedTuple

import shims
import suite
from checks import equal, holds
from command_table import BOOK, LIMIT_100, Command, after_codes, book_of, command_of, left, new_book, parsed_book, prepare, run, with_token
from power_model import Folder, Note, cuts, read_notes
from suite import CODES, each, fault_text, within

# BOOK with a token that is locked.
LOCKED = BOOK.replace("failures = 2", "failures = 3")


class Loss(NamedTuple):
    """What a loss of power may leave of a run: the folder's files, and how many saves the run had reported by then."""

    files: frozenset
    saved: int

    @property
    def name(self) -> str:
        """What a failure says of it."""
        sizes = [f"{name} of {len(text)} bytes" for name, text in sorted(self.files) if name.startswith("book")]
        return f"saves reported: {self.saved}, left: {' and '.join(sizes) or 'no book'}"


class Losses:
    """Runs of commands in a folder, and what a loss of power may leave of each."""

    def __init__(self, folder: str) -> None:
        self.noted = pathlib.Path(folder, "noted")
        self.folder = str(within(folder, "files"))

    def notes_of(self, command: Command) -> list[Note]:
        """Runs a command that does all its work, and returns what it did to files and told."""
        self.noted.unlink(missing_ok=True)
        more = {"LD_PRELOAD": shims.built("note_files"), "NOTED": str(self.noted)}
        status = 1 if "FAIL" in command.printed else 0
        equal(run(command, self.folder, env={**os.environ, **more}), (status, command.printed, ""), command.name)
        return read_notes(self.noted)

    def of(self, command: Command, book: str = BOOK) -> list[Loss]:
        """All losses of a run with this book, unless the command makes one."""
        prepare(self.folder, command)
        if command.books[0] is not None:
            pathlib.Path(self.folder, "book").write_text(book)
        return self.of_next(command)

    def of_next(self, command: Command) -> list[Loss]:
        """All losses of a run that finds the folder as it is: before the run's first call, and after each."""
        device = Folder(self.folder)
        notes = self.notes_of(command)
        equal(book_of(self.folder), command.books[-1], command.name, "the book after the run")
        losses = dict.fromkeys(Loss(files, 0) for files in sorted(device.states(), key=sorted))
        for note in notes:
            device.take(note)
            saved = saves_told(command, *device.told)
            losses |= dict.fromkeys(Loss(files, saved) for files in sorted(device.states(), key=sorted))
        sent, printed = device.told
        equal(printed.decode(), command.printed, command.name, "what was noted as printed")
        due = command.printed.count(" PASS ") if command.name == "login" else 0
        equal(replies_in(sent), due, command.name, "how many replies were noted as sent")
        holds(now(self.folder) in device.states(), command.name, "what the run has left is none of the states that a loss may leave")
        return [*losses]

    def put(self, loss: Loss) -> None:
        """Makes the folder as the loss leaves it."""
        for name in os.listdir(self.folder):
            os.unlink(os.path.join(self.folder, name))
        for name, text in loss.files:
            path = pathlib.Path(self.folder, name)
            path.write_bytes(text)
            path.chmod(0o600)


def now(folder: str) -> frozenset:
    """The files of a folder, as a loss has them."""
    return frozenset((path.name, path.read_bytes()) for path in pathlib.Path(folder).iterdir())


def replies_in(sent: bytes) -> int:
    """How many codes passed by what a run has sent."""
    return len(re.findall(rb"^PASS .*\n", sent, re.M))


def saves_told(command: Command, sent: bytes, printed: bytes) -> int:
    """How many saves a run has reported by what it has sent and printed. A reply that `login` has sent counts like a printed one."""
    replies = replies_in(sent)
    return max(command.saves_told(printed.decode()), replies + 1 if replies else 0)


def place_of(here: Losses, command: Command, loss: Loss) -> int:
    """Checks that the book has one of the texts that it may have after a loss, and returns the number of that text's save."""
    book = book_of(here.folder)
    holds(book in command.books[loss.saved:loss.saved + 2], "the book has none of the texts that it may have", book)
    return command.books.index(book, loss.saved)


def goes_on(here: Losses, again: Command, book: dict[str, Any], status: int, printed: str, fault: str = "") -> None:
    """Runs a command on what a loss has left, and compares its answer and the book that it leaves. It leaves no other file."""
    equal(run(again, here.folder), (status, printed, fault_text(fault)), "the next run")
    equal(book_of(here.folder), book, "the book after the next run")
    equal(left(here.folder), set(), "the files that the next run leaves")


def is_shown(command: Command, losses: list[Loss]) -> None:
    """Checks that the losses are more than what a run that is killed leaves: the next file is left empty, with a part of a text that a book
    has, and with all of one, and that in more than one way."""
    books, nexts = ({text for loss in losses for name, text in loss.files if name == of} for of in ("book", "book.new"))
    parts = {text for text in nexts - books - {b""} if any(book.startswith(text) for book in books)}
    holds(b"" in nexts and parts and nexts & books, command.name, "the model leaves no part of a next text", len(nexts))
    holds(len(losses) > 20 * (len(command.books) - 1), command.name, "too few states", len(losses))


def after_each_loss(here: Losses, command: Command, check: Callable[[int], None], book: str = BOOK) -> None:
    """Makes a check after each loss of a run with this book. It is given the number of the save that is left."""
    losses = here.of(command, book)
    for trial, loss in each(losses):
        with trial:
            here.put(loss)
            check(place_of(here, command, loss))
    is_shown(command, losses)


def codes_are_sent_again(here: Losses, command: Command) -> None:
    """Whatever a loss leaves of a run, its codes are sent to `verify` again: those that were reported as passed fail, and the others pass
    unless their save has been kept."""
    def check(place: int) -> None:
        after = command.books[place]["accounts"]["user"]["token"]["next"]
        replies = "".join(f"PASS 5 {at}\n" if at >= after else "FAIL 5\n" for at in range(2))
        # A code that passes clears the failures.
        book = with_token(command.books[place], next=2, failures=2 if after == 2 else 0)
        goes_on(here, command_of("verify"), book, 1 if after else 0, replies)

    after_each_loss(here, command, check)


class Steps(NamedTuple):
    """Changes of a folder, and which texts the book and the next file may then have together, None for a file that is not there."""

    name: str
    notes: list
    pairs: set


# What a new file may have to which `ab` was written, if it is not synced, and the device has the bytes `old`.
PARTS = {b"", b"a", b"ab", b"\0\0", b"a\0", b"\0b", b"ol", b"al", b"ob"}
# What `old` may be when `ab` was written to its place, if that is not synced.
WRITTEN_OVER = {b"old", b"ald", b"obd", b"abd", b"\0\0d", b"a\0d", b"\0bd"}
# The texts of the book and the next file after a rename of which either change may be lost, if the next file was synced.
RENAMED = {(b"old", None), (b"old", b"ab"), (b"ab", b"ab"), (b"ab", None)}


def alone(books: Iterable[bytes]) -> set:
    """Each of these texts of the book, without a next file."""
    return {(book, None) for book in books}


def steps_of(folder: str, book: int) -> list[Steps]:
    """Ways to write `ab` to a book, of which this is the file and which has the text `old`: safe ones, and ones that are not."""
    path, following = (os.fsencode(os.path.join(folder, name)) for name in ("book", "book.new"))
    number = os.stat(folder).st_ino
    new = book + number  # which is neither of the two
    made = [Note("made", new), Note("name", new, 0, following)]
    data, sync, of_folder = Note("data", new, 0, b"ab"), Note("sync", new), Note("sync", number)
    removed = Note("gone", 0, 0, path)
    renamed = [Note("name", new, 0, path), Note("gone", 0, 0, following)]
    unsynced = alone({b"old", *PARTS}) | {(text, part) for part in PARTS for text in (b"old", part)}
    return [
        Steps("nothing", [], alone({b"old"})),
        Steps("in place", [Note("data", book, 0, b"ab")], alone(WRITTEN_OVER)),
        Steps("in place, synced", [Note("data", book, 0, b"ab"), Note("sync", book)], alone({b"abd"})),
        Steps("cut", [Note("size", book, 1)], alone({b"old", b"o"})),
        Steps("removed", [removed], alone({b"old", None})),
        Steps("removed, and another made", [removed, *made, data, sync], alone({b"old", None}) | {(None, b"ab"), (b"old", b"ab")}),
        Steps("not renamed", [*made, data, sync], {(b"old", None), (b"old", b"ab")}),
        Steps("not synced", [*made, data, *renamed], unsynced),
        Steps("synced before it is written", [*made, sync, data, *renamed, of_folder], alone(PARTS)),
        Steps("only the folder is synced", [*made, data, *renamed, of_folder], alone(PARTS)),
        Steps("the folder is not synced", [*made, data, sync, *renamed], RENAMED),
        Steps("the folder is synced before", [*made, data, sync, of_folder, *renamed], RENAMED),
        Steps("all is synced", [*made, data, sync, *renamed, of_folder], alone({b"ab"})),
    ]


def rules(folder: str) -> None:
    """The model leaves what its rules say, of saves that are written down here: all of it, and nothing else."""
    equal(cuts(130), [0, 1, 64, 128, 129, 130], "the parts of a write")
    path = pathlib.Path(folder, "book")
    path.write_bytes(b"old")
    for trial, steps in each(steps_of(folder, path.stat().st_ino)):
        with trial:
            device = Folder(folder)
            for note in steps.notes:
                device.take(note)
            states = [dict(state) for state in device.states()]
            equal({(state.get("book"), state.get("book.new")) for state in states}, steps.pairs, "the book and the next file")


def verify(folder: str) -> None:
    """A code for which `verify` has printed PASS is spent."""
    codes_are_sent_again(Losses(folder), command_of("verify"))


def failed_codes(folder: str) -> None:
    """A code for which `verify` has printed FAIL is counted, and so is one that is sent after the loss."""
    here, book = Losses(folder), parsed_book(LIMIT_100)
    books = [with_token(book, failures=2 + at) for at in range(3)]
    command = command_of("verify")._replace(text="000000\n" * 2, printed="FAIL 5\n" * 2, books=books)
    again = command._replace(text="000000\n")
    check = lambda place: goes_on(here, again, with_token(book, failures=3 + place), 1, "FAIL 5\n")
    after_each_loss(here, command, check, LIMIT_100)


def two_losses(folder: str) -> None:
    """The power goes once more, in a run that finds what the first loss has left, and is sent the code that is due then."""
    here, first, books = Losses(folder), command_of("verify"), after_codes(parsed_book(BOOK), 3)
    for trial, loss in each(here.of(first)):
        with trial:
            here.put(loss)
            place = place_of(here, first, loss)
            second = first._replace(text=f"{CODES[place]}\n", printed=f"PASS 5 {place}\n", books=books[place:place + 2])
            for inner, next_loss in each(here.of_next(second)):
                with inner:
                    here.put(next_loss)
                    place_of(here, second, next_loss)


def servers(folder: str) -> None:
    """A code for which `login` or `hall` has logged PASS, or has sent it, is spent."""
    here = Losses(folder)
    for trial, name in each(["login", "hall"]):
        with trial:
            codes_are_sent_again(here, command_of(name))


def enrol(folder: str) -> None:
    """A name that was reported as enrolled is taken, also in a book that was made for it. If it was not, it may be taken or free."""
    here = Losses(folder)
    for trial, command in each([command_of("enrol"), new_book()]):
        with trial:
            answers = (0, command.printed), (1, "", "name is taken")
            after_each_loss(here, command, lambda place: goes_on(here, command, command.books[-1], *answers[place]))


def unlock(folder: str) -> None:
    """A token that was reported as unlocked takes codes."""
    here, book = Losses(folder), parsed_book(LOCKED)
    command = command_of("unlock")._replace(books=[book, with_token(book, failures=0)])
    again = command_of("verify")._replace(text=f"000000\n{CODES[0]}\n")
    due = (book, 1, "LOCKED 5\nLOCKED 5\n"), (with_token(book, next=1, failures=0), 1, "FAIL 5\nPASS 5 0\n")
    after_each_loss(here, command, lambda place: goes_on(here, again, *due[place]), LOCKED)


suite.run_all()
