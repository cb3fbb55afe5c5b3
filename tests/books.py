#!/usr/bin/env python3
"""Tests of the commands on an account book that need processes: runs at the same time, runs that are killed, links, modes, access lists,
which files a run opens, files that take the book's place, and how paths are shown. Needs `cc`."""
import ctypes
import errno
import fcntl
import os
import pathlib
import random
import shutil
import signal
import struct
import threading
import time
from typing import Any

import suite
from checks import equal, holds
from kills import kill_before_any_call
from processes import Running, processor_time, ran, taken, until, whole
from suite import (
    BOOK_OF_USER, CODES, MOST_BYTES, PROGRAM, BookFolder, code, each, fault_text, hotp, is_locked, mode_of, prints, read_book, seen,
    verify_words, within,
)

BOOK = BOOK_OF_USER + hotp(look_ahead=3, limit=100)
FIRST_CODE = CODES[0]
# The answer to the first code.
PASSES = (0, "PASS 5 0\n", "")
# The user ID in the entries of an access list that name no user.
NONE = 0xFFFFFFFF


def start_enrol(path: str | pathlib.Path, name: str, count: int, **how: Any) -> Running:
    """Starts a run that adds an account, to a new book if there is none."""
    return whole([PROGRAM, "enrol", "--book", path, "--name", name, "--count", str(count)], "pencil\n", **how)


def locked(path: str | pathlib.Path) -> int:
    """Locks a file or a folder, and returns the descriptor that holds the lock."""
    held = os.open(path, os.O_RDONLY)
    fcntl.flock(held, fcntl.LOCK_EX | fcntl.LOCK_NB)
    return held


def waiting_verify(path: str | pathlib.Path, text: str = "") -> Running:
    """Starts a run that holds the book, is sent this text, and waits for more input."""
    run = Running(verify_words(path), text)
    until(lambda: is_locked(path), "the run should hold", path)
    run.waits()
    return run


def twenty_at_once(folder: str) -> None:
    """A code passes once, whichever of the book's two names each run is given."""
    here = BookFolder(folder, BOOK)
    link = here.folder / "link"
    link.symlink_to("book")
    for turn in range(5):
        here.put(BOOK)
        runs = [whole(verify_words([here.book, link][n % 2]), FIRST_CODE) for n in range(20)]
        equal(sorted(run.end() for run in runs), [PASSES] + [(1, "FAIL 5\n", "")] * 19, f"turn {turn}: the answers of all runs")
        here.token_has(f"turn {turn}", next=1, failures=19)
        holds(link.is_symlink(), f"turn {turn}: the link is gone")
        here.has_only("book", "link")


def killed_before_any_call(folder: str) -> None:
    """Runs are killed before any of their calls, and each next one goes on from the book that they leave."""
    here = BookFolder(folder, BOOK)

    def started(at: int, **how: Any) -> Running:
        codes = [code(counter) for counter in range(max(at - 2, 0), at + 10)]
        return whole(verify_words(here.book), "".join(f"{it}\n" for it in codes), **how)

    kill_before_any_call(here, started, 200, 0, is_log=False)
    counter = here.token()["next"]
    here.verifies(code(counter), 0, f"PASS 5 {counter}\n")
    here.has_only("book")


def modes(folder: str) -> None:
    """Only its owner can read a new book, whatever the umask. A rewritten book keeps only the owner's bits of its mode."""
    here = BookFolder(folder, BOOK)
    for trial, mask in each([0o000, 0o022, 0o077]):
        with trial:
            here.book.unlink(missing_ok=True)
            start_enrol(here.book, "user", 1, umask=mask).ends(0, "enrolled user\n")
            equal(oct(mode_of(here.book)), "0o600", f"the mode of a new book, with umask {mask:03o}")
    for trial, (before, after) in each([(0o640, "0o600"), (0o604, "0o600"), (0o600, "0o600"), (0o444, "0o400")]):
        with trial:
            here.put(BOOK)
            here.book.chmod(before)
            here.verifies(FIRST_CODE, *PASSES)
            equal(oct(mode_of(here.book)), after, f"the mode after a save, which was {before:o}")


def access_lists(folder: str) -> None:
    """A save gives nobody more access through an access list: neither the group, whose bits in the mode are the list's mask,
    nor the users and groups that the folder's list names for new files."""
    here = BookFolder(folder, BOOK)
    here.book.chmod(0o600)
    entries = [(1, 6, NONE), (2, 4, 1234), (4, 0, NONE), (16, 4, NONE), (32, 0, NONE)]
    listed = struct.pack("<I", 2) + b"".join(struct.pack("<HHI", *entry) for entry in entries)
    try:
        os.setxattr(here.book, "system.posix_acl_access", listed)
        os.setxattr(here.folder, "system.posix_acl_default", listed)
    except OSError as error:
        equal(error.errno, errno.EOPNOTSUPP, error)
        suite.not_tested("access lists, since this file system has none")
        return
    equal(oct(mode_of(here.book)), "0o640", "the mode before, with the mask of the access list")
    here.verifies(FIRST_CODE, *PASSES)
    equal(oct(mode_of(here.book)), "0o600", "the mode after a save")


def locked_folder(folder: str) -> None:
    """A run does not wait for a run on another book in the folder, or for a lock on the folder."""
    here = BookFolder(folder, BOOK)
    other = here.folder / "other"
    other.write_text(BOOK)
    waiting = waiting_verify(other)
    here.verifies(FIRST_CODE, *PASSES)
    lock = locked(folder)
    here.verifies(CODES[1], 0, "PASS 5 1\n")
    waiting.ends(*PASSES, FIRST_CODE)
    os.close(lock)


def one_lock(folder: str) -> None:
    """The book is opened once, and the file of each next text once: the run keeps its lock, even when it saves, while its input is open.
    Its reply is printed at once."""
    here = BookFolder(folder, BOOK)
    kinds = {0x20: "open", 0x80: "take its place"}
    libc = ctypes.CDLL(None)
    told = libc.inotify_init()
    holds(libc.inotify_add_watch(told, folder.encode(), sum(kinds)) >= 0, "the folder can't be watched")
    here.verifies(f"{FIRST_CODE}\n{code(1)}\n", 0, "PASS 5 0\nPASS 5 1\n")
    data, at, events = os.read(told, 65536), 0, []
    while at < len(data):
        _, mask, _, length = struct.unpack_from("iIII", data, at)
        events.append((kinds[mask & 0xFF], data[at + 16 : at + 16 + length].rstrip(b"\0").decode()))
        at += 16 + length
    os.close(told)
    saved = [("open", "book.new"), ("take its place", "book")]
    equal(events, [("open", ""), ("open", "book"), *saved, *saved], "what the run opened in the folder and put there")
    run = waiting_verify(here.book, f"{code(2)}\n")
    run.prints("PASS 5 2\n")
    holds(is_locked(here.book), "the book is not locked while the run goes on")
    run.ends(0)
    holds(not is_locked(here.book), "the book is locked after the run")


def swapped(folder: str) -> None:
    """A file that takes the book's path while a run waits for input is not overwritten, and the run ends."""
    held = within(folder, "held")
    here = BookFolder(held, BOOK)
    other, away = held / "other", held / "away"

    def files() -> dict[str, tuple]:
        """What is seen of each file in the folder of the book, and in one that was moved away."""
        return {str(path): seen(path) for path in pathlib.Path(folder).glob("*/*")}

    def move() -> None:
        here.book.rename(away)

    def link() -> None:
        move()
        here.book.symlink_to("other")

    def copy() -> None:
        move()
        shutil.copy(away, here.book)

    def edit() -> None:
        with open(here.book, "r+") as file:
            file.write("#ormat")

    def rename_folder() -> None:
        old = held.rename(f"{held}.old")
        held.mkdir()
        shutil.copy(old / "book", here.book)

    for trial, turn in each([move, link, copy, edit, rename_folder]):
        with trial:
            for path in [here.book, away]:
                path.unlink(missing_ok=True)
            here.put(BOOK)
            other.write_text(BOOK)
            other.chmod(0o644)
            run = waiting_verify(here.book)
            turn()
            before = files()
            run.ends(3, "", fault_text(f"cannot write {here.book}"), FIRST_CODE)
            equal(files(), before, "the files after", turn.__name__)


def keys_before_the_lock(folder: str) -> None:
    """`enrol` makes its keys while other runs use or make the book, and adds its account to the book as it is afterwards."""
    here = BookFolder(folder, BOOK)
    new = here.folder / "new"
    before = processor_time()
    start_enrol(here.folder / "measured", "slow", 100000).ends(0, "enrolled slow\n")
    (here.folder / "measured").unlink()
    # Each of the two needs some six seconds of processor time for its keys, and is stopped early in that, before the other begins.
    count, slow = int(100000 * 6 / (processor_time() - before)), []
    for path in [here.book, new]:
        slow.append(start_enrol(path, "slow", count))
        until(lambda: taken(slow[-1].process.pid) > 0.1, "the run should make keys")
        slow[-1].process.send_signal(signal.SIGSTOP)
    try:
        here.verifies(FIRST_CODE, *PASSES)
        start_enrol(new, "quick", 1).ends(0, "enrolled quick\n")
        for run in slow:
            run.goes_on()
    finally:
        for run in slow:
            run.process.send_signal(signal.SIGCONT)
    for run in slow:
        run.ends(0, "enrolled slow\n")
    equal(sorted(read_book(here.book)["accounts"]), ["slow", "user"], "the book's accounts")
    here.token_has(next=1)
    equal(sorted(read_book(new)["accounts"]), ["quick", "slow"], "the new book's accounts")
    here.has_only("book", "new")


def made_at_once(folder: str) -> None:
    """Runs that make a book at the same time find what the others have added, even if some are killed."""
    here, killed = BookFolder(folder, BOOK), 0
    began = time.monotonic()
    start_enrol(here.book, "first", 1).ends(0, "enrolled first\n")
    duration = time.monotonic() - began
    for turn in range(400):
        # Few turns meet the moment at which another run makes the book. On a busy machine a run may end before it is killed.
        if turn >= 200 and killed > 8:
            break
        here.book.unlink()
        runs = [start_enrol(here.book, f"user{number}", 1) for number in range(6)]
        for run in runs[:2]:
            time.sleep(random.uniform(0, duration))
            run.process.kill()
        statuses = [run.end().status for run in runs]
        killed += statuses[:2].count(-signal.SIGKILL)
        equal({*statuses} - {0, -signal.SIGKILL}, set(), f"turn {turn}: other statuses", statuses)
        equal(statuses[2:], [0] * 4, f"turn {turn}: the statuses of the runs that are not killed")
        here.verifies("", 1, "", "no such account")
        here.has_only("book")
        names, due = set(read_book(here.book)["accounts"]), {f"user{number}" for number in range(6) if statuses[number] == 0}
        equal(due - names, set(), f"turn {turn}: the accounts that were added and are not in the book", statuses)
    holds(killed > 8, "too few runs were killed", killed)


def pipes(folder: str) -> None:
    """In a folder that others may write, no run waits for a pipe that takes the book's place at any moment. The file that takes turns with
    the pipe has a second name, so a run is refused at once, except in rare moments; one that opened the pipe to read would never end."""
    here = BookFolder(folder, BOOK)
    file, pipe, following = (here.folder / name for name in ["file", "pipe", "following"])
    here.folder.chmod(0o777)
    here.book.rename(file)
    os.mkfifo(pipe)
    pipe.chmod(0o666)
    is_over, turns = threading.Event(), 0

    def turn() -> None:
        nonlocal turns
        while not is_over.is_set():
            for path in [file, pipe]:
                os.link(path, following)
                following.rename(here.book)
            turns += 1

    turning = threading.Thread(target=turn)
    turning.start()
    try:
        for number in range(300):
            answer, refused = ran(verify_words(here.book)), (3, "", fault_text(f"cannot read {here.book}"))
            holds(answer in [(0, "", ""), refused], f"run {number} has another answer than {refused}, or than none", answer)
        holds(turning.is_alive() and turns > 300, "the file and the pipe take too few turns", turns)
    finally:
        is_over.set()
        turning.join()


def too_long(folder: str) -> None:
    """A text that no command would read is not saved: here the accounts take three times the bytes when they are written."""
    here = BookFolder(folder, BOOK, "[accounts]\n", *(f"a{number} = {{}}\n" for number in range(560000)))
    holds(len(here.before) < MOST_BYTES, "the book is too long to be read", len(here.before))
    before = seen(here.book)
    here.verifies(FIRST_CODE, 3, "", f"cannot write {here.book}")
    equal(seen(here.book), before, "the book")
    here.has_only("book")


def shown_texts(folder: str) -> None:
    """No path or word sends control characters to a terminal, or starts a new line there."""
    book = os.path.join(folder, "a\n\x1b[2J\x7f\u009b\u00e9")
    shown = os.path.join(folder, "a\\x0a\\x1b[2J\\x7f\\x9b\u00e9")
    prints(verify_words(book), "", 3, "", f"cannot read {shown}")
    pathlib.Path(book).write_text(BOOK)
    lock = locked(book)
    prints(verify_words(book), "", 3, "", f"other runs held {shown} for 30 seconds\nscramotp: cannot read {shown}")
    os.close(lock)
    for trial, words in each([["a\n\x1b[2J"], ["verify", "--\x1b[2J\n"], ["verify", "--book", "x", "\x1b[2J\nscramotp: no token"]]):
        with trial:
            status, output, faults = ran([PROGRAM, *words])
            equal((status, output), (2, ""), words, faults)
            holds("\\x1b[2J" in faults, "the word is not shown", words, faults)
            holds("\x1b" not in faults, "a control character is shown", words, faults)
            holds("\nscramotp" not in faults, "the word starts a line", words, faults)


suite.run_all()
