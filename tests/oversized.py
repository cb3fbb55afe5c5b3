#!/usr/bin/env python3
"""Gives the built program messages, lines, inputs and logs at their limits and one byte longer, and input that never ends.

clients.py and expected.py compute what is due at a limit from RFC 5802 and RFC 4226. Endless input is made while the run reads it, and the
run's peak memory late is at most 256 KiB more than early.
"""
import array
import fcntl
import itertools
import os
import pathlib
import select
import tempfile
import termios
import time
from collections.abc import Iterable, Iterator
from typing import Any

import clients
import expected
import suite
from checks import equal, holds
from clients import Account, dealt, escaped, gone, logged_in, opened, said
from command_table import BOOK, command_of, commands, left, login_log, prepare
from expected import AUDITS, GONE, SESSION_LEFT, base64_of
from hall_support import Hall, clean
from processes import LIMIT, LIMIT_OF_LINES, Answer, Running, ran, sleeps
from suite import CODES, MOST_BYTES, PROGRAM, BookFolder, each, login_words, token

# A hall's log of RFC 5802's login, without its end, and the events that lead to it.
HALL = command_of("hall", 0)
LOGGED = "".join(HALL.printed.splitlines(True)[:-2])
EVENTS = HALL.text.removesuffix("gone 1 5\n")
# How much a run's peak memory may grow from early to late, in KiB.
MORE = 256
NO_AND_END = ["S NO :", "E"]


def decoy(name: str) -> str:
    """The challenge's salt and count for a name without an account (this project's own form, given in docs/FORMATS.md)."""
    return f"s={base64_of(expected.decoy_salt(name))},i={clients.COUNT}"


def first_messages(account: Account) -> Iterator[tuple[str, tuple[str, str] | None]]:
    """Client-first messages at a limit and past it, each with its name and nonce, or None if it is bad."""
    user, long_name = f"n={account.name}", "v" * 255
    for letters in ["x", " ", "\u00e9"]:
        rest = "n,,n=user,r=x,x=" + letters * (2032 // len(letters.encode()))
        yield rest, ("user", "x")
        yield rest + "x", None
    for nonce in ["r" * 256, "~" * 256]:
        yield f"n,,{user},r={nonce}", (account.name, nonce)
        yield f"n,,{user},r={nonce}~", None
    for spelled, name in [(long_name, long_name), ("=2C" * 255, "," * 255), ("=3D" * 255, "=" * 255)]:
        yield f"n,,n={spelled},r=x", (name, "x")
        yield f"n,,n={spelled}{spelled[:3] if '=' in spelled else 'v'},r=x", None
        yield f"n,a={spelled},{user},r=x", (account.name, "x")
        yield f"n,a={spelled}=3D,{user},r=x", None


def lengths_of_first_messages(folder: str) -> None:
    """A client-first message has at most 2048 bytes, a nonce 256, and a name and a name to act as 255, without their escapes."""
    account = Account("user", "SCRAM-SHA-1")
    here = Hall(folder, clients.book([account]))
    for trial, (text, good) in each(first_messages(account)):
        with trial:
            if good:
                name, nonce = good
                known = f"s={base64_of(account.salt)},i={clients.COUNT}" if name == "user" else decoy(name)
                visit = [opened("own"), said(f"AUTH SCRAM-SHA-1 :{escaped(text)}", f"S CONT :r={nonce}own,{known}"), gone()]
            else:
                visit = [opened("own"), said(f"AUTH SCRAM-SHA-1 :{escaped(text)}", *NO_AND_END)]
            here.audited(here.hears(*visit), clean(1))


def lengths_of_lines(folder: str) -> None:
    """A line has at most 6200 bytes, a mechanism's name 20, and each text of a code 16."""
    here, user = Hall(folder), Account("user", "SCRAM-SHA-1")
    here.put(clients.book([user]))
    let_in, asked = logged_in(user, "abc", "def"), [opened("own"), said("AUTH SCRAM-SHA-1", "S CONT :")]
    bad = ["C BAD", *NO_AND_END]
    rows = [
        (asked, "RESP :" + "x" * 6194, NO_AND_END), (asked, "RESP :" + "x" * 6195, None),
        (asked[:1], "AUTH " + "A" * 20, NO_AND_END), (asked[:1], "AUTH " + "A" * 21, None),
        (asked[:1], "AUTH PLAIN :" + "%20" * 2062 + "xx", NO_AND_END), (asked[:1], "AUTH PLAIN :" + "%20" * 2063, None),
        (let_in, "CODE " + "0" * 16, ["S FAIL 5"]), (let_in, "CODE " + "0" * 17, None),
        (let_in, f"SYNC {'0' * 16} {'~' * 16}", ["S FAIL 5"]), (let_in, f"SYNC {'0' * 17} 0", None), (let_in, f"SYNC 0 {'0' * 17}", None),
    ]
    for trial, (before, line, answers) in each(rows):
        with trial:
            turn = said(line, *answers) if answers else clients.Turn(f"line # 5 {line}", bad)
            here.put(clients.book([user]))
            log = here.hears(*before, turn)
            open_still = log.endswith("S FAIL 5\n")
            here.audited(log + "1 C GONE\n1 E\n" * open_still, clean(1, log.count(" S OK :")))


def lengths_of_last_messages(folder: str) -> None:
    """A client-final message has at most 2048 bytes, and a proof 64; a proof is wrong unless it has the hash's length."""
    account = Account("user", "SCRAM-SHA-1")
    here = Hall(folder, clients.book([account]))
    room = 2048 - len(account.exchange("abc", "def", ",x=").final)
    rows = [(f",x={'y' * room}", None, None), (f",x={'y' * (room + 1)}", None, "invalid-encoding"), (f",x={' ' * room}", None, None)]
    rows += [("", bytes(size), "invalid-proof") for size in [1, 19, 21, 63, 64]] + [("", bytes(65), "invalid-encoding")]
    rows += [("", b"", "invalid-encoding")]
    for trial, (more, proof, refusal) in each(rows):
        with trial:
            it = account.exchange("abc", "def", more, proof)
            answers = [f"S NO :e={refusal}", "E"] if refusal else [f"S OK :v={it.signature}"]
            log = here.hears(
                opened("def"),
                said(f"AUTH SCRAM-SHA-1 :{escaped(it.first)}", f"S CONT :{escaped(it.challenge)}"),
                said(f"RESP :{escaped(it.final)}", *answers),
                *([] if refusal else [gone()]),
            )
            here.audited(log, clean(1, log.count(" S OK :")))
    equal(len(account.exchange("abc", "def", rows[0][0]).final), 2048, "the length of the longest message")


def lengths_of_words(folder: str) -> None:
    """Both nonces of a login have at most 256 bytes, and a token's secret 64 and at least 10."""
    user, here = Account("user", "SCRAM-SHA-1"), BookFolder(folder)
    words = login_words(here.book, here.socket, "--mechanism", "SCRAM-SHA-1")
    for trial, (own, others) in each([(256, 256), (257, 256), (256, 257)]):
        with trial:
            here.put(clients.book([user]))
            visit = [*logged_in(user, "n" * own, "s" * others), gone()]
            log = "SCRAMLOG 1\n" + "".join(line.removeprefix("1 ") for line in dealt([0] * len(visit), [visit])[1].splitlines(True)[1:])
            option = "client" if own > 256 else "server"
            want = (0, log, "") if own == others else (2, "", f"scramotp: bad value for --{option}-nonce\n")
            done = ran([*words, "--client-nonce", "n" * own, "--server-nonce", "s" * others], b"password of user")
            equal(done, want, f"nonces of {own} and {others} bytes")
    for trial, size in each([9, 10, 64, 65]):
        with trial:
            want = (0, f"{expected.code(bytes(size), 7)}\n", "") if 10 <= size <= 64 else (2, "", "scramotp: bad value for --secret\n")
            equal(ran([PROGRAM, "code", "--secret", "00" * size, "--counter", "7"], b""), want, size)


def lengths_of_files(folder: str) -> None:
    """A book of 16777216 bytes is read, and one of one more byte is not. So is a password's line: with 16777216 bytes it is read, and is
    a bad password."""
    of_books = ["login", "hall", "enrol", "verify", "unlock"]
    for trial, (name, size) in each(itertools.product(of_books, [MOST_BYTES, MOST_BYTES + 1])):
        with trial:
            command = command_of(name)
            prepare(folder, command)
            pathlib.Path(folder, "book").write_text(BOOK + "#" * (size - len(BOOK)))
            read, unread = (0, command.printed, ""), (3, "", f"scramotp: cannot read {folder}/book\n")
            equal(ran(command.in_folder(folder), command.text), read if size == MOST_BYTES else unread, name, size)
    bad, unread = (2, "", "scramotp: bad password\n"), (3, "", "scramotp: cannot read input\n")
    for trial, (name, (size, want)) in each(itertools.product(["enrol", "keys", "login"], [(MOST_BYTES, bad), (MOST_BYTES + 1, unread)])):
        with trial:
            command = command_of(name)
            prepare(folder, command)
            equal(ran(command.in_folder(folder), b"a" * size), want, f"a password of {size} bytes")
            equal(pathlib.Path(folder, "book").read_text(), BOOK, f"the book after a password of {size} bytes")


def lengths_of_inputs(folder: str) -> None:
    """All lines together may have 16777216 bytes. One byte more is a fault, and what the lines before that one lead to is printed and
    saved."""
    hall = command_of("hall", 1)
    for trial, (name, begin, printed, status, more) in each([
        ("verify", f"{CODES[0]}\n", "PASS 5 0\n", 1, "FAIL 5\n"),
        ("login", f"pencil\n{CODES[0]}\n", login_log(1).removesuffix(GONE), 1, "C BAD\nS NO :\nE\n"),
        ("hall", hall.text.replace("gone 1 5\n", "line 1 5 "), hall.printed.removesuffix("1 C GONE\n1 E\n"), 0, "1 C BAD\n1 S NO :\n1 E\n"),
    ]):
        with trial:
            command = command_of(name)
            for size, want in [(MOST_BYTES, (status, printed + more, "")), (MOST_BYTES + 1, (3, printed, "scramotp: cannot read input\n"))]:
                prepare(folder, command)
                equal(ran(command.in_folder(folder), begin.ljust(size, "a")), want, name, size)
                equal(token(pathlib.Path(folder, "book"))["next"], 1, "the next counter", name, size)


class Fed(Running):
    """A run that is fed as fast as it reads; its output goes to a file, and its peak memory can be seen."""

    def __init__(self, words: list) -> None:
        self.file = tempfile.TemporaryFile()
        super().__init__(words, stdout=self.file)
        self.given = b"(what it was fed)"
        # So that `feed` waits no longer than it says.
        os.set_blocking(self.process.stdin.fileno(), False)

    def feed(self, parts: Iterable[bytes]) -> bool:
        """Feeds all of these, or as many as the run reads. Returns whether it read them all, which may take LIMIT seconds."""
        to, parts, deadline = self.process.stdin.fileno(), iter(parts), time.monotonic() + LIMIT
        while block := memoryview(b"".join(itertools.islice(parts, 256))):
            while block:
                left = deadline - time.monotonic()
                is_read = left > 0 and select.select([], [to], [], left)[1]
                holds(is_read, f"after {LIMIT} seconds the run has neither read all nor ended")
                try:
                    block = block[os.write(to, block):]
                except BrokenPipeError:
                    return False
        return True

    def most_memory(self) -> int:
        """The run's peak memory in KiB, once it has read all that it was fed and waits for more."""
        left = array.array("i", [1])
        until = time.monotonic() + LIMIT_OF_LINES
        while left[0] > 0 or not sleeps(self.process.pid):
            holds(time.monotonic() < until, "what was fed is not read")
            time.sleep(0.005)
            fcntl.ioctl(self.process.stdin.fileno(), termios.FIONREAD, left)
        status = pathlib.Path(f"/proc/{self.process.pid}/status").read_text()
        return int(status.split("VmHWM:")[1].split()[0])

    def end(self, *given: Any) -> Answer:
        """As `Running.end`, with the output that is in the file."""
        answer = super().end(*given)
        self.file.seek(0)
        with self.file:
            return answer._replace(output=self.file.read().decode())


# With so many sessions of three lines and its first line, a log has a million lines.
SESSIONS = 333333


def sessions(version: int) -> Iterator[bytes]:
    """A log of a million lines without its first line, session by session."""
    for number in range(1, SESSIONS + 1):
        yield SESSION_LEFT if version == 1 else b"".join(b"%d %s" % (number, line) for line in SESSION_LEFT.splitlines(True))


def long_logs(folder: str) -> None:
    """A million lines are clean, and one more byte is too many; an audit or a report needs no more memory for them than for ten lines."""
    words = ["--book", AUDITS / "keys.toml", "--log", "/dev/stdin"]
    clean_log, long_log = (0, f"clean sessions={SESSIONS} accepted=0 codes=0\n", ""), (1, "too many lines\n", "")
    commands = [["audit"], ["report", "--event", "busy"]]
    for trial, (command, version, (more, answer)) in each(itertools.product(commands, [1, 2], [(b"", clean_log), (b"S", long_log)])):
        with trial:
            run, parts = Fed([PROGRAM, *command, *words]), sessions(version)
            holds(run.feed([f"SCRAMLOG {version}\n".encode(), *itertools.islice(parts, 3)]), "the run has ended early", version)
            early = run.most_memory()
            holds(run.feed(parts), "the run has ended early", version)
            late = run.most_memory()
            run.feed([more])
            equal(run.end(), answer, command, version, more)
            holds(late - early <= MORE, f"it takes over {MORE} KiB more memory late than early", command, version, early, late)


def endless_logs(folder: str) -> None:
    """A log that never ends is read up to the first fault, or to the byte after its millionth line."""
    endless = itertools.repeat(SESSION_LEFT)
    wrong = b"S MECHS SCRAM-SHA-1\n"
    log = ["--log", "/dev/stdin"]
    audit, upgrade = [PROGRAM, "audit", "--book", AUDITS / "keys.toml", *log], [PROGRAM, "upgrade", *log]
    rows = [
        (b"SCRAMLOG 1\n", endless, "too many lines", "too many lines"),
        (b"SCRAMLOG 1\n" + wrong, endless, "line 2: mechs", "too many lines"),
        (b"SCRAMLOG 1\n", itertools.repeat(b"E" * 1000), "line 2: not a line", "line 2: not a line"),
        (b"SCRAMLOG 2\n", itertools.repeat(b"1 C BAD"), "line 2: not a line", "line 1: not a line"),
        (b"", itertools.repeat(b"SCRAMLOG 1"), "line 1: not a line", "line 1: not a line"),
        (b"", itertools.repeat(bytes(1000)), "line 1: not a line", "line 1: not a line"),
    ]
    of_audits = [(audit, begin, parts, (1, f"{answer}\n", "")) for begin, parts, answer, _ in rows]
    of_upgrades = [(upgrade, begin, parts, (1, "", f"{fault}\n")) for begin, parts, _, fault in rows]
    for trial, (words, begin, parts, want) in each([*of_audits, *of_upgrades]):
        with trial:
            run = Fed(words)
            holds(not run.feed(itertools.chain([begin], parts)), "the run reads a log that never ends", words, begin)
            equal(run.end(), want, words, begin)
    words = [PROGRAM, "audit", "--book", "/dev/zero", "--log", AUDITS / "sha1.log"]
    equal(ran(words, b""), (3, "", "scramotp: cannot read /dev/zero\n"), "a book that never ends")


def endless_passwords(folder: str) -> None:
    """A password that never ends is an input fault, and nothing is written."""
    for trial, command in each([it for it in commands() if it.text.startswith("pencil")]):
        with trial:
            prepare(folder, command)
            run = Fed(command.in_folder(folder))
            holds(not run.feed(itertools.repeat(b"a" * 4096)), "the run reads a password that never ends", command.name)
            equal(run.end(), (3, "", "scramotp: cannot read input\n"), command.name)
            equal(pathlib.Path(folder, "book").read_text(), BOOK, command.name, "the book")
            equal(left(folder), set(), command.name, "the files that are left")


def endless_codes(folder: str) -> None:
    """Codes that never end are judged up to the last line within 16777216 bytes of input, and a run needs no more memory for them than
    for the first. The first three lock the token, and the replies to the others say so."""
    pair = f"SYNC {'0' * 16} {'1' * 16}"
    rows = {
        "verify": (b"", f"{'0' * 15}\n", "", "FAIL 5\n", "LOCKED 5\n"),
        "login": (b"pencil\n", f"{pair}\n", login_log(0).removesuffix("C GONE\nE\n"), f"C {pair}\nS FAIL 5\n", f"C {pair}\nS LOCKED 5\n"),
        "hall": (EVENTS.encode(), f"line 1 5 {pair}\n", LOGGED, f"1 C {pair}\n1 S FAIL 5\n", f"1 C {pair}\n1 S LOCKED 5\n"),
    }
    for trial, (name, (begin, line, printed, failed, locked)) in each(rows.items()):
        with trial:
            command = command_of(name, 0)
            prepare(folder, command)
            pathlib.Path(folder, "book").write_text(BOOK.replace("failures = 2", "failures = 0"))
            data, whole = line.encode(), (MOST_BYTES - len(begin)) // len(line)
            run = Fed(command.in_folder(folder))
            holds(run.feed([begin, *[data] * 1000]), "the run has ended early", name)
            early = run.most_memory()
            holds(run.feed(itertools.repeat(data, whole - 1000)), "the run has ended early", name)
            late = run.most_memory()
            holds(not run.feed(itertools.repeat(data)), "the run reads codes that never end", name)
            output = run.end().given(name, status=3, faults="scramotp: cannot read input\n")
            equal(output, printed + failed * 3 + locked * (whole - 3), name)
            holds(late - early <= MORE, f"it takes over {MORE} KiB more memory late than early", name, early, late)


suite.run_all()
