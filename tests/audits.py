#!/usr/bin/env python3
"""Compares the built program's answers to recorded logs, most of them faulty, with data/audits/cases.csv.

The logs were put together by hand: sha1.log from the example of RFC 5802, section 5, and sha256.log from that of RFC 7677, section 3;
twice.log, which docs/SECURITY.md names, and interleaved.log from sha1.log and codes of RFC 4226. The keys in their books were computed
with Python's hashlib. Then come logs that this script makes, and ways to read a log.
"""
import fcntl
import hashlib
import itertools
import os
import pathlib
import re
import threading
import time

import suite
from audit_cases import TABLE, cases
from checks import equal, holds
from expected import AUDITS, GONE, HASHES, SESSION_LEFT, base64_of, login_keys, numbered, proved
from processes import LIMIT_OF_LINES, Running, Terminal, until
from suite import MOST_BYTES, PROGRAM, SALT, audit_says, each, prints

KEYS = AUDITS / "keys.toml"
LOGIN = AUDITS / "sha1.log"
CLEAN = "clean sessions=1 accepted=1 codes=0"

# Why a line can be at fault, as docs/FORMATS.md lists it.
REASONS = {"cut", "not a line", "order", "mechs", "challenge", "outcome", "reply"}

HEADER = b"SCRAMLOG 1\n"
# A session of four lines, in which the client gives up at once.
ABORTED = b"S MECHS SCRAM-SHA-256 SCRAM-SHA-1\nC ABORT\nS NO :\nE\n"


def reason(answer: str) -> str | None:
    """The reason for which an answer calls a line at fault, or None."""
    found = re.fullmatch(r"line \d+: ([a-z ]+)(?:, due .*)?", answer)
    return found and found[1]


def rows_of_table(folder: str) -> None:
    """Each row has its answer, and leaves the book unchanged. Each reason has a row."""
    rows, log = cases(), pathlib.Path(folder, "log")
    equal({reason(row.answer) for row in rows} - {None}, REASONS, "the reasons that have a row")
    for trial, (line, (book, text, answer, shows)) in each(enumerate(rows, 2)):
        with trial:
            log.write_bytes(text)
            before, where = book.read_bytes(), f"{TABLE.name}: line {line}: {shows}"
            audit_says(book, log, answer, where)
            equal(book.read_bytes(), before, f"{where}: the book")


def signed(challenge: str) -> list[str]:
    """The proof and the signature of the first log's login for this challenge (RFC 5802, section 3)."""
    client, server = login_keys("sha1", b"pencil", bytes.fromhex(SALT), 4096)
    nonce = challenge.split(",")[0]
    joined = f"n=user,r=fyko+d2lbbFgONRv9qkxdawL,{challenge},c=biws,{nonce}".encode()
    return [base64_of(data) for data in proved("sha1", client, server, joined)]


def other_challenges(folder: str) -> None:
    """A recorded challenge may have extensions and a long server's part of the nonce; the proof is over the challenge as recorded."""
    log = pathlib.Path(folder, "log")
    first = "r=fyko+d2lbbFgONRv9qkxdawL3rfcNHYJY1ZVvWVs7j,s=QSXCR+Q6sek8bf92,i=4096"
    proof, signature = signed(first)
    text = LOGIN.read_text()
    equal((text.count(f"p={proof}\n"), text.count(f"v={signature}\n")), (1, 1), "the login's own proof and signature")
    for trial, (what, challenge, answer) in each([
        ("an extension", first + ",x=1", CLEAN),
        ("an extension with no value", first + ",X=,y=b", "line 4: challenge"),
        ("two extensions", first + ",X==,y=a=b", CLEAN),
        ("an extension that is mandatory", first + ",m=1", "line 4: challenge"),
        ("an own part of 488 characters", first.replace("3rfcNHYJY1ZVvWVs7j", "3" * 488), CLEAN),
        ("an own part of 489 characters", first.replace("3rfcNHYJY1ZVvWVs7j", "3" * 489), "line 4: challenge"),
    ]):
        with trial:
            other_proof, other_signature = signed(challenge)
            edited = text.replace(f"S CONT :{first}", f"S CONT :{challenge}")
            nonce = challenge.split(",")[0]
            edited = edited.replace("c=biws,r=fyko+d2lbbFgONRv9qkxdawL3rfcNHYJY1ZVvWVs7j", f"c=biws,{nonce}")
            edited = edited.replace(f"p={proof}\n", f"p={other_proof}\n").replace(f"v={signature}\n", f"v={other_signature}\n")
            log.write_text(edited)
            audit_says(KEYS, log, answer, what)
    log.write_text(text.replace(f"S CONT :{first}", f"S CONT :{first},x=1"))
    audit_says(KEYS, log, "line 6: outcome, due NO :e=invalid-proof", "a proof without the extension")


def login_by(name: str, mechanism: str, keys: tuple[bytes, bytes]) -> str:
    """The lines of a login that is accepted, from MECHS to E, with that example's nonces and these keys of the client and the server."""
    bare, nonce = f"n={name},r=fyko+d2lbbFgONRv9qkxdawL", "r=fyko+d2lbbFgONRv9qkxdawL3rfcNHYJY1ZVvWVs7j"
    challenge = f"{nonce},s={base64_of(bytes.fromhex(SALT))},i=4096"
    proof, signature = map(base64_of, proved(HASHES[mechanism], *keys, f"{bare},{challenge},c=biws,{nonce}".encode()))
    return (
        f"S MECHS SCRAM-SHA-256 SCRAM-SHA-1\nC AUTH {mechanism} :n,,{bare}\nS CONT :{challenge}\n"
        f"C RESP :c=biws,{nonce},p={proof}\nS OK :v={signature}\n{GONE}"
    )


def one_login_after_another(folder: str) -> None:
    """Each login is judged by its own account's keys for its own mechanism, whichever login came before it."""
    book, log, salt = pathlib.Path(folder, "book"), pathlib.Path(folder, "log"), bytes.fromhex(SALT)
    kinds, passwords = [*itertools.product(["user", "other"], HASHES)], {"user": b"pencil", "other": b"crayon"}
    keys = {kind: login_keys(HASHES[kind[1]], passwords[kind[0]], salt, 4096) for kind in kinds}
    tables = [KEYS.read_text().partition("[")[0]]
    for (name, mechanism), (client, server) in keys.items():
        stored = hashlib.new(HASHES[mechanism], client).hexdigest()
        tables.append(f'[accounts.{name}.{HASHES[mechanism]}]\nsalt = "{SALT}"\ncount = 4096\n')
        tables.append(f'stored = "{stored}"\nserver = "{server.hex()}"\n')
    book.write_text("".join(tables))
    logins = {kind: login_by(*kind, keys[kind]) for kind in kinds}
    published = LOGIN.read_text().removeprefix("SCRAMLOG 1\n")
    equal(published, logins["user", "SCRAM-SHA-1"], "the login of RFC 5802's example")
    for trial, (last, this) in each(itertools.product(kinds, repeat=2)):
        with trial:
            log.write_text("SCRAMLOG 1\n" + logins[last] + logins[this])
            audit_says(book, log, "clean sessions=2 accepted=2 codes=0", last, this)
            if last[1] == this[1] and last != this:
                wrong = "SCRAMLOG 1\n" + logins[last] + login_by(*this, keys[last])
                for text in (wrong, numbered(wrong)):
                    log.write_text(text)
                    audit_says(book, log, "line 13: outcome, due NO :e=invalid-proof", "by the last login's keys", last, this)
    log.write_text("SCRAMLOG 1\n" + "".join(logins[kind] for pair in itertools.product(kinds, repeat=2) for kind in pair))
    audit_says(book, log, "clean sessions=32 accepted=32 codes=0", "all of these")


def logs_from_pipes(folder: str) -> None:
    """A log is read as it arrives, and not past the line at fault: an audit does not wait for a pipe that stays open."""
    words = [PROGRAM, "audit", "--book", KEYS, "--log", "/dev/stdin"]
    audit_says(KEYS, "/dev/stdin", CLEAN, "a pipe", text=LOGIN.read_bytes())
    running = Running(words, HEADER + b"S MECHS SCRAM-SHA-1\n")
    until(lambda: running.process.poll() is not None, "an audit should end at a line at fault, although the pipe stays open")
    running.ends(1, "line 2: mechs\n")
    fifo = pathlib.Path(folder, "fifo")
    os.mkfifo(fifo)
    # It waits until the audit opens the FIFO, and does not hold up the script's end if that never comes.
    writer = threading.Thread(target=fifo.write_bytes, args=(LOGIN.read_bytes(),), daemon=True)
    writer.start()
    audit_says(KEYS, fifo, CLEAN, "a FIFO")
    writer.join(LIMIT_OF_LINES)
    holds(not writer.is_alive(), "the FIFO's writer goes on after the audit")


def audit_at_a_terminal(wait: float) -> tuple[str, float]:
    """Runs an audit whose standard error is a terminal, and which waits `wait` seconds for more of its log. Returns what it shows at
    the terminal, and how many seconds it took."""
    words = [PROGRAM, "audit", "--book", KEYS, "--log", "/dev/stdin"]
    with Terminal() as terminal:
        began = time.monotonic()
        running = Running(words, HEADER + SESSION_LEFT, stderr=terminal.end)
        # The program counts its two seconds from the start of its reading, and sleeps once it has read what is there.
        running.waits()
        time.sleep(wait)
        running.ends(0, "clean sessions=2 accepted=0 codes=0\n", text=SESSION_LEFT)
        seconds = time.monotonic() - began
        return terminal.all_shown(), seconds


def progress_on_a_terminal(folder: str) -> None:
    """If standard error is a terminal, a run of two seconds shows its progress there, and clears it at the end."""
    shown, _ = audit_at_a_terminal(2.2)
    counts = f"\r7 lines, {len(HEADER + SESSION_LEFT * 2)} bytes"
    # They are shown again at the end of each second that comes before the end of the log is read.
    once = re.sub(f"(?:{re.escape(counts)})+", counts, shown)
    equal(once, counts + "\r\x1b[K", "what is shown at the terminal", shown)


def no_progress_of_a_short_run(folder: str) -> None:
    """A run of less than two seconds shows nothing at the terminal."""
    # A busy machine may delay even a short run, which is then tried again.
    runs = (audit_at_a_terminal(0) for _ in range(20))
    shown = next((shown for shown, seconds in runs if seconds < 1.5), None)
    equal(shown, "", "what is shown at the terminal in a short run, of which one takes less than 1.5 seconds")


def long_logs(folder: str) -> None:
    """A log may have 1000000 lines: the limit of the audit itself."""
    log = pathlib.Path(folder, "log")
    sessions = HEADER + SESSION_LEFT * 333333
    unfinished = HEADER + ABORTED + SESSION_LEFT * 333332
    for trial, (name, text, answer) in each([
        ("1000000 lines", sessions, "clean sessions=333333 accepted=0 codes=0"),
        ("1000000 unfinished lines", unfinished.removesuffix(b"E\n"), "line 1000001: cut"),
    ]):
        with trial:
            log.write_bytes(text)
            audit_says(KEYS, log, answer, name)


def refuses(what: str, book: str | pathlib.Path, log: str | pathlib.Path, status: int, fault: str) -> None:
    """Runs an audit that prints nothing, and compares its status and its fault, which is given without its prefix."""
    prints([PROGRAM, "audit", "--book", book, "--log", log], b"", status, "", fault, what)


def unreadable_files(folder: str) -> None:
    """The faults of files that can't be read, in the order in which they are read: first the book."""
    nothing, book = pathlib.Path(folder, "nothing"), pathlib.Path(folder, "book")
    refuses("no book, no log", nothing, nothing, 3, f"cannot read {nothing}")
    refuses("a folder as book", folder, LOGIN, 3, f"cannot read {folder}")
    book.write_text("")
    refuses("a bad book, no log", book, nothing, 1, "bad book: 61")
    book.write_bytes(b"\xff")
    refuses("a book that is no text", book, LOGIN, 1, "bad book: 60")
    book.write_bytes(b"#" * (MOST_BYTES + 1))
    refuses("a long book", book, LOGIN, 3, f"cannot read {book}")
    refuses("no log", KEYS, nothing, 3, f"cannot read {nothing}")
    audit_says(KEYS, folder, "read fault", "a folder as log")
    book.write_bytes(KEYS.read_bytes())
    os.link(book, book.with_name("second"))
    audit_says(book, LOGIN, CLEAN, "a book with two names")


def without_the_lock(folder: str) -> None:
    """An audit does not wait for a book that another run holds, and leaves nothing in the book's folder."""
    book, log = pathlib.Path(folder, "book"), pathlib.Path(folder, "log")
    book.write_bytes(KEYS.read_bytes())
    log.write_bytes(LOGIN.read_bytes())
    held = os.open(book, os.O_RDONLY)
    fcntl.flock(held, fcntl.LOCK_EX)
    audit_says(book, log, CLEAN, "a book that is held")
    os.close(held)
    equal(sorted(os.listdir(folder)), ["book", "log"], "the folder")


suite.run_all()
