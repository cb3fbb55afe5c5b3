#!/usr/bin/env python3
"""Refuses each request for memory of library calls in turn, one in each run. The call whose request is refused returns 99, nothing is
lost, and the same call made again succeeds. The crate bench makes the calls: `Desk::begin`, `greet` and `client` one by one, then
`serve_turn`, then `serve`, whose client is gone if memory ran out; `Hall::begin`, `greet` and `client`; the functions that write
messages, names and lines, `escape` and `Payload::bytes`; and `Book::read`, `Book::write` and `enrol`. Needs `cc`, and the crate bench
as built by `rt ci` or `make bench`. What the client of `login` is sent when a request is refused is compared with the book."""
import os
import pathlib
import re
from collections.abc import Callable

import shims
import suite
from checks import equal, holds
from command_table import Command, after_codes, command_of, parsed_book, prepare, run, with_account
from expected import AUDITS, MECHS
from processes import ran
from suite import BOOK_OF_USER, PROGRAM, each, hotp, token

# The crate bench, as built, or what BENCH in the environment names, with which planted.py plants a bug in it.
BENCH = pathlib.Path(os.environ.get("BENCH") or suite.TOP / "crates/bench/out/bench")
BOOK = (AUDITS / "sha256.toml").read_text() + hotp(look_ahead=3, limit=3)
NO_ACCOUNTS = BOOK_OF_USER.replace("[accounts.user]", "[accounts]")
CODE = "C CODE 755224\nS PASS 5 0\n"
# The recorded login of RFC 7677's example, section 3, with the first code in RFC 4226, appendix D, before its end.
LOGGED = (AUDITS / "sha256.log").read_text().replace("C GONE\n", f"{CODE}C GONE\n")
# That login in a hall in which another client comes after it and goes away last.
IN_HALL = f"SCRAMLOG 2\n1 {MECHS}\n2 {MECHS}\n" + "".join(f"1 {line}" for line in LOGGED.splitlines(True)[2:]) + "2 C GONE\n2 E\n"

# The messages of RFC 5802, section 5, and RFC 7677, section 3; an error (RFC 5802, section 7); a name (section 5.1); and lines.
TEXTS = [
    ("client-first", "n,,n=user,r=fyko+d2lbbFgONRv9qkxdawL"),
    ("client-first", "p=tls-unique,a=some=2Cbody,n=us=3Der,r=rOprNGfwEbeRWgbNEkqO,x=1"),
    ("server-first", "r=fyko+d2lbbFgONRv9qkxdawL3rfcNHYJY1ZVvWVs7j,s=QSXCR+Q6sek8bf92,i=4096"),
    ("client-final", "c=biws,r=fyko+d2lbbFgONRv9qkxdawL3rfcNHYJY1ZVvWVs7j,p=v0X8v3Bz2T0CJGbJQyF0X+HI4Ts="),
    ("server-final", "v=6rriTRBi23WpRR/wtup+mMhUZUn/dB5nLTJRsjl95G4="),
    ("server-final", "e=invalid-proof"),
    ("name", "a,b=c", "a=2Cb=3Dc"),
    ("line", "AUTH SCRAM-SHA-256 :n,,n=user,r=rOprNGfwEbeRWgbNEkqO"),
    ("line", "PASS 5 0"),
    ("log-line", "S OK :v=rmF9pqV8S7suAoZWja4dJRkFsKQ="),
    ("log-line", "C CODE 755224"),
    ("log-line", "SCRAMLOG 2"),
    ("numbered-line", "9223372036854775806 C SYNC 755224 287082"),
    ("spelled", "100% of it", "100%25%20of%20it"),
    ("message", "RESP :100%25%20of%20it", "100% of it"),
]


def made(kind: str, folder: str, shim: str, refused: int) -> tuple[str | None, int]:
    """What bench printed for these calls when the request with this number was refused, or None if it ended before making them; and how
    many requests it made."""
    environment = {"LD_PRELOAD": shim, "REFUSED": str(refused)}
    status, output, faults = ran([BENCH, kind, "1", "given"], cwd=folder, env=environment)
    holds(status in (0, 1), kind, "request", refused, "the status is neither 0 nor 1", status, faults)
    return None if status else output, shims.requests(faults, kind, "request", refused, "status", status)[1]


def each_refused(kind: str, folder: str, given: str) -> tuple[str | None, list[str | None]]:
    """What is printed for these calls when no request is refused; and for each request, what is printed when it is refused."""
    holds(BENCH.exists(), f"{BENCH} is not built: rt ci builds it, and so does make bench")
    shim = shims.built("refuse_memory")
    (pathlib.Path(folder) / "given").write_text(given)
    whole, requests = made(kind, folder, shim, 0)
    answers = [made(kind, folder, shim, number)[0] for number in range(1, requests + 1)]
    return whole, answers


def all_told(folder: str, kind: str, is_due: Callable[[str], bool], check: Callable[[str], bool]) -> None:
    """A service reports refused requests. What it prints, apart from their number, is due without refusals; with one `check` is true of
    it. Each is reported at most once. More than half of all requests are those of the calls."""
    whole, answers = each_refused(kind, folder, BOOK)
    log, times = (whole or "").rsplit("out of memory ", 1)
    holds(is_due(log), kind, "without refusals it is not what is due", whole)
    equal(times, "0\n", kind, whole)
    told = 0
    for trial, answer in each(answers):
        with trial:
            if answer not in (None, whole):
                holds("out of memory " in answer, "it has not ended as it should", answer)
                log, times = answer.rsplit("out of memory ", 1)
                equal(times, "1\n", kind, answer)
                holds(check(log), kind, "neither the log that was due nor a clean beginning of it", answer)
                told += 1
    holds(2 * told > len(answers), "at most half of the requests are told", kind, told, answers)


def sent_in_a_login(command: Command, folder: str, number: int) -> tuple[list[int], int, int]:
    """The counters that the client of a login is told have passed if the request with this number is refused, the next counter in the book
    after it, and how many requests the run makes."""
    files, sent = pathlib.Path(folder, "files"), pathlib.Path(folder, "sent")
    files.mkdir(exist_ok=True)
    prepare(files, command)
    sent.write_text("")
    loaded = f"{shims.built('refuse_memory')}:{shims.keeps_sent()}"
    answer = run(command, files, env={**os.environ, "LD_PRELOAD": loaded, "REFUSED": str(number), "SENT": str(sent)})
    _, requests = shims.requests(answer.faults, "request", number, answer)
    told = [int(counter) for counter in re.findall(r"^PASS 5 (\d+)$", sent.read_text(), re.M)]
    return told, token(files / "book")["next"], requests


def clients_are_told_what_is_saved(folder: str) -> None:
    """Whichever request of a login is refused, its client is sent PASS for no counter that the book does not have as spent."""
    login, cut = command_of("login"), 0
    told, after, requests = sent_in_a_login(login, folder, 0)
    equal((told, after), ([0, 1], 2), "the counters that pass, as the client is told, and the next one in the book")
    for trial, number in each(range(1, requests + 1)):
        with trial:
            told, after, _ = sent_in_a_login(login, folder, number)
            holds(after > max(told, default=-1), "a counter passes that the book does not have as spent", told, after)
            cut += told != [0, 1]
    holds(cut > 0, "whichever request is refused, the client is told of both codes", requests)


def is_clean(folder: str, log: str) -> bool:
    """Whether the log is clean, and the whole log begins with it, apart from its end."""
    (pathlib.Path(folder) / "log").write_text(log)
    status, output, _ = ran([PROGRAM, "audit", "--book", "given", "--log", "log"], cwd=folder)
    is_front = LOGGED.startswith(log.removesuffix("C GONE\nE\n"))
    return is_front and status == 0 and output.startswith("clean sessions=")


def is_whole(printed: str) -> bool:
    """Whether the client was sent the lines of the server in the log and nothing else, the store holds the book after the code that has
    passed, and the log is the whole one."""
    wire, saved, log = printed.split("---\n")
    sent = "".join(line.removeprefix("S ") for line in LOGGED.splitlines(True) if line.startswith("S "))
    return (wire, log) == (sent, LOGGED) and parsed_book(saved) == after_codes(parsed_book(BOOK), 1)[1]


def calls_are_made_again(folder: str) -> None:
    """If a call of a desk is refused memory, the same call again leads to the log that was due, and has sent and saved what was due."""
    all_told(folder, "calls", is_whole, is_whole)


def turns_are_taken_again(folder: str) -> None:
    """If a turn of a desk is refused memory, the same line again leads to the log that was due."""
    all_told(folder, "turns", LOGGED.__eq__, LOGGED.__eq__)


def a_service_can_be_ended(folder: str) -> None:
    """If a service is refused memory, it ends with a clean log: some first lines of the one that was due, and then its end."""
    all_told(folder, "service", LOGGED.__eq__, lambda log: is_clean(folder, log))


def calls_of_a_hall_are_made_again(folder: str) -> None:
    """If a call of a hall is refused memory, the same call again leads to the log that was due."""
    all_told(folder, "hall", IN_HALL.__eq__, IN_HALL.__eq__)


def texts_are_written_again(folder: str) -> None:
    """Each text is written, whichever request is refused, and for each text a request is refused."""
    whole, answers = each_refused("texts", folder, "".join(f"{kind} {text}\n" for kind, text, *_ in TEXTS))
    want = [f"{row[0]} {row[-1]}" for row in TEXTS]
    equal(whole.splitlines(), [f"0 {it}" for it in want], whole)
    refused = set()
    for trial, answer in each(filter(None, answers)):
        with trial:
            rows = [row.split(" ", 1) for row in answer.splitlines()]
            told = [number for number, (times, _) in enumerate(rows) if times == "1"]
            equal([text for _, text in rows], want, answer)
            holds(len(told) <= 1, "one refused request is reported by several texts", answer)
            refused.update(told)
    equal(refused, set(range(len(TEXTS))), [TEXTS[number] for number in range(len(TEXTS)) if number not in refused])


def changed_again(folder: str, book: str) -> list[int]:
    """How many requests are refused in reading this book, in writing it and in adding an account to it. Whichever is refused, the book
    is read, and written before and after."""
    whole, answers = each_refused("changes", folder, book)
    texts, told = whole.rsplit("out of memory ", 1)
    before, after = texts.split("---\n")
    equal(told, "0 0 0\n", whole)
    equal(parsed_book(before), parsed_book(book), before)
    equal(parsed_book(after), with_account(parsed_book(book)), after)
    counts = [0, 0, 0]
    for trial, answer in each(answers):
        with trial:
            if answer not in (None, whole):
                holds("out of memory " in answer, "it has not ended as it should", answer)
                same, times = answer.rsplit("out of memory ", 1)
                times = [int(it) for it in times.split()]
                equal(same, texts, answer)
                equal(sum(times), 1, answer)
                counts = [sum(it) for it in zip(counts, times)]
    holds(2 * sum(counts) > len(answers), "at most half of the requests are told", counts, len(answers))
    return counts


def books_are_changed_again(folder: str) -> None:
    """A book with a token, and one without accounts: the first account of a book needs memory, and the second has room already."""
    reading, writing, adding = map(sum, zip(*[changed_again(folder, book) for book in (BOOK, NO_ACCOUNTS)]))
    holds(reading and writing and adding, "no request of reading a book, of writing it or of enrol is refused", reading, writing, adding)


suite.run_all()
