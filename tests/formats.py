#!/usr/bin/env python3
"""Checks each block of docs/FORMATS.md: the book and the logs are good ones, and the commands do what the page says they do. Checks two of
docs/DOORS.md too: a session of a hall, which is the one of docs/FORMATS.md, and the code that decides whom to let in.

The login of RFC 5802's user is the recorded one, data/audits/sha1.log. All commands for many logs are run, except that with `parallel`.
The grammar has the lines that audit_cases.py says are lines, and no others. A block that no test checks is a fault.
"""
import functools
import gzip
import math
import re
from pathlib import Path

import audit_cases
import processes
import suite
from blocks import SHOWN, Page, ran, shows
from checks import equal, holds
from expected import AUDITS
from suite import PROGRAM, each

PAGE, DOORS = Page("docs/FORMATS.md"), Page("docs/DOORS.md")
BOOK = PAGE.block("The account book", "toml")
LOG = PAGE.block("The lines of the protocol and of the log", "")
NUMBERED = PAGE.block("Numbered lines", "")
COMMANDS = PAGE.block("Many logs", "")
REPORT = PAGE.block("The rows of a report", "")
GRAMMAR = PAGE.block("The grammar of the lines", "abnf")
TRANSCRIPT = DOORS.block("A session")
LETS_IN = DOORS.block("Who has logged in", "python")
LOGIN, TWO_SESSIONS = "clean sessions=1 accepted=1 codes=0", "clean sessions=2 accepted=0 codes=0"

# The rules of RFC 5234, appendix B.1, that the grammar cites.
CORE = {"SP": "%x20", "LF": "%x0A", "DIGIT": "%x30-39"}
# A part of a rule: how often the next one comes, bytes, a text with its case, a text without, a bracket or a bar, another rule.
PART = re.compile(r'\s*(?:(\d*)\*(\d*)|%x(..)(?:-(..))?|%s"([^"]*)"|"([^"]*)"|([()\[\]/])|([a-z][\w-]*))\s*', re.I)

# The first lines of logs, which may also stand again in a log: they are then out of order, and a line all the same.
FIRST_LINES = [b"SCRAMLOG 1", b"SCRAMLOG 2"]

# Lines that a rule has, with each word of the grammar once; none of them is one in the other case. And lines that a rule does not have.
GOOD = {
    "event": [b"open a", b"open " + 256 * b"!", b"line 1 0 ", b"line 10 59 C\r \xff", b"gone 9223372036854775806 253402300799"],
    "from-server": [b"MECHS A-_9 B\n", b"CONT :\n", b"OK :%00%FF%20%25%7F~!\n", b"NO :e\n", b"PASS 59 0\n", b"FAIL 5\n", b"LOCKED 5\n",
                    b"NOCODE 0\n", b"HALT\n", b"BUSY\n"],
    "from-client": [b"AUTH A\n", b"AUTH A :%0A\n", b"RESP :\n", b"ABORT\n", b"CODE 1%2\n", b"SYNC 1 " + 16 * b"2" + b"\n"],
    "log-line": [b"S BUSY", b"C ABORT", b"C BAD", b"C GONE", b"E"],
}
BAD = {
    "event": [b"open", b"open ", b"open a,b", b"open " + 257 * b"!", b"line 1 0", b"line 0 0 ", b"line 01 0 ", b"line 1 00 ",
              b"line 1 0 \n", b"line 1 +5 ", b"gone 1", b"gone 1 5 ", b"gone  1 5"],
    "from-server": [b"MECHS\n", b"MECHS \n", b"MECHS A  B\n", b"MECHS " + 21 * b"A" + b"\n", b"CONT\n", b"CONT \n", b"OK :%41\n",
                    b"OK :%0a\n", b"OK :%7f\n", b"OK :%\n", b"OK :%2\n", b"NO : \n", b"NO :\x7f\n", b"NO :\r\n", b"NO :",
                    b"PASS 5\n", b"PASS 05 1\n", b"PASS 5 -1\n", b"FAIL 5 1\n", b"NOCODE\n", b"HALT \n", b"ABORT\n"],
    "from-client": [b"AUTH\n", b"AUTH \n", b"AUTH A:\n", b"AUTH A  :\n", b"RESP\n", b"CODE \n", b"CODE 1 2\n",
                    b"CODE " + 17 * b"1" + b"\n", b"SYNC 1\n", b"SYNC 1 2 3\n", b"HALT\n", b"BAD\n", b"\n"],
    "log-line": [b"", b"S", b"S ", b"E ", b" E", b"C BAD ", b"C bad", b"C gone", b"C HALT", b"S ABORT", b"S BAD", b"SCRAMLOG 1"],
}


def the_book(folder: str) -> None:
    """The book has the form in which a command saves it: a save leaves its text unchanged."""
    held = suite.BookFolder(folder, BOOK)
    suite.prints([PROGRAM, "unlock", "--book", held.book, "--name", "user"], "", 0, "unlocked user\n")
    equal(held.book.read_text(), BOOK, "the saved book")


def the_logs(folder: str) -> None:
    """The logs are clean by that book, and the first is the recorded login."""
    held = suite.BookFolder(folder, BOOK)
    equal(LOG, (AUDITS / "sha1.log").read_text(), "the login")
    held.audited(LOG, LOGIN)
    held.audited(NUMBERED, TWO_SESSIONS)


def the_rows(folder: str) -> None:
    """A report of the two sessions has these rows."""
    held, log = suite.BookFolder(folder, BOOK), Path(folder, "log")
    log.write_text(NUMBERED)
    suite.prints([PROGRAM, "report", "--book", held.book, "--log", log], "", 0, REPORT)


def many_logs(folder: str) -> None:
    """Each log has its answer, and the status is 123 if one is at fault. A compressed log is read from a pipe."""
    each_log, left_out, zipped = re.split(r"^(parallel .*\n)", COMMANDS, flags=re.M)
    here, due = Path(folder), [f"a.log: {LOGIN}", f"b.log: {TWO_SESSIONS}"]
    for name in "a", "b", "old":
        (here / f"{name}.toml").write_text(BOOK)
    (here / "a.log").write_text(LOG)
    (here / "old.log.gz").write_bytes(gzip.compress(LOG.encode()))
    for trial, (log, commands, status, lines) in each([
        (NUMBERED, each_log, 0, due),
        (NUMBERED.removesuffix("1 E\n"), each_log, 123, [due[0], "b.log: line 8: cut"]),
        (NUMBERED, zipped, 0, [LOGIN]),
    ]):
        with trial:
            (here / "b.log").write_text(log)
            answer = ran(folder, commands)
            equal((answer.status, sorted(answer.output.splitlines()), answer.faults), (status, lines, ""), commands)


@functools.cache
def rules() -> dict[str, str]:
    """The elements of each rule of the grammar by its name, without comments, and of the rules of CORE."""
    return CORE | dict(re.findall(r"^([a-z-]+) *=((?:.*\n)(?: +.*\n)*)", re.sub(r" *;.*", "", GRAMMAR), re.M))


@functools.cache
def pattern(name: str) -> str:
    """A regular expression for a rule. No rule may cite itself."""
    found, times, groups = "", "", []
    parts = list(PART.finditer(rules()[name]))
    equal("".join(part[0] for part in parts), rules()[name], name)
    for part in parts:
        least, most, first, last, cased, uncased, mark, cited = part.groups()
        if least is not None:
            times = f"{{{least or 0},{most}}}"
        elif mark in ("(", "["):
            groups.append(times if mark == "(" else "?")
            found, times = f"{found}(?:", ""
        elif mark:
            found += "|" if mark == "/" else f"){groups.pop()}"
        else:
            if first:
                one = f"[\\x{first}-\\x{last or first}]"
            elif cited:
                one = pattern(cited)
            else:
                one = re.escape(cased) if cased else f"(?i:{re.escape(uncased)})"
            found, times = f"{found}(?:{one}){times}", ""
    return found


def has(name: str, text: bytes) -> bool:
    """Whether a text is one of a rule."""
    return re.fullmatch(pattern(name).encode(), text) is not None


def no_line(log: bytes) -> float:
    """The number of the first line of a log that is in no form, or has a number that is too great; else infinity."""
    lines = log.split(b"\n")[:-1]
    rule = "numbered-line" if lines[:1] == FIRST_LINES[1:] else "log-line"
    for at, line in enumerate(lines, 1):
        is_small = all(int(number) < (1 << 63) - 1 for number in re.findall(rb"\d+", line.partition(b":")[0]))
        if line not in FIRST_LINES and not (at > 1 and is_small and has(rule, line)):
            return at
    return math.inf


def the_grammar(folder: str) -> None:
    """The grammar has the logs of this page, and of each log of audit_cases.py the lines that an audit takes for lines."""
    equal([has("log", LOG.encode()), has("numbered-log", NUMBERED.encode())], [True, True], "the logs of this page")
    equal([text for rule, texts in GOOD.items() for text in texts if not has(rule, text)], [], "lines that the grammar lacks")
    faulty = {rule: texts + [text.swapcase() for text in GOOD[rule]] for rule, texts in BAD.items()}
    equal([text for rule, texts in faulty.items() for text in texts if has(rule, text)], [], "lines that the grammar has")
    for trial, (_, log, answer, shows) in each(audit_cases.cases()):
        with trial:
            at_fault = re.match(r"line (\d+): (.*)", answer)
            number = int(at_fault[1]) if at_fault else 0
            if at_fault and at_fault[2] == "not a line":
                equal(no_line(log), number, shows)
            else:
                holds(no_line(log) > (number or log.count(b"\n")), "the grammar lacks a line of the log", shows)


def a_session_of_a_hall(folder: str) -> None:
    """The command of docs/DOORS.md prints what is shown below it: the login that this page has in a log, and a code. An audit calls it
    clean."""
    held = suite.BookFolder(folder, BOOK)
    held.book.rename(Path(folder, "book.toml"))
    printed = shows(folder, TRANSCRIPT)
    login = [f"1 {line}" for line in LOG.splitlines()[1:-2]]
    equal(printed.splitlines()[1:len(login) + 1], login, "the lines of the login")
    held.audited(printed, "clean sessions=1 accepted=1 codes=1")


def let_in(lines: list[str], needs_code: bool) -> list[tuple[str, tuple[str, str]]]:
    """The lines of a session at which the code of docs/DOORS.md lets someone in, with the names that it returns."""
    there = {}
    exec(LETS_IN, there)
    session = there["Session"](needs_code)
    return [(line, names) for line in lines if (names := session.hears(line))]


def who_has_logged_in(folder: str) -> None:
    """The code of docs/DOORS.md lets a client in at OK, or, if it needs a code, only at a PASS after it, and by the names that it
    gave."""
    lines = [line.removeprefix(SHOWN)[2:] for line in TRANSCRIPT.splitlines() if line.startswith(f"{SHOWN}1 ")]
    [accepted] = [line for line in lines if line.startswith("S OK ")]
    equal(let_in(lines, False), [(accepted, ("user", "user"))], "without a code")
    equal(let_in(lines, True), [("S PASS 59 0", ("user", "user"))], "with a code")
    for trial, last in each(["S FAIL 59", "S LOCKED 59", "S NOCODE 59", "S HALT"]):
        with trial:
            equal(let_in([*lines[:6], last], True), [], last)
    refused = [*lines[:4], "S NO :e=invalid-proof", "E"]
    equal([let_in(refused, needs_code) for needs_code in (False, True)], [[], []], "a login that is refused")
    equal(let_in(["S PASS 59 0"], True), [], "a code without a login")
    name, other = "a,b=2C %41", "=3D,c"
    book = Path(folder, "book.toml")
    suite.enrols(book, name)
    book.write_text(book.read_text().replace("act_as = []", f'act_as = ["{other}"]'))
    for trial, (acts_as, names) in each([([], (name, name)), (["--as", other], (name, other))]):
        with trial:
            login = suite.login_words(book, f"{folder}/socket", *acts_as, name=name)
            log = processes.ran(login, "pencil\n").given(acts_as)
            equal([given for _, given in let_in(log.splitlines(), False)], [names], log)


def every_block(folder: str) -> None:
    """No block of the document is left out."""
    equal(PAGE.left, [], "blocks that no test takes")


suite.run_all()
