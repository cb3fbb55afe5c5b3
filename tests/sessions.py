#!/usr/bin/env python3
"""Audits logs of many sessions with the built program: logs of version 2, in which each line has its session's number."""
import pathlib
import random
from collections.abc import Iterable

import suite
from expected import AUDITS, AUTH, CONT, GONE, MECHS, OK, RESP, orders_of_turns
from suite import audit_says, code, each

BOOK = AUDITS / "hotp.toml"
FIRST_LINE = "SCRAMLOG 2"
# How a session ends whose client goes away.
AWAY, END = GONE.splitlines()
WRONG_PROOF = RESP.replace("p=v0X8", "p=w0X8")
INVALID_PROOF = "S NO :e=invalid-proof"

# The turns of three sessions: one is let in, one has a wrong proof, one gives up.
LET_IN = [[MECHS], [AUTH, CONT], [RESP, OK, AWAY, END]]
REFUSED = [[MECHS], [AUTH, CONT], [WRONG_PROOF, INVALID_PROOF, END]]
LEAVES = [[MECHS], ["C AUTH SCRAM-SHA-1", "S CONT :"], ["C ABORT", "S NO :", END]]
# For each session: its outcome, the opposite one, and what an audit says if that replaces it.
OUTCOMES = [
    (OK, INVALID_PROOF, f"outcome, due {OK[2:]}"),
    (INVALID_PROOF, OK, f"outcome, due {INVALID_PROOF[2:]}"),
    ("S NO :", INVALID_PROOF, "outcome, due NO :"),
]


def answers(what: str | tuple, folder: str, lines: list[str], answer: str, book: pathlib.Path = BOOK) -> None:
    """Compares the audit's answer to a log with these lines."""
    log = pathlib.Path(folder, "log")
    log.write_text("".join(f"{line}\n" for line in lines))
    audit_says(book, log, answer, what)


def numbers_of(order: Iterable[int]) -> dict[int, int]:
    """The number of each session, in the order in which they begin."""
    return {which: number for number, which in enumerate(dict.fromkeys(order), 1)}


def log_of(order: Iterable[int], sessions: list[list[list[str]]]) -> tuple[list[str], list[int | None]]:
    """The log of these sessions with their turns in this order, and for each line the session to which it belongs."""
    turns, numbers = [iter(session) for session in sessions], numbers_of(order)
    lines, owners = [FIRST_LINE], [None]
    for which in order:
        for line in next(turns[which]):
            lines.append(f"{numbers[which]} {line}")
            owners.append(which)
    return lines, owners


def all_orders(folder: str) -> None:
    """Every order of three turns of three sessions. Each of the three outcomes is turned around in a third of the orders."""
    orders = orders_of_turns()
    for trial, (index, order) in each(enumerate(orders)):
        with trial:
            lines, owners = log_of(order, [LET_IN, REFUSED, LEAVES])
            answers(order, folder, lines, "clean sessions=3 accepted=1 codes=0")
            which = index % 3
            outcome, other, answer = OUTCOMES[which]
            number = numbers_of(order)[which]
            at = next(at for at, owner in enumerate(owners) if owner == which and lines[at] == f"{number} {outcome}")
            lines[at] = f"{number} {other}"
            answers(f"{order}, {which} turned", folder, lines, f"line {at + 1}: {answer}")


def shuffled() -> tuple[list[str], int]:
    """64 logins in a random order, each of which sends the code of a counter near the next one. The reply is the one due after
    the replies before it in the whole log: a code passes if its counter is after all that have passed."""
    turns = [[MECHS], [AUTH, CONT], [RESP, OK], ["code"], ["reply"], [AWAY, END]]
    order = [which for which in range(64) for _ in turns]
    random.shuffle(order)
    left, numbers = [iter(turns) for _ in range(64)], numbers_of(order)
    lines, sent, after, passed = [FIRST_LINE], {}, 0, 0
    for which in order:
        for line in next(left[which]):
            if line == "code":
                sent[which] = after + random.randrange(3)
                line = f"C CODE {code(sent[which])}"
            elif line == "reply" and sent[which] >= after:
                after, passed = sent[which] + 1, passed + 1
                line = f"S PASS {len(lines)} {sent[which]}"
            elif line == "reply":
                line = f"S FAIL {len(lines)}"
            lines.append(f"{numbers[which]} {line}")
    return lines, passed


def shuffles(folder: str) -> None:
    """The token's history is that of the whole log, whichever sessions send the codes."""
    book = pathlib.Path(folder, "book")
    book.write_text(BOOK.read_text().replace("limit = 3\n", "limit = 100\n"))
    for trial, number in each(range(40)):
        with trial:
            lines, passed = shuffled()
            answers(f"shuffle {number}", folder, lines, f"clean sessions=64 accepted=64 codes={passed}", book)
            at = next(at for at, line in enumerate(lines) if " S FAIL " in line)
            moment = lines[at].rpartition(" ")[2]
            lines[at] = lines[at].replace(f"S FAIL {moment}", f"S PASS {moment} 0")
            answers(f"shuffle {number}, turned", folder, lines, f"line {at + 1}: reply, due FAIL {moment}", book)


def sixty_four(folder: str) -> None:
    """64 sessions are open, and one more is turned away. If it is offered mechanisms instead, that line is at fault."""
    opened = [FIRST_LINE] + [f"{number} {MECHS}" for number in range(1, 65)]
    ended = [f"{number} {line}" for number in range(1, 65) for line in (AWAY, END)]
    away = ["65 S BUSY", "65 E"]
    clean = "clean sessions=64 accepted=0 codes=0"
    answers("64 and one more", folder, opened + away + ended, clean)
    answers("64 and two more", folder, opened + away + ["66 S BUSY", "66 E"] + ended, clean)
    answers("a 65th", folder, opened + [f"65 {MECHS}"] + ended, "line 66: order")
    answers("BUSY with 63 open", folder, opened[:64] + ["64 S BUSY", "64 E"], "line 65: order")
    answers("BUSY without its E", folder, opened + away[:1] + ended, "line 67: order")
    answers("the E of another", folder, opened + ["65 S BUSY", "64 E"], "line 67: order")
    answers("the number of BUSY again", folder, opened + away + ended[:2] + [f"65 {MECHS}"], "line 70: order")
    answers("the number after BUSY's", folder, opened + away + ended[:2] + [f"66 {MECHS}", "66 C GONE", "66 E"] + ended[2:],
            "clean sessions=65 accepted=0 codes=0")
    answers("nothing after BUSY's E", folder, opened + away, "line 68: cut")


def other_numbers(folder: str) -> None:
    """A number is a decimal from 1 to 9223372036854775806 without a leading zero, and each session has the next one."""
    first, ended = [FIRST_LINE, f"1 {MECHS}"], [f"1 {AWAY}", f"1 {END}"]
    for trial, number in each(["0", "01", "-1", "+1", " 1", "", "9223372036854775807", "9223372036854775808", "18446744073709551617"]):
        with trial:
            answers(f"number {number!r}", folder, [FIRST_LINE, f"{number} {MECHS}"], "line 2: not a line")
            answers(f"then number {number!r}", folder, first + [f"{number} {AWAY}"], "line 3: not a line")
    for trial, number in each(["2", "9223372036854775806"]):
        with trial:
            answers(f"number {number}", folder, [FIRST_LINE, f"{number} {MECHS}"], "line 2: order")
            answers(f"then number {number}", folder, first + [f"{number} {AWAY}"], "line 3: order")
    answers("a number that is left out", folder, first + [f"3 {MECHS}"], "line 3: order")
    answers("a number that comes back", folder, first + ended + ended[:1], "line 5: order")
    answers("a number that begins again", folder, first + ended + first[1:], "line 5: order")
    answers("two spaces", folder, [FIRST_LINE, f"1  {MECHS}"], "line 2: not a line")
    answers("no space", folder, [FIRST_LINE, f"1{MECHS}"], "line 2: not a line")


def long_lines(folder: str) -> None:
    """A line may have 6202 bytes; after the first line of version 2 it may have 6222, of which 6202 follow its number."""
    cases = [
        ("6202 bytes of a first line", "S" * 6202, "line 1: cut"),
        ("6203 bytes of a first line", "S" * 6203, "line 1: not a line"),
        ("6202 bytes and LF", "S" * 6202 + "\n", "line 1: not a line"),
        ("6202 bytes, version 1", "SCRAMLOG 1\n" + "S" * 6202, "line 2: cut"),
        ("6203 bytes, version 1", "SCRAMLOG 1\n" + "S" * 6203, "line 2: not a line"),
        ("6202 bytes and LF, version 1", "SCRAMLOG 1\n" + "S" * 6202 + "\n", "line 2: not a line"),
        ("6203 bytes and LF, version 1", "SCRAMLOG 1\n" + "S" * 6203 + "\n", "line 2: not a line"),
    ]
    # After the first line of version 2: how many bytes, and the answers for them without an LF; and with an LF and no number, the
    # number 1, or the greatest number. What follows the number is a line that is not due.
    for size, *said in [
        (6202, "cut", "not a line", "order", "order"),
        (6203, "cut", "not a line", "order", "order"),
        (6204, "cut", "not a line", "order", "order"),
        (6205, "cut", "not a line", "not a line", "order"),
        (6222, "cut", "not a line", "not a line", "order"),
        (6223, "not a line", "not a line", "not a line", "not a line"),
    ]:
        for number, ended in zip(["", "1 ", "9223372036854775806 "], said[1:]):
            line = f"{number}C AUTH PLAIN :".ljust(size, "x")
            cases.append((f"{size} bytes after {number!r}", f"SCRAMLOG 2\n{line}", f"line 2: {said[0]}"))
            cases.append((f"{size} bytes after {number!r} and LF", f"SCRAMLOG 2\n{line}\n", f"line 2: {ended}"))
    log = pathlib.Path(folder, "log")
    for trial, (what, text, answer) in each(cases):
        with trial:
            log.write_text(text)
            audit_says(BOOK, log, answer, what)


suite.run_all()
