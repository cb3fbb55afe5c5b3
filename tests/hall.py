#!/usr/bin/env python3
"""What the built program prints for many sessions over one book, and how it leaves the book. clients.py computes the logs that are due,
and the program itself audits most logs, by the book that the hall began with."""
import itertools
import os
import random
import tempfile

import clients
import suite
from checks import equal
from clients import Account, Turn, book, dealt, gone, logged_in, of_session, opened, said, turned_away
from expected import AUDITS, AUTH, HASHES, MECHS, RESP, orders_of_turns
from hall_support import HOTP_BOOK, OWN, Hall, clean, login
from suite import MEMORY, each, read_book

# How many random orders of all turns are tried.
SHUFFLES = int(os.environ.get("RUNS") or 1000)


def two_sessions(folder: str) -> None:
    """RFC 5802's login with a code, and in the middle of it a client that asks for another mechanism."""
    here = Hall(folder)
    events = [
        f"open {OWN}",
        "open zz",
        "line 2 1 AUTH PLAIN",
        f"line 1 1 {AUTH[2:]}",
        f"line 1 2 {RESP[2:]}",
        "line 1 3 CODE 755224",
        "gone 1 4",
    ]
    text, log = "\n".join(events), (AUDITS / "interleaved.log").read_text()
    equal(log.count("\n"), 14, "the lines of the recorded log")
    for trial, end in each(["\n", ""]):
        with trial:
            here.put(HOTP_BOOK)
            here.logs(text + end, 0, log)
            here.token_has(repr(end), next=1, failures=0)
    here.audited(log, clean(2, 1, 1))
    here.put(HOTP_BOOK)
    here.logs("", 0, clients.FIRST_LINE)
    here.audited(clients.FIRST_LINE, clean(0))
    equal(read_book(here.book)["accounts"]["user"]["sha1"], read_book(AUDITS / "hotp.toml")["accounts"]["user"]["sha1"], "the keys")


def sixty_four(folder: str) -> None:
    """While 64 sessions are open, a client that comes is turned away. Each number is given once."""
    here = Hall(folder)
    text = "open zz\n" * 64
    log = clients.FIRST_LINE + "".join(f"{number} {MECHS}\n" for number in range(1, 65))
    here.logs(text, 0, log)
    text, log = text + "open zz\n", log + "65 S BUSY\n65 E\n"
    here.logs(text, 0, log)
    text += "gone 1 0\nopen zz\nopen zz\n" + "".join(f"gone {number} 0\n" for number in range(2, 65))
    log += f"1 C GONE\n1 E\n66 {MECHS}\n67 S BUSY\n67 E\n" + "".join(f"{number} C GONE\n{number} E\n" for number in range(2, 65))
    here.logs(text + "gone 66 0\n", 0, log + "66 C GONE\n66 E\n")
    here.audited(log + "66 C GONE\n66 E\n", clean(65))
    here.logs(text + "gone 65 0\n", 1, log, "bad event")
    here.logs(text + "gone 67 0\n", 1, log, "bad event")


def bounds(folder: str) -> None:
    """The longest nonce is taken, and so are the first and the last moment."""
    here = Hall(folder)
    for trial, own in each(["z" * 256, "!", "~", "open"]):
        with trial:
            here.hears(opened(own), said("AUTH SCRAM-SHA-1", "S CONT :"))
    for trial, moment in each([0, 253402300799]):
        with trial:
            here.put(HOTP_BOOK)
            log = here.hears(*login(), said("CODE 000000", f"S FAIL {moment}", moment=moment), gone(moment))
            here.audited(log, clean(1, 1))


# Texts that are no protocol line, or that are not due at the beginning of a session.
BAD_LINES = [
    *[b"", b" ", b"ABORT ", b"abort", b"\xff\x00", b"AUTH", b"AUTH PLAIN :%2c", b"AUTH PLAIN :\r", b"CODE 1 2", b"open zz"],
    *[b"CODE 755224", b"RESP :", b"SYNC 755224 287082", b"MECHS PLAIN", b"BUSY"],
    *[b"AUTH PLAIN :" + b"x" * 6189, b"x" * 6200, b"x" * 500_000],
]


def lines_that_are_none(folder: str) -> None:
    """A text that is no protocol line, or is not due, is recorded as bad, and ends only the session of its client."""
    here = Hall(folder)
    for trial, line in each(BAD_LINES):
        with trial:
            log = f"{clients.FIRST_LINE}1 {MECHS}\n2 {MECHS}\n1 C BAD\n1 S NO :\n1 E\n2 C ABORT\n2 S NO :\n2 E\n"
            here.logs(b"open zz\nopen zz\nline 1 5 " + line + b"\nline 2 5 ABORT", 0, log)
            here.audited(log, clean(2))
    longest = "AUTH PLAIN :" + "x" * 6188
    log = f"{clients.FIRST_LINE}1 {MECHS}\n1 C {longest}\n1 S NO :\n1 E\n"
    here.logs(f"open zz\nline 1 5 {longest}\n", 0, log)
    here.audited(log, clean(1))


# First messages that a server without channel binding has to refuse, by RFC 5802, sections 6 and 7: a flag that asks for channel binding,
# by a name or by what is none; extensions without a value, or without a name of one letter; and the reserved extension.
REFUSED_FIRST = [
    *["p=tls-unique,,n=user,r=fyko", "p=tls-server-end-point,,n=user,r=fyko", "p=,,n=user,r=fyko", "p=tls_unique,,n=user,r=fyko"],
    *["n,,n=user,r=fyko,x", "n,,n=user,r=fyko,x=", "n,,n=user,r=fyko,xy=1", "n,,n=user,r=fyko,1=x", "n,,n=user,r=fyko,"],
    "n,,m=1,n=user,r=fyko",
]


def first_messages(folder: str) -> None:
    """A first message that asks for channel binding, or has an extension that is none, is refused. Other extensions change nothing."""
    here = Hall(folder)
    refused, taken = "1 S NO :\n1 E\n", "1 S CONT :r=fykozz,s=QSXCR+Q6sek8bf92,i=4096\n1 C GONE\n1 E\n"
    rows = [(first, "", refused) for first in REFUSED_FIRST]
    rows += [(first, "gone 1 5\n", taken) for first in ("n,,n=user,r=fyko,x=1", "y,,n=user,r=fyko,x=1,y=a=b")]
    for trial, (first, event, answer) in each(rows):
        with trial:
            here.put(HOTP_BOOK)
            log = f"{clients.FIRST_LINE}1 {MECHS}\n1 C AUTH SCRAM-SHA-1 :{first}\n{answer}"
            here.logs(f"open zz\nline 1 5 AUTH SCRAM-SHA-1 :{first}\n{event}", 0, log)
            here.audited(log, clean(1))


def codes_of_one_account(folder: str) -> None:
    """The codes of all sessions are attempts at one token, in the order in which they arrive (RFC 4226, appendix D)."""
    here = Hall(folder)
    codes = [("755224", "PASS 5 0"), ("755224", "FAIL 5"), ("359152", "PASS 5 2"), ("287082", "FAIL 5"), ("359152", "FAIL 5")]
    codes += [("000000", "FAIL 5"), ("969429", "LOCKED 5")]
    visits = [login() + [said(f"CODE {sent}", f"S {reply}"), gone()] for sent, reply in codes]
    text, log = dealt([which for _ in range(5) for which in range(len(visits))], visits)
    here.logs(text, 0, log)
    here.audited(log, clean(7, 7, 2))
    here.token_has(next=3, failures=3)


def told_at_once(folder: str) -> None:
    """Each line is in the log while the input is still open, and the code is spent."""
    here = Hall(folder)
    running = here.start()
    running.prints(clients.FIRST_LINE)
    for event, lines in login() + [said("CODE 755224", "S PASS 5 0"), gone()]:
        running.prints("".join(f"1 {line}\n" for line in lines), event.replace("#", "1") + "\n")
    here.token_has(next=1)
    running.ends(0)


def three_visits() -> tuple[list[Account], list[list[Turn]]]:
    """One client is let in and sends its token's code, one has a wrong proof, one is let in and sends two codes in a row. After `open`
    each has three turns, and those that are let in then go away."""
    anne, bob, carl = Account("anne", "SCRAM-SHA-256"), Account('bob, =7% of \\ "', "SCRAM-SHA-1"), Account("carl", "SCRAM-SHA-256")
    return [anne, bob, carl], [
        logged_in(anne, "nonce-of-anne", "own-1") + [said(f"CODE {anne.code(2)}", "S PASS 5 2"), gone()],
        turned_away(bob, "nonce-of-bob", "own-2"),
        logged_in(carl, "nonce-of-carl", "own-3") + [said(f"SYNC {carl.code(0)} {carl.code(1)}", "S PASS 5 1"), gone()],
    ]


def all_orders(folder: str) -> None:
    """Whatever the other two do in between, each session has the lines that it has when it runs by itself, the log is clean, and each
    account's counters are used that its own codes had."""
    accounts, visits = three_visits()
    anne, bob, carl = accounts
    here, text, alone = Hall(folder, book(accounts)), book(accounts), []
    for visit in visits:
        here.put(text)
        alone.append(of_session(here.hears(*visit), 1))
    for trial, (order, begun) in each(zip(orders_of_turns(), itertools.cycle(itertools.permutations([0, 1, 2])))):
        with trial:
            here.put(text)
            events, log = dealt(begun + order + (0, 2), visits)
            printed = here.logs(events, 0, log)
            equal([of_session(printed, number) for number in [1, 2, 3]], [alone[which] for which in begun], begun, order, printed)
            here.tokens_are({anne.name: (3, 0), bob.name: (0, 0), carl.name: (2, 0)}, begun, order)
            here.audited(printed, clean(3, 2, 2))


def shuffled(folder: str) -> None:
    """64 logins to 64 accounts, each with a code, in random orders: each line of a session belongs to its own login, the log is clean, and
    each code is counted for its own account."""
    accounts = [Account(f"user {number}", list(HASHES)[number % 2]) for number in range(64)]
    # A book is saved 64 times in each order.
    with tempfile.TemporaryDirectory(dir=MEMORY) as folder:
        here, text = Hall(folder, book(accounts)), book(accounts)
        for _ in range(SHUFFLES):
            order, visits, tokens = shuffle_of(accounts)
            here.put(text)
            events, log = dealt(order, visits)
            here.logs(events, 0, log)
            here.tokens_are(tokens)
            here.audited(log, clean(64, 64, log.count(" S PASS ")))


def shuffle_of(accounts: list[Account]) -> tuple[list[int], list[list[Turn]], dict[str, tuple[int, int]]]:
    """A login to each account, with a code that passes or fails, and an order of their turns, all at random; and what then are the next
    counter and the failures of each account."""
    visits, tokens = [], {}
    for account in accounts:
        counter = random.randrange(5)
        reply = f"S PASS 5 {counter}" if counter <= 3 else "S FAIL 5"
        tokens[account.name] = (counter + 1, 0) if counter <= 3 else (0, 1)
        nonces = [f"{random.getrandbits(64):x}" for _ in range(2)]
        visits.append(logged_in(account, *nonces) + [said(f"CODE {account.code(counter)}", reply), gone()])
    order = [which for which in range(64) for _ in range(5)]
    random.shuffle(order)
    return order, visits, tokens


suite.run_all()
