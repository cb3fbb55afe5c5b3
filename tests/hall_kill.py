#!/usr/bin/env python3
"""Halls over one book that are killed before any of their calls, while many sessions send codes of one account: no counter passes twice in
all their logs, the book can always be read, and each log is the beginning of a clean one.

Two thousand halls, in each of which 64 sessions log in, and 24 of them send 12 codes, each code by two. RUNS in the environment is another
number of halls. Needs `cc`.
"""
import random

import clients
import suite
from clients import Account, book, logged_in
from hall_support import Hall
from kills import kill_before_any_call
from processes import whole

RUNS = 2000
# How many sessions log in before the first code, and how many different codes are then sent.
OPEN = 64
SENT = 12


def codes_from(account: Account, at: int) -> str:
    """Input lines by which sessions send codes around a counter, each code from two sessions."""
    senders = random.sample(range(1, OPEN + 1), 2 * SENT)
    sent = [account.code(max(at - 1, 0) + step // 2) for step in range(2 * SENT)]
    return "".join(f"line {sender} 5 CODE {text}\n" for sender, text in zip(senders, sent))


def killed_before_any_call(folder: str) -> None:
    """Halls are killed before any of their calls, and each next one goes on from the book that they leave."""
    account = Account("user", "SCRAM-SHA-1")
    here = Hall(folder, book([account]))
    visits = [logged_in(account, f"client-{number}", f"own-{number}") for number in range(OPEN)]
    events = clients.dealt([which for _ in range(3) for which in range(OPEN)], visits)[0]
    kill_before_any_call(here, lambda at, **how: whole(here.words, events + codes_from(account, at), **how), RUNS, 0)
    here.logs("", 0, clients.FIRST_LINE)
    here.has_only("book")


suite.run_all()
