#!/usr/bin/env python3
"""Logins over one book that are killed before any of their calls: no counter passes twice in all their logs, the book can always be read,
and each log is the beginning of a clean one.

Two thousand logins. RUNS in the environment is another number of them. Needs `cc`.
"""
from typing import Any

import suite
from checks import holds
from expected import KEYS_TOML
from kills import kill_before_any_call
from processes import Running, whole
from suite import BookFolder, code, hotp, login_words

BOOK = KEYS_TOML + hotp(look_ahead=3, limit=100, sync_ahead=10)
RUNS = 2000


def killed_before_any_call(folder: str) -> None:
    """Logins are killed before any of their calls, and each next one goes on from the book that they leave."""
    here = BookFolder(folder, BOOK)

    def login(lines: list[str], **how: Any) -> Running:
        here.socket.unlink(missing_ok=True)
        return whole(login_words(here.book, here.socket, "--mechanism", "SCRAM-SHA-1"), "\n".join(["pencil", *lines, ""]), **how)

    def started(at: int, **how: Any) -> Running:
        """A login with codes around a counter, and with pairs of codes further on."""
        pairs = [f"SYNC {code(counter)} {code(counter + 1)}" for counter in (at + 5, at + 10, at + 14)]
        return login([*map(code, range(max(at - 1, 0), at + 6)), *pairs, code(at + 16), code(at + 17)], **how)

    # A code of a pair has passed before, so a whole run ends with status 1.
    kill_before_any_call(here, started, RUNS, 1)
    log = login([code(here.token()["next"])]).end().given()
    holds("\nS PASS " in log, "no code passes after the runs that were killed", log)
    here.has_only("book")


suite.run_all()
