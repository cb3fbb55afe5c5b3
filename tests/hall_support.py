"""What the scripts on `hall` share: a folder with a book, halls over it, and RFC 5802's login in a hall."""
from typing import Any

import suite
from checks import equal
from clients import Turn, dealt, opened, said
from expected import AUDITS, AUTH, CONT, OK, RESP
from processes import Running
from suite import PROGRAM

OWN = "3rfcNHYJY1ZVvWVs7j"
# RFC 5802's user with RFC 4226's token
HOTP_BOOK = (AUDITS / "hotp.toml").read_text()


class Hall(suite.BookFolder):
    """A folder with a book, and halls over it."""

    def __init__(self, folder: str, text: str = HOTP_BOOK) -> None:
        super().__init__(folder, text)
        self.words = [PROGRAM, "hall", "--book", self.book]

    def logs(self, text: str | bytes, status: int, log: str, fault: str = "") -> str:
        """Runs a hall, and compares its status, log and fault. Returns the log that was printed."""
        return suite.prints(self.words, text, status, log, fault)

    def refuses(self, text: str, status: int, fault: str) -> None:
        """As `logs`, for a hall that prints nothing; it has to write no file either."""
        seen = self.seen()
        self.logs(text, status, "", fault)
        equal(self.seen(), seen, f"the book and its folder after {text[:200]!r}")

    def hears(self, *visit: Turn) -> str:
        """Gives a hall these turns of one client, without another, and compares the log. Returns the log that was printed."""
        events, log = dealt([0] * len(visit), [visit])
        return self.logs(events, 0, log)

    def start(self, **more: Any) -> Running:
        """Starts a hall, which waits for input."""
        return Running(self.words, **more)


def clean(sessions: int, accepted: int = 0, codes: int = 0) -> str:
    return f"clean sessions={sessions} accepted={accepted} codes={codes}"


def login() -> list[Turn]:
    """The three turns of RFC 5802's login."""
    return [opened(OWN), said(AUTH[2:], CONT), said(RESP[2:], OK)]
