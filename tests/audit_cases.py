"""The rows of data/audits/cases.csv: logs, most of them faulty, with the books by which they are judged.

A row names a log and a book in that folder. In the log, `old`, which occurs once, is replaced by `new`, and then `old2` by `new2`;
`\\n` is written as in Python. The answer is the line that an audit has to print, by docs/FORMATS.md. The signatures are those that the
RFCs print, and the codes those of RFC 4226 and RFC 6238. `rows` are those that a report has of the log, each with `\\n` before the next.
`shows` says what is right or wrong in the log.
"""
import pathlib
from typing import NamedTuple

from expected import AUDITS, edited_texts

TABLE = AUDITS / "cases.csv"


class Case(NamedTuple):
    """The file of the book, the bytes of the log, the answer, and what the case shows."""

    book: pathlib.Path
    log: bytes
    answer: str
    shows: str


def cases() -> list[Case]:
    """The cases of all rows, in the table's order."""
    logs = edited_texts(TABLE, "log", ".log")
    return [Case((AUDITS / row["book"]).with_suffix(".toml"), log, row["answer"], row["shows"]) for row, log in logs]
