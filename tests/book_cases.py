"""The rows of data/book_faults/cases.csv: account books, most of them faulty.

Each row is a book: a file next to the table, in which `old`, which occurs once, is replaced by `new`, and then `old2` by `new2`. `\\n`,
`\\\\` and `\\xNN` are written as in Python. `base` names the file, and `shows` says what the row is about. The answer is a fault's number,
from docs/FORMATS.md (docs/FORMATS.md has the order of the checks), or what `unlock` prints for the account `user` in a book that it
reads.
"""
from typing import NamedTuple

from expected import BOOK_FAULTS, edited_texts

TABLE = BOOK_FAULTS / "cases.csv"


class Case(NamedTuple):
    """A book, the answer, and what the case shows."""

    book: bytes
    answer: str
    shows: str


def cases() -> list[Case]:
    """The cases of all rows, in the table's order."""
    return [Case(book, row["answer"], row["shows"]) for row, book in edited_texts(TABLE, "base", ".toml")]
