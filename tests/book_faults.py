#!/usr/bin/env python3
"""Compares the built program's answers to account books, most of them faulty, with a table.

The table is data/book_faults/cases.csv. Each fault number occurs at each place that can have it, and of a book with two faults, the table
says which is named. A book is judged before a name is looked up, and a book that is refused is left as it is.
"""
import pathlib

import suite
from book_cases import TABLE, Case, cases
from checks import equal
from suite import PROGRAM, each, prints

NUMBERS = {str(number) for number in range(60, 68)}


def due(answer: str) -> tuple[int, str, str]:
    """The status, the output and the fault of `unlock` for this answer."""
    if answer == "unlocked user":
        return 0, "unlocked user\n", ""
    return 1, "", f"bad book: {answer}" if answer in NUMBERS else answer


def check(where: str, path: pathlib.Path, case: Case) -> None:
    """Runs a case, and compares what the program answers; a book that it refuses has to be unchanged."""
    path.write_bytes(case.book)
    status, output, fault = due(case.answer)
    prints([PROGRAM, "unlock", "--book", path, "--name", "user"], b"", status, output, fault, where)
    if status != 0:
        equal(path.read_bytes(), case.book, f"{where}: the book")


def rows_of_table(folder: str) -> None:
    """Each row has its answer, and each fault's number has a row."""
    rows = cases()
    for trial, (line, case) in each(enumerate(rows, 2)):
        with trial:
            check(f"{TABLE.name}: line {line}: {case.shows}", pathlib.Path(folder, "book"), case)
    equal(NUMBERS - {case.answer for case in rows}, set(), "the numbers that have no row")


suite.run_all()
