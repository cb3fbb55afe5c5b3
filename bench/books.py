#!/usr/bin/env python3
"""Times a book of 1000 accounts: reading it, and runs of the program, compared with Python's tomllib on the same text.

Usage: books.py PROGRAM BENCH

BENCH is the built crate bench. Each account has keys for both mechanisms, and one has a token. `Book::read`
and `tomllib.loads` each make a book, or a dict, from the text in memory and drop it; the start of a process is not
counted. `verify` with no input starts, holds the book, reads it and ends; with one code it also judges
the code, writes the book and replaces the old one with it, synced. Wall time, best of several turns.
"""
import hashlib
import os
import sys
import tempfile
import tomllib
from timeit import timeit

from timed import exactly, wall

ACCOUNTS = 1000
TURNS = 20
READINGS = 5  # in each turn
SECRET = b"12345678901234567890"
CODE = "755224"  # RFC 4226, appendix D: counter 0


def hexadecimal(label: str, size: int) -> str:
    """So many bytes that follow from a label, in hexadecimal."""
    return hashlib.sha512(label.encode()).digest()[:size].hex()


def mechanism(name: str, table: str, size: int) -> str:
    """The table of an account's keys for one mechanism, of so many bytes each."""
    return f'''
[accounts.{name}.{table}]
count = 4096
salt = "{hexadecimal(name + table, 16)}"
server = "{hexadecimal(name + table + "server", size)}"
stored = "{hexadecimal(name + table + "stored", size)}"
'''


def text() -> str:
    """The text of a book of ACCOUNTS accounts, one of which has a token."""
    parts = [f'decoy_count = 4096\ndecoy_key = "{hexadecimal("decoy", 32)}"\nformat = 1\n']
    for i in range(ACCOUNTS):
        name = f"user{i:04}"
        parts.append(f"\n[accounts.{name}]\nact_as = []\n")
        parts.append(mechanism(name, "sha1", 20) + mechanism(name, "sha256", 32))
    parts.append(f'''
[accounts.user0500.token]
digits = 6
failures = 0
kind = "hotp"
limit = 3
look_ahead = 3
next = 0
secret = "{SECRET.hex()}"
''')
    return "".join(parts)


def times(program: str, bench: str, content: str) -> list[float]:
    """The least seconds of a run of bench that only reads the file, of one that also reads the book, of verify
    with no code and with one, and of tomllib."""
    turns = []
    with tempfile.TemporaryDirectory() as folder:
        book = os.path.join(folder, "book.toml")
        verify = [program, "verify", "--book", book, "--name", "user0500", "--moment", "5"]
        for _ in range(TURNS):
            with open(book, "w") as file:
                file.write(content)
            turns.append((
                wall([bench, "book", "0", book], exactly("book 0 of 0\n")),
                wall([bench, "book", str(READINGS), book], exactly(f"book {READINGS} of {READINGS}\n")),
                wall(verify, exactly("")),
                wall(verify, exactly("PASS 5 0\n"), CODE + "\n"),
                timeit(lambda: tomllib.loads(content), number=READINGS) / READINGS,
            ))
    return [min(column) for column in zip(*turns)]


def main() -> None:
    program, bench = sys.argv[1:]
    content = text()
    start, read, held, judged, python = times(program, bench, content)
    ours = (read - start) / READINGS
    print(f"book of {ACCOUNTS} accounts, {len(content)} bytes; ratios to tomllib.loads, {python * 1000:.1f} ms:")
    for what, taken in (("Book::read", ours), ("verify with no code", held), ("verify with one code", judged)):
        print(f"{what}: {taken * 1000:.1f} ms, ratio {taken / python:.2f}")


if __name__ == "__main__":
    main()
