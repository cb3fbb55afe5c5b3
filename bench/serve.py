#!/usr/bin/env python3
"""Times a service: logins and codes with the book in memory, and codes with the book in a file.

Usage: serve.py PROGRAM BENCH

BENCH is the built crate bench. In memory, one core serves the login of RFC 7677's example again and again, and then one login
with the codes of RFC 4226's secret, each of which saves the book; with a file, `login` sends such codes. The book has one account,
and then a thousand. The time with a file is printed next to that of the saves by themselves: a text of the book's length, written,
synced and renamed, and its folder synced. Best of several turns, without the start.
"""
import os
import pathlib
import sys
import tempfile
import time

from books import mechanism
from timed import TURNS, best, exactly, wall
from expected import AUDITS, SHA256_NONCES, code

LOGINS = 100_000
CODES = 5_000  # one session has 10000 turns
SAVED = 100
SECRET = b"12345678901234567890"
# A recorded session is all of its log except the first line.
LOGGED = len((AUDITS / "sha256.log").read_bytes()) - len("SCRAMLOG 1\n")


def book(accounts: int) -> str:
    """A book of so many accounts: RFC 7677's user with RFC 4226's token, and others."""
    others = "".join(
        f"\n[accounts.user{i:04}]\nact_as = []\n{mechanism(f'user{i:04}', 'sha1', 20)}{mechanism(f'user{i:04}', 'sha256', 32)}"
        for i in range(1, accounts)
    )
    return (AUDITS / "sha256.toml").read_text() + f'''
[accounts.user.token]
digits = 6
failures = 0
kind = "hotp"
limit = 3
look_ahead = 0
next = 0
secret = "{SECRET.hex()}"
{others}'''


def over_memory(bench: str, path: str) -> tuple[float, float]:
    """The logins per second, and the codes per second."""
    start = best([bench, "logins", "0", path], exactly("served 0 logged 0 sent 0\n"))
    logins = best([bench, "logins", str(LOGINS), path], lambda it: it.startswith(f"served {LOGINS} logged {LOGINS * LOGGED} sent "))
    # for each code, the log has `C CODE` with six digits, and `S PASS 5` with a counter
    logged = LOGGED + sum(len(f"C CODE 000000\nS PASS 5 {counter}\n") for counter in range(CODES))
    codes = best([bench, "codes", str(CODES), path], lambda it: it.startswith(f"served true logged {logged} sent "))
    return LOGINS / (logins - start), CODES / (codes - start)


def over_file(program: str, folder: str, text: str, codes: list[str]) -> float:
    """The least seconds of a login with these codes, over a book in a file."""
    paths = ["--book", f"{folder}/book", "--socket", f"{folder}/socket"]
    words = [program, "login", *paths, "--name", "user", "--moment", "5", *SHA256_NONCES]
    given = "".join(f"{it}\n" for it in ["pencil", *codes])
    turns = []
    for _ in range(TURNS):
        pathlib.Path(folder, "book").write_text(text)
        turns.append(wall(words, lambda it: it.count("\nS PASS 5 ") == len(codes), given))
    return min(turns)


def synced(folder: str, size: int) -> float:
    """The seconds that it takes to replace a file of this size: written, synced, renamed, and its folder synced."""
    data, place = b"x" * size, os.open(folder, os.O_RDONLY)
    begun = time.perf_counter()
    for _ in range(SAVED):
        file = os.open(f"{folder}/new", os.O_WRONLY | os.O_CREAT | os.O_TRUNC, 0o600)
        os.write(file, data)
        os.fsync(file)
        os.close(file)
        os.rename(f"{folder}/new", f"{folder}/old")
        os.fsync(place)
    taken = (time.perf_counter() - begun) / SAVED
    os.close(place)
    return taken


def main() -> None:
    program, bench = sys.argv[1:]
    codes = [code(SECRET, at) for at in range(SAVED)]
    for accounts in (1, 1000):
        text = book(accounts)
        with tempfile.TemporaryDirectory() as folder:
            path = os.path.join(folder, "opening")
            pathlib.Path(path).write_text(text)
            logins, in_memory = over_memory(bench, path)
            none, all_codes = over_file(program, folder, text, []), over_file(program, folder, text, codes)
            each, sync = (all_codes - none) / SAVED, synced(folder, len(text))
        rates = f"{logins:,.0f} logins a second, {in_memory:,.0f} codes a second"
        print(f"book of {accounts} accounts, {len(text)} bytes: over memory {rates};")
        print(f"over a file {each * 1000:.2f} ms a code; to write and sync such a file takes {sync * 1000:.2f} ms of that")


if __name__ == "__main__":
    main()
