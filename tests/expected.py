"""What several scripts compare with or start from, computed in Python and not by the program: codes, keys, salts of decoys, the texts
of the tables' rows, sessions, logs with numbers, and orders of turns. Also the paths of the recorded logs, books and vectors, the book
and the nonces of published logins, and the mechanisms' hash functions."""
import base64
import csv
import hashlib
import hmac
import itertools
import os
import pathlib
import random
from collections.abc import Iterator

from checks import equal, holds

DATA = pathlib.Path(__file__).resolve().parent / "data"
# Logs that were put together by hand from the examples of RFC 5802 and RFC 7677 and codes of RFC 4226, the books by which they are
# judged, and the table cases.csv.
AUDITS = DATA / "audits"
# Books, and the table cases.csv of their faults.
BOOK_FAULTS = DATA / "book_faults"
# keys.csv, codes.csv and verifiers.csv: keys, codes and verifiers that other software made.
VECTORS = DATA / "vectors"

# The login of RFC 5802's example, section 5, as lines without LF; and those of its lines from the mechanisms to the acceptance.
LOGIN_LINES = (AUDITS / "sha1.log").read_text().splitlines()
MECHS, AUTH, CONT, RESP, OK = LOGIN_LINES[1:6]
# The text of that log up to the acceptance, and how a session ends whose client goes away.
ACCEPTED = "".join(f"{line}\n" for line in LOGIN_LINES[:6])
GONE = "C GONE\nE\n"
# The book of that example's account `user`, which has no token.
KEYS_TOML = (AUDITS / "keys.toml").read_text()

# The options with which `login` has the nonces of RFC 7677's example, section 3.
SHA256_NONCES = ["--client-nonce", "rOprNGfwEbeRWgbNEkqO", "--server-nonce", "%hvYDpWUa2RaTCAfuxFIlj)hNlF$k0"]

# The hash function of each mechanism, by the name that it has in Python and in a book.
HASHES = {"SCRAM-SHA-1": "sha1", "SCRAM-SHA-256": "sha256"}

# A session of three lines in a log of version 1, in which the client leaves at once.
SESSION_LEFT = f"{MECHS}\n{GONE}".encode()


def base64_of(data: bytes) -> str:
    """The base64 text of some bytes."""
    return base64.b64encode(data).decode()


def code(secret: bytes, counter: int, digits: int = 6, function: str = "sha1") -> str:
    """The code for a counter (RFC 4226, section 5.3; RFC 6238 for other hash functions)."""
    tag = hmac.digest(secret, counter.to_bytes(8, "big"), function)
    at = tag[-1] & 15
    return f"{(int.from_bytes(tag[at:at + 4], 'big') & 0x7FFFFFFF) % 10**digits:0{digits}}"


def login_keys(function: str, password: bytes, salt: bytes, count: int) -> tuple[bytes, bytes]:
    """The client key and the server key of a password (RFC 5802, section 3)."""
    salted = hashlib.pbkdf2_hmac(function, password, salt, count)
    return hmac.digest(salted, b"Client Key", function), hmac.digest(salted, b"Server Key", function)


def keys_of(function: str, password: bytes, salt: bytes, count: int) -> tuple[str, str]:
    """The stored key and the server key of a password, in hexadecimal (RFC 5802, section 3)."""
    client, server = login_keys(function, password, salt, count)
    return hashlib.new(function, client).hexdigest(), server.hex()


def proved(function: str, client: bytes, server: bytes, auth_message: bytes) -> tuple[bytes, bytes]:
    """The proof and the signature of a login with this AuthMessage, from the client key and the server key (RFC 5802, section 3)."""
    mask = hmac.digest(hashlib.new(function, client).digest(), auth_message, function)
    return bytes(one ^ other for one, other in zip(client, mask)), hmac.digest(server, auth_message, function)


# The decoy key of the books.
DECOY_KEY = bytes(range(32))


def decoy_salt(name: str, mechanism: str = "SCRAM-SHA-1", key: bytes = DECOY_KEY) -> bytes:
    """The salt in the challenge for a name without an account. The form is this project's own, given in docs/FORMATS.md."""
    return hmac.digest(key, f"{mechanism}\0{name}".encode(), "sha256")[:16]


def orders_of_turns() -> list[tuple]:
    """All orders of three turns of each of three sessions; or if RUNS is in the environment, at most so many of them, chosen at random."""
    orders = sorted(set(itertools.permutations([0, 0, 0, 1, 1, 1, 2, 2, 2])))
    equal(len(orders), 1680, "the number of orders")
    count = int(os.environ.get("RUNS") or len(orders))
    return random.sample(orders, count) if count < len(orders) else orders


def spelled(text: str) -> bytes:
    """The bytes that the text in a table's cell stands for."""
    return text.encode("latin-1").decode("unicode_escape").encode("latin-1")


def rows_of(table: pathlib.Path) -> list[dict[str, str]]:
    """The rows of a table, a CSV file, of which there is at least one."""
    with open(table, newline="", encoding="utf-8") as file:
        rows = [*csv.DictReader(file)]
    holds(rows, f"{table} has no rows")
    return rows


def edited(text: bytes, row: dict[str, str]) -> bytes:
    """A text in which `old` of a table's row, which occurs once, is replaced by `new`, and then `old2` by `new2`."""
    for old, new in [(row["old"], row["new"]), (row["old2"], row["new2"])]:
        if old:
            equal(text.count(spelled(old)), 1, f"{row}: what is replaced does not stand there once")
            text = text.replace(spelled(old), spelled(new))
    return text


def edited_texts(table: pathlib.Path, column: str, suffix: str) -> Iterator[tuple[dict[str, str], bytes]]:
    """Each row of a table, with its text after the row's edits. A file next to the table has the text; this column names it without its
    suffix."""
    for row in rows_of(table):
        yield row, edited((table.parent / row[column]).with_suffix(suffix).read_bytes(), row)


def numbered(log: str) -> str:
    """A log of version 1, converted to version 2."""
    first, *lines = log.splitlines(keepends=True)
    equal(first, "SCRAMLOG 1\n", log)
    session, upgraded = 1, ["SCRAMLOG 2\n"]
    for line in lines:
        upgraded.append(f"{session} {line}")
        session += line == "E\n"
    return "".join(upgraded)
