#!/usr/bin/env python3
"""Times audits and reports of long logs, as processor time of the program's run, and measures its memory.

Usage: audit.py PROGRAM

The script makes each log, with messages and codes from Python's hmac: logins by SCRAM-SHA-1 and SCRAM-SHA-256 in turn, each
with its own nonces, one after another, and as logs of version 2, one after another and 64 at once; and sessions of many
accounts, in each of which many codes pass. Each audit has to answer with the log's own counts, and each report has to have a row for each
login and each code before them. The times are the best of several turns, and include the start of the program and the reading of the
book.
"""
import hashlib
import os
import pathlib
import subprocess
import sys
import tempfile
from collections.abc import Iterator

from timed import TURNS, exactly, processor
from expected import HASHES, base64_of, code, login_keys, proved

LOGINS = 142_000
FEW = 1_000
ACCOUNTS = 1_000
CODES = 200  # for each account
SALT = b"0123456789ab"
SECRET = b"12345678901234567890"
MECHANISMS = {table: mechanism for mechanism, table in HASHES.items()}
COUNT = 4096
# ClientKey and ServerKey of the password (RFC 5802, section 3).
KEYS = {table: login_keys(table, b"pencil", SALT, COUNT) for table in MECHANISMS}


def book(names: list[str], token: bool) -> str:
    """A book in which each name has keys for both mechanisms, and a token if `token`."""
    parts = [f'format = 1\ndecoy_key = "{bytes(range(32)).hex()}"\ndecoy_count = {COUNT}\n']
    for name in names:
        for table, (client, server) in KEYS.items():
            stored = hashlib.new(table, client).hexdigest()
            parts.append(f'[accounts.{name}.{table}]\nsalt = "{SALT.hex()}"\ncount = {COUNT}\n')
            parts.append(f'stored = "{stored}"\nserver = "{server.hex()}"\n')
        if token:
            parts.append(f'[accounts.{name}.token]\nkind = "hotp"\nsecret = "{SECRET.hex()}"\ndigits = 6\n')
            parts.append("next = 0\nlook_ahead = 3\nlimit = 3\nfailures = 0\n")
    return "".join(parts)


def login(table: str, name: str, number: int) -> str:
    """The lines of a login that is accepted, from MECHS to OK."""
    nonce = base64_of(hashlib.md5(f"c{number}".encode()).digest() + b"!!")
    whole = nonce + base64_of(hashlib.md5(f"s{number}".encode()).digest() + b"!!")
    bare, front = f"n={name},r={nonce}", f"c=biws,r={whole}"
    challenge = f"r={whole},s={base64_of(SALT)},i={COUNT}"
    proof, signature = proved(table, *KEYS[table], f"{bare},{challenge},{front}".encode())
    return (
        "S MECHS SCRAM-SHA-256 SCRAM-SHA-1\n"
        f"C AUTH {MECHANISMS[table]} :n,,{bare}\n"
        f"S CONT :{challenge}\n"
        f"C RESP :{front},p={base64_of(proof)}\n"
        f"S OK :v={base64_of(signature)}\n"
    )


def logins(count: int) -> Iterator[str]:
    """The lines of so many logins to `user`, of which each ends by `C GONE`."""
    tables = list(MECHANISMS)
    return (login(tables[i % 2], "user", i) + "C GONE\nE\n" for i in range(count))


def of_logins(count: int) -> tuple[str, str]:
    """A log of so many logins, and the answer of an audit."""
    return "SCRAMLOG 1\n" + "".join(logins(count)), f"clean sessions={count} accepted={count} codes=0\n"


def at_once(count: int, open_sessions: int) -> tuple[str, str]:
    """A log of version 2 with the same logins, of which `open_sessions` are open at a time: a line of each in turn, and the next login
    begins when one ends."""
    waiting = enumerate(logins(count), 1)
    seats = [None] * open_sessions
    lines = ["SCRAMLOG 2\n"]
    while len(lines) <= 7 * count:
        for seat, guest in enumerate(seats):
            if guest is None:
                number, text = next(waiting, (None, ""))
                guest = seats[seat] = (number, iter(text.splitlines(keepends=True)))
            line = next(guest[1], None)
            if line is not None:
                lines.append(f"{guest[0]} {line}")
            if line is None or line == "E\n":
                seats[seat] = None
    return "".join(lines), f"clean sessions={count} accepted={count} codes=0\n"


def of_codes(names: list[str]) -> tuple[str, str]:
    """A log of a login to each of these accounts, with codes, and the answer of an audit."""
    codes = "".join(f"C CODE {code(SECRET, counter)}\nS PASS {counter} {counter}\n" for counter in range(CODES))
    sessions = (login("sha256", name, i) + codes + "C GONE\nE\n" for i, name in enumerate(names))
    count = len(names)
    return "SCRAMLOG 1\n" + "".join(sessions), f"clean sessions={count} accepted={count} codes={count * CODES}\n"


def rows(log: str) -> str:
    """The rows of a log of version 1, in which logins are accepted and codes pass."""
    found, session, name, mechanism = [], 0, "", ""
    for line, text in enumerate(log.splitlines(), 1):
        words = text.split(" ")
        if words[1:2] == ["MECHS"]:
            session += 1
        elif words[1:2] == ["AUTH"]:
            mechanism, name = words[2], words[3].partition("n=")[2].partition(",")[0]
        elif words[1:2] == ["OK"]:
            found.append(f"{line} {session} accepted {name} - {mechanism} -\n")
        elif words[1:2] == ["PASS"]:
            found.append(f"{line} {session} passed {name} - {mechanism} {words[2]} {words[3]}\n")
    return "".join(found)


def peak(words: list, log: str, want: str) -> int:
    """The peak memory in KiB of a run that reads the log from a pipe, looked up when it has read nearly all of it."""
    with tempfile.TemporaryFile("w+") as file:
        child = subprocess.Popen(words, stdin=subprocess.PIPE, stdout=file)
        child.stdin.write(log.encode())
        child.stdin.flush()
        status = pathlib.Path(f"/proc/{child.pid}/status").read_text()
        child.communicate()
        file.seek(0)
        printed = file.read()
    if (child.returncode, printed) != (0, want):
        sys.exit(f"{words}: status {child.returncode}, {printed!r}, not {want!r}")
    return int(status.split("VmHWM:")[1].split()[0])


def words_of(command: str, program: str, folder: pathlib.Path, text: str, log: pathlib.Path | str) -> list[str]:
    """Writes a book with this text, and returns the words of an audit or a report by it."""
    (folder / "book").write_text(text)
    return [program, command, "--book", str(folder / "book"), "--log", str(log)]


def least(program: str, folder: pathlib.Path, text: str, log: str, wanted: dict[str, str]) -> dict[str, float]:
    """The least processor time, in seconds, of each of these commands on this log, which has to print what stands beside it. They take
    turns, so that what else the machine does falls on all of them."""
    (folder / "log").write_text(log)
    taken: dict[str, list[float]] = {command: [] for command in wanted}
    for _ in range(TURNS):
        for command, want in wanted.items():
            taken[command].append(processor(words_of(command, program, folder, text, folder / "log"), exactly(want)))
    return {command: min(times) for command, times in taken.items()}


def audit_and_report(program: str, folder: pathlib.Path, text: str, log: str, want: str, what: str) -> float:
    """Times audits and reports of a log of version 1, and prints how they compare. Returns the time of an audit."""
    all_rows = rows(log)
    taken = least(program, folder, text, log, {"audit": want, "report": all_rows + want})
    lines, count = log.count("\n"), all_rows.count("\n")
    print(f"{what}, {lines} lines, {len(log)} bytes: {taken['audit']:.3f} s, {lines / taken['audit']:.0f} lines a second")
    share = 100 * taken["audit"] / taken["report"]
    print(f"its report: {count} rows, {taken['report']:.3f} s, {count / taken['report']:.0f} rows a second, {share:.0f} % of that speed")
    return taken["audit"]


def main() -> None:
    program = os.path.abspath(sys.argv[1])
    names = [f"user{i:04}" for i in range(ACCOUNTS)]
    with tempfile.TemporaryDirectory() as name:
        folder = pathlib.Path(name)
        one = book(["user"], False)
        log, want = of_logins(LOGINS)
        taken = audit_and_report(program, folder, one, log, want, f"{LOGINS} logins")
        print(f"{LOGINS / taken:.0f} logins a second")
        for open_sessions in (1, 64):
            second, counts = at_once(LOGINS, open_sessions)
            share = 100 * taken / least(program, folder, one, second, {"audit": counts})["audit"]
            print(f"version 2, {open_sessions} open at a time: {share:.0f} % as many lines a second")
        for command in ("audit", "report"):
            piped, (short, counts) = words_of(command, program, folder, one, "/dev/stdin"), of_logins(FEW)
            front = command == "report"
            few, many = peak(piped, short, rows(short) * front + counts), peak(piped, log, rows(log) * front + want)
            print(f"peak memory of {command}: {few} KiB for {FEW} logins, {many} KiB for {LOGINS}, ratio {many / few:.3f}")
        log, want = of_codes(names)
        audit_and_report(program, folder, book(names, True), log, want, f"{ACCOUNTS} accounts, {ACCOUNTS * CODES} codes")


if __name__ == "__main__":
    main()
