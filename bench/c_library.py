#!/usr/bin/env python3
"""Times the library for C: whole logins at a server, also with prepared keys, compared with libgsasl, and codes, compared with liboath.

Usage: c_library.py

The library is made of the archive that `make libscramotp` has left in crates/c_library/out, or in the folder that CLIB in the environment
names. Each line has the best of five turns, in which both do the same one after the other, in processor time. What is not installed is left
out: Debian's packages are libgsasl-dev and liboath-dev.
"""
import hashlib
import subprocess
import sys
from pathlib import Path

from timed import check
from c_support import ARCHIVES, FUNCTIONS, MADE, TOP, WARNINGS, answer_to, base64_of, library
from expected import code, login_keys

LOGINS = 20_000
CODES = 99_999
SECRET = b"12345678901234567890"
SALT = bytes(range(16))
FIRST = "n,,n=user,r=fyko+d2lbbFgONRv9qkxdawL"
NONCE = base64_of(bytes(range(100, 118)))


def has(header: str) -> bool:
    """Whether this header, and so its library, is installed."""
    is_there = Path("/usr/include", header).exists()
    if not is_there:
        print(f"left out: {header} is not installed")
    return is_there


def ran(name: str, linked: str, *words: str) -> list[str]:
    """The words that a program of this folder prints, which is linked with this library."""
    program = Path(MADE.name, name)
    source = [TOP / f"bench/{name}.c", library() / "libscramotp.a", linked]
    subprocess.run(["cc", "-std=c11", "-O2", *WARNINGS, "-I", TOP / "clib", "-o", program, *source], check=True)
    done = subprocess.run([program, *words], capture_output=True, text=True)
    check([name], done.returncode, done.stdout, done.stderr, lambda printed: len(printed.split()) > 1)
    return done.stdout.split()


def told(what: str, count: int, ours: str, theirs: str, other: str) -> None:
    """Prints how many there were in a second, and the ratio."""
    print(f"{what}: {count / float(ours):,.0f} a second, {other} {count / float(theirs):,.0f}, ratio {float(theirs) / float(ours):.2f}")


def main() -> None:
    if not ARCHIVES:
        sys.exit("There is no archive of the library for C yet: run make libscramotp first.")
    for mechanism, (function, _) in FUNCTIONS.items() if has("gsasl.h") else ():
        challenge = f"r={FIRST.partition(',r=')[2]}{NONCE},s={base64_of(SALT)},i=4096"
        final, verdict = answer_to(mechanism, FIRST, challenge, b"pencil")
        client_key, server_key = login_keys(function, b"pencil", SALT, 4096)
        keys = [base64_of(it) for it in (hashlib.new(function, client_key).digest(), server_key)]
        words = [mechanism, base64_of(SALT), NONCE, FIRST, challenge, final, verdict, *keys]
        ours, prepared, theirs = ran("c_logins", "-lgsasl", str(LOGINS), *words)
        told(f"{mechanism} logins", LOGINS, ours, theirs, "libgsasl")
        told(f"{mechanism} logins with prepared keys", LOGINS, prepared, theirs, "libgsasl")
    if has("liboath/oath.h"):
        ours, theirs, last = ran("c_codes", "-loath", str(CODES))
        if last != code(SECRET, CODES - 1):
            sys.exit(f"c_codes: the last code is {last}")
        told("HOTP codes", CODES, ours, theirs, "liboath")


if __name__ == "__main__":
    main()
