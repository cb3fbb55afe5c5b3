#!/usr/bin/env python3
"""Times the keys of a password, compared with OpenSSL's PBKDF2, which does the same work.

Usage: keys.py PROGRAM

Runs both in turn, several times, and prints for each mechanism the best time of each, in seconds, and
their ratio. Both times include a start: that of the program, and that of python3 with hashlib.
"""
import sys

from timed import exactly, wall
from expected import keys_of

COUNT = 1_000_000
TURNS = 7
SALT = "4125c247e43ab1e93c6dff76"


def main() -> None:
    program = sys.argv[1]
    for mechanism, digest in (("SCRAM-SHA-1", "sha1"), ("SCRAM-SHA-256", "sha256")):
        words = [program, "keys", "--mechanism", mechanism, "--salt", SALT, "--count", str(COUNT)]
        line = f"import hashlib; hashlib.pbkdf2_hmac('{digest}', b'pencil', bytes.fromhex('{SALT}'), {COUNT})"
        stored, server = keys_of(digest, b"pencil", bytes.fromhex(SALT), COUNT)
        ours_is_due = exactly(f"stored={stored}\nserver={server}\n")
        turns = [(wall(words, ours_is_due, "pencil\n"), wall([sys.executable, "-c", line], exactly(""))) for _ in range(TURNS)]
        ours, openssl = (min(column) for column in zip(*turns))
        print(f"keys {mechanism} at {COUNT}: {ours:.3f} s, OpenSSL {openssl:.3f} s, ratio {ours / openssl:.2f}")


if __name__ == "__main__":
    main()
