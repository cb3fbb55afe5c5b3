#!/usr/bin/env python3
"""Times verdicts on the login of RFC 7677's example, compared with only their MACs by Python's hmac.

Usage: verdicts.py BENCH

BENCH is the built crate bench. A verdict reads the three messages of a log, opens the login and judges
it: two HMACs and a hash, with keys that are given. Python makes two HMACs and a hash over texts of the same length,
and then four and a hash, and reads no message. Best of several turns, without the start.
"""
import hashlib
import hmac
import sys
import time

from timed import TURNS, best, exactly

COUNT = 300_000
PYTHON_COUNT = 30_000
AUTH = (
    b"n=user,r=rOprNGfwEbeRWgbNEkqO,"
    b"r=rOprNGfwEbeRWgbNEkqO%hvYDpWUa2RaTCAfuxFIlj)hNlF$k0,s=W22ZaJ0SNY7soEsUEjb6gQ==,i=4096,"
    b"c=biws,r=rOprNGfwEbeRWgbNEkqO%hvYDpWUa2RaTCAfuxFIlj)hNlF$k0"
)
FINAL = "c=biws,r=rOprNGfwEbeRWgbNEkqO%hvYDpWUa2RaTCAfuxFIlj)hNlF$k0,p=dHzbZapWIk4jUhN+Ute9ytag9zjfMHgsqmmiz7AndVQ="


def by_python(macs: int) -> float:
    """The verdicts that Python computes per second, each of so many MACs and a hash."""
    key, hidden = hashlib.sha256(b"key").digest(), hashlib.sha256(b"hidden").digest()
    begun = time.perf_counter()
    for _ in range(PYTHON_COUNT):
        for _ in range(macs):
            hmac.digest(key, AUTH, "sha256")
        hashlib.sha256(hidden).digest()
    return PYTHON_COUNT / (time.perf_counter() - begun)


def main() -> None:
    bench = sys.argv[1]
    start = best([bench, "verdict", "1", FINAL], exactly("accepted 1\n"))
    ours = best([bench, "verdict", str(COUNT), FINAL], exactly(f"accepted {COUNT}\n")) - start
    two, four = (max(by_python(macs) for _ in range(TURNS)) for macs in (2, 4))
    print(f"verdicts: {COUNT / ours:,.0f} a second; by Python's hmac two HMACs and a hash {two:,.0f}, four {four:,.0f}")


if __name__ == "__main__":
    main()
