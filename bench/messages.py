#!/usr/bin/env python3
"""Times the reading of the four messages, compared with Python's re and base64; one-time codes, compared with oathtool; and the
search for two codes in a row.

The library checks more than Python does here: that a text is UTF-8 and has no NUL, and the limits of messages, salts and proofs.

Usage: messages.py BENCH

BENCH is the built crate bench. Each line has the best of several turns, without the start.
oathtool (a Debian package) is left out if it is not installed.
"""
import base64
import re
import shutil
import subprocess
import sys
import time

from timed import TURNS, anything, best, exactly
from expected import code

COUNT = 300_000
PYTHON_COUNT = 30_000
CODES = 99_999
SECRET = "12345678901234567890"
# How many searches for two codes in a row are made, and how many codes each makes for 1000 counters.
SEARCHES = 200
CODES_OF_SEARCH = 1001
NONCE = "fyko+d2lbbFgONRv9qkxdawL3rfcNHYJY1ZVvWVs7j"
MESSAGES = {
    "client-first": "n,,n=user,r=fyko+d2lbbFgONRv9qkxdawL",
    "server-first": f"r={NONCE},s=QSXCR+Q6sek8bf92,i=4096",
    "client-final": f"c=biws,r={NONCE},p=v0X8v3Bz2T0CJGbJQyF0X+HI4Ts=",
    "server-final": "v=rmF9pqV8S7suAoZWja4dJRkFsKQ=",
}
EXTENSIONS = r"((?:,[A-Za-z]=[^,\0]+)*)"
NONCE_CLASS = r"[\x21-\x2b\x2d-\x7e]"
PATTERNS = {
    "client-first": r"(n|y|p=[A-Za-z0-9.-]+),(?:a=((?:=2C|=3D|[^,=\0])+))?,(?:m=([^,\0]+),)?"
    rf"n=((?:=2C|=3D|[^,=\0])+),r=({NONCE_CLASS}{{1,256}})" + EXTENSIONS,
    "server-first": rf"(?:m=([^,\0]+),)?r=({NONCE_CLASS}{{1,512}}),s=([^,]+),i=([1-9][0-9]*)" + EXTENSIONS,
    "client-final": rf"c=([^,]+),r=({NONCE_CLASS}{{1,512}})" + EXTENSIONS + r",p=([^,]+)",
    "server-final": r"(?:v=([^,]+)|e=([^,\0]+))" + EXTENSIONS,
}
FIELDS = {"client-first": (), "server-first": (3,), "client-final": (1, 4), "server-final": (1,)}


def by_python(kind: str, text: bytes) -> float:
    """The messages of this kind that Python reads per second."""
    pattern, fields = re.compile(PATTERNS[kind]), FIELDS[kind]
    begun = time.perf_counter()
    for _ in range(PYTHON_COUNT):
        found = pattern.fullmatch(text.decode())
        for field in fields:
            base64.b64decode(found[field], validate=True)
    return PYTHON_COUNT / (time.perf_counter() - begun)


def main() -> None:
    bench = sys.argv[1]
    start = best([bench, "client-first", "1", "x"], exactly("client-first 0\n"))
    for kind, text in MESSAGES.items():
        ours = best([bench, kind, str(COUNT), text], exactly(f"{kind} {COUNT}\n")) - start
        python = max(by_python(kind, text.encode()) for _ in range(TURNS))
        print(f"read {kind}: {COUNT / ours:,.0f} a second, Python's re and base64 {python:,.0f}")
    codes = best([bench, "hotp", str(CODES), SECRET], exactly(f"{code(SECRET.encode(), CODES - 1)}\n")) - start
    line = f"HOTP codes: {CODES / codes:,.0f} a second"
    if shutil.which("oathtool"):
        words = ["oathtool", "--hotp", "--window", str(CODES - 1), SECRET.encode().hex()]
        line += f", oathtool {CODES / best(words, anything, output=subprocess.DEVNULL):,.0f}"  # whose codes are not checked
    print(line)
    search = (best([bench, "sync", str(SEARCHES), SECRET], exactly(f"failed {SEARCHES}\n")) - start) / SEARCHES
    print(f"two codes in a row among 1000: {CODES_OF_SEARCH / search:,.0f} codes a second, {search * 1000:.2f} ms")


if __name__ == "__main__":
    main()
