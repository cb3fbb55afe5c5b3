#!/usr/bin/env python3
"""Writes docs/who_got_in.png: the top of the page that `tools/log-report` makes of the log in data/reports, as Chromium shows it.

Usage: tests/picture.py PROGRAM

In the picture stands the checksum of the page, by which log_report.py sees whether the tool still makes the same page.
"""
import hashlib
import os
import shutil
import struct
import sys
import tempfile
import zlib
from pathlib import Path

from expected import DATA
from processes import ran
from suite import TOP, program_on_path

PICTURE = TOP / "docs/who_got_in.png"
TOOL = TOP / "tools/log-report"
INCIDENT = DATA / "reports" / "incident.log"
# How wide and how high it is, in pixels.
SIZE = "1100,1422"
# Where the second chunk of a PNG begins: after its signature and its header.
SECOND = 33


def page_of_incident(folder: str | Path) -> Path:
    """Makes the page."""
    for end in ("", ".clients"):
        shutil.copy(f"{INCIDENT}{end}", folder)
    answer = ran([TOOL, INCIDENT.with_suffix(".toml"), INCIDENT.name, "-o", "page.html"], cwd=folder, env=program_on_path(folder))
    if answer.status:
        sys.exit(answer.faults)
    return Path(folder, "page.html")


def note_of(page: Path) -> bytes:
    """The chunk of a PNG with the page's checksum."""
    text = b"tEXtpage\0" + hashlib.sha256(page.read_bytes()).hexdigest().encode()
    return struct.pack(">I", len(text) - 4) + text + struct.pack(">I", zlib.crc32(text))


def is_of(page: Path) -> bool:
    """Whether the picture is of this page."""
    return PICTURE.read_bytes()[SECOND:].startswith(note_of(page))


def main() -> None:
    with tempfile.TemporaryDirectory() as folder:
        page, made = page_of_incident(folder), Path(folder, "made.png")
        words = ["chromium", "--headless", "--no-sandbox", "--disable-gpu", "--hide-scrollbars", f"--user-data-dir={folder}/chromium"]
        answer = ran([*words, f"--window-size={SIZE}", f"--screenshot={made}", page.as_uri()], env={**os.environ, "HOME": folder})
        if answer.status:
            sys.exit(answer.faults)
        png = made.read_bytes()
        PICTURE.write_bytes(png[:SECOND] + note_of(page) + png[SECOND:])


if __name__ == "__main__":
    main()
