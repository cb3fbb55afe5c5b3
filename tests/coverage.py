#!/usr/bin/env python3
"""Measures how much of the built program's machine code the scripts of tests run: which basic blocks they enter, and which ways
conditional jumps go.

Usage: coverage.py [--notes FILE] [--missed] PROGRAM [SCRIPT ..]

By default all scripts run that run.py runs, and with `none` nothing. Only functions of this repository's crates count, by the names that
`nm` lists. What the compiler has put into another function counts there. A basic block begins where a function does, after a conditional
jump, and where a jump goes, also by a table. For each crate it prints how many functions and blocks were entered, and how many ways of
conditional jumps were taken, of how many; and then the functions that were never entered.

The scripts get a small program in the program's place. It loads note_jumps.c before the C library, and then becomes the program, so the
process, its streams and its signals are the usual ones. A run that can't load it, as one with too few descriptors, is not seen. Nor is a
jump watched further in a run in which it has gone one way 20000 times. Needs `cc`, and of binutils `nm`, `objdump` and `readelf`.
"""
import argparse
import asyncio
import bisect
import collections
import os
import re
import struct
import subprocess
import sys
import tempfile
from collections.abc import Iterable, Iterator
from pathlib import Path
from typing import NamedTuple

import rattle
import run
import shims

# What is noted of a place: that it is entered, and that its jump is passed, or taken. As in note_jumps.c.
ENTERED, PASSED, TAKEN = 1, 2, 4
# The head of the file of notes, and a place in it: its address and that of its jump, what is to be noted, the first byte there, and the
# condition and the length of a jump that is watched, or 0 and 0. A byte for each place follows: what is noted. As in note_jumps.c.
HEAD, PLACE = struct.Struct("<III"), struct.Struct("<IIBBBB")
PAGE = 4096


class Instruction(NamedTuple):
    """An instruction of the program: its address, its bytes, its name and its operands."""

    at: int
    code: bytes
    name: str
    rest: str

    @property
    def next(self) -> int:
        """The address after it."""
        return self.at + len(self.code)

    @property
    def target(self) -> int | None:
        """Where a direct jump goes, or None."""
        found = re.match(r"([0-9a-f]+) <", self.rest)
        return int(found[1], 16) if found and self.name.startswith("j") else None

    @property
    def is_jump(self) -> bool:
        """Whether it is a conditional jump."""
        return self.name.startswith("j") and self.name != "jmp"

    @property
    def is_end(self) -> bool:
        """Whether what follows it is never run after it."""
        return self.name in ("jmp", "ret", "ud2", "hlt", "int3")

    @property
    def is_padding(self) -> bool:
        """Whether it does nothing."""
        return self.name.startswith("nop") or (self.name, self.rest) == ("xchg", "%ax,%ax")


class Function(NamedTuple):
    """A function of the program: its crate, its name, its instructions by address, the addresses at which its blocks begin, and which of
    these can be reached in one way only."""

    crate: str
    name: str
    code: dict[int, Instruction]
    blocks: list[int]
    single: set[int]


def printed(*words: str | Path) -> str:
    """What a command prints."""
    return subprocess.run(words, stdout=subprocess.PIPE, check=True, text=True, errors="replace").stdout


def instructions(program: str) -> list[Instruction]:
    """All instructions of a program, in their order."""
    line = re.compile(r"^ *([0-9a-f]+):\t((?:[0-9a-f]{2} )+) *(?:\t(?:(?:bnd|notrack|cs|data16|rep) )*(\S+) *(.*))?$", re.M)
    found = line.findall(printed("objdump", "-dw", program))
    return [Instruction(int(at, 16), bytes.fromhex(code), name or "nop", rest) for at, code, name, rest in found]


class Tables:
    """The tables of jumps in a program's read-only data: addresses relative to the table's own."""

    def __init__(self, program: str) -> None:
        self.bytes = Path(program).read_bytes()
        rows = re.findall(r"^ +LOAD +(0x\w+) (0x\w+) 0x\w+ (0x\w+)", printed("readelf", "-lW", program), re.M)
        self.parts = [tuple(int(it, 16) for it in row) for row in rows]

    def targets(self, at: int, code: dict[int, Instruction]) -> Iterator[int]:
        """The instructions of this code to which a table at this address leads, as far as it does."""
        for begins, address, size in self.parts:
            if address <= at < address + size:
                for place in range(begins + at - address, begins + size - 3, 4):
                    to = at + struct.unpack_from("<i", self.bytes, place)[0]
                    if to not in code:
                        return
                    yield to


def by_tables(code: dict[int, Instruction], tables: Tables) -> list[int]:
    """Where a function's jumps by tables may go: the addresses of tables that it loads before such a jump."""
    if not any(it.name == "jmp" and it.rest.startswith("*%") for it in code.values()):
        return []
    loaded = [re.search(r"\(%rip\),.*# ([0-9a-f]+)", it.rest) for it in code.values() if it.name == "lea"]
    return [to for it in loaded if it for to in tables.targets(int(it[1], 16), code)]


def function(crate: str, name: str, listed: list[Instruction], tables: Tables) -> Function:
    """The function that has these instructions."""
    code = {it.at: it for it in listed}
    ways = collections.Counter([it.target for it in listed if it.target in code] + by_tables(code, tables))
    blocks = {listed[0].at, *ways, *(it.next for it in listed if it.is_jump and it.next in code)}
    # A block can be reached in one way: by a jump alone, or from the conditional jump before it alone.
    falls, before = set(), None
    for it in listed:
        if before and not before.is_end:
            falls.add(it.at)
        before = before if it.is_padding and before and before.is_end and it.at not in blocks else it
    single = {at for at in blocks if ways[at] + (at in falls) == 1} - {listed[0].at}
    return Function(crate, name, code, sorted(blocks), single)


def functions(program: str) -> list[Function]:
    """The functions of this repository's crates, by address."""
    ours, tables, listed = rattle.read_uses(rattle.TOP / "crates.txt"), Tables(program), instructions(program)
    addresses, found = [it.at for it in listed], {}
    for line in printed("nm", "--defined-only", "-S", program).splitlines():
        at, size, kind, *name = line.split(" ", 3) if re.match(r"\w{16} \w{16} \w ", line) else ["", "", ""]
        crate = re.match(r"(\w+)::", name[0])[1] if name and re.match(r"\w+::", name[0]) else None
        if crate in ours and kind in "tTwW":
            begin, end = (bisect.bisect_left(addresses, it) for it in (int(at, 16), int(at, 16) + int(size, 16)))
            found[int(at, 16)] = function(crate, name[0], listed[begin:end], tables)
    return [found[at] for at in sorted(found)]


def is_watched(it: Instruction, which: Function) -> bool:
    """Whether the ways of a conditional jump do not show by the blocks that are entered."""
    return it.is_jump and not {it.next, it.target} <= which.single


def places(which: Function) -> dict[int, tuple]:
    """What is watched in a function, by address."""
    found = {}
    for at in which.blocks:
        found[at] = [at, 0, ENTERED, which.code[at].code[0], 0, 0]
    for it in filter(lambda it: is_watched(it, which), which.code.values()):
        condition = it.code[it.code[0] == 0x0F] & 15
        needed = (ENTERED if it.at in found else 0) | (PASSED if it.next not in which.single else 0)
        needed |= TAKEN if it.target not in which.single else 0
        found[it.at] = [it.at, it.target, needed, it.code[0], condition, len(it.code)]
    return found


class Notes:
    """What was seen of a program's functions: the table that note_jumps.c reads, and the notes that follow it."""

    def __init__(self, path: Path, program: str) -> None:
        self.functions = functions(program)
        table = sorted(place for it in self.functions for place in places(it).values())
        ends = min(it[0] for it in table) // PAGE * PAGE, (max(it[0] for it in table) // PAGE + 2) * PAGE
        text = HEAD.pack(len(table), *ends) + b"".join(PLACE.pack(*it) for it in table)
        self.path, self.begins, self.index = path, len(text), {it[0]: number for number, it in enumerate(table)}
        if path.exists() and path.stat().st_size and not path.read_bytes().startswith(text):
            sys.exit(f"coverage.py: {path} has notes on another program")
        if not path.exists() or not path.stat().st_size:
            path.write_bytes(text + bytes(len(table)))
        # The user nobody runs the program too.
        path.chmod(0o666)
        self.noted = b""

    def read(self) -> None:
        """Reads what is noted by now."""
        self.noted = self.path.read_bytes()[self.begins:]

    def has(self, at: int, what: int) -> bool:
        """Whether this is noted of a place."""
        return at in self.index and self.noted[self.index[at]] & what != 0

    def ways(self, which: Function) -> Iterator[tuple[Instruction, bool, bool]]:
        """Each way of each conditional jump of a function: the jump, whether the way is that of the taken jump, and whether it was seen."""
        for it in which.code.values():
            if it.is_jump:
                for is_taken, to in [(False, it.next), (True, it.target)]:
                    what = TAKEN if is_taken else PASSED
                    yield it, is_taken, self.has(to, ENTERED) if to in which.single else self.has(it.at, what)


def told(parts: Iterable[bool]) -> str:
    """How many of these are so, and how many there are, in a column."""
    parts = [*parts]
    return f"{sum(parts)}/{len(parts)}".rjust(14)


def report(notes: Notes) -> None:
    """Prints what was seen of each crate, and which functions were never entered."""
    crates = collections.defaultdict(list)
    for it in notes.functions:
        crates[it.crate].append(it)
    print(f"{'crate':18}{'functions':>14}{'blocks':>14}{'ways of jumps':>14}")
    for name, of_crate in [*sorted(crates.items()), ("all", notes.functions)]:
        entered = told(notes.has(it.blocks[0], ENTERED) for it in of_crate)
        blocks = told(notes.has(at, ENTERED) for it in of_crate for at in it.blocks)
        print(f"{name:18}{entered}{blocks}{told(seen for it in of_crate for _, _, seen in notes.ways(it))}")
    never = [it.name for it in notes.functions if not notes.has(it.blocks[0], ENTERED)]
    print(f"\nNever entered ({len(never)}):", *never, sep="\n")


def missed(notes: Notes) -> None:
    """Prints which blocks of functions that were entered were not, and which ways were not taken."""
    for it in notes.functions:
        if notes.has(it.blocks[0], ENTERED):
            ends = [*it.blocks[1:], max(it.code) + 1]
            lines = []
            for at, end in zip(it.blocks, ends):
                if not notes.has(at, ENTERED):
                    parts = [it.code[each] for each in sorted(it.code) if at <= each < end]
                    calls = [f"{each.name} {each.rest}" for each in parts[1:] if each.name == "call"]
                    lines.append(f"  {at:x} {parts[0].name} {parts[0].rest}" + "".join(f"; {call}" for call in calls))
            for jump, is_taken, is_seen in notes.ways(it):
                if not is_seen and notes.has(jump.target if is_taken else jump.next, ENTERED):
                    lines.append(f"  {jump.at:x} {jump.name} {jump.rest} {'not taken' if is_taken else 'not passed'}")
            if lines:
                print(f"\n{it.name}", *lines, sep="\n")


def main() -> int:
    """Runs the scripts, prints what they have run of the program, and returns the exit status."""
    words = argparse.ArgumentParser(description="Measures how much of the program's machine code the scripts of tests run.")
    words.add_argument("--notes", metavar="FILE", type=Path, help="keep what was seen in this file, and add to what it has")
    words.add_argument("--missed", action="store_true", help="print each block that was not entered and each way that was not taken")
    words.add_argument("program", metavar="PROGRAM")
    words.add_argument("scripts", metavar="SCRIPT", nargs="*")
    given = words.parse_args()
    scripts = [] if given.scripts == ["none"] else given.scripts or run.TESTS
    with tempfile.TemporaryDirectory(prefix="coverage-") as folder:
        # The user nobody enters it.
        os.chmod(folder, 0o755)
        # For refused_io.py, which asks what the program takes from the C library.
        measured = os.environ["MEASURED"] = os.path.abspath(given.program)
        notes = Notes((given.notes or Path(folder, "notes")).resolve(), measured)
        library = shims.compiled("note_jumps", shims.HERE / "note_jumps.c", folder, f'-DRECORD="{notes.path}"')
        program = shims.loader_of(measured, library, Path(folder, "scramotp"))
        try:
            done = asyncio.run(run.all_ran(run.scripts(program, scripts)))
        except KeyboardInterrupt:
            return 130
        notes.read()
    report(notes)
    if given.missed:
        missed(notes)
    return 0 if all(it.passed for it in done.values()) else 1


if __name__ == "__main__":
    sys.exit(main())
