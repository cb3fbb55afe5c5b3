#!/usr/bin/env python3
"""Plants bugs, one at a time: the tests that are named beside each have to fail, and to say why (docs/TESTING.md, "Bugs that are kept").

Usage: planted.py [--jobs N] [--unbuilt | --changed] [--note] [BUG ..]

A test could fail for another reason than its bug. So a line `says` has a text that the test's output has to have when it fails: the value
that is wrong, or what differs, as it follows from the edit. In it `..` stands for what has no space, such as a path.

The test of a bug in crates/NAME/planted.txt is in a crate of tests/rattle/, and `rt try --test` runs it with all others of that crate; or
it is in a script of tests/, and is run on a program that unproved.py makes of the edited sources. That of a bug in tests/planted/ is run on
the programs and the library for C that are built already, or on those that PROGRAM, BENCH and CLIB in the environment name. A bug of
pass_calls.c is one of the program itself, in how it calls the C library.

The script works in temporary copies of the repository, whose sources must not change meanwhile. Without an edit, each test has to pass. A
test may say that this machine can't test all of it. If it passes with the bug then, the bug counts as not tested. A script that kills runs
or makes input at random makes no more of them than FEWER says.
"""
import argparse
import contextlib
import hashlib
import os
import re
import shutil
import signal
import subprocess
import sys
import tempfile
import threading
import time
from collections.abc import Iterator
from concurrent.futures import ThreadPoolExecutor
from pathlib import Path
from typing import Any

from edit_sources import TOP, PlantedRow, Unusable, planted, planted_rows, read_planted, root_of
from limits import limit
from run import NOT_TESTED
import needs
import rattle
import shims
import unproved

# The built programs, from the repository's top: the one that is tested, and the one whose library calls a script tests.
PROGRAM = "crates/scramotp/out/scramotp"
BENCH = "crates/bench/out/bench"
# Where these programs are.
MADE = {name: Path(os.environ.get(variable) or TOP / name) for name, variable in ((PROGRAM, "PROGRAM"), (BENCH, "BENCH"))}
# The library for C, which a script tests, and where it is.
CLIB = "crates/c_library/out/libc_library.a"
MADE[CLIB] = Path(os.environ["CLIB"], "libc_library.a") if "CLIB" in os.environ else TOP / CLIB
# The bugs of tests/ and the tests that refuse them, with the checksums of what was read when all were refused.
SUMS = TOP / "tests/data/planted.sums"
# Makes the program's calls of the C library as they are, unless a bug is planted in it.
CALLS = "tests/pass_calls.c"
# What a copy of the repository has besides its crates, with those of tests.
COPIED = ["bench", "clib", "plugins", "tests", "tools", "hosts", "man", "completions", "packaging", "docs", "Makefile", "LICENSE"]
COPIED += ["README.md", "CHANGELOG.md", "CONTRIBUTING.md"]
# How many characters are shown of what a test says.
SHOWN = 3000
# The most seconds that a command may take.
LIMIT = limit(1800)
# The commands that run, each of which leads a group of its own.
RUNNING: set[subprocess.Popen] = set()
# How many runs a script kills, and how many inputs of a kind it tries.
FEWER = {"RUNS": "60", "COUNT": "300", "SEED": "1"}


class NotJudged(Exception):
    """Why a test gave no verdict."""


class NotTested(Exception):
    """What a test that passes can't test on this machine."""


@contextlib.contextmanager
def started(words: list[str], folder: Path, **ways: Any) -> Iterator[subprocess.Popen]:
    """Starts a command in this folder. At the end of the context, it is ended, and what it has started and left in its group."""
    with subprocess.Popen(words, cwd=folder, start_new_session=True, **ways) as run:
        RUNNING.add(run)
        try:
            yield run
        finally:
            RUNNING.remove(run)
            end_group(run)


def end_group(run: subprocess.Popen) -> None:
    """Ends all processes in the group of a command."""
    with contextlib.suppress(ProcessLookupError):
        os.killpg(run.pid, signal.SIGKILL)


def ran(words: list[str], folder: Path, **more: str) -> str:
    """Runs a command without input, with these variables in its environment, and returns all its output."""
    environment = {**os.environ, **FEWER, "EXIM": str(needs.EXIM), **more}
    ways = {"stdin": subprocess.DEVNULL, "stdout": subprocess.PIPE, "stderr": subprocess.STDOUT, "env": environment}
    with started(words, folder, text=True, errors="replace", **ways) as run:
        return run.communicate(timeout=LIMIT)[0]


class Room:
    """A copy of the repository, in which one bug at a time is planted."""

    def __init__(self, folder: Path) -> None:
        self.top = folder
        # The user nobody enters it.
        folder.chmod(0o755)
        rattle.copied(folder)
        for name in COPIED:
            if (TOP / name).is_dir():
                shutil.copytree(TOP / name, folder / name, ignore=shutil.ignore_patterns("out", "__pycache__"))
            else:
                shutil.copy2(TOP / name, folder / name)
        for name, built in MADE.items():
            if built.exists():
                (folder / name).parent.mkdir(parents=True)
                shutil.copy2(built, folder / name)

    def failure_with(self, row: PlantedRow) -> str | None:
        """What `failure` returns while the row's bug is planted."""
        edit, root = read_planted(TOP, row.of, row.bug), root_of(row.of)
        texts = {file: (TOP / root / file).read_text(encoding="utf-8").split("\n") for file, _ in edit.lines}
        for (file, at), line in edit.lines.items():
            texts[file][at - 1] = line
        try:
            for file, lines in texts.items():
                (self.top / root / file).write_text("\n".join(lines), encoding="utf-8")
            return self.failure(row)
        finally:
            for file in texts:
                shutil.copy2(TOP / root / file, self.top / root / file)

    def failure(self, row: PlantedRow) -> str | None:
        """What the row's test says when it fails, with the copy's sources as they are, or None if it passes."""
        if row.by.endswith(".py"):
            with tempfile.TemporaryDirectory(prefix="planted-") as folder:
                # documents.py takes no program.
                program = [str(self.program(row, Path(folder)))] if row.by != "documents.py" else []
                bench = {"BENCH": str(self.loading_calls(BENCH, Path(folder)))} if row.by == "refused_calls.py" else {}
                said = ran([sys.executable, "-B", row.by, *program, row.test], self.top / "tests", **bench)
            verdict = re.search(f"^{row.by}: (?:(1 passed, 0 failed)|0 passed, 1 failed)$", said, re.M)
            failure = said
        else:
            said = ran(["rt", "try", "--test"], self.top / "crates" / row.by)
            verdict = re.search(rf"^test (?:\w+::)*{row.test} \.\.\. (?:(ok)$)?", said, re.M)
            # What it says is before the line of the next test.
            failure = re.split(r"^test ", said[verdict.start() + 1:], 1, re.M)[0] if verdict else ""
        if not verdict:
            raise NotJudged(said[-1000:])
        if verdict[1] and (untested := NOT_TESTED.search(said)):
            raise NotTested(untested[2])
        return None if verdict[1] else failure

    def program(self, row: PlantedRow, folder: Path) -> Path:
        """The program for a script: the one that is built if no crate is edited, and otherwise one that is made of the copy's sources."""
        if row.of == "tests":
            return self.loading_calls(PROGRAM, folder)
        try:
            unproved.compiled("scramotp", folder / "program", self.top / "crates")
        except unproved.NotMade as fault:
            raise NotJudged(str(fault)[-1000:]) from None
        return folder / "program"

    def loading_calls(self, built: str, folder: Path) -> Path:
        """A built program, which loads CALLS if that is edited."""
        program = self.top / built
        if not program.exists():
            raise NotJudged(f"this needs {built}: run make build and make bench")
        if (self.top / CALLS).read_bytes() == (TOP / CALLS).read_bytes():
            return program
        # The user nobody enters it.
        folder.chmod(0o755)
        copied = shutil.copy2(program, folder / f"{program.name}.built")
        return shims.loader_of(copied, shims.compiled("pass_calls", self.top / CALLS, folder), folder / program.name)


class Trial:
    """Trials of bugs, each in a room of its thread's own, and whether each test passes without them."""

    def __init__(self, folder: Path) -> None:
        self.folder = folder
        self.own = threading.local()
        self.lock = threading.Lock()
        self.passed: dict[tuple[str, str, bool], bool] = {}

    def room(self) -> Room:
        """This thread's copy of the repository."""
        if not hasattr(self.own, "room"):
            self.own.room = Room(Path(tempfile.mkdtemp(dir=self.folder)))
        return self.own.room

    def passes_without(self, row: PlantedRow) -> bool:
        """Whether the row's test passes without a bug, even if this machine can't test all of it. A test of several rows is run once,
        unless they are tried at the same time."""
        key = (row.by, row.test, row.of == "tests")
        with self.lock:
            known = self.passed.get(key)
        if known is None:
            try:
                known = self.room().failure(row) is None
            except NotTested:
                known = True
            with self.lock:
                self.passed[key] = known
        return known

    def judged(self, row: PlantedRow) -> str:
        """Tries a bug, prints what became of it, and returns the beginning of that."""
        began = time.monotonic()
        try:
            failure = self.room().failure_with(row)
            if failure is None:
                how = "LET THROUGH"
            elif not self.passes_without(row):
                how = "NOT JUDGED: it fails without the bug too"
            elif not row.is_reason_of(failure):
                how = f"FAILED FOR ANOTHER REASON: it does not say {row.says}, but\n{failure[:SHOWN]}"
            else:
                how = "refused"
        except NotTested as fault:
            how = "not tested"
            # run.py looks for such lines.
            print(f"planted.py: not tested: the bug {row.of}/{row.bug} of {row.test} in {row.by}: {fault}", flush=True)
        except (Unusable, NotJudged, subprocess.TimeoutExpired) as fault:
            how = f"NOT JUDGED: {fault}"
        print(f"{row.of}/{row.bug}: {row.test} of {row.by}: {how}, {time.monotonic() - began:.0f} s", flush=True)
        return how.split(":")[0]


def sum_of(row: PlantedRow) -> str:
    """The checksum of a bug of tests/: of its block, of the files in which it is planted, and of the script that refuses it."""
    bug = planted(TOP)[row.of, row.bug]
    files = sorted({*(file for file, _ in read_planted(TOP, row.of, row.bug).lines), f"tests/{row.by}"})
    whole = hashlib.sha256(repr((bug.text, row)).encode())
    for it in files:
        whole.update(repr((it, (TOP / it).read_bytes())).encode())
    return whole.hexdigest()


def line_of(row: PlantedRow) -> str:
    """What SUMS has for a row whose bug was refused."""
    return f"{sum_of(row)}  {row.bug}: {row.by} {row.test}"


def note() -> None:
    """Writes the checksums as they are now."""
    lines = sorted((line_of(row) for row in planted_rows(TOP) if row.of == "tests"), key=lambda it: it.split("  ")[1])
    SUMS.write_text("".join(f"{it}\n" for it in lines), encoding="utf-8")


def rows_of(given: argparse.Namespace) -> list[PlantedRow]:
    """The rows that are to be tried. Exits if there is no bug of a name."""
    rows = planted_rows(TOP)
    if strangers := set(given.bugs) - {it.bug for it in rows}:
        sys.exit(f"planted.py: no bug {', '.join(sorted(strangers))}")
    rows = [it for it in rows if (not given.bugs or it.bug in given.bugs) and (it.of == "tests" or not given.unbuilt and not given.changed)]
    known = {*SUMS.read_text(encoding="utf-8").splitlines()}
    return [it for it in rows if line_of(it) not in known] if given.changed else rows


def main() -> int:
    """Tries the bugs, prints a line for each, and returns the exit status."""
    words = argparse.ArgumentParser(description="Plants bugs that tests have to refuse.")
    words.add_argument("--jobs", type=int, default=1, help="how many bugs are tried at the same time; each takes about 2 GB of memory")
    words.add_argument("--unbuilt", action="store_true", help="only the bugs in tests/planted/, for which nothing is built")
    words.add_argument("--changed", action="store_true", help="of these, only such whose file or script has changed since all were refused")
    words.add_argument("--note", action="store_true", help="notes the checksums of these files, if all that were tried are refused")
    words.add_argument("bugs", metavar="BUG", nargs="*", help="the name of an edit; by default, all bugs are tried")
    given = words.parse_args()
    rows = rows_of(given)
    # TERM ends the tests as Ctrl-C does.
    signal.signal(signal.SIGTERM, signal.default_int_handler)
    with tempfile.TemporaryDirectory(prefix="planted-") as folder, ThreadPoolExecutor(given.jobs) as pool:
        # The user nobody runs programs below it too.
        os.chmod(folder, 0o755)
        trial = Trial(Path(folder))
        try:
            became = [*pool.map(trial.judged, rows)]
        finally:
            # Their threads wait for them. None runs any more, unless this was interrupted.
            for run in [*RUNNING]:
                end_group(run)
    refused, untested = became.count("refused"), became.count("not tested")
    failed = len(rows) - refused - untested
    if given.note and refused == len(rows) and (given.changed or given.unbuilt and not given.bugs):
        note()
    print(f"{refused} refused, {failed} not" + (f", {untested} not tested" if untested else ""))
    return 1 if failed else 0


if __name__ == "__main__":
    sys.exit(main())
