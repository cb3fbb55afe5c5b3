#!/usr/bin/env python3
"""Runs the tests, several at once, and says how long each took.

Usage: run.py PROGRAM [SCRIPT ..]     every script of tests of this program, or these
       run.py --unproved [NAME ..]    all tests, or these, of what is compiled first and not proved: documents.py, the scripts, the crates
                                      of tests/rattle/, and the planted bugs whose files have changed

A script is one in this folder that takes the program's path. No test has input, and each is stopped after half an hour. Its output is shown
if it fails, once it has ended or was stopped, and processes that it left running in its group are ended. With --unproved the scripts that
choose at random make fewer choices, as FEWER says. TIMES in the environment names a file to which timed.py adds what each took. The line
`N passed, N failed` counts the tests, and those below it say which failed, and what this machine can't test. The status is 1 if a test
failed.
"""
import asyncio
import contextlib
import os
import re
import signal
import subprocess
import sys
import tempfile
import time
from dataclasses import dataclass, field
from pathlib import Path

import rattle
from limits import limit

FOLDER = Path(__file__).resolve().parent
# Where what is compiled without a proof is kept.
MADE = FOLDER.parent / "out" / "unproved"
# The library for C, whose archive is found by the name that `rt lib` gives it.
C_LIBRARY = "c_library"
ARCHIVE = MADE / "clib" / f"lib{C_LIBRARY}.a"
# After how many seconds a test is stopped.
LIMIT = limit(1800)
# What a script prints, after its name, before a part that this machine can't test.
NOT_TESTED = re.compile(r"^(\S+): not tested: (.*)$", re.M)
# The scripts; those that take longest come first.
LONGEST = ["hall.py", "books.py", "login_kill.py", "hall_kill.py", "cut_logs.py", "oversized.py", "refused_calls.py", "refused_memory.py",
           "recipes.py", "edit_book.py", "log_report.py", "tools.py", "book_commands.py", "machine.py", "sessions.py", "refused_io.py"]
SCRIPT = re.compile(r"^ *suite\.run_all\(\)$", re.M)
TESTS = LONGEST + sorted({it.name for it in FOLDER.glob("*.py") if SCRIPT.search(it.read_text(encoding="utf-8"))} - {*LONGEST})
# What works with the library for C.
OF_C_LIBRARY = {"c_library.py", "cyrus.py", "planted.py"}
# How many random choices a script makes with --unproved: enough for each of its planted bugs. By default it makes more.
FEWER = {"hall.py": "250", "login_kill.py": "700", "hall_kill.py": "700"}
# The crates of tests that take longest to compile and to run come first.
LONG_CRATES = ["mac_core_tests", "commands_tests", "scram_ends_tests"]


@dataclass
class Job:
    """What is run: a command, which begins once these other jobs have passed; and what is said of it."""

    name: str
    words: list[str | Path]
    after: list[str] = field(default_factory=list)
    environment: dict[str, str] = field(default_factory=dict)
    is_test: bool = True


@dataclass
class Result:
    """How a job ended: whether it passed, what is said of that, what it printed, and its seconds."""

    passed: bool
    said: str
    printed: str = ""
    seconds: float = 0


async def stop(run: asyncio.subprocess.Process) -> None:
    """Ends a process, which leads a group of its own, and all of that group: by INT, so that it ends what has left the group and removes
    its folders, and by KILL if that takes more than a few seconds."""
    with contextlib.suppress(ProcessLookupError, TimeoutError):
        os.killpg(run.pid, signal.SIGINT)
        async with asyncio.timeout(5):
            await run.wait()
    with contextlib.suppress(ProcessLookupError):
        os.killpg(run.pid, signal.SIGKILL)
    await run.wait()


async def ended(run: asyncio.subprocess.Process) -> int | None:
    """Waits for a process, which leads a group of its own, and ends all of that group. Returns its status, or None if it was stopped."""
    try:
        async with asyncio.timeout(LIMIT):
            return await run.wait()
    except TimeoutError:
        return None
    finally:
        await stop(run)


async def ran(job: Job) -> Result:
    """Runs a job, and measures it if TIMES says so."""
    began, times = time.monotonic(), os.environ.get("TIMES")
    with tempfile.TemporaryFile() as output:
        words = [sys.executable, FOLDER / "timed.py", times, job.name, *job.words] if times else job.words
        run = await asyncio.create_subprocess_exec(
            *words, stdin=subprocess.DEVNULL, stdout=output, stderr=subprocess.STDOUT, start_new_session=True,
            env={**os.environ, **job.environment},
        )
        status = await ended(run)
        output.seek(0)
        printed = output.read().decode(errors="replace")
    said = {0: "passed", None: f"FAILED: it did not end in {LIMIT} s"}.get(status, f"FAILED with status {status}")
    return Result(status == 0, said, printed, time.monotonic() - began)


def tell(job: Job, result: Result) -> None:
    """Prints how a job ended: what it printed if it failed, and otherwise what of it this machine can't test."""
    parts = "".join(f"{name}: not tested: {part}\n" for name, part in NOT_TESTED.findall(result.printed))
    print(f"{parts if result.passed else result.printed}{job.name}: {result.said}, {result.seconds:.0f} s", flush=True)


async def all_ran(jobs: list[Job]) -> dict[str, Result]:
    """Runs these jobs in their order, each after those that it names, and as many at once as JOBS in the environment says or as there are
    processors. One whose earlier jobs failed is not run, and fails."""
    slots, waiting, running = max(1, int(os.environ.get("JOBS") or len(os.sched_getaffinity(0)))), [*jobs], {}
    results: dict[str, Result] = {}
    try:
        while waiting or running:
            for job in [it for it in waiting if all(name in results for name in it.after)]:
                if lost := [name for name in job.after if not results[name].passed]:
                    results[job.name] = Result(False, f"FAILED: not run, since {lost[0]} failed")
                    tell(job, results[job.name])
                elif len(running) < slots:
                    running[asyncio.create_task(ran(job))] = job
                else:
                    continue
                waiting.remove(job)
            done, _ = await asyncio.wait(running, return_when=asyncio.FIRST_COMPLETED) if running else ([], None)
            for task in done:
                job = running.pop(task)
                results[job.name] = task.result()
                tell(job, results[job.name])
    finally:
        for task in running:
            task.cancel()
        await asyncio.gather(*running, return_exceptions=True)
    return results


def scripts(program: str | Path, names: list[str]) -> list[Job]:
    """The scripts of these names, for this program."""
    return [Job(name, [sys.executable, "-u", FOLDER / name, program]) for name in names]


def made(crate: str) -> Job:
    """What compiles a crate, or the tests of one."""
    to = ARCHIVE if crate == C_LIBRARY else MADE / crate
    return Job(f"{crate} is compiled", [sys.executable, FOLDER / "unproved.py", crate, to], is_test=False)


def all_unproved() -> list[Job]:
    """All tests of what is compiled without a proof, and what compiles it."""
    programs, library = [made("scramotp"), made("bench")], made(C_LIBRARY)
    checks = [Job("documents.py", [sys.executable, FOLDER / "documents.py"])]
    checks.append(Job("rattle.py layout", [sys.executable, FOLDER / "rattle.py", "layout"]))
    crates = LONG_CRATES + [it for it in rattle.test_crates() if it not in LONG_CRATES]
    runs = [Job(it, [rattle.kit() / "bin/rattle-test", "--seconds", str(LIMIT), MADE / it], [f"{it} is compiled"]) for it in crates]
    compiled = [made(it) for it in crates]
    tests = [*scripts(MADE / "scramotp", TESTS), Job("planted.py", [sys.executable, "-u", FOLDER / "planted.py", "--changed"])]
    for job in tests:
        job.after = [it.name for it in [*programs, *[library] * (job.name in OF_C_LIBRARY)]]
        job.environment = {"PROGRAM": str(MADE / "scramotp"), "BENCH": str(MADE / "bench"), "CLIB": str(ARCHIVE.parent)}
        job.environment |= {"RUNS": FEWER[job.name]} if job.name in FEWER else {}
    first = len(LONG_CRATES)
    return [*programs, library, *checks, *compiled[:first], *runs[:first], *tests, *compiled[first:], *runs[first:]]


def chosen(jobs: list[Job], names: list[str]) -> list[Job]:
    """The jobs of these names and those that they need, or all if there are no names. Exits if there is none of a name."""
    if strangers := set(names) - {it.name for it in jobs}:
        sys.exit(f"run.py: no test {', '.join(sorted(strangers))}")
    needed = set(names) | {other for it in jobs if it.name in names for other in it.after}
    return [it for it in jobs if not names or it.name in needed]


def summed_up(jobs: list[Job], results: dict[str, Result]) -> int:
    """Prints how many tests passed and failed, which failed, and what this machine can't test. Returns the exit status."""
    failed = [it.name for it in jobs if not results[it.name].passed]
    tests = [it.name for it in jobs if it.is_test]
    print(f"{sum(it not in failed for it in tests)} passed, {len(failed)} failed")
    for name in failed:
        print(f"FAILED: {name}")
    parts = [": ".join(it) for job in jobs for it in NOT_TESTED.findall(results[job.name].printed)]
    print(f"{len(parts)} parts are not tested" + "".join(f"; {it}" for it in parts))
    return 1 if failed else 0


def main() -> int:
    if len(sys.argv) < 2:
        sys.exit(f"usage: {os.path.basename(sys.argv[0])} PROGRAM [SCRIPT ..] | --unproved [NAME ..]")
    # TERM ends the tests as Ctrl-C does.
    signal.signal(signal.SIGTERM, signal.default_int_handler)
    is_unproved = sys.argv[1] == "--unproved"
    jobs = chosen(all_unproved(), sys.argv[2:]) if is_unproved else scripts(os.path.abspath(sys.argv[1]), sys.argv[2:] or TESTS)
    if is_unproved:
        print("Nothing is proved by these tests: make prove does that.", flush=True)
        MADE.mkdir(parents=True, exist_ok=True)
    began = time.monotonic()
    try:
        results = asyncio.run(all_ran(jobs))
    except KeyboardInterrupt:
        return 130
    status = summed_up(jobs, results)
    if is_unproved:
        print(f"This took {time.monotonic() - began:.0f} s, and nothing was proved: make prove does that.")
    return status


if __name__ == "__main__":
    sys.exit(main())
