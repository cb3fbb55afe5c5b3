"""What the scripts in this folder share: timing a run. A run that fails, or does not print what it should, ends the script."""
import os
import pathlib
import subprocess
import sys
import tempfile
import time
from collections.abc import Callable

# How many runs of a kind are timed; the best counts.
TURNS = 5
# The values with which the scripts compare are in expected.py of the tests.
sys.path.append(str(pathlib.Path(__file__).resolve().parent.parent / "tests"))


def exactly(want: str) -> Callable[[str], bool]:
    """Returns a check that a run has printed exactly this."""
    return lambda printed: printed == want


def anything(printed: str) -> bool:
    """Accepts any output of a run."""
    return True


def check(words: list, status: int, printed: str, faults: str, is_due: Callable[[str], bool]) -> None:
    """Ends the script if a run has failed, or has printed something else."""
    if status or faults or not is_due(printed):
        sys.exit(f"{words}: status {status}, {printed!r}, {faults!r}")


def wall(words: list, is_due: Callable[[str], bool], given: str = "", output: int = subprocess.PIPE) -> float:
    """The seconds of wall time that a run with this input takes."""
    begun = time.perf_counter()
    done = subprocess.run(words, input=given, stdout=output, stderr=subprocess.PIPE, text=True)
    taken = time.perf_counter() - begun
    check(words, done.returncode, done.stdout, done.stderr, is_due)
    return taken


def best(words: list, is_due: Callable[[str], bool], given: str = "", output: int = subprocess.PIPE) -> float:
    """The least seconds of several such runs."""
    return min(wall(words, is_due, given, output) for _ in range(TURNS))


def processor(words: list, is_due: Callable[[str], bool]) -> float:
    """The seconds of processor time that a run takes. Its output goes to a file, so that no reader's pace counts."""
    with tempfile.TemporaryFile("w+") as output:
        child = subprocess.Popen(words, stdout=output)
        _, status, used = os.wait4(child.pid, 0)
        child.returncode = os.waitstatus_to_exitcode(status)
        output.seek(0)
        check(words, child.returncode, output.read(), "", is_due)
    return used.ru_utime + used.ru_stime
