"""What the scripts that kill runs share: runs over one book that are killed before any of their calls, and what has to be true of their
output and of the book that they leave."""
import os
import pathlib
import random
import re
import signal
import tempfile
from collections.abc import Callable, Iterator

import shims
from checks import equal, holds
from processes import Answer, Running
from suite import BookFolder
from wrong_calls import CHANGES, Call, call_of

# Calls of a save before which the book has its old text, and one before which it has the new text, of which nothing is reported yet.
BEFORE = {("write", "book.new"), ("fsync", "book.new"), ("rename", "book")}
AFTER = {("fsync", ".")}


def used(printed: str) -> Iterator[int]:
    """The counters that the replies in an output or a log use, both for a pair. A line that was cut counts for none."""
    lines = printed.split("\n")[:-1]
    for sent, reply in zip(["", *lines], lines):
        if passed := re.fullmatch(r"(?:\d+ )?(?:S )?PASS \d+ (\d+)", reply):
            counter = int(passed[1])
            if re.match(r"(?:\d+ )?C SYNC ", sent):
                yield counter - 1
            yield counter


def ended(here: BookFolder, started: Callable[..., Running], number: int) -> tuple[Answer, int, Call | None]:
    """Starts a run, and kills it before its call of CHANGES with this number, unless that is 0. Returns its answer, how many such calls it
    made, and the one before which it was killed, or None."""
    with tempfile.TemporaryDirectory() as folder:
        counted, printed = pathlib.Path(folder, "counted"), pathlib.Path(folder, "printed")
        more = {"CALLS": CHANGES, "REFUSED": str(number), "HOW": f"signal {int(signal.SIGKILL)}", "COUNTED": str(counted)}
        with open(printed, "wb") as output:
            run = started(here.token()["next"], stdout=output, env={**os.environ, "LD_PRELOAD": shims.built("refuse_io"), **more})
            answer = run.end()._replace(output=printed.read_text())
        count, name, file = counted.read_text().split(" ", 2)
        return answer, int(count), None if name == "none" else call_of(name, file, here.folder)


class Kills:
    """Runs over the book in a folder, the counters that have passed in them, and the calls before which they were killed. `started` starts
    a run that is sent codes around a counter, and prints to `stdout`."""

    def __init__(self, here: BookFolder, started: Callable[..., Running], is_log: bool) -> None:
        self.here, self.started, self.is_log = here, started, is_log
        self.passed, self.passed_in_killed, self.landed = set(), 0, set()

    def run(self, number: int, status: int) -> int:
        """Makes a run, which ends with this status, and is killed before its call of CHANGES with this number, unless that is 0. Returns
        how many such calls it made."""
        what, here = f"a run that is to be killed before its call {number}", self.here
        here.before = here.book.read_text()
        answer, count, call = ended(here, self.started, number)
        printed = answer.given(what, answer.output, status=status)
        holds(here.book.exists(), what, "there is no book after it", answer)
        found = [*used(printed)]
        for front in {printed, printed[:printed.rfind("\n") + 1]} if self.is_log else ():
            here.begins_clean(front)
        equal(sorted({*found} & self.passed), [], what, "counters that have passed before", printed)
        equal(len({*found}), len(found), what, "how many different counters pass, of all that pass", printed)
        self.passed.update(found)
        after, most = here.token()["next"], max(self.passed, default=-1)
        holds(after > most, what, f"the next counter is {after}, and not past those that have passed", found, printed)
        self.passed_in_killed += len(found) if number else 0
        self.landed.add(call)
        return count


def kill_before_any_call(here: BookFolder, started: Callable[..., Running], count: int, status: int, is_log: bool = True) -> None:
    """Makes `count` runs, or RUNS of the environment, one after another, over the book in a folder, after one that ends with this status
    and lets a code pass. They are killed before their calls of CHANGES, which are spread evenly over those of the first run, and come in a
    random order. No run reports a fault, and its output, if that is a log, is the beginning of a clean one. The book can be read after each
    run, the counters that were reported as passed are spent in it, and none passes twice. Runs are killed before a save has put the new
    text in place, right after that, and after a code has passed."""
    count, kills = int(os.environ.get("RUNS") or count), Kills(here, started, is_log)
    calls = kills.run(0, status)
    holds(kills.passed, "no code passes in a whole run", calls)
    holds(count >= calls or "RUNS" in os.environ, "too few runs for a kill before each call", count, calls)
    numbers = [1 + calls * at // count for at in range(count)]
    random.shuffle(numbers)
    for number in numbers:
        kills.run(number, -signal.SIGKILL)
    for what, due in [("before", BEFORE), ("right after", AFTER)]:
        holds(due & kills.landed, f"no run was killed {what} a new text was put in place", kills.landed)
    holds(kills.passed_in_killed, "no code passes in a run that is killed", calls, count)
