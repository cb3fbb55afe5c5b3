#!/usr/bin/env python3
"""Tries the wrong bodies in crates/NAME/must-fail/ and crates/NAME/edits.txt: the contract of what each one changes has to refuse it.
By default it takes the crates that have a file edits.txt. rt ci tries those in must-fail/ one by one.

Usage: edits.py [--jobs N] [--anew] [--built] [--share N] [--self-test] [CRATE..]

A function is proved from its own body and the contracts of what it calls, so a wrong body fails only its own function. Edits of
different functions are therefore put into one copy of their crate and judged by one check of these functions and of those that they
call. There the function of each edit has to fail at a goal of its own; a call of a function that failed does not count. An edit that is
not refused in this way is tried again by itself, by a check of the whole crate. A batch that the check can't read, or in which a
function fails that no edit changes, is tried in halves.

An edit has the form that `rt help` describes, and changes src/ or specs/. An edit of a definition in specs/ belongs to no function, and
is refused if a proof of the crate then fails. An edit that makes the same change as an earlier one of its crate counts as let through.
Several checks run at the same time, each in a copy of its crate. The script works in a temporary folder, with the libraries that `rt ci`
or `rt lib` left in crates/NAME/out/ if they are newer than their sources, and otherwise builds them there. `rt ci` shows whether the
crates are proved without edits.

With --built it runs after an `rt ci`: it takes the libraries in any case, since they may be older files that `rt ci` kept, and leaves out
the edits in must-fail/, which `rt ci` has tried.

Refusals are kept on this machine, as `rt ci` keeps what it proved: by the checksum of everything that the trial read, which is the kit,
this script, the edit, and the sources of its crate and of those below. A later run tries the other edits, and with --anew all. What was
proved of each crate is kept too (proved.py), so the first check of a crate is short after an `rt ci` or another run.

With --share N a run tries about one of N edits, and each with the line `always`, and sees of the others only that they apply. The same
checksums choose them, so the same sources have the same share, and a change of a crate gives another share to it and to those above it.

An edit that puts a name where a clause had a constructor, and that is no constructor there, is unusable: it would fit any value.

Each run begins with a test of the script in the smallest of its crates, unless that has only edits of definitions: an edit without a
change is let through, and an edit whose text is gone, with a line that would not be read, or with such a name, is unusable.
"""
import argparse
import hashlib
import os
import re
import shutil
import subprocess
import sys
import tempfile
import threading
import time
from collections.abc import Iterable, Iterator
from concurrent.futures import FIRST_COMPLETED, Future, ThreadPoolExecutor, wait
from contextlib import contextmanager
from dataclasses import dataclass, field
from functools import cache
from pathlib import Path

from edit_sources import EDITED, TOP, Edit, Function, Unusable, always_tried, edits_of, functions_of, read_edit
from proved import begin, cache_home, keep, kept, linked
from rattle import Uses, below, kit, over_built, read_uses, rlib_of

# The folders of a crate that a check reads.
PARTS = ("src", "specs", "proofs")
# The status of a check whose path fits no function, or several.
FITS_NOTHING = 2
# More bytes of memory than a check of the largest crate here takes.
MEMORY = 3 << 30
# The most edits that one check judges. A failed proof takes it some 13 s of processor time, and reading the libraries about as long.
MOST = 12

# What a check says of a place: an error in a file, or a goal in src/ that is not proved.
ERROR = re.compile(r"(?:\./)?(src|specs|proofs)/([^\s:]+):(\d+):\d+: error: (.*)")
GOAL = re.compile(r"note: (src)/([^\s:]+):(\d+):\d+: (it is not proved that .*)")
# The errors for a text that can't be read, and so states nothing.
UNREAD = re.compile(
    r"is not in scope|has no field|has no `|is no name|was not admitted|operand is missing|expected the end|cannot continue"
)


@dataclass
class Report:
    """What a check said: whether all is proved, whether it got as far as judging functions, the goals refused, the first error."""

    is_proved: bool
    is_judged: bool
    goals: dict[Function | None, list[str]] = field(default_factory=dict)
    error: str = ""


@dataclass
class Outcome:
    """How the trial of an edit ended."""

    is_refused: bool
    text: str


def batches_of(edits: Iterable[Edit]) -> list[list[Edit]]:
    """Puts edits of different functions together in batches of at most MOST. Edits that share a function are in different batches."""
    batches: list[list[Edit]] = []
    for edit in edits:
        free = (batch for batch in batches if len(batch) < MOST and not any(edit.owners & it.owners for it in batch))
        batch = next(free, None)
        if batch is None:
            batches.append([edit])
        else:
            batch.append(edit)
    return batches


class Refusals:
    """The refusals of a crate's edits in earlier runs: a file for each, named by the checksum of what was read."""

    def __init__(self, crate: str, uses: Uses) -> None:
        self.folder = cache_home() / "refusals"
        self.sum = hashlib.sha256(kit_version().encode())
        files = [Path(__file__), Path(__file__).with_name("edit_sources.py"), TOP / "crates.txt", TOP / "HANDLES"]
        crates = [TOP / "crates" / it for it in [*below(crate, uses), crate]]
        files += [it for at in crates for part in PARTS for it in sorted((at / part).rglob("*")) if it.is_file()]
        for it in files:
            self.sum.update(repr((str(it.relative_to(TOP)), it.read_bytes())).encode())

    def place(self, edit: Edit) -> Path:
        """Returns the path at which the refusal of this edit is kept."""
        whole = self.sum.copy()
        whole.update(repr((edit.name, edit.text)).encode())
        return self.folder / whole.hexdigest()

    def kept(self, edit: Edit) -> Outcome | None:
        """Returns how the edit was refused by an earlier run, or None."""
        try:
            return Outcome(True, self.place(edit).read_text(encoding="utf-8"))
        except OSError:
            return None

    def is_in_share(self, edit: Edit, share: int) -> bool:
        """Returns whether this edit is one of those that a run with --share tries."""
        return int(self.place(edit).name, 16) % share == 0

    def keep(self, edit: Edit, outcome: Outcome) -> None:
        """Keeps a refusal for later runs, if the folder can be written."""
        try:
            self.folder.mkdir(parents=True, exist_ok=True)
            with tempfile.NamedTemporaryFile("w", encoding="utf-8", dir=self.folder, delete=False) as it:
                it.write(outcome.text)
            os.replace(it.name, self.place(edit))
        except OSError as fault:
            print(f"a refusal is not kept: {fault}", file=sys.stderr)


class Room:
    """A copy of one crate that is edited and checked, on top of what its earlier checks proved."""

    def __init__(self, crate: str, uses: Uses, base: Path, at: Path) -> None:
        self.crate, self.source, self.folder = crate, TOP / "crates" / crate, at
        self.functions = functions_of(self.source)
        for part in PARTS:
            if (self.source / part).is_dir():
                shutil.copytree(self.source / part, at / part)
        root = next(it for it in ("src/lib.rt", "src/main.rt") if (at / it).is_file())
        self.words = ["--crate-name", crate, root, "--jobs", "1", "--incremental", "kept", *over_built(crate, uses, base)]

    def check(self, edits: list[Edit], is_whole: bool = False) -> Report:
        """Checks the crate with only these edits, which change different lines. Checks the functions that they change, or those of the
        file if they change none, and what these call. Checks the whole crate if `is_whole`, or if a path does not name one function."""
        lines = {place: text for edit in edits for place, text in edit.lines.items()}
        for path in (it for part in EDITED for it in (self.source / part).rglob("*") if it.is_file()):
            file = path.relative_to(self.source).as_posix()
            text = path.read_text(encoding="utf-8").split("\n")
            text = [lines.get((file, at), line) for at, line in enumerate(text, 1)]
            (self.folder / file).write_text("\n".join(text), encoding="utf-8")
        files = {file for edit in edits if not edit.owners for file, _ in edit.lines}
        changed = {it for edit in edits for it in edit.owners} | {it for it in self.functions if it.file in files}
        paths = sorted({it.path() for it in changed})
        if paths and not is_whole:
            ran = run([f"{kit()}/bin/rattle", "check", *self.words, *(f"--only={it}" for it in paths)], self.folder)
            if ran.returncode != FITS_NOTHING:
                return self.report(ran)
            print(f"{self.crate}: all of it is checked: {ran.stdout.rstrip()[-200:]}", file=sys.stderr, flush=True)
        # A build proves what a check does, but does not write the files from which to start a failed proof. These take a third of a check.
        return self.report(run([f"{kit()}/bin/rattle", "build", *self.words, "-o", f"{self.crate}.rlib"], self.folder))

    def report(self, ran: subprocess.CompletedProcess[str]) -> Report:
        """Reads what a check said."""
        said = ran.stdout.rstrip("\n").split("\n")
        report = Report(ran.returncode == 0, ran.returncode in (0, 1) and any(it.startswith(("logic=", "only=")) for it in said))
        for line in said:
            it = GOAL.match(line) or ERROR.match(line)
            if not it:
                continue
            report.error = report.error or line
            if GOAL.match(line) or it[4].startswith("`") and not UNREAD.search(re.sub(r"`[^`]*`", "", it[4])):
                report.goals.setdefault(self.owner(it[1], it[2], int(it[3])), []).append(goal_in(it[4]))
            elif it[1] != "proofs":
                report.is_judged = False
        report.error = report.error or said[-1]
        return report

    def owner(self, part: str, file: str, line: int) -> Function | None:
        """Returns the function to which a line of src/ or a file of proofs/ belongs, or None."""
        folder = tuple(file.split("/")[:-1])
        if part == "src":
            own = (it for it in self.functions if it.holds(f"src/{file}", line))
        else:
            own = (it for it in self.functions if part == "proofs" and it.is_proved_in(folder))
        return max(own, key=lambda it: len(it.of), default=None)


def goal_in(text: str) -> str:
    """Returns the name of the goal in a check's message."""
    it = re.search(r"\(`([^`]*)`\)", text) or re.match(r"`([^`]*)`", text)
    return it[1] if it else text[:60]


def try_together(room: Room, batch: list[Edit]) -> dict[str, Outcome]:
    """Checks these edits all at once, and returns the outcomes of those that are refused, each at a goal of its own function."""
    report = room.check(batch)
    strangers = [it for it in report.goals if not any(it in edit.owners for edit in batch)]
    if not report.is_judged or strangers:
        why = f"{strangers[0] or 'a shared proof'} fails too" if strangers else report.error
        print(f"{room.crate}: {len(batch)} edits are tried in halves: {why[:200]}", file=sys.stderr, flush=True)
        half = len(batch) // 2
        return try_together(room, batch[:half]) | try_together(room, batch[half:]) if half else {}
    return {it.name: refused(it, report) for it in batch if it.owners & report.goals.keys()}


def try_alone(room: Room, edit: Edit) -> Outcome:
    """Returns the outcome of one edit by itself. Any goal may refuse it, since nothing else is changed."""
    report = room.check([edit])
    if report.is_proved or not report.is_judged or not report.goals:
        report = room.check([edit], is_whole=True)
    names = ", ".join(sorted(map(str, edit.owners))) or "no function"
    if report.is_proved:
        return Outcome(False, f"{names}: LET THROUGH")
    if not report.is_judged or not report.goals:
        return Outcome(False, f"{names}: NOT JUDGED: {report.error[:200]}")
    return refused(edit, report)


def refused(edit: Edit, report: Report) -> Outcome:
    """Returns the outcome of an edit that was refused, by its own function if that is among those that fail."""
    owner = next((it for it in report.goals if it in edit.owners), next(iter(report.goals)))
    return Outcome(True, f"{owner or 'outside its functions'}: refused at {', '.join(dict.fromkeys(report.goals[owner]))}")


@dataclass
class Count:
    """How many edits were refused, how many of those in an earlier run, how many were not refused, and how many were not tried."""

    refused: int = 0
    before: int = 0
    failed: int = 0
    left: int = 0


class Rooms:
    """The copies of one crate, each of which one check at a time uses. Another one is made where none is free: it begins with what was
    last proved of the crate."""

    def __init__(self, crate: str, uses: Uses, base: Path, folder: Path) -> None:
        self.make = lambda number: Room(crate, uses, base, folder / f"{crate}-{number}")
        self.crate, self.lock, self.free, self.made = crate, threading.Lock(), [], 0

    @contextmanager
    def one(self) -> Iterator[Room]:
        """A copy that no other check uses."""
        with self.lock:
            room = self.free.pop() if self.free else None
            self.made += room is None
            number = self.made
        if room is None:
            room = self.make(number)
            begin(self.crate, room.folder / "kept")
        try:
            yield room
        finally:
            with self.lock:
                self.free.append(room)


    def keep_proved(self) -> None:
        """Keeps what the first check proved."""
        with self.one() as room:
            if (room.folder / "kept").is_dir():
                keep(room.folder / "kept", self.crate)


class Trial:
    """The edits of one crate that a run tries, and what became of them."""

    def __init__(self, crate: str, uses: Uses, rooms: Rooms) -> None:
        self.crate, self.source, self.rooms = crate, TOP / "crates" / crate, rooms
        self.functions, self.refusals, self.count, self.seconds = functions_of(self.source), Refusals(crate, uses), Count(), 0.0

    def tell(self, name: str, outcome: Outcome, when: str = "") -> None:
        """Prints and counts what became of an edit."""
        print(f"{self.crate}/{name}: {outcome.text}{when}", flush=True)
        self.count.refused += outcome.is_refused
        self.count.before += bool(when)
        self.count.failed += not outcome.is_refused

    def edits(self) -> list[Edit]:
        """Reads the edits of the crate, and returns those that can be tried. Tells of each other one why it can't."""
        usable: dict[tuple[tuple[tuple[str, int], str], ...], Edit] = {}
        for name, text in edits_of(self.source).items():
            try:
                edit = read_edit(name, text, self.source, self.functions)
            except Unusable as fault:
                self.tell(name, Outcome(False, f"DOES NOT APPLY: {fault}"))
                continue
            earlier = usable.setdefault(tuple(sorted(edit.lines.items())), edit)
            if earlier is not edit:
                self.tell(edit.name, Outcome(False, f"THE SAME CHANGE AS {earlier.name}"))
        return [*usable.values()]

    def chosen(self, edits: list[Edit], share: int, anew: bool, is_after_ci: bool) -> list[Edit]:
        """Those of the edits that this run has to try: the share, without those of must-fail/ if `rt ci` has just tried them, and without
        what an earlier run refused, of which it tells."""
        by_ci = {it.stem for it in self.source.glob("must-fail/*.edit")} if is_after_ci else set()
        own = [it for it in edits if it.name not in by_ci]
        always = always_tried(self.source)
        chosen = [it for it in own if it.name in always or self.refusals.is_in_share(it, share)]
        self.count.left = len(own) - len(chosen)
        known = {it.name: outcome for it in ([] if anew else chosen) if (outcome := self.refusals.kept(it))}
        for name, outcome in known.items():
            self.tell(name, outcome, " before, with the same sources")
        return [it for it in chosen if it.name not in known]

    def together(self, batch: list[Edit]) -> dict[str, Outcome]:
        """What `try_together` returns, and how long it took is added up."""
        began = time.monotonic()
        with self.rooms.one() as room:
            outcomes = try_together(room, batch)
        self.seconds += time.monotonic() - began
        return outcomes

    def alone(self, edit: Edit) -> dict[str, Outcome]:
        """The outcome of one edit by itself."""
        began = time.monotonic()
        with self.rooms.one() as room:
            outcome = try_alone(room, edit)
        self.seconds += time.monotonic() - began
        return {edit.name: outcome}


def try_all(trials: list[tuple[Trial, list[Edit]]], jobs: int) -> None:
    """Tries these edits of each crate, so many checks side by side: batches first, and then each edit by itself that no batch refused. If
    nothing is kept of a crate, its first check is alone, since it proves what the others begin with."""
    with ThreadPoolExecutor(jobs) as pool:
        waiting: dict[Future[dict[str, Outcome]], tuple[Trial, list[Edit]]] = {}
        left: dict[str, list[list[Edit]]] = {}

        def submit(trial: Trial, batch: list[Edit]) -> None:
            call = pool.submit(trial.together, batch) if batch[0].is_inside else pool.submit(trial.alone, batch[0])
            waiting[call] = trial, batch

        for trial, edits in trials:
            batches = [*batches_of(it for it in edits if it.is_inside), *([it] for it in edits if not it.is_inside)]
            first = len(batches) if kept(trial.crate).is_dir() else 1
            left[trial.crate] = batches[first:]
            for batch in batches[:first]:
                submit(trial, batch)
        while waiting:
            for done in wait(waiting, return_when=FIRST_COMPLETED).done:
                trial, batch = waiting.pop(done)
                outcomes = done.result()
                if others := left.pop(trial.crate, []):
                    trial.rooms.keep_proved()
                    for other in others:
                        submit(trial, other)
                for edit in batch:
                    if edit.name not in outcomes:
                        waiting[pool.submit(trial.alone, edit)] = trial, [edit]
                        continue
                    trial.tell(edit.name, outcomes[edit.name])
                    if outcomes[edit.name].is_refused:
                        trial.refusals.keep(edit, outcomes[edit.name])


def self_test(room: Room, edits: list[Edit]) -> None:
    """Ends the run unless an edit without a change is let through, and an edit whose text is gone, with a line that is not read, or with a
    name that fits any value, is unusable. The test needs a crate with a method and with an edit of a function."""
    wrong = next((it for it in edits if it.is_inside), None)
    # a method of a type has a body; one of a trait may have none
    other = next((it for it in room.functions if wrong and it.of and it not in wrong.owners), None)
    if not (wrong and other):
        print(f"{room.crate}: nothing here can test the script itself", file=sys.stderr, flush=True)
        return
    nothing = Edit("nothing", {}, {other}, True)
    together, alone = try_together(room, [wrong, nothing]), try_alone(room, nothing)
    if not wrong.name or [*together] != [wrong.name] or alone != Outcome(False, f"{other}: LET THROUGH"):
        sys.exit(f"edits.py: its own test fails with {wrong.name} in {room.crate}: {together}, {alone}")
    gone = f"file: {other.file}\nold: a text that no file has\nnew: another\n"
    made = room.folder / "made/specs"
    made.mkdir(parents=True)
    (made / "Ends.antt").write_text("use Rattle.made.specs.Places.{between, halted}\nMayEnd halted = Unit {0}\n", encoding="utf-8")
    bound = "file: specs/Ends.antt\nold: MayEnd halted = Unit\nnew: MayEnd over = Unit\n"
    for what, crate, text in (
        ("whose text is gone", room.source, gone),
        ("with a line that is not read", room.source, f"{wrong.text}and one line more\n"),
        ("with a name that fits any value where a constructor stood", made.parent, bound),
    ):
        try:
            read_edit("unusable", text, crate, room.functions)
        except Unusable:
            continue
        sys.exit(f"edits.py: its own test fails: an edit applies {what}")


def build(base: Path, names: list[str], uses: Uses, are_built: bool) -> None:
    """Copies the sources of all crates. Copies each of these libraries if `are_built` or it is newer than its sources, else builds it."""
    for path in [TOP / "crates.txt", TOP / "HANDLES", *TOP.glob("crates/*/*")]:
        to = base / path.relative_to(TOP)
        to.parent.mkdir(parents=True, exist_ok=True)
        if path.name in PARTS:
            shutil.copytree(path, to)
        elif path.parent == TOP:
            shutil.copyfile(path, to)
    for name in names:
        made = rlib_of(TOP, name) / "format"
        crates = [TOP / "crates" / it for it in [*below(name, uses), name]]
        sources = (it for crate in crates for part in PARTS for it in (crate / part).rglob("*") if it.is_file())
        if made.is_file() and (are_built or made.stat().st_mtime > max(it.stat().st_mtime for it in sources)):
            shutil.copytree(made.parent, rlib_of(base, name), copy_function=linked)
    for name in names:
        if not rlib_of(base, name).is_dir():
            print(f"{name} is built first", file=sys.stderr, flush=True)
            ran = run(["rt", "lib"], base / "crates" / name)
            if ran.returncode:
                sys.exit(f"edits.py: {name} is not proved:\n{ran.stdout[-2000:]}")


@cache
def kit_version() -> str:
    """Returns the line by which the kit identifies itself."""
    return run(["rt", "version"], TOP).stdout


def run(words: list[str], folder: Path) -> subprocess.CompletedProcess[str]:
    """Runs a command without input, and returns its status and all its output."""
    ways = {"stdin": subprocess.DEVNULL, "stdout": subprocess.PIPE, "stderr": subprocess.STDOUT}
    return subprocess.run(words, cwd=folder, text=True, **ways)


def tell_times(trials: list[Trial]) -> None:
    """Adds a line for each crate to the file that TIMES in the environment names: the seconds that the checks of its edits took."""
    if path := os.environ.get("TIMES"):
        with open(path, "a", encoding="utf-8") as file:
            file.writelines(f"edits of {it.crate},,{it.seconds:.1f}\n" for it in trials)


def default_jobs() -> int:
    """Returns how many checks run side by side: one for each core, as far as memory allows."""
    with open("/proc/meminfo", encoding="ascii") as it:
        free = next(int(line.split()[1]) * 1024 for line in it if line.startswith("MemAvailable:"))
    return max(1, min(len(os.sched_getaffinity(0)), free // MEMORY))


def main() -> int:
    """Tries the edits, prints a line for each, and returns the exit status."""
    parser = argparse.ArgumentParser(description="Tries the wrong bodies of each crate's must-fail/ and edits.txt.")
    parser.add_argument("--jobs", type=int, default=default_jobs(), metavar="N", help="checks side by side (%(default)s)")
    parser.add_argument("--anew", action="store_true", help="also what an earlier run refused with the same sources")
    parser.add_argument("--built", action="store_true", help="after rt ci, which has left the libraries in out/, and tried must-fail/")
    parser.add_argument("--share", type=int, default=1, metavar="N", help="about one of N edits, chosen by the sources (all)")
    parser.add_argument("--self-test", action="store_true", help="only the test of this script, in the smallest crate")
    parser.add_argument("crates", nargs="*", metavar="CRATE", help="the edits of these crates (those of each that has a file edits.txt)")
    options = parser.parse_args()
    if options.share < 1:
        parser.error("--share takes a number from 1")
    uses = read_uses(TOP / "crates.txt")
    listed = options.crates or [it for it in uses if (TOP / "crates" / it / "edits.txt").is_file()]
    edits = {it: len(edits_of(TOP / "crates" / it)) for it in listed}
    if without := [it for it in listed if not edits[it]]:
        parser.error(f"no edits of {', '.join(without)}")
    functions = {it: len(functions_of(TOP / "crates" / it)) for it in listed}
    first = min(functions, key=lambda it: (len(below(it, uses)), functions[it]))
    # the longest work begins first: a check takes longest in a crate that uses many others
    names = [first] if options.self_test else sorted(functions, key=lambda it: (-len(below(it, uses)), -functions[it] * edits[it]))
    with tempfile.TemporaryDirectory(prefix="edits-") as temp:
        base = Path(temp) / "base"
        build(base, list(dict.fromkeys(low for it in names for low in below(it, uses))), uses, options.built)
        trials = [Trial(it, uses, Rooms(it, uses, base, Path(temp))) for it in names]
        read = [(it, it.edits()) for it in trials]
        for trial, found in read:
            if trial.crate == first:
                with trial.rooms.one() as room:
                    self_test(room, found)
        if not options.self_test:
            try_all([(it, it.chosen(found, options.share, options.anew, options.built)) for it, found in read], options.jobs)
    tell_times(trials)
    counts = [it.count for it in trials]
    refused, failed, before, left = (sum(getattr(it, of) for it in counts) for of in ("refused", "failed", "before", "left"))
    said = f"{refused} refused" + f" ({before} of them before)" * bool(before) + f", {failed} let through"
    said += f", {left} not tried" * bool(left)
    print("the script's own test passed" if options.self_test else said)
    return 1 if failed else 0


if __name__ == "__main__":
    sys.exit(main())
