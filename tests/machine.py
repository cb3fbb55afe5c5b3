#!/usr/bin/env python3
"""What the machine can do to each command of the built program, and what has to be true afterwards, as one table; then signals, and many
runs at once.

Each run ends with the status and the fault in the table, has printed what it says, and leaves that book and no other file. When root runs
the script, the program runs as the user nobody in tests of permissions. Needs `cc`.
"""
import collections
import concurrent.futures
import functools
import itertools
import os
import pathlib
import random
import re
import resource
import shutil
import signal
import time
from collections.abc import Callable
from typing import Any, NamedTuple

import shims
import suite
from checks import equal, holds
from command_table import (
    BOOK, LIMIT_100, Command, audited, book_of, command_of, commands, is_done, is_front, is_kept, left, login_log, new_book, parsed_book,
    prepare, printed_begins_clean, run, with_account, with_token,
)
from expected import GONE, numbered
from processes import Answer, Running, whole
from suite import NONCES, PROGRAM, ROOT, as_nobody, each, fault_text, nobody, totp, within
from wrong_calls import CHANGES, Call, Turns


class Due(NamedTuple):
    """What is due after a run: its status, its output (None for the whole output), its fault, and how many saves it made."""

    status: int
    printed: str | None
    fault: str
    saves: int


WELL = Due(0, None, "", -1)
UNPRINTED, UNREAD = "cannot write output", "cannot read input"
UNSAVED, NO_RANDOM = "cannot write {folder}/book", "cannot read {folder}/random"


# What is due from each command that is affected; `new` is `enrol` for a book that does not exist yet. Codes are saved before their replies
# are printed; `login` and `hall` save the book before their first line.
SAVING, PRINTLESS = ["enrol", "new", "verify", "unlock", "login", "hall"], Due(3, "", UNPRINTED, 1)
LOST_OUTPUT = dict.fromkeys(SAVING, PRINTLESS) | dict.fromkeys(["keys", "code", "audit", "upgrade", "report"], PRINTLESS._replace(saves=0))
LOST_INPUT = dict.fromkeys(["keys", "enrol", "new", "verify", "login"], Due(3, "", UNREAD, 0)) | {"hall": Due(3, "SCRAMLOG 2\n", UNREAD, 1)}
LOST_SAVE = dict.fromkeys(SAVING, Due(3, "", UNSAVED, 0))


def named() -> dict[str, Command]:
    """All commands, by their names in the table."""
    return {**{command.name: command for command in commands()}, "new": new_book()}


class Machine:
    """A folder that anyone may enter, in which commands are disturbed."""

    def __init__(self, folder: str) -> None:
        os.chmod(folder, 0o755)
        self.above = folder
        self.folder = str(within(folder, "files"))
        self.program = shutil.copy(PROGRAM, folder)
        self.clock = pathlib.Path(folder, "clock")
        self.with_clock = {**os.environ, "LD_PRELOAD": shims.built("turn_clock"), "CLOCK": str(self.clock)}

    def full_output(self, command: Command) -> Answer:
        with open("/dev/full", "wb") as full:
            return run(command, self.folder, stdout=full)

    def unread_pipe(self, command: Command) -> Answer:
        reader, writer = os.pipe()
        os.close(reader)
        with open(writer, "wb") as pipe:
            return run(command, self.folder, stdout=pipe)

    def folder_as_input(self, command: Command) -> Answer:
        at = os.open(self.folder, os.O_RDONLY)
        answer = run(command, self.folder, stdin=at)
        os.close(at)
        return answer

    def sealed(self, command: Command) -> Answer:
        """Runs a command in a folder that nobody may write, not even its owner, as whom the command runs."""
        for path in [self.folder, *(os.path.join(self.folder, name) for name in os.listdir(self.folder))]:
            if ROOT:
                os.chown(path, nobody().pw_uid, nobody().pw_gid)
        os.chmod(self.folder, 0o555)
        answer = run(command, self.folder, executable=self.program, **as_nobody())
        os.chmod(self.folder, 0o755)
        if ROOT:
            os.chown(self.folder, 0, 0)
        return answer

    def waitless_input(self, command: Command) -> Answer:
        """Runs a command whose input has nothing yet, and of which a read does not wait, but fails at once (EAGAIN)."""
        reader, writer = os.pipe2(os.O_NONBLOCK)
        with open(reader, "rb"), open(writer, "wb"):
            return run(command, self.folder, stdin=reader)

    def no_room(self, command: Command, room: int = 0) -> Answer:
        """Runs a command that can write no more than so many bytes to a file. Pipes are not files."""
        limit = functools.partial(resource.setrlimit, resource.RLIMIT_FSIZE, (room, room))
        return run(command, self.folder, preexec_fn=limit, restore_signals=False)

    def set_clock(self, second: int) -> None:
        """Stops the clock at this second. A run that reads the clock meanwhile finds this second or the earlier one."""
        next_clock = self.clock.with_name("next_clock")
        next_clock.write_text(str(second))
        next_clock.replace(self.clock)

    def turned(self, command: Command, seconds: int) -> Answer:
        self.set_clock(seconds)
        return run(command, self.folder, env=self.with_clock)

    def short_random(self, command: Command) -> Answer:
        """Runs a command with one random byte less than it needs: 18 for each nonce, 16 for each salt and 32 for the decoy key."""
        words = [word for word in command.words if word not in NONCES]
        if command.name == "login":
            words += ["--random", "{random}"]
        needed = {"login": 36, "enrol": 32 if command.books[0] else 64}.get(command.name, 1)
        pathlib.Path(self.folder, "random").write_bytes(bytes(needed - 1))
        return run(command._replace(words=words), self.folder)


class Disturbance(NamedTuple):
    """A way to disturb a command: its name, the function of a machine and a command that runs it so and returns its status, output and
    faults, and whether the test then can't see the output, or the faults."""

    name: str
    run: Callable
    loses_output: bool = False
    loses_faults: bool = False


def closed(*numbers: int) -> Disturbance:
    """The disturbance of a command for which these of the three streams are closed."""
    def closed_run(machine: Machine, command: Command) -> Answer:
        return run(command, machine.folder, preexec_fn=lambda: [os.close(number) for number in numbers])

    return Disturbance(f"closed: {numbers}", closed_run, 1 in numbers, 2 in numbers)


def clock_at(second: int) -> Disturbance:
    """The disturbance of a command at whose clock it is always this second."""
    return Disturbance(f"the clock at {second}", lambda machine, command: machine.turned(command, second))


# Each disturbance, and what is due in it. A command that is not named is not affected, and ends well.
TABLE = [
    (Disturbance("a full device as output", Machine.full_output, loses_output=True), LOST_OUTPUT),
    (Disturbance("a pipe that nobody reads as output", Machine.unread_pipe, loses_output=True), LOST_OUTPUT),
    (Disturbance("a folder as input", Machine.folder_as_input), LOST_INPUT),
    (closed(0), LOST_INPUT),
    (closed(1), LOST_OUTPUT),
    (closed(2), {}),
    # The log's first line is lost before the first event is read.
    (closed(0, 1), LOST_OUTPUT | LOST_INPUT | {"hall": PRINTLESS}),
    (closed(0, 2), LOST_INPUT),
    (closed(1, 2), LOST_OUTPUT),
    (closed(0, 1, 2), LOST_OUTPUT | LOST_INPUT | {"hall": PRINTLESS}),
    (Disturbance("a folder in which nothing can be written", Machine.sealed), LOST_SAVE | {"login": Due(3, "", "socket fault", 0)}),
    (Disturbance("an input that does not wait", Machine.waitless_input), LOST_INPUT),
    (Disturbance("a device without room for the book", Machine.no_room), LOST_SAVE),
    (Disturbance("a device with room for a part of the book", functools.partial(Machine.no_room, room=100)), LOST_SAVE),
    # Before 1970, and after the year 9999
    (clock_at(-1), {}),
    (clock_at(253402300800), {}),
    (Disturbance("a random file that ends", Machine.short_random), dict.fromkeys(["enrol", "new", "login"], Due(3, "", NO_RANDOM, 0))),
]


def table(folder: str) -> None:
    """Each command ends in each disturbance as the table says."""
    here = Machine(folder)
    for trial, ((disturbance, row), (name, command)) in each(itertools.product(TABLE, named().items())):
        with trial:
            due = row.get(name, WELL)
            prepare(here.folder, command)
            answer = disturbance.run(here, command)
            cell = (disturbance.name, name)
            printed = command.printed if due.printed is None else due.printed
            fault = fault_text(due.fault.format(folder=here.folder))
            seen = (due.status, "" if disturbance.loses_output else printed, "" if disturbance.loses_faults else fault)
            equal(answer, seen, cell)
            equal((book_of(here.folder), left(here.folder)), (command.books[due.saves], set()), (*cell, "the book, and what else is left"))
            holds(due.saves != 0 or is_kept(here.folder, command, ""), cell, "the book is not as it was")


def socket_elsewhere(folder: str) -> None:
    """A login whose socket can be made but whose book can't be saved prints nothing, and leaves no socket."""
    here, open_folder = Machine(folder), os.path.join(folder, "open")
    os.mkdir(open_folder)
    os.chmod(open_folder, 0o777)
    login = named()["login"]
    words = [word.replace("{socket}", os.path.join(open_folder, "socket")) for word in login.words]
    prepare(here.folder, login)
    answer = here.sealed(login._replace(words=words))
    equal(answer, (3, "", fault_text(UNSAVED.format(folder=here.folder))), "the answer")
    holds(is_kept(here.folder, login, ""), "the book is not kept", book_of(here.folder))
    equal(os.listdir(open_folder), [], "the files in the socket's folder")


def few_descriptors(folder: str) -> None:
    """With too few descriptors to open its files, a command says so, and the book is whole."""
    here, refused = Machine(folder), 0
    for trial, ((name, command), most) in each(itertools.product(named().items(), range(4, 16))):
        with trial:
            prepare(here.folder, command)
            limit = functools.partial(resource.setrlimit, resource.RLIMIT_NOFILE, (most, most))
            status, printed, fault = answer = run(command, here.folder, preexec_fn=limit)
            holds(is_kept(here.folder, command, printed), name, most, answer, "the book is not whole, or lacks what was reported")
            equal(left(here.folder), set(), name, most, answer, "the files that are left")
            if answer != (0, command.printed, ""):
                equal(status, 3, name, f"{most} descriptors", answer, "the status")
                holds(is_front(command, printed), name, most, answer, "its output is no beginning of", command.printed)
                holds(re.fullmatch(r"scramotp: (cannot (read|write) .+|socket fault)\n", fault), name, most, answer, "no fault of a file")
                refused += 1
            holds(answer == (0, command.printed, "") or most < 15, name, answer, "15 descriptors are too few")
    holds(refused > 0, "no run had too few descriptors")


SIGNALS = [signal.SIGTERM, signal.SIGINT, signal.SIGHUP, signal.SIGKILL]
# How many runs of each command are stopped at random moments.
STOPPED = 5


def made_by(calls: list[Call]) -> tuple[set[str], int]:
    """The files that a run has made by these calls and has not removed, and how many saves it has made."""
    files, saves = set(), 0
    for name, file in calls:
        saves += name in ("rename", "link")
        if (name, file) in [("open", "book.new"), ("bind", "socket")]:
            files.add(file)
        elif name == "rename":
            files.remove("book.new")
        elif name == "unlink":
            files.remove(file)
    return files, saves


def goes_on(here: Turns | Machine, book: dict[str, Any] | None, files: set[str]) -> None:
    """The next run, which adds an account to what the book states, or to no book, does all its work. It leaves only the socket."""
    enrol = command_of("enrol")
    other = enrol._replace(words=[word.replace("new", "other") for word in enrol.words])
    equal(run(other, here.folder), (0, "enrolled other\n", ""), "the next command")
    equal(book_of(here.folder), with_account(book, "other"), "the book after the next command")
    equal(left(here.folder), files - {"book.new"}, "the files that are left after the next command")


def signals(folder: str) -> None:
    """Whichever signal ends a run, and before whichever of its calls, the status is that of the signal. The run has printed the beginning
    of what is due and no fault. The book has the saves that were made by then, and the run leaves no file but the next text and the socket,
    if it had made these. The next command does all its work."""
    here = Turns(folder)
    for trial, ((name, command), number) in each(itertools.product(named().items(), SIGNALS)):
        with trial:
            for inner, (what, _, answer) in each(here.turns(command, CHANGES, f"signal {number}")):
                with inner:
                    files, saves = made_by(here.before)
                    equal(answer, Answer(-number, answer.output, ""), what)
                    holds(is_front(command, answer.output), what, "its output is no beginning of", command.printed)
                    equal(book_of(here.folder), command.books[saves], what, "the book")
                    holds(is_kept(here.folder, command, answer.output), what, "the book lacks what was reported", command.books[saves])
                    equal(left(here.folder), files, what, "the files that are left")
                    is_log = name in ("login", "hall")
                    holds(not is_log or printed_begins_clean(here.folder, answer.output), what, "a line of the log is at fault")
                    goes_on(here, command.books[saves], files)


def signals_while_waiting(folder: str) -> None:
    """A signal ends a run that waits for its next line. The code that it has replied to is spent, and the next command does all its
    work."""
    here, of_one_code = Machine(folder), {command.name: command for command in commands(1)}
    ends = {"verify": ("", "", set()), "login": ("", GONE, {"socket"}), "hall": ("gone 1 5\n", "1 C GONE\n1 E\n", set())}
    for trial, ((name, (text, printed, files)), number) in each(itertools.product(ends.items(), SIGNALS)):
        with trial:
            command = of_one_code[name]
            prepare(here.folder, command)
            run_of_command = Running(command.in_folder(here.folder))
            run_of_command.prints(command.printed.removesuffix(printed), command.text.removesuffix(text))
            run_of_command.waits()
            run_of_command.ends(-number, by=number)
            equal(book_of(here.folder), command.books[-1], "the book")
            equal(left(here.folder), files, "the files that are left")
            goes_on(here, command.books[-1], files)


def stopped_while_waiting(folder: str) -> None:
    """A run that is stopped while it waits for input, and is sent its next line or the end of its input before it goes on, prints and saves
    what a run does that is not stopped."""
    here = Machine(folder)
    for trial, name in each(["verify", "login", "hall"]):
        with trial:
            command = command_of(name)
            prepare(here.folder, command)
            run_of_command = Running(command.in_folder(here.folder))
            for line in command.text.splitlines(keepends=True):
                run_of_command.waits()
                with run_of_command.stopped():
                    run_of_command.send(line)
            run_of_command.waits()
            with run_of_command.stopped():
                run_of_command.close()
            run_of_command.ends(0, command.printed)
            holds(is_done(here.folder, command), name, "the book, and what else is left", book_of(here.folder), left(here.folder))


def stopped_at_random(folder: str) -> None:
    """A run that is stopped again and again, at random moments, prints and saves what a run does that is not stopped."""
    here, stops = Machine(folder), 0
    for trial, ((name, command), _) in each(itertools.product(named().items(), range(STOPPED))):
        with trial:
            prepare(here.folder, command)
            run_of_command = whole(command.in_folder(here.folder), command.text)
            while run_of_command.process.poll() is None:
                with run_of_command.stopped() as is_stopped:
                    stops += is_stopped
                time.sleep(random.uniform(0, 0.0005))
            run_of_command.ends(0, command.printed)
            holds(is_done(here.folder, command), name, "the book, and what else is left", book_of(here.folder), left(here.folder))
    holds(stops, "no run was stopped before its end")


def together(here: Machine, started: list[Command]) -> list[Answer]:
    """Starts these commands at the same time, each with its input and a socket of its own, and returns the answer of each."""
    def answer(number: int, command: Command) -> Answer:
        own = [word.replace("{socket}", f"{here.folder}/socket{number}") for word in command.words]
        return run(command._replace(words=own), here.folder)

    with concurrent.futures.ThreadPoolExecutor(len(started)) as pool:
        return [*pool.map(answer, range(len(started)), started)]


def twenty_at_once(folder: str) -> None:
    """Twenty runs of each command over one book: an account is added once, a code passes once, whoever sends it, and all other runs
    are answered as if they came later. A command that only reads a book or a log is answered as if it ran by itself. The book states what
    follows from that, and nothing else."""
    here, before = Machine(folder), parsed_book(LIMIT_100)
    one_code = {**{command.name: command for command in commands(1)}, "new": new_book()}
    late = {"enrol": (1, "", "scramotp: name is taken\n"), "verify": (1, "FAIL 5\n", "")}
    late |= {"new": late["enrol"], "login": (1, login_log(1).replace("PASS 5 0", "FAIL 5"), "")}
    late |= {"hall": (0, numbered(late["login"][1]), "")}
    after = {"enrol": with_account(before), "new": with_account(None), "unlock": with_token(before, failures=0)}
    after |= dict.fromkeys(["verify", "login", "hall"], with_token(before, next=1, failures=19))
    for trial, (name, command) in each(one_code.items()):
        with trial:
            prepare(here.folder, command)
            if name != "new":
                pathlib.Path(here.folder, "book").write_text(LIMIT_100)
            first = (0, command.printed, "")
            answers = collections.Counter(together(here, [command] * 20))
            equal(answers, collections.Counter([first] + [late.get(name, first)] * 19), name)
            equal(left(here.folder), set(), name, "the files that are left")
            equal(book_of(here.folder), after.get(name, before), name, "what the book states")


def all_at_once(folder: str) -> None:
    """Twenty runs of all commands over one book: each code passes once, whichever command it is sent to, and no change is lost."""
    here, every = Machine(folder), commands()
    for _ in range(10):
        prepare(here.folder, every[0])
        pathlib.Path(here.folder, "book").write_text(LIMIT_100)
        started = random.sample(every * 2 + every[-2:], 20)
        answers, passed = together(here, started), []
        for command, (status, printed, fault) in zip(started, answers):
            what = (command.name, status, printed, fault)
            if command.name == "enrol":
                holds(what[1:] in [(0, command.printed, ""), (1, "", "scramotp: name is taken\n")], "no answer of enrol", what)
            elif command.name in ("verify", "login", "hall"):
                passed += re.findall(r"PASS 5 (\d+)", printed)
                equal(re.sub(r"PASS 5 \d+", "FAIL 5", printed), re.sub(r"PASS 5 \d+", "FAIL 5", command.printed), what)
                equal((status, fault), (0 if command.name == "hall" or "FAIL" not in printed else 1, ""), what)
            else:
                equal(what[1:], (0, command.printed, ""), what)
        equal(sorted(passed), ["0", "1"], "the counters that pass", answers)
        equal(left(here.folder), set(), "the files that are left")
        # How many codes have failed since the last that passed, or since `unlock`, depends on the order of the runs.
        found = book_of(here.folder)
        failures = found["accounts"]["user"]["token"]["failures"]
        equal(found, with_token(with_account(parsed_book(LIMIT_100)), next=2, failures=failures), "what the book states")


# RFC 6238, appendix B: the SHA-1 codes at three moments, of the steps 1, 37037036 and 37037037, and a token that accepts them.
EARLY, BEFORE, AFTER = (59, 1, "94287082"), (1111111109, 37037036, "07081804"), (1111111111, 37037037, "14050471")
TOTP = totp(limit=100)


class Clocks(Machine):
    """Logins with the machine's clock, and a hall and `verify` with the moments that they are given, over a book with a TOTP token."""

    def __init__(self, folder: str) -> None:
        super().__init__(folder)
        self.named = named()
        prepare(self.folder, self.named["login"])
        self.book = pathlib.Path(self.folder, "book")
        self.fresh()

    def fresh(self) -> None:
        self.book.write_text(BOOK[:BOOK.index("\n[accounts.user.token]")] + TOTP)

    def login(self, *turns: tuple[int, str]) -> list[str]:
        """The replies to codes in a login; each turn is a second at which the clock is stopped, and a code. The log has to be clean."""
        before = self.book.read_text()
        self.set_clock(turns[0][0])
        run_of_login = Running(self.named["login"].in_folder(self.folder)[:-2], "pencil\n", env=self.with_clock)
        log = run_of_login.next_lines(6)
        for clock, code in turns:
            self.set_clock(clock)
            run_of_login.send(f"{code}\n")
            log += run_of_login.next_lines(2)
        status, rest, faults = run_of_login.end()
        replies = [line.removeprefix("S ") for line in (log + rest).splitlines()[7:-2:2]]
        equal((status, faults), (0 if all(reply.startswith("PASS") for reply in replies) else 1, ""), "the end of a login", replies)
        audited(self.folder, before, log + rest)
        return replies


def clocks_that_go_back(folder: str) -> None:
    """When the clock is set back, no code passes again, and none of an earlier step, neither in the same run nor in the next. If the
    clock gives no valid moment, the moment is 0."""
    here = Clocks(folder)
    (then, first, code), (now, second, next_code), (_, _, old_code) = BEFORE, AFTER, EARLY
    told = here.login((now, next_code), (then, code), (then, next_code))
    equal(told, [f"PASS {now} {second}", f"FAIL {then}", f"FAIL {then}"], "codes while the clock is set back")
    equal(here.login((59, old_code), (59, next_code)), ["FAIL 59", "FAIL 59"], "codes of earlier steps, in the next run")
    equal(here.login((then, code)), [f"FAIL {then}"], "the code of the step before, in a later run")
    for trial, clock in each([-1, -10 ** 12, 253402300800, 10 ** 12]):
        with trial:
            equal(here.login((clock, next_code)), ["FAIL 0"], clock)
    here.fresh()
    told = here.login((then, code), (59, old_code), (now, next_code))
    equal(told, [f"PASS {then} {first}", "FAIL 59", f"PASS {now} {second}"], "codes of a new token, in the order of clocks")
    here.fresh()
    equal(here.login((59, old_code)), ["PASS 59 1"], "the code of an early step, at a new token")


def moments_that_fall(folder: str) -> None:
    """When the moments that `verify` and a hall are given go back, no code passes again, and none of an earlier step. The hall's log is
    clean."""
    here = Clocks(folder)
    (then, first, code), (now, second, next_code), (_, _, old_code) = BEFORE, AFTER, EARLY
    verify = here.named["verify"]
    for trial, (moment, sent, reply) in each([
        (now, next_code, f"PASS {now} {second}"),
        (then, code, f"FAIL {then}"),
        (59, old_code, "FAIL 59"),
        (0, next_code, "FAIL 0"),
        (now, next_code, f"FAIL {now}"),
    ]):
        with trial:
            command = verify._replace(words=[*verify.words[:-1], str(moment)], text=f"{sent}\n")
            equal(run(command, here.folder), (0 if reply.startswith("PASS") else 1, f"{reply}\n", ""), moment, sent)
    here.fresh()
    before = here.book.read_text()
    hall = command_of("hall", 0)
    turns = [(then, code, f"PASS {then} {first}"), (59, old_code, "FAIL 59"), (now, next_code, f"PASS {now} {second}"), (0, code, "FAIL 0")]
    events = "".join(f"line 1 {moment} CODE {sent}\n" for moment, sent, _ in turns)
    lines = "".join(f"1 C CODE {sent}\n1 S {reply}\n" for _, sent, reply in turns)
    log = hall.printed.replace("1 C GONE\n", f"{lines}1 C GONE\n")
    answer = run(hall._replace(text=hall.text.replace("gone", f"{events}gone")), here.folder)
    equal(answer, (0, log, ""), "a hall whose moments fall")
    audited(here.folder, before, log)


suite.run_all()
