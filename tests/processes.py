"""Runs of commands: whole ones, and ones that wait for more input; a terminal for them. Also what can be seen of a process from outside.
If a test fails, `last` says which command was run last, with which input, and what it answered."""
import contextlib
import os
import select
import shlex
import signal
import subprocess
import time
from collections.abc import Callable, Iterator
from typing import Any, NamedTuple, NoReturn

from checks import cut, equal, fail, shown
from limits import limit

# The most seconds that a run may take. After that, the test fails, and is named.
LIMIT = limit(120)
# The most seconds in which a run that goes on has to print its next lines.
LIMIT_OF_LINES = limit(60)

PIPES = dict.fromkeys(["stdin", "stdout", "stderr"], subprocess.PIPE)


class Answer(NamedTuple):
    """What a run has answered. What goes to a file or a terminal is not in it."""

    status: int
    output: str
    faults: str

    def given(self, *about: Any, status: int = 0, faults: str = "") -> str:
        """The output of a run that has to end with this status and these faults."""
        equal(self, (status, self.output, faults), *about)
        return self.output


# What `last` says, and the processes that `forget_runs` stops.
_last: list[str] = []
_started: list[subprocess.Popen] = []


def last() -> str:
    """The command that was run last, its input and its answer; an empty text if there was none since `forget_runs`."""
    return "".join(_last)


def forget_runs() -> None:
    """Ends the runs that still go on, and what they have started, and forgets all."""
    for process in _started:
        _end_all(process)
    _started.clear()
    _last.clear()


def _children(parents: set[int]) -> set[int]:
    """The processes whose parent is one of these."""
    found = set()
    for process in map(int, filter(str.isdecimal, os.listdir("/proc"))):
        # One that ends meanwhile is not counted.
        with contextlib.suppress(OSError):
            if int(_stat(process)[1]) in parents:
                found.add(process)
    return found


def _end_all(process: subprocess.Popen) -> None:
    """Kills a run, unless it has ended, and all that it has started. First each of these is stopped, so that it starts no other. One whose
    parent has ended is not found. run.py and planted.py end what is left in the group of a script."""
    if process.poll() is not None:
        return
    found, more = set(), {process.pid}
    while more:
        _signal(more, signal.SIGSTOP)
        found |= more
        more = _children(found) - found
    _signal(found, signal.SIGKILL)
    process.wait()


def _signal(processes: set[int], number: int) -> None:
    """Sends processes a signal, unless they have ended."""
    for process in processes:
        with contextlib.suppress(ProcessLookupError):
            os.kill(process, number)


def _command(words: list) -> str:
    """A command as one would type it."""
    return cut(shlex.join(map(os.fsdecode, words)))


def _remember(words: list, given: str | bytes, answer: Answer) -> Answer:
    """Notes a run that has ended, and returns its answer."""
    parts = {"the last run": _command(words), "  its input": shown(given)}
    parts |= {f"  its {name}": shown(it) for name, it in answer._asdict().items()}
    _last[:] = [f"{name}: {text}\n" for name, text in parts.items()]
    return answer


def _fail_late(words: list, given: str | bytes) -> NoReturn:
    """Fails the test, since a run takes too long."""
    _last.clear()
    fail([_command(words), "after the input", shown(given)], [f"the run does not end in {LIMIT} seconds"])


def _encoded(text: str | bytes) -> bytes:
    return text.encode() if isinstance(text, str) else text


def ran(words: list, data: str | bytes = b"", **how: Any) -> Answer:
    """Runs a command with this input, unless another is given as `stdin`. Returns its answer."""
    with subprocess.Popen(words, **{**PIPES, **how}) as process:
        try:
            printed = process.communicate(None if "stdin" in how else _encoded(data), timeout=LIMIT)
        except subprocess.TimeoutExpired:
            _fail_late(words, data)
        finally:
            _end_all(process)
    return _remember(words, data, Answer(process.returncode, *((it or b"").decode() for it in printed)))


class Running:
    """A run that was started, and may wait for more input."""

    def __init__(self, words: list, text: str | bytes = "", **how: Any) -> None:
        """Starts a command, and sends it this text."""
        self.words, self.given = words, b""
        # What was read after the lines that a test has asked for.
        self.unread = b""
        self.process = subprocess.Popen(words, **{**PIPES, **how})
        _started.append(self.process)
        self.send(text)

    def send(self, text: str | bytes) -> None:
        """Sends the run more input. A run that has ended does not read it."""
        self.given += _encoded(text)
        if text:
            try:
                self.process.stdin.write(_encoded(text))
                self.process.stdin.flush()
            except BrokenPipeError:
                pass

    def close(self) -> None:
        """Ends the input."""
        try:
            self.process.stdin.close()
        except BrokenPipeError:
            pass
        self.process.stdin = None

    def next_lines(self, count: int) -> str:
        """The next `count` lines that the run prints while its input is open, or fewer if it ends or prints no more of them in time."""
        text, deadline = self.unread, time.monotonic() + LIMIT_OF_LINES
        while text.count(b"\n") < count and (left := deadline - time.monotonic()) > 0:
            if select.select([self.process.stdout], [], [], left)[0]:
                read = os.read(self.process.stdout.fileno(), 65536)
                if not read:
                    break
                text += read
        lines = text.split(b"\n", count)
        self.unread = lines[count] if len(lines) > count else b""
        return text.removesuffix(self.unread).decode()

    def prints(self, lines: str, text: str | bytes = "") -> None:
        """Sends the run this text, and compares the next lines that it prints."""
        self.send(text)
        equal(self.next_lines(lines.count("\n")), lines, "the next lines of", _command(self.words), "after the input", self.given)

    def goes_on(self) -> None:
        """Checks that the run has not ended."""
        equal(self.process.poll(), None, "the status of a run that should go on", _command(self.words), "after the input", self.given)

    def waits(self) -> None:
        """Waits until the run sleeps, as it does while it waits for input or for a lock. It must not end."""
        about = [_command(self.words), "after the input", self.given]
        until(lambda: self.process.poll() is not None or sleeps(self.process.pid), "the run should wait", *about)
        self.goes_on()

    @contextlib.contextmanager
    def stopped(self) -> Iterator[bool]:
        """Stops the run by STOP, unless it has ended, and lets it go on by CONT at the end of the context. Gives whether it was stopped."""
        found = None
        if self.process.poll() is None:
            os.kill(self.process.pid, signal.SIGSTOP)
            found = os.waitid(os.P_PID, self.process.pid, os.WSTOPPED | os.WEXITED | os.WNOWAIT)
        yield found is not None and found.si_code == os.CLD_STOPPED
        self.process.send_signal(signal.SIGCONT)

    def end(self, text: str | bytes = b"", by: int = 0) -> Answer:
        """Sends the run this signal, if it is one, and the rest of its input, and waits for its end. Returns its answer, with the output
        that is not read yet."""
        if by:
            self.process.send_signal(by)
        self.given += _encoded(text)
        try:
            output, faults = self.process.communicate(_encoded(text) if self.process.stdin else None, timeout=LIMIT)
        except subprocess.TimeoutExpired:
            _fail_late(self.words, self.given)
        output, self.unread = self.unread + (output or b""), b""
        return _remember(self.words, self.given, Answer(self.process.returncode, *((it or b"").decode() for it in (output, faults))))

    def ends(self, status: int, output: str = "", faults: str = "", text: str | bytes = b"", by: int = 0) -> None:
        """As `end`, and compares the answer."""
        equal(self.end(text, by), (status, output, faults), "the end of a run")

    def killed(self) -> Answer:
        """Kills the run, unless it has ended, and returns its answer."""
        self.process.kill()
        return self.end()


class Terminal:
    """A terminal: `end` is the program's side, and `shown` what has been shown so far."""

    def __enter__(self) -> "Terminal":
        self.side, self.end = os.openpty()
        self.shown = ""
        return self

    def __exit__(self, *_: Any) -> None:
        os.close(self.side)
        os.close(self.end)

    def type(self, text: str) -> None:
        os.write(self.side, text.encode())

    def see(self, seconds: float) -> None:
        """Reads what is shown in this time, up to an exclamation mark."""
        until = time.monotonic() + seconds
        while not self.shown.endswith("!") and (left := until - time.monotonic()) > 0:
            if select.select([self.side], [], [], left)[0]:
                self.shown += os.read(self.side, 4096).decode()

    def all_shown(self) -> str:
        """All that has been shown, once the program can show nothing more."""
        os.write(self.end, b"!")
        self.see(LIMIT_OF_LINES)
        return self.shown.removesuffix("!")


def whole(words: list, text: str | bytes, **how: Any) -> Running:
    """Starts a command, and gives it all of its input."""
    run = Running(words, text, **how)
    run.close()
    return run


def until(is_so: Callable[[], bool], *about: Any) -> None:
    """Waits at least LIMIT_OF_LINES seconds for this to be true, and otherwise fails with what the caller says about it: what is
    awaited, as in "the run should hold"."""
    deadline, is_late = time.monotonic() + LIMIT_OF_LINES, False
    while not is_so():
        if is_late:
            fail(about, [f"it does not come to be so in {LIMIT_OF_LINES} seconds"])
        time.sleep(0.01)
        is_late = time.monotonic() > deadline


def _stat(process: int) -> list[str]:
    """The fields of /proc/PID/stat after the command's name."""
    with open(f"/proc/{process}/stat", encoding="ascii", errors="replace") as file:
        return file.read().rpartition(") ")[2].split()


def sleeps(process: int) -> bool:
    """Whether a process sleeps, as it does while it waits for input."""
    return _stat(process)[0] == "S"


def taken(process: int) -> float:
    """The seconds of processor time that a process itself has taken so far, in steps of a hundredth."""
    return sum(map(int, _stat(process)[11:13])) / os.sysconf("SC_CLK_TCK")


def processor_time() -> float:
    """The seconds of processor time that this script's runs have taken. A run is counted when it has ended."""
    times = os.times()
    return times.children_user + times.children_system
