"""One run of `scramotp hall`: the pipes to it, its log, and the copy of the book that the log began with.

The order is the point: each line is in the log's file, whole, before anyone is told what it says. docs/DOORS.md has the steps.
"""
import contextlib
import fcntl
import os
import select
import shutil
import subprocess
import time
from base64 import b64encode
from io import BufferedWriter, FileIO
from typing import IO, NamedTuple, NoReturn, cast

AT_ONCE = 1 << 16  # bytes that are read
LONGEST = 6201  # one byte more than a line of a client may have: the hall then ends the session
# A run takes 16 MiB of events, and an audit 1000000 lines. What is above these is left for the sessions that are open then.
MOST_BYTES, MOST_LINES = 15 << 20, 900_000
HALT = b"HALT"  # what a client is told if the book can't be saved; the hall ends then


class HallFault(Exception):
    """Why a hall has not begun, or can't go on, in words for the operator. All its sessions are over."""


def fail(why: str) -> NoReturn:
    raise HallFault(why)


class Heard(NamedTuple):
    """What an event has led to: the session's number; what its client is to be sent, without the LF, or nothing; and whether the
    session is over."""

    number: int
    told: bytes
    is_over: bool


def made(name: str, undo: contextlib.ExitStack) -> FileIO:
    """A new file that only its owner can read. It is removed when `undo` is closed. FileExistsError if there is one, also if it is a
    link."""
    file = open(name, "xb", 0, opener=lambda path, flags: os.open(path, flags, 0o600))
    undo.callback(os.unlink, name)
    return file


class Hall:
    """A run of `scramotp hall`, which is found on the PATH."""

    def __init__(self, book: str, log: str) -> None:
        """Makes the files LOG and LOG.toml, and starts the run, which then waits for the book. OSError if a file can't be made or there is
        no program; no file is left then."""
        self.book, self.log, self.bytes, self.lines, self.sessions = book, log, 0, 0, 0
        # What the hall has printed of a line that has not come whole, and what the client is to be sent whose `E` is the next line.
        self.rest, self.told = b"", b""
        with contextlib.ExitStack() as undo:
            self.written, self.copy = made(log, undo), made(log + ".toml", undo)
            # A signal such as that of Ctrl-C is for the host alone, which ends the hall's sessions first.
            words = ["scramotp", "hall", "--book", book]
            self.process = subprocess.Popen(words, 0, stdin=subprocess.PIPE, stdout=subprocess.PIPE, start_new_session=True)
            self.undo = undo.pop_all()
        self.events, self.printed = cast(IO[bytes], self.process.stdin), cast(IO[bytes], self.process.stdout)
        # What the pipe holds while the hall itself waits until its lines are read.
        self.most_at_once = fcntl.fcntl(self.events, fcntl.F_GETPIPE_SZ)

    def is_ready(self, seconds: float) -> bool:
        """Whether `begin` would not wait, after at most so many seconds."""
        return bool(select.select([self.printed], [], [], seconds)[0])

    def begin(self) -> None:
        """Waits until the hall holds the book, and copies that to LOG.toml. HallFault if the hall ends before that, or OSError if there can
        be no copy; no file is left then."""
        try:
            self.keep([self.printed.readline().rstrip(b"\n") or fail("the hall did not start")])
            with open(self.book, "rb") as begun, BufferedWriter(self.copy) as copy:  # which writes all, or fails
                shutil.copyfileobj(begun, copy)
        except BaseException:
            self.discard()
            raise
        self.undo.pop_all()

    def discard(self) -> None:
        """Ends a hall that has not begun, and removes its files."""
        self.process.terminate()
        self.end()
        self.undo.close()

    def keep(self, lines: list[bytes]) -> None:
        """Writes lines to the log, whole, each with its LF. HallFault if it can't."""
        self.lines += len(lines)
        left = memoryview(b"\n".join([*lines, b""]))
        try:
            while left:
                left = left[self.written.write(left):]
        except OSError as fault:
            fail(f"the log can't be written: {fault.strerror}")

    def hear(self, *events: bytes) -> list[Heard]:
        """Gives the hall events, as `give` does, and returns what each has led to, or up to HALT, once the log has it all: after far less
        than a millisecond for each, unless a code is saved. HallFault as of `give` and `receive`."""
        self.give(*events)
        found = list[Heard]()
        while len(found) < len(events) and not (found and found[-1].told == HALT):
            found += self.receive()
        return found

    def give(self, *events: bytes) -> None:
        """Gives the hall events, none of which has an LF in it, and which together have no more than `most_at_once` bytes unless there is
        only one. What they lead to has to be received before more are given. HallFault if the hall has ended."""
        left = memoryview(b"\n".join([*events, b""]))
        self.bytes += len(left)
        try:
            while left:
                left = left[self.events.write(left):]
        except (BrokenPipeError, ValueError):  # the second, if the pipe is closed
            fail("the hall has ended")

    def receive(self) -> list[Heard]:
        """Waits until the hall prints something. Returns what events have led to, in their order, once the log has it all. HallFault if
        the hall has ended, or if the log can't be written: then nobody may be told anything."""
        came = os.read(self.printed.fileno(), AT_ONCE) or fail("the hall has ended")
        *lines, self.rest = (self.rest + came).split(b"\n")
        self.keep(lines)
        found = list[Heard]()
        for line in lines:
            number, _, what = line.partition(b" ")
            is_over = what == b"E"
            if what.startswith(b"S "):
                self.told = what[2:]
                if self.told.startswith((b"NO :", b"BUSY")):
                    continue  # its `E` is the next line
            elif not is_over:
                continue  # what the client has said
            found.append(Heard(int(number), self.told, is_over or self.told == HALT))
            self.told = b""
        return found

    @property
    def is_full(self) -> bool:
        """Whether another run should follow, so that this one does not end by itself."""
        return self.bytes > MOST_BYTES or self.lines > MOST_LINES

    def end(self) -> int:
        """Ends the run, and returns its status. Sessions that are open then leave a log that is cut."""
        self.events.close()
        status = self.process.wait()
        self.printed.close()
        self.written.close()
        return status


def now() -> int:
    """The moment by which codes are judged."""
    return int(time.time())


def opening() -> bytes:
    """The event of a client that comes. It is told the mechanisms, or BUSY if 64 sessions are open."""
    return b"open " + b64encode(os.urandom(18))


def saying(number: int, text: bytes) -> bytes:
    """The event of a client that sends this line in an open session. It has no LF in it."""
    return b"line %d %d %s" % (number, now(), text[:LONGEST])


def going(number: int) -> bytes:
    """The event of a client that goes away from an open session, or whose session is to end."""
    return b"gone %d %d" % (number, now())
