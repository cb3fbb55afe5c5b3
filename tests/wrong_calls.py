"""What the scripts share that make a call of each command to the system go wrong: the calls that do, and runs of a command in which each of
its calls goes wrong in turn."""
import os
import pathlib
from collections.abc import Iterator
from typing import NamedTuple

import shims
from checks import equal, holds
from command_table import Command, book_of, is_done, prepare, run
from processes import Answer
from suite import within

# The calls that move bytes, and the other calls that refuse_io.c makes go wrong.
MOVES = "read,write,recv,send"
FILES = "open,openat,fsync,fdatasync,ftruncate,flock,fchmod,fchown,lseek,rename,link,unlink,realpath,statx"
SOCKETS = "socket,bind,listen,connect,accept4,shutdown"
OTHERS = f"{FILES},{SOCKETS},ioctl,clock_gettime"
# Those of them by which a run can change what others see. A run that ends at any moment leaves what one leaves that ends before one of
# these, unless the system stops in the middle of a call.
CHANGES = "write,send,open,openat,fsync,fdatasync,ftruncate,flock,fchmod,fchown,rename,link,unlink,bind,listen,connect,accept4,shutdown"


class Call(NamedTuple):
    """A call of a run, and its file: its path from the folder of the run, a stream's name, `clock`, or `socket`."""

    name: str
    file: str


def call_of(name: str, file: str, folder: str | pathlib.Path) -> Call:
    """The call with this name, of the file as refuse_io.c gives it, by a run in this folder."""
    if file.startswith("socket:"):
        return Call(name, "socket")
    # A file that was open when its name was removed.
    path = file.removesuffix(" (deleted)")
    return Call(name, os.path.relpath(path, folder) if path.startswith("/") else path)


class Turns:
    """A folder for runs in which calls go wrong, how many calls the last run made, and which calls were made before the one that went wrong
    there."""

    def __init__(self, folder: str) -> None:
        self.folder = str(within(folder, "files"))
        self.shim = shims.built("refuse_io")
        self.counted = pathlib.Path(folder, "counted")
        self.calls = 0
        self.before = []

    def turn(self, command: Command, number: int, calls: str, how: str) -> tuple[Answer, Call | None]:
        """Makes a run whose call with this number goes wrong. Returns its answer, and that call, or None if there were not so many
        calls."""
        prepare(self.folder, command)
        self.counted.unlink(missing_ok=True)
        more = {"LD_PRELOAD": self.shim, "CALLS": calls, "REFUSED": str(number), "HOW": how, "COUNTED": str(self.counted)}
        answer = run(command, self.folder, env={**os.environ, **more})
        holds(self.counted.exists(), command.name, "call", number, "the run ended before it could say which call went wrong", answer)
        count, name, file = self.counted.read_text().split(" ", 2)
        self.calls = int(count)
        holds((name == "none") == (self.calls < number), command.name, "call", number, "of", count, "went wrong:", name)
        return answer, None if name == "none" else call_of(name, file, self.folder)

    def turns(self, command: Command, calls: str, how: str) -> Iterator[tuple[tuple, Call, Answer]]:
        """Makes each call go wrong in turn, and yields it and the run's answer. Ends with a run in which none goes wrong, which has to do
        all its work."""
        self.before = []
        number, call = 1, ()
        while call is not None:
            answer, call = self.turn(command, number, calls, how)
            if call is not None:
                yield (command.name, number, *call, answer), call, answer
                self.before.append(call)
            number += 1
        equal(answer, (0, command.printed, ""), command.name, number)
        holds(is_done(self.folder, command), command.name, number, answer, "the command has not saved all", book_of(self.folder))
