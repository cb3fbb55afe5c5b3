"""LOG.clients, a file beside each log: which client each session of the log had. It is the host's word: an audit does not judge it.

    1 open 2026-11-30T04:10:00Z service=smtp rip=192.0.2.7
    1 end 2026-11-30T04:10:01Z
"""
import contextlib
import functools
import time
from datetime import UTC, datetime

from scramotp_host.hall import made
from scramotp_host.journal import fields_of

# What is known of a client: for instance its address `rip`, or the user and the process `uid` and `pid` of this machine.
Client = dict[str, object]


class Clients:
    """The file of one log."""

    def __init__(self, name: str, at_once: bool = True) -> None:
        """Makes the file, which only its owner can read. FileExistsError if there is one. A line is written at once, or else by `write`."""
        self.lines, self.at_once = list[str](), at_once
        with contextlib.ExitStack() as undo:
            self.file = made(name, undo)
            self.undo = undo.pop_all()

    def opens(self, number: int, client: Client) -> None:
        self.add(f"{number} open {moment()} {fields_of(client)}".rstrip())

    def ends(self, number: int) -> None:
        self.add(f"{number} end {moment()}")

    def add(self, line: str) -> None:
        self.lines.append(f"{line}\n")
        if self.at_once:
            self.write()

    def write(self) -> None:
        """Writes the lines that are left. A file that can't be written ends no login: the log is what counts."""
        text = "".join(self.lines).encode()
        self.lines.clear()
        with contextlib.suppress(OSError):
            self.file.write(text)

    def close(self) -> None:
        self.file.close()

    def discard(self) -> None:
        """Removes the file of a log that has not begun."""
        self.close()
        self.undo.close()


def moment() -> str:
    """The time in UTC, as RFC 3339 writes it."""
    return at(int(time.time()))


@functools.lru_cache(1)
def at(moment: int) -> str:
    return datetime.fromtimestamp(moment, UTC).strftime("%Y-%m-%dT%H:%M:%SZ")
