"""The second half of Dovecot's authentication protocol, for Dovecot itself: its imap asks who it was that has just logged in.

    S: VERSION 1 1 | SPID n
    C: VERSION 1 1 | REQUEST id CPID login-id COOKIE
    S: USER id NAME uid=1000 gid=1000 home=/srv/mail/NAME    or    NOTFOUND id
"""
import asyncio
import contextlib
import os
import socket
import time
from collections.abc import AsyncIterator
from typing import cast

from scramotp_host.sockets import MOST_UNREAD

LONGEST_LINE = 8192
KEPT = 60  # seconds that a login waits to be asked for


class Accepted:
    """The logins of the last minute, by the process that was told, its number there, and the cookie of its connection. Each is handed out
    once."""

    def __init__(self) -> None:
        self.users: dict[tuple[bytes, bytes, bytes], tuple[float, str]] = {}

    def add(self, process: bytes, ident: bytes, cookie: bytes, user: str) -> None:
        self.users[process, ident, cookie] = time.monotonic() + KEPT, user
        self.forget()

    def forget(self) -> None:
        """Forgets who was not asked for in time. The oldest come first."""
        while self.users and next(iter(self.users.values()))[0] < time.monotonic():
            self.users.pop(next(iter(self.users)))

    def take(self, process: bytes, ident: bytes, cookie: bytes) -> str | None:
        self.forget()
        return self.users.pop((process, ident, cookie), (0, None))[1]


def is_for_paths(name: str) -> bool:
    """Whether a name can stand in a path without leading elsewhere."""
    return "/" not in name and not name.startswith(".")


class Master(asyncio.Protocol):
    """A process of Dovecot that has connected."""

    def __init__(self, accepted: Accepted, userdb: str) -> None:
        self.accepted, self.userdb, self.text = accepted, userdb, b""

    def connection_made(self, transport: asyncio.BaseTransport) -> None:
        self.transport = cast(asyncio.Transport, transport)
        self.transport.write(b"VERSION\t1\t1\nSPID\t%d\n" % os.getpid())

    def data_received(self, data: bytes) -> None:
        *lines, self.text = (self.text + data).split(b"\n")
        for line in lines:
            match line.split(b"\t"):
                case [b"REQUEST", ident, process, login, cookie, *_]:
                    self.transport.write(self.answer(ident, self.accepted.take(process, login, cookie)))
        if len(self.text) > LONGEST_LINE or self.transport.get_write_buffer_size() > MOST_UNREAD:
            self.transport.abort()

    def answer(self, ident: bytes, user: str | None) -> bytes:
        """What Dovecot is told of a user."""
        if user is None or not is_for_paths(user):
            return b"NOTFOUND\t%s\n" % ident
        return b"\t".join([b"USER", ident, user.encode(), *(it.replace("%u", user).encode() for it in self.userdb.split())]) + b"\n"


@contextlib.asynccontextmanager
async def mastered(accepted: Accepted, userdb: str, listener: socket.socket) -> AsyncIterator[None]:
    """Serves at this socket while the context lasts."""
    server = await asyncio.get_running_loop().create_unix_server(lambda: Master(accepted, userdb), sock=listener)
    try:
        yield
    finally:
        server.close()
