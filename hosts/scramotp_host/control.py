"""The second socket of a host, for the book's owner alone: whoever connects is given the book for as long as the connection lasts. No run
of `hall` holds it then, so `unlock`, `enrol` and `edit-book` can work on it, and logins wait."""
import asyncio
import contextlib
import socket
from collections.abc import AsyncIterator, Iterator

from scramotp_host import journal
from scramotp_host.hall import HallFault
from scramotp_host.host import Host
from scramotp_host.sockets import credentials, listening

# The word before the book's path, once the book is given.
GIVEN = "book "


@contextlib.asynccontextmanager
async def controlled(host: Host, path: str) -> AsyncIterator[None]:
    """Serves the second socket while the context lasts."""

    async def give(reader: asyncio.StreamReader, writer: asyncio.StreamWriter) -> None:
        user, process = credentials(writer.get_extra_info("socket"))
        with contextlib.suppress(HallFault, OSError), contextlib.closing(writer):
            async with host.between():
                journal.note("control", uid=user, pid=process, book="given")
                writer.write(f"{GIVEN}{host.book}\n".encode())
                await reader.read(1)  # until the other end closes it
            journal.note("control", uid=user, pid=process, book="taken back")

    with listening(path, 0o600) as listener:
        server = await asyncio.start_unix_server(give, sock=listener)
        try:
            yield
        finally:
            server.close()


@contextlib.contextmanager
def book_of(path: str) -> Iterator[str]:
    """The other end: in this context the book with the path that it gives is the caller's. OSError if no host listens there, or if it
    ends before it gives the book."""
    with socket.socket(socket.AF_UNIX) as connection:
        connection.connect(path)
        with connection.makefile(encoding="utf-8", errors="surrogateescape") as lines:
            line = lines.readline()
        if not line.startswith(GIVEN):
            raise ConnectionAbortedError(f"the host at {path} has ended")
        yield line.removeprefix(GIVEN).removesuffix("\n")
