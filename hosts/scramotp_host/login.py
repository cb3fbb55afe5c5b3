"""A login: what a client says to a host, what it is to be told, and who it is once it is accepted."""
import asyncio
import contextlib
import re
import time
from collections.abc import Callable, Iterator
from typing import TYPE_CHECKING, NamedTuple
from urllib.parse import quote, unquote_to_bytes

from scramotp_host.clients import Client
from scramotp_host.hall import LONGEST, Hall, HallFault, Heard, going, opening, saying
from scramotp_host.limits import origin

if TYPE_CHECKING:
    from scramotp_host.host import Host

MECHANISMS = ("SCRAM-SHA-256", "SCRAM-SHA-1")
# The bytes of a message that stand in a line as they are; quote takes letters, digits and some others so in any case.
PLAIN = "".join(map(chr, range(33, 127))).replace("%", "")
BYTES_OF_PLAIN = PLAIN.encode()
CODE = re.compile(r"[!-~]{1,16}")


class LoginLost(Exception):
    """The login had to give its place to others, or the service ends. It has no verdict: the client may try again."""


class LoginLimited(Exception):
    """The client's address has failed or sent too much in this minute. It is not heard before the next."""


class Answer(NamedTuple):
    """What the client is to be told: CONT, OK or NO with a message; PASS, FAIL, LOCKED or NOCODE after a code, without one."""

    word: str
    message: bytes


# What is done with the answer that the client is to be told.
Tell = Callable[[Answer | HallFault], None]


class Names(NamedTuple):
    """The name of the account, and the name that the client acts as, in most cases the same."""

    name: str
    act_as: str


def names_in(client_first: bytes) -> Names:
    """The names in a client-first message (RFC 5802, section 7). ValueError if it is none. Believe them only after OK."""
    _, act_as, name = client_first.decode().split(",")[:3]
    if not name.startswith("n=") or not act_as.startswith("a=") and act_as:
        raise ValueError("no names")
    name, act_as = (part[2:].replace("=2C", ",").replace("=3D", "=") for part in (name, act_as))
    return Names(name, act_as or name)


def as_in_a_line(message: bytes) -> bytes:
    """A message as it stands in a line of the hall. What is above the limit of a line is left out."""
    return quote(message[:LONGEST], safe=PLAIN).encode() if message.translate(None, BYTES_OF_PLAIN) else message


class Login:
    """One session of a hall. `Host.login` begins it. Each call raises LoginLost once the login has given its place away, and HallFault if
    the hall has failed, which ends the host too. `sends` is what `begin` and `respond` do for a caller that does not await."""

    def __init__(self, host: "Host", hall: Hall, client: Client, when_lost: Callable[[], None]) -> None:
        self.host, self.hall, self.client, self.when_lost = host, hall, client, when_lost
        self.number, self.origin, self.seen, self.first = hall.sessions, origin(client), time.monotonic(), b""
        # It has its place in the hall until that has answered all events of it, which may be after it is left.
        self.is_open, self.is_accepted, self.is_busy, self.unanswered = True, False, False, 1
        self.tell: Tell = lambda _: None
        host.hear(opening(), self.number, self.opens)

    def opens(self, heard: Heard | HallFault) -> None:
        """The session has begun."""
        if isinstance(heard, Heard):
            self.host.clients.opens(self.number, self.client)
        self.counts_answer(isinstance(heard, HallFault) or heard.is_over)

    def counts_answer(self, is_over: bool) -> None:
        """The hall has answered an event, and said whether the session is over."""
        self.unanswered -= 1
        if is_over:
            self.end()
        elif not self.is_open:
            self.goes()

    def leave(self) -> None:
        """Ends the session. Call it as soon as the login is over, whatever came of it: its place is then for others."""
        if self.is_open:
            self.is_open = False
            self.goes()

    def goes(self) -> None:
        """Tells the hall that the client is gone, once that has answered all else: it may have ended the session meanwhile."""
        if not self.unanswered:
            self.host.hear(going(self.number), self.number, lambda _: None)
            self.end()

    def end(self) -> None:
        self.is_open = False
        if self in self.host.logins:
            self.host.has_ended(self)

    def sends(self, word: bytes, message: bytes | None, tell: Tell) -> None:
        """The client sends this word, and a message if there is one, after the last answer has come. `tell` is given the answer."""
        if not self.is_open:
            raise LoginLost
        self.first = self.first or message or b""
        line = word if message is None else b"%s :%s" % (word, as_in_a_line(message))
        self.tell, self.seen = tell, time.monotonic()
        self.unanswered += 1
        self.host.sent.add(self.origin, len(line))
        self.host.hear(saying(self.number, line), self.number, self.hears)

    def hears(self, heard: Heard | HallFault) -> None:
        """The hall has answered the client."""
        if isinstance(heard, HallFault):
            self.counts_answer(True)
            return self.tell(heard)
        self.host.has_heard(self, heard)
        self.counts_answer(heard.is_over)
        words, _, message = heard.told.partition(b" :")
        self.is_accepted = self.is_accepted or words == b"OK"
        self.tell(Answer(words.partition(b" ")[0].decode(), unquote_to_bytes(message)))

    async def send(self, word: bytes, message: bytes | None) -> Answer:
        """As `sends`, but returns the answer."""
        found: asyncio.Future[Answer] = asyncio.get_running_loop().create_future()

        def tell(answer: Answer | HallFault) -> None:
            if found.cancelled():
                return
            if isinstance(answer, HallFault):
                found.set_exception(answer)
            else:
                found.set_result(answer)

        self.sends(word, message, tell)
        return await found

    async def begin(self, mechanism: str, message: bytes | None) -> Answer:
        """The client begins by one of MECHANISMS, with its first message, or with None if that comes later. ValueError for another
        mechanism."""
        if mechanism not in MECHANISMS:
            raise ValueError(mechanism)
        return await self.send(b"AUTH " + mechanism.encode(), message)

    async def respond(self, message: bytes) -> Answer:
        """The client sends its next message."""
        return await self.send(b"RESP", message)

    async def code(self, text: str) -> Answer:
        """The client, once it is accepted, sends a one-time code. ValueError if it has other than 1 to 16 characters from `!` to `~`."""
        if not CODE.fullmatch(text):
            raise ValueError("not the text of a code")
        return await self.send(b"CODE " + text.encode(), None)

    @contextlib.contextmanager
    def busy(self) -> Iterator[None]:
        """In this context the login does not count as idle, since the host itself works on it."""
        self.is_busy = True
        try:
            yield
        finally:
            self.is_busy, self.seen = False, time.monotonic()

    def give_way(self) -> None:
        """Ends the session for others, and says so to who began it, unless that has left it."""
        if self.is_open:
            self.leave()
            self.when_lost()

    @property
    def names(self) -> Names:
        """Who has logged in. LookupError before OK."""
        if not self.is_accepted:
            raise LookupError("nobody has logged in")
        return names_in(self.first)

    @property
    def claimed(self) -> str | None:
        """The name that the client gives, if it may be one of an account: for the journal, and to be believed by nobody."""
        try:
            name = names_in(self.first).name
        except ValueError:
            return None
        return name if 0 < len(name) < 256 and name.isascii() and name.isprintable() else None
