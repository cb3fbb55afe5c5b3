"""Dovecot's authentication protocol, version 1, as its server speaks it with Postfix, Exim and Dovecot's own login processes.

Each side sends lines of words that are separated by tabs:

    S: VERSION 1 2 | MECH SCRAM-SHA-256 mutual-auth | .. | SPID n | CUID n | COOKIE hex | DONE
    C: VERSION 1 2 | CPID n
    C: AUTH 1 SCRAM-SHA-256 service=smtp rip=192.0.2.7 secured resp=BASE64
    S: CONT 1 BASE64       C: CONT 1 BASE64      S: CONT 1 BASE64      C: CONT 1
    S: OK 1 user=NAME      or    S: FAIL 1 user=NAME reason=TEXT

A server that gets anything else is cut off, and so is one that does not read. Nobody else notices.
"""
import asyncio
import contextlib
import os
import secrets
import socket
from base64 import b64encode
from binascii import a2b_base64
from collections.abc import AsyncIterator, Callable, Coroutine
from typing import cast

from scramotp_host import journal, plain
from scramotp_host.clients import Client
from scramotp_host.hall import HallFault
from scramotp_host.host import Host
from scramotp_host.login import MECHANISMS, Answer, Login, LoginLimited, LoginLost, Names
from scramotp_host.master import Accepted
from scramotp_host.sockets import MOST_UNREAD, credentials

LONGEST_LINE = 16384  # bytes; Postfix limits a message to 12288
PASSWORDS = ("PLAIN", "LOGIN")
# What of the parameters of AUTH is kept of a client, and how it is called then; `session` is Dovecot's own name of the client's connection.
# What was `service` is `protocol` in Dovecot 2.4.
KEPT = {"service": "service", "protocol": "service", "rip": "rip", "lip": "lip", "session": "client"}
LONGEST_KEPT = 64  # characters of each
REFUSED = "Invalid user name or password"
TEMPORARY = "\ttemp\tcode=temp_fail"  # the first is of Dovecot before 2.3


class Malformed(Exception):
    """What a client has sent is no message: it is refused as if the password were wrong."""


# What a fault of a login makes of it.
OUTCOMES = {Malformed: "refused", LoginLost: "lost", LoginLimited: "limited", HallFault: "failed"}
FAULTS = tuple(OUTCOMES)


class Request:
    """One AUTH: a login with the messages that come for it. It ends with one OK or FAIL. Each step is taken when a line comes from the
    server or from the hall, without a task of its own, unless it has to wait for its place, or computes what a password makes."""

    def __init__(self, connection: "Connection", ident: bytes, mechanism: str, settings: dict[str, str]) -> None:
        self.connection, self.host, self.ident, self.mechanism = connection, connection.door.host, ident, mechanism
        self.settings, self.user = settings, ""
        self.login: Login | None = None
        self.client: Client = {name: settings[key][:LONGEST_KEPT] for key, name in KEPT.items() if key in settings}
        if not self.client.get("rip"):
            self.client |= connection.client
        self.is_over = False
        self.next_step: Callable[[bytes], None] | None = None  # what the response is for that is due
        self.later: asyncio.Task[None] | asyncio.TimerHandle | None = None  # what is done later, unless the login is given up

    def takes_step(self, step: Callable[..., None], *given: object) -> None:
        """Takes a step, unless the login is over. A fault of the login ends it, and one of this program takes its connection along, so that
        nobody waits for an answer."""
        try:
            if not self.is_over:
                step(*given)
        except FAULTS as fault:
            self.ends(OUTCOMES[type(fault)])
        except Exception as fault:
            self.connection.cut_off(repr(fault))

    def begins(self) -> None:
        """The first step."""
        if self.mechanism not in self.connection.offered(self.settings):
            return self.ends("refused")
        first = message_of(self.settings["resp"]) if self.settings.get("resp") else None
        if self.mechanism in PASSWORDS:
            self.waits(self.by_password(first))
        elif login := self.host.login_at_once(self.client, self.loses_place):
            self.by_scram(login, first)
        else:
            self.waits(self.by_waiting(first))

    def waits(self, steps: Coroutine[None, None, None]) -> None:
        """Takes steps that have to wait for something."""
        async def all_of_them() -> None:
            try:
                await steps
            except FAULTS as fault:
                self.ends(OUTCOMES[type(fault)])

        self.later = asyncio.create_task(all_of_them())
        self.later.add_done_callback(self.connection.sees_end)

    async def by_waiting(self, message: bytes | None) -> None:
        self.by_scram(await self.host.login(self.client, self.loses_place), message)

    def by_scram(self, login: Login, message: bytes | None) -> None:
        """Hands the client's first message to the hall."""
        self.login = login
        login.sends(b"AUTH " + self.mechanism.encode(), message, self.hears_answer)

    def hears_answer(self, answer: Answer | HallFault) -> None:
        self.takes_step(self.goes_on, answer)

    def goes_on(self, answer: Answer | HallFault) -> None:
        """Hands the hall's answer on."""
        if isinstance(answer, HallFault):
            raise answer
        word, told = answer
        if word == "CONT":
            self.asks(told, self.responds)
        elif word != "OK":
            self.ends("refused")
        elif "final-resp-ok" in self.settings:
            self.ends("accepted", b"\tresp=" + b64encode(told))
        else:
            cast(Login, self.login).leave()
            # The client checks the server by this message, and answers with an empty one (RFC 5802, section 5; RFC 4422, section 3.6).
            self.asks(told, self.hears_check)

    def responds(self, message: bytes) -> None:
        cast(Login, self.login).sends(b"RESP", message, self.hears_answer)

    def hears_check(self, message: bytes) -> None:
        self.ends("refused" if message else "accepted")

    def asks(self, challenge: bytes, next_step: Callable[[bytes], None]) -> None:
        """Sends the client a challenge. Its response is for this step."""
        self.next_step = next_step
        self.connection.send(b"CONT\t%s\t%s" % (self.ident, b64encode(challenge)))

    def hears(self, text: bytes) -> bool:
        """Takes a response. False if none is due."""
        step, self.next_step = self.next_step, None
        if step:
            self.takes_step(lambda: step(message_of(text.decode("latin-1"))))
        return step is not None

    async def response(self, challenge: bytes) -> bytes:
        """Sends the client a challenge, and returns its response."""
        found: asyncio.Future[bytes] = asyncio.get_running_loop().create_future()
        self.asks(challenge, found.set_result)
        return await found

    async def by_password(self, message: bytes | None) -> None:
        """Judges a name and a password. They come as RFC 4616 has them, or by LOGIN one after the other."""
        if self.mechanism == "LOGIN":
            name = message if message is not None else await self.response(b"Username:")
            parts = [b"", name, await self.response(b"Password:")]
        else:
            parts = (message if message is not None else await self.response(b"")).split(b"\0")
        if len(parts) != 3:
            raise Malformed
        act_as, name, password = parts
        self.login = await self.host.login(self.client, self.loses_place)
        self.ends("accepted" if await plain.accepts(self.login, name, password, act_as) else "refused")

    def loses_place(self) -> None:
        """The login has given its place away."""
        self.ends("lost")

    def ends(self, outcome: str, more: bytes = b"") -> None:
        """Ends the login, unless it is over: gives its place back, and tells the journal and the server what came of it. OK has this more
        after the name."""
        if self.is_over:
            return
        self.is_over, self.next_step = True, None
        self.connection.door.open_ones.pop(self, None)
        fields: dict[str, object] = {"outcome": outcome, "mechanism": self.mechanism[:LONGEST_KEPT]}
        if login := self.login:
            self.login = None  # so that Python need not look for objects that know each other
            login.leave()
            names = login.names if outcome == "accepted" else Names(login.claimed or "", login.claimed or "")
            self.user = names.act_as
            fields |= {"name": names.name or None, "act_as": names.act_as if names.act_as != names.name else None}
            fields |= {"log": login.hall.log, "session": login.number}
        journal.note("login", **fields, **self.client)
        if self.later:
            self.later.cancel()
        self.tell(outcome, more)

    def tell(self, outcome: str, more: bytes) -> None:
        """Sends the last line of the login. A refusal comes late, so that guesses take time."""
        if outcome == "accepted":
            self.connection.end(self)
            if self.connection.door.accepted:
                self.connection.door.accepted.add(self.connection.process, self.ident, self.connection.cookie, self.user)
            self.connection.send(b"OK\t%s\tuser=%s%s" % (self.ident, self.user.encode(), more))
        elif outcome in ("refused", "limited"):
            loop = asyncio.get_running_loop()
            self.later = loop.call_later(self.host.limits.delay, self.connection.send_fail, self, outcome == "refused")
        elif outcome != "abandoned":
            self.connection.send_fail(self, is_final=False)

    def gives_up(self) -> None:
        """Its server has gone away, or has no more use for it."""
        self.ends("abandoned")
        if self.later:
            self.later.cancel()


def message_of(text: str) -> bytes:
    """What a text in base64 stands for; `=` is the empty message."""
    try:
        return b"" if text == "=" else a2b_base64(text, strict_mode=True)
    except ValueError:
        raise Malformed from None


class Connection(asyncio.Protocol):
    """A server that has connected, with any number of logins at a time."""

    def __init__(self, door: "Door") -> None:
        self.door, self.requests = door, dict[bytes, Request]()
        self.client: Client = {}
        self.unsent: list[bytes] = []
        self.text, self.is_greeted, self.process, self.cookie = b"", False, b"", secrets.token_hex(16).encode()

    def connection_made(self, transport: asyncio.BaseTransport) -> None:
        self.transport = cast(asyncio.Transport, transport)
        user, process = credentials(transport.get_extra_info("socket"))
        self.client = {"uid": user, "pid": process}
        if not self.door.admits(self, user):
            return self.cut_off("too many connections")
        lines = ["VERSION\t1\t2", *(f"MECH\t{name}\tmutual-auth" for name in MECHANISMS)]
        lines += [f"MECH\t{name}\tplaintext" for name in PASSWORDS] if self.door.has_passwords else []
        lines += [f"SPID\t{os.getpid()}", f"CUID\t{self.door.count}", f"COOKIE\t{self.cookie.decode()}", "DONE"]
        self.send("\n".join(lines).encode())

    def connection_lost(self, _: Exception | None) -> None:
        for request in self.requests.values():
            request.gives_up()
        self.door.connections.pop(self, None)

    def send(self, line: bytes) -> None:
        """Sends a line, together with all others of this turn of the event loop."""
        if not self.unsent:
            asyncio.get_running_loop().call_soon(self.flush)
        self.unsent.append(line)

    def flush(self) -> None:
        """Sends the lines that are there. A server that leaves too much unread is cut off."""
        lines, self.unsent = self.unsent, []
        if lines and not self.transport.is_closing():
            self.transport.write(b"\n".join(lines) + b"\n")
            if self.transport.get_write_buffer_size() > MOST_UNREAD:
                self.cut_off("does not read")

    def cut_off(self, why: str) -> None:
        journal.note("cut_off", level="error", why=why, **self.client)
        self.transport.abort()

    def data_received(self, data: bytes) -> None:
        *lines, self.text = (self.text + data).split(b"\n")
        for line in lines:
            if not self.transport.is_closing() and (len(line) > LONGEST_LINE or not self.takes(line.split(b"\t"))):
                self.cut_off("not the protocol")
        if len(self.text) > LONGEST_LINE and not self.transport.is_closing():
            self.cut_off("line too long")

    def takes(self, words: list[bytes]) -> bool:
        """Does what a line asks. False if it is not of the protocol. What a later minor version may add is passed over."""
        match words:
            case [b"CONT", ident, *text] if ident in self.requests:
                return self.requests[ident].hears(b"\t".join(text))
            case [b"AUTH", ident, mechanism, *settings]:
                return self.begins(ident, mechanism, settings)
            case [b"CANCEL", ident] if ident in self.requests:
                self.requests.pop(ident).gives_up()
            case [b"VERSION", b"1", minor] if minor.isdigit() and not self.is_greeted:
                self.is_greeted = True
            case [b"CPID", process]:
                self.process = process
            case [b"VERSION" | b"AUTH", *_]:
                return False
        return True

    def begins(self, ident: bytes, mechanism: bytes, settings: list[bytes]) -> bool:
        """Begins a login. False if its number is none, or is in use, or if there are too many."""
        if not self.is_greeted or not ident.isdigit() or len(ident) > 10 or ident in self.requests:
            return False
        if len(self.requests) >= self.door.host.limits.logins:
            return False
        pairs = [it.partition("=") for it in b"\t".join(settings).decode("utf-8", "replace").split("\t")]
        request = Request(self, ident, mechanism.decode("latin-1").upper(), {name: it for name, _, it in pairs})
        self.requests[ident] = request
        self.door.watches(request)
        request.takes_step(request.begins)
        return True

    def offered(self, settings: dict[str, str]) -> tuple[str, ...]:
        """The mechanisms that a client may use: passwords only where the server says that nobody can read the connection."""
        return MECHANISMS + PASSWORDS if self.door.has_passwords and "secured" in settings else MECHANISMS

    def sees_end(self, task: asyncio.Task[None]) -> None:
        """A fault of this program in a login takes the connection along, so that nobody waits for an answer."""
        if not task.cancelled() and (fault := task.exception()):
            self.cut_off(repr(fault))

    def end(self, request: Request) -> None:
        self.requests.pop(request.ident, None)

    def send_fail(self, request: Request, is_final: bool) -> None:
        """Refuses a login; if that is not final, for now. Postfix and Exim overlook the word `temp`, and say that the client should try
        again only if the connection is lost: so it is, if it has no other login. Dovecot would then say that the password is wrong."""
        self.end(request)
        is_smtp = request.settings.get("service") == "smtp"
        if is_smtp and not is_final and not self.requests:
            self.flush()
            return self.transport.close()
        user = f"\tuser={request.user}" if request.user else ""
        # An IMAP client shows the reason to its user as an alert.
        reason = "\treason=" + (REFUSED if is_final else "Try again later") if is_smtp else ""
        self.send(f"FAIL\t{request.ident.decode()}{user}{reason}{'' if is_final else TEMPORARY}".encode())


class Door:
    """The servers that are connected to a host by this protocol."""

    def __init__(self, host: Host, has_passwords: bool, accepted: Accepted | None = None) -> None:
        self.host, self.has_passwords, self.accepted, self.count = host, has_passwords, accepted, 0
        self.connections: dict[Connection, int] = {}
        # The logins that go on, each with the moment at which it has taken too long: the first of them first.
        self.open_ones: dict[Request, float] = {}
        self.timer: asyncio.TimerHandle | None = None

    def admits(self, connection: Connection, user: int) -> bool:
        """Whether this user of this machine may have one more connection."""
        self.count += 1
        self.connections[connection] = user
        return sum(1 for it in self.connections.values() if it == user) <= self.host.limits.connections

    def watches(self, request: Request) -> None:
        """Ends a login once it has taken too long."""
        loop = asyncio.get_running_loop()
        self.open_ones[request] = loop.time() + self.host.limits.patience
        if not self.timer:
            self.timer = loop.call_at(self.open_ones[request], self.end_late_ones)

    def end_late_ones(self) -> None:
        loop, self.timer = asyncio.get_running_loop(), None
        for request in [it for it, moment in self.open_ones.items() if moment <= loop.time()]:
            request.ends("late")
        if self.open_ones:
            self.timer = loop.call_at(next(iter(self.open_ones.values())), self.end_late_ones)

    @contextlib.asynccontextmanager
    async def open(self, listener: socket.socket) -> AsyncIterator[None]:
        """Serves at this socket while the context lasts. At its end no login is left."""
        server = await asyncio.get_running_loop().create_unix_server(lambda: Connection(self), sock=listener)
        try:
            yield
        finally:
            server.close()
            for request in list(self.open_ones):
                request.ends("failed")
            for connection in list(self.connections):
                connection.flush()
                connection.transport.abort()
