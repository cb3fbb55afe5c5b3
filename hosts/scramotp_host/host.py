"""A host: logins of one book, judged by one run of `hall` after another, each with a log of its own.

A new log begins before a run is full, when the operator asks for it, and while he works on the book. Logins that come meanwhile wait, and
nobody is dropped for it but a login that stays idle for longer than `Limits.grace`. Each log that has ended is audited.
"""
import asyncio
import contextlib
import os
import time
from collections import OrderedDict, deque
from collections.abc import AsyncIterator, Callable
from datetime import UTC, datetime
from typing import IO

from scramotp_host import journal
from scramotp_host.audits import Audits, unanswered
from scramotp_host.clients import Client, Clients
from scramotp_host.hall import HALT, Hall, HallFault, Heard
from scramotp_host.limits import Limits, PerMinute, origin
from scramotp_host.login import Login, LoginLimited

# What is done with the answer to an event.
Take = Callable[[Heard | HallFault], None]


async def readable(file: IO[bytes]) -> None:
    """Waits until something can be read."""
    loop, ready = asyncio.get_running_loop(), asyncio.Event()
    loop.add_reader(file, ready.set)
    try:
        await ready.wait()
    finally:
        loop.remove_reader(file)


class Host:
    """The host of a book, as in `async with Host(book, logs) as host`. LOGS is a folder: each run has the files TIME.log, TIME.log.toml and
    TIME.log.clients there, and TIME.log.audited once it is audited. `failed` has a HallFault or an OSError once the host can't go on."""

    def __init__(self, book: str, logs: str, limits: Limits = Limits(), alarm: str | None = None) -> None:
        self.book, self.logs, self.limits, self.audits = os.path.abspath(book), os.path.abspath(logs), limits, Audits(alarm)
        self.hall: Hall | None = None
        self.failed: asyncio.Future[None] = asyncio.get_running_loop().create_future()
        # The open logins, those first that have been idle for longer.
        self.logins: OrderedDict[Login, None] = OrderedDict()
        # The events that the hall is to be given, and those that it has not answered: the numbers of their sessions, and what is done then.
        self.events: deque[tuple[bytes, int, Take]] = deque()
        self.given: deque[tuple[bytes, int, Take]] = deque()
        # Logins pass the turnstile in the order in which they come, and then the gate, which a change of halls shuts. So a change waits for
        # one login at most.
        self.turnstile, self.gate, self.changed = asyncio.Lock(), asyncio.Lock(), asyncio.Event()
        self.is_ending = False
        self.renewal: asyncio.Task[None] | None = None
        self.guesses, self.sent = PerMinute(limits.guesses), PerMinute(limits.kilobytes << 10)

    async def __aenter__(self) -> "Host":
        await self.begin_hall()  # so no other host of this book has a log that goes on
        for log in unanswered(self.logs):
            if self.hall and log != self.hall.log:
                self.audits.begin(log)
        return self

    async def __aexit__(self, *_: object) -> None:
        self.is_ending = True
        if self.renewal:
            self.renewal.cancel()
        self.end_hall()
        await self.audits.end()

    def fail(self, fault: Exception) -> None:
        """The host can't go on: the first reason is kept."""
        if not self.failed.done():
            self.failed.set_exception(fault)

    async def begin_hall(self) -> None:
        """Begins a run, once nobody else holds the book."""
        log = os.path.join(self.logs, datetime.now(UTC).strftime("%Y%m%dT%H%M%S.%fZ.log"))
        hall = Hall(self.book, log)
        try:
            await readable(hall.printed)
        except asyncio.CancelledError:
            hall.discard()
            raise
        hall.begin()
        try:
            self.clients = Clients(log + ".clients", at_once=False)
        except OSError:
            hall.end()
            raise
        self.hall = hall
        asyncio.get_running_loop().add_reader(hall.printed, self.take_answers)
        journal.note("begin", log=log)

    def end_hall(self) -> None:
        """Ends the logins that are open, and the run."""
        if hall := self.hall:
            for login in list(self.logins):
                login.give_way()
            self.hand_over()
            while self.given:
                self.take_answers()
            self.hall = None
            self.events.clear()  # those of a hall that has failed
            self.stop_hearing(hall)
            hall.end()
            self.clients.write()
            self.clients.close()
            self.audits.begin(hall.log)

    def stop_hearing(self, hall: Hall) -> None:
        """Closes the pipes to a run."""
        if not hall.printed.closed:
            asyncio.get_running_loop().remove_reader(hall.printed)
            hall.events.close()
            hall.printed.close()

    async def change(self, seconds: float) -> None:
        """Waits until a login ends, and at most so long. Only who holds the gate waits."""
        self.changed.clear()
        with contextlib.suppress(TimeoutError):
            async with asyncio.timeout(seconds):
                await self.changed.wait()

    async def make_place(self) -> None:
        """Lets the login that has been idle for longest give way, or waits until it has been so for long enough, or a login ends."""
        oldest = next((it for it in self.logins if it.is_open and not it.is_busy), None)
        left = self.limits.idle + (oldest.seen - time.monotonic() if oldest else 0)
        if oldest and left <= 0:
            self.guesses.add(oldest.origin)  # else one address could keep all others waiting, without a guess
            oldest.give_way()
        else:
            await self.change(left)

    def check(self, client: Client) -> None:
        """LoginLimited if the client's address has failed, given way or sent too much in this minute."""
        if self.guesses.is_over(origin(client)) or self.sent.is_over(origin(client)):
            raise LoginLimited

    def login_at_once(self, client: Client, when_lost: Callable[[], None] = lambda: None) -> Login | None:
        """As `login`, but None if the login would have to wait."""
        self.check(client)
        if self.turnstile.locked() or self.gate.locked() or len(self.logins) >= self.limits.places:
            return None
        if self.hall is None:
            raise HallFault("the host has ended")
        self.hall.sessions += 1
        login = Login(self, self.hall, client, when_lost)
        self.logins[login] = None
        return login

    async def login(self, client: Client, when_lost: Callable[[], None] = lambda: None) -> Login:
        """A login of this client, once there is a place for it. `when_lost` is called if it has to give its place to others. LoginLimited
        if its address has failed or sent too much."""
        while not (login := self.login_at_once(client, when_lost)):
            async with self.turnstile, self.gate:
                while len(self.logins) >= self.limits.places:
                    await self.make_place()
        return login

    def hear(self, event: bytes, number: int, take: Take) -> None:
        """Hands the hall an event of the session of this number, together with all others that come until it has answered those before.
        `take` is given the answer."""
        if not self.events and not self.given:
            asyncio.get_running_loop().call_soon(self.hand_over)
        self.events.append((event, number, take))

    def hand_over(self) -> None:
        """Hands the hall the events that are there, if it has answered all before them."""
        if self.given or not self.events or not self.hall:
            return
        self.given, self.events = self.events, self.given
        size = sum([len(event) + 1 for event, _, _ in self.given])
        while size > self.hall.most_at_once and len(self.given) > 1:
            self.events.appendleft(self.given.pop())
            size -= len(self.events[0][0]) + 1
        try:
            self.hall.give(*[event for event, _, _ in self.given])
        except HallFault as fault:
            self.breaks_off(self.hall, fault)

    def take_answers(self) -> None:
        """Takes what the hall has printed. What an answer leads to may add events."""
        if not self.hall:
            return
        try:
            for heard in self.hall.receive():
                if heard.told == HALT:
                    raise HallFault("the book can't be saved")
                _, number, take = self.given.popleft()
                if heard.number != number:
                    raise HallFault(f"the answer to session {number} is of session {heard.number}")
                take(heard)
        except HallFault as fault:
            self.breaks_off(self.hall, fault)
        if self.clients.lines:
            self.clients.write()
        self.hand_over()

    def breaks_off(self, hall: Hall, fault: HallFault) -> None:
        """The run can't go on: all logins that wait for it are told so."""
        self.fail(fault)
        self.stop_hearing(hall)
        takes = [take for _, _, take in [*self.given, *self.events]]
        self.given.clear()
        self.events.clear()
        for take in takes:
            take(fault)

    def has_heard(self, login: Login, heard: Heard) -> None:
        """A login tells its host what it was told. The login that was heard last is the last that has to give way."""
        if heard.told.startswith(b"NO "):
            self.guesses.add(login.origin)
        if login in self.logins:
            self.logins.move_to_end(login)
        if login.hall.is_full:
            self.renew()

    def has_ended(self, login: Login) -> None:
        del self.logins[login]
        self.clients.ends(login.number)
        self.changed.set()

    def renew(self) -> None:
        """Begins a new log soon, unless that is under way."""
        if not self.renewal or self.renewal.done():
            self.renewal = asyncio.create_task(self.renewed())

    async def renewed(self) -> None:
        with contextlib.suppress(HallFault, OSError):  # the host has these as what it failed by
            async with self.between():
                pass

    @contextlib.asynccontextmanager
    async def between(self) -> AsyncIterator[None]:
        """In this context no run holds the book. It begins once the logins that are open have ended, and at its end the next run begins.
        Logins that come meanwhile wait."""
        async with self.gate:
            end = time.monotonic() + self.limits.grace
            while self.logins and (left := end - time.monotonic()) > 0:
                await self.change(left)
            self.end_hall()
            try:
                yield
            finally:
                if not self.is_ending:
                    await self.begun_again()

    async def begun_again(self) -> None:
        try:
            await self.begin_hall()
        except (HallFault, OSError) as fault:
            self.fail(fault)
            raise
