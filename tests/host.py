#!/usr/bin/env python3
"""Logs in at hosts of the package `scramotp_host`, in this process, and audits each log that they leave: each is clean, and LOG.clients
has the client of each session."""
import asyncio
import errno
import fcntl
import os
import re
import resource
import signal
import subprocess
import sys
from collections.abc import Awaitable, Callable
from pathlib import Path
from unittest import mock

import suite
from checks import equal, holds
from clients import USER, Account, book
from limits import limit
from processes import ran
from suite import PROGRAM, TOP, each, mode_of, program_on_path, read_book, script, within, written

sys.path.insert(0, str(TOP / "hosts"))
from scramotp_host import hall, journal, plain
from scramotp_host.control import controlled
from scramotp_host.hall import HallFault
from scramotp_host.host import Host
from scramotp_host.limits import Limits, PerMinute, origin
from scramotp_host.login import Login, LoginLimited, LoginLost, Names, names_in
from scramotp_host.sockets import listening

HOME = {"rip": "192.0.2.7", "service": "smtp"}
MOMENT = r"\d{4}-\d\d-\d\dT\d\d:\d\d:\d\dZ"


def serves(
    folder: str, does: Callable[[Host], Awaitable[None]], text: str = book([USER]), alarm: str | None = None, **limits: float
) -> list[str]:
    """Runs a host over a book with this text while `does` lasts. Its logs are in the folder `logs`. Returns the answers of the audits in
    the journal."""
    notes: list[str] = []
    journal.note = lambda event, **fields: notes.extend([fields["answer"]] if event == "audit" else [])
    os.environ["PATH"] = program_on_path(folder)["PATH"]
    within(folder, "logs")
    written(f"{folder}/book.toml", text)

    async def run() -> None:
        async with Host(f"{folder}/book.toml", f"{folder}/logs", Limits(**limits), alarm) as host:
            await does(host)

    asyncio.run(run())
    return notes


def audits(folder: str) -> list[tuple[int, int]]:
    """The sessions and the accepted logins of each log, in the order in which they began. Each has to be clean, and its clients' file
    has to name each of its sessions, once as it opens and once as it ends."""
    found = []
    for log in sorted(Path(folder, "logs").glob("*.log")):
        printed = ran([PROGRAM, "audit", "--book", f"{log}.toml", "--log", log])
        counts = re.fullmatch(r"clean sessions=(\d+) accepted=(\d+) codes=\d+\n", printed.output)
        holds(counts, "a log is not clean", printed)
        sessions = int(counts[1])
        lines = Path(f"{log}.clients").read_text().splitlines()
        noted = [re.fullmatch(rf"(\d+) (open|end) {MOMENT}( .*)?", line) for line in lines]
        holds(all(noted), "a line of the clients' file has another form", lines[:3])
        due = sorted((number, what) for number in range(1, sessions + 1) for what in ("end", "open"))
        equal(sorted((int(it[1]), it[2]) for it in noted), due, "the sessions in the clients' file")
        found.append((sessions, int(counts[2])))
    return found


async def proves(login: Login, account: Account, wrong: bool = False) -> str:
    """Logs in to an account whose challenge has not come. Returns the last word of the answer."""
    answer = await login.begin(account.mechanism, account.first.encode())
    equal(answer.word, "CONT", "the answer to the first message")
    it = account.answers(answer.message.decode())
    word, message = await login.respond((it.wrong_final if wrong else it.final).encode())
    equal(message.decode(), "e=invalid-proof" if wrong else f"v={it.signature}", "the server's last message")
    return word


async def says(login: Login, account: Account, wrong: bool = False) -> str:
    """The same, and leaves."""
    word = await proves(login, account, wrong)
    login.leave()
    return word


async def logs_in(host: Host, account: Account = USER, wrong: bool = False) -> str:
    """A whole login at a host."""
    login = await host.login(HOME)
    await asyncio.sleep(0.002)
    return await says(login, account, wrong)


def logins_over_changes(folder: str) -> None:
    """Four times two hundred logins at a time are all accepted while the log changes under them, by the host's own limit of lines or since
    it is asked to."""
    async def all_of(host: Host) -> None:
        for _ in range(4):
            found = asyncio.gather(*(logs_in(host) for _ in range(200)))
            await asyncio.sleep(0.02)
            host.renew()
            equal({*await found}, {"OK"}, "the answers")

    with mock.patch.object(hall, "MOST_LINES", 500):
        serves(folder, all_of)
    found = audits(folder)
    equal(sum(accepted for _, accepted in found), 800, "the accepted logins in all logs", found)
    # A login has 7 lines. When the limit is seen to be reached, up to two more lines of each of 64 have come at once, and 64 can be open.
    holds(max(sessions for sessions, _ in found) <= (500 + 2 * 64) // 7 + 64 + 1, "a log has much more than its limit", found)


def logs_of_few_bytes(folder: str) -> None:
    """A new log begins before the hall has been given more events than it takes, here a thousand bytes."""
    async def some(host: Host) -> None:
        for _ in range(20):
            equal(await logs_in(host), "OK", "the answer")

    with mock.patch.object(hall, "MOST_BYTES", 1000):
        serves(folder, some)
    found = audits(folder)
    # The events of a login have 200 to 300 bytes, and the log changes after the login in which the limit is reached.
    holds(4 <= len(found) <= 7 and sum(accepted for _, accepted in found) == 20, "another number of logs", found)


def files_of_a_log(folder: str) -> None:
    """Only the owner can read the log, the copy of its book and the files of its clients and its audit, whatever the umask is. A
    client is named by what is known of it, in quotes if it has to be."""
    async def one(host: Host) -> None:
        (await host.login({"rip": "2001:db8::7", "name": 'a "b"'})).leave()

    umask = os.umask(0)
    serves(folder, one)
    os.umask(umask)
    equal(audits(folder), [(1, 0)], "the audit")
    files = {path.name[22:]: mode_of(path) for path in Path(folder, "logs").iterdir()}
    due = dict.fromkeys(["Z.log", "Z.log.toml", "Z.log.clients", "Z.log.audited"], 0o600)
    equal(files, due, "the modes of the files")
    [clients] = Path(folder, "logs").glob("*.clients")
    told = clients.read_text().splitlines()[0].split(" ", 3)[3]
    equal(told, r'rip=2001:db8::7 name="a \"b\""', "what the file says of a client")


def names_of_logins(folder: str) -> None:
    """The names are those of the client's first message, with `=` and `,` in them. Before the login is accepted there are none, and the
    name that a client claims is only told if it may be one."""
    odd = Account("a=b,c", "SCRAM-SHA-1")
    text = book([odd, USER]).replace("act_as = []", 'act_as = ["x=,y"]')

    async def one(host: Host) -> None:
        login = await host.login(HOME)
        await login.begin("SCRAM-SHA-1", None)
        try:
            holds(False, "a login has names before it is accepted", login.names)
        except LookupError:
            pass
        challenge = (await login.respond(odd.first.encode())).message.decode()
        await login.respond(odd.answers(challenge).final.encode())
        equal(login.names, Names("a=b,c", "a=b,c"), "the names")
        login.leave()
        login = await host.login(HOME)
        holds(await plain.accepts(login, b"user", b"password of user", b"x=,y"), "the user may not act as the other")
        equal(login.names, Names("user", "x=,y"), "the names")
        odd_messages = [(b"n,,m=x,n=user,r=a", None), (b"n,x,n=user,r=a", None), (b"n,,n=,r=a", None)]
        odd_messages += [(b"n,,n=\xff,r=a", None), ("n,,n=ü,r=a".encode(), None), (b"n,,", None)]
        for message, claimed in [*odd_messages, (b"n,,n=user,r=a", "user")]:
            login = await host.login(HOME)
            await login.begin("SCRAM-SHA-256", message)
            equal(login.claimed, claimed, "the name that is claimed", message)
            login.leave()

    serves(folder, one, text)
    equal(audits(folder), [(9, 2)], "the audit")
    equal(names_in(b"n,a=x=2C=3Dy,n=z,r=1"), Names("z", "x,=y"), "the names in a message")


def passwords(folder: str) -> None:
    """A name and a password are judged as by SCRAM, and the log has no password."""
    async def some(host: Host) -> None:
        for trial, (name, password, act_as, due) in each([
            (b"user", b"password of user", b"", True), (b"user", b"password of use", b"", False),
            (b"nobody", b"password of user", b"", False), (b"user", b"", b"", False),
            (b"user", b"password of user", b"user", True), (b"user", b"password of user", b"root", False),
            (b"us\xffer", b"password of user", b"", False), (b"user,r=x", b"password of user", b"", False), (b"", b"x" * 9999, b"", False),
        ]):
            with trial:
                login = await host.login(HOME)
                equal(await plain.accepts(login, name, password, act_as), due, name, act_as)
                equal(login.is_open, False, "whether the session goes on")

    serves(folder, some)
    equal(audits(folder), [(9, 2)], "the audit")
    texts = [path.read_text() for path in Path(folder, "logs").iterdir()]
    holds(not any("password" in text for text in texts), "a file has a password", texts)


def codes(folder: str) -> None:
    """After a login codes are judged. What could be taken for another event is not passed on."""
    async def one(host: Host) -> None:
        for given in "SCRAM-SHA-256 x", "PLAIN\nopen x", "":
            login = await host.login(HOME)
            await refused(login.begin(given, b"n,,n=user,r=x"), ValueError)
            login.leave()
        login = await host.login(HOME)
        await plain.accepts(login, b"user", b"x")
        await refused(login.code("123456"), LoginLost)
        login = await host.login(HOME)
        await proves(login, USER)
        for code in "123 456", "1\n", "", "12345678901234567":
            await refused(login.code(code), ValueError)
        equal([(await login.code(USER.code(1))).word for _ in range(2)], ["PASS", "FAIL"], "the replies")
        login.leave()

    serves(folder, one)
    equal(audits(folder), [(5, 1)], "the audit")
    equal(read_book(Path(folder, "book.toml"))["accounts"]["user"]["token"]["next"], 2, "the counter")


async def refused(call: Awaitable[object], fault: type[Exception]) -> None:
    """Checks that a call raises this."""
    try:
        await call
    except fault:
        return
    holds(False, "the call is not refused", fault)


def cancelled_logins(folder: str) -> None:
    """A login whose task is cancelled, at whatever moment, gives its place back, even if the hall has not answered it."""
    async def one(host: Host) -> None:
        login = await host.login(HOME)
        try:
            await says(login, USER)
        finally:
            login.leave()

    async def many(host: Host) -> None:
        for turns in range(12):
            task = asyncio.create_task(one(host))
            for _ in range(turns):
                await asyncio.sleep(0)
            task.cancel()
        await asyncio.sleep(0.1)
        equal([login.number for login in host.logins], [], "the logins that are left")
        equal(await logs_in(host), "OK", "a login after that")

    serves(folder, many)
    [(sessions, accepted)] = audits(folder)
    holds(sessions > accepted, "no login was cancelled while it was open", sessions)


def logins_that_are_lost_at_once(folder: str) -> None:
    """Where a login has to give way at once, even while the hall judges it, each has a verdict or is lost, and none is left."""
    async def one(host: Host, wrong: bool) -> str:
        try:
            return await logs_in(host, wrong=wrong)
        except LoginLost:
            return "lost"

    async def many(host: Host) -> None:
        for _ in range(20):
            found = await asyncio.gather(*(one(host, number % 2 == 0) for number in range(20)))
            holds({*found} <= {"OK", "NO", "lost"}, "another answer", found)
        equal([login.number for login in host.logins], [], "the logins that are left")
        equal(await logs_in(host), "OK", "a login after that")

    serves(folder, many, places=1, idle=0, guesses=1000)
    [(sessions, accepted)] = audits(folder)
    holds(sessions == 401 > accepted, "no login was lost", sessions, accepted)


def long_messages_at_once(folder: str) -> None:
    """Sixty-four logins that come together with the longest messages do not stop the host and the hall, which could wait for each other's
    pipes."""
    async def all_of(host: Host) -> None:
        async def one() -> str:
            login = await host.login(HOME)
            return (await login.begin("SCRAM-SHA-256", b"\xff" * 2048)).word

        # If both wait, the alarm ends the host's wait, and then the hall is killed.
        signal.alarm(limit(20))
        try:
            async with asyncio.timeout(limit(30)):
                equal({*await asyncio.gather(*(one() for _ in range(64)))}, {"NO"}, "the answers")
        finally:
            if signal.alarm(0) == 0:
                host.hall.process.kill()

    serves(folder, all_of)
    equal(audits(folder), [(64, 0)], "the audit")


def idle_logins(folder: str) -> None:
    """Once all places are taken, the login that has been idle for longest gives way, and only once it has been idle for `idle` seconds. One
    for which the host computes is not idle."""
    lost = []

    async def many(host: Host) -> None:
        loop = asyncio.get_running_loop()
        logins = [await host.login(HOME, lambda number=number: lost.append(number)) for number in range(8)]
        await logins[0].begin("SCRAM-SHA-256", None)
        began = loop.time()
        last = await host.login(HOME)
        holds(loop.time() - began > 0.4, "a login that was not idle gave way after seconds", loop.time() - began)
        equal(lost, [1], "which logins were lost")
        await refused(logins[1].begin("SCRAM-SHA-256", None), LoginLost)
        logins[5].leave()
        began = loop.time()
        await host.login(HOME)
        holds(loop.time() - began < 0.4, "a login waits although there is a place, for seconds", loop.time() - began)
        equal((lost, await says(last, USER)), ([1], "OK"), "which logins were lost, and the last login")
        with logins[2].busy():
            await asyncio.sleep(0.6)
            await says(await host.login(HOME), USER)
            await says(await host.login(HOME), USER)
            await host.login(HOME)
            await host.login(HOME)
        equal(lost, [1, 3], "which logins were lost while one was busy")

    serves(folder, many, places=8, idle=0.5)
    equal((sorted(lost), audits(folder)), ([0, 1, 2, 3, 4, 6, 7], [(14, 3)]), "which logins were lost at the end, and the audit")


def idle_logins_of_one_address(folder: str) -> None:
    """An address whose logins give way too often in a minute is not heard, so that it can't keep others waiting."""
    async def many(host: Host) -> None:
        for _ in range(4):
            await host.login(HOME)
        await refused(host.login(HOME), LoginLimited)
        equal(await says(await host.login({"rip": "198.51.100.1"}), USER), "OK", "a login of another address")

    serves(folder, many, places=1, idle=0, guesses=3)
    equal(audits(folder), [(5, 1)], "the audit")


def idle_over_a_change(folder: str) -> None:
    """A new log waits for the open logins, but for no longer than `grace`. Then it ends those that are left."""
    lost = []

    async def two(host: Host) -> None:
        await host.login(HOME, lambda: lost.append("idle"))
        busy = await host.login(HOME, lambda: lost.append("busy"))
        host.renew()
        await asyncio.sleep(0.1)
        following = asyncio.create_task(logs_in(host))
        await asyncio.sleep(0.1)
        equal((await says(busy, USER), lost, following.done()), ("OK", [], False), "what goes on while the old log ends")
        equal((await following, lost), ("OK", ["idle"]), "what goes on after it")

    serves(folder, two, grace=0.5)
    equal(audits(folder), [(2, 1), (1, 1)], "the audits")


def limited_addresses(folder: str) -> None:
    """An address that fails too often in a minute, or sends too much, is not heard. Others are."""
    async def some(host: Host) -> None:
        host.guesses, host.sent = PerMinute(3), PerMinute(4 << 10)
        for it in host.guesses, host.sent:
            it.add("another", 0)
        for _ in range(4):
            await logs_in(host, wrong=True)
        await refused(host.login(HOME), LoginLimited)
        for rip in "198.51.100.1", "2001:db8:0:1::1":
            await says(await host.login({"rip": rip}), USER)
        long = await host.login({"rip": "2001:db8:0:2::1"})
        await long.begin("SCRAM-SHA-256", b"x" * 5000)
        await refused(host.login({"rip": "2001:db8:0:2:ffff::2"}), LoginLimited)

    serves(folder, some)
    equal(audits(folder), [(7, 2)], "the audit")
    count = PerMinute(1)
    count.add("x", 2)
    count.minute -= 1
    equal((count.is_over("x"), count.counts), (False, {}), "the next minute")
    clients = [{"rip": "::1"}, {"rip": "::ffff:192.0.2.7"}, {"rip": "", "uid": 5, "pid": 6}, {"uid": 5, "pid": 6}]
    equal([*map(origin, clients)], ["::/64", "192.0.2.7", "uid 5", "uid 5"], "by what a client is counted")


def an_alarm(folder: str) -> None:
    """After a log that is not clean, the operator's program is run with the log and the answer; after a clean one it is not. The journal
    has both answers."""
    alarm = script(f"{folder}/alarm", f'printf "%s\\n" "$@" >>{folder}/alarms')

    async def two(host: Host) -> None:
        await logs_in(host)
        copy = Path(f"{host.hall.log}.toml")
        copy.write_text(copy.read_text().replace("count = 4096\n", "count = 4095\n"))
        async with host.between():
            pass
        await logs_in(host)

    notes = serves(folder, two, alarm=str(alarm))
    first, second = sorted(Path(folder, "logs").glob("*.log"))
    fault = f"line 4: challenge, due r=..,s={USER.exchange('', '').challenge.split(',s=')[1].replace('4096', '4095')}"
    told = Path(folder, "alarms").read_text().splitlines()
    equal(told[0], str(first), "the log of which the alarm tells")
    equal((len(told), told[1].split(":")[0]), (2, fault.split(":")[0]), "what the alarm tells", told)
    equal(notes, [told[1], "clean sessions=1 accepted=1 codes=0"], "the journal")
    holds(second.exists(), "there is no second log")


def an_audit_that_is_not_run(folder: str) -> None:
    """If there is no program that could audit a log, the journal and the operator's program are told why."""
    alarm = script(f"{folder}/alarm", f'echo "$2" >{folder}/alarms')

    async def one(host: Host) -> None:
        await logs_in(host)
        os.environ["PATH"] = folder

    with mock.patch.dict(os.environ):
        notes = serves(folder, one, alarm=str(alarm))
    due = "[Errno 2] No such file or directory: 'scramotp'"
    equal((notes, Path(folder, "alarms").read_text()), ([due], f"{due}\n"), "what is told")
    equal([*Path(folder, "logs").glob("*.audited")], [], "the logs that count as audited")


async def ctl(folder: str, *words: str, text: str = "") -> tuple[int | None, str]:
    """Runs `scramotp-host ctl`, and returns its status and what it prints."""
    command = [TOP / "hosts" / "scramotp-host", "ctl", "--socket", f"{folder}/control", *words]
    pipe = subprocess.PIPE
    run = await asyncio.create_subprocess_exec(*command, stdin=pipe, stdout=pipe, stderr=subprocess.STDOUT)
    printed, _ = await run.communicate(text.encode())
    return run.returncode, printed.decode()


def an_operator_at_work(folder: str) -> None:
    """While users log in, the operator unlocks a token, enrols a user and edits the book. Nobody is refused for it, the new user can log
    in, and a fault has its usual words and status. Nobody else can use the second socket."""
    text = book([USER]).replace("limit = 100\nfailures = 0", "limit = 100\nfailures = 100")
    answers = []

    async def works(host: Host) -> None:
        async with controlled(host, f"{folder}/control"):
            equal(mode_of(f"{folder}/control"), 0o600, "the mode of the second socket")
            users = asyncio.create_task(goes_on(host))
            equal(await ctl(folder, "unlock", "user"), (0, "unlocked user\n"), "unlock")
            equal(await ctl(folder, "unlock", "none"), (1, "scramotp: no such account\n"), "unlock of nobody")
            equal(await ctl(folder, "enrol", "--count", "4097", "new", text="pencil\n"), (0, "enrolled new\n"), "enrol")
            equal(await ctl(folder, "edit", "sed", "s/^act_as = .*/act_as = [\"x\"]/"), (0, ""), "edit")
            users.cancel()
            login = await host.login(HOME)
            holds(await plain.accepts(login, b"new", b"pencil", b"x"), "the new user can't log in")
        fault = f"scramotp-host: {folder}/control: [Errno 2] No such file or directory\n"
        equal(await ctl(folder, "unlock", "user"), (1, fault), "no host")

    async def goes_on(host: Host) -> None:
        while True:
            answers.extend(await asyncio.gather(*(logs_in(host) for _ in range(20))))

    serves(folder, works, text)
    equal({*answers}, {"OK"}, "the answers meanwhile")
    accounts = read_book(Path(folder, "book.toml"))["accounts"]
    equal((accounts["user"]["token"]["failures"], accounts["new"]["sha256"]["count"]), (0, 4097), "the token and the new keys")
    holds(len(audits(folder)) >= 5, "the log did not change", audits(folder))


def faults_of_a_hall(folder: str) -> None:
    """If the hall is killed, can't save a code, or answers another session, the login gets a fault, and the host has it as what it failed
    by."""
    async def killed(host: Host) -> None:
        login = await host.login(HOME)
        os.kill(host.hall.process.pid, signal.SIGKILL)
        os.waitid(os.P_PID, host.hall.process.pid, os.WEXITED | os.WNOWAIT)
        await refused(login.begin("SCRAM-SHA-256", None), HallFault)
        equal(str(host.failed.exception()), "the hall has ended", "what the host failed by")

    async def halted(host: Host) -> None:
        login = await host.login(HOME)
        await proves(login, USER)
        Path(f"{host.book}.new").mkdir()
        await refused(login.code(USER.code(0)), HallFault)
        equal(str(host.failed.exception()), "the book can't be saved", "what the host failed by")

    async def miscounted(host: Host) -> None:
        host.hall.sessions += 1
        await refused((await host.login(HOME)).begin("SCRAM-SHA-256", None), HallFault)
        equal(str(host.failed.exception()), "the answer to session 2 is of session 1", "what the host failed by")

    for trial, does in each([killed, halted, miscounted]):
        with trial:
            serves(str(within(folder, does.__name__)), does)


def a_book_that_is_not_copied(folder: str) -> None:
    """A hall whose book can't be copied whole, since the disk is full but for a part of it, does not begin, and leaves no file."""
    os.environ["PATH"] = program_on_path(folder)["PATH"]
    text = book([USER])
    begun = hall.Hall(str(written(f"{folder}/book.toml", text)), f"{folder}/log")
    holds(begun.is_ready(limit(20)), "the hall does not begin")
    limits = resource.getrlimit(resource.RLIMIT_FSIZE)
    resource.setrlimit(resource.RLIMIT_FSIZE, (len(text) - 1, limits[1]))
    try:
        begun.begin()
        holds(False, "the hall begins", Path(f"{folder}/log.toml").stat().st_size, len(text))
    except OSError as fault:
        equal(fault.errno, errno.EFBIG, "the fault")
    finally:
        resource.setrlimit(resource.RLIMIT_FSIZE, limits)
    equal([it for it in ("log", "log.toml") if Path(folder, it).exists()], [], "the files that are left")


def a_book_that_is_held(folder: str) -> None:
    """A host that begins, or begins its next log, waits for a book that another holds, and its logins with it."""
    async def holds_it(host: Host) -> None:
        file = open(host.book, "rb")
        async def other() -> None:
            async with host.between():
                fcntl.flock(file, fcntl.LOCK_EX | fcntl.LOCK_NB)
        change = asyncio.create_task(other())
        await asyncio.sleep(0.3)
        login = asyncio.create_task(logs_in(host))
        await asyncio.sleep(0.3)
        equal((change.done(), login.done()), (False, False), "whether the change and the login are over while the book is held")
        file.close()
        equal(await login, "OK", "the login after that")
        await change

    serves(folder, holds_it)
    equal(audits(folder), [(0, 0), (1, 1)], "the audits")


def a_file_that_is_no_socket(folder: str) -> None:
    """A file that is no socket is not taken for one that a killed host has left: it stays as it is, and its host does not begin."""
    file = Path(folder, "file")
    file.write_text("mine")
    try:
        with listening(str(file), 0o600):
            holds(False, "a host listens at a file that is no socket", [*Path(folder).iterdir()])
    except FileExistsError:
        pass
    equal(file.read_text(), "mine", "the file")


suite.run_all()
