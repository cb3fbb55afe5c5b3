#!/usr/bin/env python3
"""Connects mail servers to `hosts/serve-dovecot-auth` by Dovecot's authentication protocol, and audits each log that it leaves. The mail
servers are this script: doors.py has real ones."""
import contextlib
import os
import random
import re
import resource
import signal
import socket
import sys
import time
from base64 import b64decode, b64encode
from concurrent.futures import ThreadPoolExecutor
from datetime import UTC, datetime, timedelta
from pathlib import Path
from threading import Event

import suite
from blocks import Page, shows
from checks import equal, holds
from clients import USER, Account, book
from expected import proved
from limits import limit
from mail_servers import GREETING, SETTINGS, Door, Server, door_of
from processes import Running, ran, until
from suite import PROGRAM, TOP, each, has, mode_of, program_on_path, within, written

OLD = Account("old=user, odd", "SCRAM-SHA-1")
BOOK = book([USER, OLD])
OK = "OK\t{}\tuser=user"
FAIL = "FAIL\t{}\tuser=user\treason=Invalid user name or password"
LATER = "reason=Try again later\ttemp\tcode=temp_fail"


def greeting(folder: str) -> None:
    """A server is greeted before it says anything: by the version, the mechanisms, numbers, a cookie that nobody can guess, and DONE."""
    with door_of(folder, BOOK, 0) as door:
        one, other = Server(door), Server(door)
        for number, server in (1, one), (2, other):
            equal(server.greeting[:3], GREETING, "the greeting")
            rest = "\n".join(server.greeting[3:])
            holds(re.fullmatch(rf"SPID\t{door.run.process.pid}\nCUID\t{number}\nCOOKIE\t[0-9a-f]{{32}}\nDONE", rest), "its end", rest)
        holds(one.greeting[5] != other.greeting[5], "two cookies are the same", one.greeting[5])
        equal(mode_of(door.socket), 0o660, "the mode of the socket")


def hostile_lines(folder: str) -> None:
    """A server is cut off that sends what the protocol has not. One that sends what a later version may add, or what comes too late, is
    not. Others log in meanwhile."""
    hello = "VERSION\t1\t0\n"
    auth = f"AUTH\t1\tSCRAM-SHA-256\t{SETTINGS}\tresp={b64encode(b'n,,n=user,r=x').decode()}\n"
    bad = [
        "VERSION\t2\t0\n", "VERSION\n", "VERSION\t1\n", "VERSION\t1\tx\n", hello + hello, auth, hello + auth + auth,
        *(hello + f"AUTH{rest}\n" for rest in ["", "\t1", "\tx\tPLAIN", "\t\tPLAIN", "\t-1\tPLAIN", "\t12345678901\tPLAIN"]),
        hello + auth + "CONT\t1\tAAAA\nCONT\t1\tAAAA\n", "x" * 20000, "x" * 20000 + "\n", hello + f"CPID\t{'1' * 17000}\n",
        "\0" * 20000, "\n" * 10 + "\tNEW\n" + "y" * 16385,
    ]
    good = [hello + "CPID\t1\nNEW\tword\n\n\t\nCONT\t7\tAAAA\nCANCEL\t7\nCANCEL\n", "CPID\tx\n" + hello, hello + "\xff\xfe\n"]
    with door_of(folder, BOOK, len(bad) + len(good)) as door, Server(door) as other:
        for trial, (number, text) in each(enumerate([*bad, *good])):
            with trial:
                server = Server(door)
                server.connection.sendall(text.encode("latin-1"))
                if text in bad:
                    holds(server.is_cut_off(), "the server is not cut off")
                else:
                    equal(server.logs_in(5, USER), OK.format(5), "a login after that")
                    server.close()
                    number += len(good)
                if text in bad:
                    equal(other.logs_in(number, USER), OK.format(number), "a login meanwhile")
        until(lambda: len(door.notes("cut_off")) >= len(bad), "the journal should have each server that is cut off")
        equal(len(door.notes("cut_off")), len(bad), "how many are cut off, by the journal")


def random_bytes(folder: str) -> None:
    """Servers that send random bytes, or lines of the protocol with random words, for at least DURATION seconds, hold up nobody, and no log
    is at fault."""
    words = ["VERSION", "AUTH", "CONT", "CANCEL", "CPID", "1", "0", "2", "SCRAM-SHA-256", "PLAIN", "secured", "=", "A" * 9000]
    first = [b"n,,n=user,r=x", b"n,a=\xff,n=user,r=x", b"n,,n=us\ner,r=x", b"\nopen x\n", b"\0user\0x", b"\0" * 3]
    words += ["resp=", "resp==", *(f"resp={b64encode(it).decode()}" for it in first)]
    ends, over, sent = time.monotonic() + float(os.environ.get("DURATION") or 4), Event(), [0, 0, 0]

    def line(source: random.Random) -> str:
        if source.random() < 0.5:
            return "\t".join(source.choices(words, k=source.randrange(1, 7)))
        return f"AUTH\t{source.randrange(9)}\t{source.choice(words[8:10])}\tsecured\t{source.choice(words[-8:])}"

    def text(source: random.Random) -> bytes:
        if source.random() < 0.2:
            return source.randbytes(source.randrange(3000))
        return "".join(f"{it}\n" for it in ["VERSION\t1\t0", *(line(source) for _ in range(source.randrange(1, 6)))]).encode()

    def attack(number: int) -> None:
        source = random.Random(suite.SEED * 3 + number)
        while not over.is_set():
            server = Server(door)
            with contextlib.suppress(OSError):
                server.connection.sendall(text(source))
            server.close()
            sent[number] += 1

    door = Door(folder, BOOK, "--plain", "--guesses", "1000000", "--kilobytes", "1000000")
    accepted = 0
    with ThreadPoolExecutor(3) as pool, Server(door) as good:
        attacks = [pool.submit(attack, it) for it in range(3)]
        try:
            while time.monotonic() < ends or (min(sent) < 20 or accepted < 6) and time.monotonic() < ends + limit(60):
                accepted += 1
                began = time.monotonic()
                equal(good.logs_in(accepted, USER), OK.format(accepted), "a login meanwhile")
                holds(time.monotonic() < began + limit(5), "a login takes long meanwhile, in seconds", time.monotonic() - began)
        finally:
            over.set()
        holds(min(sent) >= 20 and accepted > 5, "there was no attack", sent, accepted)
        for it in attacks:
            it.result()
    door.ends(accepted)


def servers_that_do_not_read(folder: str) -> None:
    """A server that sends logins and reads no answer is cut off once a megabyte is unread. Another is served at all times."""
    door = Door(folder, BOOK, "--logins", "1000000", "--guesses", "1000000", "--kilobytes", "1000000", "--delay", "0")
    with Server(door) as other, Server(door) as deaf:
        deaf.connection.settimeout(2)
        count = 0
        with contextlib.suppress(OSError):
            while count < 400_000:
                lines = "".join(f"AUTH\t{count + it}\tX\tservice=smtp\n" for it in range(2000))
                count += 2000
                deaf.connection.sendall(lines.encode())
                if count % 20000 == 0:
                    equal(other.logs_in(count, USER), OK.format(count), "another login")
        until(lambda: door.notes("cut_off"), "the server should be cut off")
        holds('why="does not read"' in door.notes("cut_off")[0], "another reason", door.notes("cut_off"))
        equal(other.logs_in(1, USER), OK.format(1), "another login after that")
    door.stops()
    door.audits()


def outcomes(folder: str) -> None:
    """What a server is told of each login, and when: a refusal comes only after a while. The journal says the same of each."""
    first = USER.first.encode()
    with door_of(folder, BOOK.replace("act_as = []", 'act_as = ["other"]', 1), 5, "--delay", "0.5") as door, Server(door) as server:
        equal(server.logs_in(1, USER), OK.format(1), "the right password")
        equal(server.logs_in(2, OLD), f"OK\t2\tuser={OLD.name}", "the right password of an odd name")
        began = time.monotonic()
        equal(server.logs_in(3, USER, is_wrong=True), FAIL.format(3), "a wrong password")
        holds(0.5 <= time.monotonic() - began < 5, "after how many seconds it is refused", time.monotonic() - began)
        equal(told_of_nobody(server, 4), "FAIL\t4\tuser=none\treason=Invalid user name or password", "an unknown name")
        server.auth(5, "SCRAM-SHA-256")
        equal(server.challenge(5), b"", "the challenge without a first message")
        server.respond(5, first)
        equal(server.goes_on(5, USER), OK.format(5), "the first message in a line of its own")
        server.send(f"AUTH\t6\tSCRAM-SHA-256\tservice=imap\tsecured\tfinal-resp-ok\tresp={b64encode(first).decode()}")
        it = USER.answers(server.challenge(6).decode())
        server.respond(6, it.final.encode())
        equal(server.line(), f"OK\t6\tuser=user\tresp={b64encode(f'v={it.signature}'.encode()).decode()}", "the last message with OK")
        for ident, message, due in [(7, b"n,a=other,n=user,r=fyko", "OK\t7\tuser=other"), (8, b"n,a=root,n=user,r=fyko", FAIL.format(8))]:
            server.auth(ident, "SCRAM-SHA-256", message)
            equal(acts_as(server, ident, message), due, "a name to act as", message)
        for ident, text in [(9, "!"), (10, "QQ"), (11, "biws\tbj1"), (12, "")]:
            server.auth(ident, "SCRAM-SHA-256")
            server.challenge(ident)
            server.send(f"CONT\t{ident}\t{text}")
            equal(server.line(), f"FAIL\t{ident}\treason=Invalid user name or password", "a response that is no message", text)
        server.begin(13, USER)
        server.challenge(13)
        server.send("CANCEL\t13")
        server.begin(13, USER)
        server.challenge(13)
        server.begin(14, USER, "protocol=imap\tsecured=tls\tsession=x y\tlocal_name=localhost")
        equal(server.goes_on(14, USER, is_wrong=True), "FAIL\t14\tuser=user", "a wrong password of an IMAP client, who is told no reason")
        server.auth(15, "PLAIN", b"\0user\0password of user", f"service=smtp\tsecured\trip={'9' * 9000}")
        equal(server.line(), "FAIL\t15\treason=Invalid user name or password", "a password, without --plain")
    told = [*["accepted"] * 2, *["refused"] * 2, *["accepted"] * 3, *["refused"] * 5, "abandoned", *["refused"] * 2, "abandoned"]
    equal(door.outcomes(), told, "the outcomes in the journal")
    holds(max(map(len, door.notes("login"))) < 400, "a line of the journal is long", door.notes("login"))
    due = f' service=imap client="x y" uid={os.geteuid()} pid={os.getpid()}'
    holds(door.notes("login")[13].endswith(due), "the journal lacks the client's connection", door.notes("login")[13])
    due = r"event=login outcome=accepted mechanism=SCRAM-SHA-256 name=user act_as=other log=\S+Z\.log session=7 service=smtp rip=.*"
    holds(any(re.fullmatch(due, line) for line in door.notes("login")), "the journal lacks the line of a login", door.notes("login"))
    [noted] = door.logs.glob("*.clients")
    opened = dict(re.findall(r"^(\d+) open \d{4}-\d\d-\d\dT\d\d:\d\d:\d\dZ (.+)$", noted.read_text(), re.M))
    equal(opened, dict(re.findall(r" session=(\d+) (.+)", door.journal.read_text())), "what LOG.clients has of each session")
    equal(opened["1"], "service=smtp rip=127.0.0.1 lip=127.0.0.1", "what it has of a client")
    equal(sorted(re.findall(r"^(\d+) end ", noted.read_text(), re.M)), sorted(opened), "the sessions that end by LOG.clients")


def told_of_nobody(server: Server, ident: int) -> str:
    """What a server is told of a name without an account, whose challenge is that of a decoy."""
    server.auth(ident, "SCRAM-SHA-1", b"n,,n=none,r=fyko")
    nonce = server.challenge(ident).split(b",")[0]
    server.respond(ident, b"c=biws,%s,p=%s" % (nonce, b64encode(bytes(20))))
    return server.line()


def acts_as(server: Server, ident: int, message: bytes) -> str:
    """Goes on with a login to USER that began by this message. Returns the last line."""
    challenge = server.challenge(ident)
    header, bare = message[:message.index(b",n=") + 1], message[message.index(b",n=") + 1:]
    final = b"c=%s,%s" % (b64encode(header), challenge.split(b",")[0])
    proof, _ = proved(USER.hash, USER.client, USER.server, b",".join([bare, challenge, final]))
    server.respond(ident, final + b",p=" + b64encode(proof))
    line = server.line()
    if not line.startswith("CONT"):
        return line
    server.respond(ident, b"")
    return server.line()


def passwords(folder: str) -> None:
    """PLAIN and LOGIN are judged as SCRAM, only on connections that are said to be secured. Neither a log nor the journal has a
    password."""
    secured = f"{SETTINGS}\tsecured"
    right, wrong = b"password of user", b"password of nobody"
    with door_of(folder, BOOK, 6, "--plain") as door, Server(door) as server:
        equal(server.greeting[3:5], ["MECH\tPLAIN\tplaintext", "MECH\tLOGIN\tplaintext"], "the mechanisms with passwords")
        ident = 0
        for trial, (mechanism, asked, given, is_right) in each([
            ("PLAIN", None, [b"\0user\0" + right], True), ("plain", None, [b"user\0user\0" + right], True),
            ("PLAIN", None, [b"\0user\0" + wrong], False), ("PLAIN", None, [b"root\0user\0" + right], False),
            ("PLAIN", None, [b"user\0" + right], False), ("PLAIN", None, [b"\0user\0" + right + b"\0"], False),
            ("PLAIN", [b""], [None, b"\0user\0" + right], True), ("PLAIN", [b""], [None, b""], False),
            ("LOGIN", [b"Username:", b"Password:"], [None, b"user", right], True),
            ("LOGIN", [b"Username:", b"Password:"], [None, b"user", wrong], False),
            ("LOGIN", [b"Password:"], [b"user", right], True), ("LOGIN", [b"Username:", b"Password:"], [None, b"us\0er", right], False),
            ("LOGIN", [b"Username:", b"Password:"], [None, b"", right], False), ("PLAIN", None, [b"\0user\0" + right], True),
        ]):
            with trial:
                ident += 1
                server.auth(ident, mechanism, given[0], secured)
                for challenge, message in zip(asked or [], given[1:]):
                    equal(server.challenge(ident), challenge, "the challenge")
                    server.respond(ident, message)
                equal(server.line().split("\t")[:2], ["OK" if is_right else "FAIL", str(ident)], mechanism, given)
        server.auth(99, "PLAIN", b"\0user\0" + right)
        equal(server.line().split("\t")[:2], ["FAIL", "99"], "a password on a connection that is not secured")
    texts = [path.read_text() for path in [*door.logs.glob("*.log*"), door.journal]]
    holds(texts and not any(re.search("password of|cGFzc3dvcmQ", text) for text in texts), "a password is left", texts)


def who_has_logged_in(folder: str) -> None:
    """Dovecot's imap is told who has logged in, once, and only if it knows the login's process, number and cookie. A name that would lead
    to another folder is not told."""
    away = Account("../etc", "SCRAM-SHA-1")
    text = book([USER, away])
    with door_of(folder, text, 2, "--master", f"{folder}/master", "--userdb", "uid=7 gid=8 home=/srv/%u") as door, Server(door) as server:
        cookie = server.greeting[5].removeprefix("COOKIE\t")
        for ident, account in (1, USER), (2, away):
            server.begin(ident, account)
            holds(server.goes_on(ident, account).startswith("OK\t"), "the login")
        with socket.socket(socket.AF_UNIX) as imap:
            imap.connect(f"{folder}/master")
            imap.settimeout(20)
            lines = imap.makefile("rb")
            equal(lines.readline() + lines.readline(), f"VERSION\t1\t1\nSPID\t{door.run.process.pid}\n".encode(), "the greeting")
            for process, ident, key, due in [
                (1, 1, cookie, "NOTFOUND\t5\n"), (os.getpid(), 3, cookie, "NOTFOUND\t5\n"), (os.getpid(), 1, "0" * 32, "NOTFOUND\t5\n"),
                (os.getpid(), 1, cookie, "USER\t5\tuser\tuid=7\tgid=8\thome=/srv/user\n"), (os.getpid(), 1, cookie, "NOTFOUND\t5\n"),
                (os.getpid(), 2, cookie, "NOTFOUND\t5\n"),
            ]:
                imap.sendall(f"VERSION\t1\t1\nREQUEST\t5\t{process}\t{ident}\t{key}\tsession_pid=1\n".encode())
                equal(lines.readline().decode(), due, "the answer for", process, ident)
            imap.sendall(b"x" * 9000)
            equal(lines.read(), b"", "what follows a line that is too long")
        with socket.socket(socket.AF_UNIX) as deaf:
            deaf.connect(f"{folder}/master")
            deaf.settimeout(20)
            with contextlib.suppress(BrokenPipeError, ConnectionResetError):
                for _ in range(200):
                    deaf.sendall(b"REQUEST\t5\t\t\t\n" * 5000)
                holds(False, "a process that reads no answer is not cut off")


def many_at_once(folder: str) -> None:
    """Two hundred logins at a time, on one connection and on two hundred, go on over three changes of the log, and all are accepted."""
    with door_of(folder, BOOK, 600) as door, contextlib.ExitStack() as servers:
        one = servers.enter_context(Server(door))
        for ident in range(200):
            one.begin(ident, USER)
        door.renews()
        equal(sorted(all_of(one, 200)), sorted(OK.format(ident) for ident in range(200)), "the logins on one connection")
        many = [servers.enter_context(Server(door)) for _ in range(200)]
        for _ in range(2):
            for server in many:
                server.begin(1, USER)
            door.renews()
            with ThreadPoolExecutor(200) as pool:
                equal({*pool.map(lambda server: server.goes_on(1, USER), many)}, {OK.format(1)}, "the logins on many connections")
    equal(len([*door.logs.glob("*.log")]), 4, "the number of logs")


def all_of(server: Server, count: int) -> list[str]:
    """Answers so many logins on one connection, in the order in which their challenges come. Returns their last lines."""
    found, signed = [], set()
    while len(found) < count:
        line = server.line()
        word, ident, *rest = line.split("\t")
        if word == "CONT" and ident not in signed:
            signed.add(ident)
            server.respond(int(ident), USER.answers(b64decode(rest[0]).decode()).final.encode())
        elif word == "CONT":
            server.respond(int(ident), b"")
        else:
            found.append(line)
    return found


def clients_that_leave(folder: str) -> None:
    """A server that goes away in the middle of its logins gives their places back at once, and so does one whose client is idle for too
    long, or idle while others wait: that one may try again."""
    with door_of(folder, BOOK, 3, "--places", "4", "--idle", "0.3", "--patience", "2") as door:
        with Server(door) as away:
            for ident in range(4):
                away.begin(ident, USER)
            for _ in range(4):
                away.line()
        with Server(door) as server:
            equal(server.logs_in(1, USER), OK.format(1), "a login after that")
            for ident in range(2, 6):
                server.begin(ident, USER)
                server.challenge(ident)
            with Server(door) as other:
                equal(other.logs_in(1, USER), OK.format(1), "a login while all places are idle")
            equal(server.line(), f"FAIL\t2\tuser=user\t{LATER}", "the login that has given way")
            late = [f"FAIL\t{it}\tuser=user\t{LATER}" for it in (3, 4)]
            equal([server.line() for _ in range(3)], [*late, ""], "logins that take too long, the last of which ends the connection")
        with Server(door) as server:
            equal(server.logs_in(1, USER), OK.format(1), "a login after that")
    equal(sorted(door.outcomes()), sorted([*["abandoned"] * 4, *["accepted"] * 3, "lost", *["late"] * 3]), "the outcomes")


def limits(folder: str) -> None:
    """An address with too many refused logins in a minute is not heard, and others are. A user has only so many connections, and a
    connection so many logins."""
    with door_of(folder, BOOK, 1, "--guesses", "3", "--connections", "3", "--logins", "2") as door:
        with Server(door) as server:
            for ident in range(4):
                equal(server.logs_in(ident, USER, is_wrong=True), FAIL.format(ident), "a wrong password")
            server.begin(4, USER, SETTINGS.replace("rip=127.0.0.1", "rip=127.0.0.2"))
            equal(server.goes_on(4, USER), OK.format(4), "another address")
            server.begin(5, USER)
            holds(server.is_cut_off(), "an address above its limit is heard")
        equal(door.outcomes()[-1], "limited", "the outcome")
        servers = [Server(door) for _ in range(3)]
        with socket.socket(socket.AF_UNIX) as fourth:
            fourth.connect(str(door.socket))
            fourth.settimeout(20)
            equal(fourth.recv(1), b"", "what the fourth connection is sent")
        for server in servers:
            server.__enter__()
        other = SETTINGS.replace("rip=127.0.0.1", "rip=::1")
        for ident in range(3):
            servers[0].begin(ident, USER, other)
        holds(servers[0].is_cut_off(), "a connection has three logins")
        for server in servers:
            server.close()


def no_journal(folder: str) -> None:
    """A door whose standard error is closed serves, and ends well."""
    place = Path(folder)
    words = [sys.executable, TOP / "hosts/serve-dovecot-auth", written(place / "book.toml", BOOK), place / "auth", within(folder, "logs")]
    run = Running(["bash", "-c", 'exec "$@" 2>&-', "bash", *map(str, words)], env=program_on_path(folder))
    until(lambda: (place / "auth").exists() or run.process.poll() is not None, "the door should serve")
    with Server(place / "auth") as server:
        equal(server.logs_in(1, USER), OK.format(1), "a login")
    equal(run.end(by=signal.SIGTERM).status, 0, "the status of the door")
    [log] = (place / "logs").glob("*.log")
    suite.audit_says(f"{log}.toml", log, "clean sessions=1 accepted=1 codes=0")


def many_files(folder: str) -> None:
    """A door that could have only a few files open, unless it asks for more, serves many connections, and begins a new log meanwhile."""
    few, most = 32, resource.getrlimit(resource.RLIMIT_NOFILE)
    resource.setrlimit(resource.RLIMIT_NOFILE, (few, most[1]))
    try:
        door = Door(folder, BOOK)
    finally:
        resource.setrlimit(resource.RLIMIT_NOFILE, most)
    with contextlib.ExitStack() as servers:
        many = [servers.enter_context(Server(door)) for _ in range(2 * few)]
        door.renews()
        until(lambda: len([*door.logs.glob("*.log")]) == 2, "a new log should begin")
        equal(many[-1].logs_in(1, USER), OK.format(1), "a login")
    door.ends(1)


def halls_that_fail(folder: str) -> None:
    """If the hall is killed, or the log can't be written, no login is accepted any more: the connections are closed, and the door ends and
    says why. The log is then the beginning of a clean one."""
    def full(door: Door) -> None:
        [log] = door.logs.glob("*.log")
        most = log.stat().st_size + 30
        resource.prlimit(door.run.process.pid, resource.RLIMIT_FSIZE, (most, most))

    for trial, (does, fault) in each([(Door.kills_hall, '"the hall has ended"'), (full, '"the log can\'t be written: File too large"')]):
        with trial:
            door = Door(within(folder, does.__name__), BOOK)
            with Server(door) as server:
                equal(server.logs_in(1, USER), OK.format(1), "a login before that")
                server.begin(2, USER)
                server.challenge(2)
                does(door)
                with contextlib.suppress(BrokenPipeError):  # cut off already
                    server.respond(2, b"c=biws,r=x,p=x")
                holds(server.is_cut_off(), "the connection goes on")
            equal(door.status(), 1, "the status of the door")
            equal(door.notes("end"), [f"event=end level=error fault={fault}"], "the journal")
            [log] = door.logs.glob("*.log")
            answer = ran([PROGRAM, "audit", "--book", f"{log}.toml", "--log", log]).output
            holds(re.fullmatch(r"line \d+: (cut|not a line)\n", answer), "the audit", answer)
            holds(any("level=error" in line and "answer" in line for line in door.notes("audit")), "the audit is not in the journal")


def logs_of_a_killed_door(folder: str) -> None:
    """A door that begins audits the log of one that was killed, and tells what it finds. It audits no log that has an answer."""
    door = Door(folder, BOOK)
    with Server(door) as server:
        equal(server.logs_in(1, USER), OK.format(1), "a login")
        door.renews()
        until(lambda: door.notes("audit"), "the first log should be audited")
        equal(server.logs_in(2, USER), OK.format(2), "a login in the next log")
        server.begin(3, USER)
        server.challenge(3)
        door.run.killed()
    logs = sorted(door.logs.glob("*.log"))
    for count in 1, 2:
        door.start()
        logs = sorted({*logs, *door.logs.glob("*.log")})
        door.stops()
        equal(len(logs), 2 + count, "the number of logs")
    answers = ["clean sessions=1 accepted=1 codes=0", "line 12: cut", *["clean sessions=0 accepted=0 codes=0"] * 2]
    due = [f'event=audit {"level=error " * (it == answers[1])}log={log} answer="{it}"' for log, it in zip(logs, answers)]
    equal(door.notes("audit"), due, "the audits in the journal")
    equal([Path(f"{log}.audited").read_text() for log in logs], [f"{it}\n" for it in answers], "the files of the answers")


def sockets(folder: str) -> None:
    """A socket that a killed door has left is replaced, and one at which another listens is not. The sockets of the service manager are
    served, also those that the command line does not name, and stay."""
    door = Door(folder, BOOK)
    door.run.killed()
    holds(door.socket.exists(), "a killed door has removed its socket")
    door.start()
    with Server(door) as server:
        equal(server.logs_in(1, USER), OK.format(1), "a login at a socket that was left")
    words = [TOP / "hosts" / "serve-dovecot-auth", written(Path(folder, "other.toml"), BOOK), door.socket, Path(folder, "logs")]
    second = ran([*words, "--control", Path(folder, "other")], env=program_on_path(folder))
    holds(second.status == 1 and "File exists" in second.faults, "another door serves at the same socket", second)
    with Server(door) as server:
        equal(server.logs_in(1, USER), OK.format(1), "a login at the first door")
    door.stops()
    paths = [door.socket, Path(folder, "more")]
    with socket.socket(socket.AF_UNIX) as one, socket.socket(socket.AF_UNIX) as more:
        for listener, path in zip([one, more], paths):
            listener.bind(str(path))
            listener.listen()
        script = 'exec 3<&"$0" 4<&"$1"; shift; LISTEN_PID=$$ LISTEN_FDS=2 exec "$@"'
        given = [os.dup(it.fileno()) for it in [one, more]]
        run = Running(["bash", "-c", script, *map(str, [*given, *words])], pass_fds=given, env=program_on_path(folder))
        for path in paths:
            with Server(path) as server:
                equal(server.logs_in(1, USER), OK.format(1), "a login at a socket of the service manager")
        equal(run.end(by=signal.SIGTERM).status, 0, "the status of the door")
        equal([*map(Path.exists, paths)], [True, True], "whether the sockets stay")


def new_log_each_day(folder: str) -> None:
    """A new log begins at the time of day that is asked for, in UTC."""
    for seconds in 3, 12, 48:  # on a busy machine a door may begin too late
        moment = datetime.now(UTC) + timedelta(seconds=seconds)
        with door_of(within(folder, seconds), BOOK, 0, "--daily", f"{moment:%H:%M:%S}") as door:
            if datetime.now(UTC) < moment - timedelta(seconds=1):
                until(lambda: len([*door.logs.glob("*.log")]) == 2, "a new log should begin")
                began = [path.name[9:15] for path in sorted(door.logs.glob("*.log"))]
                holds(began[1] >= f"{moment:%H%M%S}", "the new log begins early", began, moment)
                return
    holds(False, "no door has begun in time")


PAGE = Page("docs/DOORS.md")


def blocks_of_the_page(folder: str) -> None:
    """The page's commands start a door, and work on its book while it serves. Its program says whether a password is right."""
    Path(folder, "hosts").symlink_to(TOP / "hosts")
    changed = BOOK.replace("failures = 0", "failures = 100").replace("decoy_count = 4096", "decoy_count = 4095")
    written(Path(folder, "book.toml"), changed)
    start, work, program = PAGE.block("Start"), PAGE.block("Unlock, enrol, edit"), PAGE.block("As a library", "python")
    how = {"cwd": folder, "env": {**program_on_path(folder), "PYTHONPATH": str(TOP / "hosts")}}
    run = Running(["bash", "-c", start.replace("hosts/serve", "exec hosts/serve")], **how)
    until(lambda: Path(folder, "auth").exists() or run.process.poll() is not None, "the door should serve")
    with Server(Path(folder, "auth")) as server:
        equal(server.logs_in(1, USER), OK.format(1), "a login")
    shows(folder, work)
    found = suite.read_book(Path(folder, "book.toml"))
    done = found["accounts"]["user"]["token"]["failures"], "new" in found["accounts"], found["decoy_count"]
    equal(done, (0, True, 4096), "the book after that")
    equal(run.end(by=signal.SIGTERM).status, 0, "the status of the door")
    within(folder, "other")
    Path(folder, "program.py").write_text(program)
    for password, due in ("correct horse", "True\n"), ("correct horses", "False\n"):
        answer = ran(["python3", "program.py", "book.toml", "other", "new"], f"{password}\n", **how)
        equal((answer.status, answer.output), (0, due), "what the program says", password, answer)
    logs = sorted([*Path(folder, "logs").glob("*.log"), *Path(folder, "other").glob("*.log")], key=lambda path: path.name)
    answers = [ran([PROGRAM, "audit", "--book", f"{log}.toml", "--log", log]).output.split()[2:3] for log in logs]
    equal(sum(int(counts[0].removeprefix("accepted=")) for counts in answers), 2, "the accepted logins", answers)


def units(folder: str) -> None:
    """The units of systemd are right, by its own words, and leave the door little to do harm with. The door tells the manager that it is
    ready, and stops."""
    manager = socket.socket(socket.AF_UNIX, socket.SOCK_DGRAM)
    manager.bind(f"{folder}/manager")
    manager.settimeout(20)
    os.environ["NOTIFY_SOCKET"] = f"{folder}/manager"
    with door_of(folder, BOOK, 0):
        equal(manager.recv(99), b"READY=1", "what the manager is told")
    equal(manager.recv(99), b"STOPPING=1", "what the manager is told at the end")
    del os.environ["NOTIFY_SOCKET"]
    manager.close()
    place = within(folder, "units")
    for unit in (TOP / "hosts/units").iterdir():
        (place / unit.name).write_text(unit.read_text().replace("/usr/local/share/scramotp", str(TOP / "hosts")))
    service = place / "scramotp-dovecot-auth.service"
    words = re.search(r"^ExecStart=(\S+) ((?:.*\\\n)*.*)$", service.read_text(), re.M)[2].replace("\\\n", " ").split()
    listens = re.search(r"^ListenStream=(.*)$", service.with_suffix(".socket").read_text(), re.M)[1]
    equal(words[-3:], ["/var/lib/scramotp/book.toml", listens, "/var/lib/scramotp/logs"], "the words of the door")
    if not has("what systemd makes of the units", "systemd-analyze"):
        return
    for unit in sorted(place.iterdir()):
        answer = ran(["systemd-analyze", "verify", "--man=no", unit])
        equal([line for line in answer.faults.splitlines() if "scramotp" in line], [], "what systemd says of", unit.name)
    answer = ran(["systemd-analyze", "security", "--offline=true", "--threshold=10", service])
    equal(answer.status, 0, "whether the door is exposed to little", answer.output[-300:])


def manuals(folder: str) -> None:
    """The manual pages have the options that the commands' help has, with the same defaults. check-login shows its help, with status 1, for
    whatever could not be its words."""
    os.environ["COLUMNS"] = "999"
    for trial, (name, commands) in each([
        ("serve-dovecot-auth", [["--help"]]), ("scramotp-host", [["ctl", "--help"], ["ctl", "enrol", "--help"]]),
        ("check-login", [[], ["--help"], ["a", "b"]]),
    ]):
        with trial:
            answers = [ran([TOP / "hosts" / name, *words]) for words in commands]
            equal({it.status for it in answers}, {1 if name == "check-login" else 0}, "the statuses of the help of", name)
            shown = "".join(it.output or it.faults for it in answers)
            helped = dict(re.findall(r"^  --(\w+)(?: \S+)? +(.*)$", shown, re.M)) or dict.fromkeys(re.findall(r"--(\w+)", shown), "")
            due = {option: re.findall(r"\[([^]]*?)(?:\.0)?\]$", says) for option, says in helped.items()}
            page = (TOP / "man" / f"{name}.8").read_text()
            items = re.findall(r"^\.It Fl -(\w+).*\n((?:(?!\.It|\.El).*\n)*)", page, re.M)
            told = {option: re.findall(r"(?:: |default is\s(?:\.Pa )?)(\S+?) ?\.$", says.strip()) for option, says in items}
            equal(told, due, "the options and defaults of", name)
    del os.environ["COLUMNS"]


suite.run_all()
