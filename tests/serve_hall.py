#!/usr/bin/env python3
"""Connects clients to `tools/serve-hall`, which runs a hall for them, and audits the log that it leaves.

The tool is started as in the block of docs/OPERATING.md. What the clients send and have to receive is computed with Python's hashlib and
hmac.
"""
import contextlib
import fcntl
import itertools
import os
import re
import resource
import signal
import socket
import sys
import termios
import time
from concurrent.futures import ThreadPoolExecutor
from datetime import UTC, datetime
from pathlib import Path

import clients
import suite
from blocks import TOOLS, Page, book_of, code_of_now, does, ran, start, token_of_now, with_tools
from checks import equal, holds
from clients import USER, Account
from expected import MECHS
from limits import limit
from processes import LIMIT, LIMIT_OF_LINES, Running, until
from suite import BOOK_OF_USER, each, mode_of, script, seen, within, written

# An account whose token books lack.
BARE = Account("bare", "SCRAM-SHA-256")
# What `line_of` returns for a client that waits in vain.
NOTHING = "nothing in time"
# The seconds in which a client has to send a whole line, in a copy of the tool.
PATIENCE = limit(5)
# The longest line of a client that a log can have whole: a mechanism's name of 20 characters, and a message of 2048 bytes, all escaped.
LONGEST = f"AUTH {'X' * 20} :{'%25' * 2048}"
SERVE = Page("docs/OPERATING.md").block("Serve logins with `serve-hall`")
# Its commands without the parentheses, and with the tool replacing the shell, so that signals reach it.
START = SERVE.removeprefix("(\n").removesuffix(")\n").replace("tools/", "exec tools/")


def line_of(client: socket.socket) -> str:
    """The next line that a client receives, without its LF; an empty text at the end of what it is sent; or, if neither comes, NOTHING."""
    text = b""
    try:
        while not text.endswith(b"\n"):
            byte = client.recv(1)
            if not byte:
                return text.decode()
            text += byte
    except TimeoutError:
        return NOTHING
    return text[:-1].decode()


def connects(client: socket.socket, folder: str | Path) -> bool:
    """Connects a client to the program that serves in this folder, unless none does."""
    try:
        client.connect(str(Path(folder, "hall.sock")))
    except (FileNotFoundError, ConnectionRefusedError):
        return False
    return True


def connected(folder: str | Path) -> socket.socket:
    """A client connected to the program that serves in this folder; waits until that listens."""
    client = socket.socket(socket.AF_UNIX)
    client.settimeout(LIMIT_OF_LINES)
    until(lambda: connects(client, folder), "a client should be able to connect to", folder)
    return client


def greeted(folder: str | Path) -> socket.socket:
    """A client that is connected and was greeted."""
    client = connected(folder)
    equal(line_of(client), MECHS[2:], "the greeting")
    return client


def begins_login(client: socket.socket, account: Account) -> None:
    """The client sends the first message of a login to this account."""
    client.sendall(f"AUTH {account.mechanism} :{account.first}\n".encode())


def goes_on(client: socket.socket, account: Account) -> str:
    """The client receives the challenge of that login, answers it, and is let in. Returns the server's part of the nonce."""
    challenge = line_of(client).removeprefix("CONT :")
    found = re.match(r"r=fyko([^,]{24}),", challenge)
    holds(found, "no challenge", challenge)
    it = account.answers(challenge)
    client.sendall(f"RESP :{it.final}\n".encode())
    equal(line_of(client), f"OK :v={it.signature}", "the login")
    return found[1]


def logs_in(client: socket.socket, account: Account) -> str:
    """A whole login."""
    begins_login(client, account)
    return goes_on(client, account)


def is_read(client: socket.socket) -> bool:
    """Whether all that a client has sent was read."""
    return not any(fcntl.ioctl(client, termios.TIOCOUTQ, bytes(4)))


def sends_in_halves(client: socket.socket, line: str) -> None:
    """The client sends a line in two halves, the second once the first was read."""
    text = f"{line}\n".encode()
    half = len(text) // 2
    client.sendall(text[:half])
    until(lambda: is_read(client), "the first half of a line should be read", line)
    client.sendall(text[half:])


def answers(client: socket.socket, line: str, answer: str) -> None:
    """The client sends a line, and receives an answer of this form. If it was cut off, it receives nothing."""
    with contextlib.suppress(BrokenPipeError):
        client.sendall(f"{line}\n".encode())
    told = line_of(client)
    holds(re.fullmatch(answer, told), "another answer is due", answer, line, told)


def serving_hall(folder: str | Path, book: str, tool: str = "tools/serve-hall") -> Running:
    """Starts the tool over a book with this text."""
    with_tools(folder, book)
    return start(folder, START.replace("tools/serve-hall", tool), PYTHONPATH=str(TOOLS.parent / "hosts"))


def children(serving: Running) -> list[str]:
    """The processes that the program has started, and that have not ended."""
    return Path(f"/proc/{serving.process.pid}/task/{serving.process.pid}/children").read_text().split()


def serves_until(serving: Running, number: int, folder: str | Path, answer: str) -> None:
    """The program ends well at this signal. The audit of its log, by the book that it began with, has this answer."""
    serving.ends(0, by=number)
    does(folder, "scramotp audit --book hall.log.toml --log hall.log", printed=f"{answer}\n")


def a_hall_of_your_own(folder: str) -> None:
    """Six clients: one logs in and sends a code, one sends a line that is too long, one sends the longest that a line can be, one asks for
    another mechanism, one goes away, and one has gone before it is greeted."""
    serving = serving_hall(folder, clients.book([USER]))
    good, long, longest, other, away = [greeted(folder) for _ in range(5)]
    away.close()
    with serving.stopped():
        connected(folder).close()
    begins_login(good, USER)
    long.sendall(b"x" * 7000 + b"\n")
    equal([line_of(long), line_of(long)], ["NO :", ""], "a line that is too long")
    longest.sendall(f"{LONGEST}\n".encode())
    equal([line_of(longest), line_of(longest)], ["NO :", ""], "the longest line, which is for another mechanism")
    other.sendall(b"AUTH PLAIN\n")
    equal([line_of(other), line_of(other)], ["NO :", ""], "another mechanism")
    goes_on(good, USER)
    answers(good, f"CODE {USER.code(0)}", r"PASS \d+ 0")
    equal(mode_of(Path(folder, "hall.sock")), 0o700, "the mode of the socket")
    serves_until(serving, signal.SIGINT, folder, "clean sessions=6 accepted=1 codes=1")
    equal(line_of(good), "", "the client is told no more")
    lines = Path(folder, "hall.log").read_text().splitlines()
    equal(lines.count(f"3 C {LONGEST}"), 1, "how often the log has the longest line")
    holds(not Path(folder, "hall.sock").exists(), "the socket is left")
    equal(book_of(folder)["accounts"]["user"]["token"]["next"], 1, "the counter is used")


def a_code_of_this_moment(folder: str) -> None:
    """A code is judged by the moment at which it comes: one of now passes, and one of ten steps ago does not. Both answers have it. Each
    code comes in two halves."""
    serving = serving_hall(folder, clients.book([USER], have_tokens=False) + token_of_now())
    client = greeted(folder)
    logs_in(client, USER)
    for steps, answer in [(-10, r"FAIL (\d+)"), (0, r"PASS (\d+) \d+")]:
        before = int(time.time())
        sends_in_halves(client, f"CODE {code_of_now(steps)}")
        told = line_of(client)
        found = re.fullmatch(answer, told)
        holds(found, "another answer is due to a code of so many steps after now", steps, answer, told)
        holds(before <= int(found[1]) <= time.time(), "the answer has another moment than that of its code", told, before)
    serves_until(serving, signal.SIGINT, folder, "clean sessions=1 accepted=1 codes=1")


def clients_of_a_log(folder: str) -> None:
    """LOG.clients has the user, the process and the moment of each session as it begins, and the moment of its end, at once: of one that is
    refused, one that goes away, one that is turned away, and those that are there until the end."""
    serving = serving_hall(folder, BOOK_OF_USER)
    began = datetime.now(UTC).replace(microsecond=0)
    refused, away = greeted(folder), greeted(folder)
    answers(refused, "AUTH PLAIN", "NO :")
    equal(line_of(refused), "", "the end of a session that is refused")
    noted = re.findall(r"^(\d+ \w+) .*\n", Path(folder, "hall.log.clients").read_text(), re.M)
    equal(noted, ["1 open", "2 open", "1 end"], "what is noted at once")
    away.close()
    with contextlib.ExitStack() as guests:
        for _ in range(64):
            guests.enter_context(greeted(folder))
        equal(line_of(connected(folder)), "BUSY", "one that is turned away")
        serves_until(serving, signal.SIGINT, folder, "clean sessions=66 accepted=0 codes=0")
    lines = [line.split(" ", 3) for line in Path(folder, "hall.log.clients").read_text().splitlines()]
    moments = [datetime.fromisoformat(line[2]) for line in lines]
    holds(began <= moments[0] and sorted(moments) == moments and moments[-1] <= datetime.now(UTC), "the moments are others", moments)
    equal({*(it[3] for it in lines if it[1] == "open")}, {f"uid={os.getuid()} pid={os.getpid()}"}, "what is noted of the clients")
    due = {*((str(number), what) for number in range(1, 68) for what in ("open", "end"))}
    equal(sorted(tuple(it[:2]) for it in lines), sorted(due), "the sessions that are noted")
    equal([it[0] for it in lines if it[1] == "end"][:3], ["1", "2", "67"], "the sessions that ended first")


def a_full_hall(folder: str) -> None:
    """When 64 clients are there, the next is turned away, until one leaves. A client without a token can still send codes."""
    serving = serving_hall(folder, clients.book([BARE], have_tokens=False))
    guests = [greeted(folder) for _ in range(64)]
    parts = set()
    for guest in guests[1:9]:
        parts.add(logs_in(guest, BARE))
    equal(len(parts), 8, "how many different parts of the nonce the server has made for 8 clients", parts)
    away = connected(folder)
    equal([line_of(away), line_of(away)], ["BUSY", ""], "the 65th")
    answers(guests[0], "ABORT", "NO :")
    equal(line_of(guests[0]), "", "one that has left")
    last = greeted(folder)
    logs_in(last, BARE)
    for _ in range(2):
        answers(last, "CODE 755224", r"NOCODE \d+")
    serves_until(serving, signal.SIGTERM, folder, "clean sessions=65 accepted=9 codes=0")


def a_hall_that_halts(folder: str) -> None:
    """If a code can't be saved, its client is sent HALT, unless it has gone, and the program ends. Its log is still clean."""
    for trial, is_gone in each([False, True]):
        with trial:
            place = within(folder, is_gone)
            serving = serving_hall(place, clients.book([USER]))
            client, other = greeted(place), greeted(place)
            logs_in(client, USER)
            Path(place, "book.toml.new").mkdir()
            with serving.stopped():
                client.sendall(f"CODE {USER.code(0)}\n".encode())
                if is_gone:
                    client.close()
            if not is_gone:
                equal([line_of(client), line_of(client)], ["HALT", ""], "the code's client")
            equal(line_of(other), "", "another client")
            faults = ["scramotp: cannot write book.toml", "serve-hall: the book can't be saved"]
            status, _, told = serving.end()
            equal((status, sorted(told.splitlines())), (1, faults), f"the end of the tool; the client has gone: {is_gone}")
            holds(not Path(place, "hall.sock").exists(), "the socket is left")
            does(place, "scramotp audit --book hall.log.toml --log hall.log", printed="clean sessions=2 accepted=1 codes=0\n")


def a_log_that_cannot_be_written(folder: str) -> None:
    """No client is sent a line that the log does not have whole. The program ends, and says why."""
    serving = serving_hall(folder, BOOK_OF_USER)
    greeted(folder).close()
    log = Path(folder, "hall.log")
    until(lambda: log.read_text().endswith("1 E\n"), "the first session should end")
    most = log.stat().st_size + 4
    resource.prlimit(serving.process.pid, resource.RLIMIT_FSIZE, (most, most))
    equal(line_of(connected(folder)), "", "what a client is sent whose greeting the log lacks")
    serving.ends(1, "", "serve-hall: the log can't be written: File too large\n")
    equal(log.stat().st_size, most, "the size of the log")


def a_hall_that_is_killed(folder: str) -> None:
    """If the hall ends while nothing happens, the program ends at the next event, and says why."""
    serving = serving_hall(folder, BOOK_OF_USER)
    client = greeted(folder)
    [hall] = children(serving)
    os.kill(int(hall), signal.SIGKILL)
    until(lambda: Path(f"/proc/{hall}/stat").read_text().rpartition(") ")[2].startswith("Z"), "the hall should end")
    equal(line_of(connected(folder)), "", "a client that comes then")
    equal(line_of(client), "", "the client that was there")
    serving.ends(1, "", "serve-hall: the hall has ended\n")
    holds(not Path(folder, "hall.sock").exists(), "the socket is left")


def a_slow_client(folder: str) -> None:
    """A client that sends byte after byte but no whole line is cut off; here after PATIENCE seconds, by a copy of the tool. One that sends
    whole lines is served before and after that."""
    text = (TOOLS / "serve-hall").read_text(encoding="utf-8")
    equal(text.count("\nPATIENCE = 60 "), 1, "the seconds that it waits")
    written(Path(folder, "quick"), text.replace("\nPATIENCE = 60 ", f"\nPATIENCE = {PATIENCE} "), 0o755)
    serving = serving_hall(folder, clients.book([BARE], have_tokens=False), "./quick")
    busy = greeted(folder)
    logs_in(busy, BARE)
    began = said = time.monotonic()
    slow = greeted(folder)
    slow.settimeout(0.02)

    def is_cut_off() -> bool:
        nonlocal said
        if time.monotonic() > said + 1:
            answers(busy, "CODE 755224", r"NOCODE \d+")
            said = time.monotonic()
        try:
            slow.sendall(b"x")
            return slow.recv(1) == b""
        except TimeoutError:
            return False
        except OSError:
            return True

    until(is_cut_off, "a client that sends no whole line should be cut off")
    waited = time.monotonic() - began
    holds(waited >= PATIENCE, "the client was cut off too early, after seconds", waited)
    answers(busy, "CODE 755224", r"NOCODE \d+")
    serves_until(serving, signal.SIGINT, folder, "clean sessions=2 accepted=1 codes=0")


def a_client_that_does_not_read(folder: str) -> None:
    """The session of a client that goes on sending codes, and reads no answer, ends once the machine keeps no more answers for it. The
    tool waits for it at no time: before that and after it, another client is served."""
    serving = serving_hall(folder, clients.book([BARE], have_tokens=False))
    deaf, other = greeted(folder), greeted(folder)
    for client in deaf, other:
        logs_in(client, BARE)
    sent = 0

    def is_cut_off() -> bool:
        nonlocal sent
        try:
            deaf.sendall(b"CODE 755224\n" * 20)
        except (BrokenPipeError, ConnectionResetError):
            return True
        sent += 1
        other.sendall(b"CODE 755224\n")
        told = line_of(other)
        holds(told != NOTHING, "another client gets no answer while one does not read", sent)
        holds(told.startswith("NOCODE "), "another client gets another answer while one does not read", sent, told)
        return False

    until(is_cut_off, "a client that does not read should be cut off")
    holds(sent > 3, "the client was cut off before many answers were kept for it", sent)
    answers(other, "CODE 755224", r"NOCODE \d+")
    serves_until(serving, signal.SIGINT, folder, "clean sessions=2 accepted=2 codes=0")


def a_client_that_ends_no_line(folder: str) -> None:
    """While a client sends 16 MB without the end of a line, another logs in. The tool keeps only the beginning of that line. At its end the
    session is over, as after any line that is too long."""
    serving = serving_hall(folder, clients.book([USER]))
    endless, other = greeted(folder), greeted(folder)
    endless.settimeout(LIMIT)
    begins_login(other, USER)
    with ThreadPoolExecutor(1) as pool:
        sending = pool.submit(endless.sendall, b"x" * (16 << 20))
        goes_on(other, USER)
        fault = sending.exception()
    holds(fault is None, "the tool does not take 16 MB of one line", fault)
    answers(other, f"CODE {USER.code(0)}", r"PASS \d+ 0")
    [most] = re.findall(r"^VmHWM:\s+(\d+) kB$", Path(f"/proc/{serving.process.pid}/status").read_text(), re.M)
    holds(int(most) < 40 << 10, "the kilobytes of memory that the tool has taken, after 16 MB of one line", most)
    endless.sendall(b"\n")
    equal([line_of(endless), line_of(endless)], ["NO :", ""], "the end of the line")
    holds(max(map(len, Path(folder, "hall.log").read_bytes().split(b"\n"))) < 6400, "a line of the log is too long")
    serves_until(serving, signal.SIGINT, folder, "clean sessions=2 accepted=1 codes=1")


def begins_no_hall(folder: str, name: str) -> None:
    """The tool says that this file is there already, and leaves everything as it was."""
    book = Path(folder, "book.toml")
    before = seen(book), {*os.listdir(folder), "bin"}
    run = start(folder, START)
    with socket.socket(socket.AF_UNIX) as client:
        until(lambda: run.process.poll() is not None or connects(client, folder), "the tool should end")
    holds(run.process.poll() is not None, f"a hall begins, although {name} is there")
    run.ends(1, "", f"serve-hall: {name} already exists\n")
    equal((seen(book), set(os.listdir(folder))), before, name)


def a_log_that_is_there(folder: str) -> None:
    """A log that is there already, the copy of its book, or the file of its clients, stays as it is. So does a link that has one of these
    names."""
    with_tools(folder, BOOK_OF_USER)
    for trial, (name, is_link) in each(itertools.product(["hall.log", "hall.log.toml", "hall.log.clients"], [False, True])):
        with trial:
            file, other = Path(folder, name), Path(folder, "other")
            if is_link:
                file.symlink_to("other")
            (other if is_link else file).write_text("another\n")
            begins_no_hall(folder, name)
            equal(file.read_text(), "another\n", name)
            file.unlink()
            other.unlink(missing_ok=True)


def a_copy_that_is_the_book(folder: str) -> None:
    """A log by whose name the copy of the book would take the book's place is refused, and the book stays as it was."""
    book = with_tools(folder, BOOK_OF_USER)
    Path(folder, "link").symlink_to("book.toml")
    before = seen(book), set(os.listdir(folder))
    for trial, name in each(["book.toml", "link"]):
        with trial:
            answer = ran(folder, f"tools/serve-hall {name} hall.sock book")
            equal(answer, (1, "", "serve-hall: book.toml already exists\n"), name)
            equal((seen(book), set(os.listdir(folder)) - {"bin"}), before, name)


def a_socket_that_is_left(folder: str) -> None:
    """A run that is killed leaves its socket, a log that is cut, and the copy of the book by which that can be audited. Another run can
    serve there once the socket is removed."""
    serving = serving_hall(folder, BOOK_OF_USER)
    client = greeted(folder)
    serving.killed()
    client.close()
    cut = ran(folder, "scramotp audit --book hall.log.toml --log hall.log")
    equal(cut, (1, "line 3: cut\n", ""), "the audit of the log of a run that was killed")
    for name in ["hall.log", "hall.log.toml", "hall.log.clients"]:
        Path(folder, name).unlink()
    begins_no_hall(folder, "hall.sock")
    Path(folder, "hall.sock").unlink()
    serving = serving_hall(folder, BOOK_OF_USER)
    greeted(folder)
    serves_until(serving, signal.SIGINT, folder, "clean sessions=1 accepted=0 codes=0")


def signals_to_all(folder: str) -> None:
    """Ctrl-C, and the end of a terminal, reach the hall's process group too. The tool then still ends each session, and ends well. Under
    `nohup` it goes on after HUP."""
    for trial, (number, wrapper) in each([(signal.SIGINT, ""), (signal.SIGHUP, ""), (signal.SIGHUP, "nohup")]):
        with trial:
            place = within(folder, f"{number}{wrapper}")
            with_tools(place, BOOK_OF_USER)
            serving = start(place, START.replace("exec tools/", f"exec setsid {wrapper} tools/"))
            greeted(place)
            os.killpg(serving.process.pid, number)
            if wrapper:
                greeted(place)
            status, _, faults = serving.end(by=signal.SIGTERM if wrapper else 0)
            equal((status == 0, faults.replace("nohup: ignoring input\n", "")), (True, ""), number, wrapper)
            clean = f"clean sessions={1 + bool(wrapper)} accepted=0 codes=0\n"
            does(place, "scramotp audit --book hall.log.toml --log hall.log", printed=clean)
            holds(not Path(place, "hall.sock").exists(), "the socket is left")


def modes_of_its_files(folder: str) -> None:
    """Whatever the umask is, only the user can read the log, the copy of the book and the file of the clients. The socket has the mode that
    the umask leaves."""
    with_tools(folder, BOOK_OF_USER).chmod(0o644)
    serving = start(folder, START.replace("umask 077", "umask 007"))
    greeted(folder).close()
    due = {"hall.sock": 0o770, "hall.log": 0o600, "hall.log.toml": 0o600, "hall.log.clients": 0o600}
    equal({name: mode_of(Path(folder, name)) for name in due}, due, "the modes of the files")
    serves_until(serving, signal.SIGINT, folder, "clean sessions=1 accepted=0 codes=0")


def a_socket_that_is_replaced(folder: str) -> None:
    """If the socket is gone at the end of the tool, nothing is said of it. A file that has its name by then stays."""
    for trial, is_replaced in each([False, True]):
        with trial:
            place = within(folder, is_replaced)
            serving = serving_hall(place, BOOK_OF_USER)
            greeted(place).close()
            file = Path(place, "hall.sock")
            file.unlink()
            if is_replaced:
                file.write_text("another\n")
            serves_until(serving, signal.SIGTERM, place, "clean sessions=1 accepted=0 codes=0")
            equal(file.exists(), is_replaced, "whether a file has the socket's name at the end")


def leaves_nothing(folder: str | Path) -> None:
    """Checks that neither the socket nor the log nor the copy of the book is left to prevent the next start."""
    equal([name for name in os.listdir(folder) if name.startswith("hall")], [], "what is left")


def a_stop_before_the_hall_begins(folder: str) -> None:
    """If a signal comes before the hall has begun, as while that waits for the book, the tool says so, ends the hall, and leaves nothing.
    Here a stand-in for the program begins no log."""
    with_tools(folder, BOOK_OF_USER)
    script(within(folder, "waiting") / "scramotp", "cat\necho the hall goes on >&2")
    for trial, number in each([signal.SIGINT, signal.SIGTERM]):
        with trial:
            serving = start(folder, START.replace("exec tools/", 'exec env PATH="$PWD/waiting:$PATH" tools/'))
            until(lambda: serving.process.poll() is not None or children(serving), "the tool should start the hall")
            serving.ends(1, "", "serve-hall: stopped before the hall began\n", by=number)
            leaves_nothing(folder)


def a_hall_that_does_not_begin(folder: str) -> None:
    """If the hall does not begin, the tool says so, and leaves nothing: the book is bad, the copy can't be made, or there is no program."""
    with_tools(folder, "no book\n")
    equal(ran(folder, SERVE), (1, "", "scramotp: bad book: 60\nserve-hall: the hall did not start\n"), "a bad book")
    leaves_nothing(folder)
    with_tools(folder, BOOK_OF_USER)
    copy = Path(folder, "hall.log.toml")
    copy.mkdir()
    equal(ran(folder, SERVE), (1, "", "serve-hall: hall.log.toml already exists\n"), "a folder in the place of the copy")
    copy.rmdir()
    leaves_nothing(folder)
    nowhere = ran(folder, SERVE.replace("hall.sock", "none/hall.sock"))
    equal(nowhere, (1, "", "serve-hall: none/hall.sock: [Errno 2] No such file or directory\n"), "a socket in no folder")
    leaves_nothing(folder)
    # A folder for the PATH that has only Python
    (within(folder, "only") / "python3").symlink_to(sys.executable)
    missing = ran(folder, START.replace("exec tools/", "exec env PATH=only tools/"))
    equal(missing, (1, "", "serve-hall: [Errno 2] No such file or directory: 'scramotp'\n"), "no program")
    leaves_nothing(folder)


suite.run_all()
