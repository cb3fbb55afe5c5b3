"""Mail servers as a door of hosts/ knows them: what Postfix, Exim and Dovecot say to it by Dovecot's authentication protocol. Also how a
door is started, what its journal says, and the audit of the logs that it leaves; and Postfix itself."""
import contextlib
import os
import re
import shutil
import signal
import socket
import subprocess
from base64 import b64decode, b64encode
from collections.abc import Iterator
from pathlib import Path

import processes
from checks import equal, holds
from clients import Account
from processes import Running, ran, until
from suite import PROGRAM, TOP, program_on_path, written

# The lines with which a door greets a server, without those that differ each time.
GREETING = ["VERSION\t1\t2", "MECH\tSCRAM-SHA-256\tmutual-auth", "MECH\tSCRAM-SHA-1\tmutual-auth"]
# The settings that Postfix sends with each login.
SETTINGS = "service=smtp\tnologin\tlip=127.0.0.1\trip=127.0.0.1"
SECONDS = 20


class Door:
    """A door that serves in a folder: its book, its socket, its folder of logs, and its journal."""

    def __init__(self, folder: str | Path, book: str, *flags: str) -> None:
        self.folder = Path(folder)
        self.socket, self.logs, self.journal = (self.folder / name for name in ["auth", "logs", "journal"])
        written(self.folder / "book.toml", book)
        self.logs.mkdir(exist_ok=True)
        self.start(*flags)

    def start(self, *flags: str) -> None:
        """Starts the program, whose journal goes on in the same file, and waits until it serves or has ended."""
        words = [TOP / "hosts" / "serve-dovecot-auth", self.folder / "book.toml", self.socket, self.logs, "--delay", "0.05", *flags]
        before = len(self.notes("ready"))
        # The journal goes through a pipe, so that a limit of the size of files is not one of the journal.
        with open(self.journal, "ab") as journal:
            self.sink = subprocess.Popen(["cat"], stdin=subprocess.PIPE, stdout=journal)
        self.run = Running(words, stderr=self.sink.stdin, env=program_on_path(self.folder))
        self.sink.stdin.close()
        is_ready = lambda: self.run.process.poll() is not None or len(self.notes("ready")) > before
        until(is_ready, "a door should be ready")

    @contextlib.contextmanager
    def served(self) -> Iterator["Door"]:
        """The door, which is ended by TERM at the end of the context."""
        yield self
        self.stops()

    def renews(self) -> None:
        """Has the door begin a new log."""
        self.run.process.send_signal(signal.SIGHUP)

    def stops(self) -> None:
        """Ends the door by TERM. It has to end well."""
        self.run.process.terminate()
        equal(self.status(), 0, "the status of a door", self.journal.read_text()[-2000:])

    def notes(self, event: str) -> list[str]:
        """The lines of the journal for such an event."""
        text = self.journal.read_text() if self.journal.exists() else ""
        return [line for line in text.splitlines() if line.startswith(f"event={event} ") or line == f"event={event}"]

    def outcomes(self) -> list[str]:
        """What came of each login, by the journal."""
        return [re.search(r"outcome=(\w+)", line)[1] for line in self.notes("login")]

    def ends(self, accepted: int) -> None:
        """Ends the door by TERM. It has to end well, with each log clean and so many logins accepted."""
        self.stops()
        holds(not self.socket.exists(), "the socket is left")
        equal(sum(self.audits()), accepted, "the accepted logins")

    def kills_hall(self) -> None:
        """Kills the hall behind the door."""
        [hall] = Path(f"/proc/{self.run.process.pid}/task/{self.run.process.pid}/children").read_text().split()
        os.kill(int(hall), signal.SIGKILL)

    def status(self) -> int:
        """Waits for the end of the door and of its journal. Returns the status of the door."""
        status = self.run.end().status
        self.sink.wait(SECONDS)
        return status

    def audits(self) -> list[int]:
        """How many logins are accepted in each log. Each has to be clean, by an audit here and by the one in the journal."""
        found, noted = [], self.notes("audit")
        for log in sorted(self.logs.glob("*.log")):
            printed = processes.ran([PROGRAM, "audit", "--book", f"{log}.toml", "--log", log]).output
            counts = re.fullmatch(r"clean sessions=\d+ accepted=(\d+) codes=\d+\n", printed)
            holds(counts, "a log is not clean", printed)
            due = f'event=audit log={log} answer="{printed.strip()}"'
            holds(due in noted, "the journal does not have the audit", due, noted)
            found.append(int(counts[1]))
        return found


class Server:
    """A mail server that has connected to a door."""

    def __init__(self, door: Door | Path) -> None:
        self.connection = socket.socket(socket.AF_UNIX)
        self.connection.settimeout(SECONDS)
        self.connection.connect(str(door.socket if isinstance(door, Door) else door))
        self.lines = self.connection.makefile("rb")
        self.greeting = self.line_s("DONE")

    def __enter__(self) -> "Server":
        self.send("VERSION\t1\t0", f"CPID\t{os.getpid()}")
        return self

    def __exit__(self, *_: object) -> None:
        self.close()

    def close(self) -> None:
        self.lines.close()
        self.connection.close()

    def line(self) -> str:
        """The next line, without its LF, or an empty text if the connection is closed."""
        with contextlib.suppress(ConnectionResetError):
            return self.lines.readline().decode().removesuffix("\n")
        return ""

    def line_s(self, last: str) -> list[str]:
        """The next lines, up to this one."""
        found = [self.line()]
        while found[-1] != last:
            holds(found[-1], "the greeting ends early", found)
            found.append(self.line())
        return found

    def send(self, *lines: str) -> None:
        self.connection.sendall("".join(f"{line}\n" for line in lines).encode("latin-1"))

    def auth(self, ident: int, mechanism: str, message: bytes | None = None, settings: str = SETTINGS) -> None:
        """A client begins a login."""
        first = "" if message is None else f"\tresp={b64encode(message).decode()}"
        self.send(f"AUTH\t{ident}\t{mechanism}\t{settings}{first}")

    def respond(self, ident: int, message: bytes) -> None:
        """A client responds to a challenge. Without a message the line ends with a tab, as Postfix has it."""
        self.send(f"CONT\t{ident}\t{b64encode(message).decode()}")

    def challenge(self, ident: int) -> bytes:
        """The next line, which has to be a challenge for this login."""
        line = self.line()
        words = line.split("\t")
        equal(words[:2], ["CONT", str(ident)], "the line that is due", line)
        return b64decode(words[2])

    def begin(self, ident: int, account: Account, settings: str = SETTINGS) -> None:
        self.auth(ident, account.mechanism, account.first.encode(), settings)

    def goes_on(self, ident: int, account: Account, is_wrong: bool = False) -> str:
        """Takes the challenge, proves the password, or fails to, and checks the server. Returns the last line."""
        it = account.answers(self.challenge(ident).decode())
        self.respond(ident, (it.wrong_final if is_wrong else it.final).encode())
        if is_wrong:
            return self.line()
        equal(self.challenge(ident), f"v={it.signature}".encode(), "the server's last message")
        self.respond(ident, b"")
        return self.line()

    def logs_in(self, ident: int, account: Account, is_wrong: bool = False) -> str:
        """A whole login."""
        self.begin(ident, account)
        return self.goes_on(ident, account, is_wrong)

    def is_cut_off(self) -> bool:
        """Whether the door closes the connection, after what it may still say."""
        try:
            while self.connection.recv(65536):
                pass
        except ConnectionResetError:
            pass
        except TimeoutError:
            return False
        return True


@contextlib.contextmanager
def door_of(folder: str | Path, book: str, accepted: int, *flags: str) -> Iterator[Door]:
    """A door that ends well at the end of the context, with so many logins accepted."""
    door = Door(folder, book, *flags)
    yield door
    door.ends(accepted)


@contextlib.contextmanager
def dovecot_auth(folder: str | Path, account: Account) -> Iterator[Path]:
    """Dovecot's own auth service, whose file of users has this account's keys for SCRAM-SHA-256. Gives the path of its socket. Needs root
    and Dovecot."""
    place = Path(folder)
    keys = ",".join(["4096", *(b64encode(it).decode() for it in [account.salt, account.stored, account.server])])
    (place / "users").write_text(f"{account.name}:{{SCRAM-SHA-256}}{keys}::::::\n")
    (place / "conf").write_text(f"""base_dir = {place}/run
state_dir = {place}/state
log_path = {place}/log
protocols =
ssl = no
auth_failure_delay = 0
auth_mechanisms = scram-sha-256 plain login
passdb {{
  driver = passwd-file
  args = {place}/users
}}
userdb {{
  driver = static
  args = uid=nobody gid=nogroup home=/
}}
service auth {{
  unix_listener client {{
    mode = 0666
  }}
}}
""")
    place.chmod(0o755)
    (place / "users").chmod(0o644)
    run = subprocess.Popen(["/usr/sbin/dovecot", "-F", "-c", place / "conf"])
    try:
        with socket.socket(socket.AF_UNIX) as client:
            until(lambda: client.connect_ex(str(place / "run/client")) == 0, "Dovecot's auth service should listen")
        yield place / "run/client"
    finally:
        run.terminate()
        run.wait(SECONDS)


# ---- Postfix itself

# What smtpd needs to take a mail.
MASTER = """postlog unix-dgram n - n - 1 postlogd
cleanup unix n - n - 0 cleanup
qmgr unix n - n 300 1 qmgr
rewrite unix - - n - - trivial-rewrite
bounce unix - - n - 0 bounce
defer unix - - n - 0 bounce
trace unix - - n - 0 bounce
discard unix - - n - - discard
anvil unix - - n - 1 anvil
tlsmgr unix - - n 1000? 1 tlsmgr
"""


def free_port() -> int:
    """A port of the loopback at which nobody listens."""
    with socket.socket() as found:
        found.bind(("127.0.0.1", 0))
        return found.getsockname()[1]


def listens(port: int) -> bool:
    """Whether a server listens at a port."""
    with contextlib.suppress(OSError), socket.create_connection(("127.0.0.1", port), 1):
        return True
    return False


@contextlib.contextmanager
def postfix(folder: str, settings: str, services: str = "") -> Iterator[int]:
    """Postfix, with these settings and more lines for its master.cf, from a folder of its own. Gives its port."""
    place, port = Path(folder, "postfix"), free_port()
    for name in ["", "queue", "data"]:
        (place / name).mkdir(exist_ok=True)
        (place / name).chmod(0o755)
    shutil.chown(place / "data", "postfix")
    own = f"""compatibility_level = 3.6
queue_directory = {place}/queue
data_directory = {place}/data
maillog_file_prefixes = {place}
maillog_file = {place}/log
inet_interfaces = 127.0.0.1
inet_protocols = ipv4
myhostname = localhost
mydestination =
local_recipient_maps =
alias_maps =
default_transport = discard:
smtpd_relay_restrictions = permit_sasl_authenticated, reject
smtpd_client_connection_count_limit = 0
smtpd_client_connection_rate_limit = 0
"""
    (place / "main.cf").write_text(own + settings)
    (place / "master.cf").write_text(f"127.0.0.1:{port} inet n - n - - smtpd\n{services}{MASTER}")
    equal(ran(["/usr/sbin/postfix", "-c", place, "start"]).status, 0, "the start of Postfix")
    try:
        until(lambda: listens(port), "Postfix should listen")
        yield port
    finally:
        ran(["/usr/sbin/postfix", "-c", place, "stop"])
