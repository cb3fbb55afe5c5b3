"""What several scripts share: the account `user` with RFC 4226's secret, a folder with a book, the program on the PATH, the user nobody,
the words of a login, questions about books, locks and logs, and the run of all tests or of some."""
import contextlib
import fcntl
import functools
import inspect
import os
import pathlib
import pwd
import random
import re
import signal
import stat
import sys
import tempfile
import tomllib
import traceback
from collections.abc import Callable, Iterable, Iterator
from typing import Any, NoReturn

import checks
import expected
import needs
import processes
from checks import equal, fail, holds
from limits import limit
from processes import ran

if len(sys.argv) < 2:
    sys.exit(f"usage: {os.path.basename(sys.argv[0])} PROGRAM [TEST ..]")
PROGRAM = os.path.abspath(sys.argv[1])
TOP = pathlib.Path(__file__).resolve().parent.parent

# Which runs a test kills, which orders it tries, and what input it makes, follow from this number and from the test's name: the same in
# every run, unless SEED=N in the environment gives another.
SEED = int(os.environ.get("SEED") or 1)

# The most seconds that a test may take. After that it fails.
LIMIT_OF_TEST = limit(900)

# A folder whose files are in memory, where saves take no time, or None on a system that has none.
MEMORY = "/dev/shm" if os.path.isdir("/dev/shm") else None

# Whether root runs the script.
ROOT = os.geteuid() == 0


@functools.cache
def nobody() -> pwd.struct_passwd:
    """The user nobody, as which root runs the program in tests of permissions."""
    return pwd.getpwnam("nobody")


def as_nobody() -> dict[str, Any]:
    """How root runs the program as the user nobody. Any other user runs it as that user."""
    return {"user": nobody().pw_uid, "group": nobody().pw_gid, "extra_groups": []} if ROOT else {}


@functools.cache
def not_tested(what: str) -> None:
    """Says, once, what this machine can't test, and why. run.py and planted.py look for such lines."""
    print(f"{os.path.basename(sys.argv[0])}: not tested: {what}", file=sys.stderr)


def has(what: str, *needed: str, root: bool = False) -> bool:
    """Whether these commands and files are there, and root runs the script if only root can test it. If not, the script says what it does
    not test, and why."""
    missing = [needs.told(it) for it in needs.lacking(needed)] + ["root does not run this"] * (root and not ROOT)
    if missing:
        not_tested(f"{what}, since {' and '.join(missing)}")
    return not missing


def is_root() -> bool:
    """Whether root runs the script. If not, what only root can test is left out, and the script says so."""
    if not ROOT:
        not_tested("other users and groups, since root does not run this")
    return ROOT


# The secret and the codes of RFC 4226, appendix D.
SECRET = "3132333435363738393031323334353637383930"
CODES = ["755224", "287082", "359152", "969429", "338314", "254676", "287922", "162583", "399871", "520489"]

# The seeds in the program of RFC 6238, appendix A, with 20, 32 and 64 bytes. Appendix B has their codes, but names only the first seed.
SEEDS = {"sha1": SECRET, "sha256": SECRET + SECRET[:24], "sha512": SECRET * 3 + SECRET[:8]}

# RFC 5802, section 5: the salt and the nonces; the password is `pencil`, and the count 4096. The keys were computed with Python's
# hashlib, since the RFC prints only the proof and the signature that they make.
SALT = "4125c247e43ab1e93c6dff76"
KEYS_OF_PENCIL = "stored=e9d94660c39d65c38fbad91c358f14da0eef2bd6\nserver=0fe09258b3ac852ba502cc62ba903eaacdbf7d31\n"
NONCES = ["--client-nonce", "fyko+d2lbbFgONRv9qkxdawL", "--server-nonce", "3rfcNHYJY1ZVvWVs7j"]
# The options with which `login` has the messages of that example.
PUBLISHED = ["--mechanism", "SCRAM-SHA-1", *NONCES]

# The most bytes of a book, and of the input that a command reads.
MOST_BYTES = 16777216

BOOK_OF_USER = """format = 1
decoy_key = "000102030405060708090a0b0c0d0e0f101112131415161718191a1b1c1d1e1f"
decoy_count = 4096

[accounts.user]
"""


def hotp(look_ahead: int, limit: int, sync_ahead: int | None = None, name: str = "user", failures: int = 0) -> str:
    """A HOTP token with that secret, for a name as TOML writes it; without the key `sync_ahead` if that is None."""
    sync = "" if sync_ahead is None else f"sync_ahead = {sync_ahead}\n"
    return f"""
[accounts.{name}.token]
kind = "hotp"
secret = "{SECRET}"
digits = 6
next = 0
look_ahead = {look_ahead}
{sync}limit = {limit}
failures = {failures}
"""


def totp(limit: int, function: str = "sha1") -> str:
    """A TOTP token for `user`, with RFC 6238's seed for this hash function."""
    return f"""
[accounts.user.token]
kind = "totp"
hash = "{function}"
secret = "{SEEDS[function]}"
digits = 8
t0 = 0
step = 30
back = 0
ahead = 1
max_drift = 1
drift = 0
limit = {limit}
failures = 0
"""


def code(counter: int) -> str:
    """The code of that secret for a counter."""
    return expected.code(bytes.fromhex(SECRET), counter)


def read_book(path: str | pathlib.Path) -> dict[str, Any]:
    """What a book states, as tomllib reads it."""
    with open(path, "rb") as file:
        return tomllib.load(file)


def token(path: str | pathlib.Path, name: str = "user") -> dict[str, Any]:
    """The token of an account."""
    return read_book(path)["accounts"][name]["token"]


def seen(path: str | pathlib.Path) -> tuple:
    """A value that changes when a name gets another file, or its file is written or gets another owner, group or mode."""
    found = os.lstat(path)
    with open(path, "rb") as file:
        return found.st_ino, found.st_mode, found.st_uid, found.st_gid, found.st_mtime_ns, found.st_ctime_ns, file.read()


def program_on_path(folder: str | pathlib.Path, **more: Any) -> dict[str, str]:
    """The environment, with these variables, of a run that finds the program on the PATH, through a link in this folder's folder `bin`."""
    commands = pathlib.Path(folder, "bin")
    commands.mkdir(exist_ok=True)
    # Runs that begin at the same time share the link.
    with contextlib.suppress(FileExistsError):
        os.symlink(PROGRAM, commands / "scramotp")
    return {**os.environ, "PATH": f"{commands}:{os.environ['PATH']}", **more}


def within(folder: str | pathlib.Path, name: object) -> pathlib.Path:
    """A new folder of this name in another one."""
    made = pathlib.Path(folder, str(name))
    made.mkdir()
    return made


def written(path: str | pathlib.Path, text: str, mode: int = 0o600) -> pathlib.Path:
    """Writes a file, which only its owner can read unless it is given another mode."""
    path = pathlib.Path(path)
    path.write_text(text)
    path.chmod(mode)
    return path


def script(path: str | pathlib.Path, text: str) -> pathlib.Path:
    """Writes a script of sh that anyone can run."""
    return written(path, f"#!/bin/sh\n{text}\n", 0o755)


def mode_of(path: str | pathlib.Path) -> int:
    """The permissions of a file."""
    return stat.S_IMODE(os.lstat(path).st_mode)


def fault_text(fault: str) -> str:
    """The text on standard error for a fault, which is given without its prefix, or for no fault."""
    return f"scramotp: {fault}\n" if fault else ""


def is_locked(path: str | pathlib.Path) -> bool:
    """Whether another process holds the lock of a file."""
    with open(path, "rb") as file:
        try:
            fcntl.flock(file, fcntl.LOCK_EX | fcntl.LOCK_NB)
        except BlockingIOError:
            return True
    return False


def is_awaited(path: str | pathlib.Path) -> bool:
    """Whether a process waits for the lock of a file, which another one holds."""
    locks = pathlib.Path("/proc/locks").read_text().splitlines()
    return any(" -> " in it and it.split()[-3].endswith(f":{os.stat(path).st_ino}") for it in locks)


def prints(words: list, data: str | bytes, status: int, output: str = "", fault: str = "", *about: Any) -> str:
    """Runs a command with this input, and compares its status, its output and its fault, which is given without its prefix. Returns what
    was printed."""
    answer = ran(words, data)
    equal(answer, (status, output, fault_text(fault)), *about)
    return answer.output


def enrols(book: str | pathlib.Path, name: str, password: str = "pencil", *more: str) -> None:
    """Adds an account to a book, which is made if there is none."""
    prints([PROGRAM, "enrol", "--book", book, f"--name={name}", *more], password, 0, f"enrolled {name}\n")


def verify_words(book: str | pathlib.Path, moment: str = "5") -> list:
    """The words of `verify` for a book."""
    return [PROGRAM, "verify", "--book", book, "--name", "user", "--moment", moment]


def login_words(book: str | pathlib.Path, socket: str | pathlib.Path, *more: str | pathlib.Path, name: str = "user") -> list:
    """The words of `login` for a book and a socket's path."""
    return [PROGRAM, "login", "--book", book, "--name", name, "--socket", socket, *more]


def begins_clean(book: str | pathlib.Path, log: str) -> bool:
    """Whether no line of a log, which may be cut, is at fault by the book that it began with."""
    answer = ran([PROGRAM, "audit", "--book", book, "--log", "/dev/stdin"], log)
    is_clean = re.fullmatch(r"clean sessions=\d+ accepted=\d+ codes=\d+\n", answer.output) and (answer.status, answer.faults) == (0, "")
    return bool(is_clean) or answer == (1, f"line {log.count(chr(10)) + 1}: cut\n", "")


def audit_says(book: str | pathlib.Path, log: str | pathlib.Path, answer: str, *about: Any, text: str | bytes = "") -> None:
    """Runs an audit of a file, or of a text on standard input. Compares its answer and the status for it; no fault may be reported."""
    status = 0 if answer.startswith("clean ") else 3 if answer == "read fault" else 1
    equal(ran([PROGRAM, "audit", "--book", book, "--log", log], text), (status, f"{answer}\n", ""), *about)


class BookFolder:
    """A folder with a book that runs of the program use, and the text of the book as it was before them."""

    def __init__(self, folder: str | pathlib.Path, *texts: str) -> None:
        self.folder = pathlib.Path(folder)
        self.book, self.next_text, self.socket = (self.folder / name for name in ["book", "book.new", "socket"])
        self.put(*texts)

    def put(self, *texts: str) -> None:
        """Makes the book of these texts, one after another."""
        self.before = "".join(texts)
        self.book.write_text(self.before)

    def verifies(self, text: str, status: int, printed: str, fault: str = "", moment: str = "5") -> None:
        """Gives `verify` these lines at a moment, and compares its status, output and fault."""
        prints(verify_words(self.book, moment), text, status, printed, fault)

    def tokens_are(self, due: dict[str, tuple[int, int]], *about: Any) -> None:
        """Compares the next counter and the failures of each account."""
        tokens = {name: it["token"] for name, it in read_book(self.book)["accounts"].items()}
        equal({name: (it["next"], it["failures"]) for name, it in tokens.items()}, due, "the tokens of the accounts", *about)

    def token(self, name: str = "user") -> dict[str, Any]:
        """The token of an account."""
        return token(self.book, name)

    def token_has(self, *about: Any, **fields: Any) -> None:
        """Compares these fields of the token of `user`."""
        found = self.token()
        equal({key: found.get(key) for key in fields}, fields, "the token of user", *about)

    def has_only(self, *names: str) -> None:
        """Checks that the folder has files of these names, and no other."""
        equal(sorted(os.listdir(self.folder)), sorted(names), "the files in the book's folder")

    def seen(self) -> tuple | None:
        """A value that changes when the book is written or replaced, or another file is left in its folder."""
        return (seen(self.book), sorted(os.listdir(self.folder))) if self.book.exists() else None

    @contextlib.contextmanager
    def book_before(self) -> Iterator[str]:
        """The path of a file with the text of the book as it was before the runs."""
        with tempfile.NamedTemporaryFile("w", suffix=".toml") as file:
            file.write(self.before)
            file.flush()
            yield file.name

    def audited(self, log: str, answer: str) -> None:
        """Compares the audit's answer to a log by the book that it began with."""
        with self.book_before() as book:
            audit_says(book, "/dev/stdin", answer, text=log)

    def begins_clean(self, log: str) -> None:
        """Checks that no line of a log, which may be cut, is at fault by the book that it began with."""
        with self.book_before() as book:
            holds(begins_clean(book, log), "a line of the log is at fault", log)


class TakesTooLong(Exception):
    """A test has taken longer than a test may. It ends the test, also where tables stand in tables."""


def called(row: Any) -> str:
    """How a row of a table is called where it fails: by the name that it has, or by those of its parts, or by the start of its text."""
    if name := getattr(row, "name", None) or getattr(row, "__name__", None):
        return str(name)
    return ", ".join(map(called, row)) if isinstance(row, tuple) else repr(row)[:80]


class Trial:
    """The check of one row of a table. A fault in it does not end the test, but is kept in `bad`. What the row has started is stopped."""

    def __init__(self, number: int, row: Any, bad: list[str]) -> None:
        self.number, self.row, self.bad = number, row, bad

    def __enter__(self) -> "Trial":
        return self

    def __exit__(self, _: Any, fault: BaseException | None, calls: Any) -> bool:
        if not isinstance(fault, Exception):
            return False
        why = f"row {self.number}, {called(self.row)}: line {calls.tb_lineno}: {type(fault).__name__}: {fault}\n"
        # The last run is shown for the first row only.
        self.bad.append(why if self.bad else why + processes.last())
        processes.forget_runs()
        if isinstance(fault, TakesTooLong):
            raise TakesTooLong(rows_text(self.bad))
        return True


def each(rows: Iterable) -> Iterator[tuple[Trial, Any]]:
    """Each row of a table after the context in which it is checked, as in `for trial, row in each(rows):` and then `with trial:`. All rows
    are checked, and then the test fails if one of them did, and names each that did. The loop may end only at its last row, as
    documents.py checks."""
    number, bad = 0, []
    try:
        for number, row in enumerate(rows, 1):
            yield Trial(number, row, bad), row
    except Exception as fault:
        bad.append(f"what comes after row {number}: {type(fault).__name__}: {fault}\n{processes.last()}")
        if isinstance(fault, TakesTooLong):
            raise TakesTooLong(rows_text(bad)) from fault
    holds(number, "the table has no rows")
    if bad:
        fail([], [rows_text(bad)])


def rows_text(bad: list[str]) -> str:
    """Which rows of a table have failed, and why."""
    return f"{len(bad)} of its rows fail\n" + "".join(bad).rstrip("\n")


def chosen() -> list[Callable]:
    """The tests of the script that the words after the program's path name, or all if there is no such word. A test is a function of the
    script with this signature. Exits if a word names no test."""
    functions = [it for it in vars(sys.modules["__main__"]).values() if inspect.isfunction(it) and it.__module__ == "__main__"]
    tests = [it for it in functions if str(inspect.signature(it)) == "(folder: str) -> None"]
    names = sys.argv[2:]
    for name in names:
        if not any(test.__name__ == name for test in tests):
            there = ", ".join(test.__name__ for test in tests)
            sys.exit(f"{os.path.basename(sys.argv[0])}: no test {name}; there are {there}")
    return [test for test in tests if not names or test.__name__ in names]


def end_test(_signal: int, _frame: Any) -> NoReturn:
    """Lets the test that runs fail where it is."""
    raise TakesTooLong(f"the test takes over {LIMIT_OF_TEST} seconds")


def run_all() -> NoReturn:
    """Runs each test of the script, or those that the command line names, in an empty folder of its own and from a seed of its own. Prints
    which fail, each with its last run, and how many pass, and exits, with status 1 if one fails. What a test has started does not outlive
    it."""
    tests, failed = chosen(), 0
    signal.signal(signal.SIGALRM, end_test)
    # A shell that starts this script in the background has it ignore INT, and nohup HUP. What a test starts would then ignore it too.
    signal.signal(signal.SIGINT, signal.default_int_handler)
    for number in signal.SIGHUP, signal.SIGTERM:
        signal.signal(number, signal.SIG_DFL)
    for test in tests:
        with tempfile.TemporaryDirectory() as folder:
            random.seed(f"{SEED} {test.__name__}")
            try:
                signal.alarm(LIMIT_OF_TEST)
                test(folder)
            except Exception as fault:
                failed += 1
                line = (fault.__traceback__.tb_next or fault.__traceback__).tb_lineno
                print(f"{test.__name__}: line {line}: {type(fault).__name__}: {fault}", file=sys.stderr)
                print(processes.last(), end="", file=sys.stderr)
                calls = [it for it in traceback.extract_tb(fault.__traceback__)[1:] if it.filename != checks.__file__]
                print("".join(traceback.format_list(calls)), end="", file=sys.stderr)
            finally:
                signal.alarm(0)
                processes.forget_runs()
    print(f"{os.path.basename(sys.argv[0])}: {len(tests) - failed} passed, {failed} failed", file=sys.stderr)
    if failed:
        print(f"{os.path.basename(sys.argv[0])}: SEED={SEED}", file=sys.stderr)
    sys.exit(failed != 0)
