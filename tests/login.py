#!/usr/bin/env python3
"""What the built program prints for logins over a socket, with which status it ends, and what it leaves. The program itself audits
most logs, by the book that the login began with."""
import os
import pathlib
import random
import re
import socket
import time

import suite
from checks import equal, holds
from expected import ACCEPTED, AUDITS, GONE, KEYS_TOML, SHA256_NONCES, base64_of, decoy_salt
from hall_support import clean
from processes import Running, ran
from suite import PROGRAM, PUBLISHED as SHA1, each, hotp, login_words, read_book


class Login(suite.BookFolder):
    """A folder with a book and a path for the socket, and logins there."""

    def __init__(self, folder: str, text: str = KEYS_TOML) -> None:
        super().__init__(folder, text)

    def words(self, *more: str | pathlib.Path, name: str = "user", path: str | pathlib.Path | None = None) -> list:
        return login_words(self.book, path or self.socket, *more, name=name)

    def log_of(self, words: list, text: str, status: int) -> str:
        """Runs a login, compares its status, checks that it reports no fault, and returns its log."""
        return ran(words, text).given("a login", status=status)

    def starts(self, *more: str) -> Running:
        """Starts RFC 5802's login, which prints its log up to the acceptance, and then waits for codes."""
        running = Running(self.words(*SHA1, *more), "pencil\n")
        running.prints(ACCEPTED)
        return running

    def has_no_socket(self) -> None:
        """Checks that the socket's file is gone."""
        holds(not os.path.lexists(self.socket), "the socket is left")

    def logs(self, words: list, text: str | bytes, status: int, log: str, fault: str = "") -> str:
        """Runs a login, compares its status, log and fault, and checks that the socket's file is gone. Returns the log that was printed."""
        printed = suite.prints(words, text, status, log, fault)
        self.has_no_socket()
        return printed

    def refuses(self, words: list, text: str | bytes, status: int, fault: str) -> None:
        """As `logs`, for a login that prints nothing; it has to leave the book unwritten."""
        seen = self.seen()
        self.logs(words, text, status, "", fault)
        equal(self.seen(), seen, f"the book and its folder after {words}")


def with_codes(limit: int = 3, sync_ahead: int | None = None) -> str:
    """The book of RFC 5802's user, with RFC 4226's token."""
    return KEYS_TOML + hotp(3, limit, sync_ahead)


def published_logins(folder: str) -> None:
    """The logins of RFC 5802 and RFC 7677, each with exactly the recorded log."""
    here = Login(folder)
    here.logs(here.words(*SHA1), "pencil", 0, ACCEPTED + GONE)
    equal(read_book(here.book), read_book(AUDITS / "keys.toml"), "what the book states")
    here.logs(here.words(*SHA1), "pencil\n", 0, ACCEPTED + GONE)
    here.put((AUDITS / "sha256.toml").read_text())
    for trial, more in each([[], ["--mechanism", "SCRAM-SHA-256"]]):
        with trial:
            here.logs(here.words(*SHA256_NONCES, *more), "pencil\n", 0, (AUDITS / "sha256.log").read_text())


def refused_logins(folder: str) -> None:
    """Another password, and a user without keys for the mechanism: no code is sent, and no fault is reported."""
    here = Login(folder, with_codes())
    log = here.log_of(here.words(*SHA1), "pencils\n755224\n", 1)
    holds(log.endswith("\nS NO :e=invalid-proof\nE\n"), "the login is not refused for its proof", log)
    equal(log.count("\n"), 7, log)
    here.audited(log, clean(1, 0, 0))
    log = here.log_of(here.words(), "pencil\n755224\n", 1)
    holds(log.splitlines()[2].startswith("C AUTH SCRAM-SHA-256 :n,,n=user,r="), "the client does not send its first message", log)
    holds(log.endswith("\nS NO :e=invalid-proof\nE\n"), "a login without keys is not refused for its proof", log)
    here.audited(log, clean(1, 0, 0))
    here.token_has(next=0)


def decoys(folder: str) -> None:
    """A name without an account always has the same salt of 16 bytes (HMAC-SHA-256 with the decoy key), and no proof is right."""
    here = Login(folder)
    salt = decoy_salt("nobody")
    for trial, password in each(["pencil", "other"]):
        with trial:
            log = here.log_of(here.words("--mechanism", "SCRAM-SHA-1", name="nobody"), password, 1)
            lines = log.splitlines()
            equal(len(lines), 7, lines)
            ends = f",s={base64_of(salt)},i=4096"
            holds(lines[3].endswith(ends), "the challenge does not have the decoy's salt", ends, lines)
            equal(lines[5:], ["S NO :e=invalid-proof", "E"], lines)
            here.audited(log, clean(1, 0, 0))


def names_to_act_as(folder: str) -> None:
    """Another name is refused after a right proof, unless the account may act as it."""
    here = Login(folder)
    words = here.words(*SHA1, "--as", "root")
    log = here.log_of(words, "pencil\n", 1)
    lines = log.splitlines()
    equal(lines[2], "C AUTH SCRAM-SHA-1 :n,a=root,n=user,r=fyko+d2lbbFgONRv9qkxdawL", lines)
    begins = "C RESP :c=bixhPXJvb3Qs,r=fyko+d2lbbFgONRv9qkxdawL3rfcNHYJY1ZVvWVs7j,p="
    holds(lines[4].startswith(begins), "the client-final message does not begin with", begins, lines)
    equal(lines[5:], ["S NO :e=other-error", "E"], lines)
    here.audited(log, clean(1, 0, 0))
    here.put(KEYS_TOML.replace("act_as = []", 'act_as = ["root"]'))
    log = here.log_of(words, "pencil\n", 0)
    holds(log.splitlines()[5].startswith("S OK :v="), "the login is not accepted", log)
    here.audited(log, clean(1, 1, 0))
    here.put(KEYS_TOML)
    here.logs(here.words(*SHA1), "pencil\n", 0, ACCEPTED + GONE)
    log = here.log_of(here.words(*SHA1, "--as", "user"), "pencil\n", 0)
    holds("\nC AUTH SCRAM-SHA-1 :n,a=user,n=user,r=" in log, "the client does not send the name to act as", log)


def client_faults(folder: str) -> None:
    """The client ends a login whose count is outside its limits, or whose server has other keys; no code is sent."""
    here = Login(folder)
    for trial, count in each([4095, 1000001]):
        with trial:
            here.put(with_codes().replace("count = 4096\nstored", f"count = {count}\nstored"))
            log = "".join(ACCEPTED.splitlines(True)[:4]).replace("i=4096", f"i={count}") + GONE
            here.logs(here.words(*SHA1), "pencil\n755224\n", 1, log)
            here.audited(log, clean(1, 0, 0))
            here.token_has(f"count {count}", next=0)
    here.put(with_codes().replace('server = "0f', 'server = "0e'))
    log = here.log_of(here.words(*SHA1), "pencil\n755224\n", 1)
    equal(len(log.splitlines()), 8, log)
    holds(log.splitlines()[5].startswith("S OK :v="), "the login is not accepted", log)
    holds("rmF9pqV8S7suAoZWja4dJRkFsKQ=" not in log, "the signature is that of the client's keys", log)
    holds(log.endswith(GONE), "the client does not end the login", log)
    here.audited(log, clean(1, 1, 0))


def codes(folder: str) -> None:
    """Codes of RFC 4226, appendix D, with their replies; the status is 0 only if each passed."""
    here = Login(folder)
    far = "SYNC 399871 520489"
    for trial, (book, lines, status, told, passed) in each([
        (with_codes(), ["755224"], 0, ["CODE 755224", "PASS 5 0"], 1),
        (with_codes(), ["755224", "755224"], 1, ["CODE 755224", "PASS 5 0", "CODE 755224", "FAIL 5"], 1),
        (with_codes(), ["338314"], 1, ["CODE 338314", "FAIL 5"], 0),
        (with_codes(), ["338314", "755224"], 1, ["CODE 338314", "FAIL 5", "CODE 755224", "PASS 5 0"], 1),
        (with_codes(limit=1), ["0", "755224"], 1, ["CODE 0", "FAIL 5", "CODE 755224", "LOCKED 5"], 0),
        (KEYS_TOML, ["755224"], 1, ["CODE 755224", "NOCODE 5"], 0),
        (with_codes(sync_ahead=8), [far], 0, [far, "PASS 5 9"], 1),
        (with_codes(sync_ahead=7), [far], 1, [far, "FAIL 5"], 0),
        (with_codes(), ["!" * 16, "~"], 1, ["CODE " + "!" * 16, "FAIL 5", "CODE ~", "FAIL 5"], 0),
    ]):
        with trial:
            here.put(book)
            log = ACCEPTED + "".join(f"{'CS'[n % 2]} {line}\n" for n, line in enumerate(told)) + GONE
            here.logs(here.words(*SHA1, "--moment", "5"), "\n".join(["pencil", *lines, ""]), status, log)
            here.audited(log, clean(1, 1, passed))


def lines_that_are_no_code(folder: str) -> None:
    """A line that can't be sent as a code ends the session, and the lines after it are not sent."""
    here = Login(folder, with_codes(sync_ahead=8))
    words = here.words(*SHA1, "--moment", "5")
    long_lines = ["1" * size for size in [17, 6195, 6196, 6201, 6202, 500_000]]
    for trial, line in each(["", " ", "755 224", "755224\r", "755224 ", "C\xe9", "SYNC 755224", "SYNC 755224  287082",
                 "SYNC 755224 287082 359152", "SYNC 755224 287082\r", *long_lines]):
        with trial:
            here.put(with_codes(sync_ahead=8))
            log = ACCEPTED + "C BAD\nS NO :\nE\n"
            here.logs(words, f"pencil\n{line}\n755224\n", 1, log)
            here.audited(log, clean(1, 1, 0))
            here.token_has(repr(line[:20]), next=0)
    here.put(with_codes())
    here.logs(words, b"pencil\n\xff\0\n755224\n", 1, ACCEPTED + "C BAD\nS NO :\nE\n")
    for trial, text in each(["CODE 755224", "ABORT"]):
        with trial:
            log = ACCEPTED + ("C BAD\nS NO :\nE\n" if " " in text else f"C CODE {text}\nS FAIL 5\n{GONE}")
            here.logs(words, f"pencil\n{text}\n", 1, log)


def replies_at_once(folder: str) -> None:
    """Each line is in the log while the input is still open, and the socket's file is there until the input ends."""
    here = Login(folder, with_codes())
    running = here.starts("--moment", "5")
    holds(here.socket.is_socket(), "there is no socket while the login goes on")
    for code, lines in [("755224", "C CODE 755224\nS PASS 5 0\n"), ("000000", "C CODE 000000\nS FAIL 5\n")]:
        running.prints(lines, f"{code}\n")
    here.token_has(next=1, failures=1)
    running.ends(1, GONE)
    here.has_no_socket()


def another_at_the_path(folder: str) -> None:
    """A file that takes the socket's path while the login runs stays there."""
    here = Login(folder, with_codes())
    running = here.starts()
    here.socket.unlink()
    here.socket.write_text("another")
    running.ends(0, GONE)
    holds(here.socket.exists(), "the file that took the socket's path is gone")
    equal(here.socket.read_text(), "another", "the file at the socket's path")


def random_nonces(folder: str) -> None:
    """The client's nonce and then the server's part are each the base64 text of the next 18 bytes of the random file."""
    here, file = Login(folder), pathlib.Path(folder, "random")
    for trial, (name, password) in each([("one", "pencil"), ("two users", "a,b=c"), ("~" * 255, " " * 1024)]):
        with trial:
            here.book.unlink(missing_ok=True)
            suite.enrols(here.book, name, password)
            here.put(here.book.read_text())
            data = random.randbytes(36)
            file.write_bytes(data)
            log = here.log_of(here.words("--random", file, name=name), password, 0)
            client, service = (base64_of(part) for part in [data[:18], data[18:]])
            lines = log.splitlines()
            holds(lines[2].endswith(f",r={client}"), "the client's nonce is not of the first 18 bytes", name, lines)
            holds(f":r={client}{service},s=" in lines[3], "the server's part is not of the next 18 bytes", name, lines)
            here.audited(log, clean(1, 1, 0))
    here.put(KEYS_TOML)
    file.write_bytes(data[:18])
    given = ["--mechanism", "SCRAM-SHA-1", "--random", file]
    for trial, (more, nonce) in each([(["--client-nonce", "me"], f"me{client}"), (["--server-nonce", "you"], f"{client}you")]):
        with trial:
            log = here.log_of(here.words(*given, *more), "pencil", 0)
            holds(f"S CONT :r={nonce},s=" in log, "the challenge does not have the nonces", nonce, log)
    logs = [here.log_of(here.words("--mechanism", "SCRAM-SHA-1"), "pencil", 0) for _ in range(3)]
    form = r"\nC AUTH SCRAM-SHA-1 :n,\S*,r=(\S+)\nS CONT :r=\1([^,]+),"
    parts = {part for log in logs for part in re.search(form, log).groups()}
    equal(len(parts), 6, "how many parts of the nonces of three runs differ", logs)


def values_with_hyphens(folder: str) -> None:
    """A name or a nonce that begins with a hyphen may be the next word. After any other option such a word is an unknown option."""
    here = Login(folder)
    here.book.unlink()
    equal(ran([PROGRAM, "enrol", "--book", here.book, "--name", "-u"], "pencil"), (0, "enrolled -u\n", ""), "a name with a hyphen")
    here.put(here.book.read_text())
    values = {"--as": "-u", "--client-nonce": "--name", "--server-nonce": "-"}
    log = here.log_of(here.words(*[word for pair in values.items() for word in pair], name="-u"), "pencil", 0)
    lines = log.splitlines()
    equal(lines[2], "C AUTH SCRAM-SHA-256 :n,a=-u,n=-u,r=--name", lines)
    holds(lines[3].startswith("S CONT :r=--name-,s="), "the challenge does not have the nonces", lines)
    here.audited(log, clean(1, 1, 0))
    equal(here.log_of(here.words(*map("=".join, values.items()), name="-u"), "pencil", 0), log, "the log with each value after =")
    for trial, (option, value) in each([("--name", "-\x7f"), ("--as", "-\x7f"), ("--client-nonce", "-,"), ("--server-nonce", "- ")]):
        with trial:
            here.refuses(here.words(option, value) if option != "--name" else here.words(name=value), "", 2, f"bad value for {option}")
    for trial, option in each(["--moment", "--mechanism", "--random"]):
        with trial:
            status, output, faults = ran(here.words(option, "-1"), "pencil")
            equal((status, output), (2, ""), faults)
            holds(faults.startswith("error: unexpected argument '-1' found"), "the word is not refused", faults)
    answer = ran([PROGRAM, "verify", "--book", here.book, "--moment", "5", "--name"], "")
    holds(answer.faults.startswith("error: a value is required for '--name "), "the missing value is not told", answer)


def moments(folder: str) -> None:
    """A code's moment is the time of the machine's clock, unless one is given."""
    here = Login(folder, with_codes())
    began = int(time.time())
    log = here.log_of(here.words(*SHA1), "pencil\n755224\n", 0)
    [moment] = re.findall(r"\nS PASS (\d+) 0\n", log)
    holds(began <= int(moment) <= time.time(), "the moment of the code is before the run's begin or after its end", began, moment)
    for trial, moment in each(["0", "253402300799"]):
        with trial:
            here.put(with_codes())
            log = here.log_of(here.words(*SHA1, "--moment", moment), "pencil\n755224\n", 0)
            holds(f"\nS PASS {moment} 0\n" in log, "the code does not pass at", moment, log)


def order_of_faults(folder: str) -> None:
    """Faults are reported in this order: the options in theirs, the password, the book, the random file, and the socket."""
    here = Login(folder)
    taken = here.folder / "taken"
    taken.write_text("")
    bad = {"--mechanism": "PLAIN", "--as": "", "--client-nonce": "a,b", "--server-nonce": "", "--moment": "-1"}
    options = list(bad)
    here.refuses(here.words(name="", *[f"{key}={bad[key]}" for key in options]), "", 2, "bad value for --name")
    for trial, (at, option) in each(enumerate(options)):
        with trial:
            words = here.words(*[f"{key}={bad[key]}" for key in options[at:]], path=taken)
            here.refuses(words, "", 2, f"bad value for {option}")
    for trial, (option, value) in each((option, value) for option, values in [
        ("--as", ["\x7f", "a" * 256, "é"]),
        ("--client-nonce", ["a b", "\x7f", "a" * 257, "é"]),
        ("--server-nonce", [",", "a" * 257]),
        ("--moment", ["05", "253402300800", "now"]),
        ("--mechanism", ["", "scram-sha-1", "SCRAM-SHA-1-PLUS"]),
    ] for value in values):
        with trial:
            here.refuses(here.words(f"{option}={value}"), "pencil", 2, f"bad value for {option}")
    missing = here.folder / "missing"
    more = ["--random", missing]
    here.book.unlink()
    for trial, text in each(["", "\n", "\npencil", "pen\x7fcil", "a" * 1025]):
        with trial:
            here.refuses(here.words(*more, path=taken), text, 2, "bad password")
    here.refuses(here.words(*more, path=taken), "pencil", 3, f"cannot read {here.book}")
    here.put("format = 2\n")
    here.refuses(here.words(*more, path=taken), "pencil", 1, "bad book: 61")
    here.put(KEYS_TOML)
    here.refuses(here.words(*more, path=taken), "pencil", 3, f"cannot read {missing}")
    here.refuses(here.words(path=taken), "pencil", 3, "socket fault")
    equal(taken.read_text(), "", "the file at the socket's path")
    here.logs(here.words(*SHA1, *more), "pencil", 0, ACCEPTED + GONE)


def short_random_files(folder: str) -> None:
    """Each nonce that is not given takes 18 bytes. If the file ends before them, the run reports a fault, and prints nothing else."""
    here, file = Login(folder), pathlib.Path(folder, "random")
    for trial, (size, more) in each([(0, []), (17, []), (35, []), (17, ["--client-nonce", "a"]), (17, ["--server-nonce", "a"])]):
        with trial:
            file.write_bytes(b"a" * size)
            here.refuses(here.words("--random", file, *more), "pencil\n", 3, f"cannot read {file}")
    here.refuses(here.words("--random", here.folder), "pencil\n", 3, f"cannot read {here.folder}")


def sockets_in_the_way(folder: str) -> None:
    """A socket fault leaves the book, and what is at the path, as they are. A path may have 107 bytes."""
    here = Login(folder)
    with socket.socket(socket.AF_UNIX) as other:
        other.bind(str(here.folder / "used"))
        other.listen()
        here.refuses(here.words(path=here.folder / "used"), "pencil\n", 3, "socket fault")
        with socket.socket(socket.AF_UNIX) as client:
            client.connect(str(here.folder / "used"))
    here.refuses(here.words(path=here.folder / "used"), "pencil\n", 3, "socket fault")
    holds((here.folder / "used").is_socket(), "the other run's socket is gone")
    for trial, path in each([here.folder, here.book, here.folder / "nothing" / "socket", here.book / "socket"]):
        with trial:
            here.refuses(here.words(path=path), "pencil\n", 3, "socket fault")
    here.refuses([*here.words()[:-1], ""], "pencil\n", 3, "socket fault")
    for trial, (size, is_short) in each([(107, True), (108, False), (4000, False)]):
        with trial:
            path = os.path.join(folder, "x" * (size - len(folder) - 1))
            equal(len(path), size, "the length of the socket's path")
            if is_short:
                here.logs(here.words(*SHA1, path=path), "pencil\n", 0, ACCEPTED + GONE)
            else:
                here.refuses(here.words(*SHA1, path=path), "pencil\n", 3, "socket fault")
            holds(not os.path.lexists(path), "the socket is left", path)


suite.run_all()
