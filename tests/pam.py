#!/usr/bin/env python3
"""Lets users in by PAM: passwords by `hosts/check-login`, and one-time codes by `tools/check-code`, both run by pam_exec.

The commands are first run by themselves, as pam_exec runs them. Then pamtester asks PAM, with the services that docs/DOORS.md shows. Needs
pamtester and libpam-wrapper, which lets PAM read its services from a folder. systemd.py has both at a real sshd.
"""
import contextlib
import os
import re
import signal
import socket
from collections.abc import Iterator
from pathlib import Path

import suite
from blocks import TOOLS, Page
from checks import equal, holds
from clients import USER, Account, book
from expected import code
from processes import Answer, Running, ran, until
from suite import CODES, TOP, audit_says, each, has, hotp, program_on_path, written

LOGIN, CODE = TOP / "hosts/check-login", TOOLS / "check-code"
PASSWORD = f"password of {USER.name}"
WRAPPER = "/usr/lib/x86_64-linux-gnu/libpam_wrapper.so"
SERVICES = Page("docs/DOORS.md").blocks("PAM", 2, "")


@contextlib.contextmanager
def hall(folder: str, text: str) -> Iterator[Path]:
    """Runs `serve-hall` over a book with this text, and gives its socket. At the end its log has to be clean."""
    here = Path(folder)
    words = [TOOLS / "serve-hall", written(here / "book.toml", text), here / "socket", here / "log"]
    run = Running(words, env=program_on_path(folder))
    until(lambda: (here / "log").exists() and (here / "log").read_text().startswith("SCRAMLOG"), "a hall should begin")
    yield here / "socket"
    run.ends(0, by=signal.SIGTERM)


def is_clean(folder: str, sessions: int, accepted: int, codes: int) -> None:
    """Audits the log of the hall in a folder."""
    audit_says(f"{folder}/log.toml", f"{folder}/log", f"clean sessions={sessions} accepted={accepted} codes={codes}")


def asked(folder: str, words: list, name: str | None, text: str | bytes, **more: str) -> int:
    """The status of a command as pam_exec runs it: with the user's name, and what else PAM says, in the environment, and what he typed as
    its input. It must say nothing."""
    environment = {it: value for it, value in program_on_path(folder).items() if not it.startswith("PAM_")}
    answer = ran(words, text, env=environment | more | ({} if name is None else {"PAM_USER": name}))
    equal((answer.output, answer.faults), ("", ""), "what is said for", name, text)
    return answer.status


def passwords(folder: str) -> None:
    """Only the right password of a known name lets in."""
    other = Account("a=b,c", "SCRAM-SHA-256")
    with hall(folder, book([USER, other])) as path:
        for trial, (name, text, due) in each([
            ("user", PASSWORD, 0),
            ("user", f"{PASSWORD}\0", 0),
            ("user", f"{PASSWORD}\n", 0),
            ("a=b,c", "password of a=b,c", 0),
            ("user", PASSWORD[:-1], 1),
            ("user", f"{PASSWORD} ", 1),
            ("user", "", 1),
            ("user", "\0", 1),
            ("user", "x" * 1025, 1),
            ("user", bytes(range(1, 256)), 1),
            ("nobody", PASSWORD, 1),
            ("", PASSWORD, 1),
            (None, PASSWORD, 1),
            ("us\ner", PASSWORD, 1),
            ("u" * 5000, PASSWORD, 1),
        ]):
            with trial:
                equal(asked(folder, [LOGIN, path], name, text), due, "the status for", name, text)
    is_clean(folder, 10, 4, 0)
    equal(asked(folder, [LOGIN, f"{folder}/none"], "user", PASSWORD), 1, "without a hall")


def passwords_with_codes(folder: str) -> None:
    """With --code the last six digits are a code, which passes once, and counts only after a right password."""
    first, second = (code(USER.secret, counter) for counter in range(2))
    with hall(folder, book([USER])) as path:
        for trial, (text, due) in each([
            (f"wrong{first}", 1), (f"{PASSWORD}{first}", 0), (f"{PASSWORD}{first}", 1), (PASSWORD, 1), (first, 1),
            (f"{PASSWORD}{second}\0", 0), (f"{PASSWORD}{second[:5]}", 1),
        ]):
            with trial:
                equal(asked(folder, [LOGIN, path, "--code"], "user", text), due, "the status for", text)
    is_clean(folder, 4, 3, 2)


def noted(folder: str) -> list[str]:
    """What the file of the clients has of each session as it begins, after its user and its process."""
    lines = Path(folder, "log.clients").read_text(encoding="ascii").splitlines()
    return [re.sub(r"\d+ open \S+ uid=\d+ pid=\d+ ?", "", it) for it in lines if " open " in it]


def where_logins_come_from(folder: str) -> None:
    """The file of the clients has what PAM says of each, whatever it is, as far as it fits into the name of a socket. Another client can
    tell as much, but nothing under another name, and no second line."""
    with hall(folder, book([USER])) as path:
        for trial, more in each([
            {},
            {"SERVICE": "sshd", "RHOST": "2001:db8::7", "TTY": "ssh", "TYPE": "auth"},
            {"SERVICE": "login", "RHOST": "", "TTY": "/dev/tty1"},
            {"RHOST": 'a b="c"&uid=0\n2 open \udcff'},
            {"SERVICE": "sshd", "RHOST": "x" * 5000, "TTY": "ssh"},
        ]):
            with trial:
                environment = {f"PAM_{key}": value for key, value in more.items()}
                equal(asked(folder, [LOGIN, path], "user", PASSWORD, **environment), 0, "the status for", more)
        for trial, name in each([
            b"\0" + b"0" * 12 + b"/pam?uid=0&rhost=here&event=end", b"\0" + b"0" * 12 + b"/pam?rhost=a\n2 open", b"\0pam?rhost=here",
        ]):
            with trial, socket.socket(socket.AF_UNIX) as client:
                client.bind(name)
                client.connect(str(path))
                holds(client.recv(100).startswith(b"MECHS "), "the client is not greeted", name)
    # Of a name's 108 bytes 18 come before `service=`.
    equal(noted(folder), [
        "", "service=sshd rhost=2001:db8::7 tty=ssh", "service=login tty=/dev/tty1", r'rhost="a b=\"c\"&uid=0\n2 open \ufffd"',
        f"service=sshd rhost={'x' * (108 - 18 - len('service=sshd&rhost='))}", "rhost=here", "", "",
    ], "what is noted of the clients")
    is_clean(folder, 8, 5, 0)


def codes(folder: str) -> None:
    """`check-code` takes the name from PAM_USER if it is given none, and needs one."""
    book_at = Path(folder, "book.toml")
    book_at.write_text(suite.BOOK_OF_USER + hotp(look_ahead=0, limit=9))
    for trial, (text, due) in each([(CODES[0], 0), (CODES[0], 1), (f"{CODES[1]}\0", 0), (CODES[1], 1)]):
        with trial:
            equal(asked(folder, [CODE, book_at], "user", text), due, "the status for", text)
    for trial, words in each([[CODE, book_at], [CODE], [CODE, book_at, "user", "more"], [CODE, book_at, ""]]):
        with trial:
            answer = ran(words, CODES[2], env={**program_on_path(folder), "PAM_USER": ""})
            equal((answer.status, answer.output), (1, ""), "without a name", words)
            holds(answer.faults.startswith("check-code BOOK [NAME]: "), "it does not say how it is used", answer.faults)


def service(folder: str, name: str, block: int) -> dict[str, str]:
    """Writes a service of docs/DOORS.md for PAM, with this folder's paths and program. Returns the environment in which PAM reads it."""
    services = Path(folder, "services")
    services.mkdir(exist_ok=True)
    path = f"/usr/bin/env PATH={program_on_path(folder)['PATH']} "
    text = SERVICES[block].replace("/usr/local/share/scramotp/check-login", f"{path}{LOGIN}")
    (services / name).write_text(text.replace("/run/scramotp/hall.sock", f"{folder}/socket"))
    return {**os.environ, "LD_PRELOAD": WRAPPER, "PAM_WRAPPER": "1", "PAM_WRAPPER_SERVICE_DIR": str(services)}


def by_pamtester(folder: str) -> None:
    """PAM lets in by a password, and by a password and a code in one line, as its services of docs/DOORS.md say."""
    if not has("PAM itself", WRAPPER, "pamtester"):
        return

    def authenticates(name: str, environment: dict[str, str], user: str, text: str) -> Answer:
        return ran(["pamtester", "-I", "rhost=192.0.2.7", name, user, "authenticate"], f"{text}\n", env=environment)

    first = code(USER.secret, 0)
    with hall(folder, book([USER])):
        password, both = service(folder, "password", 0), service(folder, "both", 1)
        for trial, (name, environment, user, text, due) in each([
            ("password", password, "user", PASSWORD, 0),
            ("password", password, "user", "another", 1),
            ("password", password, "nobody", PASSWORD, 1),
            ("both", both, "user", f"{PASSWORD}{first}", 0),
            ("both", both, "user", f"{PASSWORD}{first}", 1),
        ]):
            with trial:
                answer = authenticates(name, environment, user, text)
                equal(answer.status, due, "the status of pamtester", user, text, answer.output, answer.faults)
    is_clean(folder, 5, 3, 1)
    equal(noted(folder), [f"service={it} rhost=192.0.2.7" for it in ["password"] * 3 + ["both"] * 2], "what is noted of the clients")


suite.run_all()
