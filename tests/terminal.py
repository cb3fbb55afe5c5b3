#!/usr/bin/env python3
"""The prompts that the built program shows at a terminal before it waits for input, and that it shows none elsewhere.

Standard input and standard error are both a terminal, or one of them is, and standard output is a pipe. The codes are those of
RFC 4226, appendix D, the login is that of RFC 5802, section 5, and its keys were computed with Python's hashlib.
"""
import os
import time
from pathlib import Path

import suite
from checks import equal
from expected import ACCEPTED, GONE, KEYS_TOML, MECHS
from processes import LIMIT_OF_LINES, Running, Terminal
from suite import BOOK_OF_USER, KEYS_OF_PENCIL, PROGRAM, PUBLISHED, SALT, each, hotp

PASSWORD = "Type the password and press Enter; it is shown as you type.\r\n"
BOTH = "Type the password, press Enter, then one code per line; all is shown as you type. End with Ctrl-D.\r\n"
CODES = "Type one code per line; it is shown as you type. End with Ctrl-D.\r\n"
EVENTS = "Type one event per line: open, line or gone. End with Ctrl-D.\r\n"
KEYS = ["keys", "--mechanism", "SCRAM-SHA-1", "--salt", SALT, "--count", "4096"]
# The log of RFC 5802's login and a code.
LOGIN_AND_CODE = ACCEPTED + "C CODE 755224\nS PASS 5 0\n" + GONE
# The log of a client that comes and goes away.
OPENED_AND_GONE = f"SCRAMLOG 2\n1 {MECHS}\n1 C GONE\n1 E\n"
# The character that ends input typed at a terminal: Ctrl-D.
END = "\x04"


def on(folder: str, command: str, *more: str) -> list[str]:
    return [command, "--book", os.path.join(folder, "book"), "--name", "user", *more]


def login(folder: str) -> list[str]:
    return on(folder, "login", "--socket", os.path.join(folder, "socket"), *PUBLISHED, "--moment", "5")


def commands(folder: str) -> list[tuple[list[str], str, str, str]]:
    """For each command that waits for input: its words, what is typed, what it prints, and its prompt."""
    return [
        (KEYS, "pencil\n", KEYS_OF_PENCIL, PASSWORD),
        (on(folder, "enrol"), "pencil\n", "enrolled user\n", PASSWORD),
        (on(folder, "verify", "--moment", "5"), "755224\n287082\n", "PASS 5 0\nPASS 5 1\n", CODES),
        (login(folder), "pencil\n755224\n", LOGIN_AND_CODE, BOTH),
        (["hall", "--book", os.path.join(folder, "book")], "open zz\ngone 1 5\n", OPENED_AND_GONE, EVENTS),
    ]


def prepare(folder: str, words: list[str]) -> None:
    """Leaves no book in a folder for `enrol`, and for other commands makes one whose token has no spent code."""
    book = Path(folder, "book")
    if words[0] == "enrol":
        book.unlink(missing_ok=True)
    else:
        keys = KEYS_TOML if words[0] == "login" else BOOK_OF_USER
        book.write_text(keys + hotp(look_ahead=3, limit=3))


def at_a_terminal(folder: str, *streams: str) -> None:
    """Runs each command with these streams at a terminal. If both are, the prompt is shown before anything is typed; else there is none.
    What is typed is shown."""
    for trial, (words, typed, printed, prompt) in each(commands(folder)):
        with trial:
            prepare(folder, words)
            with Terminal() as terminal:
                run = Running([PROGRAM, *words], **dict.fromkeys(streams, terminal.end))
                said, is_typed = prompt if len(streams) == 2 else "", "stdin" in streams
                until = time.monotonic() + LIMIT_OF_LINES
                while terminal.shown != said and time.monotonic() < until:
                    terminal.see(0.05)
                equal(terminal.shown, said, words, "what is shown before anything is typed")
                if is_typed:
                    terminal.type(typed + END)
                run.ends(0, printed, text="" if is_typed else typed)
                equal(terminal.all_shown(), said + typed.replace("\n", "\r\n") * is_typed, words, "what is shown")


def both_are_terminals(folder: str) -> None:
    """The prompt is shown before anything is typed, and then what is typed is shown."""
    at_a_terminal(folder, "stdin", "stderr")


def input_is_a_terminal(folder: str) -> None:
    """No prompt is shown if standard error is no terminal; what is typed is still shown."""
    at_a_terminal(folder, "stdin")


def faults_are_a_terminal(folder: str) -> None:
    """No prompt is shown if standard input is no terminal."""
    at_a_terminal(folder, "stderr")


def nothing_to_wait_for(folder: str) -> None:
    """Faults of words and books are reported without a prompt, and a command that reads no input shows none."""
    book = Path(folder, "book")
    log = Path(folder, "log")
    log.write_text("SCRAMLOG 1\n")
    for trial, (words, status, printed, said) in each([
        ([*KEYS[:-1], "0"], 2, "", "scramotp: bad value for --count\r\n"),
        (on(folder, "enrol", "--count", "0"), 2, "", "scramotp: bad value for --count\r\n"),
        (on(folder, "verify", "--moment", "5"), 1, "", "scramotp: no token\r\n"),
        ([*login(folder), "--as", ""], 2, "", "scramotp: bad value for --as\r\n"),
        (["audit", "--book", str(book), "--log", str(log)], 0, "clean sessions=0 accepted=0 codes=0\n", ""),
        (["--version"], 0, "scramotp 0.1.0\n", ""),
    ]):
        with trial:
            book.write_text(BOOK_OF_USER)
            with Terminal() as terminal:
                run = Running([PROGRAM, *words], stdin=terminal.end, stderr=terminal.end)
                run.ends(status, printed)
                equal(terminal.all_shown(), said, words, "what is shown")


suite.run_all()
