"""What the scripts on all commands share: each command with words and an input that it accepts, what it prints for them, and what the
book has after each of its saves, computed in Python from RFC 4226, RFC 5802 and RFC 7677."""
import copy
import os
import pathlib
import re
import shutil
import tomllib
from typing import Any, NamedTuple

import suite
from checks import equal
from expected import ACCEPTED, AUDITS, AUTH, GONE, RESP, keys_of, numbered
from processes import Answer, ran
from suite import CODES, KEYS_OF_PENCIL, PROGRAM, PUBLISHED, SALT, SECRET

# RFC 5802's user with RFC 4226's token, at which two codes have failed.
BOOK = (AUDITS / "hotp.toml").read_text().replace("failures = 0", "failures = 2")
# This book with a token that is locked after 100 failures, not after three.
LIMIT_100 = BOOK.replace("limit = 3", "limit = 100")
LOG = ACCEPTED + GONE
REPORTED = "6 1 accepted user - SCRAM-SHA-1 -\nclean sessions=1 accepted=1 codes=0\n"
RANDOM = bytes(range(64))


def parsed_book(text: str) -> dict[str, Any]:
    """What a book states, with values for the keys that it may leave out."""
    book = tomllib.loads(text)
    for account in book.get("accounts", {}).values():
        account.setdefault("act_as", [])
        if "token" in account:
            account["token"].setdefault("sync_ahead", 0)
    return book


def with_token(book: dict[str, Any], **fields: Any) -> dict[str, Any]:
    """The book with these values for its token."""
    changed = copy.deepcopy(book)
    changed["accounts"]["user"]["token"].update(fields)
    return changed


def new_account(salts: list[bytes]) -> dict[str, Any]:
    """The account that `enrol` makes with these salts and the password `pencil`."""
    tables = {"act_as": []}
    for function, salt in zip(["sha1", "sha256"], salts):
        stored, server = keys_of(function, b"pencil", salt, 1)
        tables[function] = {"salt": salt.hex(), "count": 1, "stored": stored, "server": server}
    return tables


def with_account(book: dict[str, Any] | None, name: str = "new") -> dict[str, Any]:
    """The book after `enrol` has added an account with the salts with which RANDOM begins. A book that was not there is made, and then
    RANDOM begins with its decoy key."""
    if book is None:
        accounts = {name: new_account([RANDOM[32:48], RANDOM[48:]])}
        return {"format": 1, "decoy_key": RANDOM[:32].hex(), "decoy_count": 4096, "accounts": accounts}
    changed = copy.deepcopy(book)
    changed["accounts"][name] = new_account([RANDOM[:16], RANDOM[16:32]])
    return changed


def after_codes(book: dict[str, Any], count: int) -> list[dict[str, Any]]:
    """A book before `count` codes that all pass, and after each of them."""
    return [book] + [with_token(book, next=number, failures=0) for number in range(1, count + 1)]


class Command(NamedTuple):
    """A command, its words without the paths, its input, what it prints when all goes well, and the book before the run
    and after each save, or None if there is no book."""

    name: str
    words: list
    text: str
    printed: str
    books: list

    def in_folder(self, folder: str | pathlib.Path) -> list[str]:
        """All words, with the paths of files in this folder."""
        paths = {name: os.path.join(folder, name) for name in ["book", "log", "random", "socket"]}
        return [PROGRAM, self.name, *[word.format(**paths) for word in self.words]]

    def saves_told(self, printed: str) -> int:
        """How many saves the printed text implies."""
        if self.name in ("login", "hall"):
            return printed.startswith("SCRAMLOG") + printed.count(" PASS ")
        return len(re.findall(r"^(?:(?:PASS|FAIL) .*|enrolled new|unlocked user)\n", printed, re.M)) if len(self.books) > 1 else 0


def events(count: int) -> tuple[str, str]:
    """The events of a hall with one login and `count` codes, and its log."""
    sent = [f"line 1 5 {AUTH[2:]}", f"line 1 5 {RESP[2:]}", *[f"line 1 5 CODE {code}" for code in CODES[:count]], "gone 1 5"]
    text = "".join(f"{line}\n" for line in ["open 3rfcNHYJY1ZVvWVs7j", *sent])
    return text, numbered(login_log(count))


def login_log(count: int) -> str:
    """The log of a login with `count` codes."""
    return ACCEPTED + "".join(f"C CODE {code}\nS PASS 5 {number}\n" for number, code in enumerate(CODES[:count])) + GONE


def commands(count: int = 2) -> list[Command]:
    """All commands. Those that take codes are sent `count` of them."""
    book, codes = parsed_book(BOOK), "".join(f"{code}\n" for code in CODES[:count])
    on = ["--book", "{book}", "--name"]
    login = [*on, "user", "--socket", "{socket}", *PUBLISHED, "--moment", "5"]
    heard, log = events(count)
    return [
        Command("keys", ["--mechanism", "SCRAM-SHA-1", "--salt", SALT, "--count", "4096"], "pencil\n", KEYS_OF_PENCIL, [book]),
        Command("code", ["--secret", SECRET, "--counter", "0"], "", f"{CODES[0]}\n", [book]),
        Command("enrol", [*on, "new", "--count", "1", "--random", "{random}"], "pencil\n", "enrolled new\n",
                [book, with_account(book)]),
        Command("verify", [*on, "user", "--moment", "5"], codes, "".join(f"PASS 5 {at}\n" for at in range(count)),
                after_codes(book, count)),
        Command("unlock", [*on, "user"], "", "unlocked user\n", [book, with_token(book, failures=0)]),
        Command("login", login, f"pencil\n{codes}", login_log(count), [book, *after_codes(book, count)]),
        Command("hall", ["--book", "{book}"], heard, log, [book, *after_codes(book, count)]),
        Command("audit", ["--book", "{book}", "--log", "{log}"], "", "clean sessions=1 accepted=1 codes=0\n", [book]),
        Command("report", ["--book", "{book}", "--log", "{log}"], "", REPORTED, [book]),
        Command("upgrade", ["--log", "{log}"], "", numbered(LOG), [book]),
    ]


def command_of(name: str, count: int = 2) -> Command:
    """The command of this name."""
    [found] = [command for command in commands(count) if command.name == name]
    return found


def new_book() -> Command:
    """`enrol` for a book that does not exist yet."""
    return command_of("enrol")._replace(books=[None, with_account(None)])


def prepare(folder: str | pathlib.Path, command: Command) -> None:
    """Empties a folder of an earlier run's files, and makes there the log, the random file and, unless the command makes it, the book."""
    here = pathlib.Path(folder)
    for path in here.iterdir():
        if path.is_dir():
            shutil.rmtree(path)
        else:
            path.unlink()
    if command.books[0] is not None:
        suite.written(here / "book", BOOK)
    (here / "log").write_text(LOG)
    (here / "random").write_bytes(RANDOM)


def left(folder: str | pathlib.Path) -> set[str]:
    """The names in a folder, except those of files that every run finds there."""
    return set(os.listdir(folder)) - {"book", "log", "random"}


def run(command: Command, folder: str | pathlib.Path, **how: Any) -> Answer:
    """Runs a command on the files of a folder, with its input unless another is given as `stdin`. Returns its answer."""
    return ran(command.in_folder(folder), command.text, **how)


def book_of(folder: str | pathlib.Path) -> dict[str, Any] | str | None:
    """What the book in a folder states, or None if there is none; its text if that is not TOML."""
    path = pathlib.Path(folder, "book")
    if not path.exists():
        return None
    try:
        return parsed_book(path.read_text())
    except tomllib.TOMLDecodeError:
        return path.read_text()


def is_kept(folder: str | pathlib.Path, command: Command, printed: str) -> bool:
    """Whether the book is whole, has each change that was reported and at most one more, and only its owner can read it. A command that
    saves nothing has to leave its bytes as they were."""
    saved, path = command.saves_told(printed), pathlib.Path(folder, "book")
    if path.exists() and suite.mode_of(path) != 0o600:
        return False
    return book_of(folder) in command.books[saved:saved + 2] and (len(command.books) > 1 or path.read_text() == BOOK)


def is_done(folder: str | pathlib.Path, command: Command) -> bool:
    """Whether the command has saved all that it has to save, and left no other file."""
    return is_kept(folder, command, command.printed) and book_of(folder) == command.books[-1] and left(folder) == set()


def audited(folder: str | pathlib.Path, before: str, log: str) -> None:
    """Audits a log of one login by the book with the text `before`: the log is clean, with as many codes passed as it has PASS lines."""
    book = pathlib.Path(folder, "book")
    after = book.read_text()
    book.write_text(before)
    pathlib.Path(folder, "log").write_text(log)
    answer = run(command_of("audit"), folder)
    equal(answer, (0, f"clean sessions=1 accepted=1 codes={log.count(' PASS ')}\n", ""), log)
    book.write_text(after)


def printed_begins_clean(folder: str | pathlib.Path, printed: str) -> bool:
    """Whether no line of a log of `login` or `hall`, whole or not, is at fault by the book that it began with."""
    before = pathlib.Path(folder, "before")
    before.write_text(BOOK)
    is_clean = suite.begins_clean(before, printed)
    before.unlink()
    return is_clean


def is_front(command: Command, printed: str) -> bool:
    """Whether what was printed begins the command's whole output; or is the log of a desk or a hall that halted at the last code that it
    judged, or of a desk that could no longer hear its client."""
    ends = {"login": r"(?:S HALT|C GONE\nE)\n\Z", "hall": r"1 S HALT\n\Z"}
    front = re.sub(ends[command.name], "", printed) if command.name in ends else printed
    return command.printed.startswith(front)
