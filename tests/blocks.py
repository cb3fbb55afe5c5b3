"""Blocks of pages, and their runs by bash, with the program on the PATH, in a folder that may have a link to the tools and an account book.
Also questions about that book, changes of it, and a TOTP token and its codes for this moment."""
import os
import re
import shlex
import time
from collections.abc import Callable
from pathlib import Path
from typing import Any

import expected
import processes
import suite
from checks import equal, holds
from expected import keys_of
from processes import Answer, Running
from suite import SECRET, TOP, program_on_path, read_book, seen, totp, written

TOOLS = TOP / "tools"
# The user of the recipes, whose name has to be quoted in a book.
NAME = "user@example.org"
# The tables of an account's keys.
MECHANISMS = ["sha1", "sha256"]
# A text that is nested too deeply for Python.
TOO_DEEP = b"x = " + b"[" * 100000
# Before a line that a block shows as printed.
SHOWN = "#> "


class Page:
    """A page, and its blocks: each with its section's title and its language. `left` has those that no test has taken, and says which are
    not there."""

    def __init__(self, path: str) -> None:
        self.text = Path(TOP, path).read_text(encoding="utf-8")
        parts = re.split(r"^## (.*)\n", self.text, flags=re.M)
        self.sections = dict(zip(parts[1::2], parts[2::2]))
        form = re.compile(r"^```(\w*)\n(.*?)^```$", re.M | re.S)
        self.all = [(title, *block) for title, text in self.sections.items() for block in form.findall(text)]
        self.left = [*self.all]

    def blocks(self, title: str, number: int, language: str = "sh") -> list[str]:
        """Takes the blocks in this language of the section with this title. They are empty if there are not so many."""
        found = [text for *place, text in self.all if place == [title, language]]
        self.left = [it for it in self.left if it[:2] != (title, language)]
        if len(found) != number:
            self.left.append((title, language, f"there are {len(found)} blocks, not {number}"))
        return found if len(found) == number else [""] * number

    def block(self, title: str, language: str = "sh") -> str:
        """Takes the only block in this language of the section with this title."""
        return self.blocks(title, 1, language)[0]


def filled(block: str, texts: dict[str, str]) -> str:
    """A block in which each of these texts, which it has to have, is replaced."""
    for old, new in texts.items():
        holds(old in block, "the block does not have what is replaced in it", old, block)
        block = block.replace(old, new)
    return block


def start(folder: str | Path, block: str, **more: Any) -> Running:
    """Starts a block."""
    return processes.Running(["bash", "-c", block], cwd=folder, env=program_on_path(folder, **more))


def ran(folder: str | Path, block: str, text: str = "", **more: Any) -> Answer:
    """Runs a block, and returns its answer."""
    return processes.ran(["bash", "-c", block], text, cwd=folder, env=program_on_path(folder, **more))


def does(folder: str | Path, block: str, text: str = "", printed: str = "", **more: Any) -> None:
    """Runs a block that has to succeed and to print this."""
    equal(ran(folder, block, text, **more), (0, printed, ""), block)


def refused(folder: str | Path, block: str, faults: str, text: str = "", status: int = 1, **more: Any) -> None:
    """Runs a block that has to say this fault, and to leave the book and its file as they are."""
    before = seen(Path(folder, "book.toml"))
    equal(ran(folder, block, text, **more), (status, "", faults), block)
    equal(seen(Path(folder, "book.toml")), before, "the book after", block)


def changes(folder: str | Path, block: str, change: Callable[[dict[str, Any]], Any]) -> None:
    """Runs a block that has to change the accounts of the book in this way, and nothing else in it."""
    due = book_of(folder)
    change(due["accounts"])
    does(folder, block)
    equal(book_of(folder), due, "the book after", block)


def steps(block: str) -> list[tuple[str, int, str]]:
    """Each command of a block that shows what is printed, with its status and its output. A line that begins with `#>` is one that the
    command before it prints, or `#> status N` if that does not end with status 0. A command ends before such a line, or at the line at
    which bash finds it complete."""
    found, command, printed, status = [], "", "", 0
    for line in block.splitlines(True):
        if line.startswith(SHOWN):
            shown = line.removeprefix(SHOWN)
            is_status = shown.startswith("status ")
            printed, status = printed if is_status else printed + shown, int(shown.split()[1]) if is_status else status
            continue
        # A quote or a here-document may be open, or the line goes on.
        if command and not command.endswith("\\\n") and processes.ran(["bash", "-n"], command) == (0, "", ""):
            found.append((command, status, printed))
            command, printed, status = "", "", 0
        command += line
    return [*found, (command, status, printed)]


def shows(folder: str | Path, block: str) -> str:
    """Runs the commands of a block in one bash, also with the tools and the hosts on the PATH. Each has to print what the block shows, and
    none a fault. Returns all that is printed."""
    mark, due = f"{os.urandom(16).hex()} ", steps(block)
    script = "".join(f"{command}printf '{mark}%d\\n' $?\n" for command, _, _ in due)
    path = f"{program_on_path(folder)['PATH']}:{TOOLS}:{TOP / 'hosts'}"
    parts = re.split(rf"{mark}(\d+)\n", ran(folder, f"PATH={path}\n{script}").given("the faults of the story"))
    found = zip([command for command, *_ in due], map(int, parts[1::2]), parts[0::2])
    equal(dict(enumerate(found, 1)), dict(enumerate(due, 1)), "what the commands do")
    return "".join(parts[0::2])


def with_tools(folder: str | Path, text: str) -> Path:
    """Makes in a folder a link to the tools, and a book with this text. Returns the book's path."""
    if not Path(folder, "tools").is_symlink():
        Path(folder, "tools").symlink_to(TOOLS)
    return written(Path(folder, "book.toml"), text)


def stand_in(folder: str | Path, command: str, script: str) -> Path:
    """Puts a script in the place of a command, for the blocks that run in a folder. Returns its path, so that it can be removed."""
    return suite.script(Path(program_on_path(folder)["PATH"].partition(":")[0], command), script)


def book_of(folder: str | Path) -> dict[str, Any]:
    return read_book(Path(folder, "book.toml"))


def accounts_of(folder: str | Path) -> dict[str, Any]:
    return book_of(folder)["accounts"]


def told(folder: str | Path, what: str) -> str:
    """What `edit-book` says of the book."""
    return f"edit-book: {os.path.realpath(Path(folder, 'book.toml'))} {what}\n"


def unchanged(folder: str | Path, failed: str) -> str:
    """What `edit-book` says if this command fails."""
    return told(folder, f"is unchanged, because {failed} failed")


def token_of_now() -> str:
    """A TOTP token for `user`. Its steps are hours, so that a code of this moment passes however slow the machine is."""
    return totp(limit=9).replace("step = 30", "step = 3600").replace("back = 0", "back = 1")


def code_of_now(steps: int = 0) -> str:
    """The code of that token for the step of this moment, or for one so many steps later."""
    return expected.code(bytes.fromhex(SECRET), int(time.time()) // 3600 + steps, digits=8)


def enrols(folder: str | Path, name: str, words: str = "") -> None:
    """Adds an account, whose password is `pencil`."""
    does(folder, f"scramotp enrol --book book.toml --name={shlex.quote(name)} {words}", "pencil\n", f"enrolled {name}\n")


def enrolled(folder: str | Path) -> None:
    """Makes in a folder a link to the tools, and a book with two accounts that have passwords."""
    with_tools(folder, "").unlink()
    for name in [NAME, "other"]:
        enrols(folder, name)


def adds(folder: str | Path, text: str) -> None:
    """Adds a text to the book."""
    Path(folder, "added.toml").write_text(text)
    does(folder, "tools/edit-book book.toml cat - added.toml")


def replies(folder: str | Path, name: str, codes: str, due: str, moment: int = 5) -> None:
    """Sends `verify` these codes, and compares its replies. The status is 0 if all are PASS, and otherwise 1."""
    block = f"printf '%s\\n' {codes} | scramotp verify --book book.toml --name {name} --moment {moment}"
    lines = due.split(", ")
    printed = "".join(f"{it}\n" for it in lines)
    equal(ran(folder, block), (int(not all(it.startswith("PASS ") for it in lines)), printed, ""), block)


def has_keys_of(account: dict[str, Any], password: bytes, count: int) -> None:
    """Checks that an account has the keys of this password and this count for both mechanisms."""
    for mechanism in MECHANISMS:
        keys = account[mechanism]
        due = count, *keys_of(mechanism, password, bytes.fromhex(keys["salt"]), count)
        equal((keys["count"], keys["stored"], keys["server"]), due, f"the {mechanism} keys of", password)


def without_keys(book: dict[str, Any], name: str) -> dict[str, Any]:
    """What a book states, without the keys of this account."""
    left = {key: it for key, it in book["accounts"][name].items() if key not in MECHANISMS}
    return {**book, "accounts": {**book["accounts"], name: left}}


def sets_password(folder: str | Path, block: str, name: str, password: str, count: int = 4096) -> None:
    """Runs a block that has to give an account the keys of this password, and to change nothing else. Neither a file nor a variable is left
    of it."""
    before, left = without_keys(book_of(folder), name), Path(folder, "left")
    left.mkdir(exist_ok=True)
    does(folder, f'{block}\nstatus=$?; printf %s "$password"; exit $status', f"{password}\n", TMPDIR=str(left))
    has_keys_of(accounts_of(folder)[name], password.encode(), count)
    equal(without_keys(book_of(folder), name), before, name, "what else the book states")
    equal([*left.iterdir()], [], "the files that are left")
