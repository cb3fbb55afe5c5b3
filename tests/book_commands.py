#!/usr/bin/env python3
"""What the commands on an account book print, in which order they check things, and what they leave in its folder.

When root runs it, the program runs as the user nobody in tests of permissions. Takes the 30 seconds for which runs wait for a lock.
"""
import fcntl
import itertools
import json
import os
import pathlib
import shutil
import sys
import tempfile
import time
from concurrent.futures import ThreadPoolExecutor
from typing import Any

import suite
from checks import equal, holds
from processes import LIMIT_OF_LINES, Answer, ran
from suite import BOOK_OF_USER, CODES, ROOT, as_nobody, each, fault_text, hotp, is_root, mode_of, nobody, read_book, seen, token

# A copy of the program that the user nobody can run, wherever the program is.
COPY = tempfile.TemporaryDirectory()
os.chmod(COPY.name, 0o755)
PROGRAM = shutil.copy(sys.argv[1], COPY.name)

# A book without accounts; an account without a token; and books with that account and `user`, whose token takes codes or is locked.
EMPTY = BOOK_OF_USER.removesuffix("\n[accounts.user]\n")
BARE = "\n[accounts.bare]\n"
BOOK = EMPTY + hotp(3, 3) + BARE
LOCKED = EMPTY + hotp(3, 3, failures=3) + BARE

# Each command's options besides the book, its input and its answer, when nothing is wrong.
GOOD = {
    "enrol": ({"name": "new", "count": "1"}, "pencil\n", "enrolled new\n"),
    "verify": ({"name": "user", "moment": "5"}, CODES[0], "PASS 5 0\n"),
    "unlock": ({"name": "user"}, "", "unlocked user\n"),
}


def run(command: str, options: dict[str, Any], text: str | int = "", **how: Any) -> Answer:
    """Runs a command. Its input is `text`, or the open file with that descriptor if it is a number."""
    words = [f"--{name}={value}" for name, value in options.items()]
    given = {"stdin": text} if isinstance(text, int) else {"data": text}
    return ran([PROGRAM, command, *words], **given, **how)


def well(command: str, book: str, **how: Any) -> Answer:
    """Runs a command on a book, with nothing else wrong."""
    options, text, _ = GOOD[command]
    return run(command, {"book": book, **options}, text, **how)


def says(what: str, done: Answer, status: int, output: str, fault: str = "") -> None:
    """Compares what a run answered. A fault is given without its prefix."""
    equal(done, (status, output, fault_text(fault)), what)


def succeeds(command: str, book: str, **how: Any) -> None:
    says(command, well(command, book, **how), 0, GOOD[command][2])


def all_succeed(book: str, **how: Any) -> None:
    """Each command works on this book."""
    for trial, command in each(GOOD):
        with trial:
            succeeds(command, book, **how)


def all_refuse(book: str, fault: str, **how: Any) -> None:
    """Each command on this book has this fault of a file."""
    for trial, command in each(GOOD):
        with trial:
            says(command, well(command, book, **how), 3, "", fault)


def put(path: str, text: str = BOOK) -> str:
    pathlib.Path(path).write_text(text)
    return path


def access(path: str | pathlib.Path) -> tuple[int, int, int]:
    """The mode, the owner and the group of a file."""
    return mode_of(path), os.stat(path).st_uid, os.stat(path).st_gid


def climb(command: str, options: dict[str, Any], text: str, rungs: list[tuple], printed: str) -> None:
    """Runs a command that has many faults, and mends the one that it reports, until it prints this. Each rung is a status, a fault and what
    mends it: options, another input, or a call."""
    for status, fault, mended in rungs:
        says(f"{command} {options}", run(command, options, text), status, "", fault)
        if isinstance(mended, dict):
            options = {**options, **mended}
        elif callable(mended):
            mended()
        else:
            text = mended
    says(f"{command} {options}", run(command, options, text), 0, printed)


def order_of_enrol(folder: str) -> None:
    """`enrol` checks the options, the password, the book, the random file, and only then whether the name is taken."""
    book, random = os.path.join(folder, "book"), pathlib.Path(folder, "random")
    random.write_bytes(bytes(31))
    rungs = [
        (2, "bad value for --name", {"name": "user"}),
        (2, "bad value for --count", {"count": "1"}),
        (2, "bad password", lambda: put(book, "")),
        (2, "bad password", "pencil"),
        (1, "bad book: 61", lambda: put(book)),
        (3, f"cannot read {random}", lambda: random.write_bytes(bytes(32))),
        (1, "name is taken", {"name": "new"}),
    ]
    climb("enrol", {"random": random, "count": "0", "name": "", "book": book}, "", rungs, "enrolled new\n")


def order_of_a_new_book(folder: str) -> None:
    """After a bad password, or with a random file that is missing or has less than 64 bytes, no book is made."""
    book, random = os.path.join(folder, "book"), pathlib.Path(folder, "random")
    options = {"random": random, "name": "user", "count": "1", "book": book}
    says("a bad password", run("enrol", options, "\n"), 2, "", "bad password")
    equal(os.listdir(folder), [], "the folder")
    says("no random file", run("enrol", options, "pencil"), 3, "", f"cannot read {random}")
    equal(os.listdir(folder), [], "the folder")
    for trial, length in each([0, 63]):
        with trial:
            random.write_bytes(bytes(length))
            says(f"{length} random bytes", run("enrol", options, "pencil"), 3, "", f"cannot read {random}")
            equal(os.listdir(folder), ["random"], "the folder")
    random.write_bytes(bytes(64))
    says("64 random bytes", run("enrol", options, "pencil"), 0, "enrolled user\n")


def order_of_verify(folder: str) -> None:
    """`verify` checks the options, the book, the account, its token, and only then the input, which can't be read here."""
    book = os.path.join(folder, "book")
    unreadable = os.open(folder, os.O_RDONLY)
    rungs = [
        (2, "bad value for --name", {"name": "nobody"}),
        (2, "bad value for --moment", {"moment": "5"}),
        (3, f"cannot read {book}", lambda: put(book, "format = 2")),
        (1, "bad book: 61", lambda: put(book)),
        (1, "no such account", {"name": "bare"}),
        (1, "no token", {"name": "user"}),
        (3, "cannot read input", CODES[0]),
    ]
    climb("verify", {"moment": "x", "name": "", "book": book}, unreadable, rungs, "PASS 5 0\n")
    os.close(unreadable)


def order_of_unlock(folder: str) -> None:
    """`unlock` checks the name, the book, the account and its token."""
    book = os.path.join(folder, "book")
    rungs = [
        (2, "bad value for --name", {"name": "nobody"}),
        (3, f"cannot read {book}", lambda: put(book, "format = 2")),
        (1, "bad book: 61", lambda: put(book)),
        (1, "no such account", {"name": "bare"}),
        (1, "no token", {"name": "user"}),
    ]
    climb("unlock", {"name": "", "book": book}, "", rungs, "unlocked user\n")


def bad_values(folder: str) -> None:
    """Each bad value of an option is refused before the book is read, whose text is bad here too."""
    book = put(os.path.join(folder, "book"), "")
    numbers = ["", "-1", "+1", "01", "1 ", "1.0", "1e3", "0x1", "one", "18446744073709551616"]
    bad = [("enrol", "count", value) for value in [*numbers, "0", "4294967296"]]
    bad += [("verify", "moment", value) for value in [*numbers, "253402300800"]]
    for name in ["", "n" * 256, "a\tb", "a\x7f", "\u00e9"]:
        bad += [(command, "name", name) for command in GOOD]
    for trial, (command, option, value) in each(bad):
        with trial:
            options, text, _ = GOOD[command]
            done = run(command, {"book": book, **options, option: value}, text)
            says(f"{command} --{option}={value!r}", done, 2, "", f"bad value for --{option}")


def values_at_their_limits(folder: str) -> None:
    """Each option accepts its limits. The greatest count would take long, so the password is a bad one there."""
    book = put(os.path.join(folder, "book"))
    done = run("enrol", {"book": book, "name": "n" * 255, "count": "4294967295"}, "")
    says("the greatest count", done, 2, "", "bad password")
    for trial, (counter, moment) in each(enumerate(["0", "253402300799"])):
        with trial:
            done = run("verify", {"book": book, "name": "user", "moment": moment}, CODES[counter])
            says(f"moment {moment}", done, 0, f"PASS {moment} {counter}\n")


def no_file(folder: str) -> None:
    """A folder, a pipe, a link to nothing, a path in a folder that does not exist, and an empty path are no book. Nor
    is a path with a slash at its end, even if nothing is there yet."""
    inner, pipe, link = (os.path.join(folder, name) for name in ["inner", "pipe", "link"])
    os.mkdir(inner)
    os.mkfifo(pipe)
    os.symlink("nothing", link)
    nowhere = [os.path.join(folder, "no", name) for name in ["book", ".."]]
    folders = [os.path.join(folder, "new" + end) for end in ["/", "//", "/."]]
    for trial, (command, book) in each(itertools.product(GOOD, [inner, pipe, link, *nowhere, *folders, ""])):
        with trial:
            says(f"{command} on {book}", well(command, book), 3, "", f"cannot read {book}")
    equal(sorted(os.listdir(folder)), ["inner", "link", "pipe"], "folder")


def unreadable(folder: str) -> None:
    """A book that may not be read is refused and left as it was, and so is a book in a folder that may not be read."""
    os.chmod(folder, 0o755)
    book = put(os.path.join(folder, "book"))
    for trial, ((path, mode), command) in each(itertools.product([(book, 0o000), (folder, 0o311)], GOOD)):
        with trial:
            before = os.stat(path).st_mode
            os.chmod(path, mode)
            done = well(command, book, **as_nobody())
            os.chmod(path, before)
            says(f"{command}: {path}", done, 3, "", f"cannot read {book}")
    equal(pathlib.Path(book).read_text(), BOOK, "the book")


def unwritable(folder: str) -> None:
    """If the folder may not be written, the old book stays, and no change is reported."""
    book, new = put(os.path.join(folder, "book")), os.path.join(folder, "new")
    if ROOT:
        for path in [book, folder]:
            os.chown(path, nobody().pw_uid, nobody().pw_gid)
    before = seen(book)
    os.chmod(folder, 0o555)
    all_refuse(book, f"cannot write {book}", **as_nobody())
    says("a new book", well("enrol", new, **as_nobody()), 3, "", f"cannot write {new}")
    equal(seen(book), before, "the book")
    equal(os.listdir(folder), ["book"], "the folder")
    os.chmod(folder, 0o755)
    all_succeed(book, **as_nobody())


def each_line(folder: str) -> None:
    """Each line is judged as a code as it stands, whatever came before it. If one is refused, the status says so. The book is left with
    the failures in a row and the next counter that follow from the replies, and with nothing else changed since it was last saved."""
    book, right = os.path.join(folder, "book"), CODES[0]
    for trial, (text, status, printed, failures, after) in each([
        (f"000000\n{right}\n", 1, "FAIL 5\nPASS 5 0\n", 0, 1),
        (f"{right}\n000000", 1, "PASS 5 0\nFAIL 5\n", 1, 1),
        (f"{right}\r\n", 1, "FAIL 5\n", 1, 0),
        (f"\n{right}\n", 1, "FAIL 5\nPASS 5 0\n", 0, 1),
        (f"{right}\n", 0, "PASS 5 0\n", 0, 1),
        ("", 0, "", 0, 0),
    ]):
        with trial:
            succeeds("unlock", put(book))
            left = read_book(book)
            left["accounts"]["user"]["token"] |= {"failures": failures, "next": after}
            done = run("verify", {"book": book, **GOOD["verify"][0]}, text)
            says(f"verify of {text!r}", done, status, printed)
            equal(read_book(book), left, f"the book after {text!r}")


def random_bytes(folder: str) -> None:
    """A new account takes 16 random bytes for each salt, that of SHA-1 first. The book keeps its decoy key."""
    book, random = put(os.path.join(folder, "book")), pathlib.Path(folder, "random")
    random.write_bytes(bytes(range(64)))
    before = read_book(book)
    options, text, printed = GOOD["enrol"]
    says("enrol", run("enrol", {"book": book, "random": random, **options}, text), 0, printed)
    after = read_book(book)
    salts = [after["accounts"]["new"][table]["salt"] for table in ["sha1", "sha256"]]
    equal(salts, [bytes(range(16)).hex(), bytes(range(16, 32)).hex()], after)
    equal(after["decoy_key"], before["decoy_key"], after)


def fresh_random_bytes(folder: str) -> None:
    """Two new books, made without --random, share no decoy key and no salt."""
    options, text, printed = GOOD["enrol"]
    books = []
    for name in ["one", "other"]:
        book = os.path.join(folder, name)
        says(name, run("enrol", {"book": book, **options}, text), 0, printed)
        books.append(read_book(book))
    salts = {book["accounts"]["new"][table]["salt"] for book in books for table in ["sha1", "sha256"]}
    equal((len({book["decoy_key"] for book in books}), len(salts)), (2, 4), "how many decoy keys and salts differ", books)


def unsaved(folder: str) -> None:
    """Nothing is saved for the reply LOCKED, for a command that is refused, or for an empty input. What a killed run has left of a save is
    removed all the same."""
    book = put(os.path.join(folder, "book"), LOCKED)
    before = seen(book)
    user, bare = {"book": book, **GOOD["verify"][0]}, {"book": book, "name": "bare"}
    says("a locked token", run("verify", user, "\n".join(CODES[:2])), 1, "LOCKED 5\nLOCKED 5\n")
    put(f"{book}.new")
    says("no input", run("verify", user), 0, "")
    equal(sorted(os.listdir(folder)), ["book"], "the folder")
    says("no token", run("unlock", bare), 1, "", "no token")
    says("a name that is taken", run("enrol", bare, "pencil"), 1, "", "name is taken")
    equal(seen(book), before, "the book after runs that have nothing to save")


def unlocked(folder: str) -> None:
    """`unlock` always saves, even if no code has failed."""
    book = put(os.path.join(folder, "book"), LOCKED)
    for _ in range(2):
        before = seen(book)
        succeeds("unlock", book)
        equal(token(book)["failures"], 0, "failures")
        holds(seen(book)[0] != before[0], "the file is the same one", before)


def owner(folder: str) -> None:
    """A book keeps its owner and its group, or it is not saved. Only root can try this."""
    if not is_root():
        return
    book = put(os.path.join(folder, "book"))
    os.chown(book, 1234, 4321)
    os.chmod(book, 0o600)
    before = access(book)
    for trial, command in each(GOOD):
        with trial:
            succeeds(command, book)
            equal(access(book), before, f"access after {command}")
    put(book)
    os.chown(book, 0, 0)
    os.chmod(book, 0o666)
    os.chown(folder, nobody().pw_uid, nobody().pw_gid)
    check_refused(book, as_nobody())


def shared_book(folder: str) -> None:
    """A member of the group that shares a book of root's can't use it, since a save could not keep its owner. Root can,
    and then the group has no rights to it. Only root can try this."""
    if not is_root():
        return
    book = put(os.path.join(folder, "book"))
    for path, mode in [(book, 0o660), (folder, 0o2770)]:
        os.chown(path, 0, 4321)
        os.chmod(path, mode)
    check_refused(book, {**as_nobody(), "extra_groups": [4321]})
    succeeds("verify", book)
    equal(access(book), (0o600, 0, 4321), "access")


def group_of_others(folder: str) -> None:
    """A book whose owner is not in its group can be used and saved: the file then has the owner's group, and only
    the owner may read it. Only root can try this."""
    if not is_root():
        return
    book = put(os.path.join(folder, "book"))
    os.chown(folder, nobody().pw_uid, nobody().pw_gid)
    for trial, command in each(GOOD):
        with trial:
            os.chown(book, nobody().pw_uid, 0)
            os.chmod(book, 0o640)
            succeeds(command, book, **as_nobody())
            equal(access(book), (0o600, nobody().pw_uid, nobody().pw_gid), "access")


def check_refused(book: str, runner: dict[str, Any]) -> None:
    """Each command on another user's book says why it can't be used, and leaves it as it was."""
    before = seen(book)
    all_refuse(book, f"{book} belongs to another user: only that user and root can save it\nscramotp: cannot write {book}", **runner)
    equal(seen(book), before, "the book of another")
    equal(os.listdir(os.path.dirname(book)), ["book"], "its folder")


def others_book(folder: str) -> None:
    """Another user's book is not read in a folder that others may write or that belongs to another user. Only root can
    try this."""
    if not is_root():
        return
    book = put(os.path.join(folder, "book"))
    os.chown(book, 1234, 4321)
    os.chmod(book, 0o666)
    before = seen(book)
    folders = [(0, 0o777), (0, 0o1777), (0, 0o775), (1234, 0o755)]
    for trial, ((owner, mode), command, user) in each(itertools.product(folders, GOOD, [{}, as_nobody()])):
        with trial:
            os.chown(folder, owner, owner)
            os.chmod(folder, mode)
            says(f"{command} in {mode:o}", well(command, book, **user), 3, "", f"cannot read {book}")
    equal(seen(book), before, "another's book")
    os.chown(folder, 0, 0)
    os.chmod(folder, 0o755)
    all_succeed(book)


def others_next(folder: str) -> None:
    """If another user's file is at the path of the next text and can't be removed, the fault names it. Only root can
    try this."""
    if not is_root():
        return
    book, next_text = os.path.join(folder, "book"), put(os.path.join(folder, "book.new"))
    os.chown(put(book), nobody().pw_uid, nobody().pw_gid)
    os.chown(next_text, 1234, 4321)
    os.chmod(next_text, 0o600)
    os.chmod(folder, 0o1777)
    before = seen(book)
    all_refuse(book, f"cannot write {next_text}", **as_nobody())
    equal(seen(book), before, "the book")
    os.remove(book)
    says("a new book", well("enrol", book, **as_nobody()), 3, "", f"cannot write {next_text}")
    equal(os.listdir(folder), ["book.new"], "the folder")


def closed_next(folder: str) -> None:
    """If a file at the path of the next text may not be opened by its owner, the fault names it, and it stays: no run can tell whether
    another one holds it. Once it may be opened, the next run removes it."""
    book, next_text = (put(os.path.join(folder, name)) for name in ["book", "book.new"])
    if ROOT:
        for path in [folder, book, next_text]:
            os.chown(path, nobody().pw_uid, nobody().pw_gid)
    os.chmod(next_text, 0)
    before = seen(book), access(next_text)
    all_refuse(book, f"cannot write {next_text}", **as_nobody())
    equal((seen(book), access(next_text)), before, "the book and the next text")
    os.chmod(next_text, 0o600)
    all_succeed(book, **as_nobody())
    equal(os.listdir(folder), ["book"], "the folder")


# Names that TOML allows bare, that it has to quote or escape, or that it could take for something else.
NAMES = [
    *" !\"#$%&'()*+,-./09:;<=>?@AZ[\\]^_`az{|}~",
    *["a.b", "a b", " a ", "it's", 'say "a"', "''", '""', "'''", '"""', '\'"\\', "C:\\mail", "\\n", "\\u0041"],
    *["# a", "a = b", "'a' = 1", "[a]", "[[a]]", "{ a = 1 }", "a, b", "user@example.org", "-x", "--help"],
    *["true", "1", "-1", "1.5", "inf", "1979-05-27", "format", "accounts", "token", "n" * 255],
]


def names(folder: str) -> None:
    """Each name is in the book as it was given, and is found there, even if a person quoted it in another way."""
    book = put(os.path.join(folder, "book"), EMPTY)
    for trial, name in each(NAMES):
        with trial:
            options = {"book": book, "name": name}
            says(f"unlock of {name!r}", run("unlock", options), 1, "", "no such account")
            says(f"enrol of {name!r}", run("enrol", {**options, "count": "1"}, "pencil"), 0, f"enrolled {name}\n")
            says(f"unlock of {name!r}", run("unlock", options), 1, "", "no token")
    equal(list(read_book(book)["accounts"]), sorted(NAMES), "names")
    with open(book, "a") as text:
        text.writelines(hotp(3, 3, name=json.dumps(name)) for name in NAMES)
    for trial, name in each(NAMES):
        with trial:
            done = run("verify", {"book": book, "name": name, "moment": "5"}, CODES[0])
            says(f"verify of {name!r}", done, 0, "PASS 5 0\n")
    equal(list(read_book(book)["accounts"]), sorted(NAMES), "names")
    equal({token(book, name)["next"] for name in NAMES}, {1}, "counters")


def hard_links(folder: str) -> None:
    """A file with two names can't be read as a book: a save would leave the old text under one of them."""
    book, other = put(os.path.join(folder, "book")), os.path.join(folder, "other")
    os.link(book, other)
    before = seen(book)
    for trial, (command, path) in each(itertools.product(GOOD, [book, other])):
        with trial:
            says(f"{command} on a file of two names", well(command, path), 3, "", f"cannot read {path}")
    equal((seen(book), seen(other)), (before, before), "both names")
    equal(sorted(os.listdir(folder)), ["book", "other"], "the folder")
    os.remove(other)
    all_succeed(book)


def held_by_another(folder: str) -> None:
    """Commands wait for 30 seconds for a lock. If that is in vain, they leave the book as it was, and no other file."""
    book, new = put(os.path.join(folder, "book")), os.path.join(folder, "new")
    runs = [*[(command, book) for command in GOOD], ("enrol", new)]
    with open(book) as old, open(put(new + ".new", "")) as next_text, ThreadPoolExecutor(len(runs)) as pool:
        for held in [old, next_text]:
            fcntl.flock(held, fcntl.LOCK_EX)
        began = time.monotonic()
        waiting = [pool.submit(well, *run) for run in runs]
    waited = time.monotonic() - began
    for trial, ((command, path), run) in each(zip(runs, waiting)):
        with trial:
            fault = f"other runs held {path} for 30 seconds\nscramotp: cannot read {path}"
            says(f"{command} on a held book", run.result(), 3, "", fault)
    holds(29 < waited < 30 + LIMIT_OF_LINES, "the runs did not wait for 30 seconds, but for", waited)
    equal(sorted(os.listdir(folder)), ["book", "new.new"], "the folder")
    equal(pathlib.Path(book).read_text(), BOOK, "the book")


suite.run_all()
