#!/usr/bin/env python3
"""Runs the tools in tools/ that are neither `edit-book` nor `serve-hall`, where the recipes of docs/OPERATING.md do not lead: with names,
books, codes and moments that are unusual.

What a tool leaves of a book, prints and ends with is compared. Takes the 30 seconds for which `check-code` waits for a book.
"""
import fcntl
import itertools
import re
import shlex
import signal
from pathlib import Path

import suite
from blocks import (
    NAME, TOO_DEEP, accounts_of, code_of_now, does, enrolled, enrols, ran, sets_password, start, token_of_now, unchanged, with_tools,
)
from checks import equal, holds
from processes import until
from suite import BOOK_OF_USER, CODES, each, hotp, script, within


def a_password_of_any_name(folder: str) -> None:
    """Names that a shell or TOML could take for something else get their passwords. Here the tool is called by a link, and there are files
    whose names the headers of the keys would match as patterns."""
    with_tools(folder, "").unlink()
    Path(folder, "link").symlink_to("tools/set-password")
    for letter in "acs":
        Path(folder, letter).touch()
    names = ["a b", "*", "-x", 'a"b\\c', "sha1", "sha256", "a.sha1", 'it\'s "odd"']
    for name in names:
        enrols(folder, name, "--count 2")
    does(folder, "tools/edit-book book.toml sed 's/^act_as = \\[]/act_as = [\"root\"]/'")
    for trial, name in each(names):
        with trial:
            equal(accounts_of(folder)[name]["act_as"], ["root"], name, "the names to act as")
            sets_password(folder, f"./link book.toml {shlex.quote(name)} --count 3", name, f"new {name}", 3)


def headers_of_another_form(folder: str) -> None:
    """`drop-tables` drops nothing for a header that no command writes so, or from a book that has one, which could be the next table's."""
    book = with_tools(folder, BOOK_OF_USER)
    odd_headers = [" [accounts.b]", "[accounts.b] # a fob", "[accounts.b]\r", "[accounts . b]", '[accounts."b"]', "[accounts.'b c']"]
    for trial, header in each(odd_headers):
        with trial:
            book.write_bytes(f"{BOOK_OF_USER}{header}\n".encode())
            odd, kept = f"drop-tables: no command saves a header like this: {header}\n", BOOK_OF_USER.removesuffix("[accounts.user]\n")
            equal(ran(folder, "tools/drop-tables '[accounts.user]' <book.toml"), (2, kept, odd), header)
            answer = ran(folder, f"tools/drop-tables '[accounts.user]' {shlex.quote(header)} <book.toml")
            equal(answer, (2, "", odd), header, "as an argument")


def an_account_removed_meanwhile(folder: str) -> None:
    """An account that is removed while its new password is typed gets none, and is not made again."""
    enrolled(folder)
    left = within(folder, "left")
    change = start(folder, f"exec tools/set-password book.toml {NAME}", TMPDIR=str(left))
    until(lambda: list(left.iterdir()), "the tool should wait for the password")
    book = with_tools(folder, BOOK_OF_USER)
    change.ends(1, "", f"scramotp: no such account\n{unchanged(folder, 'sh')}", text="another one\n")
    equal(book.read_text(), BOOK_OF_USER, "the book")
    equal(list(left.iterdir()), [], "the files that are left")


def a_book_that_a_tool_cannot_read(folder: str) -> None:
    """A tool that only reads a book says why it can't: there is no file, it is not TOML or not a book, or lacks the account or the keys.
    So it does if the text is nested too deeply for it."""
    with_tools(folder, BOOK_OF_USER)
    texts_of_faults = [
        (None, r"\[Errno 2\] No such file or directory: 'faulty\.toml'"),
        (b"x = \n", "not TOML: .*"),
        (b"x = '\xff'\n", "not TOML: .*"),
        (TOO_DEEP, "not TOML: .*"),
        (b"accounts = 1\n", "not an account book: find-key says what is wrong"),
        (b"decoy_count = 4096\n[accounts.user]\nsha256 = 1\ntoken = 1\n", "not an account book: find-key says what is wrong"),
    ]
    tools = [("list-accounts", ""), ("list-unlike-decoys", ""), ("to-verifier", " user")]
    for trial, ((text, fault), (name, words)) in each(itertools.product(texts_of_faults, tools)):
        with trial:
            if text is not None:
                Path(folder, "faulty.toml").write_bytes(text)
            status, output, faults = ran(folder, f"tools/{name} faulty.toml{words}")
            equal((status, output), (1, ""), name, text, faults)
            holds(re.fullmatch(f"{name}: {fault}\n", faults), "another fault is due", fault, faults, name, text)
    found = ran(folder, "tools/find-key none.toml")
    equal(found, (1, "", "find-key: [Errno 2] No such file or directory: 'none.toml'\n"), "a book that is not there")
    for trial, (name, fault) in each([("none", "no such account"), ("user", "the account has no keys for SCRAM-SHA-256")]):
        with trial:
            equal(ran(folder, f"tools/to-verifier book.toml {name}"), (1, "", f"to-verifier: {fault}\n"), name)


def names_that_a_tool_prints(folder: str) -> None:
    """A name that is not printable is quoted. A tool that prints a line for each account ends without a word, by the signal PIPE, if its
    reader ends first."""
    with_tools(folder, 'decoy_count = 1\n[accounts."\\u001b[31m".sha1]\ncount = 3\nsalt = ""\n')
    names = [f"{number:099}" for number in range(2000)]
    tables = "".join(f'[accounts.{name}.sha1]\ncount = 2\nsalt = ""\n' for name in names)
    Path(folder, "many.toml").write_text(f"decoy_count = 1\n{tables}")
    for trial, (tool, quoted, line) in each([
        ("list-accounts", r"'\x1b[31m: sha1 keys'", f"{names[0]}: sha1 keys"),
        ("list-unlike-decoys", r"'\x1b[31m: sha1 has the count 3, decoys have 1'", f"{names[0]}: sha1 has the count 2, decoys have 1"),
        ("find-key", r"'\x1b[31m', sha1: 'stored' is missing", "the document: 'format' is missing"),
    ]):
        with trial:
            status, output, faults = ran(folder, f"tools/{tool} book.toml")
            equal((status, quoted in output.splitlines(), faults), (0, True, ""), tool, output)
            cut = f'tools/{tool} many.toml | head -n 1; echo "${{PIPESTATUS[0]}}"'
            does(folder, cut, printed=f"{line}\n{128 + signal.SIGPIPE}\n")


def a_code_in_a_script(folder: str) -> None:
    """Only a code that passes lets a user in. A blank line is not judged, and does not count as a failure."""
    tokens = [hotp(look_ahead=0, limit=2, name=name) for name in ["user", "-x"]]
    with_tools(folder, BOOK_OF_USER + "".join(tokens) + "\n[accounts.bare]\n")

    def judges(text: str, status: int, what: str, name: str = "user", book: str = "book.toml", fault: str = "") -> None:
        due = (status, "", fault and f"scramotp: {fault}\n")
        equal(ran(folder, f"tools/check-code {book} {name}", text), due, f"the answer {what}")

    for trial, text in each(["", "\n", "\r\n", " \n"]):
        with trial:
            judges(text, 1, f"to {text!r}")
    token = accounts_of(folder)["user"]["token"]
    equal((token["next"], token["failures"]), (0, 0), "the next counter and the failures after blank lines")
    for trial, (text, status) in each([(CODES[0] + "\r\n", 0), (CODES[1][:3] + " " + CODES[1][3:], 0), (CODES[1], 1), (CODES[2], 0)]):
        with trial:
            judges(text, status, f"to {text!r}")
    judges(f"000000\n{CODES[3]}\n", 1, "for a second line")
    judges("PASS 1 1\n", 1, "to a reply instead of a code")
    judges(CODES[3], 1, "to a code at a locked token")
    does(folder, "scramotp unlock --book book.toml --name user", printed="unlocked user\n")
    judges(CODES[3], 0, "to a code after the token is unlocked")
    for status, what in [(0, "to a code that is sent for the first time"), (1, "to a code that is sent again")]:
        judges(CODES[0], status, what, "-x")
    judges(f"SYNC {CODES[1]} {CODES[2]}", 1, "to two codes in a row", "-x")
    judges(CODES[4], 1, "for an account without a token", "bare", fault="no token")
    judges(CODES[4], 1, "for a name without an account", "nobody", fault="no such account")
    judges(CODES[4], 1, "if there is no book", book="none", fault="cannot read none")
    script(within(folder, "silent") / "scramotp", "")
    found = ran(folder, 'PATH="$PWD/silent:$PATH" tools/check-code book.toml user', CODES[4])
    equal(found, (1, "", ""), "the answer if the program prints nothing")


def a_code_of_a_held_book(folder: str) -> None:
    """`check-code` waits for a book that another holds, and after 30 seconds lets nobody in, and says why. The code can be used later."""
    book = with_tools(folder, BOOK_OF_USER + hotp(look_ahead=0, limit=9))
    before = book.read_text()
    with open(book, "rb") as file:
        fcntl.flock(file, fcntl.LOCK_EX)
        status, output, faults = ran(folder, "tools/check-code book.toml user", f"{CODES[0]}\n")
    equal((status, output, faults.splitlines()[-1:]), (1, "", ["scramotp: cannot read book.toml"]), faults)
    equal(book.read_text(), before, "the book")


def a_code_of_this_moment(folder: str) -> None:
    """`check-code` has a code judged by the moment of now: a code of now passes. One of ten steps ago or of 20 steps later does not."""
    with_tools(folder, BOOK_OF_USER + token_of_now())
    for trial, (steps, status) in each([(-10, 1), (20, 1), (0, 0)]):
        with trial:
            found = ran(folder, "tools/check-code book.toml user", f"{code_of_now(steps)}\n")
            equal(found, (status, "", ""), f"the answer to a code of {steps} steps after now")


suite.run_all()
