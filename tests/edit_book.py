#!/usr/bin/env python3
"""Edits books by `tools/edit-book`, by an editor and by commands, and checks what is left of each edit: it is saved, or leaves the book as
it was and says why. Takes the 30 seconds for which an edit waits for a book."""
import fcntl
import os
import re
import shlex
import shutil
import signal
import time
from concurrent.futures import ThreadPoolExecutor
from pathlib import Path

import suite
from blocks import TOOLS, book_of, does, ran, refused, stand_in, start, told, unchanged, with_tools
from checks import equal, holds
from processes import LIMIT_OF_LINES, Running, Terminal, sleeps, until, whole
from suite import (
    BOOK_OF_USER, CODES, PROGRAM, ROOT, as_nobody, each, hotp, is_awaited, is_locked, is_root, mode_of, nobody, program_on_path, script,
    seen, verify_words,
)


def an_editor_and_a_command(folder: str) -> None:
    """An edit by an editor with an option, and one by a command. The file keeps its owner and group. Only its owner can read it then."""
    book = with_tools(folder, BOOK_OF_USER)
    book.chmod(0o644)
    os.chown(book, -1, 2345 if ROOT else [os.getegid(), *os.getgroups()][-1])
    before = book.stat()
    # As many editors do, it puts another file in the place of the one that it is given.
    text = 'umask 022; cat "$2" >other; printf \'\\n[accounts."%s"]\\n\' "$1" >>other; rm "$2"; mv other "$2"'
    editor = script(Path(folder, "editor"), text)
    for edit, words in [("", {"EDITOR": f"{shlex.quote(str(editor))} 'a b@c'"}), (" sed s/4096/4097/", {})]:
        does(folder, f"umask 022; tools/edit-book book.toml{edit}", **words)
        after = book.stat()
        equal((after.st_uid, after.st_gid), (before.st_uid, before.st_gid), "the owner and the group after an edit", edit)
        equal(mode_of(book), 0o600, "the mode after an edit", edit)
    equal(book_of(folder)["decoy_count"], 4097, "the count of decoys after an edit by a command")
    equal(set(book_of(folder)["accounts"]), {"user", "a b@c"}, "the accounts after an edit by an editor")
    equal(set(os.listdir(folder)), {"bin", "book.toml", "editor", "tools"}, "the files in the folder after the edits")


def an_edit_that_fails(folder: str) -> None:
    """A text that is no book, and a command or an editor that fails, leave the book as it was."""
    book = with_tools(folder, BOOK_OF_USER)
    real = os.path.realpath(book)
    status, output, faults = ran(folder, "tools/edit-book book.toml sed s/format/former/")
    found = re.fullmatch(rf"scramotp: bad book: 61\nedit-book: {real} is unchanged; look into (.*)\n", faults)
    equal((status, output), (1, ""), faults)
    holds(found, "the faults of an edit whose text is no book", faults)
    equal(Path(found[1]).read_text(), BOOK_OF_USER.replace("format", "former"), "the text that the fault names")
    os.remove(found[1])
    refused(folder, "tools/edit-book book.toml false", unchanged(folder, "false"))
    refused(folder, "tools/edit-book book.toml", unchanged(folder, "the editor"), EDITOR="false")
    equal(book.read_text(), BOOK_OF_USER, "the book after edits that fail")
    equal(set(os.listdir(folder)), {"bin", "book.toml", "tools"}, "the files in the folder after edits that fail")


def an_edit_that_cannot_be_saved(folder: str) -> None:
    """If the new text can't be put in the book's place, the book stays as it was. If only its folder can't be synced, the book is changed.
    Both are said. That the group can't be given to the new text is no fault. Here stand-ins for the system's commands fail."""
    book = with_tools(folder, BOOK_OF_USER)
    edited = BOOK_OF_USER.replace("4096", "4097")
    kept = "is unchanged, because the new text could not be put in its place"
    lost = "is changed, but the change may be lost if the machine stops now"
    for trial, (command, fails, fault, text) in each([
        ("sync", '[ ! -d "$2" ]', kept, BOOK_OF_USER),
        ("mv", "true", kept, BOOK_OF_USER),
        ("sync", '[ -d "$2" ]', lost, edited),
        ("chgrp", "true", "", edited),
    ]):
        with trial:
            what, refusal = f"{command} fails if {fails}", "echo refused >&2; " if command == "chgrp" else ""
            book.write_text(BOOK_OF_USER)
            failing = stand_in(folder, command, f'{fails} || exec {shutil.which(command)} "$@"\n{refusal}exit 1')
            answer = ran(folder, "tools/edit-book book.toml sed s/4096/4097/")
            failing.unlink()
            equal(answer, (int(fault != ""), "", told(folder, fault) if fault else ""), what)
            equal(book.read_text(), text, what)
            equal(set(os.listdir(folder)), {"bin", "book.toml", "tools"}, what)


def an_edit_of_anothers_book(folder: str) -> None:
    """Another user's book is refused, and stays as it was. So does root's book in another user's folder, which only root can try."""
    book = with_tools(folder, BOOK_OF_USER)
    if ROOT:
        os.chown(book, nobody().pw_uid, nobody().pw_gid)
    else:
        # A file of root's, through a link
        book.unlink()
        book.symlink_to("/etc/passwd")
    belongs = told(folder, "belongs to another user: run edit-book as the book's owner")
    for trial, edit in each(["tools/edit-book book.toml sed s/4096/4097/", "EDITOR=false tools/edit-book book.toml"]):
        with trial:
            refused(folder, edit, belongs)
    if is_root():
        os.chown(book, 0, 0)
        os.chown(folder, nobody().pw_uid, nobody().pw_gid)
        refused(folder, "tools/edit-book book.toml sed s/4096/4097/", told(folder, "is in a folder of another user"))
    equal(set(os.listdir(folder)), {"bin", "book.toml", "tools"}, "the files in the folder")


def an_edit_in_a_folder_of_others(folder: str) -> None:
    """A folder that its group or all users can write is refused, unless it has the sticky bit. The book stays as it was."""
    book = with_tools(folder, BOOK_OF_USER)
    fault = told(folder, "is in a folder that others can write")
    for trial, (mode, is_refused) in each([(0o720, True), (0o702, True), (0o1777, False), (0o755, False)]):
        with trial:
            os.chmod(folder, mode)
            before = seen(book)
            found = ran(folder, "tools/edit-book book.toml cat")
            equal(found, (int(is_refused), "", fault if is_refused else ""), f"an edit in a folder of the mode {mode:o}")
            equal(seen(book) == before, is_refused, f"whether the book in a folder of the mode {mode:o} stays")


def a_book_of_two_names(folder: str) -> None:
    """A book with two names is refused, and stays as it was: after an edit it would be two books, and a code would pass once in each."""
    book = with_tools(folder, BOOK_OF_USER)
    os.link(book, Path(folder, "other"))
    refused(folder, "tools/edit-book book.toml cat", told(folder, "has a second name, a hard link: remove one"))
    equal(seen(Path(folder, "other")), seen(book), "both names")


def an_edit_that_cannot_lock(folder: str) -> None:
    """A lock that can't be taken at all is not told as a book in use. Nor is a book that its owner may not read: as root, nobody's here."""
    book = with_tools(folder, BOOK_OF_USER)
    missing = stand_in(folder, "flock", "exit 127")
    refused(folder, "tools/edit-book book.toml cat", told(folder, "is unchanged, because it could not be locked"))
    missing.unlink()
    of_nobody(folder, 0)
    found = ran(folder, f"{'runuser -u nobody -- ' * ROOT}./edit-book book.toml cat")
    equal(found, (1, "", told(folder, "cannot be read")), "an edit of a book that can't be read")


def of_nobody(folder: str, mode: int) -> None:
    """Puts the tool into a folder, and gives the book this mode. As root, both are nobody's then."""
    shutil.copy(TOOLS / "edit-book", folder)
    book = Path(folder, "book.toml")
    if ROOT:
        for path in folder, book:
            os.chown(path, nobody().pw_uid, nobody().pw_gid)
    book.chmod(mode)


def a_process_that_an_edit_leaves(folder: str) -> None:
    """A process that a command or an editor leaves does not keep the lock of the book."""
    book = with_tools(folder, BOOK_OF_USER)
    Path(folder, "leaver").write_text("sleep 600 <&- >&- 2>&- &\necho $! >left\nexit 1\n")
    for trial, (command, editor, what) in each([(" sh leaver", "", "sh"), ("", "sh leaver", "the editor")]):
        with trial:
            answer = ran(folder, f"tools/edit-book book.toml{command}", EDITOR=editor)
            is_kept = is_locked(book)
            os.kill(int(Path(folder, "left").read_text()), signal.SIGKILL)
            equal(answer, (1, "", unchanged(folder, what)), "an edit that leaves a process")
            holds(not is_kept, "a process that this has left keeps the lock", what)


def an_edit_that_is_stopped(folder: str) -> None:
    """An edit whose processes are terminated leaves the book as it was, and no file next to it."""
    book = with_tools(folder, BOOK_OF_USER)
    edit = start(folder, "exec setsid tools/edit-book book.toml sh -c 'sed s/4096/4097/; exec sleep 130'")
    until(lambda: any(path.read_text() for path in Path(folder).glob("book.toml.*")), "the edit should write its text")
    os.killpg(edit.process.pid, signal.SIGTERM)
    equal(edit.end().status, 1, "the status of an edit that is stopped")
    equal(book.read_text(), BOOK_OF_USER, "the book")
    equal(list(Path(folder).glob("book.toml.*")), [], "the files that are left")


def an_editor_at_an_interrupt(folder: str) -> None:
    """Ctrl-C reaches the edit and its editor. If the editor goes on, what it then saves is kept. If it ends, the book stays as it was."""
    book, editor, waits = with_tools(folder, BOOK_OF_USER), Path(folder, "editor"), Path(folder, "waits")
    ended = unchanged(folder, "the editor")
    goes_on = "trap 'caught=1' INT; touch waits; until [ $caught ]; do sleep 0.1; done; sed -i s/4096/4097/ $1"
    for trial, (what, status, faults, text) in each([
        ("touch waits; exec sleep 130", 1, ended, BOOK_OF_USER),
        (goes_on, 0, "", BOOK_OF_USER.replace("4096", "4097")),
    ]):
        with trial:
            waits.unlink(missing_ok=True)
            editor.write_text(what)
            edit = start(folder, "exec setsid tools/edit-book book.toml", EDITOR="sh editor")
            until(waits.exists, "the editor should wait")
            os.killpg(edit.process.pid, signal.SIGINT)
            edit.ends(status, "", faults)
            equal(book.read_text(), text, "the book")
            equal(list(Path(folder).glob("book.toml.*")), [], "the files that are left")


def a_book_that_may_not_be_written(folder: str) -> None:
    """A book whose owner may not write it is edited all the same, and without a question at a terminal. As root, it is nobody's here."""
    with_tools(folder, BOOK_OF_USER)
    environment, found = program_on_path(folder), Path(folder, "bin", "scramotp")
    # A copy, since the user `nobody` may not enter the folder of the program.
    found.unlink()
    shutil.copy(PROGRAM, found)
    of_nobody(folder, 0o400)
    with Terminal() as terminal:
        words = ["./edit-book", "book.toml", "sed", "s/4096/4097/"]
        edit = Running(words, cwd=folder, env=environment, stdin=terminal.end, **as_nobody())
        terminal.type("n\n")
        edit.ends(0)
    equal(book_of(folder)["decoy_count"], 4097, "the count of decoys after an edit of a book that may not be written")


def a_book_that_is_changed_meanwhile(folder: str) -> None:
    """If another writes the book without its lock while it is edited, or puts a file in its place, that stays, and so does the new text."""
    book, other = with_tools(folder, BOOK_OF_USER), BOOK_OF_USER.replace("4096", "5000")
    Path(folder, "other").write_text(other)
    for trial, change in each(["cat other >book.toml", "cp other another; mv another book.toml", "touch book.toml"]):
        with trial:
            book.write_text(BOOK_OF_USER)
            status, output, faults = ran(folder, f"tools/edit-book book.toml sh -c 'sed s/4096/4097/; {change}'")
            due = rf"edit-book: {os.path.realpath(book)} was changed by another meanwhile, and stays so; look into (.*)\n"
            found = re.fullmatch(due, faults)
            equal((status, output), (1, ""), change, faults)
            holds(found, "another fault is due", due, faults)
            equal(Path(found[1]).read_text(), BOOK_OF_USER.replace("4096", "4097"), change, "the new text")
            os.remove(found[1])
            equal(book.read_text(), BOOK_OF_USER if "touch" in change else other, change, "the book")


def has_both_changes(folder: str | Path) -> None:
    """Checks that the book has what an edit changed, and what a run did."""
    found = book_of(folder)
    equal((found["decoy_count"], found["accounts"]["user"]["token"]["next"]), (4097, 1), "the count of decoys and the next counter", found)


def an_edit_waits(folder: str) -> None:
    """An edit that waits for a run then edits the file that the run has put in the book's place."""
    book = with_tools(folder, BOOK_OF_USER + hotp(look_ahead=3, limit=3))
    run = start(folder, "exec scramotp verify --book book.toml --name user --moment 5")
    until(lambda: is_locked(book), "the run should hold the book")
    edit = start(folder, "tools/edit-book book.toml sed s/4096/4097/")
    until(lambda: is_awaited(book) or edit.process.poll() is not None, "the edit should wait for the book")
    edit.goes_on()
    run.ends(0, "PASS 5 0\n", text=f"{CODES[0]}\n")
    edit.ends(0)
    has_both_changes(folder)


def a_run_waits(folder: str) -> None:
    """A run that waits for an edit then uses the file that the edit has put in the book's place."""
    book = with_tools(folder, BOOK_OF_USER + hotp(look_ahead=3, limit=3))
    slow = start(folder, "tools/edit-book book.toml sh -c 'sed s/4096/4097/; until [ -e done ]; do sleep 0.1; done'")
    until(lambda: is_locked(book), "the edit should hold the book")
    run = whole(verify_words(book), f"{CODES[0]}\n")
    until(lambda: sleeps(run.process.pid) or run.process.poll() is not None, "the run should wait for the edit")
    time.sleep(0.5)
    run.goes_on()
    Path(folder, "done").touch()
    run.ends(0, "PASS 5 0\n")
    slow.ends(0)
    has_both_changes(folder)


def many_at_once(folder: str) -> None:
    """Edits and runs at the same time lose no change that another has made."""
    with_tools(folder, BOOK_OF_USER + hotp(look_ahead=9, limit=99))
    edits = [f"tools/edit-book book.toml sh -c 'cat; echo \"[accounts.a{number}]\"'" for number in range(8)]
    enrols = [f"scramotp enrol --book book.toml --name b{number} --count 1" for number in range(8)]
    codes = f"printf '%s\\n' {' '.join(CODES[:6])} | scramotp verify --book book.toml --name user --moment 5"
    with ThreadPoolExecutor(17) as pool:
        found = list(pool.map(lambda block: ran(folder, block, "pencil\n"), [*edits, *enrols, codes]))
    failed = [answer for answer in found if answer.status]
    accounts, due = book_of(folder)["accounts"], {"user", *(f"{kind}{number}" for kind in "ab" for number in range(8))}
    lost = due - set(accounts)
    equal((failed, lost, accounts["user"]["token"]["next"]), ([], set(), 6), "what fails, which accounts are lost, and the next counter")


def an_edit_gives_up(folder: str) -> None:
    """An edit waits for 30 seconds, and then leaves the book as it was."""
    book = with_tools(folder, BOOK_OF_USER)
    with open(book, "rb") as file:
        fcntl.flock(file, fcntl.LOCK_EX)
        began = time.monotonic()
        refused(folder, "tools/edit-book book.toml sed s/4096/4097/", told(folder, "is in use"))
        waited = time.monotonic() - began
    holds(29 < waited < 30 + LIMIT_OF_LINES, "the edit gives up after seconds", waited)


suite.run_all()
