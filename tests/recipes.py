#!/usr/bin/env python3
"""Runs each block of docs/OPERATING.md as it stands, except `make install`, `useradd`, paths and the user, and checks what it leaves and
prints.

bash runs each in a folder of its own, and then all but the first in one folder, in their order. Of a systemd unit, the command and the
credentials are used, except those of the timer. The block of `serve-hall` is run by serve_hall.py. Codes, keys and verifiers are those of
RFC 4226 and RFC 7677, from keys.csv (made by Dovecot), or from Python's hashlib. Any other block that no test runs is a fault.
"""
import base64
import fcntl
import fnmatch
import grp
import os
import re
import shlex
import shutil
import signal
import socket
import time
from concurrent.futures import ThreadPoolExecutor
from pathlib import Path

import expected
import suite
from blocks import (
    MECHANISMS, NAME, TOO_DEEP, TOOLS, Page, accounts_of, adds, book_of, changes, does, enrolled, enrols, filled, has_keys_of, ran,
    refused, replies, sets_password, stand_in, start, unchanged, with_tools,
)
from book_cases import cases
from checks import equal, holds
from expected import AUDITS, DATA, HASHES, VECTORS, base64_of, keys_of, rows_of
from processes import LIMIT_OF_LINES, until
from suite import BOOK_OF_USER, CODES, code, each, has, hotp, is_root, nobody, program_on_path, read_book, totp

PAGE = Page("docs/OPERATING.md")
# The folder of the tools in the document, and the folder that it makes.
INSTALLED = "/usr/local/share/scramotp"
PLACE = "/var/lib/scramotp"
FOB = "fob@example.org"
RENAMED = "button@example.org"

SHELL, START = PAGE.blocks("Start", 2)
LINK, _, ADD = START.partition("\n")
SET_TOKEN, DROP_TOKEN, ADD_FOB = PAGE.blocks("Give a user one-time codes", 3)
SYNC = PAGE.block("Resynchronise a HOTP fob")
UNLOCK = PAGE.block("Unlock a token")
LIST = PAGE.block("See what accounts have")
CHANGE = PAGE.block("Change a password")
DROP_SHA1 = PAGE.block("Serve an account by SHA-256 only")
REMOVE = PAGE.block("Remove an account")
RENAME = PAGE.block("Rename an account")
LIST_UNLIKE = PAGE.block("Hide which names have accounts")
INTO, OUT = PAGE.blocks("Keys from PostgreSQL and Dovecot", 2)
HALL_UNIT = PAGE.block("A unit for `serve-hall`", "ini")
NIGHT, TIMER = PAGE.blocks("A new log each night", 2, "ini")
UNITS = PAGE.blocks("Enrol a user, audit a log", 2, "ini")
AUDIT_LOGS, REMOVE_LOGS = PAGE.blocks("Audit a log", 2)
REPORT = PAGE.block("After an incident")
COPY, PUT_BACK = PAGE.blocks("Backups", 2)
FIND_KEYS = PAGE.block("`bad book: 62`")
# It runs until an interrupt, and so in serve_hall.py.
SERVE = PAGE.block("Serve logins with `serve-hall`")

# Runs a block, and prints each variable that it leaves in the shell, and the umask if that has changed, each in a line after `left: `.
LEAVES_NOTHING = """umask 022
before= status=; before=$(compgen -v)
{}status=$?
compgen -v | grep -vxF "$before" | sed 's/^/left: /'; [ "$(umask)" = 0022 ] || echo "left: umask $(umask)"
exit $status
"""
# The book by which each recorded log is judged.
BOOKS_OF_LOGS = {"sha1": "hotp.toml", "sha256": "sha256.toml", "twice": "hotp.toml"}
CLEAN, AT_FAULT = "clean sessions=1 accepted=1 codes=0", "line 10: reply, due FAIL 6"


def sets(folder: str | Path, block: str, why: str = "") -> str:
    """Runs a block that sets a token, or that sets none and says why: then the book stays as it was. The token's text is removed. Returns
    what is printed."""
    before = book_of(folder)
    output = ran(folder, block).given("a token that is set or not", faults=f"no token is set: {why}\n" if why else "")
    equal(book_of(folder) == before, why != "", "whether the book is as it was", why)
    holds(not Path(folder, "token.toml").exists(), "the token's text is left", why)
    return output


def has_fob(folder: str | Path) -> None:
    """Gives the account NAME the token of the fob that the document adds."""
    sets(folder, filled(ADD_FOB, {FOB: NAME, "no such account": "no token"}))


def has_no(folder: str, what: str, name: str) -> None:
    """An account gets no reply to a code, since this is missing."""
    refused(folder, f"echo 000000 | scramotp verify --book book.toml --name {name} --moment 5", f"scramotp: no {what}\n")


def lists(folder: str, block: str, *lines: str) -> None:
    """Runs a block that prints these lines, in any order."""
    equal(sorted(ran(folder, block).given(block).splitlines()), sorted(lines), block)


def a_token(folder: str) -> None:
    """The token that is set accepts the codes of the secret that is printed, and is removed again. An account that has a token gets no
    other, and a name without an account gets none."""
    enrolled(folder)
    secret = base64.b32decode(sets(folder, SET_TOKEN).strip())
    equal(len(secret), 20, "how many bytes the secret has")
    moment = 1234567890  # of RFC 6238, by which this is in the step 41152263
    replies(folder, NAME, expected.code(secret, moment // 30), f"PASS {moment} {moment // 30}", moment)
    has_no(folder, "token", "other")
    sets(folder, SET_TOKEN, "there is one already")
    sets(folder, filled(SET_TOKEN, {"user": "usr"}), "scramotp: no such account")
    changes(folder, DROP_TOKEN, lambda accounts: accounts[NAME].pop("token"))
    has_no(folder, "token", NAME)
    holds(base64.b32decode(sets(folder, SET_TOKEN).strip()) != secret, "the secret of the second token is that of the first", secret)


def a_hotp_token(folder: str) -> None:
    """The fob that the document adds has RFC 4226's secret: that RFC's codes pass, with up to `look_ahead` skipped. A name that has an
    account gets the token only with the change that the document names."""
    enrolled(folder)
    sets(folder, ADD_FOB)
    token = accounts_of(folder)[FOB]["token"]
    skipped = 2 + token["look_ahead"]
    replies(folder, FOB, f"{CODES[0]} {CODES[1]} {code(skipped)}", f"PASS 5 0, PASS 5 1, PASS 5 {skipped}")
    sets(folder, ADD_FOB, "there is one already")
    sets(folder, filled(ADD_FOB, {FOB: NAME}), "scramotp: no token")
    has_fob(folder)
    equal(accounts_of(folder)[NAME]["token"], token, "the token of an account that had none")


def a_fob_that_ran_ahead(folder: str) -> None:
    """Two codes in a row pass once although the first by itself is too far ahead, and the token goes on after them."""
    enrolled(folder)
    sets(folder, ADD_FOB)
    replies(folder, FOB, code(8), "FAIL 5")
    for trial, (due, status) in each([(r"PASS \d+ 9\n", 0), (r"FAIL \d+\n", 1)]):
        with trial:
            output = ran(folder, SYNC).given("two codes in a row", status=status)
            holds(re.fullmatch(due, output), "another reply is due", due, output)
    replies(folder, FOB, code(10), "PASS 5 10")


def a_locked_token(folder: str) -> None:
    """A token that is locked takes the next code again once the recipe has run, and no code that was spent before."""
    enrolled(folder)
    sets(folder, ADD_FOB)
    limit = accounts_of(folder)[FOB]["token"]["limit"]
    replies(folder, FOB, f"{CODES[0]} {'000000 ' * limit}{CODES[1]}", f"PASS 5 0, {'FAIL 5, ' * limit}LOCKED 5")
    does(folder, UNLOCK, printed=f"unlocked {FOB}\n")
    replies(folder, FOB, f"{CODES[0]} {CODES[1]}", "FAIL 5, PASS 5 1")


def an_account(folder: str) -> None:
    """A name gets its account, even in a new book, and may act as another. A name that has an account keeps it unchanged."""
    with_tools(folder, "").unlink()
    equal(LINK, f"ln -s {INSTALLED} tools", "the line that makes the link to the tools")
    does(folder, ADD, "pencil\n", f"enrolled {NAME}\n")
    before = accounts_of(folder)
    has_keys_of(before[NAME], b"pencil", 4096)
    refused(folder, ADD, "scramotp: name is taken\n", "another one\n")
    # The password is forgotten: the line after the block would print it.
    does(folder, filled(ADD, {NAME: "other"}) + 'printf %s "$password"\n', "pencil\n", "enrolled other\n")
    equal({**accounts_of(folder), "other": {}}, {**before, "other": {}}, "the accounts after the second is added")
    line, acts = re.findall(r"`(act_as = \[[^`]*\])`", PAGE.text)
    holds(f"\n{line}\n" in Path(folder, "book.toml").read_text(), "the book does not have the line that the document shows", line)
    does(folder, f"tools/edit-book book.toml sed '/^.accounts.other.$/,$ s/^act_as = .*/{acts}/'")
    equal(accounts_of(folder)["other"]["act_as"], ["postmaster", "list"], "the names that the account may act as")
    audited = "printf 'SCRAMLOG 1\\n' | scramotp audit --book book.toml --log /dev/stdin"
    does(folder, audited, printed="clean sessions=0 accepted=0 codes=0\n")


def a_password(folder: str) -> None:
    """New keys, from the new password, replace the old ones, with other salts; everything else stays."""
    enrolled(folder)
    has_fob(folder)
    before = accounts_of(folder)[NAME]
    sets_password(folder, CHANGE, NAME, "another one")
    after = accounts_of(folder)[NAME]
    equal([it for it in MECHANISMS if before[it]["salt"] == after[it]["salt"]], [], "the keys whose salt stays")
    replies(folder, NAME, CODES[0], "PASS 5 0")
    sets_password(folder, f"tools/set-password book.toml {NAME} --count 5000", NAME, "a fourth", 5000)


def a_password_of_one_mechanism(folder: str) -> None:
    """An account that has keys for only one mechanism gets new ones for both."""
    for trial, lost in each(MECHANISMS):
        with trial:
            enrolled(folder)
            does(folder, f"tools/edit-book book.toml tools/drop-tables '[accounts.\"{NAME}\".{lost}]'")
            sets_password(folder, CHANGE, NAME, "another one")


def a_first_password(folder: str) -> None:
    """An account with only a token gets keys for both mechanisms, and keeps its token. A name without an account gets none."""
    enrolled(folder)
    sets(folder, ADD_FOB)
    replies(folder, FOB, CODES[0], "PASS 5 0")
    refused(folder, filled(CHANGE, {NAME: "fab@example.org"}), "scramotp: no such account\n", "another one\n")
    refused(folder, f"tools/set-password none.toml {NAME}", "scramotp: cannot read none.toml\n", "another one\n", status=3)
    sets_password(folder, filled(CHANGE, {NAME: FOB}), FOB, "another one")
    replies(folder, FOB, CODES[1], "PASS 5 1")


def a_password_that_is_refused(folder: str) -> None:
    """If `enrol` refuses the password, or a later step fails, the book is as it was. So it is if the headers of the old keys are spelled in
    another way than a command does: a command that saves the book puts that right."""
    enrolled(folder)
    for trial, password in each(["ü\n", "\n", ""]):
        with trial:
            refused(folder, CHANGE, "scramotp: bad password\n", password, status=2)
    failed = unchanged(folder, "sh")
    for trial, (command, status, fault) in each([("mktemp", 2, ""), ("sed", 2, ""), ("grep", 2, ""), ("awk", 1, failed)]):
        with trial:
            failing = stand_in(folder, command, "exit 2")
            refused(folder, CHANGE, fault, "another one\n", status)
            failing.unlink()
    book, odd = Path(folder, "book.toml"), f"[accounts . '{NAME}' . sha1]"
    book.write_text(filled(book.read_text(), {f'[accounts."{NAME}".sha1]': odd}))
    refused(folder, CHANGE, f"drop-tables: no command saves a header like this: {odd}\n{failed}", "another one\n")
    enrols(folder, "third")
    sets_password(folder, CHANGE, NAME, "another one")


def one_mechanism(folder: str) -> None:
    """The account keeps only its keys for SCRAM-SHA-256. By that mechanism a login is accepted; by SCRAM-SHA-1 it is refused, after a
    challenge like a decoy's. Run again, the block fails, and the book stays as it is."""
    enrolled(folder)
    changes(folder, DROP_SHA1, lambda accounts: accounts[NAME].pop("sha1"))
    does(folder, LIST_UNLIKE)
    lists(folder, LIST, "other: sha1 keys, sha256 keys", f"{NAME}: sha256 keys")
    for trial, (mechanism, status, answer) in each([("SCRAM-SHA-256", 0, r"S OK :v=.*"), ("SCRAM-SHA-1", 1, r"S NO :e=invalid-proof")]):
        with trial:
            login = f"scramotp login --book book.toml --name {NAME} --mechanism {mechanism} --socket socket"
            log = ran(folder, login, "pencil\n").given(mechanism, status=status)
            holds(re.search(rf"^S CONT :r=.*,s=.{{24}},i=4096\nC RESP .*\n{answer}$", log, re.M), "another answer is due", answer, log)
    refused(folder, DROP_SHA1, unchanged(folder, "tools/drop-tables"))


def a_removed_account(folder: str) -> None:
    """The account is removed with all its tables, with or without a token, and no other account is."""
    enrolled(folder)
    has_fob(folder)
    replies(folder, NAME, CODES[0], "PASS 5 0")
    changes(folder, REMOVE, lambda accounts: accounts.pop(NAME))
    enrols(folder, NAME)
    changes(folder, REMOVE, lambda accounts: accounts.pop(NAME))
    adds(folder, f'\n[accounts."{NAME}".sha1]\ncount = 1\nsalt = "00"\nserver = "{"00" * 20}"\nstored = "{"00" * 20}"\n')
    changes(folder, REMOVE, lambda accounts: accounts.pop(NAME))
    refused(folder, REMOVE, unchanged(folder, "tools/drop-tables"))


def a_renamed_account(folder: str) -> None:
    """An account gets another name, and keeps its keys and its token. No other account changes, not even one whose name begins with the
    old name. If the new name is taken, or no account has the old one, the book stays as it is."""
    enrolled(folder)
    sets(folder, ADD_FOB)
    adds(folder, f'\n[accounts."{FOB}.uk"]\n')
    replies(folder, FOB, CODES[0], "PASS 5 0")
    changes(folder, RENAME, lambda accounts: accounts.update({RENAMED: accounts.pop(FOB)}))
    replies(folder, RENAMED, f"{CODES[0]} {CODES[1]}", "FAIL 5, PASS 5 1")
    has_no(folder, "such account", FOB)
    changes(folder, RENAME, dict)
    taken = filled(RENAME, {"fob@example\\.org": "user@example\\.org", RENAMED: "other@example.org"})
    does(folder, taken)
    enrols(folder, NAME)
    before = book_of(folder)
    answer = ran(folder, taken)
    equal(answer, (1, "", answer.faults), "a new name that is taken")
    due = r"scramotp: bad book: 60\nedit-book: .* is unchanged; look into .*\n"
    holds(re.fullmatch(due, answer.faults), "a new name that is taken: other faults than", due, answer.faults)
    equal(book_of(folder), before, "the book after a new name that is taken")


def what_accounts_have(folder: str) -> None:
    """The recipe prints which keys each account has, and the state of its token, also of one that has passed codes and one that is
    locked. It waits for no lock."""
    enrolled(folder)
    tokens = hotp(look_ahead=0, limit=2, name="counts") + totp(limit=3).replace("accounts.user", "accounts.timed")
    adds(folder, f"{tokens}\n[accounts.bare]\n")
    started = [f"{NAME}: sha1 keys, sha256 keys", "other: sha1 keys, sha256 keys", "bare: nothing"]
    lists(folder, LIST, *started, "counts: hotp token (next 0, 0 failures)", "timed: totp token (last none, 0 failures)")
    replies(folder, "counts", f"{CODES[0]} 000000 000000", "PASS 5 0, FAIL 5, FAIL 5")
    replies(folder, "timed", "94287082 00000000", "PASS 59 1, FAIL 59", 59)  # RFC 6238, appendix B
    with open(Path(folder, "book.toml"), "rb") as held:
        fcntl.flock(held, fcntl.LOCK_EX)
        lists(folder, LIST, *started, "counts: hotp token (next 1, locked)", "timed: totp token (last 1, 1 failures)")


def decoys(folder: str) -> None:
    """The recipe names the accounts that differ from decoys, and no others."""
    enrolled(folder)
    does(folder, LIST_UNLIKE)
    enrols(folder, "slow", "--count 5000")
    sizes = {"sha1": 20, "sha256": 32}
    keys = '\n[accounts.old.{0}]\ncount = 4096\nsalt = "00"\nserver = "{1}"\nstored = "{1}"\n'
    adds(folder, "".join(keys.format(table, "00" * size) for table, size in sizes.items()))
    count, salt = "has the count 5000, decoys have 4096", "has a salt of 1 bytes, decoys have 16"
    lists(folder, LIST_UNLIKE, *(f"slow: {it} {count}" for it in sizes), *(f"old: {it} {salt}" for it in sizes))


def texts(mechanism: str, count: int | str, salt: str, stored: str, server: str) -> tuple[str, str]:
    """The verifiers of PostgreSQL and of Dovecot."""
    salt, stored, server = (base64_of(bytes.fromhex(text)) for text in (salt, stored, server))
    return f"{mechanism}${count}:{salt}${stored}:{server}", f"{{{mechanism}}}{count},{salt},{stored},{server}"


def keys_of_dovecot(folder: str) -> None:
    """Keys that Dovecot made are put into a book unchanged."""
    rows = [row for row in rows_of(VECTORS / "keys.csv") if "doveadm" in row["source"]][::6]
    equal({row["mechanism"] for row in rows}, set(HASHES), rows)
    for trial, row in each(rows):
        with trial:
            with_tools(folder, BOOK_OF_USER)
            count, *keys = [row[name] for name in ["count", "salt_hex", "stored_hex", "server_hex"]]
            does(folder, INTO, texts(row["mechanism"], count, *keys)[1] + "\n")
            due = {"count": int(count)} | dict(zip(["salt", "stored", "server"], keys))
            equal(accounts_of(folder)[NAME], {HASHES[row["mechanism"]]: due}, "the account's keys", row["source"])
            holds(not Path(folder, "keys.toml").exists(), "the keys' text is left")


def verifiers(salt: bytes) -> tuple[str, str]:
    """The verifiers of the password `pencil` for SCRAM-SHA-256."""
    return texts("SCRAM-SHA-256", 4096, salt.hex(), *keys_of("sha256", b"pencil", salt, 4096))


# Those of RFC 7677's user
VERIFIERS = verifiers(base64.b64decode("W22ZaJ0SNY7soEsUEjb6gQ=="))


def a_verifier_there_and_back(folder: str) -> None:
    """The verifier of RFC 7677's user is read in either form, and written in both. The recorded login of that user is clean by the book. A
    name that TOML has to quote is written as a command saves it."""
    with_tools(folder, BOOK_OF_USER.replace("user", "other"))
    of_postgresql, of_dovecot = VERIFIERS
    does(folder, INTO, f"{of_postgresql}\n")
    does(folder, OUT, printed=f"{of_postgresql}\n{of_dovecot}\n")
    does(folder, filled(INTO, {NAME: "user"}), f"{of_postgresql}\n")
    does(folder, "grep 'sha256]$' book.toml", printed=f'[accounts."{NAME}".sha256]\n[accounts.user.sha256]\n')
    does(folder, f"scramotp audit --book book.toml --log {AUDITS / 'sha256.log'}", printed=f"{CLEAN}\n")
    for trial, name in each(["a-b_1", "a b", 'a"b', "a\\b", "it's", "it's \"b\"", "q\"\\'@ x"]):
        with trial:
            does(folder, f"tools/from-verifier {shlex.quote(name)} >keys.toml", f"{of_dovecot}\n")
            header = Path(folder, "keys.toml").read_text().split("\n")[1]
            does(folder, f"tools/drop-tables {shlex.quote(header)} <keys.toml", printed="\n")
            changes(folder, "tools/edit-book book.toml cat - keys.toml", lambda accounts: accounts.update({name: accounts["user"]}))


def no_verifiers(folder: str) -> None:
    """A text that is no verifier is refused, and the book stays as it is."""
    with_tools(folder, BOOK_OF_USER)
    (of_postgresql, of_dovecot), fault = VERIFIERS, "from-verifier: not a verifier of PostgreSQL or Dovecot\n"
    faulty = [("256", "512"), ("==", "="), ("4096", "-1"), ("4096", "4_096")]
    no_texts = ["", "md5c0ffee", *(of_postgresql.replace(*it) for it in faulty)]
    no_texts += [f"{{{of_dovecot}", of_dovecot.replace(",", ":", 1), f"{of_dovecot},"]
    no_texts += [re.sub("[^,]+$", base64_of(bytes(size)), of_dovecot) for size in (33, 31)]
    for trial, text in each(no_texts):
        with trial:
            refused(folder, "tools/from-verifier new", fault, f"{text}\n")
            refused(folder, INTO, fault, f"{text}\n", status=0)


def a_code_of_a_service(folder: str) -> None:
    """The words by which another user's service runs `check-code` are those that the line for sudo allows. Here a stand-in for sudo runs
    them as the same user."""
    book = with_tools(folder, BOOK_OF_USER + hotp(look_ahead=0, limit=9))
    page = filled(PAGE.text, {INSTALLED: str(TOOLS), f"{PLACE}/book.toml": str(book)})
    [allowed] = re.findall(r"^`web ALL=\(scramotp\) NOPASSWD: (.*)`$", page, re.M)
    [call] = re.findall(r"^`(printf .* \| sudo .*)`$", page, re.M)
    stand_in(folder, "sudo", '[ "$1 $2 $3" = "-n -u scramotp" ] && shift 3 && echo "$@" >asked && exec "$@"')
    for trial, (it, status) in each([(CODES[0], 0), (CODES[0], 1), ("000000", 1)]):
        with trial:
            equal(ran(folder, f"code={it} name=user\n{call}"), (status, "", ""), it)
            asked = Path(folder, "asked").read_text().removesuffix("\n")
            holds(fnmatch.fnmatchcase(asked, allowed), "sudo is asked for what its line does not allow", asked, allowed)


def keys_at_fault(folder: str) -> None:
    """Something is printed for each book that is refused with 62, and nothing for a book that is read."""
    with_tools(folder, BOOK_OF_USER.replace("4096", '"4096"').replace("format = 1", "format = 1\nx = 1\nz = 1\ny = 1"))
    for trial, (header, fault) in each([("user@example.org", "bad book: 60"), ("example.org", "bad book: 62"), (f'"{NAME}"', "no token")]):
        with trial:
            Path(folder, "named.toml").write_text(BOOK_OF_USER + f"\n[accounts.{header}]\n")
            refused(folder, "scramotp unlock --book named.toml --name user", f"scramotp: {fault}\n")
    wrong = ["'x' is unknown", "'z' is unknown", "'y' is unknown", "'decoy_count' has the wrong type"]
    does(folder, FIND_KEYS, printed="".join(f"the document: {line}\n" for line in wrong))
    for trial, text in each([b"x = \n", b"x = '\xff'\n", TOO_DEEP]):
        with trial:
            Path(folder, "none.toml").write_bytes(text)
            answer = ran(folder, "tools/find-key none.toml")
            equal(answer, (1, "", answer.faults), "a text that is not TOML")
            holds(re.fullmatch(r"find-key: not TOML: [^\n]*\n", answer.faults), "a text that is not TOML is not named so", answer.faults)
    faulty = [case for case in cases() if case.answer == "62" or not case.answer.isdigit()]
    for number, case in enumerate(faulty):
        Path(folder, str(number)).write_bytes(case.book)
    with ThreadPoolExecutor(4) as pool:
        found = list(pool.map(lambda number: ran(folder, f"tools/find-key {number}"), range(len(faulty))))
    for trial, ((status, output, faults), case) in each(zip(found, faulty)):
        with trial:
            equal((status, faults, output != ""), (0, "", case.answer == "62"), case, output)
    holds({case.answer for case in faulty} > {"62"}, "the table has too few answers")


def a_backup(folder: str) -> None:
    """A copy has the book's text, and nobody else can read it. The newest copy is put back."""
    book = with_tools(folder, BOOK_OF_USER)
    does(folder, COPY, TZ="SUMMER-2")
    [found] = Path(folder, "backups").iterdir()
    equal(found.read_bytes(), book.read_bytes(), "the text of the copy")
    equal((found.stat().st_mode & 0o777, found.parent.stat().st_mode & 0o777), (0o600, 0o700), "the modes of the copy and of its folder")
    Path(folder, "backups", "book-20010203T040506Z.toml").write_text("older\n")
    does(folder, "tools/edit-book book.toml sed s/4096/4097/")
    does(folder, PUT_BACK)
    equal(book.read_text(), BOOK_OF_USER, "the book that is put back")
    # A copy that is made later, after the local clock went back
    newer = BOOK_OF_USER.replace("4096", "4098")
    book.write_text(newer)
    until(lambda: time.time() > found.stat().st_mtime + 1, "a second should pass")
    does(folder, COPY, TZ="WINTER-1")
    book.write_text(BOOK_OF_USER)
    does(folder, PUT_BACK)
    equal(book.read_text(), newer, "the book that is put back after the clock went back")


def a_shell(folder: str) -> None:
    """Only as root, and with nobody instead of the user that is made: the folder belongs to the user and is closed to others, and the
    shell runs as the user in the folder."""
    block = filled(SHELL, {"make install\nuseradd --system --user-group scramotp\n": ""})
    if is_root():
        os.chmod(folder, 0o711)
        user, place = nobody(), os.path.realpath(Path(folder, "place"))
        block = filled(block, {PLACE: place, "-g scramotp": f"-g {grp.getgrgid(user.pw_gid).gr_name}", "scramotp": user.pw_name})
        does(folder, block, "id -un; pwd; stat -c '%a %U' .\n", f"{user.pw_name}\n{place}\n700 {user.pw_name}\n")


def every_tool(folder: str) -> None:
    """The table of tools lists each of them, with its usage. Without words, a tool prints its usage."""
    Path(folder, "tools").symlink_to(TOOLS)
    told = re.findall(r"^\| `(\S+) (.*?)` \|", PAGE.sections["The tools"], re.M)
    equal({name for name, _ in told}, set(os.listdir(TOOLS)), told)
    for trial, (name, words) in each(told):
        with trial:
            usage = f"{name} {words}: "
            holds(usage in (TOOLS / name).read_text(encoding="utf-8"), "the usage is not in the tool", name, words)
            status, output, faults = ran(folder, f"tools/{name}")
            equal((status, output), (2 if name == "log-report" else 1, ""), name, faults)
            holds(faults.startswith(usage) and faults.count("\n") == 1, "the tool without words does not print its usage", name, faults)


def all_in_order(folder: str) -> None:
    """The shell blocks, except the first and that of `serve-hall`, one after another in one folder: each succeeds, prints what it should,
    and leaves the shell as it was."""
    both = verifiers(bytes(range(16)))
    inputs = {"Start": "pencil\n", "Change a password": "another one\n", "Keys from PostgreSQL and Dovecot": both[0] + "\n"}
    with_incident(folder)
    printed = []
    for title, language, block in PAGE.all:
        if language == "sh" and block not in (SHELL, SERVE):
            output = ran(folder, LEAVES_NOTHING.format(block.replace(INSTALLED, str(TOOLS))), inputs.get(title, "")).given(title)
            equal(re.findall("^left: (.*)", output, re.M), [], "what a block leaves in the shell", title)
            printed += output.splitlines() if block != REPORT else []
    added, secret, ahead, freed, *told, of_postgresql, of_dovecot = printed
    equal((added, freed), (f"enrolled {NAME}", f"unlocked {FOB}"), printed)
    equal(set(told), {f"{NAME}: sha1 keys, sha256 keys", f"{FOB}: hotp token (next 10, 0 failures)"}, printed)
    equal((of_postgresql, of_dovecot), both, printed)
    equal(len(base64.b32decode(secret)), 20, printed)
    holds(re.fullmatch(r"PASS \d+ 9", ahead), "the fob's codes do not pass", ahead, printed)
    accounts = accounts_of(folder)
    equal((set(accounts), set(accounts[NAME])), ({NAME, RENAMED}, {"sha256"}), accounts)


def units(folder: str) -> None:
    """The commands of the two units do what they should, with the folders that systemd would give them."""
    state, credentials = Path(folder, "state"), Path(folder, "credentials")
    state.mkdir(0o700)
    credentials.mkdir(0o700)
    (credentials / "password").write_text("pencil\n")
    where = {"STATE_DIRECTORY": str(state), "CREDENTIALS_DIRECTORY": str(credentials)}
    for unit, printed in zip(UNITS, ["enrolled user", CLEAN], strict=True):
        for name in re.findall(r"^LoadCredential\w*=([\w.]+):", unit, re.M):
            source = AUDITS / {"before.toml": "hotp.toml", "log.txt": "sha1.log"}.get(name, "")
            if source.is_file():
                (credentials / name).write_bytes(source.read_bytes())
            holds((credentials / name).is_file(), "no file is known for the credential", name)
        equal(suite.ran(shlex.split(command_of(unit)), env=program_on_path(folder, **where)), (0, f"{printed}\n", ""), unit)
    has_keys_of(read_book(state / "book.toml")["accounts"]["user"], b"pencil", 4096)


def command_of(unit: str, key: str = "ExecStart") -> str:
    """The command of a unit, or its only value of another key."""
    [found] = re.findall(rf"^{key}=(.*)$", unit, re.M)
    return found


def with_incident(folder: str | Path) -> None:
    """Puts the log of an incident into the folder, with its book and the file of its clients, under the names that `serve-hall` gives."""
    for end, name in [("log", "hall.log"), ("toml", "hall.log.toml"), ("log.clients", "hall.log.clients")]:
        shutil.copy(DATA / f"reports/incident.{end}", Path(folder, name))


def audits(folder: str, block: str, logs: list[str], answers: list[str], status: int = 0) -> list[str]:
    """Puts these logs into the folder instead of those there, by the names that the unit gives, each with its book, and all but the newest
    with files of its clients and of its audit. Runs a block, which has to give these answers, in this order. Returns the logs' names."""
    for path in Path(folder).glob("hall-*"):
        path.unlink()
    names = [f"hall-{1700000000 + number}.log" for number in range(len(logs))]
    for name, log in zip(names, logs):
        shutil.copy(AUDITS / f"{log}.log", Path(folder, name))
        shutil.copy(AUDITS / BOOKS_OF_LOGS[log], Path(folder, f"{name}.toml"))
    for name in names[:-1]:
        for end in "clients", "audited":
            Path(folder, f"{name}.{end}").touch()
    due = "".join(f"{name}: {answer}\n" for name, answer in zip(names, answers))
    equal(ran(folder, block), (status, due, ""), logs)
    return names


def ended_logs(folder: str) -> None:
    """Each log but the newest is audited by the book beside it. The status is 1 if one is not clean, and 0 if there is only one log or
    none."""
    for trial, (logs, *due) in each([
        ([], []),
        (["sha1"], []),
        (["sha1", "sha256", "twice"], [CLEAN, CLEAN]),
        (["twice", "sha1", "sha256"], [AT_FAULT, CLEAN], 1),
    ]):
        with trial:
            audits(folder, AUDIT_LOGS, logs, *due)


def removed_logs(folder: str) -> None:
    """Each clean log but the newest is removed with the book and the file of its clients. One at fault stays, with all that it has."""
    audits(folder, REMOVE_LOGS, [], [])
    names = audits(folder, REMOVE_LOGS, ["sha1", "twice", "sha256", "sha1"], [CLEAN, AT_FAULT, CLEAN])
    left = sorted(path.name for path in Path(folder).glob("hall-*"))
    equal(left, [names[1], *(f"{names[1]}.{it}" for it in ["audited", "clients", "toml"]), names[3], f"{names[3]}.toml"], "what is left")


def who_got_in(folder: str) -> None:
    """The rows of the refused are printed, and a table of what came of each session; a page of it is written that nobody else can read. The
    words by which the section leads through the page are on it."""
    Path(folder, "tools").symlink_to(TOOLS)
    with_incident(folder)
    output, page = ran(folder, REPORT).given(), Path(folder, "report.html")
    lines = output.splitlines()
    refused = [row for row in (DATA / "reports" / "incident.rows").read_text().splitlines() if row.split(" ")[2] == "refused"]
    equal(lines[:len(refused) + 1], [*refused, lines[-1]], "the rows of the refused, and the audit")
    equal(lines[-1], "clean sessions=23 accepted=5 codes=3", "the audit", output)
    holds(page.is_file(), "no page is written", output)
    equal(page.stat().st_mode & 0o777, 0o600, "the mode of the page")
    said = re.findall(r"`([a-z]+ [a-z ]+)`|(?<!\*)\*([A-Z][a-z, ]+)\*(?!\*)", PAGE.sections["After an incident"])
    missing = {one or other for one, other in said if f">{one or other}<" not in page.read_text()}
    equal((missing, len(said)), ({"scramotp report"}, 6), "what the section says that is not on the page", said)


def a_new_log_each_night(folder: str) -> None:
    """The command of the timer's service restarts the unit that the page names, and systemd knows the timer's time."""
    equal(command_of(NIGHT), "systemctl try-restart scramotp-hall.service", "the command at night")
    holds("`/etc/systemd/system/scramotp-hall.service`" in PAGE.text, "the page does not name the unit")
    at = command_of(TIMER, "OnCalendar")
    if has("what systemd makes of the units", "systemd-analyze"):
        status, output, _ = suite.ran(["systemd-analyze", "calendar", at])
        equal((status, "Next elapse" in output), (0, True), at, output)


def units_are_known(folder: str) -> None:
    """systemd knows each key and value of the units, and not a key whose first two letters change places. It is not run: its command
    `systemd-analyze verify` reads them. What that says of other units of the machine is left out. A timer is read beside the service before
    it in the page, which it starts."""
    if not has("what systemd makes of the units", "systemd-analyze"):
        return
    before = ""
    for trial, (title, _, unit) in each([block for block in PAGE.all if block[1] == "ini"]):
        with trial:
            kind = "timer" if "[Timer]" in unit else "service"
            for text, told in [(unit, ""), (re.sub(r"^(\w)(\w)(?=\w*=)", r"\2\1", unit, count=1, flags=re.M), "Unknown key")]:
                Path(folder, "tested.service").write_text(before)
                Path(folder, f"tested.{kind}").write_text(text)
                status, _, faults = suite.ran(["systemd-analyze", "verify", f"{folder}/tested.{kind}"])
                of_it = [line for line in faults.splitlines() if re.search(r"\btested\.(?:service|timer)\b", line)]
                equal((status, bool(of_it)), (0, bool(told)), title, faults)
                holds(all(told in line for line in of_it), title, faults)
        before = unit


def a_unit_of_a_hall(folder: str) -> None:
    """The unit's command, with other folders, serves: the log has the name that the unit gives, and after TERM it is clean by the book
    beside it."""
    # What systemd does with these is not tested, and what they are for is said below the unit.
    lines = ["KillMode=mixed", "UMask=0077", "RuntimeDirectoryMode=0700", "StateDirectoryMode=0700", "LimitCORE=0", "Restart=on-failure"]
    equal([line for line in lines if f"\n{line}\n" not in HALL_UNIT], [], "what the unit lacks")
    with_tools(folder, BOOK_OF_USER)
    command = filled(command_of(HALL_UNIT), {"$$": "$", "%%": "%", INSTALLED: str(TOOLS), "/run/scramotp/": f"{folder}/"})
    serving = start(folder, f"exec {command}")
    with socket.socket(socket.AF_UNIX) as client:
        client.settimeout(LIMIT_OF_LINES)
        until(lambda: client.connect_ex(f"{folder}/hall.sock") == 0, "a client should be able to connect")
        equal(client.recv(1), b"M", "the beginning of the greeting")
    serving.process.send_signal(signal.SIGTERM)
    serving.ends(0)
    [log] = Path(folder).glob("hall-*.log")
    holds(re.fullmatch(r"hall-\d+\.log", log.name), "the log has another name", log.name)
    does(folder, f"scramotp audit --book {log.name}.toml --log {log.name}", printed="clean sessions=1 accepted=0 codes=0\n")


def what_is_watched(folder: str) -> None:
    """The commands of the section on watching count what their rows say, in a log of a hall."""
    counts = re.findall(r"^\| [^|]* \| `((?:grep|wc) [^`]*hall\.log)`", PAGE.sections["Watch a server"], re.M)
    lines = ["SCRAMLOG 2", "1 S MECHS SCRAM-SHA-256 SCRAM-SHA-1", "1 S NO :e=invalid-proof", "1 E", "2 S BUSY", "2 E", "3 S LOCKED 59"]
    lines += ["4 S NO :e=invalid-proof", "5 C CODE BUSY", "6 S NO :e=invalid-encoding", "7 C CODE FAIL", "7 S FAIL 59"]
    Path(folder, "hall.log").write_text("".join(f"{line}\n" for line in lines))
    due = {"wc -l <hall.log": "12", "NO :e=invalid-proof": "2", "FAIL": "1", "LOCKED": "1", "BUSY": "1"}
    for command in counts:
        [count] = [count for words, count in due.items() if words in command]
        equal(ran(folder, command), (0, f"{count}\n", ""), command)
    equal(len(counts), len(due), "the commands of the section", counts)


def every_block(folder: str) -> None:
    """No block of the document is left out."""
    equal(PAGE.left, [], "blocks that no test takes")


suite.run_all()
