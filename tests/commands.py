#!/usr/bin/env python3
"""What the built program prints, with which status it ends, and what it writes to a book, case by case."""
import itertools
import os
import re
import stat
import time
from hmac import digest
from pathlib import Path

import suite
from checks import equal, holds
from expected import DATA, HASHES, keys_of
from help_pages import example_ran, help_of, listed_commands
from processes import ran
from suite import (
    BOOK_OF_USER, KEYS_OF_PENCIL, PROGRAM, SALT, SECRET, SEEDS, BookFolder, each, fault_text, hotp, prints, read_book, totp, within,
)

# 64 bytes
LONGEST = "00112233445566778899aabbccddeeff00112233445566778899AABBCCDDEEFF" * 2

TOTP = totp(limit=3)

# The help pages
HELP = DATA / "help"

# What the example of each command prints, in an order in which they can be run: the keys of RFC 5802's example, from Python's hashlib;
# RFC 4226, appendix D, and RFC 6238, appendix B; the first code of RFC 4226 once more; logs in which no login was accepted; a log of a
# login and a code; a hall in which no login was accepted.
EXAMPLES = [
    ("keys", KEYS_OF_PENCIL),
    ("code", "755224\n94287082\n"),
    ("enrol", "enrolled user\n"),
    ("verify", "PASS {} 0\n"),
    ("unlock", "unlocked user\n"),
    ("audit", "clean sessions=1 accepted=0 codes=0\n"),
    ("report", "3 1 left - - - -\nclean sessions=1 accepted=0 codes=0\n"),
    ("upgrade", "clean sessions=1 accepted=0 codes=0\n"),
    ("login", "clean sessions=1 accepted=1 codes=1\n"),
    ("hall", "clean sessions=2 accepted=0 codes=0\n"),
]


def check(words: list, text: str | bytes, status: int, printed: str = "", fault: str = "") -> None:
    """Runs the program, and compares its status, output and fault, which is given without its prefix."""
    prints([PROGRAM, *words], text, status, printed, fault)


def keys(mechanism: str, salt: str, count: str) -> list[str]:
    return ["keys", "--mechanism", mechanism, "--salt", salt, "--count", count]


def words_on(book: str | Path, command: str, *more: str | Path) -> list:
    """The words of a command on the account `user`."""
    return [command, "--book", book, "--name", "user", *more]


def passwords(folder: str) -> None:
    """The first line is the password: 1 to 1024 bytes from space to tilde."""
    words = keys("SCRAM-SHA-1", SALT, "4096")
    for trial, text in each([b"pencil\n", b"pencil", b"pencil\nanother\n", b"pencil\n\x7f", b"pencil\n\xff"]):
        with trial:
            check(words, text, 0, KEYS_OF_PENCIL)
    for trial, text in each(["", "\n", "\npencil\n", "pen\x7fcil\n", "pen\tcil\n", "pencil\r\n", "p\xe9ncil\n", "a" * 1025]):
        with trial:
            check(words, text, 2, fault="bad password")


def key_lines(name: str, password: bytes, salt: bytes, count: int) -> str:
    """The two lines of `keys`, from Python's own Hi and HMAC (RFC 5802, section 3)."""
    stored, server = keys_of(HASHES[name], password, salt, count)
    return f"stored={stored}\nserver={server}\n"


def values_at_their_limits(folder: str) -> None:
    """The longest password and salts, and the least count. The greatest count takes too long, so it is only seen to be accepted."""
    mechanisms = ["SCRAM-SHA-1", "SCRAM-SHA-256"]
    for trial, (mechanism, (salt, count)) in each(itertools.product(mechanisms, [("00", 1), (LONGEST, 2)])):
        with trial:
            printed = key_lines(mechanism, b"a" * 1024, bytes.fromhex(salt), count)
            check(keys(mechanism, salt, str(count)), "a" * 1024, 0, printed)
    for trial, mechanism in each(mechanisms):
        with trial:
            check(keys(mechanism, "00", "4294967295"), "", 2, fault="bad password")


def bad_values(folder: str) -> None:
    """Options are checked in the order mechanism, salt, count, and before the password."""
    for trial, (mechanism, salt, count, option) in each([
        ("SCRAM-SHA-512", SALT, "4096", "mechanism"),
        ("scram-sha-1", "", "0", "mechanism"),
        ("", SALT, "4096", "mechanism"),
        ("SCRAM-SHA-1", "", "4096", "salt"),
        ("SCRAM-SHA-1", "4", "0", "salt"),
        ("SCRAM-SHA-1", "4x", "4096", "salt"),
        ("SCRAM-SHA-1", "0x41", "4096", "salt"),
        ("SCRAM-SHA-1", "41 25", "4096", "salt"),
        ("SCRAM-SHA-1", LONGEST + "00", "4096", "salt"),
        ("SCRAM-SHA-1", SALT, "", "count"),
        ("SCRAM-SHA-1", SALT, "0", "count"),
        ("SCRAM-SHA-1", SALT, "04096", "count"),
        ("SCRAM-SHA-1", SALT, "+4096", "count"),
        ("SCRAM-SHA-1", SALT, "4096 ", "count"),
        ("SCRAM-SHA-1", SALT, "4_096", "count"),
        ("SCRAM-SHA-1", SALT, "4294967296", "count"),
        ("SCRAM-SHA-1", SALT, "18446744073709551617", "count"),
    ]):
        with trial:
            check(keys(mechanism, salt, count), "", 2, fault=f"bad value for --{option}")


def codes(folder: str) -> None:
    """RFC 4226, appendix D, and RFC 6238, appendix B."""
    for trial, (secret, words, printed) in each([
        (SECRET, "--counter 0", "755224"),
        (SECRET, "--counter 9 --hash sha512 --moment 59", "520489"),
        (SECRET, "--digits 8 --moment 59", "94287082"),
        (SECRET, "--digits 8 --moment 20000000000", "65353130"),
        (SECRET, "--digits 8 --moment 69 --t0 10", "94287082"),
        (SECRET, "--digits 8 --moment 119 --step 60", "94287082"),
        (SEEDS["sha256"], "--digits 8 --moment 1111111109 --hash sha256", "68084774"),
        (SEEDS["sha512"], "--digits 8 --moment 1111111109 --hash sha512", "25091201"),
    ]):
        with trial:
            check(["code", "--secret", secret, *words.split()], "", 0, printed + "\n")


def bad_codes(folder: str) -> None:
    """Options are checked in the order secret, digits, counter, moment, hash, t0, step, and only then used."""
    def refused(words: list, status: int, fault: str, secret: str = SECRET) -> None:
        check(["code", "--secret", secret, *words.split()], "", status, fault=fault)

    refused("", 2, "needs --counter or --moment")
    refused("--moment 5 --t0 10", 1, "before the first step")
    refused("--digits 9", 2, "bad value for --secret", secret=SECRET[:18])
    for trial, (option, words) in each([
        *[("digits", it) for it in ["--digits 9 --counter 0", "--digits 9 --counter x", "--digits 5", "--digits 06"]],
        ("counter", "--counter 9223372036854775807 --moment x"),
        ("counter", "--counter=-1"),
        ("moment", "--moment 253402300800 --hash md5"),
        ("hash", "--hash SHA1 --t0 x"),
        ("t0", "--t0 253402300800 --step 0"),
        *[("step", it) for it in ["--step 0", "--step 3601", "--counter 1 --step 0"]],
    ]):
        with trial:
            refused(words, 2, f"bad value for --{option}")


def usage(folder: str) -> None:
    """Words that name no command or no option, or that leave out what is needed."""
    missing = "error: the following required arguments were not provided:\n  "
    for trial, (words, begin) in each([
        ("", "error: 'scramotp' requires a subcommand but one was not provided"),
        ("nothing", "error: unrecognized subcommand 'nothing'"),
        ("help", "error: unrecognized subcommand 'help'"),
        ("keys --salt 00 --count 1", f"{missing}--mechanism <NAME>"),
        ("audit --book book", f"{missing}--log <FILE>"),
        ("login --book book --name user", f"{missing}--socket <FILE>"),
        ("hall", f"{missing}--book <FILE>"),
        ("upgrade", f"{missing}--log <FILE>"),
        ("audit --log log", f"{missing}--book <FILE>"),
        ("report --book book", f"{missing}--log <FILE>"),
        ("keys --salt 00 --salt 01", "error: the argument '--salt <HEX>' cannot be used multiple times"),
        ("keys --rounds 1", "error: unexpected argument '--rounds' found"),
        (f"code --secret {SECRET} --counter -1", "error: unexpected argument '-1' found"),
    ]):
        with trial:
            status, output, faults = ran([PROGRAM, *words.split()], "pencil\n")
            equal((status, output), (2, ""), words, faults)
            equal(faults[:len(begin)], begin, words.split(), "the beginning of the fault")


def help_and_version(folder: str) -> None:
    """Each help page is that in data/help, and each page there belongs to a command or to the program."""
    check(["--version"], "", 0, "scramotp 0.1.0\n")
    pages = {"scramotp": [], **{command: [command] for command, _ in EXAMPLES}}
    equal({path.stem for path in HELP.iterdir()}, set(pages), "the pages in data/help")
    for trial, (name, words) in each(pages.items()):
        with trial:
            equal(help_of(words), (HELP / f"{name}.txt").read_text(), f"{name}.txt")
    equal(sorted(listed_commands()), sorted(command for command, _ in EXAMPLES), "the commands that the help lists")


def example_of(command: str) -> tuple[list[str], str]:
    """The commands whose examples have to be run before that of this command, as its help names them; and its example."""
    form = r"^Examples?(?:, after (?:that|those) of ([a-z]+(?: and [a-z]+)*))?:.*\n((?:  .*\n?)+)\Z"
    [(before, example)] = re.findall(form, help_of([command]), re.M)
    return before.split(" and ") if before else [], example


def runs_example(folder: str | Path, command: str) -> None:
    """The example of a command runs as it stands, with the program on the PATH; that of `verify` prints the present moment."""
    began = int(time.time())
    output = example_ran(folder, example_of(command)[1]).given(command)
    due = [dict(EXAMPLES)[command].format(moment) for moment in range(began, int(time.time()) + 1)]
    holds(output in due, f"what the example of {command} prints is none of", due, output)


def examples(folder: str) -> None:
    """All examples run in a folder that is empty at first. Nobody else can read what they leave, even with umask 0."""
    for command, _ in EXAMPLES:
        runs_example(folder, command)
    equal(os.listdir(folder), ["logins"], "the files in the folder")
    modes = {path.name: stat.S_IMODE(path.stat().st_mode) for path in [Path(folder, "logins"), Path(folder, "logins", "book.toml")]}
    equal(modes, {"logins": 0o700, "book.toml": 0o600}, "the modes of the folder and of the book")


def examples_alone(folder: str) -> None:
    """Each example needs only those that it names."""
    for trial, (command, _) in each(EXAMPLES):
        with trial:
            before, _ = example_of(command)
            place = within(folder, command)
            for needed in [*before, command]:
                runs_example(place, needed)


def server_signature(folder: str) -> None:
    """The server key makes the signature that RFC 7677, section 3, prints for its example."""
    auth_message = (
        b"n=user,r=rOprNGfwEbeRWgbNEkqO,"
        b"r=rOprNGfwEbeRWgbNEkqO%hvYDpWUa2RaTCAfuxFIlj)hNlF$k0,s=W22ZaJ0SNY7soEsUEjb6gQ==,i=4096,"
        b"c=biws,r=rOprNGfwEbeRWgbNEkqO%hvYDpWUa2RaTCAfuxFIlj)hNlF$k0"
    )
    words = keys("SCRAM-SHA-256", "5b6d99689d12358eeca04b141236fa81", "4096")
    stored, server = ran([PROGRAM, *words], "pencil\n").given().splitlines()
    holds(stored.startswith("stored=") and server.startswith("server="), "the two lines of keys", stored, server)
    signature = digest(bytes.fromhex(server.removeprefix("server=")), auth_message, "sha256").hex()
    equal(signature, "eabae24d1062db75a9451ff0b6ea7e98c8546549ff741e672d3251b2397de46e", "the signature made with", server)


def hotp_codes(folder: str) -> None:
    """Codes of RFC 4226, appendix D: each passes once, in order, and at most three counters ahead."""
    here = BookFolder(folder, BOOK_OF_USER, hotp(3, 3))
    text = "755224\n755224\n338314\n359152\n162583\n755224x\n"
    here.verifies(text, 1, "PASS 5 0\nFAIL 5\nPASS 5 4\nFAIL 5\nPASS 5 7\nFAIL 5\n")
    here.token_has(next=8, failures=1)
    here.verifies("755224", 1, "FAIL 5\n")
    here.verifies("399871", 0, "PASS 5 8\n")
    here.verifies("", 0, "")
    here.verifies("\n", 1, "FAIL 5\n")


# The codes of counters 8 and 9, as a line of `verify`.
FAR_PAIR = "SYNC 399871 520489\n"


def pairs_of_codes(folder: str) -> None:
    """A line `SYNC text text` passes with two codes of RFC 4226, appendix D, in a row, and spends both. Without the key sync_ahead it
    passes only with those of the next two counters."""
    here = BookFolder(folder)
    runs = [
        (8, "399871\nSYNC 338314 969429\n" + FAR_PAIR, "FAIL 5\nFAIL 5\nPASS 5 9\n"),
        (8, "SYNC 969429 338314\n338314\n969429\n254676\n", "PASS 5 4\nFAIL 5\nFAIL 5\nPASS 5 5\n"),
        (8, "SYNC 287082 969429\n" * 3 + "SYNC 755224 287082\n", "FAIL 5\n" * 3 + "LOCKED 5\n"),
        (7, FAR_PAIR, "FAIL 5\n"),
        (0, "SYNC 287082 359152\nSYNC 755224 287082\n", "FAIL 5\nPASS 5 1\n"),
        (None, "SYNC 287082 359152\nSYNC 755224 287082\n", "FAIL 5\nPASS 5 1\n"),
    ]
    for trial, (sync_ahead, text, printed) in each(runs):
        with trial:
            here.put(BOOK_OF_USER, hotp(3, 3, sync_ahead))
            here.verifies(text, 1, printed)
            here.token_has(sync_ahead=sync_ahead or 0)
    # Beyond the window of one code a pair counts no failure.
    here.put(BOOK_OF_USER, hotp(3, 3, 8))
    here.verifies(FAR_PAIR, 0, "PASS 5 9\n")
    here.token_has(next=10, failures=0)


def texts_that_are_no_pair(folder: str) -> None:
    """Lines that only look like `SYNC text text` are codes that fail."""
    here = BookFolder(folder, BOOK_OF_USER, hotp(3, 100, 8))
    for trial, line in each(["SYNC 755224", "SYNC 755224  287082", "SYNC  755224 287082", "SYNC 755224 287082 ", " SYNC 755224 287082",
                 "sync 755224 287082", "SYNC 755224 287082\r", "SYNC 755224 287082 359152", "SYNC\t755224 287082",
                 "C SYNC 755224 287082", "CODE 755224"]):
        with trial:
            here.verifies(line, 1, "FAIL 5\n")
    here.verifies("SYNC 755224 287082", 0, "PASS 5 1\n")


def two_steps_in_a_row(folder: str) -> None:
    """A TOTP token accepts no two codes in a row: a line `SYNC text text` fails, and counts as a failure."""
    here = BookFolder(folder, BOOK_OF_USER, TOTP)
    here.verifies("SYNC 94287082 37359152\n94287082\n", 1, "FAIL 59\nPASS 59 1\n", moment="59")
    here.verifies("SYNC 37359152 37359152\n" * 4, 1, "FAIL 59\n" * 3 + "LOCKED 59\n", moment="59")


def totp_codes(folder: str) -> None:
    """Codes of RFC 6238, appendix B: that of the next step passes too, and no code passes again, or after one of a later step."""
    here, moment = BookFolder(folder, BOOK_OF_USER, TOTP), "1111111109"
    here.verifies("14050471\n07081804\n", 1, f"PASS {moment} 37037037\nFAIL {moment}\n", moment=moment)
    here.put(BOOK_OF_USER, TOTP)
    text = "07081804\n07081804\n14050471\n07081804\n14050471\n14050471x\n"
    printed = "PASS {0} 37037036\nFAIL {0}\nPASS {0} 37037037\nFAIL {0}\nFAIL {0}\nFAIL {0}\n"
    here.verifies(text, 1, printed.format(moment), moment=moment)
    here.token_has(last=37037037, drift=1, failures=3)
    here.verifies("14050471", 1, f"LOCKED {moment}\n", moment=moment)
    here.put(BOOK_OF_USER, TOTP)
    here.verifies("94287082", 0, "PASS 59 1\n", moment="59")
    here.verifies("94287082", 1, "FAIL 59\n", moment="59")


def totp_codes_of_each_hash(folder: str) -> None:
    """Codes of RFC 6238, appendix B, at tokens with each hash function: each passes once, and none at a token with another one."""
    here, moment = BookFolder(folder), "1111111109"
    codes_of = {"sha1": "07081804", "sha256": "68084774", "sha512": "25091201"}
    for trial, (function, passes) in each(codes_of.items()):
        with trial:
            here.put(BOOK_OF_USER, totp(5, function))
            others = [other for other in codes_of.values() if other != passes]
            printed = "FAIL {0}\nFAIL {0}\nPASS {0} 37037036\nFAIL {0}\n".format(moment)
            here.verifies("\n".join([*others, passes, passes]), 1, printed, moment=moment)
            here.token_has(hash=function, last=37037036, failures=1)


def locked_tokens(folder: str) -> None:
    """A locked token accepts no code until it is unlocked, and never again a code that has passed."""
    here = BookFolder(folder, BOOK_OF_USER, hotp(0, 2))
    here.verifies("000000\n111111\n755224\n", 1, "FAIL 5\nFAIL 5\nLOCKED 5\n")
    check(words_on(here.book, "unlock"), "", 0, "unlocked user\n")
    here.verifies("755224", 0, "PASS 5 0\n")
    here.put(BOOK_OF_USER, hotp(3, 3))
    here.verifies("755224\n000000\n000000\n000000\n", 1, "PASS 5 0\nFAIL 5\nFAIL 5\nFAIL 5\n")
    here.verifies("287082", 1, "LOCKED 5\n")
    check(words_on(here.book, "unlock"), "", 0, "unlocked user\n")
    here.verifies("755224", 1, "FAIL 5\n")


def enrolling(folder: str) -> None:
    """A new book, its account's keys for both mechanisms, and a name that is taken."""
    book, file = Path(folder, "book"), Path(folder, "random")
    file.write_bytes(bytes(range(64)))
    words = words_on(book, "enrol", "--random", file)
    check(words, "pencil\n", 0, "enrolled user\n")
    made = read_book(book)
    equal((made["decoy_key"], made["decoy_count"]), (bytes(range(32)).hex(), 4096), "the decoy key and the count of decoys", made)
    for trial, (mechanism, table, at) in each([("SCRAM-SHA-1", "sha1", 32), ("SCRAM-SHA-256", "sha256", 48)]):
        with trial:
            salt, found = bytes(range(at, at + 16)), made["accounts"]["user"][table]
            equal((found["salt"], found["count"]), (salt.hex(), 4096), f"the salt and the count of {table}", made)
            lines = f"stored={found['stored']}\nserver={found['server']}\n"
            equal(lines, key_lines(mechanism, b"pencil", salt, 4096), f"the keys of {table}", made)
    check(words, "pencil\n", 1, fault="name is taken")
    check(words_on(book, "verify", "--moment", "5"), "755224\n", 1, fault="no token")
    equal(sorted(os.listdir(folder)), ["book", "random"], "the files in the folder")


def words_that_are_no_text(folder: str) -> None:
    """A word that is not UTF-8 is refused before any word is looked at."""
    equal(ran([PROGRAM, "keys", "--salt", b"\xff"]), (2, "", "error: the arguments are not UTF-8 text\n"), "words that are not UTF-8")


def unprinted_help(folder: str) -> None:
    """Help that can't be printed is a fault of the output."""
    with open("/dev/full", "wb") as full:
        equal(ran([PROGRAM, "--help"], stdout=full), (3, "", fault_text("cannot write output")), "help on a full device")


suite.run_all()
