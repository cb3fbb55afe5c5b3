#!/usr/bin/env python3
"""Gives the built program random input: words of `code` and `keys`; lines of `verify`, for tokens with random keys; and books, logs and
events of a hall, a few edits from good ones.

Every run has to end within 2 seconds of processor time, not by a signal, with status 0, 1 or 2 and a documented fault. If a command
accepts its input, Python checks what follows. An input with any other result, or that the program accepts and Python does not, is kept as
a file fuzz-KIND-SEED-NUMBER in the folder in which the script was started, and ends its test. Some inputs of each kind have to be
accepted, so that not only refusals are tested.

COUNT in the environment, by default 300, is how many inputs of each kind are tried. Each is made from SEED, by default 1, and its own
number.
"""
import collections
import json
import os
import pathlib
import random
import re
import subprocess
import tempfile
import tomllib
from collections.abc import Callable, Iterator
from typing import Any

import suite
from checks import equal, fail, holds
from expected import AUDITS, AUTH, BOOK_FAULTS, DATA, MECHS, RESP, code, keys_of, numbered
from limits import limit
from log_reader import report_of
from processes import LIMIT, processor_time
from suite import BOOK_OF_USER, MEMORY, PROGRAM, SEED, read_book
from token_model import MOST_COUNTER, code_of, firsts_of_pairs, judged, step_at, window

COUNT = int(os.environ.get("COUNT") or 300)

BOOKS = sorted(BOOK_FAULTS.glob("*.toml"))
INCIDENT = DATA / "reports" / "incident.log"
# The most processor time of a run, whatever else the machine does.
SECONDS = limit(2)

# What an audit or an upgrade says of a log.
OF_A_LOG = rb"line \d+: [ -~]+\n|too many lines\n"

# What a command may say on standard error, by its status.
FAULTS = {
    0: rb"",
    1: rb"scramotp: (name is taken|no such account|no token|before the first step|bad book: 6[0-7]|bad event)\n",
    2: rb"scramotp: (bad value for --[a-z0-9-]+|bad password|needs --counter or --moment)\n|error: [ -~\n]*",
}
NUMBERS = [
    *[b"0", b"1", b"-1", b"01", b"+1", b"9", b"64", b"101", b"4096", b"65535", b"1e3", b"0x1f"],
    *[b"4294967295", b"4294967296", b"253402300799", b"253402300800"],
    *[b"9223372036854775806", b"9223372036854775807", b"9223372036854775808", b"18446744073709551616"],
]
BITS = [
    *[b"", b" ", b"\n", b"\r\n", b"\0", b"\x7f", b"\xff", b"\xc3\xa9", b"\xed\xa0\x80"],
    *[b"=", b",", b"%", b"%00", b"=2C", b"=3D", b'"', b"'", b"[", b"]", b"#", b"\\", b"\\u0000", b"{}"],
    *[b"n,,", b"y,,", b"p=x,,", b"a=", b"m=", b"r=", b"c=biws", b"x" * 300],
]


def run(words: list, data: bytes = b"") -> tuple[int, bytes]:
    """The status and the output of a run, whose faults have to be documented ones."""
    before = processor_time()
    try:
        done = subprocess.run([PROGRAM, *words], input=data, capture_output=True, timeout=LIMIT)
    except subprocess.TimeoutExpired:
        fail([words], ["it does not end"])
    holds(processor_time() - before <= SECONDS, words, "too long")
    # `audit` answers with a log's line at fault on standard output, and `report` after its rows; `upgrade` has no answer, and reports the
    # line as a fault.
    told, other = (done.stderr, done.stdout) if words[0] == "upgrade" else (done.stdout, done.stderr)
    last = told[told[:-1].rfind(b"\n") + 1:] if words[0] == "report" else told
    is_of_log = words[0] in ("audit", "report", "upgrade") and done.returncode == 1 and re.fullmatch(OF_A_LOG, last)
    if is_of_log:
        holds(other == b"", "it says more than what is wrong with the log", words, done)
        return done.returncode, told
    # `verify` ends with status 1 and no fault if a code did not pass.
    is_refusal = words[0] == "verify" and (done.returncode, done.stderr) == (1, b"")
    is_documented = is_refusal or done.returncode in FAULTS and re.fullmatch(FAULTS[done.returncode], done.stderr)
    holds(is_documented, "the status and the faults are not documented", words, done)
    return done.returncode, done.stdout


def altered(chosen: random.Random, text: bytes, others: list[bytes]) -> bytes:
    """The text after one to three edits: a part of it is removed, doubled or replaced."""
    for _ in range(chosen.randint(1, 3)):
        start = chosen.randrange(len(text) + 1)
        end = min(len(text), start + chosen.choice([0, 1, 1, 2, 5, 40]))
        numbers = list(re.finditer(rb"\d+", text))
        lines = text.splitlines(keepends=True) or [b""]
        kind = chosen.randrange(6)
        if kind == 0 and numbers:
            start, end = chosen.choice(numbers).span()
            text = text[:start] + chosen.choice(NUMBERS) + text[end:]
        elif kind == 1:
            at, to = chosen.randrange(len(lines)), chosen.randrange(len(lines))
            lines.insert(to, lines[at] if chosen.random() < 0.5 else lines.pop(at))
            text = b"".join(lines)
        elif kind == 2:
            other = chosen.choice(others).splitlines(keepends=True) or [b""]
            lines.insert(chosen.randrange(len(lines) + 1), chosen.choice(other))
            text = b"".join(lines)
        elif kind == 3:
            text = text[:start] + bytes([chosen.randrange(256)]) + text[end:]
        else:
            text = text[:start] + chosen.choice([*BITS, text[start:end] * 2]) + text[end:]
    return text


def a_book(folder: pathlib.Path, chosen: random.Random) -> Iterator[str | bytes]:
    """A book: the program reads what tomllib reads, a save changes only what its command says, and a second save changes nothing."""
    texts = [book.read_bytes() for book in BOOKS]
    text = altered(chosen, chosen.choice(texts), texts)
    yield text
    book = folder / "book"
    book.write_bytes(text)
    words = ["unlock", "--book", book, "--name", "user"]
    status, _ = run(words)
    if status != 0:
        equal(book.read_bytes(), text, "the refused book")
        return
    wanted = tomllib.loads(text.decode())
    wanted["accounts"]["user"]["token"]["failures"] = 0
    first = book.read_bytes()
    equal(plain(tomllib.loads(first.decode())), plain(wanted), "what the saved book states")
    equal(run(words)[0], 0, "a second save")
    equal(book.read_bytes(), first, "the book after a second save")
    log = folder / "log"
    log.write_bytes(b"SCRAMLOG 2\n")
    answer = run(["audit", "--book", book, "--log", log])
    holds(answer == (0, b"clean sessions=0 accepted=0 codes=0\n"), "the audit of a log without sessions is not clean", answer)
    yield "a book that is read"


def plain(book: dict[str, Any]) -> dict[str, Any]:
    """A book with values for what may be missing, and with its bytes in lower case."""
    accounts = {}
    for name, account in book.get("accounts", {}).items():
        tables = {key: lowered(table) if isinstance(table, dict) else table for key, table in account.items()}
        if tables.get("token", {}).get("kind") == "hotp":
            tables["token"].setdefault("sync_ahead", 0)
        accounts[name] = {"act_as": [], **tables}
    return {**book, "accounts": accounts, "decoy_key": book["decoy_key"].lower()}


def lowered(table: dict[str, Any]) -> dict[str, Any]:
    """A table with its texts in lower case."""
    return {key: value.lower() if isinstance(value, str) else value for key, value in table.items()}


def logs() -> Iterator[bytes]:
    """The recorded logs, each as it is, and those of version 1 also with numbers."""
    for path in sorted(AUDITS.glob("*.log")):
        text = path.read_bytes()
        yield text
        if text.startswith(b"SCRAMLOG 1\n"):
            yield numbered(text.decode()).encode()


def a_log(folder: pathlib.Path, chosen: random.Random) -> Iterator[str | bytes]:
    """A log: the lines before the one at fault begin a clean log, and an upgrade keeps the answer."""
    texts = [*logs()]
    text = altered(chosen, chosen.choice(texts), texts)
    yield text
    log = folder / "log"
    words = ["audit", "--book", AUDITS / chosen.choice(["keys.toml", "hotp.toml", "sha256.toml", "sync.toml"]), "--log", log]
    log.write_bytes(text)
    status, answer = run(words)
    reports(words, text, status, answer)
    upgraded, other = run(["upgrade", "--log", log])
    if upgraded == 0 and b"\nSCRAMLOG" not in text:
        log.write_bytes(other)
        equal(run(words), (status, answer), "the answer for the upgraded log")
        yield "an upgraded log"
    if status == 0:
        holds(is_clean((status, answer)), "the counts of a clean log", answer)
        yield "a clean log"
        return
    line = int(re.match(rb"line (\d+): ", answer)[1])
    before = b"".join(lines_of(text)[: line - 1])
    holds(line <= text.count(b"\n") + 1, "the line at fault is after the log's end", answer)
    log.write_bytes(before)
    front = run(words)
    cut_there = (1, b"line %d: cut\n" % line)
    holds(front == cut_there or is_clean(front) and line > 1, "the lines before", answer, front)
    yield "the lines before a fault"


def reports(words: list, text: bytes, status: int, answer: bytes) -> None:
    """Runs a report of a log with this text, of which an audit with these words has had this answer. Its rows have to be those by
    log_reader.py."""
    due = report_of(read_book(words[2]), text, answer.decode().removesuffix("\n"))
    equal(run(["report", *words[1:]]), (status, due.encode()), "the report")


def a_report(folder: pathlib.Path, chosen: random.Random) -> Iterator[str | bytes]:
    """A log a few edits from that of an incident, which has most kinds of rows: a report has those of the lines before the one at fault."""
    whole, log = INCIDENT.read_bytes(), folder / "log"
    text = altered(chosen, whole, [whole])
    yield text
    log.write_bytes(text)
    words = ["audit", "--book", INCIDENT.with_suffix(".toml"), "--log", log]
    answer = run(words)
    reports(words, text, *answer)
    yield "a clean log" if is_clean(answer) else "a log at fault"


def is_clean(answer: tuple[int, bytes]) -> bool:
    """Whether an audit answers that a log is clean."""
    return answer[0] == 0 and re.fullmatch(rb"clean sessions=\d+ accepted=\d+ codes=\d+\n", answer[1]) is not None


def lines_of(text: bytes) -> list[bytes]:
    """The lines of a text, each with its LF."""
    return [line + b"\n" for line in text.split(b"\n")[:-1]]


# The least and the greatest number of each option of `code` that takes one.
RANGES = {"--digits": (6, 8), "--counter": (0, 2**63 - 2), "--moment": (0, 253402300799), "--t0": (0, 253402300799), "--step": (1, 3600)}


def status_of_code(given: dict[str, str]) -> int:
    """The status with which `code` has to end for these options: 2 if a value is bad or one is missing, and 1 before the first step."""
    is_secret = re.fullmatch("(?:[0-9A-Fa-f]{2}){10,64}", given.get("--secret", "")) is not None
    is_hash = given.get("--hash", "sha1") in ("sha1", "sha256", "sha512")
    numbers = [(text, RANGES[name]) for name, text in given.items() if name in RANGES]
    are_numbers = all(re.fullmatch("0|[1-9][0-9]*", text) and least <= int(text) <= most for text, (least, most) in numbers)
    if not (is_secret and is_hash and are_numbers and ("--counter" in given or "--moment" in given)):
        return 2
    return 0 if "--counter" in given or int(given["--moment"]) >= int(given.get("--t0", 0)) else 1


def words_of_code(_: pathlib.Path, chosen: random.Random) -> Iterator[str | bytes]:
    """The words of `code`: it prints a code if all of them are right, and Python's hmac gives the same one."""
    odd = [it.decode() for it in NUMBERS]
    some = {
        "--secret": chosen.choice(["31" * 20, "00" * 10, "3132333435363738393031323334353637383930", "AB" * 64, "zz", "", "AB" * 65]),
        "--digits": chosen.choice(["6", "7", "8", "6", "7", "8", "5", "9"]),
        "--counter": chosen.choice([*odd, *map(str, range(30))]),
        "--moment": chosen.choice([*odd, *map(str, range(0, 3_000_000_000, 100_000_007))]),
        "--hash": chosen.choice(["sha1", "sha256", "sha512", "md5"]),
        "--t0": chosen.choice(["0", "0", "59", *odd]),
        "--step": chosen.choice(["1", "30", "30", "3600", "0", "3601"]),
    }
    given = {name: value for name, value in some.items() if chosen.random() < (0.95 if name == "--secret" else 0.5)}
    words = ["code", *[f"{name}={value}" for name, value in given.items()]]
    yield repr(words).encode()
    status, printed = run(words)
    equal(status, status_of_code(given), "the status", printed)
    if status != 0:
        equal(printed, b"", "the output")
        return
    secret, digits = bytes.fromhex(given["--secret"]), int(given.get("--digits", 6))
    if "--counter" in given:
        wanted = code(secret, int(given["--counter"]), digits)
    else:
        since = int(given["--moment"]) - int(given.get("--t0", 0))
        wanted = code(secret, since // int(given.get("--step", 30)), digits, given.get("--hash", "sha1"))
    equal(printed, f"{wanted}\n".encode(), "the code")
    yield "a code of a counter" if "--counter" in given else "a code of a moment"


def words_of_keys(_: pathlib.Path, chosen: random.Random) -> Iterator[str | bytes]:
    """The words and the password of `keys`: the keys are those from Python's hashlib."""
    salt = bytes(chosen.randrange(256) for _ in range(chosen.choice([0, 1, 12, 16, 64, 65])))
    name, function = chosen.choice([("SCRAM-SHA-1", "sha1"), ("SCRAM-SHA-256", "sha256")])
    count = chosen.choice(["1", "2", "4096", "4096", "0", "01", "4294967296"])
    letters = range(32, 127) if chosen.random() < 0.7 else range(256)
    password = bytes(it for it in chosen.choices(letters, k=chosen.choice([0, 1, 8, 70, 1024, 1025])) if it != 10)
    yield repr((name, salt, count, password)).encode()
    words = ["keys", "--mechanism", name, "--salt", salt.hex(), "--count", count]
    status, printed = run(words, password + chosen.choice([b"", b"\n", b"\nmore"]))
    is_password = 1 <= len(password) <= 1024 and all(32 <= byte <= 126 for byte in password)
    right = count in ("1", "2", "4096") and 1 <= len(salt) <= 64 and is_password
    equal(status, 0 if right else 2, "the status", printed)
    if not right:
        equal(printed, b"", "the output")
        return
    stored, server = keys_of(function, password, salt, int(count))
    equal(printed.decode(), f"stored={stored}\nserver={server}\n", "the keys")
    yield "the keys of a password"


# The most seconds since 1970 of a moment.
MOST_MOMENT = 253402300799


def a_token(chosen: random.Random) -> tuple[dict[str, Any], int]:
    """The keys of a token of either kind, each in its range, and a moment near which its codes are sent."""
    limit = chosen.choice([1, 2, 3, 3, 100, 100])
    token = {"secret": chosen.randbytes(chosen.choice([10, 20, 20, 32, 64])).hex(), "digits": chosen.choice([6, 7, 8])}
    token |= {"limit": limit, "failures": chosen.choice([0, 0, 0, chosen.randint(0, limit)])}
    if chosen.random() < 0.5:
        token |= {"kind": "hotp", "next": chosen.choice([0, 7, 2**32 - 3, MOST_COUNTER - chosen.randint(-1, 12)])}
        token |= {"look_ahead": chosen.choice([0, 1, 3, 100]), **chosen.choice([{}, {"sync_ahead": chosen.choice([0, 1, 8])}])}
        return token, chosen.choice([0, 5, MOST_MOMENT])
    widest, t0, step = chosen.randint(0, 4), chosen.choice([0, 0, 59]), chosen.choice([1, 30, 30, 3600])
    moment = chosen.choice([t0 + step * chosen.randint(0, 8), 1111111109, MOST_MOMENT - chosen.randint(0, 60)])
    token |= {"kind": "totp", "hash": chosen.choice(["sha1", "sha256", "sha512"]), "t0": t0, "step": step, "max_drift": widest}
    token |= {"back": chosen.randint(0, 3), "ahead": chosen.randint(0, 3), "drift": chosen.randint(-widest, widest)}
    near = max(0, step_at(token, moment) + chosen.randint(-6, 2))
    return {**token, **chosen.choice([{}, {"last": near}])}, moment


def a_line(chosen: random.Random, token: dict[str, Any], moment: int) -> bytes:
    """A line without its LF: a code, or two in a row, of a counter that can pass or is near one that can; or a text that is no code."""
    singles, pairs = window(token, moment), firsts_of_pairs(token)
    edges = [singles.start, singles.stop, pairs.start, pairs.stop, *chosen.choices(singles or [0], k=3)]
    at = min(max(0, chosen.choice(edges) + chosen.choice([-1, 0, 0, 0, 1])), MOST_COUNTER)
    first, second = code_of(token, at), code_of(token, at + 1)
    pair = b"SYNC %s %s" % (first, second)
    no_code = [b"", b" ", first + b"\r", b" " + first, first[1:], first + b"0", b"SYNC " + first, b"SYNC %s  %s" % (first, second)]
    no_code += [pair + b" ", b"SYNC %s %s" % (second, first), b"0" * 17, b"x" * 300, b"\xff\0", b"CODE " + first]
    return chosen.choice([first, first, first, first, pair, pair, chosen.choice(no_code)])


def some_runs(chosen: random.Random, token: dict[str, Any], moment: int) -> Iterator[tuple]:
    """Runs of `verify` that follow each other: the moment and the lines of each, the replies that are due with the counters that they use
    up, and the token after it. Before some of them the token is unlocked, which None stands for."""
    token = dict(token)
    for _ in range(chosen.randint(1, 3)):
        if chosen.random() < 0.2:
            token["failures"] = 0
            yield None, [], [], dict(token)
        at = min(max(0, moment + token.get("step", 1) * chosen.choice([0, 0, 1, 2, 5, -1, -9])), MOST_MOMENT)
        lines, replies = [], []
        for _ in range(chosen.randint(0, 8)):
            lines.append(a_line(chosen, token, at))
            replies.append(judged(token, at, lines[-1]))
        yield at, lines, replies, dict(token)


def lines_of_verify(folder: pathlib.Path, chosen: random.Random) -> Iterator[str | bytes]:
    """Runs of `verify` over one book: the replies, the status and the book that is left are those that are due, and no counter passes
    twice. The account whose token has the same keys stays as it was."""
    token, moment = a_token(chosen)
    runs = [*some_runs(chosen, token, moment)]
    yield repr((token, runs)).encode()
    table = "".join(f"{key} = {json.dumps(value)}\n" for key, value in token.items())
    book = folder / "book"
    book.write_text(f"{BOOK_OF_USER}\n[accounts.user.token]\n{table}\n[accounts.other.token]\n{table}")
    wanted, passed = tomllib.loads(book.read_text()), []
    for at, lines, replies, after in runs:
        before = book.read_bytes()
        options = ["--book", book, "--name", "user"]
        words = ["unlock", *options] if at is None else ["verify", *options, "--moment", str(at)]
        status, printed = run(words, b"".join(line + b"\n" for line in lines))
        due = "unlocked user\n" if at is None else "".join(f"{reply}\n" for reply, _ in replies)
        equal((status, printed.decode()), (0 if all(used for _, used in replies) else 1, due), "the status and the replies", lines)
        # What passed is read from the output, and whether it was one code or two from the lines.
        for line, reply in zip(lines, printed.decode().splitlines()):
            if reply.startswith("PASS "):
                counter = int(reply.split()[2])
                passed += [counter - 1, counter] if line.startswith(b"SYNC ") else [counter]
        wanted["accounts"]["user"]["token"] = after
        equal(plain(tomllib.loads(book.read_text())), plain(wanted), "what the book states after", lines)
        is_saved = at is None or any(not reply.startswith("LOCKED ") for reply, _ in replies)
        holds(is_saved or book.read_bytes() == before, "the book is written without a reply that changes it", lines)
    equal(len(passed), len(set(passed)), "how many of the counters that pass differ", passed)
    kinds = {(token["kind"], reply.split()[0], len(used)) for _, _, replies, _ in runs for reply, used in replies}
    for kind, result in [(("hotp", "PASS", 1), "a counter"), (("hotp", "PASS", 2), "a pair"), (("totp", "PASS", 1), "a step")]:
        if kind in kinds:
            yield f"{result} that passes"
    if any(reply == "LOCKED" for _, reply, _ in kinds):
        yield "a locked token"


def some_events(chosen: random.Random) -> Iterator[bytes]:
    """Input lines of `hall`: sessions begin, log in as in RFC 5802's example, send codes and go away, in any order, with edits."""
    mechs, auth, resp = [line[2:].encode() for line in (MECHS, AUTH, RESP)]
    odd = [b"ABORT", b"AUTH SCRAM-SHA-1", b"AUTH PLAIN", b"CODE 755224", mechs, auth, resp]
    codes, said, begun = [b"CODE 755224", b"CODE 287082", b"CODE 000000", b"SYNC 755224 287082"], {}, 0
    for _ in range(chosen.randint(1, 60)):
        number, moment = chosen.choice([*said, 0, 0]), chosen.randint(0, 9)
        if number == 0:
            begun += 1
            said[begun] = iter([auth, resp, *chosen.choices(codes, k=3)])
            event = b"open 3rfcNHYJY1ZVvWVs7j"
        elif chosen.random() < 0.8 and (line := next(said[number], None)):
            event = b"line %d %d %s" % (number, moment, line)
        else:
            del said[number]
            event = chosen.choice([b"gone %d %d" % (number, moment), b"line %d %d %s" % (number, moment, chosen.choice(odd))])
        yield (altered(chosen, event, odd) if chosen.random() < 0.02 else event).replace(b"\n", b"")


def a_hall(folder: pathlib.Path, chosen: random.Random) -> Iterator[str | bytes]:
    """Events of a hall: the log that it prints begins a clean one, and is clean once the open sessions have ended."""
    opening = (AUDITS / "hotp.toml").read_bytes()
    events = [*some_events(chosen)]
    yield b"\n".join(events)
    before, book, log = (folder / name for name in ("before", "book", "log"))
    before.write_bytes(opening)

    def heard(lines: list[bytes]) -> tuple:
        book.write_bytes(opening)
        status, printed = run(["hall", "--book", book], b"".join(line + b"\n" for line in lines))
        log.write_bytes(printed)
        words = ["audit", "--book", before, "--log", log]
        answer = run(words)
        reports(words, printed, *answer)
        return status, printed, answer

    status, printed, answer = heard(events)
    lines = printed.splitlines()
    is_cut = answer == (1, b"line %d: cut\n" % (len(lines) + 1))
    holds(is_clean(answer) or is_cut, "the log does not begin a clean one", answer)
    begun = [line.split()[0] for line in lines if b" S MECHS " in line]
    ended = {line.split()[0] for line in lines if line.endswith(b" E")}
    # Each event has one line of its own in the log: a client's, or the first of a session.
    taken = sum(re.match(rb"\d+ (C |S MECHS|S BUSY)", line) is not None for line in lines)
    are_all = (status, taken) == (0, len(events)) or status == 1 and taken < len(events)
    holds(are_all, "the log does not have a line for each event that was heard", status, taken, len(events))
    status, more, answer = heard(events[:taken] + [b"gone %s 9" % number for number in begun if number not in ended])
    is_well = status == 0 and more.startswith(printed) and is_clean(answer)
    holds(is_well, "the log is not clean once the sessions have ended", status, answer)
    if b" S OK " in more:
        yield "a login in a hall"
    if b" S PASS " in more:
        yield "a code in a hall"


def results_of(kind: Callable, number: int) -> list[str]:
    """The results of an input of this kind. An input with an unexpected result, or that Python can't judge, is kept."""
    chosen = random.Random(f"{kind.__name__} {SEED} {number}")
    with tempfile.TemporaryDirectory(dir=MEMORY) as folder:
        steps = kind(pathlib.Path(folder), chosen)
        text = next(steps)
        try:
            return list(steps)
        except Exception:
            kept = pathlib.Path(f"fuzz-{kind.__name__}-{SEED}-{number}")
            kept.write_bytes(text)
            print(f"fuzz.py: the input is kept as {kept}", flush=True)
            raise


def tried(kind: Callable, **one_in: int) -> None:
    """Tries COUNT inputs of this kind. `one_in` names results, and says in how many inputs each has to come once at least: about half as
    often as with seed 1."""
    seen = collections.Counter(result for number in range(COUNT) for result in results_of(kind, number))
    due = {name.replace("_", " "): COUNT // number for name, number in one_in.items()}
    equal([name for name, least in due.items() if seen[name] < least], [], "what too few inputs led to", dict(seen))
    print(f"fuzz.py: {COUNT} inputs by {kind.__name__}, from seed {SEED}")


def books(folder: str) -> None:
    """A book that is a few edits from a good or a faulty one is refused and left, or read as tomllib reads it."""
    tried(a_book, a_book_that_is_read=30)


def recorded_logs(folder: str) -> None:
    """A log that is a few edits from a recorded one is clean before the line at fault, and has the same answer once it is upgraded."""
    tried(a_log, an_upgraded_log=25, a_clean_log=100, the_lines_before_a_fault=2)


def reported_logs(folder: str) -> None:
    """A report of a log that is a few edits from that of an incident has the rows of the lines before the fault."""
    tried(a_report, a_clean_log=100, a_log_at_fault=2)


def codes(folder: str) -> None:
    """Words of `code` are refused, or the code is the one that Python computes."""
    tried(words_of_code, a_code_of_a_counter=25, a_code_of_a_moment=40)


def keys(folder: str) -> None:
    """Words and passwords of `keys` are refused, or the keys are those that Python computes."""
    tried(words_of_keys, the_keys_of_a_password=10)


def lines(folder: str) -> None:
    """Lines of `verify` have the replies that are due, leave the token that is due, and no counter passes twice."""
    tried(lines_of_verify, a_counter_that_passes=6, a_pair_that_passes=12, a_step_that_passes=8, a_locked_token=5)


def halls(folder: str) -> None:
    """Events of a hall lead to a log that begins a clean one, with a line for each event that was heard."""
    tried(a_hall, a_login_in_a_hall=2, a_code_in_a_hall=4)


suite.run_all()
