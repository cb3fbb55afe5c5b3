#!/usr/bin/env python3
"""Reports logs with the built program: who was let in, who was refused, and why.

Usage: report.py PROGRAM [TEST ..]

The rows of data/audits/cases.csv, in the column `rows`, and those of data/reports/incident.rows were worked out by hand, as were those in
the tables below; proofs and codes are computed with Python's hmac. The log of the incident has each event but `busy`, and each reason, in
sessions that interleave; in version 1 they come one after the other. log_reader.py has to find the same rows, also in logs of many sessions
by turns. What is printed after the rows is what an audit prints.
"""
import os
import pathlib
import random

import clients
import expected
import suite
from audit_cases import TABLE
from checks import equal
from expected import AUDITS, DATA, KEYS_TOML, MECHS, SESSION_LEFT, base64_of, decoy_salt, edited_texts, numbered
from log_reader import report_of
from processes import LIMIT, Running, ran
from suite import PROGRAM, SEEDS, code, each, fault_text, hotp, prints, read_book, totp

KEYS = AUDITS / "keys.toml"
INCIDENT = DATA / "reports" / "incident.log"
BOOK = INCIDENT.with_suffix(".toml")
ROWS = INCIDENT.with_suffix(".rows").read_text().splitlines()
ANSWER = "clean sessions=23 accepted=5 codes=3"
# All events; and all reasons of a refusal.
EVENTS = {"accepted", "refused", "passed", "failed", "locked", "no-token", "left", "busy", "halted"}
REASONS = {"mechanism", "grammar", "mandatory", "binding", "name", "encoding", "extensions", "nonce", "channel", "no-account", "no-keys"}
REASONS |= {"proof", "acts-as", "aborted", "bad-line"}


def reports(book: pathlib.Path, log: pathlib.Path, rows: list[str], answer: str, *about: object) -> None:
    """Runs a report, and compares its rows, the answer after them, and the status for that."""
    printed = "".join(f"{line}\n" for line in [*rows, answer])
    equal(ran([PROGRAM, "report", "--book", book, "--log", log]), (int(not answer.startswith("clean ")), printed, ""), *about)
    equal(report_of(read_book(book), log.read_bytes(), answer), printed, "the rows by log_reader.py", *about)


def rows_of_table(folder: str) -> None:
    """Each row of the table has its report, up to the line at fault. A log of version 1 that is clean has the same rows with numbers."""
    log = pathlib.Path(folder, "log")
    for trial, (row, text) in each(edited_texts(TABLE, "log", ".log")):
        with trial:
            book, due = AUDITS / f"{row['book']}.toml", row["rows"].split("\\n") if row["rows"] else []
            log.write_bytes(text)
            reports(book, log, due, row["answer"], row["shows"])
            if row["answer"].startswith("clean ") and text.startswith(b"SCRAMLOG 1\n"):
                log.write_text(numbered(text.decode()))
                reports(book, log, due, row["answer"], "with numbers", row["shows"])


def an_incident(folder: str) -> None:
    """A log with each event but one, and each reason, has its rows. The book is left as it is."""
    words, book = [row.split(" ") for row in ROWS], BOOK.read_bytes()
    reports(BOOK, INCIDENT, ROWS, ANSWER)
    equal(BOOK.read_bytes(), book, "the book")
    equal({it[2] for it in words}, EVENTS - {"busy"}, "the events")
    equal({it[6] for it in words if it[2] == "refused"}, REASONS, "the reasons")


def sessions_in_turn(folder: str) -> None:
    """The sessions of the incident have the same rows if they come one after the other, in version 1. Number 22, which is only greeted and
    stays open, is left out."""
    log, lines = pathlib.Path(folder, "log"), [line.partition(" ")[::2] for line in INCIDENT.read_text().splitlines()[1:]]
    order = [at for number in range(1, 24) if number != 22 for at, line in enumerate(lines) if line[0] == str(number)]
    log.write_text("\n".join(["SCRAMLOG 1", *(lines[at][1] for at in order), ""]))
    due = {}
    for at, number, rest in (row.split(" ", 2) for row in ROWS):
        now = order.index(int(at) - 2) + 2
        due[now] = f"{now} {22 if number == '23' else number} {rest}"
    reports(BOOK, log, [due[now] for now in sorted(due)], ANSWER.replace("23", "22"))


def a_full_hall(folder: str) -> None:
    """A session that is turned away while 64 are open has a row. If it is offered mechanisms instead, that line is at fault."""
    log, begun = pathlib.Path(folder, "log"), "SCRAMLOG 2\n" + "".join(f"{number} {MECHS}\n" for number in range(1, 65))
    left = [f"{66 + 2 * number} {number} left - - - -" for number in range(1, 65)]
    log.write_text(f"{begun}65 S BUSY\n65 E\n" + "".join(f"{number} C GONE\n{number} E\n" for number in range(1, 65)))
    reports(KEYS, log, ["66 65 busy - - - -", *left], "clean sessions=64 accepted=0 codes=0")
    log.write_text(f"{begun}65 {MECHS}\n65 E\n")
    reports(KEYS, log, [], "line 66: order")


def a_hyphen(folder: str) -> None:
    """A name that is one hyphen, of an account or of a mechanism, is not what stands for none: it is written by its number."""
    log = pathlib.Path(folder, "log")
    log.write_text(f"SCRAMLOG 1\n{MECHS}\nC AUTH SCRAM-SHA-1 :n,a=-,m=x,n=--,r=x\nS NO :\nE\n")
    reports(KEYS, log, ["4 1 refused -- %2D SCRAM-SHA-1 mandatory"], "clean sessions=1 accepted=0 codes=0")
    log.write_text(f"SCRAMLOG 1\n{MECHS}\nC AUTH -\nS NO :\nE\n")
    reports(KEYS, log, ["4 1 refused - - %2D mechanism"], "clean sessions=1 accepted=0 codes=0")


# What an audit says of a log whose only login is not accepted.
REFUSED = "clean sessions=1 accepted=0 codes=0"
USER = clients.Account("user", "SCRAM-SHA-1")
# Tokens that have moved on: the next counter of a fob is 1500, and the last step of a phone, whose window is two steps wide, was 101.
FOB = hotp(look_ahead=0, limit=9).replace("next = 0", "next = 1500").replace("look_ahead = 0", "look_ahead = 0\nsync_ahead = 0")
PHONE = totp(limit=9, function="sha256").replace("back = 0", "back = 1").replace("drift = 0", "drift = 0\nlast = 101")


def step_code(step: int) -> str:
    """The code of that phone for a step."""
    return expected.code(bytes.fromhex(SEEDS["sha256"]), step, 8, "sha256")


def session(first: str, *more: str) -> str:
    """A log of one session, whose client begins with this message."""
    return "\n".join(("SCRAMLOG 1", MECHS, f"C AUTH SCRAM-SHA-1 :{clients.escaped(first)}", *more, "E\n"))


def first_messages(folder: str) -> None:
    """A first message is refused for the first of the reasons that hold; one that is at the edge of the grammar is taken up. The names in
    it are told if they are plain, also if it is refused."""
    log, of_log = pathlib.Path(folder, "log"), pathlib.Path(folder, "book.toml")
    of_log.write_text(clients.book([USER], False))
    most = "a" * 255
    for trial, (first, names, reason) in each([
        ("p=x,,m=y,n=\x7f,r=a", "- -", "mandatory"),
        ("n,,n=user,r=a,x=y,m=z", "user -", "mandatory"),
        ("p=x,a=\x7f,n=us=2Cer,r=a", "us,er -", "binding"),
        ("n,,n=" + most + "a,r=a", "- -", "name"),
        ("n,a=\xe9,n=user,r=a", "user -", "name"),
        ("n,a=root,n=\x7f,r=a", "- root", "name"),
        ("n,a=,n=user,r=a", "- -", "grammar"),
        ("n,,n=user,m=y,r=a", "- -", "grammar"),
        ("n,,n=a=2c,r=a", "- -", "grammar"),
        ("n,,n=user,r=", "- -", "grammar"),
        ("n,,n=user,r=" + "a" * 257, "- -", "grammar"),
        ("n,,n=user,r=a,", "- -", "grammar"),
        ("n,,n=user,r=a,x=", "- -", "grammar"),
        ("n,,n=user,r=a,x=\0", "- -", "grammar"),
        ("n,,n=user,r=a,x=" + "y" * 2033, "- -", "grammar"),
        ("N,,n=user,r=a", "- -", "grammar"),
        ("p=,,n=user,r=a", "- -", "grammar"),
    ]):
        with trial:
            log.write_text(session(first, "S NO :"))
            reports(of_log, log, [f"4 1 refused {names} SCRAM-SHA-1 {reason}"], REFUSED, first[:60])
    for trial, (first, account, names) in each([
        ("n,,n=" + most + ",r=" + "a" * 256, most, f"{most} -"),
        ("y,a=x=2Cy=3D2C,n=a b%,r=a,M=1", "a b%", "a%20b%25 x,y=2C"),
        ("n,a=--,n=-,r=a,x=" + "y" * 2031, "-", "%2D --"),
    ]):
        with trial:
            nonce = first.partition(",r=")[2].partition(",")[0]
            log.write_text(session(first, f"S CONT :r={nonce}b,s={base64_of(decoy_salt(account))},i=4096", "C GONE"))
            reports(of_log, log, [f"5 1 left {names} SCRAM-SHA-1 -"], REFUSED, first[:60])
    log.write_text(session("n,,n=user,r=a", "S NO :").replace("SCRAM-SHA-1 :", "SCRAM-SHA-512 :"))
    reports(of_log, log, ["4 1 refused user - SCRAM-SHA-512 mechanism"], REFUSED, "a mechanism that is not offered")


def last_messages(folder: str) -> None:
    """A last message is refused for the first of the reasons that hold."""
    log, of_log = pathlib.Path(folder, "log"), pathlib.Path(folder, "book.toml")
    of_log.write_text(clients.book([USER], False))
    it = USER.exchange("fyko", "own")
    bare, wrong = it.first.removeprefix("n,,"), base64_of(bytes(20))
    for trial, (name, acts_as, final, answer, reason) in each([
        ("user", "root", "r=other", "invalid-encoding", "encoding"),
        ("user", "root", f"c=biws,r=fykoown,p={wrong},", "invalid-encoding", "encoding"),
        ("user", "root", f"c=biwt,r=fykoown,p={base64_of(bytes(65))}", "invalid-encoding", "encoding"),
        ("user", "root", f"c=biws,r=other,m=1,p={wrong}", "extensions-not-supported", "extensions"),
        ("nobody", "root", f"c=biws,r=fykoow,p={wrong}", "other-error", "nonce"),
        ("nobody", "root", f"c=biws,r=fykoown,p={wrong}", "channel-bindings-dont-match", "channel"),
        ("nobody", "root", f"c=bixhPXJvb3Qs,r=fykoown,p={wrong}", "invalid-proof", "no-account"),
        ("user", "root", f"c=bixhPXJvb3Qs,r=fykoown,p={wrong}", "invalid-proof", "proof"),
        ("user", "", f"c=biws,r=fykoown,p={base64_of(b'x')}", "invalid-proof", "proof"),
        ("user", "", it.wrong_final, "invalid-proof", "proof"),
    ]):
        with trial:
            header = f"n,{acts_as and f'a={acts_as}'},"
            challenge = it.challenge if name == "user" else f"r=fykoown,s={base64_of(decoy_salt(name))},i=4096"
            more = f"S CONT :{clients.escaped(challenge)}", f"C RESP :{clients.escaped(final)}", f"S NO :e={answer}"
            log.write_text(session(header + bare.replace("n=user", f"n={name}"), *more))
            reports(of_log, log, [f"6 1 refused {name} {acts_as or '-'} SCRAM-SHA-1 {reason}"], REFUSED, final)


def spent_codes(folder: str) -> None:
    """A code that fails is told as spent if its counter is one of the thousand before the next one, or a step of the window that is not
    after the last step that has passed. Of two codes in a row the first has to be of such a counter."""
    log, of_log = pathlib.Path(folder, "log"), pathlib.Path(folder, "book.toml")
    it = USER.exchange("fyko", "own")
    for trial, (token, said, moment, is_spent) in each([
        (FOB, f"CODE {code(1501)}", 5, False),
        (FOB, f"CODE {code(1499)}", 5, True),
        (FOB, f"CODE {code(500)}", 5, True),
        (FOB, f"CODE {code(499)}", 5, False),
        (FOB, f"CODE {code(1499)}x", 5, False),
        (FOB, f"SYNC {code(1499)} {code(1500)}", 5, True),
        (FOB, f"SYNC {code(500)} {code(501)}", 5, True),
        (FOB, f"SYNC {code(499)} {code(500)}", 5, False),
        (FOB, f"SYNC {code(1498)} {code(1500)}", 5, False),
        (PHONE, f"CODE {step_code(100)}", 3000, True),
        (PHONE, f"CODE {step_code(99)}", 3000, True),
        (PHONE, f"CODE {step_code(98)}", 3000, False),
        (PHONE, f"CODE {step_code(101)}", 3029, True),
        (PHONE, f"CODE {step_code(102)}", 3029, False),
        (PHONE, f"CODE {step_code(100)}", 3100, False),
        (PHONE, f"SYNC {step_code(100)} {step_code(101)}", 3000, False),
        (PHONE.replace("t0 = 0", "t0 = 3001"), f"CODE {step_code(0)}", 3000, False),
    ]):
        with trial:
            of_log.write_text(clients.book([USER], False) + token)
            lines = f"S CONT :{it.challenge}", f"C RESP :{it.final}", f"S OK :v={it.signature}", f"C {said}", f"S FAIL {moment}", "C GONE"
            log.write_text(session(it.first, *lines))
            rest = f"8 1 failed user - SCRAM-SHA-1 {moment} {'spent' if is_spent else '-'}"
            reports(of_log, log, ["6 1 accepted user - SCRAM-SHA-1 -", rest], "clean sessions=1 accepted=1 codes=0", said, moment)


def random_visit(number: int, account: clients.Account) -> list[clients.Turn]:
    """What a client does in a session of this number: it is let in and then sends codes, some of them old, or it is refused, or leaves."""
    kinds = ["wrong", "other", "left", "abort"] + ["in"] * (2 if account.name != "nobody" else 0)
    kind, it = random.choice(kinds), account.exchange(f"c{number}", f"s{number}")
    lines = [f"AUTH {account.mechanism} :{clients.escaped(it.first)}"]
    if kind in ("in", "wrong"):
        lines.append(f"RESP :{clients.escaped(it.final if kind == 'in' else it.wrong_final)}")
    if kind == "in":
        counters = [random.randrange(12) for _ in range(random.randrange(6))]
        lines += [f"CODE {account.code(at)}" if at % 4 else f"SYNC {account.code(at)} {account.code(at + 1)}" for at in counters]
    lines += {"other": ["RESP :"], "abort": ["ABORT"]}.get(kind, [])
    turns = [clients.opened(f"s{number}"), *(clients.said(line) for line in lines)]
    return [*turns, clients.gone()] if kind in ("in", "left") else turns


def halls(folder: str) -> None:
    """Logs of a hall with up to 60 sessions by turns, chosen at random, have the rows that log_reader.py finds."""
    accounts = [clients.Account("anne", "SCRAM-SHA-256"), clients.Account("bob", "SCRAM-SHA-1")]
    names = [*accounts, clients.Account("nobody", "SCRAM-SHA-1")]
    log, kept, book = (pathlib.Path(folder, name) for name in ("log", "kept", "book"))
    kept.write_text(clients.book(accounts))
    seen = set[str]()
    for trial, count in each([1, 2, 5, 12, 40, 60] * 4):
        with trial:
            book.write_text(clients.book(accounts))
            book.chmod(0o600)
            visits = [random_visit(number, random.choice(names)) for number in range(count)]
            order = [number for number, visit in enumerate(visits) for _ in visit]
            random.shuffle(order)
            log.write_text(ran([PROGRAM, "hall", "--book", book], clients.dealt(order, visits)[0]).given("the hall"))
            answer = ran([PROGRAM, "audit", "--book", kept, "--log", log]).given("the audit")
            found = report_of(read_book(kept), log.read_bytes(), answer.removesuffix("\n")).splitlines()
            reports(kept, log, found[:-1], found[-1])
            seen |= {words[2] for words in map(str.split, found[:-1])} | {row.rpartition(" ")[2] for row in found if not row[-1].isdigit()}
    due = {"accepted", "refused", "passed", "failed", "left", "proof", "no-account", "encoding", "aborted", "spent", "-"}
    equal(seen, due, "what was seen in the logs")


def rows_that_are_asked_for(folder: str) -> None:
    """The rows of an account, or of a kind of event, or of both. What is printed after them stays the same."""
    words = {row: row.split(" ") for row in ROWS}
    for trial, (options, account, event) in each([
        (["--account", "user"], "user", None),
        (["--account=a b%c"], "a%20b%25c", None),
        (["--account", "nobody", "--event", "refused"], "nobody", "refused"),
        (["--event", "left", "--account", "phone"], "phone", "left"),
        *[(["--event", name], None, name) for name in sorted(EVENTS)],
    ]):
        with trial:
            due = [row for row, it in words.items() if account in (None, it[3]) and event in (None, it[2])]
            prints([PROGRAM, "report", "--book", BOOK, "--log", INCIDENT, *options], "", 0, "\n".join([*due, ANSWER, ""]), "", options)


def bad_values(folder: str) -> None:
    """A value that is no name or no kind of event is refused before any file is read; first that of the account."""
    for trial, (options, option) in each([
        (["--account", ""], "account"),
        (["--account", "\x7f", "--event", ""], "account"),
        (["--event", "Accepted"], "event"),
        (["--event", ""], "event"),
    ]):
        with trial:
            answer = ran([PROGRAM, "report", "--book", "none", "--log", "none", *options], cwd=folder)
            equal(answer, (2, "", fault_text(f"bad value for --{option}")), options)


def cut_logs(folder: str) -> None:
    """Of a log that ends before or after the LF of a line there are the rows of its whole lines, and no other."""
    text, log = INCIDENT.read_bytes(), pathlib.Path(folder, "log")
    decided = [int(row.split(" ")[0]) for row in ROWS]
    # Before and after the LF of each line that has a row, and of some others.
    ends = [at + more for at in range(len(text)) if text[at:at + 1] == b"\n" for more in (0, 1)]
    rows_end = [it for it in ends if text[:it].count(b"\n") + (text[:it][-1:] != b"\n") in decided]
    for trial, size in each(sorted({0, 5, *rows_end, *ends[::9]} - {len(text)})):
        with trial:
            log.write_bytes(text[:size])
            whole = text[:size].count(b"\n")
            answer = f"line {whole + 1}: cut"
            if whole == 1 and size == text.index(b"\n") + 1:
                answer = "clean sessions=0 accepted=0 codes=0"
            reports(BOOK, log, ROWS[:sum(at <= whole for at in decided)], answer, size)


def rows_as_they_come(folder: str) -> None:
    """A row is printed as soon as its line has come, although the log goes on, and also if the beginning of the next line came with it."""
    running = Running([PROGRAM, "report", "--book", KEYS, "--log", "/dev/stdin"], "SCRAMLOG 1\n")
    for line in (3, 6, 9):
        running.send(f"{MECHS}\n")
        running.prints(f"{line} {line // 3} left - - - -\n", "C GONE\n")
        running.send("E\n")
    running.prints("12 4 left - - - -\n", f"{MECHS}\nC GONE\nE\nS ME")
    running.ends(1, "line 14: mechs\n", text="CHS SCRAM-SHA-1\nC GONE\n")


def a_reader_that_leaves(folder: str) -> None:
    """Once nobody reads the rows, the next one ends the run, although the log goes on."""
    running = Running([PROGRAM, "report", "--book", KEYS, "--log", "/dev/stdin"], "SCRAMLOG 1\n")
    running.prints("3 1 left - - - -\n", f"{MECHS}\nC GONE\n")
    running.process.stdout.close()
    running.send(f"E\n{MECHS}\nC GONE\n")
    equal((running.process.wait(LIMIT), running.process.stderr.read()), (3, fault_text("cannot write output").encode()), "the end")


def many_lines(folder: str) -> None:
    """Of a log that goes on after a million lines there are the rows of those."""
    log = pathlib.Path(folder, "log")
    log.write_bytes(b"SCRAMLOG 1\n" + SESSION_LEFT * 333333 + b"S")
    status, output, faults = ran([PROGRAM, "report", "--book", KEYS, "--log", log])
    rows = output.splitlines()
    equal((status, faults, len(rows), rows[-1]), (1, "", 333334, "too many lines"), "the report of a log that is too long")
    equal(rows[:-1], [f"{3 * number} {number} left - - - -" for number in range(1, 333334)], "the rows")


def other_files(folder: str) -> None:
    """Files that can't be read have the faults of an audit. The book is read once, without a lock."""
    nothing, book, fifo = pathlib.Path(folder, "nothing"), pathlib.Path(folder, "book"), pathlib.Path(folder, "fifo")
    book.write_text("")
    for trial, (of, log, answer) in each([
        (nothing, nothing, (3, "", fault_text(f"cannot read {nothing}"))),
        (book, nothing, (1, "", fault_text("bad book: 61"))),
        (KEYS, nothing, (3, "", fault_text(f"cannot read {nothing}"))),
        (KEYS, folder, (3, "read fault\n", "")),
    ]):
        with trial:
            equal(ran([PROGRAM, "report", "--book", of, "--log", log]), answer, of, log)
    os.mkfifo(fifo)
    running = Running([PROGRAM, "report", "--book", "/dev/stdin", "--log", fifo], KEYS_TOML)
    running.close()
    fifo.write_bytes(b"SCRAMLOG 1\n" + SESSION_LEFT)
    running.ends(0, "3 1 left - - - -\nclean sessions=1 accepted=0 codes=0\n")


suite.run_all()
