#!/usr/bin/env python3
"""Makes reports of logs with `tools/log-report`: who was let in, who was refused and why, as rows, as a table and as a page.

The rows are those of `scramotp report`, which report.py tests. What a table and a page have to say of an incident was worked out by hand,
from data/reports/incident.rows. Pages are read with Python's html.parser, and opened in Chromium if that is installed.
"""
import csv
import hashlib
import html.parser
import io
import json
import os
import re
import shutil
import signal
import stat
import sys
from collections.abc import Iterator
from pathlib import Path
from typing import Any

import picture
import suite
from audit_cases import TABLE
from checks import equal, holds
from clients import Account, book, dealt, escaped, gone, logged_in, said, turned_away
from expected import AUDITS, MECHS, base64_of, edited_texts
from picture import INCIDENT, TOOL
from processes import Answer, Running, ran, sleeps, until
from suite import each, has, program_on_path

ROWS_OF_INCIDENT = INCIDENT.with_suffix(".rows").read_text().splitlines()
BOOK_OF_INCIDENT = INCIDENT.with_suffix(".toml")
ANSWER_OF_INCIDENT = "clean sessions=23 accepted=5 codes=3"
# The first line of a table for other programs.
HEAD = "line,session,event,account,acts_as,mechanism,reason,opened,client"


def report(folder: str | Path, *words: str | Path, **how: Any) -> Answer:
    """Runs the tool, with the program on the PATH."""
    return ran([TOOL, *words], env=program_on_path(folder), **how)


def row_text(row: dict[str, Any]) -> str:
    """A row as text: names are spelled as in a log, but one that is `-` by its number, since that stands for none."""
    names = ({None: "-", "-": "%2D"}.get(row[key]) or escaped(row[key]) for key in ("account", "acts_as", "mechanism"))
    return " ".join((str(row["line"]), str(row["session"]), row["event"], *names, row["reason"] or "-"))


def reported(folder: str | Path, of_log: str | Path, log: str | Path) -> tuple[int, list[str], str]:
    """The status of a report, its rows, and the answer of the audit in it."""
    status, output, faults = report(folder, of_log, log, "--json")
    equal(faults, "", "what a report says of faults", log)
    *found, last = map(json.loads, output.splitlines())
    equal(last["status"], status, "the status that a report has of the audit")
    return status, [row_text(row) for row in found], last["audit"]


def an_incident(folder: str) -> None:
    """A log with each event but one, and each reason, has its rows."""
    equal(reported(folder, BOOK_OF_INCIDENT, INCIDENT), (0, ROWS_OF_INCIDENT, ANSWER_OF_INCIDENT), "the incident")


# The tags and attributes of a page.
TAGS = set("html meta title style script main h1 h2 section p strong code dl dt dd div figure figcaption svg desc rect line span".split())
TAGS |= set("details summary table thead tbody tr th td label input output".split())
ATTRIBUTES = set("lang charset http-equiv content name id class hidden for type autocomplete viewbox role aria-labelledby x y".split())
ATTRIBUTES |= {"scope", "width", "height", "x1", "x2", "y1", "y2", "preserveaspectratio"}


def hostile_log(folder: str | Path, accounts: list[Account]) -> tuple[Path, Path]:
    """The paths of a book with these accounts, and of a log of version 2 in which each of them is let in, one after the other."""
    of_log, log = Path(folder, "book.toml"), Path(folder, "log")
    of_log.write_text(book(accounts, False))
    visits = [[*logged_in(it, "fyko", "own"), gone()] for it in accounts]
    log.write_text(dealt([number for number, visit in enumerate(visits) for _ in visit], visits)[1])
    return of_log, log


def a_table(folder: str) -> None:
    """By default there is a table of sessions, without columns that would be empty; then how often each thing has come to pass, and at last
    what the audit says."""
    log = Path(folder, "log")
    log.write_bytes((AUDITS / "interleaved.log").read_bytes())
    clean = "The log is clean: each password and each code was judged by the rules.\nclean sessions=2 accepted=1 codes=1\n"
    totals = "      1  let in\n      1  code passed\n      1  mechanism not offered\n"
    equal(report(folder, AUDITS / "hotp.toml", log), (0, f"""\
SESSION  WHO   HOW          OUTCOME
1        user  SCRAM-SHA-1  let in, code passed
2              PLAIN        mechanism not offered

{totals}
{clean}""", ""), "without clients")
    Path(folder, "log.clients").write_text("2 open 1970-01-01T00:00:03Z rip=192.0.2.7\n1 open 1970-01-01T00:00:02Z uid=7 pid=8\n")
    equal(report(folder, AUDITS / "hotp.toml", log), (0, f"""\
WHEN (UTC)           SESSION  WHO   FROM           HOW          OUTCOME
1970-01-01 00:00:02  1        user  uid=7 pid=8    SCRAM-SHA-1  let in, code passed
1970-01-01 00:00:03  2              rip=192.0.2.7  PLAIN        mechanism not offered

{totals}
{clean}""", ""), "with clients")
    log.write_bytes(log.read_bytes().replace(b"1 S PASS 3 0", b"1 S PASS 3 1"))
    status, output, _ = report(folder, AUDITS / "hotp.toml", log)
    equal((status, output.splitlines()[-1]), (1, "line 12: reply, due PASS 3 0"), "the end for a log at fault", output)
    holds("code passed" not in output, "a code at fault is told", output)


def guesses_at_a_terminal(folder: str) -> None:
    """After the table of sessions it is told which accounts are guessed at, ten at most, and which clients guessed and were let in."""
    log = Path(folder, "log")
    for end in ("", ".clients"):
        shutil.copy(f"{INCIDENT}{end}", f"{log}{end}")
    parts = report(folder, BOOK_OF_INCIDENT, log).given("the table").split("\n\n")
    equal(parts[2:4], ["""\
Accounts most guessed at:
      2  user
      2  phone
      1  nobody""", """\
Clients that guessed most:
      2  rip=203.0.113.9
      2  rip=192.0.2.33, let in as phone
      1  rip=192.0.2.7, let in as user"""], "what is told of guesses")
    accounts = [Account(f"user{number}", "SCRAM-SHA-1") for number in range(12)]
    of_log, log = Path(folder, "book"), Path(folder, "other")
    of_log.write_text(book(accounts))
    visits = [turned_away(it, "fyko", "own") for it in [*accounts, accounts[11]]]
    log.write_text(dealt([number for number, visit in enumerate(visits) for _ in visit], visits)[1])
    due = ["Accounts most guessed at:", "      2  user11", *(f"      1  user{number}" for number in range(9)), "         and 2 more"]
    parts = report(folder, of_log, log).given("the table").split("\n\n")
    equal([it.splitlines() for it in parts[2:-1]], [due], "what is told of many accounts")


def for_other_programs(folder: str) -> None:
    """A table and objects for other programs have the names as they are, whatever is in them, and what is known of the client."""
    names = ['=1+1', 'a,"b" %2C', "-", "<b>"]
    accounts = [Account(name, "SCRAM-SHA-256") for name in names]
    of_log, log = hostile_log(folder, accounts)
    Path(f"{log}.clients").write_text('2 open 2026-11-30T04:10:00Z rip=192.0.2.7 name="a, b"\n')
    found = [*csv.DictReader(io.StringIO(report(folder, of_log, log, "--csv").given("the table")))]
    equal([it["account"] for it in found], names, "the accounts of the table")
    due = {"line": "13", "session": "2", "event": "accepted", "account": names[1], "acts_as": "", "mechanism": "SCRAM-SHA-256"}
    due |= {"reason": "", "opened": "2026-11-30T04:10:00Z", "client": 'rip=192.0.2.7 name="a, b"'}
    equal(found[1], due, "a row of the table")
    status, output, faults = report(folder, of_log, log, "--json")
    objects = [json.loads(line) for line in output.splitlines()]
    equal((status, objects[-1]), (0, {"audit": "clean sessions=4 accepted=4 codes=0", "status": 0}), "the last object", faults)
    equal([it["account"] for it in objects[:-1]], names, "the accounts of the objects")
    due = {"line": 20, "session": 3, "event": "accepted", "account": "-", "acts_as": None, "mechanism": "SCRAM-SHA-256", "reason": None}
    equal(objects[2], due | {"opened": None, "client": None}, "an object")


class Page(html.parser.HTMLParser):
    """What a page has: its tags, their attributes, the text within each tag, and its tables by the title before them."""

    def __init__(self, text: str) -> None:
        super().__init__()
        self.tags, self.attributes = list[str](), list[tuple[str, str | None]]()
        self.texts, self.tables = dict[str, list[str]](), dict[str, list[list[str]]]()
        self.open, self.title, self.table = "", "", list[list[str]]()
        self.feed(text)
        self.close()

    def handle_starttag(self, tag: str, attributes: list[tuple[str, str | None]]) -> None:
        self.tags.append(tag)
        self.attributes += attributes
        self.open = tag
        self.texts.setdefault(tag, []).append("")
        if tag == "table":
            self.table = self.tables[self.title] = []
        elif tag == "tr":
            self.table.append([])
        elif tag in ("td", "th"):
            self.table[-1].append("")

    def handle_endtag(self, tag: str) -> None:
        if tag in ("h2", "summary"):
            self.title = self.texts[tag][-1]
        self.open = ""

    def handle_data(self, data: str) -> None:
        if self.open:
            self.texts[self.open][-1] += data
        if self.open in ("td", "th"):
            self.table[-1][-1] += data


def page_of(folder: str | Path, of_log: str | Path, log: str | Path, *words: str, status: int = 0) -> Page:
    """The page of a log, which asks for nothing else and runs nothing but its own script."""
    file = Path(folder, "page.html")
    output = report(folder, of_log, log, *words, "-o", file).given("a page", status=status)
    text = file.read_text(encoding="utf-8")
    page = Page(text)
    holds(page.texts["code"] == [output.removesuffix("\n")], "the page does not have the audit's answer", output)
    equal(sorted({*page.tags} - TAGS), [], "the tags that no page has")
    equal(sorted({name for name, _ in page.attributes} - ATTRIBUTES), [], "the attributes that no page has")
    equal(re.findall(r"https?:|//|url\(|@import", text), [], "what leads out of the page")
    [policy, *_] = [it for name, it in page.attributes if name == "content"]
    own = [(tag, it) for tag in ("style", "script") for it in page.texts.get(tag, [])]
    due = [f"{tag}-src 'sha256-{base64_of(hashlib.sha256(it.encode()).digest())}'" for tag, it in own]
    equal(policy, "; ".join(["default-src 'none'", *due]), "the page's policy")
    equal([tag for tag, _ in own], ["style", "script"] if "Sessions" in page.tables else ["style"], "the styles and scripts")
    return page


def the_picture(folder: str) -> None:
    """The picture in the documents is of the page that the tool makes."""
    holds(picture.is_of(picture.page_of_incident(folder)), "docs/who_got_in.png is of another page: tests/picture.py makes it anew")


def a_page(folder: str) -> None:
    """The page of the incident says who was let in and how often, whom someone has guessed at, what came of each session, and when."""
    log = Path(folder, "incident.log")
    for end in ("", ".clients"):
        shutil.copy(f"{INCIDENT}{end}", f"{log}{end}")
    page = page_of(folder, BOOK_OF_INCIDENT, log)
    equal(stat.S_IMODE(os.stat(Path(folder, "page.html")).st_mode), 0o600, "the mode of the page")
    day, home = "2026-11-30 04:", "service=smtp rip=192.0.2.7"
    equal(page.tables["Who was let in"][1:], [
        ["phone", "", "1", f"{day}10:59", f"{day}10:59", "service=imap rip=192.0.2.33"],
        ["user", "", "1", f"{day}10:00", f"{day}10:00", home],
        ["user", "list owner", "1", f"{day}10:25", f"{day}10:25", home],
    ], "who was let in")
    equal(page.tables["Right password, no code passed"][1:], [
        ["a b%c", "", "1", f"{day}10:58", f"{day}10:58", "service=imap rip=2001:db8::7"],
        ["user", "", "1", f"{day}11:35", f"{day}11:35", home],
    ], "who had the right password alone")
    equal(page.tables["Accounts most guessed at"], [
        ["Account", "Wrong password", "No such account", "Wrong code", "Token locked", "Let in", "Guessed at from"],
        ["user", "1", "", "1", "", "2", f"{home}, service=imap rip=203.0.113.9"],
        ["phone", "", "", "1", "1", "1", "service=imap rip=192.0.2.33"],
        ["nobody", "", "1", "", "", "", "service=imap rip=203.0.113.9"],
    ], "who was guessed at")
    equal(page.tables["Clients that guessed most"], [
        ["Client", "Guesses", "Accounts", "Let in", "Let in as"],
        ["rip=203.0.113.9", "2", "2", "", ""], ["rip=192.0.2.33", "2", "1", "1", "phone"], ["rip=192.0.2.7", "1", "1", "2", "user"],
    ], "who has guessed")
    sessions = page.tables["Sessions"][1:]
    equal([it[0] for it in sessions], [str(number) for number in range(1, 24) if number != 22], "the sessions that were decided")
    first = ["1", f"{day}10:00", "user", "", home, "SCRAM-SHA-1", "let in, code passed (2), code used before (2), wrong code"]
    equal(sessions[0], first, "the first session")
    equal(sessions[9][2:], ["user", "root", "service=imap rip=192.0.2.7", "SCRAM-SHA-1", "may not act as that name"], "the tenth session")
    equal(sessions[18][:5], ["19", "", "", "", ""], "a session of which the clients' file has nothing")
    equal(page.tables["The chart as a table"], [
        ["From", "Let in", "Right password, no code passed", "Refused"],
        [f"{day}10:00", "1", "", "4"], [f"{day}10:05", "", "", "2"], [f"{day}10:10", "", "", "1"], [f"{day}10:15", "", "", "1"],
        [f"{day}10:20", "", "", "1"], [f"{day}10:25", "1", "", "1"], [f"{day}10:30", "", "", "1"], [f"{day}10:35", "", "", "3"],
        [f"{day}10:40", "", "", "1"], [f"{day}10:55", "1", "1", ""], [f"{day}11:35", "", "1", ""],
    ], "the chart")
    chart = f"From {day}10:00 to {day}11:35: 3 let in above the axis, and below it 15 refused and 2 with the right password and no code "
    chart += f"that passed. Most were refused at {day}10:00: 4."
    equal(page.texts["desc"], [chart], "the chart's text")
    text = Path(folder, "page.html").read_text(encoding="utf-8")
    axis, parts = float(re.findall(r' y1="(\d+)"', text)[0]), re.findall(r'<rect class="(\w+)" .*? y="(.*?)" .*? height="(.*?)"', text)
    # The longest bar is of four, 90 points long.
    drawn = [(kind, float(top) < axis, round(float(height) / 22.5)) for kind, top, height in parts]
    due = {("in", True): 3, ("unpassed", False): 2, ("out", False): 15}
    equal({it: sum(count for *of, count in drawn if tuple(of) == it) for it in {it[:2] for it in drawn}}, due, "what is above the axis")
    told = {it[0]: it[1] for it in page.tables["What it means, and what to do"][1:]}
    equal((len(told), told["let in"], told["code used before"], told["wrong password"]), (24, "3", "3", "1"), "what is explained")


# What a client sends after its login: its codes, each with the answer that is due. Code 9 is too far ahead to pass.
WRONG, RIGHT, OLD = (9, "S FAIL 5"), (0, "S PASS 5 0"), (0, "S FAIL 5")
VISITS = {
    "plain": ([], "let in"),
    "once": ([RIGHT], "let in, code passed"),
    "second": ([WRONG, RIGHT], "let in, wrong code, code passed"),
    "again": ([RIGHT, OLD], "let in, code passed, code used before"),
    "never": ([WRONG, WRONG], "right password, no code passed, wrong code (2)"),
    "old": ([OLD], "right password, no code passed, code used before"),
    "locked": ([(0, "S LOCKED 5")], "right password, no code passed, token locked"),
    "bare": ([(0, "S NOCODE 5")], "right password, no code passed, no token"),
}


def log_with_codes(folder: str | Path) -> tuple[Path, Path]:
    """The paths of a book, and of a log with these visits, one after the other; after them `plain` has a wrong password."""
    people = {name: Account(name, "SCRAM-SHA-256") for name in VISITS}
    entries = {name: it.entry(name != "bare") for name, it in people.items()}
    entries["locked"] = entries["locked"].replace("limit = 100\nfailures = 0\n", "limit = 1\nfailures = 1\n")
    entries["old"] = entries["old"].replace("next = 0\n", "next = 1\n")
    of_log, log = Path(folder, "book.toml"), Path(folder, "log")
    of_log.write_text(book([]) + "".join(entries.values()))
    visits = [
        [*logged_in(it, "fyko", "own"), *(said(f"CODE {it.code(counter)}", due) for counter, due in VISITS[name][0]), gone()]
        for name, it in people.items()
    ]
    visits.append(turned_away(people["plain"], "fyko", "own"))
    log.write_text(dealt([number for number, visit in enumerate(visits) for _ in visit], visits)[1])
    return of_log, log


def who_is_let_in(folder: str) -> None:
    """A login counts as let in if a code passed, or if none was sent; with --codes only if one passed. The table, the totals, the chart,
    the tables of the page and their colours all follow that, and it is said how many sent none. The rows stay as they are."""
    of_log, log = log_with_codes(folder)
    unsure = "Let in without a code: 1. If your service wants a code, it did not let these in: log-report --codes tells them apart."
    short = "right password, no code passed"
    for trial, (words, names, plain, note) in each([
        ([], ["again", "once", "plain", "second"], "let in", [unsure]),
        (["--codes"], ["again", "once", "second"], short, []),
    ]):
        with trial:
            due = [plain, *(it for _, it in VISITS.values() if it != "let in"), "wrong password"]
            looks = ["in" if it.startswith("let in") else "unpassed" if it.startswith(short) else "out" for it in due]
            page, others = page_of(folder, of_log, log, *words), sorted({*VISITS} - {*names})
            equal([it[-1] for it in page.tables["Sessions"][1:]], due, "what came of the sessions", words)
            text = Path(folder, "page.html").read_text(encoding="utf-8")
            equal(re.findall(r'class="(\w*)">[^<]*</td></tr>', text.partition('id="sessions"')[2])[:9], looks, "their colours", words)
            equal([it[0] for it in page.tables["Who was let in"][1:]], names, "who was let in", words)
            equal([it[0] for it in page.tables["Right password, no code passed"][1:]], others, "who was not", words)
            totals = dict(zip(page.texts["dt"], page.texts["dd"]))
            equal((totals["let in"], totals[short], totals["refused"]), (str(len(names)), str(len(others)), "1"), "the totals", words)
            chart = [[it[at + 1] == "1" for it in page.tables["The chart as a table"][1:]] for at in range(3)]
            equal(chart, [[it == look for it in looks] for look in ("in", "unpassed", "out")], "the chart", words)
            says = f"{len(names)} let in above the axis, and below it 1 refused and {len(others)} with the right password and no code that"
            holds(says in page.texts["desc"][0], "the chart's text", page.texts["desc"])
            equal([it for it in page.texts["p"] if it.startswith("Let in without a code")], note, "what the log can't tell", words)
            printed = report(folder, of_log, log, *words).given("a table")
            holds(f"{len(names):7}  let in\n" in printed and f"{len(others):7}  {short}\n" in printed, "the counts", words, printed)
            equal(re.findall("^Let in without.*", printed, re.M), note, "what the table says of that", words)
            equal(report(folder, of_log, log, *words, "--csv"), report(folder, of_log, log, "--csv"), "the rows", words)


def from_one_place(folder: str) -> None:
    """Clients of one place are told once, whatever their processes are; and of those that guess, what came of all that is from the same
    address, by whatever service."""
    user, log = Account("user", "SCRAM-SHA-256"), Path(folder, "log")
    visits = [*[[*logged_in(user, "fyko", "own"), gone()]] * 3, *[turned_away(user, "fyko", "own")] * 3]
    log.write_text(dealt([number for number, visit in enumerate(visits) for _ in visit], visits)[1])
    Path(folder, "book.toml").write_text(book([user]))
    clients = ["uid=0 pid=11 service=sshd rhost=192.0.2.7", "uid=0 pid=12 service=sshd rhost=192.0.2.7", "uid=1000 pid=13"]
    clients += ["uid=0 pid=14 service=su rhost=192.0.2.7", "uid=1000 pid=15", "uid=1000 pid=16"]
    Path(f"{log}.clients").write_text("".join(f"{number} open 2026-11-30T04:10:00Z {it}\n" for number, it in enumerate(clients, 1)))
    page = page_of(folder, Path(folder, "book.toml"), log)
    equal(page.tables["Who was let in"][1][-1], "uid=0 service=sshd rhost=192.0.2.7, uid=1000", "from where a user was let in")
    equal([it[4] for it in page.tables["Sessions"][1:]], clients, "the clients of the sessions")
    due = [["uid=1000", "2", "1", "1", "user"], ["rhost=192.0.2.7", "1", "1", "2", "user"]]
    equal(page.tables["Clients that guessed most"][1:], due, "who has guessed")


HOSTILE = ["<script>alert(1)</script>", '"><img src=x onerror=alert(1)>', "%3Cscript%3E&lt;b&gt;", "</title></style>'", "x" * 255]


def hostile_names(folder: str) -> None:
    """Names, clients and the name of a log that are made to break a page out of its form stand in it as text."""
    of_log, log = hostile_log(folder, [Account(name, "SCRAM-SHA-256") for name in HOSTILE])
    lines = [f"{number} open 2026-11-30T04:10:00Z name={json.dumps(it)}\n" for number, it in enumerate(HOSTILE, 1)]
    named = Path(folder, '"><script>"')
    log.rename(named)
    Path(f"{named}.clients").write_text("".join(lines))
    page = page_of(folder, of_log, named)
    equal(page.texts["h1"], [f"Who got in: {named}"], "the title")
    equal([it[2] for it in page.tables["Sessions"][1:]], HOSTILE, "the names")
    equal([it[4] for it in page.tables["Sessions"][1:]], [f"name={json.dumps(it)}" for it in HOSTILE], "the clients")
    equal([it[0] for it in page.tables["Who was let in"][1:]], sorted(HOSTILE), "the names that were let in")


def pages_of_faulty_logs(folder: str) -> None:
    """A log at fault gets a page of what stands before the fault. It says what the fault is, and what to do."""
    log = Path(folder, "log")
    for trial, (kind, look, says) in each([
        ("cut", "partial", "the server still writes it, or was stopped"),
        ("not a line", "bad", "the file was damaged or edited"),
        ("order", "bad", "the file was damaged or edited"),
        ("mechs", "bad", "it is at fault, or another program wrote the log"),
        ("challenge", "bad", "the server sent a wrong challenge, or the book is another one"),
        ("outcome", "bad", "treat it as a break-in until you know better"),
        ("reply", "bad", "A code was taken that is used, too old or wrong"),
    ]):
        with trial:
            of_kind = [it for it in edited_texts(TABLE, "log", ".log") if re.match(rf"line \d+: {kind}\b", it[0]["answer"])]
            row, text = max(of_kind, key=lambda it: len(it[0]["rows"]))
            log.write_bytes(text)
            page = page_of(folder, AUDITS / f"{row['book']}.toml", log, status=1)
            equal(page.texts["code"], [row["answer"]], "the audit's answer")
            equal([it for name, it in page.attributes if name == "class"][0], f"audit {look}", "how the answer looks", kind)
            told = " ".join(page.texts["strong"] + page.texts["p"])
            holds(says.lower() in told.lower() and "What to do: " in told, "the page does not say what the fault is", kind, told)
            decided = {it.split(" ")[1] for it in row["rows"].split("\\n") if it}
            equal({it[0] for it in page.tables.get("Sessions", [])[1:]}, decided, "the sessions before the fault", kind)


def clients_that_are_not_known(folder: str) -> None:
    """A file of clients may be missing, damaged or hostile: what is not a line of it is passed over, and a moment that is none is left
    out. Without moments the chart has the logins in their order."""
    log, file = Path(folder, "incident.log"), Path(folder, "incident.log.clients")
    shutil.copy(INCIDENT, log)
    # In their order 20 logins, of which 1, 11 and 19 were let in, and 18 and 20 had the right password without a code that passed.
    due = [[f"login {it}", "1" * (it in (1, 11, 19)), "1" * (it in (18, 20)), "1" * (it not in (1, 11, 18, 19, 20))] for it in range(1, 21)]
    equal(page_of(folder, BOOK_OF_INCIDENT, log).tables["The chart as a table"][1:], due, "the chart without moments")
    for trial, (text, when, client) in each([
        (None, "", ""),
        (b"", "", ""),
        (b"1 open 2026-11-30T04:10:00Z\n", "2026-11-30 04:10:00", ""),
        (b"1 open 2026-11-30T04:10:00Z uid=1 pid=2", "2026-11-30 04:10:00", "uid=1 pid=2"),
        (b"2 open 2026-11-30T04:10:00Z uid=1\n1 end 2026-11-30T04:10:00Z\n", "", ""),
        (b"24 open 2026-11-30T04:10:00Z uid=1\n", "", ""),
        (b"1 open 2026-11-31T04:10:00Z uid=1\n", "", "uid=1"),
        (b"1 open 0001-01-01T00:00:00Z uid=1\n", "", "uid=1"),
        (b"1 open yesterday uid=1\n", "", ""),
        (b"1 open 2026-11-30T04:10:00Z \x1b[31m\n", "", ""),
        (b"1 open 2026-11-30T04:10:00Z \xff\n", "", ""),
        (b"01 open 2026-11-30T04:10:00Z uid=1\n9" + b"9" * 5000 + b" open 2026-11-30T04:10:00Z uid=1\n", "", ""),
        (b"1 open 9999-12-31T23:59:59Z uid=1\n2 open 1970-01-01T00:00:00Z uid=2\n", "9999-12-31 23:59:59", "uid=1"),
    ]):
        with trial:
            if text is not None:
                file.write_bytes(text)
            page = page_of(folder, BOOK_OF_INCIDENT, log)
            first = page.tables["Sessions"][1]
            equal((first[1], first[4]), (when, client), "the first session", text)
            holds(len(page.tables["The chart as a table"]) <= 61, "the chart has too many bars", text)
            status, output, faults = report(folder, BOOK_OF_INCIDENT, log, "--csv")
            equal((status, faults, output.count("\n")), (0, "", len(ROWS_OF_INCIDENT) + 1), "the table", text)


def clients_of_another_log(folder: str) -> None:
    """If codes were judged more than a minute before their session began by LOG.clients, or a day after, that file is not to be relied on:
    the table and the page say so. The codes of the first session were judged on 2026-11-30 from 04:10:02 to 04:10:12."""
    log = Path(folder, "incident.log")
    shutil.copy(INCIDENT, log)
    for trial, (moment, count) in each([
        ("2026-11-29T04:10:14Z", 0), ("2026-11-29T04:10:12Z", 1), ("2026-11-30T04:11:02Z", 0), ("2026-11-30T04:11:03Z", 1),
    ]):
        with trial:
            Path(f"{log}.clients").write_text(f"1 open {moment} uid=1\n2 open 1970-01-01T00:00:00Z uid=1\n")
            told = f"Sessions whose codes do not fit LOG.clients, by their time: {count}. Do not rely on when and from where sessions came"
            page_of(folder, BOOK_OF_INCIDENT, log)
            texts = [Path(folder, "page.html").read_text(), report(folder, BOOK_OF_INCIDENT, log).given("the table")]
            equal([told in it for it in texts], [count > 0] * 2, "whether it is told", moment)
            equal(["do not fit" in it for it in texts], [count > 0] * 2, "whether anything is told", moment)


def faults(folder: str) -> None:
    """What can't be read or written is told, with the status that an audit has."""
    log, nothing = Path(folder, "log"), Path(folder, "nothing")
    log.write_bytes((AUDITS / "sha1.log").read_bytes())
    of_log = AUDITS / "keys.toml"
    for trial, (words, status, fault) in each([
        ([nothing, log], 3, f"scramotp: cannot read {nothing}\n"),
        ([of_log, nothing], 3, f"scramotp: cannot read {nothing}\n"),
        ([log, log], 1, "scramotp: bad book: 60\n"),
        ([log, log, "--csv"], 1, "scramotp: bad book: 60\n"),
        ([of_log, log, "-o", nothing / "page"], 3, f"log-report: [Errno 2] No such file or directory: '{nothing}/page'\n"),
        ([of_log, log, "-o", "/dev/full"], 3, "log-report: [Errno 28] No space left on device\n"),
        (["-h"], 0, ""),
        ([of_log], 2, "log-report: error: the following arguments are required: LOG\n"),
        ([of_log, log, "--csv", "--json"], 2, "log-report: error: argument --json: not allowed with argument --csv\n"),
    ]):
        with trial:
            answer = report(folder, *words)
            equal((answer.status, answer.faults[-len(fault):] if fault else answer.faults), (status, fault), words)
            equal(answer.output == "", status != 0, "whether nothing is printed", words)
    unread = report(folder, of_log, folder)
    equal((unread.status, unread.output.splitlines()[-1], unread.faults), (3, "read fault", ""), "a folder as log")
    with open("/dev/full", "w") as full:
        status, _, told = report(folder, of_log, log, stdout=full)
    equal((status, told), (3, "log-report: [Errno 28] No space left on device\n"), "a full device")
    closed = ran(["sh", "-c", f'"{TOOL}" "{of_log}" "{log}" >&-'], env=program_on_path(folder))
    equal(closed, (3, "", "log-report: standard output is closed\n"), "an output that is closed")
    none = ran([sys.executable, TOOL, of_log, log], env={"PATH": folder})
    equal(none, (3, "", "log-report: [Errno 2] No such file or directory: 'scramotp'\n"), "no program")


def a_page_in_the_place_of_another(folder: str) -> None:
    """A page that replaces another file can only be read by its owner. A reader who ends early ends the tool, without a word."""
    page = Path(folder, "page.html")
    page.write_text("old text\n" * 10000)
    page.chmod(0o644)
    page_of(folder, BOOK_OF_INCIDENT, INCIDENT)
    equal(stat.S_IMODE(page.stat().st_mode), 0o600, "the mode of the page")
    holds("old text" not in page.read_text(), "the other file's text is left")
    log = Path(folder, "log")
    log.write_bytes(many_sessions(3000))
    for trial, (option, first) in each([("", "SESSION  OUTCOME"), ("--csv", HEAD)]):
        with trial:
            piped = f'"{TOOL}" "{AUDITS}/keys.toml" "{log}" {option} | head -n 1; echo "${{PIPESTATUS[0]}}"'
            early = ran(["bash", "-c", piped], env=program_on_path(folder))
            equal(early, (0, f"{first}\n{128 + signal.SIGPIPE}\n", ""), "a reader that ends early")


def a_page_in_the_place_of_a_log(folder: str) -> None:
    """What a report is made of is not replaced by its page, by whatever name."""
    of_log, log, link = Path(folder, "book"), Path(folder, "log"), Path(folder, "link")
    clients = Path(folder, "log.clients")
    of_log.write_bytes((AUDITS / "keys.toml").read_bytes())
    log.write_bytes((AUDITS / "sha1.log").read_bytes())
    clients.write_text("1 open 2026-11-30T04:10:00Z\n")
    link.symlink_to("log")
    texts = [it.read_bytes() for it in (of_log, log, clients)]
    for trial, page in each([of_log, log, link, clients]):
        with trial:
            status, output, told = report(folder, of_log, log, "-o", page)
            equal((status, output, told.splitlines()[-1:]), (2, "", [f"log-report: error: argument -o: the report is made of {page}"]))
            equal([it.read_bytes() for it in (of_log, log, clients)], texts, "the files")


def many_sessions(count: int) -> bytes:
    """A log of so many sessions, all left at once."""
    return b"SCRAMLOG 2\n" + b"".join(b"%d %b\n%d C GONE\n%d E\n" % (it, MECHS.encode(), it, it) for it in range(1, count + 1))


def a_log_that_is_written(folder: str) -> None:
    """The log may be a pipe, which another program still writes. What LOG.clients gets meanwhile is told too."""
    log, clients = Path(folder, "log"), Path(folder, "log.clients")
    os.mkfifo(log)
    clients.write_text("1 open 2026-11-30T04:10:00Z uid=1\n")
    first, *lines = many_sessions(2).splitlines(keepends=True)
    running = Running([TOOL, AUDITS / "keys.toml", log, "--csv"], env=program_on_path(folder))
    tool = Path("/proc", str(running.process.pid))
    with open(log, "wb", 0) as pipe:
        pipe.write(first + b"".join(lines[:3]))
        until(lambda: clients in map(Path.resolve, Path(tool, "fd").iterdir()) and sleeps(running.process.pid), "the tool should wait")
        with open(clients, "a") as file:
            file.write("2 open 2026-11-30T04:10:01Z uid=2\n")
        pipe.write(b"".join(lines[3:]))
    rows = "3,1,left,,,,,2026-11-30T04:10:00Z,uid=1\n6,2,left,,,,,2026-11-30T04:10:01Z,uid=2\n"
    running.ends(0, f"{HEAD}\n{rows}")


def odd_answers(folder: str) -> None:
    """What the program prints has to have a form that is known. If it has been killed, the status is that for a fault. A log that can't be
    read to its end has the rows before that."""
    other = Path(folder, "other", "scramotp")
    other.parent.mkdir()
    row, odd = "3 1 left - - - -", "log-report: scramotp report prints what is not known here: "
    for trial, (script, status, last, fault) in each([
        ("echo line 7: odd; exit 1", 3, None, f"{odd}line 7: odd\n"),
        (f"echo {row}; echo 4 1 refused - - - tired; exit 1", 3, 3, f"{odd}4 1 refused - - - tired\n"),
        (f"echo read fault; echo {row}; exit 3", 3, None, f"{odd}read fault\n"),
        ("kill -KILL $$", 3, None, ""),
        (f"echo {row}; kill -KILL $$", 3, 3, ""),
        (f"echo {row}; echo scramotp: no memory >&2; exit 3", 3, 3, "scramotp: no memory\n"),
        (f"echo {row}; echo read fault; exit 3", 3, {"audit": "read fault", "status": 3}, ""),
    ]):
        with trial:
            other.write_text(f"#!/bin/sh\n{script}\n")
            other.chmod(0o755)
            answer = ran([TOOL, "book", "log", "--json"], env={**os.environ, "PATH": f"{other.parent}:{os.environ['PATH']}"})
            found = [json.loads(line) for line in answer.output.splitlines()]
            end = (found[-1] if "audit" in found[-1] else found[-1]["line"]) if found else None
            equal((answer.status, end, answer.faults), (status, last, fault), script)


# Runs a tool, whose path and words follow, and prints on standard error how many kilobytes of memory it has taken at most.
MEASURES = """import re, runpy, sys
sys.argv.pop(0)
try:
    runpy.run_path(sys.argv[0], run_name="__main__")
finally:
    print(re.search(r"VmHWM:\\s+(\\d+)", open("/proc/self/status").read())[1], file=sys.stderr)
"""


def most_memory(folder: str | Path, log: Path) -> int:
    """The most kilobytes of memory that a report takes."""
    words = [sys.executable, "-c", MEASURES, TOOL, AUDITS / "keys.toml", log, "--csv"]
    answer = ran(words, env=program_on_path(folder))
    equal(answer.status, 0, "the status of the report", answer.faults)
    return int(answer.faults)


def long_logs(folder: str) -> None:
    """A report of many sessions takes little more memory than one of few, and its page lists the newest and counts all."""
    log = Path(folder, "log")
    log.write_bytes(many_sessions(100))
    few = most_memory(folder, log)
    log.write_bytes(many_sessions(50000))
    many = most_memory(folder, log)
    holds(many < few + 4000, "the kilobytes that a report of 50000 sessions takes, and one of 100", many, few)
    page = page_of(folder, AUDITS / "keys.toml", log)
    sessions = page.tables["Sessions"][1:]
    equal((len(sessions), sessions[0][0], sessions[-1][0]), (10000, "40001", "50000"), "the sessions that are listed")
    equal(page.tables["What it means, and what to do"][1][:2], ["left before the end", "50000"], "how many are counted")
    holds(os.path.getsize(Path(folder, "page.html")) < 4_000_000, "the page is too long")


def in_browser(folder: str | Path, text: str, script: str = "", width: int = 1280) -> str:
    """What Chromium makes of a page with this text, in a window so wide: its document, after its scripts have run, and then this one. A
    page that gets a script has no policy."""
    page = Path(folder, "opened.html")
    if script:
        text = re.sub('<meta http-equiv="Content-Security-Policy"[^>]*>', "", text).replace("</script>", f"{script}</script>")
    page.write_text(text, encoding="utf-8")
    words = ["chromium", "--headless", "--no-sandbox", "--disable-gpu", f"--user-data-dir={folder}/chromium", f"--window-size={width},900"]
    answer = ran([*words, "--dump-dom", page.as_uri()], env={**os.environ, "HOME": str(folder)})
    equal(answer.status, 0, "the status of Chromium", answer.faults)
    return answer.output


def pages_in_a_browser(folder: str) -> None:
    """Hostile names make no other element. Without scripts all is there but the field to find sessions, which the page's script shows."""
    if not has("how a browser takes a page", "chromium"):
        return
    page, hidden = Path(folder, "page.html"), '<p id="filter" hidden="">'
    of_log, log = hostile_log(folder, [Account(name, "SCRAM-SHA-256") for name in HOSTILE])
    page_of(folder, of_log, log)
    made = in_browser(folder, page.read_text())
    tags = Page(made).tags
    equal((sorted({*tags} - TAGS), tags.count("script")), (["body", "head"], 1), "the elements of a page with hostile names")
    holds(hidden not in made, "the field is hidden, although the page's script may run")
    page_of(folder, BOOK_OF_INCIDENT, INCIDENT)
    text = page.read_text()
    without = in_browser(folder, re.sub("; script-src '[^']*'", "", text))
    holds(hidden in without, "the field is shown, although no script may run")
    equal(Page(without).tables, Page(text).tables, "the tables without scripts")


# A script that types something, and notes which sessions are seen then, and what is said of how many they are.
TYPES = """
text.value = "TYPED"; text.dispatchEvent(new Event("input"));
const seen = [...rows].filter(it => it.getClientRects().length).map(it => it.cells[0].textContent);
document.title = `${seen.join(" ")}: ${found.textContent}`;
"""


def sessions_that_are_found(folder: str) -> None:
    """What is typed leaves the sessions that have it in a name, in what is known of the client, or in what came of them: the others are not
    seen, on a small screen either."""
    if not has("how sessions are found on a page", "chromium"):
        return
    log = Path(folder, "incident.log")
    for end in ("", ".clients"):
        shutil.copy(f"{INCIDENT}{end}", f"{log}{end}")
    page_of(folder, BOOK_OF_INCIDENT, log)
    text = Path(folder, "page.html").read_text()
    for trial, (typed, width, due) in each([
        ("nobody", 1280, "7: 1 of 22"),
        ("owner", 500, "11: 1 of 22"),
        ("203.0.113.9", 500, "7 9: 2 of 22"),
        ("Wrong Password", 1280, "9: 1 of 22"),
        ("SCRAM-SHA-1", 1280, ": 0 of 22"),
        ("", 500, " ".join(str(it) for it in range(1, 24) if it != 22) + ": "),
    ]):
        with trial:
            equal(Page(in_browser(folder, text, TYPES.replace("TYPED", typed), width)).texts["title"][0], due, typed, width)


# A script that makes the page so wide, which a window of Chromium is not if that is less than 500, and notes by how much what is in it is
# wider than its place.
MEASURES_WIDTHS = """
document.body.style.cssText = "box-sizing: border-box; width: WIDEpx";
const wide = [document.body, ...document.querySelectorAll(".scroll")].map(it => it.scrollWidth - it.clientWidth);
document.title = `${document.body.clientWidth}: ${Math.max(...wide)}`;
"""


def shown_logs(folder: str | Path) -> Iterator[tuple[str, Path, bytes, list[str], int]]:
    """Logs whose pages are measured: what each is, the path of its book, its text, its clients, and the status of its report. One is clean,
    one is at fault near its end, one has hostile names and clients, and one has 10000 sessions."""
    text, clients = INCIDENT.read_bytes(), Path(f"{INCIDENT}.clients").read_text().splitlines()
    yield "clean", BOOK_OF_INCIDENT, text, clients, 0
    yield "at fault", BOOK_OF_INCIDENT, text.replace(b"21 S PASS 1796011861 59867062", b"21 S PASS 1796011861 59867061"), clients, 1
    of_log, log = hostile_log(folder, [Account(name, "SCRAM-SHA-256") for name in HOSTILE])
    opened = "open 2026-11-30T04:10:00Z"
    yield "hostile", of_log, log.read_bytes(), [f"{number} {opened} name={it}" for number, it in enumerate(HOSTILE, 1)], 0
    addresses = [f"{number} {opened} service=submission rip=2001:db8::{number}" for number in range(1, 10001)]
    yield "long", AUDITS / "keys.toml", many_sessions(10000), addresses, 0


def widths_of_pages(folder: str) -> None:
    """Nothing of a page is cut off at its right, however long names and clients are: on a small screen, on a large one, and on paper."""
    if not has("how wide a page is", "chromium"):
        return
    log = Path(folder, "measured.log")
    for trial, (what, of_log, text, clients, status) in each(shown_logs(folder)):
        with trial:
            log.write_bytes(text)
            Path(f"{log}.clients").write_text("".join(f"{it}\n" for it in clients))
            page_of(folder, of_log, log, status=status)
            page = Path(folder, "page.html").read_text()
            # What is printed on paper of A4 is 718 points wide.
            paper = page.replace("@media print", "@media all").replace("@media screen", "@media print")
            for shown, width in [(page, 1025), (page, 400), (paper, 718)][:1 if what == "long" else 3]:
                script = MEASURES_WIDTHS.replace("WIDE", str(width))
                found = Page(in_browser(folder, shown, script, max(width, 500))).texts["title"][0]
                equal(found, f"{width}: 0", "how wide the page is, and by how much a part is too wide", what, shown == paper)


suite.run_all()
