"""What `scramotp report` and LOG.clients say of each session of a log: when, who, as whom, from where, how, and what came of it."""
import re
from collections import Counter
from collections.abc import Callable, Collection, Iterable, Iterator, Mapping
from contextlib import suppress
from dataclasses import dataclass, field
from datetime import datetime, timedelta
from functools import lru_cache
from sys import intern
from typing import NamedTuple
from urllib.parse import unquote

from scramotp_host.meanings import GUESSES, KIND_OF, MEANINGS, OF_CODES, VERDICTS, Verdict

# How many accounts that are guessed at, and how many clients that guessed, are told at a terminal.
MOST_TOLD = 10


class Row(NamedTuple):
    """A row. The account, the name to act as and the mechanism are None if there is none, and the reason is `-` then."""

    line: int
    session: int
    event: str
    account: str | None
    acts_as: str | None
    mechanism: str | None
    reason: str


ROW = re.compile(r"([0-9]+) ([0-9]+) (\S+) (\S+) (\S+) (\S+) (.+)")


@lru_cache(1 << 12)
def name_of(word: str) -> str | None:
    """The name that a word of a row spells, or None for `-`, which stands for none."""
    return None if word == "-" else unquote(word)


def row_of(text: str) -> Row | None:
    """The row of this text, or None if it is none, or says what is not known here."""
    if not (found := ROW.fullmatch(text)):
        return None
    line, session, event, *names, reason = found.groups()
    row = Row(int(line), int(session), intern(event), *map(name_of, names), intern(reason))
    return row if kind_of(row) in MEANINGS else None


class Answer(NamedTuple):
    """What an audit has printed of a log, its status, and what that means."""

    text: str
    status: int
    verdict: Verdict


def answer_of(text: str, status: int) -> Answer | None:
    """The answer of an audit that has printed this; None if it is in no form that is known here."""
    verdict = VERDICTS.get(re.sub(r"^line \d+: |, due .*| sessions=.*", "", text))
    return Answer(text, status, verdict) if verdict else None


class Opened(NamedTuple):
    """When a session began, and its client, as LOG.clients has them."""

    opened: str
    client: str


OPENED = re.compile(r"([1-9][0-9]{0,18}) open ([0-9]{4}-[0-9]{2}-[0-9]{2}T[0-9]{2}:[0-9]{2}:[0-9]{2}Z)(?: ([ -~]*))?\n?")
UNKNOWN = Opened("", "")


def opened(lines: Iterable[str]) -> dict[int, Opened]:
    """What the lines of a file LOG.clients say of each session. A line of another form is passed over."""
    return {int(found[1]): Opened(found[2], intern(found[3] or "")) for line in lines if (found := OPENED.fullmatch(line))}


def moment_of(text: str) -> datetime | None:
    """A moment in UTC, in the form of LOG.clients, or None if the text is none, or the clock was before 1970."""
    with suppress(ValueError):
        moment = datetime.fromisoformat(text.removesuffix("Z"))
        return moment if moment.year >= 1970 else None
    return None


# How many seconds after a session began, by LOG.clients, its codes may be judged, if both are of one log: clocks are set, but no more.
FITTING = range(-60, 86400)


@dataclass(slots=True)
class Session:
    """A session: when it began, and its client, if that is known; whether its service wants a code; what has come of the login, and how
    many of its codes have come to what, by the keys of MEANINGS; and whether the moments of its codes fit to when it began."""

    number: int
    opened: datetime | None
    client: str
    wants_code: bool
    account: str | None = None
    acts_as: str | None = None
    mechanism: str | None = None
    login: str = ""
    codes: dict[str, int] = field(default_factory=dict)
    fits: bool = True

    def takes(self, row: Row) -> None:
        """Takes a row of the session. What ends it after its login is not told."""
        self.account, self.acts_as, self.mechanism = row.account, row.acts_as, row.mechanism
        kind = kind_of(row)
        if kind in OF_CODES:
            self.codes[kind] = self.codes.get(kind, 0) + 1
            if self.opened and row.reason != "-":
                began = (self.opened - datetime(1970, 1, 1)) // timedelta(seconds=1)
                self.fits = self.fits and int(row.reason.split(" ")[0]) - began in FITTING
        elif not self.login:
            self.login = kind

    @property
    def outcome(self) -> str:
        """What has come of it in all, by a key of MEANINGS. After a right password a service that wants a code lets in at the first that
        passes. One that wants none gets none, and lets in at once."""
        is_unpassed = self.login == "accepted" and "passed" not in self.codes and (self.wants_code or self.codes)
        return "no-pass" if is_unpassed else self.login

    @property
    def kind(self) -> str:
        """The same by a key of KINDS, or nothing if no login was decided."""
        return KIND_OF.get(self.outcome, "out")

    @property
    def words(self) -> str:
        """What has come of it."""
        codes = (MEANINGS[kind].words + (f" ({count})" if count > 1 else "") for kind, count in self.codes.items())
        return ", ".join([MEANINGS[self.outcome].words, *codes])


def kind_of(row: Row) -> str:
    """What a row has decided, by its key in MEANINGS."""
    if row.event == "failed":
        return "spent" if row.reason.endswith(" spent") else "failed"
    return row.reason if row.event == "refused" else row.event


def sessions_of(rows: Iterable[Row], clients: Mapping[int, Opened], want_codes: bool) -> list[Session]:
    """The sessions of which there is a row, in the order in which they began, of a service that wants codes or not."""
    found: dict[int, Session] = {}
    for row in rows:
        if row.session not in found:
            when, client = clients[row.session]
            found[row.session] = Session(row.session, moment_of(when), client, want_codes)
        found[row.session].takes(row)
    return sorted(found.values(), key=lambda it: it.number)


def counted(sessions: Iterable[Session]) -> Counter[str]:
    """How many logins and codes have come to what, by the keys of MEANINGS."""
    counts = Counter[str]()
    for session in sessions:
        counts[session.outcome] += 1
        counts.update(session.codes)
    return counts


def misfit(sessions: Iterable[Session]) -> str:
    """What is wrong with LOG.clients, by the moments of codes, if anything."""
    count = sum(not it.fits for it in sessions)
    to_do = "Do not rely on when and from where sessions came: the file may be of another log."
    return f"Sessions whose codes do not fit LOG.clients, by their time: {count}. {to_do}" if count else ""


def unsure(sessions: Iterable[Session]) -> str:
    """What a log can't tell of those that count as let in, if anything."""
    count = sum(it.kind == "in" and not it.codes for it in sessions)
    to_do = "If your service wants a code, it did not let these in: log-report --codes tells them apart."
    return f"Let in without a code: {count}. {to_do}" if count else ""


def origin(session: Session) -> str:
    """The client of a session without the number of its process, of which each has its own."""
    return re.sub(r"\bpid=\d+ ?", "", session.client).rstrip()


def address(session: Session) -> str:
    """The address of a session's client, by whatever service it came, or else what is known of it."""
    found = re.search(r"(?:^| )((?:rip|rhost)=\S+)", session.client)
    return found[1] if found else origin(session)


def guesses_in(session: Session) -> int:
    """How many guesses at its account a session is."""
    return (session.outcome in GUESSES) + sum(session.codes.get(kind, 0) for kind in GUESSES)


def grouped(sessions: list[Session], key: Callable[[Session], str | None]) -> list[tuple[str | None, list[Session]]]:
    """The sessions with a guess by this key, those with the most guesses first, and with them all others that have the same key."""
    counts, groups = Counter[str | None](), dict[str | None, list[Session]]()
    for session in sessions:
        groups.setdefault(key(session), []).append(session)
        counts[key(session)] += guesses_in(session)
    return [(it, groups[it]) for it, count in counts.most_common() if count]


def names_let_in(sessions: Iterable[Session]) -> Counter[str]:
    """How often each account was let in."""
    return Counter(it.account or "" for it in sessions if it.kind == "in")


def most_frequent(counts: Counter[str]) -> str:
    """The three most frequent, and how many others there are."""
    return ", ".join(it for it, _ in counts.most_common(3)) + (f" and {len(counts) - 3} more" if len(counts) > 3 else "")


def guesses(sessions: list[Session]) -> Iterator[str]:
    """Lines for a terminal: the accounts that are most guessed at, and the clients that guessed most, with whom they were let in as."""
    accounts = grouped(sessions, lambda it: it.account)
    clients = grouped([it for it in sessions if it.client], address)
    for title, found in ("Accounts most guessed at", accounts), ("Clients that guessed most", clients):
        if found:
            yield f"\n{title}:"
        for key, of in found[:MOST_TOLD]:
            let_in = most_frequent(names_let_in(of)) if found is clients else ""
            yield f"{sum(map(guesses_in, of)):7}  {key}" + (f", let in as {let_in}" if let_in else "")
        if len(found) > MOST_TOLD:
            yield f"{'':7}  and {len(found) - MOST_TOLD} more"


# What a table for a terminal has of a session, by its head. A longer text than the widest is not cut, and moves the rest of its line.
COLUMNS: dict[str, Callable[[Session], str]] = {
    "WHEN (UTC)": lambda it: it.opened.strftime("%Y-%m-%d %H:%M:%S") if it.opened else "",
    "SESSION": lambda it: str(it.number),
    "WHO": lambda it: it.account or "",
    "AS": lambda it: it.acts_as or "",
    "FROM": lambda it: it.client,
    "HOW": lambda it: it.mechanism or "",
    "OUTCOME": lambda it: it.words,
}
WIDEST = 40


def table(sessions: Collection[Session]) -> Iterator[str]:
    """The lines of a table of sessions, without the columns that would be empty."""
    widths = {head: min(max((len(of(it)) for it in sessions), default=0), WIDEST) for head, of in COLUMNS.items()}
    shown = {head: max(width, len(head)) for head, width in widths.items() if width}
    if shown:
        yield "  ".join(head.ljust(width) for head, width in shown.items()).rstrip()
    for session in sessions:
        yield "  ".join(COLUMNS[head](session).ljust(width) for head, width in shown.items()).rstrip()
