"""A page for people of what a log says: one file that asks for no other, and that reads well without scripts, in the dark and on paper.

Whatever stands in a log or in LOG.clients may be hostile. It comes into the page by `cell` and `picture` alone, which escape it, and the
page allows no script or style but its own.
"""
import hashlib
from base64 import b64encode
from collections import Counter
from collections.abc import Iterable, Iterator
from html import escape
from typing import NamedTuple

from scramotp_host.chart import Bar, bars_in_order, bars_over_time, picture
from scramotp_host.meanings import GUESSES, KINDS, MEANINGS, OF_CODES, UNDECIDED
from scramotp_host.report import Answer, Session, address, counted, misfit, origin, unsure
from scramotp_host.report import grouped, guesses_in, most_frequent, names_let_in

# How many rows a table shows, of sessions the newest, since a browser takes long for more; and how many accounts that are guessed at.
MOST_ROWS, MOST_GUESSED = 10000, 50

# What stands before a cell of this class where a table has no room for its columns.
LABELS = {"as": "as ", "last": "to ", "from": "from ", "how": "by ", "times": "times: ", "guesses": "guesses: ", "names": "accounts: "}
LABELS |= {kind: f"{MEANINGS[kind].words}: " for kind in (*GUESSES, "accepted")}
LABELS |= {f"number.{kind}": f"{words}: " for kind, words in KINDS.items()}
# A longer word than this is broken, so that no name makes a table wider than the page.
LONGEST_WORD = 24

STYLE = """
:root { color-scheme: light dark; --text: #1b1f24; --dim: #57606a; --back: #fff; --line: #d0d7de; --in: #0a6e4f; --out: #b3470b;
  --wait: #8a6100; --half: #d9a514; --good: #dff5e8; --bad: #fde3d8; --partial: #fff3cd; }
@media (prefers-color-scheme: dark) { :root { --text: #e6edf3; --dim: #9aa4ae; --back: #0d1117; --line: #30363d; --in: #4cc38a;
  --out: #f0883e; --wait: #d4a72c; --half: #d4a72c; --good: #0f2e20; --bad: #3d1d10; --partial: #33280b; } }
[hidden] { display: none; }
body { margin: 0 auto; padding: 1.5rem; max-width: 70rem; font: 1rem/1.5 system-ui, sans-serif; color: var(--text);
  background: var(--back); }
h1 { font-size: 1.6rem; margin: 0 0 1rem; overflow-wrap: anywhere; }
h2 { font-size: 1.2rem; margin: 2rem 0 .5rem; }
.audit { padding: .75rem 1rem; border: 1px solid; border-left-width: .5rem; border-radius: .25rem; }
.audit p { margin: .25rem 0; }
.good { border-color: var(--in); background: var(--good); }
.bad { border-color: var(--out); background: var(--bad); }
.partial { border-color: var(--wait); background: var(--partial); }
.totals { display: flex; flex-wrap: wrap; gap: 1rem 2.5rem; margin: 1.5rem 0 0; }
.totals div { display: flex; flex-direction: column-reverse; }
.totals dt, .note, .key { color: var(--dim); }
.totals dd { margin: 0; font-size: 1.6rem; line-height: 1.2; font-variant-numeric: tabular-nums; }
.scroll { overflow-x: auto; }
table { border-collapse: collapse; width: 100%; font-size: .9rem; }
th, td { padding: .3rem .75rem .3rem 0; text-align: left; vertical-align: top; border-bottom: 1px solid var(--line); }
th { color: var(--dim); font-weight: 600; white-space: nowrap; }
td { max-width: 22rem; }
td.long { overflow-wrap: anywhere; }
th.number, td.number { padding-right: 1.5rem; text-align: right; font-variant-numeric: tabular-nums; white-space: nowrap; }
.time, .how { white-space: nowrap; font-variant-numeric: tabular-nums; }
td.in { color: var(--in); }
td.unpassed { color: var(--wait); }
td.out { color: var(--out); }
figure { margin: 0; }
svg { width: 100%; height: 11rem; }
svg .in, .key.in::before { fill: var(--in); background: var(--in); }
svg .unpassed, .key.unpassed::before { fill: var(--half); background: var(--half); }
svg .out, .key.out::before { fill: var(--out); background: var(--out); }
svg line { stroke: var(--dim); vector-effect: non-scaling-stroke; }
.keys { display: flex; flex-wrap: wrap; gap: 0 1.5rem; margin: .25rem 0; font-size: .9rem; }
.keys:first-child { justify-content: space-between; }
.key.in::before, .key.unpassed::before, .key.out::before { content: ""; display: inline-block; width: .75em; height: .75em;
  margin-right: .5em; }
input { font: inherit; padding: .25rem .5rem; width: 20rem; max-width: 100%; box-sizing: border-box; }
@media screen and (max-width: 64rem) { body { padding: 1rem; } thead { display: none; } tr { display: block; padding: .3rem 0;
  border-bottom: 1px solid var(--line); } td, td.number { display: inline-block; max-width: 100%; border: 0; padding: 0 .5rem 0 0; }
  td:empty { display: none; } td:first-child { font-weight: 600; } td.said { display: block; } @BEFORE@ }
@media print { body { max-width: none; padding: 0; font-size: 10pt; } table { font-size: 8pt; } td { max-width: none; } th, td,
  td.number { padding-right: 6pt; } .scroll { overflow: visible; } #filter, details:not([open]) { display: none; }
  thead { display: table-header-group; } h2 { break-after: avoid; } tr, figure, .audit { break-inside: avoid; }
  .audit, .key { print-color-adjust: exact; } }
"""
STYLE = STYLE.replace("@BEFORE@", " ".join(f'td.{kind}::before {{ content: "{words}"; }}' for kind, words in LABELS.items()))
SCRIPT = """
const text = document.getElementById("text"), found = document.getElementById("found");
const rows = document.querySelectorAll("#sessions tbody tr");
document.getElementById("filter").hidden = false;
text.addEventListener("input", () => {
  const part = text.value.toLowerCase();
  let count = 0;
  for (const row of rows) {
    row.hidden = ![2, 3, 4, 6].some(at => row.cells[at].textContent.toLowerCase().includes(part));
    count += row.hidden ? 0 : 1;
  }
  found.textContent = part && `${count} of ${rows.length}`;
});
"""


class Cell(NamedTuple):
    """A cell of a table: its text, and its class."""

    text: object
    kind: str = ""


def allowed(text: str) -> str:
    """How the page's policy names a style or a script."""
    return f"'sha256-{b64encode(hashlib.sha256(text.encode()).digest()).decode()}'"


def cell(start: str, it: Cell) -> str:
    """A cell, as an element that starts so."""
    text = "" if it.text is None else str(it.text)
    kinds = it.kind + (" long" if any(len(word) > LONGEST_WORD for word in text.split()) else "")
    kind = f' class="{kinds.strip()}"' if kinds else ""
    return f"<{start}{kind}>{escape(text)}</{start[:2]}>"


def table(head: list[Cell], rows: Iterable[list[Cell]], name: str = "table") -> Iterator[str]:
    """A table with this head, as an element that starts so."""
    yield f'<div class="scroll"><{name}><thead><tr>' + "".join(cell('th scope="col"', it) for it in head) + "</tr></thead><tbody>\n"
    yield from ("<tr>" + "".join(cell("td", it) for it in row) + "</tr>\n" for row in rows)
    yield "</tbody></table></div>\n"


def number(count: int, kind: str = "") -> Cell:
    return Cell(count or "", f"number {kind}".rstrip())


def when(session: Session, kind: str = "time") -> Cell:
    return Cell(session.opened.strftime("%Y-%m-%d %H:%M:%S") if session.opened else "", kind)


def page(log: str, answer: Answer, sessions: list[Session]) -> Iterator[str]:
    """The page, in pieces."""
    policy = f"default-src 'none'; style-src {allowed(STYLE)}" + (f"; script-src {allowed(SCRIPT)}" if sessions else "")
    yield f"""<!DOCTYPE html>
<html lang="en">
<meta charset="utf-8">
<meta http-equiv="Content-Security-Policy" content="{policy}">
<meta name="viewport" content="width=device-width, initial-scale=1">
<meta name="referrer" content="no-referrer">
<title>Who got in: {escape(log)}</title>
<style>{STYLE}</style>
<main>
<h1>Who got in: {escape(log)}</h1>
"""
    yield from audited(answer)
    yield '<p class="note">This page is as secret as the log: it tells which names have accounts, which no client is told. '
    yield "When, in UTC, and from where a session came is what the server says, and no evidence.</p>\n"
    if sessions:
        yield from totals(sessions)
        yield f"<p><strong>{note}</strong></p>\n" if (note := misfit(sessions)) else ""
        yield from chart(sessions)
        yield from let_in(sessions)
        yield from guessed(sessions)
        yield from guessers(sessions)
        yield from meanings(sessions)
        yield from all_sessions(sessions)
    else:
        yield "<p>No login was decided.</p>\n"
    yield "</main>\n"
    yield f"<script>{SCRIPT}</script>\n" if sessions else ""


def audited(answer: Answer) -> Iterator[str]:
    """What the audit says."""
    verdict = answer.verdict
    yield f'<section class="audit {verdict.kind}"><p><strong>{escape(verdict.means)}</strong></p>\n'
    yield f"<p>The audit says <code>{escape(answer.text)}</code>."
    yield " This page has only what stands before that line.</p>\n" if answer.text.startswith("line ") else "</p>\n"
    yield f"<p>What to do: {escape(verdict.to_do)}</p>\n" if verdict.to_do else ""
    yield "</section>\n"


def totals(sessions: list[Session]) -> Iterator[str]:
    """How many sessions, logins and codes there are."""
    counts, kinds = counted(sessions), Counter(it.kind for it in sessions)
    told = {"sessions decided": len(sessions)} | {words: kinds[kind] for kind, words in KINDS.items()}
    told |= {MEANINGS[kind].words: counts[kind] for kind in (*UNDECIDED, *OF_CODES)}
    yield '<dl class="totals">'
    yield "".join(f"<div><dt>{escape(words)}</dt><dd>{count}</dd></div>" for words, count in told.items() if count)
    yield "</dl>\n"


def chart(sessions: list[Session]) -> Iterator[str]:
    """The logins that were let in, and those that were not: over time, or in their order if none has a time."""
    logins = [it for it in sessions if it.kind]
    timed = [(it.opened, it.kind) for it in logins if it.opened]
    if not logins:
        yield "<p>No login was decided.</p>\n"
        return
    bars = bars_over_time(timed) if timed else bars_in_order([it.kind for it in logins])
    above, below = keys(bars)
    yield f"<h2>Logins {'over time' if timed else 'in their order'}</h2>\n<figure>"
    yield f'<div class="keys">{above} <span class="key">{escape(bars[0].label)} to {escape(bars[-1].label)}</span></div>'
    yield f'{picture(bars)}<div class="keys">{below}</div>'
    if timed and len(timed) < len(logins):
        yield f'<figcaption class="note">{len(logins) - len(timed)} of {len(logins)} logins have no time, and are not shown.</figcaption>'
    yield "</figure>\n<details><summary>The chart as a table</summary>\n"
    shown = [kind for kind in KINDS if any(it.counts[kind] for it in bars)]
    head = [Cell("From" if timed else "Logins"), *(Cell(KINDS[kind].capitalize(), "number") for kind in shown)]
    yield from table(head, ([Cell(it.label), *(number(it.counts[kind], kind) for kind in shown)] for it in bars if it.counts.total()))
    yield "</details>\n"


def keys(bars: list[Bar]) -> tuple[str, str]:
    """What the colours above and below the axis of a chart stand for."""
    most = {kind: max(it.counts[kind] for it in bars) for kind in KINDS}
    told = {kind: f'<span class="key {kind}">{KINDS[kind]}, at most {most[kind]} in a bar</span>' for kind in KINDS if most[kind]}
    return told.pop("in", '<span class="key">nobody let in</span>'), " ".join(told.values()) or '<span class="key">nobody refused</span>'


def let_in(sessions: list[Session]) -> Iterator[str]:
    """Who was let in, and who had the right password without a code that passed."""
    yield "<h2>Who was let in</h2>\n"
    yield f'<p class="note">{note}</p>\n' if (note := unsure(sessions)) else ""
    yield from accounts(sessions, "in") if any(it.kind == "in" for it in sessions) else ["<p>Nobody.</p>\n"]
    if any(it.kind == "unpassed" for it in sessions):
        yield f"<h2>{KINDS['unpassed'].capitalize()}</h2>\n"
        yield from accounts(sessions, "unpassed")


def accounts(sessions: list[Session], kind: str) -> Iterator[str]:
    """The accounts of the sessions of this kind, as whom, how often and from where."""
    groups: dict[tuple[str | None, str | None], list[Session]] = {}
    for session in sessions:
        if session.kind == kind:
            groups.setdefault((session.account, session.acts_as), []).append(session)
    found = sorted(groups.items(), key=lambda it: (it[0][0] or "", it[0][1] or ""))
    head = [Cell("Account"), Cell("Acts as"), Cell("Times", "number"), Cell("First"), Cell("Last"), Cell("From")]
    yield from table(head, (
        [Cell(account), Cell(acts_as, "as"), number(len(of), "times"), when(of[0]), when(of[-1], "time last"), Cell(origins(of), "from")]
        for (account, acts_as), of in found[:MOST_ROWS]
    ))
    yield left_out(len(found) - MOST_ROWS)


def origins(sessions: list[Session]) -> str:
    """The most frequent clients of some sessions."""
    return most_frequent(Counter(origin(it) for it in sessions if it.client))


def left_out(count: int) -> str:
    """Says how many rows are left out, if there are any."""
    return f'<p class="note">{count} more are not shown.</p>\n' if count > 0 else ""


def guessed(sessions: list[Session]) -> Iterator[str]:
    """The accounts that are most guessed at, how often they were let in, and from where the guesses came."""
    yield "<h2>Accounts most guessed at</h2>\n"
    found = grouped(sessions, lambda it: it.account)
    if not found:
        yield "<p>None: no password and no code was wrong.</p>\n"
        return
    yield '<p class="note">Counted are wrong passwords, names without an account, wrong codes, and codes at a locked token, right or '
    yield "wrong, but no codes that were used before.</p>\n"
    rows = [(name, of, counted(of)) for name, of in found[:MOST_GUESSED]]
    shown = [kind for kind in (*GUESSES, "accepted") if any(counts[kind] for *_, counts in rows)]
    head = [Cell("Account"), *(Cell(MEANINGS[kind].words.capitalize(), "number") for kind in shown), Cell("Guessed at from")]
    yield from table(head, (
        [Cell(name), *(number(counts[kind], kind) for kind in shown), Cell(origins([it for it in of if guesses_in(it)]), "from")]
        for name, of, counts in rows
    ))
    yield left_out(len(found) - MOST_GUESSED)


def guessers(sessions: list[Session]) -> Iterator[str]:
    """The clients that guessed most, at how many accounts, and whether they were let in, and as whom."""
    found = grouped([it for it in sessions if it.client], address)
    if not found:
        return
    yield "<h2>Clients that guessed most</h2>\n"
    head = [Cell("Client"), Cell("Guesses", "number"), Cell("Accounts", "number"), Cell("Let in", "number"), Cell("Let in as")]
    yield from table(head, (
        [
            Cell(client), number(sum(map(guesses_in, of)), "guesses"), number(len({it.account for it in of if guesses_in(it)}), "names"),
            number(names.total(), "accepted"), Cell(most_frequent(names), "as"),
        ]
        for client, of in found[:MOST_GUESSED] for names in [names_let_in(of)]
    ))
    yield left_out(len(found) - MOST_GUESSED)


def all_sessions(sessions: list[Session]) -> Iterator[str]:
    """The sessions, with a field to find some of them, which appears only if scripts run."""
    yield "<h2>Sessions</h2>\n"
    if len(sessions) > MOST_ROWS:
        yield f'<p class="note">These are the newest {MOST_ROWS} of {len(sessions)}. log-report --csv has all.</p>\n'
    yield '<p id="filter" hidden><label for="text">Only those with this name, client or outcome:</label> '
    yield '<input id="text" type="search" autocomplete="off"> <output id="found" for="text"></output></p>\n'
    head = [Cell("Session", "number"), Cell("When (UTC)"), Cell("Who"), Cell("Acts as"), Cell("From"), Cell("How"), Cell("What came of it")]
    yield from table(head, (
        [
            Cell(it.number, "number"), when(it), Cell(it.account), Cell(it.acts_as, "as"), Cell(it.client, "from"),
            Cell(it.mechanism, "how"), Cell(it.words, it.kind),
        ]
        for it in sessions[-MOST_ROWS:]
    ), 'table id="sessions"')


def meanings(sessions: list[Session]) -> Iterator[str]:
    """What the words for what came of sessions mean, and what to do."""
    yield "<h2>What it means, and what to do</h2>\n"
    head = [Cell("What came of it"), Cell("Times", "number"), Cell("Means"), Cell("What to do")]
    yield from table(head, (
        [Cell(MEANINGS[kind].words), number(count, "times"), Cell(MEANINGS[kind].means, "said"), Cell(MEANINGS[kind].to_do, "said")]
        for kind, count in counted(sessions).most_common()
    ))
