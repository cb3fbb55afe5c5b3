#!/usr/bin/env python3
"""Checks the man pages in man/ as `mandoc` shows them: by its own checks, against the help of each command, and by their examples.

An example is a session of a shell: `$ ` stands before a command, `> ` before each further line of it, and the other lines are what it
prints. It runs as it stands, after the examples that its page asks for.
"""
import ast
import os
import re
from collections.abc import Iterator
from pathlib import Path

import suite
from checks import equal, holds
from help_pages import Option, example_ran, listed_commands, listed_options, required_options
from processes import ran
from suite import TOP, audit_says, each, has, prints, within

PAGES = sorted(Path(TOP, "man").iterdir())
# The pages that are of no command.
OTHERS = {"scramotp.1", "scramotp-book.5", "scramotp-log.5", "serve-hall.8", "log-report.1"}
# The pages of hosts. What they would show, docs/DOORS.md has, and dovecot_auth.py and pam.py run it.
OF_HOSTS = {"serve-dovecot-auth.8", "scramotp-host.8", "check-login.8"}
# How far the text of a section, and a display in it, are from the margin.
INDENT, DEEP = " " * 5, " " * 11


def mandoc(*words: str | Path) -> str:
    """What mandoc prints, which ends with status 0."""
    status, output, faults = ran(["mandoc", *words])
    equal(status, 0, "the status of mandoc", words, output, faults)
    return output


def shown(page: Path) -> dict[str, str]:
    """The text of each section of a page, as a reader sees it."""
    text = re.sub(".\b", "", mandoc("-Tascii", "-Owidth=78", page))
    titles = re.split(r"^([A-Z][A-Z ]+)\n", text.partition("\n")[2], flags=re.M)
    return dict(zip(titles[1::2], titles[2::2]))


def items(section: str) -> Iterator[tuple[str, str]]:
    """The entries of the list in a section: the head of each, and its text."""
    for head, same, more in re.findall(rf"^{INDENT}(\S(?:\S| (?! ))*)(?:  +(.*))?\n((?: {{9,}}.*\n|\n)*)", section, re.M):
        yield head, " ".join(f"{same} {more}".split())


def page_of(command: str) -> Path:
    """The page of a command."""
    return TOP / "man" / f"scramotp-{command}.1"


def lint(folder: str) -> None:
    """mandoc finds no fault in any page."""
    for trial, page in each(PAGES):
        with trial:
            equal(ran(["mandoc", "-Tlint", "-Wwarning", page])[:2], (0, ""), "what mandoc says of", page.name)


def names(folder: str) -> None:
    """Each command has a page, and each page there is of a command, of OTHERS or of a host. A page's title is its file's name. A command is
    described in the same words on its page, in the list of scramotp(1), and in the help. At its foot a page has the program's version."""
    commands = listed_commands()
    equal({page.name for page in PAGES}, OTHERS | OF_HOSTS | {page_of(it).name for it in commands}, "the pages in man/")
    listed = dict(items(shown(TOP / "man" / "scramotp.1")["DESCRIPTION"]))
    equal({it: listed.get(it) for it in commands}, commands, "the commands that scramotp(1) lists")
    _, version, _ = ran([suite.PROGRAM, "--version"])
    for trial, page in each(PAGES):
        with trial:
            name, section = page.name.rsplit(".", 1)
            text = page.read_text(encoding="utf-8")
            equal(re.findall(r"^\.(?:Dt|Os) (.*)$", text, re.M), [f"{name.upper()} {section}", version.strip()], page.name)
            says = commands.get(name.removeprefix("scramotp-"), "")
            due = f"{name} - {says[:1].lower()}{says[1:]}"
            about = " ".join(shown(page)["NAME"].split())
            holds(about == due if says else about.startswith(due), f"NAME of {page.name} is {about}, not {due}")


def references(folder: str) -> None:
    """Each page of ours to which a page refers is there."""
    there = {page.name for page in PAGES}
    for trial, page in each(PAGES):
        with trial:
            told = re.findall(r"^\.Xr ((?:scramotp|serve|check|log-)\S*) (\d)", page.read_text(encoding="utf-8"), re.M)
            equal([it for it in told if ".".join(it) not in there], [], "the pages that are not there, of", page.name)
            holds(told, "the page refers to none", page.name)


def head_of(option: Option) -> str:
    """How a page names an option."""
    return f"{', '.join(option.names)} {option.argument}".strip()


def options(folder: str) -> None:
    """A page lists the options that the help of its command lists, with the same arguments, and says of each the same numbers and the same
    default."""
    for trial, command in each([None, *listed_commands()]):
        with trial:
            page, due = page_of(command) if command else TOP / "man" / "scramotp.1", listed_options([command] * bool(command))
            listed = dict(items(shown(page)["OPTIONS"]))
            equal(sorted(listed), sorted(map(head_of, due)), "the options of", page.name)
            values = {head_of(it): {*re.findall(r"\b\d+\b", it.says), it.default()} - {""} for it in due}
            missing = {head: sorted(it for it in found if it not in listed[head]) for head, found in values.items()}
            equal({head: it for head, it in missing.items() if it}, {}, "what its help says, and not", page.name)


def synopses(folder: str) -> None:
    """The synopsis of a command has its options with an argument, in brackets those that may be missing."""
    for trial, command in each(listed_commands()):
        with trial:
            needed = required_options([command])
            options_of_it = [(it.names[-1] in needed, head_of(it)) for it in listed_options([command]) if it.argument]
            synopsis = " ".join(shown(page_of(command))["SYNOPSIS"].split()).removeprefix(f"scramotp {command} ")
            parts = re.findall(r"\[[^]]*\]|--\S+ \S+|\S+", synopsis)
            due = sorted(head if is_needed else f"[{head}]" for is_needed, head in options_of_it)
            equal(sorted(parts), due, "the synopsis of", command)


def options_of_tools(folder: str) -> None:
    """The page of log-report lists the options of its help, with the same arguments, and has them in its synopsis."""
    told = shown(TOP / "man" / "log-report.1")
    usage, _, help_ = ran([TOP / "tools" / "log-report", "--help"], env={**os.environ, "COLUMNS": "999"}).given().partition("options:\n")
    due = [re.split(" {2,}", line.strip())[0] for line in help_.partition("\n\n")[0].splitlines()]
    equal(sorted(dict(items(told["OPTIONS"]))), sorted(due), "the options")
    synopsis = " ".join(told["SYNOPSIS"].split())
    equal(synopsis, " ".join(usage.splitlines()[0].removeprefix("usage: ").replace("[-h] ", "").split()), "the synopsis")


def displays(page: Path) -> str:
    """The displays in the examples of a page, one after another."""
    lines = shown(page)["EXAMPLES"].splitlines(keepends=True)
    return "".join(it.removeprefix(DEEP) for it in lines if it.startswith(DEEP) or it == "\n").strip("\n") + "\n"


def runs_examples(folder: str | Path, page: Path) -> None:
    """The examples of a page run as they stand, and print what the page shows."""
    lines = [it for it in displays(page).splitlines() if it]
    script = [it[2:] for it in lines if it.startswith(("$ ", "> "))]
    holds(script, "there is no command in the examples of", page.name)
    printed = "".join(f"{it}\n" for it in lines if not it.startswith(("$ ", "> ")))
    equal(example_ran(folder, "\n".join(script)), (0, printed, ""), "the examples of", page.name)


def asked_for(page: Path) -> list[Path]:
    """The pages whose examples come first, as a page says: `After the examples of ..`."""
    before = " ".join(shown(page)["EXAMPLES"].split()).partition("$ ")[0]
    found = re.match(r"After the examples of ((?:[\w-]+\(\d\)(?: and )?)+)", before)
    return [TOP / "man" / f"{name}.{section}" for name, section in re.findall(r"([\w-]+)\((\d)\)", found[1])] if found else []


def examples(folder: str) -> None:
    """The examples of each page do what it says, after those of the pages that it names."""
    for trial, page in each([it for it in PAGES if not it.name.endswith(".5") and it.name not in OF_HOSTS]):
        with trial:
            place = within(folder, page.name)
            for it in [*asked_for(page), page]:
                runs_examples(place, it)


def formats(folder: str) -> None:
    """scramotp-book(5) lists the keys that the tool find-key knows. Its example is a book, by which the log in scramotp-log(5) is clean."""
    page, tool = TOP / "man" / "scramotp-book.5", (TOP / "tools" / "find-key").read_text(encoding="utf-8")
    tables = {it.targets[0].id: it.value for it in ast.parse(tool).body if isinstance(it, ast.Assign)}
    known = [it.value for name in ["BOOK", "ACCOUNT", "KEYS", "BOTH", "TOKENS"] for it in ast.walk(tables[name])
             if isinstance(it, ast.Constant) and it.value not in ("hotp", "totp")]
    told = {key for head in re.findall(r"^\.It Ic (.*)$", page.read_text(encoding="utf-8"), re.M) for key in head.split(" , ")}
    equal(sorted(told), sorted(set(known)), "the keys in scramotp-book(5)")
    book, log = Path(folder, "book.toml"), shown(TOP / "man" / "scramotp-log.5")["EXAMPLES"]
    book.write_text(displays(page))
    lines = log[log.index("SCRAMLOG 1"):].splitlines()
    audit_says(book, "/dev/stdin", "clean sessions=1 accepted=1 codes=1", text="".join(f"{it.strip()}\n" for it in lines if it))
    [code] = re.findall(r"CODE (\d+)", log)
    prints(suite.verify_words(book, "59"), f"{code}\n", 0, "PASS 59 0\n")


if has("the man pages", "mandoc"):
    suite.run_all()
