#!/usr/bin/env python3
"""editions.py: writes docs/editions/, a page for each promise with just the definitions that it reaches, in the order of reading; and in
README.md and docs/PROMISES.md how many lines they have.

A page has all that it reaches, but of what a page has that it names only a line, at its end. There stands too what is only named: types
that contracts see as something else, and what its reader need not know.
"""
import re
from collections import Counter
from collections.abc import Iterator
from dataclasses import dataclass, field
from functools import cache
from pathlib import Path
from typing import NamedTuple

import edition_lines

TOP = Path(__file__).resolve().parent.parent
CRATES = TOP / "crates"
EDITIONS = TOP / "docs" / "editions"
HEAD_LINES = 4
# The pages that name how many lines editions have, and the one that explains the signs of editions and the kit's words there.
COUNTING = [TOP / "README.md", TOP / "docs" / "PROMISES.md"]
EXPLAINING = TOP / "docs" / "PROVING.md"
# The words that need no explanation.
PLAIN = {"Bool", "Option", "Result", "false", "length", "max", "not", "reverse"}
# How many lines a page may have, so that it is read in one sitting: of these, and of any other.
MOST = {"headline": 1000, "login": 300, "code": 200}
MOST_OF_OTHERS = 350
# The files whose definitions no page may show: those of private functions, and those by which a log is read line by line.
RETRACING = re.compile(
    r"/specs/(inner|state_machine)/|/log_grammar/specs/(Places|Sessions|LogKinds|VersionOne|VersionTwo|NumberedClasses)\.antt$"
)


class Page(NamedTuple):
    """A page: its title; with what it begins, each by its crate, its source file, its name and, of a contract, those of its clauses that
    are of the promise, or none if all are; the pages of which it only names what they have; what else it only names, and why; and what it
    says of the clauses that it leaves out."""

    title: str
    begins: list[tuple[str, str, str, str]]
    names: list[str] = []
    only_named: dict[str, str] = {}
    of_others: str = ""


def of_messages(*names: str) -> list[tuple[str, str, str, str]]:
    """These definitions of messages."""
    return [("scram_text", "Messages.antt", name, "") for name in names]


BY_CALLS = "`begin` ensures it of no calls, and each call of one call more, with the lines that it added to the log"
NO_LINE = "no line of a log shows it"
FOLLOW = ("The first four say that Ok, At and TooManyLines are returned wherever they are due, unless a read failed or memory ran out. "
    "They are proved from the two above, since at most one of the three is due to a log with a book in its ranges, as each book is by the "
    "law `books_are_in_range` (for clean logs and faults: `each_log_has_one_answer`, `clean_logs_are_of_whole_sessions` and "
    "`reasons_are_what_may_stand` of log_grammar). The last two say what is returned if the source had failed before, and what is taken.")
PAGES = {
    "messages": Page("The messages of SCRAM (RFC 5802, section 7)", of_messages(
        "IsClientFirst", "IsServerFirst", "IsClientFinal", "IsServerFinal", "client_first_mandatory", "server_first_mandatory",
        "client_final_mandatory", "server_final_mandatory")),
    "code": Page("Each code has the reply that RFC 4226 and RFC 6238 give", [("otp_core", "token.rt", "attempt", "")]),
    "login": Page("A login is accepted exactly if RFC 5802 makes it valid", [("scram_ends", "server.rt", "finish", "valid")], [], {
        "ServerWait": "`server_first` gives it out with the challenge, and `finish` takes it",
        "StandsForChallenged": "`server_first` ensures it of the entry, the client's message and the challenge that it has written"}),
    "book": Page("A text is read as a book exactly if it has a book's form", [("account_book", "book/text.rt", "read", "")], ["code"]),
    "headline": Page("An audit finds the first line at fault", [
        ("sasl_log", "auditor.rt", "audit", "answer failed"), ("account_book", "laws.rt", "books_are_in_range", "")], of_others=FOLLOW),
    "saved": Page("A reply is kept before it is given", [("book_keeper", "keeper.rt", "judge", "ok")], ["code", "book", "headline"]),
    "service": Page("A code that has passed is spent", [
        ("sasl_desk", "laws.rt", "passed_counters_are_saved", ""), ("sasl_desk", "laws.rt", "no_counter_passes_twice", "")],
        ["saved", "book", "headline", "login"], {
        **dict.fromkeys(["IsDeskAfter", "IsHallAfter"], BY_CALLS), **dict.fromkeys(["State", "OpenSession"], NO_LINE)}),
}

Names = dict[str, tuple[str, str]]  # as a text calls it: the module, and the name there

HEAD = re.compile(r"^\s*(?:pub )?(abbrev|unfoldable|record|data) (?:pub )?(\S+)")
WORD = re.compile(r"[^\s(){}<>,;.\"]+")
TYPE = r"^((?:///.*\n|#\[.*\n)*)pub(?:\(crate\))? (?:enum|struct|type|trait) {}\b[^;{{]*(?:;|\{{\n(?:.*\n)*?\}})"


@dataclass(frozen=True)
class Declaration:
    """A definition, a type, a trait or a contract with the words above it; the head of the module in its file that it stands in, if any;
    and the names that its file imports."""

    file: Path
    text: str
    module: str
    imports: Names = field(repr=False, compare=False)

    def name(self) -> str:
        """The name of a definition or a type; that of a contract is empty."""
        kinds = "abbrev|unfoldable|record|data|enum|struct|type|trait"
        found = re.search(rf"^ *(?:pub(?:\(crate\))? )?(?:{kinds}) (?:pub )?(\w+)", self.text, re.MULTILINE)
        return found[1] if found else ""

    def is_opaque(self) -> bool:
        """Whether it is a type of the code that contracts see as something else: one private field, or a name for a type of the kit."""
        fields = re.findall(r"(?m)^    (?!//)(.+)$", self.text)
        is_wrapper = self.text.partition("struct ")[1] and len(fields) <= 1 and not any(field.startswith("pub ") for field in fields)
        return self.file.suffix == ".rt" and bool(is_wrapper or re.search(r"(?m)^pub type ", self.text))

    def words(self) -> list[str]:
        """What it is made of, without the words above it and the texts in quotes. A name that it binds is not among them, nor is one of its
        own cases or fields."""
        lines = (line for line in self.text.splitlines() if not re.match(r"\s*(--|//|#)", line))
        text = re.sub(r'"[^"]*"', "", "\n".join(lines))
        text = re.sub(r"(?m)^    \w+(?=[,:({])|^    \w+(?= \{)", "", text) if re.match(r"(?:///.*\n)*pub.* enum ", self.text) else text
        groups = re.findall(r"[({]([\w' ]+?) :", text) + re.findall(r"λ \(?([\w']+)", text)
        bound = {name for group in groups for name in group.split()}
        return [word for each in WORD.findall(text) if (word := each.lstrip("&")) not in bound]


def imports_of(text: str) -> Names:
    """The names that a text imports from definitions."""
    found: Names = {}
    for crate, path, names, alias in re.findall(
        r"^\s*(?:ghost |pub )*use Rattle\.(\w+)\.specs\.?([\w.]*?)\.?(?:\{([^}]*)\})?(?: as (\w+))?;?$", text, re.MULTILINE
    ):
        for name in [alias] if alias else names.split(", "):
            here, _, renamed = name.partition(" as ")
            found[renamed or here] = (f"{crate}.{path}", here)
    return found


def used_in(text: str) -> Names:
    """The types and traits that a text of the code uses of other crates."""
    used = re.findall(r"^use (\w+)::(?:[\w:]*::)?(?:\{([^}]*)\}|(\w+));", text, re.MULTILINE)
    return {each: (f"{of}.declared.{each}", each) for of, many, one in used for each in re.findall(r"\b[A-Z]\w*", many or one)}


@cache
def definitions_in(file: Path) -> dict[str, Declaration]:
    """The definitions of a file of specs/, by name. The names of the cases of a data type are names of it too."""
    text = file.read_text(encoding="utf-8")
    imports, module = imports_of(text), ""
    found: dict[str, Declaration] = {}
    for block in re.split(r"\n\n+", text):
        lines = [line for line in block.splitlines() if not re.match(r"(pub )?(use|mod) ", line)]
        if at := next((at for at, line in enumerate(lines, 1) if line.startswith("module ")), 0):
            module, lines = "\n".join(lines[:at]), lines[at:]
        if head := next(filter(None, map(HEAD.match, lines)), None):
            one = Declaration(file, "\n".join(lines), module if lines[0].startswith(" ") else "", imports)
            cases = re.findall(r"^\s+((?:\w+ )+):", one.text, re.MULTILINE) if head[1] == "data" else []
            found |= dict.fromkeys([head[2], *" ".join(cases).split()], one)
    return found


@cache
def type_of(crate: str, name: str) -> Declaration | None:
    """A type or a trait of the code of a crate, as its source declares it, without attributes and without blank lines between fields."""
    for file in sorted((CRATES / crate / "src").rglob("*.rt")):
        text = file.read_text(encoding="utf-8")
        if shown := re.search(TYPE.format(name), text, re.MULTILINE):
            declared = re.sub(r"\n\n(?= )", "\n", re.sub(r"(?m)^ *#\[.*\n", "", shown[0]))
            return Declaration(file, declared, "", used_in(text) | imports_of(text))
    return None


@cache
def found_at(path: str, name: str) -> Declaration | None:
    """What this name of a module is, or None if it is of the kit."""
    crate, *parts = path.rstrip(".").split(".")
    if not (CRATES / crate).is_dir():
        return None
    if "declared" in parts:
        return type_of(crate, next(part for part in parts if part[0].isupper()))
    if parts == [""] or not parts:
        lower = imports_of((CRATES / crate / "specs" / "Lib.antt").read_text(encoding="utf-8"))
        return found_at(*lower[name])
    files = [CRATES / crate / "specs" / f"{'/'.join(parts[:most])}.antt" for most in range(len(parts), 0, -1)]
    return definitions_in(next(file for file in files if file.exists()))[name]


def needed_by(one: Declaration) -> Iterator[Declaration]:
    """What a declaration names, in the order in which it does."""
    crate = one.file.relative_to(CRATES).parts[0]
    own = definitions_in(one.file) if one.file.suffix == ".antt" else {}
    for word in one.words():
        if word in own:
            yield own[word]
        elif found := found_at(*one.imports[word]) if word in one.imports else None:
            yield found
        elif not own and re.match("[A-Z]", word) and (found := type_of(crate, word)):
            yield found


def contract(crate: str, source: str, function: str, clauses: str, of_others: str) -> Declaration:
    """The contract of a function, with the words above it: of its clauses those with these names, or all, with theirs. The names of others
    follow, and this is said of them."""
    file = CRATES / crate / "src" / source
    text = file.read_text(encoding="utf-8")
    [(head, body)] = re.findall(
        rf"^((?: *///.*\n| *#\[.*\n)+ *pub fn {function}\b[^{{]*?\n)((?: +(?:ensures|requires|//|→|×|↔|⊎|\().*\n)+)", text, re.MULTILINE
    )
    parts = re.findall(r"((?: +//.*\n)* +(?:ensures|requires) (\w*).*\n(?: +[→×↔⊎(].*\n)*)", body)
    kept = [part for part, name in parts if not clauses or name in clauses.split()]
    left = [name for _, name in parts if clauses and name not in clauses.split()]
    if left:
        kept.append(f"{re.match(' +', body)[0]}// clauses that are not shown here: {', '.join(left)}. {of_others}")
    return Declaration(file, f"{head}{''.join(kept)}".rstrip(), "", used_in(text) | imports_of(text))


def begins(page: Page) -> list[Declaration]:
    """With what a page begins."""
    return [
        contract(crate, file, name, clauses, page.of_others) if file.endswith(".rt")
        else definitions_in(CRATES / crate / "specs" / file)[name]
        for crate, file, name, clauses in page.begins
    ]


@cache
def declared_on(name: str) -> tuple[list[Declaration], dict[Declaration, str]]:
    """What the page of this name shows, each before what only it needs; and what it only names, and why or where the rest is."""
    page = PAGES[name]
    elsewhere = {one: f"{other}.txt" for other in reversed(page.names) for one in declared_on(other)[0]}
    shown: dict[Declaration, None] = {}
    named: dict[Declaration, str] = {}
    left = begins(page)[::-1]
    while left:
        one = left.pop()
        if one in elsewhere:
            named[one] = elsewhere[one]
        elif one.name() in page.only_named or one.is_opaque():
            named[one] = page.only_named.get(one.name(), "")
        elif one not in shown:
            shown[one] = None
            left += [*needed_by(one)][::-1]
    return [*shown], named


def lines_of(one: Declaration) -> list[str]:
    """How a page shows a declaration."""
    lines = one.text.splitlines()
    if one.file.suffix == ".antt":
        return edition_lines.definition(lines)
    return edition_lines.rust_type(lines) if one.name() else edition_lines.rust_contract(lines)


def grouped(found: list[Declaration]) -> list[list[Declaration]]:
    """Declarations by their files: those of the highest crate first, and in a crate a file after those that need it."""
    crates = re.findall(r"(?m)^(\w+)(?: staticlib)?:", (TOP / "crates.txt").read_text(encoding="utf-8"))
    files: dict[tuple[Path, str], list[Declaration]] = {}
    for one in found:
        files.setdefault((one.file, one.module), []).append(one)
    needs = {key: {(it.file, it.module) for one in ones for it in needed_by(one)} - {key} for key, ones in files.items()}
    ordered: list[list[Declaration]] = []
    left = sorted(files, key=lambda key: -crates.index(key[0].relative_to(CRATES).parts[0]))
    while left:
        is_first = {key: not any(key in needs[other] and other not in needs[key] for other in left) for key in left}
        key = next(filter(is_first.get, left), left[0])
        left.remove(key)
        ordered.append(files[key])
    return ordered


@cache
def blocks_of(name: str) -> list[tuple[str, list[str]]]:
    """What the page of this name shows: the lines of each file, after the name of its crate."""
    blocks = []
    for ones in grouped(declared_on(name)[0]):
        of_file = [*filter(None, ones[0].module.split("\n")), *(line for one in ones for line in lines_of(one))]
        file = ones[0].file.relative_to(CRATES)
        blocks.append((file.parts[0], edition_lines.of_file(str(file), of_file)))
    return blocks


@cache
def body_of(name: str) -> list[str]:
    """The lines of the page of this name below its head."""
    named = declared_on(name)[1]
    lines = [line for _, block in blocks_of(name) for line in block]
    for other in PAGES[name].names:
        there = [edition_lines.elsewhere(one.name(), one.text.splitlines()) for one, where in named.items() if where == f"{other}.txt"]
        lines += [f"==== shown in {other}.txt", *there] if there else []
    only = [edition_lines.only_named(one.name(), str(one.file.relative_to(CRATES)), one.text.splitlines(), why)
            for one, why in named.items() if not why.endswith(".txt")]
    return [*lines, *(["==== only named"] if only else []), *(line for one in only for line in one)]


def length(name: str) -> int:
    """How many lines the page of this name has."""
    return len(body_of(name)) + HEAD_LINES


def edition(name: str) -> str:
    """The page of this name."""
    page = PAGES[name]
    others = ", ".join(f"{other}.txt" for other in sorted(page.names))
    first = "the contracts" if any(file.endswith(".rt") for _, file, _, _ in page.begins) else "the messages"
    of_crates: Counter[str] = Counter()
    for crate, lines in blocks_of(name):
        of_crates[crate] += len(lines)
    return "\n".join([
        f"{page.title}: {length(name)} lines{f'. What it needs of {others} is named at its end' if others else ', all in'}.",
        f"tests/editions.py took them from the sources (==== FILE): first {first}, then all that they name. "
        "Other words and signs: PROVING.md.",
        "A definition by one equation has its arguments' types in it. Words stand beside or above what they explain.",
        f"Lines by crate: {', '.join(f'{crate} {count}' for crate, count in of_crates.items())}.",
        *body_of(name), ""])


def counted(text: str) -> str:
    """The text of a page with the lines of editions that it names: of one, and of all."""
    each = [length(name) for name in PAGES]
    text = re.sub(r"of \d+ to \d+ lines", f"of {min(each)} to {max(each)} lines", text)
    return re.sub(r"(editions/(\w+)\.txt\) \()\d+", lambda link: f"{link[1]}{length(link[2])}", text)


def words_of_the_kit(name: str) -> set[str]:
    """The words on the page of this name that the kit defines. The types of its code have their names from Rust."""
    imported = (one.imports[word] for one in declared_on(name)[0] for word in one.words() if re.match(r"\w", word) and word in one.imports)
    return {there for path, there in imported if ".declared." not in path and not (CRATES / path.partition(".")[0]).is_dir()}


def unreadable(name: str) -> Iterator[str]:
    """Why the page of this name can't be read in one sitting by a reader who knows no code: it is long, shows what retraces the code, or
    has words of the kit that EXPLAINING lacks."""
    if length(name) > (most := MOST.get(name, MOST_OF_OTHERS)):
        yield f"{name}.txt has {length(name)} lines, and may have {most}"
    for one in declared_on(name)[0]:
        if RETRACING.search(str(one.file)):
            yield f"{name}.txt shows {one.name()} of {one.file.relative_to(CRATES)}, which retraces the code"
    signs = re.search(r"(?m)^## Notation$.*?^## ", EXPLAINING.read_text(encoding="utf-8"), re.DOTALL)[0]
    told = {word for code in re.findall(r"`([^`]+)`", signs) for word in re.findall(r"\w+", code)}
    yield from (f"{EXPLAINING.name} does not explain {word} of {name}.txt" for word in sorted(words_of_the_kit(name) - told - PLAIN))


def stale() -> Iterator[str]:
    """The pages that are not what the sources now give, those that can't be read in one sitting, and those that name other numbers of
    lines."""
    for name in PAGES:
        page = EDITIONS / f"{name}.txt"
        if not page.exists() or page.read_text(encoding="utf-8") != edition(name):
            yield f"{page.relative_to(TOP)}: python3 tests/editions.py writes it anew"
        for unused in PAGES[name].only_named.keys() - {one.name() for one in declared_on(name)[1]}:
            yield f"{name}.txt has nothing of {unused}, which it should only name"
        yield from unreadable(name)
    for page in COUNTING:
        if (text := page.read_text(encoding="utf-8")) != counted(text):
            yield f"{page.relative_to(TOP)}: python3 tests/editions.py writes its numbers of lines anew"


def main() -> None:
    EDITIONS.mkdir(exist_ok=True)
    for name in PAGES:
        (EDITIONS / f"{name}.txt").write_text(edition(name), encoding="utf-8")
    for page in COUNTING:
        page.write_text(counted(page.read_text(encoding="utf-8")), encoding="utf-8")


if __name__ == "__main__":
    main()
