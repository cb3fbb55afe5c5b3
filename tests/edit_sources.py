"""For edits.py, planted.py and documents.py: where the functions of a crate are in its sources, what edits change, and which tests have to
refuse planted bugs.

An edit has the form that `rt help` describes. Wrong bodies of a crate are the files in its must-fail/, and the blocks of its edits.txt,
each of which begins with a line `edit: NAME`; a line `always` below it has each run try it. They change src/ or specs/, and one of a
definition in specs/ belongs to no function.

A planted bug is a block of a crate's planted.txt or of a file in tests/planted/. Before the lines of its edit it has `test: BY TEST` and
`says: TEXT`: a test that has to refuse it, in a crate of tests or in a script, and what this says then. A file in tests/planted/ has the
name of the script that is named first, and its bugs change what no crate has: a tool, the package of hosts/, a man page, completions, the
script that makes the package for Debian, a page with blocks that a test runs, what is around the library for C, the Makefile, a C file
through which the program makes calls, power_model.py, or needs.py.
"""
import re
from collections.abc import Iterable, Iterator
from dataclasses import dataclass
from functools import cache
from pathlib import Path
from typing import NamedTuple

# The repository's top.
TOP = Path(__file__).resolve().parent.parent
# What a line begins with that names the edit whose lines follow it, in the file of a crate's edits.
NAMES = "edit: "
# The line below it if each run tries the edit, whatever its share.
ALWAYS = "always\n"
# Where in a crate an edit may make changes; and where in the repository one in tests/planted/ may.
EDITED = ("src/", "specs/")
EDITED_BY_TESTS = ("tools/", "hosts/", "man/", "completions/", "packaging/", "docs/", "clib/", "plugins/", "Makefile", "tests/refuse_")
EDITED_BY_TESTS += ("tests/note_files.c", "tests/turn_clock.c", "tests/pass_calls.c", "tests/c_library_", "tests/power_model.py")
EDITED_BY_TESTS += ("tests/needs.py", "README.md")

FUNCTION = re.compile(r'( *)(?:pub(?:\([a-z ]+\))? )?(?:(?:const|unsafe|extern "C") )*fn (\w+)')
NAME = re.compile(r"[\w'-]+")
IMPL = re.compile(r"impl(?:<.*?>)? (?:(?:\w+::)*(\w+)(?:<(.*?)>)? for )?(?:\w+::)*(\w+)")


class Unusable(Exception):
    """An edit that cannot be applied, and why."""


@dataclass(frozen=True)
class Function:
    """A function: the path of its module, its type and trait or empty texts, its name, and its first and last line in a file of src/."""

    module: tuple[str, ...]
    of: str
    trait: str
    name: str
    file: str
    first: int
    last: int

    def __str__(self) -> str:
        return "::".join([*self.module, *[self.of] * bool(self.of), self.name])

    def path(self) -> str:
        """Returns the end of its name as a check prints it. The names of a trait and of its arguments follow the type's in one word, such
        as `FaultFromIoError`. A method's module is left out, since the check prints that of its type."""
        return f"{self.of}{self.trait}::{self.name}" if self.of else str(self)

    def holds(self, file: str, line: int) -> bool:
        """Returns whether the line belongs to the function."""
        return self.file == file and self.first <= line <= self.last

    def is_proved_in(self, folder: tuple[str, ...]) -> bool:
        """Returns whether this folder below proofs/ is its own. A method's folder is at the module of its type, which may not be
        the method's; the name of a trait follows the type's in one word."""
        if self.of:
            return len(folder) > 1 and folder[-1] == self.name and folder[-2].startswith(self.of)
        return folder == (*self.module, self.name)


@dataclass
class Edit:
    """An edit: the lines that it writes, by file and number, the functions between its first line and its last, whether all its lines
    are in functions, and its text."""

    name: str
    lines: dict[tuple[str, int], str]
    owners: set[Function]
    is_inside: bool
    text: str = ""


def functions_of(crate: Path) -> list[Function]:
    """Finds a crate's functions by the layout of `rt fmt`, in which a body ends with a brace below the function's first letter."""
    found = []
    for path in sorted((crate / "src").rglob("*.rt")):
        file, of, trait = path.relative_to(crate).as_posix(), "", ""
        module = () if file in ("src/lib.rt", "src/main.rt") else tuple(file.removeprefix("src/").removesuffix(".rt").split("/"))
        lines = path.read_text(encoding="utf-8").split("\n")
        for at, line in enumerate(lines):
            if line[:1].isalpha() and line != "where":
                trait, arguments, of = it.groups("") if (it := IMPL.match(line)) else ("", "", "")
                trait += "".join(word[0].upper() + word[1:] for word in re.findall(r"\b[A-Za-z]\w*", arguments))
            if it := FUNCTION.match(line):
                found.append(Function(module, of, trait, it[2], file, first_line(lines, at, it[1]), last_line(lines, at, it[1])))
    return found


def first_line(lines: list[str], at: int, indent: str) -> int:
    """Returns the number of the first line, attributes included, of the function whose `fn` is at index `at` with this indent."""
    while at > 0 and lines[at - 1].startswith(indent + "#["):
        at -= 1
    return at + 1


def last_line(lines: list[str], at: int, indent: str) -> int:
    """Returns the number of the last line of the function that begins at index `at` with this indent."""
    if lines[at].endswith((";", "}")):
        return at + 1
    for below in range(at + 1, len(lines)):
        if lines[below] == indent + "}":
            return below + 1
        if FUNCTION.match(lines[below]) or lines[below] and not lines[below].startswith(indent):
            return below
    return len(lines)


def read_edit(name: str, whole: str, crate: Path, functions: list[Function], edited: tuple[str, ...] = EDITED) -> Edit:
    """Applies the edit of this name and text to the files in a crate, or in another folder, which it may change where `edited` says; or
    raises Unusable."""
    file, old = "", ""
    texts: dict[str, str] = {}
    places: set[tuple[str, int]] = set()
    pairs: list[tuple[str, str, str]] = []
    for line in whole.split("\n"):
        if line.startswith("file: "):
            file = line.removeprefix("file: ").strip()
            if not file.startswith(edited) or not (crate / file).is_file():
                raise Unusable(f"there is no source {file}")
            texts.setdefault(file, (crate / file).read_text(encoding="utf-8"))
        elif line.startswith("old: "):
            old = line.removeprefix("old: ")
        elif line.startswith("new:"):
            if not file or not old:
                raise Unusable("a line 'new:' has no 'file:' or no 'old:' above it")
            before, *others = texts[file].split(old)
            if len(others) != 1:
                raise Unusable(f"an 'old:' text is in {file} {len(others)} times, and not once")
            places.add((file, before.count("\n") + 1))
            new = line.removeprefix("new:").removeprefix(" ")
            texts[file] = before + new + others[0]
            pairs.append((file, old, new))
            old = ""
        elif line:
            raise Unusable(f"a line begins with none of 'file:', 'old:' and 'new:': {line.strip()[:60]}")
    if not places:
        raise Unusable("it has no pair of 'old:' and 'new:'")
    clauses = (it for it in pairs if it[0].startswith("specs/"))
    if bound := next((it for file, *pair in clauses if (it := name_bound(*pair, texts[file]))), ""):
        raise Unusable(f"{bound} is no constructor where one stood, so that it fits any value")
    # no text contains the end of a line, so lines keep their numbers
    lines = {(file, at): texts[file].split("\n")[at - 1] for file, at in places}
    owners = {it for it in functions for place in between(places) if it.holds(*place)}
    return Edit(name, lines, owners, all(any(it.holds(*place) for it in functions) for place in places), whole)


def name_bound(old: str, new: str, text: str) -> str:
    """Returns a name that stands in a clause of a definition where a constructor stood, and that the file, whose text this is, neither
    imports nor declares: such a name fits any value. Returns no text if there is none."""
    if " = " not in old or " = " not in new:
        return ""
    imported = (name for names in re.findall(r"^use [^{]*\{(.*)\}", text, re.MULTILINE) for name in NAME.findall(names))
    known = {*imported, *re.findall(r"^ *(?:pub )?([\w'-]+) : ", text, re.MULTILINE)}
    was, now = (NAME.findall(it.split(" = ")[0]) for it in (old, new))
    return next((it for before, it in zip(was, now) if before in known and it not in known), "")


def between(places: set[tuple[str, int]]) -> Iterable[tuple[str, int]]:
    """Returns each line from the first place in a file to the last."""
    for file in {file for file, _ in places}:
        lines = [at for it, at in places if it == file]
        yield from ((file, at) for at in range(min(lines), max(lines) + 1))


class PlantedRow(NamedTuple):
    """A bug and the test that has to refuse it: the crate that is edited, or `tests`; the edit's name; the test's crate or script; the
    test; and what the test says when it fails for this bug, where `..` stands for what has no space in it, such as a path."""

    of: str
    bug: str
    by: str
    test: str
    says: str

    def is_reason_of(self, failure: str) -> bool:
        """Whether what a test says has this row's text."""
        return bool(self.says) and re.search(r"\S*".join(map(re.escape, self.says.split(".."))), failure) is not None


class Planted(NamedTuple):
    """A planted bug: the text of its edit, and a row for each test that has to refuse it."""

    text: str
    rows: list[PlantedRow]


def root_of(of: str) -> str:
    """Returns the folder, from the repository's top, in which the planted bugs of a crate change files, or those of tests/planted/."""
    return "." if of == "tests" else f"crates/{of}"


def planted_of(of: str, bug: str, block: str) -> Planted:
    """Reads the block of a planted bug."""
    tests = [it.removeprefix("test: ").split() for it in block.split("\n") if it.startswith("test: ")]
    says = [it.removeprefix("says: ") for it in block.split("\n") if it.startswith("says: ")]
    if not tests or len(says) != len(tests) or any(len(it) != 2 for it in tests):
        raise Unusable(f"{of}/{bug} has no pairs of lines 'test: BY TEST' and 'says: TEXT'")
    text = "".join(it for it in block.splitlines(keepends=True) if not it.startswith(("test: ", "says: ")))
    return Planted(text, [PlantedRow(of, bug, *test, said) for test, said in zip(tests, says)])


@cache
def planted(top: Path) -> dict[tuple[str, str], Planted]:
    """Returns all planted bugs, by their crate, or by `tests`, and their name."""
    found: dict[tuple[str, str], Planted] = {}
    for file in sorted([*top.glob("crates/*/planted.txt"), *top.glob("tests/planted/*.txt")]):
        of = "tests" if file.parent.name == "planted" else file.parent.name
        for bug, block in blocks_of(file):
            if (of, bug) in found:
                raise Unusable(f"two planted bugs of {of} are named {bug}")
            found[of, bug] = planted_of(of, bug, block)
    return found


def planted_rows(top: Path) -> list[PlantedRow]:
    """Returns the rows of all planted bugs."""
    return [row for it in planted(top).values() for row in it.rows]


def read_planted(top: Path, of: str, bug: str) -> Edit:
    """Reads the edit of a planted bug, as `read_edit` does."""
    return read_edit(bug, planted(top)[of, bug].text, top / root_of(of), [], EDITED_BY_TESTS if of == "tests" else EDITED)


def blocks_of(file: Path) -> Iterator[tuple[str, str]]:
    """Yields the name and the text of each edit in a file of edits."""
    before, *blocks = re.split(rf"^{NAMES}", file.read_text(encoding="utf-8"), flags=re.MULTILINE)
    if before:
        raise Unusable(f"{file} does not begin with '{NAMES}'")
    for name, _, text in (it.partition("\n") for it in blocks):
        yield name, text.rstrip("\n") + "\n"


def edits_of(crate: Path) -> dict[str, str]:
    """Returns the texts of a crate's edits, by their names."""
    found = {path.stem: path.read_text(encoding="utf-8") for path in sorted((crate / "must-fail").glob("*.edit"))}
    file = crate / "edits.txt"
    for name, text in blocks_of(file) if file.is_file() else []:
        if name in found:
            raise Unusable(f"two edits of {crate.name} are named {name}")
        found[name] = text.removeprefix(ALWAYS)
    return found


def always_tried(crate: Path) -> set[str]:
    """Returns the names of a crate's edits that each run tries: those of must-fail/, and those with the line `always`."""
    file = crate / "edits.txt"
    marked = (name for name, text in blocks_of(file) if text.startswith(ALWAYS)) if file.is_file() else ()
    return {path.stem for path in (crate / "must-fail").glob("*.edit")}.union(marked)
