#!/usr/bin/env python3
"""Checks that what the documents name exists: links and their sections, paths, and the names in the sources that they cite; that no
test is left out; and that code which they show is in the sources.

Usage: documents.py [CHECK ..]

A check is a function below that finds faults, and says there which. CHECKS lists them all. With names, only these checks are made, and
by default all. Each fault has a line, and the status is then 1.
"""
import ast
import functools
import re
import sys
from collections.abc import Callable, Iterable, Iterator
from pathlib import Path
from typing import NamedTuple

import rattle
import run
import editions
from edit_sources import TOP, Unusable, edits_of, planted_rows, read_edit, read_planted

PAGES = [TOP / "README.md", TOP / "CONTRIBUTING.md", TOP / "CHANGELOG.md", *sorted(TOP.glob("docs/*.md")), TOP / "bench" / "README.md"]
PAGES += sorted(TOP.glob("plugins/*/README.md"))
PROMISES = [TOP / "docs" / "PROMISES.md"]
OF_MAINTAINERS = ["ARCHITECTURE.md", "DECISIONS.md", "EMBEDDING.md", "FORMATS.md", "PROVING.md", "TESTING.md", "SECURITY.md"]
MAINTAINERS = [TOP / "docs" / name for name in OF_MAINTAINERS]
# The files besides pages whose lines may have no more columns than theirs.
HOSTS = [file for file in sorted([*TOP.glob("hosts/*"), *TOP.glob("hosts/*/*.py")]) if file.is_file()]
NARROWED = ["tests/*.py", "tests/*.c", "bench/*.py", "bench/*.c", "clib/*.*", "clib/examples/*", "plugins/*/*.c", "tools/*", "man/*"]
NARROWED += ["completions/*", "packaging/*.py", "Makefile", "docs/editions/*.txt"]
NARROW = [file for pattern in NARROWED for file in sorted(TOP.glob(pattern))] + HOSTS

# The kit with which everything was proved: its name, and the checksum of its logic.
KIT = re.search(r"^KIT = (.+)$", (TOP / "Makefile").read_text(encoding="utf-8"), re.MULTILINE).group(1)

# A comment of a source file, with what is before it in its line if that is blank.
COMMENT = re.compile(r"(?m)(?:^|\s)(?://|--)(?: .*|$|[/!].*)")
# What pages have between backquotes although no source or script has it: a word that no source may have, a word of a command of the kit,
# commands of the system, and the kit's own identity.
NOT_OF_THE_SOURCES = {"axiom", "doc", "df", "xargs", *KIT.split()}
# What is no name there. Source files have a check of their own, and the others name no single thing that exists: commands, and paths in any
# crate, of build results or of several files.
SKIPPED = r"\.(rt|antt|rattle)$| |NAME|/out/|^out/|\*"

# What docs/PROMISES.md says that no source has: raw pointers, a C function, whose contract is trusted, and a statement without proof.
UNPROVED = re.compile(r"\b(?:unsafe|extern|axiom)\b")
# What marks a function that is exported to C: it is proved as any other.
EXPORTED = re.compile(r'^(?:#\[unsafe\(no_mangle\)\]$|pub extern "C" fn )')

# The fewest characters that a planted bug has of what a test says: fewer might stand in the output for another reason.
LEAST_SAID = 12

# How a page gives a name together with the file in which it stands: the name first, or the file and then some names.
FILE = r"`([\w/.-]+\.(?:rt|antt|rattle|py))`"
NAME_FIRST = re.compile(rf"((?:`[^`\n]+`,\s+)*`[^`\n]+`)\s+(?:in|of)\s+{FILE}")
FILE_FIRST = re.compile(rf"{FILE}(?: \| |\s+\()((?:`[^`\n]+`,\s+)*`[^`\n]+`)")


def prose(page: Path) -> Iterator[tuple[int, str]]:
    """The lines of a page, numbered from 1, without those of its code blocks."""
    is_block = False
    for number, line in enumerate(page.read_text(encoding="utf-8").splitlines(), 1):
        if line.startswith("```"):
            is_block = not is_block
        elif not is_block:
            yield number, line


def sections(page: Path) -> set[str]:
    """The anchors of a page's sections, made from their titles as GitHub makes them."""
    titles = [line.lstrip("#").strip().lower() for _, line in prose(page) if re.match(r"#+ ", line)]
    return {re.sub(r"[^\w\- ]", "", title).replace(" ", "-") for title in titles}


def broken_links(page: Path) -> Iterator[str]:
    """The links of a page that lead to no file, or to no section of the file."""
    for number, line in prose(page):
        for target in re.findall(r"\]\(([^)\s]+)\)|^\[\w+\]: (\S+)", line):
            path, _, section = "".join(target).partition("#")
            if path.startswith("http"):
                continue
            there = page.parent / path if path else page
            if not there.exists() or section and section not in sections(there):
                yield f"{page.name}:{number}: {path}#{section}"


def missing_paths(page: Path) -> Iterator[str]:
    """The paths of a page, relative to the repository's top, at which nothing exists."""
    for number, line in prose(page):
        for path in re.findall(r"`((?:bench|crates|docs|hosts|man|packaging|tests|tools)/[\w./-]+)`", line):
            # A path of any crate, or of what is built, need not be there.
            if "NAME" not in path and "/out/" not in path and not (TOP / path).exists():
                yield f"{page.name}:{number}: {path}"


def texts_of(files: Iterable[Path]) -> dict[str, str]:
    """The text of each of these files, by its path from the repository's top."""
    return {str(file.relative_to(TOP)): file.read_text(encoding="utf-8") for file in files}


@functools.cache
def sources() -> dict[str, str]:
    """The text of each source file of all crates, by its path from the repository's top."""
    of_crates = (file for file in sorted(TOP.glob("crates/**/*")) if file.suffix in (".rt", ".antt") and "out" not in file.parts)
    return texts_of([*of_crates, *rattle.files()])


def missing_blocks(page: Path, texts: dict[str, str]) -> Iterator[str]:
    """The blocks of code, definitions, proofs or an edit of a page that do not stand in any source or edit as they are shown."""
    page_text = page.read_text(encoding="utf-8")
    for block in re.finditer(r"^```(?:rust|antt|edit)\n(.*?)^```$", page_text, re.MULTILINE | re.DOTALL):
        if not any(block[1] in text for text in texts.values()):
            yield f"{page.name}:{page_text.count(chr(10), 0, block.start()) + 1}"


def heads_of(texts: dict[str, str]) -> dict[str, str]:
    """The head of each library, without the marks of its comment."""
    heads = {f"head of {path}": text for path, text in texts.items() if path.endswith("/src/lib.rt")}
    return {path: "\n".join(re.findall(r"^//! ?(.*)$", text, re.MULTILINE)) + "\n" for path, text in heads.items()}


def without_blanks(name: str, rest: str) -> str:
    """A signature as it is compared: without blanks, and without a comma after the last argument."""
    return name + re.sub(r"\s|,(?=\s*\))", "", rest)


def unknown_signatures() -> Iterator[str]:
    """The signatures in docs/EMBEDDING.md that no public function has, without its type parameters."""
    form = re.compile(r"pub fn (\w+)(?:<[^(]*>)?(\([^{]*?)\s*(?=//|\{|requires\b|ensures\b)")
    has = {without_blanks(*match.groups()) for text in sources().values() for match in form.finditer(text)}
    for number, line in prose(TOP / "docs" / "EMBEDDING.md"):
        for name, rest in re.findall(r"^\| `(?:\w+::)?(\w+)(\(.*\).*?)` \|", line):
            if without_blanks(name, rest) not in has:
                yield f"{number}: {name}{rest}"


def words_of(text: str) -> set[str]:
    """The names in a text of sources or scripts."""
    return set(re.findall(r"[\w◌'-]+", text))


def quoted(page: Path) -> Iterator[tuple[str, str]]:
    """The names between backquotes in a page, each with its place."""
    for number, line in prose(page):
        for name in re.findall(r"`([^`]+)`", line):
            yield f"{page.name}:{number}: {name}", name


def unknown_files(page: Path, paths: list[str]) -> Iterator[str]:
    """The source files and edits that a page names, by the end of their path, and that are nowhere."""
    for where, name in quoted(page):
        is_file = re.fullmatch(r"[\w/-]+\.(rt|antt|edit|rattle)", name) and "NAME" not in name
        if is_file and not any(f"/{path}".endswith(f"/{name}") for path in paths):
            yield where


def unknown_names(page: Path, paths: list[str], known: set[str], skipped: str = r"\.(rt|antt|rattle)$") -> Iterator[str]:
    """The names of a page that are unknown, without those skipped, such as source files. A path has to exist; of any other name, each
    word has to be known."""
    for where, name in quoted(page):
        if re.search(skipped, name):
            continue
        if "/" in name:
            is_of_a_crate = any(f"/{name}" in f"/{path}" for path in paths) or any(TOP.glob(f"crates/*/{name}"))
            is_there = (TOP / name).exists() or is_of_a_crate
        else:
            is_there = set(re.findall(r"[A-Za-z_][\w-]*", name)) <= known
        if not is_there:
            yield where


def misplaced_names(page: Path, texts: dict[str, str]) -> Iterator[str]:
    """The names of a page that it gives together with a file, of sources or a script, and that do not stand in that file."""
    lines = dict(prose(page))
    text = "\n".join(lines.get(number, "") for number in range(1, max(lines) + 1))
    found = [(match, match[1], match[2]) for match in NAME_FIRST.finditer(text)]
    found += [(match, match[2], match[1]) for match in FILE_FIRST.finditer(text)]
    for match, names, file in found:
        has = [words_of(texts[path]) for path in texts if f"/{path}".endswith(f"/{file}")]
        for name in re.findall(r"`([^`]+)`", names):
            is_file = re.fullmatch(FILE, f"`{name}`") or "/" in name
            if not is_file and not any(set(re.findall(r"[A-Za-z_][\w-]*", name)) <= words for words in has):
                yield f"{page.name}:{text.count(chr(10), 0, match.start()) + 1}: {name} in {file}"


def words_of_scripts() -> set[str]:
    """The words in the tests, the benchmarks, the tools, the hosts, the Makefile and the lists of crates, and the names of these files."""
    files = [TOP / "Makefile", TOP / "crates.txt", rattle.LISTED, *TOP.glob("tests/*.*"), *TOP.glob("bench/*.py"), *TOP.glob("tools/*")]
    files += [*HOSTS, *TOP.glob("packaging/*.py")]
    return {word for file in files for word in [file.stem, *re.findall(r"[\w-]+", file.read_text(encoding="utf-8"))]}


def untold_tests() -> Iterator[str]:
    """The files in this folder that docs/TESTING.md does not name."""
    told = (TOP / "docs" / "TESTING.md").read_text(encoding="utf-8")
    yield from (path.name for path in sorted(TOP.glob("tests/*.py")) if f"`{path.name}`" not in told)


def unused_functions() -> Iterator[str]:
    """The functions that their script never uses and that are no tests."""
    tests = {*tests_of_scripts()}
    for name in run.TESTS:
        script = ast.parse((TOP / "tests" / name).read_text(encoding="utf-8"))
        used = {it.id for it in ast.walk(script) if isinstance(it, ast.Name)} | {test for by, test in tests if by == name}
        yield from (f"{name}: {it.name}" for it in script.body if isinstance(it, ast.FunctionDef) and it.name not in used)


def untyped_functions() -> Iterator[str]:
    """The functions of the scripts and the hosts, and of the tools in Python, that do not give the types of all their arguments and of
    their result."""
    tools = [path for path in TOP.glob("tools/*") if path.read_text(encoding="utf-8").startswith("#!/usr/bin/env python3\n")]
    for path in sorted([*TOP.glob("tests/*.py"), *TOP.glob("bench/*.py"), *TOP.glob("packaging/*.py"), *tools, *HOSTS]):
        for it in ast.walk(ast.parse(path.read_text(encoding="utf-8"))):
            if isinstance(it, ast.FunctionDef | ast.AsyncFunctionDef):
                arguments = [argument for argument in ast.walk(it.args) if isinstance(argument, ast.arg) and argument.arg != "self"]
                if it.returns is None or any(argument.annotation is None for argument in arguments):
                    yield f"{path.name}: {it.name}"


def leaves(body: list[ast.stmt], is_inner: bool = False) -> bool:
    """Whether the body of a loop may leave it by `break` or `return`. A loop within it has a `break` of its own."""
    for it in body:
        if isinstance(it, ast.Return) or isinstance(it, ast.Break) and not is_inner:
            return True
        if not isinstance(it, ast.FunctionDef):
            within = is_inner or isinstance(it, ast.For | ast.While)
            if any(leaves(part, within) for _, part in ast.iter_fields(it) if isinstance(part, list)):
                return True
    return False


def left_tables() -> Iterator[str]:
    """The loops over the rows of a table, by `each`, that may end before the last row: the faults found so far would be lost."""
    for path in sorted(TOP.glob("tests/*.py")):
        for it in ast.walk(ast.parse(path.read_text(encoding="utf-8"))):
            if isinstance(it, ast.For) and isinstance(it.iter, ast.Call) and ast.unparse(it.iter.func) == "each" and leaves(it.body):
                yield f"{path.name}:{it.lineno}"


def tests_of_scripts() -> Iterator[tuple[str, str]]:
    """The tests that `run_all` finds, each with its script."""
    for name in run.TESTS:
        text = (TOP / "tests" / name).read_text(encoding="utf-8")
        yield from ((name, test) for test in re.findall(r"^def (\w+)\(folder: str\) -> None:$", text, re.M))


def pages_of_another_kit() -> Iterator[str]:
    """The pages that do not name the kit: docs/PROMISES.md has to give all of KIT, README.md only its name."""
    for page, told in [(TOP / "docs" / "PROMISES.md", KIT), (TOP / "README.md", KIT.split()[0])]:
        if not any(name == told for _, name in quoted(page)):
            yield f"{page.name}: {told}"


def libraries_left_out() -> Iterator[str]:
    """The libraries below the program that LIBRARIES of the Makefile does not have: make build would not see that one has changed."""
    text = (TOP / "Makefile").read_text(encoding="utf-8").replace("\\\n", "")
    listed = re.search(r"^LIBRARIES = (.+)$", text, re.MULTILINE).group(1).split()
    yield from sorted({*rattle.below("scramotp", rattle.uses())} - {*listed})


def taken_unproved() -> Iterator[str]:
    """The lines of sources, without their comments and the marks of a function that is exported to C, that have a word of UNPROVED."""
    for path, text in sources().items():
        for number, line in enumerate(text.splitlines(), 1):
            if UNPROVED.search(EXPORTED.sub("", re.split(r"//|-- ", line)[0])):
                yield f"{path}:{number}: {line.strip()}"


def cited_inner() -> Iterator[str]:
    """The public functions whose contracts cite a definition of specs/inner, which docs/ARCHITECTURE.md lets a reader skip."""
    for file in sorted(TOP.glob("crates/*/src/**/*.rt")):
        text = file.read_text(encoding="utf-8")
        inner = re.findall(r"ghost use Rattle\.\w+\.specs\.inner\.\w+\.\{([^}]*)\}", text)
        names = {name.strip() for names in inner for name in names.split(",")}
        for function in re.finditer(r"\n\s*pub fn (\w+)", text):
            # Its contract ends where its body begins, in a line of its own.
            contract = re.split(r"\n\s*\{\}?\n", text[function.start():], maxsplit=1)[0]
            for name in sorted(names & set(re.findall(r"\w+", contract))):
                yield f"{function[1]} of {file.relative_to(TOP)} cites {name}"


def stale_bugs() -> Iterator[str]:
    """The planted bugs that do not apply, or have no test or too little of what it says."""
    for row in planted_rows(TOP):
        name = f"{row.of}/{row.bug}"
        try:
            read_planted(TOP, row.of, row.bug)
        except Unusable as fault:
            yield f"{name}: {fault}"
        files = [TOP / "tests" / row.by] if row.by.endswith(".py") else [*(rattle.TESTS / row.by).rglob(f"*{rattle.ENDING}")]
        if not any(re.search(rf"\b(?:def|fn) {row.test}\(", file.read_text(encoding="utf-8")) for file in files if file.exists()):
            yield f"{name}: {row.by} has no test {row.test}"
        if len(row.says) < LEAST_SAID:
            yield f"{name}: {row.test} of {row.by}: it has under {LEAST_SAID} characters of what the test says: {row.says!r}"
        if re.search(r"[a-z]: (?:\.\.)?$", row.says):
            yield f"{name}: {row.test} of {row.by}: it names a check, and not what the test has seen: {row.says!r}"


def wide_lines(file: Path) -> Iterator[str]:
    """The lines that have over 140 columns: of a page outside its tables and code blocks, and of any other file all."""
    is_page = file.suffix == ".md"
    for number, line in prose(file) if is_page else enumerate(file.read_text(encoding="utf-8").splitlines(), 1):
        if len(line) > 140 and not (is_page and line.startswith("|")):
            yield f"{file.name}:{number}"


def unplanted_tests() -> Iterator[str]:
    """The tests of scripts of which no planted bug shows that they notice one."""
    planted = {(row.by, row.test) for row in planted_rows(TOP)}
    yield from (f"{test} of {script}" for script, test in sorted({*tests_of_scripts()} - planted))


def stale_edits() -> Iterator[str]:
    """Finds the edits of crates that do not apply."""
    for crate in sorted(TOP.glob("crates/*")):
        for name, text in edits_of(crate).items():
            try:
                read_edit(name, text, crate, [])
            except Unusable as fault:
                yield f"{crate.name}/{name}: {fault}"


def stale_editions() -> Iterator[str]:
    """The pages of docs/editions/ that are not what the sources give."""
    yield from editions.stale()


def known() -> set[str]:
    """The names that a page of promises may have."""
    return words_of(re.sub(COMMENT, "", "\n".join(sources().values()))) | NOT_OF_THE_SOURCES


def edits() -> dict[str, str]:
    """The text of each edit, by its path from the repository's top."""
    found = ("crates/*/must-fail/*.edit", "crates/*/edits.txt", "crates/*/planted.txt", "tests/planted/*.txt")
    return texts_of([file for pattern in found for file in TOP.glob(pattern)])


class Check(NamedTuple):
    """A check: its kind of fault; the function that finds the faults, in each of these pages or, if there is none, in all; and a function
    that returns what that is given besides a page."""

    kind: str
    find: Callable[..., Iterator[str]]
    pages: list[Path] = []
    given: Callable[[], tuple] = tuple

    def faults(self) -> list[str]:
        """Makes the check, and returns the faults."""
        given = self.given()
        return [fault for page in self.pages for fault in self.find(page, *given)] if self.pages else [*self.find()]


CHECKS = [
    Check("no such link", broken_links, PAGES),
    Check("no such path", missing_paths, PAGES),
    Check("more than 140 columns", wide_lines, PAGES + NARROW),
    Check("no source shows this block", missing_blocks, PAGES, lambda: (sources() | edits() | heads_of(sources()),)),
    Check("no crate has this file", unknown_files, PAGES, lambda: ([*sources(), *edits()],)),
    Check("the file beside this name does not have it", misplaced_names, PAGES, lambda: (sources() | texts_of(TOP.glob("tests/*.py")),)),
    Check("no source has this name", unknown_names, PROMISES, lambda: ([*sources()], known())),
    Check("nothing has this name", unknown_names, MAINTAINERS, lambda: ([*sources()], known() | words_of_scripts(), SKIPPED)),
    Check("no public function has this signature of docs/EMBEDDING.md", unknown_signatures),
    Check("the kit of the Makefile is missing", pages_of_another_kit),
    Check("the Makefile's LIBRARIES lack this one", libraries_left_out),
    Check("docs/PROMISES.md says that no source has this word", taken_unproved),
    Check("docs/editions/ has another text than the sources give", stale_editions),
    Check("docs/TESTING.md does not name this script", untold_tests),
    Check("its script never uses this function", unused_functions),
    Check("this function has an argument without its type, or does not give that of its result", untyped_functions),
    Check("this loop over a table may end before its last row", left_tables),
    Check("a public contract cites specs/inner", cited_inner),
    Check("a wrong body does not apply", stale_edits),
    Check("this planted bug does not fit", stale_bugs),
    Check("no planted bug is of this test", unplanted_tests),
]


def main() -> int:
    """Makes the checks, or those of these names. Prints the faults, and how many checks pass and fail. Returns the exit status."""
    names, failed = sys.argv[1:], 0
    if strangers := set(names) - {it.find.__name__ for it in CHECKS}:
        sys.exit(f"documents.py: no check {', '.join(sorted(strangers))}")
    chosen = [it for it in CHECKS if not names or it.find.__name__ in names]
    for it in chosen:
        faults = it.faults()
        failed += faults != []
        for fault in faults:
            print(f"documents.py: {it.kind}: {fault}", file=sys.stderr)
    print(f"documents.py: {len(chosen) - failed} passed, {failed} failed", file=sys.stderr)
    return 1 if failed else 0


if __name__ == "__main__":
    sys.exit(main())
