"""How a page of docs/editions/ shows a definition, a type or a contract: in as few lines of 140 columns as its words need.

A definition with one equation has the types of its arguments in it: `NAME (argument : TYPE) : RESULT = BODY`. Words stand beside what
they explain where both fit, and above it else. Short fields, cases and equations share a line, and so does a file's name with what is first
of it. `pub`, `abbrev` and `unfoldable` go.
"""
import re
import textwrap
from collections.abc import Iterable, Iterator
from itertools import groupby
from typing import NamedTuple

WIDTH = 140
# The most columns of a field, a case or an equation that shares its line with others, or with words that go on below.
MOST_SHARED = 54
CLOSING = {"(": ")", "{": "}"}


class Item(NamedTuple):
    """The words above some code, or none, and its lines, the first without the indentation that all share."""

    words: str
    lines: list[str]


def filled(parts: Iterable[str], first: int = 0, later: int = 4) -> list[str]:
    """Parts of code, as many in each line as fit, with the indentation of the first line and that of the others."""
    lines = [""]
    for part in parts:
        more = f"{lines[-1]} {part}".strip()
        if lines[-1] and len(more) + (first if len(lines) == 1 else later) > WIDTH:
            lines.append(part)
        else:
            lines[-1] = more
    return [" " * (first if at == 0 else later) + line for at, line in enumerate(lines)]


def wrapped(words: str, mark: str, indent: int = 0) -> list[str]:
    """Words as comments of whole lines."""
    start = f"{' ' * indent}{mark} "
    return [start + line for line in textwrap.wrap(words, WIDTH - len(start), break_long_words=False, break_on_hyphens=False)]


def with_words(words: str, lines: list[str], mark: str) -> list[str]:
    """Lines of code with the words on them: beside the first if both fit, and above else. Words of several lines begin beside a line that
    stands alone and is short, if that makes them fewer."""
    beside = f"{lines[0]}  {mark} {words}"
    indent = len(lines[0]) - len(lines[0].lstrip())
    if not words:
        return lines
    if len(beside) <= WIDTH:
        return [beside, *lines[1:]]
    above = wrapped(words, mark, indent) + lines
    if len(lines) == 1 and len(lines[0]) <= MOST_SHARED:
        below = textwrap.wrap(words, WIDTH, initial_indent=f"{lines[0]}  {mark} ", subsequent_indent=f"{' ' * (indent + 4)}{mark} ",
                              break_long_words=False, break_on_hyphens=False)
        return min(above, below, key=len)
    return above


def shared(pieces: list[list[str]]) -> list[str]:
    """Pieces of code, each of one or more lines; those of one line, if they are not too long, share lines."""
    lines: list[str] = []
    is_open = False
    for piece in pieces:
        one = piece[0].strip()
        is_short = len(piece) == 1 and len(one) <= MOST_SHARED
        if is_open and is_short and len(f"{lines[-1]}; {one}") <= WIDTH:
            lines[-1] += f"; {one}"
        else:
            lines += piece
            is_open = is_short
    return lines


def items_of(lines: list[str], mark: str) -> list[Item]:
    """The items of a body whose lines have one indentation, and deeper ones where an item goes on. Words within an item are added to those
    above it, each with the name of its line. Words that nothing follows are an item without lines."""
    indent = min((len(line) - len(line.lstrip()) for line in lines), default=0)
    found: list[Item] = []
    words: list[str] = []
    for line in lines:
        text = line[indent:].removeprefix("pub ")
        goes_on = bool(found) and text.startswith((" ", "}", ")"))
        if text.lstrip().startswith(mark):
            words.append(text.strip().lstrip(mark[0]).strip())
            continue
        if not goes_on:
            found.append(Item(" ".join(words), [text]))
        else:
            inner = text.strip().removeprefix("pub ")
            told = [f"`{inner.partition(':')[0]}`: {' '.join(words)}"] if words else []
            found[-1] = Item(" ".join([found[-1].words, *told]), [*found[-1].lines, inner])
        words = []
    return [*found, *([Item(" ".join(words), [])] if words else [])]


def merged(fields: list[str]) -> Iterator[str]:
    """Fields, of which neighbours of one type share it."""
    for type_of, same in groupby(fields, lambda field: field.partition(" : ")[2]):
        each = [*same]
        one = f"{' '.join(field.partition(' : ')[0] for field in each)} : {type_of}"
        yield from [one] if type_of and len(one) <= MOST_SHARED else each


def body(items: list[Item], indent: int, mark: str) -> list[str]:
    """The fields or cases of a body. Those that follow words without words of their own belong to them: words stand beside them if all are
    in one line."""
    lines: list[str] = []
    groups: list[tuple[str, list[list[str]]]] = []
    for item in items:
        if item.words or not groups:
            groups.append((item.words, []))
        groups[-1][1].append(item.lines)
    for words, pieces in groups:
        flat = [" ".join(piece) for piece in pieces]
        if all(len(piece) == 1 for piece in pieces) and mark == "--":
            pieces = [[piece] for piece in merged(flat)]
        shown = shared([filled(piece, indent, indent + 4) for piece in pieces])
        is_of_many = bool(words) and len(pieces) > 1 and len(shown) > 1
        lines += [*wrapped(words, mark, indent), *shown] if is_of_many else with_words(words, shown, mark)
    return lines


def split_top(text: str, by: str) -> list[str]:
    """The parts of a text between these signs, where no bracket is open."""
    parts, depth, start = [], 0, 0
    for at, sign in enumerate(text):
        depth += (sign in "({") - (sign in ")}")
        if depth == 0 and text.startswith(by, at):
            parts.append(text[start:at].strip())
            start = at + len(by)
    return [*parts, text[start:].strip()]


class Argument(NamedTuple):
    """An argument of a signature: its bracket, its name, which may be empty, and its type."""

    bracket: str
    name: str
    kind: str


def arguments_of(part: str) -> list[Argument]:
    """The arguments before one arrow of a signature: one without a name, or groups of names as in `(a b : A) {c : C}`."""
    groups = re.findall(r"([({])([\w' ]+) : ((?:[^(){}]|\((?:[^()]|\([^()]*\))*\))+)[)}]", part)
    spelled = "".join(f"{bracket}{names} : {kind}{CLOSING[bracket]}" for bracket, names, kind in groups)
    if not groups or spelled.replace(" ", "") != part.replace(" ", ""):
        return [Argument("(", "", part)]
    return [Argument(bracket, name, kind) for bracket, names, kind in groups for name in names.split()]


def bound(signature: str, names: list[str]) -> str | None:
    """The arguments of a signature by these names of theirs, with their types, and then the type of the result. None if the signature has
    too few, or needs another name of one."""
    *parts, last = split_top(signature, "→")
    every = [one for part in parts for one in arguments_of(part)]
    kinds = " ".join([*(one.kind for one in every), last])
    left, found, result = [*names], [], []
    for one in every:
        if one.bracket == "{":
            found.append(one)
        elif not left:
            result.append(f"({one.name} : {one.kind})" if one.name else one.kind)
        elif one.name not in ("", left[0]) and re.search(rf"(?<![\w']){one.name}(?![\w'])", kinds):
            return None
        else:
            found.append(Argument("(", left.pop(0), one.kind))
    if left:
        return None
    groups = [(bracket, kind, [*same]) for (bracket, kind), same in groupby(found, lambda it: (it.bracket, it.kind))]
    shown = [f"{bracket}{' '.join(it.name for it in same)} : {kind}{CLOSING[bracket]}" for bracket, kind, same in groups]
    return " ".join([*shown, f": {' → '.join([*result, last])}"])


def equations(head: list[str], items: list[Item]) -> list[str]:
    """A definition by equations: in one line if that is enough; with the types in its equation if there is one; else one after another.
    Definitions of its own, after `where`, stay as they are."""
    flat = " ".join(head)
    name, _, signature = flat.partition(" : ")
    pieces = [it.lines for it in items]
    if len(pieces) == 1 and "where" in pieces[0]:
        at = pieces[0].index("where")
        return [*equations(head, [Item("", pieces[0][:at])]), *(f"    where {line}" for line in pieces[0][at + 1:at + 2]),
                *(f"          {line}" for line in pieces[0][at + 2:])]
    if len(pieces) == 1:
        left, _, right = pieces[0][0].partition(" =")
        names = left.split()[1:]
        if all(re.fullmatch(r"[a-z_][\w']*", it) for it in names) and (shown := bound(signature, names)):
            start = f"{name} {shown} ="
            if len(start) <= WIDTH:
                return filled([start, *filter(None, [right.strip(), *pieces[0][1:]])])
    if len(line := ";  ".join([flat, *(" ".join(piece) for piece in pieces)])) <= WIDTH:
        return [line]
    return [*filled(head), *shared([filled(piece, 2, 6) for piece in pieces])]


def definition(lines: list[str]) -> list[str]:
    """How a page shows a definition, given its lines."""
    at = next(at for at, line in enumerate(lines) if not re.match(r"\s*--", line))
    words = " ".join(line.strip().lstrip("-").strip() for line in lines[:at])
    indent = len(lines[at]) - len(lines[at].lstrip())
    code = [line[indent:] for line in lines[at:]]
    kind, _, first = re.sub(r"\bpub ", "", code[0]).partition(" ")
    if kind in ("abbrev", "unfoldable"):
        [top, *rest] = items_of([first, *code[1:]], "--")
        return with_words(words, equations(top.lines, rest), "--")
    last = next(at for at, line in enumerate(code) if line.endswith(" where"))
    head = [f"{kind} {first}", *(line.strip() for line in code[1:last + 1])]
    head[-1] = re.sub(r" : Type 0 where$", " where", head[-1])
    items = items_of(code[last + 1:], "--")
    inner = body(items, 2, "--")
    if len(inner) == 1 and not items[0].words and len(line := f"{' '.join(head)} {inner[0].strip()}") <= WIDTH:
        return with_words(words, [line], "--")
    return with_words(words, [*filled(head), *inner], "--")


def paragraphs(lines: list[str]) -> list[str]:
    """The paragraphs of words, of which those of a list are apart."""
    found: list[str] = []
    for line in lines:
        text = line.strip().lstrip("/").strip()
        if not found or not text or text.startswith("- "):
            found.append(text)
        else:
            found[-1] = f"{found[-1]} {text}".strip()
    return [text for text in found if text]


def rust_type(lines: list[str]) -> list[str]:
    """How a page shows a type of the code, or a trait, given its lines."""
    at = next(at for at, line in enumerate(lines) if not line.strip().startswith("//"))
    words = " ".join(paragraphs(lines[:at]))
    code = lines[at:]
    head = re.sub(r"^pub(?:\(crate\))? ", "", code[0])
    if len(code) == 1:
        return with_words(words, [head], "//")
    items = [Item(it.words, re.sub(r",(?=\n}|$)", "", "\n".join(it.lines)).split("\n")) for it in items_of(code[1:-1], "//")]
    if not any(it.words for it in items) and len(line := f"{head} {', '.join(' '.join(it.lines) for it in items)} }}") <= WIDTH:
        return with_words(words, [line], "//")
    return with_words(words, [head.removesuffix(" {"), *body(items, 2, "//")], "//")


def rust_contract(lines: list[str]) -> list[str]:
    """How a page shows a contract, given its lines."""
    indent = min(len(line) - len(line.lstrip()) for line in lines)
    lines = [line[indent:] for line in lines]
    at = next(at for at, line in enumerate(lines) if not line.startswith("///"))
    shown = [line for text in paragraphs(lines[:at]) for line in wrapped(text, "//")]
    parts = [*lines[at:]]
    begin = next((at for at, line in enumerate(parts) if re.match(r" +(?:ensures|requires|//)", line)), len(parts))
    head = re.sub(r"\( ", "(", re.sub(r",? ?\)", ")", re.sub(r"^pub ", "", " ".join(line.strip() for line in parts[:begin]))))
    shown += filled([head])
    for item in items_of(parts[begin:], "//"):
        shown += with_words(item.words, filled(item.lines, 4, 8), "//") if item.lines else wrapped(item.words, "//", 4)
    return shown


def of_file(file: str, lines: list[str]) -> list[str]:
    """The lines of what is of a file, after its name: the first stands beside it if both fit."""
    beside = f"==== {file}  {lines[0]}"
    return [beside, *lines[1:]] if len(beside) <= WIDTH else [f"==== {file}", *lines]


def words_above(lines: list[str]) -> str:
    """The words above a definition, a type or a contract."""
    marks = re.compile(r"\s*(?:--|//)")
    last = next((at for at, line in enumerate(lines) if not marks.match(line)), len(lines))
    return " ".join(paragraphs([marks.sub("", line) for line in lines[:last]]))


def elsewhere(name: str, lines: list[str]) -> str:
    """The line that names what another page shows, with the words above it or their beginning."""
    return textwrap.shorten(f"{name}: {words_above(lines)}", WIDTH, placeholder=" ..", break_on_hyphens=False)


def only_named(name: str, file: str, lines: list[str], why: str) -> list[str]:
    """The lines that name what no page needs to show, with the words above it, and why if they do not say it."""
    words = words_above(lines)
    told = f"{name} ({file}): {words}{'' if words.endswith('.') else '.'}{f' Not shown: {why}.' if why else ''}"
    return textwrap.wrap(told, WIDTH, subsequent_indent="    ", break_long_words=False, break_on_hyphens=False)
