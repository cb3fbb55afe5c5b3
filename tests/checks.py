"""The checks of the tests. Each fails with what was found and what was expected, also under `python3 -O`."""
from collections.abc import Iterable, Iterator
from typing import Any, NoReturn

# How many characters of a value are shown.
LONGEST = 2000
# How many characters of a long text are shown before and after the first difference.
AROUND = 300


def cut(text: str) -> str:
    """A text, or the first part of a long one."""
    return text if len(text) <= LONGEST else f"{text[:LONGEST]}.. ({len(text)} characters)"


def shown(value: Any) -> str:
    """A value as Python writes it."""
    return cut(repr(value))


def entries(got: dict, want: dict) -> Iterator[str]:
    """Each entry in which two dictionaries differ."""
    for key in {**want, **got}:
        if key not in want:
            yield f"{key}: {shown(got[key])}, which should be missing"
        elif key not in got:
            yield f"{key}: missing, not {shown(want[key])}"
        elif got[key] != want[key]:
            yield f"{key}: {difference(got[key], want[key])}"


def difference(got: Any, want: Any) -> str:
    """Two values that differ: of tuples and dictionaries only the parts that do, and of long texts what is around the first difference."""
    if isinstance(got, dict) and isinstance(want, dict):
        return "; ".join(entries(got, want))
    if isinstance(got, tuple) and isinstance(want, tuple) and len(got) == len(want):
        names = getattr(got, "_fields", None) or [f"part {number}" for number in range(1, len(got) + 1)]
        return "; ".join(f"{name}: {difference(*both)}" for name, *both in zip(names, got, want) if both[0] != both[1])
    if type(got) is type(want) and isinstance(got, (str, bytes)) and max(len(got), len(want)) > LONGEST:
        differ = (at for at, both in enumerate(zip(got, want)) if both[0] != both[1])
        at = next(differ, min(len(got), len(want)))
        part = slice(max(at - AROUND, 0), at + AROUND)
        return f"they differ at {at}, of {len(got)} and {len(want)} characters or bytes: {got[part]!r}, not {want[part]!r}"
    return f"{shown(got)}, not {shown(want)}"


def fail(about: Iterable[Any], why: list[str]) -> NoReturn:
    """Fails the test of `run_all`, or else the script, which ends with status 1. Shows `about` first, texts as they are."""
    raise AssertionError(": ".join([*(cut(it) if isinstance(it, str) else shown(it) for it in about), *why]))


def equal(got: Any, want: Any, *about: Any) -> None:
    """Fails if these differ, and shows how."""
    if got != want:
        fail(about, [difference(got, want)])


def holds(is_so: Any, *about: Any) -> None:
    """Fails if this is not true, and shows what the caller says about it: what is wrong, as in "the socket is left"."""
    if not is_so:
        fail(about, [])
