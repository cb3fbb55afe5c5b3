"""The journal: what happens, one line each on standard error, in logfmt (`event=login outcome=accepted name=user`). It never has a
message of a login, a password or a code."""
import asyncio
import contextlib
import functools
import json
import re
import sys

BARE = re.compile(r"[!#-<>-\[\]-~]+")
# The lines of this turn of the event loop.
lines: list[str] = []


@functools.lru_cache(1000)
def written(text: str) -> str:
    """A value as it stands in a line: in quotes, and with escapes as in JSON, unless it is plain."""
    return text if BARE.fullmatch(text) else json.dumps(text)


def fields_of(fields: dict[str, object]) -> str:
    """These fields, without those that are None."""
    return " ".join([f"{key}={written(str(it))}" for key, it in fields.items() if it is not None])


def note(event: str, **fields: object) -> None:
    """Writes a line, together with all others of this turn of the event loop. A field that is None is left out."""
    lines.append(fields_of({"event": event, **fields}) + "\n")
    try:
        loop = asyncio.get_running_loop()
    except RuntimeError:  # there is none
        return write()
    if len(lines) == 1:
        loop.call_soon(write)


def write() -> None:
    """Writes the lines that there are, unless standard error is closed."""
    text = "".join(lines)
    lines.clear()
    if sys.stderr:  # there is none, if it was closed from the start
        with contextlib.suppress(OSError, ValueError):
            sys.stderr.write(text)
            sys.stderr.flush()
