"""What a token replies to codes, and its keys after each reply, computed in Python and not by the program: by RFC 4226, sections 7.2 to
7.4, RFC 6238, sections 4 to 6, and the section of docs/FORMATS.md on the keys of a token. A token is a table of a book, as tomllib reads
it."""
import re
from typing import Any

from expected import code

# The greatest counter that passes.
MOST_COUNTER = 2**63 - 2
TWO_TEXTS = re.compile(rb"SYNC ([!-~]{1,16}) ([!-~]{1,16})")


def code_of(token: dict[str, Any], counter: int) -> bytes:
    """The token's code for a counter."""
    return code(bytes.fromhex(token["secret"]), counter, token["digits"], token.get("hash", "sha1")).encode()


def step_at(token: dict[str, Any], moment: int) -> int | None:
    """The step of a TOTP token at a moment, or None before its first one."""
    return (moment - token["t0"]) // token["step"] if moment >= token["t0"] else None


def window(token: dict[str, Any], moment: int) -> range:
    """The counters that can pass with a single code."""
    if token["kind"] == "hotp":
        return range(token["next"], min(token["next"] + token["look_ahead"], MOST_COUNTER) + 1)
    now = step_at(token, moment)
    if now is None:
        return range(0)
    least = max(now + token["drift"] - token["back"], now - token["max_drift"], token.get("last", -1) + 1)
    return range(least, min(now + token["drift"] + token["ahead"], now + token["max_drift"]) + 1)


def firsts_of_pairs(token: dict[str, Any]) -> range:
    """The counters that can pass with the first of two codes in a row, which only a HOTP token takes."""
    if token["kind"] == "totp":
        return range(0)
    return range(token["next"], min(token["next"] + token.get("sync_ahead", 0), MOST_COUNTER - 1) + 1)


def used_by(token: dict[str, Any], moment: int, texts: list[bytes]) -> list[int]:
    """The counters that one text or two texts use up: the least that pass, or none."""
    if len(texts) == 1:
        return next(([at] for at in window(token, moment) if code_of(token, at) == texts[0]), [])
    pairs = ([at, at + 1] for at in firsts_of_pairs(token))
    return next((pair for pair in pairs if [code_of(token, at) for at in pair] == texts), [])


def judged(token: dict[str, Any], moment: int, line: bytes) -> tuple[str, list[int]]:
    """The reply to an input line of `verify`, and the counters that it uses up; changes the token by it."""
    two = TWO_TEXTS.fullmatch(line)
    if token["failures"] >= token["limit"]:
        return f"LOCKED {moment}", []
    used = used_by(token, moment, [*two.groups()] if two else [line])
    if not used:
        token["failures"] += 1
        return f"FAIL {moment}", used
    token["failures"] = 0
    if token["kind"] == "hotp":
        token["next"] = used[-1] + 1
    else:
        token |= {"last": used[0], "drift": used[0] - step_at(token, moment)}
    return f"PASS {moment} {used[-1]}", used
