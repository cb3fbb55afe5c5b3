#!/usr/bin/env python3
"""Compares what the built program prints with what other software printed.

In data/vectors, keys.csv has the keys of passwords, made by GNU SASL and Dovecot, and codes.csv has
one-time codes, made by oathtool. The last column of a row names the program.
"""
from collections.abc import Callable

import suite
from expected import VECTORS, rows_of
from suite import PROGRAM, each, prints


def keys(row: dict[str, str]) -> tuple[list[str], str, str]:
    """The words and the input for a row of keys.csv, and what has to be printed."""
    words = ["keys", "--mechanism", row["mechanism"], "--salt", row["salt_hex"], "--count", row["count"]]
    return words, row["password"] + "\n", f"stored={row['stored_hex']}\nserver={row['server_hex']}\n"


def codes(row: dict[str, str]) -> tuple[list[str], str, str]:
    """The words for a row of codes.csv, HOTP if it has a counter, else TOTP; no input; and what has to be printed."""
    words = ["code", "--secret", row["secret_hex"], "--digits", row["digits"]]
    if row["counter"]:
        words += ["--counter", row["counter"]]
    else:
        words += ["--hash", row["hash"], "--moment", row["moment"], "--t0", row["t0"], "--step", row["step"]]
    return words, "", row["code"] + "\n"


def each_row(name: str, case: Callable) -> None:
    """Compares what is printed for each row of a table."""
    for trial, (number, row) in each(enumerate(rows_of(VECTORS / name), 2)):
        with trial:
            words, line, want = case(row)
            prints([PROGRAM, *words], line, 0, want, "", f"{name}: line {number}, by {row['source']}")


def table_of_keys(folder: str) -> None:
    """The keys of a password, salt and count are those that GNU SASL and Dovecot made."""
    each_row("keys.csv", keys)


def table_of_codes(folder: str) -> None:
    """The codes of a secret are those that oathtool made."""
    each_row("codes.csv", codes)


suite.run_all()
