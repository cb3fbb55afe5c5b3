#!/usr/bin/env python3
"""Logs a user in, as login.c does: reads the client's two messages, a line each, and writes the server's two.

Usage: login.py MECHANISM SALT NONCE [ACT_AS ..]

The environment's LIBRARY is the path of libscramotp.so.0; without it the system's is taken.
"""
import ctypes
import os
import sys
from ctypes import POINTER, byref, c_char, c_char_p, c_size_t, c_uint8, c_uint32

library = ctypes.CDLL(os.environ.get("LIBRARY", "libscramotp.so.0"))


class Entry(ctypes.Structure):
    """scramotp_entry"""

    _fields_ = [("mechanism", c_uint32), ("count", c_uint32), ("salt_len", c_size_t), ("key_len", c_size_t)]
    _fields_ += [(name, c_uint8 * 64) for name in ("salt", "stored_key", "server_key")]


class Bytes(ctypes.Structure):
    """scramotp_bytes"""

    _fields_ = [("at", c_char_p), ("len", c_size_t)]


class Names(ctypes.Structure):
    """scramotp_names"""

    _fields_ = [("name", c_char * 256), ("act_as", c_char * 256)]


# Bytes to read, and a buffer to write to with the length of what was written.
IN, OUT = [c_char_p, c_size_t], [c_char_p, c_size_t, POINTER(c_size_t)]
library.scramotp_keys.argtypes = [c_uint32, c_uint32, *IN, *IN, POINTER(Entry)]
library.scramotp_decoy.argtypes = [c_char_p, c_uint32, c_uint32, *IN, POINTER(Entry)]
library.scramotp_read_names.argtypes = [*IN, POINTER(Names)]
library.scramotp_server_first.argtypes = [POINTER(Entry), *IN, *IN, *OUT]
library.scramotp_server_final.argtypes = [POINTER(Entry), POINTER(Bytes), c_size_t, *IN, *IN, *IN, *OUT]

MECHANISMS = {"SCRAM-SHA-1": 1, "SCRAM-SHA-256": 256}
REFUSALS = range(32, 38)
# 32 random bytes of the server, which are the same in each login.
DECOY_KEY = bytes([1, 2, 3]).ljust(32, b"\0")


def given(data: bytes) -> tuple[bytes, int]:
    """The two arguments for bytes."""
    return data, len(data)


def fill(mechanism: int, salt: bytes, name: bytes) -> Entry:
    """The entry of the only account, or a decoy. A server keeps entries instead of passwords."""
    entry = Entry()
    if name == b"user":
        number = library.scramotp_keys(mechanism, 4096, *given(salt), *given(b"pencil"), byref(entry))
    else:
        number = library.scramotp_decoy(DECOY_KEY, mechanism, 4096, *given(name), byref(entry))
    if number != 0:
        sys.exit(f"refused: {number}")
    return entry


def main(mechanism: str, salt: str, nonce: str, *act_as: str) -> None:
    """Serves one login."""
    out, size, names = ctypes.create_string_buffer(618), c_size_t(), Names()
    first = sys.stdin.buffer.readline().rstrip(b"\n")
    if number := library.scramotp_read_names(*given(first), byref(names)):
        sys.exit(f"refused: {number}")
    entry = fill(MECHANISMS[mechanism], bytes.fromhex(salt), names.name)
    if number := library.scramotp_server_first(entry, *given(first), *given(nonce.encode()), out, len(out), byref(size)):
        sys.exit(f"refused: {number}")
    challenge = out.raw[:size.value]
    print(challenge.decode(), flush=True)

    final = sys.stdin.buffer.readline().rstrip(b"\n")
    others = (Bytes * len(act_as))(*(given(name.encode()) for name in act_as))
    number = library.scramotp_server_final(
        entry, others, len(others), *given(first), *given(challenge), *given(final), out, len(out), byref(size)
    )
    if number == 0 or number in REFUSALS:
        print(out.raw[:size.value].decode())
    if number != 0:
        sys.exit(f"refused: {number}")
    print(f"{names.name.decode()} is logged in as {(names.act_as or names.name).decode()}", file=sys.stderr)


if __name__ == "__main__":
    main(*sys.argv[1:])
