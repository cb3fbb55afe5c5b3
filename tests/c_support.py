"""What the tests and the benchmarks of the library for C share: where the library is, and what a client and a server say in a login."""
import base64
import functools
import os
import pathlib
import re
import shutil
import subprocess
import sys
import tempfile

import expected
from expected import base64_of, login_keys, proved

TOP = pathlib.Path(__file__).resolve().parent.parent
# The folder with the archives that `rt lib` made, or those that CLIB in the environment names.
CLIB = pathlib.Path(os.environ.get("CLIB") or TOP / "crates/c_library/out").resolve()
ARCHIVES = sorted(CLIB.glob("lib*.a"))
# What the compilers of C and C++ take as errors.
WARNINGS = ["-Wall", "-Wextra", "-Wpedantic", "-Wconversion", "-Wshadow", "-Werror"]
# The hash function of each mechanism, and its number in C.
FUNCTIONS = {"SCRAM-SHA-1": ("sha1", 1), "SCRAM-SHA-256": ("sha256", 256)}
# The decoy key of the examples.
DECOY_KEY = bytes([1, 2, 3]).ljust(32, b"\0")
# Where the libraries and the programs are made.
MADE = tempfile.TemporaryDirectory(prefix="c_library-")


@functools.cache
def library() -> pathlib.Path:
    """The folder with libscramotp.a and libscramotp.so.0, made of the archives, and scramotp.h."""
    folder = pathlib.Path(MADE.name, "lib")
    subprocess.run([sys.executable, TOP / "clib/merge.py", folder, *ARCHIVES], check=True)
    shutil.copy(TOP / "clib/scramotp.h", folder)
    return folder


def answer_to(mechanism: str, first: str, challenge: str, password: bytes, **changed: str) -> tuple[str, str]:
    """The final message of a client that has this password, and the server's signature for it. Parts of the message may be changed: the
    channel field, the nonce, and what is between the nonce and the proof."""
    function = FUNCTIONS[mechanism][0]
    header, bare = re.match(r"([^,]*,[^,]*,)(.*)", first, re.S).groups()
    nonce, salt, count = re.match(r"r=([^,]*),s=([^,]*),i=(\d+)$", challenge).groups()
    channel = changed.get("channel", base64_of(header.encode()))
    unproved = f"c={channel},r={changed.get('nonce', nonce)}{changed.get('more', '')}"
    auth = f"{bare},{challenge},{unproved}".encode()
    client_key, server_key = login_keys(function, password, base64.b64decode(salt), int(count))
    proof, signature = proved(function, client_key, server_key, auth)
    return f"{unproved},p={base64_of(proof)}", f"v={base64_of(signature)}"


def decoy_salt(mechanism: str, name: str) -> bytes:
    """The salt of a decoy under the examples' key."""
    return expected.decoy_salt(name, mechanism, DECOY_KEY)
