"""Compiles the C files in this folder, which are loaded before the C library to make calls of the program go wrong, and lists which calls
the program makes and which ones such a file makes go wrong. Also compiles one that keeps what the program sends, and a program that loads
such a library and then becomes another one."""
import functools
import os
import pathlib
import subprocess
import tempfile
from typing import Any

from checks import holds

HERE = pathlib.Path(__file__).parent
# The libraries that were compiled; the folder goes with the script.
MADE = tempfile.TemporaryDirectory(prefix="shims-")


# Appends what is sent through a socket to the file that the variable SENT names. It asks for no memory.
KEEP_SENT = r"""
#define _GNU_SOURCE
#include <fcntl.h>
#include <stdlib.h>
#include <sys/socket.h>
#include <sys/syscall.h>
#include <unistd.h>

ssize_t send(int fd, const void *bytes, size_t size, int flags)
{
    ssize_t sent = syscall(SYS_sendto, fd, bytes, size, flags, NULL, 0);
    if (sent > 0) {
        int kept = syscall(SYS_openat, AT_FDCWD, getenv("SENT"), O_WRONLY | O_CREAT | O_APPEND, 0600);
        if (syscall(SYS_write, kept, bytes, sent) != sent)
            abort();
        syscall(SYS_close, kept);
    }
    return sent;
}
"""


# Becomes the program, which then loads the library before those that it is to load anyway. It asks for no memory, and calls nothing that
# one of them stands in for.
BECOMES = r"""
#include <string.h>
#include <unistd.h>

int main(int count, char **words, char **environment)
{
    char *with[4096], loads[4096] = "LD_PRELOAD=" LIBRARY;
    int made = 1;
    for (; *environment && made < 4094; environment++)
        if (!strncmp(*environment, loads, 11))
            strncat(strcat(loads, ":"), *environment + 11, 3000);
        else
            with[made++] = *environment;
    with[0] = loads;
    with[made] = NULL;
    execve(PROGRAM, words, with);
    return 127;
}
"""


@functools.cache
def built(name: str) -> str:
    """Compiles the file with this name, once for a script, and returns the path of the library to load."""
    return compiled(name, HERE / f"{name}.c")


def keeps_sent() -> str:
    """Compiles KEEP_SENT, and returns the path of the library to load."""
    source = pathlib.Path(MADE.name, "keep_sent.c")
    source.write_text(KEEP_SENT)
    return compiled("keep_sent", source)


def compiled(name: str, source: pathlib.Path, folder: str | pathlib.Path = MADE.name, *options: str) -> str:
    """Compiles a C file with these options, and returns the path of the library with this name."""
    shim = os.path.join(folder, f"{name}.so")
    subprocess.run(["cc", "-shared", "-fPIC", "-O1", "-o", shim, source, "-ldl", *options], check=True)
    return shim


def requests(said: str, *run: Any) -> tuple[str, int]:
    """What a run that loads refuse_memory.c has said, and the number of its requests, which that prints when the run ends."""
    faults, is_counted, count = said.rpartition("requests ")
    holds(is_counted, *run, "the run ended before it could say how many requests it made", said)
    return faults, int(count)


def loader_of(program: str | pathlib.Path, library: str, to: pathlib.Path) -> pathlib.Path:
    """Compiles BECOMES for a program and a library to load, and returns the path of what is made."""
    with tempfile.NamedTemporaryFile("w", suffix=".c") as source:
        source.write(BECOMES)
        source.flush()
        subprocess.run(["cc", "-O1", "-o", to, source.name, f'-DPROGRAM="{program}"', f'-DLIBRARY="{library}"'], check=True)
    return to


def imported(program: str) -> set[str]:
    """The names that a program takes from the C library."""
    return names(program, "--undefined-only")


def wrapped(shim: str) -> set[str]:
    """The names of the C library for which a compiled C file stands in."""
    return names(shim, "--defined-only")


def names(path: str, which: str) -> set[str]:
    listed = subprocess.run(["nm", "-D", which, path], capture_output=True, text=True, check=True).stdout
    return {line.split()[-1].partition("@")[0] for line in listed.splitlines()}
