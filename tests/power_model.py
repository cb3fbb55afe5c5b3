"""A model of what a loss of power may leave of a folder, for power_loss.py.

It works as the tool ALICE does (Pillai and others, "All File Systems Are Not Created Equal", OSDI 2014). The calls of a run, which
note_files.c notes, are split into small changes, the paper's micro-operations. An abstract persistence model says which of these a device
may have kept when the power goes, and from it come all states of the folder that a program may find afterwards. The rules here are those of
no one file system. A device keeps only what POSIX and the manual pages of Linux say of a sync, except for rule 4:

1. A sync of a file makes durable what was done to the bytes and the length of the file before, and nothing else: no name that leads to it.
2. A sync of a folder makes durable what was done to its names before, and nothing else: not what is in the files.
3. Changes that no sync has made durable have no order. Each of them may have been kept without any other, of the same file or folder too.
4. A change of one name is kept whole or not at all: the name leads to the old file or to the new one. But a rename is two changes, one of
   each name, and either may be kept without the other.
5. A write may have been kept in part: its first bytes, with the file ending there; or either its first or its last bytes, with zeros in
   place of the others, or with bytes that were on the device before. As such bytes the model takes those of the book's first text, by which
   a file that was never written could look like a book. The first bytes are none, one, a multiple of STEP, all but one, or all.
6. What is printed, or sent through a socket, can't be taken back.

So a loss in the middle of a call leaves nothing that one before the call or after it could not leave.

Not in the model: a device that says that it has kept what it has not; a sync that fails; the owners and modes of files; files that are no
plain ones, such as sockets; a file system that loses a file itself, or gives its room to another file while a durable name leads to it.
"""
import itertools
import os
import pathlib
from collections.abc import Iterator
from typing import NamedTuple

# After how many bytes of a write a device may have stopped: the multiples of this. A sector has 512 bytes, but a book is often shorter.
STEP = 64


class Note(NamedTuple):
    """What note_files.c notes of a call."""

    what: str
    file: int
    number: int = 0
    data: bytes = b""


def read_notes(path: pathlib.Path) -> list[Note]:
    """The notes in a file, in their order."""
    notes, left = [], path.read_bytes()
    while left:
        line, _, left = left.partition(b"\n")
        what, file, number, length = line.decode().split()
        notes.append(Note(what, int(file), int(number), left[:int(length)]))
        left = left[int(length):]
    return notes


def cuts(length: int) -> list[int]:
    """How many first bytes of a write of this length may have been kept."""
    return sorted({1, length - 1, length, *range(0, length, STEP)})


def put(text: bytes, at: int, data: bytes) -> bytes:
    """A file's text after these bytes were written to this place. What is between the text's end and the place is zero."""
    return text[:at].ljust(at, b"\0") + data + text[at + len(data):]


def resized(text: bytes, size: int) -> bytes:
    """A file's text after it was cut to this length, or made so long with zeros."""
    return text[:size].ljust(size, b"\0")


class File:
    """A file: its durable text, and the notes of what was done to it since its last sync."""

    def __init__(self, durable: bytes = b"") -> None:
        self.durable, self.later = durable, []

    def sync(self) -> None:
        """Makes all of it durable."""
        for note in self.later:
            self.durable = put(self.durable, note.number, note.data) if note.what == "data" else resized(self.durable, note.number)
        self.later.clear()

    def texts(self, older: bytes) -> set[bytes]:
        """The texts that it may have after a loss of power, if the device had these bytes before."""
        found = {self.durable}
        for note in self.later:
            found |= {after for text in found for after in kept(note, text, older)}
        return found


def kept(note: Note, text: bytes, older: bytes) -> Iterator[bytes]:
    """What may have become of a text by a change of which a device has kept something."""
    if note.what == "size":
        yield resized(text, note.number)
        return
    length = len(note.data)
    found = resized(older[note.number:], length)
    for first in cuts(length):
        yield put(text, note.number, note.data[:first])
        for other in (bytes(length), found):
            yield put(text, note.number, note.data[:first] + other[first:])
            yield put(text, note.number, other[:first] + note.data[first:])


class Folder:
    """A folder: the files to which its names durably lead, what was done to its names since its last sync, and what a run has told."""

    def __init__(self, path: pathlib.Path) -> None:
        """The folder at this path, of which all is durable."""
        self.path = os.path.realpath(path)
        self.number = os.stat(path).st_ino
        self.files = {entry.stat().st_ino: File(pathlib.Path(entry).read_bytes()) for entry in os.scandir(path)}
        self.durable = {entry.name: self.files[entry.stat().st_ino] for entry in os.scandir(path)}
        self.later: list[tuple[str, File | None]] = []
        self.older = pathlib.Path(path, "book").read_bytes() if "book" in self.durable else b""
        # What was sent through a socket, and what was printed.
        self.told = [b"", b""]

    def take(self, note: Note) -> None:
        """Goes on by the change of this note."""
        if note.what == "told":
            self.told[note.file] += note.data
        elif note.what == "made":
            self.files[note.file] = File()
        elif note.what in ("data", "size"):
            self.files[note.file].later.append(note)
        elif note.what in ("name", "gone"):
            folder, name = os.path.split(note.data.decode())
            if os.path.realpath(folder) == self.path:
                self.later.append((name, self.files.get(note.file) if note.what == "name" else None))
        elif note.what == "sync":
            self.sync(note.file)
        else:
            raise ValueError(note)

    def sync(self, file: int) -> None:
        """Makes durable what is in this file, or this folder's names if it has that number."""
        if file == self.number:
            self.durable = named(self.durable, self.later)
            self.later.clear()
        elif file in self.files:
            self.files[file].sync()

    def entries(self) -> Iterator[dict[str, File]]:
        """The files to which the names may lead after a loss of power."""
        for count in range(len(self.later) + 1):
            for some in itertools.combinations(self.later, count):
                yield named(self.durable, some)

    def states(self) -> set[frozenset[tuple[str, bytes]]]:
        """All that a loss of power may leave now: each name with the text of its file."""
        found = set()
        for names in self.entries():
            files = list(set(names.values()))
            for texts in itertools.product(*(file.texts(self.older) for file in files)):
                text_of = dict(zip(files, texts))
                found.add(frozenset((name, text_of[file]) for name, file in names.items()))
        return found


def named(names: dict[str, File], changes: list[tuple[str, File | None]]) -> dict[str, File]:
    """The files of these names after these changes. A name that leads to no file is left out."""
    return {name: file for name, file in {**names, **dict(changes)}.items() if file}
