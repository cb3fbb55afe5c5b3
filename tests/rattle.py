#!/usr/bin/env python3
"""The tests in Rattle, tests/rattle/NAME/: they are compiled and run, and not proved. So their files end in .rattle, which `rt ci` passes
over, and are put beside the crates that they test before they are compiled.

Usage: rattle.py put FOLDER     makes FOLDER a copy of the repository's crates with these tests among them, for an editor and for `rt`:
                                in FOLDER/crates/NAME `rt try --test` runs tests with the sanitizer, and `rt fmt` lays them out
       rattle.py take FOLDER    takes the tests that were changed there back
       rattle.py layout         whether the tests are in the layout of `rt fmt`
"""
import shutil
import subprocess
import sys
import tempfile
from functools import cache
from pathlib import Path

TOP = Path(__file__).resolve().parent.parent
# Where the tests lie: a folder for each crate, and the libraries that each uses, as crates.txt lists those of the others.
TESTS = TOP / "tests" / "rattle"
LISTED = TESTS / "uses.txt"
ENDING = ".rattle"
# The libraries that each crate uses.
Uses = dict[str, list[str]]


@cache
def kit() -> Path:
    """The folder of the Rattle kit."""
    return Path(subprocess.run(["rt", "doc"], capture_output=True, text=True, check=True).stdout.strip()).parent


def read_uses(listed: Path) -> Uses:
    """Reads a file in the form of crates.txt: the libraries that each crate uses."""
    rows = [it.partition("#")[0].partition(":") for it in listed.read_text(encoding="utf-8").split("\n")]
    return {left.split()[0]: right.split() for left, colon, right in rows if colon}


@cache
def uses() -> Uses:
    """The libraries that each crate of the repository uses, the crates of tests among them."""
    return read_uses(TOP / "crates.txt") | read_uses(LISTED)


def below(crate: str, of: Uses) -> list[str]:
    """The repository's libraries that a crate uses, directly or not, each after those that it uses itself."""
    lower = [it for it in of[crate] if it in of]
    return list(dict.fromkeys(it for low in lower for it in [*below(low, of), low]))


def rlib_of(top: Path, name: str) -> Path:
    """The path of a built library in a repository."""
    return top / "crates" / name / "out/rlib" / f"{name}.rlib"


def over_built(crate: str, of: Uses, top: Path) -> list[str]:
    """The words by which `rattle` finds the logic, and the libraries below a crate as they are built in a repository."""
    words = ["--antt-project", f"{kit()}/rattle/logic/antt-project.json", "--logic-built", f"{kit()}/logic_built"]
    for it in ["std", *of[crate]]:
        words += ["--extern", f"{it}={rlib_of(top, it) if it in of else f'{kit()}/rlibs/{it}.rlib'}"]
    for folder in [*[rlib_of(top, it).parent for it in below(crate, of)], f"{kit()}/rlibs"]:
        words += ["-L", f"dependency={folder}"]
    return words


def test_crates() -> list[str]:
    """The crates that have tests, and not only what others use."""
    return [it for it in read_uses(LISTED) if it.endswith("_tests")]


def placed(file: Path, crates: Path) -> Path:
    """Where a file of tests is put in a folder of crates."""
    crate, *inner = file.relative_to(TESTS).with_suffix(".rt").parts
    return crates.joinpath(crate, "src", *inner)


def files() -> list[Path]:
    """The files of all tests."""
    return sorted(TESTS.rglob(f"*{ENDING}"))


def put(crates: Path) -> None:
    """Puts the tests into a folder of crates. A file that is there already with the same text is left as it is."""
    for file in files():
        to = placed(file, crates)
        to.parent.mkdir(parents=True, exist_ok=True)
        if not to.exists() or to.read_bytes() != file.read_bytes():
            shutil.copyfile(file, to)


def copied(folder: Path) -> None:
    """Makes a folder a repository of all crates, with the tests and without what is built."""
    shutil.copytree(TOP / "crates", folder / "crates", ignore=shutil.ignore_patterns("out"), dirs_exist_ok=True)
    put(folder / "crates")
    listed = [it.read_text(encoding="utf-8") for it in (TOP / "crates.txt", LISTED)]
    (folder / "crates.txt").write_text("\n".join(listed), encoding="utf-8")
    shutil.copyfile(TOP / "HANDLES", folder / "HANDLES")
    if not (folder / ".git").exists():
        subprocess.run(["git", "init", "--quiet", folder], check=True)


def taken(folder: Path) -> list[str]:
    """Takes the tests back that were changed in a copy, and returns which."""
    found = [it for it in files() if placed(it, folder / "crates").read_bytes() != it.read_bytes()]
    for file in found:
        shutil.copyfile(placed(file, folder / "crates"), file)
    return [str(it.relative_to(TOP)) for it in found]


def are_laid_out() -> bool:
    """Whether the tests are in the layout of `rt fmt`. Says which are not."""
    with tempfile.TemporaryDirectory(prefix="rattle-") as at:
        put(Path(at))
        there = [placed(it, Path(at)) for it in files()]
        return subprocess.run([kit() / "bin/rattle", "fmt", "--check", *there]).returncode == 0


def main() -> int:
    match sys.argv[1:]:
        case ["put", folder]:
            copied(Path(folder).resolve())
        case ["take", folder]:
            print("\n".join(taken(Path(folder).resolve())))
        case ["layout"]:
            return 0 if are_laid_out() else 1
        case _:
            print(__doc__, file=sys.stderr)
            return 2
    return 0


if __name__ == "__main__":
    sys.exit(main())
