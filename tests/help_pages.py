"""What the scripts on the help, the man pages and the completions share: the help of each command, as the program prints it, with the
commands and the options that it lists; and runs of examples."""
import re
import tempfile
from pathlib import Path
from typing import NamedTuple

from checks import equal, holds
from processes import Answer, ran
from suite import PROGRAM, TOP, program_on_path


class Option(NamedTuple):
    """An option as the help lists it: its names, the name of its argument or an empty text, and what it says of it."""

    names: list[str]
    argument: str
    says: str

    def default(self) -> str:
        """The default as the help gives it, or an empty text."""
        return (re.findall(r"\[default: (.*)\]", self.says) or [""])[0]


def help_of(words: list) -> str:
    """The output of --help, whose lines have at most 100 columns."""
    output = ran([PROGRAM, *words, "--help"]).given(words)
    equal([line for line in output.splitlines() if len(line) > 100], [], "lines with over 100 columns in the help of", words)
    return output


def listed_commands() -> dict[str, str]:
    """The commands that the program's help lists, each with what it says of it."""
    return dict(re.findall(r"^  ([a-z]+) +([A-Z].*)", help_of([]).split("Commands:\n")[1].split("\n\n")[0], re.M))


def listed_options(words: list) -> list[Option]:
    """The options that the help of a command lists, or that of the program if there are no words."""
    lines = help_of(words).split("Options:\n")[1].split("\n\n")[0].splitlines()
    found = []
    for line in lines:
        parts = re.fullmatch(r" +((?:-\w, )?--[\w-]+)(?: <(\w+)>)? +(\S.*)", line)
        holds(parts, "a line of the options in the help is in another form", line)
        found.append(Option(parts[1].split(", "), parts[2] or "", parts[3]))
    return found


def required_options(words: list) -> set[str]:
    """The options that a command needs, as the usage in its help has them."""
    [usage] = re.findall(r"^Usage: scramotp (.*)$", help_of(words), re.M)
    return set(re.findall(r"(--[\w-]+) <", usage))


def example_ran(folder: str | Path, example: str) -> Answer:
    """Runs an example in this folder, as it stands, with the program and its tools on the PATH. The umask would let all users read its
    files."""
    with tempfile.TemporaryDirectory() as beside:
        environment = program_on_path(beside)
        environment["PATH"] += f":{TOP / 'tools'}"
        return ran(["sh", "-ec", example], cwd=folder, env=environment, umask=0)
