#!/usr/bin/env python3
"""Checks the completions of bash, zsh and fish in completions/.

Those of bash are called in a bash without settings, and tried at its prompt: what is typed there is completed and run, with a function in
the place of the program that notes its words. Those of zsh, where it is installed, are tried in the same way, and fish is asked for its.
"""
import contextlib
import itertools
import json
import os
import re
import shutil
import subprocess
from collections.abc import Iterator
from pathlib import Path

import suite
from checks import equal, holds
from help_pages import listed_commands, listed_options
from processes import ran, until
from suite import BOOK_OF_USER, PROGRAM, TOP, each, has

FOLDER = TOP / "completions"
# Calls the function of bash for each line of standard input, and prints in a line what it offers.
CALLS = r"""
source "$1"
while IFS= read -r COMP_LINE; do
    COMP_POINT=${#COMP_LINE} COMP_WORDS=($COMP_LINE) COMP_CWORD=$((${#COMP_WORDS[@]} - 1))
    "$2" "${COMP_WORDS[0]}" "${COMP_WORDS[COMP_CWORD]}" "${COMP_WORDS[COMP_CWORD - 1]}"
    printf '%s\n' "${COMPREPLY[*]}"
done
"""
# How a shell at a terminal is started, which file it then reads, and what this has. In it `scramotp` notes its words, each followed by a
# zero byte, and how many they are; and so do the doors, which are here with the words that come
# before their options.
DOORS = {"serve-dovecot-auth": [""], "scramotp-host": ["ctl", "ctl enrol"]}
NOTES = "scramotp() {{ printf '%s\\0' \"$#\" \"$@\" >>{noted}; }}\nPS1= HISTFILE=\n"
NOTES += "".join(f'{name}() {{{{ scramotp "$@"; }}}}\n' for name in DOORS)
SOURCED = "".join(f"source {{completions}}/{name}.bash\n" for name in ["scramotp", *DOORS])
SHELLS = {
    "bash": (["bash", "--noprofile", "--rcfile", ".bashrc", "-i"], ".bashrc", SOURCED + NOTES),
    "zsh": (["zsh", "-d", "-i"], ".zshrc", "fpath=({completions} $fpath)\nautoload -Uz compinit && compinit -u -D\n" + NOTES),
}
# Readline's keys for the insertion of all completions, and to remove the line.
ALL, KILL = "\x1b*", "\x15"
# Names that a shell would run, split or expand if they were not quoted, or in which a colon could be taken for the end.
HOSTILE = [
    "$(touch ran)", "`touch ran`", "a;touch ran", "a&touch ran&", "a|touch ran", "a>ran", "a b", " a", "a ", "a'b", 'a"b', "a\\b", "a\\",
    "*", "?", "[a]", "{a,b}", "(a)", "~root", "$HOME", "a!b", "!!", "^a^b", "#a", "%s", "a=b", "a:b", "a: nothing", "user@example.org",
]
# The kinds of rows that a report has.
EVENTS = "accepted refused passed failed locked no-token left busy halted".split()


def offered(lines: list[str], name: str = "scramotp") -> list[list[str]]:
    """What the function of bash offers for each of these lines of a command, with the cursor at its end."""
    words_of_bash = ["bash", "--norc", "--noprofile", "-c", CALLS, "bash", FOLDER / f"{name}.bash", f"_{name.replace('-', '_')}"]
    answer = ran(words_of_bash, "".join(f"{it}\n" for it in lines))
    return [it.split() for it in answer.given("the calls of the function").splitlines()]


def words(folder: str) -> None:
    """In bash a command comes first, and then its options, each once. Of an option that takes one of some values these are offered, and of
    any other value nothing."""
    for trial, (line, due) in each([
        ("scramotp ", [*listed_commands(), "--help", "--version"]),
        ("scramotp u", ["unlock", "upgrade"]),
        ("scramotp --v", ["--version"]),
        ("scramotp nothing ", []),
        ("scramotp keys --m", ["--mechanism"]),
        ("scramotp keys --mechanism ", ["SCRAM-SHA-1", "SCRAM-SHA-256"]),
        ("scramotp keys --mechanism SCRAM-SHA-2", ["SCRAM-SHA-256"]),
        ("scramotp keys --mechanism 'SCRAM-SHA-2", ["SCRAM-SHA-256"]),
        ("scramotp keys --mechanism=", ["SCRAM-SHA-1", "SCRAM-SHA-256"]),
        ("scramotp code --hash ", ["sha1", "sha256", "sha512"]),
        ("scramotp code --digits ", ["6", "7", "8"]),
        ("scramotp report --event ", EVENTS),
        ("scramotp report --event=no", ["no-token"]),
        ("scramotp keys --count ", []),
        ("scramotp keys --count 4096 --s", ["--salt"]),
        ("scramotp keys --count=4096 --", ["--mechanism", "--salt", "--help"]),
        ("scramotp keys --count 4096 --c", []),
        ("scramotp hall --book 'a book' ", ["--help"]),
    ]):
        with trial:
            equal(offered([line]), [due], "what bash offers for", line)


def options_of(file: Path, command: str) -> list[str]:
    """The options that the completions of zsh or fish have for a command, as their sources list them."""
    text = file.read_text(encoding="utf-8")
    if file.suffix == ".fish":
        return [f"--{it}" for it in re.findall(rf"^complete -c scramotp -n '__scramotp_runs {command}' .*?-l ([\w-]+)", text, re.M)]
    [part] = re.findall(rf"^ +{command}\)\n((?:.*\n)+?) +;;\n", text, re.M)
    return re.findall(r"(--[\w-]+)(?:=|\[)", part)


def options(folder: str) -> None:
    """Each shell is offered the commands that the help lists, and for each command the options of its help."""
    commands = listed_commands()
    lines = [f"scramotp {it} --" for it in commands]
    for trial, (command, found) in each(zip(commands, offered(lines))):
        with trial:
            due = sorted(it.names[-1] for it in listed_options([command]))
            listed = {shell: options_of(FOLDER / name, command) for shell, name in [("zsh", "_scramotp"), ("fish", "scramotp.fish")]}
            got = {shell: sorted(it) for shell, it in {"bash": found, **listed}.items()}
            equal(got, dict.fromkeys(got, due), "the options of", command)
    zsh, fish = ((FOLDER / name).read_text(encoding="utf-8") for name in ["_scramotp", "scramotp.fish"])
    told = re.findall(r"^ +'([a-z]+):([A-Z].*)'$", zsh, re.M)
    equal({name: says.replace(r"'\''", "'") for name, says in told}, commands, "the commands in zsh")
    told = re.findall(r"^complete -c scramotp -n __scramotp_begins -a ([a-z]+) -d (['\"])(.*)\2$", fish, re.M)
    equal({name: says for name, _, says in told}, commands, "the commands in fish")


def options_of_doors(folder: str) -> None:
    """Each shell is offered the options of a door's help; zsh at once those of all the words that come before options."""
    for trial, (name, several) in each(DOORS.items()):
        with trial:
            helps = [ran([TOP / "hosts" / name, *it.split(), "--help"]).output for it in several]
            due = [sorted({*re.findall(r"^  (?:-h, )?(--\w+)", it, re.M)}) for it in helps]
            lines = [f"{name} {it} --" for it in several]
            equal([sorted(it) for it in offered(lines, name)], due, "the options that bash offers for", lines)
            in_zsh = re.findall(r"'(--\w+)(?:=|\[)", (FOLDER / f"_{name}").read_text(encoding="utf-8"))
            equal(sorted(in_zsh), sorted({*itertools.chain(*due)}), "the options in zsh of", name)
            if has("the options of doors that fish offers", "fish"):
                command = ["fish", "--no-config", "-c", f"source {FOLDER}/{name}.fish; complete -C $argv[1]"]
                in_fish = [ran([*command, line]).given(line).splitlines() for line in lines]
                equal([sorted(it.partition("\t")[0] for it in found) for found in in_fish], due, "the options that fish offers for", lines)


def words_of_doors(folder: str) -> None:
    """In bash and zsh, options and words of a door are completed, and files where they are due."""
    with_books(folder)
    completed(folder, "bash", [
        ("serve-dovecot-auth --mas\tx boo\t", ["--master", "x", "book.toml"]),
        ("serve-dovecot-auth --control=boo\t", ["--control=book.toml"]),
        ("serve-dovecot-auth --group roo\tboo\t", ["--group", "root", "book.toml"]),
        ("scramotp-host ct\t--so\tnon\tunl\tuser", ["ctl", "--socket", "none.toml", "unlock", "user"]),
        ("scramotp-host ctl enr\t--co\t5 new", ["ctl", "enrol", "--count", "5", "new"]),
    ])
    if has("the words of doors that zsh offers", "zsh"):
        Path(folder, "noted").unlink()
        shutil.rmtree(Path(folder, "prefix"))
        completed(folder, "zsh", [
            ("serve-dovecot-auth --mas\tx boo\t", ["--master=x", "book.toml"]),
            ("scramotp-host ct\tunl\tuser", ["ctl", "unlock", "user"]),
            ("scramotp-host ctl enrol new --co\t5", ["ctl", "enrol", "new", "--count=5"]),
        ])


def installed(folder: str | Path) -> dict[str, str]:
    """The environment of a shell in which the program is installed below this folder, with its tools."""
    here = Path(folder, "prefix")
    shutil.copytree(TOP / "tools", here / "share/scramotp")
    (here / "bin").mkdir()
    shutil.copy(PROGRAM, here / "bin/scramotp")
    of_shells = {"HOME": str(folder), "ZDOTDIR": str(folder), "TERM": "dumb", "INPUTRC": "/dev/null"}
    return {**os.environ, "PATH": f"{here}/bin:{os.environ['PATH']}", **of_shells}


def book_of(names: list[str]) -> str:
    """A book with accounts of these names, which have nothing."""
    head, _, _ = BOOK_OF_USER.partition("[accounts.user]")
    return head + "".join(f"[accounts.{json.dumps(name)}]\n" for name in names)


def records(path: Path) -> list[list[str]]:
    """The words of each run that `scramotp` has noted."""
    parts, found = path.read_text().split("\0")[:-1] if path.exists() else [], []
    while parts:
        count = int(parts[0])
        found.append(parts[1:count + 1])
        parts = parts[count + 1:]
    return found


def is_noted(path: Path, number: int, side: int) -> bool:
    """Whether so many runs are noted. Reads what the shell shows meanwhile, on this side of its terminal, so that it need not wait."""
    with contextlib.suppress(BlockingIOError):
        os.read(side, 65536)
    return len(records(path)) >= number


def typed(folder: str | Path, shell: str, lines: list[str]) -> Iterator[list[str]]:
    """Types lines at the prompt of a shell in this folder, and gives the words that each has run `scramotp` with."""
    words_of_shell, rc, text = SHELLS[shell]
    noted = Path(folder, "noted")
    Path(folder, rc).write_text(text.format(completions=FOLDER, noted=noted))
    side, end = os.openpty()
    os.set_blocking(side, False)
    ways = {"stdin": end, "stdout": end, "stderr": end, "cwd": folder, "env": installed(folder), "start_new_session": True}
    with subprocess.Popen(words_of_shell, **ways) as run:
        try:
            for number, line in enumerate(lines, 1):
                os.write(side, f"{line}\n".encode())
                until(lambda: is_noted(noted, number, side), "the line should have run", line)
                yield records(noted)[number - 1]
        finally:
            run.kill()
            os.close(side)
            os.close(end)


def with_books(folder: str | Path) -> None:
    """Makes a book with hostile names in this folder, another with two plain ones, and a file that is no book."""
    Path(folder, "book.toml").write_text(book_of([*HOSTILE, "--help"]))
    Path(folder, "a book.toml").write_text(book_of(["anne", "bob"]))
    Path(folder, "none.toml").write_text("[")


def completed(folder: str, shell: str, rows: list[tuple[str, list[str]]]) -> None:
    """Types each line of these rows at a shell's prompt, and compares the words with which `scramotp` is then run. Nothing else may be."""
    for trial, ((line, due), found) in each(zip(rows, typed(folder, shell, [line for line, _ in rows]))):
        with trial:
            # Readline sorts names as they are quoted.
            equal(sorted(found), sorted(due), "the words that were run, of", line)
            holds(not Path(folder, "ran").exists(), "a name was run, of", line)


def names(folder: str) -> None:
    """After `--name` and `--as`, bash offers the names of the accounts in the book of `--book`, quoted: each arrives at the program as one
    word, and none runs anything."""
    with_books(folder)
    completed(folder, "bash", [
        (f"scramotp verify --book book.toml --name {ALL}", ["verify", "--book", "book.toml", "--name", *HOSTILE]),
        (f"scramotp login --book=book.toml --as {ALL}", ["login", "--book=book.toml", "--as", *HOSTILE]),
        (f"scramotp verify --book 'a book.toml' --name a{ALL}", ["verify", "--book", "a book.toml", "--name", "anne"]),
        (f"scramotp verify --book ~/a\\ book.toml --name=b{ALL}", ["verify", "--book", f"{folder}/a book.toml", "--name=bob"]),
        (f"scramotp verify --book book.toml --name user@ex{ALL}", ["verify", "--book", "book.toml", "--name", "user@example.org"]),
        (f"scramotp verify --book book.toml --name a:b{ALL}", ["verify", "--book", "book.toml", "--name", "a:b"]),
        (f"scramotp verify --book book.toml --name \\$\\(\t", ["verify", "--book", "book.toml", "--name", "$(touch ran)"]),
        (f"scramotp verify --book book.toml --name '$(t{ALL}'", ["verify", "--book", "book.toml", "--name", "$(t"]),
        (f"scramotp verify --book book.toml --name \"a;{ALL}\"", ["verify", "--book", "book.toml", "--name", "a;"]),
        ("scramotp verify --book book.toml --name \"user\t", ["verify", "--book", "book.toml", "--name", "user@example.org"]),
        (f"scramotp verify --book $(>ran) --name {ALL}{KILL}scramotp none", ["none"]),
        (f"scramotp verify --book '$(touch ran)' --name {ALL}", ["verify", "--book", "$(touch ran)", "--name"]),
        (f"scramotp verify --book none.toml --name {ALL}", ["verify", "--book", "none.toml", "--name"]),
        (f"scramotp verify --name {ALL}", ["verify", "--name"]),
        ("scramotp hall --book a\t", ["hall", "--book", "a book.toml"]),
        ("scramotp hall --book=bo\t", ["hall", "--book=book.toml"]),
    ])


def names_in_zsh(folder: str) -> None:
    """The same in zsh, for one name at a time."""
    if not has("the names that zsh offers", "zsh"):
        return
    with_books(folder)
    completed(folder, "zsh", [
        ("scramotp ver\t", ["verify"]),
        ("scramotp verify --book book.toml --name user@\t", ["verify", "--book", "book.toml", "--name", "user@example.org"]),
        ("scramotp verify --book book.toml --name \\$\\(\t", ["verify", "--book", "book.toml", "--name", "$(touch ran)"]),
        ("scramotp verify --book book.toml --name a\\;\t", ["verify", "--book", "book.toml", "--name", "a;touch ran"]),
        ("scramotp verify --book=book.toml --name=user@\t", ["verify", "--book=book.toml", "--name=user@example.org"]),
        ("scramotp login --book 'a book.toml' --as an\t", ["login", "--book", "a book.toml", "--as", "anne"]),
        ("scramotp report --book=book.toml --account us\t --event no\t",
         ["report", "--book=book.toml", "--account", "user@example.org", "--event", "no-token"]),
        ("scramotp verify --book ~/a\\ book.toml --name b\t", ["verify", "--book", f"{folder}/a book.toml", "--name", "bob"]),
        ("scramotp verify --book '$(touch ran)' --name u\t", ["verify", "--book", "$(touch ran)", "--name", "u"]),
        ("scramotp hall --book non\t", ["hall", "--book", "none.toml"]),
    ])


def names_in_fish(folder: str) -> None:
    """fish offers each name as it is, which it quotes itself, and runs nothing."""
    if not has("the names that fish offers", "fish"):
        return
    with_books(folder)
    environment = installed(folder)
    for trial, (line, due) in each([
        ("scramotp verify --book book.toml --name ", HOSTILE),
        ("scramotp login --book=book.toml --as a", [name for name in HOSTILE if name.startswith("a")]),
        ("scramotp login --book 'a book.toml' --as ", ["anne", "bob"]),
        ("scramotp verify --book ~/a\\ book.toml --name b", ["bob"]),
        ("scramotp verify --book '$(touch ran)' --name ", []),
        ("scramotp verify --book none.toml --name ", []),
        ("scramotp u", ["unlock", "upgrade"]),
        ("scramotp report --book book.toml --account ", HOSTILE),
        ("scramotp report --event ", EVENTS),
    ]):
        with trial:
            words = ["fish", "--no-config", "-c", f"source {FOLDER}/scramotp.fish; complete -C $argv[1]", line]
            status, output, faults = ran(words, cwd=folder, env=environment)
            equal((status, faults, Path(folder, "ran").exists()), (0, "", False), line, output)
            equal(sorted(it.partition("\t")[0] for it in output.splitlines()), sorted(due), "what fish offers for", line)


def syntax(folder: str) -> None:
    """Each shell finds its files well-formed."""
    forms = [("bash", "{}.bash"), ("zsh", "_{}"), ("fish", "{}.fish")]
    for trial, (shell, name) in each([(shell, form.format(it)) for shell, form in forms for it in ["scramotp", *DOORS]]):
        with trial:
            if has(f"the completions of {shell}", shell):
                equal(ran([shell, "-n", FOLDER / name]), (0, "", ""), name)


suite.run_all()
