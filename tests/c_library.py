#!/usr/bin/env python3
"""Tests the library for C: its examples, its calls, its interface, and what it does with random bytes and from several threads.

PROGRAM is not run. The environment's CLIB names the folder with the archives of the library; without it they are those that `rt lib` made
in crates/c_library/out. Each example is compiled with warnings as errors, and logs users in with messages that are in RFC 5802 and RFC
7677, or were made here with Python's hmac and hashlib. Needs cc; c++, rustc and go for the examples in their languages; and PostgreSQL and
Dovecot for what they say of its verifiers.
"""
import base64
import ctypes
import functools
import itertools
import os
import pathlib
import re
import shutil
import signal
import subprocess
import sys
import time
import urllib.parse
from collections.abc import Callable, Iterator
from typing import Any, NamedTuple

import book_cases
import installs
import shims
import suite
from audit_cases import TABLE, cases
from c_support import ARCHIVES, DECOY_KEY, FUNCTIONS, MADE, WARNINGS, answer_to, base64_of, decoy_salt, library
from checks import equal, holds
from expected import AUDITS, DATA, VECTORS, code, edited_texts, keys_of, rows_of
from processes import Running, ran, until
from suite import CODES, SEEDS, TOP, as_nobody, each, has, not_tested

EXAMPLES = TOP / "clib/examples"

# The two published exchanges: RFC 5802, section 5, and RFC 7677, section 3. The password is pencil, and the count 4096.
SHA1 = {
    "mechanism": "SCRAM-SHA-1",
    "salt": "4125c247e43ab1e93c6dff76",
    "nonce": "3rfcNHYJY1ZVvWVs7j",
    "first": "n,,n=user,r=fyko+d2lbbFgONRv9qkxdawL",
    "challenge": "r=fyko+d2lbbFgONRv9qkxdawL3rfcNHYJY1ZVvWVs7j,s=QSXCR+Q6sek8bf92,i=4096",
    "final": "c=biws,r=fyko+d2lbbFgONRv9qkxdawL3rfcNHYJY1ZVvWVs7j,p=v0X8v3Bz2T0CJGbJQyF0X+HI4Ts=",
    "verdict": "v=rmF9pqV8S7suAoZWja4dJRkFsKQ=",
}
SHA256 = {
    "mechanism": "SCRAM-SHA-256",
    "salt": "5b6d99689d12358eeca04b141236fa81",
    "nonce": "%hvYDpWUa2RaTCAfuxFIlj)hNlF$k0",
    "first": "n,,n=user,r=rOprNGfwEbeRWgbNEkqO",
    "challenge": "r=rOprNGfwEbeRWgbNEkqO%hvYDpWUa2RaTCAfuxFIlj)hNlF$k0,s=W22ZaJ0SNY7soEsUEjb6gQ==,i=4096",
    "final": "c=biws,r=rOprNGfwEbeRWgbNEkqO%hvYDpWUa2RaTCAfuxFIlj)hNlF$k0,p=dHzbZapWIk4jUhN+Ute9ytag9zjfMHgsqmmiz7AndVQ=",
    "verdict": "v=6rriTRBi23WpRR/wtup+mMhUZUn/dB5nLTJRsjl95G4=",
}


def final_for(login: dict[str, str], first: str, password: bytes = b"pencil", **changed: str) -> tuple[str, str, str]:
    """The challenge to a first message, the final message of a client that has this password, and the server's signature for it. Parts of
    the final message may be changed, as those of answer_to."""
    nonce = re.search(r",r=([^,]*)", first)[1] + login["nonce"]
    challenge = f"r={nonce},s={base64_of(bytes.fromhex(login['salt']))},i=4096"
    return challenge, *answer_to(login["mechanism"], first, challenge, password, **changed)


# ---- the library, and the programs that use it


def compiled(source: pathlib.Path, to: str, *words: str | pathlib.Path) -> pathlib.Path:
    """The program of a file in C, with the static library unless the words name another."""
    program = pathlib.Path(MADE.name, to)
    linked = words or (library() / "libscramotp.a",)
    subprocess.run(["cc", "-std=c11", "-O2", *WARNINGS, "-I", TOP / "clib", source, "-o", program, *linked], check=True)
    return program


def built(examples: pathlib.Path, name: str, *more: str, **environment: str) -> list:
    """The command of an example, built as its head says, with these words besides."""
    program = f"{MADE.name}/{examples.name}_{name}"
    command = re.search("Built by: (.*)", (examples / name).read_text(encoding="utf-8"))[1]
    for here, there in ("$PWD/", ""), ("clib/out", library()), ("clib/examples", examples), ("-o login", f"-o {program}"):
        command = command.replace(here, str(there))
    subprocess.run(["sh", "-c", " ".join([command, *more])], env={**os.environ, **environment}, check=True)
    return [program]


def in_c(examples: pathlib.Path) -> list:
    """The command of the example in C, with the static library."""
    return built(examples, "login.c", "-std=c11", *WARNINGS)


def in_shared_c(examples: pathlib.Path) -> list:
    """The command of the example in C, with the shared library."""
    return [compiled(examples / "login.c", f"{examples.name}_shared", "-L", library(), "-lscramotp", f"-Wl,-rpath,{library()}")]


def in_cpp(examples: pathlib.Path) -> list:
    """The command of the example in C++."""
    return built(examples, "login.cpp", "-std=c++17", *WARNINGS)


def in_python(examples: pathlib.Path) -> list:
    """The command of the example in Python."""
    return ["env", f"LIBRARY={library() / 'libscramotp.so.0'}", sys.executable, examples / "login.py"]


def in_rust(examples: pathlib.Path) -> list:
    """The command of the example in Rust."""
    return built(examples, "login.rs", "-D", "warnings")


def in_go(examples: pathlib.Path) -> list:
    """The command of the example in Go."""
    return built(examples, "login.go", GOCACHE=f"{MADE.name}/go", GOPATH=f"{MADE.name}/gopath", HOME=MADE.name)


# Each example, by the compiler that it needs, from the folder of its source.
LANGUAGES: list[tuple[str, Callable[[pathlib.Path], list]]] = [
    ("cc", in_c), ("cc", in_shared_c), ("c++", in_cpp), ("python3", in_python), ("rustc", in_rust), ("go", in_go)
]


@functools.cache
def commands(examples: pathlib.Path) -> list[list]:
    """The command of each example in this folder whose compiler is on this machine."""
    return [made(examples) for compiler, made in LANGUAGES if has(f"the example for {compiler}", compiler)]


class Login(NamedTuple):
    """A row of a table of logins: what it shows, the names to act as, the client's messages, and what the server has to answer."""

    about: str
    of: dict[str, str]
    act_as: list[str]
    first: str
    final: str
    output: list[str]
    said: str


def logins_are(rows: list[Login], examples: pathlib.Path = EXAMPLES) -> None:
    """Runs each login with each example."""
    for command in commands(examples):
        for trial, row in each(rows):
            with trial:
                words = [*command, row.of["mechanism"], row.of["salt"], row.of["nonce"], *row.act_as]
                answer = ran(words, f"{row.first}\n{row.final}\n")
                want = ("".join(f"{line}\n" for line in row.output), f"{row.said}\n", int(row.said.startswith("refused")))
                equal((answer.output, answer.faults, answer.status), want, command[-1], row.about)


def published(folder: str) -> None:
    """The exchanges of both RFCs, byte for byte, with each example; that of RFC 5802 also by the command in the head of the one in C."""
    said = "user is logged in as user"
    logins_are([Login(it["mechanism"], it, [], it["first"], it["final"], [it["challenge"], it["verdict"]], said) for it in (SHA1, SHA256)])
    compiled(EXAMPLES / "login.c", "login")
    head = (EXAMPLES / "login.c").read_text(encoding="utf-8").partition("*/")[0].partition("in a shell:\n")[2]
    answer = ran(["sh", "-c", "\n".join(line.removeprefix(" * ") for line in head.splitlines())], cwd=MADE.name)
    equal((answer.output, answer.faults, answer.status), (f"{SHA1['challenge']}\n{SHA1['verdict']}\n", f"{said}\n", 0), head)


def no_room(folder: str) -> None:
    """Each example, if it has too little room for the challenge, says so by its number, and sends none."""
    small = pathlib.Path(folder, "small")
    small.mkdir()
    for example in EXAMPLES.glob("login.*"):
        text, count = re.subn(r"(?:C\.)?SCRAMOTP_FIRST_ROOM|\b618\b", "50", example.read_text(encoding="utf-8"))
        equal(count, 1, "how often the room is named in", example.name)
        pathlib.Path(small, example.name).write_text(text, encoding="utf-8")
    logins_are([Login(it["mechanism"], it, [], it["first"], "", [], "refused: 93") for it in (SHA1, SHA256)], small)


def header_blocks() -> list[str]:
    """The blocks in the comments of the header: three of code, a log, the book that it begins with, and the rows of its report."""
    found = re.findall(r"(?:^ \*     .*\n)+", (TOP / "clib/scramotp.h").read_text(), re.M)
    equal(len(found), 6, "the blocks in the header")
    return [it.replace(" *     ", "") for it in found]


def blocks_of_header(folder: str) -> None:
    """The blocks of code in the header, as they stand, serve a login, log in, and judge a code that passes once."""
    for name, text in zip(["server", "client", "code"], header_blocks()[:3]):
        pathlib.Path(folder, f"{name}.inc").write_text(text)
    program = compiled(TOP / "tests/c_header_blocks.c", "blocks", "-I", folder, library() / "libscramotp.a")
    of, wrong = {**SHA256, "nonce": SHA256["nonce"][:24]}, "e=invalid-proof"
    decoy = {**of, "salt": decoy_salt("SCRAM-SHA-256", "nobody").hex()}
    for trial, (it, name, password, status) in each([(of, "user", b"pencil", 0), (of, "user", b"pen", 1), (decoy, "nobody", b"pencil", 1)]):
        with trial:
            first = of["first"].replace("user", name)
            challenge, final, verdict = final_for(it, first, password)
            answer = ran([program, "server", of["nonce"]], f"{first}\n{final}\n")
            equal(answer, (status, f"{challenge}\n{verdict if status == 0 else wrong}\n", ""))
    first = f"n,,n=user,r={'abcdEFGH' * 3}"
    challenge, final, verdict = final_for(SHA256, first)
    for status, said in (0, verdict), (1, wrong):
        equal(ran([program, "client", "abcdEFGH" * 3], f"{challenge}\n{said}\n"), (status, f"{first}\n{final}\n", ""), said)
    right = code(bytes.fromhex(SEEDS["sha1"]), int(time.time()) // 30)
    told = "".join(f"lock 7\nstore 7, failures {it}\nunlock 7\n{number}\n" for it, number in [(0, 0), (1, 43)])
    equal(ran([program, "code", right]), (0, told, ""))


# The words for the example of codes, and what it has to print: RFC 4226, appendix D, and RFC 6238, appendix B.
CODE_RUNS = [
    (["hotp", "0", CODES[0], CODES[1], CODES[1], CODES[2]], "0\n0\n43\n0\nnext 3, failures 0\n"),
    (["sync", "0", CODES[8], CODES[9]], "0\nnext 10, failures 0\n"),
    (["totp", "59", "94287082", "94287082"], "0\n43\nlast 1, drift 0, failures 1\n"),
]


def code_example(folder: str) -> None:
    """The example of codes judges published ones, each of which passes once."""
    program = compiled(EXAMPLES / "code.c", "code")
    for trial, (words, output) in each(CODE_RUNS):
        with trial:
            equal(ran([program, *words]), (0, output, ""))


class Started(NamedTuple):
    """A client's login: the exchange that it begins like, the name, the name to act as, and its first message."""

    of: dict[str, str]
    name: str
    act_as: str
    first: str


def started(of: dict[str, str], name: str, act_as: str, spelled: str) -> Started:
    """A client's login with the nonce of a published exchange, whose names are spelled so between the flag and the nonce."""
    return Started(of, name, act_as, f"n,{spelled},r={of['first'].partition('r=')[2]}")


# Both published exchanges, and names that have a comma, an equals sign, and the longest that are spelled longest.
STARTED = [
    started(SHA1, "user", "", ",n=user"), started(SHA256, "user", "", ",n=user"), started(SHA1, "user", "root", "a=root,n=user"),
    started(SHA256, "a,b=c", "=,", "a==3D=2C,n=a=2Cb=3Dc"),
    started(SHA256, "," * 255, "=" * 255, f"a={'=3D' * 255},n={'=2C' * 255}"),
]


def verifier_of(of: dict[str, str], password: bytes) -> str:
    """The verifier of a password with the salt of a published exchange, as PostgreSQL spells it."""
    salt, function = bytes.fromhex(of["salt"]), FUNCTIONS[of["mechanism"]][0]
    stored, server = (base64_of(bytes.fromhex(it)) for it in keys_of(function, password, salt, 4096))
    return f"{of['mechanism']}$4096:{base64_of(salt)}${stored}:{server}"


def prepared_runs() -> Iterator[tuple[list[str], str, tuple[str, str]]]:
    """Runs of the example of prepared keys, for each published exchange, with an account of the password pencil and one of another: the
    words, what the clients send, and what the server prints. Of four logins in turn the first and the last are by the account's password,
    the second is by the other, and the third is of a name without an account."""
    passwords, wrong = [b"pencil", b"pencils"], "e=invalid-proof"
    for of, (own, other) in itertools.product([SHA1, SHA256], itertools.permutations(passwords)):
        nobody, salt = of["first"].replace("user", "nobody"), decoy_salt(of["mechanism"], "nobody").hex()
        right, refused = final_for(of, of["first"], own), final_for(of, of["first"], other)
        decoy = final_for({**of, "salt": salt}, nobody, own)
        equal(right if own == b"pencil" else refused, (of["challenge"], of["final"], of["verdict"]))
        turns = [(of["first"], right, 0), (of["first"], refused, 36), (nobody, decoy, 36), (of["first"], right, 0)]
        said = "".join(f"{challenge}\n{wrong if number else verdict}\n" for _, (challenge, _, verdict), number in turns)
        given = "".join(f"{first}\n{final}\n" for first, (_, final, _), _ in turns)
        yield [verifier_of(of, own), of["nonce"]], given, (said, "".join(f"answer: {it}\n" for *_, it in turns))


def prepared_example(folder: str) -> None:
    """The example of prepared keys accepts logins by the account's password, among them those of both RFCs, and refuses others by 36: also
    those of both RFCs, if the account has another password. It does not begin with what is no verifier."""
    program = compiled(EXAMPLES / "prepared.c", "prepared")
    for trial, (words, given, said) in each([*prepared_runs()]):
        with trial:
            equal(ran([program, *words], given), (0, *said))
    words = [program, verifier_of(SHA256, b"pencil")[:-1], "abc"]
    equal(ran(words), (1, "", "not loaded: 96\n"))


def client_example(folder: str) -> None:
    """The example of a client says what both RFCs say, and what was made here with Python's hmac and hashlib, and takes only the signature
    that is due."""
    program = compiled(EXAMPLES / "client.c", "client")
    for trial, it in each(STARTED):
        with trial:
            challenge, final, verdict = final_for(it.of, it.first)
            if it.first == it.of["first"]:
                equal((challenge, final, verdict), (it.of["challenge"], it.of["final"], it.of["verdict"]))
            words = [program, it.of["mechanism"], it.name, it.act_as, it.of["first"].partition("r=")[2]]
            wrong = f"v={base64_of(bytes(20 if it.of is SHA1 else 32))}"
            for said, status, faults in [
                (verdict, 0, f"logged in as {it.act_as or it.name}\n"), (f"{verdict},x=y", 0, f"logged in as {it.act_as or it.name}\n"),
                (wrong, 1, "refused: 30\n"), ("e=invalid-proof", 1, "refused: 29\n"), (f"{verdict},m=x", 1, "refused: 25\n"),
                (verdict[:-1], 1, "refused: 24\n"), ("", 1, "refused: 24\n"),
            ]:
                answer = ran(words, f"pencil\n{challenge}\n{said}\n")
                equal((answer.output, answer.faults, answer.status), (f"{it.first}\n{final}\n", faults, status), said)


def installed(folder: str) -> None:
    """By what `make install_library` installs, pkg-config says how to compile the example in C, which serves both published logins."""
    if not has("a program by pkg-config", "pkg-config"):
        return
    made = installs.made("install_library", suite.PROGRAM, CLIB_FOLDER=library(), PREFIX=f"{folder}/it")
    equal((made.status, made.faults), (0, ""))
    asked = ["env", f"PKG_CONFIG_PATH={folder}/it/lib/pkgconfig", "pkg-config"]
    flags = ran([*asked, "--cflags", "--libs", "scramotp"]).given().split()
    program, source = f"{folder}/login", shutil.copy(EXAMPLES / "login.c", folder)
    equal(ran(["cc", "-std=c11", *WARNINGS, source, "-o", program, *flags, f"-Wl,-rpath,{folder}/it/lib"]), (0, "", ""), flags)
    needed = re.findall(r"NEEDED +(\S+)", ran(["objdump", "-p", program]).given())
    equal(sorted(needed), ["libc.so.6", "libscramotp.so.0"], "what the program needs")
    for of in SHA1, SHA256:
        answer = ran([program, of["mechanism"], of["salt"], of["nonce"]], f"{of['first']}\n{of['final']}\n")
        equal(answer, (0, f"{of['challenge']}\n{of['verdict']}\n", "user is logged in as user\n"))


# Verifiers that PostgreSQL and Dovecot made, of passwords.
VERIFIERS = rows_of(VECTORS / "verifiers.csv")


def both_spellings(verifier: str) -> list[str]:
    """A verifier as PostgreSQL spells it, and as Dovecot does."""
    mechanism, *fields = re.match(r"{?(SCRAM-SHA-\d+)[$}](\d+)[:,]([^$,]+)[$,]([^:,]+)[:,](.+)$", verifier).groups()
    return [mechanism + "${}:{}${}:{}".format(*fields), f"{{{mechanism}}}" + ",".join(fields)]


def verifier_example(folder: str) -> None:
    """The example of verifiers spells those that PostgreSQL and Dovecot made as both do, and Dovecot takes what it spells as the password
    that it is of, and no other."""
    program = compiled(EXAMPLES / "verifier.c", "verifier")
    given = [row["verifier"] for row in VERIFIERS]
    spelled = [both_spellings(it) for it in given]
    for of, want in zip(["postgres", "dovecot"], zip(*spelled)):
        equal(ran([program, of], "".join(f"{it}\n" for it in given)), (0, "".join(f"{it}\n" for it in want), ""), of)
    equal(ran([program, "dovecot"], f"\n{given[0]},\n{given[0]}\n"), (1, f"{spelled[0][1]}\n", "refused: 96\nrefused: 96\n"))
    if has("what Dovecot says of verifiers that the library for C has spelled", "dovecot"):
        for trial, row in each([it for it in VERIFIERS if it["source"].startswith("PostgreSQL")]):
            with trial:
                made = ran([program, "dovecot"], f"{row['verifier']}\n").given().strip()
                for password, status in [(row["password"], 0), (row["password"] + "s", 75)]:
                    equal(ran(["doveadm", "pw", "-t", made, "-p", password]).status, status, password)


def at_postgres(folder: str) -> None:
    """PostgreSQL keeps a verifier that the library has made of a password, and logs in who has that password, and no other."""
    servers = sorted(pathlib.Path("/usr/lib/postgresql").glob("*/bin/initdb"))
    if not has("logins at PostgreSQL", str(servers[-1]) if servers else "initdb", "psql"):
        return
    own = pathlib.Path(folder, "own")
    own.mkdir()
    os.chmod(folder, 0o755)
    os.chown(own, as_nobody().get("user", -1), -1)
    words = ["-D", own / "data", "-U", "admin", "-A", "trust", "--no-sync", "--no-instructions"]
    equal(ran([servers[-1], *words], **as_nobody()).status, 0, "initdb")
    (own / "data/pg_hba.conf").write_text("local all admin trust\nlocal all all scram-sha-256\n")
    options = ["-k", own, "-c", "listen_addresses=", "-c", "fsync=off", "-c", "log_min_messages=panic"]
    server = Running([servers[-1].with_name("postgres"), "-D", own / "data", *options], **as_nobody())

    def asked(user: str, password: str, query: str) -> tuple[int, str]:
        answer = ran(["env", f"PGPASSWORD={password}", "psql", "-XAtqw", "-h", own, "-U", user, "-d", "postgres", "-c", query])
        return answer.status, answer.output

    until(lambda: server.process.poll() is not None or asked("admin", "", "SELECT 1")[0] == 0, "PostgreSQL does not answer")
    for trial, (name, password) in each([("alice", b"pencil"), ("bob", b"p=w,d"), ("carol", b"p" * 1024)]):
        with trial:
            entry = entry_of(256, 4096, bytes(range(16)), password)
            _, text, size = written("write_verifier", 204, entry, number(1))
            verifier = text[:size].decode()
            equal(asked("admin", "", f"CREATE ROLE {name} LOGIN PASSWORD '{verifier}'"), (0, ""))
            equal(asked("admin", "", f"SELECT rolpassword FROM pg_authid WHERE rolname = '{name}'"), (0, f"{verifier}\n"))
            for given, want in (password.decode(), (0, f"{name}\n")), (password.decode()[1:] + "x", (2, "")):
                equal(asked(name, given, "SELECT current_user"), want)
    server.process.send_signal(signal.SIGINT)
    equal(server.end().status, 0, "PostgreSQL's end")


def audits(folder: str) -> None:
    """The example of an audit says of each log of data/audits what the table says."""
    program, log = compiled(EXAMPLES / "audit.c", "audit"), pathlib.Path(folder, "log")
    for trial, case in each(cases()):
        with trial:
            log.write_bytes(case.log)
            want = case.answer.partition(", due ")[0]
            equal(ran([program, case.book, log]), (int(not want.startswith("clean")), f"{want}\n", ""), case.shows)


def reports(folder: str) -> None:
    """The example of a report has the rows that the table has of each log of data/audits."""
    program, log = compiled(EXAMPLES / "report.c", "report"), pathlib.Path(folder, "log")
    for trial, (row, text) in each(edited_texts(TABLE, "log", ".log")):
        with trial:
            log.write_bytes(text)
            accepted, line = re.search(r"accepted=(\d+)", row["answer"]), re.match(r"line (\d+)", row["answer"])
            rows = row["rows"].split("\\n") if row["rows"] else []
            said = "".join(f"{it}\n" for it in [*rows, f"logins: {accepted[1]}" if accepted else f"fault in line {line[1]}"])
            equal(ran([program, AUDITS / f"{row['book']}.toml", log]), (int(not accepted), said, ""), row["shows"])


def no_memory(folder: str) -> None:
    """If a request for memory is refused, by itself or with all after it, the examples of an audit and of a report say what they else say,
    or that they can't read a file, or 99. Each says that some time."""
    shim, book, log = shims.built("refuse_memory"), AUDITS / "hotp.toml", AUDITS / "interleaved.log"
    for trial, (name, lasting) in each(itertools.product(["audit", "report"], [{}, {"LASTING": "1"}])):
        with trial:
            program, seen = compiled(EXAMPLES / f"{name}.c", name), set()

            def refused_at(at: int) -> tuple[tuple[int, str], int]:
                answer = ran([program, book, log], env={**os.environ, **lasting, "LD_PRELOAD": shim, "REFUSED": str(at)})
                faults, requests = shims.requests(answer.faults, name, at)
                equal(faults, "", at)
                return (answer.status, answer.output), requests

            whole, requests = refused_at(0)
            equal(whole[0], 0, whole)
            for at in range(1, requests + 1):
                seen.add(refused_at(at)[0])
            equal(seen - {whole}, {(2, ""), (1, {"audit": "fault 99\n", "report": "number 99\n"}[name])}, name, lasting)


def under_valgrind(folder: str) -> None:
    """Valgrind finds no fault in the examples in C."""
    if not has("the examples in C under valgrind", "valgrind"):
        return
    watched, login = ["valgrind", "-q", "--error-exitcode=9"], in_c(EXAMPLES)
    for trial, of in each([SHA1, SHA256]):
        with trial:
            for final, status, said in [(of["final"], 0, "user is logged in as user\n"), (of["final"][:-4] + "AAA=", 1, "refused: 36\n")]:
                answer = ran([*watched, *login, of["mechanism"], of["salt"], of["nonce"]], f"{of['first']}\n{final}\n")
                answer.given(status=status, faults=said)
    for trial, it in each(STARTED[:2]):
        with trial:
            client = compiled(EXAMPLES / "client.c", "client")
            words = [*watched, client, it.of["mechanism"], it.name, "", it.of["first"].partition("r=")[2]]
            answer = ran(words, f"pencil\n{it.of['challenge']}\n{it.of['verdict']}\n")
            answer.given(faults="logged in as user\n")
    for trial, (words, given, said) in each([*prepared_runs()]):
        with trial:
            equal(ran([*watched, compiled(EXAMPLES / "prepared.c", "prepared"), *words], given), (0, *said))
    for trial, (words, output) in each(CODE_RUNS):
        with trial:
            equal(ran([*watched, compiled(EXAMPLES / "code.c", "code"), *words]), (0, output, ""))


def refusals_of(of: dict[str, str]) -> Iterator[Login]:
    """Logins that are refused after a challenge: the message and the number for each."""
    first = of["first"]
    challenge, right, _ = final_for(of, first)
    wrong = {
        "invalid-encoding 32": [right[:-1], right.replace("c=", "d="), right.replace(",p=", ",q="), "", "c=biws"],
        "extensions-not-supported 33": [final_for(of, first, more=",m=x")[1]],
        "other-error 34": [final_for(of, first, nonce=first[-4:])[1], right.replace(of["nonce"], of["nonce"][:-1])],
        "channel-bindings-dont-match 35": [final_for(of, first, channel="eSws")[1]],
        "invalid-proof 36": [final_for(of, first, b"pencils")[1], right[:-4] + "AAA="],
    }
    for told, finals in wrong.items():
        error, number = told.split()
        for final in finals:
            yield Login(told, of, [], first, final, [challenge, f"e={error}"], f"refused: {number}")
    asks = first.replace("n,,", "n,a=root,")
    challenge, final, _ = final_for(of, asks)
    yield Login("others", of, ["admin", "roo"], asks, final, [challenge, "e=other-error"], "refused: 37")
    name = first.replace("n=user", "n=nobody")
    challenge, final, _ = final_for({**of, "salt": decoy_salt(of["mechanism"], "nobody").hex()}, name)
    yield Login("decoy", of, [], name, final, [challenge, "e=invalid-proof"], "refused: 36")


# First messages that are refused, by their numbers.
NO_FIRST = {
    20: ["", "n,,n=user", "x,,n=user,r=a", "n,,n=us=er,r=a", "n,,n=user,r=" + "a" * 257],
    21: ["n,,m=x,n=user,r=a", "n,,n=user,r=a,m=x"],
    22: ["p=tls-unique,,n=user,r=a"],
    23: ["n,,n=us\u00e9r,r=a", "n,a=\u00e9,n=user,r=a", "n,,n=" + "u" * 256 + ",r=a"],
}


def refused(folder: str) -> None:
    """A login by a wrong password, with another nonce, header or name, or of a name without an account is refused, by its number."""
    logins_are([*refusals_of(SHA1), *refusals_of(SHA256)])
    logins_are([Login(str(it), SHA1, [], text, "", [], f"refused: {it}") for it, texts in NO_FIRST.items() for text in texts])


def acts_as(folder: str) -> None:
    """An account acts as its own name, and as those in the list. Names are decoded."""
    rows = []
    for asked, spelled, names in [("root", "root", ["root"]), ("user", "user", []), ("a,b=c", "a=2Cb=3Dc", ["x", "a,b=c", "y"])]:
        first = SHA256["first"].replace("n,,", f"n,a={spelled},")
        challenge, final, verdict = final_for(SHA256, first)
        rows.append(Login(asked, SHA256, names, first, final, [challenge, verdict], f"user is logged in as {asked}"))
    logins_are(rows)


# ---- the calls, from Python


class Entry(ctypes.Structure):
    """scramotp_entry"""

    _fields_ = [("mechanism", ctypes.c_uint32), ("count", ctypes.c_uint32), ("salt_len", ctypes.c_size_t), ("key_len", ctypes.c_size_t)]
    _fields_ += [(name, ctypes.c_uint8 * 64) for name in ("salt", "stored_key", "server_key")]


class PreparedKeys(ctypes.Structure):
    """scramotp_prepared_keys, as its words"""

    _fields_ = [("words", ctypes.c_uint32 * 32)]


class Bytes(ctypes.Structure):
    """scramotp_bytes"""

    _fields_ = [("at", ctypes.c_char_p), ("len", ctypes.c_size_t)]


class Client(ctypes.Structure):
    """scramotp_client"""

    _fields_ = [(name, Bytes) for name in ("name", "act_as", "nonce")]
    _fields_ += [(name, ctypes.c_uint32) for name in ("mechanism", "least", "most")]


class Audited(ctypes.Structure):
    """scramotp_audited"""

    _fields_ = [(name, ctypes.c_uint64) for name in ("line", "sessions", "accepted", "codes_passed")]


class Line(ctypes.Structure):
    """scramotp_line"""

    _fields_ = [(name, ctypes.c_uint64) for name in ("session", "moment", "counter")]
    _fields_ += [("kind", ctypes.c_uint32)]


class Hotp(ctypes.Structure):
    """scramotp_hotp_token"""

    _fields_ = [(name, ctypes.c_uint64) for name in ("next", "look_ahead", "sync_ahead", "limit", "failures")]
    _fields_ += [("digits", ctypes.c_uint8)]


class Totp(ctypes.Structure):
    """scramotp_totp_token"""

    _fields_ = [(name, ctypes.c_uint64) for name in ("t0", "step", "back", "ahead", "max_drift", "last")]
    _fields_ += [("drift", ctypes.c_int64), ("limit", ctypes.c_uint64), ("failures", ctypes.c_uint64)]
    _fields_ += [("hash", ctypes.c_uint32), ("digits", ctypes.c_uint8)]


def call(name: str, *given: Any) -> int:
    """Makes a call of the shared library. Bytes are followed by their length; a structure is handed over by its address."""
    words: list[Any] = []
    for it in given:
        if isinstance(it, bytes):
            words += [it, ctypes.c_size_t(len(it))]
        elif isinstance(it, ctypes.Structure):
            words.append(ctypes.byref(it))
        else:
            words.append(it)
    return ctypes.CDLL(str(library() / "libscramotp.so.0"))[f"scramotp_{name}"](*words)


def number(value: int) -> ctypes.c_uint32:
    """A number of 32 bits."""
    return ctypes.c_uint32(value)


def entry_of(mechanism: int, count: int, salt: bytes, password: bytes) -> Entry:
    """The entry of a password, which has to be one."""
    entry = Entry()
    equal(call("keys", number(mechanism), number(count), salt, password, entry), 0)
    return entry


def entry_bytes(entry: Entry) -> tuple[bytes, ...]:
    """The salt and the keys of an entry."""
    return bytes(entry.salt)[:entry.salt_len], bytes(entry.stored_key)[:entry.key_len], bytes(entry.server_key)[:entry.key_len]


def keys(folder: str) -> None:
    """The keys of passwords are those that GNU SASL and Dovecot made. What is no password, salt, count or mechanism is refused, by the
    first of their numbers, and leaves the entry as it was."""
    for trial, row in each(rows_of(VECTORS / "keys.csv")):
        with trial:
            salt, (_, mechanism) = bytes.fromhex(row["salt_hex"]), FUNCTIONS[row["mechanism"]]
            entry = entry_of(mechanism, int(row["count"]), salt, row["password"].encode())
            equal(entry_bytes(entry), (salt, bytes.fromhex(row["stored_hex"]), bytes.fromhex(row["server_hex"])))
            equal((entry.mechanism, entry.count), (mechanism, int(row["count"])))
    faults = [
        (90, 0, 0, b"", b""), (90, 2, 1, b"s", b"p"), (90, 512, 1, b"s", b"p"), (65, 1, 0, b"", b""), (64, 1, 1, b"", b""),
        (64, 256, 1, b"s" * 65, b""), (91, 1, 1, b"s", b""), (91, 1, 1, b"s" * 64, b"p\n"), (91, 256, 1, b"s", b"p" * 1025),
    ]
    for trial, (want, mechanism, count, salt, password) in each(faults):
        with trial:
            entry = entry_of(1, 1, b"salt", b"pencil")
            before = bytes(entry)
            equal(call("keys", number(mechanism), number(count), salt, password, entry), want)
            equal(bytes(entry), before)


def no_verifiers(verifier: str) -> Iterator[str]:
    """Texts that are no verifiers, but nearly this one, which PostgreSQL made."""
    dovecot = both_spellings(verifier)[1]
    _, count, salt, stored, server = re.split("[$:]", verifier)
    short, long, sha1 = (base64_of(bytes(size)) for size in (31, 33, 20))
    yield from ["", "md5c0ffee", "SCRAM-SHA-256$", "{SCRAM-SHA-256}", verifier[1:], f" {verifier}", dovecot[1:], dovecot.replace("}", "$")]
    for text in verifier, dovecot:
        yield from [text + end for end in ("\n", "\0", "=", "A", ":", ",", "$", f":{server}", f",{server}")]
        yield from [text[:-1], text.replace("SCRAM", "scram"), text.replace("256", "1", 1), text.replace("256", "512", 1)]
        yield from [text.replace(count, wrong, 1) for wrong in ("", "0", "04096", "+4096", "4096 ", "4_096", "-1", "4294967296", "x")]
        salts = ["", "=", salt[:-1], salt[:-2], f"{salt}=", f"{salt[:-3]}x==", f"{salt}\n", base64_of(bytes(65))]
        yield from [text.replace(salt, wrong, 1) for wrong in salts]
        yield from [text.replace(of, wrong, 1) for of in (stored, server) for wrong in ("", of[:-1], short, long, sha1, of[:-2] + "B=")]
    yield from [verifier.replace("$", ":"), verifier.replace(":", "$"), verifier.replace(":", ","), dovecot.replace(",", ":")]


def verifiers(folder: str) -> None:
    """Verifiers that PostgreSQL and Dovecot made are read as the keys of their passwords, and written as they were. Whatever is no verifier
    is refused by 96, and what is no entry with keys, no spelling or no room by the first of their numbers, and nothing is written."""
    for trial, row in each(VERIFIERS):
        with trial:
            entry, text = entry_of(1, 1, b"salt", b"pencil"), row["verifier"]
            equal(call("read_verifier", text.encode(), entry), 0)
            salt, count = base64.b64decode(re.split("[:,]", text)[1].split("$")[0]), int(re.search(r"[$}](\d+)", text)[1])
            function, mechanism = FUNCTIONS[row["mechanism"]]
            keys = keys_of(function, row["password"].encode(), salt, count)
            equal([it.hex() for it in entry_bytes(entry)], [salt.hex(), *keys])
            equal((entry.mechanism, entry.count), (mechanism, count))
            for spelling, want in enumerate(both_spellings(text), 1):
                of = want.encode()
                for room in [len(of), len(of) + 1, 500]:
                    equal(written("write_verifier", room, entry, number(spelling)), (0, of.ljust(room + 9, b"X"), len(of)))
                for room in [0, 1, len(of) - 1]:
                    equal(written("write_verifier", room, entry, number(spelling)), (93, b"X" * (room + 9), 777))
    for trial, text in each(no_verifiers(VERIFIERS[0]["verifier"])):
        with trial:
            entry = entry_of(1, 1, b"salt", b"pencil")
            before = bytes(entry)
            equal((call("read_verifier", text.encode(), entry), bytes(entry)), (96, before), text)
    entry = entry_of(256, 4096, b"salt", b"pencil")
    for trial, (want, spelling, fields) in each([
        (90, 3, {"mechanism": 0, "count": 0}), (97, 0, {"count": 0}), (97, 3, {}), (65, 1, {"count": 0, "salt_len": 0}),
        (64, 1, {"salt_len": 0, "key_len": 0}), (64, 2, {"salt_len": 65}), (66, 1, {"key_len": 20}), (66, 2, {"key_len": 0}),
    ]):
        with trial:
            wrong = changed_entry(entry, **fields)
            room = 0 if want < 90 else 500
            equal(written("write_verifier", room, wrong, number(spelling)), (want, b"X" * (room + 9), 777))
    longest = changed_entry(entry, count=2**32 - 1, salt_len=64)
    equal(written("write_verifier", 204, longest, number(2))[::2], (0, 204))


def decoys(folder: str) -> None:
    """A decoy's salt is the HMAC of its name, and it has no keys. What is no name, count or mechanism is refused, by the first of their
    numbers, and leaves the entry as it was."""
    for trial, (mechanism, name) in each([("SCRAM-SHA-1", "user"), ("SCRAM-SHA-256", "user"), ("SCRAM-SHA-256", "u" * 255)]):
        with trial:
            entry = entry_of(1, 1, b"salt", b"pencil")
            equal(call("decoy", ctypes.c_char_p(DECOY_KEY), number(FUNCTIONS[mechanism][1]), number(7), name.encode(), entry), 0)
            equal(entry_bytes(entry), (decoy_salt(mechanism, name), b"", b""))
            equal((entry.mechanism, entry.count), (FUNCTIONS[mechanism][1], 7))
    for trial, (want, mechanism, count, name) in each([(90, 3, 0, b""), (65, 1, 0, b""), (63, 1, 1, b""), (63, 1, 1, b"u" * 256)]):
        with trial:
            entry = entry_of(1, 1, b"salt", b"pencil")
            before = bytes(entry)
            equal(call("decoy", ctypes.c_char_p(DECOY_KEY), number(mechanism), number(count), name, entry), want)
            equal(bytes(entry), before)


def names(folder: str) -> None:
    """The names in a first message are given back as they are spelled, each with NULs after it. A message that is refused leaves them."""
    for trial, (text, name, act_as) in each([
        (SHA256["first"], "user", ""), ("y,a==3D=2C,n=a=2Cb=3Dc,r=x", "a,b=c", "=,"), ("n,a=user,n=user,r=x,x=y", "user", "user"),
        (f"n,a={'=3D' * 255},n={'=2C' * 255},r=x", "," * 255, "=" * 255),
    ]):
        with trial:
            found = ctypes.create_string_buffer(b"X" * 512, 512)
            equal(call("read_names", text.encode(), found), 0)
            equal(found.raw, name.encode().ljust(256, b"\0") + act_as.encode().ljust(256, b"\0"))
    for trial, (want, texts) in each([*NO_FIRST.items()]):
        with trial:
            for text in texts:
                found = ctypes.create_string_buffer(b"X" * 512, 512)
                equal((call("read_names", text.encode(), found), found.raw), (want, b"X" * 512), text)


def written(name: str, room: int, *given: Any, after: tuple[Any, ...] = ()) -> tuple[int, bytes, int]:
    """Makes a call that writes a message into a buffer of X, with these arguments before and after it. Returns its number, the buffer, and
    the length that was written."""
    out, size = ctypes.create_string_buffer(b"X" * (room + 9)), ctypes.c_size_t(777)
    return call(name, *given, out, ctypes.c_size_t(room), ctypes.byref(size), *after), out.raw[:-1], size.value


def judged(room: int, entry: Entry, *given: Any) -> tuple[int, bytes, int]:
    """Judges a login, also with the keys prepared, which gives the same. If the entry is none, nothing is prepared, and any prepared keys
    give the same. Returns what `written` does."""
    found, prepared = written("server_final", room, entry, *given), PreparedKeys((7,) * 32)
    told = call("prepare", entry, prepared)
    equal(written("server_final_prepared", room, entry, prepared, *given), found, "with prepared keys")
    if told != 0:
        equal((told, [*prepared.words]), (found[0], [7] * 32), "what is prepared")
    return found


def names_in_c(names: list[str]) -> tuple[Any, ctypes.c_size_t]:
    """Names to act as, and how many they are, as a call takes them."""
    return (Bytes * len(names))(*(Bytes(it.encode(), len(it)) for it in names)) or None, ctypes.c_size_t(len(names))


def prepared_refusals(folder: str) -> None:
    """With prepared keys each refusal is the one that is due, also of a decoy."""
    for trial, it in each([*refusals_of(SHA1), *refusals_of(SHA256)]):
        with trial:
            mechanism, (challenge, told) = FUNCTIONS[it.of["mechanism"]][1], it.output
            entry = entry_of(mechanism, 4096, bytes.fromhex(it.of["salt"]), b"pencil")
            if it.about == "decoy":
                equal(call("decoy", ctypes.c_char_p(DECOY_KEY), number(mechanism), number(4096), b"nobody", entry), 0)
            found = judged(700, entry, *names_in_c(it.act_as), it.first.encode(), challenge.encode(), it.final.encode())
            equal(found, (int(it.said.split()[1]), told.encode().ljust(709, b"X"), len(told)), it.about)


def other_prepared_keys(folder: str) -> None:
    """Prepared keys of another password, of another salt, of another mechanism or of a decoy refuse a login that is valid by the entry, and
    so do zeros, as for a wrong proof."""
    none, refused = (None, ctypes.c_size_t(0)), (36, b"e=invalid-proof".ljust(709, b"X"), 15)
    for trial, of in each([SHA1, SHA256]):
        with trial:
            mechanism, salt = FUNCTIONS[of["mechanism"]][1], bytes.fromhex(of["salt"])
            entry, messages = entry_of(mechanism, 4096, salt, b"pencil"), [of[it].encode() for it in ("first", "challenge", "final")]
            equal(judged(700, entry, *none, *messages), (0, of["verdict"].encode().ljust(709, b"X"), len(of["verdict"])))
            others = [
                entry_of(mechanism, 4096, salt, b"pencils"), entry_of(mechanism, 4096, salt[1:], b"pencil"),
                entry_of(257 - mechanism, 4096, salt, b"pencil"), changed_entry(entry, key_len=0),
            ]
            for other in [None, *others]:
                prepared = PreparedKeys()
                equal(call("prepare", other, prepared) if other else 0, 0)
                equal(written("server_final_prepared", 700, entry, prepared, *none, *messages), refused)


def longest(folder: str) -> None:
    """Each message that is received may have as many bytes as the header says, here by an extension, and no more."""
    most = int(re.search(r"SCRAMOTP_MOST_RECEIVED = (\d+)", (TOP / "clib/scramotp.h").read_text())[1])
    for trial, of in each([SHA1, SHA256]):
        with trial:
            mechanism = FUNCTIONS[of["mechanism"]][1]
            entry, nonce = entry_of(mechanism, 4096, bytes.fromhex(of["salt"]), b"pencil"), of["nonce"].encode()
            client = client_of(nonce=of["first"].partition("r=")[2].encode(), mechanism=mechanism)
            signature = ctypes.create_string_buffer(base64.b64decode(of["verdict"][2:]).ljust(32, b"\0"), 32)
            none, first, challenge = (None, ctypes.c_size_t(0)), of["first"].encode(), of["challenge"].encode()
            for more, numbers in (0, (0, 0, 0, 0)), (1, (20, 32, 24, 24)):
                extended = [(of[it] + ",x=").ljust(most + more, "x").encode() for it in ("first", "challenge", "verdict")]
                room = most + more - len(of["final"])
                final = final_for(of, of["first"], more=",x=".ljust(room, "x"))[1].encode()
                equal(len(final), most + more)
                found = [
                    written("server_first", 700, entry, extended[0], nonce)[0],
                    judged(700, entry, *none, first, challenge, final)[0],
                    written("client_final", 2000, client, b"pencil", extended[1], after=(ctypes.create_string_buffer(32),))[0],
                    call("client_check", number(mechanism), signature, extended[2]),
                ]
                equal(tuple(found), numbers, most + more)


def rooms(folder: str) -> None:
    """A message is written if there is room for it, and nothing after it is changed; else 93 is returned and nothing is written."""
    for trial, of in each([SHA1, SHA256]):
        with trial:
            entry = entry_of(FUNCTIONS[of["mechanism"]][1], 4096, bytes.fromhex(of["salt"]), b"pencil")
            first, challenge, final, none = *(of[it].encode() for it in ("first", "challenge", "final")), (None, ctypes.c_size_t(0))
            for name, given, text in [
                ("server_first", (entry, first, of["nonce"].encode()), challenge),
                ("server_final", (entry, *none, first, challenge, final), of["verdict"].encode()),
                ("server_final", (entry, *none, first, challenge, b""), b"e=invalid-encoding"),
            ]:
                answered = functools.partial(written, name) if name == "server_first" else judged
                for room in [len(text), len(text) + 1, len(text) + 500]:
                    told = 32 if text.startswith(b"e=") else 0
                    equal(answered(room, *given), (told, text.ljust(room + 9, b"X"), len(text)), name)
                for room in [0, 1, len(text) - 1]:
                    equal(answered(room, *given), (93, b"X" * (room + 9), 777), name)


def changed_entry(entry: Entry, **fields: int) -> Entry:
    """A copy of an entry with other fields."""
    copy = Entry.from_buffer_copy(bytes(entry))
    for name, value in fields.items():
        setattr(copy, name, value)
    return copy


def faults(folder: str) -> None:
    """An entry that is none, a nonce that is none, and messages that open no login of the entry are refused, by the first of their
    numbers, and nothing is written."""
    entry = entry_of(256, 4096, bytes.fromhex(SHA256["salt"]), b"pencil")
    first, challenge, final = (SHA256[it].encode() for it in ("first", "challenge", "final"))
    nonce, none = SHA256["nonce"].encode(), (None, ctypes.c_size_t(0))
    for trial, (want, fields) in each([
        (90, {"mechanism": 0, "count": 0}), (90, {"mechanism": 512}), (65, {"count": 0, "salt_len": 0}),
        (64, {"salt_len": 0, "key_len": 1}), (64, {"salt_len": 65}), (64, {"salt_len": 2**64 - 1}),
        (66, {"key_len": 20}), (66, {"key_len": 31}), (66, {"key_len": 64}),
    ]):
        with trial:
            wrong = changed_entry(entry, **fields)
            equal(written("server_first", 700, wrong, b"", b""), (want, b"X" * 709, 777))
            equal(judged(700, wrong, *none, b"", b"", b""), (want, b"X" * 709, 777))
    for trial, (want, message, part) in each([
        (92, b"", b""), (92, first, b"a,b"), (92, first, b"a b"), (92, first, b"a" * 257), (20, b"", nonce), (21, first + b",m=x", nonce),
        (22, first.replace(b"n,,", b"p=x,,"), nonce), (23, first.replace(b"user", b"u" * 256), nonce),
    ]):
        with trial:
            equal(written("server_first", 700, entry, message, part), (want, b"X" * 709, 777))
    for trial, (want, message, answer) in each([
        (20, b"", challenge), (22, first.replace(b"n,,", b"p=x,,"), challenge), (31, first, b""), (31, first, challenge[:-1]),
        (31, first, challenge.replace(b"W22", b"W23")), (31, first, challenge + b",m=x"), (31, first.replace(b"EkqO", b"EkqP"), challenge),
        (31, first, b"r=rOprNGfwEbeRWgbNEkqO,s=W22ZaJ0SNY7soEsUEjb6gQ==,i=4096"),
    ]):
        with trial:
            equal(judged(700, entry, *none, message, answer, final), (want, b"X" * 709, 777))


def client_of(name: bytes = b"user", act_as: bytes = b"", nonce: bytes = b"rOprNGfwEbeRWgbNEkqO", mechanism: int = 256, least: int = 4096,
              most: int = 4096) -> Client:
    """A client's login, as that of RFC 7677 if nothing else is said."""
    return Client(*(Bytes(it, len(it)) for it in (name, act_as, nonce)), mechanism, least, most)


def client_rooms(folder: str) -> None:
    """A client's message is written if there is room for the longest, and nothing after it is changed; else 93 is returned and nothing is
    written."""
    challenge, signature = SHA256["challenge"].encode(), ctypes.create_string_buffer(b"S" * 32, 32)
    texts = [(1796, "client_first", (), SHA256["first"]), (1592, "client_final", (b"pencil", challenge), SHA256["final"])]
    for trial, (least, name, given, text) in each(texts):
        with trial:
            more = (signature,) if name == "client_final" else ()
            for room, want in [(0, 93), (least - 1, 93), (least, 0), (least + 1, 0)]:
                made = written(name, room, client_of(), *given, after=more)
                equal(made, (0, text.encode().ljust(room + 9, b"X"), len(text)) if want == 0 else (93, b"X" * (room + 9), 777))
            equal(signature.raw != b"S" * 32, name == "client_final")


def client_faults(folder: str) -> None:
    """A client that is none, a password that is none and a challenge that a client does not answer are refused, by the first of their
    numbers, and nothing is written."""
    challenge, signature, none = SHA256["challenge"].encode(), ctypes.create_string_buffer(b"S" * 32, 32), b"X" * 2009
    long = b"u" * 256
    for trial, (want, client) in each([
        (90, client_of(mechanism=0, least=0)), (90, client_of(mechanism=512)), (65, client_of(least=0, name=b"")),
        (63, client_of(name=b"")), (63, client_of(name=long)), (63, client_of(name=b"us\xc3\xa9r")),
        (63, client_of(act_as=long, nonce=b"")), (63, client_of(act_as=b"\n")),
        (92, client_of(nonce=b"")), (92, client_of(nonce=b"a,b")), (92, client_of(nonce=b"a b")), (92, client_of(nonce=b"a" * 257)),
    ]):
        with trial:
            equal(written("client_first", 0 if want < 90 else 2000, client)[0], want)
            equal(written("client_final", 2000, client, b"", b"", after=(signature,)), (want, none, 777))
    mine = b"r=rOprNGfwEbeRWgbNEkqO"
    for trial, (want, password, text, client) in each([
        (91, b"", b"", client_of()), (91, b"p" * 1025, b"", client_of()), (91, b"p\n", b"", client_of()), (24, b"p", b"", client_of()),
        (24, b"p", challenge[:-1] + b"x", client_of()), (25, b"p", challenge + b",m=x", client_of()),
        (25, b"p", b"m=x," + challenge, client_of()),
        (26, b"p", challenge[:4] + challenge[5:], client_of()), (26, b"p", challenge, client_of(nonce=b"OprN")),
        (27, b"p", mine + b",s=AAAA,i=4096", client_of()), (28, b"p", challenge, client_of(least=4097, most=9999)),
        (28, b"p", challenge, client_of(most=4095, least=1)),
    ]):
        with trial:
            equal(written("client_final", 2000, client, password, text, after=(signature,)), (want, none, 777))
            equal(signature.raw, b"S" * 32)
    equal(call("client_check", number(2), signature, b"v=AAAA"), 90)


def audited(folder: str) -> None:
    """A text that is no book is refused by the number of its first fault, as data/book_faults says, and a log of more than a million lines
    by 87, and the structure stays as it was. A line at fault is named, and the counts are then 0."""
    book, log = (AUDITS / "keys.toml").read_bytes(), (AUDITS / "sha1.log").read_bytes()
    many = b"SCRAMLOG 1\n" + b"S MECHS SCRAM-SHA-256 SCRAM-SHA-1\nC ABORT\nS NO :\nE\n" * 250000
    for trial, (want, text, lines, found) in each([
        (0, book, log, (0, 1, 1, 0)), (85, book, log.replace(b"p=v0X8", b"p=w0X8"), (6, 0, 0, 0)), (80, book, b"", (1, 0, 0, 0)),
        (61, b"", b"", (1, 2, 3, 4)), (60, book + b"=", log, (1, 2, 3, 4)), (61, b"format = 2\n", b"", (1, 2, 3, 4)),
        (87, book, many, (1, 2, 3, 4)),
    ]):
        with trial:
            it = Audited(1, 2, 3, 4)
            equal((call("audit", text, lines, it), (it.line, it.sessions, it.accepted, it.codes_passed)), (want, found))
    for trial, case in each(book_cases.cases()):
        with trial:
            want = int(case.answer) if case.answer.isdigit() else 0
            for name, more in ("audit", ()), ("report", (None, ctypes.c_size_t(0), ctypes.byref(ctypes.c_size_t()))):
                it = Audited(1, 2, 3, 4)
                equal((call(name, case.book, b"SCRAMLOG 1\n", *more, it), it.line), (want, 1 if want else 0), case.shows)


def rows_of_logs(folder: str) -> None:
    """The rows of a log are written if there is room for them, and nothing after them is changed; else their length is told, and the
    structure stays as it was. A text that is no book has no rows; those of a log with too many lines are of its first million."""
    book, log = (AUDITS / "keys.toml").read_bytes(), (AUDITS / "sha1.log").read_bytes()
    rows, session = b"6 1 accepted user - SCRAM-SHA-1 -\n", b"S MECHS SCRAM-SHA-256 SCRAM-SHA-1\nC ABORT\nS NO :\nE\n"
    for trial, (want, text, lines, due, found) in each([
        (0, book, log, rows, (0, 1, 1, 0)), (85, book, log.replace(b"p=v0X8", b"p=w0X8"), b"", (6, 0, 0, 0)),
        (82, book, log + b"E\n", rows, (len(log.split(b"\n")), 0, 0, 0)), (61, b"format = 2\n", log, None, (1, 2, 3, 4)),
        (87, book, b"SCRAMLOG 1\n" + session * 250000,
         b"".join(b"%d %d refused - - - aborted\n" % (4 * it, it) for it in range(1, 250001)), (1, 2, 3, 4)),
    ]):
        with trial:
            for room in [len(due or b""), len(due or b"") + 500]:
                it = Audited(1, 2, 3, 4)
                told = written("report", room, text, lines, after=(ctypes.byref(it),))
                equal(told, (want, (due or b"").ljust(room + 9, b"X"), 777 if due is None else len(due)), room)
                equal((it.line, it.sessions, it.accepted, it.codes_passed), found, room)
    for room in [0, len(rows) - 1]:
        it = Audited(1, 2, 3, 4)
        equal(written("report", room, book, log, after=(ctypes.byref(it),)), (93, b"X" * (room + 9), len(rows)))
        equal((it.line, it.sessions, it.accepted, it.codes_passed), (1, 2, 3, 4))


# What a message of each byte is in a line: each is spelled as itself or percent-encoded (docs/FORMATS.md).
ALL_BYTES = bytes(range(256))
SPELLED = urllib.parse.quote_from_bytes(ALL_BYTES, "".join(map(chr, range(33, 127))).replace("%", ""))
LAST_MOMENT, LAST_COUNTER, LAST_SESSION = 253402300799, 2**63 - 2, 2**63 - 2

# A line of each kind: the numbers of its session and its kind, its texts, its moment and its counter, and its text.
LINES = [
    (1, 1, b"", b"", 0, 0, "1 S MECHS SCRAM-SHA-256 SCRAM-SHA-1"),
    (1, 2, b"", b"", 0, 0, "1 S CONT :"), (LAST_SESSION, 2, ALL_BYTES, b"", 0, 0, f"{LAST_SESSION} S CONT :{SPELLED}"),
    (1, 3, ALL_BYTES, b"", 0, 0, f"1 S OK :{SPELLED}"), (1, 4, b"", b"", 0, 0, "1 S NO :"),
    (9, 4, b"e=other-error", b"", 0, 0, "9 S NO :e=other-error"), (10, 5, b"", b"", 0, 0, "10 S PASS 0 0"),
    (10, 5, b"", b"", LAST_MOMENT, LAST_COUNTER, f"10 S PASS {LAST_MOMENT} {LAST_COUNTER}"),
    (2, 6, b"", b"", 59, 7, "2 S FAIL 59"), (2, 7, b"", b"", LAST_MOMENT, 2**64 - 1, f"2 S LOCKED {LAST_MOMENT}"),
    (2, 8, b"", b"", 60, 0, "2 S NOCODE 60"), (2, 9, b"", b"", 0, 0, "2 S HALT"), (65, 10, b"", b"", 0, 0, "65 S BUSY"),
    (3, 11, b"PLAIN", b"", 0, 0, "3 C AUTH PLAIN"), (3, 11, b"A-Z_019" + b"Z" * 13, b"", 0, 0, f"3 C AUTH A-Z_019{'Z' * 13}"),
    (3, 12, b"SCRAM-SHA-1", b"", 0, 0, "3 C AUTH SCRAM-SHA-1 :"), (3, 12, b"X", ALL_BYTES, 0, 0, f"3 C AUTH X :{SPELLED}"),
    (3, 13, ALL_BYTES, b"", 0, 0, f"3 C RESP :{SPELLED}"), (3, 14, b"", b"", 0, 0, "3 C ABORT"),
    (3, 15, b"755224", b"", 0, 0, "3 C CODE 755224"), (3, 15, b"!%:~" * 4, b"", 0, 0, f"3 C CODE {'!%:~' * 4}"),
    (3, 16, b"1", b"2", 0, 0, "3 C SYNC 1 2"), (3, 17, b"", b"", 0, 0, "3 C BAD"), (3, 18, b"", b"", 0, 0, "3 C GONE"),
    (3, 19, b"", b"", 0, 0, "3 E"),
    (1, 13, b"x" * 6194, b"", 0, 0, f"1 C RESP :{'x' * 6194}"), (1, 3, b"\n" * 2065, b"", 0, 0, f"1 S OK :{'%0A' * 2065}"),
]

# Lines that are refused: the number, and as above.
NO_LINES = [
    (98, 0, 0, b"", b"", 0, 0), (98, 1, 20, b"", b"", 0, 0), (98, 1, 2**32 - 1, b"", b"", 0, 0), (70, 0, 19, b"", b"", 0, 0),
    (70, LAST_SESSION + 1, 1, b"", b"", 0, 0), (70, 0, 13, b"x" * 9999, b"", 0, 0), (70, 1, 5, b"", b"", LAST_MOMENT + 1, 0),
    (70, 1, 5, b"", b"", 0, LAST_COUNTER + 1), *((70, 1, kind, b"", b"", LAST_MOMENT + 1, 0) for kind in (6, 7, 8)),
    *((70, 1, kind, name, b"x", 0, 0) for kind in (11, 12) for name in (b"", b"a", b"A B", b"A\n", b"A :x", b"A" * 21, b"A\0", b"A\xc3")),
    *((70, 1, 15, code, b"", 0, 0) for code in (b"", b"1 2", b"1\n", b"1" * 17, b"\x7f", b"\x80")),
    *((70, 1, 16, *codes, 0, 0) for codes in ((b"", b"1"), (b"1", b""), (b"1", b"2 3"), (b"1 2", b"3"), (b"1", b"2" * 17))),
    (71, 1, 13, b"x" * 6195, b"", 0, 0), (71, 1, 13, b"x" * 50000, b"", 0, 0), (71, 1, 2, b"%" * 2065, b"", 0, 0),
    (71, 1, 12, b"SCRAM-SHA-1", b"x" * 6183, 0, 0),
]


def log_line(room: int, session: int, kind: int, text: bytes, more: bytes, moment: int, counter: int) -> tuple[int, bytes, int]:
    """Makes the call that writes a line of a log, as `written`."""
    return written("log_line", room, Line(session, moment, counter, kind), text, more)


def log_lines(folder: str) -> None:
    """A line of each kind is written in the form that docs/FORMATS.md says, and nothing after it is changed. What is no kind, or has a
    session, a name, a code, a moment, a counter or a length outside its range, or no room, is refused by its number."""
    equal({it[1] for it in LINES}, set(range(1, 20)))
    for trial, (*given, text) in each(LINES):
        with trial:
            want = text.encode() + b"\n"
            for room in [len(want), len(want) + 1, 7000]:
                equal(log_line(room, *given), (0, want.ljust(room + 9, b"X"), len(want)), text)
            for room in [0, 1, len(want) - 1]:
                equal(log_line(room, *given), (93, b"X" * (room + 9), 777), text)
    for trial, (want, *given) in each(NO_LINES):
        with trial:
            equal(log_line(0, *given), (want, b"X" * 9, 777))
            equal(log_line(7000, *given), (want, b"X" * 7009, 777))


def logs(folder: str) -> None:
    """The lines of a recorded log with two sessions and a code are written as they are, from what they have, and the audit finds the log
    clean. With the code passed at another counter it names that line."""
    first, challenge, final, verdict = (SHA1[it].encode() for it in ("first", "challenge", "final", "verdict"))
    lines = [
        (1, 1, b"", b""), (2, 1, b"", b""), (2, 11, b"PLAIN", b""), (2, 4, b"", b""), (2, 19, b"", b""), (1, 12, b"SCRAM-SHA-1", first),
        (1, 2, challenge, b""), (1, 13, final, b""), (1, 3, verdict, b""), (1, 15, CODES[0].encode(), b""), (1, 5, b"", b""),
        (1, 18, b"", b""), (1, 19, b"", b""),
    ]
    for counter, want in (0, (0, 0)), (1, (86, 12)):
        made = b"SCRAMLOG 2\n"
        for line in lines:
            told, out, size = log_line(7000, *line, 3, counter)
            equal(told, 0, line)
            made += out[:size]
        it = Audited(9, 9, 9, 9)
        equal((call("audit", (AUDITS / "hotp.toml").read_bytes(), made, it), it.line), want)
        equal(made == (AUDITS / "interleaved.log").read_bytes(), counter == 0)


def log_example(folder: str) -> None:
    """The example of a server that keeps a log logs both published exchanges as they are recorded, a refused one, and one of a name without
    an account, and finds its log clean. Where it logs that a refused login was accepted, the audit names that line."""
    program = compiled(EXAMPLES / "logged.c", "logged")
    for trial, of in each([SHA1, SHA256]):
        with trial:
            mechanism, first, no = of["mechanism"], of["first"], ["S NO :e=invalid-proof", "E"]
            nobody = {**of, "salt": decoy_salt(mechanism, "nobody").hex()}, first.replace("user", "nobody")
            for more, (challenge, final, verdict), sent, last, said in [
                ([], final_for(of, first), first, ["S OK :{}", "C GONE", "E"], "clean: accepted 1"),
                ([], final_for(of, first, b"pencils"), first, no, "clean: accepted 0"),
                ([], final_for(*nobody), nobody[1], no, "clean: accepted 0"),
                (["forge"], final_for(of, first, b"pencils"), first, ["S OK :e=invalid-proof", "C GONE", "E"], "line 6 is at fault: 85"),
            ]:
                begin = ["S MECHS SCRAM-SHA-256 SCRAM-SHA-1", f"C AUTH {mechanism} :{sent}", f"S CONT :{challenge}"]
                logged = "".join(f"1 {it}\n" for it in [*begin, f"C RESP :{final}", *last]).replace("%", "%25").format(verdict)
                answer = ran([program, mechanism, of["salt"], of["nonce"], *more], f"{sent}\n{final}\n")
                equal(answer, (int(not said.startswith("clean")), f"SCRAMLOG 2\n{logged}{said}\n", ""), said)
            unread = ["S MECHS SCRAM-SHA-256 SCRAM-SHA-1", f"C AUTH {mechanism} :x%20", "S NO :", "E"]
            want = "".join(f"{it}\n" for it in ["SCRAMLOG 2", *(f"1 {it}" for it in unread), "clean: accepted 0"])
            equal(ran([program, mechanism, of["salt"], of["nonce"]], "x \n"), (0, want, ""))


# What is in a book for a TOTP token, by the name of each field of its structure; `last` is left out, since no step has passed.
TOTP_TABLE = {"t0": 0, "step": 30, "back": 1, "ahead": 1, "max_drift": 2, "drift": 0, "limit": 5, "failures": 0}
TOTP_TABLE |= {"hash": '"sha1"', "digits": 8}


def log_of_header(folder: str) -> None:
    """The header's log is clean by the header's book, and has the header's rows. So it is with another name, and with a TOTP token, which
    are spelled as the header says; and two codes of such a token in a row are logged as the failure of an empty one."""
    equal({*TOTP_TABLE} | {"last"}, {name for name, _ in Totp._fields_})
    log, book, rows = header_blocks()[3:]
    kept, secret, _ = re.search(r'(?s)(.*token\]\n)kind.*(secret = .*?\n)(.*)', book).groups()
    totp = f'{kept}kind = "totp"\n{secret}' + "".join(f"{name} = {it}\n" for name, it in TOTP_TABLE.items())
    first = SHA1["first"].replace("user", 'a"\\b')
    challenge, final, verdict = final_for(SHA1, first)
    other = log.replace(SHA1["first"], first).replace(SHA1["final"], final).replace(SHA1["verdict"], verdict)
    equal(challenge, SHA1["challenge"])
    token = Totp(0, 30, 1, 1, 2, 2**64 - 1, 0, 5, 0, 1, 8)
    equal((call("totp", bytes.fromhex(SEEDS["sha1"]), token, ctypes.c_uint64(59), b""), token.failures), (43, 1))
    shown = rows.replace(" user ", ' a"\\b ')
    counted, passed, failed = "C CODE 755224\n1 S PASS 1764460800 0", "C CODE 94287082\n1 S PASS 59 1", "C SYNC 1 2\n1 S FAIL 59"
    for trial, (lines, by, due, count) in each([
        (log, book, rows, 1), (other, book.replace('"user"', '"a\\"\\\\b"'), shown, 1),
        (log.replace(counted, passed), totp, rows.replace("1764460800 0", "59 1"), 1),
        (log.replace(counted, failed), totp, rows.replace("passed", "failed").replace("1764460800 0", "59 -"), 0),
    ]):
        with trial:
            it, of, given = Audited(9, 9, 9, 9), due.encode(), (by.encode(), lines.encode())
            equal((call("audit", *given, it), it.line, it.sessions, it.accepted, it.codes_passed), (0, 0, 1, 1, count))
            told = written("report", len(of), *given, after=(ctypes.byref(it),))
            equal(told, (0, of + b"X" * 9, len(of)))


def codes(folder: str) -> None:
    """The codes of RFC 4226, appendix D, RFC 6238, appendix B, and those that oathtool made pass, each once."""
    secret = bytes.fromhex(SEEDS["sha1"])
    token = Hotp(0, 0, 0, 3, 0, 6)
    for at, text in enumerate(CODES):
        equal((call("hotp", secret, token, text.encode()), token.next, token.failures), (0, at + 1, 0))
        equal((call("hotp", secret, token, text.encode()), token.next, token.failures), (43, at + 1, 1))
    # RFC 6238, appendix B: 8 digits, a step of 30 seconds.
    table = {
        59: ("94287082", "46119246", "90693936"), 1111111109: ("07081804", "68084774", "25091201"),
        1111111111: ("14050471", "67062674", "99943326"), 1234567890: ("89005924", "91819424", "93441116"),
        2000000000: ("69279037", "90698825", "38618901"), 20000000000: ("65353130", "77737706", "47863826"),
    }
    for at, (function, hash_number) in enumerate([("sha1", 1), ("sha256", 256), ("sha512", 512)]):
        token = Totp(0, 30, 0, 0, 0, 2**64 - 1, 0, 3, 0, hash_number, 8)
        for moment, texts in table.items():
            given = (bytes.fromhex(SEEDS[function]), token, ctypes.c_uint64(moment), texts[at].encode())
            equal((call("totp", *given), token.last, token.failures), (0, moment // 30, 0))
            equal((call("totp", *given), token.last, token.failures), (43, moment // 30, 1))
    for trial, row in each(rows_of(VECTORS / "codes.csv")):
        with trial:
            secret, digits, text = bytes.fromhex(row["secret_hex"]), int(row["digits"]), row["code"].encode()
            if row["counter"]:
                token = Hotp(int(row["counter"]), 0, 0, 1, 0, digits)
                equal((call("hotp", secret, token, text), token.next), (0, int(row["counter"]) + 1))
            else:
                t0, step, of = int(row["t0"]), int(row["step"]), {"sha1": 1, "sha256": 256, "sha512": 512}[row["hash"]]
                token = Totp(t0, step, 0, 0, 0, 2**64 - 1, 0, 1, 0, of, digits)
                moment = int(row["moment"])
                equal((call("totp", secret, token, ctypes.c_uint64(moment), text), token.last), (0, (moment - t0) // step))


def tokens(folder: str) -> None:
    """A token that runs ahead is found again, a clock that is ahead is followed, failures lock, and settings outside their ranges are
    refused, by the first of their numbers, and leave the token as it was."""
    secret = bytes.fromhex(SEEDS["sha1"])
    token = Hotp(0, 2, 9, 2, 0, 6)
    equal((call("hotp", secret, token, CODES[3].encode()), token.next, token.failures), (43, 0, 1))
    equal((call("hotp_sync", secret, token, CODES[8].encode(), CODES[9].encode()), token.next, token.failures), (0, 10, 0))
    for want, failures in [(43, 1), (43, 2), (44, 2), (44, 2)]:
        equal((call("hotp", secret, token, b"000000"), token.next, token.failures), (want, 10, failures))
    pairs, clock = Hotp(0, 2, 9, 2, 0, 6), Totp(0, 30, 0, 0, 0, 2**64 - 1, 0, 2, 0, 1, 6)
    for want, failures, one, two, text in [(43, 1, 9, 8, b""), (43, 2, 8, 8, b"000000"), (44, 2, 8, 9, code(secret, 10).encode())]:
        equal((call("hotp_sync", secret, pairs, CODES[one].encode(), CODES[two].encode()), pairs.next, pairs.failures), (want, 0, failures))
        equal((call("totp", secret, clock, ctypes.c_uint64(300), text), clock.last, clock.failures), (want, 2**64 - 1, failures))
    ahead = Totp(0, 30, 0, 2, 4, 2**64 - 1, 0, 5, 0, 1, 6)
    equal((call("totp", secret, ahead, ctypes.c_uint64(300), code(secret, 12).encode()), ahead.last, ahead.drift), (0, 12, 2))
    equal((call("totp", secret, ahead, ctypes.c_uint64(330), code(secret, 14).encode()), ahead.last, ahead.drift), (0, 14, 3))
    for trial, (want, key, fields) in each([
        (40, b"s" * 9, {"digits": 0}), (40, b"s" * 65, {}), (41, secret, {"digits": 5, "limit": 0}), (41, secret, {"digits": 9}),
        (42, secret, {"next": 2**63}), (42, secret, {"look_ahead": 101}), (42, secret, {"sync_ahead": 1001}), (42, secret, {"limit": 0}),
        (42, secret, {"limit": 101}), (42, secret, {"failures": 3}),
    ]):
        with trial:
            token = Hotp(0, 0, 0, 2, 0, 6)
            for name, value in fields.items():
                setattr(token, name, value)
            before = bytes(token)
            equal((call("hotp", key, token, b"1"), call("hotp_sync", key, token, b"1", b"2"), bytes(token)), (want, want, before))
    for trial, (want, fields) in each([
        (94, {"hash": 0, "digits": 0}), (94, {"hash": 2}), (41, {"digits": 9, "t0": 2**63}), (95, {"t0": 253402300800}),
        (42, {"step": 0}), (42, {"step": 3601}), (42, {"back": 11}), (42, {"ahead": 11}), (42, {"max_drift": 101}),
        (42, {"last": 2**63 - 1}), (42, {"drift": 2}), (42, {"drift": -2}), (42, {"limit": 0}), (42, {"failures": 4}),
    ]):
        with trial:
            token = Totp(0, 30, 0, 0, 1, 2**64 - 1, 0, 3, 0, 1, 6)
            for name, value in fields.items():
                setattr(token, name, value)
            before = bytes(token)
            equal((call("totp", secret, token, ctypes.c_uint64(60), b"1"), bytes(token)), (want, before))
    token = Totp(0, 30, 0, 0, 1, 2**64 - 1, 0, 3, 0, 1, 6)
    equal(call("totp", secret, token, ctypes.c_uint64(253402300800), b"1"), 95)


# ---- the interface, random bytes, and threads


def size_line(row: dict[str, str]) -> str:
    """The line of C that prints the size of a structure, or the place and the size of what it holds."""
    of, _, name = row["name"].partition(".")
    if not name:
        return f'    printf("{of} %zu\\n", sizeof({of}));\n'
    return f'    printf("{of}.{name} %zu %zu\\n", offsetof({of}, {name}), sizeof((({of} *)0)->{name}));\n'


def interface(folder: str) -> None:
    """Both libraries have the symbols of data/c_library.csv and no others, need only memcpy, memmove, memset and memcmp, and for memory
    malloc, realloc and free, and all their data is constant, but for one byte of the kit's. The header's structures, and what they hold,
    have the places and sizes of that table, and its numbers are those of data/c_numbers.csv. It has the version of the program."""
    rows = rows_of(DATA / "c_library.csv")
    symbols = {row["name"] for row in rows if row["kind"] == "call"}
    for words in ["nm", "-D", library() / "libscramotp.so.0"], ["nm", "-g", library() / "libscramotp.a"]:
        found = [line.split()[-2:] for line in ran(words).output.splitlines() if re.search(r" [A-Zw] ", line)]
        equal({name for kind, name in found if kind == "T"}, symbols, words[-1])
        needed = {name.partition("@")[0] for kind, name in found if kind == "U"}
        equal(needed - {"memcpy", "memmove", "memset", "memcmp", "malloc", "realloc", "free"}, set(), words[-1])
        equal({kind for kind, _ in found} - {"T", "U", "w"}, set(), words[-1])
    sections = ran(["size", "-A", library() / "libscramotp.a"]).given()
    written = re.findall(r"^\.(?:data(?!\.rel\.ro)|bss|tdata|tbss)\S*\s+(\d+)", sections, re.M)
    equal(sum(map(int, written)), 1, "bytes that are not constant")
    want = {row["name"]: f"{row['at']} {row['bytes']}".strip() for row in rows if row["kind"] != "call"}
    lines = "".join(size_line(row) for row in rows if row["kind"] != "call")
    numbers = {row["name"]: row["value"] for row in rows_of(DATA / "c_numbers.csv")}
    lines += "".join(f'    printf("{it} %u\\n", (unsigned){it});\n' for it in numbers)
    source = pathlib.Path(folder, "sizes.c")
    source.write_text(f'#include "scramotp.h"\n#include <stdio.h>\n\nint main(void)\n{{\n{lines}    return 0;\n}}\n')
    equal(dict(line.split(" ", 1) for line in ran([compiled(source, "sizes")]).output.splitlines()), want | numbers)
    version = re.search(r'\.version\("(.*)"\)', (TOP / "crates/command_words/src/commands.rt").read_text())[1]
    equal(re.search("Version: (.*)", (TOP / "clib/scramotp.pc.in").read_text())[1], version)
    major, minor, patch = map(int, version.split("."))
    header = (TOP / "clib/scramotp.h").read_text()
    equal(re.search("define SCRAMOTP_VERSION (.*)", header)[1], str(10000 * major + 100 * minor + patch), "the version in the header")
    declared = re.sub(r"/\*.*?\*/", "", header, flags=re.S)
    equal({*re.findall(r"\bscramotp_\w+(?=\()", declared)}, symbols)
    equal({*re.findall(r"\bSCRAMOTP_\w+(?= = )", declared)}, {*numbers})


# What C calls the structures, the parameters and the types of crates/c_library and hmac_midstate, as the kit has them cross to C: a slice
# is a pointer and a length, and an allocator is nothing.
STRUCTURES = {
    "StoredEntry": "scramotp_entry", "Bytes": "scramotp_bytes", "Names": "scramotp_names", "ClientLogin": "scramotp_client",
    "PreparedKey": "scramotp_prepared_key", "PreparedKeys": "scramotp_prepared_keys",
    "HotpToken": "scramotp_hotp_token", "TotpToken": "scramotp_totp_token", "LineNumbers": "scramotp_line", "Audited": "scramotp_audited",
}
TYPES = {"u8": "uint8_t", "u32": "uint32_t", "u64": "uint64_t", "i64": "int64_t", "usize": "size_t", **STRUCTURES}
RENAMED = {"numbers": "line"}
LENGTHS = {"at": "len", "out": "out_room"}


def in_words_of_c(name: str, of: str) -> list[str]:
    """How C declares a parameter or a field of this name and this type of Rattle."""
    name, of = RENAMED.get(name, name), re.sub(r"<'\w+>|'a ", "", of)
    pointed = re.sub("^&(mut )?", "", of)
    const, star = "const " * (of == f"&{pointed}"), "*" * (of != pointed)
    if array := re.fullmatch(r"\[(\w+); (\d+)\]", pointed):
        return [f"{const}{TYPES[array[1]]} {name}[{array[2]}]"]
    if item := re.fullmatch(r"\[(\w+)\]", pointed):
        return [f"{const}{TYPES[item[1]] if item[1] != 'u8' else 'void'} *{name}", f"size_t {LENGTHS.get(name, name + '_len')}"]
    return [f"{const}{TYPES[pointed]} {star}{name}"] if of != "Global" else []


def parts_in_c(parts: str) -> list[str]:
    """How C declares the parameters or the fields that Rattle declares so."""
    found = re.findall(r"(\w+): ([^,\[]*(?:\[[^\]]*\])?[^,]*)", re.sub("///.*", "", parts))
    return [word for name, of in found for word in in_words_of_c(name, of.strip())]


def declarations(folder: str) -> None:
    """The header declares each exported function and each structure of crates/c_library with the parameters, the fields and the types that
    it has there, in their order."""
    header = re.sub(r"\s+", " ", re.sub(r"/\*.*?\*/", "", (TOP / "clib/scramotp.h").read_text(), flags=re.S))
    files = [*sorted((TOP / "crates/c_library/src").glob("*.rt")), TOP / "crates/hmac_midstate/src/prepared.rt"]
    sources = "".join(it.read_text(encoding="utf-8") for it in files)
    calls = re.findall(r'^pub extern "C" fn (\w+)\((.*?)\) -> u32', sources, re.M | re.S)
    want = {name: parts_in_c(of) for name, of in calls}
    equal({*want}, {row["name"] for row in rows_of(DATA / "c_library.csv") if row["kind"] == "call"})
    equal({name: of.split(", ") for name, of in re.findall(r"uint32_t (scramotp_\w+)\((.*?)\);", header)}, want)
    structures = re.findall(r"^#\[repr\(C\)\]\n#\[derive\(Drop\)\]\npub struct (\w+)\S* {(.*?)^}", sources, re.M | re.S)
    want = {STRUCTURES[name]: parts_in_c(of) for name, of in structures}
    want["scramotp_names"] = [it.replace("uint8_t", "char") for it in want["scramotp_names"]]
    equal({*want}, {*STRUCTURES.values()})
    found = re.findall(r"typedef struct {(.*?)} (\w+);", header)
    equal({name: of.strip().rstrip(";").split("; ") for of, name in found}, want)


def sanitized(source: str, to: str, kind: str) -> pathlib.Path | None:
    """The program of a file in C with a sanitizer, or None if the compiler has none."""
    words = ["cc", f"-fsanitize={kind}", "-x", "c", "-", "-o", "/dev/null"]
    if ran(words, "int main(void) { return 0; }").status != 0:
        not_tested(f"{source} with {kind} sanitizers, which cc does not have")
        return None
    words = [f"-fsanitize={kind}", "-fno-sanitize-recover=all", "-g", "-pthread", library() / "libscramotp.a"]
    return compiled(TOP / "tests" / source, to, *words)


def watched(what: str, *tool: str) -> list[str] | None:
    """The command of valgrind with this tool, or None if it is not there. The sanitizers of cc see what the library does only where that
    calls C's memcpy and its like, since nothing of it is compiled with them; valgrind sees all of it."""
    return ["valgrind", "-q", "--error-exitcode=9", *tool] if has(f"{what} under valgrind", "valgrind") else None


def seen_by(program: pathlib.Path, seed: int) -> set[int]:
    """The numbers that the calls return for random input from this seed."""
    return {int(it) for it in ran([program, str(seed), "20000"]).given().split()}


def fuzzed(folder: str) -> None:
    """Random and changed messages in buffers of exactly their length, and NULL where the length is 0: no call reads or writes outside, or
    leaves memory behind. With DURATION in the environment so many seconds of them, each time from the next seed."""
    ends, want = time.monotonic() + int(os.environ.get("DURATION") or 0), {0, 20, 24, 26, 28, 30, 31, 32, 34, 36, 42, 43, 44}
    want |= {60, 61, 62, 63, 64, 65, 66, 67, 80, 81, 83, 84, 85, 90, 91, 92, 93, 94, 95, 96, 97, 98}
    program, command = sanitized("c_library_fuzz.c", "fuzz", "address,undefined"), watched("random input", "--leak-check=full")
    plain = compiled(TOP / "tests/c_library_fuzz.c", "fuzz_plain")
    for seed in itertools.count(suite.SEED):
        if program:
            seen = seen_by(program, seed)
            holds(seen >= want, "numbers that were seen", sorted(seen), "from seed", seed)
        if command:
            answer = ran([*command, plain, str(seed), "300"])
            equal((answer.status, answer.faults), (0, ""), "from seed", seed)
        if time.monotonic() >= ends:
            break


def threads(folder: str) -> None:
    """Eight threads make each call at once, each does what it is to do, and no two threads use the same memory."""
    if program := sanitized("c_library_threads.c", "threads", "thread"):
        equal(ran([program, "200"]), (0, "8 threads, 1600 logins, 1600 times all other calls\n", ""))
    if command := watched("eight threads", "--tool=helgrind"):
        program = compiled(TOP / "tests/c_library_threads.c", "threads_plain", "-pthread", library() / "libscramotp.a")
        equal(ran([*command, program, "10"]), (0, "8 threads, 80 logins, 80 times all other calls\n", ""))


if not ARCHIVES:
    not_tested("the library for C, since there is no archive in crates/c_library/out, which rt lib makes, or in CLIB")
    sys.exit()
suite.run_all()
