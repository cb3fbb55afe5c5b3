#!/usr/bin/env python3
"""Tests the plug-in for Cyrus SASL: logins in Cyrus's library, in its sample server and in OpenLDAP's, by Cyrus's and GNU SASL's clients.

PROGRAM is not run. `make plugin` compiles the plug-in, with the library for C that c_library.py tests. cyrus_server.c is a server that
hands on any message at any moment; its accounts are in a store of Cyrus's, the file of libsasldb. What a client says is computed here with
Python's hmac and hashlib, or said by a real client.
"""
import itertools
import os
import re
import shutil
import subprocess
from base64 import b64decode
from collections.abc import Callable
from pathlib import Path

import needs
import suite
from c_support import ARCHIVES, DECOY_KEY, answer_to, base64_of, decoy_salt
from checks import equal, holds
from cyrus_support import BADAUTH, BADPROT, CONTINUE, CYRUS, FAIL, NOUSER, OK, GnuServer, Server
from cyrus_support import folder_of, fresh, hexed, message, plugin, stored_keys
from expected import VECTORS, rows_of
from mail_servers import free_port, postfix
from processes import Running, ran, until
from suite import TOP, each, has, not_tested

SCRAMS = ["SCRAM-SHA-256", "SCRAM-SHA-1"]
SANITIZERS = ["-g", "-fsanitize=address,undefined", "-fno-sanitize-recover=all"]
PAGE = (TOP / "plugins/cyrus/README.md").read_text(encoding="utf-8")


def logins(folder: str) -> None:
    """A right password logs in, by both mechanisms, from a plain password in the store and from keys; a wrong one, that of another, and a
    name without an account do not. So it is with each compiler."""
    for trial, (compiler, mechanism) in each(itertools.product(["cc", "clang"], SCRAMS)):
        with trial:
            if has(f"the plug-in as {compiler} compiles it", compiler):
                server = Server(fresh(folder), plugin(compiler))
                server.store("alice", "userPassword", "pencil")
                server.store("bob", "authPassword", stored_keys(mechanism, "wonder land"))
                equal(server.login(mechanism, "alice", "pencil"), [OK, "alice", "alice"])
                equal(server.login(mechanism, "bob", "wonder land"), [OK, "bob", "bob"])
                for name, password in [("alice", "pencils"), ("bob", "pencil"), ("carol", "pencil"), ("carol", "none")]:
                    equal(server.login(mechanism, name, password), [BADAUTH], name)
                equal(server.run.end().status, 0)


def acts_as(folder: str) -> None:
    """A name to act as is asked of the service, which without a policy of its own lets each account act as itself only."""
    server = Server(folder)
    server.store("a,b=c", "userPassword", "pencil")
    equal(server.login("SCRAM-SHA-256", "a=2Cb=3Dc", "pencil", "n,a=a=2Cb=3Dc,"), [OK, "a,b=c", "a,b=c"])
    equal(server.login("SCRAM-SHA-256", "a=2Cb=3Dc", "pencil", "y,,"), [OK, "a,b=c", "a,b=c"])
    for header in ["n,a=root,", "n,a=a,", "n,a=a=2Cb=3Dd,"]:
        equal(server.login("SCRAM-SHA-256", "a=2Cb=3Dc", "pencil", header), [BADAUTH], header)
        equal(server.login("SCRAM-SHA-256", "a=2Cb=3Dc", "pencils", header), [BADAUTH], header)


def beside_cyrus_own(folder: str) -> None:
    """Of this plug-in and Cyrus's own in one folder Cyrus takes its own, which refuses a name without an account at once."""
    if has("the plug-in beside Cyrus's own", str(CYRUS / "libscram.so")):
        rows = {"alone": (plugin(),), "Cyrus's own": (CYRUS / "libscram.so",), "both": (plugin(), CYRUS / "libscram.so")}
        found = {name: Server(fresh(folder), *files).login("SCRAM-SHA-256", "carol", "pencil") for name, files in rows.items()}
        equal(found, {"alone": [BADAUTH], "Cyrus's own": [NOUSER], "both": [NOUSER]})


def realms(folder: str) -> None:
    """In a realm Cyrus makes a name of it and of what the client sends; also one that is too long to be a client's."""
    server = Server(folder)
    for name in ["alice", "a" * 250]:
        server.store(f"{name}@example.org", "userPassword", "pencil")
        full = f"{name}@example.org"
        equal(server.login("SCRAM-SHA-256", name, "pencil", connection="new example.org"), [OK, full, full])
        equal(server.login("SCRAM-SHA-256", full[:255], "pencil", connection="new example.net")[0], OK if name == "alice" else BADAUTH)
        equal(server.login("SCRAM-SHA-256", name, "pencil", connection="new example.net"), [BADAUTH])
        salts = [salt_and_count(server.begins("SCRAM-SHA-256", f"n,,n={it},r=x", "new example.org")[1]) for it in (name, full[:255])]
        equal(salts[0] == salts[1], name == "alice", "whether both spellings of a name have the same salt")


def salt_and_count(challenge: bytes) -> tuple[bytes, str]:
    """The salt and the count in a challenge."""
    salt, count = re.search(rb",s=(.*),i=(.*)$", challenge).groups()
    return b64decode(salt), count.decode()


def decoys(folder: str) -> None:
    """A name without an account gets a challenge as one with a password does: its salt follows from the key and the name. So does one
    whose secret is none that can be used. Without a key each process has its own."""
    key = f"scramotp_decoy_key: {DECOY_KEY.hex()}\nscram_iteration_counter: 5000\n"
    server = Server(folder, options=key)
    server.store("alice", "userPassword", "pencil")
    server.store("bob", "authPassword", "{SSHA}nothing")
    server.store("dave", "userPassword", "p\xe4ss".encode().decode("latin-1"))
    for trial, mechanism in each(SCRAMS):
        with trial:
            for name in ["alice", "bob", "carol", "dave", "alice2", "Alice"]:
                _, challenge = server.begins(mechanism, f"n,,n={name},r=x")
                equal(salt_and_count(challenge), (decoy_salt(mechanism, name), "5000"), name)
                equal(server.login(mechanism, name, "pencil")[0], OK if name == "alice" else BADAUTH, name)
    salts = set()
    for _ in range(2):
        server = Server(fresh(folder))
        server.store("alice", "userPassword", "pencil")
        salts |= {salt_and_count(server.begins("SCRAM-SHA-1", f"n,,n={name},r=x")[1])[0] for name in ["alice", "carol"] * 2}
    equal(len(salts), 4, "the salts of two names in two processes")


def forms(folder: str) -> None:
    """Keys are read as RFC 5803 writes them, of any salt and count, with spaces where it allows them; and what is no such text lets nobody
    in. A plain password is taken first, as Cyrus's own plug-in does."""
    server = Server(folder)
    right = stored_keys("SCRAM-SHA-256", "pencil")
    scheme, info, keys = right.split("$")
    good = [right, f" {scheme} $ {info} $ {keys} "]
    good += [stored_keys("SCRAM-SHA-256", "pencil", b"s" * size, 1 + size) for size in (1, 63, 64)]
    count, salt = info.split(":")
    stored, own = keys.split(":")
    counts = ["", "0", "-1", "+4096", "04096", "4096x", "4 096", "4294967296", "18446744073709555712"]
    salts = ["", "=", "AA", "A===", "AA==A", f"{salt}AAAA", base64_of(b"s" * 65), "AAAA" * 500]
    other = ["", base64_of(b"k" * 31), base64_of(b"k" * 33), "AAAA" * 500]
    bad = ["", " ", scheme, f"{scheme}$", f"{scheme}${info}", f"{scheme}${info}$", f"{scheme}${info}${stored}", f"{scheme}{right}"]
    bad += [f"{right},x", f"{right} x", f"{right}$", f"{right}!", right.replace("256", "1"), right.lower(), f"{scheme}-PLUS${info}${keys}"]
    bad += [f"{scheme}${it}:{salt}${keys}" for it in counts] + [f"{scheme}${count}:{it}${keys}" for it in salts]
    bad += [f"{scheme}${info}${it}:{own}" for it in other] + [f"{scheme}${info}${stored}:{it}" for it in other]
    for trial, (want, text) in each([*((OK, it) for it in good), *((BADAUTH, it) for it in bad)]):
        with trial:
            server.store("alice", "authPassword", text)
            equal(server.login("SCRAM-SHA-256", "alice", "pencil")[0], want, text[:100])
    server.store("alice", "authPassword", right)
    server.store("alice", "userPassword", "another")
    equal(server.login("SCRAM-SHA-256", "alice", "pencil"), [BADAUTH])
    equal(server.login("SCRAM-SHA-256", "alice", "another"), [OK, "alice", "alice"])


def options(folder: str) -> None:
    """With `scramotp_store: keys` no plain password is read. An option that is wrong is logged, and nobody logs in."""
    def server_with(text: str) -> Server:
        server = Server(fresh(folder), options=f"{text}\n")
        server.store("alice", "userPassword", "pencil")
        server.store("bob", "authPassword", stored_keys("SCRAM-SHA-1", "pencil"))
        return server

    server = server_with("scramotp_store: keys")
    equal([server.login("SCRAM-SHA-1", name, "pencil")[0] for name in ("alice", "bob", "carol")], [BADAUTH, OK, BADAUTH])
    for trial, (text, said) in each([
        ("scramotp_store: both", "scramotp_store is neither passwords nor keys"),
        *((f"scramotp_decoy_key: {it}", "scramotp_decoy_key is not 64 of 0 to 9 and a to f") for it in ("00", "0" * 63, "A" * 64)),
        *((f"scram_iteration_counter: {it}", "scram_iteration_counter is not 1 to 4294967295") for it in ("0", "4096x", "4294967296")),
    ]):
        with trial:
            server = server_with(text)
            equal([server.login("SCRAM-SHA-1", name, "pencil")[0] for name in ("alice", "bob", "carol")], [FAIL] * 3)
            equal(server.run.end().faults, f"scramotp: {said}\n" * 3)


def sanitizes() -> bool:
    """Whether the compiler has the sanitizers. If not, the script says what is then not tested."""
    has = ran(["cc", *SANITIZERS, "-x", "c", "-", "-o", "/dev/null"], "int main(void) { return 0; }").status == 0
    if not has:
        not_tested("the plug-in's memory, since cc has no sanitizers")
    return has


def hostile(folder: str) -> None:
    """A message that is cut, changed, too long, or not due is refused, and no access is outside of it."""
    flags = (*SANITIZERS,) if sanitizes() else ()
    server = Server(folder, plugin("cc", *flags), flags=flags)
    server.store("alice", "userPassword", "pencil")
    first = b"n,,n=alice,r=the+client"
    for trial, (want, sent) in each([
        (BADPROT, b"\0"), (BADPROT, first[:-1] + b"\0"), (BADPROT, b"n,,n=al\0ice,r=x"), (BADPROT, b"n,,n=\xe9,r=x"),
        (CONTINUE, b"n,,n=" + b"a" * 255 + b",r=x"), (BADPROT, b"n,,n=" + b"a" * 256 + b",r=x"),
        (CONTINUE, b"n,,n=a,r=" + b"x" * 256), (BADPROT, b"n,,n=a,r=" + b"x" * 257),
        (CONTINUE, (first + b",x=").ljust(2048, b"x")), (BADPROT, (first + b",x=").ljust(2049, b"x")), (BADPROT, b"n" * 9000),
        *((BADPROT, first[:size]) for size in range(1, 13)),
    ]):
        with trial:
            equal(server.begins("SCRAM-SHA-256", sent)[0], want)
    _, challenge = server.begins("SCRAM-SHA-256", first)
    size = len(answer_to("SCRAM-SHA-256", first.decode(), challenge.decode(), b"pencil")[0])
    for trial, change in each([
        *(lambda text, at=at: text[:at] for at in range(size)),
        *(lambda text, more=more: text + more for more in (b"\0", b",", b"=", b"A" * 8000)),
        *(lambda text, at=at: text[:at] + bytes([text[at] ^ 1 << at % 7]) + text[at + 1:] for at in range(size)), lambda text: text * 99,
    ]):
        with trial:
            _, challenge = server.begins("SCRAM-SHA-256", first)
            sent = change(answer_to("SCRAM-SHA-256", first.decode(), challenge.decode(), b"pencil")[0].encode())
            holds(server.goes_on(sent)[0] in (BADPROT, BADAUTH), sent)
            equal(server.goes_on(sent)[0], BADPROT, "a second answer")
    answer = server.run.end()
    holds(re.fullmatch(r"(SCRAM-SHA-256: refused, number \d+(: e=[a-z-]+)?\n)+", answer.faults), "what is logged", answer.faults)
    equal(answer.status, 0)


def order(folder: str) -> None:
    """The first message may come after an empty challenge. What comes after the end of a login is refused, and so is a second empty one."""
    server = Server(folder)
    server.store("alice", "userPassword", "pencil")
    for trial, mechanism in each(SCRAMS):
        with trial:
            for empty in ["", " "]:
                server.ask("new")
                equal(server.ask(f"start {mechanism}{empty}"), [CONTINUE, "''"])
                equal(server.ask("step"), [BADPROT, "-"])
                equal(server.goes_on("n,,n=alice,r=x"), [BADPROT, "-"])
            server.ask("new")
            server.ask(f"start {mechanism}")
            result, challenge = message(server.goes_on("n,,n=alice,r=x"))
            final, verdict = answer_to(mechanism, "n,,n=alice,r=x", challenge.decode(), b"pencil")
            equal([result, server.goes_on(final)], [CONTINUE, [OK, hexed(verdict), "alice", "alice"]])
            equal(server.goes_on(final)[0], FAIL)
            server.begins(mechanism, "n,,n=alice,r=x")
            equal([server.goes_on(final)[0], server.goes_on(final)[0]], [BADPROT] * 2, "the answer to another challenge")
            server.begins(mechanism, "n,,n=alice,r=x")
            equal(server.goes_on("n,,n=alice,r=x")[0], BADPROT, "a first message for a final one")


def one_connection(folder: str) -> None:
    """Logins in one connection know nothing of each other: what was found for a name is not taken for the next one."""
    server = Server(folder)
    server.store("alice", "userPassword", "pencil")
    server.store("bob", "authPassword", stored_keys("SCRAM-SHA-256", "wonder land"))
    for before, name, password, want in [
        ("alice", "carol", "pencil", BADAUTH), ("bob", "carol", "wonder land", BADAUTH), ("alice", "bob", "pencil", BADAUTH),
        ("alice", "bob", "wonder land", OK), ("carol", "alice", "pencil", OK), ("bob", "alice", "pencil", OK),
    ]:
        server.begins("SCRAM-SHA-256", f"n,,n={before},r=x")
        equal(server.login("SCRAM-SHA-256", name, password, connection="")[0], want, before, name)


# ---- real servers and clients


class Sample:
    """A run of one of Cyrus's sample programs, and what it has printed."""

    def __init__(self, program: str, mechanism: str, *words: str, text: str = "", **environment: str) -> None:
        common = ["stdbuf", "-oL", f"sasl-sample-{program}", "-m", mechanism, "-s", "test", *words]
        ways = {"env": {**os.environ, **environment}, "stderr": subprocess.STDOUT, "start_new_session": True}
        self.run, self.side, self.printed = Running(common, text, **ways), f"{program[0].upper()}: ", ""

    def next(self) -> str | None:
        """The next message that it sends, in base64, or None if it ends."""
        while line := self.run.next_lines(1):
            self.printed += line
            if line.startswith(self.side):
                return line.removeprefix(self.side).strip()
        return None

    def end(self) -> int:
        """Waits for its end. Returns its status."""
        answer = self.run.end()
        self.printed += answer.output
        return answer.status


def by_cyrus(server: Sample, mechanism: str, name: str, password: str) -> bool:
    """Logs in at the sample server by Cyrus's own client. Returns whether the client takes the server's signature."""
    # Without a terminal it reads the password from its input.
    words = ["-a", name, "-u", "", "-n", "localhost"]
    client = Sample("client", mechanism, *words, text=f"S: {server.next()}\n{password}\n")
    while (sent := client.next()) is not None:
        server.run.send(f"C: {sent}\n")
        if (answer := server.next()) is not None:
            client.run.send(f"S: {answer}\n")
        elif f"Username: {name}\n" not in server.printed:
            return False
    return client.end() == 0


def by_gsasl(server: Sample, mechanism: str, name: str, password: str) -> bool:
    """Logs in at the sample server by GNU SASL's client. Returns whether the client takes the server's signature."""
    client = Running(["gsasl", "--client", "-m", mechanism, "-a", name, "-p", password, "--no-cb", "--quiet"])
    begun = f"{mechanism}\0".encode() + b64decode(client.next_lines(2).split()[-1])
    server.next()
    server.run.send(f"C: {base64_of(begun)}\n")
    client.send(f"{server.next()}\n")
    server.run.send(f"C: {client.next_lines(1)}")
    if (verdict := server.next()) is None:
        return False
    server.run.send("C: \n")
    return client.end(f"{verdict}\n\n").status == 0


def clients(folder: str) -> None:
    """Cyrus's sample server takes the right password, and no other, from Cyrus's own client and from GNU SASL's."""
    rows = [(*it, who, password) for it in itertools.product([by_cyrus, by_gsasl], SCRAMS, ["userPassword", "authPassword"])
            for who, password in [("alice", "wonder land"), ("alice", "wonderland"), ("carol", "wonder land")]]
    for trial, (client, mechanism, kind, name, password) in each(rows):
        with trial:
            command = {by_cyrus: "sasl-sample-client", by_gsasl: "gsasl"}[client]
            if has(f"logins at Cyrus's sample server by {command}", command, "sasl-sample-server", "stdbuf"):
                own, is_right = fresh(folder), (name, password) == ("alice", "wonder land")
                Server(own).store("alice", kind, "wonder land" if kind == "userPassword" else stored_keys(mechanism, "wonder land"))
                server = Sample("server", mechanism, "-d", "localhost", "-p", f"{own}/plugins", SASL_CONF_PATH=own)
                equal(client(server, mechanism, name, password), is_right)
                server.end()
                told = f"Username: {name}\n" if is_right else f"{mechanism}: refused, number 36: e=invalid-proof\n"
                holds(told in server.printed, "what the server says", server.printed)


# What slapd is told besides the settings of README.md: each name has an entry below dc=example, and one is not in ASCII there.
SLAPD = """include /etc/ldap/schema/core.schema
{1}pidfile {0}/pid
sasl-host localhost
authz-regexp "^uid=olaf,cn=[^,]+,cn=auth$" "cn=Ólafur,dc=example"
authz-regexp "^uid=([^,]+),cn=[^,]+,cn=auth$" "cn=$1,dc=example"
database ldif
directory {0}/entries
suffix dc=example
"""
ENTRY = """
dn: cn={0},dc=example
objectClass: person
objectClass: authPasswordObject
cn: {0}
sn: {0}
{1}
"""
ENTRIES = "dn: dc=example\nobjectClass: dcObject\nobjectClass: organization\ndc: example\no: example\n"


def directory(folder: str) -> None:
    """OpenLDAP's server lets in who has the right password, by Cyrus's own client. It says the same of a wrong password and of a name
    without an entry."""
    slapd, slapadd = needs.found("slapd"), needs.found("slapadd")
    if not has("binds at OpenLDAP's server", "slapd", "slapadd", "ldapwhoami"):
        return
    Path(folder, "entries").mkdir()
    settings = re.search("^```\n(attributetype.*?)^```", PAGE, re.M | re.S)[1]
    Path(folder, "slapd.conf").write_text(SLAPD.format(folder, settings))
    both = "\n".join(f"authPassword: {stored_keys(it, 'pencil')}" for it in SCRAMS)
    secrets = {"alice": "userPassword: wonder land", "\u00d3lafur": "userPassword: snowman", "bob": both}
    Path(folder, "ldif").write_text(ENTRIES + "".join(ENTRY.format(*it) for it in secrets.items()))
    equal(ran([slapadd, "-f", f"{folder}/slapd.conf", "-l", f"{folder}/ldif"]).status, 0, "slapadd")
    url = f"ldap://127.0.0.1:{free_port()}"
    plugins = {"SASL_PATH": str(folder_of(folder, plugin()))}
    server = Running([slapd, "-f", f"{folder}/slapd.conf", "-h", url, "-d", "0"], env={**os.environ, **plugins})
    until(lambda: server.process.poll() is not None or ran(["ldapwhoami", "-x", "-H", url]).status == 0, "slapd does not answer")
    found = ran(["ldapsearch", "-x", "-LLL", "-H", url, "-b", "dc=example", "cn", "authPassword", "userPassword"]).output
    equal(("cn: bob\n" in found, "Password" in found), (True, False), "what anyone can read")
    for trial, mechanism in each(SCRAMS):
        with trial:
            def bind(name: str, password: str) -> tuple[int, str]:
                answer = ran(["ldapwhoami", "-Q", "-H", url, "-Y", mechanism, "-U", name, "-w", password])
                return answer.status, answer.output + answer.faults
            equal(bind("alice", "wonder land"), (0, "dn:cn=alice,dc=example\n"))
            equal(bind("olaf", "snowman"), (0, "dn:cn=\u00f3lafur,dc=example\n"))
            equal(bind("bob", "pencil"), (0, "dn:cn=bob,dc=example\n"))
            refusal = f"SASL(-13): authentication failure: {mechanism}: refused, number 36: e=invalid-proof"
            for name, password in [("alice", "wonderland"), ("carol", "wonder land"), ("olaf", "wonder land"), ("bob", "pencils")]:
                equal(bind(name, password), (49, f"ldap_sasl_interactive_bind: Invalid credentials (49)\n\tadditional info: {refusal}\n"))


def mail_server(folder: str) -> None:
    """Postfix, with the settings of README.md, lets in who has the right password, by GNU SASL's client, and nobody else."""
    if not has("logins at Postfix", "postfix", "gsasl") or not suite.is_root():
        return
    Server(folder).store("alice", "userPassword", "wonder land")
    shutil.chown(f"{folder}/store", "postfix")
    Path(folder).chmod(0o755)
    Path(folder, "postfix/sasl").mkdir(parents=True)
    Path(folder, "test.conf").rename(Path(folder, "postfix/sasl/smtpd.conf"))
    settings = re.search("^```\n(smtpd_sasl.*?)^```", PAGE, re.M | re.S)[1]
    with postfix(folder, settings.replace("/usr/local/lib/scramotp/sasl2", f"{folder}/plugins")) as port:
        for trial, mechanism in each(SCRAMS):
            with trial:
                for name, password in [("alice", "wonder land"), ("alice", "wonderland"), ("carol", "wonder land")]:
                    words = ["timeout", "20", "gsasl", "--client", "--smtp", "--no-cb", "--no-starttls", "--connect", f"localhost:{port}"]
                    answer = ran([*words, "-m", mechanism, "-a", name, f"--password={password}"]).output
                    code = re.findall(r"^(235|535) ", answer, re.M)
                    equal(code, ["235" if (name, password) == ("alice", "wonder land") else "535"], name, password, answer)
    log = Path(folder, "postfix/log").read_text()
    equal(re.findall(r"SASL authentication failure: (SCRAM-SHA-\S+: refused.*)", log), [
        f"{mechanism}: refused, number 36: e=invalid-proof" for mechanism in SCRAMS for _ in range(2)
    ])


def keys_by_cyrus(folder: str) -> None:
    """Keys that Cyrus's own plug-in has made of a password, as README.md says, let in who has it."""
    if has("keys that Cyrus has made", "saslpasswd2"):
        for trial, mechanism in each(SCRAMS):
            with trial:
                own = fresh(folder)
                server = Server(own, options="scramotp_store: keys\n")
                settings = f"sasldb_path: {own}/store\nscram_secret_generate: yes\nmech_list: {mechanism}\n"
                Path(own, "saslpasswd.conf").write_text(settings)
                words = [needs.found("saslpasswd2"), "-p", "-n", "-c", "-u", "localhost", "alice"]
                equal(ran(words, "pencil", env={**os.environ, "SASL_CONF_PATH": own}), (0, "", ""))
                equal([server.login(mechanism, "alice", it)[0] for it in ("pencil", "pencils")], [OK, BADAUTH])


# ---- the same messages, three servers

# The client of the table in README.md: the password of each account, its nonce, and what it changes in its messages.
PASSWORDS = {"user": "pencil", "us,er=x": "p=w,d", "\u00fcser": "pencil"}
FIRST = "n,,n=user,r=the+client"


def with_other_bits(final: str) -> str:
    """A final message whose last two bits before the padding of the proof are not 0."""
    letters = "ABCDEFGHIJKLMNOPQRSTUVWXYZabcdefghijklmnopqrstuvwxyz0123456789+/"
    return f"{final[:-2]}{letters[letters.index(final[-2]) + 1]}="


def outcome(
    server: Server | GnuServer, first: str, change: Callable[[str], str], password: str = "pencil", plus: str = "", **changed: str
) -> str:
    """What a server does with a login whose client changes its final message: the words of the table in README.md."""
    result, challenge = server.begins(f"SCRAM-SHA-256{plus}", first)
    if result != CONTINUE:
        return "no, at once"
    final, verdict = answer_to("SCRAM-SHA-256", first, challenge.decode(), password.encode(), **changed)
    result, answer, *_ = server.goes_on(change(final))
    holds(result != OK or bytes.fromhex(answer).decode() == verdict, "the server's signature")
    return "in" if result == OK else "no"


def same(final: str) -> str:
    """A final message as it is."""
    return final


# The rows of the table: the first message, the change of the final one, and other changes as those of answer_to.
ROWS: dict[str, tuple[str, Callable[[str], str], dict[str, str]]] = {
    "the right proof": (FIRST, same, {}),
    "a wrong proof": (FIRST, same, {"password": "pencils"}),
    "a name without an account": ("n,,n=nobody,r=the+client", same, {}),
    "an optional extension, `x=1`, in each message": (f"{FIRST},x=1", same, {"more": ",x=1"}),
    "the flag `y`: it has channel binding, and the server has not": ("y,,n=user,r=the+client", same, {}),
    "the flag `p=tls-unique`: it wants channel binding": ("p=tls-unique,,n=user,r=the+client", same, {}),
    "the mechanism SCRAM-SHA-256-PLUS, without channel binding": (FIRST, same, {"plus": "-PLUS"}),
    "a mandatory extension, `m=1`, before its name": ("n,,m=1,n=user,r=the+client", same, {}),
    "the same after its nonce": (f"{FIRST},m=1", same, {}),
    "the same in the final message": (FIRST, same, {"more": ",m=1"}),
    "a word that is no extension, `junk`, after its nonce": (f"{FIRST},junk", same, {}),
    "the same in the final message, before the proof": (FIRST, same, {"more": ",junk"}),
    "an extension after the proof": (FIRST, lambda final: f"{final},x=1", {}),
    "an empty name to act as, `a=`": ("n,a=,n=user,r=the+client", same, {}),
    "a channel field that goes on after the header": (FIRST, same, {"channel": base64_of(b"n,,more")}),
    "a channel field of another header": (FIRST, same, {"channel": base64_of(b"y,,")}),
    "its own nonce instead of the challenge's": (FIRST, same, {"nonce": "the+client"}),
    "an empty nonce": ("n,,n=user,r=", same, {}),
    "a space in its nonce": ("n,,n=user,r=the client", same, {}),
    "a line end in its nonce": ("n,,n=user,r=the\nclient", same, {}),
    "a NUL after its nonce": (f"{FIRST}\0", same, {}),
    "a proof in base64 whose unused bits are not 0": (FIRST, with_other_bits, {}),
    "a nonce of 257 bytes": (f"n,,n=user,r={'x' * 257}", same, {}),
    "a name that is not in ASCII": ("n,,n=\u00fcser,r=the+client", same, {}),
}


def three(folder: str) -> list[Server | GnuServer]:
    """The plug-in, Cyrus's own and GNU SASL, each with the same accounts; or none where one of the others is missing, or another version
    than those of which README.md speaks."""
    said = PAGE
    try:
        servers = [Server(fresh(folder)), Server(fresh(folder), CYRUS / "libscram.so"), GnuServer(PASSWORDS)]
    except OSError:
        not_tested("the table of three servers, since libgsasl.so.18 is not installed")
        return []
    there = f"Cyrus SASL {servers[0].ask('version')[0]} and GNU SASL {servers[2].library.gsasl_check_version(None).decode()}"
    if there not in said or not (CYRUS / "libscram.so").exists():
        not_tested(f"the table of three servers, which speaks of others than {there}")
        return []
    for server, (name, password) in itertools.product(servers[:2], PASSWORDS.items()):
        server.store(name, "userPassword", password)
    return servers


def table(folder: str) -> None:
    """What each server does is what the table in README.md says, and each is wrong by the RFC as often as that says."""
    if servers := three(folder):
        found = {name: [outcome(it, first, change, **more) for it in servers] for name, (first, change, more) in ROWS.items()}
        lines = re.findall(r"^\| (.*) \| (.*) \| (.*) \| (.*) \| (.*) \|$", PAGE, re.M)
        said = {name: cells for name, *cells in lines if name in ROWS}
        equal({name: cells[:3] for name, cells in said.items()}, found)
        let_in = [sum(it[at] == "in" and it[3].startswith("no") for it in said.values()) for at in range(3)]
        kept_out = [sum(it[at] != "in" and it[3] == "in" for it in said.values()) for at in range(3)]
        equal((let_in, kept_out), ([1, 10, 7], [2, 0, 0]), "how often each is wrong by the RFC")


def recorded(folder: str) -> None:
    """The clients of sixteen recorded logins, of GNU SASL and of Cyrus: each server answers their first messages, byte for byte, and their
    final ones, with the nonce and the salt that it gave."""
    if servers := three(folder):
        for trial, row in each(rows_of(VECTORS / "exchanges.csv")):
            with trial:
                first, password = row["client_first"].replace("%25", "%"), row["password"]
                servers[2] = GnuServer({row["name"]: password})
                for server in servers:
                    if isinstance(server, Server):
                        server.store(row["name"], "userPassword", password)
                    result, challenge = server.begins(row["mechanism"], first)
                    equal(result, CONTINUE)
                    final, verdict = answer_to(row["mechanism"], first, challenge.decode(), row["client_password"].encode())
                    shape = re.compile(r"c=([^,]*),r=[^,]*,p=[^,]*")
                    equal(shape.fullmatch(final)[1], shape.fullmatch(row["client_final"])[1])
                    result, answer, *_ = server.goes_on(final)
                    equal((result == OK, row["final_due"][:2]), (row["tag"] == "ok", "OK" if row["tag"] == "ok" else "NO"))
                    holds(result != OK or bytes.fromhex(answer).decode() == verdict, "the server's signature")


if not ARCHIVES:
    not_tested("the plug-in for Cyrus SASL, since there is no archive of the library for C, which rt lib makes")
elif has("the plug-in for Cyrus SASL", "/usr/include/sasl/saslplug.h", str(CYRUS / "libsasldb.so")):
    suite.run_all()
