#!/usr/bin/env python3
"""Logs in at real mail servers whose logins `hosts/serve-dovecot-auth` judges, with real clients, and audits the logs.

Postfix, Exim and Dovecot serve on the loopback, over TLS, configured as docs/DOORS.md says. The journal of the door has to say the same as
the client, and Dovecot's own service the same as the door, but where docs/DOORS.md says that they differ. `needs.py --install` installs
these servers and clients; Exim, which can't be installed beside Postfix, it unpacks. What is missing is not tested, and said.
"""
import contextlib
import imaplib
import itertools
import os
import poplib
import re
import smtplib
import ssl
import subprocess
import sys
from base64 import b64decode, b64encode
from collections.abc import Callable, Iterator
from concurrent.futures import ThreadPoolExecutor
from pathlib import Path
from threading import Barrier

import suite
from blocks import Page, filled
from checks import equal, holds
from clients import USER, Account, book
from limits import limit
from mail_servers import Door, Server, door_of, dovecot_auth, free_port, listens, postfix
from needs import EXIM, OF_EXIM
from processes import Answer, Running, ran, until
from suite import PROGRAM, TOP, enrols, has, program_on_path, within

# Gives Exim a user that the machine has not.
WRAPPER = "/usr/lib/x86_64-linux-gnu/libnss_wrapper.so"
NAME, PASSWORD = "alice@example.org", "wonder land"
# Who she may act as, a name with the characters that SCRAM escapes, and who that one may act as.
OTHER, ODD, LIST = "bob@example.org", "x=y,z", "list=a,b"
SCRAMS = ["SCRAM-SHA-256", "SCRAM-SHA-1"]
BY_PASSWORD = ["PLAIN", "LOGIN"]
PAGE = Page("docs/DOORS.md")


def configuration(title: str, changes: dict[str, str]) -> str:
    """The block of a section of docs/DOORS.md, with these changes of paths and ports."""
    return filled(PAGE.block(title, ""), changes)


def certificate(folder: str) -> dict[str, Path]:
    """Makes a key and a certificate for localhost."""
    files = {name: Path(folder, name) for name in ["key.pem", "cert.pem"]}
    names = ["-subj", "/CN=localhost", "-addext", "subjectAltName=DNS:localhost,IP:127.0.0.1"]
    key = ["-newkey", "rsa:2048", "-nodes", "-keyout", files["key.pem"], "-out", files["cert.pem"]]
    equal(ran(["openssl", "req", "-x509", "-days", "2", *key, *names]).status, 0, "the certificate")
    return files


def book_of_users(folder: str) -> str:
    """A book with two users, each with keys for both mechanisms, and another name to act as."""
    path = Path(folder, "users.toml")
    for name, password in [(NAME, PASSWORD), (ODD, "comma")]:
        enrols(path, name, password)
    before, middle, after = path.read_text().split("act_as = []")
    return f'{before}act_as = ["{OTHER}"]{middle}act_as = ["{LIST}"]{after}'


@contextlib.contextmanager
def door_in(folder: str, accepted: int, *flags: str, text: str = "") -> Iterator[Door]:
    """A door over that book, or one with this text, for servers that run as other users."""
    os.chmod(folder, 0o711)
    with door_of(folder, text or book_of_users(folder), accepted, "--plain", "--mode", "666", *flags) as door:
        yield door


@contextlib.contextmanager
def process(words: list, port: int, log: Path, **how: object) -> Iterator[None]:
    """A server that runs in the foreground, from when it listens at a port until the end of the context."""
    with open(log, "ab") as output:
        run = subprocess.Popen(words, stdin=subprocess.DEVNULL, stdout=output, stderr=output, start_new_session=True, **how)
        try:
            until(lambda: run.poll() is not None or listens(port), "the server should listen")
            holds(run.poll() is None, "the server has ended", log.read_text())
            yield
        finally:
            run.terminate()
            run.wait(20)


def exim_words() -> tuple[list[str], dict[str, str]]:
    """How Exim is run: the installed one, or the unpacked one with its libraries and a user that the machine has not."""
    if Path("/usr/sbin/exim4").exists():
        return ["/usr/sbin/exim4"], {}
    libraries = ":".join(str(EXIM / "usr/lib" / name) for name in ["", "x86_64-linux-gnu"])
    users = {"PASSWD": "root:x:0:0::/:/bin/sh\nDebian-exim:x:65533:65533::/:/bin/sh\nnobody:x:65534:65534::/:/bin/sh\n"}
    users["GROUP"] = "root:x:0:\nDebian-exim:x:65533:\nnogroup:x:65534:\n"
    for name, text in users.items():
        (EXIM / name).write_text(text)
    preload = {"LD_LIBRARY_PATH": libraries, "LD_PRELOAD": WRAPPER}
    return [str(EXIM / "usr/sbin/exim4")], preload | {f"NSS_WRAPPER_{name}": str(EXIM / name) for name in users}


@contextlib.contextmanager
def exim(folder: str, name: str = "exim", door: str = "auth") -> Iterator[int]:
    """Exim, in a folder of this name, with the authenticators of the page for this door. Gives its port."""
    place, files, port = within(folder, name), certificate(folder), free_port()
    words, variables = exim_words()
    own = f"""keep_environment =
primary_hostname = localhost
exim_user = Debian-exim
exim_group = Debian-exim
spool_directory = {place}/spool
log_file_path = {place}/%slog
pid_file_path = {place}/pid
daemon_smtp_ports = {port}
local_interfaces = 127.0.0.1
disable_ipv6 = true
queue_only = true
rfc1413_hosts =
tls_advertise_hosts = *
tls_certificate = {files["cert.pem"]}
tls_privatekey = {files["key.pem"]}
acl_smtp_rcpt = rcpt
begin acl
rcpt:
  accept authenticated = *
  deny
begin routers
all:
  driver = accept
  transport = none
begin transports
none:
  driver = appendfile
  file = /dev/null
  user = nobody
begin authenticators
"""
    for name in ["key.pem", "cert.pem"]:
        files[name].chmod(0o644)
    place.chmod(0o777)
    (place / "conf").write_text(own + configuration("Exim", {"/run/scramotp/auth": f"{folder}/{door}"}))
    with process([*words, "-C", place / "conf", "-bdf"], port, place / "output", env={**os.environ, **variables}):
        yield port


# What Dovecot has besides the settings of the page: this, and what differs between its versions.
OF_DOVECOT = """base_dir = {0}/run
state_dir = {0}/state
log_path = {0}/log
listen = 127.0.0.1
ssl = required
first_valid_uid = 1
service imap-login {{
  inet_listener imap {{
    port = {1}
  }}
  inet_listener imaps {{
    port = 0
  }}
}}
service pop3-login {{
  inet_listener pop3 {{
    port = {2}
  }}
  inet_listener pop3s {{
    port = 0
  }}
}}
"""
OF_2_3 = """ssl_cert = <{0}/../cert.pem
ssl_key = <{0}/../key.pem
mail_location = maildir:~/mail
"""
OF_2_4 = """dovecot_config_version = 2.4.0
dovecot_storage_version = 2.4.0
ssl_server_cert_file = {0}/../cert.pem
ssl_server_key_file = {0}/../key.pem
mail_driver = maildir
mail_path = ~/mail
"""


@contextlib.contextmanager
def dovecot(folder: str, root: Path | None = None, door: str = "auth", more: str = "") -> Iterator[tuple[int, int]]:
    """Dovecot's servers of IMAP and POP3, with the settings of the page for this door, and more. Gives their ports. If a root is given,
    they are of version 2.4, and see of this machine what is there alone."""
    place, port, other = within(folder, "dovecot"), free_port(), free_port()
    certificate(folder)
    place.chmod(0o755)
    inside = as_in(root, folder)
    page = configuration("Dovecot", {"/run/scramotp/auth": f"{inside}/{door}", "/run/scramotp/master": f"{inside}/master"}) + more
    protocols = f"protocols = imap{' pop3' if root or Path(POP3).exists() else ''}\n"
    own = ((OF_2_4 if root else OF_2_3) + OF_DOVECOT).format(f"{inside}/dovecot", port, other)
    (place / "conf").write_text(own + protocols + page)
    words = ["/usr/sbin/dovecot", "-F", "-c", f"{inside}/dovecot/conf"]
    with process(["chroot", root, *words] if root else words, port, place / "output"):
        yield port, other


def as_in(root: Path | None, path: str | Path) -> str:
    """A path as it is for whoever sees only what is in a root, if there is one."""
    return f"/{Path(path).relative_to(root)}" if root else str(path)


def by_msmtp(folder: str, port: int, mechanism: str, name: str, password: str) -> Answer:
    """Sends a mail with msmtp."""
    words = ["timeout", "20", "msmtp", "--file=/dev/null", "--host=localhost", f"--port={port}"]
    words += ["--tls=on", f"--tls-trust-file={folder}/cert.pem"]
    words += [f"--auth={mechanism.lower()}", f"--user={name}", f"--passwordeval=printf %s '{password}'"]
    return ran([*words, "--from=alice@example.org", "bob@example.org"], "Subject: x\n\nx\n")


def by_gsasl(folder: str, port: int, mechanism: str, name: str, password: str, protocol: str = "smtp", act_as: str = "") -> Answer:
    """Logs in with gsasl, which leaves then."""
    words = ["timeout", "20", "gsasl", "--client", f"--{protocol}", "--connect", f"localhost:{port}"]
    words += ["--no-cb", f"--x509-ca-file={folder}/cert.pem"]
    words += [f"--authorization-id={act_as}"] if act_as else []
    return ran([*words, "-m", mechanism, "-a", name, f"--password={password}"])


def by_curl(folder: str, port: int, mechanism: str, name: str, password: str, protocol: str = "smtp", act_as: str = "") -> Answer:
    """Sends a mail, or lists mailboxes or mails, with curl."""
    words = ["timeout", "20", "curl", "--silent", "--ssl-reqd", "--cacert", f"{folder}/cert.pem", "--user", f"{name}:{password}"]
    words += ["--login-options", f"AUTH={mechanism}", f"{protocol}://localhost:{port}/"]
    if protocol == "smtp":
        words += ["--mail-from", "alice@example.org", "--mail-rcpt", "bob@example.org", "--upload-file", "-"]
    return ran([*words, *(["--sasl-authzid", act_as] if act_as else [])], "Subject: x\n\nx\n")


def by_swaks(folder: str, port: int, mechanism: str, name: str, password: str) -> Answer:
    """Sends a mail with swaks."""
    words = ["timeout", "20", "swaks", "--server", f"localhost:{port}", "--tls", "--tls-verify", "--tls-ca-path", f"{folder}/cert.pem"]
    words += ["--auth", mechanism, "--auth-user", name, "--auth-password", password]
    return ran([*words, "--from", "alice@example.org", "--to", "bob@example.org"])


def by_mbsync(folder: str, port: int, mechanism: str, name: str, password: str) -> Answer:
    """Fetches new mails into a folder for this user with mbsync."""
    fetched, settings = Path(folder, "fetched", name), Path(folder, "mbsyncrc")
    fetched.mkdir(parents=True, exist_ok=True)
    account = f'IMAPAccount a\nHost localhost\nPort {port}\nSSLType STARTTLS\nCertificateFile {folder}/cert.pem\nAuthMechs {mechanism}\n'
    account += f'User "{name}"\nPass "{password}"\n\nIMAPStore far\nAccount a\n\n'
    near = f"MaildirStore near\nInbox {fetched}/inbox\n\nChannel c\nFar :far:\nNear :near:\nPatterns INBOX\nCreate Near\nSyncState *\n"
    settings.write_text(account + near)
    return ran(["timeout", "20", "mbsync", "--config", settings, "c"])


def try_clients(folder: str, port: int, door: Door, clients: list) -> None:
    """Each of these clients logs in by each of its mechanisms, with the right password, a wrong one, and an unknown name. The client and
    the journal have to say the same."""
    people = [(NAME, PASSWORD, True), (NAME, "wonder lan", False), ("nobody@example.org", PASSWORD, False), (ODD, "comma", True)]
    # At the first fault the rest is not tried: the door would not outlive a row of `each`.
    for client, mechanism, (name, password, is_right) in [(it, by, who) for it, several in clients for by in several for who in people]:
        before = len(door.notes("login"))
        answer = client(folder, port, mechanism, name, password)
        equal(answer.status == 0, is_right, "whether the client is let in", client.__name__, mechanism, name, answer)
        until(lambda: len(door.notes("login")) > before, "the journal should have the login")
        line = door.notes("login")[before]
        quoted = f'"{name}"' if name == ODD else name
        due = f"outcome={'accepted' if is_right else 'refused'} mechanism={mechanism} name={quoted} "
        holds(due in line and "rip=127.0.0.1" in line, "the journal does not say so", due, line)


def smtp_answers(folder: str, port: int, door: Door, refused: int, gone: int) -> None:
    """What a client is told of a wrong password, of a response that is none, and while the door is gone. Once it is back, it is used."""
    context = ssl.create_default_context(cafile=f"{folder}/cert.pem")

    def told(initial: str) -> int:
        with smtplib.SMTP("localhost", port, timeout=20) as client:
            client.starttls(context=context)
            client.ehlo()
            return client.docmd("AUTH", f"PLAIN {initial}")[0]

    right, wrong = (b64encode(f"\0{NAME}\0{it}".encode()).decode() for it in [PASSWORD, "x"])
    equal([told(wrong), told("QUJD"), told(right)], [refused, refused, 235], "the answers")
    door.run.process.terminate()
    door.status()
    equal(told(right), gone, "the answer while the door is gone")
    door.start("--plain", "--mode", "666")
    equal(told(right), 235, "the answer once it is back")


def told(path: Path, *lines: str) -> str:
    """What a service says to these lines at once: the words of its first line without the login's number and a challenge, or that it
    closes the connection, or says nothing in three seconds."""
    server = Server(path)
    with contextlib.closing(server):
        server.connection.settimeout(3)
        try:
            server.send(*lines)
            line = server.lines.readline().decode()
        except TimeoutError:
            return "nothing"
        except ConnectionError:
            return "closed"
    word, _, *rest = line.strip().split("\t") if line else ("closed", "")
    return " ".join([word, *(rest if word != "CONT" else [])])


def differences_from_dovecot(folder: str) -> None:
    """The same lines to the door and to Dovecot's own auth service: most are answered alike. docs/DOORS.md has each difference, with its
    reason."""
    if not has("Dovecot's auth service", "dovecot", root=True):
        return
    hello, settings = [f"VERSION\t1\t0\nCPID\t{os.getpid()}"], "service=imap\tno-penalty"
    auth, refused = f"AUTH\t1\tSCRAM-SHA-256\t{settings}", "FAIL user=user"

    def first(message: bytes, mechanism: str = "SCRAM-SHA-256", more: str = "") -> list[str]:
        return [*hello, f"AUTH\t1\t{mechanism}\t{settings}{more}\tresp={b64encode(message).decode()}"]

    os.chmod(folder, 0o711)
    with Door(folder, book([USER]), "--plain").served() as door, dovecot_auth(within(folder, "dovecot"), USER) as other:
        for what, lines, ours, theirs in [
            ("a login without a first message", [*hello, auth], "CONT", "CONT"),
            ("an empty first message", [*hello, f"{auth}\tresp="], "CONT", "CONT"),
            ("a first message", first(b"n,,n=user,r=x"), "CONT", "CONT"),
            ("a first message by a client that knows channel binding", first(b"y,,n=user,r=x"), "CONT", "CONT"),
            ("no message", first(b"x"), "FAIL", "FAIL"),
            ("no version", [auth], "closed", "closed"),
            ("another version", ["VERSION\t2\t0"], "closed", "closed"),
            ("a login without a mechanism", [*hello, "AUTH\t1"], "closed", "closed"),
            ("a login without a number", [*hello, "AUTH\tx\tPLAIN"], "closed", "closed"),
            ("a line that is too long", [*hello, f"{auth}\tresp={'A' * 20000}"], "closed", "closed"),
            ("the end of a login that is not there", [*hello, "CANCEL\t5"], "nothing", "nothing"),
            ("a password", first(b"\0user\0password of user", "PLAIN", "\tsecured"), "OK user=user", "OK user=user"),
            ("a wrong password", first(b"\0user\0x", "PLAIN", "\tsecured"), refused, refused),
            ("a name to act as", first(b"root\0user\0password of user", "PLAIN", "\tsecured"), refused, refused),
            # These differ.
            ("a password on a connection that is not secured", first(b"\0user\0password of user", "PLAIN"), "FAIL", "OK user=user"),
            ("a name without an account", first(b"n,,n=nobody,r=x"), "CONT", "FAIL user=nobody"),
            ("a mechanism that is not offered", first(b"x", "X"), "FAIL", "closed"),
            ("a word that is not known", [*hello, "NEW\tx"], "nothing", "closed"),
            ("a response of no login", [*hello, "CONT\t5\tAAAA"], "nothing", "FAIL reason=Authentication request timed out"),
        ]:
            equal(told(door.socket, *lines), ours, "the door's answer to", what)
            equal(told(other, *lines), theirs, "Dovecot's answer to", what)


# In place of a response: the client's last message with a wrong proof.
WRONG = b"wrong proof"


def dialogue(path: Path, account: Account, mechanism: str, settings: str, first: bytes | None, responses: list[bytes]) -> list[str]:
    """What a service says in a login of IMAP with these settings, whose client sends a first message, if any, and these responses: each
    line without the login's number. A challenge of SCRAM is answered with the proof that it needs, and the server's last message has to be
    that of RFC 5802, which is shown as SIGNED."""
    found, signature, left = [], "none", [*responses]
    with Server(path) as server:
        server.auth(1, mechanism, first, f"service=imap\tno-penalty\tsecured{settings}")
        while (words := server.line().split("\t"))[0] == "CONT":
            said, response = b64decode(words[2]).decode(), left.pop(0)
            if said.startswith("r="):
                it = account.answers(said)
                signature, response = it.signature, (it.wrong_final if response == WRONG else it.final).encode()
            found.append("CONT " + said.split("r=")[0].replace(signature, "SIGNED"))
            server.respond(1, response)
    signed = b64encode(f"v={signature}".encode()).decode()
    return [*found, " ".join([words[0], *words[2:]]).replace(signed, "SIGNED")]


def whole_logins_as_dovecot(folder: str) -> None:
    """Whole logins at the door and at Dovecot's own auth service, which both say the same at each step, up to the end."""
    if not has("whole logins at Dovecot's auth service", "dovecot", root=True):
        return
    right, wrong = b"password of user", b"x"
    first, ask_both = USER.first.encode(), ["CONT Username:", "CONT Password:"]
    accepted, refused = ["OK user=user"], ["FAIL user=user"]
    os.chmod(folder, 0o711)
    with Door(folder, book([USER]), "--plain").served() as door, dovecot_auth(within(folder, "dovecot"), USER) as other:
        for mechanism, settings, message, responses, due in [
            ("SCRAM-SHA-256", "", first, [b"", b""], ["CONT ", "CONT v=SIGNED", *accepted]),
            ("SCRAM-SHA-256", "", None, [first, b"", b""], ["CONT ", "CONT ", "CONT v=SIGNED", *accepted]),
            ("SCRAM-SHA-256", "\tfinal-resp-ok", first, [b""], ["CONT ", "OK user=user resp=SIGNED"]),
            ("SCRAM-SHA-256", "", first, [WRONG], ["CONT ", *refused]),
            ("SCRAM-SHA-256", "\tfinal-resp-ok", first, [WRONG], ["CONT ", *refused]),
            ("PLAIN", "", None, [b"\0user\0" + right], ["CONT ", *accepted]),
            ("PLAIN", "", None, [b"\0user\0" + wrong], ["CONT ", *refused]),
            ("LOGIN", "", None, [b"user", right], [*ask_both, *accepted]),
            ("LOGIN", "", None, [b"user", wrong], [*ask_both, *refused]),
            ("LOGIN", "", b"user", [right], [*ask_both[1:], *accepted]),
        ]:
            for path in door.socket, other:
                equal(dialogue(path, USER, mechanism, settings, message, responses), due, "what is said by", path, mechanism, responses)


OF_SMTP = [(by_msmtp, SCRAMS + BY_PASSWORD), (by_gsasl, SCRAMS + ["PLAIN"]), (by_curl, BY_PASSWORD), (by_swaks, BY_PASSWORD)]
CLIENTS = ["openssl", "gsasl", "curl", "msmtp", "swaks"]
POP3 = "/usr/lib/dovecot/pop3-login"


def postfix_settings(folder: str) -> str:
    """The settings of the page for Postfix, with TLS and the door in this folder."""
    files = certificate(folder)
    tls = f"smtpd_tls_security_level = may\nsmtpd_tls_chain_files = {files['key.pem']}, {files['cert.pem']}\n"
    return tls + configuration("Postfix", {"scramotp/auth": f"{folder}/auth"})


def logins_at_postfix(folder: str) -> None:
    """Postfix."""
    if has("Postfix", "postfix", *CLIENTS, root=True):
        with door_in(folder, 24) as door, postfix(folder, postfix_settings(folder)) as port:
            try_clients(folder, port, door, OF_SMTP)
            smtp_answers(folder, port, door, 535, 454)


def logs_in(port: int, account: Account, together: Barrier, challenged: Callable[[], None]) -> int:
    """The last answer to a login by SCRAM on a connection of its own, which begins once all others are connected, and tells that it has its
    challenge."""
    with smtplib.SMTP("localhost", port, timeout=limit(60)) as client:
        client.ehlo()
        together.wait(limit(60))
        status, challenge = client.docmd("AUTH", f"{account.mechanism} {b64encode(account.first.encode()).decode()}")
        if status != 334:
            return status
        challenged()
        it = account.answers(b64decode(challenge).decode())
        status, signature = client.docmd(b64encode(it.final.encode()).decode())
        if status != 334:
            return status
        equal(b64decode(signature).decode(), f"v={it.signature}", "the server's last message")
        return client.docmd("")[0]


def many_at_postfix(folder: str) -> None:
    """Two hundred users log in at Postfix, a hundred at a time, while the log changes twice, in the middle of a login. None is refused."""
    if not has("many logins at Postfix", "postfix", "openssl", root=True):
        return
    os.chmod(folder, 0o711)
    door = Door(folder, book([USER]), "--mode", "666", "--idle", "30", "--grace", "30")
    settings, together, number = postfix_settings(folder) + "default_process_limit = 150\n", Barrier(100), itertools.count(1)

    def challenged() -> None:
        if next(number) in (40, 140):
            door.renews()

    with postfix(folder, settings) as port, ThreadPoolExecutor(100) as pool:
        logins = [pool.submit(logs_in, port, USER, together, challenged) for _ in range(200)]
        equal([it.result() for it in logins], [235] * 200, "the answers")
    door.ends(200)
    equal((door.outcomes(), len(door.audits())), (["accepted"] * 200, 3), "the outcomes, and the number of logs")
    holds(min(door.audits()[:2]) >= 40, "the first two logs have too few logins", door.audits())


def has_exim(what: str, *needed: str) -> bool:
    """Whether Exim is installed or unpacked, and the rest is there."""
    if Path("/usr/sbin/exim4").exists():
        return has(what, *needed, root=True)
    if (EXIM / "usr/sbin/exim4").exists():
        return has(what, *needed, WRAPPER, root=True)
    suite.not_tested(f"{what}, since Exim is neither installed nor unpacked (tests/needs.py --install, or apt-get install {OF_EXIM[0]})")
    return False


def logins_at_exim(folder: str) -> None:
    """Exim."""
    if has_exim("Exim", *CLIENTS):
        with door_in(folder, 24) as door, exim(folder) as port:
            try_clients(folder, port, door, OF_SMTP)
            smtp_answers(folder, port, door, 535, 435)


def over(protocol: str, by: Callable[..., Answer]) -> Callable[..., Answer]:
    """A client that speaks this protocol."""
    def client(*given: object) -> Answer:
        return by(*given, protocol=protocol)

    client.__name__ = f"{by.__name__} over {protocol}"
    return client


OF_IMAP = [(over("imap", by_gsasl), SCRAMS + ["PLAIN"]), (over("imap", by_curl), BY_PASSWORD)]


@contextlib.contextmanager
def mailboxes(folder: str, accepted: int, root: Path | None = None) -> Iterator[tuple[Door, Path, int, int]]:
    """Dovecot over a door, if a root is given the one there. Gives that, the folder in which each user has one, and the ports of IMAP and
    POP3."""
    homes = within(folder, "homes")
    homes.chmod(0o777)
    userdb = f"uid=65534 gid=65534 home={as_in(root, homes)}/%u"
    with door_in(folder, accepted, "--master", f"{folder}/master", "--userdb", userdb) as door, dovecot(folder, root) as (imap, pop3):
        yield door, homes, imap, pop3


def logins_at_dovecot(folder: str) -> None:
    """Dovecot's IMAP server: a user who is let in has a mailbox in the folder that the door names."""
    if has("Dovecot", "dovecot", "/usr/lib/dovecot/imap-login", *CLIENTS[:3], root=True):
        with mailboxes(folder, 10) as (door, homes, port, _):
            try_clients(folder, port, door, OF_IMAP)
        holds((homes / NAME / "mail").is_dir(), "the mailbox is not where it should be", [*homes.rglob("*")])


def imap_answers(folder: str) -> None:
    """What Dovecot tells a client of a wrong password, and, as long as the door has no verdict, of one that is right: that it should try
    again later (RFC 5530), also if the hall is killed or the door is ended in the middle of a login."""
    if not has("Dovecot's answers", "dovecot", "/usr/lib/dovecot/imap-login", "openssl"):
        return
    wrong, later = "[AUTHENTICATIONFAILED] ", "[UNAVAILABLE] "
    with door_and_dovecot(folder, "limited") as (door, port, _):
        for password, due in ("x", wrong), ("x", wrong), (PASSWORD, later):
            answer = told_by_imap(door, port, "PLAIN", [f"\0{NAME}\0{password}"])
            holds(answer.startswith(due), "another answer is due", due, answer, password)
        door.ends(0)
    for name, does, status in ("killed", Door.kills_hall, 1), ("ended", lambda door: door.run.process.terminate(), 0):
        with door_and_dovecot(folder, name) as (door, port, _):
            def ends() -> None:
                does(door)
                equal(door.status(), status, "the status of the door")

            answer = told_by_imap(door, port, "SCRAM-SHA-256", [f"n,,n={NAME},r=x", ""], ends)
            holds(answer.startswith(later), "another answer is due", later, answer, name)


@contextlib.contextmanager
def door_and_dovecot(folder: str, name: str) -> Iterator[tuple[Door, int, int]]:
    """A door in a folder of this name, which hears an address no more after two refused logins, and Dovecot over it. Gives its ports of
    IMAP and POP3."""
    place = within(folder, name)
    for it in folder, place:
        os.chmod(it, 0o711)
    userdb = f"uid=65534 gid=65534 home={place}/home"
    flags = ["--plain", "--mode", "666", "--master", f"{place}/master", "--userdb", userdb, "--guesses", "1"]
    door = Door(place, book_of_users(str(place)), *flags)
    with dovecot(str(place)) as (imap, pop3):
        yield door, imap, pop3


def told_by_imap(door: Door, port: int, mechanism: str, messages: list[str], before_the_last: Callable[[], None] = lambda: None) -> str:
    """What an IMAP server says at the end of a login that it refuses. The client sends these messages, and does this before the last."""
    left = [it.encode() for it in messages]

    def message(_: bytes) -> bytes:
        if len(left) == 1:
            before_the_last()
        return left.pop(0)

    client = imaplib.IMAP4("localhost", port, timeout=20)
    try:
        client.starttls(ssl.create_default_context(cafile=f"{door.folder}/cert.pem"))
        return str(client.authenticate(mechanism, message))
    except client.error as fault:
        return str(fault)
    finally:
        client.shutdown()  # without LOGOUT, to which Dovecot does not answer while there is no door


def few_rounds(folder: str) -> str:
    """A book whose account has a count of 4095, less than RFC 5802, section 5.1, asks for."""
    path = Path(folder, "users.toml")
    enrols(path, NAME, PASSWORD, "--count=4095")
    return path.read_text()


FIRST = f"n,,n={NAME},r=x".encode()
OF_PASSWORD = f"\0{NAME}\0{PASSWORD}".encode()


def has_low_count(challenge: bytes) -> None:
    """Checks that a client would find the count of a challenge too low."""
    equal(challenge.decode().split(",")[2], "i=4095", "the count")


def gave_up(door: Door, outcome: str) -> None:
    """Checks what the journal says of a client that has given up."""
    until(lambda: door.notes("login"), "the journal should have the login")
    due = f"event=login outcome={outcome} mechanism=SCRAM-SHA-256 name={NAME} "
    holds(due in door.notes("login")[0], "the journal does not say so", due, door.notes("login"))


def gives_up_by_smtp(folder: str, port: int, door: Door, outcome: str) -> None:
    """A client that finds the count too low gives up by `*`, as RFC 4954, section 4, has it. It can then log in by another mechanism."""
    with smtplib.SMTP("localhost", port, timeout=20) as client:
        client.starttls(context=ssl.create_default_context(cafile=f"{folder}/cert.pem"))
        client.ehlo()
        has_low_count(b64decode(client.docmd("AUTH", f"SCRAM-SHA-256 {b64encode(FIRST).decode()}")[1]))
        equal(client.docmd("*")[0], 501, "what the client is told")
        gave_up(door, outcome)
        equal(client.docmd("AUTH", f"PLAIN {b64encode(OF_PASSWORD).decode()}")[0], 235, "a login after that")


def low_count_at_postfix(folder: str) -> None:
    """Postfix does not say to the door that a client has given up, so the login takes too long."""
    if has("a low count at Postfix", "postfix", "openssl", root=True):
        with door_in(folder, 1, "--patience", "1", text=few_rounds(folder)) as door, postfix(folder, postfix_settings(folder)) as port:
            gives_up_by_smtp(folder, port, door, "late")


def low_count_at_exim(folder: str) -> None:
    """Exim says at once that a client has given up."""
    if has_exim("a low count at Exim", "openssl"):
        with door_in(folder, 1, text=few_rounds(folder)) as door, exim(folder) as port:
            gives_up_by_smtp(folder, port, door, "abandoned")


def low_count_at_dovecot(folder: str) -> None:
    """Dovecot says at once that a client has given up, which RFC 3501, section 6.2.2, does by `*` too."""
    if not has("a low count at Dovecot", "dovecot", "/usr/lib/dovecot/imap-login", "openssl", root=True):
        return
    flags = ["--master", f"{folder}/master", "--userdb", f"uid=65534 gid=65534 home={folder}/home"]
    with door_in(folder, 1, *flags, text=few_rounds(folder)) as door, dovecot(folder) as (port, _):
        Path(folder, "home").mkdir()
        os.chown(Path(folder, "home"), 65534, 65534)
        with imaplib.IMAP4("localhost", port, timeout=20) as client:
            client.starttls(ssl.create_default_context(cafile=f"{folder}/cert.pem"))
            heard: list[bytes] = []
            try:
                client.authenticate("SCRAM-SHA-256", lambda challenge: heard.append(challenge) or [FIRST, None][len(heard) - 1])
                holds(False, "the login succeeds")
            except client.error as fault:
                holds("BAD [b'Authentication aborted" in str(fault), "what the client is told", fault)
            has_low_count(heard[1])
            gave_up(door, "abandoned")
            equal(client.authenticate("PLAIN", lambda _: OF_PASSWORD)[0], "OK", "a login after that")


def logins_by_pop3(folder: str) -> None:
    """Dovecot's POP3 server."""
    if has("Dovecot's POP3", "dovecot", POP3, "openssl", "curl", root=True):
        with mailboxes(folder, 4) as (door, _, _, port):
            try_clients(folder, port, door, [(over("pop3", by_curl), BY_PASSWORD)])


def pop3_answers(folder: str) -> None:
    """What Dovecot tells a client of POP3 of a wrong password, and, while the door does not hear its address, of one that is right: that it
    should try again later (RFC 3206)."""
    if not has("Dovecot's answers by POP3", "dovecot", POP3, "openssl", root=True):
        return
    with door_and_dovecot(folder, "limited") as (door, _, port):
        context = ssl.create_default_context(cafile=f"{door.folder}/cert.pem")
        for password, due in ("x", "-ERR [AUTH] "), ("x", "-ERR [AUTH] "), (PASSWORD, "-ERR [SYS/TEMP] "):
            client = poplib.POP3("localhost", port, timeout=20)
            try:
                client.stls(context)
                client.user(NAME)
                client.pass_(password)
                holds(False, "the login succeeds", password)
            except poplib.error_proto as fault:
                holds(fault.args[0].decode().startswith(due), "another answer is due", due, fault, password)
            finally:
                client.close()
        door.ends(0)


def mails_by_imap(folder: str) -> None:
    """mbsync logs in and fetches a mail from the user's own mailbox."""
    if has("mbsync", "dovecot", "/usr/lib/dovecot/imap-login", "openssl", "mbsync", root=True):
        with mailboxes(folder, 6) as (door, homes, port, _):
            new = homes / NAME / "mail/new"
            for place in [*reversed(new.parents[:3]), new, new.with_name("cur"), new.with_name("tmp")]:
                place.mkdir(exist_ok=True)
                os.chown(place, 65534, 65534)
            (new / "1.here").write_text("Subject: of Alice\n\nHere.\n")
            (new / "1.here").chmod(0o644)
            try_clients(folder, port, door, [(by_mbsync, SCRAMS + ["PLAIN"])])
        found = [path.read_text() for path in Path(folder, "fetched", NAME).rglob("*") if path.is_file()]
        equal(sum("Subject: of Alice" in text for text in found), 1, "the mails that were fetched", found)


def root_with_dovecot(folder: str) -> Path | None:
    """A folder with the programs of Debian 13, and so with Dovecot 2.4; or None, if it can't be made here, and then the script says so."""
    what, root = "Dovecot 2.4", Path(folder, "root")
    if os.environ.get("FRESH") != "yes":
        return suite.not_tested(f"{what}, which takes FRESH=yes, as make test-all sets it")
    if not has(what, "mmdebstrap", *CLIENTS[:3], root=True):
        return None
    os.chmod(folder, 0o755)
    # What is mounted below the folder is gone with the process.
    words = ["unshare", "--mount", "mmdebstrap", "--quiet", "--variant=extract", "--include=dovecot-imapd,dovecot-pop3d", "trixie", root]
    made = subprocess.run(words, stdin=subprocess.DEVNULL, capture_output=True, text=True, timeout=limit(300))
    if made.returncode:
        return suite.not_tested(f"{what}: {' '.join(made.stderr.split())[-200:]}")
    for name in "bin", "lib", "lib64", "sbin":
        (root / name).symlink_to(f"usr/{name}")
    users = {"root": 0, "dovecot": 101, "dovenull": 102, "nobody": 65534}
    (root / "etc/passwd").write_text("".join(f"{name}:x:{it}:{it}::/:/bin/sh\n" for name, it in users.items()))
    (root / "etc/group").write_text("".join(f"{name}:x:{it}:\n" for name, it in users.items()))
    return root


def logins_at_dovecot_2_4(folder: str) -> None:
    """The next version of Dovecot, with the same settings, if Debian's programs can be fetched."""
    if root := root_with_dovecot(folder):
        here = str(within(root, "here"))
        with mailboxes(here, 14, root) as (door, homes, imap, pop3):
            try_clients(here, imap, door, OF_IMAP)
            try_clients(here, pop3, door, [(over("pop3", by_curl), BY_PASSWORD)])
            services = re.findall(" service=([a-z0-9]+) ", "".join(door.notes("login")))
            equal(sorted({*services}), ["imap", "pop3"], "the services in the journal")
        holds((homes / NAME / "mail").is_dir(), "the mailbox is not where it should be", [*homes.rglob("*")])


# Who logs in, by which password, and as whom; whether the book allows that, and how a first message of SCRAM has both names.
ACTORS = [
    (NAME, PASSWORD, OTHER, True, "a=bob@example.org,n=alice@example.org,"),
    (NAME, PASSWORD, "root", False, "a=root,n=alice@example.org,"),
    (ODD, "comma", LIST, True, "a=list=3Da=2Cb,n=x=3Dy=2Cz,"),
    (ODD, "comma", OTHER, False, "a=bob@example.org,n=x=3Dy=2Cz,"),
]


def act_as_others(folder: str, port: int, door: Door, log: str, pattern: str, protocol: str = "smtp") -> None:
    """Users act as others at a server, if the book says that they may. The journal and the log of the hall have both names, and the
    server's log, in which this pattern finds names, has the other one alone."""
    ways = [*((by_gsasl, it) for it in [*SCRAMS, "PLAIN"]), (by_curl, "PLAIN")]
    for by, mechanism, (name, password, act_as, may, _) in [(*way, actor) for way in ways for actor in ACTORS]:
        before = len(door.notes("login"))
        answer = by(folder, port, mechanism, name, password, protocol, act_as)
        equal(answer.status == 0, may, "whether the client is let in", by.__name__, mechanism, act_as, answer)
        until(lambda: len(door.notes("login")) > before, "the journal should have the login")
        names = [f'"{it}"' if "=" in it else it for it in (name, act_as)]
        due = f"outcome={'accepted' if may else 'refused'} mechanism={mechanism} name={names[0]} " + f"act_as={names[1]} " * may
        holds(due in door.notes("login")[before], "the journal does not say so", due, door.notes("login")[before])
    logged = "".join(it.read_text() for it in door.logs.glob("*.log"))
    equal([logged.count(message) for *_, message in ACTORS], [len(ways)] * len(ACTORS), "the messages in the log of the hall", logged)
    until(lambda: {*re.findall(pattern, Path(folder, log).read_text())} == {OTHER, LIST}, f"{log} should have the other names alone")


# The words at the end of the block that starts two doors: they end once their input does.
ENDED = "set -- $(jobs -p); read -r; kill $1 $2; wait $1; first=$?; wait $2; exit $((first + $?))"
# The books of these two doors, each with its only account.
BOOKS = {"com": (NAME, PASSWORD), "org": (OTHER, "builder")}


@contextlib.contextmanager
def two_doors(folder: str, more: str = "") -> Iterator[None]:
    """The doors that the page starts over two books, with more flags, in which `@` is the name of the door. At the end each has let its own
    user in once, by a log that is clean."""
    os.chmod(folder, 0o711)
    certificate(folder)
    Path(folder, "hosts").symlink_to(TOP / "hosts")
    for book_name, (name, password) in BOOKS.items():
        enrols(f"{folder}/{book_name}.toml", name, password)
    block = filled(PAGE.block("Several books"), {"--mode 660": "--mode 666 --delay 0.05 @"})
    for it in BOOKS:
        block = block.replace("@", more.replace("@", it), 1)
    run = Running(["bash", "-c", block + ENDED], cwd=folder, env=program_on_path(folder))
    until(lambda: run.process.poll() is not None or all(Path(folder, it).exists() for it in BOOKS), "two doors should serve")
    yield
    run.send("\n")
    status, _, journal = run.end()
    equal(status, 0, "the statuses of the doors", journal)
    for book_name, (name, _) in BOOKS.items():
        [log] = Path(folder, f"{book_name}.logs").glob("*.log")
        suite.audit_says(f"{log}.toml", log, "clean sessions=3 accepted=1 codes=0")
        found = re.findall(rf"outcome=(\w+) mechanism=PLAIN name=(\S+) log={re.escape(str(log))} ", journal)
        equal(found.count(("accepted", name)), 1, "who was let in by", book_name, journal)


def asks_two_doors(folder: str, ports: dict[str, int], by: Callable[..., Answer] = by_curl) -> None:
    """At the port of each book its own user is let in, with the right password alone, and the other one is not."""
    for at, who in [(at, who) for at in BOOKS for who in BOOKS]:
        name, password = BOOKS[who]
        for given in [password, "another"] if at == who else [password]:
            answer = by(folder, ports[at], "PLAIN", name, given)
            equal(answer.status == 0, at == who and given == password, "whether the client is let in", at, name, given, answer)


def two_books_at_postfix(folder: str) -> None:
    """Two services of Postfix ask two doors, each over a book of its own."""
    if has("two books at Postfix", "postfix", "openssl", "curl", root=True):
        with two_doors(folder):
            settings = postfix_settings(folder).replace(f"{folder}/auth", f"{folder}/com")
            port = free_port()
            second = f"127.0.0.1:{port} inet n - n - - smtpd -o smtpd_sasl_path={folder}/org\n"
            with postfix(folder, settings, second) as first:
                asks_two_doors(folder, {"com": first, "org": port})


def two_books_at_exim(folder: str) -> None:
    """Two daemons of Exim ask two doors, each over a book of its own."""
    if has_exim("two books at Exim", "openssl", "curl"):
        with two_doors(folder), exim(folder, "one", "com") as com, exim(folder, "two", "org") as org:
            asks_two_doors(folder, {"com": com, "org": org})


def two_books_at_dovecot(folder: str) -> None:
    """Two services of Dovecot ask two doors, each over a book of its own."""
    if not has("two books at Dovecot", "dovecot", "/usr/lib/dovecot/imap-login", "openssl", "curl", root=True):
        return
    port = free_port()
    login, mailbox = re.findall(r"`(executable = [^`]*)`", PAGE.sections["Several books"].replace("\n ", ""))
    second = f"""service imap-login-org {{
  {login}
  chroot =
  protocol = imap
  type = login
  service_count = 1
  user = $default_login_user
  inet_listener imap-org {{
    port = {port}
  }}
}}
service imap-org {{
  {mailbox}
  protocol = imap
  service_count = 1
  unix_listener login/imap-org {{
    mode = 0666
  }}
}}
""".replace("/run/scramotp", folder)
    with two_doors(folder, f"--master @.master --userdb 'uid=65534 gid=65534 home={folder}/@.home'"):
        Path(folder, "master").symlink_to("com.master")
        with dovecot(folder, door="com", more=second) as (first, _):
            asks_two_doors(folder, {"com": first, "org": port}, over("imap", by_curl))


def others_at_postfix(folder: str) -> None:
    """Users act as others at Postfix."""
    if has("a login as another at Postfix", "postfix", *CLIENTS[:3], root=True):
        with door_in(folder, 8) as door, postfix(folder, postfix_settings(folder)) as port:
            act_as_others(folder, port, door, "postfix/log", "sasl_method=PLAIN, sasl_username=(.*)")


def others_at_exim(folder: str) -> None:
    """Users act as others at Exim."""
    if has_exim("a login as another at Exim", *CLIENTS[:3]):
        with door_in(folder, 8) as door, exim(folder) as port:
            act_as_others(folder, port, door, "exim/mainlog", " A=scramotp_plain:(.*) S=")


def others_at_dovecot(folder: str) -> None:
    """Users act as others at Dovecot. Each other one has a mailbox."""
    if has("a login as another at Dovecot", "dovecot", "/usr/lib/dovecot/imap-login", *CLIENTS[:3], root=True):
        with mailboxes(folder, 8) as (door, homes, port, _):
            act_as_others(folder, port, door, "dovecot/log", "Login: user=<(.*)>, method=PLAIN,", "imap")
        equal(sorted(it.name for it in homes.iterdir()), [OTHER, LIST], "who has a mailbox")


def packages_that_are_missing(folder: str) -> None:
    """A script that finds no mbsync says what it does not test, and the packages that have it."""
    answer = ran([sys.executable, "-B", __file__, PROGRAM, "mails_by_imap"], env={**os.environ, "PATH": folder})
    line = answer.faults.splitlines()[0]
    holds(line.startswith("doors.py: not tested: mbsync, since "), "it does not say what is not tested", line)
    holds("mbsync is not installed (apt-get install isync libsasl2-modules)" in line, "it does not say so", line)


suite.run_all()
