#!/usr/bin/env python3
"""Runs the units of hosts/units, as the package for Debian installs them, by a real systemd, and what docs/DOORS.md types for each server.

It is that of a machine of the test's own, which booted.py makes of this one: so root has to run this, where systemd and dpkg-deb are
installed, and namespaces can be made.
"""
import base64
import re
import shlex
import shutil
import time
from pathlib import Path

import suite
from blocks import Page
from booted import Machine, booted
from checks import equal, holds
from clients import USER, book
from expected import code
from mail_servers import Server
from needs import PACKAGES
from processes import ran, until
from suite import has

NAME = "scramotp-dovecot-auth"
PAGE = Page("docs/DOORS.md")
# How the program is started that a machine needs.
NEEDED = ["dpkg-deb", "ip", "nsenter", "unshare", "/lib/systemd/systemd"]


def can_boot(what: str) -> bool:
    """Whether this machine can make another one. If not, the script says what it does not test, and why."""
    if not has(what, *NEEDED, root=True):
        return False
    answer = ran(["unshare", "--mount", "--pid", "--fork", "--net", "mount", "-t", "tmpfs", "none", "/mnt"])
    if answer.status:
        suite.not_tested(f"{what}, since namespaces can't be made")
    return not answer.status


def logs_in(machine: Machine) -> str:
    """The last line of a login at the unit's socket; nothing if the service goes away."""
    with Server(machine.path("/run/scramotp/auth")) as server:
        server.begin(1, USER)
        return server.goes_on(1, USER)


def a_unit_at_work(folder: str) -> None:
    """The unit serves at its socket, which has the group that the unit names. It has a new log after a reload, begins again after its hall
    is killed, and ends with clean logs. The service sees no network. An operator's command finds its second socket."""
    if not can_boot("the units by a systemd that runs"):
        return
    with booted(folder) as machine:
        machine.does("useradd --system --user-group scramotp; install -d -m 0700 -o scramotp -g scramotp /var/lib/scramotp")
        machine.does("install -o scramotp -g scramotp -m 600 /dev/stdin /var/lib/scramotp/book.toml", book([USER]))
        machine.does(f"systemctl enable --now {NAME}.socket {NAME}.service")
        equal(machine.does("stat -c '%a %U %G' /run/scramotp /run/scramotp/auth"), "755 root root\n660 root mail\n", "the rights")
        equal(logs_in(machine), "OK\t1\tuser=user", "a login")
        networks = machine.does(f"readlink /proc/self/ns/net /proc/$(systemctl show --value -p MainPID {NAME})/ns/net").split()
        holds(networks[0] != networks[1], "the service has the machine's network", networks)
        machine.does(f"systemctl reload {NAME}")
        until(lambda: len(logs_of(machine)) == 2, "a new log should begin")
        told = machine.does("runuser -u scramotp -- /usr/share/scramotp/scramotp-host ctl unlock user")
        equal(told, "unlocked user\n", "what the operator is told")
        until(lambda: not machine.runs("pkill --signal KILL --full 'scramotp hall'").status, "the next hall should run, and be killed")
        until(lambda: len(logs_of(machine)) == 4, "the service should begin again")
        equal(logs_in(machine), "OK\t1\tuser=user", "a login after that")
        machine.does(f"systemctl stop {NAME}.socket {NAME}.service")
        answers = [machine.does(f"scramotp audit --book {log}.toml --log {log}") for log in logs_of(machine)]
        due = [f"clean sessions={count} accepted={count} codes=0\n" for count in (1, 0, 0, 1)]
        equal(answers, due, "the audits")
        notes = machine.does(f"journalctl --unit {NAME} --output cat")
        equal(notes.count("event=login outcome=accepted"), 2, "the logins in the journal", notes)


def typed(title: str) -> str:
    """The commands of a section of the page, but for the installation of what is installed here. The lines that an editor is to add are
    those of the section's other block, and the one that the comment names."""
    def added(found: re.Match[str]) -> str:
        lines = PAGE.block(title, "") + (found[2] + "\n" if found[2] else "")
        return f"cat >>{found[1]} <<'END'\n{lines}END"

    script = re.sub(r"^editor (\S+) +# add the lines above(?:, at its end|, and: (.*))?$", added, PAGE.block(title), flags=re.M)
    return re.sub(r"^apt install .*\n", "", script, flags=re.M)


def in_ten_minutes(folder: str, script: str, shown: list[str], before: str, after: str = "", packages: Path | None = None) -> None:
    """What the page types for a server ends with these texts of a client, one for each login, a login in the journal, and a log that is
    clean. It is typed after commands that do what the server's package does where systemd runs, in the folder of its packages if it is not
    installed here, and before others that look at what has come of it."""
    with booted(folder) as machine:
        if packages:
            shutil.copytree(packages, machine.path("/srv/packages"))
        machine.does(before)
        output = machine.does(typed("In ten minutes") + script + after, "correct horse\n")
        equal(re.findall("|".join(map(re.escape, shown)), output), shown, "what clients show", output)
        machine.does(f"systemctl reload {NAME}")
        until(lambda: "event=audit" in notes_of(machine), "the log should be audited")
        holds("outcome=accepted mechanism=PLAIN name=user " in notes_of(machine), "the journal has no login", notes_of(machine))
        counts = re.findall(r'answer="clean sessions=(\d+) accepted=(\d+) codes=0"', notes_of(machine))
        equal(sum(int(accepted) for _, accepted in counts), len(shown), "the logins in clean logs", notes_of(machine))


def notes_of(machine: Machine) -> str:
    """The journal of the door."""
    return machine.does(f"journalctl --unit {NAME} --output cat")


# Makes the certificate that Debian's package ssl-cert makes.
SNAKEOIL = """key=/etc/ssl/private/ssl-cert-snakeoil.key
openssl req -x509 -days 2 -newkey rsa:2048 -nodes -subj /CN=localhost -keyout $key -out /etc/ssl/certs/ssl-cert-snakeoil.pem 2>/dev/null
"""
# What the packages of Postfix and of Dovecot do with it, and their start.
POSTFIX = f"""{SNAKEOIL}postconf -e smtpd_tls_cert_file=/etc/ssl/certs/ssl-cert-snakeoil.pem smtpd_tls_key_file=$key
postconf -e smtpd_tls_security_level=may; systemctl start postfix
"""
DOVECOT = f"""{SNAKEOIL}cp /etc/ssl/certs/ssl-cert-snakeoil.pem /etc/dovecot/private/dovecot.pem; cp $key /etc/dovecot/private/dovecot.key
systemctl start dovecot
"""
DOVECOT_NEEDS = ["dovecot", "/usr/lib/dovecot/imap-login", "curl", "openssl"]
# What swaks and curl show of a login that is accepted.
LET_IN = "<~  235 "
MAILBOX = "INBOX"


def postfix_in_ten_minutes(folder: str) -> None:
    """What the page types for Postfix ends with a login."""
    if can_boot("Postfix in ten minutes") and has("Postfix in ten minutes", "postfix", "swaks", "openssl"):
        in_ten_minutes(folder, typed("Postfix"), [LET_IN], POSTFIX)


def exim_in_ten_minutes(folder: str) -> None:
    """What the page types for Exim ends with a login. Its packages are installed in the place of Postfix."""
    if can_boot("Exim in ten minutes") and has("Exim in ten minutes", str(PACKAGES), "swaks"):
        dpkg = "dpkg --no-triggers --force-unsafe-io --force-depends"
        before = f"{dpkg} --purge postfix; {dpkg} --install /srv/packages/*.deb; systemctl start exim4"
        in_ten_minutes(folder, typed("Exim"), [LET_IN], before, packages=PACKAGES)


def dovecot_in_ten_minutes(folder: str) -> None:
    """What the page types for Dovecot ends with a login, and the user has a mailbox."""
    if can_boot("Dovecot in ten minutes") and has("Dovecot in ten minutes", *DOVECOT_NEEDS):
        in_ten_minutes(folder, typed("Dovecot"), [MAILBOX], DOVECOT, "ls -d /srv/mail/user/mail")


def postfix_beside_dovecot(folder: str) -> None:
    """What the page types for Postfix, and then for Dovecot beside it, ends with logins at both by one door."""
    if can_boot("Postfix beside Dovecot") and has("Postfix beside Dovecot", "postfix", "swaks", *DOVECOT_NEEDS):
        beside = typed("Dovecot").replace("  chroot =\n", "  chroot =\n  extra_groups = postfix\n")
        again = PAGE.block("Postfix").splitlines()[-1]
        in_ten_minutes(folder, typed("Postfix") + beside, [LET_IN, MAILBOX, LET_IN], POSTFIX + DOVECOT, again)


# Makes a user who logs in by a key, and asks no more than once for a code, which a program answers.
BY_KEY = """systemctl start systemd-user-sessions ssh
useradd --create-home --shell /bin/sh user
ssh-keygen -q -t ed25519 -N '' -f .ssh/id_ed25519
install -D -o user -m 600 .ssh/id_ed25519.pub ~user/.ssh/authorized_keys
printf 'NumberOfPasswordPrompts 1\nStrictHostKeyChecking no\nLogLevel ERROR\n' >.ssh/config
ssh user@localhost echo in
"""
ASKED = """printf '#!/bin/sh\necho "$*" >asked; echo %s' {} >answers
chmod 700 answers
SSH_ASKPASS_REQUIRE=force SSH_ASKPASS=~/answers ssh user@localhost echo in
"""


def codes_for_sshd(folder: str) -> None:
    """What the page types for sshd, with the block that makes a token: after a key a code lets in once, as the book then says, and then
    only the next one does."""
    if not can_boot("codes for sshd") or not has("codes for sshd", "sshd", "ssh", "ssh-keygen", "xxd"):
        return
    with booted(folder) as machine:
        equal(machine.does(BY_KEY), "in\n", "a login by the key alone")
        machine.does(typed("Codes for sshd"))
        # a reload only begins it
        until(lambda: machine.does("journalctl --unit ssh").count("Server listening on 0.0.0.0") == 2, "sshd should listen again")
        refused = machine.runs(ASKED.format("000000"))
        said = (refused.status, "Permission denied" in refused.faults)
        equal(said, (255, True), "whether ssh is refused for a user without a token", refused.faults)
        made = [text for title, _, text in Page("docs/OPERATING.md").all if title == "Give a user one-time codes"][0]
        secret = machine.does("set +e; cd /etc/scramotp\n" + made.replace("name=user@example.org", "name=user"))
        now = int(time.time()) // 30
        for step, status, state in [(now, 0, f"last {now}, 0"), (now, 255, f"last {now}, 1"), (now + 1, 0, f"last {now + 1}, 0")]:
            answer = machine.runs(ASKED.format(code(base64.b32decode(secret.strip()), step)))
            said = (answer.status, answer.output)
            equal(said, (status, "" if status else "in\n"), "what ssh says to the code of step", step - now, answer.faults)
            told = machine.does("cat asked; cd /etc/scramotp; tools/list-accounts book.toml")
            due = f"(user@localhost) Password: \nuser: sha1 keys, sha256 keys, totp token ({state} failures)\n"
            equal(told, due, "the prompt, and what the book has")


# Serves a book in root's home, and has sshd let in by what PAM says alone.
SERVED = """install -m 600 /dev/stdin book.toml
mkdir /run/scramotp
systemd-run --quiet --unit hall /usr/share/scramotp/serve-hall $PWD/book.toml /run/scramotp/hall.sock $PWD/log
cp /etc/pam.d/sshd sshd
printf '%s\n' 'KbdInteractiveAuthentication yes' 'AuthenticationMethods keyboard-interactive' >/etc/ssh/sshd_config.d/all.conf
systemctl restart ssh
"""


def passwords_for_sshd(folder: str) -> None:
    """With the page's services for PAM, sshd lets in by a password, or by a password and a code in one line, once. The log of the hall is
    clean, and has these logins, and beside it is noted from where sshd says that they came."""
    if not can_boot("passwords for sshd") or not has("passwords for sshd", "sshd", "ssh", "ssh-keygen"):
        return
    right = "password of user"
    tries = [[(right, 0), ("password of use", 255)], [(right + USER.code(0), 0), (right + USER.code(0), 255), (right, 255)]]
    with booted(folder) as machine:
        machine.does(BY_KEY)
        machine.does(SERVED, book([USER]))
        for service, rows in zip(PAGE.blocks("PAM", 2, ""), tries, strict=True):
            lines = service.strip().replace("/usr/local/", "/usr/") + "\\\nauth required pam_permit.so"
            machine.does(f"sed '/^@include common-auth$/c\\\n{lines}' sshd >/etc/pam.d/sshd")
            for typed_text, status in rows:
                answer = machine.runs(ASKED.format(shlex.quote(typed_text)))
                equal((answer.status, answer.output), (status, "" if status else "in\n"), "what ssh says to", typed_text, answer.faults)
        machine.does("systemctl stop hall")
        told = machine.does("scramotp audit --book log.toml --log log")
        equal(told, "clean sessions=4 accepted=3 codes=1\n", "the audit")
        came = machine.does("grep ' open ' log.clients | cut -d ' ' -f 6-")
        holds(re.fullmatch(r"(service=sshd rhost=(127\.0\.0\.1|::1) tty=ssh\n){4}", came), "what is noted of the clients", came)


def logs_of(machine: Machine) -> list[str]:
    """The logs of the unit, the oldest first."""
    return machine.does("ls /var/lib/scramotp/logs/*.log").split()


suite.run_all()
