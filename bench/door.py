#!/usr/bin/env python3
"""Times logins through `hosts/serve-dovecot-auth`, 64 at a time, and the same logins at Dovecot's own auth service.

Usage: door.py PROGRAM

Both judge SCRAM-SHA-256 logins of one account, with the same keys, by the same protocol, for the same client: this script, which sends 64
logins at a time on one connection. Best of several turns, wall time. Also printed is the processor time of each login, in the door, in its
hall, in Dovecot's auth service and in the client. Dovecot's part needs root and Debian's dovecot-core, and is left out where these are not.
"""
import os
import sys
import tempfile
import time
from pathlib import Path

import timed  # the folder of the tests is on the path from here on

LOGINS, AT_A_TIME, TURNS = 6400, 64, 3


def at_once(server: "Server", account: "Account", first: int) -> None:
    """Sends 64 logins, step by step together. Each has to be accepted."""
    idents = range(first, first + AT_A_TIME)
    for ident in idents:
        server.begin(ident, account)
    challenges = [server.challenge(ident).decode() for ident in idents]
    for ident, challenge in zip(idents, challenges):
        server.respond(ident, account.answers(challenge).final.encode())
    for ident in idents:
        server.challenge(ident)
    for ident in idents:
        server.respond(ident, b"")
    for ident in idents:
        line = server.line()
        if not line.startswith(f"OK\t{ident}\tuser=user"):
            sys.exit(f"a login is not accepted: {line!r}")


def rate(path: Path, account: "Account", processes: dict[str, int]) -> str:
    """The logins in a second at a socket, and the milliseconds of processor time of a login in these processes."""
    with Server(path) as server:
        best, before = 0.0, {name: taken(it) for name, it in processes.items()}
        for turn in range(TURNS):
            began = time.perf_counter()
            for at in range(0, LOGINS, AT_A_TIME):
                at_once(server, account, 1 + turn * LOGINS + at)
            best = max(best, LOGINS / (time.perf_counter() - began))
    used = {name: 1000 * (taken(it) - before[name]) / (TURNS * LOGINS) for name, it in processes.items()}
    return f"{best:.0f} logins/s; ms of processor time of a login: " + ", ".join(f"{name} {it:.2f}" for name, it in used.items())


def of_door(folder: str, account: "Account") -> str:
    """The rate of the door."""
    door = Door(folder, book([account], have_tokens=False), "--kilobytes", "1000000")
    process = door.run.process.pid
    [hall] = map(int, Path(f"/proc/{process}/task/{process}/children").read_text().split())
    found = rate(door.socket, account, {"door": process, "hall": hall, "client": os.getpid()})
    door.ends(TURNS * LOGINS)
    return found


def of_dovecot(folder: str, account: "Account") -> str:
    """The rate of Dovecot's own auth service."""
    with dovecot_auth(folder, account) as path:
        with Server(path) as server:
            [auth] = [int(line.split("\t")[1]) for line in server.greeting if line.startswith("SPID\t")]
        return rate(path, account, {"auth": auth, "client": os.getpid()})


if __name__ == "__main__":
    if len(sys.argv) != 2:
        sys.exit("usage: door.py PROGRAM")
    from clients import Account, book
    from mail_servers import Door, Server, dovecot_auth
    from processes import taken

    user = Account("user", "SCRAM-SHA-256")
    with tempfile.TemporaryDirectory() as folder:
        print(f"serve-dovecot-auth: {of_door(folder, user)}", flush=True)
    if os.geteuid() or not Path("/usr/sbin/dovecot").exists():
        sys.exit("door.py: Dovecot's auth service is not timed, since root does not run this, or dovecot-core is not installed")
    with tempfile.TemporaryDirectory() as folder:
        print(f"Dovecot's auth service: {of_dovecot(folder, user)}")
