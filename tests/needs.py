#!/usr/bin/env python3
"""Says what the tests need and this machine lacks, with Debian's package that has it.

Usage: needs.py              the status is 1 if something is lacking
       needs.py --install    installs it first, but what is LARGE, with apt-get, where there is one; only root can

What only a part of one test needs may lack: the packages are named, and that test then says what is not tested.
"""
import os
import pwd
import shutil
import subprocess
import sys
import tempfile
from collections.abc import Iterable
from pathlib import Path

# The commands that the tests call, each with its package.
COMMANDS = {"bash": "bash", "cc": "gcc", "flock": "util-linux", "git": "git", "make": "make", "nm": "binutils", "xxd": "xxd"}
# The commands, and files, that only parts of tests need.
FOR_PARTS = {"systemd-analyze": "systemd", "pamtester": "pamtester", "sshd": "openssh-server", "ssh": "openssh-client"}
FOR_PARTS |= {"/usr/lib/x86_64-linux-gnu/libpam_wrapper.so": "libpam-wrapper", "mandoc": "mandoc", "fish": "fish", "zsh": "zsh"}
FOR_PARTS |= {"postfix": "postfix", "dovecot": "dovecot-core", "/usr/lib/dovecot/imap-login": "dovecot-imapd", "msmtp": "msmtp"}
FOR_PARTS |= {"/usr/lib/dovecot/pop3-login": "dovecot-pop3d", "mbsync": "isync libsasl2-modules"}
FOR_PARTS |= {"swaks": "swaks libnet-ssleay-perl"}
FOR_PARTS |= {"gsasl": "gsasl", "curl": "curl", "openssl": "openssl", "/usr/lib/x86_64-linux-gnu/libnss_wrapper.so": "libnss-wrapper"}
FOR_PARTS |= {"/lib/systemd/systemd": "systemd", "ip": "iproute2", "nsenter": "util-linux", "unshare": "util-linux"}
FOR_PARTS |= {"dpkg-deb": "dpkg", "lintian": "lintian", "mmdebstrap": "mmdebstrap"}
FOR_PARTS |= {"/usr/include/sasl/saslplug.h": "libsasl2-dev", "/usr/lib/x86_64-linux-gnu/sasl2/libscram.so": "libsasl2-modules"}
FOR_PARTS |= {"/usr/lib/x86_64-linux-gnu/sasl2/libsasldb.so": "libsasl2-modules-db", "sasl-sample-server": "sasl2-bin"}
FOR_PARTS |= {"slapd": "slapd", "ldapwhoami": "ldap-utils", "valgrind": "valgrind", "clang": "clang", "c++": "g++"}
FOR_PARTS |= {"slapadd": "slapd", "saslpasswd2": "sasl2-bin", "ssh-keygen": "openssh-client", "pkg-config": "pkgconf", "psql": "postgresql"}
# The same, of one test each, in packages of hundreds of MB.
LARGE = {"chromium": "chromium", "go": "golang-go", "rustc": "rustc"}
ALL = COMMANDS | FOR_PARTS | LARGE
# Exim can't be installed beside Postfix. So it is unpacked here, with the libraries that it needs: outside the repository, in which rt
# refuses links, and where the user as whom it runs can enter. Its packages are kept there too, for the machine of systemd.py.
EXIM = Path(os.environ.get("EXIM") or "/var/cache/scramotp/exim")
PACKAGES = EXIM / "packages"
OF_EXIM = ["exim4-daemon-heavy", "exim4-base", "exim4-config", "libspf2-2", "libmariadb3", "libidn12"]
# Where servers are, which not every PATH has.
SERVERS = "/usr/local/sbin:/usr/sbin:/sbin"
OLDEST_PYTHON = (3, 11)
# Who runs what needs few rights.
USER = "nobody"


def found(command: str) -> str | None:
    """Where a command, or a file that is given by its path, is, or None."""
    if command.startswith("/"):
        return command if os.path.exists(command) else None
    return shutil.which(command, path=f"{os.environ.get('PATH', os.defpath)}:{SERVERS}")


def lacking(commands: Iterable[str]) -> list[str]:
    """Those of the commands that are nowhere."""
    return [it for it in commands if not found(it)]


def told(command: str) -> str:
    """That a command or file is nowhere, with the packages of Debian that have it, if they are known here."""
    packages = ALL.get(command)
    return f"{command} is not installed" + (f" (apt-get install {packages})" if packages else "")


def packages_of(commands: Iterable[str]) -> list[str]:
    """Debian's packages of those of the commands that are nowhere."""
    return sorted({package for it in lacking(commands) for package in ALL[it].split()})


def install() -> None:
    """Installs the packages of what is lacking, and fails with what apt-get says."""
    packages = packages_of([*COMMANDS, *FOR_PARTS])
    if not packages and PACKAGES.exists():
        return
    if not shutil.which("apt-get") or os.geteuid():
        print(f"needs.py: not installed, which takes root and apt-get: {' '.join([*packages, *OF_EXIM])}", file=sys.stderr)
        return
    environment = {**os.environ, "DEBIAN_FRONTEND": "noninteractive"}
    subprocess.run(["apt-get", "update", "--quiet"], env=environment, check=True)
    if packages:
        words = ["install", "--quiet", "--yes", "--no-install-recommends", *packages]
        subprocess.run(["apt-get", *words], env=environment, check=True)
    if not PACKAGES.exists():
        unpack_exim()


def unpack_exim() -> None:
    """Unpacks Exim, without its right to become root."""
    with tempfile.TemporaryDirectory() as folder:
        os.chmod(folder, 0o777)  # apt-get fetches as another user
        subprocess.run(["apt-get", "download", "--quiet", *OF_EXIM], cwd=folder, check=True)
        EXIM.mkdir(parents=True, exist_ok=True)
        for package in Path(folder).glob("*.deb"):
            subprocess.run(["dpkg", "-x", package, EXIM], check=True)
        (EXIM / "usr/sbin/exim4").chmod(0o755)
        shutil.copytree(folder, PACKAGES)
        PACKAGES.chmod(0o755)


def main() -> int:
    if sys.argv[1:] == ["--install"]:
        install()
    elif sys.argv[1:]:
        print(__doc__, file=sys.stderr)
        return 2
    faults = [f"{it}: apt-get install {COMMANDS[it]}" for it in lacking(COMMANDS)]
    if not shutil.which("rt"):
        faults.append("rt, the command of the Rattle kit: add its folder to your PATH")
    if sys.version_info < OLDEST_PYTHON:
        faults.append(f"python3 of {'.'.join(map(str, OLDEST_PYTHON))} or newer: apt-get install python3")
    if USER not in (it.pw_name for it in pwd.getpwall()):
        faults.append(f"a user {USER}: useradd --system {USER}")
    if packages := packages_of([*FOR_PARTS, *LARGE]):
        print("Parts of some tests need: apt-get install", *packages, file=sys.stderr)
    if faults:
        print("The tests need, and this machine lacks:", *faults, sep="\n  ", file=sys.stderr)
    return 1 if faults else 0


if __name__ == "__main__":
    sys.exit(main())
