"""A machine with a systemd of its own, for the scripts on units: a copy of this machine, in namespaces. What is written there is in memory,
and gone at the end. It has its own processes, and no network but the loopback. Needs root."""
import contextlib
import os
import signal
import subprocess
from collections.abc import Iterator
from pathlib import Path

from checks import equal
from processes import Answer, ran, until
from suite import PROGRAM, TOP, within

# Makes the root of the machine in a folder, and becomes its first process. Nothing that this machine would start is started there.
BOOT = r"""
set -e
mount --make-rprivate /
mount -t tmpfs none "$1"
mkdir "$1"/upper "$1"/work "$1"/root
mount -t overlay none -o "lowerdir=/,upperdir=$1/upper,workdir=$1/work" "$1"/root
cd "$1"/root
mount -t proc none proc
mount --bind proc/sys proc/sys
mount -o remount,bind,ro proc/sys
mount -t sysfs none -o ro sys
mount -t tmpfs none sys/fs/cgroup
mkdir sys/fs/cgroup/systemd
mount -t cgroup none -o none,name=systemd sys/fs/cgroup/systemd
for it in run tmp dev; do mount -t tmpfs none "$it"; done
mkdir dev/shm dev/pts
mount -t devpts none -o newinstance,ptmxmode=0666,mode=0620,gid=5 dev/pts
ln -s pts/ptmx dev/ptmx
for it in null zero full random urandom tty; do touch "dev/$it"; mount --bind "/dev/$it" "dev/$it"; done
ip link set lo up
: >etc/fstab
rm -rf etc/systemd/system/*.wants var/log/journal
printf '[Unit]\nAllowIsolate=yes\n' >etc/systemd/system/nothing.target
cp -- "$2" srv/scramotp.deb
mkdir here
pivot_root . here
cd /
umount --lazy /here
dpkg --no-triggers --install /srv/scramotp.deb
exec env -i container=other PATH=/usr/sbin:/usr/bin:/sbin:/bin /lib/systemd/systemd --unit=nothing.target --log-target=journal
"""


class Machine:
    """The machine, while it runs."""

    def __init__(self, first: int) -> None:
        self.first = first  # the number of its first process, here

    def path(self, path: str) -> Path:
        """Where a file of the machine is, here."""
        return Path(f"/proc/{self.first}/root{path}")

    def runs(self, script: str, text: str = "") -> Answer:
        """Runs a script of bash there, as root, until its first command that fails."""
        words = ["nsenter", f"--target={self.first}", "--all", "bash", "-e", "-o", "pipefail", "-c", f"cd; {script}"]
        return ran(words, text, env={"PATH": "/usr/sbin:/usr/bin:/sbin:/bin", "HOME": "/root", "DEBIAN_FRONTEND": "noninteractive"})

    def does(self, script: str, text: str = "") -> str:
        """Runs a script, which has to succeed, and returns what it prints."""
        status, output, faults = self.runs(script, text)
        if status:
            faults += self.runs("journalctl --no-pager --lines 30").output
        equal(status, 0, "the status of", script, output, faults)
        return output


@contextlib.contextmanager
def booted(folder: str | Path) -> Iterator[Machine]:
    """A machine on which the package for Debian of the program is installed."""
    place = within(folder, "machine")
    program = Path(folder, "scramotp")
    program.write_bytes(Path(PROGRAM).read_bytes())
    program.chmod(0o755)
    package = ran(["python3", TOP / "packaging/make_deb.py", program, folder], env={**os.environ, "SOURCE_DATE_EPOCH": "1796011200"})
    equal(package.status, 0, "the package", package.faults)
    spaces = [f"--{it}" for it in ["pid", "mount", "uts", "ipc", "cgroup", "net"]]
    with open(place / "output", "wb") as output:
        words = ["unshare", "--fork", "--kill-child", *spaces, "bash", "-c", BOOT, "boot", place, package.output.strip()]
        run = subprocess.Popen(words, stdin=subprocess.DEVNULL, stdout=output, stderr=output, start_new_session=True)
    try:
        until(lambda: run.poll() is not None or is_up(run.pid), "the machine should come up")
        equal(run.poll(), None, "the status of the machine", (place / "output").read_text())
        yield Machine(first_of(run.pid))
    finally:
        os.killpg(run.pid, signal.SIGKILL)
        run.wait()


def first_of(process: int) -> int:
    """The first process of a machine that this one has started."""
    return int(Path(f"/proc/{process}/task/{process}/children").read_text() or "0")


def is_up(process: int) -> bool:
    """Whether systemd serves there."""
    first = Path(f"/proc/{first_of(process)}")
    return (first / "comm").exists() and (first / "comm").read_text() == "systemd\n" and (first / "root/run/systemd/private").exists()
