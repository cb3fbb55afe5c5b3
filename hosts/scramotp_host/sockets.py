"""Sockets of this machine that a host listens at, and who is at their other end."""
import contextlib
import errno
import os
import re
import shutil
import socket
import stat
import struct
from collections.abc import Iterator
from secrets import token_hex
from urllib.parse import parse_qsl, urlencode

MOST_UNREAD = 1 << 20  # bytes that are kept for a peer that does not read
LONGEST_NAME = 108  # bytes of a socket's name (unix(7))
# What PAM says of a user (pam_exec(8)), by the name that it has in LOG.clients.
OF_PAM = {"service": b"PAM_SERVICE", "rhost": b"PAM_RHOST", "tty": b"PAM_TTY"}


def remove(path: str, made: os.stat_result) -> None:
    """Removes the file of a socket, unless it is gone or another file has its name."""
    with contextlib.suppress(FileNotFoundError):
        if os.path.samestat(os.lstat(path), made):
            os.unlink(path)


def handed() -> dict[str, socket.socket]:
    """The Unix sockets that the service manager has handed to this process (sd_listen_fds(3)), by their paths."""
    count = int(os.environ.get("LISTEN_FDS", "0")) if os.environ.get("LISTEN_PID") == str(os.getpid()) else 0
    found = [socket.socket(fileno=os.dup(descriptor)) for descriptor in range(3, 3 + count)]
    return {it.getsockname(): it for it in found if it.family == socket.AF_UNIX}


def is_left(path: str) -> bool:
    """Whether there is a socket at which nobody listens any more, as after a run that was killed."""
    with contextlib.suppress(OSError), socket.socket(socket.AF_UNIX) as client:
        try:
            client.connect(path)
        except ConnectionRefusedError:  # which is said of a file that is no socket, too
            return stat.S_ISSOCK(os.lstat(path).st_mode)
    return False


@contextlib.contextmanager
def listening(path: str, mode: int, group: str | None = None) -> Iterator[socket.socket]:
    """A Unix socket that listens, with this mode and group, at a path where nobody else does. A socket that a killed run has left there is
    replaced. The file is removed at the end of the context. If the service manager has made a socket with this path, it is that one."""
    if found := handed().get(path):
        with found:
            yield found
            return
    if is_left(path):
        os.unlink(path)
    with bound(path, 0o600) as listener:
        if group is not None:
            shutil.chown(path, group=group)
        os.chmod(path, mode)
        listener.listen(512)
        yield listener


@contextlib.contextmanager
def bound(path: str, mode: int = 0o777) -> Iterator[socket.socket]:
    """A Unix socket with this path, whose file has this mode, less what the umask takes, and is removed at the end of the context. It does
    not listen yet. FileExistsError if there is a file of that name, and OSError without a file's name if there can't be one."""
    with socket.socket(socket.AF_UNIX) as listener:
        os.fchmod(listener.fileno(), mode)
        try:
            listener.bind(path)
        except OSError as fault:
            if fault.errno == errno.EADDRINUSE:
                raise FileExistsError(errno.EEXIST, os.strerror(errno.EEXIST), path) from None
            raise
        made = os.lstat(path)
        try:
            yield listener
        finally:
            remove(path, made)


def credentials(connection: socket.socket) -> tuple[int, int]:
    """The user and the process at the other end of a Unix socket, as they were when it connected."""
    size = struct.calcsize("3i")
    process, user, _ = struct.unpack("3i", connection.getsockopt(socket.SOL_SOCKET, socket.SO_PEERCRED, size))
    return user, process


def tells_of_pam(connection: socket.socket) -> None:
    """Gives the socket of a client, before it connects, an abstract name that has what PAM says of its user, as much as fits: the server
    can read that, and no line of the protocol has it. It begins with random digits, since no two sockets may have the same."""
    told = {key: os.environb[it] for key, it in OF_PAM.items() if os.environb.get(it)}
    with contextlib.suppress(OSError):  # without it the login is as good
        connection.bind(f"\0{token_hex(6)}/pam?{urlencode(told, safe=':/')}"[:LONGEST_NAME].encode())


def told_of_pam(name: str | bytes) -> dict[str, str]:
    """What the name of a client's socket, as `accept` returns it, tells so. Whoever may connect can tell anything."""
    found = re.fullmatch(rb"\0[0-9a-f]{12}/pam\?(.*)", name) if isinstance(name, bytes) else None
    return {key: it for key, it in parse_qsl(found[1].decode(errors="replace")) if key in OF_PAM} if found else {}
