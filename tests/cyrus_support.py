"""What the tests of the plug-in for Cyrus SASL share: the plug-in as `make plugin` makes it, a server over Cyrus's library that loads it or
Cyrus's own, and one over GNU SASL."""
import ctypes
import functools
import hashlib
import os
import re
import tempfile
from pathlib import Path

from c_support import MADE, WARNINGS, answer_to, base64_of, library
from checks import equal, fail
from expected import HASHES, login_keys
from processes import Running, ran
from suite import TOP

# Where Debian has the plug-ins of Cyrus.
CYRUS = Path("/usr/lib/x86_64-linux-gnu/sasl2")
# Results of Cyrus's calls: sasl.h.
OK, CONTINUE, FAIL, BADPROT, BADAUTH, NOUSER = "0", "1", "-1", "-5", "-13", "-20"


# ---- the plug-in, and servers that load it


@functools.cache
def plugin(compiler: str = "cc", *flags: str) -> Path:
    """The plug-in as `make plugin` makes it, with these flags."""
    folder = Path(MADE.name, f"plugin-{compiler}-{len(flags)}")
    words = [f"CLIB_FOLDER={library()}", f"PLUGIN_FOLDER={folder}", f"CC={compiler}", f"CFLAGS={' '.join(flags)}"]
    equal(ran(["make", "-s", "-C", TOP, "plugin", *words]), (0, "", ""), compiler)
    return folder / "libscramotp-cyrus.so"


@functools.cache
def server_program(*flags: str) -> Path:
    """The program of cyrus_server.c."""
    program = Path(MADE.name, f"cyrus_server-{len(flags)}")
    words = ["cc", "-std=c11", "-O1", *WARNINGS, *flags, TOP / "tests/cyrus_server.c", "-o", program, "-lsasl2"]
    equal(ran(words), (0, "", ""))
    return program


def folder_of(folder: str, *files: Path) -> Path:
    """A folder with links to these plug-ins, and to that of the store."""
    made = Path(folder, "plugins")
    made.mkdir(exist_ok=True)
    for it in [*files, CYRUS / "libsasldb.so"]:
        made.joinpath(it.name).symlink_to(it)
    return made


def fresh(folder: str) -> str:
    """A new folder in this one."""
    return tempfile.mkdtemp(dir=folder)


class Server:
    """A run of cyrus_server.c, with a store of its own."""

    def __init__(self, folder: str, *plugins: Path, options: str = "", flags: tuple[str, ...] = ()) -> None:
        text = f"sasldb_path: {folder}/store\nauxprop_plugin: sasldb\n{options}"
        for name in ("test", "sample"):
            Path(folder, f"{name}.conf").write_text(text)
        environment = {**os.environ, "SASL_CONF_PATH": folder, "ASAN_OPTIONS": "detect_leaks=1"}
        self.run = Running([server_program(*flags), folder_of(folder, *(plugins or (plugin(),)))], env=environment)

    def ask(self, line: str) -> list[str]:
        """The words that answer a line."""
        self.run.send(f"{line}\n")
        answer = self.run.next_lines(1)
        if not answer:
            fail(["the server has ended"], re.findall("ERROR: .*", self.run.end().faults))
        return answer.split()

    def store(self, name: str, kind: str, value: str) -> None:
        """Gives an account a secret."""
        equal(self.ask(f"store {name} {kind} {value}"), [OK])

    def begins(self, mechanism: str, first: str | bytes, connection: str = "new") -> tuple[str, bytes]:
        """Begins a login with a first message, in a connection as this line makes it, or in the same one as before if it is empty. Returns
        the result and the answer."""
        if connection:
            equal(self.ask(connection), [OK])
        return message(self.ask(f"start {mechanism} {hexed(first)}"))

    def goes_on(self, final: str | bytes) -> list[str]:
        """Sends a message. Returns the result, the answer in hex, and the names if the login is complete."""
        return self.ask(f"step {hexed(final)}")

    def login(self, mechanism: str, name: str, password: str, header: str = "n,,", connection: str = "new") -> list[str]:
        """Logs in, in such a connection. Returns the last result, and the two names if the login is complete. The server's signature then
        has to be right."""
        first = f"{header}n={name},r=the+client"
        result, challenge = self.begins(mechanism, first, connection)
        if result != CONTINUE:
            return [result]
        final, verdict = answer_to(mechanism, first, challenge.decode(), password.encode())
        result, answer, *names = self.goes_on(final)
        equal(answer, hexed(verdict) if result == OK else "-")
        return [result, *names]


def hexed(text: str | bytes) -> str:
    """A message as a line for cyrus_server.c has it."""
    return (text.encode() if isinstance(text, str) else text).hex()


def message(words: list[str]) -> tuple[str, bytes]:
    """The result and the answer in a line of cyrus_server.c."""
    return words[0], bytes.fromhex(words[1].strip("'-"))


def stored_keys(mechanism: str, password: str, salt: bytes = b"sixteen bytes ..", count: int = 4096) -> str:
    """The keys of a password as RFC 5803 writes them."""
    client_key, server_key = login_keys(HASHES[mechanism], password.encode(), salt, count)
    digest = hashlib.new(HASHES[mechanism], client_key).digest()
    return f"{mechanism}${count}:{base64_of(salt)}${base64_of(digest)}:{base64_of(server_key)}"


class GnuServer:
    """A server over GNU SASL's library, as Server is one over Cyrus's, for accounts with these passwords."""

    AUTHID, PASSWORD, NO_CALLBACK = 1, 3, 51

    def __init__(self, passwords: dict[str, str]) -> None:
        self.library, self.made, self.session = ctypes.CDLL("libgsasl.so.18"), ctypes.c_void_p(), ctypes.c_void_p()
        for name in ("gsasl_property_fast", "gsasl_check_version"):
            getattr(self.library, name).restype = ctypes.c_char_p
        equal(self.library.gsasl_init(ctypes.byref(self.made)), 0)

        def asked(_: int, session: int, kind: int) -> int:
            name = (self.library.gsasl_property_fast(ctypes.c_void_p(session), self.AUTHID) or b"").decode(errors="replace")
            if kind != self.PASSWORD or name not in passwords:
                return self.NO_CALLBACK
            self.library.gsasl_property_set(ctypes.c_void_p(session), self.PASSWORD, passwords[name].encode())
            return 0

        self.asked = ctypes.CFUNCTYPE(ctypes.c_int, ctypes.c_void_p, ctypes.c_void_p, ctypes.c_int)(asked)
        self.library.gsasl_callback_set(self.made, self.asked)

    def begins(self, mechanism: str, first: str) -> tuple[str, bytes]:
        """Begins a login with a first message. Returns the result and the answer."""
        if self.session:
            self.library.gsasl_finish(self.session)
        equal(self.library.gsasl_server_start(self.made, mechanism.encode(), ctypes.byref(self.session)), 0)
        return self.step(first)

    def step(self, text: str) -> tuple[str, bytes]:
        """Sends a message. Returns the result, 0 or 1 as of Cyrus's calls or another, and the answer."""
        answer, size, sent = ctypes.c_void_p(), ctypes.c_size_t(), text.encode()
        result = self.library.gsasl_step(self.session, sent, ctypes.c_size_t(len(sent)), ctypes.byref(answer), ctypes.byref(size))
        return str(result), ctypes.string_at(answer, size.value) if result in (0, 1) and answer else b""

    def goes_on(self, final: str) -> list[str]:
        """Sends a message. Returns the result and the answer in hex."""
        result, answer = self.step(final)
        return [result, answer.hex()]
