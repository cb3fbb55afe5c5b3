"""A name and a password, as PLAIN and LOGIN have them (RFC 4616), become a SCRAM login with the host as the client. So the log is as for
any login by SCRAM-SHA-256, and has no password, and an audit judges it. The account has to have keys for SCRAM-SHA-256."""
import asyncio
import hashlib
import hmac
import os
from base64 import b64decode, b64encode

from scramotp_host.login import Login


def escaped(name: bytes) -> bytes:
    """A name as it stands in a message (RFC 5802, section 5.1)."""
    return name.replace(b"=", b"=3D").replace(b",", b"=2C")


def proof_of(password: bytes, salt: bytes, count: int, auth_message: bytes) -> bytes:
    """The client's proof (RFC 5802, section 3). Takes the time that the count is meant to take."""
    key = hmac.digest(hashlib.pbkdf2_hmac("sha256", password, salt, count), b"Client Key", "sha256")
    signature = hmac.digest(hashlib.sha256(key).digest(), auth_message, "sha256")
    return bytes(a ^ b for a, b in zip(key, signature))


async def accepts(login: Login, name: bytes, password: bytes, act_as: bytes = b"") -> bool:
    """Whether the hall accepts a login with this password, and its session is over then. Others are served while the proof is computed."""
    header = b"n,%s," % (act_as and b"a=" + escaped(act_as))
    bare = b"n=%s,r=%s" % (escaped(name), b64encode(os.urandom(18)))
    word, challenge = await login.begin("SCRAM-SHA-256", header + bare)
    if word == "CONT":
        nonce, salt, count = (part[2:] for part in challenge.split(b","))
        final = b"c=%s,r=%s" % (b64encode(header), nonce)
        signed = b",".join((bare, challenge, final))
        with login.busy():
            proof = await asyncio.to_thread(proof_of, password, b64decode(salt), int(count), signed)
        word, _ = await login.respond(final + b",p=" + b64encode(proof))
    login.leave()
    return word == "OK"
