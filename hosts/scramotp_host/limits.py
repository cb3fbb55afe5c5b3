"""What clients may take of a host: its limits with their defaults, the flags that change them, and what is counted for a minute."""
import argparse
import dataclasses
import functools
import ipaddress
import time
from typing import Any

from scramotp_host.clients import Client


def limit(default: float, help: str, least: float = 0, most: float = 1e9) -> Any:
    """A field of `Limits`, and the flag of the same name, with its least and its greatest value."""
    def read(text: str) -> float:
        value = type(default)(text)
        if not least <= value <= most:
            raise ValueError(text)
        return value

    read.__name__ = "number"
    return dataclasses.field(default=default, metadata={"help": help, "read": read})


@dataclasses.dataclass(frozen=True)
class Limits:
    """The limits of a host. Times are in seconds."""

    places: int = limit(64, "logins that are judged at a time; a hall takes no more than 64", 1, 64)
    idle: float = limit(1.0, "seconds after which an idle login gives its place to one that waits")
    grace: float = limit(10.0, "seconds that a new log waits for the logins that are open")
    patience: float = limit(150.0, "seconds that a login may take in all")
    delay: float = limit(2.0, "seconds before a client is told that it is refused")
    guesses: int = limit(60, "logins of an address in a minute that are refused or give way; then its logins are refused unheard")
    kilobytes: int = limit(1024, "kilobytes of messages of an address in a minute; then the same")
    connections: int = limit(1024, "connections of one user of this machine")
    logins: int = limit(1024, "open logins of one connection")


def add_flags(words: argparse.ArgumentParser) -> None:
    """Adds a flag for each limit."""
    group = words.add_argument_group("limits")
    for it in dataclasses.fields(Limits):
        told = f"{it.metadata['help']} [{it.default}]"
        group.add_argument(f"--{it.name}", type=it.metadata["read"], default=it.default, metavar="N", help=told)


def given(words: argparse.Namespace) -> Limits:
    """The limits that these flags say."""
    return Limits(**{it.name: getattr(words, it.name) for it in dataclasses.fields(Limits)})


def origin(client: Client) -> str:
    """By what a client is counted: its address, or without one its user on this machine."""
    return counted(str(client.get("rip", ""))) or f"uid {client.get('uid')}"


@functools.lru_cache(10_000)
def counted(address: str) -> str:
    """By what an address is counted: itself, or of IPv6 its first 64 bits, since one client has all that begin so, unless it has an address
    of IPv4 in it."""
    try:
        found = ipaddress.ip_address(address)
    except ValueError:
        return address
    if found.version == 4:
        return str(found)
    return str(found.ipv4_mapped or ipaddress.ip_network((int(found), 64), strict=False))


class PerMinute:
    """Counts for each key, and begins anew each minute, so that it forgets who is gone."""

    def __init__(self, most: int) -> None:
        self.most, self.minute, self.counts = most, 0.0, dict[str, int]()

    def add(self, key: str, count: int = 1) -> None:
        self.counts[key] = self.count(key) + count

    def count(self, key: str) -> int:
        """What is counted for the key in this minute."""
        if (minute := time.monotonic() // 60) != self.minute:
            self.minute = minute
            self.counts.clear()
        return self.counts.get(key, 0)

    def is_over(self, key: str) -> bool:
        """Whether the key has come to more than the most in this minute."""
        return self.count(key) > self.most
