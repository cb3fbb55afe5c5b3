"""What every door does besides its protocol: its flags, its signals, the daily new log, and how it ends."""
import argparse
import asyncio
import contextlib
import gc
import os
import resource
import signal
import socket
import sys
from collections.abc import Callable
from contextlib import AbstractAsyncContextManager
from datetime import UTC, datetime, time, timedelta

from scramotp_host import journal, limits
from scramotp_host.control import controlled
from scramotp_host.hall import HallFault
from scramotp_host.host import Host

# Serves the clients of a host while its context lasts.
Opens = Callable[[Host], AbstractAsyncContextManager[None]]


def of_day(text: str) -> time | None:
    """A time of day in UTC, such as 03:30 or 03:30:00, or `never`."""
    return None if text == "never" else time.fromisoformat(text)


def flags(words: argparse.ArgumentParser) -> None:
    """Adds the words and flags that every door has."""
    words.add_argument("book", metavar="BOOK", help="the account book")
    words.add_argument("socket", metavar="SOCKET", help="the Unix socket at which it listens")
    words.add_argument("logs", metavar="LOGS", help="the folder of the logs, TIME.log, each with files beside it")
    words.add_argument("--mode", type=lambda text: int(text, 8), default=0o660, help="the mode of SOCKET [660]")
    words.add_argument("--group", help="the group of SOCKET")
    words.add_argument("--control", metavar="PATH", help="the socket for scramotp-host ctl [LOGS/control]")
    words.add_argument("--daily", type=of_day, default="00:00", metavar="HH:MM", help="when a new log begins, in UTC, or never [00:00]")
    words.add_argument("--alarm", metavar="PROGRAM", help="is run with a log and the answer of its audit, if that is not clean")
    limits.add_flags(words)


def tell_manager(text: str) -> None:
    """Tells the service manager what has become of this process (sd_notify(3)), if it asks for that."""
    if path := os.environ.get("NOTIFY_SOCKET"):
        with socket.socket(socket.AF_UNIX, socket.SOCK_DGRAM) as manager:
            manager.sendto(text.encode(), "\0" + path[1:] if path.startswith("@") else path)


def until(moment: time, now: datetime) -> float:
    """The seconds until it is this time of day, more than none."""
    next_one = datetime.combine(now.date(), moment, UTC)
    return (next_one + timedelta(days=next_one <= now) - now).total_seconds()


async def renew_daily(host: Host, moment: time) -> None:
    """Begins a new log each day."""
    while True:
        await asyncio.sleep(until(moment, datetime.now(UTC)))
        host.renew()


def have_many_files() -> None:
    """Lets this process have as many files open as it may: each connection is one, and a new log takes some."""
    _, most = resource.getrlimit(resource.RLIMIT_NOFILE)
    resource.setrlimit(resource.RLIMIT_NOFILE, (most, most))


async def serve(given: argparse.Namespace, opens: Opens) -> None:
    """Serves until INT or TERM. HUP begins a new log. HallFault or OSError if the host can't go on."""
    loop, main = asyncio.get_running_loop(), asyncio.current_task()
    for number in signal.SIGINT, signal.SIGTERM:
        loop.add_signal_handler(number, lambda: main and main.cancel())
    # One that comes before there is a log asks for nothing, and nohup ignores it.
    hup_is_heard = signal.getsignal(signal.SIGHUP) != signal.SIG_IGN
    if hup_is_heard:
        loop.add_signal_handler(signal.SIGHUP, lambda: None)
    async with contextlib.AsyncExitStack() as open_ones:
        host = await open_ones.enter_async_context(Host(given.book, given.logs, limits.given(given), given.alarm))
        if hup_is_heard:
            loop.add_signal_handler(signal.SIGHUP, host.renew)
        await open_ones.enter_async_context(controlled(host, given.control or f"{given.logs}/control"))
        await open_ones.enter_async_context(opens(host))
        if given.daily:
            daily = asyncio.create_task(renew_daily(host, given.daily))
            open_ones.callback(daily.cancel)
        gc.freeze()  # what there is now stays, so Python need not look through it for garbage
        journal.note("ready", socket=given.socket)
        tell_manager("READY=1")
        open_ones.callback(tell_manager, "STOPPING=1")
        await host.failed


def run(given: argparse.Namespace, opens: Opens) -> int:
    """Serves, and returns the exit status: 0 after INT and TERM, and 1 after a fault, which the journal has."""
    have_many_files()
    try:
        asyncio.run(serve(given, opens))
    except asyncio.CancelledError:
        return 0
    except (HallFault, OSError, LookupError) as fault:  # the last, if there is no such group
        journal.note("end", level="error", fault=fault)
        return 1
    finally:
        journal.write()
    return 0


def main(words: argparse.ArgumentParser, opens: Callable[[argparse.Namespace], Opens]) -> None:
    """Runs a door with the words of the command line."""
    flags(words)
    given = words.parse_args()
    sys.exit(run(given, opens(given)))
