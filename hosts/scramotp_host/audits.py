"""Audits of the logs that have ended, in the background and one at a time. The operator learns of each answer that is not clean. Once the
answer is told, it is in LOG.audited: a log without that is of a host that was killed, and the next one audits it."""
import asyncio
import os
from asyncio.subprocess import DEVNULL, PIPE, STDOUT

from scramotp_host import journal


async def answer_of(*words: str) -> tuple[int | None, str]:
    """The status of a command and what it prints; no status and why, if it can't be run."""
    try:
        run = await asyncio.create_subprocess_exec(*words, stdin=DEVNULL, stdout=PIPE, stderr=STDOUT, start_new_session=True)
    except OSError as fault:
        return None, str(fault)
    printed, _ = await run.communicate()
    return run.returncode, printed.decode(errors="replace").strip()


def unanswered(folder: str) -> list[str]:
    """The logs of a folder without LOG.audited, the oldest first."""
    names = {*os.listdir(folder)}
    return [os.path.join(folder, it) for it in sorted(names) if it.endswith(".log") and it + ".audited" not in names]


def keep(log: str, answer: str) -> None:
    """Writes LOG.audited, which only its owner can read."""
    try:
        with open(log + ".audited", "w", opener=lambda path, flags: os.open(path, flags, 0o600)) as file:
            file.write(answer + "\n")
    except OSError as fault:  # the next host audits it again
        journal.note("audited", level="error", log=log, fault=fault)


class Audits:
    """Audits each log by the copy of its book. `alarm` names a program to run, with the log and the answer as its words, after an answer
    other than clean."""

    def __init__(self, alarm: str | None = None) -> None:
        self.alarm, self.one, self.under_way = alarm, asyncio.Lock(), set[asyncio.Task[None]]()

    def begin(self, log: str) -> None:
        """Begins the audit of a log that has ended."""
        task = asyncio.create_task(self.audit(log))
        self.under_way.add(task)
        task.add_done_callback(self.under_way.discard)

    async def audit(self, log: str) -> None:
        async with self.one:
            status, answer = await answer_of("scramotp", "audit", "--book", log + ".toml", "--log", log)
        is_clean = status == 0 and answer.startswith("clean ")
        journal.note("audit", level=None if is_clean else "error", log=log, answer=answer)
        if not is_clean and self.alarm:
            await self.warn(log, answer)
        if status in (0, 1):  # else there was no audit
            journal.write()  # so that the answer is not only here if the host is killed now
            keep(log, answer)

    async def warn(self, log: str, answer: str) -> None:
        """Runs the operator's program."""
        try:
            run = await asyncio.create_subprocess_exec(str(self.alarm), log, answer, stdin=DEVNULL)
        except OSError as fault:
            journal.note("alarm", level="error", fault=fault)
        else:
            await run.wait()

    async def end(self) -> None:
        """Waits for the audits that are under way."""
        await asyncio.gather(*self.under_way)
