#!/usr/bin/env python3
"""Runs the first steps of README.md as they stand, and compares each line that they print and each status. Without a server they end too.

The steps are in the block of the section "Try it", and run in an empty folder, with the program, the tools and the hosts on the PATH.
"""
import suite
from blocks import TOOLS, Page, filled, ran, shows, stand_in, steps
from checks import equal, holds
from suite import TOP

STORY = Page("README.md").block("Try it")
# Parts of commands that a story has to have, so that a test of half of it can't pass.
NEEDED = ["mkdir -m 0700 ", "enrol ", "serve-hall ", "check-login ", "kill ", "report ", "audit ", "sed -i "]


def first_steps(folder: str) -> None:
    """Each command of the story prints what the document shows, and ends with that status."""
    equal([word for word in NEEDED if not any(word in command for command, *_ in steps(STORY))], [], "what the story lacks")
    shows(folder, STORY)


def no_server(folder: str) -> None:
    """The story ends even if the server does not start, here without waiting as long, and lets nobody in."""
    stand_in(folder, "serve-hall", "echo it does not start >&2; exit 1")
    answer = ran(folder, f"PATH=$PATH:{TOOLS}:{TOP / 'hosts'}\n{filled(STORY, {'timeout 20 ': 'timeout 1 '})}")
    holds("it does not start" in answer.faults, "the server's fault is not shown", answer)
    equal(answer.output, "enrolled user\n", "what is printed without a server")


suite.run_all()
