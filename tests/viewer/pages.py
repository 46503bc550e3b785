"""The pages of the viewer that the tests look at, and the program that makes them."""

from __future__ import annotations

import os
from collections.abc import Sequence
from dataclasses import dataclass, field
from functools import cached_property

from built import NotBuilt, program_of
from commands import TOP, Ended, run as run_command, text_of
from viewer.expected import Block, read_blocks

HERE = os.path.dirname(os.path.realpath(__file__))
try:
    PROGRAM = program_of("shmview", may_be_unproved=True)
except NotBuilt:
    PROGRAM = ""
UNPROVED = "shmview: nothing is proved on this machine by this run\n"
# the start script, over the same program
VIEWER = [os.path.join(TOP, "shmview"), *["--unproved"] * ("/unproved/" in PROGRAM)]
# the examples of the tour, and what they do not show
# the lines of a lesson's task, which are not lines of its script
TASK = ("# task: ", "# goal: ", "# hint: ")
EXAMPLES = ("memory_short", "failing_swap", "remap", "swap_taken_away", "deferred_removal")
LESSONS = (*EXAMPLES, "fork", "permissions", "locks", "lost_update")
SIZES = ((1280, 900), (390, 844))
SCRIPTS = (*EXAMPLES, "other_changes", "ten_slots", "refused_accesses", "turns", "bytes", "mappings")


def example(name: str) -> tuple[str, list[str]]:
    """A script, and the words for its swap areas."""
    own = os.path.join(HERE, "cases", name)
    path = own if os.path.exists(own + ".shm") else os.path.join(TOP, "examples", name)
    return text_of(path + ".shm"), text_of(path + ".swap", "ram:64").split()


def run(words: Sequence[str], script: str, seconds: int = 120) -> Ended:
    """Runs a program; that an unproved one says what it is does not count."""
    ended = run_command(words, script, seconds)
    return ended._replace(said=ended.said.replace(UNPROVED, ""))


def record_of(script: str, words: Sequence[str]) -> str:
    return run([PROGRAM, *words], script).out


@dataclass
class Page:
    """A page with its record, its sentences, and how it is opened: by which address, and at which place.
    Blocks of the record that are skipped are not steps of the page."""

    name: str
    record: str
    html: str
    told: dict[int, list[str]] | None = None
    address: str = ""
    opened: int = 0
    skipped: int = 0
    script: list[str] = field(default_factory=list)

    @cached_property
    def all_blocks(self) -> list[Block]:
        return read_blocks(self.record)

    @property
    def blocks(self) -> list[Block]:
        return self.all_blocks[self.skipped:]


def page_by(words: Sequence[str], script: str, name: str, told: dict[int, list[str]] | None = None,
            address: str = "",
            opened: int = 0, begins: Sequence[str] = (), skipped: int = 1) -> Page:
    """The page of a script by the viewer, with its record, which may begin at an earlier step."""
    record, made = record_of(script, begins or words), run([*VIEWER, *words], script).out
    lines = [line for line in script.rstrip("\n").split("\n") if not line.startswith(TASK)]
    return Page(name, record, made, told, address, opened, skipped if begins else 0, lines)


def page_of_example(name: str, told: dict[int, list[str]] | None = None) -> Page:
    script, swap = example(name)
    return page_by(swap, script, name, told)
