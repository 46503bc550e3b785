"""Looks for an order of the overlapping calls in which Linux would give the replies of the trace.

The judge tries this order first, so a wrong one only costs time. A call without effect is made as soon as its
reply fits. Runs in which all processes are equally far and the last pids are equal continue in the same way.
"""

from __future__ import annotations

import re
from typing import Any, List, Tuple

from .strace_model import Attach, Segment
from .strace_script import Command

MOST_STEPS = 200_000
SHOWN = re.compile(r"status=(\S+) .* lpid=(\d+) nattch=(\d+) atime=(\w+) dtime=(\w+)")
OF_ONE = ("stat", "rmid", "set", "lock", "unlock")
# for each segment that a call touched, what the state was before
Before = List[Tuple[Segment, int, int, bool, bool, bool]]


class State:
    """The state that replies depend on: for each segment its attachments, the last pid, how often it was
    attached and detached, and whether it exists and is marked."""

    def __init__(self, slack: dict[int, int] | None = None) -> None:
        self.slack = slack or {}        # how much the attach count of a stat may be too high
        self.counts: dict[int, int] = {}
        self.pids: dict[int, int] = {}
        self.attached: dict[int, int] = {}
        self.detached: dict[int, int] = {}
        self.there: set[int] = set()
        self.marked: set[int] = set()
        self.keys: dict[int, Segment | Attach | None] = {}

    def fits(self, command: Command) -> bool:
        """Whether Linux could give this answer now; replies that are not checked fit."""
        if command.word == "shmget":
            return self.fits_get(command)
        segment = command.parts[0] if command.parts and isinstance(command.parts[0], Segment) else None
        if segment is None:
            return True
        is_there = id(segment) in self.there
        if command.reply in ("EINVAL", "EIDRM"):
            return not is_there or command.word not in OF_ONE
        shown = SHOWN.search(command.reply) if command.word == "stat" else None
        if shown is None or not is_there:
            return is_there
        name = id(segment)
        times = [("set" if counts.get(name, 0) else "0") for counts in (self.attached, self.detached)]
        return (("dest" in shown[1]) == (name in self.marked) and int(shown[2]) == self.pids.get(name, 0)
                and 0 <= int(shown[3]) - self.counts.get(name, 0) <= self.slack.get(id(command), 0)
                and [shown[4], shown[5]] == times)

    def fits_get(self, command: Command) -> bool:
        found = self.keys.get(command.key)
        if command.result is not None:
            return found is None if command.is_new else found is command.result
        if command.reply in ("EEXIST", "EACCES"):
            return found is not None
        return found is None or command.reply != "ENOENT"

    def make(self, command: Command) -> Before:
        """Makes a call. Returns what `undo` needs."""
        touched = [segment for segment, _ in command.effects]
        touched += [it for it in (command.result, *command.parts) if isinstance(it, Segment)]
        before = [(it, self.counts.get(id(it), 0), self.pids.get(id(it), 0), id(it) in self.there,
                   id(it) in self.marked,
                   self.keys.get(it.made_key) is it) for it in touched]
        if command.reply.startswith("E"):
            return before
        for segment, change in command.effects:
            self.counts[id(segment)] = self.counts.get(id(segment), 0) + change
            self.pids[id(segment)] = command.process.pid
            self.count_time(segment, change, 1)
        if command.is_new:
            self.there.add(id(command.result))
            if command.key:
                self.keys[command.key] = command.result
        if command.word == "rmid":
            self.marked.add(id(command.parts[0]))
            if isinstance(command.parts[0], Segment):
                self.drop_key(command.parts[0])
        for segment in touched:
            if id(segment) in self.marked and not self.counts.get(id(segment), 0):
                self.there.discard(id(segment))
        return before

    def count_time(self, segment: Segment, change: int, step: int) -> None:
        counts = self.attached if change > 0 else self.detached
        counts[id(segment)] = counts.get(id(segment), 0) + step

    def drop_key(self, segment: Segment) -> None:
        if self.keys.get(segment.made_key) is segment:
            del self.keys[segment.made_key]

    def undo(self, before: Before) -> None:
        for segment, count, pid, is_there, is_marked, has_key in reversed(before):
            self.counts[id(segment)], self.pids[id(segment)] = count, pid
            (self.there.add if is_there else self.there.discard)(id(segment))
            (self.marked.add if is_marked else self.marked.discard)(id(segment))
            if has_key:
                self.keys[segment.made_key] = segment
            else:
                self.drop_key(segment)


def unexplained(commands: list[Command]) -> list[Command]:
    """The calls whose replies do not fit in this order."""
    state = State()
    found: list[Command] = []
    for command in commands:
        if not state.fits(command):
            found.append(command)
        state.make(command)
    return found


def slack_of(commands: list[Command]) -> dict[int, int]:
    """Linux raises the attach count by two in a shmat, and lowers it by one at its end; a stat in between may
    show that."""
    attaches = [it for it in commands if it.word == "shmat" and it.result is not None]
    return {id(stat): sum(it.first < stat.last and stat.first < it.last and it.process is not stat.process
                          for it in attaches)
            for stat in commands if stat.word == "stat"}


class Search:
    """A depth-first search, with each process's calls in order, and none before one that had returned."""

    def __init__(self, commands: list[Command], slack: dict[int, int] | None = None) -> None:
        self.own: dict[str, list[Command]] = {}
        self.state = State(slack)
        for command in commands:
            self.own.setdefault(command.process.name, []).append(command)
        self.places = dict.fromkeys(self.own, 0)
        self.count = len(commands)
        self.parent = {it.child.name: it for it in commands if it.child}
        self.made: list[tuple[Command, Before]] = []
        self.done: set[int] = set()
        self.longest: list[Command] = []
        self.failed: set[tuple[Any, ...]] = set()

    def offered(self) -> list[Command]:
        """The calls that may be next, those that began first before others."""
        heads = [self.own[name][place] for name, place in self.places.items() if place < len(self.own[name])]
        heads = [it for it in heads if it.process.name not in self.parent
                 or id(self.parent[it.process.name]) in self.done]
        end = min((it.last for it in heads), default=0)
        return sorted((it for it in heads if it.first < end or it.last == end),
                      key=lambda it: (it.middle, it.first))

    def key(self) -> tuple[Any, ...]:
        return tuple(self.places.values()), tuple(sorted(self.state.pids.items()))

    def take(self, command: Command) -> None:
        before = self.state.make(command)
        self.places[command.process.name] += 1
        self.made.append((command, before))
        self.done.add(id(command))

    def back(self) -> None:
        command, before = self.made.pop()
        self.done.discard(id(command))
        self.places[command.process.name] -= 1
        self.state.undo(before)
        if not command.reply.startswith("E"):
            for segment, change in command.effects:
                self.state.count_time(segment, change, -1)

    def choices(self) -> list[Command]:
        """The possible next calls. A call without effects is the only one if its reply fits."""
        fitting = [it for it in self.offered() if self.state.fits(it)]
        quiet = next((it for it in fitting if it.is_quiet), None)
        return [quiet] if quiet else fitting

    def run(self) -> bool:
        """Whether an order was found; it is then the longest beginning."""
        stack, steps = [iter(self.choices())], 0
        while stack and steps < MOST_STEPS:
            steps += 1
            if len(self.made) > len(self.longest):
                self.longest = [command for command, _ in self.made]
            if len(self.longest) == self.count:
                return True
            command = next(stack[-1], None)
            if command is None:
                stack.pop()
                self.failed.add(self.key())
                if self.made:
                    self.back()
                continue
            self.take(command)
            if self.key() in self.failed:
                self.back()
            else:
                stack.append(iter(self.choices()))
        return False


def better_order(commands: list[Command]) -> tuple[list[Command], list[Command], bool]:
    """An order of the commands, those commands whose reply may be any, and whether the order explains all
    replies.

    All replies fit in this order; or all except the attach counts of stats that overlap with a shmat; or it
    has the longest beginning that was found.
    """
    if not unexplained(commands):
        return commands, [], True
    search = Search(commands)
    if search.run():
        return search.longest, [], True
    loose = Search(commands, slack_of(commands))
    if loose.run():
        return loose.longest, unexplained(loose.longest), True
    begun = {id(command) for command in search.longest}
    return search.longest + [command for command in commands if id(command) not in begun], [], False
