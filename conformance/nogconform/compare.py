"""Compares the answers of the program, the rules and the peer to one script."""

from __future__ import annotations

import re
from dataclasses import dataclass, field, replace

from nogconform.script import Case, Command, Event

from .explain import Explainer, Machine, System
from .script import has_form, is_expected, stat_words

# refusals of an mprotect, which has then changed the pages below the refused one
STOPS = ("ENOMEM", "EACCES")
# calls that change nothing although they are not refused
READS = ("load", "stat", "swapoff")
SKIPPED = "skipped: "


@dataclass
class Difference:
    command: Command
    call: str
    ours: str
    theirs: str
    rule: str = ""

    def lines(self) -> list[str]:
        source = self.command.rule or "no rule is named"
        return [f"    line {self.command.line}: {self.call}", f"        here  {self.ours}",
                f"        there {self.theirs}", f"        rule  {source}"]


@dataclass
class Result:
    """How many commands are equal, the different ones with rules, and those not compared with reasons."""

    agree: int = 0
    by_rule: dict[str, int] = field(default_factory=dict)
    skipped: dict[str, int] = field(default_factory=dict)
    # the same, but what follows a skipped command counts for that one's reason
    causes: dict[str, int] = field(default_factory=dict)
    different: list[Difference] = field(default_factory=list)
    first_rule: str = ""
    whole: int = 0

    def skip(self, reason: str, count: int = 1, cause: str = "") -> None:
        if count:
            self.skipped[reason] = self.skipped.get(reason, 0) + count
            self.causes[cause or reason] = self.causes.get(cause or reason, 0) + count

    def name(self, rule: str) -> None:
        self.by_rule[rule] = self.by_rule.get(rule, 0) + 1
        self.first_rule = self.first_rule or rule

    @property
    def word(self) -> str:
        if self.different:
            return "DIFFER"
        if self.by_rule:
            return "profile"
        return "agree" if self.agree else "skipped"


def against_rules(case: Case, events: list[Event], is_linux: bool = False) -> list[Difference]:
    """The commands whose reply is not the one that the case requires."""
    told = [command.told(is_linux) for command in case.commands]
    return [Difference(command, event.call, event.reply, reply)
            for command, reply,
            event in zip(case.commands, told, events) if not is_expected(reply, event.reply)]


def against_peer(case: Case, events: list[Event], others: list[Event], machine: Machine | None = None, *,
                 is_linux: bool = False, has_clock: bool = False, has_system_limits: bool = False) -> Result:
    """Compares each command of the program with the peer's, until the two are in different states. The
    machine explains differences; without one, none is explained."""
    result = Result(whole=len(events))
    known = Explainer(machine, System(case), events, others, is_linux, has_clock, has_system_limits)
    for index in range(len(events)):
        if not compare_one(result, known, index):
            other = others[index]
            cause = other.reply[len(SKIPPED):] if other.is_skipped else ""
            result.skip("after a difference that changes the state", len(events) - index - 1, cause)
            break
    return result


def changes_nothing(event: Event) -> bool:
    """Whether the call was refused and changed nothing; a refused mprotect has changed the pages below the
    refused one."""
    return event.is_refused and not (event.word == "mprotect" and event.reply in STOPS)


def compare_one(result: Result, known: Explainer, index: int) -> bool:
    """Counts one command. Returns whether program and peer are in the same state after it."""
    event, other = known.events[index], known.others[index]
    if other.is_skipped:
        result.skip(other.reply[len(SKIPPED):])
        current = known.current(index)
        return changes_nothing(current) or current.word in READS
    if known.is_like(event, other):
        result.agree += 1
        return True
    found = known.explain(index) if has_form(other) else None
    if found is None:
        result.different.append(Difference(known.system.case.commands[index], event.call, event.reply, other.reply))
        return changes_nothing(known.current(index)) and changes_nothing(other)
    result.name(found[0])
    return found[1]


def told_events(case: Case, others: list[Event], is_linux: bool, has_clock: bool = False) -> list[Event]:
    """An output with each reply of the case; words of stat that the case leaves out are the peer's."""
    events = []
    for command, other in zip(case.commands, others):
        told = command.told(is_linux)
        if not has_clock:
            told = re.sub("time=[1-9][0-9]*", "time=set", told)
        words = stat_words(other.reply)
        if words and "=" in told:
            words |= stat_words("key=" + words["key"] + " " + told) or {}
            told = " ".join(f"{name}={value}" for name, value in words.items())
        events.append(replace(other, reply=told))
    return events
