"""Explains a difference between the program and the peer by the proved machine.

The machine answers the script once more: with Linux's rules, and on other systems, such as one with more
swap. If its replies then are the peer's, what was changed explains the difference, and the comparison
continues with these replies, so nothing after it is left out. A few differences have no such machine; `left`
knows them, and they end the comparison. The names are in docs/CONFORMANCE.md, with both answers and the
reason.
"""

from __future__ import annotations

import os
import re
from collections.abc import Iterator
from dataclasses import dataclass, field, replace

from nogcuvema.machine import LARGER, PROFILE, Rules
from nogconform.script import Case, Event

from .places import TOP
from .running import run_program
from .script import SWAP, without_clock

PAGE, LOWEST, PIECES = 4096, 0x10000, 256
# the rules of Linux, by the names of the profile's own rules that they replace
RULES = {"removed identifier": Rules.REMOVED_IS_INVALID, "execute bits": Rules.EXECUTE_IS_ASKED,
         "time of fork": Rules.FORK_MARKS, "rest is attached": Rules.REST_IS_ATTACHED,
         "end of addresses": Rules.END_IS_ENOMEM, "lowest address": Rules.LOW_IS_EPERM,
         "largest user": Rules.NO_LAST_USER, "number of pieces": Rules.PIECES_ARE_ENOMEM,
         "locked pages": Rules.LOCKS_BY_USER, "execute flag": Rules.EXEC_IS_ASKED,
         "huge pages": Rules.HUGE_IS_REFUSED}
# what Linux's rules leave
LEFT = ("lowest address", "locked pages", "whole access", "reserved swap", "failing pager",
        "limits of the system")
PROGRAMS = ("crates/shmsim/out/shmsim", "build/unproved/shmsim", "bin/shmsim")


def find_machine() -> list[str] | None:
    """The command of the built shmsim; None if there is none."""
    paths = (os.path.join(TOP, it) for it in PROGRAMS)
    return next(([path] for path in paths if os.path.isfile(path)), None)


@dataclass
class Machine:
    """The proved machine: shmsim, or the kit's program over the library for C."""

    words: list[str]
    is_library: bool
    limit: int

    def events(self, case: Case, rules: int) -> list[Event]:
        """Its events for a case under rules of Linux."""
        if self.is_library:
            return run_program([*self.words, "--rules", str(rules)], case, self.limit)
        names = ",".join(str(rule.name).lower() for rule in RULES.values() if rule & rules)
        head = re.compile(r"^([ \t]*limits[ \t].*)$", re.M)
        ruled = head.sub(rf"\1\nrules {names}", case.text, count=1) if names else case.text
        return run_program(self.words, replace(case, text=ruled), self.limit)


def with_line(case: Case, number: int, line: str) -> Case:
    """The case with another text of a line, by its number from 1."""
    lines = case.text.split("\n")
    lines[number - 1] = line
    return replace(case, text="\n".join(lines))


def with_limits(case: Case, limits: list[int]) -> Case:
    lines = case.text.split("\n")
    number = next(at for at, line in enumerate(lines, 1) if line.split()[:1] == ["limits"])
    return replace(with_line(case, number, "limits " + " ".join(map(str, limits))), limits=limits)


def is_refused_write(event: Event) -> bool:
    return event.word in ("store", "xadd", "swap", "cas") and event.reply == "SIGSEGV"


def written(event: Event, had: str) -> str:
    """The bytes that a write leaves, where it finds these."""
    if event.word == "xadd":
        number = int.from_bytes(bytes.fromhex(had), "little") + int(event.operands[1])
        return (number % 2 ** 64).to_bytes(8, "little").hex()
    return had if event.word == "cas" and had != event.operands[1] else event.operands[-1]


def line_of_part(event: Event, load: Event | None) -> str:
    """What Linux does of a write that gets SIGSEGV: it writes the bytes of the first page. All but a store
    first read the bytes, which `load` has; the line is that load if there is none, or if it was refused."""
    address = event.operands[0]
    if event.word != "store" and (load is None or load.is_refused):
        count = 8 if event.word == "xadd" else len(event.operands[-1]) // 2
        return f"{event.pid} load {address} {count}"
    room = PAGE - number_of(address) % PAGE
    return f"{event.pid} store {address} {written(event, load.reply if load else '')[:2 * room]}"


def with_parts(case: Case, events: list[Event], loads: list[Event] | None = None) -> Case:
    """The case with the part of each refused write that Linux makes."""
    for index, (command, event) in enumerate(zip(case.commands, events)):
        if is_refused_write(event):
            case = with_line(case, command.line, line_of_part(event, loads[index] if loads else None))
    return case


@dataclass(frozen=True)
class System:
    """A system that the peer may be like: a script, its swap areas and the rules of Linux that hold."""

    case: Case
    rules: int = Rules.LINUX


def systems(it: System, has_system_limits: bool) -> Iterator[tuple[str, System]]:
    """Other systems, with what explains a difference if the peer is like them."""
    case, (shmmax, shmmni, shmall, frames, memlock) = it.case, it.case.limits
    most = {name: high for name, (_, high) in (LARGER if case.sizes else PROFILE).items()}
    sound = [re.sub(r"fuse:(\d+):.*", r"ram:\1", word) for word in case.swap]
    yield "failing pager", replace(it, case=replace(case, swap=sound))
    yield "reserved swap", replace(it, case=replace(case, swap=list(SWAP)))
    many = max(frames, PROFILE["frames"][1])
    yield "locked pages", replace(it, case=with_limits(case, [shmmax, shmmni, shmall, many, memlock]))
    if has_system_limits:
        wide = with_limits(case, [most["shmmax"], most["shmmni"], most["shmall"], frames, memlock])
        yield "limits of the system", replace(it, case=wide)
        yield "limits of the system", replace(it, case=replace(wide, swap=list(SWAP)))
    yield "limits of the system", replace(it, rules=it.rules & ~Rules.HUGE_IS_REFUSED)


def number_of(word: str) -> int:
    """An address of an event."""
    return 0 if word == "null" else int(word, 0)


def user_of(case: Case, events: list[Event], pid: int) -> int:
    """The user of a process: that of its last setuid, or the declared one. A child has its parent's."""
    users = {it: user for it, (user, _) in case.users.items()}
    for event in events:
        if event.word == "fork" and not event.is_refused:
            users[int(event.operands[0])] = users.get(event.pid, 0)
        elif event.word == "setuid" and not event.is_refused:
            users[event.pid] = int(event.operands[0])
    return users.get(pid, 0)


def may_have_most_pieces(case: Case, events: list[Event]) -> bool:
    """Whether a process may have as many pieces as it may; a remap makes up to two more."""
    most = case.sizes[0] if case.sizes else PIECES
    made = {"shmat": 1, "munmap": 1, "mprotect": 2}
    return sum(made.get(it.word, 0) + 2 * ("remap" in " ".join(it.operands))
               for it in events if not it.is_refused) >= most


def left(case: Case, before: list[Event], event: Event, other: Event) -> str:
    """The difference that no machine of a script shows; nothing if it is another one."""
    if event.word not in ("shmat", "munmap", "mprotect"):
        return ""
    address = number_of(event.operands[1]) if event.word == "shmat" else 0
    is_low = 0 < address < LOWEST
    if event.reply == "ENOMEM" and may_have_most_pieces(case, before):
        return "limits of the system" if not other.is_refused or is_low and other.reply == "EPERM" else ""
    if other.is_refused or not is_low or number_of(other.reply) != address - address % PAGE:
        return ""
    is_user_0 = user_of(case, before, event.pid) == 0
    return {"EINVAL": "lowest address" if is_user_0 else "", "EPERM": "limits of the system"}.get(event.reply, "")


@dataclass
class Explainer:
    """The replies that the peer should give, as far as they are explained."""

    machine: Machine | None
    system: System
    events: list[Event]         # of the program
    others: list[Event]
    is_linux: bool
    has_clock: bool
    has_system_limits: bool
    name: str = ""              # what explained the last difference that rules do not
    told: list[Event] = field(default_factory=list)

    def is_like(self, ours: Event, other: Event) -> bool:
        reply = ours.reply if self.has_clock else without_clock(ours.reply)
        return ours.call == other.call and reply == other.reply

    def current(self, index: int) -> Event:
        """The event that the peer's is compared with: the program's, until a difference was explained."""
        return (self.told or self.events)[index]

    def explain(self, index: int) -> tuple[str, bool] | None:
        """What explains the peer's reply, and whether both sides are in the same state after it."""
        other = self.others[index]
        if self.machine is None:
            return None
        if not self.told:
            self.told = self.events if self.is_linux else self.answers(self.system)
        if self.is_like(self.told[index], other):
            return self.rule(index), True
        for name, system in [*systems(self.system, self.has_system_limits), ("whole access", self.of_parts())]:
            if system != self.system and self.takes(system, index):
                self.name = name
                return name, True
        name = left(self.system.case, self.told[:index], self.told[index], other)
        return (name, other.is_refused) if name else None

    def of_parts(self) -> System:
        """A system that makes the first part of each write that is refused."""
        case = self.system.case
        if not any(map(is_refused_write, self.told)):
            return self.system
        loads = self.answers(replace(self.system, case=with_parts(case, self.told)))
        return replace(self.system, case=with_parts(case, self.told, loads))

    def answers(self, system: System, rules: int = Rules.LINUX) -> list[Event]:
        assert self.machine is not None
        return self.machine.events(system.case, system.rules & rules)

    def takes(self, system: System, index: int) -> bool:
        """Whether the peer is like this system up to here; then it is compared with it from now on."""
        found = self.answers(system)
        if system.case.text != self.system.case.text:   # a part of a write is no call of the script
            found = [was if is_refused_write(was) else it for was, it in zip(self.told, found)]
        before = zip(found[:index], self.told[:index], self.others[:index])
        if not self.is_like(found[index], self.others[index]) or not all(
                other.is_skipped or self.is_like(it, other) or not self.is_like(was, other)
                for it, was, other in before):
            return False
        self.system, self.told = system, found
        return True

    def rule(self, index: int) -> str:
        """The first rule without which the reply is another one; or, if two rules have the same effect, the
        first with which alone it is the peer's. If there is none, the system explains the reply."""
        rules = {} if self.is_linux else RULES
        for name, rule in rules.items():
            if not self.is_like(self.answers(self.system, Rules.LINUX & ~rule)[index], self.others[index]):
                return name
        for name, rule in rules.items():
            if not self.name and self.is_like(self.answers(self.system, rule)[index], self.others[index]):
                return name
        return self.name or "several rules"
