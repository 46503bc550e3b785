"""What explains a difference from the peer: each rule of Linux, and other systems, by the proved machine; a few
differences that no machine of a script shows; and replies close to all of these, which nothing explains."""

from __future__ import annotations

import re
from dataclasses import replace
from typing import Any

import pytest

from nogconform.compare import Result, against_peer
from nogconform.explain import LEFT, RULES, Machine, left
from nogconform.running import build_library
from nogconform.script import SWAP, Case, Event, read_case, without_clock
from nogcuvema.machine import Rules

HEAD = "limits 65536 16 64 8 2\nprocess 1 100 100\nprocess 2 0 0\nchild 3\n"
FEW_FRAMES = HEAD.replace(" 8 2", " 4 2")
MADE = "1 shmget private 8192 600\n1 shmat 0 null -\n"
# under each rule of Linux the last but one reply is another one; the last call is compared too
BY_RULES = {
    "removed identifier": "1 shmget private 1 600\n1 rmid 0\n1 stat 0\n1 exec\n",
    "execute bits": "1 shmget 7 1 600,creat\n1 shmget 7 1 700\n1 exec\n",
    "time of fork": "1 shmget private 1 606\n1 shmat 0 null -\n2 shmat 0 null -\n1 fork 3\n1 stat 0\n1 exec\n",
    "rest is attached": MADE + "1 shmget private 1 600\n1 shmat 1 0x40001000 remap\n1 stat 0\n1 exec\n",
    "end of addresses": "1 shmget private 8192 600\n1 shmat 0 0x7fffffffe000 -\n1 exec\n",
    "lowest address": "1 shmget private 1 600\n1 shmat 0 0x1000 -\n1 exec\n",
    "largest user": "1 shmget private 1 600\n1 set 0 4294967295 1 600\n1 exec\n",
    "number of pieces": "1 shmget private 1 600\n" + 257 * "1 shmat 0 null -\n" + "1 exec\n",
    "locked pages": "1 shmget private 8192 600\n1 lock 0\n1 shmget private 1 600\n2 lock 1\n1 exec\n",
    "execute flag": "1 shmget private 1 600\n1 shmat 0 null exec\n1 exec\n",
    "huge pages": "1 shmget private 1 600,hugetlb\n1 exec\n"}
# the name, the script and its areas, and the peer's limits and areas
ON_SYSTEMS = (
    ("reserved swap", HEAD + "1 shmget private 8192 600\n1 shmat 0 null -\n1 load 0x40001000 1\n", ["ram:1"],
     "limits 65536 16 64 8 2", SWAP),
    ("failing pager", HEAD.replace(" 8 2", " 2 0") + "1 shmget private 16384 600\n1 shmat 0 null -\n"
     "1 store 0x40000000 01\n1 store 0x40001000 02\n1 store 0x40002000 03\n1 load 0x40002000 1\n", ["fuse:8:w1"],
     "limits 65536 16 64 2 0", ["ram:8"]),
    ("locked pages", FEW_FRAMES + "2 shmget private 12288 600\n2 lock 0\n2 stat 0\n", SWAP,
     "limits 65536 16 64 4096 2", SWAP),
    ("limits of the system", HEAD.replace("65536 16", "4096 1") + "1 shmget private 8192 600\n"
     "1 shmget private 1 600\n1 exec\n", SWAP, "limits 16777216 4096 65536 8 2", SWAP))
# the name, a script, and the peer's reply to its last call, which no machine of a script gives
BY_HAND = (
    ("lowest address", "2 shmget private 1 600\n2 shmat 0 0x1000 -\n", "0x1000"),
    ("limits of the system", "1 shmget private 1 600\n1 shmat 0 0x1000 -\n", "0x1000"),
    ("limits of the system", "1 shmget private 1 600\n" + 257 * "1 shmat 0 null -\n", "0x40100000"))
WRONG = ("EIO", "ENFILE", "errno75", "77", "0x50000000", "ok", "0x", "key=1", "EINVALL", "=", "\ufffd",
         "18446744073709551616")


@pytest.fixture(scope="module")
def machine(library: Any, tmp_path_factory: Any) -> Machine:
    program, _, has_rules = build_library(str(tmp_path_factory.mktemp("machine")), library)
    if not has_rules:
        pytest.skip("this library has no rules")
    return Machine([program], True, 10)


def case_of(text: str, swap: list[str] | None = None) -> Case:
    return replace(read_case("one", text, is_strict=False, has_flags=True), swap=swap or list(SWAP))


def changed(others: list[Event], index: int, reply: str) -> list[Event]:
    return [*others[:index], replace(others[index], reply=reply), *others[index + 1:]]


def check(machine: Machine, case: Case, others: list[Event], name: str, **how: bool) -> Result:
    """Under the profile the name explains each difference, and nothing explains a wrong reply."""
    events = machine.events(case, 0)
    result = against_peer(case, events, others, machine, **how)
    assert not result.different
    assert {*result.by_rule} == {name}
    index = next(at for at, (it, other) in enumerate(zip(events, others)) if it.reply != other.reply)
    # a system with more pieces may choose any address
    is_chosen = name == "number of pieces"
    for reply in WRONG:
        if reply not in (events[index].reply, others[index].reply, "0x50000000" if is_chosen else ""):
            wrong = against_peer(case, events, changed(others, index, reply), machine, **how)
            assert [it.call for it in wrong.different][:1] == [events[index].call], reply
    return result


@pytest.mark.parametrize("name", RULES)
def test_rule(machine: Machine, name: str) -> None:
    """The peer follows Linux: the rule is named, and all that comes after is compared."""
    case = case_of(HEAD + BY_RULES[name])
    result = check(machine, case, machine.events(case, Rules.LINUX), name, has_clock=True)
    assert (result.by_rule, result.skipped) == ({name: 1}, {})
    others = machine.events(case, RULES[name])
    assert against_peer(case, machine.events(case, 0), others, machine, has_clock=True).by_rule == {name: 1}


@pytest.mark.parametrize("name, text, swap, limits, areas", ON_SYSTEMS, ids=[it[0] for it in ON_SYSTEMS])
def test_system(machine: Machine, name: str, text: str, swap: list[str], limits: str, areas: list[str]) -> None:
    """The peer is on another system: its name explains, and all that comes after is compared."""
    case = case_of(text, swap)
    others = machine.events(case_of(re.sub("limits .*", limits, text), list(areas)), Rules.LINUX)
    how = {"has_system_limits": name == "limits of the system", "has_clock": True}
    assert check(machine, case, others, name, **how).skipped == {}
    linux = against_peer(case, machine.events(case, Rules.LINUX), others, machine, is_linux=True, **how)
    assert ({*linux.by_rule}, linux.different, linux.skipped) == ({name}, [], {})


def test_another_call(machine: Machine) -> None:
    """The same reply to another call is a difference."""
    case = case_of(HEAD + "1 shmget private 1 600\n")
    events = machine.events(case, 0)
    others = [replace(events[0], operands=["0x00000000", "2", "600"])]
    assert against_peer(case, events, others, machine).different


def test_rules_with_one_effect(machine: Machine) -> None:
    """A fork and an mprotect set the same last pid, each by a rule: the first of them is named."""
    case = case_of(HEAD + "1 shmget private 8192 606\n1 shmat 0 null -\n2 shmat 0 null -\n1 fork 3\n"
                          "1 mprotect 0x40000000 4096 ro\n1 stat 0\n")
    others = [replace(it, reply=without_clock(it.reply)) for it in machine.events(case, Rules.LINUX)]
    assert against_peer(case, machine.events(case, 0), others, machine).by_rule == {"time of fork": 1}


def test_system_from_the_start(machine: Machine) -> None:
    """More slots explain nothing if an earlier call was refused for want of slots."""
    case = case_of(HEAD + 2 * "1 shmget private 8192 600\n", ["ram:1"])
    events = machine.events(case, 0)
    assert [it.reply for it in events] == ["ENOMEM", "ENOMEM"]
    assert against_peer(case, events, changed(events, 1, "1"), machine).different


def test_limits_and_slots(machine: Machine) -> None:
    """The peer has other limits and more slots, and one call needs both."""
    case = case_of(HEAD.replace("65536 16", "4096 16") + "1 shmget private 8192 600\n1 exec\n", ["ram:1"])
    others = machine.events(case_of(HEAD + "1 shmget private 8192 600\n1 exec\n"), Rules.LINUX)
    result = against_peer(case, machine.events(case, 0), others, machine, has_system_limits=True)
    assert (result.by_rule, result.different, result.skipped) == ({"limits of the system": 1}, [], {})


def test_system_limits(machine: Machine) -> None:
    """Limits of the system explain nothing if the peer has the script's."""
    _, text, swap, limits, areas = ON_SYSTEMS[-1]
    case = case_of(text, swap)
    others = machine.events(case_of(re.sub("limits .*", limits, text), areas), Rules.LINUX)
    assert against_peer(case, machine.events(case, 0), others, machine).different


@pytest.mark.parametrize("user", [1, 2])
def test_pool_of_huge_pages(machine: Machine, user: int) -> None:
    """The peer has huge pages: it makes the segment, and all that comes after is compared."""
    case = case_of(HEAD + f"{user} shmget private 1 600,hugetlb\n{user} stat 0\n")
    others = machine.events(case, Rules.LINUX & ~Rules.HUGE_IS_REFUSED)
    events = machine.events(case, Rules.LINUX)
    assert [it.reply for it in events] == ["EPERM" if user == 1 else "ENOMEM", "EINVAL"]
    result = against_peer(case, events, others, machine, is_linux=True, has_clock=True)
    assert (result.by_rule, result.different, result.skipped) == ({"limits of the system": 2}, [], {})
    assert against_peer(case, events, changed(others, 0, "1"), machine, is_linux=True).different


WRITES = ("1 shmget private 4096 600\n1 shmat 0 null -\n1 shmat 0 0x40001000 rdonly\n2 shmat 0 null -\n"
          "2 store 0x40000ff8 0102030405060708\n")


@pytest.mark.parametrize("write, loads", [
    ("1 store 0x40000ffe aabbccdd", "010203040506aabb"), ("1 xadd 0x40000ffc 1", "0102030406060708"),
    ("1 xadd 0x40000ffc 0xff", "0102030404070708"), ("1 swap 0x40000ffe aabbccdd", "010203040506aabb"),
    ("1 cas 0x40000ffe 07080000 aabbccdd", "010203040506aabb")])
def test_whole_access(machine: Machine, write: str, loads: str) -> None:
    """Linux keeps the bytes that a write made before its SIGSEGV."""
    case = case_of(HEAD + WRITES + f"{write}\n1 load 0x40000ff8 8\n1 xadd 0x40000ff8 1\n")
    others = changed(machine.events(case, Rules.LINUX), 6, loads)
    others = changed(others, 7, str(int.from_bytes(bytes.fromhex(loads), "little")))
    assert [it.reply for it in others[4:6]] == ["ok", "SIGSEGV"]
    assert check(machine, case, others, "whole access").by_rule == {"whole access": 2}


@pytest.mark.parametrize("is_linux", [False, True])
@pytest.mark.parametrize("name, text, reply", BY_HAND)
def test_left(machine: Machine, name: str, text: str, reply: str, is_linux: bool) -> None:
    """These end the comparison."""
    case = case_of(HEAD + text + "1 exec\n")
    events = machine.events(case, Rules.LINUX if is_linux else 0)
    others = changed(machine.events(case, Rules.LINUX), len(events) - 2, reply)
    result = against_peer(case, events, others, machine, is_linux=is_linux)
    assert (result.by_rule, result.different) == ({name: 1}, [])
    assert result.skipped == {"after a difference that changes the state": 1}
    malformed = changed(others, len(events) - 2, "0x")
    assert against_peer(case, events, malformed, machine, is_linux=is_linux).different


def test_near_misses() -> None:
    """Neither another user, nor another address, nor a piece less is left."""
    case = case_of(HEAD + "1 fork 3\n")
    born, low = Event(1, 2, "fork", ["3"], "ok"), Event(1, 3, "shmat", ["0", "0x1000", "-"], "EINVAL")
    there = replace(low, reply="0x1000")
    assert left(case, [born], low, there) == "lowest address"
    assert not left(case, [replace(born, pid=1)], low, there)
    lowest = replace(low, operands=["0", "0x10000", "-"])
    assert not left(case, [born], lowest, replace(lowest, reply="0x10000"))
    assert not left(case, [born], low, replace(low, reply="EPERM"))
    full, made = replace(low, operands=["0", "null", "-"], reply="ENOMEM"), replace(there, pid=1)
    assert left(case, 256 * [made], full, there) == "limits of the system"
    assert not left(case, 255 * [made], full, there)
    assert not left(case, 256 * [replace(made, reply="EACCES")], full, there)
    assert not left(case, 256 * [made], replace(full, reply="EINVAL"), there)
    refused = replace(low, reply="EPERM")
    assert left(case, 256 * [made], replace(low, reply="ENOMEM"), refused) == "limits of the system"
    assert not left(case, 256 * [made], full, refused)
    assert not left(case, 256 * [made], replace(low, reply="ENOMEM"), replace(refused, reply="EACCES"))


def test_without_a_machine() -> None:
    """Nothing is explained if no shmsim is built."""
    case = case_of(HEAD + "1 stat 0\n")
    event = Event(1, 1, "stat", ["0"], "EIDRM")
    result = against_peer(case, [event], [replace(event, reply="EINVAL")])
    assert (len(result.different), result.by_rule) == (1, {})


def test_names() -> None:
    assert {*BY_RULES} == {*RULES}
    assert {name for name, *_ in (*ON_SYSTEMS, *BY_HAND)} | {"whole access"} == {*LEFT}
