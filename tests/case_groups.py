"""The conformance cases by the limits that they need, for tests of the peer for small kernels."""

from __future__ import annotations

import glob
import re

from commands import TOP, text_of
from nogconform.script import read_case

CASES = f"{TOP}/conformance/cases"
Group = tuple[int, int, int, int, int]
# the usual one of cases
MEMLOCK = 4
# as on Linux, the cases of failing areas are made over one that does not fail, and no area is taken away
FAILING = ("failing_read", "failing_reads_of_stores", "failing_write", "failing_swapoff_without_room")
EXPLAINED = {"swap_taken_away": "reserved swap"} | dict.fromkeys(FAILING, "failing pager")


def slots_of(swap: list[str]) -> int:
    areas = [re.fullmatch(r"ram:(\d+)", word) for word in swap]
    return sum(int(area[1]) for area in areas if area) if all(areas) else 2048


def groups_of_cases() -> dict[Group, list[str]]:
    """The paths of all cases by what they need: shmmax, shmmni, shmall, slots, and the memlock of locks."""
    groups: dict[Group, list[str]] = {}
    for path in sorted(glob.glob(f"{CASES}/*.shm")) + sorted(glob.glob(f"{CASES}/rules/*.shm")):
        case = read_case(path, text_of(path), has_flags="/rules/" in path)
        locks = any(command.text.split()[1] == "lock" for command in case.commands)
        shmmax, shmmni, shmall, _frames, memlock = case.limits
        group = (shmmax, shmmni, shmall, slots_of(case.swap), memlock if locks else MEMLOCK)
        groups.setdefault(group, []).append(path)
    return groups


def is_right(name: str, verdict: str) -> bool:
    """A case agrees, or it is one of failing areas."""
    why = EXPLAINED.get(name)
    return verdict == "agree" or bool(why and re.match(rf"profile \({why} \d+\)", verdict))
