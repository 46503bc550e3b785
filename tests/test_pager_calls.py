"""How often pagers are called, over the stored scripts, which no contract says.

A program of the tests runs each script over areas that count their calls, and prints the counts after each
line. They must be those that tests/asked.py works out by the rules: reads, writes and discards of each area.
The areas are those that are stored with the script; then mirrors and sparse areas instead; then areas of
which a read or a write fails. The usage that the built program prints must follow the rules too. The counts
of tests/asked.shm were worked out by hand.

Scripts that have only ram areas and no swapoff also run under callgrind, which counts calls: in the built
program such a pager is a part of the swap's functions that call it, or has functions of its own. Each page
that it reads or writes is one copy there, and a slot that it discards is cleared. So there are as many copies
as the usage has pages in and out, and no slot is cleared meanwhile.
"""

from __future__ import annotations

import glob
import os
import re
import shutil
from collections.abc import Iterator
from typing import Any

import pytest

from asked import replay
from commands import TOP, run, text_of

READ, WRITE, PAGERS = "Swap::read_slot", "Swap::write_slot", "shm_pager"
COPY, CLEAR = re.compile(r"mem(cpy|move)"), re.compile(r"memset")
# a swapoff moves pages by a function of its own
MOVES = re.compile(r"^\d+ swapoff\b", re.MULTILINE)


def stored_scripts() -> Any:
    """The stored scripts that run in the order of their lines."""
    paths = sorted(glob.glob(f"{TOP}/tests/scripts/*/*.shm") + glob.glob(f"{TOP}/examples/*.shm"))
    return [path for path in paths if "/threads/" not in path and not os.path.exists(f"{path[:-4]}.status")]


SERIAL = stored_scripts()


def name_of(script: Any) -> Any:
    return os.path.relpath(script, TOP)


def is_compared(script: Any) -> Any:
    return not MOVES.search(text_of(script)) and all(word.startswith("ram:") for word in swap_of(script))


def swap_of(script: Any) -> Any:
    """The words for a script's swap areas."""
    return text_of(f"{script[:-4]}.swap", "ram:64").split()


def printed_by(program: Any, mode: Any, swaps: Any, script: Any) -> Any:
    done = run([program, mode, *swaps], script)
    return done.out if done.status == 0 else f"status {done.status}, {done.said}"


def compare_asks(shmsim: Any, runner: Any, script: Any, swaps: Any) -> Any:
    """Runs a script over these areas. Returns each area's counts at its end, which are those by the rules."""
    text = text_of(script)
    printed, asked = printed_by(shmsim, "serial", swaps, text), printed_by(runner, "asks", swaps, text)
    counts, usage, wrong = replay(text, printed, swaps)
    assert not wrong
    assert asked.splitlines() == [" ".join(map(str, ["asked", *numbers])) for numbers in counts]
    assert printed.endswith(usage)
    return counts[-1] if counts else []


def test_by_hand(shmsim: str, runner: str) -> None:
    """The counts of one script, by the program and by the rules, are those that were worked out by hand."""
    script, swaps = f"{TOP}/tests/asked.shm", ["ram:1", "ram:8"]
    assert printed_by(runner, "asks", swaps, text_of(script)) == text_of("tests/asked.out")
    compare_asks(shmsim, runner, script, swaps)


def other_areas(swaps: Any, asked: Any) -> Iterator[Any]:
    """Areas of the other kinds with as many slots; and areas of which a read or a write fails: the first, one
    in the middle, the last one, and one that is never made."""
    sizes = [word.split(":")[1] for word in swaps]
    yield from ([f"{kind}:{size}" for size in sizes] for kind in ("mirror", "sparse"))
    for area, size in enumerate(sizes):
        for letter, most in zip("rw", asked[3 * area:]):
            for place in sorted({1, (most + 1) // 2, most, most + 1}) if most else ():
                yield [f"fuse:{size}:{letter}{place}" if at == area else f"ram:{it}" for at,
                       it in enumerate(sizes)]


def test_scripts_ask() -> None:
    """The stored outputs have enough reads, writes, discards and moved pages to test something."""
    sums, moved = [0, 0, 0], 0
    for script in SERIAL:
        out = text_of(f"{script[:-4]}.out")
        counts, _, _ = replay(text_of(script), out, swap_of(script))
        sums = [it + sum(counts[-1][kind::3]) for kind, it in enumerate(sums)] if counts else sums
        found = re.search(r"^usage in (\d+) out (\d+) failures 0$", out, re.MULTILINE)
        moved += sum(map(int, found.groups())) if found and is_compared(script) else 0
    assert all(it >= least for it, least in zip(sums, (900, 700, 100)))
    assert moved >= 20


@pytest.mark.parametrize("script", SERIAL, ids=name_of)
def test_asks(script: str, shmsim: str, runner: str) -> None:
    """The calls of a script as it is stored; and over other areas, if it calls a pager."""
    swaps = swap_of(script)
    asked = compare_asks(shmsim, runner, script, swaps)
    for other in other_areas(swaps, asked) if any(asked) else ():
        compare_asks(shmsim, runner, script, other)


def calls_in(profile: Any) -> Any:
    """Returns how often callgrind saw each function call another, by the names of both."""
    names: dict[str, str] = {}
    counts: dict[tuple[str, str], int] = {}
    caller = called = ""
    with open(profile, encoding="utf-8", errors="replace") as file:
        for line in file:
            word, _, value = line.rstrip("\n").partition("=")
            if word in ("fn", "cfn"):
                number, _, name = value.partition(" ")
                name = names.setdefault(number, name or number)
                caller, called = (name, called) if word == "fn" else (caller, name)
            elif word == "calls":
                counts[caller, called] = counts.get((caller, called), 0) + int(value.split()[0])
    return counts


def made_by(function: str, calls: Any) -> Any:
    """Returns how often each function was called by this one, and by functions of pagers that it calls."""
    inside = {name for names in calls for name in names if function in name}
    while more := {called for caller, called in calls if caller in inside and PAGERS in called} - inside:
        inside |= more
    return [(called, many) for (caller, called), many in calls.items() if caller in inside]


@pytest.mark.skipif(not shutil.which("valgrind"), reason="there is no valgrind")
@pytest.mark.parametrize("script", [path for path in SERIAL if is_compared(path)], ids=name_of)
def test_copies(script: str, proved_shmsim: str, folder: str) -> None:
    """There are as many copies of pages as the usage has ins and outs, and no slot is cleared meanwhile."""
    profile = os.path.join(folder, "profile")
    words = ["valgrind", "-q", "--tool=callgrind", f"--callgrind-out-file={profile}", proved_shmsim, "serial",
             *swap_of(script)]
    usage = re.search(r"^usage in (\d+) out (\d+) failures 0$", run(words, text_of(script)).out, re.MULTILINE)
    calls = calls_in(profile)
    for function, number in zip((READ, WRITE), usage.groups() if usage else ()):
        asked = sum(many for (_, called), many in calls.items() if function in called)
        made = made_by(function, calls)
        copies = sum(many for called, many in made if COPY.search(called))
        cleared = sum(many for called, many in made if CLEAR.search(called))
        assert (asked, copies, cleared) == (int(number), int(number), 0)
