"""The crates that crates.txt names, and rooms in which several can be built at the same time. As a command it
prints how many checks may run at the same time.

While rt runs in a crate, no other run can use the crates below it. So each build gets a room: a folder with
the sources of the crate and of all crates below it, and with the built libraries below it, as hard links if
possible (`furnish`).
"""
from __future__ import annotations

import contextlib
import fcntl
import os
import re
import shutil
import tempfile
from collections.abc import Iterable, Iterator
from pathlib import Path

TOP = os.path.dirname(os.path.dirname(os.path.realpath(__file__)))
ROOMS = f"{TOP}/build"
# about the most bytes that a check needs
CHECK = 2_500_000_000


@contextlib.contextmanager
def alone() -> Iterator[None]:
    """Keeps other runs of the tools out of the rooms. Removes the files of a run that was killed."""
    os.makedirs(ROOMS, exist_ok=True)
    with open(f"{ROOMS}/lock", "w", encoding="utf-8") as lock:
        fcntl.flock(lock, fcntl.LOCK_EX)
        for name in os.listdir(ROOMS):
            if name.startswith("room-"):
                shutil.rmtree(f"{ROOMS}/{name}", ignore_errors=True)
        yield


def new_room() -> tempfile.TemporaryDirectory[str]:
    return tempfile.TemporaryDirectory(prefix="room-", dir=ROOMS)


def graph() -> dict[str, list[str]]:
    """Returns each crate of crates.txt with the crates that it names, lowest first."""
    named = {}
    with open(f"{TOP}/crates.txt", encoding="utf-8") as file:
        for line in file:
            head, _, rest = line.partition("#")[0].partition(":")
            if head.split():
                named[head.split()[0]] = rest.split()
    return {crate: [it for it in names if it in named] for crate, names in named.items()}


def all_below(below: dict[str, list[str]], crate: str) -> set[str]:
    """Returns all crates that a crate uses, directly or through others."""
    found = set()
    for it in below[crate]:
        found |= {it} | all_below(below, it)
    return found


def lines(crate: str) -> int:
    """Returns about how much there is to prove, in lines of code without tests; lemmas cost little."""
    found = 0
    for at, _, files in os.walk(f"{TOP}/crates/{crate}/src"):
        for name in files:
            if name.endswith(".rt") and "tests" not in name:
                found += Path(f"{at}/{name}").read_bytes().count(b"\n")
    return found


def free_memory() -> int:
    return 1024 * int(re.findall(r"MemAvailable:\s+(\d+)", Path("/proc/meminfo").read_text("utf-8"))[0])


def lanes() -> int:
    """Returns how many checks of one job may run at the same time."""
    return max(1, min(len(os.sched_getaffinity(0)), free_memory() // CHECK))


def link_or_copy(source: str, to: str) -> None:
    try:
        os.link(source, to)
    except OSError:
        shutil.copy2(source, to)


def furnish(room: str, crate: str, below: Iterable[str]) -> None:
    """Puts the sources of the crate and of those below it into the room, with the latter's libraries."""
    with open(f"{TOP}/crates.txt", encoding="utf-8") as file:
        kept = [line for line in file if re.split(r"\W", line)[0] in {crate, *below}]
    with open(f"{room}/crates.txt", "w", encoding="utf-8") as written:
        written.writelines(kept)
    for it in [crate, *below]:
        for part in os.listdir(f"{TOP}/crates/{it}"):
            source, to = f"{TOP}/crates/{it}/{part}", f"{room}/crates/{it}/{part}"
            if part == "out":
                if it == crate:
                    continue
                source, to = f"{source}/rlib", f"{to}/rlib"
            if os.path.isfile(source):
                os.makedirs(os.path.dirname(to), exist_ok=True)
                link_or_copy(source, to)
            elif os.path.isdir(source):
                shutil.copytree(source, to, copy_function=link_or_copy)


if __name__ == "__main__":
    print(lanes())
