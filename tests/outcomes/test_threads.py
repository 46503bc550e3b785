"""Runs with threads, judged.

It takes the random scripts of `./conform at-once`, of two to four processes, and runs each five times by
`./shmsim threads`. Each run has an outcome that `./shmcheck outcomes` lists, and `./shmcheck judge` finds it
legal however the log mixes the processes. A log in which one reply is that of another outcome is legal
exactly if an outcome of the list has all its replies.

`--runs N` makes N runs instead of 200, and `--seed S` takes the scripts of another seed than 1.
"""

from __future__ import annotations

import random
import re
import tempfile
from typing import Any, Tuple

import pytest

from commands import run
from nogconform.at_once import make_script

# runs of one script, and the most lines of a script whose outcomes are listed
EACH, MOST = 5, 8
# for each process its lines, in its order
ByProcess = Tuple[Tuple[str, Tuple[str, ...]], ...]


def masked(line: str) -> str:
    return re.sub(r"([adc]time)=[1-9][0-9]*", r"\1=set", line)


def by_process(lines: list[str]) -> ByProcess:
    """The lines of each process in its order, as a value that can be compared."""
    own: dict[str, list[str]] = {}
    for line in lines:
        own.setdefault(line.split()[0], []).append(line)
    return tuple(sorted((pid, tuple(it)) for pid, it in own.items()))


def replies_of(found: ByProcess) -> ByProcess:
    return tuple((pid, tuple(it.partition(" = ")[2] for it in own)) for pid, own in found)


def outcomes_of(shmcheck: Any, script: str) -> tuple[int, str, set[ByProcess]]:
    """The outcomes that are listed, each by process."""
    status, printed, said = run([shmcheck, "outcomes"], script)
    found: list[list[str]] = []
    for line in printed.splitlines()[:-1]:
        if line.startswith("outcome "):
            found.append([])
        elif not line.startswith("schedule"):
            found[-1].append(line)
    return status, said, {by_process(it) for it in found}


def events_of(shmsim: Any, script: str) -> tuple[int, str, list[str]]:
    """The replies of a run with threads, in the order of its history, without places, times masked."""
    status, printed, said = run([shmsim, "threads", "ram:64"], script)
    lines = [masked(it.split(" ", 1)[1]) for it in printed.splitlines() if re.match(r"\d+ \d+ .* = ", it)]
    return status, said, lines


def mixed(draw: random.Random, lines: list[str]) -> list[str]:
    """The lines in another order, in which each process has its own order."""
    own: dict[str, list[str]] = {}
    for line in lines:
        own.setdefault(line.split()[0], []).append(line)
    order = [line.split()[0] for line in lines]
    draw.shuffle(order)
    return [own[pid].pop(0) for pid in order]


def test_mixed() -> None:
    """Logs are in many orders, and each process's lines are in their own."""
    lines = [f"{pid} line {at}" for at in range(3) for pid in (1, 2)]
    orders = {tuple(mixed(random.Random(seed), lines)) for seed in range(100)}
    are_own = all([it for it in order if it[0] == pid] == [it for it in lines if it[0] == pid]
                  for order in orders for pid in "12")
    # two processes of three lines each have 20 orders
    assert are_own
    assert 15 <= len(orders) <= 20


def verdict(shmcheck: str, lines: list[str], script: str) -> tuple[int, str]:
    """The judge's status and output over a log of these lines."""
    with tempfile.NamedTemporaryFile("w", encoding="ascii") as file:
        file.write("".join(f"{line}\n" for line in lines))
        file.flush()
        ended = run([shmcheck, "judge", file.name], script)
        return ended.status, ended.out


def changed(draw: random.Random, lines: list[str], outcomes: set[ByProcess]) -> list[str]:
    """The lines with one reply exchanged: for the line's reply in another outcome, or for a refusal."""
    own: dict[str, int] = {}
    places: list[tuple[str, int]] = []
    for line in lines:
        pid = line.split()[0]
        places.append((pid, own.setdefault(pid, 0)))
        own[pid] += 1
    seen: dict[tuple[str, int], set[str]] = {}
    for found in outcomes:
        for pid, replies in replies_of(found):
            for at, reply in enumerate(replies):
                seen.setdefault((pid, at), set()).add(reply)
    choices = [(at, it) for at,
               place in enumerate(places) for it in sorted(seen[place]) if not lines[at].endswith(f" = {it}")]
    at, reply = draw.choice(choices or [(draw.randrange(len(lines)), "EFBIG")])
    return [*lines[:at], f"{lines[at].partition(' = ')[0]} = {reply}", *lines[at + 1:]]


def check_run(shmsim: str, shmcheck: str, draw: random.Random, script: str, outcomes: set[ByProcess]) -> None:
    """A run is legal and has an outcome of the list; with another reply it is legal if an outcome has it."""
    status, said, lines = events_of(shmsim, script)
    assert status == 0, said
    assert by_process(lines) in outcomes
    status, printed = verdict(shmcheck, mixed(draw, lines), script)
    assert (status, printed[:6]) == (0, "legal\n")
    other = changed(draw, lines, outcomes)
    is_legal = replies_of(by_process(other)) in {replies_of(it) for it in outcomes}
    status, printed = verdict(shmcheck, mixed(draw, other), script)
    assert (status, printed.split("\n")[0]) == ((0, "legal") if is_legal else (6, "illegal")), other


def test_runs(pytestconfig: pytest.Config, shmsim: str, shmcheck: str) -> None:
    runs, seed = int(pytestconfig.getoption("--runs")), pytestconfig.getoption("--seed")
    draw, number, made = random.Random(seed), 0, 0
    while made < runs:
        script = make_script(seed, number)
        number += 1
        if len([it for it in script.splitlines() if it[0].isdigit()]) > MOST:
            continue
        status, said, outcomes = outcomes_of(shmcheck, script)
        assert (status, said) == (0, "")
        for _ in range(min(EACH, runs - made)):
            check_run(shmsim, shmcheck, draw, script, outcomes)
            made += 1
