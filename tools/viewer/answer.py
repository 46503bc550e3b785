#!/usr/bin/env -S python3 -B
"""Answers one run of the page that `shmview --serve` opens. It is a process of its own, so that it can be
limited and ended.

    tools/viewer/answer.py run PROGRAM SWAP... < SCRIPT    with the Python package in PYTHONPATH
    tools/viewer/answer.py orders CHECKER < SCRIPT         every order, by shmcheck
    tools/viewer/answer.py exists CHECKER CONDITION < SCRIPT
                                                           an order whose replies meet the condition
    tools/viewer/answer.py threads SHMSIM SWAP... < SCRIPT the order of a run with threads

Prints JSON. A script that can be run has `record` and `told`, as tools/viewer/show.py puts them into a page,
the `outcomes` of its orders or of the one that was found, or the `schedule` of one. Any other has `line`,
`column` and `length` of its fault. `words` is what `shmsim --explain` says of it, warnings included.
"""

from __future__ import annotations

import json
import os
import resource
import subprocess
import sys
import time
from typing import Any

from nogcuvema.explain import explain
from nogcuvema.script import ScriptFault, read_script
from show import shortened, told_of

# the search for every order begins anew with each bound on its runs, and ends with its time
BOUNDS, ORDER_SECONDS = [10 ** digits for digits in range(2, 8)], 8
# the statuses of shmcheck: undecided, and no order
UNDECIDED, NO_ORDER = 5, 6


def read_fault(text: str) -> Any:
    """Returns where a script's first fault is, None if it has none, and the messages about the script."""
    words = explain(text)
    try:
        read_script(text)
    except ScriptFault as fault:
        return {"line": fault.line, "column": fault.column, "length": len(fault.word)}, words
    return None, words


def limited(program: Any) -> Any:
    """The words and the environment of a run. It is under the limits of this process; but an unproved
    program, which is built with an address sanitizer, reserves terabytes that it never uses, and gets its
    limit by options of its own."""
    if "/unproved/" not in program:
        return [program], None
    options = f"hard_rss_limit_mb={resource.getrlimit(resource.RLIMIT_AS)[0] >> 20}"
    words = ["sh", "-c", "ulimit -S -v unlimited; exec \"$@\"", "sh", program]
    return words, {**os.environ, "ASAN_OPTIONS": options}


def answer(program: Any, swaps: Any, text: str) -> Any:
    fault, words = read_fault(text)
    if fault:
        return {**fault, "words": words}
    words_of_run, environment = limited(program)
    done = subprocess.run([*words_of_run, *swaps], input=text.encode("latin-1"), capture_output=True,
                          check=False, env=environment)
    if done.returncode:
        return {"line": 0, "column": 0, "length": 0,
                "words": [done.stderr.decode(errors="replace").strip() or "the run was ended"]}
    record = done.stdout.decode("latin-1")
    return {"record": shortened(record), "told": told_of(record, text), "words": words}


def outcomes_of(text: str) -> list[dict[str, Any]]:
    """Reads the outcomes that shmcheck prints: each has its schedule, and the lines of each process."""
    found: list[dict[str, Any]] = []
    for words in map(str.split, text.splitlines()):
        if words[0] == "outcome":
            found.append({"lines": {}})
        elif words[0] == "schedule":
            found[-1]["schedule"] = words[1:]
        elif words[0] != "outcomes":
            found[-1]["lines"].setdefault(words[0], []).append(" ".join(words[1:]))
    return found


def searched(checker: str, question: list[str], ends: tuple[int, ...], text: str) -> Any:
    """What `shmcheck outcomes` prints for a question, if its status is one of `ends`; otherwise an answer
    that says why not, or how far the search came in its time."""
    fault, words = read_fault(text)
    if fault:
        return {**fault, "words": words}
    command, environment = limited(checker)
    most, end = 0, time.monotonic() + ORDER_SECONDS
    for bound in BOUNDS:
        try:
            done = subprocess.run([*command, "outcomes", *question, "--at-most", str(bound)], env=environment,
                                  input=text.encode("latin-1"), capture_output=True, check=False,
                                  timeout=max(.1, end - time.monotonic()))
        except subprocess.TimeoutExpired:
            break
        if done.returncode in ends:
            return done.stdout.decode("latin-1")
        if done.returncode != UNDECIDED:
            return {"words": [done.stderr.decode(errors="replace").strip() or "the search was ended"]}
        most = bound
    return {"words": [f"The script has too many orders: in {ORDER_SECONDS} seconds the search met more than "
                      f"{most} different beginnings of orders. Try fewer lines or processes."]}


def orders(checker: str, _swaps: list[str], text: str) -> Any:
    """Every order of the processes, or how far the search came in its time."""
    said = searched(checker, [], (0,), text)
    return {"outcomes": outcomes_of(said), "words": []} if isinstance(said, str) else said


def exists(checker: str, condition: list[str], text: str) -> Any:
    """The outcome of an order whose replies meet a condition; none if no order of all does."""
    said = searched(checker, ["--exists", *condition], (0, NO_ORDER), text)
    if not isinstance(said, str):
        return said
    return {"outcomes": outcomes_of(said.partition("\n")[2]), "words": []}


def threaded(program: str, swaps: list[str], text: str) -> Any:
    """The order of the calls of a run with a thread for each process, with their replies."""
    fault, words = read_fault(text)
    if fault:
        return {**fault, "words": words}
    command, environment = limited(program)
    done = subprocess.run([*command, "threads", *swaps], input=text.encode("latin-1"), capture_output=True,
                          check=False, env=environment)
    if done.returncode:
        return {"words": [done.stderr.decode(errors="replace").strip() or "the run was ended"]}
    lines = done.stdout.decode("latin-1").partition("key ")[0].splitlines()
    return {"schedule": [line.split()[1] for line in lines], "lines": lines, "words": []}


ANSWERS = {"run": answer, "orders": orders, "exists": exists, "threads": threaded}

if __name__ == "__main__":
    kind, path, *rest = sys.argv[1:]
    print(json.dumps(ANSWERS[kind](path, rest, sys.stdin.buffer.read().decode("latin-1"))))
