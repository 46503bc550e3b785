#!/usr/bin/env -S python3 -B
"""Adds to the record of a run what each step changed.

    tools/viewer/show.py page [SCRIPT [STEPS]] < RECORD    one HTML page, which needs nothing else
    tools/viewer/show.py text [SCRIPT [STEPS]] < RECORD    the record for a terminal

SCRIPT is the file of the script, and STEPS are those that were asked for, as in 3-12. The record may begin
earlier: the first step is then compared with the one before it, and a page has the bytes that earlier steps
left. All is there before the first byte is written.
"""

from __future__ import annotations

import json
import os
import re
import sys
from pathlib import Path
from typing import Any, Optional, Tuple

from record import all_sentences, reached, read_record, turns

HERE = os.path.dirname(os.path.abspath(__file__))
# a line of a script, and the number of its step if it has one
Line = Tuple[str, Optional[int]]


# the task of a lesson, in comments of its file
TASK = re.compile(r"^# (task|goal|hint): (.*)\n?", re.M)


def task_of(script: str) -> dict[str, str] | None:
    """Returns the task of a script: its words, its goal, which the page checks, and its hint. A script that
    lacks one of them has no task."""
    found = dict(TASK.findall(script))
    return found if len(found) == 3 else None


def without_task(script: str) -> str:
    return TASK.sub("", script) if task_of(script) else script


def lines_of(script: str) -> list[Line]:
    """The lines of a script without its task, each with its step's number, if it begins with a number."""
    lines: list[Line] = []
    step = 0
    for line in without_task(script).rstrip("\n").split("\n"):
        is_step = line.strip()[:1].isdigit()
        step += is_step
        lines.append((line, step if is_step else None))
    return lines


def title_of(lines: list[Line]) -> str:
    """Returns the first comment of a script."""
    comments = (line.strip().lstrip("#").strip() for line, _step in lines if line.strip().startswith("#"))
    return next(filter(None, comments), "")


def range_of(steps: str) -> tuple[int, int | None]:
    """Returns the first and the last number of the chosen steps; of all steps if none were chosen."""
    first, last = steps.split("-") if steps else ("0", "")
    return int(first), int(last) if last else None


def told_of(text: str, script: str = "", asked: str = "") -> dict[str, Any]:
    """Returns what a page shows in addition to the record of a run. The bytes of a page are zeros, and later
    those that accesses stored. In a segment that is older than the record they are unknown until an access
    names them."""
    first, last = range_of(asked)
    steps, lines = read_record(text), lines_of(script) if script else []
    shown = [step for step in steps if step.number >= first - 1]
    return {
        "title": title_of(lines),
        "script": lines,
        "task": task_of(script),
        "first": first,
        "last": last,
        "said": dict(all_sentences(shown, first)),
        "reached": {step.number: found for step in steps for found in [reached(step)] if found},
        "turns": {step.number: found for before,
                  step in zip(shown, shown[1:]) for found in [turns(before, step)] if found},
        "unknown": [*steps[0].segments] if steps and steps[0].number else [],
    }


def shown_part(text: str, asked: str) -> str:
    """Returns the record from the step before the first chosen one."""
    first, _last = range_of(asked)
    return "".join(block + "\n\n" for block in text.split("\n\n") if block
                   and int(block.split()[1]) >= first - 1)


def shortened(text: str) -> str:
    """Returns a record with the differences from step to step: `=N` repeats the next N lines of the step
    before, and `-N` skips N of them. No line of a record begins this way. Each other line is new."""
    blocks: list[str] = []
    old: list[str] = []
    for block in filter(None, text.split("\n\n")):
        lines, at = block.split("\n"), 0
        made: list[str] = []
        places = {line: place for place, line in enumerate(old)}
        same = 0
        for line in lines:
            place = places.get(line, -1)
            if same and place != at:
                made.append(f"={same}")
                same = 0
            if place >= at:
                if place > at:
                    made.append(f"-{place - at}")
                same, at = same + 1, place + 1
            else:
                made.append(line)
        blocks.append("\n".join([*made, *[f"={same}"] * bool(same)]))
        old = lines
    return "".join(block + "\n\n" for block in blocks)


def filled(text: str, told: dict[str, Any]) -> str:
    """The page of a shortened record. The record has no character that HTML reads as its own; all else is
    JSON, in which `<` is written as an escape."""
    template = Path(os.path.join(HERE, "page.html")).read_text("utf-8")
    head, rest = template.split("@RECORD@")
    middle, tail = rest.split("@TOLD@")
    return head + text + middle + json.dumps(told).replace("<", "\\u003c") + tail


def page(text: str, script: str = "", asked: str = "") -> str:
    return filled(shortened(shown_part(text, asked)), told_of(text, script, asked))


def terminal(text: str, _script: str = "", asked: str = "") -> str:
    """Each block, with the changes after its second line, which says what the step did."""
    blocks = []
    first, _last = range_of(asked)
    chosen = [block for block in text.split("\n\n") if block and int(block.split()[1]) >= first]
    for block, (_number, said) in zip(chosen, all_sentences(read_record(text), first)):
        step, action, *lines = block.split("\n")
        blocks.append("\n".join([step, action, *(f"    {line}" for line in said), *lines]))
    return "".join(block + "\n\n" for block in blocks)


def say_outside(text: str, script: str, asked: str) -> None:
    """Says on standard error that a run has none of the chosen steps."""
    first, last = range_of(asked)
    if not any(step.number >= first for step in read_record(text)):
        most = sum(step is not None for _line, step in lines_of(script))
        print(f"shmview: the run has no step from {first} to {last}: its last is step {most}",
              file=sys.stderr)


def main(how: str, path: str | None = None, asked: str = "") -> None:
    text, script = sys.stdin.read(), ""
    if path:
        with open(path, encoding="utf-8", errors="replace") as file:
            script = file.read()
    out = (page if how == "page" else terminal)(text, script, asked).encode()
    with open(sys.stdout.fileno(), "wb", closefd=False) as writer:
        writer.write(out)
    if asked:
        say_outside(text, script, asked)


if __name__ == "__main__":
    try:
        main(*sys.argv[1:])
    except MemoryError:
        print("shmview: out of memory", file=sys.stderr)
        sys.exit(4)
    except OSError:
        print("shmview: write failed", file=sys.stderr)
        sys.exit(3)
