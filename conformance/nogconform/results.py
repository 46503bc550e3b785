"""The results of the cases, as text for people, as TAP, or as JUnit XML for the CI of a test bench."""

from __future__ import annotations

import re
import time
import xml.etree.ElementTree as xml
from dataclasses import dataclass, field
from typing import TextIO

PASSED = ("agree", "profile", "as expected")
# characters that XML does not allow
NO_TEXT = re.compile("[^\t\n\x20-\ud7ff\ue000-\ufffd]")


@dataclass
class Outcome:
    """A case: its name, the word for its result, the text in its line, and the lines below."""

    name: str
    word: str
    told: str = ""
    lines: list[str] = field(default_factory=list)
    seconds: float = 0.0

    @property
    def line(self) -> str:
        between = "" if not self.told else " " if self.word in PASSED else ": "
        return f"{self.name}: {self.word}{between}{self.told}"


class Results:
    """Takes the outcomes one after another and prints each at once."""

    def __init__(self, is_tap: bool = False, junit: TextIO | None = None) -> None:
        self.is_tap = is_tap
        self.junit = junit
        self.outcomes: list[Outcome] = []
        self.began = time.monotonic()

    def begin(self, count: int) -> None:
        if self.is_tap:
            print(f"TAP version 13\n1..{count}", flush=True)

    def take(self, outcome: Outcome) -> None:
        now = time.monotonic()
        outcome.seconds, self.began = now - self.began, now
        self.outcomes.append(outcome)
        if self.is_tap:
            self.print_tap(outcome)
        else:
            print("\n".join([outcome.line, *outcome.lines]), flush=True)

    def print_tap(self, outcome: Outcome) -> None:
        is_right = outcome.word in PASSED + ("skipped",)
        line = f"{'ok' if is_right else 'not ok'} {len(self.outcomes)} - "
        skipped = f"{outcome.name} # SKIP " + (outcome.told.replace("#", "\\#")
                                               or "no command can be made there")
        line += skipped if outcome.word == "skipped" else outcome.line.replace("#", "\\#")
        print("\n".join([line, *("# " + it for text in outcome.lines for it in text.splitlines())]),
              flush=True)

    def note(self, text: str) -> None:
        """A line of the summary."""
        print("# " + text if self.is_tap else text, flush=True)

    def stop(self, reason: str) -> None:
        """No case was run, or none after this one."""
        if self.is_tap:
            print(f"Bail out! {reason}", flush=True)

    def finish(self) -> None:
        if self.junit:
            self.junit.write(junit_of(self.outcomes))
            self.junit.close()


def junit_of(outcomes: list[Outcome]) -> str:
    """A suite with a test case for each outcome: DIFFER and FAILS are failures, STOPPED, MALFORMED errors."""
    def clean(text: str) -> str:
        return NO_TEXT.sub("?", text)

    counts = {"tests": len(outcomes), "failures": 0, "errors": 0, "skipped": 0}
    suite = xml.Element("testsuite", name="conformance")
    for outcome in outcomes:
        test = xml.SubElement(suite, "testcase", classname="conformance", name=clean(outcome.name),
                              time=f"{outcome.seconds:.3f}")
        if outcome.word in PASSED:
            xml.SubElement(test, "system-out").text = clean(outcome.line)
            continue
        kind = {"skipped": "skipped", "DIFFER": "failure", "FAILS": "failure"}.get(outcome.word, "error")
        counts[kind if kind == "skipped" else kind + "s"] += 1
        below = xml.SubElement(test, kind, message=clean(outcome.line))
        if kind != "skipped":
            below.set("type", outcome.word)
        below.text = clean("\n".join(outcome.lines))
    for name, value in [*counts.items(), ("time", f"{sum(it.seconds for it in outcomes):.3f}")]:
        suite.set(name, str(value))
    suites = xml.Element("testsuites")
    suites.append(suite)
    return '<?xml version="1.0" encoding="utf-8"?>\n' + xml.tostring(suites, encoding="unicode") + "\n"


def open_junit(path: str | None) -> TextIO | None:
    """Opens the file before the first case, so that a wrong name is reported at once."""
    return open(path, "w", encoding="utf-8") if path else None


def print_list(cases: list[tuple[str, int, str]]) -> None:
    for name, count, title in cases:
        print(f"{name}: {count} commands: {title}", flush=True)
