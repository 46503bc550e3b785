"""Runs cases and random scripts on both sides, compares the replies, and counts."""

from __future__ import annotations

import os
import time
from collections import Counter

from .compare import Result, against_peer, against_rules
from .explain import Machine
from .generator import make_script
from .options import Options
from .places import CASES, LIBRARY_CASES, names_in
from .results import Outcome, Results
from .running import Peer, Stopped, run_program
from .script import DECLARATIONS, BadCase, BadInput, Case, Event, read_case, read_events


def case_paths(names: list[str], has_flags: bool) -> list[str]:
    """The files of the named cases, or of all."""
    if not names:
        folders = [CASES] + [os.path.join(CASES, name) for name in LIBRARY_CASES] * has_flags
        return [path for folder in folders for path in names_in(folder)]
    paths = []
    for name in names:
        choices = (name, os.path.join(CASES, name), os.path.join(CASES, name + ".shm"))
        path = next((choice for choice in choices if os.path.isfile(choice)), None)
        if path is None:
            raise BadInput(f"no such case: {name}")
        paths.append(path)
    return paths


def open_case(path: str, has_flags: bool) -> Case:
    try:
        with open(path, encoding="latin-1", newline="\n") as file:
            return read_case(path, file.read(), has_flags=has_flags)
    except OSError as error:
        raise BadCase(path, 0, "", f"can't be read: {error.strerror}") from None


class NoRecord(Exception):
    """The folder of replies has none for a case."""


class Session:
    """The two sides of the comparison, and their counts."""

    def __init__(self, options: Options, peer: Peer | None, results: Results, lack: str = "",
                 machine: Machine | None = None) -> None:
        self.options = options
        self.peer = peer
        self.machine = machine  # explains differences
        self.lack = lack        # why there is no peer although one was wanted
        self.results = results
        self.told_notes: set[str] = set()
        self.counts: Counter[str] = Counter()
        self.rules: Counter[str] = Counter()
        self.firsts: Counter[str] = Counter()
        self.skips: Counter[str] = Counter()
        self.causes: Counter[str] = Counter()
        self.commands = 0

    @property
    def notes(self) -> set[str]:
        """What the peer printed about itself."""
        return self.peer.notes if self.peer else self.told_notes

    def others(self, case: Case) -> list[Event] | None:
        """The peer's answers to a case; None without a peer."""
        if self.options.replies:
            path = os.path.join(self.options.replies, case.name + ".out")
            try:
                with open(path, encoding="ascii", errors="replace") as file:
                    lines = file.read().splitlines()
                self.told_notes.update(line for line in lines if line.startswith("note: "))
                events = read_events("\n".join(line for line in lines if not line.startswith("note: ")), path)
            except FileNotFoundError:
                raise NoRecord(f"there is no {path}") from None
            except OSError as error:
                raise Stopped(f"{path}: can't be read: {error.strerror}") from None
            except BadInput as error:
                raise Stopped(str(error)) from None
            if len(events) != len(case.commands):
                raise Stopped(f"{path}: {len(events)} lines for {len(case.commands)} commands")
            return events
        return self.peer.run(case.text, len(case.commands)) if self.peer else None

    def compare(self, case: Case, events: list[Event], others: list[Event]) -> Result:
        has_limits = any("limits" in note or "stays as it is" in note for note in self.notes)
        result = against_peer(case, events, others, self.machine, is_linux=self.options.is_linux,
                              has_clock=self.options.has_clock, has_system_limits=has_limits)
        self.commands += result.whole
        self.counts["agree"] += result.agree
        self.counts["profile"] += sum(result.by_rule.values())
        self.counts["DIFFER"] += len(result.different)
        self.counts["skipped"] += sum(result.skipped.values())
        self.rules.update(result.by_rule)
        self.skips.update(result.skipped)
        self.causes.update(result.causes)
        if result.first_rule:
            self.firsts[result.first_rule] += 1
        return result

    def skip(self, case: Case, reason: str) -> None:
        """Counts a case of which nothing is compared."""
        self.commands += len(case.commands)
        self.counts["skipped"] += len(case.commands)
        self.skips[reason] += len(case.commands)
        self.causes[reason] += len(case.commands)

    def warn(self) -> None:
        """Says in the last line that most was skipped, and why: a comparison of little else says little."""
        skipped = self.counts["skipped"]
        if self.lack:
            self.results.note(f"ALL SKIPPED: no command was compared: {self.lack}")
        elif 2 * skipped > self.commands:
            why = ", ".join(f"{name} ({count})" for name, count in self.causes.most_common())
            self.results.note(f"MOSTLY SKIPPED: {skipped} of {self.commands} commands were not compared: "
                              f"{why}")

    def summary(self) -> None:
        self.results.note(f"commands: {self.commands} compared, " + ", ".join(
            f"{word} {self.counts[word]}" for word in ("agree", "profile", "DIFFER", "skipped")))
        for title, counts in (("profile", self.rules), ("skipped", self.skips)):
            for name, count in sorted(counts.items()):
                self.results.note(f"  {title}: {name}: {count}")
        for note in sorted(self.notes):
            self.results.note(note)


def run_case(session: Session, case: Case) -> Outcome:
    """Runs one case. Returns its result."""
    events = run_program(session.options.program, case, session.options.limit)
    if any(event.is_skipped for event in events):
        return Outcome(case.name, "skipped", "this library does not count munmap, mprotect and setuid")
    wrong = against_rules(case, events, session.options.is_linux)
    if wrong:
        lines = [line.replace("        there ", "        case  ") for difference in wrong
                 for line in difference.lines()]
        return Outcome(case.name, "FAILS", "the program gives another reply than the rule", lines)
    try:
        others = session.others(case)
    except NoRecord as error:
        session.skip(case, "no record of the case")
        return Outcome(case.name, "skipped", str(error))
    if others is None:
        return Outcome(case.name, "as expected", f"({len(events)} commands)")
    result = session.compare(case, events, others)
    rules = ", ".join(f"{name} {count}" for name, count in sorted(result.by_rule.items()))
    lines = [line for difference in result.different for line in difference.lines()]
    return Outcome(case.name, result.word, f"({rules})" * bool(rules), lines)


def outcome_of(session: Session, path: str) -> Outcome:
    """The result of one case, or why it has none."""
    name = os.path.splitext(os.path.basename(path))[0]
    try:
        return run_case(session, open_case(path, session.options.has_flags))
    except BadCase as error:
        return Outcome(name, "MALFORMED", str(error))
    except Stopped as error:
        return Outcome(name, "STOPPED", str(error))


def run_cases(session: Session, paths: list[str]) -> int:
    words: Counter[str] = Counter()
    session.results.begin(len(paths))
    for path in paths:
        outcome = outcome_of(session, path)
        session.results.take(outcome)
        words[outcome.word] += 1
    session.results.note("cases: " + ", ".join(f"{word} {count}" for word, count in sorted(words.items())))
    session.summary()
    session.warn()
    return (3 if words["STOPPED"] else 2 if words["MALFORMED"] else 1 if words["DIFFER"] or words["FAILS"]
            else 0)


def first_difference(session: Session, text: str, quiet: bool = True) -> Result:
    assert session.peer is not None
    case = read_case("random", text, is_strict=False, has_flags=session.options.has_flags)
    events = run_program(session.options.program, case, session.options.limit)
    others = session.peer.run(text, len(case.commands))
    counted = Session(session.options, session.peer, session.results, machine=session.machine) if quiet else session
    return counted.compare(case, events, others)


def shorten(session: Session, text: str, last: int, seconds: int = 60) -> str:
    """Removes from a script all below line `last`, where the first difference is, and then commands that the
    difference does not need, within a time limit."""
    lines = text.splitlines()[:last]
    end = time.monotonic() + seconds
    for index in reversed(range(len(lines))):
        if lines[index].split()[0] in DECLARATIONS or time.monotonic() > end:
            continue
        fewer = lines[:index] + lines[index + 1:]
        if first_difference(session, "\n".join(fewer) + "\n").different:
            lines = fewer
    return "\n".join(lines) + "\n"


def run_random(session: Session, count: int, seed: str) -> int:
    words: Counter[str] = Counter()
    for number in range(count):
        text = make_script(seed, number, session.options.has_mappings, session.options.is_linux)
        try:
            result = first_difference(session, text, quiet=False)
        except Stopped as error:
            raise Stopped(f"script {number} of seed {seed}: {error}") from None
        words[result.word] += 1
        for difference in result.different:
            print(f"script {number} of seed {seed}: DIFFER")
            print("\n".join(difference.lines()))
        if result.different:
            print("  shown by:\n" + shorten(session, text, result.different[0].command.line), end="")
    print("scripts: " + ", ".join(f"{word} {words[word]}" for word in sorted(words)))
    session.summary()
    for name, number in sorted(session.firsts.items()):
        print(f"  first difference of a script: {name}: {number}")
    session.warn()
    return 1 if words["DIFFER"] else 0
