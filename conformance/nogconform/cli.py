"""What ./conform does with its command line."""

from __future__ import annotations

import os
import re
import sys
from collections.abc import Sequence
from pathlib import Path

from .at_once import Judge, RacingPeer, find_judge, run_at_once
from .explain import Machine, find_machine
from .options import Options, parser_of_words, read_options
from .places import INSTALLED, TOP
from .results import Results, open_junit, print_list
from .running import (Peer, Stopped, build_library, build_peer, is_own, open_folder, require_command,
                      start_own_program, why_no_peer)
from .script import BadInput
from .session import Session, case_paths, open_case, run_cases, run_random


def list_cases(options: Options) -> int:
    """Prints the list; the status is 2 if a case is malformed."""
    listed: list[tuple[str, int, str]] = []
    faults: list[str] = []
    for path in case_paths(options.names, options.has_flags):
        try:
            case = open_case(path, options.has_flags)
            listed.append((case.name, len(case.commands), case.title))
        except BadInput as error:
            faults.append(f"conform: {error}")
    print_list(listed)
    if faults:
        print("\n".join(faults), file=sys.stderr)
    return 2 if faults else 0


def race(options: Options, folder: str) -> int:
    """Runs the scripts of at-once, or says why none can run."""
    count, seed = options.count, options.seed
    judge = find_judge(options.judge) or []
    reason = "" if options.peer else why_no_peer()
    if not judge:
        reason = "the judge was not built: ./shmcheck makes it, and --judge COMMAND names another one"
    if reason:
        print(f"scripts: 0 run, {count} skipped: {reason}")
        return 0
    require_command(judge, "the judge")
    words = options.peer or [build_peer(folder)]
    require_command(words, "the peer")
    return run_at_once(RacingPeer(words, options.runs, options.limit), Judge(judge), count, seed)


def find_peer(options: Options, folder: str) -> tuple[Peer | None, str]:
    """The peer to run, or None; and why there is none although one was wanted."""
    if not options.has_peer or options.replies:
        return None, ""
    if options.peer:
        return Peer(options.peer, options.peer_options(), options.limit), ""
    reason = why_no_peer()
    if reason:
        print(f"conform: the peer is skipped: {reason}", file=sys.stderr)
        return None, reason
    return Peer([build_peer(folder)], options.peer_options(), options.limit), ""


def choose_program(options: Options, folder: str) -> Machine | None:
    """Builds the library's program, if the library is wanted. Returns the machine that explains differences: that program, or shmsim."""
    if not options.library:
        words = options.program if is_own(options.program) else find_machine()
        return Machine(words, False, options.limit) if words else None
    program, has_mappings, has_rules = build_library(folder, options.library)
    if options.is_linux and not has_rules:
        raise Stopped(f"the library in {options.library} has no rules: its header has no NOG_LINUX")
    options.program = [program] + ["--rules", "linux"] * options.is_linux
    options.has_mappings = has_mappings
    return Machine([program], True, options.limit) if has_rules else None


def run(options: Options, folder: str, results: Results) -> int:
    if options.kind == "at-once scripts":
        return race(options, folder)
    is_random = options.kind == "random scripts"
    paths = [] if is_random else case_paths(options.names, options.has_flags)
    if options.peer:
        require_command(options.peer, "the peer")
    machine = choose_program(options, folder)
    require_command(options.program, "the program")
    peer, lack = find_peer(options, folder)
    session = Session(options, peer, results, lack, machine)
    if is_random and peer is None:
        raise Stopped(f"random scripts need a peer: {lack}")
    start_own_program(options.program)
    return run_random(session, options.count, options.seed) if is_random else run_cases(session, paths)


def own_version() -> str:
    """The version; ./install wrote it into a file of its own."""
    if os.path.isfile(INSTALLED):
        return Path(INSTALLED).read_text("ascii").strip()
    with open(os.path.join(TOP, "CHANGELOG.md"), encoding="utf-8") as file:
        return str(re.findall(r"^## ([0-9][0-9.]*)", file.read(), re.M)[0])


def run_with(options: Options) -> int:
    """Runs what the options ask for. A fault that ends the run is also in the results."""
    try:
        junit = open_junit(options.junit)
    except OSError as error:
        raise BadInput(f"--junit: {options.junit} can't be written: {error.strerror}") from None
    results = Results(options.is_tap, junit)
    try:
        with open_folder() as folder:
            return run(options, folder, results)
    except (BadInput, Stopped) as error:
        results.stop(str(error))
        raise
    finally:
        results.finish()


def main(words: Sequence[str]) -> int:
    try:
        options = read_options(words)
        if isinstance(options, str):
            print(parser_of_words().format_help().rstrip() if options == "--help"
                  else f"conform {own_version()}")
            return 0
        return list_cases(options) if options.kind == "--list" else run_with(options)
    except (BadInput, Stopped) as error:
        print(f"conform: {error}", file=sys.stderr)
        return 2 if isinstance(error, BadInput) else 3
