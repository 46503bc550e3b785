"""The command line of ./conform. An option that the run would ignore is refused."""

from __future__ import annotations

import argparse
import os
import re
from collections.abc import Callable, Sequence
from dataclasses import dataclass
from typing import Any, NoReturn

from nogcuvema._ending import Parser

from .places import TOP
from .script import BadInput

NUMBER = re.compile("[0-9]{1,18}")
MOST_SECONDS, MOST_RUNS = 86_400, 1_000_000
USAGE = """./conform [OPTIONS] [CASE...] [--peer COMMAND...]
       ./conform [OPTIONS] random COUNT SEED [--peer COMMAND...]
       ./conform [OPTIONS] at-once COUNT SEED [--peer COMMAND...]
       ./conform --list [CASE...]"""
ABOUT = """Runs the same calls through the program and on a running system, and compares the replies.

CASE...              runs the cases of conformance/cases, or those named
random COUNT SEED    runs COUNT random scripts
at-once COUNT SEED   runs COUNT scripts whose processes run concurrently on the system; ./shmcheck judges each
                     run, under Linux's rules
--list               lists each case, its number of commands and its subject"""
STATUS = """The exit status is 0 exactly when the program gives every reply that the rules require, nothing
DIFFERs, and each log of at-once is legal, explained or skipped. It is 2 for a bad command line or case, 3 if
a tool failed, and otherwise 1. A bad case is MALFORMED; the others still run."""
# what each kind of run would ignore
IGNORED = {
    "--list": "--program --no-peer --shared --seconds --limit --replies --runs --judge --tap --junit --peer",
    "cases": "--runs --judge",
    "random scripts": "--no-peer --replies --runs --judge --tap --junit",
    "at-once scripts": "--no-peer --program --library --rules --shared --seconds --replies --tap --junit",
}
# options of which one would be ignored, and why
EXCLUDED = (
    ("--program", "--library", "each names what is tested"),
    ("--program", "--rules linux", "only the library follows Linux's rules"),
    ("--peer", "--no-peer", "the one asks for a peer, the other for none"),
    ("--replies", "--no-peer", "the replies are a peer's"),
    ("--shared", "--no-peer", "it is the peer that is in a namespace"),
    ("--seconds", "--no-peer", "it is the peer that waits"),
    ("--peer", "--replies", "the replies are there already"),
    ("--shared", "--replies", "the replies are there already"),
)


class Once(argparse.Action):
    """Keeps the value of an option, or that it was given. Given twice, the first would be ignored."""

    def __call__(self, parser: argparse.ArgumentParser, namespace: argparse.Namespace, values: Any,
                 option_string: str | None = None) -> None:
        if getattr(namespace, self.dest):
            raise BadInput(f"{option_string} is given twice")
        setattr(namespace, self.dest, True if self.nargs == 0 else values)


class Words(Parser):
    """Its faults are one line each."""

    def error(self, message: str) -> NoReturn:
        raise BadInput(message)


@dataclass
class Options:
    """What the command line asks for."""

    kind: str       # what is run: a key of IGNORED
    names: list[str]
    program: list[str]
    library: str | None
    is_linux: bool
    peer: list[str]
    has_peer: bool
    is_shared: bool
    has_clock: bool
    limit: int
    replies: str | None
    runs: int
    judge: str | None
    is_tap: bool
    junit: str | None
    count: int = 0
    seed: str = ""

    def __post_init__(self) -> None:
        self.has_flags = self.library is not None
        self.has_mappings = True    # a library before 1.1 does not count munmap, mprotect and setuid

    def peer_options(self) -> list[str]:
        return ["--limit", str(self.limit), *["--seconds"] * self.has_clock, *["--shared"] * self.is_shared]


def a_command(name: str) -> Callable[[str], str]:
    def command(text: str) -> str:
        if not text.split():
            raise BadInput(f"{name} takes a command")
        return text
    return command


def a_path(name: str, what: str) -> Callable[[str], str]:
    def path(text: str) -> str:
        if not text:
            raise BadInput(f"{name} takes a {what}")
        return text
    return path


def a_number(name: str, what: str, most: int) -> Callable[[str], int]:
    def number(text: str) -> int:
        if not NUMBER.fullmatch(text) or not 1 <= int(text) <= most:
            raise BadInput(f"{name} takes {what} from 1 to {most}: {text}")
        return int(text)
    return number


def a_folder(text: str) -> str:
    if not os.path.isdir(text):
        raise BadInput(f"--replies takes a folder; there is no such folder: {text}")
    return text


def rules(text: str) -> str:
    if text not in ("profile", "linux"):
        raise BadInput(f"--rules takes profile or linux: {text}")
    return text


def parser_of_words() -> Words:
    parser = Words(prog="conform", usage=USAGE, description=ABOUT, epilog=STATUS, allow_abbrev=False,
                   formatter_class=lambda prog: argparse.RawDescriptionHelpFormatter(
                       prog, max_help_position=22, width=110))

    def add(name: str, text: str, metavar: str = "", **how: Any) -> None:
        how = {"metavar": metavar, **how} if metavar else {"nargs": 0}
        parser.add_argument(name, action=Once, help=text, **how)

    parser.add_argument("names", nargs="*", help=argparse.SUPPRESS)
    add("--list", "lists the cases")
    add("--program", "the program to test, instead of ./shmsim", "COMMAND", type=a_command("--program"))
    add("--library",
        "tests the library for C instead, which ./lib put into FOLDER (--library alone: build). This also "
        "runs the "
        "cases of munmap and mprotect, and random scripts have these calls", "FOLDER",
        type=a_path("--library=", "folder"))
    add("--rules",
        "linux: the library (in build/ without --library) follows Linux's rules, and few differences are "
        "left; "
        "profile: it follows this project's own rules (the default)", "RULES", type=rules)
    add("--no-peer", "compares the program with the rules only")
    add("--shared", "the peer stays in the system's own IPC namespace, under its limits")
    add("--seconds", "waits a second between calls, and compares times as positions in the script")
    add("--limit", "seconds for each command (10)", "S",
        type=a_number("--limit", "whole seconds", MOST_SECONDS))
    add("--replies", "reads the peer's output from FOLDER/NAME.out for each case NAME, and runs no peer",
        "FOLDER",
        type=a_folder)
    add("--runs", "runs of each script of at-once (20)", "N", type=a_number("--runs", "a number", MOST_RUNS))
    add("--judge", "the judge of at-once, instead of the built program of ./shmcheck", "COMMAND",
        type=a_command("--judge"))
    add("--tap", "prints the results as TAP version 13, for the CI of a test bench")
    add("--junit", "also writes them to FILE as JUnit XML", "FILE", type=a_path("--junit", "file"))
    parser.add_argument("--peer", nargs="...", metavar="COMMAND",
                        help="runs COMMAND as the peer, for example an emulator with its words; it comes "
                             "last on the line")
    parser.add_argument("--version", action="store_true", help="prints the version")
    return parser


def read_options(words: Sequence[str]) -> Options | str:
    """The options, or the only word: --help or --version. A peer's own words are not looked at."""
    at = words.index("--peer") if "--peer" in words else len(words)
    own, peer = [f"--library={TOP}/build" if word == "--library" else word
                 for word in words[:at]], words[at + 1:]
    if {"-h", "--help", "help"} & {*own}:
        return "--help"
    found = parser_of_words().parse_intermixed_args(own)
    if found.version:
        return "--version"
    if at < len(words) and not peer:
        raise BadInput("--peer takes a command")
    found.peer = list(peer)
    options = options_of(found)
    refuse_ignored(options.kind, found)
    return with_count_and_seed(options) if options.kind.endswith("scripts") else options


def options_of(found: argparse.Namespace) -> Options:
    first = found.names[0] if found.names else ""
    kind = "--list" if found.list else f"{first} scripts" if first in ("random", "at-once") else "cases"
    is_linux = found.rules == "linux"
    return Options(
        kind, found.names, (found.program or f"{TOP}/shmsim").split(),
        found.library or (f"{TOP}/build" if is_linux else None),
        is_linux, found.peer, not found.no_peer, bool(found.shared), bool(found.seconds), found.limit or 10,
        found.replies,
        found.runs or 20, found.judge, bool(found.tap), found.junit)


def refuse_ignored(kind: str, found: argparse.Namespace) -> None:
    """Refuses an option that the run would ignore."""
    given = {"--" + name.replace("_", "-") for name, value in vars(found).items() if value}
    for word in sorted(given & {*IGNORED[kind].split()}):
        raise BadInput(f"{word} is not for {kind}")
    given |= {"--rules linux"} if found.rules == "linux" else set()
    for word, other, why in EXCLUDED:
        if word in given and other in given:
            raise BadInput(f"{word} and {other} exclude each other: {why}")


def with_count_and_seed(options: Options) -> Options:
    word, *rest = options.names
    if len(rest) != 2 or not all(NUMBER.fullmatch(it) for it in rest) or int(rest[0]) == 0:
        raise BadInput(f"{word} takes a count and a seed, numbers from 1 and from 0: "
                       f"{' '.join(options.names)}")
    options.count, options.seed = int(rest[0]), rest[1]
    return options
