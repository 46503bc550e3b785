"""Scripts, cases and event lines.

A case is a script with more comments. Above each command is a comment with its rule and source. After it a
line `#= REPLY` has the reply of the rule; for `stat` only some words may be given. A line `#linux= REPLY`
after that has the reply under Linux's rules if it differs. A line `#swap WORDS` names other swap areas.

The kit has words that are not in the language of docs/SCRIPT.md: the flag `exec` of shmat, and the flags
`hugetlb` and `noreserve` of shmget.
"""

from __future__ import annotations

import contextlib
import os
import re
from collections.abc import Iterator
from dataclasses import dataclass, field
from typing import Any

from nogcuvema.explain import nearest
from nogcuvema.machine import Flag
from nogcuvema.script import (ATTACH_FLAGS, CALLS, GET_FLAGS, MOST_SLOTS, NoForm, OperandKind, ScriptFault,
                              number_of, read_script, words_of)

ERRORS = ("EPERM ENOENT ESRCH EIO EAGAIN ENOMEM EACCES EEXIST EINVAL EMFILE ENOSPC EIDRM SIGBUS SIGSEGV "
          "ENFILE ENOSYS EFAULT EOVERFLOW").split()
DECLARATIONS = ("sizes", "limits", "process", "child")
EVENT = re.compile(r"(\d+) (\d+) (\S+)((?: \S+)*) = (\S.*)")
SOURCE = re.compile(r"POSIX(\.1-\d{4})?,? [\w<]|\(\d\)|profile")
LINUX_SOURCE = re.compile(r"observed on Linux \d+\.\d+|Linux: \w+\(\d\)")
LINUX_SOURCES = "observed on Linux 6.18, or Linux: shmget(2)"
SOURCES = "POSIX shmat(), POSIX.1-2017, page 1384, shmop(2) or profile"
SWAP = ["sparse:65536"]
AREA = re.compile(r"(ram|sparse|mirror):(\d{1,9})|fuse:(\d{1,9}):[rw][1-9]\d*")
AREAS = 8
TIMES = ("atime", "dtime", "ctime")
STAT = re.compile(r"key=0x[0-9a-f]{8} uid=\d+ gid=\d+ cuid=\d+ cgid=\d+ mode=[0-7]{3} "
                  r"status=(-|dest|locked|dest,locked) "
                  r"size=\d+ cpid=\d+ lpid=\d+ nattch=\d+ atime=\w+ dtime=\w+ ctime=\w+")
REPLY = {"shmget": re.compile(r"\d{1,10}"), "shmat": re.compile(r"null|0x[0-9a-f]{1,16}"),
         "load": re.compile("([0-9a-f]{2}){1,64}"), "swap": re.compile("([0-9a-f]{2}){1,64}"),
         "cas": re.compile("([0-9a-f]{2}){1,16}"),
         "xadd": re.compile(r"\d{1,20}"), "stat": STAT}


def flags_of_kit(kind: OperandKind, names: tuple[Any, ...]) -> OperandKind:
    """Flags of the language, with the kit's other names among them, each at most once."""
    def flags_of(text: str) -> int | tuple[int, int]:
        words = text.split(",")
        rest = [word for word in words if word not in names]
        is_behind_nothing = words[0] in ("-", *names) and (kind is GET_FLAGS or rest == ["-"])
        if len(set(words)) != len(words) or is_behind_nothing and len(words) > 1:
            raise NoForm
        value, extra = kind.form(",".join(rest)
                                 or "-"), int(sum(Flag[word.upper()] for word in words if word in names))
        return (value[0], value[1] | extra) if kind is GET_FLAGS else value | extra
    return kind._replace(allowed=f"{kind.allowed}; with --library also {' and '.join(names)}", form=flags_of)


FLAGS = {"shmget": ("hugetlb", "noreserve"), "shmat": ("exec",)}
FLAGGED = {"shmget": (*CALLS["shmget"][:-1], ("flags", flags_of_kit(GET_FLAGS, FLAGS["shmget"]))),
           "shmat": (*CALLS["shmat"][:-1], ("flags", flags_of_kit(ATTACH_FLAGS, FLAGS["shmat"])))}


# what two calls of the kit were called before they were calls of the language
OLDER = ((re.compile(r"^([ \t]*\d+[ \t]+)unmap(?=[ \t])", re.M), r"\1munmap"),
         (re.compile(r"^([ \t]*\d+[ \t]+)protect([ \t]+\S+[ \t]+\S+[ \t]+r)(?=\s|$)", re.M), r"\1mprotect\2o"),
         (re.compile(r"^([ \t]*\d+[ \t]+)protect(?=[ \t]+\S+[ \t]+\S+[ \t]+rw)", re.M), r"\1mprotect"))


def in_language(text: str) -> str:
    """The text of a script with the words of the language for those of the kit before 1.1."""
    for older, newer in OLDER:
        text = older.sub(newer, text)
    return text


class BadInput(Exception):
    """An input that is not well formed."""


class BadCase(BadInput):
    """A case that can't run: its file, the line (0: the whole file), the word (nothing: the whole line) and
    the cause."""

    def __init__(self, path: str, line: int, word: str, cause: str) -> None:
        place = f"{path}: line {line}: " if line else f"{path}: "
        super().__init__(place + (f"{word!r}: " if word else "") + cause)


@dataclass
class Command:
    line: int
    text: str
    rule: str = ""
    expected: str | None = None
    linux: str | None = None    # if it differs

    def told(self, is_linux: bool) -> str:
        """The reply under Linux's rules, or under the profile's; nothing if the case has none."""
        return (self.linux if is_linux and self.linux else self.expected) or ""


@dataclass
class Case:
    name: str
    text: str
    commands: list[Command] = field(default_factory=list)
    swap: list[str] = field(default_factory=lambda: list(SWAP))
    sizes: list[int] = field(default_factory=list)      # of a sizes line
    limits: list[int] = field(default_factory=list)
    users: dict[int, tuple[int, int]] = field(default_factory=dict)
    title: str = ""


@dataclass
class Event:
    place: int
    pid: int
    word: str
    operands: list[str]
    reply: str

    @property
    def call(self) -> str:
        return f"{self.place} {self.pid} " + " ".join([self.word] + self.operands)

    @property
    def is_refused(self) -> bool:
        return self.reply in ERRORS or self.reply.startswith("errno")

    @property
    def is_skipped(self) -> bool:
        return self.reply.startswith("skipped")


def read_event(line: str) -> Event | None:
    """The event of a line, or None if the line is not an event line."""
    match = EVENT.fullmatch(line)
    if match is None:
        return None
    place, pid, word, operands, reply = match.groups()
    return Event(int(place), int(pid), word, operands.split(), reply)


def read_events(text: str, whose: str) -> list[Event]:
    """The event lines at the beginning of an output; the program's listing follows them."""
    events: list[Event] = []
    for line in text.splitlines():
        if line.startswith("key  "):
            break
        event = read_event(line)
        if event is None or event.place != len(events) + 1:
            raise BadInput(f"{whose}: not an event line: {line[:80]!r}")
        events.append(event)
    return events


def read_case(path: str, text: str, is_strict: bool = True, has_flags: bool = False) -> Case:
    """A case. A strict one needs a rule and a reply for each command. Without flags it may not use the kit's
    own flags."""
    text = in_language(text)
    case = Case(os.path.splitext(os.path.basename(path))[0], text)
    if not has_flags:
        require_no_flags(path, text)
    require_language(path, text, has_flags)
    comment: list[str] = []
    for number, line in enumerate(text.split("\n"), 1):
        words = line.split()
        if line.startswith(("#=", "#linux=")):
            take_reply(path, case, number, line)
            comment = []
        elif line.startswith("#swap"):
            case.swap = read_swap(path, number, line)
        elif line.startswith("#"):
            comment.append(line.lstrip("# "))
            case.title = case.title or comment[0]
        elif words[:1] == ["rules"]:
            raise BadCase(path, number, "rules", "the kit chooses the rules: --rules linux, or none of them")
        elif words and not read_declaration(case, words) and words[0] != "0":
            case.commands.append(Command(number, " ".join(words), " ".join(comment)))
            comment = []
    if is_strict:
        require_rules(path, case)
    return case


@contextlib.contextmanager
def language_of_the_kit() -> Iterator[Any]:
    """Lets the reader of scripts accept the kit's own flags."""
    before = dict(CALLS)
    CALLS.update(FLAGGED)
    try:
        yield
    finally:
        CALLS.clear()
        CALLS.update(before)


def require_language(path: str, text: str, has_flags: bool) -> None:
    """Checks that the case is a script; a fault is reported as ./shmsim --explain does."""
    with language_of_the_kit() if has_flags else contextlib.nullcontext():
        try:
            read_script(text)
        except ScriptFault as fault:
            lines = text.split("\n")
            near = nearest(fault, lines[fault.line - 1]) if 0 < fault.line <= len(lines) else ""
            cause = (fault.kind + f", allowed here: {fault.allowed}" * bool(fault.allowed)
                     + f"; nearest form: {near}" * bool(near))
            raise BadCase(path, fault.line, fault.word, cause) from None


def require_no_flags(path: str, text: str) -> None:
    """With ./shmsim as the program, checks that the case uses none of the kit's own flags."""
    for number, line in enumerate(text.split("\n"), 1):
        words = [] if line.lstrip().startswith("#") else [word.text for word in words_of(line)]
        name = next((name for word in words if word in FLAGS
                     for name in words[-1].split(",") if name in FLAGS[word]), "")
        if name:
            raise BadCase(path, number, name,
                          "a flag that only the C library has: run the case with --library")


def take_reply(path: str, case: Case, number: int, line: str) -> None:
    first, _, reply = line.partition("=")
    mark, field_name = first + "=", "linux" if first == "#linux" else "expected"
    last = case.commands[-1] if case.commands else None
    if last is None or getattr(last, field_name) is not None:
        raise BadCase(path, number, mark, "a reply without a command of its own above it")
    if field_name == "linux" and last.expected is None:
        raise BadCase(path, number, mark, "a reply of Linux without a line #= above it")
    if not reply.strip():
        raise BadCase(path, number, mark, "no reply is given after it")
    setattr(last, field_name, reply.strip())


def read_swap(path: str, number: int, line: str) -> list[str]:
    """The words of a line `#swap`."""
    first, *words = line.split()
    if first != "#swap" or not 1 <= len(words) <= AREAS:
        raise BadCase(path, number, first, "the line is #swap and 1 to 8 areas, as #swap ram:64 sparse:65536")
    for word in words:
        form = AREA.fullmatch(word)
        if form is None or not 1 <= int(form[2] or form[3]) <= MOST_SLOTS:
            raise BadCase(path, number, word,
                          "no swap area: ram:N, sparse:N, mirror:N, fuse:N:rK or fuse:N:wK, "
                          f"N from 1 to {MOST_SLOTS}")
    return words


def require_rules(path: str, case: Case) -> None:
    for command in case.commands:
        if not SOURCE.search(command.rule):
            raise BadCase(path, command.line, command.text,
                          f"no comment above it names the rule and its source, as {SOURCES}")
        if not command.expected:
            raise BadCase(path, command.line, command.text, "no reply is given below it, as #= ok")
        if command.linux and not LINUX_SOURCE.search(command.rule):
            raise BadCase(path, command.line, command.text,
                          f"no comment above it names the source of Linux's reply, as {LINUX_SOURCES}")
    if not case.commands:
        raise BadCase(path, 0, "", "no command")


def read_declaration(case: Case, words: list[str]) -> bool:
    if words[0] == "sizes":
        case.sizes = [number_of(word) for word in words[1:]]
    elif words[0] == "limits":
        case.limits = [number_of(word) for word in words[1:]]
    elif words[0] == "process":
        case.users[number_of(words[1])] = (number_of(words[2]), number_of(words[3]))
    return words[0] in DECLARATIONS


def has_form(event: Event) -> bool:
    """Whether an event's reply is one that its call can have."""
    if event.is_refused:
        return True
    is_in_range = event.word != "xadd" or not event.reply.isdigit() or int(event.reply) < 2 ** 64
    return is_in_range and REPLY.get(event.word, re.compile("ok")).fullmatch(event.reply) is not None


def stat_words(reply: str) -> dict[str, str] | None:
    """The words of stat by name; None for another reply."""
    if not reply.startswith("key="):
        return None
    return dict(word.split("=", 1) for word in reply.split())


def is_expected(expected: str, reply: str) -> bool:
    if "=" in expected:
        return set(expected.split()) <= set(reply.split())
    return expected == reply


def without_clock(reply: str) -> str:
    """The reply with each time as set or 0."""
    words = stat_words(reply)
    if words is None:
        return reply
    for name in TIMES:
        words[name] = "0" if words[name] == "0" else "set"
    return " ".join(f"{name}={value}" for name, value in words.items())
