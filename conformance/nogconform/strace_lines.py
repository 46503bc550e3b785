"""Reads the output of strace -f: calls with the lines of their entry and return, and the ends of processes.

strace handles one stop after another, so the order of its lines is the order in time. A call on one complete
line does not overlap with any other call. An unfinished one overlaps with those up to the line where it is
resumed.
"""

from __future__ import annotations

import re
from dataclasses import dataclass, field
from typing import Any

TIME = r"(?:\d\d:\d\d:\d\d(?:\.\d+)?|\d+\.\d+)"
PREFIX = re.compile(rf"(?:\[pid\s+(\d+)\]\s+|(\d+)\s+)?(?:{TIME}\s+)?(?:\(\+\s+\d+\.\d+\)\s+)?(.*)")
NOTE = re.compile(r"(?:\S*/)?strace: (.*)")
INTERRUPTED = re.compile(r"(.*\S.*?)((?:/\S*/)?strace: Process \d+ attached)")
ATTACHED = re.compile(r"Process (\d+) attached")
END = re.compile(r"\+\+\+ (exited with \d+|killed by \w+(?: \(core dumped\))?) \+\+\+")
SUPERSEDED = re.compile(r"\+\+\+ superseded by execve in pid (\d+) \+\+\+")
SIGNAL = re.compile(r"--- .* ---")
UNFINISHED = re.compile(r"(\w+)\((.*?)\s*<unfinished \.\.\.>(?:\)\s*= \?)?")
RESUMED = re.compile(r"<\.\.\. (\w+) resumed>(.*)")
WHOLE = re.compile(r"(\w+)\((.*)\)\s*= (\S+)(?: (E[A-Z0-9]+) \(.*\))?(?: \(.*\))?(?: <[^<>]*>)?")
MADE_BY = ("clone", "clone3", "fork", "vfork")


class BadTrace(Exception):
    """A line that can't be read, by its number; 0 is the whole trace."""

    def __init__(self, line: int, cause: str) -> None:
        super().__init__(f"line {line}: {cause}" if line else cause)


@dataclass
class Call:
    """A call of a thread; without `last` it never returned. A thread's end is `+++`, or `superseded`."""

    thread: str
    name: str
    text: str
    first: int
    last: int | None = None
    value: str = "?"
    error: str = ""
    place: float = 0    # in the order of the script

    @property
    def thread_and_line(self) -> tuple[str, bool, int]:
        return self.thread, self.name == "+++", self.first

    @property
    def is_refused(self) -> bool:
        return self.value == "-1" and self.error != ""

    @property
    def words(self) -> list[str]:
        return split_words(self.text)


@dataclass
class Thread:
    """One thread with this number; numbers are used again."""

    name: str
    number: int
    first: int
    open: Call | None = None


@dataclass
class Trace:
    calls: list[Call] = field(default_factory=list)
    threads: dict[str, Thread] = field(default_factory=dict)     # by name, in the order of their first lines
    # for each number, the names of its threads
    lives: dict[int, list[str]] = field(default_factory=dict)


def split_words(text: str) -> list[str]:
    """The operands of a call: the texts between the commas outside of brackets and strings."""
    words, depth, start, is_string, place = [], 0, 0, False, 0
    while place < len(text):
        letter = text[place]
        if is_string:
            place += letter == "\\"
            is_string = letter != '"'
        elif letter == '"':
            is_string = True
        elif letter in "([{":
            depth += 1
        elif letter in ")]}":
            depth -= 1
        elif letter == "," and depth == 0:
            words.append(text[start:place].strip())
            start = place + 1
        place += 1
    last = text[start:].strip()
    return words + [last] if last or words else []


class Reader:
    """Reads a trace, line by line."""

    def __init__(self) -> None:
        self.trace = Trace()
        self.live: dict[int, Thread] = {}       # by number
        self.unnamed: Thread | None = None      # the thread of the lines without a number
        self.announced: set[int] = set()        # numbers of threads that a call made

    def thread_of(self, number: int | None, line: int) -> Thread:
        if number is None:
            return self.only_thread(line)
        if number not in self.live:
            if number not in self.announced and self.unnamed and self.unnamed.number == 0:
                return self.name_unnamed(self.unnamed, number)
            self.begin(number, line)
        return self.live[number]

    def begin(self, number: int, line: int) -> Thread:
        lives = self.trace.lives.setdefault(number, [])
        thread = Thread(f"{number}#{len(lives)}", number, line)
        lives.append(thread.name)
        self.trace.threads[thread.name] = thread
        self.live[number] = thread
        return thread

    def only_thread(self, line: int) -> Thread:
        """Without -o, strace names no process if it traces only one."""
        if not self.trace.threads:
            self.unnamed = self.begin(0, line)
        if len(self.live) != 1:
            raise BadTrace(line, "it does not say which process it belongs to; strace -f -o FILE names each")
        return next(iter(self.live.values()))

    def name_unnamed(self, thread: Thread, number: int) -> Thread:
        """Gives the process whose lines have no number the first number that no call made."""
        thread.number = number
        self.trace.lives[number] = self.trace.lives.pop(0)
        self.live[number] = self.live.pop(0)
        return thread

    def take(self, line: int, text: str) -> None:
        note = NOTE.fullmatch(text)
        if note:
            attached = ATTACHED.match(note[1])
            if attached and int(attached[1]) not in self.live and self.trace.threads:
                self.begin(int(attached[1]), line)
                self.announced.add(int(attached[1]))
            return
        found = PREFIX.fullmatch(text)
        bracketed, plain, rest = found.groups() if found else ("", "", "")
        number = bracketed or plain
        if not rest or not self.is_form(rest):
            raise BadTrace(line, f"not a line of strace -f: {text[:60]!r}")
        self.take_rest(self.thread_of(int(number) if number else None, line), line, rest)

    @staticmethod
    def is_form(rest: str) -> bool:
        return any(form.fullmatch(rest) for form in (END, SUPERSEDED, SIGNAL, UNFINISHED, RESUMED, WHOLE))

    def take_rest(self, thread: Thread, line: int, rest: str) -> None:
        resumed, unfinished, whole = (form.fullmatch(rest) for form in (RESUMED, UNFINISHED, WHOLE))
        if END.fullmatch(rest) or SUPERSEDED.fullmatch(rest):
            self.end(thread, line, rest)
        elif SIGNAL.fullmatch(rest):
            pass
        elif resumed:
            self.resume(thread, line, *resumed.groups())
        elif unfinished:
            if thread.open:
                raise BadTrace(line, f"process {thread.number} is already in a call, from line "
                                     f"{thread.open.first}")
            thread.open = Call(thread.name, unfinished[1], unfinished[2], line)
            self.trace.calls.append(thread.open)
        elif whole:
            call = Call(thread.name, "", "", line)
            self.trace.calls.append(call)
            self.finish(call, line, whole.groups())

    def resume(self, thread: Thread, line: int, name: str, rest: str) -> None:
        call = thread.open
        if call is None or call.name != name:
            raise BadTrace(line, f"process {thread.number} has no unfinished {name}")
        whole = WHOLE.fullmatch(f"{name}({call.text}{rest}")
        if whole is None:
            raise BadTrace(line, f"not the end of a call: {rest[:60]!r}")
        thread.open = None
        self.finish(call, line, whole.groups())

    def finish(self, call: Call, line: int, parts: tuple[Any, ...]) -> None:
        call.name, call.text, call.value, error = parts
        call.error = error or ""
        call.last = line
        if call.name in MADE_BY and call.value.isdigit():
            self.announced.add(int(call.value))

    def end(self, thread: Thread, line: int, rest: str) -> None:
        del self.live[thread.number]
        self.announced.discard(thread.number)
        superseded = SUPERSEDED.fullmatch(rest)
        self.trace.calls.append(Call(thread.name, "superseded" if superseded else "+++", "", line, line))
        if superseded and int(superseded[1]) in self.live:
            # the thread that called execve continues under this number
            heir = self.live.pop(int(superseded[1]))
            heir.number = thread.number
            self.live[thread.number] = heir


def read_trace(lines: list[str]) -> Trace:
    """The trace in these lines."""
    reader = Reader()
    begun: tuple[int, str, str] | None = None
    for line, text in enumerate(lines, 1):
        text = text.rstrip()
        if not text:
            continue
        interrupted = INTERRUPTED.fullmatch(text)
        if begun:
            # without -o, strace says within a call's line that a process is attached, and continues the call
            # in the next line
            first, head, note = begun
            reader.take(first, head + text)
            reader.take(line, note)
            begun = None
        elif interrupted:
            begun = (line, interrupted[1], interrupted[2])
        else:
            reader.take(line, text)
    if begun:
        raise BadTrace(begun[0], "the line continues in the next one, which is missing")
    return reader.trace
