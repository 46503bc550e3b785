"""Turns the output of strace -f for any program into a script and a log for ./shmcheck judge.

    unshare -i strace -f -ttt -T -o TRACE \\
        -e trace=shmget,shmat,shmdt,shmctl,clone,clone3,fork,vfork,execve,exit,exit_group COMMAND
    conformance/from_strace [TRACE] --script SCRIPT --log LOG [--uid N] [--gid N] \\
        [--limits "N N N N N"] [--slots N]
    ./shmcheck judge LOG --rules linux < SCRIPT > VERDICT
    conformance/from_strace [TRACE] --verdict VERDICT

It prints the last two commands with the names of its files. A trace shows what Linux did, so it is judged
under Linux's rules, which the script names too: under this project's own rules the judge finds some of it
illegal. Without TRACE it reads standard input. Add munmap,mremap,mprotect,madvise,mlock to the calls of strace
to learn of calls that change attached memory. It prints on standard error what it left out or changed, how
often, and the first line.

--verdict       checks whether the schedule of a verdict `legal` keeps the order of the calls that did not
                overlap; the judge does not know the times
--uid, --gid    the user and group of the processes, which strace does not show. Without them: those of the
                creators in stat, if they are one user; otherwise the user and group of this command
--limits        SHMMAX SHMMNI SHMALL FRAMES MEMLOCK of the script; without it they are as wide as the trace
                needs
--slots         the most pages of all segments at a time (64, as in ./shmcheck, up to 2^28); with more pages
                the segments get smaller sizes

Status: 0 done, 1 the trace has a line that can't be read, or does not fit into a script, 2 usage, 3 a file
can't be read or written, 6 the schedule does not keep the order. Nothing is written unless everything is.
"""

from __future__ import annotations

import argparse
import os
import shlex
import sys
import tempfile
from collections.abc import Callable, Iterator
from dataclasses import replace
from typing import Tuple

from nogcuvema._ending import Parser, run_command
from nogcuvema.machine import LARGER, MOST_PROCESSES, MOST_SLOTS, PROFILE

from .places import INSTALLED, TOP
from .strace_lines import BadTrace, Trace, read_trace
from .strace_model import Attach, Process, Segment
from .strace_order import better_order
from .strace_script import Command, Converter

# of a call: its thread, whether it is the end of the thread, and its first line
Name = Tuple[str, bool, int]
MOST_COMMANDS, MOST_BYTES, MOST_PIECES = 100_000, 1_048_576, 256
# the largest machine, which a script with a sizes line may have
LARGEST = {name: most for name, (_, most) in LARGER.items()}
LETTERS = {"shmget": "stuvwxyzpqrijklmnohgfedcba", "shmat": "abcdefghijklmnopqrzyxwvuts"}


class Letters:
    """The variables of one process. A variable is free again after the last use of its value."""

    def __init__(self, commands: list[Command]) -> None:
        self.last: dict[int, int] = {}
        self.held: dict[int, str] = {}
        self.place = 0
        for place, command in enumerate(commands):
            for thing in things_of(command):
                self.last[id(thing)] = place

    def operand(self, part: str | Segment | tuple[Attach, int]) -> str:
        if isinstance(part, str):
            return part
        if isinstance(part, Segment):
            return self.held.get(id(part)) or str(part.number)
        attach, offset = part
        letter = self.held.get(id(attach))
        if letter is None:
            return f"0x{attach.number + offset:x}"
        return f"{letter}+{offset}" if offset else letter

    def take(self, command: Command) -> str:
        """The line of a command, without its process."""
        operands = "".join(self.operand(part) for part in command.parts)
        self.held = {thing: letter for thing, letter in self.held.items() if self.last[thing] > self.place}
        letter = self.letter_for(command)
        self.place += 1
        return (f"{letter} = " if letter else "") + f"{command.word} {operands}".rstrip()

    def letter_for(self, command: Command) -> str | None:
        thing = id(command.result)
        if command.result is None or self.last.get(thing, 0) <= self.place:
            return None
        used = set(self.held.values())
        letter = self.held.get(thing) or next((it for it in LETTERS[command.word] if it not in used), None)
        if letter:
            self.held[thing] = letter
        return letter


def things_of(command: Command) -> Iterator[Attach | Segment]:
    """The segments and attaches that a command names."""
    for part in command.parts:
        if isinstance(part, Segment):
            yield part
        elif not isinstance(part, str):
            yield part[0]


def converted(trace: Trace, slots: int) -> Converter:
    """The commands of a trace."""
    found = Converter(trace).run()
    better, loose_ones, is_explained = better_order(found.commands)
    order, loose = None, {command.name for command in loose_ones}
    if better is not found.commands:
        order = places_of(better)
        found = Converter(trace, order=order, loose=loose).run()
    found = fitted(trace, found, order, loose, slots)
    if not is_explained:
        found.notes.add("not known", "no order of the calls that overlap was found that explains all replies")
    return found


def fitted(trace: Trace, found: Converter, order: dict[Name, float] | None, loose: set[Name],
           slots: int) -> Converter:
    """The commands with smaller sizes, if the segments have more pages than there are slots."""
    if found.memory.most_pages <= slots and found.most_size <= LARGEST["shmmax"]:
        return found
    if found.memory.most_segments > slots:
        raise BadTrace(0, f"there are {found.memory.most_segments} segments at a time, but at most {slots} "
                          f"fit: see --slots")
    asked = sorted(found.asked - {0})
    if len(asked) > 4096:
        raise BadTrace(0, f"there are {len(asked)} sizes, and segments of {found.memory.most_pages} pages at "
                          f"a time: see --slots")
    sizes = {size: rank for rank, size in enumerate(asked, 1)}
    found = Converter(trace, sizes, order, loose).run()
    changed = ", ".join(f"{size} is {rank}" for size, rank in sizes.items())
    found.notes.add("changed", f"sizes, in their order, so that the segments fit: {changed}")
    return found


def places_of(commands: list[Command]) -> dict[Name, float]:
    """Places for calls in another order than their entries, each between its first and last line."""
    places: dict[Name, float] = {}
    place = 0
    for number, command in enumerate(commands):
        place = max(place, command.first)
        places.setdefault(command.name, place + number / len(commands) / 2)
    return places


def limits_for(found: Converter, slots: int, ranges: dict[str, tuple[int, int]]) -> list[int]:
    """The five limits of the script, as wide as the trace needs."""
    frames = min(slots + 2, ranges["frames"][1])
    segments = min(max(found.memory.created, 1), ranges["shmmni"][1])
    return [found.most_size, segments, ranges["shmall"][1], frames, frames - 2]


def head_of(found: Converter, chosen: list[int], slots: int) -> list[str]:
    """The first lines of the script: the limits, and above them the sizes if the trace, or the chosen limits,
    need a machine that is larger than the profile's."""
    processes, memory = len(processes_of(found.commands)), found.memory
    is_larger = (processes > MOST_PROCESSES or memory.most_pieces > MOST_PIECES or slots > MOST_SLOTS
                 or memory.most_segments > PROFILE["shmmni"][1] or found.most_size > PROFILE["shmmax"][1]
                 or any(number > most for number, (_, most) in zip(chosen, PROFILE.values())))
    numbers = chosen or limits_for(found, slots, LARGER if is_larger else PROFILE)
    sizes = f"sizes {LARGEST['most_pieces']} {max(processes, 1)} {max(slots, MOST_SLOTS)}"
    return [sizes] * is_larger + ["limits " + " ".join(map(str, numbers))]


def processes_of(commands: list[Command]) -> list[tuple[Process, bool]]:
    """The processes of a script in the order of their first lines, and whether a fork makes them."""
    born = {command.child.name for command in commands if command.child}
    processes: dict[str, tuple[Process, bool]] = {}
    for command in commands:
        for process in (command.process, command.child):
            if process:
                processes.setdefault(process.name, (process, process.name in born))
    return list(processes.values())


def script_of(commands: list[Command], head: list[str], uid: int, gid: int) -> str:
    processes = processes_of(commands)
    if len(processes) > LARGEST["most_processes"]:
        raise BadTrace(0, f"{len(processes)} processes call or inherit shared memory, but a script has at "
                          f"most {LARGEST['most_processes']}")
    if len(commands) > MOST_COMMANDS:
        raise BadTrace(0, f"there are {len(commands)} calls, but a script has at most {MOST_COMMANDS}")
    lines = [*head, "rules linux"]
    for process, is_born in processes:
        name = "".join(it if " " <= it <= "~" else "?" for it in process.program)
        lines.append(f"# {process.pid} is {name or 'not named in the trace'}")
        lines.append(f"child {process.pid}" if is_born else f"process {process.pid} {uid} {gid}")
    letters = {process.name: Letters([it for it in commands if it.process is process]) for process,
               _ in processes}
    lines += [f"{it.process.pid} {letters[it.process.name].take(with_user(it, uid, gid))}" for it in commands]
    text = "\n".join(lines) + "\n"
    if len(text) > MOST_BYTES:
        raise BadTrace(0, f"the script would have {len(text)} bytes, but at most {MOST_BYTES} are allowed")
    return text


def overlaps(commands: list[Command]) -> list[int]:
    """For each command, how many overlap from it on; 0 if none, or if it is not the first of them."""
    counts = [0] * len(commands)
    begins = [command.first for command in commands]        # of this command or a later one, the earliest
    for place in reversed(range(len(commands) - 1)):
        begins[place] = min(begins[place], begins[place + 1])
    first = end = 0
    for place in range(1, len(commands)):
        end = max(end, commands[place - 1].last)
        if begins[place] >= end:
            first = place
        else:
            counts[first] = place - first + 1
    return counts


def with_user(command: Command, uid: int, gid: int) -> Command:
    """The command with the user and group with which all processes begin."""
    if command.word == "setuid":
        named = command.shown.replace("UID", str(uid)).replace("GID", str(gid))
        return replace(command, parts=[named], shown=named)
    return command


def log_of(commands: list[Command], uid: int, gid: int) -> str:
    lines = []
    for place, (command, count) in enumerate(zip(commands, overlaps(commands)), 1):
        if count:
            lines.append(f"# the next {count} overlap in time")
        call = f"{command.word} {with_user(command, uid, gid).shown}".rstrip()
        lines.append(f"{place} {command.process.pid} {call} = {command.reply}")
    return "".join(line + "\n" for line in lines)


def schedule_in(text: str) -> list[int]:
    """The pids of a verdict's schedule."""
    lines = text.split("\n")
    if lines[0] != "legal" or not lines[1].startswith("schedule"):
        raise BadTrace(0, "the verdict is not `legal` with a schedule")
    return [int(word) for word in lines[1].split()[1:]]


def fault_in_time(commands: list[Command], schedule: list[int]) -> tuple[Command, Command] | None:
    """A command that the schedule has before one that returned before it began, and that one; or None."""
    own: dict[int, list[Command]] = {}
    for command in commands:
        own.setdefault(command.process.pid, []).append(command)
    if sorted(schedule) != sorted(command.process.pid for command in commands):
        raise BadTrace(0, "the schedule is not one of this trace")
    later = None
    for command in reversed([own[pid].pop(0) for pid in schedule]):
        is_same = later is not None and (later.first, later.last) == (command.first, command.last)
        if later and later.last <= command.first and not is_same:
            return command, later
        later = command if later is None or command.last < later.last else later
    return None


def judge_times(commands: list[Command], path: str) -> int:
    with open(path, encoding="ascii", errors="replace") as file:
        fault = fault_in_time(commands, schedule_in(file.read()))
    if fault is None:
        print("in time")
        return 0
    names = [f"{it.process.pid} {it.word} {it.shown}".rstrip() + f" (line {it.first})" for it in fault]
    print(f"not in time: {names[0]} comes before {names[1]}, which had returned when it began")
    return 6


def user_of(found: Converter, words: argparse.Namespace) -> tuple[int, int]:
    """The user and group of all processes of the script."""
    uid, gid = next(iter(found.users)) if len(found.users) == 1 else (os.geteuid(), os.getegid())
    if len(found.users) == 1 and None in (words.uid, words.gid):
        found.notes.add("assumed", f"user {uid} and group {gid}, whom stat shows")
    if len(found.users) > 1:
        found.notes.add("not known",
                        f"stat shows {len(found.users)} creators, and all processes begin as one user")
    return uid if words.uid is None else words.uid, gid if words.gid is None else words.gid


def write_all(texts: list[tuple[str, str]]) -> None:
    """Writes each text under another name first, so that no file is half written."""
    written = []
    try:
        for path, text in texts:
            folder = os.path.dirname(os.path.abspath(path))
            with tempfile.NamedTemporaryFile("w", encoding="ascii", dir=folder, prefix=".from_strace.",
                                             delete=False) as file:
                written.append((file.name, path))
                file.write(text)
            os.chmod(file.name, 0o644)
        for name, path in written:
            os.replace(name, path)
    except OSError as fault:
        raise OSError(fault.errno, fault.strerror, path) from None
    finally:
        for name, _ in written:
            if os.path.exists(name):
                os.unlink(name)


def command_of(path: str) -> str:
    """How a program of this project is called from the current folder; by its name if it is installed."""
    if os.path.isfile(INSTALLED):
        return "nogcuvema-from-strace" if path.endswith("from_strace") else path
    near = os.path.relpath(os.path.join(TOP, path))
    if near.startswith(".."):
        return shlex.quote(os.path.join(TOP, path))
    return shlex.quote(near if os.path.dirname(near) else f"./{near}")


def next_commands(words: argparse.Namespace) -> str:
    """The commands that judge the log, and compare the verdict with the times."""
    script, log, verdict = (shlex.quote(it) for it in (words.script, words.log, f"{words.log}.verdict"))
    own = command_of(os.path.join("conformance", "from_strace"))
    timed = (f"{own} --verdict {verdict} < TRACE" if words.trace is None
             else f"{own} {shlex.quote(words.trace)} --verdict {verdict}")
    return f"next: {command_of('shmcheck')} judge {log} --rules linux < {script} > {verdict}\nthen: {timed}"


def number_up_to(most: int, least: int = 0) -> Callable[[str], int]:
    def number(text: str) -> int:
        if not text.isdigit() or not least <= int(text) <= most:
            raise argparse.ArgumentTypeError(f"no number from {least} to {most}: {text}")
        return int(text)
    return number


def limits(text: str) -> list[int]:
    words = text.split()
    if len(words) != 5 or not all(word.isdigit() for word in words):
        raise argparse.ArgumentTypeError(f"SHMMAX SHMMNI SHMALL FRAMES MEMLOCK are five numbers: {text}")
    return [int(word) for word in words]


def words_of(arguments: list[str]) -> argparse.Namespace:
    parser = Parser(prog="from_strace", description=__doc__, allow_abbrev=False,
                    formatter_class=argparse.RawDescriptionHelpFormatter)
    parser.add_argument("trace", nargs="?", metavar="TRACE")
    parser.add_argument("--script", metavar="SCRIPT")
    parser.add_argument("--log", metavar="LOG")
    parser.add_argument("--verdict", metavar="VERDICT")
    parser.add_argument("--uid", type=number_up_to(2 ** 32 - 1), metavar="N")
    parser.add_argument("--gid", type=number_up_to(2 ** 32 - 1), metavar="N")
    parser.add_argument("--limits", type=limits, default=[], metavar="NUMBERS")
    parser.add_argument("--slots", type=number_up_to(LARGEST["most_slots"], 1), default=64, metavar="N")
    words = parser.parse_args(arguments)
    if words.verdict is None and None in (words.script, words.log):
        parser.error("--script and --log are both needed, or --verdict")
    if words.verdict is not None and (words.script or words.log):
        parser.error("--verdict comes without --script and --log")
    return words


def lines_in(path: str | None) -> list[str]:
    if path is None:
        return sys.stdin.buffer.read().decode("utf-8", "replace").split("\n")
    with open(path, encoding="utf-8", errors="replace", newline="\n") as file:
        return file.read().split("\n")


def main(arguments: list[str]) -> int:
    words = words_of(arguments)
    try:
        trace = read_trace(lines_in(words.trace))
        found = converted(trace, words.slots)
        if words.verdict is not None:
            return judge_times(found.commands, words.verdict)
        user = user_of(found, words)
        script = script_of(found.commands, head_of(found, words.limits, words.slots), *user)
        write_all([(words.script, script), (words.log, log_of(found.commands, *user))])
    except BadTrace as fault:
        print(f"from_strace: {fault}", file=sys.stderr)
        return 1
    except OSError as fault:
        print(f"from_strace: {fault.filename}: {fault.strerror}", file=sys.stderr)
        return 3
    count = len(processes_of(found.commands))
    print(f"from_strace: calls {len(found.commands)}, processes {count}", file=sys.stderr)
    for line in found.notes.lines():
        print(line, file=sys.stderr)
    print(next_commands(words))
    return 0


if __name__ == "__main__":
    sys.exit(run_command("from_strace", lambda: main(sys.argv[1:])))
