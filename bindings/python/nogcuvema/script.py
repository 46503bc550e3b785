"""Reads the script language of docs/SCRIPT.md, and runs a script's lines over a machine.

A fault has the kind that the programs print. It also has the word, its column, and what is allowed there.
"""
import collections.abc
import re
from dataclasses import dataclass, fields, replace
from typing import (Any, Callable, Dict, Iterator, List, Mapping, NamedTuple, Optional, Sequence, Set, Tuple,
                    Union)

from .errors import Fault, Refused
from .machine import (LARGER, MOST_PROCESSES, Area, Failure, Flag, Limits, Machine, Process, Rules, Segment,
                      child, range_of)

LONGEST, MOST_LINES, MOST_AREAS, MOST_SLOTS = 1048576, 100000, 8, LARGER["most_slots"][1]
U64, U32, I32 = 2 ** 64 - 1, 2 ** 32 - 1, 2 ** 31 - 1
RULES = {name.lower(): rule for name, rule in Rules.__members__.items() if rule is not Rules.LINUX}
# the limits that two lines give, and their names in docs/SCRIPT.md
SIZES = {"most_pieces": "PIECES", "most_processes": "PROCESSES", "most_slots": "SLOTS"}
LIMITS = {"shmmax": "SHMMAX", "shmmni": "SHMMNI", "shmall": "SHMALL", "frames": "FRAMES",
          "memlock": "MEMLOCK"}
FIRST_LINES = ("limits SHMMAX SHMMNI SHMALL FRAMES MEMLOCK, the first line with words; above it only a line "
               "sizes PIECES PROCESSES SLOTS")
# a message names each declared process, unless there are more
MOST_NAMED = 64


class ScriptFault(ValueError):
    """The first fault of a script: `line` from 1 (0: the whole script), and `kind`, as the programs print it.
    If one word is wrong, `word` and its `column` from 1. `allowed` describes what may be there."""

    def __init__(self, line: int, kind: str, word: str = "", column: int = 0, allowed: str = "") -> None:
        super().__init__(f"line {line}: {kind}")
        self.line = line
        self.kind = kind
        self.word = word
        self.column = column
        self.allowed = allowed


class Word(NamedTuple):
    """A word of a line, and its column from 1."""
    text: str
    column: int


class _Bad(Exception):
    """A fault of a line; the reader adds the line's number."""

    def __init__(self, kind: str, word: Optional[Word], allowed: str) -> None:
        super().__init__(kind)
        self.kind = kind
        self.word = word
        self.allowed = allowed


class Variable(NamedTuple):
    """A variable of a process, and a number to add to it."""
    letter: str
    plus: int = 0


class OperandKind(NamedTuple):
    """How an operand is read, first its form, then its range; and how an event line shows it."""
    allowed: str
    form: Callable[[str], Any]
    least: int
    most: int
    show: Callable[[Any], str]


class NoForm(Exception):
    """A word does not have the form of its operand."""


def number_of(text: str) -> int:
    """Decimal digits, or 0x and hexadecimal digits of either case."""
    if re.fullmatch("0x[0-9a-fA-F]+", text):
        return int(text[2:], 16)
    if re.fullmatch("[0-9]+", text):
        return int(text)
    raise NoForm


def key_of(text: str) -> int:
    return 0 if text == "private" else number_of(text)


def identifier_of(text: str) -> Union[int, Variable]:
    return Variable(text) if re.fullmatch("[a-z]", text) else number_of(text)


def address_of(text: str) -> Union[int, Variable]:
    if text == "null":
        return 0
    if re.fullmatch("[a-z]", text):
        return Variable(text)
    if re.match(r"[a-z]\+", text):
        return Variable(text[0], number_of(text[2:]))
    return number_of(text)


def mode_of(text: str) -> int:
    if not re.fullmatch("[0-7]{3}", text):
        raise NoForm
    return int(text, 8)


def protection_of(text: str) -> bool:
    """Whether pages become writable."""
    if text not in ("ro", "rw"):
        raise NoForm
    return text == "rw"


def get_flags_of(text: str) -> Tuple[int, int]:
    behind = {"": 0, ",creat": Flag.CREAT, ",excl": Flag.EXCL, ",creat,excl": Flag.CREAT | Flag.EXCL,
              ",excl,creat": Flag.CREAT | Flag.EXCL}
    mode = mode_of(text[:3])
    if text[3:] not in behind:
        raise NoForm
    return mode, int(behind[text[3:]])


NAMED_FLAGS = {"rnd": Flag.RND, "remap": Flag.REMAP, "rdonly": Flag.RDONLY}


def sum_of(names: List[str], named: Mapping[str, int]) -> int:
    """The sum of the numbers that these names have, each name at most once."""
    if any(name not in named for name in names) or len(set(names)) != len(names):
        raise NoForm
    return int(sum(named[name] for name in names))


def attach_flags_of(text: str) -> int:
    return sum_of([] if text == "-" else text.split(","), NAMED_FLAGS)


def bytes_of(text: str) -> bytes:
    if not re.fullmatch("([0-9a-fA-F]{2}){1,64}", text):
        raise NoForm
    return bytes.fromhex(text)


def word_of(text: str) -> bytes:
    if len(text) > 32:
        raise NoForm
    return bytes_of(text)


def rules_of(text: str) -> int:
    return int(Rules.LINUX) if text == "linux" else sum_of(text.split(","), RULES)


def show_get_flags(value: Tuple[int, int]) -> str:
    return f"{value[0]:03o}" + ",creat" * bool(value[1] & Flag.CREAT) + ",excl" * bool(value[1] & Flag.EXCL)


def show_attach_flags(value: int) -> str:
    return ",".join(name for name, flag in NAMED_FLAGS.items() if value & flag) or "-"


KEY = OperandKind("private, or a number up to 4294967295", key_of, 0, U32, "0x{:08x}".format)
IDENTIFIER = OperandKind("an identifier: a number up to 2147483647, or a variable a to z", identifier_of, 0,
                         I32, str)
ADDRESS = OperandKind("an address: null, a number, a variable a to z, or a variable with + and a number, as "
                      "a+4096",
                      address_of, 0, U64, lambda value: f"{value:#x}" if value else "null")
SIZE = OperandKind("a number", number_of, 0, U64, str)
LENGTH = OperandKind("a length of 1 to 64", number_of, 1, 64, str)
USER = OperandKind("a number up to 4294967295", number_of, 0, U32, str)
PID = OperandKind("a pid, 1 to 2147483647", number_of, 1, I32, str)
AREA = OperandKind("the number of a swap area, 0 to 7", number_of, 0, 7, str)
PAGES = OperandKind("a number of pages, 1 to 4096", number_of, 1, 4096, str)
MODE = OperandKind("a mode: three octal digits, as 600", mode_of, 0, U64, "{:03o}".format)
GET_FLAGS = OperandKind("a mode of three octal digits, then ,creat and ,excl each at most once, as 600,creat",
                        get_flags_of, 0, U64, show_get_flags)
ATTACH_FLAGS = OperandKind("-, or rnd, remap and rdonly with commas between them, each at most once",
                           attach_flags_of, 0, U64,
                           show_attach_flags)
RULE_NAMES = OperandKind("linux, or rules with commas between them, each at most once: "
                         + ", ".join(RULES), rules_of, 0, U64, str)
PROTECTION = OperandKind("ro or rw", protection_of, 0, 1, lambda value: "rw" if value else "ro")
BYTES = OperandKind("1 to 64 bytes: 2 to 128 hexadecimal digits, an even number", bytes_of, 0, U64, bytes.hex)
WORD = OperandKind("1 to 16 bytes: 2 to 32 hexadecimal digits, an even number", word_of, 0, U64, bytes.hex)

# the operands of each call, and the names under which docs/SCRIPT.md has them
CALLS: Dict[str, Sequence[Tuple[str, OperandKind]]] = {
    "shmget": (("key", KEY), ("size", SIZE), ("flags", GET_FLAGS)),
    "shmat": (("identifier", IDENTIFIER), ("address", ADDRESS), ("flags", ATTACH_FLAGS)),
    "shmdt": (("address", ADDRESS),),
    "munmap": (("address", ADDRESS), ("length", SIZE)),
    "mprotect": (("address", ADDRESS), ("length", SIZE), ("protection", PROTECTION)),
    "load": (("address", ADDRESS), ("length", LENGTH)),
    "store": (("address", ADDRESS), ("bytes", BYTES)),
    "xadd": (("address", ADDRESS), ("number", SIZE)),
    "swap": (("address", ADDRESS), ("bytes", BYTES)),
    "cas": (("address", ADDRESS), ("expected", WORD), ("new", WORD)),
    "stat": (("identifier", IDENTIFIER),),
    "set": (("identifier", IDENTIFIER), ("uid", USER), ("gid", USER), ("mode", MODE)),
    "rmid": (("identifier", IDENTIFIER),),
    "lock": (("identifier", IDENTIFIER),),
    "unlock": (("identifier", IDENTIFIER),),
    "fork": (("pid", PID),),
    "exec": (),
    "exit": (),
    "setuid": (("uid", USER), ("gid", USER)),
    "swapoff": (("area", AREA),),
}
TAKEN = ("shmget", "shmat", "xadd", "swap", "cas")


def form_of(call: str) -> str:
    """The form of a call, as `shmget KEY SIZE FLAGS`."""
    return " ".join([call, *(name.upper() for name, _ in CALLS[call])])


@dataclass(frozen=True)
class Command:
    """A line with a call of a process."""
    line: int
    pid: int
    taker: str      # the variable that takes the reply, or nothing
    call: str
    operands: Tuple[Any, ...]


@dataclass(frozen=True)
class FlushLine:
    """A line with a flush round."""
    line: int
    pages: int


class Script:
    """A script: its limits, its declared processes, and its lines in their order."""

    def __init__(self) -> None:
        self.sizes: Optional[Limits] = None     # of these only those of a sizes line are chosen
        self.limits: Optional[Limits] = None
        self.processes: List[Process] = []
        self.pids: Set[int] = set()             # theirs
        self.lines: List[Union[Command, FlushLine]] = []

    def read_line(self, number: int, text: str) -> Optional[Union[Command, FlushLine]]:
        """Reads the next line. Returns its command or flush round, None for any other line."""
        try:
            return self._read(number, text)
        except _Bad as bad:
            word = bad.word or Word("", 0)
            raise ScriptFault(number, bad.kind, word.text, word.column, bad.allowed) from None

    def _read(self, number: int, text: str) -> Optional[Union[Command, FlushLine]]:
        for place, letter in enumerate(text):
            if letter != "\t" and not " " <= letter <= "~":
                cause = ("a carriage return: lines end with a line feed alone" if letter == "\r"
                         else "tabs and 0x20 to 0x7e")
                raise _Bad("bad byte", Word(letter, place + 1), cause)
        words = words_of(text)
        if not words or words[0].text.startswith("#"):
            return None
        if self.limits is None:
            self._read_head(words)
            return None
        if words[0].text == "sizes":
            raise _Bad("bad line", words[0], "one sizes line, directly above the limits line")
        if words[0].text == "rules":
            self.limits = self._ruled(self.limits, words)
            return None
        if words[0].text in ("process", "child"):
            self._declare(words)
            return None
        is_flush = words[0].text == "0"
        line: Union[Command, FlushLine]
        line = self._read_flush(number, words) if is_flush else self._read_command(number, words)
        if len(self.lines) >= MOST_LINES:
            raise _Bad("too many lines", words[0], "100,000 commands and flush lines at most")
        self.lines.append(line)
        return line

    def _read_head(self, words: List[Word]) -> None:
        """The limits line, or the sizes line above it."""
        first = words[0].text
        if first == "limits":
            self.limits = read_limits(words, LIMITS, self.sizes or Limits())
        elif first != "sizes":
            raise _Bad("no limits line", words[0], FIRST_LINES)
        elif self.sizes is not None:
            raise _Bad("bad line", words[0], "one sizes line, directly above the limits line")
        else:
            self.sizes = read_limits(words, SIZES, Limits())

    def most_processes(self) -> int:
        """How many processes may be declared."""
        return self.limits.most_processes or MOST_PROCESSES if self.limits else 0

    def _ruled(self, limits: Limits, words: List[Word]) -> Limits:
        if self.lines or self.processes or limits.rules:
            raise _Bad("bad line", words[0], "one rules line, below the limits and above everything else")
        return replace(limits, rules=read_operands(words, 1, [RULE_NAMES], "rules NAME,NAME")[0])

    def _declare(self, words: List[Word]) -> None:
        if self.lines:
            raise _Bad("bad line", words[0], "processes are declared above the first command or flush line")
        is_child = words[0].text == "child"
        form = [PID] if is_child else [PID, USER, USER]
        values = read_operands(words, 1, form, "child PID" if is_child else "process PID UID GID")
        if values[0] in self.pids:
            raise _Bad("process declared twice", words[1], "a pid that is not declared above")
        if len(self.processes) >= self.most_processes():
            raise _Bad("too many lines", words[0], f"{self.most_processes()} processes at most")
        self.processes.append(child(values[0]) if is_child else Process(*values))
        self.pids.add(values[0])

    def _read_flush(self, number: int, words: List[Word]) -> FlushLine:
        if len(words) < 2 or words[1].text != "flush":
            raise _Bad("bad line", words[1] if len(words) > 1 else words[0],
                       "flush N: 0 is no process, and its one line is 0 flush N")
        return FlushLine(number, read_operands(words, 2, [PAGES], "0 flush N")[0])

    def _read_command(self, number: int, words: List[Word]) -> Command:
        pid = read_form(words[0],
                        PID._replace(allowed="the pid of a process, or limits, rules, process, child or 0 flush N"))
        is_letter = len(words) > 1 and re.fullmatch("[a-z]", words[1].text) is not None
        is_taken = is_letter and len(words) > 2 and words[2].text == "="
        at = 3 if is_taken else 1
        if len(words) <= at or words[at].text not in CALLS:
            raise _Bad("bad line", words[at] if len(words) > at else words[-1], "a call: " + ", ".join(CALLS))
        call = words[at].text
        if is_taken and call not in TAKEN:
            raise _Bad("bad line", words[at],
                       ", ".join(TAKEN[:-1]) + f" or {TAKEN[-1]}: other calls have no reply for a variable")
        kinds = [kind for _, kind in CALLS[call]]
        values = read_forms(words, at + 1, kinds, form_of(call))
        require_widths(words[at + 1:], call, values, is_taken)
        read_ranges(words[at + 1:], kinds, values)
        read_range(words[0], PID, pid)
        for value, word in ((pid, words[0]), *([(values[0], words[at + 1])] if call == "fork" else [])):
            if value not in self.pids:
                named = ", ".join(str(it.pid) for it in self.processes[:MOST_NAMED])
                more = len(self.processes) - MOST_NAMED
                raise _Bad("unknown process", word,
                           f"a declared pid: {named}" + f" and {more} more" * (more > 0))
        return Command(number, pid, words[1].text if is_taken else "", call, tuple(values))


def words_of(text: str) -> List[Word]:
    return [Word(found[0], found.start() + 1) for found in re.finditer(r"[^ \t]+", text)]


def read_form(word: Word, kind: OperandKind) -> Any:
    try:
        return kind.form(word.text)
    except NoForm:
        raise _Bad("bad line", word, kind.allowed) from None


def read_range(word: Word, kind: OperandKind, value: Any) -> None:
    number, most = (value.plus, U64) if isinstance(value, Variable) else (value, kind.most)
    least = 0 if isinstance(value, Variable) else kind.least
    if isinstance(number, int) and not least <= number <= most:
        raise _Bad("bad number", word,
                   kind.allowed if kind.most != U64 else "a number up to 18446744073709551615")


def read_forms(words: List[Word], at: int, kinds: Sequence[OperandKind], form: str) -> List[Any]:
    """The operands from a place on, whose ranges are not checked."""
    if len(words) != at + len(kinds):
        extra = words[at + len(kinds)] if len(words) > at + len(kinds) else words[-1]
        raise _Bad("bad line", extra,
                   f"{form}: {len(kinds)} operands, and {max(0, len(words) - at)} are there")
    return [read_form(word, kind) for word, kind in zip(words[at:], kinds)]


def read_ranges(words: Sequence[Word], kinds: Sequence[OperandKind], values: Sequence[Any]) -> None:
    for word, kind, value in zip(words, kinds, values):
        read_range(word, kind, value)


def read_operands(words: List[Word], at: int, kinds: Sequence[OperandKind], form: str) -> List[Any]:
    """The operands from a place on. It checks all forms before any range."""
    values = read_forms(words, at, kinds, form)
    read_ranges(words[at:], kinds, values)
    return values


def require_widths(words: List[Word], call: str, values: List[Any], is_taken: bool) -> None:
    """Checks that a cas has as many bytes as it expects, and that a variable takes at most 8 bytes."""
    if call == "cas" and len(values[1]) != len(values[2]):
        raise _Bad("lengths differ", words[2], f"as many bytes as are expected: {len(values[1])}")
    if is_taken and call in ("swap", "cas") and len(values[-1]) > 8:
        raise _Bad("too wide for a variable", words[-1],
                   "at most 8 bytes, because the variable takes as many that were there")


def read_limits(words: List[Word], names: Dict[str, str], others: Limits) -> Limits:
    """The limits with those of a line, each within its range."""
    values = read_operands(words, 1, [SIZE] * len(names), " ".join([words[0].text, *names.values()]))
    limits = replace(others, **dict(zip(names, values)))
    order = [it.name for it in fields(Limits)]
    for name, value, word in zip(names, values, words[1:]):
        least, most = range_of(limits, name)
        if not least <= value <= most:
            raise _Bad(f"bad limits {order.index(name) + 1}", word,
                       f"{names[name]} is from {least} to {most}")
    return limits


def read_script(text: Union[str, bytes]) -> Script:
    """Reads a whole script, or raises its first fault as a `ScriptFault`."""
    text = text.decode("latin-1") if isinstance(text, bytes) else text
    if len(text) > LONGEST:
        raise ScriptFault(0, "script too long", allowed=f"{LONGEST} bytes at most")
    lines = text.split("\n")
    lines = lines[:-1] if lines[-1] == "" else lines
    script = Script()
    if all(not words_of(line) or words_of(line)[0].text.startswith("#") for line in lines):
        lines = lines[:1]
    for number, line in enumerate(lines, 1):
        script.read_line(number, line)
    if script.limits is None:
        raise ScriptFault(1, "no limits line", allowed=FIRST_LINES)
    return script


def areas_of(swap: Union[str, Sequence[str]]) -> List[Area]:
    """The swap areas that words name: ram:N, sparse:N, mirror:N, fuse:N:rK or fuse:N:wK."""
    if not isinstance(swap, collections.abc.Sequence) or not all(isinstance(word, str) for word in swap):
        raise TypeError(f"swap: a text or a list of texts is wanted, not {type(swap).__name__}")
    words = swap.split() if isinstance(swap, str) else list(swap)
    areas = []
    for word in words:
        found = re.fullmatch("(ram|sparse|mirror|fuse):([0-9]+)(?::([rw])([0-9]+))?", word)
        slots = int(found[2]) if found else 0
        if not found or (found[1] == "fuse") != (found[3] is not None) or not 1 <= slots <= MOST_SLOTS or (
                found[3] and not 1 <= int(found[4]) <= U64):
            raise ValueError(f"no swap area: {word}: it is ram:N, sparse:N, mirror:N, fuse:N:rK or "
                             f"fuse:N:wK, N from 1 to {MOST_SLOTS}")
        failures = [Failure(int(found[4]), found[3] == "w")] if found[3] else []
        areas.append({"sparse": Area.sparse, "mirror": Area.mirror}.get(found[1], Area.ram)(slots, failures))
    if not 1 <= len(areas) <= MOST_AREAS:
        raise ValueError(f"there are {len(areas)} swap areas, and 1 to 8 are allowed")
    return areas


def status_of(segment: Segment) -> str:
    return ",".join(["dest"] * segment.is_marked + ["locked"] * segment.is_locked) or "-"


def show_segment(it: Segment) -> str:
    """What a stat's event line says of a segment."""
    return (f"key=0x{it.key:08x} uid={it.uid} gid={it.gid} cuid={it.cuid} cgid={it.cgid} mode={it.mode:03o} "
            f"status={status_of(it)} size={it.size} cpid={it.cpid} lpid={it.lpid} nattch={it.nattch} "
            f"atime={it.atime} dtime={it.dtime} ctime={it.ctime}")


def listing(machine: Machine) -> str:
    """The lines of all segments, as the programs print them."""
    lines = [f"{'key':<10} {'shmid':<10} {'owner':<10} {'perms':<10} {'bytes':<10} {'nattch':<10} status"]
    lines += [f"0x{it.key:08x} {it.id:<10} {it.uid:<10} {it.mode:03o}        {it.size:<10} {it.nattch:<10} "
              f"{status_of(it)}" for it in machine.segments()]
    return "".join(line + "\n" for line in lines)


def usage(machine: Machine) -> str:
    """The three lines of counts, as the programs print them."""
    it = machine.tally()
    return (f"usage events {it.events} segments {it.segments} reserved {it.reserved} locked {it.locked}\n"
            f"usage frames {it.resident}/{it.frames} dirty {it.dirty} slots {it.used}/{it.slots}\n"
            f"usage in {it.ins} out {it.outs} failures {it.failures}\n")


class Run:
    """A machine, and each process's variables as a script's lines set them."""

    def __init__(self, machine: Machine, script: Script) -> None:
        self.machine = machine
        self.script = script
        self.variables: Dict[int, Dict[str, int]] = {it.pid: {} for it in script.processes}

    @classmethod
    def open(cls, script: Script, areas: Sequence[Area]) -> "Run":
        return cls(Machine(script.limits, areas, script.processes), script)

    def steps(self) -> Iterator[str]:
        """Runs the script's lines in order. Yields the event line of each call; a flush round has none."""
        for line in self.script.lines:
            event = self.step(line)
            if event:
                yield event

    def step(self, line: Union[Command, FlushLine]) -> str:
        """Runs one line. Returns its event line, nothing for a flush round."""
        if isinstance(line, FlushLine):
            self.machine.flush(line.pages)
            return ""
        kinds = [kind for _, kind in CALLS[line.call]]
        values = [self._value(line.pid, value, kind) for value, kind in zip(line.operands, kinds)]
        shown = [kind.show(value) for value, kind in zip(values, kinds)]
        place = self.machine.calls() + 1
        try:
            answer, reply = self._call(line, values)
        except (Refused, Fault) as refused:
            answer, reply = U64, refused.name
        if line.taker:
            self.variables[line.pid][line.taker] = answer
        return " ".join([str(place), str(line.pid), line.call, *shown, "=", reply])

    def _value(self, pid: int, value: Any, kind: OperandKind) -> Any:
        if isinstance(value, Variable):
            value = (self.variables[pid].get(value.letter, 0) + value.plus) & U64
            # a number above the identifiers' range was never issued
            return -1 if kind is IDENTIFIER and value > I32 else value
        return value

    def _call(self, line: Command, values: List[Any]) -> Tuple[int, str]:
        """The number that a variable takes, and the reply."""
        it = self.machine
        calls: Dict[str, Callable[..., Any]] = {
            "shmget": lambda pid, key, size, flags: it.get(pid, key, size, *flags), "shmat": it.attach,
            "shmdt": it.detach, "munmap": it.unmap, "mprotect": it.protect, "load": it.load, "store": it.store,
            "xadd": it.add, "swap": it.exchange, "cas": it.compare_exchange, "stat": it.stat, "set": it.set,
            "rmid": it.remove, "lock": it.lock, "unlock": it.unlock, "fork": it.fork, "exec": it.exec,
            "exit": it.exit, "setuid": it.set_user, "swapoff": it.swapoff}
        found = calls[line.call](line.pid, *values)
        if isinstance(found, bytes):
            return int.from_bytes(found[:8], "little"), found.hex()
        if isinstance(found, int):
            return found, f"{found:#x}" if line.call == "shmat" else str(found)
        return 0, show_segment(found) if isinstance(found, Segment) else "ok"


def transcript(text: str, swap: Union[str, Sequence[str]] = "ram:64") -> str:
    """What `shmsim serial` prints of a script: its event lines, the listing and the usage."""
    run = Run.open(read_script(text), areas_of(swap))
    with run.machine as machine:
        events = [event + "\n" for event in run.steps()]
        return "".join(events) + listing(machine) + usage(machine)
