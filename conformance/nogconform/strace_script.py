"""Turns a trace into the commands of a script and their replies."""

from __future__ import annotations

import re
from collections.abc import Iterator
from dataclasses import dataclass, field
from typing import Any, Union

from .strace_lines import MADE_BY, Call, Thread, Trace
from .strace_model import LAST, NEVER_ISSUED, PAGE, Attach, Memory, Piece, Process, Segment, pages_of, protected, without

ERRORS = ("EPERM", "ENOENT", "EAGAIN", "ENOMEM", "EACCES", "EEXIST", "EINVAL", "EMFILE", "ENOSPC", "EIDRM")
CALLS = ("shmget", "shmat", "shmdt", "shmctl")
CONTROLS = {"IPC_RMID": "rmid", "IPC_STAT": "stat", "IPC_SET": "set", "SHM_LOCK": "lock",
            "SHM_UNLOCK": "unlock"}
ENDS = ("+++", "superseded")
INFORMING = ("IPC_INFO", "SHM_INFO", "SHM_STAT", "SHM_STAT_ANY")
MAPPINGS = ("munmap", "mremap", "mprotect", "madvise", "mlock", "mlock2", "munlock", "mmap",
            "remap_file_pages", "pkey_mprotect")
CREDENTIALS = re.compile(r"set(re|res|fs)?[ug]id(32)?|setgroups(32)?")
HARMLESS_ADVICE = ("MADV_NORMAL", "MADV_WILLNEED", "MADV_POPULATE_READ", "MADV_POPULATE_WRITE", "MADV_COLD",
                   "MADV_PAGEOUT")
FLAGS_OF_GET = {"IPC_CREAT": "creat", "IPC_EXCL": "excl"}
FLAGS_OF_ATTACH = {"SHM_RND": "rnd", "SHM_REMAP": "remap", "SHM_RDONLY": "rdonly"}
PROTECTIONS = {"PROT_READ": "ro", "PROT_READ|PROT_WRITE": "rw"}
# in a line setuid, the user and group with which all processes begin
FIRST_USER = ("UID", "GID")
DEST, LOCKED = 0o1000, 0o2000
BEFORE, HUGE = "segments from before the trace", "segments of huge pages"
# a part of the operands of a line
Part = Union[str, Segment, "tuple[Attach, int]"]
NO_LIMITS = "the trace does not show the limit that it exceeded"


class LeftOut(Exception):
    """A call that is not in the script, and why."""


@dataclass
class Command:
    """A line of the script. Each part of its operands is a text, a segment, or an attach with an offset."""

    process: Process
    word: str
    parts: list[Part]
    shown: str                  # its operands in the log, as the trace has them
    reply: str
    place: float                # in the order of the trace's lines
    first: int                  # the line where it began
    last: int                   # the line where it ended
    result: Segment | Attach | None = None      # the segment or attach of its reply
    child: Process | None = None
    # segments that lost or got an attachment
    effects: list[tuple[Segment, int]] = field(default_factory=list)
    call: Call | None = None    # of the trace
    key: int = 0                # of shmget
    is_new: bool = False

    @property
    def name(self) -> tuple[str, bool, int]:
        """The name of its call in the trace."""
        assert self.call is not None
        return self.call.thread_and_line

    @property
    def is_quiet(self) -> bool:
        return (self.word == "stat" or self.reply.startswith("E")
                or self.word in ("shmget", "set", "lock", "unlock") and not self.is_new)

    @property
    def middle(self) -> float:
        """The end of a process removes its attachments some time after it began."""
        return (self.first + self.last) / 2 if self.word in ("exit", "exec") else self.first


@dataclass
class Notes:
    """What was left out or changed, how often, and the first line."""

    counts: dict[tuple[str, str], tuple[int, int]] = field(default_factory=dict)

    def add(self, kind: str, text: str, at: Call | Thread | None = None) -> None:
        count, first = self.counts.get((kind, text), (0, at.first if at else 0))
        self.counts[kind, text] = (count + 1, first)

    def lines(self) -> Iterator[str]:
        for (kind, text), (count, first) in sorted(self.counts.items(),
                                                   key=lambda it: (it[0][0] != "left out", it[1][1])):
            yield f"{kind}: {text}: {count}, first in line {first}" if first else f"{kind}: {text}"


def number_of(word: str) -> int:
    """A number as strace prints it, also NULL and negative ones."""
    if word == "NULL":
        return 0
    try:
        return int(word, 8) if re.fullmatch(r"0[0-7]+", word) else int(word, 0)
    except ValueError:
        raise LeftOut(f"calls with an operand that is not a number: {word[:20]}") from None


def member(text: str, name: str) -> str | None:
    """The value of a member of a structure that strace decoded."""
    found = re.search(rf"\b{name}=([^,{{}}]*)", text)
    return found[1].strip() if found else None


class Tree:
    """The tree of threads: which thread made which, and which processes they are."""

    def __init__(self, trace: Trace, notes: Notes) -> None:
        self.trace, self.notes = trace, notes
        self.makers: dict[str, Call] = {}           # by name of the thread that was made: the call
        self.processes: dict[str, Process] = {}     # by name of a thread
        for call in trace.calls:
            if call.name in MADE_BY and call.last and call.value.isdigit() and call.value != "0":
                self.link(call, int(call.value))
        self.link_unreturned()
        self.taken = {thread.number for thread in trace.threads.values()}
        used: set[int] = set()
        for thread in trace.threads.values():
            self.processes[thread.name] = self.process_of(thread, used)
            self.processes[thread.name].threads.add(thread.name)

    def link(self, call: Call, number: int) -> None:
        names = self.trace.lives.get(number, [])
        made = next((it for it in names if self.trace.threads[it].first > call.first
                     and it not in self.makers), None)
        if made:
            self.makers[made] = call

    def link_unreturned(self) -> None:
        """A call that never returned may have made a thread that nothing else made."""
        for call in self.trace.calls:
            if call.name in MADE_BY and call.last is None:
                made = [it for it in self.trace.threads.values() if it.name not in self.makers
                        and it.first > call.first]
                if made:
                    self.makers[made[0].name] = call
                    self.notes.add("assumed", f"{call.name} without a return made process {made[0].number}",
                                   call)

    def process_of(self, thread: Thread, used: set[int]) -> Process:
        call = self.makers.get(thread.name)
        if call is not None and kind_of(call) in ("thread", "memory") and call.thread in self.processes:
            if kind_of(call) == "memory":
                self.notes.add("changed", "processes that share all memory with their maker count as it",
                               call)
            return self.processes[call.thread]
        number = int(thread.name.split("#")[0]) or thread.number
        pid = number
        if pid in used or not 1 <= pid <= 2147483647:
            pid = next(it for it in range(1, len(self.taken) + 2) if it not in self.taken)
            self.taken.add(pid)
            self.notes.add("changed", f"process {number or 'without a number'} is {pid} in the script",
                           thread)
        used.add(pid)
        return Process(thread.name, pid)


def kind_of(call: Call) -> str:
    """What a call makes: a thread, a process that shares the memory (until an exec), or one with a copy."""
    if call.name in ("fork", "vfork"):
        return call.name
    flags = (member(call.text, "flags") or "").split("|")
    if "CLONE_THREAD" in flags:
        return "thread"
    if "CLONE_VFORK" in flags and "CLONE_VM" in flags:
        return "vfork"
    return "memory" if "CLONE_VM" in flags else "fork"


class Converter:
    """Converts a trace in one pass. `sizes` gives segments other sizes, `order` gives calls other places, and
    the calls in `loose` may have any reply."""

    def __init__(self, trace: Trace, sizes: dict[int, int] | None = None,
                 order: dict[tuple[str, bool, int], float] | None = None,
                 loose: set[tuple[str, bool, int]] | tuple[()] = ()) -> None:
        self.trace, self.sizes, self.order, self.loose = trace, sizes or {}, order or {}, loose
        self.notes = Notes()
        self.tree = Tree(trace, self.notes)
        self.memory = Memory()
        self.commands: list[Command] = []
        self.asked: set[int] = set()                # sizes that were asked for
        self.most_size = 1          # of those not refused as wrong
        self.users: set[tuple[int, int]] = set()    # user and group of each creator that stat shows
        self.matter: set[str] = set()               # names of the processes that are in the script

    def run(self) -> Converter:
        self.makes = {id(call): name for name, call in self.tree.makers.items()}
        for place, _, call in sorted(self.placed(), key=lambda it: it[:2]):
            call.place = place
            try:
                self.take(self.tree.processes[call.thread], call)
            except LeftOut as why:
                self.notes.add("left out", str(why), call)
        self.commands = [it for it in self.commands if self.is_told(it)]
        return self

    def placed(self) -> Iterator[tuple[float, int, Call]]:
        """The calls with their places: the first lines, because strace soon lets a call continue."""
        for index, call in enumerate(self.trace.calls):
            made = self.makes.get(id(call))
            if made is not None:
                first = self.trace.threads[made].first
                call.last = first if call.last is None else min(call.last, first)
            if call.name in CALLS and call.last is None:
                self.notes.add("left out", f"{call.name} without a return", call)
            elif call.name not in ENDS and call.last is not None:
                yield self.order.get(call.thread_and_line, call.first), index, call
        own: dict[str, tuple[Process, list[Call]]] = {}
        for call in self.trace.calls:
            process = self.tree.processes[call.thread]
            own.setdefault(process.name, (process, []))[1].append(call)
        for process, calls in own.values():
            yield from self.end_of(process, calls)

    def end_of(self, process: Process, own: list[Call]) -> Iterator[tuple[float, int, Call]]:
        """A process ends with its last thread: at its last call, or after it where a signal ends it."""
        ends = [it for it in own if it.name in ENDS]
        if {it.thread for it in ends} != process.threads:
            return
        end = max(ends, key=lambda it: it.last or 0)
        end_line = end.last or end.first
        groups = [it.first for it in own if it.name == "exit_group"]
        exits = [it.first for it in own if it.name == "exit" and it.thread == end.thread]
        maker = self.tree.makers.get(process.name)
        before = [it.last for it in own if it.last and it.last < end_line]
        before = before or [(maker.last if maker else None) or end.first]
        first = (groups or exits or [max(before)])[0]
        place = first if groups or exits else end_line
        whole = Call(process.name, "+++", "", first, end_line)
        yield self.order.get(whole.thread_and_line, place), end.first, whole

    def is_told(self, command: Command) -> bool:
        if command.process.name not in self.matter:
            return False
        return command.child is None or command.child.name in self.matter

    def size_of(self, size: int) -> int:
        self.asked.add(size)
        return self.sizes.get(size, size)

    # each call

    def take(self, process: Process, call: Call) -> None:
        if call.name in CALLS:
            getattr(self, "take_" + call.name)(process, call)
        elif call.name in MADE_BY:
            self.take_making(process, call)
        elif call.name in ("execve", "execveat"):
            self.take_exec(process, call)
        elif call.name == "+++":
            self.lose_all(process, call, "exit")
        elif call.name in MAPPINGS:
            self.take_mapping(process, call)
        elif CREDENTIALS.fullmatch(call.name):
            self.take_user(process, call)
        elif call.name not in ("exit", "exit_group"):
            self.notes.add("left out", "calls that are not of shared memory", call)

    def add(self, process: Process, call: Call, word: str, parts: list[Part], shown: str, reply: str = "ok",
            **more: Any) -> None:
        self.commands.append(Command(process, word, parts, shown, reply, call.place, call.first,
                                     call.last or call.first, call=call, **more))

    def put(self, process: Process, call: Call, word: str, parts: list[Part], shown: str, reply: str = "ok",
            **more: Any) -> None:
        """Adds a line of a process that is in the script because of it."""
        self.matter.add(process.name)
        self.add(process, call, word, parts, shown, reply, effects=self.memory.take_changes(), **more)

    @staticmethod
    def reply_of(call: Call, good: str) -> str:
        if not call.is_refused:
            if call.value == "?":
                raise LeftOut(f"{call.name} without a return")
            return good
        if call.error not in ERRORS:
            raise LeftOut(f"{call.name} that failed with {call.error}")
        return call.error

    def segment_of(self, word: str, call: Call) -> Segment | None:
        """The segment of an identifier, or None if it never was one. A refused call's may be destroyed."""
        identifier = number_of(word)
        segment = self.memory.known(identifier)
        if segment is None and not (call.is_refused and call.error in ("EINVAL", "EIDRM")):
            raise LeftOut(f"calls on {BEFORE}")
        if segment is not None:
            require_told(segment)
        return segment

    def take_shmget(self, process: Process, call: Call) -> None:
        key_word, size_word, flags_word = call.words
        key, real_size = number_of(key_word) if key_word != "IPC_PRIVATE" else 0, number_of(size_word)
        reply = self.reply_of(call, "?")
        mode, flags, others = flags_of_get(flags_word)
        found = self.memory.by_key(key)
        is_huge = "SHM_HUGETLB" in others
        if is_huge and call.is_refused:
            raise LeftOut("shmget with huge pages, which failed")
        if call.is_refused and found is not None:
            require_told(found)
        if call.is_refused and not self.memory.had_key(key) and call.error in ("EEXIST", "EACCES"):
            raise LeftOut("calls on keys from before the trace")
        if call.is_refused and call.error in ("ENOMEM", "ENOSPC", "EPERM"):
            self.notes.add("not known",
                           f"shmget that failed with {call.error}: {NO_LIMITS}, so give --limits", call)
        size = self.size_of(real_size)
        segment, created = None, self.memory.created
        if not call.is_refused:
            segment = self.got(call, key, size, real_size, "creat" in flags, is_huge)
        for other in others:
            self.notes.add("changed", f"shmget without {other}, which the script language lacks", call)
        if call.error != "EINVAL" and not (found and found is segment):
            self.most_size = max(self.most_size, size)
        words = ",".join([f"{mode:03o}", *flags])
        key_text = "private" if key == 0 else f"0x{key & 0xffffffff:08x}"
        shown = f"0x{key & 0xffffffff:08x} {size} {words}"
        self.put(process, call, "shmget", [f"{key_text} {size} {words}"], shown, reply, result=segment,
                 key=key, is_new=self.memory.created > created)

    def got(self, call: Call, key: int, size: int, real_size: int, may_create: bool,
            is_huge: bool) -> Segment:
        """The segment with the returned identifier: an existing one, or a new one."""
        identifier = number_of(call.value)
        segment = self.memory.known(identifier)
        if segment is not None and (identifier in self.memory.live
                                    or not may_create) and segment.made_key == key != 0:
            require_told(segment)
            return segment
        if key != 0 and not may_create:
            require_told(self.memory.create(identifier, key, size, real_size, BEFORE))
        segment = self.memory.create(identifier, key, size, real_size, HUGE if is_huge else "")
        require_told(segment)
        return segment

    def take_shmat(self, process: Process, call: Call) -> None:
        id_word, address_word, flags_word = call.words
        reply = self.reply_of(call, "?")
        if not call.is_refused:
            segment = self.memory.known(number_of(id_word))
            if segment is None or segment.out:
                self.attach_unseen(process, call, segment, number_of(id_word))
        segment = self.segment_of(id_word, call)
        flags, others = flags_of_attach(flags_word)
        address = number_of(address_word)
        if call.is_refused:
            self.refused_attach(process, call, segment, address, flags, others)
        for other in others:
            self.notes.add("changed", f"shmat without {other}, which the script language lacks", call)
        shown = f"{number_of(id_word)} {shown_address(address)} {','.join(flags) or '-'}"
        size = pages_of(segment.real_size) * PAGE if segment else PAGE
        rounded = address & -PAGE if "rnd" in flags else address
        where = self.where(process, call, address, rounded, size)
        attach = None
        if segment and not call.is_refused:
            attach, reply = self.attached(process, call, segment, where, rounded, size)
        parts = [id_part(segment), " ", *where.parts, " ", ",".join(flags) or "-"]
        self.put(process, call, "shmat", parts, shown, reply, result=attach)

    def attach_unseen(self, process: Process, call: Call, segment: Segment | None, identifier: int) -> None:
        """Notes an attach that the script lacks: it still takes a range, if the segment's size is known."""
        if segment is not None:
            size = pages_of(segment.real_size) * PAGE
            start = number_of(call.value)
            attach = Attach(segment, start, 0, True)
            rest = [part for piece in process.pieces for part in without(piece, start, start + size)]
            self.memory.put(process, [*rest, Piece(attach, 0, size)])
            require_told(segment)
        raise LeftOut(f"calls on {BEFORE}")

    def refused_attach(self, process: Process, call: Call, segment: Segment | None, address: int,
                       flags: list[str], others: list[str]) -> None:
        """Leaves out a refusal whose cause the script's machine does not have."""
        if call.error == "EACCES" and "SHM_EXEC" in others:
            raise LeftOut("shmat with SHM_EXEC, which failed with EACCES")
        if call.error == "ENOMEM" and address == 0:
            raise LeftOut(f"shmat that failed with ENOMEM: {NO_LIMITS}")
        start = address & -PAGE
        is_aligned = start == address or "rnd" in flags
        if call.error != "EINVAL" or segment is None:
            return
        if self.memory.live.get(segment.identifier) is not segment:
            return
        is_free = process.at(start, start + pages_of(segment.real_size) * PAGE) is None
        if address and is_aligned and "remap" not in flags and is_free and start >= 0x10000 and start < LAST:
            raise LeftOut("shmat where other memory of the process is")

    def where(self, process: Process, call: Call, address: int, rounded: int, size: int) -> Place:
        """The address in the script: that of the attach at this address, or the trace's own."""
        if address == 0:
            return Place(None, 0, ["null"])
        piece = process.at(rounded, rounded + size)
        if piece is None or piece.attach.segment.out:
            return Place(None, address, [f"0x{address:x}"])
        offset = address - piece.attach.address
        most = pages_of(piece.attach.segment.size) * PAGE
        if offset >= most > 0:
            self.notes.add("changed", "addresses beyond the smaller size of a segment", call)
            offset %= PAGE
        number = piece.attach.number + offset
        if offset < 0 or piece.attach.is_literal:
            return Place(piece, number, [f"0x{number:x}"])
        return Place(piece, number, [(piece.attach, offset)])

    def attached(self, process: Process, call: Call, segment: Segment, where: Place, rounded: int,
                 size: int) -> tuple[Attach, str]:
        """Adds the pieces of a successful attach. Returns the attach and its reply."""
        start = number_of(call.value)
        if where.parts == ["null"]:
            machine, is_literal = process.gap(pages_of(segment.size) * PAGE), False
        else:
            machine = where.number - (where.number % PAGE)
            is_literal = where.piece is None or where.piece.attach.is_literal
        attach = Attach(segment, start, machine, is_literal)
        rest = [part for piece in process.pieces for part in without(piece, start, start + size)]
        self.memory.put(process, [*rest, Piece(attach, 0, size, "SHM_RDONLY" not in call.words[2])])
        return attach, f"0x{machine:x}" if is_literal else "?"

    def take_shmdt(self, process: Process, call: Call) -> None:
        address = number_of(call.words[0])
        reply = self.reply_of(call, "ok")
        pieces = process.of_origin(address)
        shown = shown_address(address)
        if not pieces:
            if not call.is_refused:
                raise LeftOut("shmdt of attachments that the trace does not show")
            if any(it.attach.number == address for it in process.pieces):
                raise LeftOut("shmdt of an address where the script has an attachment")
            self.put(process, call, "shmdt", [shown], shown, reply)
            return
        attach = min(pieces, key=lambda it: it.start).attach
        self.detach(process, call, attach)
        require_told(attach.segment)
        self.put(process, call, "shmdt", [address_part(attach)], shown, reply)

    def detach(self, process: Process, call: Call, attach: Attach) -> None:
        if not call.is_refused:
            gone = [it for it in process.of_origin(attach.address) if it.attach.segment is attach.segment]
            self.memory.put(process, [it for it in process.pieces if it not in gone])

    def take_shmctl(self, process: Process, call: Call) -> None:
        id_word, command, *rest = call.words
        name = command.removeprefix("IPC_64|")
        if name not in CONTROLS:
            known = name if name in INFORMING else "with a command that is none"
            raise LeftOut(f"shmctl {known}")
        reply = self.reply_of(call, "ok")
        word = CONTROLS[name]
        unseen = self.memory.live.get(number_of(id_word))
        if word == "rmid" and not call.is_refused and unseen and unseen.out:
            self.memory.remove(unseen)
            require_told(unseen)
        segment = self.segment_of(id_word, call)
        operands = set_operands(rest[0]) if word == "set" else ""
        if word == "lock" and call.error in ("ENOMEM", "EPERM"):
            self.notes.add("not known", f"lock that failed with {call.error}: {NO_LIMITS}, so give --limits",
                           call)
        if word == "stat" and segment and not call.is_refused:
            reply = self.stat_reply(call, segment, rest[0])
        elif word == "rmid" and segment and not call.is_refused:
            self.memory.remove(segment)
        self.put(process, call, word, [id_part(segment), operands], f"{number_of(id_word)}{operands}", reply)

    def stat_reply(self, call: Call, segment: Segment, text: str) -> str:
        told = {name: member(text, f"shm_{name}")
                for name in ("segsz", "cpid", "lpid", "nattch", "atime", "dtime", "ctime")}
        told |= {name: member(text, name) for name in ("uid", "gid", "cuid", "cgid", "mode", "key")}
        names = {name: word for name, word in told.items() if word is not None}
        unknown = ("of a segment with attachments that such calls changed" if segment.is_touched else
                   "while a shmat overlaps, whose count is too high" if call.thread_and_line in self.loose else
                   "whose fields strace did not print" if len(names) < len(told) or "..." in text else "")
        if unknown:
            self.notes.add("changed", f"stat {unknown}, so it may be any", call)
            return "?"
        self.users.add((int(names["cuid"]), int(names["cgid"])))
        mode, key = number_of_mode(names["mode"]), number_of(names["key"]) & 0xffffffff
        status = ",".join(["dest"] * bool(mode & DEST) + ["locked"] * bool(mode & LOCKED)) or "-"
        times = [f"{name}={'0' if names[name] == '0' else 'set'}" for name in ("atime", "dtime", "ctime")]
        size = self.size_of(number_of(names["segsz"]))
        users = " ".join(f"{name}={names[name]}" for name in ("uid", "gid", "cuid", "cgid"))
        return (f"key=0x{key:08x} {users} mode={mode & 0o777:03o} status={status} size={size} "
                f"cpid={names['cpid']} lpid={names['lpid']} nattch={names['nattch']} {' '.join(times)}")

    # processes

    def take_making(self, process: Process, call: Call) -> None:
        made = self.makes.get(id(call))
        kind = kind_of(call)
        if call.is_refused:
            raise LeftOut(f"{call.name} that failed with {call.error}")
        if kind == "thread":
            self.notes.add("changed", "threads, whose calls count as those of their process", call)
        elif kind != "memory" and made is None and process.pieces and call.value != "?":
            self.notes.add("left out", f"{call.name} of a process of which the trace has no line", call)
        if kind in ("thread", "memory") or made is None:
            return
        child = self.tree.processes[made]
        child.program, child.user = process.program, process.user
        if kind == "vfork" and process.pieces:
            # it runs in its maker's memory until its exec, and inherits nothing
            self.notes.add("changed",
                           "vfork of a process with attachments: its child is a process of its own", call)
            return
        if process.pieces:
            self.matter |= {process.name, child.name}
        self.memory.put(child, list(process.pieces))
        pid = str(child.pid)
        self.add(process, call, "fork", [pid], pid, child=child, effects=self.memory.take_changes())
        self.take_kept(child, call)

    def take_kept(self, child: Process, call: Call) -> None:
        """In the script a child inherits attachments with MADV_DONTFORK too, so it begins by a shmdt."""
        for attach in {id(piece.attach): piece.attach
                       for piece in child.pieces if piece.attach.stays}.values():
            self.notes.add("changed", "a child without an attachment of MADV_DONTFORK begins by shmdt", call)
            self.memory.put(child, [piece for piece in child.pieces if piece.attach is not attach])
            if not attach.segment.out:
                self.put(child, call, "shmdt", [address_part(attach)], shown_address(attach.address))

    def take_exec(self, process: Process, call: Call) -> None:
        if call.value != "0":
            return
        maker = self.tree.makers.get(call.thread)
        if maker is not None and kind_of(maker) == "memory":
            raise LeftOut("exec of a process that shares all memory with its maker; its later calls count "
                          "as its maker's")
        path = re.match(r'"([^"]*)"', call.words[0] if call.words else "")
        process.program = path[1].rsplit("/", 1)[-1] if path else process.program
        self.lose_all(process, call, "exec")

    def lose_all(self, process: Process, call: Call, word: str) -> None:
        """An end or an exec without attachments changes nothing, and is left out of the script."""
        is_in_script = any(not it.attach.segment.out for it in process.pieces)
        if process.pieces:
            self.memory.put(process, [])
        if is_in_script:
            self.put(process, call, word, [], "")

    def take_mapping(self, process: Process, call: Call) -> None:
        """A call that may change attached memory. Each piece that it reaches has a line of its own."""
        words = call.words
        if call.is_refused or len(words) < 2 or words[0] == "NULL" or not words[1].isdigit():
            return
        start = number_of(words[0])
        piece = process.at(start, start + int(words[1]))
        is_elsewhere = call.name == "mmap" and "MAP_FIXED" not in call.text
        if piece is None or is_elsewhere or call.name == "madvise" and words[-1] in HARMLESS_ADVICE:
            return
        is_whole = (process.of_origin(start) == [piece]
                    and pages_of(int(words[1])) * PAGE == piece.stop - piece.start)
        if call.name == "munmap" and is_whole and piece.start == start and not piece.attach.segment.out:
            self.notes.add("changed", "munmap of a whole attachment, written as shmdt", call)
            self.detach(process, call, piece.attach)
            self.put(process, call, "shmdt", [address_part(piece.attach)], shown_address(start))
            return
        if call.name in ("munmap", "mprotect") and self.put_range(process, call):
            return
        for it in process.pieces:
            if it.start < start + int(words[1]) and start < it.stop:
                it.attach.segment.is_touched = True
                if words[-1] in ("MADV_DONTFORK", "MADV_DOFORK"):
                    it.attach.stays = words[-1] == "MADV_DONTFORK"
        advice = f" {words[-1]}" if call.name == "madvise" else ""
        raise LeftOut(f"{call.name}{advice} of attached memory; later replies may differ")

    def put_range(self, process: Process, call: Call) -> bool:
        """The lines of an munmap or mprotect; whether the script can have them."""
        start, protection = number_of(call.words[0]), PROTECTIONS.get(call.words[-1])
        stop = start + pages_of(int(call.words[1])) * PAGE
        met = sorted((it for it in process.pieces if it.start < stop and start < it.stop), key=lambda it: it.start)
        is_smaller = any(pages_of(it.attach.segment.size) != pages_of(it.attach.segment.real_size) for it in met)
        if is_smaller or call.name == "mprotect" and protection is None:
            return False
        if call.name == "munmap":
            self.memory.put(process, [part for it in process.pieces for part in without(it, start, stop)])
        else:
            self.memory.put(process, protected(process.pieces, start, stop, protection == "rw"))
            self.memory.keep_rises()
        for it in met:
            if it.attach.segment.out:
                continue
            low, high = max(start, it.start), min(stop, it.stop)
            rest = f" {high - low} {protection}" if protection and call.name == "mprotect" else f" {high - low}"
            self.put(process, call, call.name, [address_part(it.attach, low - it.attach.address), rest],
                     shown_address(low) + rest)
        return True

    def take_user(self, process: Process, call: Call) -> None:
        """A process with another effective user or group has a line setuid, if it is in the script."""
        if call.value != "0":
            return
        kind = re.fullmatch(r"set(re|res|)([ug])id(32)?", call.name)
        if kind is None:
            raise LeftOut(f"{call.name}, which a script does not have")
        word = call.words[1 if kind[1] else 0]
        if word == "-1" or int(word) == 2 ** 32 - 1:
            return
        uid, gid = process.user
        user = (int(word), gid) if kind[2] == "u" else (uid, int(word))
        if user == process.user:
            return
        process.user = user
        parts: list[Part] = [" ".join(name if it is None else str(it) for name, it in zip(FIRST_USER, user))]
        self.add(process, call, "setuid", parts, str(parts[0]))


@dataclass
class Place:
    """An address in the script: the piece it is in, its number and its words."""

    piece: Piece | None
    number: int
    parts: list[Part]


def require_told(segment: Segment) -> None:
    if segment.out:
        raise LeftOut(f"calls on {segment.out}")


def id_part(segment: Segment | None) -> Part:
    return segment if segment is not None else str(NEVER_ISSUED)


def address_part(attach: Attach, offset: int = 0) -> Part:
    return f"0x{attach.number + offset:x}" if attach.is_literal else (attach, offset)


def shown_address(address: int) -> str:
    return f"0x{address:x}" if address else "null"


def flags_of_get(text: str) -> tuple[int, list[str], list[str]]:
    """The mode, the flags of the language, and the flags that it does not have."""
    mode = 0
    flags: list[str] = []
    others: list[str] = []
    for word in text.split("|"):
        if word in FLAGS_OF_GET:
            flags.append(FLAGS_OF_GET[word])
        elif re.fullmatch(r"0[0-7]*", word):
            mode |= int(word, 8)
        else:
            others.append(re.sub(r"^\d+<<", "", word) if "<<" in word else word)
    return mode & 0o777, sorted(flags), others


def flags_of_attach(text: str) -> tuple[list[str], list[str]]:
    words = [word for word in text.split("|") if word != "0"]
    flags = [name for flag, name in FLAGS_OF_ATTACH.items() if flag in words]
    return flags, [word for word in words if word not in FLAGS_OF_ATTACH]


def number_of_mode(text: str) -> int:
    bits = {"SHM_DEST": DEST, "SHM_LOCKED": LOCKED}
    return sum(bits[word] if word in bits else number_of(word) for word in text.split("|"))


def set_operands(text: str) -> str:
    words = [word for word in (member(text, name) for name in ("uid", "gid", "mode")) if word is not None]
    if len(words) < 3:
        raise LeftOut("shmctl IPC_SET whose structure strace did not print")
    users = [str(number_of(word) & 0xffffffff) for word in words[:2]]
    return f" {' '.join(users)} {number_of_mode(words[2]) & 0o777:03o}"
