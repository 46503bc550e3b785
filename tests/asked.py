"""How often each swap area's pager must be called, by the rules of docs/MACHINE.md, for a script and the
history of its run.

The history says which calls succeeded, which segments were made, and where they were attached. This file
works out all of paging: which pages are in frames and slots, which of them are read or written, and which
accesses and swapoffs fail because of that.

A page is read once when it comes in from its slot, and written once when it goes to its slot, also if that
fails. A slot that is returned is discarded once: that of a page of a destroyed segment, that of a page that a
swapoff moves, and the new slot of a page whose move fails. A page whose write fails keeps the slot that it
took, except in a move. Nothing else calls a pager."""
import re
from typing import Any, Tuple

PAGE = 4096
# the identifier of a segment, and the number of a page in it
Page = Tuple[int, int]
EVENT = re.compile(r"\d+ (\d+) ([a-z]+)(.*) = (.*)")


def number(word: str) -> Any:
    """A number as a script has it, or an event; `null` is the address 0."""
    return 0 if word == "null" else int(word, 16 if word.startswith("0x") else 10)


class Area:
    """A swap area: the owner of each slot, its counts of calls, and its failing read and write, or 0."""

    def __init__(self, word: str) -> None:
        kind, slots, *place = word.split(":")
        assert kind in ("ram", "sparse", "mirror", "fuse") and (kind == "fuse") == bool(place)
        self.owners = [None] * int(slots)
        self.bad_read, self.bad_write = (int(place[0][1:]) if place and place[0][0] == letter else 0
                                         for letter in "rw")
        self.reads = self.writes = self.discards = self.failures = 0
        self.is_here = True

    def read(self) -> Any:
        self.reads += 1
        self.failures += self.reads == self.bad_read
        return self.reads != self.bad_read

    def write(self) -> Any:
        self.writes += 1
        self.failures += self.writes == self.bad_write
        return self.writes != self.bad_write

    def give(self, slot: Any) -> None:
        self.discards += 1
        self.owners[slot] = None


class Frame:
    def __init__(self, page: Any) -> None:
        self.page, self.is_referenced, self.is_dirty = page, True, False


class Paging:
    """Frames and slots. A page is a segment's identifier and a number."""

    def __init__(self, frames: int, areas: list[Area]) -> None:
        self.frames: list[Any] = [None] * frames
        self.areas, self.hand = areas, 0
        self.slots: dict[Page, tuple[int, int]] = {}
        self.locked: set[int] = set()
        self.ins = self.outs = 0

    def frame_of(self, page: Any) -> Any:
        return next((n for n, frame in enumerate(self.frames) if frame and frame.page == page), None)

    def take_slot(self, page: Any, left_out: Any = None) -> Any:
        """The least free slot of the lowest-numbered area that has one."""
        for n, area in enumerate(self.areas):
            if area.is_here and n != left_out and None in area.owners:
                slot = area.owners.index(None)
                area.owners[slot] = page
                return n, slot
        raise AssertionError(f"there is no slot for {page}")

    def write_out(self, frame: Any) -> Any:
        if frame.page not in self.slots:
            self.slots[frame.page] = self.take_slot(frame.page)
        is_written = self.areas[self.slots[frame.page][0]].write()
        self.outs += is_written
        frame.is_dirty = not is_written
        return is_written

    def victim(self, pinned: Any) -> Any:
        """The hand goes round. If all bits were set, it reaches the first eligible frame again, whose bit is
        clear by then."""
        while True:
            at, self.hand = self.hand, (self.hand + 1) % len(self.frames)
            frame = self.frames[at]
            if at == pinned or frame.page[0] in self.locked:
                continue
            if not frame.is_referenced:
                return at
            frame.is_referenced = False

    def visit(self, page: Any, pinned: Any = None) -> Any:
        """The page's frame; none if a pager failed."""
        at = self.frame_of(page)
        if at is not None:
            self.frames[at].is_referenced = True
            return at
        if None in self.frames:
            at = self.frames.index(None)
        else:
            at = self.victim(pinned)
            if self.frames[at].is_dirty and not self.write_out(self.frames[at]):
                return None
            self.frames[at] = None
        if page in self.slots:
            if not self.areas[self.slots[page][0]].read():
                return None
            self.ins += 1
        self.frames[at] = Frame(page)
        return at

    def access(self, pages: Any, is_write: Any) -> Any:
        """Whether all pages came in. There are at most two, and the first stays while the second comes in."""
        first = None
        for page in pages:
            at = self.visit(page, first)
            if at is None:
                return False
            first = at
        for page in pages if is_write else ():
            self.frames[self.frame_of(page)].is_dirty = True
        return True

    def flush(self, most: Any) -> None:
        dirty = [frame for frame in self.frames if frame and frame.is_dirty
                 and frame.page[0] not in self.locked]
        for frame in dirty[:most]:
            self.write_out(frame)

    def swapoff(self, number: Any) -> Any:
        """Whether the area was taken away."""
        area = self.areas[number]
        for slot, page in enumerate(area.owners):
            if page is None:
                continue
            at = self.frame_of(page)
            if at is not None:
                area.give(slot)
                del self.slots[page]
                self.frames[at].is_dirty = True
            elif not self.move(page, number, slot):
                return False
        area.is_here = False
        return True

    def move(self, page: Any, number: Any, slot: Any) -> Any:
        if not self.areas[number].read():
            return False
        other, to = self.take_slot(page, number)
        if not self.areas[other].write():
            self.areas[other].give(to)
            return False
        self.areas[number].give(slot)
        self.slots[page] = other, to
        return True

    def forget(self, segment: Any) -> None:
        """Frames and slots of a destroyed segment are free at once."""
        self.frames = [None if frame and frame.page[0] == segment else frame for frame in self.frames]
        self.locked.discard(segment)
        for page in [page for page in self.slots if page[0] == segment]:
            area, slot = self.slots.pop(page)
            self.areas[area].give(slot)


class Run:
    """A run, line by line. A process has for each page of its addresses the segment's page, whether it is
    writable, where the attach began, and whether an mprotect may make it writable."""

    def __init__(self, frames: Any, swaps: Any) -> None:
        self.paging = Paging(frames, [Area(word) for word in swaps])
        self.sizes: dict[int, int] = {}
        self.marked: set[int] = set()
        self.spaces: dict[int, dict[int, Any]] = {}

    def end_unattached(self) -> None:
        """A marked segment is destroyed with its last piece."""
        if not self.marked:
            return
        attached = {page[0] for space in self.spaces.values() for page, *_ in space.values()}
        for segment in self.marked - attached:
            self.marked.remove(segment)
            del self.sizes[segment]
            self.paging.forget(segment)

    def attach(self, space: Any, segment: Any, base: Any, is_writable: Any) -> None:
        for n in range(-(-self.sizes[segment] // PAGE)):
            space[base // PAGE + n] = (segment, n), is_writable, base, is_writable

    def detach(self, space: Any, origin: Any) -> None:
        """The lowest piece with this origin names the segment, whose pieces with it are all detached."""
        segment = next(space[n][0][0] for n in sorted(space) if space[n][2] == origin)
        for n in [n for n in space if space[n][2] == origin and space[n][0][0] == segment]:
            del space[n]

    def unmap(self, space: Any, address: Any, length: Any) -> None:
        for n in [n for n in space if address <= n * PAGE < address + length]:
            del space[n]

    def protect(self, space: Any, address: Any, length: Any, is_writable: Any) -> None:
        """Up to the first page that is not attached, or may not be writable. A range that reaches 2^64 is
        refused whole."""
        n, end = address // PAGE, -(-(address + length) // PAGE)
        while end < 2 ** 52 and n < end and n in space and (space[n][3] or not is_writable):
            page, _, base, may_write = space[n]
            space[n] = page, is_writable, base, may_write
            n += 1

    def access(self, space: Any, call: Any, address: Any, operand: Any, puts: Any) -> Any:
        """The reply of an access that fails or is outside of the pieces; None for any other."""
        size = int(operand) if call == "load" else 8 if call == "xadd" else len(operand) // 2
        found = [space.get(n) for n in range(address // PAGE, (address + size - 1) // PAGE + 1)]
        if not all(found) or (call != "load" and not all(is_writable for _, is_writable, *_ in found)):
            return "SIGSEGV"
        return "" if self.paging.access([page for page, *_ in found], puts) else "SIGBUS"

    def event(self, line: str) -> Any:
        """Takes an event of the history. Returns what is wrong with its reply, nothing if it is allowed."""
        [(pid, call, operands, reply)] = EVENT.findall(line)
        space, words = self.spaces.setdefault(int(pid), {}), operands.split()
        if reply == "ESRCH":
            return ""
        if call in ("load", "store", "xadd", "swap", "cas"):
            # a cas that finds other bytes than it expects puts none
            puts = reply == words[1] if call == "cas" else call != "load"
            wanted = self.access(space, call, number(words[0]), words[1], puts)
            said = reply if reply.startswith("SIG") else ""
            return "" if said == wanted else f"{line}, where the rules have {wanted or 'no failure'}"
        if call == "swapoff" and reply in ("ok", "EIO"):
            went = self.paging.swapoff(int(words[0]))
            return "" if went == (reply == "ok") else f"{line}, where the rules have another end"
        if call == "mprotect" and reply != "EINVAL":
            self.protect(space, number(words[0]), int(words[1]), words[2] == "rw")
        if not re.match("E[A-Z]", reply):
            self.granted(space, call, words, reply)
            self.end_unattached()
        return ""

    def granted(self, space: Any, call: Any, words: Any, reply: Any) -> None:
        if call == "shmget":
            self.sizes.setdefault(int(reply), int(words[1]))
        elif call == "shmat":
            self.attach(space, int(words[0]), number(reply), "rdonly" not in words[2])
        elif call == "shmdt":
            self.detach(space, number(words[0]))
        elif call == "munmap":
            self.unmap(space, number(words[0]), int(words[1]))
        elif call == "fork":
            self.spaces[int(words[0])] = dict(space)
        elif call in ("exec", "exit"):
            space.clear()
        elif call == "rmid":
            self.marked.add(int(words[0]))
        elif call == "lock":
            self.paging.locked.add(int(words[0]))
        elif call == "unlock":
            self.paging.locked.discard(int(words[0]))

    def counts(self) -> Any:
        """Reads, writes and discards of each area."""
        return [number for area in self.paging.areas for number in (area.reads, area.writes, area.discards)]

    def usage(self) -> Any:
        """The last two lines of the usage."""
        paging = self.paging
        frames = [frame for frame in paging.frames if frame]
        here = [area for area in paging.areas if area.is_here]
        return (f"usage frames {len(frames)}/{len(paging.frames)} dirty "
                f"{sum(frame.is_dirty for frame in frames)} "
                f"slots {len(paging.slots)}/{sum(len(area.owners) for area in here)}\n"
                f"usage in {paging.ins} out {paging.outs} failures "
                f"{sum(area.failures for area in paging.areas)}\n")


def replay(script: Any, printed: Any, swaps: Any) -> Any:
    """Follows a script and the printed history of its run. Returns each area's counts after each line, the
    usage, and what is wrong with a reply."""
    lines = [words for words in map(str.split, script.splitlines()) if words and not words[0].startswith("#")]
    frames = next(number(words[4]) for words in lines if words[0] == "limits")
    run, counts, wrong = Run(frames, swaps), [], []
    events = iter([line for line in printed.splitlines() if EVENT.fullmatch(line)])
    for words in lines:
        if not words[0][0].isdigit():
            continue
        if words[1] == "flush":
            run.paging.flush(number(words[2]))
        else:
            wrong.append(run.event(next(events)))
        counts.append(run.counts())
    return counts, run.usage(), [it for it in wrong if it]
