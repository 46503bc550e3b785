"""Reads the record of a run, as `shmview` writes it, and says what each step changed."""

from __future__ import annotations

import re
from collections.abc import Iterator
from dataclasses import dataclass, field
from functools import cached_property
from typing import Any, Tuple

# a segment and the number of a page in it
Page = Tuple[str, str]


@dataclass
class Step:
    """The state of a machine after a step. A page is a segment and a page number; all numbers are texts."""

    number: int
    action: str = ""
    # identifier: (pages, status, owner and permissions)
    segments: dict[str, Any] = field(default_factory=dict)
    processes: dict[str, Any] = field(default_factory=dict)   # pid: (state, set of pieces)
    users: dict[str, str] = field(default_factory=dict)       # pid: the user and group of a live process
    # frame: (page, referenced, dirty)
    frames: dict[str, tuple[Page, bool, bool]] = field(default_factory=dict)
    frame_count: int = 0
    hand: str = ""
    # for each area its number of slots; None if it was taken away
    areas: list[int | None] = field(default_factory=list)
    slots: dict[Page, Page] = field(default_factory=dict)       # (area, slot): page
    failures: int = 0

    @property
    def words(self) -> list[str]:
        return self.action.split()

    @property
    def reply(self) -> str:
        return self.words[-1] if self.words[:1] == ["call"] else ""

    def page_at(self, pid: str, address: int) -> tuple[Any, ...]:
        """The page that a process has at an address, and its rights; None and no rights if it has none."""
        for base, seg, first, pages, rights in self.processes.get(pid, ("", ()))[1]:
            if 0 <= address - int(base, 16) < 4096 * int(pages):
                return (seg, str(int(first) + (address - int(base, 16)) // 4096)), rights
        return None, ""

    @cached_property
    def frame_of(self) -> dict[tuple[str, str], str]:
        return {page: frame for frame, (page, _, _) in self.frames.items()}

    @cached_property
    def slot_of(self) -> dict[tuple[str, str], tuple[str, str]]:
        return {page: slot for slot, page in self.slots.items()}


def read_line(step: Step, line: str) -> None:
    words = line.split()
    if words[0] in ("start", "call", "flush"):
        step.action = line
    elif words[0] == "process":
        step.processes[words[1]] = (words[2], set())
        if words[2] == "live":
            step.users[words[1]] = f"user {words[3]} and group {words[4]}"
    elif words[0] == "piece":
        [*_, (_, pieces)] = step.processes.values()
        pieces.add(tuple(words[1:]))
    elif words[0] == "frames":
        step.frame_count, step.hand = int(words[1]), words[3]
    elif words[0] == "frame":
        step.frames[words[1]] = ((words[2], words[3]), words[4][0] == "r", words[4][1] == "d")
    elif words[0] == "area":
        step.areas.append(None if words[2] == "gone" else int(words[2]))
    elif words[0] == "slot":
        step.slots[words[1], words[2]] = (words[3], words[4])
    elif words[:2] == ["usage", "in"]:
        step.failures = int(words[6])
    elif words[0].startswith("0x"):
        step.segments[words[1]] = ((int(words[4]) + 4095) // 4096, words[6],
                                   f"owner {words[2]} and permissions {words[3]}")


def read_record(text: str) -> list[Step]:
    """Returns the steps of a record."""
    steps = []
    for block in text.split("\n\n"):
        lines = block.splitlines()
        if lines:
            step = Step(int(lines[0].split()[1]))
            for line in lines[1:]:
                read_line(step, line)
            steps.append(step)
    return steps


def named(page: tuple[str, str]) -> str:
    return f"page {page[1]} of segment {page[0]}"


def placed(slot: tuple[str, str], step: Step) -> str:
    return f"slot {slot[1]} of area {slot[0]}" if len(step.areas) > 1 else f"slot {slot[1]}"


def span(piece: tuple[str, ...]) -> str:
    _base, seg, first, pages, rights = piece
    last = int(first) + int(pages) - 1
    which = f"page {first}" if pages == "1" else f"pages {first} to {last}"
    return f"{which} of segment {seg}" + (", read-only" if rights == "ro" else "")


def counted(number: int, name: str) -> str:
    return f"{number} {name}{'' if number == 1 else 's'}"


def say_segments(before: Step, after: Step) -> Iterator[str]:
    for seg, (pages, status, held) in after.segments.items():
        if seg not in before.segments:
            yield f"segment {seg} was created with {counted(pages, 'page')} of zeros"
            continue
        had, has = before.segments[seg][1].split(","), status.split(",")
        if "dest" in has and "dest" not in had:
            yield f"segment {seg} is marked for removal: its last detach destroys it"
        if "locked" in has and "locked" not in had:
            yield f"segment {seg} is locked: its pages stay in their frames"
        if "locked" in had and "locked" not in has:
            yield f"segment {seg} is unlocked"
        if held != before.segments[seg][2]:
            yield f"segment {seg} has {held}"
    for seg in before.segments:
        if seg not in after.segments:
            yield f"segment {seg} is destroyed, with its bytes, frames and slots"


def say_processes(before: Step, after: Step) -> Iterator[str]:
    for pid, (state, pieces) in after.processes.items():
        was, had = before.processes[pid]
        if state != was:
            yield f"process {pid} was born" if state == "live" else f"process {pid} has ended"
        elif before.users.get(pid) != after.users.get(pid):
            yield f"process {pid} has {after.users[pid]}"
        if after.words[3:4] == ["mprotect"]:
            yield from say_protection(before, after, pid)
            continue
        for piece in sorted(had - pieces, key=lambda it: int(it[0], 16)):
            yield f"process {pid} lost its attachment at {piece[0]}: {span(piece)}"
        for piece in sorted(pieces - had, key=lambda it: int(it[0], 16)):
            yield f"process {pid} has an attachment at {piece[0]}: {span(piece)}"


def pages_in(pieces: set[tuple[str, ...]]) -> dict[int, tuple[Page, str]]:
    """The page and its rights at each address of the pieces."""
    return {int(base, 16) + 4096 * at: ((seg, str(int(first) + at)), rights)
            for base, seg, first, pages, rights in pieces for at in range(int(pages))}


def say_protection(before: Step, after: Step, pid: str) -> Iterator[str]:
    """The pages of a process that have another protection, those of one segment that follow each other in one
    sentence; and how many attachments, or parts of them, the process has if there are more or fewer."""
    had, has = (before.processes[pid][1], after.processes[pid][1])
    was = pages_in(had)
    runs: list[list[Any]] = []
    for address, (page, rights) in sorted(pages_in(has).items()):
        if was[address][1] == rights:
            continue
        if runs and runs[-1][1:] == [address, page[0], rights]:
            runs[-1][0].append(page[1])
            runs[-1][1] += 4096
        else:
            runs.append([[page[1]], address + 4096, page[0], rights])
    for numbers, _, seg, rights in runs:
        which = f"page {numbers[0]}" if len(numbers) == 1 else f"pages {numbers[0]} to {numbers[-1]}"
        yield f"process {pid} may {'only read' if rights == 'ro' else 'read and write'} {which} of segment {seg}"
    if len(had) != len(has):
        yield (f"process {pid} has {counted(len(has), 'attachment')} or parts of attachments, where it had "
               f"{len(had)}")


def left(page: tuple[str, str], before: Step, after: Step) -> str:
    """Where a page is that left its frame."""
    frame, slot = before.frame_of[page], after.slot_of.get(page)
    if slot is None:
        return f"{named(page)}, which was never stored into, left frame {frame}"
    if before.frames[frame][2]:
        return f"{named(page)} went to {placed(slot, after)}"
    return f"{named(page)} was clean and stays in {placed(slot, after)}"


def came(page: tuple[str, str], frame: str, other: tuple[str, str] | None, before: Step) -> str:
    """A page in a frame; its segment is not named again after a page of the same segment."""
    slot = before.slot_of.get(page)
    name = f"page {page[1]}" if other and other[0] == page[0] else named(page)
    return f"{name} came into frame {frame}" + (f", read from {placed(slot, before)}" if slot else "")


def say_frames(before: Any, after: Any) -> Iterator[str]:
    """Which pages left their frames and which came in, except pages of a destroyed segment."""
    for frame in sorted(before.frames.keys() | after.frames.keys(), key=int):
        old, new = (it.frames.get(frame, (None,))[0] for it in (before, after))
        if old == new:
            continue
        goes = old if old and old[0] in after.segments else None
        told = [left(goes, before, after)] if goes else []
        if new:
            told.append(came(new, frame, goes, before))
        if told:
            yield ", and ".join(told)


def say_bits(before: Step, after: Step) -> Iterator[str]:
    written, changed = [], []
    for frame, (page, _referenced, dirty) in after.frames.items():
        old = before.frames.get(frame)
        was_dirty = bool(old and old[0] == page and old[2])
        if was_dirty and not dirty:
            written.append((page, after.slot_of.get(page)))
        if dirty and not was_dirty:
            changed.append(page)
    for page, slot in written:
        yield (f"{named(page)} was written to {placed(slot, after)} and stays in its frame, now clean" if slot
               else f"{named(page)} is clean")
    for page in changed:
        yield f"{named(page)} is dirty"


def ranged(start: int, length: int, count: int) -> str:
    """Names frames that follow each other round the ring, as in `2 to 3, 0`."""
    told = []
    while length > 0:
        here = min(length, count - start)
        told.append(f"{start} to {start + here - 1}" if here > 1 else str(start))
        start, length = 0, length - here
    return ", ".join(told)


def say_clock(before: Step, after: Step) -> Iterator[str]:
    count = after.frame_count
    for start, passed, _pinned in turns(before, after):
        stop = f"stopped at frame {(start + passed) % count}"
        names = f"frame{'s' if passed > 1 else ''} {ranged(start, passed, count)}"
        yield (f"the hand passed {names}{' in a whole round' if passed >= count else ''} and {stop}" if passed
               else f"the hand {stop}")
    if after.hand != before.hand:
        yield f"the hand is now at frame {after.hand}"


def say_areas(before: Step, after: Step) -> Iterator[str]:
    for at, (was, is_there) in enumerate(zip(before.areas, after.areas)):
        if was and not is_there:
            yield f"swap area {at} was removed"
    now = after.slot_of
    for page, slot in before.slot_of.items():
        if page in now and now[page] != slot:
            yield f"{named(page)} moved from {placed(slot, before)} to {placed(now[page], after)}"
        elif page not in now and page[0] in after.segments:
            yield f"{named(page)} released {placed(slot, before)}"
    if after.failures > before.failures:
        yield "a swap area failed, and no byte changed"


ACCESSES = ("load", "store", "xadd", "swap", "cas")


def access_of(step: Step) -> tuple[str, int, int] | None:
    """Returns the process of an access, its address and how many bytes it names; None for any other step."""
    words = step.words
    if words[:1] != ["call"] or words[3] not in ACCESSES or step.reply == "ESRCH":
        return None
    count = {"load": int(words[5]) if words[3] == "load" else 0, "xadd": 8}.get(words[3], len(words[5]) // 2)
    return words[2], 0 if words[4] == "null" else int(words[4], 16), count


def parts_of(access: tuple[str, int, int]) -> Iterator[tuple[int, int]]:
    """Returns the first and the last address of an access in each page that it names."""
    _pid, address, count = access
    while count > 0:
        here = min(count, 4096 - address % 4096)
        yield address, address + here - 1
        address, count = address + here, count - here


def bytes_of(first: int, last: int) -> str:
    """Names the addresses and their places in the page."""
    if first == last:
        return f"0x{first:08x} is byte {first % 4096}"
    return f"0x{first:08x} to 0x{last:08x} are bytes {first % 4096} to {last % 4096}"


def placed_now(page: tuple[str, str], step: Step) -> str:
    if page in step.frame_of:
        return f"in frame {step.frame_of[page]}"
    return f"in {placed(step.slot_of[page], step)}" if page in step.slot_of else "which is all zeros"


def say_access(_before: Step, after: Step) -> Iterator[str]:
    """For each page that an access names, which one it is and where it is after the access."""
    access = access_of(after)
    if access is None:
        return
    for first, last in parts_of(access):
        page, rights = after.page_at(access[0], first)
        if page is None:
            yield f"process {access[0]} has no attachment at 0x{first:08x}"
            return
        yield f"{bytes_of(first, last)} of {named(page)}, {placed_now(page, after)}"
        if rights == "ro" and after.words[3] != "load":
            yield f"process {access[0]} may only read {named(page)}"


def left_by(step: Step, count: int) -> bytes:
    """Returns the bytes at the addresses of an access after it; no bytes if it was refused."""
    words, reply = step.words, step.reply
    if not re.fullmatch("ok|[0-9a-f]+", reply):
        return b""
    if words[3] == "xadd":
        return ((int(reply) + int(words[5])) % 2 ** 64).to_bytes(8, "little")
    if words[3] == "cas":
        return bytes.fromhex(words[6] if reply == words[5] else reply)
    return bytes.fromhex(reply if words[3] == "load" else words[5])[:count]


def reached(step: Step) -> list[list[Any]]:
    """Returns the pages that an access reached: for each its process, the page's address, its frame, which
    page, the first byte there, how many, and the bytes after the access. The frame is missing if the page has
    none, and the bytes if the access was refused."""
    access, at = access_of(step), 0
    found: list[list[Any]] = []
    if access is None:
        return found
    left = left_by(step, access[2])
    for first, last in parts_of(access):
        page, _rights = step.page_at(access[0], first)
        count = last - first + 1
        if page is not None:
            frame = None if step.reply == "SIGSEGV" else step.frame_of.get(page)
            found.append([access[0], f"0x{first - first % 4096:08x}", frame, "·".join(page), first % 4096,
                          count, left[at:at + count].hex()])
        at += count
    return found


def turn(frames: dict[Any, Any], hand: int, locked: set[str], pinned: str | None) -> int:
    """Returns how many frames the hand passes before it stops, and clears the referenced bits that it passes.
    A frame of a locked segment and the pinned one are skipped."""
    for passed in range(2 * len(frames)):
        at = str((hand + passed) % len(frames))
        page, is_referenced, *_ = frames[at]
        if page[0] in locked or at == pinned:
            continue
        if not is_referenced:
            return passed
        frames[at] = page, False
    return 0


def turns(before: Step, after: Step) -> list[list[Any]]:
    """Returns the turns of the clock's hand in a step, by the rules of docs/MACHINE.md: for each the frame
    where it begins, how many frames it passes, and the pinned frame. What it did is known from the bits that
    were set before it, also after a whole round."""
    access = access_of(after)
    if access is None or after.reply == "SIGSEGV":
        return []
    named = [after.page_at(access[0], first)[0] for first, _last in parts_of(access)]
    are_in_frames = all(page in before.frame_of for page in named)
    if before.frame_count - len(before.frames) >= len(named) or are_in_frames:
        return []
    locked = {seg for seg, (_, status, _) in before.segments.items() if "locked" in status.split(",")}
    frames: dict[str, Any] = dict(before.frames)
    resident, hand = dict(before.frame_of), int(before.hand)
    pinned: str | None = None
    found: list[list[Any]] = []
    for page in named:
        if page not in resident and len(frames) == before.frame_count:
            passed = turn(frames, hand, locked, pinned)
            found.append([hand, passed, pinned and int(pinned)])
            stop = (hand + passed) % before.frame_count
            del resident[frames[str(stop)][0]]
            hand = (stop + 1) % before.frame_count
        # a pager failed, and the access ended
        if page not in after.frame_of:
            break
        pinned = after.frame_of[page]
        resident[page] = pinned
        frames[pinned] = page, True
    return found


# why a call was refused: by the call and the error, or else by the error only
REASONS = {
    ("shmget", "EINVAL"): "the size is not allowed, or the segment with this key is smaller",
    ("shmget", "ENOMEM"): "there is not enough swap space for its pages",
    ("shmat", "EINVAL"): "there is no such segment, or this address may not be used",
    ("shmat", "ENOMEM"): "no gap between the attachments is large enough",
    ("shmdt", "EINVAL"): "no attachment begins at this address",
    ("munmap", "EINVAL"): "the address is within a page, the length is 0, or the range is beyond the addresses",
    ("munmap", "ENOMEM"): "the process would have more than 256 attachments or parts of them",
    ("mprotect", "EINVAL"): "the address is within a page",
    ("mprotect", "ENOMEM"): "a page of the range is not attached, or there would be too many attachments; pages "
                            "below it may have changed",
    ("mprotect", "EACCES"): "a page was attached for reading only; pages below it may have changed",
    ("lock", "ENOMEM"): "more pages would be locked than the limit allows",
    ("swapoff", "EINVAL"): "there is no such swap area",
    ("swapoff", "ENOMEM"): "the other areas have fewer slots than the segments have pages",
    ("swapoff", "EPERM"): "only user 0 may remove a swap area",
    "EPERM": "only the owner, the creator and user 0 may do this",
    "ENOENT": "no segment has this key",
    "ESRCH": "the process is not alive",
    "EIO": "a swap area failed",
    "EAGAIN": "no child with this pid waits to be forked",
    "EACCES": "the segment's permissions do not allow it",
    "EEXIST": "a segment with this key already exists",
    "EINVAL": "there was never a segment with this identifier",
    "EMFILE": "the process would have more than 256 attachments",
    "ENOSPC": "the limits allow no more segments, or no more pages of segments",
    "EIDRM": "the segment with this identifier was destroyed",
}
# what a call answered that changed nothing
UNCHANGED = {
    "shmget": "the key names segment {reply}, and nothing changed",
    "stat": "stat shows segment {of} and changes nothing",
    "rmid": "segment {of} was marked for removal before",
    "lock": "segment {of} was locked before",
    "unlock": "segment {of} was not locked",
    "exec": "process {pid} had no attachment",
    "munmap": "process {pid} has no attachment in this range",
    "mprotect": "no page of this range had another protection",
    "setuid": "process {pid} had this user and group before",
}


def say_refusal(_before: Step, after: Step) -> Iterator[str]:
    words = after.words
    reason = REASONS.get((*words[3:4], after.reply), REASONS.get(after.reply))
    if reason and words[0] == "call":
        yield f"{after.reply}: {reason}"


def unchanged(before: Step, after: Step) -> str:
    """What a step did that changed nothing."""
    words = after.words
    if words[0] == "flush":
        is_dirty = any(dirty for _, _, dirty in before.frames.values())
        return ("nothing was written: each dirty page belongs to a locked segment" if is_dirty
                else "nothing was written: no page is dirty")
    of = words[4] if len(words) > 5 else ""
    return UNCHANGED.get(words[3], "nothing changed").format(of=of, reply=after.reply, pid=words[2])


def replaced(before: Step, pid: str, base: int, count: int) -> set[str]:
    """Returns the segments that had pages where an attachment took their place."""
    pages = [before.page_at(pid, base + 4096 * at)[0] for at in range(count)]
    return {page[0] for page in pages if page}


def say_times(before: Step, after: Step) -> Iterator[str]:
    """The times and last pids that a call set, by the rules of docs/MACHINE.md: a time is the call's place in
    the history."""
    words = after.words
    if words[:1] != ["call"] or re.fullmatch("E[A-Z]+", after.reply):
        return
    _, time, pid, name, *rest = words
    lost = {piece[1] for piece in before.processes[pid][1]
            - after.processes[pid][1]} if name in ("shmdt", "munmap", "exec", "exit") else set()
    if name == "shmget" and after.reply not in before.segments or name == "set":
        yield f"segment {after.reply if name == 'shmget' else rest[0]} has change time {time}"
    if name == "shmat":
        yield f"segment {rest[0]} has attach time {time} and last pid {pid}"
        lost = replaced(before, pid, int(after.reply, 16), after.segments[rest[0]][0])
    for seg in sorted(lost & after.segments.keys(), key=int):
        yield f"segment {seg} has detach time {time} and last pid {pid}"


def say_start(step: Step) -> Iterator[str]:
    """The state of the machine when it opens."""
    if step.frame_count:
        areas = ", ".join(f"swap area {at} has {counted(slots or 0, 'slot')}" for at,
                          slots in enumerate(step.areas))
        live = [pid for pid, (state, _) in step.processes.items() if state == "live"]
        alive = (f"process{'es' if len(live) > 1 else ''} {', '.join(live)} "
                 f"{'are' if len(live) > 1 else 'is'} alive")
        yield (f"{counted(step.frame_count, 'frame')} {'is' if step.frame_count == 1 else 'are'} free, and "
               f"{areas}")
        yield f"there is no segment yet; {alive}" if live else "there is no segment yet"


def sentences(before: Step, after: Step) -> list[str]:
    """Says what changed from one step to the next: at least one sentence, without a full stop."""
    parts = (say_refusal, say_access, say_segments, say_processes, say_areas, say_frames, say_bits, say_clock,
             say_times)
    return [said for part in parts for said in part(before, after)] or [unchanged(before, after)]


def all_sentences(steps: list[Step], first: int = 0) -> list[tuple[int, list[str]]]:
    """Returns for each step from the first its number and its sentences. An earlier step only serves for the
    comparison."""
    told = [(step.number, sentences(before, step)) for before, step in zip(steps, steps[1:])]
    if steps and steps[0].number >= first:
        opening = [*say_start(steps[0])] if steps[0].action == "start" else []
        told = [(steps[0].number, opening), *told]
    return told
