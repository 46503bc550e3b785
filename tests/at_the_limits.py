"""Writes scripts that reach each documented limit, and the output of their runs.

Each is NAME.shm with NAME.swap and NAME.out, as the stored scripts next to this file. They are too long to be
stored. The output is worked out here from the rules of docs/MACHINE.md, each step with its reason, and
without any program.
"""
from __future__ import annotations

from collections.abc import Callable
from pathlib import Path
from typing import Any

PAGE, BASE = 4096, 0x40000000
LONGEST, MOST_LINES = 1_048_576, 100_000
SEGMENT_PAGES, ALL_PAGES, MOST_FRAMES = 4096, 65536, 4096


class Script:
    """A script, and the lines that it prints."""

    def __init__(self, limits: str, *processes: str, sizes: str = "") -> None:
        self.lines = [f"sizes {sizes}"] * bool(sizes) + [f"limits {limits}", *processes]
        self.declared = len(self.lines)
        self.events: list[str] = []

    def call(self, line: str, call: str, reply: int | str) -> None:
        """Adds a command line, the call that it makes, and the reply."""
        self.lines.append(line)
        pid = line.split()[0]
        self.events.append(f"{len(self.events) + 1} {pid} {call} = {reply}")

    def flush(self, pages: int) -> None:
        self.lines.append(f"0 flush {pages}")

    def ends(self, swap: str, rows: list[tuple[Any, ...]], usage: tuple[int, ...]) -> Script:
        """Adds the swap areas, and what is shown at the end: the segments and the counts."""
        text = "".join(line + "\n" for line in self.lines)
        assert len(text) <= LONGEST and len(self.lines) - self.declared <= MOST_LINES
        cells = ("key", "shmid", "owner", "perms", "bytes", "nattch", "status")
        table = [" ".join([*(f"{cell!s:10}" for cell in row[:6]), row[6]]) for row in [cells, *rows]]
        counts = ("usage events {} segments {} reserved {} locked {}\n"
                  "usage frames {}/{} dirty {} slots {}/{}\nusage in {} out {} failures {}")
        out = "".join(line + "\n" for line in [*self.events, *table, counts.format(len(self.events), *usage)])
        self.files = {".shm": text, ".swap": swap + "\n", ".out": out}
        return self


def row(key: int, shmid: int, size: int, attached: int, status: str = "-",
        owner: int = 100) -> tuple[int | str, ...]:
    return f"0x{key:08x}", shmid, owner, "600", size, attached, status


def pair_bytes(pair: int, segment: int) -> str:
    """Two bytes that identify the pages to which they are stored: the last of one page and the first of the
    next."""
    return f"{pair % 251 + 1:02x}{segment + 1:02x}"


def every_page(kind: str) -> Script:
    """Sixteen segments of 2^24 bytes: SHMALL to its last page, every frame and every slot in use.

    Each store crosses from an even page to the next one, so every page is stored to once, in order. The first
    4096 pages take the frames in order. All referenced bits are set then, so the hand clears them in one
    round and takes frame 0; from then on the frames go in order, round after round: page n is in frame n mod
    4096. Each victim is dirty and has no slot, so it takes the least free one: page n takes slot n. After the
    stores the last 4096 pages are in the frames, and a flush writes them in order of their frames, to the
    slots that are left.
    """
    segments = ALL_PAGES // SEGMENT_PAGES
    script = Script(f"16777216 4096 {ALL_PAGES} {MOST_FRAMES} 1", "process 1 100 100")
    size = SEGMENT_PAGES * PAGE
    letters = "abcdefghijklmnop"
    for number, letter in enumerate(letters):
        script.call(f"1 {letter} = shmget {number + 1} {size} 600,creat",
                    f"shmget 0x{number + 1:08x} {size} 600,creat", number)
    # not a page is left
    script.call("1 shmget 17 1 600,creat", "shmget 0x00000011 1 600,creat", "ENOSPC")
    starts = [BASE + number * size for number in range(segments)]
    for number, letter in enumerate(letters):
        script.call(f"1 {letter} = shmat {letter} null -", f"shmat {number} null -", f"0x{starts[number]:x}")
    for number, letter in enumerate(letters):
        for pair in range(SEGMENT_PAGES // 2):
            offset, data = 2 * PAGE * pair + PAGE - 1, pair_bytes(pair, number)
            script.call(f"1 store {letter}+{offset} {data}", f"store 0x{starts[number] + offset:x} {data}",
                        "ok")
    last = size - 1
    script.call(f"1 store p+{last} ee", f"store 0x{starts[-1] + last:x} ee", "ok")
    script.flush(MOST_FRAMES)
    # the pages of the first segment come back, into the frames of the last one, which are clean
    for pair in range(SEGMENT_PAGES // 2):
        offset = 2 * PAGE * pair + PAGE - 1
        script.call(f"1 load a+{offset} 2", f"load 0x{starts[0] + offset:x} 2", pair_bytes(pair, 0))
    # the last two pages come back from the last two slots: of the last page its first byte and its last
    pair = SEGMENT_PAGES // 2 - 1
    script.call(f"1 load p+{last - PAGE} 2", f"load 0x{starts[-1] + last - PAGE:x} 2",
                pair_bytes(pair, segments - 1))
    script.call(f"1 load p+{last} 1", f"load 0x{starts[-1] + last:x} 1", "ee")
    rows = [row(number + 1, number, size, 1) for number in range(segments)]
    return script.ends(f"{kind}:{ALL_PAGES}", rows, (segments, ALL_PAGES, 0, MOST_FRAMES, MOST_FRAMES, 0,
                                                     ALL_PAGES, ALL_PAGES, SEGMENT_PAGES + 2, ALL_PAGES, 0))


def eight_areas() -> Script:
    """A page moves from the first area of 65536 slots to the eighth, as the others are taken away.

    Two pages that are loaded evict it. Nothing was stored to them, so they need no slot. swapoff moves it,
    and counts this neither as read in nor as written out.
    """
    script = Script("16777216 16 65536 2 0", "process 1 0 0")
    script.call("1 s = shmget private 12288 600", "shmget 0x00000000 12288 600", 0)
    script.call("1 a = shmat s null -", "shmat 0 null -", f"0x{BASE:x}")
    script.call("1 store a 2a", f"store 0x{BASE:x} 2a", "ok")
    script.call("1 load a+4096 1", f"load 0x{BASE + 4096:x} 1", "00")
    script.call("1 load a+8192 1", f"load 0x{BASE + 8192:x} 1", "00")
    for area in range(7):
        script.call(f"1 swapoff {area}", f"swapoff {area}", "ok")
    # three pages are left without a slot elsewhere
    script.call("1 swapoff 7", "swapoff 7", "ENOMEM")
    script.call("1 load a 1", f"load 0x{BASE:x} 1", "2a")
    rows = [row(0, 0, 12288, 1, owner=0)]
    return script.ends(" ".join(["sparse:65536"] * 8), rows, (1, 3, 0, 2, 2, 0, 1, 65536, 1, 1, 0))


def most_segments() -> Script:
    """4096 segments under keys of their own, each found by its key again; one more is refused."""
    script = Script("4096 4096 65536 2 0", "process 1 100 100")
    for key in range(1, 4097):
        script.call(f"1 shmget {key} 1 600,creat", f"shmget 0x{key:08x} 1 600,creat", key - 1)
    script.call("1 shmget 4097 1 600,creat", "shmget 0x00001001 1 600,creat", "ENOSPC")
    for key in range(1, 4097):
        script.call(f"1 shmget {key} 1 600", f"shmget 0x{key:08x} 1 600", key - 1)
    # an index is free again, and its identifier is a new one: one segment was destroyed there
    script.call("1 rmid 4095", "rmid 4095", "ok")
    script.call("1 stat 4095", "stat 4095", "EIDRM")
    script.call("1 shmget 4096 1 600", "shmget 0x00001000 1 600", "ENOENT")
    script.call("1 shmget 4096 1 600,creat", "shmget 0x00001000 1 600,creat", 4095 + 32768)
    rows = [row(key, key - 1, 1, 0) for key in range(1, 4096)] + [row(4096, 4095 + 32768, 1, 0)]
    return script.ends("ram:4096", rows, (4096, 4096, 0, 0, 2, 0, 0, 4096, 0, 0, 0))


def most_pieces() -> Script:
    """64 processes with 256 pieces each: the 63 children have those of the first one, by fork.

    The pieces are consecutive, each a page of the same segment. One more attach is refused in each process.
    """
    children = range(2, 65)
    script = Script("4096 16 64 2 0", "process 1 100 100", *(f"child {pid}" for pid in children))
    script.call("1 s = shmget private 4096 600", "shmget 0x00000000 4096 600", 0)
    for piece in range(256):
        script.call("1 shmat s null -", "shmat 0 null -", f"0x{BASE + PAGE * piece:x}")
    for pid in children:
        script.call(f"1 fork {pid}", f"fork {pid}", "ok")
    last = BASE + PAGE * 255
    for count, pid in enumerate((1, *children)):
        script.call(f"{pid} shmat 0 null -", "shmat 0 null -", "EMFILE")
        # the same eight bytes through the last piece of each
        script.call(f"{pid} xadd {last} 1", f"xadd 0x{last:x} 1", count)
        script.call(f"{pid} shmdt {last}", f"shmdt 0x{last:x}", "ok")
        script.call(f"{pid} load {last} 1", f"load 0x{last:x} 1", "SIGSEGV")
        script.call(f"{pid} load {last - PAGE} 1", f"load 0x{last - PAGE:x} 1", f"{count + 1:02x}")
    return script.ends("ram:64", [row(0, 0, 4096, 64 * 255)], (1, 1, 0, 1, 2, 1, 0, 64, 0, 0, 0))


def many_attaches() -> Script:
    """Five processes attach a segment 256 times each: it has 1,280 attachments, all to the same page."""
    script = Script("4096 16 64 2 0", *(f"process {pid} 100 100" for pid in range(1, 6)))
    script.call("1 shmget 7 4096 600,creat", "shmget 0x00000007 4096 600,creat", 0)
    for pid in range(1, 6):
        for piece in range(256):
            script.call(f"{pid} shmat 0 null -", "shmat 0 null -", f"0x{BASE + PAGE * piece:x}")
        script.call(f"{pid} xadd {BASE + PAGE * 255} 1", f"xadd 0x{BASE + PAGE * 255:x} 1", pid - 1)
    return script.ends("ram:64", [row(7, 0, 4096, 5 * 256)], (1, 1, 0, 1, 2, 1, 0, 64, 0, 0, 0))


def seventy_processes() -> Script:
    """A sizes line admits 70 processes. The 69 children have the first one's attachment, by fork, and each
    adds to the same number."""
    children = range(2, 71)
    script = Script("4096 16 64 2 0", "process 1 100 100", *(f"child {pid}" for pid in children),
                    sizes="256 70 64")
    script.call("1 s = shmget private 4096 600", "shmget 0x00000000 4096 600", 0)
    script.call("1 shmat s null -", "shmat 0 null -", f"0x{BASE:x}")
    for pid in children:
        script.call(f"1 fork {pid}", f"fork {pid}", "ok")
    for count, pid in enumerate((1, *children)):
        script.call(f"{pid} xadd {BASE} 1", f"xadd 0x{BASE:x} 1", count)
    return script.ends("ram:64", [row(0, 0, 4096, 70)], (1, 1, 0, 1, 2, 1, 0, 64, 0, 0, 0))


def three_hundred_pieces() -> Script:
    """A sizes line admits 300 pieces of a process, and no 301st."""
    script = Script("4096 16 64 2 0", "process 1 100 100", sizes="300 1 64")
    script.call("1 s = shmget private 4096 600", "shmget 0x00000000 4096 600", 0)
    for piece in range(300):
        script.call("1 shmat s null -", "shmat 0 null -", f"0x{BASE + PAGE * piece:x}")
    script.call("1 shmat s null -", "shmat 0 null -", "EMFILE")
    last = BASE + PAGE * 299
    script.call(f"1 store {last} 2a", f"store 0x{last:x} 2a", "ok")
    script.call(f"1 load {BASE} 1", f"load 0x{BASE:x} 1", "2a")
    return script.ends("ram:64", [row(0, 0, 4096, 300)], (1, 1, 0, 1, 2, 1, 0, 64, 0, 0, 0))


def two_thousand_processes() -> Script:
    """A sizes line admits 2,000 processes, all but the first by fork of it. The last one adds to the first
    one's number. One that is declared but not born is not live."""
    children = range(2, 2000)
    script = Script("4096 1 1 2 0", "process 1 100 100", *(f"child {pid}" for pid in children),
                    "child 5000000", sizes="1 2000 1")
    script.call("1 shmget private 4096 600", "shmget 0x00000000 4096 600", 0)
    script.call("1 shmat 0 null -", "shmat 0 null -", f"0x{BASE:x}")
    script.call(f"1 xadd {BASE} 5", f"xadd 0x{BASE:x} 5", 0)
    for pid in children:
        script.call(f"1 fork {pid}", f"fork {pid}", "ok")
    script.call(f"1999 xadd {BASE} 1", f"xadd 0x{BASE:x} 1", 5)
    script.call("5000000 exit", "exit", "ESRCH")
    return script.ends("ram:1", [row(0, 0, 4096, 1999)], (1, 1, 0, 1, 2, 1, 0, 1, 0, 0, 0))


def larger_area() -> Script:
    """A sizes line admits an area of 1,000,000 slots, and a segment with as many pages. Two frames: the load
    of the last page evicts the first one, which is dirty, into slot 0, and the next load takes it from there.
    For it the second page leaves, which was never stored, so it needs no slot."""
    size = 1000000 * PAGE
    script = Script("1099511627776 1 268435456 2 0", "process 1 100 100", sizes="1 1 1000000")
    script.call(f"1 s = shmget private {size} 600", f"shmget 0x00000000 {size} 600", 0)
    script.call("1 a = shmat s null -", "shmat 0 null -", f"0x{BASE:x}")
    script.call("1 store a 2a", f"store 0x{BASE:x} 2a", "ok")
    for page, data in ((1, "00"), (999999, "00"), (0, "2a"), (999999, "00")):
        script.call(f"1 load a+{page * PAGE} 1", f"load 0x{BASE + page * PAGE:x} 1", data)
    return script.ends("sparse:1000000", [row(0, 0, size, 1)], (1, 1000000, 0, 2, 2, 0, 1, 1000000, 1, 1, 0))


def largest_twice() -> Script:
    """Two processes attach a segment of 4096 pages, twice each. What one stores at the last page the other
    reads.

    The two pages that are touched take the two frames.
    """
    size = SEGMENT_PAGES * PAGE
    script = Script("16777216 16 65536 2 0", "process 1 100 100", "process 2 100 100")
    script.call(f"1 shmget 7 {size} 600,creat", f"shmget 0x00000007 {size} 600,creat", 0)
    for pid in (1, 2):
        for place in (BASE, BASE + size):
            script.call(f"{pid} shmat 0 null -", "shmat 0 null -", f"0x{place:x}")
    script.call(f"1 store {BASE + size - 1} 2a", f"store 0x{BASE + size - 1:x} 2a", "ok")
    script.call(f"2 load {BASE + 2 * size - 1} 1", f"load 0x{BASE + 2 * size - 1:x} 1", "2a")
    script.call(f"2 store {BASE + size} 2b", f"store 0x{BASE + size:x} 2b", "ok")
    script.call(f"1 load {BASE} 1", f"load 0x{BASE:x} 1", "2b")
    return script.ends("sparse:4096", [row(7, 0, size, 4)], (1, SEGMENT_PAGES, 0, 2, 2, 2, 0, 4096, 0, 0, 0))


def most_locked() -> Script:
    """MEMLOCK to its last page: 4094 pages of a locked segment stay in 4096 frames, and all others share two.

    Each store crosses to the next page, so the locked pages take the first 4094 frames in order. Of the four
    other pages the first two take the last two frames; then each pair replaces the one before, which is dirty
    and has no slot, and the first pair comes back from its two slots over the second one, which is written.
    """
    script = Script("16777216 16 65536 4096 4094", "process 1 100 100")
    large, small = 4094 * PAGE, 4 * PAGE
    script.call(f"1 s = shmget 1 {large} 600,creat", f"shmget 0x00000001 {large} 600,creat", 0)
    script.call(f"1 t = shmget 2 {small} 600,creat", f"shmget 0x00000002 {small} 600,creat", 1)
    script.call("1 lock s", "lock 0", "ok")
    script.call("1 lock t", "lock 1", "ENOMEM")
    script.call("1 a = shmat s null -", "shmat 0 null -", f"0x{BASE:x}")
    other = BASE + large
    script.call("1 b = shmat t null -", "shmat 1 null -", f"0x{other:x}")
    for pair in range(2047):
        offset, data = 2 * PAGE * pair + PAGE - 1, pair_bytes(pair, 0)
        script.call(f"1 store a+{offset} {data}", f"store 0x{BASE + offset:x} {data}", "ok")
    for pair in (0, 1):
        offset, data = 2 * PAGE * pair + PAGE - 1, pair_bytes(pair, 1)
        script.call(f"1 store b+{offset} {data}", f"store 0x{other + offset:x} {data}", "ok")
    script.call(f"1 load b+{PAGE - 1} 2", f"load 0x{other + PAGE - 1:x} 2", pair_bytes(0, 1))
    for pair in range(2047):
        offset = 2 * PAGE * pair + PAGE - 1
        script.call(f"1 load a+{offset} 2", f"load 0x{BASE + offset:x} 2", pair_bytes(pair, 0))
    rows = [row(1, 0, large, 1, "locked"), row(2, 1, small, 1)]
    return script.ends("ram:65536", rows, (2, 4098, 4094, 4096, 4096, 4094, 4, 65536, 2, 4, 0))


def most_lines() -> Script:
    """100,000 commands and flush lines in a script as long as one may be: blanks fill it up."""
    script = Script("4096 16 64 2 0", "process 1 100 100")
    script.call("1 exit", "exit", "ok")
    for _ in range(MOST_LINES - 2):
        script.call("1 exit", "exit", "ESRCH")
    script.flush(1)
    left = LONGEST - sum(len(line) + 1 for line in script.lines)
    script.lines.append(" " * (left - 1))
    script.declared += 1
    return script.ends("ram:1", [], (0, 0, 0, 0, 2, 0, 0, 1, 0, 0, 0))


def most_events() -> Script:
    """100,000 commands, each with its event: the last one has the number 100000."""
    script = Script("4096 16 64 2 0", "process 1 100 100")
    script.call("1 exit", "exit", "ok")
    for _ in range(MOST_LINES - 1):
        script.call("1 exit", "exit", "ESRCH")
    return script.ends("ram:1", [], (0, 0, 0, 0, 2, 0, 0, 1, 0, 0, 0))


# what `main` writes
SCRIPTS: dict[str, Callable[[], Script]] = {
    "every_slot": lambda: every_page("sparse"), "every_slot_of_a_mirror": lambda: every_page("mirror"),
    **{it.__name__: it for it in (
        eight_areas, most_segments, most_pieces, most_locked, many_attaches, seventy_processes,
        three_hundred_pieces, two_thousand_processes, larger_area, largest_twice, most_lines, most_events)}}


def main(folder: str) -> None:
    for name, make in SCRIPTS.items():
        for end, content in make().files.items():
            Path(f"{folder}/{name}{end}").write_text(content, "ascii")
