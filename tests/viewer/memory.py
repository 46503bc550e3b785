"""The bytes of a page, as the viewer's page shows them when they are opened, against those of the record's
own lines.

A segment begins with zeros, and only a successful store, xadd, swap or cas changes a byte. Each successful
access but a store has bytes in its reply too: they are compared with those that follow from the earlier
lines.
"""

from __future__ import annotations

import glob
import os
import re
from pathlib import Path
from typing import Any, Tuple

from commands import TOP, run, text_of
from viewer.browser import Session
from viewer.expected import (REFUSALS, Block, access_of, boxes_of, length_of, lines_of, pieces_of,
                             read_blocks, segments_of, where_is)
from viewer.pages import Page

HERE = os.path.dirname(os.path.abspath(__file__))
PAGE = 4096
# the scripts whose records are compared, with the hand's way too (hand.py)
SCRIPTS = ("examples/*.shm", "tests/viewer/cases/*.shm", "tests/scripts/*/*.shm")
FEWEST_SCRIPTS, FEWEST_LOADS = 60, 1000
# the name of a script, and its record
Record = Tuple[str, str]


def read(name: str) -> Any:
    return text_of(os.path.join(HERE, name))


def places_of(block: Block) -> Any:
    """Returns for each byte of an access its page and its place there; None if nothing is attached."""
    words = block[1]
    caller, named = access_of(block)
    if not named:
        return []
    count = length_of(words)
    first = 0 if words[4] == "null" else int(words[4], 16)
    has = {line[1]: boxes_of(pieces) for line, pieces in pieces_of(block)}.get(caller, {})
    found = ((has.get(at - at % PAGE), at % PAGE) for at in range(first, first + count))
    return [("·".join(box[0]), at) if box else None for box, at in found]


class Memory:
    """The bytes of the pages, step by step, and which of the replies they contradict."""

    def __init__(self, blocks: list[Block]) -> None:
        self.pages: dict[str, bytearray] = {}
        self.steps: list[Any] = []
        self.calls: list[list[str]] = []
        self.wrong: list[str] = []
        self.answers = 0
        self.used: dict[str, set[int]] = {}
        for block in blocks:
            self.take(block)

    def take(self, block: Block) -> None:
        there = {line[1] for line in segments_of(block)}
        before = {page: bytes(its) for page, its in self.pages.items()}
        self.pages = {page: its for page, its in self.pages.items() if page.split("·")[0] in there}
        places = places_of(block)
        if places and block[1][-1] not in REFUSALS:
            self.answer(block[1], places)
        for place in [it for it in places if it]:
            self.used.setdefault(place[0], set()).add(place[1] // 16)
        after = {page: bytes(its) for page, its in self.pages.items()}
        self.steps.append((there, before, after, [place for place in places if place]))
        self.calls.append(block[1])

    def answer(self, words: Any, places: Any) -> None:
        kind, reply = words[3], words[-1]
        kept = [self.pages.setdefault(page, bytearray(PAGE)) for page, _ in places]
        had = bytes(page[at] for page, (_, at) in zip(kept, places))
        told = {"store": "ok", "xadd": str(int.from_bytes(had, "little"))}.get(kind, had.hex())
        self.wrong += [f"{' '.join(words)}, where {told} is there"] * (told != reply)
        self.answers += kind != "store"
        new = self.new_bytes(words, had)
        for page, (_, at), byte in zip(kept, places, new):
            page[at] = byte

    @staticmethod
    def new_bytes(words: list[str], had: bytes) -> bytes:
        """Returns the bytes after an access that was not refused."""
        kind = words[3]
        if kind == "load" or (kind == "cas" and had.hex() != words[5]):
            return had
        if kind == "xadd":
            return ((int.from_bytes(had, "little") + int(words[5])) % 2 ** 64).to_bytes(8, "little")
        return bytes.fromhex(words[6 if kind == "cas" else 5])

    def changed(self) -> Any:
        """Returns for each step the pages with a byte that it changed."""
        zeros = bytes(PAGE)
        return [{page for page in after if after[page] != before.get(page, zeros)} for _, before, after,
                _ in self.steps]


def bytes_in(row: Any, shown: Any, had: Any) -> Any:
    """Returns a row of bytes with their marks, and its text."""
    there, before, after, named, page = shown
    cells = []
    for at in range(16 * row, 16 * row + 16):
        mark = "!" * ((page, at) in named)
        if there:
            cells.append(f"{after[at]:02x}{'*' * (had and after[at] != before[at])}{mark}")
        else:
            cells.append(f"{before[at]:02x}{mark}~" if had else mark)
    text = "".join(chr(it) if 0x20 <= it < 0x7f else "·"
                   for it in after[16 * row:16 * row + 16]) if there else ""
    return [f"0x{16 * row:03x}", " ".join(cells), text.strip()]


MANY_ROWS = "\n".join(["limits 65536 16 64 4 1", "process 1 1 1", "1 s = shmget private 4096 600",
                       "1 a = shmat s null -", *[f"1 store a+{40 * at} 0102" for at in range(20)],
                       "1 store a+8 " + "aa" * 64, "1 stat s"]) + "\n"


def followed_rows(memory: Any, at: Any, page: Any) -> Any:
    """Returns the rows of a page that follows the steps: those that the run names, or, if these are more than
    16, those that the last access names."""
    used = memory.used[page]
    last = [{place // 16 for owner, place in its if owner == page} for *_, its in memory.steps[:at + 1]]
    return used if len(used) <= 16 else [rows for rows in last if rows][-1]


def table_of(memory: Any, at: Any, page: Any, is_whole: bool = False, used: Any = None) -> Any:
    """Returns the table of a page at a step: its rows that the run names, or others, or all, and how far the
    rest reaches."""
    used = memory.used.get(page, ()) if used is None else used
    zeros, seg = bytes(PAGE), page.split("·")[0]
    (there, before, after, named), earlier = memory.steps[at], memory.steps[at - 1] if at else (set(),)
    shown = seg in there, before.get(page, zeros), after.get(page, zeros), named, page
    rows, skipped = [], None
    for row in [*range(PAGE // 16), None]:
        if row is not None and not is_whole and row not in used:
            skipped = row if skipped is None else skipped
            continue
        if skipped is not None:
            rows.append(f"⋯ 0x{16 * skipped:03x} to 0x{16 * (PAGE // 16 if row is None else row) - 1:03x}"
                        + ": zeros" * shown[0])
            skipped = None
        if row is not None:
            rows.append(bytes_in(row, shown, seg in earlier[0]))
    return rows


def parts_of(named: Any, page: Any) -> Any:
    """Returns the bytes of a page that an access names, in parts that lie together."""
    parts: list[list[int]] = []
    for owner, at in named:
        if owner == page:
            if parts and parts[-1][-1] == at - 1:
                parts[-1].append(at)
            else:
                parts.append([at])
    return parts


def touched(memory: Any, at: Any, page: Any) -> Any:
    """What the viewer says about the bytes that a step names: old and new values, 16 at most."""
    zeros, said = bytes(PAGE), []
    _there, before, after, named = memory.steps[at]
    for part in parts_of(named, page):
        span = f"byte {part[0]}" if len(part) == 1 else f"bytes {part[0]} to {part[-1]}"
        old, new = (its.get(page, zeros)[part[0]:part[-1] + 1][:16].hex(" ") + " ⋯" * (len(part) > 16)
                    for its in (before, after))
        words = memory.calls[at]
        if words[-1] in REFUSALS:
            said.append(f"{span}: refused, {old} stay{'s' * (len(part) == 1)}")
        elif words[3] == "load":
            said.append(f"{span}: {new} loaded")
        else:
            said.append(f"{span}: {old} → {new}{', the same' * (old == new)}")
    return "; ".join(said)


def line_of(memory: Any, blocks: Any, at: Any, page: Any, is_one: bool = True) -> Any:
    """Returns the line above the rows of a page."""
    told = [touched(memory, at, page), held(blocks[at], blocks[at - 1] if at else None, page)]
    name = f"page {page.split('·')[1]} of segment {page.split('·')[0]}: "
    return name * (not is_one) + " ".join(filter(None, told))


def pages_at(memory: Any, at: Any) -> Any:
    """Returns the pages that a step names, or else those that the last access before it named."""
    named = [its for _, _, _, its in memory.steps[:at + 1] if its]
    return list(dict.fromkeys(page for page, _ in named[-1])) if named else []


def held(block: Block, before: Any, page: Any) -> Any:
    """Returns what the viewer says about a page: where it is, and at which addresses."""
    seg = page.split("·")[0]
    had, has = ([it for it in segments_of(each) if it[1] == seg] for each in (before or [["step"]], block))
    if not has:
        return (f"segment {seg} is destroyed in this step, with its bytes" if had
                else f"segment {seg} does not exist at this step")
    place = where_is(block, page.split("·"))
    is_dirty = any(line[2:4] == page.split("·") and line[4][1] == "d" for line in lines_of(block, "frame"))
    told = [{"f": f"in frame {place[1:]}{', dirty' * is_dirty}", "s": f"in slot {place[1:]}",
             "0": "in neither a frame nor a slot"}[place[0]]]
    for line, pieces in pieces_of(block):
        its = [f"0x{at:08x}" for at,
               (owner, _, _) in sorted(boxes_of(pieces).items()) if owner == page.split("·")]
        told += [f"process {line[1]} has it at {' and '.join(its)}"] * bool(its)
    return "; ".join(told)


def opened(session: Session, page: Any) -> None:
    session.value(f"(() => {{ const it = byId('opened'); it.focus(); it.value = '{page}'; "
                  f"it.dispatchEvent(new Event('change')); it.blur(); }})()")


def pages_in(blocks: list[Block], memory: Any) -> Any:
    """Returns the pages that can be opened from the list."""
    kept = {"·".join(line[at:at + 2]) for block in blocks for word,
            at in (("frame", 2), ("slot", 3)) for line in lines_of(block, word)}
    return sorted(kept | {*memory.used}, key=lambda page: [*map(int, page.split("·"))])


def check_tables(session: Session, made: Page) -> None:
    """Each page that a run uses, at each step."""
    blocks, dump = made.all_blocks, read("dump.js")
    memory = Memory(blocks)
    choices = session.value("byId('opened').focus(), [...byId('opened').options].map((it) => it.value)")
    want = ["", *pages_in(blocks, memory)]
    assert choices == want
    check_followed(session, made, memory)
    for page in want[1:]:
        opened(session, page)
        for at, (_name, [seen]) in list(enumerate(session.value(dump), made.skipped)):
            text, rows = line_of(memory, blocks, at, page), table_of(memory, at, page)
            wrong = [f"{one} where {other} is wanted" for one, other in zip(seen[1], rows) if one != other]
            wrong += [f"{len(seen[1])} rows, not {len(rows)}"] * (len(seen[1]) != len(rows))
            wrong += [f"{seen[0]!r}, not {text!r}"] * (seen[0] != text)
            assert not wrong
    opened(session, "")


def check_followed(session: Session, made: Page, memory: Any) -> None:
    """With no page kept open, each step has the bytes of the pages that it names."""
    for at, (name, seen) in enumerate(session.value(read("dump.js")), made.skipped):
        pages = pages_at(memory, at)
        want = [[line_of(memory, made.all_blocks, at, page, len(pages) == 1),
                 table_of(memory, at, page, used=followed_rows(memory, at, page))] for page in pages]
        assert seen == (want or [["No step so far loads or stores a byte.", []]])
        told = " of page {1} of segment {0}".format(*pages[0].split("·")) if len(pages) == 1 else ""
        assert name == f"Bytes{told}".upper()


def check_whole(session: Session, made: Page) -> None:
    """All rows of a page: 4096 bytes."""
    memory = Memory(made.all_blocks)
    opened(session, "0·1")
    session.value("byId('whole').click()")
    seen = session.value(read("dump.js"))
    for at in (4, 10, 16):
        want = table_of(memory, at, "0·1", True)
        assert seen[at][1][0][1] == want
        assert len(want) == 256
    session.value("byId('dump').scrollTop = 300")
    session.press("ArrowLeft")
    seen = session.value("[byId('dump').scrollTop, byId('dump').clientHeight < 600]")
    assert seen == [300, True]
    session.value("byId('whole').click()")
    assert session.value(read("dump.js"))[10][1][0][1] == table_of(memory, 10, "0·1")
    opened(session, "")


def at_step(session: Session, step: Any) -> None:
    session.value(f"(() => {{ const it = byId('slider'); it.value = {step}; "
                  f"it.dispatchEvent(new Event('input')); }})()")


BYTES_NOW = "[byId('opened').value, byId('named').textContent.replace('Bytes of ', '')]"


def name_of(page: str) -> str:
    return "page {1} of segment {0}".format(*page.split("·"))


def check_opening(session: Session, made: Page) -> None:
    """A click on a box keeps its page open; b keeps the step's page, or lets the bytes follow the steps."""
    for selector, number, page in (("#frames .cell", 3, "1·1"), ("#frames .cell", 0, "1·6"),
                                   (".area .cell", 0, "1·0"), ("#processes .cell", 5, "1·4"),
                                   ("#processes .cell", 8, "1·7")):
        at_step(session, 20)
        session.value(f"document.querySelectorAll('{selector}')[{number}].click()")
        assert session.value(BYTES_NOW) == [page, name_of(page)]
    opened(session, "")
    for step, page, shown in ((12, "1·0", "1·0"), (13, "1·4", "1·4"), (13, "", "1·4"), (16, "", "1·2"),
                              (14, "1·2", "1·2")):
        at_step(session, step)
        session.press("b")
        assert session.value(BYTES_NOW) == [page, name_of(shown)]
    opened(session, "")


def check_sheets(session: Session, made: Page) -> None:
    assert len(re.findall(rb"/Type /Page\b", session.paper())) == len(made.blocks)


def check_room(session: Session, made: Page, path: str) -> None:
    """With a page open no box moves from step to step; on paper each step has one sheet, with the bytes."""
    for wide, high in ((1280, 900), (390, 844)):
        session.open(f"file://{path}", wide, high)
        opened(session, "0·1")
        session.value("scrollTo(0, 0)")
        first = session.value(read("measure.js"))
        for at in range(len(made.blocks)):
            seen = session.value(read("measure.js"))
            moved = [one for one, other in zip(seen["boxes"], first["boxes"]) if one != other]
            assert not moved
            assert len(seen["boxes"]) == len(first["boxes"])
            assert seen["wide"] <= wide
            session.press("ArrowRight")
    check_sheets(session, made)
    session.value("byId('whole').click()")
    seen = session.value("dispatchEvent(new Event('beforeprint')), [...document.querySelectorAll('.sheet "
                         ".bytes')].map((it) => "
                         "[it.querySelector('h2').textContent, it.querySelectorAll('.dump tr').length])")
    rows = len(table_of(Memory(made.all_blocks), 0, "0·1"))
    assert seen == [["Bytes of page 1 of segment 0", rows]] * len(made.blocks)
    session.value("dispatchEvent(new Event('afterprint'))")


LATE = "\n".join(["limits 65536 16 64 4 1", "process 1 1 1", "1 s = shmget private 8192 600",
                  "1 a = shmat s null -", "1 store a 0102", *["1 stat s"] * 2000,
                  "1 load a 1", "1 store a+1 ff", "1 load a 4"]) + "\n"
# the first row at each of its last three steps, by hand: what was stored before the record begins is unknown
# until an access names it
LATE_ROWS = ["01! " + " ".join(["??"] * 15), "01 ff! " + " ".join(["??"] * 14),
             "01! ff! 00! 00! " + " ".join(["??"] * 12)]


def open_in(folder: str, session: Session, made: Page) -> Any:
    path = os.path.join(folder, made.name + ".html")
    Path(path).write_text(made.html, "utf-8")
    session.open(f"file://{path}", 1280, 900)
    return path


def check_late(session: Session, made: Page, late: Any, folder: str) -> None:
    """Chosen steps have the bytes of earlier steps; after 2,000 steps those that none named are unknown."""
    open_in(folder, session, made)
    check_tables(session, made)
    open_in(folder, session, late)
    opened(session, "0·0")
    seen = session.value(read("dump.js"))
    rows = [[["0x000", row, text], "⋯ 0x010 to 0xfff: unknown"] for row,
            text in zip(LATE_ROWS, ("·" * 16,) * 3)]
    assert [its for _, [[_, its]] in seen] == rows
    said = {text.rpartition("; ")[2] for _, [[text, _]] in seen}
    assert said == {"?? is a byte that no step from 2003 on named"}


def records(program: str) -> list[Record]:
    """Returns the name and the record of each stored script that has one."""
    found = []
    for path in sorted(it for pattern in SCRIPTS for it in glob.glob(os.path.join(TOP, pattern))):
        ended = run([program, *text_of(path[:-4] + ".swap", "ram:64").split()], text_of(path))
        if ended.status == 0 and ended.out:
            found.append((os.path.relpath(path, TOP), ended.out))
    return found


def check_loads(made: list[Record]) -> None:
    """In each record each load and xadd returns the bytes of the stores and xadds before it."""
    answers = 0
    for name, record in made:
        memory = Memory(read_blocks(record))
        answers += memory.answers
        assert not memory.wrong
    assert len(made) >= FEWEST_SCRIPTS
    assert answers >= FEWEST_LOADS


def check_bytes(session: Session, made: Page, folder: str) -> None:
    """The bytes of each page of a script; of one script also by clicks, of another whole and on paper."""
    path = open_in(folder, session, made)
    check_tables(session, made)
    if made.name == "turns":
        check_opening(session, made)
    if made.name == "bytes":
        check_whole(session, made)
        check_room(session, made, path)


def check_many_rows(session: Session, made: Page, folder: str) -> None:
    open_in(folder, session, made)
    check_followed(session, made, Memory(made.all_blocks))
    assert session.value("byId('dump').offsetHeight") <= 34 * 16


def check_many_processes(session: Session, made: Page, folder: str) -> None:
    """With a page open each step still has one sheet."""
    open_in(folder, session, made)
    opened(session, "0·0")
    check_sheets(session, made)
