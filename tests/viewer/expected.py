"""What each step of a page must show, by the record's own lines and the sentences written by hand.

Nothing here uses the code that makes the page: a record is read anew, in the layout of docs/VIEWER.md.
"""

from __future__ import annotations

import os
import re
from typing import Any, List

HERE = os.path.dirname(os.path.abspath(__file__))
# a step of a record: its lines, each a list of words
Block = List[List[str]]
# of an area this many slots are drawn, if it has them, and each that a page has at some step
FEWEST_SLOTS = 8
REFUSALS = ("EPERM ENOENT ESRCH EIO EAGAIN ENOMEM EACCES EEXIST EINVAL EMFILE ENOSPC EIDRM "
            "SIGBUS SIGSEGV").split()
# the lines of the charts, in the order of their legends, and the words of usage that they show: what is, and
# what adds up
CHARTS = ((("pages in frames", "frames"), ("dirty pages", "dirty"), ("slots in use", "slots")),
          (("pages read from swap", "in"), ("pages written to swap", "out"),
           ("failed reads and writes", "failures")))
# what the axis of each chart counts
UNITS = {"pages in frames": "pages, at each step", "pages read from swap": "pages and failures, since step 0"}
KEYS = ("ArrowLeft", "ArrowRight", "Home", "End")
# if counts are equal, the lines of the chart are drawn next to each other: at most this far apart
NUDGE = 5


def read_sentences() -> dict[str, dict[int, list[str]]]:
    """Returns the sentences that sentences.txt has for each script: a list for each number of a step."""
    told: dict[str, dict[int, list[str]]] = {}
    with open(os.path.join(HERE, "sentences.txt"), encoding="ascii") as file:
        for line in file.read().splitlines():
            head = re.fullmatch(r"(\w+) (\d+)", line)
            if head:
                said = told.setdefault(head[1], {}).setdefault(int(head[2]), [])
            elif line and not line.startswith("#"):
                said.append(line)
    return told


def read_blocks(record: str) -> list[Block]:
    """Returns the record's blocks as lists of lines of words."""
    return [[line.split() for line in block.splitlines()] for block in record.strip().split("\n\n") if block]


def number_of(block: Block) -> int:
    return int(block[0][1])


def lines_of(block: Block, word: str) -> Block:
    return [line for line in block if line[0] == word]


def segments_of(block: Block) -> Block:
    return [line for line in block if line[0].startswith("0x")]


def where_is(block: Block, page: Any) -> Any:
    """Where the page of a segment is, as the boxes of pieces say."""
    for line in lines_of(block, "frame"):
        if line[2:4] == page:
            return "f" + line[1]
    for line in lines_of(block, "slot"):
        if line[3:5] == page:
            return f"s{line[1]}:{line[2]}" if len(lines_of(block, "area")) > 1 else "s" + line[2]
    return "0"


def pieces_of(block: Block) -> Any:
    """Returns for each process its line, and the lines of its pieces."""
    found: list[tuple[list[str], list[list[str]]]] = []
    for line in block:
        if line[0] == "process":
            found.append((line, []))
        elif line[0] == "piece":
            found[-1][1].append(line)
    return found


def boxes_of(pieces: Any) -> Any:
    """What a process has at each of its addresses: the page, the rights, and whether a piece begins there."""
    found = {}
    for _, base, seg, first, count, rights in pieces:
        for at in range(int(count)):
            found[int(base, 16) + 4096 * at] = [seg, str(int(first) + at)], rights, at == 0
    return found


def length_of(words: list[str]) -> int:
    """Returns how many bytes an access names."""
    if words[3] == "load":
        return int(words[5])
    return 8 if words[3] == "xadd" else len(words[5]) // 2


def access_of(block: Block) -> Any:
    """The process of an access and the addresses of its pages; empty ones if the step is not an access."""
    words = block[1]
    if words[0] != "call" or words[3] not in ("load", "store", "xadd", "swap", "cas"):
        return "", []
    count = length_of(words)
    first = 0 if words[4] == "null" else int(words[4], 16)
    return words[2], sorted({at - at % 4096 for at in range(first, first + count)})


def page_box(block: Block, before: Block, address: Any, has: Any, had: Any, is_reached: Any) -> Any:
    """Returns what the box of an address must show."""
    def looks(it: Any, box: Any) -> Any:
        return [*box[0], box[1], where_is(it, box[0])] if box else []
    name = f"0x{address:08x}"
    owner, was = ("·".join(it[0]) if it else "" for it in (has, had))
    struck = [was] * (before is not None and was not in ("", owner))
    told = (f"page {has[0][1]} of segment {has[0][0]}, {'read-only' if has[1] == 'ro' else 'read and write'}"
            if has else "no attachment")
    framed = before is not None and looks(block, has) != looks(before, had)
    return [name, owner, *struck, where_is(block, has[0]) if has else "", framed, is_reached,
            bool(has) and has[1] == "ro", bool(has) and has[2], f"{name}: {told}"]


def processes(block: Block, before: Block, blocks: Any) -> Any:
    """Returns for each process its name, its state and whether that is framed, and a box for each address
    that it ever has."""
    shown = []
    earlier = pieces_of(before) if before else None
    caller, named = access_of(block)
    for at, (line, pieces) in enumerate(pieces_of(block)):
        state = {"unborn": "not born yet", "ended": "ended"}.get(line[2]) or f"uid {line[3]} gid {line[4]}"
        was, had = earlier[at] if earlier else (line, [])
        has, had = boxes_of(pieces), boxes_of(had)
        row, last = [], None
        for address in sorted({it for each in blocks for it in boxes_of(pieces_of(each)[at][1])}):
            row += ["gap"] * (last is not None and address != last + 4096)
            is_reached = line[1] == caller and address in named and address in has
            row.append(page_box(block, before, address, has.get(address), had.get(address), is_reached))
            last = address
        shown.append([f"process {line[1]}", state, line != was, row])
    return shown


def reached_frames(block: Block) -> Any:
    """Returns the frames of the pages that an access reached; it reaches none if its reply is SIGSEGV."""
    caller, named = access_of(block)
    has = {line[1]: boxes_of(pieces) for line, pieces in pieces_of(block)}.get(caller, {})
    places = [where_is(block, has[address][0]) for address in named if address in has]
    return [place[1:] for place in places if place[0] == "f" and block[1][-1] != "SIGSEGV"]


def turn_in(sentence: Any) -> Any:
    """The frames that the hand passed by a sentence, and the one where it stopped; None for others."""
    found = re.fullmatch(r"the hand (?:passed frames? (.+?)(?: in a whole round)? and )?stopped at frame "
                         r"(\d+)", sentence)
    if not found:
        return None
    runs = [run.split(" to ") for run in found[1].split(", ")] if found[1] else []
    return [frame for run in runs for frame in range(int(run[0]), int(run[-1]) + 1)], int(found[2])


def pinned_by(block: Block, before: Block, at: Any) -> Any:
    """The frame that the hand may not take in a turn: that of the first page, as the second comes in."""
    caller, named = access_of(block)
    has = {line[1]: boxes_of(pieces) for line, pieces in pieces_of(block)}.get(caller, {})
    first = has[named[0]][0]
    [[_, count, _, _]] = lines_of(before, "frames")
    is_of_first = (at == 0 and where_is(before, first)[0] != "f"
                   and len(lines_of(before, "frame")) == int(count))
    return None if is_of_first else int(where_is(block, first)[1:])


def ways(block: Block, before: Block, said: Any) -> Any:
    """Returns for each frame the lines of the hand's way, the lowest first, by the sentences: whether it
    begins there, how it is drawn, whether an arrow ends it, and how far it reaches."""
    [[_, count, _, _]] = lines_of(block, "frames")
    found: list[list[list[Any]]] = [[] for _ in range(int(count))]
    for at, (passed, stop) in enumerate([it for it in map(turn_in, said) if it]):
        locked = [it[1] for it in segments_of(before) if "locked" in it[6].split(",")]
        over = {int(line[1])
                for line in lines_of(before, "frame") if line[2] in locked} | {pinned_by(block, before, at)}
        for index, frame in enumerate([*passed, stop]):
            is_stop = index == len(passed)
            found[frame].append([index == 0, "solid" if is_stop or frame not in over else "dotted", is_stop,
                                 "ends" if is_stop else "on"])
    return found


def frames(block: Block) -> Any:
    """Returns for each frame its number, its page and its marks."""
    [[_, count, _, hand]] = lines_of(block, "frames")
    locked = {line[1] for line in segments_of(block) if "locked" in line[6].split(",")}
    owned = {line[1]: line for line in lines_of(block, "frame")}
    shown = []
    for number in map(str, range(int(count))):
        line = owned.get(number)
        marks = ["R"] * (line[4][0] == "r") + ["D"] * (line[4][1]
                                                       == "d") + ["L"] * (line[2] in locked) if line else []
        shown.append([number, f"{line[2]}·{line[3]}" if line else "",
                      " ".join(marks + ["☞"] * (number == hand))])
    return shown


def slots_of(block: Block, at: Any) -> Any:
    return {int(line[2]): f"{line[3]}·{line[4]}" for line in lines_of(block, "slot") if line[1] == str(at)}


def areas(block: Block, blocks: Any) -> Any:
    """Returns for each area its name, its slots, and the text after them. Each step shows the same number of
    slots."""
    shown = []
    for at, line in enumerate(lines_of(block, "area")):
        is_gone = line[2] == "gone"
        size = max(int(it[2]) for each in blocks for it in [lines_of(each, "area")[at]] if it[2] != "gone")
        owned = slots_of(block, at)
        ever = [slot + 1 for it in blocks for slot in slots_of(it, at)]
        drawn = min(size, max([FEWEST_SLOTS, *ever]))
        cells = [[str(slot), owned.get(slot, ""), ""] for slot in range(drawn)]
        rest = [f"and {size - drawn} more" + ", free" * (not is_gone)] if drawn < size else []
        shown.append([f"swap area {at} was removed" if is_gone
                      else f"swap area {at}: {len(owned)} of {size} slots", cells, rest])
    return shown


def with_frames(cells: Any, before: Block, reached: Any = ()) -> Any:
    """Returns the cells, each with the owner that is struck out, and whether it is framed and reached."""
    shown = []
    for at, (number, owner, marks) in enumerate(cells):
        was = before[at][1] if before else owner
        is_changed = before is not None and before[at] != [number, owner, marks]
        shown.append([number, owner, *[was] * (was not in ("", owner)), marks, is_changed, number in reached])
    return shown


def call(block: Block) -> Any:
    words = block[1]
    if words[0] == "start":
        return "the machine before the first call"
    if words[0] == "flush":
        return (f"flush round, at most {words[1]} page{'s' * (words[1] != '1')}: {words[3]} written, "
                f"{words[5]} failed")
    return f"process {words[2]}: {' '.join(words[3:])} call {words[1]} of the history"


def count_of(block: Block, word: str) -> Any:
    usage = [it.split("/")[0] for line in lines_of(block, "usage") for it in line]
    return int(usage[usage.index(word) + 1])


def segments(block: Block, before: Block, blocks: Any) -> Any:
    """A row for each index of a segment: its words, which are filled, and whether it is struck out."""
    rows = []
    for index in sorted({int(it[1]) % 32768 for each in blocks for it in segments_of(each)}):
        has, had = ([it for it in segments_of(each) if int(it[1]) % 32768 == index]
                    for each in (block, before or []))
        words = (has or had or [[""] * 7])[0]
        filled = [bool(before) and bool(has) and not (bool(had) and had[0][at] == word) for at,
                  word in enumerate(words)]
        rows.append([words, filled, bool(had) and not has])
    return rows


def step_lines(script: Any) -> Any:
    """Returns the numbers of a script's lines, from 0, that are commands and flush lines: step 1 is the first
    of them."""
    return [at for at, line in enumerate(script) if re.match(r"\s*[0-9]", line)]


def shown_at(blocks: Any, at: Any, told: Any, skipped: int = 0, script: Any = ()) -> Any:
    """Returns what the page must show at a place of the record, except for the charts and the colours of
    segments. Blocks that are skipped at the beginning are not steps of the page."""
    block, before = blocks[at], blocks[at - 1] if at else None
    number, last = number_of(block), number_of(blocks[-1])
    drawn = areas(block, blocks)
    drawn_before = areas(before, blocks) if before else [[None, None, None] for _ in drawn]
    is_refused = block[1][-1] in REFUSALS and block[1][0] == "call"
    [[_, _, _, hand]] = lines_of(block, "frames")
    title = script[0].lstrip("# ") if script else ""
    want = {
        "heading": title,
        "where": f"step {number} of {last}",
        "link": f"#step-{number}",
        "title": f"step {number}: {title}" if title else f"step {number} of a run of shared memory",
        "slider": [str(len(blocks) - 1 - skipped), str(at - skipped)],
        "disabled": [at == skipped, at == len(blocks) - 1],
        "call": call(block),
        "reply": [[is_refused, "700"]],
        "script": [line.strip() for line in script],
        "current": [step_lines(script)[number - 1]] if script and number else [],
        "processes": processes(block, before, blocks),
        "frames": with_frames(frames(block), frames(before) if before else None, reached_frames(block)),
        "hands": [hand],
        "ways": ways(block, before, (told or {}).get(number, [])),
        "areas": [[name, with_frames(cells, old), rest] for (name, cells, rest),
                  (_, old, _) in zip(drawn, drawn_before)],
        "segments": segments(block, before, blocks),
    }
    return want if told is None else {**want, "changes": told.get(number, [])}


def has_gap(blocks: Any, at: int) -> bool:
    """Returns whether a process has pages of which two neighbours are not side by side."""
    places = sorted({it for block in blocks for it in boxes_of(pieces_of(block)[at][1])})
    return any(two - one > 4096 for one, two in zip(places, places[1:]))


def is_evicting(before: Block, block: Block) -> bool:
    """Returns whether a page left its frame, though its segment stays: then the hand moved."""
    had, has = ({tuple(line[2:4]) for line in lines_of(it, "frame")} for it in (before, block))
    return any(seg in [line[1] for line in segments_of(block)] for seg, _ in had - has)


def legend_of(blocks: Any) -> Any:
    """Returns the marks of a run's legend, each with its words and the looks of its picture."""
    lines = [line for block in blocks for line in block]
    frames = [line for line in lines if line[0] == "frame"]
    pieces = [line for line in lines if line[0] == "piece"]
    rows = (("0·2 page 2 of segment 0", "", pieces), ("f1 in frame 1", "", frames),
            ("s0 in slot 0", "", [line for line in lines if line[0] == "slot"]), ("0 zeros", "", pieces),
            ("attachment starts", "thick", pieces),
            ("read-only", "hatched", [line for line in pieces if line[5] == "ro"]),
            ("⋯ unused addresses", "", any(has_gap(blocks, at) for at in range(len(pieces_of(blocks[0]))))),
            ("accessed", "inner", any(reached_frames(block) for block in blocks)),
            ("changed", "outer", True), ("0·2 gone", "struck", pieces),
            ("R referenced", "", [line for line in frames if line[4][0] == "r"]),
            ("D dirty", "", [line for line in frames if line[4][1] == "d"]),
            ("L locked", "", any("locked" in line[6] for block in blocks for line in segments_of(block))),
            ("☞ clock’s hand", "", True),
            ("its way", "", any(map(is_evicting, blocks, blocks[1:]))))
    return [(words, looks) for words, looks, is_shown in rows if is_shown]


def wrong_parts(seen: Any, want: Any) -> Any:
    return [f"{part}: {seen.get(part)} where {want[part]} is wanted"
            for part in want if seen.get(part) != want[part]]


def wrong_colours(steps: Any) -> Any:
    """Segments have one colour everywhere, and no two the same."""
    seen: dict[str, set[str]] = {}
    for seg, colour in (pair for step in steps for pair in step["coloured"]):
        seen.setdefault(seg, set()).add(colour)
    colours = [next(iter(it)) for it in seen.values()]
    is_right = all(len(it) == 1 for it in seen.values()) and len({*colours}) == len(colours)
    return [] if is_right else [f"colours of segments: {seen}"]


def corners(path: str) -> Any:
    """Returns the places of a line of the chart, step by step, and its heights there."""
    found = re.fullmatch(r"M([\d.]+) (-?[\d.]+)((?: H[\d.]+ V-?[\d.]+)*)", path.strip())
    if not found:
        return [], []
    rest = re.findall(r"H([\d.]+) V(-?[\d.]+)", found[3])
    return [float(found[1]), *(float(x) for x, _ in rest)], [float(found[2]), *(float(y) for _, y in rest)]


def wrong_line(path: str, counts: Any, axis: Any, most: Any) -> Any:
    """A line's heights are its counts, between the chart's marks and nudged alike; its steps lie evenly."""
    (_, low, left, right), (_, high, _, _) = axis
    places, heights = corners(path)
    if len(heights) != len(counts):
        return f"{len(heights)} corners for {len(counts)} steps"
    nudges = [y - (low + (high - low) * count / most) for y, count in zip(heights, counts)]
    gap = (right - left) / max(1, len(counts) - 1)
    is_even = all(abs(x - left - gap * at) < .1 for at, x in enumerate(places))
    is_high = max(nudges) - min(nudges) < .11 and max(abs(it) for it in nudges) < NUDGE and high < low
    return "" if is_even and is_high else f"{path} where {counts} is wanted"


def wrong_chart(chart: Any, lines: Any, blocks: Any, at: Any) -> Any:
    """What is wrong with a chart: its two marks, the place of the step, the legend, or a line."""
    counts = {word: [count_of(block, word) for block in blocks] for _, word in lines}
    most = max(1, *(max(it) for it in counts.values()))
    axis, here = chart["axis"], chart["here"]
    if [it[0] for it in axis] != ["0", str(most)]:
        return [f"marks of the chart: {axis}"]
    wrong = []
    legend = [f"{name} {counts[word][at]}" for name, word in lines]
    if [told for told, _ in chart["legend"]] != legend:
        wrong.append(f"legend: {chart['legend']} where {legend} is wanted")
    strokes = [stroke for stroke, _ in chart["paths"]]
    if strokes != [colour for _, colour in chart["legend"]] or len({*strokes}) != len(lines):
        wrong.append(f"colours of the chart: {strokes} and {chart['legend']}")
    for (name, word), (_, path) in zip(lines, chart["paths"]):
        fault = wrong_line(path, counts[word], axis, most)
        wrong += [f"chart of {name}: {fault}"] * bool(fault)
    place = axis[0][2] + (axis[0][3] - axis[0][2]) * at / max(1, len(blocks) - 1)
    is_here = (here and abs(here[0] - place) < .1 and here[0] == here[1]
               and here[2] == f"step {number_of(blocks[at])}")
    wrong += [f"unit: {chart['unit']}"] * (chart["unit"] != UNITS[lines[0][0]])
    return wrong if is_here else [*wrong, f"place in the chart: {here} where {place} is wanted"]


def moves_of(blocks: Any, script: Any = ()) -> Any:
    """Returns the moves that are tried on a page."""
    if not blocks:
        return ["no End", "no ArrowLeft", "button on", "button back", "slider 1", "address #step-1"]
    slides = [f"slider {at}" for at in reversed(range(len(blocks)))]
    named = [f"address #step-{number_of(blocks[at])}" for at in (len(blocks) // 2, -1)]
    last = max(1, len(blocks) - 1)
    clicks = [f"chart {kind}:{(at + off) / last}" for kind,
              off in (("now", .3), ("sum", -.3)) for at in range(last + 1)
              if 0 <= at + off <= last]
    lines = [f"line {step_lines(script)[number_of(block) - 1]}" for block in blocks if script
             and number_of(block)]
    return ["no End", "no ArrowRight", "no ArrowLeft", "button back", "no Home", "no ArrowLeft",
            "button back", "button on",
            "no ArrowRight", "ctrl ArrowRight", "alt ArrowRight", "meta End", "no x", *slides, *named,
            *clicks, *lines,
            "address #step-99999", *named[:1], "address #steps", "no End", "button on"]


def place_after(name: str, at: Any, blocks: Any, script: Any = ()) -> Any:
    """Returns the place that a page is at after a move, by docs/VIEWER.md: at its ends it stays."""
    kind, what = name.split(" ")
    last = len(blocks) - 1
    if kind == "slider":
        return int(what)
    if kind == "chart":
        return round(float(what.split(":")[1]) * last)
    if kind == "line":
        return [number_of(block) for block in blocks].index(step_lines(script).index(int(what)) + 1)
    if kind == "address":
        numbers = [f"#step-{number_of(block)}" for block in blocks]
        return numbers.index(what) if what in numbers else 0
    if kind in ("no", "button"):
        step = {"ArrowLeft": at - 1, "back": at - 1, "ArrowRight": at + 1, "on": at + 1, "Home": 0,
                "End": last}
        return min(last, max(0, step.get(what, at)))
    return at


def notice_of(address: Any, blocks: Any) -> Any:
    """The message for an address that names a step which the page does not have."""
    named = re.fullmatch(r"#step-(\d+)", address)
    numbers = [number_of(block) for block in blocks]
    if not named or int(named[1]) in numbers:
        return []
    return [f"there is no step {named[1]} here: the steps are {numbers[0]} to {numbers[-1]}"]


def wrong_moves(moved: Any, steps: Any, blocks: Any, script: Any = ()) -> Any:
    """Returns what is wrong after each move: another step than the one named, another address, or a key that
    is not taken."""
    at, address, wrong = len(blocks) - 1, steps[-1]["link"], []
    for name, was_taken, was_address, seen in moved:
        kind, what = name.split(" ")
        at = place_after(name, at, blocks, script)
        is_taken = {"no": what in KEYS, "ctrl": False, "alt": False, "meta": False}.get(kind)
        if kind == "address":
            address = what
        elif is_taken is not False:
            address = steps[at]["link"]
        want = {**steps[at], "notice": notice_of(what, blocks) if kind == "address" else []}
        wrong += [f"after {name}: {seen['where']}, not as at step {number_of(blocks[at])}"] * (seen != want)
        wrong += [f"{name} is taken: {was_taken}"] * (was_taken != is_taken)
        wrong += [f"address after {name}: {was_address} where {address} is wanted"] * (was_address != address)
    return wrong


def page_at(block: Block, page: Any) -> Any:
    """All that changes of a page: whether its segment is there, where it is, its slot, and its bits."""
    seg, _ = page
    marks = [line[4] for line in lines_of(block, "frame") if line[2:4] == page]
    slots = [line[1:3] for line in lines_of(block, "slot") if line[3:5] == page]
    return [seg in [it[1] for it in segments_of(block)], where_is(block, page), marks, slots]


def sought(what: Any, block: Any, before: Block) -> Any:
    """Whether a step has what is looked for: a page that came in, a refusal, a changed process or page."""
    kind, *name = what.split(" ")
    if kind == "fault":
        had, has = ({tuple(line[2:4]) for line in lines_of(it, "frame")} for it in (before, block))
        return bool(has - had)
    if kind == "refusal":
        return block[1][0] == "call" and block[1][-1] in REFUSALS
    if kind == "page":
        return page_at(block, name[0].split("·")) != page_at(before, name[0].split("·"))
    was, now = ([[line, [[at, *box, where_is(it, box[0])] for at, box in sorted(boxes_of(pieces).items())]]
                 for line, pieces in pieces_of(it) if line[1] == name[0]] for it in (before, block))
    return [[line, [it[:3] + it[4:] for it in boxes]] for line,
            boxes in was] != [[line, [it[:3] + it[4:] for it in boxes]] for line, boxes in now]


def steps_sought(what: Any, blocks: Any, changed: Any) -> Any:
    """The numbers of the steps that have what the reader looks for; a page also changes if its bytes do."""
    return [number_of(block) for before, block, pages in zip(blocks, blocks[1:], changed[1:])
            if sought(what, block, before) or what in [f"page {page}" for page in pages]]


def all_sought(blocks: Any) -> Any:
    """What the reader can look for in a run: two kinds, each process, and each page in a frame or slot."""
    pages = {(int(line[at]), int(line[at + 1])) for block in blocks for word,
             at in (("frame", 2), ("slot", 3)) for line in lines_of(block, word)}
    return ["fault", "refusal", *(f"process {line[1]}" for line, _ in pieces_of(blocks[0])),
            *(f"page {seg}·{page}" for seg, page in sorted(pages))]
