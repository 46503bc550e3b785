"""The clock hand's way in each step of all stored scripts, against frames, bits and hand around it."""

from __future__ import annotations

from typing import Any

from record import read_record, turns
from viewer.expected import Block, lines_of, reached_frames, read_blocks, segments_of

FEWEST_TURNS = 800


def state_of(block: Block) -> Any:
    """Returns how many frames there are, where the hand is, and the page and the referenced bit of each owned
    frame."""
    [[_, count, _, hand]] = lines_of(block, "frames")
    return int(count), int(hand), {int(line[1]): (line[2:4], line[4][0] == "r")
                                   for line in lines_of(block, "frame")}


def wrong_way(before: Any, after: Any, found: Any) -> Any:
    """What is wrong with the turns of a step. They follow each other from the hand before to the hand after.
    The hand clears the bits of the frames that it passes, except those of locked segments and the pinned one.
    It stops at the first other frame whose bit is clear, and no other bit becomes clear."""
    count, at, frames = state_of(before)
    _, hand, now = state_of(after)
    locked = {it[1] for it in segments_of(before) if "locked" in it[6].split(",")}
    wrong, cleared, stops = [], set(), set()
    for index, (start, passed, pinned) in enumerate(found):
        over = {frame for frame, (page, _) in frames.items() if page[0] in locked} | {pinned}
        way = [(start + step) % count for step in range(passed)]
        stop = (start + passed) % count
        wrong += [f"it begins at {start}, not at {at}"] * (start != at)
        wrong += [f"it stops at frame {stop}, which it may not take"] * (stop in over)
        if index == 0:
            clear = [frame for frame in way[:count] if frame not in over and not frames[frame][1]]
            wrong += [f"it passes {clear}, whose bits are clear"] * bool(clear)
            wrong += [f"it stops at frame {stop}, whose bit is set"] * (passed < count and frames[stop][1])
        cleared |= {*way} - over
        stops.add(stop)
        at = (stop + 1) % count
    wrong += [f"it is then at {at}, not at {hand}"] * (at != hand)
    named = {int(frame) for frame in reached_frames(after)}
    for frame, (page, was_set) in frames.items():
        if frame not in named and now.get(frame, ("", False))[0] == page:
            is_right = now[frame][1] == (was_set and frame not in cleared)
            wrong += [f"the bit of frame {frame} is {now[frame][1]}"] * (not is_right)
    return wrong


def check_hand(records: Any) -> None:
    """The records are those of the stored scripts, by name."""
    total = 0
    for name, record in records:
        blocks, steps, wrong = read_blocks(record), read_record(record), []
        for before, after, one, other in zip(blocks, blocks[1:], steps, steps[1:]):
            found = turns(one, other)
            total += len(found)
            wrong += [f"step {other.number}: {it}" for it in wrong_way(before, after, found)]
        assert not wrong
    assert total >= FEWEST_TURNS
