"""The segments and attachments of a trace: where each is in the process, and in the script's machine."""

from __future__ import annotations

from dataclasses import dataclass, field, replace

PAGE = 4096
FIRST_CHOSEN = 0x40000000       # the machine's first address if the caller names none
LAST = 0x7ffffffff000
# an identifier of the machine is its index, plus this times the number of earlier uses of the index
INDEXES = 32768
NEVER_ISSUED = 2147483647


def pages_of(size: int) -> int:
    return -(-size // PAGE)


@dataclass
class Segment:
    identifier: int             # of the trace
    number: int                 # of the machine, in the order of the trace
    key: int
    size: int                   # of the script
    real_size: int
    is_marked: bool = False
    out: str = ""               # why it is left out of the script
    pieces: int = 0
    made_key: int = 0
    is_touched: bool = False    # by calls that the script does not have


@dataclass
class Attach:
    """One shmat that succeeded."""

    segment: Segment
    address: int                # of the trace
    number: int                 # of the machine
    is_literal: bool            # whether the script gives the machine its address
    stays: bool = False         # a child does not inherit it (MADV_DONTFORK)


@dataclass(frozen=True)
class Piece:
    attach: Attach
    first: int                  # bytes from the origin of the attach to where it begins
    end: int                    # and to where it ends
    is_writable: bool = True

    @property
    def start(self) -> int:
        return self.attach.address + self.first

    @property
    def stop(self) -> int:
        return self.attach.address + self.end

    @property
    def machine_start(self) -> int:
        return self.attach.number + self.first

    @property
    def machine_stop(self) -> int:
        """A segment may be smaller in the script."""
        most = pages_of(self.attach.segment.size) * PAGE
        return self.attach.number + min(self.end, max(most, self.first))


def without(piece: Piece, start: int, stop: int) -> list[Piece]:
    """The parts of a piece outside of a range of the trace."""
    if piece.stop <= start or stop <= piece.start:
        return [piece]
    parts = []
    if piece.start < start:
        parts.append(replace(piece, end=start - piece.attach.address))
    if stop < piece.stop:
        parts.append(replace(piece, first=stop - piece.attach.address))
    return parts


def covering(pieces: list[Piece], address: int) -> Piece | None:
    return next((it for it in pieces if it.start <= address < it.stop), None)


def protected(pieces: list[Piece], start: int, stop: int, is_writable: bool) -> list[Piece]:
    """The pieces after an mprotect of a range of the trace, by the rule of docs/MACHINE.md: a part joins a
    neighbour of the same attachment that has the protection, and a whole piece joins none."""
    def has(it: Piece | None, piece: Piece) -> bool:
        return it is not None and it.attach is piece.attach and it.is_writable == is_writable
    for piece in sorted(pieces, key=lambda it: it.start):
        low, high = max(start, piece.start), min(stop, piece.stop)
        if low >= high or piece.is_writable == is_writable:
            continue
        below, above = covering(pieces, low - 1), covering(pieces, high)
        if low == piece.start and high < piece.stop and below and has(below, piece):
            low = below.start
        if piece.start < low and high == piece.stop and above and has(above, piece):
            high = above.stop
        origin = piece.attach.address
        pieces = [part for it in pieces for part in without(it, low, high)]
        pieces.append(Piece(piece.attach, low - origin, high - origin, is_writable))
    return pieces


@dataclass
class Memory:
    """The segments, in the order of the trace."""

    live: dict[int, Segment] = field(default_factory=dict)        # by identifier
    gone: dict[int, Segment] = field(default_factory=dict)        # the last segment that had an identifier
    indexes: set[int] = field(default_factory=set)       # those that a segment holds
    lives: dict[int, int] = field(default_factory=dict)       # how many segments each index had
    pages: int = 0
    most_pages: int = 0
    most_segments: int = 0
    most_pieces: int = 0        # of one process
    created: int = 0
    # of attachments, since they were last read
    changes: list[tuple[Segment, int]] = field(default_factory=list)

    def create(self, identifier: int, key: int, size: int, real_size: int, out: str) -> Segment:
        if identifier in self.live:
            self.destroy(self.live[identifier])
        number = NEVER_ISSUED
        if not out:
            index = next(it for it in range(INDEXES) if it not in self.indexes)
            self.indexes.add(index)
            number = index + INDEXES * self.lives.get(index, 0)
            self.created += 1
            self.pages += pages_of(size)
            self.most_pages = max(self.most_pages, self.pages)
        segment = Segment(identifier, number, key, size, real_size, out=out, made_key=key)
        self.live[identifier] = segment
        self.most_segments = max(self.most_segments, len(self.indexes))
        return segment

    def destroy(self, segment: Segment) -> None:
        if self.live.get(segment.identifier) is not segment:
            return
        del self.live[segment.identifier]
        self.gone[segment.identifier] = segment
        if not segment.out:
            index = segment.number % INDEXES
            self.indexes.discard(index)
            self.lives[index] = self.lives.get(index, 0) + 1
            self.pages -= pages_of(segment.size)

    def remove(self, segment: Segment) -> None:
        segment.is_marked = True
        segment.key = 0
        self.destroy_unattached(segment)

    def take_changes(self) -> list[tuple[Segment, int]]:
        changes, self.changes = self.changes, []
        return [(segment, change) for segment, change in changes if not segment.out]

    def keep_rises(self) -> None:
        """Of the changes of an mprotect only that a segment has more pieces: no piece is detached."""
        rises = {id(segment): segment for segment, _ in self.changes}
        counts = {name: sum(it for segment, it in self.changes if id(segment) == name) for name in rises}
        self.changes = [(segment, counts[name]) for name, segment in rises.items() if counts[name] > 0]

    def destroy_unattached(self, segment: Segment) -> None:
        if segment.is_marked and segment.pieces == 0:
            self.destroy(segment)

    def known(self, identifier: int) -> Segment | None:
        """The segment of an identifier, also a destroyed one: a call that overlaps its end may come first."""
        return self.live.get(identifier) or self.gone.get(identifier)

    def had_key(self, key: int) -> bool:
        return any(it.made_key == key != 0 for it in (*self.live.values(), *self.gone.values()))

    def by_key(self, key: int) -> Segment | None:
        return next((it for it in self.live.values() if it.key == key and key != 0), None)

    def put(self, process: Process, pieces: list[Piece]) -> None:
        """Replaces the pieces of a process."""
        before = process.pieces
        process.pieces = pieces
        self.most_pieces = max(self.most_pieces, sum(not it.attach.segment.out for it in pieces))
        kept = {id(it) for it in before} & {id(it) for it in pieces}
        self.changes += [(it.attach.segment, 1) for it in pieces if id(it) not in kept]
        self.changes += [(it.attach.segment, -1) for it in before if id(it) not in kept]
        for piece in pieces:
            piece.attach.segment.pieces += 1
        for piece in before:
            piece.attach.segment.pieces -= 1
        for piece in before:
            self.destroy_unattached(piece.attach.segment)


@dataclass
class Process:
    name: str                   # of its first thread
    pid: int
    pieces: list[Piece] = field(default_factory=list)
    threads: set[str] = field(default_factory=set)
    program: str = ""
    # the effective user and group; None: those with which all processes begin
    user: tuple[int | None, int | None] = (None, None)

    def at(self, start: int, stop: int) -> Piece | None:
        """The first piece in a range of the trace."""
        inside = [it for it in self.pieces if it.start < stop and start < it.stop]
        return min(inside, key=lambda it: it.start) if inside else None

    def of_origin(self, address: int) -> list[Piece]:
        return [it for it in self.pieces if it.attach.address == address]

    def gap(self, size: int) -> int:
        """The address at which the machine attaches that many bytes if it may choose."""
        start = FIRST_CHOSEN
        for piece in sorted(self.pieces, key=lambda it: it.machine_start):
            if piece.attach.segment.out or piece.machine_stop <= start:
                continue
            if start + size <= piece.machine_start:
                break
            start = max(start, piece.machine_stop)
        return start
