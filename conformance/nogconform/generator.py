"""Random scripts: calls over several processes, owners and segments. Values are few, so states repeat."""

from __future__ import annotations

import random
from collections.abc import Callable
from typing import TypeVar

USERS = ((0, 0), (100, 100), (100, 200), (200, 100), (300, 300), (400, 200))
MODES = ("600", "640", "644", "660", "666", "400", "200", "440", "000", "606", "060", "460")
KEYS = ("0x10", "0x11", "0x12", "4294967295")
SIZES = (1, 4096, 4097, 8192, 12288, 20480)
BASES = tuple(0x50000000 + 0x1000 * i for i in range(12))
LETTERS = "abc"
T = TypeVar("T")


class Generator:
    """It keeps track of the live processes and of the segments that were asked for, but not of the calls'
    answers. Without mappings it makes no munmap, mprotect and setuid, which a library before 1.1 does not
    count; in half of the scripts with them most calls are an mprotect. With flags it makes the kit's flags: exec
    if it makes no mprotect, because a piece with exec has a right that mprotect takes away; and hugetlb never
    with noreserve, because Linux then makes a segment without pages."""

    def __init__(self, seed: str, has_mappings: bool = True, has_flags: bool = False) -> None:
        self.random = random.Random(seed)
        self.has_mappings = has_mappings
        self.has_ranges = has_mappings and self.one_in(2)
        self.has_flags = has_flags
        self.has_exec = has_flags and self.one_in(2)
        count = self.random.randint(2, 5)
        self.live = list(range(1, count + 1))
        self.unborn = list(range(11, 11 + self.random.randint(0, 4)))
        self.lines = [self.limits()]
        self.roots: set[int] = set()
        for pid in self.live:
            uid, gid = self.random.choice(USERS)
            self.roots |= {pid} if uid == 0 else set()
            self.lines.append(f"process {pid} {uid} {gid}")
        self.lines += [f"child {pid}" for pid in self.unborn]
        self.created = 0
        self.protected: dict[int, tuple[int, int, str]] = {}
        self.holds: dict[int, set[str]] = {pid: set() for pid in self.live}

    def limits(self) -> str:
        pick = self.random.choice
        if self.has_ranges:
            return f"limits 65536 16 64 16 {pick((0, 4, 14))}"
        return (f"limits {pick((8192, 16384, 65536))} {pick((3, 6, 16))} {pick((8, 16, 64))} 16 "
                f"{pick((0, 2, 4, 14))}")

    def one_in(self, number: int) -> bool:
        return self.random.randrange(number) == 0

    def pick(self, *values: T) -> T:
        return self.random.choice(values)

    def identifier(self, pid: int) -> str:
        """Mostly one of the first segments or a variable of the process; seldom a number never given."""
        if self.holds[pid] and self.one_in(3):
            return self.random.choice(sorted(self.holds[pid]))
        return str(self.random.choice((0, 0, 1, 1, 2, 2, 3, 4)) + 32768 * (self.one_in(6) + self.one_in(20)))

    def address(self) -> str:
        if self.one_in(40):
            return hex(self.pick(0x1000, 0xf000, 0x7fffffffd000, 0x7ffffffff000, 0x800000000000,
                                 2 ** 64 - 4096))
        return hex(self.random.choice(BASES) + (self.pick(1, 4095) if self.one_in(12) else 0))

    def place(self) -> str:
        """An address to read or write: near the edges of pages."""
        if self.one_in(60):
            return hex(self.pick(0x0, 0x10000, 2 ** 64 - 4))
        return hex(self.random.choice(BASES) + self.pick(0, 8, 100, 4088, 4092, 4095))

    def user(self) -> int:
        return 4294967295 if self.one_in(40) else self.pick(0, 100, 200, 300)

    def mode(self) -> str:
        odds = 4 if self.has_exec else 25
        return self.pick("700", "711", "755") if self.one_in(odds) else self.random.choice(MODES)

    def make_shmget(self, pid: int) -> str:
        letter = self.random.choice("stu")
        self.holds[pid].add(letter)
        size = self.pick(0, 16385, 2 ** 32, 2 ** 64 - 1) if self.one_in(15) else self.random.choice(SIZES)
        key = "private" if self.one_in(3) else self.random.choice(KEYS)
        flags = self.mode() + self.pick(",creat", ",creat", ",creat", "", ",creat,excl", ",excl")
        if self.has_flags and self.one_in(12):
            flags += self.pick(",hugetlb", ",noreserve", ",noreserve")
        return f"{letter} = shmget {key} {size} {flags}"

    def make_shmat(self, pid: int) -> str:
        flags = [name for name, odds in (("rnd", 5), ("remap", 3), ("rdonly", 3)) if self.one_in(odds)]
        flags += ["exec"] * (self.has_exec and self.one_in(4))
        if self.one_in(6):
            flags = [flag for flag in flags if flag != "remap" or self.one_in(4)]
            return (f"{self.random.choice(LETTERS)} = shmat {self.identifier(pid)} null "
                    f"{','.join(flags) or '-'}")
        return f"shmat {self.identifier(pid)} {self.address_of_attach(pid)} {','.join(flags) or '-'}"

    def address_of_attach(self, pid: int) -> str:
        """Under Linux's rules, attaches of user 0 below the lowest address are the only common difference
        that is left, so it makes fewer."""
        address = self.address()
        is_left = self.has_flags and pid in self.roots and int(address, 16) < 0x10000
        return hex(self.random.choice(BASES)) if is_left and not self.one_in(4) else address

    def make_load(self, _pid: int) -> str:
        if self.one_in(6):
            return f"load {self.random.choice(LETTERS)}+{self.pick(0, 100, 4090)} {self.pick(1, 8, 64)}"
        return f"load {self.place()} {self.pick(1, 2, 8, 16)}"

    def bytes(self, *lengths: int) -> str:
        return "".join("%02x" % self.random.randrange(256) for _ in range(self.pick(*lengths)))

    def make_store(self, _pid: int) -> str:
        data = self.bytes(1, 2, 8)
        return f"store {self.random.choice(LETTERS) if self.one_in(6) else self.place()} {data}"

    def make_cas(self, _pid: int) -> str:
        """Of a lock's byte, which is mostly 0 or 1, or of some bytes that are mostly zeros."""
        if self.one_in(2):
            return f"x = cas {self.random.choice(LETTERS)} {self.pick('00', '01')} {self.pick('00', '01')}"
        new = self.bytes(1, 2, 4, 8)
        return f"x = cas {self.place()} {'00' * (len(new) // 2)} {new}"

    def range(self) -> str:
        """Mostly whole pages near the bases; seldom an end inside a page, or beyond all addresses."""
        if self.one_in(40):
            return f"{self.address()} {self.pick(0, 1, 2 ** 47, 2 ** 64 - 4096, 2 ** 64 - 1, 2 ** 63)}"
        length = 4096 * self.pick(1, 1, 1, 2, 2, 3, 4, 6) - (self.pick(1, 4095) if self.one_in(8) else 0)
        if self.one_in(12):
            return f"{self.random.choice(LETTERS) + self.pick('', '+4096', '+8192')} {length}"
        return f"{self.address()} {length}"

    def make_setuid(self, pid: int) -> str:
        uid, gid = self.random.choice(USERS)
        self.roots = self.roots | {pid} if uid == 0 else self.roots - {pid}
        return f"setuid {uid} {gid}"

    def make_mprotect(self, pid: int) -> str:
        """Often next to the last one and with the same rights, because borders move there."""
        if pid not in self.protected or self.one_in(3):
            self.protected[pid] = self.random.choice(BASES), self.pick(1, 1, 2, 3), self.pick("ro", "ro", "rw")
            return f"mprotect {self.range()} {self.pick('ro', 'rw')}"
        base, pages, rights = self.protected[pid]
        count = self.pick(1, 1, 2)
        base = base + 4096 * pages if self.one_in(2) else base - 4096 * count
        self.protected[pid] = base, count, rights
        return f"mprotect {base:#x} {4096 * count} {rights}"

    def make_process_event(self, pid: int) -> str:
        if self.unborn and not self.one_in(3):
            child = self.unborn.pop(0)
            self.live.append(child)
            self.holds[child] = set()
            self.roots |= {child} if pid in self.roots else set()
            return f"fork {child}"
        if len(self.live) > 2 and self.one_in(3):
            self.live.remove(pid)
            return "exit"
        return "exec"

    def command(self) -> str:
        """A call, of which the process is chosen too. Each has its weight."""
        calls: list[tuple[Callable[[int], str], int]] = [
            (self.make_shmget, 12), (self.make_shmat, 20),
            (lambda _: f"shmdt {self.random.choice(LETTERS) if self.one_in(5) else self.address()}", 12),
            (lambda pid: f"stat {self.identifier(pid)}", 16),
            (lambda pid: f"set {self.identifier(pid)} {self.user()} {self.user()} {self.mode()}", 5),
            (lambda pid: f"rmid {self.identifier(pid)}", 5),
            (lambda pid: f"{self.pick('lock', 'lock', 'unlock')} {self.identifier(pid)}", 5),
            (self.make_load, 10), (self.make_store, 10),
            (lambda _: f"x = xadd {self.place()} {self.pick(1, 255, 2 ** 64 - 1)}", 3),
            (lambda _: f"x = swap {self.place()} {self.bytes(1, 2, 4, 8)}", 2),
            (self.make_cas, 3), (self.make_process_event, 2)]
        calls += [(lambda _: f"munmap {self.range()}", 5), (self.make_setuid, 2)] if self.has_mappings else []
        often = 40 if self.has_ranges else 5
        calls += [(self.make_mprotect, often)] if self.has_mappings and not self.has_exec else []
        make = self.random.choices([it for it, _ in calls], [weight for _, weight in calls])[0]
        pid = self.random.choice(self.live)
        return f"{pid} {make(pid)}"

    def opening(self) -> None:
        """A few segments, attached next to each other; with many mprotects also one that can be split."""
        if self.has_ranges:
            self.lines.append(f"{self.live[0]} shmget private 24576 666")
            self.lines += [f"{pid} shmat 0 {self.random.choice(BASES[:7]):#x} -" for pid in self.live]
        for _ in range(self.random.randint(2, 4)):
            pid = self.random.choice(self.live)
            size = self.random.choice(SIZES)
            self.lines.append(f"{pid} shmget private {size} {self.pick('666', '660', '644', '600')}")
        for pid in self.live:
            for _ in range(3):
                self.lines.append(f"{pid} shmat {self.random.randrange(3)} "
                                  f"{hex(self.random.choice(BASES))} -")

    def script(self) -> str:
        self.opening()
        for _ in range(self.random.randint(40, 120)):
            self.lines.append(self.command())
            pid, word, *_rest = self.lines[-1].split()
            if word in ("munmap", "mprotect") and self.one_in(2):
                self.lines.append(f"{pid} stat {self.identifier(int(pid))}")
        return "\n".join(self.lines) + "\n"


def make_script(seed: str, number: int, has_mappings: bool = True, has_flags: bool = False) -> str:
    """The script with this number of this seed; it is the same at each run."""
    return Generator(f"{seed}/{number}", has_mappings, has_flags).script()
