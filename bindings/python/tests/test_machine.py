"""Calls of a machine. Each wanted value is that of a rule of docs/MACHINE.md."""

from __future__ import annotations

import copy
import ctypes
import errno
import gc
import re
import threading
from collections.abc import Callable, Iterator
from dataclasses import replace
from pathlib import Path
from typing import Any, TypeVar, cast

import pytest

import nogcuvema
from nogcuvema import (PRIVATE, Area, BadOpening, BusError, ClosedMachine, Failure, Flag, Flushed, Frame,
                       Incomplete, Lent, Limits, Machine,
                       NotAdmitted, NotDismissed, OutOfRange, Piece, Process, ProcessEntry, Refused, Rules,
                       SegmentationFault, SegmentPages, ShownPage, State, Usage, child)
from nogcuvema import _library as low

FIRST = 0x40000000
PAGE = 4096
HEADER = Path(__file__).resolve().parents[2] / "c" / "nogcuvema.h"
PEOPLE = [Process(1, 100, 100), Process(2, 200, 200), child(3), Process(4, 0, 0)]


Fault = TypeVar("Fault", bound=Exception)


def opened(**more: Any) -> Machine:
    return Machine(more.pop("limits", Limits()), more.pop("areas", [Area.ram(64)]),
                   more.pop("processes", PEOPLE), **more)


def assert_refused(code: int, call: Callable[..., object], *operands: object,
                   kind: type[OSError] = OSError) -> None:
    error = pytest.raises(kind, call, *operands).value
    assert isinstance(error, Refused)
    assert (error.errno, error.name) == (code, errno.errorcode[code])


def refusals(kind: type[Fault], *calls: tuple[Any, ...]) -> list[Fault]:
    """The errors of calls, each with its operands."""
    return [pytest.raises(kind, call, *operands).value for call, *operands in calls]


@pytest.fixture
def machine() -> Iterator[Machine]:
    with opened() as it:
        yield it


class TestCalls:

    def test_bytes_over_the_seam_of_two_pages(self, machine: Machine) -> None:
        at = machine.attach(1, machine.get(1, PRIVATE, 2 * PAGE))
        assert at == FIRST
        machine.store(1, at + PAGE - 2, b"\1\2\3\4")
        assert machine.load(1, at + PAGE - 3, 6) == b"\0\1\2\3\4\0"

    def test_identifiers_are_never_used_twice(self, machine: Machine) -> None:
        first = machine.get(1, PRIVATE, 1)
        machine.remove(1, first)
        assert machine.get(1, PRIVATE, 1) == first + 32768
        assert_refused(errno.EIDRM, machine.stat, 1, first)
        assert_refused(errno.EINVAL, machine.stat, 1, 9)
        assert_refused(errno.EINVAL, machine.stat, 1, -1)

    def test_each_errno_has_the_class_that_python_has_for_it(self, machine: Machine) -> None:
        segment = machine.get(1, 7, PAGE, 0o600, Flag.CREAT)
        assert_refused(errno.EACCES, machine.attach, 2, segment, kind=PermissionError)
        assert_refused(errno.EPERM, machine.remove, 2, segment, kind=PermissionError)
        assert_refused(errno.ENOENT, machine.get, 1, 8, PAGE, kind=FileNotFoundError)
        assert_refused(errno.EEXIST, machine.get, 1, 7, PAGE, 0o600, Flag.CREAT | Flag.EXCL,
                       kind=FileExistsError)
        assert_refused(errno.ESRCH, machine.exec, 9, kind=ProcessLookupError)
        assert_refused(errno.EAGAIN, machine.fork, 1, 2, kind=BlockingIOError)
        assert_refused(errno.EINVAL, machine.get, 1, PRIVATE, 0)
        assert_refused(errno.EINVAL, machine.attach, 1, segment, FIRST + 1)

    def test_no_space_and_no_memory(self, machine: Machine) -> None:
        with opened(limits=Limits(shmmax=65536, shmmni=16, shmall=4), areas=[Area.ram(2)]) as it:
            assert_refused(errno.ENOSPC, it.get, 1, PRIVATE, 5 * PAGE)
            assert_refused(errno.ENOMEM, it.get, 1, PRIVATE, 3 * PAGE)

    def test_signals_have_classes_of_their_own(self, machine: Machine) -> None:
        at = machine.attach(1, machine.get(1, PRIVATE, PAGE), flags=Flag.RDONLY)
        for error in refusals(SegmentationFault, (machine.store, 1, at, b"x"), (machine.add, 1, at, 1),
                              (machine.load, 1, at + PAGE - 1, 2), (machine.load, 1, 0, 1)):
            assert (error.name, isinstance(error, OSError)) == ("SIGSEGV", False)

    def test_what_stat_shows(self, machine: Machine) -> None:
        segment = machine.get(1, 7, PAGE + 1, 0o640, Flag.CREAT)
        at = machine.attach(1, segment)
        machine.set(1, segment, 300, 400, 0o777)
        it = machine.stat(1, segment)
        wanted = {"id": segment, "key": 7, "size": PAGE + 1, "uid": 300, "gid": 400, "cuid": 100, "cgid": 100,
                  "mode": 0o777, "is_marked": False, "is_locked": False, "cpid": 1, "lpid": 1, "nattch": 1,
                  "atime": 2, "dtime": 0, "ctime": 3, "index": 0}
        assert vars(it) == wanted
        machine.lock(4, machine.get(1, PRIVATE, PAGE))
        machine.remove(4, segment)
        both = machine.segments()
        assert [(s.is_marked, s.is_locked, s.key) for s in both] == [(True, False, 0), (False, True, 0)]
        machine.detach(1, at)
        assert [s.is_locked for s in machine.segments()] == [True]

    def test_add_counts_modulo_2_to_the_64(self, machine: Machine) -> None:
        at = machine.attach(1, machine.get(1, PRIVATE, PAGE))
        assert machine.add(1, at + 3, 2 ** 64 - 1) == 0
        assert machine.add(1, at + 3, 2) == 2 ** 64 - 1
        assert machine.load(1, at + 3, 8) == b"\1" + bytes(7)

    def test_fork_exec_and_exit(self, machine: Machine) -> None:
        segment = machine.get(1, PRIVATE, PAGE)
        at = machine.attach(1, segment)
        machine.fork(1, 3)
        machine.store(3, at, b"c")
        assert machine.load(1, at, 1) == b"c"
        assert machine.stat(1, segment).nattch == 2
        machine.exec(3)
        assert machine.stat(1, segment).nattch == 1
        machine.exit(3)
        assert_refused(errno.ESRCH, machine.exec, 3)

    def test_bytes_like_objects(self, machine: Machine) -> None:
        at = machine.attach(1, machine.get(1, PRIVATE, 2 * PAGE))
        for data in (b"\1\2", bytearray(b"\3\4"), memoryview(b"-\5\6-")[1:3], memoryview(b"\7-\x08-")[::2]):
            machine.store(1, at, data)
            assert machine.load(1, at, 2) == bytes(data)
            assert machine.write(1, at + 100, data) == 2
            assert machine.read(1, at + 100, 2) == bytes(data)
        into = bytearray(5)
        machine.write(1, at, bytes(range(200)))
        assert machine.read_into(1, at + 10, memoryview(into)[1:4]) == 3
        assert into == b"\0\x0a\x0b\x0c\0"
        assert machine.read(1, at, 0) == b""
        assert machine.write(1, at, b"") == 0

    def test_a_read_or_write_that_leaves_the_attachment(self, machine: Machine) -> None:
        at = machine.attach(1, machine.get(1, PRIVATE, PAGE))
        machine.store(1, at + PAGE - 64, b"e" * 64)
        with pytest.raises(Incomplete) as caught:
            machine.read(1, at + PAGE - 64, 65)
        assert (caught.value.done, caught.value.data) == (64, b"e" * 64)
        assert isinstance(caught.value.__cause__, SegmentationFault)
        assert pytest.raises(Incomplete, machine.write, 1, at + PAGE - 64, b"w" * 100).value.done == 64
        assert machine.load(1, at + PAGE - 64, 64) == b"w" * 64
        with pytest.raises(Incomplete) as caught:
            machine.read(1, at + PAGE - 1, 2)
        assert (caught.value.done, caught.value.data) == (1, b"w")
        pytest.raises(SegmentationFault, machine.read, 1, at + PAGE, 2)

    def test_a_number_is_named_with_its_range(self, machine: Machine) -> None:
        at = machine.attach(1, machine.get(1, PRIVATE, PAGE))
        before, it = machine.calls(), machine
        rows: tuple[tuple[Any, ...], ...] = (
                (it.get, (1, 0, 1, 0o1000), "mode 0o1000 is not from 0o0 to 0o777"),
                (it.get, (1, 0, 1, 0o600, 65536), "flags 65536 is not from 0 to 65535"),
                (it.get, (1, 0, 1, 65536), "mode 0o200000 is not from 0o0 to 0o777"),
                (it.get, (1, -1, 1), "key -1 is not from 0 to 4294967295"),
                (it.get, (1, 2 ** 32, 1), "key 4294967296 is not from 0 to 4294967295"),
                (it.get, (1, 0, -1), "size -1 is not from 0 to 18446744073709551615"),
                (it.get, (1, 0, 2 ** 64), "size 18446744073709551616 is not from 0 to 18446744073709551615"),
                (it.get, (-1, 0, 1), "pid -1 is not from 1 to 2147483647"),
                (it.get, (2 ** 32 + 1, 0, 1), "pid 4294967297 is not from 1 to 2147483647"),
                (it.attach, (1, 2 ** 31), "segment 2147483648 is not from -2147483648 to 2147483647"),
                (it.attach, (1, 0, -1), "addr -1 is not from 0 to 18446744073709551615"),
                (it.attach, (1, 0, 0, 65536), "flags 65536 is not from 0 to 65535"),
                (it.set, (1, 0, 0, 0, 65536), "mode 0o200000 is not from 0o0 to 0o177777"),
                (it.set, (1, 0, 0, 2 ** 32, 0), "gid 4294967296 is not from 0 to 4294967295"),
                (it.load, (1, at, 0), "length 0 is not from 1 to 64"),
                (it.load, (1, at, 65), "length 65 is not from 1 to 64"),
                (it.load, (1, at, 2 ** 64 - 1), "length 18446744073709551615 is not from 1 to 64"),
                (it.load, (1, -1, 1), "addr -1 is not from 0 to 18446744073709551615"),
                (it.store, (1, at, b""), "the length of data 0 is not from 1 to 64"),
                (it.store, (1, at, bytes(65)), "the length of data 65 is not from 1 to 64"),
                (it.exchange, (1, at, bytes(65)), "the length of data 65 is not from 1 to 64"),
                (it.compare_exchange, (1, at, b"ab", b"abc"),
                 "the length of expected 2 is not that of data, 3"),
                (it.add, (1, at, -1), "number -1 is not from 0 to 18446744073709551615"),
                (it.fork, (1, -2), "new -2 is not from 1 to 2147483647"),
                (it.swapoff, (1, -1), "area -1 is not from 0 to 4294967295"),
                (it.copy, (1, at, -1, at, 1), "to -1 is not from 1 to 2147483647"),
                (it.flush, (-1,), "pages -1 is not from 0 to 18446744073709551615"),
                (it.set_time, (-1,), "time -1 is not from 0 to 18446744073709551615"),
                (it.read, (1, at, 2 ** 63),
                 "length 9223372036854775808 is not from 0 to 9223372036854775807"))
        for call, operands, told in rows:
            error = pytest.raises(OutOfRange, call, *operands).value
            assert (str(error), isinstance(error, ValueError)) == ("nogcuvema: " + told, True)
        assert machine.calls() == before

    def test_processes_that_are_not_admitted(self) -> None:
        with opened(processes=[Process(n + 1) for n in range(64)]) as it:
            for pid, told in ((0, "a pid out of range: pid 0 is not from 1 to 2147483647"),
                              (1, "a pid that is taken: pid 1"),
                              (65, "too many processes: there are 64 already")):
                error = pytest.raises(NotAdmitted, it.admit, Process(pid)).value
                assert str(error) == "nog_admit: admission refused: " + told

    def test_wrong_types_are_named(self, machine: Machine) -> None:
        at = machine.attach(1, machine.get(1, PRIVATE, PAGE))
        before, it = machine.calls(), machine
        rows: tuple[tuple[Any, ...], ...] = (
                (it.get, ("1", 0, 1), "pid: a whole number is wanted, not str"),
                (it.get, (1.5, 0, 1), "pid: a whole number is wanted, not float"),
                (it.get, (1, None, 1), "key: a whole number is wanted, not NoneType"),
                (it.get, (1, 0, 1, "600"), "mode: a whole number is wanted, not str"),
                (it.attach, (1, "s"), "segment: a whole number is wanted, not str"),
                (it.attach, (1, 0, ""), "addr: a whole number is wanted, not str"),
                (it.attach, (1, 0, 0, "rnd"), "flags: a whole number is wanted, not str"),
                (it.detach, (1, None), "addr: a whole number is wanted, not NoneType"),
                (it.load, (1, at, "4"), "length: a whole number is wanted, not str"),
                (it.store, (1, at, 5), "data: a bytes-like object is wanted, not int"),
                (it.store, (1, at, "ab"), "data: a bytes-like object is wanted, not str"),
                (it.store, (1, at, [1, 2]), "data: a bytes-like object is wanted, not list"),
                (it.exchange, (1, at, 5), "data: a bytes-like object is wanted, not int"),
                (it.compare_exchange, (1, at, 2, b"ab"), "expected: a bytes-like object is wanted, not int"),
                (it.write, (1, at, 5), "data: a bytes-like object is wanted, not int"),
                (it.read, (1, at, None), "length: a whole number is wanted, not NoneType"),
                (it.read_into, (1, at, "ab"), "buffer: a bytes-like object in one piece is wanted, not str"),
                (it.read_into, (1, at, b"ab"),
                 "buffer: a bytes-like object that can be written is wanted, not bytes"),
                (it.protect, (1, at, PAGE, "no"), "is_writable: True or False is wanted, not str"),
                (it.failed_at, (1, at, 1, "no"), "is_write: True or False is wanted, not str"),
                (it.fork, (1, "2"), "new: a whole number is wanted, not str"),
                (it.admit, (7,), "process: a Process is wanted, not int"),
                (it.set_user, (1, "root", 0), "uid: a whole number is wanted, not str"),
                (it.swapoff, (1, "0"), "area: a whole number is wanted, not str"),
                (it.stat_at, (1, "0"), "index: a whole number is wanted, not str"),
                (it.set_time, (1.0,), "time: a whole number is wanted, not float"))
        for call, operands, told in rows:
            assert str(pytest.raises(TypeError, call, *operands).value) == told
        assert it.calls() == before

    def test_counts(self, machine: Machine) -> None:
        at = machine.attach(1, machine.get(1, PRIVATE, 2 * PAGE))
        machine.store(1, at, b"x")
        it = machine.tally()
        assert (it.events, it.segments, it.reserved, it.resident, it.dirty) == (3, 1, 2, 1, 1)
        assert (it.slots, it.frames) == (64, 16)
        assert machine.flush(8) == Flushed(1, 0)
        assert (machine.tally().dirty, machine.tally().outs) == (0, 1)


class TestSwap:
    def test_a_read_of_the_area_that_fails(self) -> None:
        with opened(limits=Limits(frames=2, memlock=0), areas=[Area.ram(64, [Failure(1)])]) as it:
            at = it.attach(1, it.get(1, PRIVATE, 3 * PAGE))
            it.store(1, at, b"\x2a")
            it.load(1, at + PAGE, 1), it.load(1, at + 2 * PAGE, 1)
            assert pytest.raises(BusError, it.load, 1, at, 1).value.name == "SIGBUS"
            assert it.load(1, at, 1) == b"\x2a"
            assert it.tally().failures == 1

    def test_a_write_of_the_area_that_fails(self) -> None:
        with opened(areas=[Area.sparse(64, [Failure(1, is_write=True)])]) as it:
            at = it.attach(1, it.get(1, PRIVATE, PAGE))
            it.store(1, at, b"\x2a")
            assert it.flush(1) == Flushed(0, 1)
            assert it.tally().dirty == 1
            assert it.flush(1) == Flushed(1, 0)
            assert it.load(1, at, 1) == b"\x2a"

    def test_a_swapoff_whose_read_fails(self) -> None:
        areas = [Area.ram(8, [Failure(1)]), Area.ram(64)]
        with opened(limits=Limits(frames=2, memlock=0), areas=areas) as it:
            at = it.attach(1, it.get(1, PRIVATE, 3 * PAGE))
            it.store(1, at, b"\x2a")
            it.load(1, at + PAGE, 1), it.load(1, at + 2 * PAGE, 1)
            assert pytest.raises(OSError, it.swapoff, 4, 0).value.errno == errno.EIO
            it.swapoff(4, 0)
            assert it.load(1, at, 1) == b"\x2a"

    def test_an_area_is_taken_away(self) -> None:
        with opened(areas=[Area.ram(4), Area.mirror(8)], limits=Limits(shmall=8)) as it:
            assert it.tally().slots == 12
            pytest.raises(PermissionError, it.swapoff, 1, 0)
            it.swapoff(4, 0)
            assert it.tally().slots == 8
            assert pytest.raises(OSError, it.swapoff, 4, 0).value.errno == errno.EINVAL


class TestGuests:
    def test_processes_come_and_go(self) -> None:
        with opened(processes=[Process(1, 7, 8)]) as it:
            pytest.raises(NotDismissed, it.dismiss, 1)
            pytest.raises(NotDismissed, it.dismiss, 2)
            for bad in (Process(0), Process(2 ** 31), Process(1)):
                pytest.raises(NotAdmitted, it.admit, bad)
            it.admit(child(2))
            it.fork(1, 2)
            it.exit(2)
            it.dismiss(2)
            pytest.raises(BlockingIOError, it.fork, 1, 2)
            it.admit(Process(2, 3, 4))
            found = it.stat(2, it.get(2, PRIVATE, 1))
            assert (found.uid, found.gid, found.cpid) == (3, 4, 2)

    def test_a_range_is_reserved(self, machine: Machine) -> None:
        segment = machine.get(1, PRIVATE, 2 * PAGE)
        machine.reserve(1, FIRST + PAGE, PAGE)
        assert machine.attach(1, segment) == FIRST + 2 * PAGE
        assert_refused(errno.EINVAL, machine.attach, 1, segment, FIRST + PAGE)
        assert machine.attach(1, segment, FIRST, Flag.REMAP) == FIRST
        for addr in FIRST + PAGE, FIRST + 3 * PAGE:
            assert_refused(errno.EEXIST, machine.reserve, 1, addr, PAGE)
        machine.reserve(3, FIRST + PAGE, PAGE)
        for addr, length in ((FIRST, 0), (FIRST + 1, PAGE), (0, PAGE), (FIRST, 2 ** 64 - PAGE)):
            pytest.raises(OutOfRange, machine.reserve, 1, addr, length)
        assert_refused(errno.ENOENT, machine.release, 1, FIRST + PAGE, 2 * PAGE)
        machine.release(1, FIRST + PAGE, PAGE)
        assert_refused(errno.ENOENT, machine.release, 1, FIRST + PAGE, PAGE)
        machine.detach(1, FIRST)
        assert machine.attach(1, segment) == FIRST

    def test_a_user_changes(self) -> None:
        with opened(processes=[Process(1, 7, 8), Process(2, 9, 9)]) as it:
            segment = it.get(1, PRIVATE, 1, 0o600)
            pytest.raises(PermissionError, it.stat, 2, segment)
            it.set_user(2, 7, 9)
            assert it.stat(2, segment).uid == 7
            pytest.raises(ProcessLookupError, it.set_user, 3, 7, 9)

    def test_the_time_is_given(self) -> None:
        with opened(processes=[Process(1)]) as it:
            segment = it.get(1, PRIVATE, 1)
            it.set_time(1700000000)
            it.attach(1, segment)
            found = it.stat(1, segment)
            assert (found.ctime, found.atime) == (1, 1700000000)


class TestMappings:
    """Ranges that are unmapped and protected, and what reads the machine."""

    @pytest.fixture(autouse=True)
    def attach(self, machine: Machine) -> None:
        self.segment = machine.get(1, PRIVATE, 8 * PAGE)
        self.at = machine.attach(1, self.segment)

    def pieces(self, machine: Machine) -> list[tuple[int, int, int, bool]]:
        return [(it.base - self.at, it.first_page, it.pages, it.is_writable) for it in machine.pieces(1)]

    def test_unmap_cuts_a_piece(self, machine: Machine) -> None:
        machine.set_time(500)
        machine.unmap(1, self.at + 2 * PAGE, PAGE + 1)
        assert self.pieces(machine) == [(0, 0, 2, True), (4 * PAGE, 4, 4, True)]
        it = machine.stat(1, self.segment)
        assert (it.nattch, it.dtime, it.lpid) == (2, 500, 1)
        pytest.raises(SegmentationFault, machine.load, 1, self.at + 2 * PAGE, 1)
        assert_refused(errno.EINVAL, machine.unmap, 1, self.at + 1, PAGE)
        assert_refused(errno.EINVAL, machine.unmap, 1, self.at, 0)
        assert_refused(errno.ESRCH, machine.unmap, 3, self.at, PAGE)
        machine.remove(1, self.segment)
        machine.unmap(1, self.at, 8 * PAGE)
        assert machine.segments() == []

    def test_protect_makes_a_range_read_only(self, machine: Machine) -> None:
        machine.protect(1, self.at + PAGE, 2 * PAGE, False)
        assert self.pieces(machine) == [(0, 0, 1, True), (PAGE, 1, 2, False), (3 * PAGE, 3, 5, True)]
        assert machine.stat(1, self.segment).nattch == 3
        pytest.raises(SegmentationFault, machine.store, 1, self.at + PAGE, b"x")
        machine.protect(1, self.at + PAGE, PAGE, True)
        machine.store(1, self.at + PAGE, b"x")
        assert_refused(errno.ENOMEM, machine.protect, 1, self.at, 9 * PAGE, False)
        assert {it[3] for it in self.pieces(machine)} == {False}
        other = machine.attach(1, self.segment, flags=Flag.RDONLY)
        assert_refused(errno.EACCES, machine.protect, 1, other, PAGE, True)
        assert_refused(errno.EINVAL, machine.protect, 1, other + 1, PAGE, True)
        assert_refused(errno.ESRCH, machine.protect, 9, other, PAGE, True)
        machine.protect(1, other, 0, True)

    def test_pieces_are_those_of_proc_maps(self, machine: Machine) -> None:
        other = machine.attach(1, self.segment, 0x20000, Flag.RDONLY)
        machine.protect(1, self.at, PAGE, False)
        assert machine.pieces(1) == [Piece(other, self.segment, 0, 8, False, False),
                                     Piece(self.at, self.segment, 0, 1, False, True),
                                     Piece(self.at + PAGE, self.segment, 1, 7, True, True)]
        assert machine.pieces(2) == []
        assert_refused(errno.ESRCH, machine.pieces, 3)

    def test_processes(self, machine: Machine) -> None:
        machine.fork(1, 3)
        machine.exit(2)
        machine.admit(child(7))
        live, ended, unborn = State.LIVE, State.ENDED, State.UNBORN
        assert machine.processes() == [ProcessEntry(1, live, 100, 100), ProcessEntry(2, ended, 0, 0),
                                       ProcessEntry(3, live, 100, 100), ProcessEntry(4, live, 0, 0),
                                       ProcessEntry(7, unborn, 0, 0)]

    def test_sums_and_what_a_process_may_see(self, machine: Machine) -> None:
        other = machine.get(2, PRIVATE, 1)
        for page in range(3):
            machine.store(1, self.at + page * PAGE, b"x")
        assert machine.info() == Usage(2, 9, 3, 0, 1)
        assert machine.stat_at(1, 0) == machine.stat(1, self.segment)
        assert machine.stat_at(4, 1).id == other
        assert_refused(errno.EACCES, machine.stat_at, 1, 1)
        assert_refused(errno.EINVAL, machine.stat_at, 1, 2)
        assert_refused(errno.ESRCH, machine.stat_at, 3, 0)
        calls = machine.calls()
        machine.info(), machine.stat_at(1, 0)
        assert machine.calls() == calls

    def test_where_an_access_fails(self, machine: Machine) -> None:
        machine.protect(1, self.at + PAGE, PAGE, False)
        assert machine.failed_at(1, self.at, 8 * PAGE) is None
        assert machine.failed_at(1, self.at + PAGE - 4, 8, is_write=True) == self.at + PAGE
        assert machine.failed_at(1, self.at, 9 * PAGE) == self.at + 8 * PAGE
        assert machine.failed_at(3, 12, 1) == 12
        assert machine.failed_at(1, 0, 0) is None

    def test_where_a_page_is_in_no_frame(self, machine: Machine) -> None:
        assert machine.absent_at(1, self.at + 5, 2) == self.at + 5
        machine.store(1, self.at + 5, b"x")
        assert machine.absent_at(1, self.at + 5, 2) is None
        assert machine.absent_at(1, self.at + 5, PAGE) == self.at + PAGE
        assert machine.absent_at(3, 12, 1) is None

    def test_exchanges(self, machine: Machine) -> None:
        machine.store(1, self.at, b"abcdefgh")
        assert machine.exchange(1, self.at + 2, b"wxyz") == b"cdef"
        assert machine.compare_exchange(1, self.at, b"abwx", b"0123") == b"abwx"
        assert machine.compare_exchange(1, self.at, b"abwx", b"4567") == b"0123"
        assert machine.load(1, self.at, 8) == b"0123yzgh"
        refusals(OutOfRange, (machine.exchange, 1, self.at, b"x" * 65), (machine.exchange, 1, self.at, b""),
                 (machine.compare_exchange, 1, self.at, b"ab", b"abc"))
        pytest.raises(SegmentationFault, machine.exchange, 1, self.at + 8 * PAGE, b"x")

    def test_copies(self, machine: Machine) -> None:
        machine.write(1, self.at, b"abcdefgh")
        assert machine.copy(1, self.at, 1, self.at + 2, 6) == 6
        assert machine.load(1, self.at, 8) == b"ababcdef"
        with pytest.raises(Incomplete) as raised:
            machine.copy(1, self.at, 1, self.at + 8 * PAGE - 3, 8)
        assert raised.value.done == 3
        assert isinstance(raised.value.__cause__, SegmentationFault)
        pytest.raises(SegmentationFault, machine.copy, 1, self.at + 8 * PAGE, 1, self.at, 1)

    def test_copies_from_one_process_to_another(self, machine: Machine) -> None:
        machine.write(1, self.at, b"abcdefgh")
        other = machine.attach(4, machine.get(4, PRIVATE, PAGE), 0x50000000)
        assert machine.copy(1, self.at, 4, other, 6) == 6
        assert machine.load(4, other, 8) == b"abcdef\0\0"
        assert machine.copy(4, other + 3, 1, self.at, 2) == 2
        assert machine.load(1, self.at, 8) == b"decdefgh"

    def test_numbers_that_nothing_carries(self, machine: Machine) -> None:
        refusals(OutOfRange, (machine.unmap, 1, -1, 1), (machine.unmap, 1, 0, 2 ** 64),
                 (machine.protect, 2 ** 32, 0, 1, True), (machine.stat_at, 1, 2 ** 32), (machine.pieces, -1),
                 (machine.failed_at, 1, 2 ** 64, 1))


class TestSnapshots:
    def test_each_goes_on_without_the_other(self) -> None:
        with opened(areas=[Area.ram(64, [Failure(1, is_write=True)])]) as it:
            segment = it.get(1, PRIVATE, 2 * PAGE)
            at = it.attach(1, segment)
            it.store(1, at, b"before")
            with it.snapshot() as other:
                assert (other.tally(), other.segments()) == (it.tally(), it.segments())
                assert (other.processes(), other.calls()) == (it.processes(), it.calls())
                it.store(1, at, b"behind")
                it.exit(1)
                assert it.flush(9) == Flushed(0, 1)
                assert (it.stat(4, segment).nattch, other.stat(4, segment).nattch) == (0, 1)
                it.close()
                assert other.load(1, at, 6) == b"before"
                assert other.flush(9) == Flushed(0, 1)
                assert other.flush(9) == Flushed(1, 0)

    def test_copy_is_a_snapshot(self) -> None:
        with opened() as it:
            makes: tuple[Callable[[Machine], Machine], ...] = (copy.copy, copy.deepcopy)
            for make in makes:
                with make(it) as other:
                    other.get(1, PRIVATE, 1)
                    assert (len(other.segments()), it.segments()) == (1, [])

    def test_a_closed_machine_has_none(self) -> None:
        it = opened()
        it.close()
        pytest.raises(ClosedMachine, it.snapshot)
        refusals(ClosedMachine, (it.unmap, 1, 0, 1), (it.protect, 1, 0, 1, True), (it.info,), (it.pieces, 1),
                 (it.processes,), (it.stat_at, 1, 0), (it.failed_at, 1, 0, 1))


class TestLoans:
    @pytest.fixture
    def machine(self) -> Iterator[Machine]:
        with opened(limits=Limits(frames=2, memlock=0)) as it:
            self.segment = it.get(1, PRIVATE, 4 * PAGE)
            self.at = it.attach(1, self.segment)
            it.store(1, self.at, b"before")
            yield it

    def frames(self, machine: Machine) -> list[tuple[int, bool, bool]]:
        """The pages in frames: whether each is dirty and lent."""
        shown = [machine.frame_at(place) for place in range(2)]
        return sorted((it.page, it.is_dirty, it.is_lent) for it in shown if it)

    def test_bytes_go_out_and_come_back(self, machine: Machine) -> None:
        calls = machine.calls()
        loan = machine.lend(self.segment, 0)
        assert (loan.segment, loan.page, len(loan.data), loan.data[:7]) == (self.segment, 0, PAGE,
                                                                            b"before\0")
        loan.data[:6] = b"behind"
        pytest.raises(Lent, machine.load, 1, self.at, 1)
        pytest.raises(Lent, machine.lend, self.segment, 0)
        pytest.raises(Lent, machine.snapshot)
        assert not loan.is_given_back
        loan.give_back()
        assert loan.is_given_back
        assert machine.calls() == calls
        assert machine.load(1, self.at, 6) == b"behind"
        pytest.raises(OutOfRange, loan.give_back)

    def test_unchanged_bytes_leave_a_clean_frame(self, machine: Machine) -> None:
        machine.flush(2)
        loan = machine.lend(self.segment, 0)
        loan.data[:6] = b"behind"
        loan.give_back(changed=False)
        assert self.frames(machine) == [(0, False, False)]
        assert machine.load(1, self.at, 6) == b"before"
        machine.lend(self.segment, 0).give_back(changed=True)
        assert self.frames(machine) == [(0, True, False)]

    def test_a_block_gives_back_what_it_changed(self, machine: Machine) -> None:
        with machine.lend(self.segment, 0) as loan:
            loan.data[:6] = b"behind"
        assert machine.load(1, self.at, 6) == b"behind"
        with machine.lend(self.segment, 0) as loan:
            loan.data[:6] = b"before"
            loan.give_back(changed=False)
        assert machine.load(1, self.at, 6) == b"behind"
        with pytest.raises(KeyError), machine.lend(self.segment, 0):
            raise KeyError
        assert self.frames(machine) == [(0, True, False)]

    def test_a_dropped_loan_gives_back_unchanged_bytes(self, machine: Machine) -> None:
        machine.flush(2)
        loan = machine.lend(self.segment, 0)
        loan.data[:6] = b"behind"
        assert self.frames(machine) == [(0, False, True)]
        del loan
        gc.collect()
        assert self.frames(machine) == [(0, False, False)]
        assert machine.load(1, self.at, 6) == b"before"

    def test_the_leaver_comes_back_and_leaves(self, machine: Machine) -> None:
        assert machine.leaver() is None
        first, second = (machine.lend(self.segment, page) for page in (0, 1))
        assert machine.leaver() == Frame(self.segment, 0, True, True, True, False)
        pytest.raises(Lent, machine.lend, self.segment, 2)
        first.give_back(changed=False)
        third = machine.lend(self.segment, 2)
        assert self.frames(machine) == [(1, False, True), (2, False, True)]
        for place, frame in enumerate((Frame(self.segment, 1, False, False, True, False),
                                       Frame(self.segment, 2, True, False, True, False), None)):
            assert machine.frame_at(place) == frame
        for loan in (second, third):
            loan.give_back()

    def test_pages_of_addresses(self, machine: Machine) -> None:
        other = machine.attach(4, self.segment, flags=Flag.RDONLY)
        assert machine.page_at(1, self.at + PAGE) == ShownPage(self.segment, 1, True)
        assert machine.page_at(4, other + 4 * PAGE - 1) == ShownPage(self.segment, 3, False)
        pytest.raises(SegmentationFault, machine.page_at, 1, self.at - 1)
        pytest.raises(ProcessLookupError, machine.page_at, 3, self.at)

    def test_what_can_not_be_lent_or_given_back(self, machine: Machine) -> None:
        with pytest.raises(Refused) as caught:
            machine.lend(99, 0)
        assert (caught.value.errno, caught.value.name) == (errno.EINVAL, "EINVAL")
        for segment, page in ((self.segment, 4), (self.segment, -1), (self.segment, 2 ** 32), (2 ** 31, 0)):
            pytest.raises(OutOfRange, machine.lend, segment, page)
        pytest.raises(OutOfRange, machine.frame_at, -1)
        pytest.raises(TypeError, machine.lend, "0", 0)
        loan = machine.lend(self.segment, 0)
        loan.data.pop()
        pytest.raises(OutOfRange, loan.give_back)
        loan.data.append(0)
        machine.remove(1, self.segment)
        machine.exit(1)
        pytest.raises(Refused, loan.give_back)

    def test_a_swap_area_that_fails(self) -> None:
        with opened(limits=Limits(frames=2, memlock=0), areas=[Area.ram(64, [Failure(1)])]) as it:
            segment = it.get(1, PRIVATE, 3 * PAGE)
            at = it.attach(1, segment)
            for page in range(3):
                it.store(1, at + page * PAGE, b"abc"[page:page + 1])
            pytest.raises(BusError, it.lend, segment, 0)
            with it.lend(segment, 0) as loan:
                assert loan.data[0] == ord("a")

    def test_a_closed_machine_lends_nothing(self, machine: Machine) -> None:
        loan = machine.lend(self.segment, 0)
        machine.close()
        refusals(ClosedMachine, (machine.lend, 0, 0), (machine.leaver,), (machine.frame_at, 0),
                 (machine.page_at, 1, 0), (loan.give_back,))


class TestQuestions:
    """What a host asks and changes without a call."""

    @pytest.fixture
    def machine(self) -> Iterator[Machine]:
        with opened(limits=Limits(frames=2, memlock=0)) as it:
            self.segment = it.get(1, PRIVATE, 4 * PAGE)
            self.at = it.attach(1, self.segment)
            yield it

    def test_a_piece_by_its_address(self, machine: Machine) -> None:
        machine.protect(1, self.at + PAGE, PAGE, False)
        pieces = machine.pieces(1)
        for page, piece in enumerate((pieces[0], pieces[1], pieces[2], pieces[2])):
            assert machine.piece_of(1, self.at + page * PAGE + 9) == piece
        pytest.raises(SegmentationFault, machine.piece_of, 1, self.at - 1)
        pytest.raises(ProcessLookupError, machine.piece_of, 3, self.at)

    def test_a_segment_by_its_identifier(self, machine: Machine) -> None:
        gone = machine.get(1, PRIVATE, 1)
        machine.remove(1, gone)
        machine.set(1, self.segment, 1, 1, 0)
        assert machine.segment_of(self.segment) == machine.segments()[0]
        for segment, wanted in ((gone, errno.EIDRM), (gone + 32768, errno.EINVAL), (-1, errno.EINVAL)):
            assert pytest.raises(Refused, machine.segment_of, segment).value.errno == wanted

    def test_other_limits(self, machine: Machine) -> None:
        before = machine.limits()
        assert (before.frames, before.memlock, before.most_pieces) == (2, 0, 256)
        machine.set_limits(shmmax=PAGE, shmall=5)
        assert machine.limits() == replace(before, shmmax=PAGE, shmall=5)
        pytest.raises(Refused, machine.get, 1, PRIVATE, PAGE + 1)
        for name, value in (("shmall", 3), ("shmmax", 0), ("memlock", 1), ("shmmni", 2 ** 15 + 1)):
            pytest.raises(BadOpening, machine.set_limits, **{name: value})
        pytest.raises(OutOfRange, machine.set_limits, shmmax=-1)
        assert machine.limits().shmall == 5

    def test_a_swap_area_is_added(self, machine: Machine) -> None:
        slots = machine.tally().slots
        machine.swapon(Area.ram(7, [Failure(1)]))
        assert machine.tally().slots == slots + 7
        with pytest.raises(BadOpening):
            machine.swapon(Area.ram(0))

    def test_a_running_area_fails(self, machine: Machine) -> None:
        for page in range(3):
            machine.store(1, self.at + page * PAGE, bytes([page + 1]))
        machine.flush(16)
        machine.fail(0, Failure(1))
        with pytest.raises(BusError):
            for page in range(3):
                machine.load(1, self.at + page * PAGE, 1)
        assert [machine.load(1, self.at + page * PAGE, 1)[0] for page in range(3)] == [1, 2, 3]
        for area, failure in (1, Failure(1)), (0, Failure(1, side=1)), (0, Failure(0)):
            pytest.raises(OutOfRange, machine.fail, area, failure)
        pytest.raises(OutOfRange, machine.fail_page, self.segment, 1 << 20)
        machine.fail(0, Failure(1), is_lasting=True)
        failures = machine.tally().failures
        with pytest.raises(BusError):
            for page in range(3):
                machine.load(1, self.at + page * PAGE, 1)
        assert machine.tally().failures == failures + 1

    def test_a_page_without_a_slot_can_not_fail(self, machine: Machine) -> None:
        with pytest.raises(Refused) as refusal:
            machine.fail_page(self.segment, 0)
        assert refusal.value.name == "ENOENT"

    def test_pages_of_a_segment(self, machine: Machine) -> None:
        for page in range(3):
            machine.store(1, self.at + page * PAGE, b"x")
        assert machine.pages_of(self.segment) == SegmentPages(resident=2, swapped=1)
        pytest.raises(Refused, machine.pages_of, 99)

    def test_loans_are_counted(self, machine: Machine) -> None:
        assert machine.loans() == 0
        with machine.lend(self.segment, 0):
            assert machine.loans() == 1
        assert machine.loans() == 0

    def test_destroyed_segments_are_named_once(self, machine: Machine) -> None:
        assert machine.gone() == []
        made = [machine.get(1, PRIVATE, 1) for _ in range(3)]
        for segment in (made[2], made[0], self.segment):
            machine.remove(1, segment)
        assert machine.gone() == [made[0], made[2]]
        copy = machine.snapshot()
        machine.detach(1, self.at)
        assert (machine.gone(), machine.gone(), copy.gone()) == ([self.segment], [], [])
        copy.close()

    def test_changes_of_pieces_are_counted(self, machine: Machine) -> None:
        count, other = machine.changes(1), machine.changes(2)
        machine.store(1, self.at, b"x")
        assert machine.changes(1) == count
        machine.protect(1, self.at, PAGE, False)
        machine.detach(1, self.at)
        assert (machine.changes(1), machine.changes(2)) == (count + 2, other)


class TestOpening:
    def test_a_closed_machine(self) -> None:
        with opened() as it:
            assert it.is_open
        assert not it.is_open
        it.close()
        refusals(ClosedMachine, (it.get, 1, 0, 1), (it.tally,), (it.segments,), (it.read, 1, FIRST, 1))

    def test_an_error_in_a_with_block_leaves_it(self) -> None:
        with pytest.raises(KeyError), opened() as it:
            raise KeyError("in the block")
        assert not it.is_open

    def test_larger_machines(self) -> None:
        large = Limits(2 ** 40, 32768, 2 ** 28, 64, 62, 65530, 32768, 2 ** 28)
        with opened(limits=large, processes=[Process(n + 1) for n in range(65)]) as it:
            assert it.tally().frames == 64
        for limits in (Limits(most_slots=1), Limits(most_pieces=1), Limits(most_pieces=1, most_processes=1),
                       Limits(2 ** 40 + 1, 1, 1, 2, 0, 1, 1, 1)):
            pytest.raises(BadOpening, Machine, limits, [Area.ram(1)], [Process(1)])

    def test_numbers_that_are_no_rules(self) -> None:
        for rules in (2048, 2 ** 63):
            assert pytest.raises(BadOpening, opened, limits=Limits(rules=rules)).value.code == 2019
        pytest.raises(OutOfRange, opened, limits=Limits(rules=2 ** 64))
        # with rules too, a machine without the last three sizes has those of the profile
        pytest.raises(BadOpening, opened, limits=Limits(shmmax=2 ** 24 + 1, rules=Rules.LINUX))

    def test_what_is_wrong_with_an_opening_is_named_with_its_range(self) -> None:
        larger = {"most_pieces": 1, "most_processes": 2, "most_slots": 3}
        openings: tuple[tuple[dict[str, int], Any, Any, str], ...] = (
                ({"shmmax": 0}, 1, 1, "bad limits: SHMMAX: shmmax 0 is not from 1 to 16777216"),
                ({"shmmax": 2 ** 24 + 1}, 1, 1, "shmmax 16777217 is not from 1 to 16777216"),
                ({"shmmax": 2 ** 40 + 1, **larger}, 1, 1,
                 "shmmax 1099511627777 is not from 1 to 1099511627776"),
                ({"shmmni": 4097}, 1, 1, "shmmni 4097 is not from 1 to 4096"),
                ({"shmmni": 32769, **larger}, 1, 1, "shmmni 32769 is not from 1 to 32768"),
                ({"shmall": 65537}, 1, 1, "shmall 65537 is not from 1 to 65536"),
                ({"shmall": 2 ** 28 + 1, **larger}, 1, 1, "shmall 268435457 is not from 1 to 268435456"),
                ({"frames": 1}, 1, 1, "frames 1 is not from 2 to 4096"),
                ({"frames": 4097}, 1, 1, "frames 4097 is not from 2 to 4096"),
                ({"frames": 2 ** 24 + 1, **larger}, 1, 1, "frames 16777217 is not from 2 to 16777216"),
                ({"frames": 7, "memlock": 6}, 1, 1, "memlock 6 is not from 0 to 5"),
                ({**larger, "most_pieces": 65531}, 1, 1, "most_pieces 65531 is not from 1 to 65530"),
                ({**larger, "most_processes": 0}, 1, 1, "most_processes 0 is not from 1 to 32768"),
                ({**larger, "most_slots": 2 ** 28 + 1}, 1, 1,
                 "most_slots 268435457 is not from 1 to 268435456"),
                ({"rules": 2048}, 1, 1, "rules 2048 is not from 0 to 2047"),
                ({}, 0, 1, "the number of areas 0 is not from 1 to 8"),
                ({}, 9, 1, "the number of areas 9 is not from 1 to 8"),
                ({}, [Area.ram(1), Area.ram(0)], 1, "areas[1]: slots 0 is not from 1 to 65536"),
                ({}, [Area.ram(65537)], 1, "areas[0]: slots 65537 is not from 1 to 65536"),
                (larger, [Area.ram(4)], 1, "areas[0]: slots 4 is not from 1 to 3"),
                ({}, 1, 65, "the number of processes 65 is not from 0 to 64"),
                (larger, 1, 3, "the number of processes 3 is not from 0 to 2"),
                ({}, 1, [Process(7), Process(0)], "pid 0 is not from 1 to 2147483647"),
                ({}, 1, [Process(2 ** 31)], "pid 2147483648 is not from 1 to 2147483647"),
                ({}, 1, [Process(7), child(8), Process(8)], "pid 8 is given twice"))
        for given_limits, areas, processes, told in openings:
            areas = [Area.ram(1)] * areas if isinstance(areas, int) else areas
            if isinstance(processes, int):
                processes = [Process(n + 1) for n in range(processes)]
            error = str(pytest.raises(BadOpening, Machine, Limits(**given_limits), areas, processes).value)
            assert error.startswith("nog_open: ")
            assert error.endswith(": " + told.rpartition(": ")[2])
            assert told in error
        wrong: tuple[tuple[dict[str, Any], str], ...] = (
                ({"limits": Limits(shmmax=-1)}, "shmmax -1 is not from 1 to 16777216"),
                ({"limits": Limits(memlock=2 ** 64, frames=4)},
                 "memlock 18446744073709551616 is not from 0 to 2"),
                ({"areas": [Area(9, 1)]}, "areas[0]: kind 9 is not from 1 to 3"),
                ({"areas": [Area.ram(-1)]}, "areas[0]: slots -1 is not from 1 to 65536"),
                ({"areas": [Area.ram(2 ** 32)]}, "areas[0]: slots 4294967296 is not from 1 to 65536"),
                ({"areas": [Area.ram(1, [Failure(1), Failure(0)])]},
                 "areas[0]: failures[1]: call 0 is not from 1 to 18446744073709551615"),
                ({"areas": [Area.ram(1, [Failure(1, side=1)])]},
                 "areas[0]: failures[0]: side 1 is not from 0 to 0"),
                ({"areas": [Area.ram(1), Area.mirror(1, [Failure(1, side=2)])]},
                 "areas[1]: failures[0]: side 2 is not from 0 to 1"),
                ({"processes": [Process(-1)]}, "pid -1 is not from 1 to 2147483647"),
                ({"processes": [Process(1, uid=2 ** 32)]}, "uid 4294967296 is not from 0 to 4294967295"))
        for given, told in wrong:
            assert str(pytest.raises(OutOfRange, Machine, **given).value) == "nogcuvema: " + told

    def test_wrong_types_of_an_opening(self) -> None:
        # wrong on purpose
        area, failing = cast(Any, Area.ram), cast(Any, [1])
        process, limits = cast(Any, Process), cast(Any, Limits)
        rows: tuple[tuple[dict[str, Any], str], ...] = (
                ({"limits": 5}, "limits: a Limits is wanted, not int"),
                ({"areas": 5}, "areas: a list of Area is wanted, not int"),
                ({"areas": "ram:64"}, "areas[0]: an Area is wanted, not str"),
                ({"areas": Area.ram(1)}, "areas: a list of Area is wanted, not Area"),
                ({"areas": [Area.ram(1, failing)]}, "areas[0]: failures[0]: a Failure is wanted, not int"),
                ({"areas": [area("1")]}, "areas[0]: slots: a whole number is wanted, not str"),
                ({"processes": [1]}, "processes[0]: a Process is wanted, not int"),
                ({"processes": [process("1")]}, "pid: a whole number is wanted, not str"),
                ({"processes": [process(1, is_born="no")]}, "is_born: True or False is wanted, not str"),
                ({"limits": limits(frames="4")}, "frames: a whole number is wanted, not str"),
                ({"limits": limits(shmmni=4.0)}, "shmmni: a whole number is wanted, not float"))
        for given, told in rows:
            assert str(pytest.raises(TypeError, Machine, **given).value) == told
        text: Any
        swap: Any
        for text, swap, told in ((5, "ram:64", "text: a script's text is wanted, not int"),
                                 ("limits 4096 1 1 2 0\n", 64,
                                  "swap: a text or a list of texts is wanted, not int")):
            assert str(pytest.raises(TypeError, Machine.from_script, text, swap).value) == told

    def test_a_machine_without_processes(self) -> None:
        with opened(processes=[]) as it:
            pytest.raises(ProcessLookupError, it.exec, 1)

    def test_machines_that_nobody_closes_leave_no_memory(self) -> None:
        # 1,000 machines of 2 MB each
        for _ in range(1000):
            opened(areas=[Area.ram(512)])
        gc.collect()
        assert int(Path("/proc/self/statm").read_text("ascii").split()[1]) * PAGE < 400_000_000

    def test_two_machines_by_two_threads(self) -> None:
        found: list[bytes] = []

        def run(number: int) -> None:
            with opened() as it:
                at = it.attach(1, it.get(1, PRIVATE, PAGE))
                for _ in range(1000):
                    it.add(1, at, number)
                found.append(it.load(1, at, 8))

        threads = [threading.Thread(target=run, args=(number,)) for number in (1, 2)]
        for thread in threads:
            thread.start()
        for thread in threads:
            thread.join()
        assert sorted(found) == sorted((1000 * number).to_bytes(8, "little") for number in (1, 2))


class TestRulesOfLinux:
    """What a call answers in the profile, and by the rules of Linux."""

    def answers(self, rules: int, calls: list[tuple[Any, ...]]) -> list[object]:
        with opened(limits=Limits(rules=rules)) as it:
            found: list[object] = []
            for name, *operands in calls:
                try:
                    found.append(getattr(it, name)(*operands))
                except Refused as error:
                    found.append(error.name)
            return found

    @pytest.mark.parametrize("rule, calls, profile, by_rule", [
        (Rules.REMOVED_IS_INVALID,
         [("get", 1, PRIVATE, 1), ("remove", 1, 0), ("detach", 1, FIRST), ("attach", 1, 0)],
         [0, None, "EINVAL", "EIDRM"], [0, None, "EINVAL", "EINVAL"]),
        (Rules.EXECUTE_IS_ASKED, [("get", 1, 7, 1, 0o600, Flag.CREAT), ("get", 1, 7, 1, 0o100)],
         [0, 0], [0, "EACCES"]),
        (Rules.EXEC_IS_ASKED,
         [("get", 1, PRIVATE, 1), ("attach", 1, 0, None, Flag.EXEC), ("attach", 4, 0, None, Flag.EXEC)],
         [0, FIRST, FIRST], [0, "EACCES", FIRST]),
        (Rules.HUGE_IS_REFUSED,
         [("get", 1, PRIVATE, 1, 0o600, Flag.HUGETLB), ("get", 4, PRIVATE, 1, 0o600, Flag.HUGETLB),
          ("get", 4, PRIVATE, 1, 0o600, Flag.HUGETLB | Flag.NORESERVE)],
         [0, 1, 2], ["EPERM", "ENOMEM", 0]),
        (Rules.LOW_IS_EPERM | Rules.END_IS_ENOMEM,
         [("get", 1, PRIVATE, 1), ("attach", 1, 0, 0x1000), ("attach", 1, 0, 0x7ffffffff000)],
         [0, "EINVAL", "EINVAL"], [0, "EPERM", "ENOMEM"]),
        (Rules.LOCKS_BY_USER,
         [("get", 1, PRIVATE, 1), ("get", 2, PRIVATE, 1), ("lock", 1, 0), ("lock", 2, 1)],
         [0, 1, None, "ENOMEM"], [0, 1, None, None]),
        (Rules.NO_LAST_USER, [("get", 1, PRIVATE, 1), ("set", 1, 0, 2 ** 32 - 1, 100, 0o600)],
         [0, None], [0, "EINVAL"]),
    ])
    def test_answers(self, rule: int, calls: list[tuple[Any, ...]], profile: list[object],
                     by_rule: list[object]) -> None:
        assert self.answers(0, calls) == profile
        assert self.answers(rule, calls) == by_rule
        assert self.answers(Rules.LINUX, calls) == by_rule

    def test_times_that_a_fork_and_a_protect_set(self) -> None:
        for rules, wanted in ((0, [2, 2]), (Rules.LINUX, [3, 5])):
            with opened(limits=Limits(rules=rules)) as it:
                segment = it.get(1, PRIVATE, 2 * PAGE)
                at = it.attach(1, segment)
                it.fork(1, 3)
                found = [it.stat(1, segment).atime]
                it.protect(1, at, PAGE, False)
                found.append(it.stat(1, segment).atime)
                assert found == wanted, rules

    def test_too_many_pieces(self) -> None:
        for rules, wanted in ((0, "EMFILE"), (Rules.LINUX, "ENOMEM")):
            with opened(limits=Limits(rules=rules)) as it:
                segment = it.get(1, PRIVATE, 1)
                for _ in range(256):
                    it.attach(1, segment)
                assert pytest.raises(Refused, it.attach, 1, segment).value.name == wanted


class TestBinding:
    @pytest.fixture(autouse=True)
    def read_header(self) -> None:
        self.header = re.sub(r"/\*.*?\*/", "", HEADER.read_text(encoding="ascii"), flags=re.S)

    def test_functions_are_those_of_the_header(self) -> None:
        functions = re.findall(r"^uint32_t (nog_\w+)\(", self.header, re.M)
        assert sorted(functions) == sorted({**low.FUNCTIONS, **low.OTHERS})

    def test_fields_are_those_of_the_header(self) -> None:
        structs = re.findall(r"typedef struct nog_\w+ \{(.*?)\}", self.header, re.S)
        fields = [re.findall(r"(\w+);", struct) for struct in structs]
        assert fields == [[field[0] for field in struct._fields_] for struct in low.STRUCTS]

    def test_parameters_are_those_of_the_header(self) -> None:
        kinds: dict[str, Any] = {"uint32_t": ctypes.c_uint32, "int32_t": ctypes.c_int32,
                                 "uint64_t": ctypes.c_uint64, "size_t": ctypes.c_size_t,
                 "void": ctypes.c_uint8, **{f"nog_{n}": s for n, s in zip(
                     ("machine", "limits", "area", "failure", "process", "segment", "tally", "flushed",
                      "usage", "piece", "frame"), low.STRUCTS)}}
        for name, text in re.findall(r"^uint32_t (nog_\w+)\((.*?)\);", self.header, re.S | re.M):
            wanted: list[Any] = []
            for word in text.split(","):
                found = re.fullmatch(r"\s*(?:const )?(\w+) (\*?)\w+\s*", word)
                if found:
                    wanted.append(ctypes.POINTER(kinds[found[1]]) if found[2] else kinds[found[1]])
            told = low.OTHERS[name] if name in low.OTHERS else [ctypes.POINTER(low.MachineStruct),
                                                                *low.FUNCTIONS[name]]
            assert told == wanted, name

    def test_rules_and_flags_are_those_of_the_header(self) -> None:
        for kind, enum in ((Rules, "rule"), (Flag, "flag")):
            [text] = re.findall(rf"enum nog_{enum} \{{(.*?)\}}", self.header, re.S)
            wanted = {name: int(number) for name, number in re.findall(r"NOG_(\w+) = (\d+)", text)}
            assert {name: int(it) for name, it in kind.__members__.items()} == wanted

    def test_versions_are_the_header_s(self) -> None:
        [text] = re.findall('NOG_VERSION_TEXT "(.*)"', self.header)
        assert (nogcuvema.__version__, nogcuvema.library_version()) == (text, text)
