"""A machine and its calls. docs/MACHINE.md lists their errors; a method names what differs in Python."""
import enum
import operator
import sys
from ctypes import Structure, byref, c_int32, c_uint8, c_uint32, c_uint64
from dataclasses import dataclass
from types import TracebackType
from typing import Any, Callable, Dict, Iterable, List, Optional, Sequence, Tuple, Type, TypeVar, Union

from . import _library as low
from .errors import Incomplete, OUT_OF_RANGE, OutOfRange
from .loans import PAGE_BYTES, Frame, Loan, ShownPage

Buffer = Union[bytes, bytearray, memoryview]
Out = TypeVar("Out")
PRIVATE = 0
MOST_BYTES = 64     # of a load, a store or an exchange
U16, U32, U64, I32 = 2 ** 16 - 1, 2 ** 32 - 1, 2 ** 64 - 1, 2 ** 31 - 1
DEST, LOCKED = 512, 1024


class Flag(enum.IntFlag):
    """Flags, by Linux's numbers: CREAT, EXCL, HUGETLB and NORESERVE for `get`, the others for `attach`.

    HUGETLB has an effect only under Rules.HUGE_IS_REFUSED, NORESERVE only together with HUGETLB, and EXEC
    only under Rules.EXEC_IS_ASKED. RDONLY and NORESERVE have the same number."""
    CREAT = 512
    EXCL = 1024
    HUGETLB = 2048
    RDONLY = 4096
    NORESERVE = 4096
    RND = 8192
    REMAP = 16384
    EXEC = 32768


class Rules(enum.IntFlag):
    """Rules of Linux that differ from this project's profile, with the header's numbers. docs/MACHINE.md
    describes each."""
    REMOVED_IS_INVALID = 1   # EINVAL instead of EIDRM
    # `get` of an existing segment: an execute bit of the mode needs execute permission, otherwise EACCES
    EXECUTE_IS_ASKED = 2
    FORK_MARKS = 4           # a fork sets the attach time and the last pid of what the child inherits
    # the rest of a piece that is cut, and a part with another protection, get an attach time
    REST_IS_ATTACHED = 8
    END_IS_ENOMEM = 16       # ENOMEM for a range that ends above 0x7ffffffff000
    LOW_IS_EPERM = 32        # EPERM below 0x10000 for all but user 0
    NO_LAST_USER = 64        # `set`: EINVAL for user or group 2^32 - 1
    # ENOMEM instead of EMFILE, and whenever a process has as many pieces as are allowed
    PIECES_ARE_ENOMEM = 128
    LOCKS_BY_USER = 256      # `memlock` is a limit of each user but 0; EPERM if it is 0
    EXEC_IS_ASKED = 512      # `attach`: Flag.EXEC needs execute permission, otherwise EACCES
    HUGE_IS_REFUSED = 1024   # `get`: Flag.HUGETLB is EPERM, or ENOMEM for user 0 and group 0
    LINUX = 2047             # all of them


@dataclass(frozen=True)
class Limits:
    """The limits of a machine; a page has 4096 bytes.

    If the last three are 0, the machine has the profile's limits: 256, 64 and 65536 in their place, and the
    first five have the narrower of the ranges below. Otherwise each has the wider range."""
    shmmax: int = 65536      # the most bytes of a segment, 1 to 2^24, or to 2^40
    shmmni: int = 16         # the most segments, 1 to 4096, or to 32768
    shmall: int = 64         # the most pages of all segments together, 1 to 65536, or to 2^28
    frames: int = 16         # page frames, 2 to 4096, or to 2^24: the most pages in memory at once
    memlock: int = 1         # the most pages of locked segments, 0 to frames - 2
    most_pieces: int = 0     # the most pieces of a process, 1 to 65530
    most_processes: int = 0  # the most processes, 1 to 32768
    most_slots: int = 0      # the most slots of a swap area, 1 to 2^28
    rules: int = 0           # the rules of Linux that hold, a sum of Rules; 0: none, the profile's


@dataclass(frozen=True)
class Failure:
    """An area's read or write that fails: the one numbered `call`, from 1. `side` 1 is a mirror's right."""
    call: int
    is_write: bool = False
    side: int = 0


@dataclass(frozen=True)
class Area:
    """A swap area: make it by `ram`, `sparse` or `mirror`. It has at least one slot, and at most as many as
    the limits allow, 65536 in the profile."""
    kind: int
    slots: int
    failures: Sequence[Failure] = ()

    @classmethod
    def ram(cls, slots: int, failures: Sequence[Failure] = ()) -> "Area":
        """A page of memory for each slot."""
        return cls(1, slots, failures)

    @classmethod
    def sparse(cls, slots: int, failures: Sequence[Failure] = ()) -> "Area":
        """Memory only for slots with a byte that is not zero."""
        return cls(2, slots, failures)

    @classmethod
    def mirror(cls, slots: int, failures: Sequence[Failure] = ()) -> "Area":
        """Two sides with the same pages."""
        return cls(3, slots, failures)


@dataclass(frozen=True)
class Process:
    """A process that the machine may have. An unborn child gets its user and group by the fork."""
    pid: int
    uid: int = 0
    gid: int = 0
    is_born: bool = True


def child(pid: int) -> Process:
    """A process that a fork may begin."""
    return Process(pid, is_born=False)


@dataclass(frozen=True)
class Segment:
    """A segment as IPC_STAT shows it. A time is the place of a call among all calls, from 1, or the number
    given to `set_time`; 0 means never."""
    id: int
    key: int       # 0: it is private, or marked for removal
    size: int      # in bytes, as requested
    uid: int
    gid: int
    cuid: int
    cgid: int
    mode: int
    is_marked: bool
    is_locked: bool
    cpid: int
    lpid: int      # the process of the last attach or detach; 0: none
    nattch: int
    atime: int
    dtime: int
    ctime: int
    index: int     # its place in the table of segments


@dataclass(frozen=True)
class Tally:
    """Counts of a machine and of its memory."""
    events: int
    segments: int
    reserved: int
    locked: int
    frames: int
    resident: int
    dirty: int
    slots: int
    used: int
    ins: int
    outs: int
    failures: int


@dataclass(frozen=True)
class Flushed:
    """What a flush round did: pages that were written out, and pages whose write failed."""
    written: int
    failed: int


@dataclass(frozen=True)
class Usage:
    """Sums over all segments, as SHM_INFO shows them."""
    used_ids: int  # segments, including those marked for removal
    pages: int     # pages of all segments; a page that was never touched has no frame and no slot
    resident: int  # pages in frames
    swapped: int   # pages only in slots
    highest: int   # the highest index that a segment holds, 0 if there is none


@dataclass(frozen=True)
class SegmentPages:
    """Where the pages of a segment are. Those that were never touched are in no frame and in no slot."""
    resident: int  # pages in frames
    swapped: int   # pages only in slots


@dataclass(frozen=True)
class Piece:
    """A process's range of addresses with pages of a segment, as a line of /proc/PID/maps shows it."""
    base: int          # its address
    segment: int       # the identifier of its segment
    first_page: int    # the page of the segment that lies at the address
    pages: int
    is_writable: bool
    may_write: bool    # False: it was attached with Flag.RDONLY, and `protect` can't make it writable


class State(enum.IntEnum):
    """The state of a process, with the header's numbers."""
    UNBORN = 0  # a child that a fork may begin
    LIVE = 1
    ENDED = 2


@dataclass(frozen=True)
class ProcessEntry:
    """A process of the machine. Its user and group are 0 unless it is live."""
    pid: int
    state: State
    uid: int
    gid: int


def _wrong_type(what: str, wanted: str, value: Any) -> TypeError:
    return TypeError(f"{what}: {wanted} is wanted, not {type(value).__name__}")


def out_of(what: str, value: int, least: int, most: int, show: Callable[[int], str] = str) -> str:
    """What a number is, and what it may be."""
    return f"{what} {show(value)} is not from {show(least)} to {show(most)}"


def _number(value: Any, most: int, what: str, least: int = 0, show: Callable[[int], str] = str,
            told: Optional[Tuple[int, int]] = None) -> int:
    """The number, if it is in the range; ctypes would truncate it silently. `told` is the range that the
    message names, if the library itself refuses the rest."""
    try:
        value = operator.index(value)
    except TypeError:
        raise _wrong_type(what, "a whole number", value) from None
    if not least <= value <= most:
        raise OutOfRange(OUT_OF_RANGE, out_of(what, value, *(told or (least, most)), show), "nogcuvema")
    return int(value)


def _pid(value: Any, what: str = "pid") -> int:
    """A pid as C has it. For one that no process can have the library returns a code, such as ESRCH."""
    return _number(value, U32, what, told=(1, I32))


def _addr(value: Any) -> int:
    return _number(value, U64, "addr")


def _mode(value: Any, most: int = 0o777) -> int:
    return _number(value, most, "mode", show=oct)


def _truth(value: Any, what: str) -> int:
    """A truth value as C has it. Another type, such as a text, is a mistake, even if Python finds it true."""
    if not isinstance(value, (bool, int)):
        raise _wrong_type(what, "True or False", value)
    return int(bool(value))


def _bytes(data: Any, what: str) -> bytes:
    """The bytes of a buffer. A number is none: bytes(5) would be five zeros."""
    try:
        return memoryview(data).tobytes()
    except TypeError:
        raise _wrong_type(what, "a bytes-like object", data) from None


def _room(data: Any, what: str = "data", most: int = 0) -> Tuple[Any, int]:
    """A copy of the bytes for C, and how many there are: at least 1 and at most `most`, if that is given."""
    held = _bytes(data, what)
    if most:
        _number(len(held), most, f"the length of {what}", 1)
    return (c_uint8 * max(1, len(held))).from_buffer_copy(held or b"\0"), len(held)


def _items(values: Any, kind: type, what: str) -> List[Any]:
    """The values as a list, each of this type."""
    try:
        items = list(values)
    except TypeError:
        raise _wrong_type(what, f"a list of {kind.__name__}", values) from None
    for place, item in enumerate(items):
        if not isinstance(item, kind):
            raise _wrong_type(f"{what}[{place}]", f"{'an' if kind is Area else 'a'} {kind.__name__}", item)
    return items


def _fields(struct: Structure) -> Dict[str, Any]:
    return {field[0]: getattr(struct, field[0]) for field in struct._fields_}


def _segment(struct: low.SegmentStruct) -> Segment:
    values = _fields(struct)
    status = values.pop("status")
    return Segment(is_marked=bool(status & DEST), is_locked=bool(status & LOCKED), **values)


def _piece(struct: low.PieceStruct) -> Piece:
    return Piece(struct.base, struct.segment, struct.first_page, struct.pages, bool(struct.is_writable),
                 bool(struct.may_write))


def _frame(struct: low.FrameStruct) -> Frame:
    bits = (struct.is_referenced, struct.is_dirty, struct.is_lent, struct.is_locked)
    return Frame(struct.id, struct.page, *map(bool, bits))


# the ranges of the limits, in the profile and in a larger machine
PROFILE = {"shmmax": (1, 2 ** 24), "shmmni": (1, 4096), "shmall": (1, 65536), "frames": (2, 4096)}
LARGER = {"shmmax": (1, 2 ** 40), "shmmni": (1, 32768), "shmall": (1, 2 ** 28), "frames": (2, 2 ** 24),
          "most_pieces": (1, 65530),
          "most_processes": (1, 32768), "most_slots": (1, 2 ** 28)}
SIZES = ("most_pieces", "most_processes", "most_slots")
BAD_LIMIT, BAD_AREAS, BAD_AREA_SIZE, BAD_PROCESSES, BAD_PID = 2010, 2021, 2022, 2023, 2024
ADMIT_BAD_PID, ADMIT_TAKEN, ADMIT_MANY = 2031, 2032, 2033
MOST_AREAS, MOST_SLOTS, MOST_PROCESSES, MIRROR = 8, 65536, 64, 3


def _is_larger(limits: Limits) -> bool:
    """Whether one of the last three sizes is given: then the machine is not one of the profile."""
    return any(getattr(limits, name) for name in SIZES)


def range_of(limits: Limits, name: str) -> Tuple[int, int]:
    """The least and the most value of a limit."""
    if name == "memlock":
        return 0, max(0, limits.frames - 2)
    if name == "rules":
        return 0, int(Rules.LINUX)
    return LARGER[name] if _is_larger(limits) or name in SIZES else PROFILE[name]


def _told_range(limits: Limits, name: str) -> Tuple[int, int]:
    """The same for a message, also if another limit is no number."""
    try:
        return range_of(limits, name)
    except TypeError:
        return 0, U64


def why_not_opened(code: int, limits: Limits, areas: Sequence[Area], processes: Sequence[Process]) -> str:
    """The number that is wrong, with its range, for a code of nog_open; nothing for other codes."""
    names = [name for name, _ in low.LimitsStruct._fields_]
    if BAD_LIMIT < code <= BAD_LIMIT + len(names):
        name = names[code - BAD_LIMIT - 1]
        return out_of(name, getattr(limits, name), *range_of(limits, name))
    if code == BAD_AREAS:
        return out_of("the number of areas", len(areas), 1, MOST_AREAS)
    if code == BAD_AREA_SIZE:
        most = limits.most_slots if _is_larger(limits) else MOST_SLOTS
        wrong = ((place, it.slots) for place, it in enumerate(areas) if not 1 <= it.slots <= most)
        return next((out_of(f"areas[{place}]: slots", slots, 1, most) for place, slots in wrong), "")
    if code == BAD_PROCESSES:
        return out_of("the number of processes", len(processes), 0,
                      limits.most_processes if _is_larger(limits) else MOST_PROCESSES)
    if code == BAD_PID:
        pids = [it.pid for it in processes]
        outside = next((pid for pid in pids if not 1 <= pid <= I32), None)
        twice = next((pid for place, pid in enumerate(pids) if pid in pids[:place]), None)
        return f"pid {twice} is given twice" if outside is None else out_of("pid", outside, 1, I32)
    return ""


def _check_areas(areas: Sequence[Area]) -> None:
    """Refuses a kind that does not exist, and a failure of call 0, or of a side that the area lacks."""
    for place, area in enumerate(areas):
        _number(area.kind, MIRROR, f"areas[{place}]: kind", 1)
        for number, it in enumerate(_items(area.failures, Failure, f"areas[{place}]: failures")):
            what = f"areas[{place}]: failures[{number}]"
            _number(it.call, U64, f"{what}: call", 1)
            _number(it.side, 1 if area.kind == MIRROR else 0, f"{what}: side")
            _truth(it.is_write, f"{what}: is_write")


def _process(it: Process) -> low.ProcessStruct:
    return low.ProcessStruct(_pid(it.pid), _truth(it.is_born, "is_born"), _number(it.uid, U32, "uid"),
                             _number(it.gid, U32, "gid"))


class Machine:
    """A machine. It is open until `close` or the end of its `with` block. Only one thread at a time may call
    it.

    Every call takes the pid of the process that makes it. A call that fails raises `Refused`,
    `SegmentationFault`, `BusError` or a `MachineError`, and changes nothing that a process can see.
    """

    def __init__(self, limits: Optional[Limits] = None, areas: Iterable[Area] = (Area(2, 65536),),
                 processes: Iterable[Process] = (Process(1),)) -> None:
        self._library = low.load_library()
        self._machine = low.MachineStruct()
        self._told: List[int] = []
        limits = Limits() if limits is None else limits
        if not isinstance(limits, Limits):
            raise _wrong_type("limits", "a Limits", limits)
        areas, processes = _items(areas, Area, "areas"), _items(processes, Process, "processes")
        _check_areas(areas)
        failures = [(place, failure) for place, area in enumerate(areas) for failure in area.failures]
        their_limits = low.LimitsStruct(*(_number(getattr(limits, name), U64, name,
                                                  told=_told_range(limits, name))
                                          for name, _ in low.LimitsStruct._fields_))
        most = limits.most_slots or MOST_SLOTS
        their_areas = (low.AreaStruct * len(areas))(
            *(low.AreaStruct(it.kind, _number(it.slots, U32, f"areas[{place}]: slots", told=(1, most)))
              for place, it in enumerate(areas)))
        their_failures = (low.FailureStruct * len(failures))(
            *(low.FailureStruct(place, it.side, int(it.is_write), 0, it.call) for place, it in failures))
        their_processes = (low.ProcessStruct * len(processes))(*map(_process, processes))
        code = self._library.functions.nog_open(byref(self._machine), byref(their_limits), their_areas,
                                                len(areas), their_failures,
                                                len(failures), their_processes, len(processes))
        if code:
            why = why_not_opened(code, limits, areas, processes)
            raise self._library.error(code, "nog_open", why)  # type: ignore[misc]

    @classmethod
    def from_script(cls, text: str, swap: Union[str, Sequence[str]] = "ram:64") -> "Machine":
        """Opens the machine that a script declares, over the swap areas that `swap` names, and makes its
        calls in the order of its lines. A call of the script that fails raises nothing;
        `nogcuvema.script.Run` gives the replies."""
        from .script import Run, areas_of, read_script
        if not isinstance(text, (str, bytes)):
            raise _wrong_type("text", "a script's text", text)
        script = read_script(text)
        run = Run.open(script, areas_of(swap))
        for _ in run.steps():
            pass
        return run.machine

    def _call(self, name: str, *operands: Any) -> None:
        code = getattr(self._library.functions, name)(byref(self._machine), *operands)
        if code:
            raise self._library.error(code, name)  # type: ignore[misc]

    def _ask(self, output: Out, name: str, *operands: Any) -> Out:
        """A call whose last parameter is where its answer goes."""
        self._call(name, *operands, byref(output))  # type: ignore[arg-type]
        return output

    def __enter__(self) -> "Machine":
        return self

    def __exit__(self, kind: Optional[Type[BaseException]], value: Optional[BaseException],
                 trace: Optional[TracebackType]) -> None:
        self.close()

    def __del__(self) -> None:
        if hasattr(self, "_machine"):
            self.close()

    @property
    def is_open(self) -> bool:
        return bool(self._machine.is_open)

    def close(self) -> None:
        """Frees all memory of the machine. A closed machine may be closed again."""
        if self.is_open:
            self._library.functions.nog_close(byref(self._machine))

    # ---- the calls of a process ----

    def get(self, pid: int, key: int, size: int, mode: int = 0o600, flags: int = 0) -> int:
        """shmget: the identifier of the segment with this key, or of a new one."""
        return self._ask(c_int32(), "nog_get", _pid(pid), _number(key, U32, "key"),
                         _number(size, U64, "size"), _mode(mode), _number(flags, U16, "flags")).value

    def attach(self, pid: int, segment: int, addr: Optional[int] = None, flags: int = 0) -> int:
        """shmat: the address of the attachment; None lets the machine choose it."""
        return self._ask(c_uint64(), "nog_attach", _pid(pid), _identifier(segment),
                         0 if addr is None else _addr(addr), _number(flags, U16, "flags")).value

    def detach(self, pid: int, addr: int) -> None:
        """shmdt: detaches the segment that was attached at the address."""
        self._call("nog_detach", _pid(pid), _addr(addr))

    def stat(self, pid: int, segment: int) -> Segment:
        """shmctl, IPC_STAT: the segment, if the process may read it."""
        return _segment(self._ask(low.SegmentStruct(), "nog_stat", _pid(pid), _identifier(segment)))

    def set(self, pid: int, segment: int, uid: int, gid: int, mode: int) -> None:
        """shmctl, IPC_SET: sets the owner and the permission bits."""
        self._call("nog_set", _pid(pid), _identifier(segment), _number(uid, U32, "uid"),
                   _number(gid, U32, "gid"), _mode(mode, U16))

    def remove(self, pid: int, segment: int) -> None:
        """shmctl, IPC_RMID: destroys the segment, or marks it if it is attached."""
        self._call("nog_remove", _pid(pid), _identifier(segment))

    def lock(self, pid: int, segment: int) -> None:
        """shmctl, SHM_LOCK: keeps the pages of the segment in memory."""
        self._call("nog_lock", _pid(pid), _identifier(segment))

    def unlock(self, pid: int, segment: int) -> None:
        """shmctl, SHM_UNLOCK: lets the pages of the segment leave memory."""
        self._call("nog_unlock", _pid(pid), _identifier(segment))

    def load(self, pid: int, addr: int, length: int) -> bytes:
        """Reads 1 to 64 bytes in one step."""
        room = (c_uint8 * _number(length, MOST_BYTES, "length", 1))()
        self._call("nog_load", _pid(pid), _addr(addr), room, length)
        return bytes(room)

    def store(self, pid: int, addr: int, data: Buffer) -> None:
        """Writes 1 to 64 bytes in one step."""
        room, length = _room(data, most=MOST_BYTES)
        self._call("nog_store", _pid(pid), _addr(addr), room, length)

    def add(self, pid: int, addr: int, number: int) -> int:
        """Adds to an eight-byte little-endian number, modulo 2^64, in one step. Returns the number before."""
        return self._ask(c_uint64(), "nog_add", _pid(pid), _addr(addr), _number(number, U64, "number")).value

    def exchange(self, pid: int, addr: int, data: Buffer) -> bytes:
        """Replaces 1 to 64 bytes in one step (a guest's locked exchange). Returns the bytes before."""
        room, length = _room(data, most=MOST_BYTES)
        before = (c_uint8 * length)()
        self._call("nog_exchange", _pid(pid), _addr(addr), room, length, before, length)
        return bytes(before)

    def compare_exchange(self, pid: int, addr: int, expected: Buffer, data: Buffer) -> bytes:
        """Like `exchange`, but replaces the bytes only if they are the expected ones. Returns the bytes that
        were there before: they were replaced exactly when they are equal to the expected ones."""
        room, length = _room(data, most=MOST_BYTES)
        wanted, size = _room(expected, "expected", MOST_BYTES)
        if size != length:
            raise OutOfRange(OUT_OF_RANGE, f"the length of expected {size} is not that of data, {length}",
                             "nogcuvema")
        before = (c_uint8 * length)()
        self._call("nog_compare_exchange", _pid(pid), _addr(addr), wanted, size, room, length, before, length)
        return bytes(before)

    def fork(self, pid: int, new: int) -> None:
        """fork: a declared child is born with the caller's user, group and attachments."""
        self._call("nog_fork", _pid(pid), _pid(new, "new"))

    def exec(self, pid: int) -> None:
        """execve: every attachment of the caller is detached."""
        self._call("nog_exec", _pid(pid))

    def exit(self, pid: int) -> None:
        """exit: the process ends. Its pid may be admitted again."""
        self._call("nog_exit", _pid(pid))

    def swapoff(self, pid: int, area: int) -> None:
        """swapoff: moves the pages of an area elsewhere and takes the area away."""
        self._call("nog_swapoff", _pid(pid), _number(area, U32, "area"))

    # ---- other changes of a process: they are not calls and are not counted ----

    def admit(self, process: Process) -> None:
        """Adds a process that was not declared. It replaces an ended process that has its pid."""
        if not isinstance(process, Process):
            raise _wrong_type("process", "a Process", process)
        struct = _process(process)
        code = self._library.functions.nog_admit(byref(self._machine), byref(struct))
        if code:
            told = {ADMIT_BAD_PID: out_of("pid", process.pid, 1, I32),
                    ADMIT_TAKEN: f"pid {process.pid}"}.get(code, "")
            told = f"there are {len(self.processes())} already" if code == ADMIT_MANY else told
            raise self._library.error(code, "nog_admit", told)  # type: ignore[misc]

    def dismiss(self, pid: int) -> None:
        """Removes an ended process, or a child that is not born. Its pid may be admitted again."""
        self._call("nog_dismiss", _pid(pid))

    def reserve(self, pid: int, addr: int, length: int) -> None:
        """Reserves a range of a process's addresses for memory that is not the machine's: an attach takes none
        of it unless `Flag.REMAP` is set. It stays until `release`. The process need not exist, and a child inherits
        no range. Raises `OutOfRange` if the range is empty, is not whole pages, or is not within 0x10000 to
        0x7ffffffff000; `Refused` with EEXIST if it meets an attachment of the process or another of its
        ranges."""
        self._call("nog_reserve", _pid(pid), _addr(addr), _number(length, U64, "length"))

    def release(self, pid: int, addr: int, length: int) -> None:
        """Releases a reserved range, by the same address and length. Raises `Refused` with ENOENT if exactly
        this range is not reserved."""
        self._call("nog_release", _pid(pid), _addr(addr), _number(length, U64, "length"))

    def set_user(self, pid: int, uid: int, gid: int) -> None:
        """setuid: gives a process another effective user and group. Its attachments stay."""
        self._call("nog_set_user", _pid(pid), _number(uid, U32, "uid"), _number(gid, U32, "gid"))

    def set_time(self, time: int) -> None:
        """From now on, calls set this number as the time. Before the first `set_time`, the time of a call is
        its number."""
        self._call("nog_set_time", _number(time, U64, "time"))

    def unmap(self, pid: int, addr: int, length: int) -> None:
        """munmap: detaches a range, rounded up to whole pages. Attachments that extend beyond it are cut."""
        self._call("nog_unmap", _pid(pid), _addr(addr), _number(length, U64, "length"))

    def protect(self, pid: int, addr: int, length: int, is_writable: bool) -> None:
        """mprotect: makes a range of a process, rounded up to whole pages, writable or read-only. If it
        fails with ENOMEM or EACCES, pages below the one where it failed may have changed, as on Linux."""
        self._call("nog_protect", _pid(pid), _addr(addr), _number(length, U64, "length"),
                   _truth(is_writable, "is_writable"))

    def snapshot(self) -> "Machine":
        """A second machine with the same state, memory and swap areas. The two are independent from then
        on. Raises `Lent` while a page is on loan."""
        copy = Machine.__new__(Machine)
        copy._library, copy._machine = self._library, low.MachineStruct()
        self._call("nog_snapshot", byref(copy._machine))
        copy._told = self._told
        return copy

    def __copy__(self) -> "Machine":
        return self.snapshot()

    def __deepcopy__(self, memo: Dict[int, Any]) -> "Machine":
        return self.snapshot()

    # ---- accesses of any length ----

    def read(self, pid: int, addr: int, length: int) -> bytes:
        """Reads bytes by one load for each page. Raises `Incomplete` if a load after the first fails."""
        data = bytearray(_number(length, sys.maxsize, "length"))
        self.read_into(pid, addr, data)
        return bytes(data)

    def read_into(self, pid: int, addr: int, buffer: Union[bytearray, memoryview]) -> int:
        """Fills a writable buffer by one load for each page. Returns its length in bytes."""
        try:
            view = memoryview(buffer).cast("B")
        except TypeError:
            raise _wrong_type("buffer", "a bytes-like object in one piece", buffer) from None
        if view.readonly:
            raise _wrong_type("buffer", "a bytes-like object that can be written", buffer)
        room = (c_uint8 * len(view)).from_buffer(view) if len(view) else (c_uint8 * 1)()
        return self._access("nog_read", pid, addr, room, len(view))

    def write(self, pid: int, addr: int, data: Buffer) -> int:
        """Writes bytes by one store a page. Raises `Incomplete` if a later one fails; earlier ones stay."""
        room, length = _room(data)
        return self._access("nog_write", pid, addr, room, length)

    def copy(self, pid: int, addr: int, to: int, to_addr: int, length: int) -> int:
        """Copies bytes from a process to another, or to the same one; the ranges may overlap. Returns their
        number. Raises `Incomplete` if some bytes were copied before it failed."""
        done = c_uint64()
        try:
            self._call("nog_copy", _pid(pid), _addr(addr), _pid(to, "to"),
                       _number(to_addr, U64, "to_addr"), _number(length, U64, "length"), byref(done))
        except Exception as error:
            if not done.value:
                raise
            raise Incomplete(done.value, b"", error) from error
        return done.value

    def _access(self, name: str, pid: int, addr: int, room: Any, length: int) -> int:
        done = c_uint64()
        try:
            self._call(name, _pid(pid), _addr(addr), room, length, byref(done))
        except Exception as error:
            if not done.value:
                raise
            raise Incomplete(done.value, bytes(room)[:done.value], error) from error
        return done.value

    # ---- pages on loan ----

    def lend(self, segment: int, page: int) -> Loan:
        """Lends a page: it comes in as by a load, and stays in its frame until the loan gives it back. Raises
        `Lent` if it is on loan, or if the page that `leaver` shows is and would have to leave."""
        number, place, data = _identifier(segment), _number(page, U32, "page"), bytearray(PAGE_BYTES)
        room = (c_uint8 * PAGE_BYTES).from_buffer(data)
        self._call("nog_lend", number, place, room, PAGE_BYTES)
        return Loan(self, number, place, data)

    def leaver(self) -> Optional[Frame]:
        """The frame whose page would leave if a page came in now. None if a frame is free. Once this page is
        back, bringing another one in evicts it and no other page."""
        struct = low.FrameStruct()
        return _frame(struct) if self._has("nog_leaver", byref(struct)) else None

    def frame_at(self, place: int) -> Optional[Frame]:
        """The frame that the clock's hand meets after `place` others. None if there are not that many, or if
        this one is free."""
        struct, number = low.FrameStruct(), _number(place, U32, "place")
        return _frame(struct) if self._has("nog_frame_at", number, byref(struct)) else None

    def page_at(self, pid: int, addr: int) -> ShownPage:
        """The page at an address of a process. Raises `SegmentationFault` if nothing is attached there."""
        segment, page, is_writable = c_int32(), c_uint32(), c_uint32()
        self._call("nog_page_at", _pid(pid), _addr(addr), byref(segment), byref(page), byref(is_writable))
        return ShownPage(segment.value, page.value, bool(is_writable.value))

    def loans(self) -> int:
        """How many pages are on loan."""
        return self._ask(c_uint64(), "nog_loans").value

    # ---- lookups of the host ----

    def piece_of(self, pid: int, addr: int) -> Piece:
        """The piece of a live process that an address is in. Raises `SegmentationFault` if nothing is attached
        there. Not counted as a call."""
        return _piece(self._ask(low.PieceStruct(), "nog_piece_of", _pid(pid), _addr(addr)))

    def segment_of(self, segment: int) -> Segment:
        """The segment of an identifier, without a permission check. It fails with EIDRM if the segment was
        destroyed, under any rules, and with EINVAL if it never was. Not counted as a call."""
        return _segment(self._ask(low.SegmentStruct(), "nog_segment_of", _identifier(segment)))

    def limits(self) -> Limits:
        """The limits that the machine has now."""
        return Limits(**_fields(self._ask(low.LimitsStruct(), "nog_limits_of")))

    def set_limits(self, shmmax: Optional[int] = None, shmmni: Optional[int] = None,
                   shmall: Optional[int] = None, memlock: Optional[int] = None) -> None:
        """Changes these limits of the running machine; None keeps one. Segments that exist stay. Raises
        `BadOpening` for a number out of its range, for a `shmall` below the pages of all segments, and for a
        `memlock` below those of the locked ones."""
        new = {"shmmax": shmmax, "shmmni": shmmni, "shmall": shmall, "memlock": memlock}
        now = self.limits()
        self._call("nog_set_limits", *(_number(getattr(now, name) if value is None else value, U64, name)
                                       for name, value in new.items()))

    def swapon(self, area: Area) -> None:
        """Adds a swap area of zeros with the next number to the running machine. Not counted as a call. Raises
        `BadOpening` if the machine had eight areas already, those that were removed included, or for a number
        of slots that the limits do not allow."""
        if not isinstance(area, Area):
            raise _wrong_type("area", "an Area", area)
        _check_areas([area])
        its_failures = (low.FailureStruct * len(area.failures))(
            *(low.FailureStruct(0, it.side, int(it.is_write), 0, it.call) for it in area.failures))
        struct = low.AreaStruct(area.kind, _number(area.slots, U32, "slots"))
        self._call("nog_swapon", byref(struct), its_failures, len(area.failures))

    def fail(self, area: int, failure: Failure, is_lasting: bool = False) -> None:
        """Makes a read or a write of a swap area fail while the machine runs: the one numbered `failure.call`
        from now on, so 1 is the next; if `is_lasting`, every later one too. No byte changes. Not counted as a
        call. Raises `OutOfRange` if the area does not exist, or no longer, or does not have the side."""
        if not isinstance(failure, Failure):
            raise _wrong_type("failure", "a Failure", failure)
        struct = low.FailureStruct(_number(area, U32, "area"), _number(failure.side, 1, "failure: side"),
                                   _truth(failure.is_write, "failure: is_write"), 0,
                                   _number(failure.call, U64, "failure: call", 1))
        self._call("nog_fail", byref(struct), _truth(is_lasting, "is_lasting"))

    def fail_page(self, segment: int, page: int) -> None:
        """Makes each read of the slot that the page has now fail, until the slot is written or no longer used;
        of a mirror on both sides. No byte changes. Not counted as a call. Raises `Refused` with ENOENT if the
        page is in no slot."""
        self._call("nog_fail_page", _identifier(segment), _number(page, U32, "page"))

    def pages_of(self, segment: int) -> SegmentPages:
        """Where the pages of a segment are. It looks at each page that was touched, and at each slot."""
        resident, swapped = c_uint64(), c_uint64()
        self._call("nog_pages_of", _identifier(segment), byref(resident), byref(swapped))
        return SegmentPages(resident.value, swapped.value)

    def gone(self) -> List[int]:
        """The identifiers of the segments that were destroyed since the last call of `gone`, each once. A
        snapshot remembers the same calls."""
        segment, found = c_int32(), []
        count = max(self._ask(c_uint32(), "nog_indexes").value, len(self._told))
        told = (c_uint32 * count)(*self._told)
        while self._has("nog_gone", told, count, byref(segment)):
            found.append(segment.value)
        self._told = list(told)
        return found

    def changes(self, pid: int) -> int:
        """A count that each attach, detach, unmap, protect, exec and exit of the process raises, and each fork
        of it, even if the call fails. As long as it is the same, so are the pieces of the process. Processes
        whose pids have the same remainder modulo 64 share a count."""
        count = c_uint64()
        self._call("nog_changes", _pid(pid), byref(count))
        return count.value

    # ---- the machine's memory, and its state ----

    def flush(self, pages: int) -> Flushed:
        """A flush round: writes at most this many dirty pages out to swap."""
        return Flushed(**_fields(self._ask(low.FlushedStruct(), "nog_flush", _number(pages, U64, "pages"))))

    def tally(self) -> Tally:
        """The current counts."""
        return Tally(**_fields(self._ask(low.TallyStruct(), "nog_tally_of")))

    def segments(self) -> List[Segment]:
        """All segments by rising index, also those marked for removal, without a permission check."""
        struct, indexes = low.SegmentStruct(), self._ask(c_uint32(), "nog_indexes").value
        return [_segment(struct) for index in range(indexes)
                if self._has("nog_segment_at", index, byref(struct))]

    def stat_at(self, pid: int, index: int) -> Segment:
        """shmctl, SHM_STAT: the segment at an index of the table, if the process may read it."""
        return _segment(self._ask(low.SegmentStruct(), "nog_stat_at", _pid(pid),
                                  _number(index, U32, "index")))

    def info(self) -> Usage:
        """shmctl, SHM_INFO: sums over all segments. It looks at each page that was touched."""
        return Usage(**_fields(self._ask(low.UsageStruct(), "nog_info")))

    def pieces(self, pid: int) -> List[Piece]:
        """The pieces of a live process, which are attachments or parts of them, in the order of their
        addresses, as /proc/PID/maps lists mappings."""
        pid, struct = _pid(pid), low.PieceStruct()
        found: List[Piece] = []
        while self._has("nog_piece_at", pid, len(found), byref(struct)):
            found.append(_piece(struct))
        return found

    def processes(self) -> List[ProcessEntry]:
        """All processes: live ones, children that are not born, and ended ones that were not dismissed."""
        struct = low.ProcessStruct()
        found: List[ProcessEntry] = []
        while self._has("nog_process_at", len(found), byref(struct)):
            found.append(ProcessEntry(struct.pid, State(struct.is_born), struct.uid, struct.gid))
        return found

    def failed_at(self, pid: int, addr: int, length: int, is_write: bool = False) -> Optional[int]:
        """The address of the first byte at which an access of these bytes would get SIGSEGV: it is not
        attached, or not for writing. None if each byte is attached as the access needs."""
        at = c_uint64()
        operands = (_pid(pid), _addr(addr), _number(length, U64, "length"), _truth(is_write, "is_write"))
        return at.value if self._has("nog_failed_at", *operands, byref(at)) else None

    def absent_at(self, pid: int, addr: int, length: int) -> Optional[int]:
        """Call it right after a `BusError`: the address of the access's first byte whose page is in no frame,
        if each byte before it is attached. None if there is no such byte."""
        at = c_uint64()
        operands = (_pid(pid), _addr(addr), _number(length, U64, "length"))
        return at.value if self._has("nog_absent_at", *operands, byref(at)) else None

    def _has(self, name: str, *operands: Any) -> bool:
        """Whether the library found an entry."""
        try:
            self._call(name, *operands)
        except OutOfRange:
            return False
        return True

    def calls(self) -> int:
        """How many calls of processes were counted."""
        return self._ask(c_uint64(), "nog_calls").value


def _identifier(value: Any) -> int:
    return _number(value, I32, "segment", -I32 - 1)
