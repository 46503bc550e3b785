"""The shared object, its structs, and its functions as ctypes calls them. Not for the package's users."""
import ctypes
import os
import threading
from ctypes import POINTER, Structure, byref, c_int32, c_size_t, c_uint8, c_uint32, c_uint64, c_void_p
from typing import Dict, List, Optional, Tuple

from .errors import error_of

HERE = os.path.dirname(os.path.abspath(__file__))


class LibraryMissing(ImportError):
    """The shared object was not found, or is not the one that this package was written for."""


class MachineStruct(Structure):
    _fields_ = [("is_open", c_uint32), ("kept", c_void_p)]


class LimitsStruct(Structure):
    _fields_ = [(name, c_uint64)
                for name in ("shmmax", "shmmni", "shmall", "frames", "memlock", "most_pieces",
                                               "most_processes", "most_slots", "rules")]


class AreaStruct(Structure):
    _fields_ = [("kind", c_uint32), ("slots", c_uint32)]


class FailureStruct(Structure):
    _fields_ = [(name, c_uint32) for name in ("area", "side", "is_write", "unused")] + [("call", c_uint64)]


class ProcessStruct(Structure):
    _fields_ = [(name, c_uint32) for name in ("pid", "is_born", "uid", "gid")]


class SegmentStruct(Structure):
    _fields_ = [(name, c_uint64) for name in ("size", "atime", "dtime", "ctime")] + [("id", c_int32)] + [
        (name, c_uint32) for name in ("key", "uid", "gid", "cuid", "cgid", "mode", "status", "cpid", "lpid",
                                      "nattch", "index")]


class TallyStruct(Structure):
    _fields_ = [(name, c_uint64)
                for name in ("events", "segments", "reserved", "locked", "frames", "resident", "dirty",
                                              "slots", "used", "ins", "outs", "failures")]


class FlushedStruct(Structure):
    _fields_ = [("written", c_uint64), ("failed", c_uint64)]


class UsageStruct(Structure):
    _fields_ = [(name, c_uint64) for name in ("used_ids", "pages", "resident", "swapped", "highest")]


class PieceStruct(Structure):
    _fields_ = [("base", c_uint64)] + [
        (name, c_uint32) for name in ("segment", "first_page", "pages", "is_writable", "may_write", "unused")]


class FrameStruct(Structure):
    _fields_ = [("id", c_int32)] + [
        (name, c_uint32) for name in ("page", "is_referenced", "is_dirty", "is_lent", "is_locked")]


# the structs in the order in which nog_layout numbers them
STRUCTS = (MachineStruct, LimitsStruct, AreaStruct, FailureStruct, ProcessStruct, SegmentStruct, TallyStruct,
           FlushedStruct,
           UsageStruct, PieceStruct, FrameStruct)
BYTES = POINTER(c_uint8)
# the parameters of each function, after the machine
FUNCTIONS: Dict[str, List[type]] = {
    "nog_open": [POINTER(LimitsStruct), POINTER(AreaStruct), c_size_t, POINTER(FailureStruct), c_size_t,
                 POINTER(ProcessStruct), c_size_t],
    "nog_close": [],
    "nog_get": [c_uint32, c_uint32, c_uint64, c_uint32, c_uint32, POINTER(c_int32)],
    "nog_attach": [c_uint32, c_int32, c_uint64, c_uint32, POINTER(c_uint64)],
    "nog_detach": [c_uint32, c_uint64],
    "nog_stat": [c_uint32, c_int32, POINTER(SegmentStruct)],
    "nog_set": [c_uint32, c_int32, c_uint32, c_uint32, c_uint32],
    "nog_remove": [c_uint32, c_int32],
    "nog_lock": [c_uint32, c_int32],
    "nog_unlock": [c_uint32, c_int32],
    "nog_load": [c_uint32, c_uint64, BYTES, c_size_t],
    "nog_store": [c_uint32, c_uint64, BYTES, c_size_t],
    "nog_add": [c_uint32, c_uint64, c_uint64, POINTER(c_uint64)],
    "nog_exchange": [c_uint32, c_uint64, BYTES, c_size_t, BYTES, c_size_t],
    "nog_compare_exchange": [c_uint32, c_uint64, BYTES, c_size_t, BYTES, c_size_t, BYTES, c_size_t],
    "nog_fork": [c_uint32, c_uint32],
    "nog_exec": [c_uint32],
    "nog_exit": [c_uint32],
    "nog_swapoff": [c_uint32, c_uint32],
    "nog_admit": [POINTER(ProcessStruct)],
    "nog_dismiss": [c_uint32],
    "nog_reserve": [c_uint32, c_uint64, c_uint64],
    "nog_release": [c_uint32, c_uint64, c_uint64],
    "nog_set_user": [c_uint32, c_uint32, c_uint32],
    "nog_set_time": [c_uint64],
    "nog_set_limits": [c_uint64, c_uint64, c_uint64, c_uint64],
    "nog_swapon": [POINTER(AreaStruct), POINTER(FailureStruct), c_size_t],
    "nog_fail": [POINTER(FailureStruct), c_uint32],
    "nog_fail_page": [c_int32, c_uint32],
    "nog_unmap": [c_uint32, c_uint64, c_uint64],
    "nog_protect": [c_uint32, c_uint64, c_uint64, c_uint32],
    "nog_snapshot": [POINTER(MachineStruct)],
    "nog_read": [c_uint32, c_uint64, BYTES, c_size_t, POINTER(c_uint64)],
    "nog_write": [c_uint32, c_uint64, BYTES, c_size_t, POINTER(c_uint64)],
    "nog_copy": [c_uint32, c_uint64, c_uint32, c_uint64, c_uint64, POINTER(c_uint64)],
    "nog_lend": [c_int32, c_uint32, BYTES, c_size_t],
    "nog_give_back": [c_int32, c_uint32, BYTES, c_size_t],
    "nog_leaver": [POINTER(FrameStruct)],
    "nog_frame_at": [c_uint32, POINTER(FrameStruct)],
    "nog_page_at": [c_uint32, c_uint64, POINTER(c_int32), POINTER(c_uint32), POINTER(c_uint32)],
    "nog_loans": [POINTER(c_uint64)],
    "nog_piece_of": [c_uint32, c_uint64, POINTER(PieceStruct)],
    "nog_segment_of": [c_int32, POINTER(SegmentStruct)],
    "nog_limits_of": [POINTER(LimitsStruct)],
    "nog_pages_of": [c_int32, POINTER(c_uint64), POINTER(c_uint64)],
    "nog_gone": [POINTER(c_uint32), c_size_t, POINTER(c_int32)],
    "nog_changes": [c_uint32, POINTER(c_uint64)],
    "nog_flush": [c_uint64, POINTER(FlushedStruct)],
    "nog_tally_of": [POINTER(TallyStruct)],
    "nog_indexes": [POINTER(c_uint32)],
    "nog_segment_at": [c_uint32, POINTER(SegmentStruct)],
    "nog_stat_at": [c_uint32, c_uint32, POINTER(SegmentStruct)],
    "nog_info": [POINTER(UsageStruct)],
    "nog_piece_at": [c_uint32, c_uint32, POINTER(PieceStruct)],
    "nog_process_at": [c_uint32, POINTER(ProcessStruct)],
    "nog_failed_at": [c_uint32, c_uint64, c_uint64, c_uint32, POINTER(c_uint64)],
    "nog_absent_at": [c_uint32, c_uint64, c_uint64, POINTER(c_uint64)],
    "nog_calls": [POINTER(c_uint64)],
}
# those that take no machine
OTHERS: Dict[str, List[type]] = {
    "nog_text": [c_uint32, BYTES, c_size_t, POINTER(c_size_t)],
    "nog_version": [],
    "nog_layout": [c_uint32, c_uint32, POINTER(c_size_t)],
}


def places() -> List[str]:
    """The paths to search for the shared object: only NOGCUVEMA_LIBRARY if it is set; else the package's
    folder, the repository's build/, the lib folder of the prefix that the package is installed in, and the
    system's search path."""
    named = os.environ.get("NOGCUVEMA_LIBRARY")
    if named:
        return [os.path.join(named, "libnogcuvema.so") if os.path.isdir(named) else named]
    up = [HERE]
    while len(up) < 6:
        up.append(os.path.dirname(up[-1]))
    found = [os.path.join(HERE, "libnogcuvema.so"), os.path.join(up[3], "build", "libnogcuvema.so")]
    found += [os.path.join(folder, "lib", "libnogcuvema.so") for folder in up[3:5]]
    return [path for path in found if os.path.isfile(path)] + ["libnogcuvema.so"]


class Library:
    """The functions of one shared object, whose structs are those of this package."""

    def __init__(self, path: str) -> None:
        try:
            self.functions = ctypes.CDLL(path)
            for name, parameters in {**FUNCTIONS, **OTHERS}.items():
                function = getattr(self.functions, name)
                function.argtypes = parameters if name in OTHERS else [POINTER(MachineStruct), *parameters]
                function.restype = c_uint32
        except (OSError, AttributeError) as error:
            raise LibraryMissing(f"no shared object of nogcuvema at {path}: {error}; ./lib builds it, or "
                                 f"./lib --unproved without proofs, and the variable "
                                 "NOGCUVEMA_LIBRARY names its file or folder") from None
        self.compare_layout(path)

    def compare_layout(self, path: str) -> None:
        """Checks that the library reports the same sizes and offsets."""
        for which, struct in enumerate(STRUCTS):
            told = [ctypes.sizeof(struct), *(getattr(struct, name[0]).offset for name in struct._fields_)]
            for field, mine in enumerate(told):
                value = c_size_t()
                if self.functions.nog_layout(which, field, byref(value)) or value.value != mine:
                    raise LibraryMissing(f"{path}: struct {which}, field {field} is at {value.value}, and "
                                         f"here at {mine}")

    def text(self, code: int) -> str:
        text, length = (c_uint8 * 256)(), c_size_t()
        if self.functions.nog_text(code, text, len(text), byref(length)):
            return f"code {code}"
        return bytes(text[:min(length.value, len(text) - 1)]).decode("ascii", "replace")

    def error(self, code: int, name: str, told: str = "") -> Optional[Exception]:
        """The exception for a code of a function; `told` says which number was wrong."""
        return error_of(code, self.text(code) + (f": {told}" if told else ""), name) if code else None


_kept: Dict[Tuple[str, ...], Library] = {}
_lock = threading.Lock()


def load_library() -> Library:
    """The library, loaded once for the places in which it is looked for."""
    looked = tuple(places())
    with _lock:
        if looked not in _kept:
            _kept[looked] = Library(looked[0])
        return _kept[looked]


def library_version() -> str:
    """The version of the shared object, as 1.2.3."""
    number = load_library().functions.nog_version()
    return f"{number // 10000}.{number // 100 % 100}.{number % 100}"
