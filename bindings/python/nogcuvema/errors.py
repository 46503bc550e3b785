"""The exceptions that a call raises if its code is not 0.

    Refused            an OSError with an errno of the rules, such as EINVAL; also PermissionError,
                       FileNotFoundError and others if Python has a class for the errno
    Fault              a signal that the process would get: SegmentationFault or BusError
    MachineError       a mistake of the caller, or out of memory; the call changed nothing
"""
import errno
from typing import Dict, Optional, Type

# codes of the library that are not an errno
SIGBUS, SIGSEGV = 1007, 1011
NO_MEMORY, CLOSED, OUT_OF_RANGE, SPENT, LENT = 2001, 2002, 2003, 2004, 2005


class Refused(OSError):
    """A call that fails by the rules. `errno` has Linux's number, `name` its name, `call` the function."""

    def __init__(self, code: int, name: str, call: str) -> None:
        super().__init__(code, f"{call}: {name}")
        self.name = name
        self.call = call


class NotPermitted(Refused, PermissionError):
    """EPERM or EACCES."""


class NoSuchKey(Refused, FileNotFoundError):
    """ENOENT: no segment has the key, and CREAT is not set."""


class NoSuchProcess(Refused, ProcessLookupError):
    """ESRCH: no live process has the pid."""


class KeyTaken(Refused, FileExistsError):
    """EEXIST: a segment with the key already exists."""


class NoSuchChild(Refused, BlockingIOError):
    """EAGAIN: no unborn child has the pid."""


class Fault(Exception):
    """An access that ends in a signal. `name` is the signal's name, `call` the function."""

    def __init__(self, name: str, call: str) -> None:
        super().__init__(f"{call}: {name}")
        self.name = name
        self.call = call


class SegmentationFault(Fault):
    """SIGSEGV: a byte is not attached, or not for writing. Nothing was changed."""


class BusError(Fault):
    """SIGBUS: a swap area failed. No byte of any segment was changed."""


class MachineError(Exception):
    """The call was not made: it changed nothing, and may be repeated. `code` is the library's code."""

    def __init__(self, code: int, text: str, call: str) -> None:
        super().__init__(f"{call}: {text}")
        self.code = code
        self.call = call


class NoMemory(MachineError, MemoryError):
    """Out of memory."""


class ClosedMachine(MachineError, ValueError):
    """The machine is closed."""


class OutOfRange(MachineError, ValueError):
    """A number that does not fit the call's parameter."""


class Spent(MachineError):
    """The machine has counted 2^64 - 1 calls."""


class Lent(MachineError):
    """A page on loan is in the way: the one that the call needs, or the one that would have to leave its
    frame, which `leaver` shows. Give it back and repeat the call."""


class BadOpening(MachineError, ValueError):
    """Limits, areas or processes that the machine can't have."""


class NotAdmitted(MachineError, ValueError):
    """A process that can't be admitted: its pid is out of range or in use, or there are too many."""


class NotDismissed(MachineError, ValueError):
    """A process that can't be dismissed: no process has the pid, or it is live."""


class Incomplete(Exception):
    """A read, write or copy that failed after its first bytes. `done` bytes were read or written, `data`
    holds the bytes that were read, and `__cause__` is the exception of the access that failed."""

    def __init__(self, done: int, data: bytes, cause: BaseException) -> None:
        super().__init__(f"{cause} after {done} bytes")
        self.done = done
        self.data = data


_BY_ERRNO: Dict[int, Type[Refused]] = {errno.EPERM: NotPermitted, errno.EACCES: NotPermitted,
                                       errno.ENOENT: NoSuchKey,
                                       errno.ESRCH: NoSuchProcess, errno.EEXIST: KeyTaken,
                                       errno.EAGAIN: NoSuchChild}
_BY_CODE: Dict[int, Type[MachineError]] = {NO_MEMORY: NoMemory, CLOSED: ClosedMachine,
                                           OUT_OF_RANGE: OutOfRange, SPENT: Spent, LENT: Lent,
                                           **dict.fromkeys((2031, 2032, 2033), NotAdmitted),
                                           **dict.fromkeys((2041, 2042), NotDismissed)}


def error_of(code: int, text: str, call: str) -> Optional[Exception]:
    """The exception for a code of the library, None for 0."""
    if code == 0:
        return None
    if code == SIGSEGV:
        return SegmentationFault(text, call)
    if code == SIGBUS:
        return BusError(text, call)
    if code < 1000:
        return _BY_ERRNO.get(code, Refused)(code, text, call)
    return _BY_CODE.get(code, BadOpening)(code, text, call)
