"""Pages on loan: copies of pages that the program keeps while its guests use them."""
from ctypes import c_uint8
from dataclasses import dataclass
from types import TracebackType
from typing import TYPE_CHECKING, Optional, Type

from .errors import OUT_OF_RANGE, OutOfRange

if TYPE_CHECKING:
    from .machine import Machine

PAGE_BYTES = 4096


@dataclass(frozen=True)
class Frame:
    """A page frame that has a page."""
    segment: int         # the identifier of the page's segment
    page: int            # the page of the segment, from 0
    is_referenced: bool  # the page was used since the clock's hand passed
    is_dirty: bool       # its bytes may differ from those in its slot
    is_lent: bool        # it is on loan
    is_locked: bool      # its segment is locked, so the page never leaves


@dataclass(frozen=True)
class ShownPage:
    """The page that an address of a process shows."""
    segment: int       # the identifier of its segment
    page: int
    is_writable: bool  # whether the process may write there


class Loan:
    """A page on loan, from `Machine.lend`. `data` has the page's bytes, which the program may change.

    The end of a `with` block gives the page back with the bytes of `data`. A loan that is dropped gives the
    page back with the bytes that it had when it was lent."""

    def __init__(self, machine: "Machine", segment: int, page: int, data: bytearray) -> None:
        self._machine: Optional["Machine"] = machine
        self.segment = segment
        self.page = page
        self.data = data

    @property
    def is_given_back(self) -> bool:
        return self._machine is None

    def give_back(self, changed: bool = True) -> None:
        """Gives the page back: with the bytes of `data`, or, if `changed` is false, with those that it had
        when it was lent. Raises `Refused` with EINVAL if its segment was destroyed, which ended the loan."""
        machine = self._machine
        if machine is None:
            raise OutOfRange(OUT_OF_RANGE, "the page was given back before", "nog_give_back")
        if changed and len(self.data) != PAGE_BYTES:
            raise OutOfRange(OUT_OF_RANGE, f"the length of data {len(self.data)} is not {PAGE_BYTES}",
                             "nog_give_back")
        room = (c_uint8 * PAGE_BYTES).from_buffer_copy(self.data) if changed else None
        self._machine = None
        machine._call("nog_give_back", self.segment, self.page, room, PAGE_BYTES if changed else 0)

    def __enter__(self) -> "Loan":
        return self

    def __exit__(self, kind: Optional[Type[BaseException]], value: Optional[BaseException],
                 trace: Optional[TracebackType]) -> None:
        if self._machine is not None:
            self.give_back()

    def __del__(self) -> None:
        machine = getattr(self, "_machine", None)
        if machine is not None and machine.is_open:
            machine._library.functions.nog_give_back(machine._machine, self.segment, self.page, None, 0)
