"""System V shared memory calls over simulated processes: shmget, shmat, shmdt and shmctl, and loads and
stores.

    from nogcuvema import Area, Limits, Machine, Process

    with Machine(Limits(), [Area.ram(64)], [Process(1, uid=100, gid=100)]) as machine:
        segment = machine.get(1, 0, 8192)
        at = machine.attach(1, segment)
        machine.store(1, at + 4094, b"\\x01\\x02\\x03\\x04")
        print(machine.load(1, at + 4093, 6).hex())

A call that fails raises `Refused`, an OSError with errno; an access raises `SegmentationFault` or `BusError`.
The rules of each call are those of docs/MACHINE.md.
"""
from ._library import LibraryMissing, library_version
from ._version import VERSION as __version__
from .errors import (BadOpening, BusError, ClosedMachine, Fault, Incomplete, Lent, MachineError, NoMemory,
                     NotAdmitted, NotDismissed, OutOfRange,
                     Refused, SegmentationFault, Spent)
from .loans import Frame, Loan, ShownPage
from .machine import (PRIVATE, Area, Failure, Flag, Flushed, Limits, Machine, Piece, Process, ProcessEntry,
                      Rules, Segment, SegmentPages, State,
                      Tally, Usage, child)
from .script import Script, ScriptFault, areas_of, read_script

__all__ = ["PRIVATE", "Area", "BadOpening", "BusError", "ClosedMachine", "Failure", "Fault", "Flag",
           "Flushed", "Frame", "Incomplete",
           "Lent", "LibraryMissing", "Limits", "Loan",
           "Machine", "MachineError", "NoMemory", "NotAdmitted", "NotDismissed",
           "OutOfRange", "Piece",
           "Process", "ProcessEntry", "Refused", "Rules", "Script", "ScriptFault", "SegmentationFault",
           "Segment", "SegmentPages", "ShownPage", "Spent", "State", "Tally",
           "Usage", "__version__", "areas_of", "child", "library_version", "read_script"]
