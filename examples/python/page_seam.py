#!/usr/bin/env python3
"""Two pages side by side: a store and a load across the seam between them, by the shared object.

    page_seam.py [FOLDER]     the folder with libnogcuvema.so; build/ of this repository where none is named
"""
import ctypes
import os
import sys
from ctypes import POINTER, Structure, byref, c_int32, c_size_t, c_uint8, c_uint32, c_uint64, c_void_p

TOP = os.path.dirname(os.path.dirname(os.path.dirname(os.path.abspath(__file__))))
PID, PRIVATE, RAM = 1, 0, 1


class Machine(Structure):
    _fields_ = [("is_open", c_uint32), ("kept", c_void_p)]


class Limits(Structure):
    _fields_ = [(name, c_uint64) for name in ("shmmax", "shmmni", "shmall", "frames", "memlock",
                                              "most_pieces", "most_processes", "most_slots", "rules")]


class Area(Structure):
    _fields_ = [("kind", c_uint32), ("slots", c_uint32)]


class Failure(Structure):
    _fields_ = [(name, c_uint32) for name in ("area", "side", "is_write", "unused")] + [("call", c_uint64)]


class Process(Structure):
    _fields_ = [(name, c_uint32) for name in ("pid", "is_born", "uid", "gid")]


# the types of the parameters after the machine; ctypes would guess them
FUNCTIONS = {
    "nog_open": [POINTER(Limits), POINTER(Area), c_size_t, POINTER(Failure), c_size_t, POINTER(Process), c_size_t],
    "nog_close": [],
    "nog_get": [c_uint32, c_uint32, c_uint64, c_uint32, c_uint32, POINTER(c_int32)],
    "nog_attach": [c_uint32, c_int32, c_uint64, c_uint32, POINTER(c_uint64)],
    "nog_store": [c_uint32, c_uint64, POINTER(c_uint8), c_size_t],
    "nog_load": [c_uint32, c_uint64, POINTER(c_uint8), c_size_t],
}


class Refused(Exception):
    """A call returned a code."""


class Library:
    """The functions of the shared object; one that returns a code raises its text."""

    def __init__(self, folder):
        self.library = ctypes.CDLL(os.path.join(folder, "libnogcuvema.so"))
        for name, parameters in FUNCTIONS.items():
            function = getattr(self.library, name)
            function.argtypes, function.restype = [POINTER(Machine), *parameters], c_uint32
        self.library.nog_text.argtypes = [c_uint32, POINTER(c_uint8), c_size_t, POINTER(c_size_t)]

    def call(self, name, *operands):
        code = getattr(self.library, name)(*operands)
        if code:
            raise Refused(f"{name}: {self.text(code)}")

    def text(self, code):
        text, length = (c_uint8 * 64)(), c_size_t()
        self.library.nog_text(code, text, len(text), byref(length))
        return bytes(text[:min(length.value, len(text) - 1)]).decode()


def run(library, machine):
    limits = Limits(shmmax=65536, shmmni=16, shmall=64, frames=4, memlock=1)
    areas, none, processes = (Area * 1)((RAM, 64)), (Failure * 1)(), (Process * 1)((PID, 1, 100, 100))
    shmid, at, loaded = c_int32(), c_uint64(), (c_uint8 * 6)()
    library.call("nog_open", byref(machine), byref(limits), areas, 1, none, 0, processes, 1)
    library.call("nog_get", byref(machine), PID, PRIVATE, 8192, 0o600, 0, byref(shmid))
    library.call("nog_attach", byref(machine), PID, shmid.value, 0, 0, byref(at))
    print(f"segment {shmid.value} at {at.value:#x}")
    library.call("nog_store", byref(machine), PID, at.value + 4094, (c_uint8 * 4)(1, 2, 3, 4), 4)
    library.call("nog_load", byref(machine), PID, at.value + 4093, loaded, len(loaded))
    print(bytes(loaded).hex())


def main():
    library = Library(sys.argv[1] if len(sys.argv) > 1 else os.path.join(TOP, "build"))
    machine = Machine()
    try:
        run(library, machine)
    except Refused as error:
        sys.exit(f"page_seam: {error}")
    finally:
        library.library.nog_close(byref(machine))


if __name__ == "__main__":
    main()
