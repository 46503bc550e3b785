"""Scripts: faults and transcripts are the stored ones; a fault's word, column and what is allowed."""

from __future__ import annotations

from pathlib import Path

import pytest

from nogcuvema import Limits, Machine, ScriptFault, areas_of, read_script
from nogcuvema.script import transcript

TOP = Path(__file__).resolve().parents[3]
# the stored scripts, and those of them whose run is serial and ends well
STORED = sorted([*TOP.glob("tests/scripts/*/*.shm"), *TOP.glob("examples/*.shm")])
SERIAL = [it for it in STORED if it.parent.name != "threads" and not it.with_suffix(".status").exists()]
HEAD = "limits 65536 16 64 4 1\nprocess 1 100 100\n"
# each row is a line that follows the two of HEAD, the kind of its fault, the faulty word, its column, and
# what is allowed there
FAULTS = (
    ("1 s = shmgt private 4096 600", "bad line", "shmgt", 7, "shmget"),
    ("1 s = shmget private 4096 0600", "bad line", "0600", 27, "three octal digits"),
    ("1 exit\r", "bad byte", "\r", 7, "carriage return"),
    ("1 load 0x40000000 65", "bad number", "65", 19, "1 to 64"),
    ("1 load 0x40000000", "bad line", "0x40000000", 8, "load ADDRESS LENGTH"),
    ("1 load 0x40000000 1 2", "bad line", "2", 21, "load ADDRESS LENGTH"),
    ("1 load a+18446744073709551616 1", "bad number", "a+18446744073709551616", 8, "18446744073709551615"),
    ("1 load ab 1", "bad line", "ab", 8, "variable"),
    ("1 store a+z 00", "bad line", "a+z", 9, "variable"),
    ("1 store a 0", "bad line", "0", 11, "hexadecimal digits"),
    ("1 shmat 0 null rnd,rnd", "bad line", "rnd,rnd", 16, "at most once"),
    ("1 s = exit", "bad line", "exit", 7, "shmget, shmat, xadd, swap or cas"),
    ("1 cas a 00 0102", "lengths differ", "0102", 12, "1"),
    ("1 cas a 0000 01", "lengths differ", "01", 14, "2"),
    ("1 cas a " + "00" * 17 + " 00", "bad line", "00" * 17, 9, "1 to 16 bytes"),
    ("1 cas a 00", "bad line", "00", 9, "cas ADDRESS EXPECTED NEW"),
    ("1 s = swap a " + "00" * 9, "too wide for a variable", "00" * 9, 14, "at most 8 bytes"),
    ("1 s = cas a " + "00" * 9 + " " + "01" * 9, "too wide for a variable", "01" * 9, 32, "at most 8 bytes"),
    ("1 s = munmap a 4096", "bad line", "munmap", 7, "shmget, shmat, xadd, swap or cas"),
    ("1 munmap a", "bad line", "a", 10, "munmap ADDRESS LENGTH"),
    ("1 munmap a 18446744073709551616", "bad number", "18446744073709551616", 12, "a number"),
    ("1 mprotect a 4096 r", "bad line", "r", 19, "ro or rw"),
    ("1 mprotect a 4096", "bad line", "4096", 14, "mprotect ADDRESS LENGTH PROTECTION"),
    ("1 setuid 4294967296 0", "bad number", "4294967296", 10, "4294967295"),
    ("1 setuid 0", "bad line", "0", 10, "setuid UID GID"),
    ("2 exit", "unknown process", "2", 1, "1"),
    ("1 fork 7", "unknown process", "7", 8, "1"),
    ("0 flush 0", "bad number", "0", 9, "1 to 4096"),
    ("process 1 0 0", "process declared twice", "1", 9, "not declared"),
    ("rules linux", "bad line", "rules", 1, "one rules line"),
    ("sizes 1 1 1", "bad line", "sizes", 1, "one sizes line"),
)
# whole scripts, with the line of the fault before its kind
FAULTS_OF_SIZES = (
    ("sizes 0 0 0\n", 1, "bad limits 6", "0", 7, "PIECES is from 1 to 65530"),
    ("sizes 1 32769 0\n", 1, "bad limits 7", "32769", 9, "PROCESSES is from 1 to 32768"),
    ("sizes 1 1 268435457\n", 1, "bad limits 8", "268435457", 11, "SLOTS is from 1 to 268435456"),
    ("sizes 1 1\n", 1, "bad line", "1", 9, "sizes PIECES PROCESSES SLOTS"),
    ("sizes 0 0 18446744073709551616\n", 1, "bad number", "18446744073709551616", 11, "a number"),
    ("sizes 1 1 1\nlimits 1099511627777 1 1 2 0\n", 2, "bad limits 1", "1099511627777", 8,
     "SHMMAX is from 1 to 1099511627776"),
    ("limits 16777217 1 1 2 0\n", 1, "bad limits 1", "16777217", 8, "SHMMAX is from 1 to 16777216"),
    ("sizes 1 1 1\nlimits 1 1 1 4 3\n", 2, "bad limits 5", "3", 16, "MEMLOCK is from 0 to 2"),
    ("sizes 1 1 1\nsizes 1 1 1\n", 2, "bad line", "sizes", 1, "one sizes line"),
    ("sizes 1 1 1\nprocess 1 0 0\n", 2, "no limits line", "process", 1,
     "limits SHMMAX SHMMNI SHMALL FRAMES MEMLOCK"),
    ("sizes 1 1 1\n", 1, "no limits line", "", 0, "limits SHMMAX SHMMNI SHMALL FRAMES MEMLOCK"),
    ("sizes 1 2 1\nlimits 1 1 1 2 0\nchild 1\nchild 2\nchild 3\n", 5, "too many lines", "child", 1,
     "2 processes at most"),
    ("limits 1 1 1 2 0\n" + "".join(f"child {pid}\n" for pid in range(1, 66)), 66, "too many lines", "child",
     1, "64 processes at most"),
    ("sizes 1 70 1\nlimits 1 1 1 2 0\n" + "".join(f"child {pid}\n" for pid in range(1, 71)) + "71 exit\n", 73,
     "unknown process", "71", 1, "64 and 6 more"),
)


def text_of(path: Path, missing: str = "") -> str:
    return path.read_text("ascii") if path.exists() else missing


def test_scripts_are_stored() -> None:
    assert len(SERIAL) > 50 and len(STORED) > len(SERIAL)


@pytest.mark.parametrize("path", STORED, ids=[it.stem for it in STORED])
def test_stored_faults(path: Path) -> None:
    said = ""
    try:
        read_script(path.read_bytes())
    except ScriptFault as fault:
        said = f"shmsim: {fault}\n"
    wanted = text_of(path.with_suffix(".err"))
    assert said == (wanted if wanted.startswith("shmsim: line ") else "")


@pytest.mark.parametrize("path", SERIAL, ids=[it.stem for it in SERIAL])
def test_stored_transcripts(path: Path) -> None:
    swap = text_of(path.with_suffix(".swap"), "ram:64")
    assert transcript(path.read_bytes().decode(), swap) == text_of(path.with_suffix(".out"))


# each line follows the two of HEAD
@pytest.mark.parametrize("script, line, kind, word, column, allowed",
                         [*FAULTS_OF_SIZES, *((f"{HEAD}{line}\n", 3, *rest) for line, *rest in FAULTS)])
def test_faults(script: str, line: int, kind: str, word: str, column: int, allowed: str) -> None:
    fault = pytest.raises(ScriptFault, read_script, script).value
    assert (fault.line, fault.kind, fault.word, fault.column) == (line, kind, word, column)
    assert allowed in fault.allowed


def test_sizes() -> None:
    larger = read_script("sizes 300 70 1000\nlimits 33554432 5000 8192 4 1\nrules fork_marks\n")
    assert larger.limits == Limits(33554432, 5000, 8192, 4, 1, 300, 70, 1000, 4)
    assert read_script("limits 65536 16 64 4 1\n").limits == Limits(65536, 16, 64, 4, 1)


def test_a_machine_from_a_script() -> None:
    script = (HEAD + "1 s = shmget private 8192 600\n1 a = shmat s null -\n1 store a 2a\n0 flush 1\n"
              "1 load 0 1\n")
    with Machine.from_script(script, ["sparse:8", "ram:1"]) as machine:
        assert machine.load(1, 0x40000000, 1) == b"\x2a"
        assert (machine.calls(), machine.tally().outs, machine.tally().slots) == (5, 1, 9)
    pytest.raises(ScriptFault, Machine.from_script, "limits\n")
    pytest.raises(ValueError, Machine.from_script, HEAD, "ram:0")


def test_words_for_swap_areas() -> None:
    [area] = areas_of("fuse:3:w7")
    assert (area.slots, [(it.call, it.is_write) for it in area.failures]) == (3, [(7, True)])
    for words in ("", "ram", "ram:0", "ram:268435457", "ram:+1", "disk:1", "fuse:1", "fuse:1:r0",
                  "fuse:1:x1", "mirror:1:r1", "fuse:1:w18446744073709551616", "ram:1 " * 9):
        pytest.raises(ValueError, areas_of, words)
    assert len(areas_of("ram:1 " * 8)) == 8
