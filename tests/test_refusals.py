"""What the host refuses: each request of the program to the allocator in turn, and each thread. It also
counts the bytes of the requests.

A serial run of which a request is refused prints nothing, and ends as out of memory. So does one with
threads, unless the request was a call's: then that call is marked, its variable is -1, and the rest of the
run is as if the call were not there. A sweep continues until a run makes no request that could be refused.

If a thread is refused, the run ends and prints nothing, requests no more threads, and no worker waits for a
process without a thread.

A world is swept with a twin (crates/shm_process_tests/src/twins.rt): both make the same calls. If memory is
refused to one of them at its start, its reserve or a call, it has the history, the tally and the state of the
other one, which always had memory. So it has afterwards, whether the refused call is made again or left out.
"""

from __future__ import annotations

import os
import re
from collections.abc import Sequence
from typing import Any, NamedTuple

import pytest

from commands import TOP, environment, run, text_of

LONGEST, MOST = 60, 5000
OUT_OF_MEMORY, REFUSED_THREAD = "shmsim: out of memory\n", "shmsim: thread refused\n"
# each kind of call that takes memory, and enough others to show what such a call leaves
SCRIPT = """limits 65536 16 64 4 1
process 1 100 100
child 2
1 s = shmget private 8192 600
1 a = shmat s null -
1 store a+4094 01020304
1 t = shmget 7 4096 600,creat
1 b = shmat t null rdonly
1 load b 2
1 shmget 7 1 600
1 fork 2
2 shmat 0 null -
2 u = shmget private 4096 600
2 d = shmat u null -
2 store d 2a
2 load 0x40000000 4
2 rmid 0
2 exit
"""
# what a line of the script becomes if its call finds no memory: the variable is -1 afterwards, and no memory
# was taken
NO_SIZE, NO_PLACE = "shmget private 0 600", "shmat 0 1 -"
# the standard library takes memory for all words of the command line at once, and does without it if that is
# refused. A serial run gives back the room of the lines that run last, and keeps it if that is refused
SPARED, SPARED_SERIAL = 1, 2
# how often a sweep with threads is made, at most: which request is whose depends on the threads
SWEEPS = 5
SWAPS = (["ram:64"], ["ram:3", "ram:5"], ["fuse:64:w9"], ["mirror:64"])
# a second area of 30 slots can take the first one's pages
TWIN_SWAPS = (["ram:64"], ["ram:3", "ram:30"], ["fuse:64:w2"], ["mirror:64"])
# the calls of two worlds: segments with and without a key, pieces that are cut, marked and destroyed
# segments, an index that is used again, refused calls, pages in three frames, a swapoff, and at the end a
# read of every byte that was written. A call that takes memory although there is room in the history has a
# variable
TWINS = """limits 65536 16 64 3 1
process 1 0 0
process 2 100 100
child 3
2 s = shmget 7 8192 666,creat
2 shmget 7 1 600
2 shmget 7 8192 600,creat,excl
1 shmget 8 4096 600
2 a = shmat s null -
2 store a+4094 01020304
1 t = shmget private 12288 600
1 b = shmat t null -
1 store b+4000 a1
1 store b+4096 a2
1 store b+8192 a3
2 shmat 1 null -
2 shmat s 0x50000000 rdonly
2 load 0x50000ffe 4
2 store 0x50000000 00
1 lock t
1 u = shmget 9 4096 600,creat
1 lock u
2 unlock u
1 c = shmat u b+4096 remap
1 store c 77
2 fork 3
3 store 0x40000000 55
3 rmid s
3 shmget 7 1 600
3 v = shmget 7 4096 640,creat
3 exec
1 rmid u
1 unlock u
1 shmdt c
1 w = shmget 9 8192 600,creat
0 flush 2
1 swapoff 0
1 set 3 100 100 666
2 d = shmat 3 null -
2 xadd d+8 72340172838076673
2 shmdt 0x50000000
1 stat t
2 stat s
2 load a 1
2 load a+4094 4
2 load d+8 8
1 load b+4000 1
1 load b+4096 1
1 shmat t null -
1 load b+8192 1
3 exit
2 exit
1 x = shmget private 65536 600
1 exit
"""


class Run(NamedTuple):
    """How a run ended: its status, its output and messages, its requests, their bytes, whether one was
    refused, and how many threads it requested."""

    status: int
    printed: str
    said: str
    requests: int = 0
    bytes: int = 0
    refused: int = 0
    threads: int = 0


class Host:
    """Runs a program with a library that refuses it one request, or one thread."""

    def __init__(self, library: str, folder: str, program: str) -> None:
        self.library, self.folder, self.program = library, folder, program

    def __call__(self, words: Sequence[str], script: str, which: int, thread: int = 0) -> Run:
        log = os.path.join(self.folder, "log")
        wanted = {"LD_PRELOAD": self.library, "REFUSE": str(which), "REFUSE_THREAD": str(thread),
                  "REFUSE_LOG": log}
        ended = run([self.program, *words], script, LONGEST, env=environment(**wanted))
        numbers = map(int, text_of(log).split())
        os.remove(log)
        return Run(*ended, *numbers)


@pytest.fixture(scope="module")
def library_that_refuses(tmp_path_factory: pytest.TempPathFactory) -> str:
    made = str(tmp_path_factory.mktemp("refuse") / "refuse.so")
    words = ["cc", "-std=c11", "-O1", "-Wall", "-Wextra", "-Werror", "-shared", "-fPIC", "-o", made]
    assert run([*words, os.path.join(TOP, "tests", "refuse.c")]) == (0, "", "")
    return made


@pytest.fixture
def host(library_that_refuses: str, folder: str, proved_shmsim: str) -> Host:
    return Host(library_that_refuses, folder, proved_shmsim)


@pytest.fixture
def host_of_twins(library_that_refuses: str, folder: str, proved_runner: str) -> Host:
    return Host(library_that_refuses, folder, proved_runner)


def is_stopped(ended: Run) -> bool:
    """Whether the run stopped because it got no memory, and printed nothing."""
    return (ended.status, ended.printed, ended.said) == (4, "", OUT_OF_MEMORY)


def is_whole(ended: Any, printed: Any) -> Any:
    return (ended.status, ended.printed, ended.said) == (0, printed, "")


def is_marked(ended: Run, printed: str) -> bool:
    """Whether everything was printed except a call that got no memory."""
    return (ended.status, ended.printed, ended.said) == (4, printed, OUT_OF_MEMORY)


def takers(lines: Any) -> Any:
    """The lines whose calls take memory, by place: they have a variable. A second attach takes none."""
    return [n for n, line in enumerate(lines) if " = shm" in line]


def without_event(printed: str, place: int) -> str:
    """The output without one event, counted from 0: the later ones have a lower number."""
    lines = printed.splitlines()
    del lines[place]
    for n, line in enumerate(lines):
        number, _, rest = line.partition(" ")
        if number.isdigit():
            lines[n] = f"{n + 1} {rest}"
        elif line.startswith("usage events "):
            words = line.split()
            lines[n] = " ".join([*words[:2], str(int(words[2]) - 1), *words[3:]])
    return "".join(line + "\n" for line in lines)


def marked_outputs(host: Host, words: Any) -> Any:
    """For each line, the output if its call is marked: the script runs with a call there that is refused and
    changes nothing, and that event is removed."""
    lines, found = SCRIPT.splitlines(), {}
    first = next(n for n, line in enumerate(lines) if line[0].isdigit())
    for n in takers(lines):
        head, _, call = lines[n].partition(" = ")
        other = [*lines[:n], f"{head} = {NO_SIZE if call.startswith('shmget') else NO_PLACE}",
                 *lines[n + 1 :]]
        ended = host(words, "\n".join(other) + "\n", 0)
        found[lines[n]] = without_event(ended.printed, n - first)
    return found


@pytest.mark.parametrize("swaps", SWAPS, ids=" ".join)
def test_serial(host: Host, swaps: list[str]) -> None:
    """Each request of a serial run is refused."""
    words = ["serial", *swaps]
    whole, spared = host(words, SCRIPT, 0), 0
    assert whole.printed
    assert is_whole(whole, whole.printed)
    for which in range(1, MOST):
        ended = host(words, SCRIPT, which)
        if not ended.refused:
            break
        spared += is_whole(ended, whole.printed)
        told = f"request {which} of {whole.requests} was refused"
        assert is_stopped(ended) or is_whole(ended, whole.printed), told
    assert is_whole(ended, whole.printed)
    assert 20 < which < MOST - 1
    assert spared <= SPARED_SERIAL


@pytest.mark.parametrize("swaps", SWAPS, ids=" ".join)
def test_threads(host: Host, swaps: list[str]) -> None:
    """Each request of a run with threads is refused. Each call that takes memory must be marked at least
    once, in the first sweep or in one more."""
    words = ["threads", *swaps]
    whole, marked = host(words, SCRIPT, 0), marked_outputs(host, ["serial", *swaps])
    seen: set[str] = set()
    for _ in range(SWEEPS):
        sweep_once(host, words, whole, marked, seen)
        if seen >= {*marked}:
            break
    assert seen >= {*marked}


def sweep_once(host: Host, words: list[str], whole: Run, marked: dict[str, str], seen: set[str]) -> None:
    """Makes one such sweep, and adds the lines that were marked to those seen."""
    stopped, spared = 0, 0
    for which in range(1, MOST):
        ended = host(words, SCRIPT, which)
        if not ended.refused:
            assert is_whole(ended, whole.printed)
            break
        named = [line for line, printed in marked.items() if is_marked(ended, printed)]
        seen.update(named)
        stopped += is_stopped(ended)
        spared += is_whole(ended, whole.printed)
        is_refused_thread = ended[:3] == (3, "", REFUSED_THREAD)
        assert named or is_stopped(ended) or is_whole(ended, whole.printed) or is_refused_thread, which
    assert stopped > 20
    assert spared <= SPARED


@pytest.mark.parametrize("places", [(0, 1, 2), (5, 6, 7), (0, 3, 7), (1, 2, 6)], ids=str)
def test_started(host: Host, places: tuple[int, ...]) -> None:
    """Each thread is refused in turn: the flusher's, which comes first, and that of each process in the order
    of the script. The three processes that could fork are at other places each time among five children that
    wait for them."""
    names = [str(n) for n in range(1, 9)]
    parents = [names[place] for place in places]
    children = [name for name in names if name not in parents]
    lines = [f"process {name} 100 100" if name in parents else f"child {name}" for name in names]
    lines += [f"{parents[n % 3]} fork {child}" for n, child in enumerate(children)]
    lines += [f"{name} shmget private 1 600" for name in names]
    script = "limits 65536 16 64 4 1\n" + "\n".join(lines) + "\n"
    for thread in range(1, len(names) + 2):
        ended = host(["threads", "ram:64"], script, 0, thread)
        assert (*ended[:3], ended.threads) == (3, "", REFUSED_THREAD, thread)
    ended = host(["threads", "ram:64"], script, 0, len(names) + 2)
    assert (ended.status, ended.said, ended.threads) == (0, "", len(names) + 1)


@pytest.mark.parametrize("mode", ["twins", "twins-with-room", "twins-without-it"])
@pytest.mark.parametrize("swaps", TWIN_SWAPS, ids=" ".join)
def test_twins(host_of_twins: Host, mode: str, swaps: list[str]) -> None:
    """Each request of two worlds that make the same calls is refused. Each call that takes memory must be
    refused, in the first world and in the second. With room in the history no other call is. A call is made
    again where it was refused, or is left out in both."""
    lines = [line for line in TWINS.splitlines() if line[0] in "123456789"]
    takers = {str(n) for n, line in enumerate(lines) if " = shm" in line}
    seen: set[str] = set()
    for which in range(1, MOST):
        ended = host_of_twins([mode, *swaps], TWINS, which)
        *told, last = ended.printed.splitlines() or [""]
        seen |= {*told}
        left_out = mode == "twins-without-it" and bool(told) and told[0].removeprefix("refused ").isdigit()
        is_same = (ended.status, last, ended.said) == (0, f"same {len(lines) - left_out}", "")
        is_out = (ended.status, told, last) == (4, [], "") and ended.said.endswith(": out of memory\n")
        if not ended.refused:
            break
        assert is_out or is_same and len(told) <= 1, f"request {which} of {ended.requests} was refused"
    assert is_same
    assert not told
    assert 60 < which < MOST - 1
    assert "refused start" in seen
    assert ("refused reserve" in seen) == (mode != "twins")
    for word in ("", " again"):
        found = {match[1] for match in (re.fullmatch(rf"refused (\d+){word}", it) for it in seen) if match}
        assert takers <= found
        assert bool(found - takers) == (mode == "twins")


# bytes of a line as it was read: a pid and a variable (8), and the longest call, a store: its kind, bytes and
# their number (72), an address (24). Of an event: a pid (8), the longest call (72 + 8), and the longest
# reply, that of stat (8 + 72)
LINE, EVENT = 104, 168
# a script that is read gets room for a line every eight bytes, and for no more lines than a script may have
SHORT_LINE, MOST_LINES = 8, 100_000
LONGEST_SCRIPT, BUFFER = 1_048_576, 4096


def input_bytes(length: Any) -> Any:
    """The bytes that a list requests while the input is added buffer by buffer: its room is doubled if that
    is enough."""
    room = asked = 0
    for read in range(BUFFER, length + BUFFER, BUFFER):
        if min(read, length) > room:
            room = max(min(read, length), 2 * room)
            asked += room
    return asked


def script_bytes(length: Any) -> Any:
    """The bytes that reading a script requests, and the room for its lines."""
    return input_bytes(length) + LINE * min(length // SHORT_LINE, MOST_LINES)


def padded(lines: Any, length: Any) -> Any:
    """A script of this many flush lines and of blanks, this many bytes long. It has no call, so the output
    does not grow with its lines; each line has room in the history."""
    text = "limits 4096 16 64 2 0\n" + "0 flush 1\n" * lines
    return text + " " * (length - len(text) - 1) + "\n"


def test_bytes(host: Host) -> None:
    """More lines, from one to all that a script may have, need memory only for their events. A longer script
    needs memory for itself and for its lines."""
    few, many, short = (host(["serial", "ram:1"], padded(lines, length), 0).bytes
                        for lines, length in ((1, LONGEST_SCRIPT), (MOST_LINES, LONGEST_SCRIPT), (1, BUFFER)))
    # a list of one event has room for four
    assert many - few == (MOST_LINES - 4) * EVENT
    assert few - short == script_bytes(LONGEST_SCRIPT) - script_bytes(BUFFER)


WHOLE = "1 1 exit = ok\nusage events 1\n"


@pytest.mark.parametrize("ended", [
    Run(0, "", OUT_OF_MEMORY), Run(3, "", OUT_OF_MEMORY), Run(4, WHOLE, OUT_OF_MEMORY),
    Run(4, "\n", OUT_OF_MEMORY),
    Run(4, "", ""), Run(4, "", "shmsim: write failed\n"),
    Run(2, "", "shmsim: usage: shmsim serial|threads SWAP...\n")])
def test_is_not_stopped(ended: Run) -> None:
    """A run that leaves something of a refused call, or prints another message, has not stopped."""
    assert not is_stopped(ended)


@pytest.mark.parametrize("ended", [
    Run(0, WHOLE, OUT_OF_MEMORY), Run(4, WHOLE, ""), Run(4, "", OUT_OF_MEMORY),
    Run(4, WHOLE + WHOLE, OUT_OF_MEMORY),
    Run(4, WHOLE.replace("events 1", "events 2"), OUT_OF_MEMORY)])
def test_is_not_marked(ended: Run) -> None:
    assert not is_marked(ended, WHOLE)


def test_without_event() -> None:
    printed = "1 1 exec = ok\n2 1 exit = ok\nusage events 2 segments 0\n"
    assert without_event(printed, 0) == "1 1 exit = ok\nusage events 1 segments 0\n"
