"""The programs alone: words that are no command line, threads that the host refuses, and an unproved one."""

from __future__ import annotations

import resource

import pytest

from commands import TOP, Ended, run, write_file

USAGE = "shmsim: usage: shmsim serial|threads SWAP..."


@pytest.mark.parametrize("words", [
    "", "serial", "threads", "threads ram:0", "parallel ram:1", "serial ram", "serial ram:0",
    "serial ram:268435457",
    "serial ram:+1", "serial " + "ram:1 " * 9, "serial fuse:1", "serial fuse:1:r0", "serial fuse:1:x1",
    "serial fuse:1:w18446744073709551616", "serial mirror:1:r1", "--help", "--version"])
def test_usage(shmsim: str, words: str) -> None:
    """Words that are no command line, by the program itself, which prints one line."""
    assert run([shmsim, *words.split()]) == (2, "", f"{USAGE}\n")


def refused(shmsim: str, script: str, kilobytes: int) -> Ended:
    """A run with threads whose address space has no room for all stacks."""
    def bound() -> None:
        resource.setrlimit(resource.RLIMIT_AS, (1024 * kilobytes, 1024 * kilobytes))

    return run([shmsim, "threads", "ram:64"], script, preexec_fn=bound)


HEAD = "limits 65536 16 64 4 1\n"
MANY = HEAD + "".join(f"process {pid} 0 0\n" for pid
                      in range(1, 65)) + "".join(f"{pid} shmget private 1 600\n" for pid in range(1, 65))


@pytest.mark.parametrize("kilobytes", [60000, 20000, 6000])
def test_refused_thread(proved_shmsim: str, kilobytes: int) -> None:
    assert refused(proved_shmsim, MANY, kilobytes) == (3, "", "shmsim: thread refused\n")


@pytest.mark.parametrize("place", range(64))
def test_no_child_waits(proved_shmsim: str, place: int) -> None:
    """No child waits for a process that was refused its thread, or was not started after one that was
    refused: process 1 has each place among its children, so in one of these runs it is the first that is
    refused."""
    children = [f"child {child}\n" for child in range(2, 65)]
    script = HEAD + "".join([*children[:place], "process 1 0 0\n", *children[place:], "1 exec\n"])
    assert refused(proved_shmsim, script, 60000) == (3, "", "shmsim: thread refused\n")


def test_fault_of_an_unproved_program(folder: str) -> None:
    """The start script says that nothing was proved, compiles the programs, and passes on what they say."""
    with open(write_file(folder, "bad.shm", "limits 65536 16 64 4 1\nno form\n"), encoding="ascii") as file:
        ended = run([f"{TOP}/shmsim", "--unproved", "serial", "ram:1"], file.read(), seconds=900)
    first, *compiled, last = ended.said.splitlines()
    assert (ended.status, ended.out) == (1, "")
    assert first == "shmsim: nothing is proved on this machine by this run"
    assert last == "shmsim: line 2: bad line"
    assert compiled == [] or compiled[0].startswith("shmsim: compiling ")
