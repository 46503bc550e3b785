"""The prompt: its answers, what it saves, and that its help names the refusals of the header."""

from __future__ import annotations

import os
import re
import shutil
import subprocess
import sys
from collections.abc import Iterator
from contextlib import closing
from pathlib import Path
from unittest import mock

import pytest

import nogcuvema
from nogcuvema import read_script
from nogcuvema.__main__ import HEAD, Prompt
from nogcuvema.calls import RULES
from nogcuvema.script import CALLS, transcript

HEADER = Path(__file__).resolve().parents[2] / "c" / "nogcuvema.h"
# the function of each call, if it has another name
FUNCTIONS = {"shmget": "get", "shmat": "attach", "shmdt": "detach", "xadd": "add", "swap": "exchange",
             "cas": "compare_exchange", "rmid": "remove", "munmap": "unmap", "mprotect": "protect",
             "setuid": "set_user"}
LINES: tuple[tuple[str, list[str]], ...] = (
    ("1 s = shmget private 8192 600", ["1 1 shmget 0x00000000 8192 600 = 0"]),
    ("1 a = shmat s null -", ["2 1 shmat 0 null - = 0x40000000"]),
    ("# a comment", []),
    ("1 store a+4094 01020304", ["3 1 store 0x40000ffe 01020304 = ok"]),
    ("1 load a+4093 6", ["4 1 load 0x40000ffd 6 = 000102030400"]),
    ("1 load 0x50000000 1", ["5 1 load 0x50000000 1 = SIGSEGV"]),
    ("0 flush 8", ["flush: 2 written, 0 failed"]),
    ("1 fork 2", ["6 1 fork 2 = ok"]),
    ("2 load 0x40000fff 1", ["7 2 load 0x40000fff 1 = 02"]),
)


@pytest.fixture
def prompt() -> Iterator[Prompt]:
    with closing(Prompt(["ram:64"])) as it:
        yield it


def say_all(prompt: Prompt) -> None:
    for line, wanted in LINES:
        assert prompt.answer(line) == wanted


def test_a_larger_machine(prompt: Prompt) -> None:
    """The limits follow the sizes, and undo knows both."""
    assert prompt.answer("sizes 300 70 64") == []
    assert prompt.answer("1 exit")[0] == "line 2, column 1: no limits line"
    assert prompt.answer("limits 33554432 16 8192 4 1") == []
    assert prompt.answer("undo") == ["undone: limits 33554432 16 8192 4 1"]
    for line in ("limits 33554432 16 8192 4 1", *(f"process {pid} 100 100" for pid in range(1, 71))):
        assert prompt.answer(line) == []
    assert prompt.answer("70 shmget private 33554433 600") == ["1 70 shmget 0x00000000 33554433 600 = EINVAL"]


def test_a_line_with_a_fault_is_not_taken(prompt: Prompt) -> None:
    say_all(prompt)
    before = list(prompt.taken)
    told = prompt.answer("1 laod a 1")
    assert (told[0], told[-1]) == (f"line {len(LINES) + 1}, column 3: bad line", "    nearest form: load")
    assert "above the first command" in prompt.answer("process 4 0 0")[-1]
    assert prompt.taken == before
    assert prompt.answer("1 load a 1") == ["8 1 load 0x40000000 1 = 00"]


def test_limits_and_processes_of_one_s_own(prompt: Prompt) -> None:
    for line in ("limits 4096 1 1 2 0", "process 7 0 0"):
        assert prompt.answer(line) == []
    assert prompt.answer("7 shmget private 4096 600") == ["1 7 shmget 0x00000000 4096 600 = 0"]
    assert prompt.answer("7 shmget private 4096 600") == ["2 7 shmget 0x00000000 4096 600 = ENOSPC"]


def test_lines_are_counted_as_they_were_typed(prompt: Prompt) -> None:
    """Comments, faults, and the prompt's own words count; limits and processes that it adds do not."""
    for number, (line, told) in enumerate((
            ("1 laod a 1", "line 1, column 3: bad line"), ("1 exec", "1 1 exec = ok"),
            ("1 laod a 1", "line 3, column 3: bad line"),
            ("# a comment", None), ("help", None), ("undo", "undone: 1 exec"), ("", None),
            ("1 stat 4294967296", "line 8, column 8: bad number"),
            ("1 stat s", "warning: line 9: variable s of process 1 is used before it is set"),
            ("1 load t 1", "warning: line 10: variable t of process 1 is used before it is set"),
            ("1 nosuch", "line 11, column 3: bad line")), 1):
        answer = prompt.answer(line)
        assert told is None or answer[0].startswith(told), (number, line, answer)


def test_show_says_how_it_finds_the_viewer(prompt: Prompt) -> None:
    say_all(prompt)
    with mock.patch("nogcuvema.__main__.viewer_program", return_value=""):
        told = prompt.answer("show")[-1]
    for text in (told, " ".join(prompt.answer("help")[0].split())):
        for word in ("./shmview", "./shmview --unproved", "./install"):
            assert word in text


def test_the_viewer_is_found_where_the_help_says(tmp_path: Path) -> None:
    package = tmp_path / "bindings/python/nogcuvema"
    shutil.copytree(Path(nogcuvema.__file__).parent, package,
                    ignore=shutil.ignore_patterns("*.so", "__pycache__"))
    program = "import nogcuvema.__main__ as it\nprint(it.viewer_program())"
    env = {**os.environ, "PYTHONPATH": str(package.parent), "PATH": "/nowhere"}
    for place in ("", "build/unproved/shmview", "crates/shmview/out/shmview"):
        path = tmp_path / place
        if place:
            path.parent.mkdir(parents=True)
            shutil.copy(sys.executable, path)
        done = subprocess.run([sys.executable, "-B", "-c", program], capture_output=True, text=True, env=env,
                              check=False)
        assert (done.stdout, done.stderr) == (f"{path}\n" if place else "\n", "")


def test_a_warning(prompt: Prompt) -> None:
    warned, answer = prompt.answer("1 stat s")
    assert "variable s of process 1 is used before it is set" in warned
    assert answer == "1 1 stat 0 = EINVAL"


def test_show_has_the_segments_and_counts(prompt: Prompt) -> None:
    assert prompt.answer("show") == ["nothing was called yet"]
    say_all(prompt)
    told = "\n".join(prompt.answer("show"))
    assert "0x00000000 0          100        600        8192       2          -" in told
    assert "usage events 7 segments 1 reserved 2 locked 0" in told


def test_save(prompt: Prompt, tmp_path: Path) -> None:
    say_all(prompt)
    path = tmp_path / "saved.shm"
    for words, told in ((path, "saved 12 lines"), (path, "already"), ("", "takes the name"),
                        (tmp_path / "none" / "saved.shm", "nothing was saved")):
        assert told in prompt.answer(f"save {words}")[0]
    text = path.read_text("ascii")
    assert text.splitlines()[:4] == list(HEAD)
    assert len(read_script(text).lines) == 8
    answers = [answer for _, told in LINES for answer in told if " = " in answer]
    assert transcript(text).splitlines()[:7] == answers


def test_undo_takes_each_line_back(prompt: Prompt) -> None:
    told = [prompt.text()]
    for line, _ in LINES:
        prompt.answer(line)
        told.append(prompt.text())
    lines = [line for line, _ in LINES]
    assert prompt.answer("1 laod a 1")[-1] == "    nearest form: load"
    for line, before in zip(reversed(lines), reversed(told[:-1])):
        if not line.startswith("#"):
            assert prompt.answer("undo") == [f"undone: {line}"]
            assert prompt.text() == before
    assert prompt.answer("undo") == ["nothing to undo"]
    assert prompt.answer("show") == ["nothing was called yet"]
    say_all(prompt)


def test_undo_brings_back_bytes_segments_processes_and_variables(prompt: Prompt) -> None:
    say_all(prompt)
    for line, wanted in (("1 store a+4094 09", "8 1 store 0x40000ffe 09 = ok"),
                         ("1 s = shmget private 1 600", "9 1 shmget 0x00000000 1 600 = 1"),
                         ("2 exit", "10 2 exit = ok"), ("1 rmid s", "11 1 rmid 1 = ok")):
        assert prompt.answer(line) == [wanted]
    for _ in range(4):
        prompt.answer("undo")
    assert prompt.answer("2 load 0x40000ffe 1") == ["8 2 load 0x40000ffe 1 = 01"]
    assert "uid=100" in prompt.answer("1 stat s")[0]
    assert prompt.answer("undo") == ["undone: 1 stat s"]


def test_the_last_hundred_lines_can_be_undone(prompt: Prompt) -> None:
    for number in range(120):
        prompt.answer(f"1 stat {number + 1000}")
    for number in range(100):
        assert prompt.answer("undo") == [f"undone: 1 stat {1119 - number}"]
    assert prompt.answer("undo") == ["nothing to undo"]
    assert prompt.answer("1 exec") == ["21 1 exec = ok"]


def test_a_failure_that_was_undone_comes_again() -> None:
    with closing(Prompt(["fuse:64:w1"])) as prompt:
        for line in ("1 s = shmget private 4096 600", "1 a = shmat s null -", "1 store a 01"):
            prompt.answer(line)
        for _ in range(2):
            assert prompt.answer("0 flush 1") == ["flush: 0 written, 1 failed"]
            assert prompt.answer("undo") == ["undone: 0 flush 1"]


@pytest.mark.parametrize("area, undone", [
    ("ram:32000", ["undone: 1 exec", "undone: 2 exec", "nothing to undo"]),
    ("ram:65536", ["nothing to undo: a machine of more than 65536 pages is not copied"])])
def test_few_copies_are_kept_of_a_large_machine(area: str, undone: list[str]) -> None:
    with closing(Prompt([area])) as prompt:
        for line in ("3 exec", "2 exec", "1 exec"):
            prompt.answer(line)
        assert [prompt.answer("undo")[0] for _ in undone] == undone


def test_snapshots_have_names(prompt: Prompt) -> None:
    assert prompt.answer("restore a") == ["no snapshot a: there is none"]
    assert prompt.answer("snapshot empty") == ["snapshot empty: 0 lines"]
    say_all(prompt)
    assert prompt.answer("snapshot full") == ["snapshot full: 12 lines"]
    text = prompt.text()
    assert prompt.answer("restore empty") == ["restored empty: 0 lines"]
    assert prompt.answer("1 exec") == ["1 1 exec = ok"]
    for _ in range(2):
        assert prompt.answer("restore full") == ["restored full: 12 lines"]
        assert prompt.text() == text
        assert prompt.answer("2 load a+4095 1")[-1] == "8 2 load 0xfff 1 = SIGSEGV"
        assert prompt.answer("2 load 0x40000fff 1") == ["9 2 load 0x40000fff 1 = 02"]
    assert [prompt.answer("undo")[0] for _ in range(6)] == ["undone: 2 load 0x40000fff 1",
                                                                 "undone: 2 load a+4095 1",
                                                                 "undone: restore full",
                                                                 "undone: 2 load 0x40000fff 1",
                                                                 "undone: 2 load a+4095 1",
                                                                 "undone: restore full"]
    assert prompt.taken == [*HEAD, "1 exec"]
    assert prompt.answer("restore nosuch") == ["no snapshot nosuch: there are empty, full"]
    for word in ("snapshot", "restore", "snapshot a b"):
        assert prompt.answer(word) == [f"{word.split()[0]} takes the name of a snapshot"]


def test_help(prompt: Prompt) -> None:
    assert "Calls: shmget, shmat" in prompt.answer("help")[0]
    assert "no call nosuch" in prompt.answer("help nosuch")[0]
    assert list(RULES) == [call for call in RULES if prompt.answer(f"help {call}")[0].startswith("PID ")]
    assert sorted(RULES) == sorted(CALLS)


def test_help_names_the_refusals_of_the_header() -> None:
    found = re.findall(r"/\* ((?:(?!\*/).)*?) ?\*/\nuint32_t (nog_\w+)\(", HEADER.read_text("ascii"), re.S)
    told = {name: comment for comment, name in found}

    def codes(name: str) -> set[str]:
        named = set(re.findall(r"\bNOG_(E[A-Z]+|SIG[A-Z]+)\b", told[name])) - {"EXCL"}
        for other in re.findall(r"as (nog_\w+)[.:;]", told[name]):
            listed = re.search(r"((?:NOG_\w+, )*NOG_\w+): as " + other, told[name])
            named |= set(re.findall("NOG_(E[A-Z]+|SIG[A-Z]+)", listed[1])) if listed else set()
        return named
    for call, (_, refusals) in RULES.items():
        assert {name for name, _ in refusals} == codes(f"nog_{FUNCTIONS.get(call, call)}"), call


def test_as_a_program() -> None:
    package = os.path.dirname(os.path.dirname(nogcuvema.__file__))
    env = {**os.environ, "PYTHONPATH": package}
    for words, given, wanted in (("", "1 exec\nquit\n1 exec\n", (0, "1 1 exec = ok\n")),
                                 ("", "1 exec\nexit\n1 exec\n", (0, "1 1 exec = ok\n")),
                                 ("ram:0", "", (2, ""))):
        done = subprocess.run([sys.executable, "-B", "-m", "nogcuvema", *words.split()], input=given,
                              capture_output=True, text=True, check=False, env=env)
        assert (done.returncode, done.stdout) == wanted, done.stderr
