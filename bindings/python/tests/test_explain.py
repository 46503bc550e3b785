"""What is said of a script's fault, and of what is allowed and seldom meant."""

from __future__ import annotations

import os
import subprocess
import sys

import pytest

import nogcuvema
from nogcuvema.explain import explain

HEAD = "limits 65536 16 64 4 1\nprocess 1 100 100\nchild 2\n"
# each row is a line that follows the three of HEAD, the column of its fault, and the nearest right form
NEAREST = (
    ("1 s = shmgt private 4096 600", 7, "shmget"),
    ("1 sMmdt a", 3, "shmdt"),
    ("1 s = shmget private 4096 0600", 27, "600"),
    ("1 s = shmget private 4096 0600,creat", 27, "600,creat"),
    ("1 s = shmget private 4096 600 creat", 31, "as 600,creat"),
    ("1 exit\r", 7, "tr -d '\\r'"),
    ("1 store a 123", 11, "0123"),
    ("1 store a 0x12", 11, "12"),
    ("1 load 0X40000000 1", 8, "0x40000000"),
    ("0 flsh 1", 3, "flush"),
    ("proces 3 0 0", 1, "process"),
    ("7 exit", 1, "child 7"),
)


@pytest.mark.parametrize("line, column, near", NEAREST)
def test_nearest_forms(line: str, column: int, near: str) -> None:
    told = explain(HEAD + line + "\n")
    assert told[0].startswith(f"line 4, column {column}: ")
    assert "nearest form: " in told[-1]
    assert near in told[-1]


def test_nearest_first_line() -> None:
    for line, near in (("limts 1 1 1 2 0", "limits"), ("size 1 1 1", "sizes"), ("SIZES 1 1 1", "sizes")):
        told = explain(line + "\n")
        assert (told[0], told[-1]) == ("line 1, column 1: no limits line", f"    nearest form: {near}")
    assert "allowed here: limits SHMMAX" in explain("nothing\n")[-1]


def test_nearest_rule() -> None:
    for word, near in (("linus", "linux"), ("fork_mark", "fork_marks"), ("LOCKS_BY_USER", "locks_by_user")):
        told = explain(f"limits 65536 16 64 4 1\nrules {word}\n")
        assert (told[0], told[-1]) == ("line 2, column 7: bad line", f"    nearest form: {near}")


def test_the_word_is_marked() -> None:
    told = explain(HEAD + "1\ts = shmgt private 4096 600\n")
    assert told[:3] == ["line 4, column 7: bad line", "    1\ts = shmgt private 4096 600", "     \t    ^^^^^"]
    assert "allowed here: a call: shmget, shmat" in told[3]


def test_no_form_is_near() -> None:
    assert "nearest" not in "".join(explain(HEAD + "1 frobnicate\n"))
    assert explain("")[0] == "line 1: no limits line"


def test_variables_that_are_not_set() -> None:
    script = (HEAD + "1 shmat s null -\n1 s = shmget private 1 600\n1 a = shmat s null -\n1 fork 2\n"
              "2 load a+1 1\n2 load a 1\n2 stat b\n")
    first, second, third = explain(script)
    assert "line 4: variable s of process 1 is used before it is set: it is 0, which names the first" in first
    assert "line 8: variable a of process 2 is not set: process 1 set its own" in second
    assert "line 10: variable b of process 2 is used before" in third


def test_variables_that_are_set() -> None:
    script = "1 s = shmget private 1 600\n1 a = shmat s null -\n1 load a+1 1\n1 s = xadd a 1\n1 stat s\n"
    assert explain(HEAD + script) == []


def test_as_a_program() -> None:
    for script, status, told in ((HEAD, 0, "the script can be run\n"),
                                 (HEAD + "1 stat s\n", 0, "1 warnings"), ("x", 1, "no limits line")):
        words = [sys.executable, "-B", "-m", "nogcuvema.explain"]
        env = {"PYTHONPATH": os.path.dirname(os.path.dirname(nogcuvema.__file__))}
        done = subprocess.run(words, input=script, capture_output=True, text=True, check=False, env=env)
        assert done.returncode == status, done.stderr
        assert told in done.stdout
