"""Planted bugs: each break of breaks.txt changes one place, and a test must notice it.

With --breaks each is planted in a copy of the repository, with links to what it does not change, and its
tests run over the copy. Without it only the texts are checked.
"""

from __future__ import annotations

import os
import re
import shutil
import sys
from pathlib import Path
from typing import NamedTuple

import pytest

from commands import TOP, environment, run, text_of


class Break(NamedTuple):
    """A bug: its name, its file, the text before and after, and the tests that must notice it."""

    name: str
    file: str
    old: str
    new: str
    tests: str


def read_breaks() -> list[Break]:
    found = []
    for section in re.split(r"^noticed by: ", text_of("tests/breaks.txt"), flags=re.M)[1:]:
        tests = section.partition("\n")[0]
        rows = re.findall(r"^break: (.*)\nfile: (.*)\nold: (.*)\nnew: ?(.*)$", section, re.M)
        assert len(rows) == section.count("\nbreak: ")
        found += [Break(name, file, old, new, tests) for name, file, old, new in rows]
    return found


BREAKS = read_breaks()
each_break = pytest.mark.parametrize("bug", BREAKS, ids=[it.name for it in BREAKS])


@each_break
def test_text(bug: Break) -> None:
    """The old text occurs once in its file."""
    assert text_of(bug.file).count(bug.old) == 1
    assert bug.old != bug.new


def broken_copy(bug: Break, room: str) -> None:
    """Makes a copy of the repository that differs in this one text."""
    # what finds the repository by its own place is copied, and the rest is linked
    copied = {"tests", "conformance", "tools", bug.file.split("/")[0]}
    for name in os.listdir(TOP):
        source, to = f"{TOP}/{name}", f"{room}/{name}"
        if os.path.isfile(source):
            shutil.copy2(source, to)
        elif name in copied:
            shutil.copytree(source, to, ignore=shutil.ignore_patterns("__pycache__"))
        elif name != ".git":
            os.symlink(source, to)
    text = text_of(bug.file)
    Path(f"{room}/{bug.file}").write_text(text.replace(bug.old, bug.new), "utf-8")


@pytest.mark.plants
@each_break
def test_noticed(bug: Break, folder: str, pytestconfig: pytest.Config) -> None:
    broken_copy(bug, folder)
    # what a broken peer leaves in the system's IPC namespace goes with this one
    apart = ["unshare", "--ipc"] if os.geteuid() == 0 and shutil.which("unshare") else []
    libraries = [f"--library={os.path.abspath(it)}" for it in pytestconfig.getoption("--library") or ()]
    words = [*apart, sys.executable, "-B", "-m", "pytest", "-x", "-q", *libraries, *bug.tests.split()]
    ended = run(words, seconds=1800, cwd=folder, env=environment(PYTEST_ADDOPTS=""))
    # a failed test, or a module that can't be imported
    assert ended.status in (1, 2), ended.out[-1000:]
