"""mypy and ruff have no complaint about the Python of the repository, as pyproject.toml configures them."""

from __future__ import annotations

import os
import shutil

import pytest

from commands import TOP, run

# an example shows what a reader needs first, without types
SKIPPED = (".git", "build", "crates", "examples", "target", "__pycache__")


def is_python(path: str) -> bool:
    if path.endswith(".py"):
        return True
    with open(path, "rb") as file:
        return b"python" in file.readline() if file.read(2) == b"#!" else False


def files() -> list[str]:
    """All Python files of the repository, with those whose name does not say so."""
    found = []
    for at, folders, names in os.walk(TOP):
        folders[:] = [it for it in folders if it not in SKIPPED]
        found += [os.path.relpath(os.path.join(at, name), TOP) for name in names
                  if is_python(os.path.join(at, name))]
    return sorted(found)


# each command without .py is a program of its own
MODULES = [it for it in files() if it.endswith(".py")]
COMMANDS = [it for it in files() if not it.endswith(".py")]


@pytest.mark.skipif(not shutil.which("mypy"), reason="there is no mypy")
def test_mypy() -> None:
    ended = run(["mypy", *MODULES], cwd=TOP, seconds=600)
    assert ended.status == 0, ended.out + ended.said


@pytest.mark.skipif(not shutil.which("mypy"), reason="there is no mypy")
def test_mypy_of_commands() -> None:
    ended = run(["mypy", "--scripts-are-modules", *COMMANDS], cwd=TOP, seconds=600)
    assert ended.status == 0, ended.out + ended.said


@pytest.mark.skipif(not shutil.which("ruff"), reason="there is no ruff")
def test_ruff() -> None:
    ended = run(["ruff", "check", *MODULES, *COMMANDS], cwd=TOP)
    assert ended.status == 0, ended.out + ended.said
