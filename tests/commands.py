"""How the tests run commands, and where the repository is."""

from __future__ import annotations

import os
import subprocess
from collections.abc import Callable, Sequence
from typing import Any, NamedTuple

TOP = os.path.dirname(os.path.dirname(os.path.realpath(__file__)))
SECONDS = 120


class Ended(NamedTuple):
    """How a command ended. A status of 124 is no end in time, 127 that there is no such command."""

    status: int
    out: str
    said: str


def run(words: Sequence[str], given: str | bytes = "", seconds: int = SECONDS, **how: Any) -> Ended:
    """Runs a command. `how` has other words for subprocess.run, such as `cwd` and `env`."""
    data = given.encode() if isinstance(given, str) else given
    try:
        done = subprocess.run(words, input=data, capture_output=True, timeout=seconds, check=False, **how)
    except subprocess.TimeoutExpired:
        return Ended(124, "", f"no end in {seconds} seconds")
    except OSError as error:
        return Ended(127, "", str(error))
    return Ended(done.returncode, done.stdout.decode(errors="replace"), done.stderr.decode(errors="replace"))


def environment(**more: str) -> dict[str, str]:
    """The environment, with some variables changed."""
    return {**os.environ, **more}


def text_of(path: str, missing: str | None = None) -> str:
    """A file's text; that of a missing one, if it may be missing. A path that is not absolute is one of the
    repository."""
    path = os.path.join(TOP, path)
    if missing is not None and not os.path.isfile(path):
        return missing
    with open(path, encoding="utf-8", newline="") as file:
        return file.read()


def write_file(folder: str, name: str, text: str, mode: int = 0o644) -> str:
    """Writes a file, and returns its path."""
    path = os.path.join(folder, name)
    with open(path, "w", encoding="latin-1") as file:
        file.write(text)
    os.chmod(path, mode)
    return path


class Conform:
    """./conform. Both outputs are one text."""

    # words that name what is tested, or with which nothing is
    NAMING = ("--program", "--library", "--rules", "--list", "at-once")

    def __init__(self, program: Callable[[], str]) -> None:
        self.program = program

    def words(self, *words: str) -> list[str]:
        is_named = any(word.partition("=")[0] in self.NAMING for word in words)
        own = [] if is_named else ["--program", self.program()]
        return [os.path.join(TOP, "conform"), *own, *words]

    def start(self, *words: str, **how: Any) -> subprocess.Popen[bytes]:
        return subprocess.Popen(self.words(*words), stdout=subprocess.PIPE, stderr=subprocess.STDOUT, **how)

    def __call__(self, *words: str, **how: Any) -> tuple[int, str]:
        process = self.start(*words, **how)
        said, _ = process.communicate()
        return process.returncode, said.decode(errors="replace")
