"""The kit's program over the C library: it prints what ./shmsim prints, and has the kit's own words."""

from __future__ import annotations

import os
import re
from collections.abc import Iterator
from typing import Any, NamedTuple

import pytest

from commands import Conform, run, text_of
from nogconform.explain import LEFT
from nogconform.generator import make_script
from nogconform.places import CASES, LIBRARY_CASES, names_in
from nogconform.running import build_library
from nogconform.script import read_case

RANDOM = 300
# few slots, and areas that fail
SHORT = ["fuse:24:r9", "mirror:16", "fuse:8:w5", "sparse:24"]
SKIPPED = "this library does not count munmap, mprotect and setuid"
COUNTED = re.compile(r"^\d+ (munmap|mprotect|setuid) ", re.M)
HEAD = "limits 4096 1 1 2 0\nprocess 1 1 1\n"
FAULTS = ((["serial"], HEAD, 2, "usage: library [--rules profile|linux|N] serial|pieces SWAP..."),
          (["nosuch", "ram:1"], HEAD, 2, "usage: "), (["--rules"], HEAD, 2, "usage: "),
          (["--rules", "nosuch", "serial", "ram:1"], HEAD, 2, "usage: "),
          (["--rules", "linux", "serial"], HEAD, 2, "usage: "),
          (["--rules", "profile", "serial", "ram:0"], HEAD, 3, "nog_open was answered 2022"),
          (["serial", "disk:1"], HEAD, 2, "no swap area: disk:1"),
          (["serial", "ram:0"], HEAD, 3, "nog_open was answered 2022"),
          (["serial", "ram:1"], HEAD + "1 nosuch\n", 1, "line 3: bad line"),
          (["serial", "ram:1"], HEAD + "1 mprotect null 1 r\n", 1, "line 3: bad protection: r"),
          (["serial", "ram:1"], HEAD + "1 munmap null\n", 1, "line 3: bad line"))


class Library(NamedTuple):
    """The folder of the library, the kit's program over it, and what the library has."""

    folder: str
    program: str
    has_mappings: bool
    has_rules: bool


@pytest.fixture(scope="module")
def over(library: Any, tmp_path_factory: Any) -> Any:
    return Library(library, *build_library(str(tmp_path_factory.mktemp("library")), library))


def scripts() -> Iterator[tuple[str, str, list[str]]]:
    """Each case and some random scripts, with a name and the swap areas."""
    for path in names_in(CASES):
        text = text_of(path)
        yield os.path.basename(path)[:-4], text, read_case(path, text).swap
    for number in range(RANDOM):
        lines = make_script("library", number).splitlines(keepends=True)
        flushed = [line + "0 flush 3\n" * (at % 9 == 8 and " " in line and line[0] in "12345") for at,
                   line in enumerate(lines)]
        yield f"random script {number}", "".join(flushed), SHORT if number % 2 else ["sparse:65536"]


SCRIPTS = {name: (text, swap) for name, text, swap in scripts()}


@pytest.mark.parametrize("name", SCRIPTS)
def test_output(over: Any, shmsim: str, name: Any) -> None:
    """The whole output: the event lines, the listing and the usage."""
    text, swap = SCRIPTS[name]
    wanted = run([shmsim, "serial", *swap], text)
    assert wanted.status == 0
    for word in ("serial", "pieces"):
        assert run([over.program, word, *swap], text) == wanted


@pytest.mark.parametrize("words, given, wanted, said", FAULTS)
def test_words(over: Any, words: list[str], given: str, wanted: int, said: str) -> None:
    ended = run([over.program, *words], given)
    assert ended.status == wanted
    assert "library: " in ended.said
    assert said in ended.said


def test_told(over: Any, conform: Conform) -> None:
    """./conform over the library gives the replies that the rules require."""
    status, said = conform("--library=" + over.folder, "--no-peer")
    check_lines(said, "as expected", over)
    assert status == 0


def test_compared(over: Any, conform: Conform, peer: str) -> None:
    """./conform over the library, and this system's answers."""
    status, said = conform("--library=" + over.folder)
    check_lines(said, ("agree", "profile", "skipped"), over)
    assert status == 0
    status, said = conform("--library=" + over.folder, "random", "60", "2")
    assert status == 0
    assert "scripts: " in said


def check_lines(said: Any, good: Any, over: Any) -> None:
    """Each case has a line with one of these words."""
    found = dict(re.findall(r"^([a-z0-9_]+): (.*)$", said, re.M))
    for folder in ("", *LIBRARY_CASES):
        for path in names_in(os.path.join(CASES, folder)):
            is_made = over.has_mappings or not COUNTED.search(text_of(path))
            wanted = good if is_made else "skipped: " + SKIPPED
            assert found.get(os.path.basename(path)[:-4], "no line was printed").startswith(wanted), path


def test_linux_told(over: Any, conform: Conform) -> None:
    """Under Linux's rules the library gives the replies of the cases."""
    words = ["--library=" + over.folder, "--rules", "linux"]
    if not over.has_rules:
        told = "library: this library has no rules: its header has no NOG_LINUX\n"
        assert run([over.program, "--rules", "linux", "serial", "ram:1"], HEAD) == (2, "", told)
        assert conform(*words)[0] == 3
        pytest.skip("this library has no rules")
    status, said = conform(*words, "--no-peer")
    check_lines(said, "as expected", over)
    assert status == 0


@pytest.mark.skipif(os.geteuid() != 0, reason="only root is compared under Linux's rules")
@pytest.mark.parametrize("words", [
    [], ["random", "60", "2"]
])
def test_linux_compared(over: Any, conform: Conform, peer: str, words: list[str]) -> None:
    """Under Linux's rules few rules explain a difference from this system's answers."""
    status, said = conform("--library=" + over.folder, "--rules", "linux", *words)
    assert status == 0
    assert "DIFFER 0" in said
    assert {*re.findall(r"^  profile: (.*): \d+$", said, re.M)} <= {*LEFT}
