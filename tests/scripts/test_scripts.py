"""The stored scripts through the built program.

SUBJECT/NAME.shm is a script; those of the subject threads are run with threads. Files next to it say what
is expected, and each may be missing. NAME.swap has the words for the swap areas, which are ram:64 without it.
NAME.out and NAME.err have the expected output and messages, and without them nothing may be printed.
NAME.status has the exit status, which is 0 without it. If the output depends on the order of the threads'
calls, NAME.sed has commands of sed that take from it what is compared.
"""

from __future__ import annotations

import glob
import os
from pathlib import Path

import pytest

from at_the_limits import SCRIPTS as AT_THE_LIMITS, main as write_scripts_at_the_limits
from commands import SECONDS, TOP, run, text_of

HERE = os.path.dirname(os.path.realpath(__file__))
SCRIPTS = sorted(os.path.relpath(path, TOP)[:-4]
                 for path in [*glob.glob(f"{HERE}/*/*.shm"), *glob.glob(f"{TOP}/examples/*.shm")])
# the quick run adds checks to a program, so an unproved one takes longer for the scripts at the limits
UNPROVED_SECONDS = 600


def check_script(shmsim: str, name: str) -> None:
    mode = "threads" if "/threads/" in name else "serial"
    seconds = UNPROVED_SECONDS if "/unproved/" in shmsim else SECONDS
    words = [shmsim, mode, *text_of(f"{name}.swap", "ram:64").split()]
    ended = run(words, text_of(f"{name}.shm"), seconds)
    picked = os.path.join(TOP, f"{name}.sed")
    out = run(["sed", "-n", "-f", picked], ended.out).out if os.path.exists(picked) else ended.out
    assert (ended.status, out) == (int(text_of(f"{name}.status", "0")), text_of(f"{name}.out", ""))
    assert ended.said == text_of(f"{name}.err", "")


@pytest.mark.parametrize("name", SCRIPTS)
def test_script(shmsim: str, name: str) -> None:
    check_script(shmsim, name)


@pytest.fixture(scope="module")
def limits(tmp_path_factory: pytest.TempPathFactory) -> str:
    """The folder of the scripts that are too long to be stored."""
    folder = str(tmp_path_factory.mktemp("limits"))
    write_scripts_at_the_limits(folder)
    return folder


@pytest.mark.parametrize("name", AT_THE_LIMITS)
def test_script_at_the_limits(shmsim: str, limits: str, name: str) -> None:
    check_script(shmsim, os.path.join(limits, name))


@pytest.mark.parametrize("ending, text, is_noticed", [
    ("out", "other\n", True), ("err", "other\n", True), ("err", "", True), ("status", "0", True),
    ("out", "answer\n", False)])
def test_what_is_compared(folder: str, ending: str, text: str, is_noticed: bool) -> None:
    """The output, the standard error and the status of a script are compared with the stored ones."""
    program, name = os.path.join(folder, "program"), os.path.join(folder, "one")
    files = {"program": "#!/bin/sh\ncat\necho said >&2\nexit 3\n", "one.shm": "answer\n",
             "one.out": "answer\n",
             "one.err": "said\n", "one.status": "3", f"one.{ending}": text}
    for path, content in files.items():
        Path(os.path.join(folder, path)).write_text(content, "ascii")
    os.chmod(program, 0o755)
    if is_noticed:
        with pytest.raises(AssertionError):
            check_script(program, name)
    else:
        check_script(program, name)
