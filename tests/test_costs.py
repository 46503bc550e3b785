"""The instructions of the program and of calls from C are those of docs/COSTS.md. valgrind counts
them, so they do not depend on other work of the machine."""

from __future__ import annotations

import shutil

import pytest

from commands import TOP, run, text_of

pytestmark = pytest.mark.skipif(not shutil.which("valgrind"), reason="there is no valgrind")


def test_instructions(proved_shmsim: str) -> None:
    """Twelve scripts, within 3 in 100."""
    assert run([f"{TOP}/bench", "instructions"], seconds=600) == (0, "", ""), proved_shmsim


def test_costs(library: str) -> None:
    """Calls from C, within 5 in 100."""
    if "-unproved" in text_of(f"{library}/nogcuvema.h"):
        pytest.skip("the library is not proved, and another compiler made it")
    assert run([f"{TOP}/tools/costs", "check", library], seconds=600) == (0, "", "")
