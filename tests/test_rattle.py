"""The crate of docs/RATTLE.md in a repository of its own, and the tool that copies crates there."""

from __future__ import annotations

import os
import re
import shutil

import pytest

from commands import TOP, run, text_of, write_file

LINE = text_of("HANDLES")


def take(*words: str) -> tuple[int, str, str]:
    return run([f"{TOP}/tools/take_crates", *words])


def test_crates_are_taken(folder: str) -> None:
    """A crate comes with all crates below it, without builds and edits; crates that are there stay."""
    write_file(folder, "crates.txt", "own: shm_pager\n")
    os.makedirs(f"{folder}/crates/own/src")
    said = f"{folder}/crates has 3 more crates: shm_base shm_pager_core shm_pager\n"
    assert take(folder, "shm_pager") == (0, said, "")
    assert sorted(os.listdir(f"{folder}/crates")) == ["own", "shm_base", "shm_pager", "shm_pager_core"]
    assert sorted(os.listdir(f"{folder}/crates/shm_pager")) == ["proofs", "specs", "src"]
    lines = text_of(f"{folder}/crates.txt")
    assert lines == ("own: shm_pager\nshm_base: bitflags thiserror\nshm_pager_core: shm_base thiserror\n"
                     "shm_pager: shm_base shm_pager_core thiserror\n")
    assert text_of(f"{folder}/HANDLES") == LINE


def test_crates_that_are_there(folder: str) -> None:
    """A crate that is there already, and another line in HANDLES, are refused, and nothing is written."""
    os.makedirs(f"{folder}/crates/shm_base")
    assert take(folder, "shm_pager") == (1, "", f"take_crates: {folder}/crates has shm_base already\n")
    os.rmdir(f"{folder}/crates/shm_base")
    write_file(folder, "HANDLES", "Handles allowed: none.\n")
    assert take(folder, "shm_pager") == (
        1, "", f"take_crates: {folder}/HANDLES needs the line {LINE.strip()!r}\n")
    assert (sorted(os.listdir(folder)), os.listdir(f"{folder}/crates")) == (["HANDLES", "crates"], [])


@pytest.mark.skipif(not shutil.which("rt"), reason="there is no toolchain")
def test_page(folder: str) -> None:
    """Run without a proof, the crate prints what the page shows."""
    assert run([f"{TOP}/tools/page_crate", folder]).status == 0
    ended = run(["rt", "try"], cwd=f"{folder}/crates/mailbox", seconds=600)
    assert ended.status == 0, ended.said
    printed = re.findall(r"^\d.*\n", ended.out, re.M)
    assert "".join(printed) == text_of(f"{folder}/crates/mailbox/stdout")
