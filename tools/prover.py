"""The toolchain's prover and its compilers, called with the gate's words over the libraries that the gate has
left in crates/*/out. `rt` would prove each of them again, for some 40 minutes of processor time."""
from __future__ import annotations

import os
import shutil
import subprocess
import sys

from crates import TOP, all_below, graph, lanes


class NoProver(Exception):
    """Something that a proof needs is missing."""


def kit() -> str:
    """The folder of the toolchain."""
    command = shutil.which("rt")
    if not command:
        raise NoProver("there is no command rt, the toolchain's, on the path")
    return os.path.dirname(os.path.dirname(os.path.realpath(command)))


def named_by(crate: str, folder: str) -> list[str]:
    """All crates that FOLDER/crates.txt names for a crate, including those of the toolchain."""
    with open(f"{folder}/crates.txt", encoding="utf-8") as file:
        return next(line.partition(":")[2].split() for line in file if line.split(":")[0].split()[:1] == [crate])


def words_for(crate: str, folder: str) -> list[str]:
    """The words for a crate of the repository in FOLDER, and for what it uses; crates of this repository are
    taken from here. They have no option of a check or a build."""
    below, named = graph(), named_by(crate, folder)
    ours = [it for it in named if it in below]
    all_ours = sorted({*ours}.union(*(all_below(below, it) for it in ours)))
    missing = [it for it in all_ours if not os.path.isdir(f"{TOP}/crates/{it}/out/rlib/{it}.rlib")]
    if missing:
        raise NoProver(f"the library of {missing[0]} is not built; the gate builds it")
    words = ["--crate-name", crate, "--links", f"{crate}="]
    for it in ["std", *sorted({*named} - {*ours})]:
        words += ["--extern", f"{it}={kit()}/rlibs/{it}.rlib"]
    words += ["-L", f"dependency={kit()}/rlibs"]
    for it in ours:
        words += ["--extern", f"{it}={TOP}/crates/{it}/out/rlib/{it}.rlib"]
    for it in all_ours:
        words += ["-L", f"dependency={TOP}/crates/{it}/out/rlib"]
    return [*words, "--antt-project", f"{kit()}/rattle/logic/antt-project.json"]


def is_proved(crate: str, folder: str, words: list[str], to: str) -> bool:
    """Proves a crate from nothing; the file TO gets what the compilers need."""
    jobs = str(lanes())
    return rattle(crate, folder, "check", *words, "--logic-built", f"{kit()}/logic_built", "--jobs", jobs, "-o", to)


def rattle(crate: str, folder: str, *words: str) -> bool:
    """Runs the prover or a compiler in the crate's folder. Whether all is well; if not, it prints why."""
    ran = subprocess.run([f"{kit()}/bin/rattle", *words], cwd=f"{folder}/crates/{crate}", stdin=subprocess.DEVNULL,
                         stdout=subprocess.PIPE, stderr=subprocess.STDOUT, text=True, errors="replace", check=False)
    if ran.returncode:
        print("\n".join(ran.stdout.splitlines()[-20:]), file=sys.stderr)
    return ran.returncode == 0
