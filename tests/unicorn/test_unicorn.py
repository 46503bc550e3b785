"""The emulator of examples/unicorn, compiled by each compiler that is here. Its guests print the same as on Linux
itself, with a frame for each page and with few. The peer for small kernels answers every case of the conformance kit
under the limits of the case, by the rules of Linux."""

from __future__ import annotations

import glob
import os
import re
import shutil
import tempfile
from collections.abc import Iterator
from concurrent.futures import ThreadPoolExecutor
from pathlib import Path

import pytest

from case_groups import CASES, MEMLOCK, Group, groups_of_cases, is_right
from commands import TOP, Ended, run, text_of

EMULATOR = f"{TOP}/examples/unicorn"
HERE = f"{TOP}/tests/unicorn"
COMPILERS = ("gcc", "clang")
MOST_LINES, WIDTH = 500, 125
MANY, FEW = 4096, 4
# a guest has 64 pages, in two groups
GUESTS = ("everything", "mutex")
SIGBUS = 128 + 7


def test_sources() -> None:
    """The emulator stays small: without comments, blank lines and includes."""
    texts = [text_of(path) for path in glob.glob(f"{EMULATOR}/*.[ch]")]
    lines = [line for text in texts for line in re.sub(r"/\*.*?\*/", "", text, flags=re.S).splitlines()]
    assert len([it for it in lines if it.strip() and not it.startswith("#include")]) <= MOST_LINES
    assert [line for text in texts for line in text.splitlines() if len(line) > WIDTH] == []


class Example:
    """The emulator over a library, and its guests."""

    def __init__(self, folder: str, compiler: str, library: str, flags: str = "") -> None:
        self.folder = folder
        done = run(["make", "-s", "-C", EMULATOR, f"CC={compiler}", f"LIBRARY={library}", f"BUILD={folder}",
                    f"CFLAGS={flags}"])
        assert done == (0, "", "")

    def program(self, name: str, *words: str) -> str:
        """Compiles a static program."""
        made = os.path.join(self.folder, os.path.splitext(os.path.basename(name))[0])
        done = run(["cc", "-O1", "-static-pie", "-Wall", "-Wextra", *words, name, "-pthread", "-o", made])
        assert done == (0, "", "")
        return made

    def run(self, *words: str) -> Ended:
        return run([os.path.join(self.folder, "emulator"), *words], seconds=100)


def made_by(compiler: str, library: str, flags: str = "") -> Iterator[Example]:
    missing = [it for it in ("make", "cc", compiler) if not shutil.which(it)]
    if missing or not os.path.isfile("/usr/include/unicorn/unicorn.h"):
        pytest.skip(f"the emulator is not built: there is no {', '.join(missing) or 'libunicorn-dev'}")
    with tempfile.TemporaryDirectory(prefix="unicorn.") as folder:
        yield Example(folder, compiler, library, flags)


@pytest.fixture(scope="module", params=COMPILERS)
def each_example(request: pytest.FixtureRequest, library: str) -> Iterator[Example]:
    yield from made_by(request.param, library)


@pytest.fixture(scope="module")
def example(library: str) -> Iterator[Example]:
    yield from made_by("cc", library)


# ---- guests ----

@pytest.mark.parametrize("name", GUESTS)
def test_guest(each_example: Example, name: str) -> None:
    """A guest prints the same as on Linux, whatever is in frames."""
    guest = each_example.program(f"{HERE}/{name}.c")
    ended = [each_example.run("-f", str(frames), guest) for frames in (MANY, 8, FEW)]
    assert ended[0].said == "" and ended[0].out.endswith("\n")
    assert ended[1:] == ended[:1] * 2
    if os.geteuid() == 0 and run(["unshare", "--ipc", "true"]).status == 0:
        assert run(["unshare", "--ipc", guest]) == ended[0]


def test_sanitized(library: str) -> None:
    """No sanitizer has a complaint. The engine's own memory is left to the system at the end."""
    for example in made_by("cc", library, "-fsanitize=address,undefined -fno-sanitize-recover=all"):
        guest = example.program(f"{HERE}/everything.c")
        words = ["env", "ASAN_OPTIONS=detect_leaks=0", os.path.join(example.folder, "emulator"), "-f", "8", guest]
        ended = run(words, seconds=100)
        assert (ended.status, ended.said) == (42, "")


def test_failing_read(example: Example) -> None:
    """The first read of the swap area fails: the guest that waits for it ends by SIGBUS, at once or as a child."""
    guest = example.program(f"{HERE}/everything.c")
    whole = example.run("-f", "8", guest).out
    ended = example.run("-f", "8", "-r", "1", guest)
    assert ended.status == SIGBUS
    assert whole.startswith(ended.out) and len(ended.out) < len(whole)


@pytest.mark.parametrize("words, told", [
    ([], "usage: emulator [-f FRAMES]"), (["-f", "0x", "guest"], "0x: no number in its range"),
    (["-f", "4097", "guest"], "4097: no number in its range"), (["-l", "1,2,3", "guest"], "no number in its range"),
    (["-f", "1", "guest"], "open: "), (["/nothing"], "/nothing: it can't be read"),
    (["/etc/passwd"], "/etc/passwd: no program for x86-64"), (["/bin/true"], "the program is not static")])
def test_wrong_words(example: Example, words: list[str], told: str) -> None:
    ended = example.run(*words)
    assert (ended.status, ended.out) == (1, "")
    assert told in ended.said and ended.said.startswith("emulator: ") and ended.said.count("\n") == 1


# ---- the conformance peer ----

def words_for(group: Group, has_few_frames: bool) -> list[str]:
    """The emulator's words for the limits of some cases. Two frames are never locked, and up to three users lock
    pages."""
    shmmax, shmmni, shmall, slots, memlock = group
    frames = MANY
    if has_few_frames:
        frames = max(FEW, 3 * memlock + 2) if memlock < MEMLOCK else FEW
        memlock = min(memlock, frames - 2)
    return ["-f", str(frames), "-s", str(slots), "-l", f"{shmmax},{shmmni},{shmall},{memlock}"]


def run_group(example: Example, group: Group, paths: list[str], has_few_frames: bool, folder: str) -> None:
    """Runs the cases with these limits by a peer of their own, and puts their replies into a folder."""
    with tempfile.TemporaryDirectory(prefix="peer.", dir=example.folder) as room:
        data = run([f"{TOP}/tools/small_peer", "data", "--rules", "linux", *paths])
        assert data.status == 0, data.said
        Path(f"{room}/small_script.h").write_text(data.out, "ascii")
        made = f"{room}/peer"
        assert run(["cc", "-O1", "-static-pie", f"-I{TOP}/conformance/port_of_linux", f"-I{room}",
                    f"{TOP}/conformance/small_peer.c", "-o", made]) == (0, "", "")
        ended = example.run(*words_for(group, has_few_frames), made)
        assert (ended.status, ended.said) == (0, ""), group
        Path(f"{room}/console").write_text(ended.out, "ascii")
        assert run([f"{TOP}/tools/small_peer", "replies", f"{room}/console", folder]).status == 0


@pytest.mark.parametrize("has_few_frames", [False, True])
def test_peer(example: Example, library: str, has_few_frames: bool) -> None:
    """Each case agrees under the rules of Linux."""
    folder = os.path.join(example.folder, f"replies_{has_few_frames}")
    groups = groups_of_cases()
    with ThreadPoolExecutor(2) as pool:
        for done in [pool.submit(run_group, example, *group, has_few_frames, folder) for group in groups.items()]:
            done.result()
    compared = run([f"{TOP}/conform", "--rules", "linux", f"--library={library}", "--replies", folder])
    verdicts = dict(line.split(": ", 1) for line in compared.out.splitlines() if ": " in line)
    paths = glob.glob(f"{CASES}/*.shm") + glob.glob(f"{CASES}/rules/*.shm")
    names = [os.path.basename(path)[:-4] for path in paths]
    assert [f"{name}: {verdicts.get(name)}" for name in names if not is_right(name, verdicts.get(name, ""))] == []
    assert compared.status == 0, compared
