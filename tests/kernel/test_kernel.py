"""The teaching kernel of examples/kernel, compiled over the library by each compiler that is here, and booted
in qemu-system-x86_64. Its programs print the same with as many frames as pages and with few. The peer for
small kernels answers every case of the conformance kit under the limits of the case: with a frame for each
page, and with few frames and a process that drives out all pages at its turns."""

from __future__ import annotations

import glob
import os
import re
import shutil
import subprocess
import tempfile
from collections.abc import Iterator
from concurrent.futures import ThreadPoolExecutor
from threading import Timer

import pytest

from built import NotBuilt, program_of
from case_groups import CASES, MEMLOCK, Group, groups_of_cases, is_right
from commands import TOP, run, text_of

KERNEL = f"{TOP}/examples/kernel"
QEMU = "qemu-system-x86_64"
COMPILERS = ("gcc", "clang")
MOST_LINES, MOST_OF_A_FILE, WIDTH = 1500, 400, 110
LONGEST = 60
# qemu's usual processor lacks SSE 4.2, which the library's code may use. The timer counts instructions, so that
# a run is the same on each host.
MACHINE = (QEMU, "-cpu", "Nehalem", "-icount", "shift=3,sleep=off", "-nographic", "-no-reboot", "-nic", "none",
           "-device", "isa-debug-exit,iobase=0xf4,iosize=4")
# what isa-debug-exit makes of the kernel's 0
DONE = 1
PROGRAMS = ("counter", "paging", "hot", "wild", "failing")
SAID = """counter: 4000000
counter: status 0
paging: 0 words are wrong
paging: status 0
hot: status 0
wild, process 10: SIGSEGV at 0x30000000
wild, process 11: SIGSEGV at 0x40000000
wild, process 12: SIGSEGV at 0x40000000
wild, process 13: SIGSEGV at 0x40000000
wild: 4 of 4 ended in SIGSEGV
wild: status 0
failing: the child's signal is 0
failing: 0 pages are wrong
failing: status 0
""".splitlines()
# the segments of one page that crowd.c has attached; and few frames
CROWD = 5
FEW = 4
FLAGS_OF_LINUX = 2047
TRACE = re.compile(r"\[\d+\.\d+\]")


# ---- the text of the example ----

def sources() -> list[str]:
    return [path for folder in (KERNEL, f"{KERNEL}/user") for path in glob.glob(f"{folder}/*.[chS]")]


def test_sources() -> None:
    """The kernel stays small."""
    lines = {path: text_of(path).splitlines() for path in sources()}
    assert sum(map(len, lines.values())) <= MOST_LINES
    for path, text in lines.items():
        assert len(text) <= MOST_OF_A_FILE, path
        assert [it for it in text if len(it) > WIDTH] == [], path


def shown_parts() -> Iterator[tuple[str, str]]:
    """Each part of the page that shows lines, with the file that the paragraph before it names last."""
    name, part = "", []
    for paragraph in [*text_of("docs/KERNEL.md").split("\n\n"), ""]:
        if paragraph.startswith("    "):
            part.append(paragraph)
            continue
        if part and name and not part[0].startswith("    $ "):
            yield name, "\n\n".join(part)
        found = re.findall(r"`([\w/]+\.(?:c|S|h|ld))`", paragraph)
        name, part = (found[-1] if found else ""), []


def test_page() -> None:
    """docs/KERNEL.md shows lines of the example."""
    assert len(list(shown_parts())) >= 15
    for name, part in shown_parts():
        wanted = [line.strip() for line in part.splitlines()]
        has = [line.strip() for line in text_of(f"{KERNEL}/{name}", "").splitlines()]
        assert any(has[at:at + len(wanted)] == wanted for at in range(len(has))), f"{name}: {wanted[0]}"


# ---- building and booting ----

class Example:
    """The kernel and its programs, as one compiler made them over a library."""

    def __init__(self, folder: str, compiler: str, library: str) -> None:
        self.folder = os.path.join(folder, compiler)
        self.words = ["make", "-s", "-j2", "-C", KERNEL, f"CC={compiler}", f"LIBRARY={library}"]

    def make(self, *words: str, folder: str = "") -> None:
        """Makes these, without a complaint of make or of the compiler."""
        assert run([*self.words, f"BUILD={folder or self.folder}", *words]) == (0, "", "")

    def boot(self, words: str, programs: list[str]) -> tuple[list[str], int]:
        """The console's lines from the kernel's first on, and qemu's status. A program may be a path."""
        modules = ",".join(os.path.join(self.folder, it) for it in programs)
        kernel = os.path.join(self.folder, "kernel")
        command = [*MACHINE, "-kernel", kernel, "-append", words, "-initrd", modules]
        with subprocess.Popen(command, stdin=subprocess.DEVNULL, stdout=subprocess.PIPE) as process:
            timer = Timer(LONGEST, process.kill)
            timer.start()
            assert process.stdout
            text = process.stdout.read().decode("ascii", "replace").replace("\r", "")
            status = process.wait()
            timer.cancel()
        return text[text.rfind("Booting from ROM"):].splitlines()[1:], status


def made_by(compiler: str, library: str) -> Iterator[Example]:
    missing = [it for it in (QEMU, "make", "objcopy", compiler) if not shutil.which(it)]
    if missing:
        pytest.skip(f"the kernel is not booted: there is no {', '.join(missing)}")
    with tempfile.TemporaryDirectory(prefix="kernel.") as folder:
        example = Example(folder, compiler, library)
        example.make("all", f"{example.folder}/crowd")
        yield example


@pytest.fixture(scope="module", params=COMPILERS)
def each_example(request: pytest.FixtureRequest, library: str) -> Iterator[Example]:
    yield from made_by(request.param, library)


@pytest.fixture(scope="module")
def example(library: str) -> Iterator[Example]:
    yield from made_by(next((it for it in COMPILERS if shutil.which(it)), COMPILERS[0]), library)


def tally_of(lines: list[str]) -> dict[str, int]:
    """The numbers of the kernel's last lines, by the words after them."""
    text = ", ".join(line for line in lines if line.startswith("kernel: "))
    return {words: int(number) for number, words in re.findall(r"(\d+) ([a-z][a-z ]*[a-z])", text)}


def said_by(lines: list[str]) -> list[str]:
    return [line for line in lines if not line.startswith("kernel: ")]


# ---- the programs ----

@pytest.mark.parametrize("frames", [128, 8, FEW])
def test_programs(each_example: Example, frames: int) -> None:
    """The programs print the same with many frames and with few; with few, pages go back, some of them
    changed. The timer takes turns from them."""
    lines, status = each_example.boot(f"frames={frames}", list(PROGRAMS))
    tally = tally_of(lines)
    assert (status, said_by(lines)) == (DONE, SAID)
    assert tally["turns ended"] >= 20
    if frames < 64:
        assert 0 < tally["returned changed"] < tally["taken back"]
    else:
        assert (tally["returned changed"], tally["taken back"]) == (0, 0)


def test_hot_page(example: Example) -> None:
    """A page that is used all the time stays in its frame."""
    lines, status = example.boot("frames=8", ["hot"])
    assert status == DONE
    assert tally_of(lines)["pages lent"] <= 64
    assert 4 <= tally_of(lines)["lent again"] <= 64


@pytest.mark.parametrize("read", [1, 2, 30, 56])
def test_failing_read(example: Example, read: int) -> None:
    """The read of the RAM disk that fails ends one program in SIGBUS, and changes no byte."""
    lines, status = example.boot(f"frames=8 failing_read={read}", ["failing"])
    assert status == DONE
    assert re.fullmatch(r"failing, process 2: SIGBUS at 0x400[0-3][0-9a-f]000", lines[0])
    assert said_by(lines[1:]) == ["failing: the child's signal is 7", "failing: 0 pages are wrong",
                                  "failing: status 0"]


def test_failing_write(example: Example) -> None:
    lines, status = example.boot("frames=8 failing_write=5", ["failing", "paging"])
    assert status == DONE
    assert said_by(lines) == ["failing, process 1: SIGBUS at 0x4000c000", "failing: status 135",
                              "paging: 0 words are wrong", "paging: status 0"]


# ---- the conformance peer ----

def plan_of(group: Group, is_linux: bool) -> tuple[str, list[str]]:
    """The kernel's words, and its programs before the peer. Under Linux's rules there are few frames. Two
    frames are never locked, and up to three users lock pages. The cases with the usual MEMLOCK lock at most
    two. Where locks need more than few frames, there are more crowds."""
    shmmax, shmmni, shmall, slots, memlock = group
    frames, crowds = shmall + 2 + memlock, 0
    if is_linux:
        frames = max(FEW, 3 * memlock + 2) if memlock < MEMLOCK else FEW
        memlock = min(memlock, frames - 2)
        crowds = frames // CROWD + 1
    more = CROWD * crowds
    words = (f"rules={FLAGS_OF_LINUX if is_linux else 0} trace=1 shmmax={shmmax} shmmni={shmmni + more} "
             f"shmall={shmall + more} slots={slots + more} memlock={memlock} frames={frames}")
    return words, ["crowd"] * crowds


def pages_in_scripts(lines: list[str]) -> tuple[dict[str, int], list[str]]:
    """How many pages went back during each script, and the record without the trace."""
    pages: dict[str, int] = {}
    name = ""
    for line in lines:
        plain = TRACE.sub("", line)
        name = plain[7:] if plain.startswith("script ") else name
        if name:
            pages[name] = pages.get(name, 0) + len(TRACE.findall(line))
    return pages, [TRACE.sub("", line) for line in lines]


def run_group(example: Example, group: Group, paths: list[str], is_linux: bool, folder: str) -> None:
    """Runs the cases with these limits by a peer of their own, and puts their replies into a folder."""
    name = os.path.join(example.folder, "_".join(map(str, [*group, is_linux])))
    example.make("peer", "CASES=" + " ".join(paths), folder=name)
    words, crowds = plan_of(group, is_linux)
    lines, status = example.boot(words, [*crowds, os.path.join(name, "peer")])
    pages, record = pages_in_scripts(lines)
    assert status == DONE and len(pages) == len(paths), f"{words}: {lines[-3:]}"
    assert (min(pages.values()) > 0) == is_linux, f"{words}: pages taken back: {pages}"
    with tempfile.NamedTemporaryFile("w", encoding="ascii") as file:
        file.write("\n".join(record) + "\n")
        file.flush()
        assert run([f"{TOP}/tools/small_peer", "replies", file.name, folder]).status == 0


@pytest.mark.parametrize("rules", ["profile", "linux"])
def test_peer(example: Example, library: str, rules: str) -> None:
    """Each case agrees under the profile, and under Linux's rules with few frames, where each one pages."""
    is_linux = rules == "linux"
    try:
        program = program_of("shmsim", True)
    except NotBuilt as why:
        pytest.skip(str(why))
    folder = os.path.join(example.folder, f"replies_{rules}")
    # the largest group takes as long as all others
    groups = sorted(groups_of_cases().items(), key=lambda it: -len(it[1]))
    with ThreadPoolExecutor(3) as pool:
        for done in [pool.submit(run_group, example, *group, is_linux, folder) for group in groups]:
            done.result()
    words = ["--rules", "linux", f"--library={library}"] if is_linux else ["--program", program]
    compared = run([f"{TOP}/conform", *words, "--replies", folder])
    verdicts = dict(re.findall(r"^(\w+): (.*)$", compared.out, re.M))
    paths = glob.glob(f"{CASES}/*.shm") + (glob.glob(f"{CASES}/rules/*.shm") if is_linux else [])
    names = [os.path.basename(path)[:-4] for path in paths]
    assert [f"{name}: {verdicts.get(name)}" for name in names if not is_right(name, verdicts.get(name, ""))] == []
    assert compared.status == 0, compared
