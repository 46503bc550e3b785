"""What the tests share: the built programs, the library, a folder, and the ways to run a command.

No test starts a proof. A test that needs a program that is not built from these sources is skipped, with the
command that builds it.

    pytest tests                       all tests, over the library in build/
    pytest tests -k page_seam          the tests with this name, for example those of one stored script
    pytest tests --library=FOLDER      over the library that ./lib --to FOLDER made; a second FOLDER, by the
                                       other compiler
    pytest tests --breaks              also plants each bug of tests/breaks.txt, which some test must notice
"""

from __future__ import annotations

import os
import shutil
import tempfile
from collections.abc import Iterator
from typing import Any

import pytest

from built import NotBuilt, program_of
from commands import TOP, Conform
from nogconform.running import build_peer, why_no_peer

# tools/build refuses to start a proof
os.environ["NOGCUVEMA_NO_PROOF"] = "1"


def pytest_addoption(parser: pytest.Parser) -> None:
    parser.addoption("--library", action="append", metavar="FOLDER",
                     help="a folder that ./lib --to FOLDER made; build/ without this option")
    parser.addoption("--runs", default="200", metavar="N", help="runs with threads that are judged (200)")
    parser.addoption("--seed", default="1", metavar="S", help="the seed of their scripts (1)")
    parser.addoption("--breaks", action="store_true", help="also plants bugs that the tests must notice")
    parser.addoption("--counts", metavar="FILE",
                     help="writes the line 'P passed, F failed, S skipped' to FILE")


def pytest_collection_modifyitems(config: pytest.Config, items: list[pytest.Item]) -> None:
    """Bugs are planted on request only."""
    if not config.getoption("--breaks"):
        planting = [it for it in items if it.get_closest_marker("plants")]
        config.hook.pytest_deselected(items=planting)
        items[:] = [it for it in items if not it.get_closest_marker("plants")]


def pytest_terminal_summary(terminalreporter: Any) -> None:
    """The counts for ./test, which adds those of the gate."""
    path = terminalreporter.config.getoption("--counts")
    if path:
        count = {name: len(terminalreporter.stats.get(name, []))
                 for name in ("passed", "failed", "error", "skipped")}
        with open(path, "w", encoding="ascii") as file:
            file.write(f"{count['passed']} passed, {count['failed'] + count['error']} failed, "
                       f"{count['skipped']} skipped\n")


def libraries_of(config: pytest.Config) -> list[str]:
    """The folders of the libraries that are there."""
    named = config.getoption("--library") or [os.path.join(TOP, "build")]
    return [os.path.abspath(it) for it in named if os.path.isfile(os.path.join(it, "libnogcuvema.a"))]


def pytest_generate_tests(metafunc: pytest.Metafunc) -> None:
    """A test with `each_library` runs once for each library."""
    if "each_library" in metafunc.fixturenames:
        found = libraries_of(metafunc.config)
        metafunc.parametrize("each_library", found, ids=[os.path.basename(it) for it in found],
                             scope="session")


@pytest.fixture(scope="session")
def library(pytestconfig: pytest.Config) -> str:
    """The folder of the library for C."""
    found = libraries_of(pytestconfig)
    if not found:
        pytest.skip("there is no library for C: ./lib makes it, or --library=FOLDER names its folder")
    return found[0]


def built(name: str, may_be_unproved: bool = True) -> str:
    """A program of this project that no source is newer than."""
    try:
        return program_of(name, may_be_unproved)
    except NotBuilt as why:
        pytest.skip(str(why))


@pytest.fixture(scope="session")
def shmsim() -> str:
    return built("shmsim")


@pytest.fixture(scope="session")
def shmview() -> str:
    return built("shmview")


@pytest.fixture(scope="session")
def shmcheck() -> str:
    return built("shmcheck")


@pytest.fixture(scope="session")
def proved_shmsim() -> str:
    """The proved program: an unproved one has another heap, and other functions."""
    return built("shmsim", may_be_unproved=False)


@pytest.fixture(scope="session")
def proved_shmview() -> str:
    return built("shmview", may_be_unproved=False)


@pytest.fixture(scope="session")
def proved_runner() -> str:
    """The proved program for tests that need a process of their own."""
    return built("shm_process_tests", may_be_unproved=False)


@pytest.fixture(scope="session")
def runner() -> str:
    return built("shm_process_tests")


@pytest.fixture
def folder() -> Iterator[str]:
    """An empty folder, which each user may enter, for the programs that run as another one."""
    made = tempfile.mkdtemp(prefix="test.")
    os.chmod(made, 0o755)
    yield made
    shutil.rmtree(made, ignore_errors=True)


@pytest.fixture(scope="session")
def peer() -> Iterator[str]:
    """The peer of the conformance kit."""
    reason = why_no_peer()
    if reason:
        pytest.skip(reason)
    made = tempfile.mkdtemp(prefix="test.")
    os.chmod(made, 0o755)
    yield build_peer(made)
    shutil.rmtree(made, ignore_errors=True)


@pytest.fixture
def conform() -> Conform:
    """Runs ./conform over the built program, which is looked for only if the words name no other."""
    return Conform(lambda: built("shmsim"))
