"""The Rust crate: its own tests, its example, and its message if the library is not found."""

from __future__ import annotations

import os
import re
import shutil
import tempfile
from collections.abc import Iterator, Sequence

import pytest

from commands import TOP, Ended, run, text_of, write_file

pytestmark = pytest.mark.skipif(not shutil.which("cargo"), reason="there is no cargo")
CRATE = os.path.join(TOP, "bindings", "rust", "nogcuvema")
SECONDS = 300
SAID = "seam at 0x40000000, seen by both\n"
EXAMPLE = ["run", "--example", "page_seam"]
# a line of the harness for each test
TEST = re.compile(r"^test (\S+) \.\.\. (ok|FAILED|ignored)", re.MULTILINE)


@pytest.fixture(scope="module")
def crate() -> Iterator[str]:
    """A copy of the crate, where cargo may write."""
    with tempfile.TemporaryDirectory(prefix="rust.") as folder:
        yield shutil.copytree(CRATE, os.path.join(folder, "crate"),
                              ignore=shutil.ignore_patterns("target", "Cargo.lock"))


def cargo(words: Sequence[str], folder: str, **more: str) -> Ended:
    """Runs cargo without a network."""
    kept = {name: value for name, value in os.environ.items() if not name.startswith("NOGCUVEMA_")}
    first, *rest = words
    return run(["cargo", first, "--offline", "--quiet", *rest], seconds=SECONDS, cwd=folder,
               env={**kept, "RUSTFLAGS": "-D warnings", **more})


def test_tests(crate: str, library: str) -> None:
    """cargo runs each test that is declared, and each passes."""
    ended = cargo(["test", "--", "--format", "pretty"], crate, NOGCUVEMA_LIB=library)
    found = TEST.findall(ended.out)
    declared = re.findall(r"^#\[test\]\nfn (\w+)\(", text_of(f"{CRATE}/tests/rules.rs"), re.MULTILINE)
    assert len(declared) > 20
    assert sorted(found) == sorted((name, "ok") for name in declared)
    assert ended.status == 0


def test_example(crate: str, library: str) -> None:
    assert cargo(EXAMPLE, crate, NOGCUVEMA_LIB=library)[:2] == (0, SAID)


def test_pkg_config(crate: str, library: str, folder: str) -> None:
    """pkg-config finds the folder that ./lib --to made, by the file that ./lib put there."""
    if not shutil.which("pkg-config"):
        pytest.skip("there is no pkg-config")
    assert cargo(EXAMPLE, crate, PKG_CONFIG_PATH=library, PKG_CONFIG_LIBDIR="/nowhere")[:2] == (0, SAID)
    about = "Name: nogcuvema\nDescription: a test\nVersion: 1\n"
    # a folder for each file: cargo looks for the library again only if the path is another
    with_libdir, without = os.path.join(folder, "with_libdir"), os.path.join(folder, "without")
    os.mkdir(with_libdir)
    os.mkdir(without)
    write_file(with_libdir, "nogcuvema.pc", f"prefix=/nowhere\nlibdir={library}\n{about}")
    assert cargo(EXAMPLE, crate, PKG_CONFIG_PATH=with_libdir, PKG_CONFIG_LIBDIR="/nowhere")[:2] == (0, SAID)
    write_file(without, "nogcuvema.pc", about)
    ended = cargo(EXAMPLE, crate, PKG_CONFIG_PATH=without, PKG_CONFIG_LIBDIR="/nowhere")
    assert ended.status != 0
    assert 'libdir of nogcuvema.pc names no folder with libnogcuvema.a: ""' in ended.said


@pytest.mark.parametrize("more, told", [
    ({"PKG_CONFIG_PATH": "/nowhere", "PKG_CONFIG_LIBDIR": "/nowhere"}, "NOGCUVEMA_LIB"),
    ({"NOGCUVEMA_LIB": "/nowhere"}, 'NOGCUVEMA_LIB names no folder with libnogcuvema.a: "/nowhere"')])
def test_missing(crate: str, more: dict[str, str], told: str) -> None:
    """If no library is found, the build says what to set."""
    ended = cargo(["build"], crate, **more)
    assert ended.status != 0
    assert told in ended.said
