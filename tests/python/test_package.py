"""The Python package: that pip installs it without a network, and what it says without the library. Its own
tests are in bindings/python/tests."""

from __future__ import annotations

import os
import re
import shutil
import sys

import pytest

from commands import TOP, environment, run, text_of, write_file

PACKAGE = os.path.join(TOP, "bindings", "python")
# the program that an installed package runs, from a folder without the sources
PROGRAM = """
import os
import nogcuvema
with nogcuvema.Machine() as machine:
    at = machine.attach(1, machine.get(1, nogcuvema.PRIVATE, 8192))
    machine.store(1, at + 4094, bytes([1, 2, 3, 4]))
    print(machine.load(1, at + 4093, 6).hex(), nogcuvema.__version__ == nogcuvema.library_version(), end=" ")
print(os.path.isfile(os.path.join(os.path.dirname(nogcuvema.__file__), "py.typed")))
"""
# a proxy that is not there: whatever reaches for a network fails
AWAY = {name: "http://127.0.0.1:9"
        for name in ("http_proxy", "https_proxy", "HTTP_PROXY", "HTTPS_PROXY", "ALL_PROXY")}


@pytest.fixture
def python(folder: str) -> str:
    """A Python of its own, with pip."""
    made = os.path.join(folder, "room")
    found = os.path.join(made, "bin", "python")
    said = run([sys.executable, "-m", "venv", made]).said
    if run([found, "-m", "pip", "--version"]).status:
        pytest.skip("there is no venv with pip: " + said.strip()[-200:])
    return found


def test_pip(python: str, folder: str, library: str) -> None:
    """pip installs the package from a copy, without a network, and it works; then pip removes it."""
    source = shutil.copytree(PACKAGE, os.path.join(folder, "source"),
                             ignore=shutil.ignore_patterns("__pycache__"))
    words = [python, "-m", "pip", "install", "--quiet", "--disable-pip-version-check", source]
    ended = run(words, cwd=folder, env=environment(NOGCUVEMA_LIBRARY="", **AWAY))
    assert ended.status == 0, ended.said
    ended = run([python, "-c", PROGRAM], cwd=folder, env=environment(NOGCUVEMA_LIBRARY=library))
    assert ended == (0, "000102030400 True True\n", "")
    run([python, "-m", "pip", "uninstall", "--quiet", "--yes", "nogcuvema"], cwd=folder,
        env=environment(**AWAY))
    assert run([python, "-c", "import nogcuvema"], cwd=folder).status != 0


# prints what pip knows of the package, and makes a call
CARRIED = PROGRAM + """
from importlib.metadata import metadata
about = metadata("nogcuvema")
first = str(nogcuvema._library.places()[0])
print(about["Version"], about["Author"], "/", os.path.dirname(nogcuvema.__file__) in first)
"""


def test_wheel(python: str, folder: str, library: str) -> None:
    """`pip install ./bindings/python` after ./lib, and nothing else: the wheel carries the shared object of
    build/, and works without the repository. A shared object of another version is refused."""
    top = os.path.join(folder, "repository")
    source = shutil.copytree(PACKAGE, os.path.join(top, "bindings", "python"),
                             ignore=shutil.ignore_patterns("__pycache__"))
    shutil.copytree(library, os.path.join(top, "build"), symlinks=True)
    install = [python, "-m", "pip", "install", "--quiet", "--disable-pip-version-check"]
    ended = run([*install, "./bindings/python"], cwd=top, env=environment(NOGCUVEMA_LIBRARY="", **AWAY))
    assert ended.status == 0, ended.said
    header = text_of(f"{library}/nogcuvema.h")
    number = re.findall(r'NOG_VERSION_TEXT "(.*)"', header)[0]
    os.rename(top, top + ".away")
    ended = run([python, "-c", CARRIED], cwd=folder, env=environment(NOGCUVEMA_LIBRARY=""))
    assert ended == (0, f"000102030400 True True\n{number.replace('-', '+')} Nogcuvema maintainers / True\n",
                     "")
    os.rename(top + ".away", top)
    write_file(os.path.join(top, "build"), "nogcuvema.h", header.replace(f'"{number}"', '"0.9.0"'))
    ended = run([*install, "--force-reinstall", source], cwd=top,
                env=environment(NOGCUVEMA_LIBRARY="", **AWAY))
    assert ended.status != 0
    assert "has the version 0.9.0, and the package" in ended.said


def test_missing(folder: str) -> None:
    """Without a shared object the package can be imported, and says at the first use what is missing."""
    text = ("import nogcuvema\ntry:\n    nogcuvema.Machine()\nexcept nogcuvema.LibraryMissing as error:\n"
            "    print(error)\n")
    ended = run([sys.executable, "-B", "-c", text],
                env=environment(PYTHONPATH=PACKAGE, NOGCUVEMA_LIBRARY=folder))
    assert ended.status == 0
    assert "./lib builds it" in ended.out
    assert "NOGCUVEMA_LIBRARY" in ended.out


def test_header(library: str) -> None:
    """A parser of C in Python reads the header; another Python than this one may have it."""
    parser = os.path.join(TOP, "tests", "python", "parse_header.py")
    for python in dict.fromkeys([sys.executable, "/usr/bin/python3"]):
        ended = run([python, "-B", parser, f"{TOP}/bindings/c/nogcuvema.h", f"{library}/libnogcuvema.so"])
        if ended.status not in (77, 127):
            assert ended.status == 0, ended.said
            return
    pytest.skip("there is neither cffi nor pycparser")


def test_explain() -> None:
    """./shmsim --explain runs nothing and says where the fault is."""
    ended = run([os.path.join(TOP, "shmsim"), "--explain"], "limits 65536 16 64 4 1\nproces 1 0 0\n")
    assert (ended.status, ended.said) == (1, "")
    assert ended.out.startswith("line 2, column 1: bad line\n")
    assert ended.out.endswith("nearest form: process\n")
