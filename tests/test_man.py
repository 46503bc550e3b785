"""The man pages that tools/man makes of the header, the start scripts' help and three pages of docs/."""

from __future__ import annotations

import os
import re
import shutil
from collections import Counter

import pytest

from commands import TOP, run, text_of

pytestmark = pytest.mark.skipif(not shutil.which("pandoc"), reason="there is no pandoc")
FUNCTIONS = re.findall(r"^uint32_t (nog_\w+)\(", text_of("bindings/c/nogcuvema.h"), re.M)
PAGES = [*(f"{name}.3" for name in FUNCTIONS), "nogcuvema.7", "shmscript.5",
         *(f"{name}.1" for name in ("shmsim", "shmview", "shmcheck", "shmrun"))]


@pytest.fixture(scope="module")
def pages(tmp_path_factory: pytest.TempPathFactory) -> str:
    folder = str(tmp_path_factory.mktemp("man"))
    assert run([f"{TOP}/tools/man", folder]) == (0, "", "")
    return folder


def test_all_pages(pages: str) -> None:
    assert sorted(os.listdir(pages)) == sorted(PAGES)


@pytest.mark.skipif(not shutil.which("mandoc"), reason="there is no mandoc")
@pytest.mark.parametrize("name", PAGES)
def test_lint(pages: str, name: str) -> None:
    assert run(["mandoc", "-Tlint", "-Wwarning", f"{pages}/{name}"]) == (0, "", "")


def words_in(text: str) -> Counter[str]:
    return Counter(re.findall(r"[a-z0-9]+", text.lower()))


@pytest.mark.parametrize("name", FUNCTIONS)
def test_words(pages: str, name: str) -> None:
    """No word of the header's comment and prototype is missing in the page."""
    found = re.findall(rf"/\* ((?:(?!\*/).)*?) ?\*/\n(uint32_t {name}\([^;]*\);)",
                       text_of("bindings/c/nogcuvema.h"), re.S)
    roff = re.sub(r"\\f[BIR]|\\\(\w\w|\\\[\w+\]|\\[&e-]?", " ", text_of(f"{pages}/{name}.3"))
    assert found
    assert not words_in(" ".join(found[0])) - words_in(roff)


@pytest.mark.parametrize("name, start, made",
                         [("SCRIPT", "\n", "shmscript.5"), ("SHMSIM", "\n## ", "shmsim.1"),
                          ("VIEWER", "\n## ", "shmview.1")])
def test_doc_words(pages: str, name: str, start: str, made: str) -> None:
    """The words of a page of docs/, without the heads of its tables and the targets of its links."""
    source = re.sub(r"^\|.*\n(?=\|-)", "", text_of(f"docs/{name}.md").partition(start)[2], flags=re.M)
    roff = re.sub(r"\\f[BIR]|\\\(\w\w|\\\[\w+\]|\\[&e-]?", " ", text_of(f"{pages}/{made}"))
    assert not words_in(re.sub(r"\]\([^)]*\)", "]", source)) - words_in(roff)
