"""The docs: each link leads somewhere, and README shows what it has to. Also the tools for the docs."""

from __future__ import annotations

import glob
import os
import re

import pytest

from commands import TOP, run, text_of, write_file

PAGES = ["README.md", "CHANGELOG.md",
         *sorted(os.path.relpath(path, TOP) for path in glob.glob(f"{TOP}/docs/*.md"))]


def anchor(heading: str) -> str:
    """The anchor that a heading of a page has."""
    return re.sub(r"[^\w -]", "", heading.lstrip("#").strip().lower()).replace(" ", "-")


@pytest.mark.parametrize("page", PAGES)
def test_links(page: str) -> None:
    """Each link leads to a file, and to a heading of it."""
    for link in re.findall(r"\]\((?!https?:)([^)\s]+)\)", text_of(page)):
        path, _, wanted = link.partition("#")
        path = os.path.normpath(os.path.join(os.path.dirname(page), path)) if path else page
        assert os.path.exists(os.path.join(TOP, path)), link
        found = [anchor(it)
                 for it in re.findall(r"^#+ .*", text_of(path), re.M)] if path.endswith(".md") else []
        assert not wanted or wanted in found, link


@pytest.mark.parametrize("told", [
    r"^- Toolchain: the command `rt` .* is on the path",
    r"^- Tests: `\./test` runs all of them; .* takes about .*\.$",
    r"^- Licence: none has been chosen yet\.$"])
def test_readme_tells(told: str) -> None:
    assert len(re.findall(told, text_of("README.md"), re.M)) == 1


@pytest.mark.parametrize("name", ["page_seam.shm", "page_seam.out"])
def test_readme_shows(name: str) -> None:
    lines = text_of(f"examples/{name}").splitlines(keepends=True)
    assert "".join(f"    {line}" for line in lines if not line.startswith("#")) in text_of("README.md")


def test_pictures() -> None:
    """The drawn pictures are what their sources give."""
    assert run([f"{TOP}/tools/pictures", "check"]) == (0, "", "")


def test_version() -> None:
    version = re.findall(r"^## ([0-9][0-9.]*)", text_of("CHANGELOG.md"), re.M)[0]
    assert f"Version {version}" in text_of("README.md")
    assert run([f"{TOP}/shmsim", "--version"]) == (0, f"shmsim {version}\n", "")


def test_sentences(folder: str) -> None:
    text = ("# One two\n\nOne two `three four`. Five!\n\n    six\n\n- Seven\n  eight\n- [nine ten](a.md)\n\n"
            "| a | b |\n\n<details><summary>Eleven</summary>\n\n</details>\n")
    ended = run([f"{TOP}/tools/sentences", "--short", write_file(folder, "page.md", text)])
    assert ": 4 sentences, 2.0 words on average, 100 of 100 short" in ended.out


@pytest.mark.parametrize("words", [["tools/reading", "check"], ["tools/edits", "texts"],
                                   ["tools/wrong_machines", "texts"]],
                         ids=" ".join)
def test_is_current(words: list[str]) -> None:
    """The numbers of docs/VERIFICATION.md are current; texts of edits and wrong machines occur once."""
    ended = run([os.path.join(TOP, words[0]), *words[1:]])
    assert ended.status == 0, ended.out + ended.said


def test_wrong_machines() -> None:
    """Machines of which a law is false."""
    ended = run([f"{TOP}/tools/wrong_machines"], seconds=600)
    if ended.status == 125:
        pytest.skip(ended.out.strip())
    assert ended.status == 0, ended.out + ended.said
