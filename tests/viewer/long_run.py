"""A long run of a large machine: 2,000 steps over 2,048 frames and 2,048 pages. The page opens without building
most of its boxes, and reads only the steps that it shows."""

from __future__ import annotations

import os
import tempfile
from pathlib import Path
from typing import Any

from viewer.browser import Session

STEPS, FRAMES = 2000, 2048
MOST_BYTES = 2 << 20
# when the page has opened: elements that it made, those that the document has, and steps whose lines it read.
# All boxes of one step are 20,000 elements.
MOST_MADE, MOST_ELEMENTS, MOST_READ = 8000, 10000, 2
COUNTING = """<head><script>(() => {
  const make = Document.prototype.createElement;
  window.made = 0;
  Document.prototype.createElement = function (...words) { window.made++; return make.apply(this, words); };
})();</script>"""


def block(number: Any) -> Any:
    """A step of a record, as docs/VIEWER.md has it: each store takes a frame, unreferenced a page later."""
    address = 0x40000000 + 4096 * (number - 1)
    call = f"call {number} 1 store 0x{address:08x} 01 = ok" if number else "start"
    lines = [f"step {number}", call,
             "key        shmid      owner      perms      bytes      nattch     status",
             f"0x00000000 0          1          600        {4096 * FRAMES}    1          -",
             "process 1 live 1 1",
             f"piece 0x40000000 0 0 {FRAMES} rw", f"frames {FRAMES} hand 0"]
    lines += [f"frame {at} 0 {at} {'-' if at < number - 1 else 'r'}d" for at in range(number)]
    lines += ["area 0 4096", f"usage events {number} segments 1 reserved {FRAMES} locked 0",
              f"usage frames {number}/{FRAMES} dirty {number} slots 0/4096",
              "usage in 0 out 0 failures 0"]
    return "\n".join(lines)


def record() -> Any:
    return "".join(block(number) + "\n\n" for number in range(STEPS + 1))


WHERE = "byId('where').textContent"


def check_long_run(session: Session, page_of: Any) -> None:
    page = page_of(record())
    assert len(page) < MOST_BYTES
    with tempfile.TemporaryDirectory(prefix="viewer.") as folder:
        path = os.path.join(folder, "long.html")
        Path(path).write_text(page.replace("<head>", COUNTING, 1), "utf-8")
        session.open(f"file://{path}", 1280, 900)
        made, elements, read = session.value("[window.made, document.querySelectorAll('*').length, "
                                             "steps.filter((step) => step.read).length]")
        assert 0 < made < MOST_MADE
        assert elements < MOST_ELEMENTS
        assert 0 < read <= MOST_READ
        check_steps(session)


def check_steps(session: Session) -> None:
    """Lines of some steps are the record's; boxes are built where they are looked at, and stay in place."""
    for number in (0, 1, 2, 777, STEPS):
        assert session.value(f"steps[{number}].lines.join('\\n')") == block(number)
    session.press("End")
    boxes = "document.querySelectorAll('#frames .cell')"
    built = session.value(f"new Promise((done) => setTimeout(() => done([...{boxes}].filter((it) => "
                          f"it.firstChild).length), 300))")
    texts = session.value(f"[{WHERE}, {boxes}.length, [...{boxes}].slice(0, 2).map((it) => "
                          f"it.innerText.replace(/\\s+/g, ' ').trim())]")
    assert texts == [f"step {STEPS} of {STEPS}", FRAMES, ["0 0·0 D ☞", "1 0·1 D"]]
    assert 0 < built < FRAMES // 2
    heights = f"[...new Set([...{boxes}].map((it) => Math.round(10 * it.getBoundingClientRect().height)))]"
    were = session.value(heights)
    session.value(f"{boxes}[1999].scrollIntoView()")
    text = session.value(f"new Promise((done) => setTimeout(() => "
                         f"done({boxes}[1999].innerText.replace(/\\s+/g, ' ').trim()), 500))")
    assert text == "1999 0·1999 R D"
    assert len(were) == 1
    assert session.value(heights) == were
    sheet = session.value("(() => { const sheet = makeSheet(2); return "
                          "[...sheet.querySelectorAll('.cell')].filter((it) => !it.firstChild).length; })()")
    assert sheet == 0


# more steps than are printed at once, of a small machine, because a sheet has each of its boxes
MANY_STEPS = "limits 65536 1 1 2 0\nprocess 1 1 1\n" + "1 stat 0\n" * 201


def check_sheets(session: Session) -> None:
    """At most 200 steps are printed at once, and the last sheet says so if there are more."""
    for words, sheets in (("1-201", 200), ("1-200", 200), ("3", 1)):
        session.value(f"byId('printed').value = '{words}'; 0")
        seen = session.value("(() => { makeSheets(); const it = byId('sheets'); return "
                             "[it.querySelectorAll('.sheet').length, "
                             "it.lastElementChild.className === '' && "
                             "it.lastElementChild.textContent.includes('choose them by --steps')]; })()")
        assert seen == [sheets, words == "1-201"]
    session.value("byId('sheets').replaceChildren(); byId('printed').value = ''; 0")
