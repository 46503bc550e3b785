"""The viewer: pages in a browser, step by step, against their records (expected.py); what each step changed,
against sentences that were written by hand (sentences.txt); and how the viewer ends."""
from __future__ import annotations

import json
import os
import re
import shlex
import subprocess
from collections.abc import Iterator
from pathlib import Path
from typing import Any

import pytest

from commands import TOP, environment, run as run_command, text_of
from record import all_sentences, read_record
from show import page as page_of
from viewer import browser, served
from viewer.expected import (CHARTS, REFUSALS, legend_of, moves_of, notice_of, number_of,
                             read_sentences, shown_at, wrong_chart, wrong_colours, wrong_moves, wrong_parts)
from viewer.hand import check_hand
from viewer.long_run import MANY_STEPS, check_long_run, check_sheets
from viewer.memory import (LATE, MANY_ROWS, Record, check_bytes, check_late, check_loads,
                           check_many_processes, check_many_rows, records)
from viewer.moving import check_handout, check_names, check_playing, check_seeking, check_swipes
from viewer.pages import (EXAMPLES, HERE, LESSONS, PROGRAM, SCRIPTS, SIZES, VIEWER, Page, example, page_by,
                          page_of_example, record_of, run)

pytestmark = pytest.mark.skipif(not PROGRAM,
                                reason="shmview is not built from these sources: tools/build shmview")
TOLD = read_sentences()


@pytest.fixture(scope="module")
def session() -> Iterator[browser.Session]:
    """A browser without a window."""
    if browser.path() is None:
        pytest.skip("the pages in a browser: none of " + ", ".join(browser.NAMES) + " is here")
    with browser.Session() as made:
        yield made


def shown_by(page: Page, folder: str, session: browser.Session) -> Any:
    """What a browser shows of a page."""
    collect = text_of(os.path.join(HERE, "collect.js"))
    moves = json.dumps(moves_of(page.blocks, page.script))
    made = (f'<script type="text/plain" id="moves-to-make">{moves}</script>\n<script>\n{collect}</script>\n'
            f'</body>')
    path = os.path.join(folder, "page.html")
    Path(path).write_text(page.html.replace("</body>", made), "utf-8")
    session.open(f"file://{path}{page.address}", *SIZES[0])
    return json.loads(session.value("byId('collected')?.textContent ?? 'null'"))


def check_page(page: Page, shown: Any) -> None:
    """Each step of a page, how it opens, and what its keys, buttons and slider do."""
    blocks, steps = page.blocks, shown["steps"]
    assert len(steps) == len(blocks)
    for at, (block, seen) in enumerate(zip(blocks, steps)):
        wrong = wrong_parts(seen, shown_at(page.all_blocks, at + page.skipped, page.told, page.skipped,
                                           page.script))
        wrong += [it for chart,
                  lines in zip(seen["charts"], CHARTS) for it in wrong_chart(chart, lines, blocks, at)]
        assert not wrong, f"step {number_of(block)}"
    assert not wrong_colours(steps) + wrong_moves(shown["moved"], steps, blocks,
                                                  page.script) + shown["errors"]
    assert shown["opened"] == {**steps[page.opened], "notice": notice_of(page.address, blocks)}


@pytest.mark.parametrize("name", SCRIPTS)
def test_page(session: browser.Session, folder: str, name: str) -> None:
    page = page_of_example(name, TOLD[name])
    check_page(page, shown_by(page, folder, session))


@pytest.mark.parametrize("address, opened", [("#step-4", 1), ("#step-9", 0)])
def test_page_of_some_steps(session: browser.Session, folder: str, address: str, opened: int) -> None:
    """A page that begins at a later step, opened at a step that it has and at one that it does not have."""
    script, swap = example("memory_short")
    page = page_by(["--steps", "3-5", *swap], script, "steps 3 to 5", TOLD["memory_short"], address, opened,
                   begins=["--steps", "2-5", *swap])
    check_page(page, shown_by(page, folder, session))


def test_page_at_the_end(session: browser.Session, folder: str) -> None:
    script, swap = example("memory_short")
    said = TOLD["memory_short"]
    told = {**said, 9: [*said[9], "the run ends here: it has no steps 10 to 12"]}
    page = page_by(["--steps", "8-12", *swap], script, "steps 8 to 12", told,
                   begins=["--steps", "7-12", *swap])
    check_page(page, shown_by(page, folder, session))


def test_page_of_replies(session: browser.Session, folder: str) -> None:
    record = record_of_replies()
    page = Page("replies", record, page_of(record), None)
    check_page(page, shown_by(page, folder, session))


def test_page_without_a_step(session: browser.Session, folder: str) -> None:
    script, swap = example("memory_short")
    page = page_by(["--steps", "99-99", *swap], script, "no step")
    shown = shown_by(page, folder, session)
    assert page.record == ""
    said = [shown["opened"]["call"], *(seen["call"] for *_, seen in shown["moved"]), *shown["errors"]]
    assert {*said} == {"The run has no step from 99 to 99: its last is step 9."}


def wrong_layout(seen: dict[str, Any], first: dict[str, Any], wide: int, high: int) -> list[str]:
    """What is wrong with a step on the screen: a box that moved, or something that is not visible."""
    moved = [f"{was} became {box}" for was, box in zip(first["boxes"], seen["boxes"]) if was != box]
    wrong = [f"{len(moved)} boxes moved: {moved[0]}"] if moved else []
    wrong += ["there are other boxes"] * (len(seen["boxes"]) != len(first["boxes"]))
    wrong += [f"the page is {seen['wide']} wide"] * (seen["wide"] > wide)
    wrong += [f"frames end at {seen['lowest']}"] * (seen["lowest"] > high)
    wrong += ["the script comes after the boxes"] * (wide < 640 and seen["script"] > seen["highest"])
    wrong += ["a table does not scroll"] * (not seen["scrolls"])
    wrong += ["sentences are cut off"] * (not seen["isTold"])
    wrong += ["an outline crosses a text"] * (not seen["isClear"])
    return wrong + [f"the legend is {seen['marks']}"] * (seen["marks"] != first["marks"])


FOLD = "byId('fold').click(), document.querySelector('.key').innerText.trim()"


@pytest.mark.parametrize("name", LESSONS)
def test_first_screen(session: browser.Session, folder: str, name: str) -> None:
    """The segments' table is whole on the first screen, the frames are one row, and processes with few pages
    lie side by side, also on a projector, where boxes and text are larger. The legend is one line with the
    marks of the run, and a click hides it. On a phone the script comes first."""
    measure = text_of(os.path.join(HERE, "measure.js"))
    made, path = page_of_example(name), os.path.join(folder, "page.html")
    Path(path).write_text(made.html, "utf-8")
    seen = []
    for wide, high in (SIZES[0], (1920, 1080)):
        session.open(f"file://{path}", wide, high)
        now = session.value(measure)
        seen.append(now)
        assert now["table"] < high and now["isWhole"] and now["frameRows"] == 1
        # a process with three pages has a row of its own on a small screen
        assert now["areBeside"] or name == "swap_taken_away"
        assert [(words, looks) for words, looks, *_ in now["marks"]] == legend_of(made.blocks)
        middles = [middle for _, _, middle, _ in now["marks"]]
        assert max(middles) - min(middles) <= 1 and max(it[3] for it in now["marks"]) < wide
    desk, projector = seen
    assert projector["cell"] >= 1.2 * desk["cell"] and projector["font"] >= 1.2 * desk["font"]
    assert session.value(FOLD) == "Show the legend"
    assert session.value(measure)["marks"] == []
    assert session.value(FOLD).endswith("Hide")
    assert session.value(measure)["marks"] == projector["marks"]
    session.open(f"file://{path}", *SIZES[1])
    phone = session.value(measure)
    assert phone["script"] <= phone["highest"] < SIZES[1][1] and phone["wide"] <= SIZES[1][0]


@pytest.mark.parametrize("name", EXAMPLES)
def test_layout(session: browser.Session, folder: str, name: str) -> None:
    """The boxes of the examples stay where they are, at each step and at two sizes; all sentences are shown
    on demand, over the picture; and on paper each step has a sheet."""
    measure = text_of(os.path.join(HERE, "measure.js"))
    made, path = page_of_example(name), os.path.join(folder, "page.html")
    Path(path).write_text(made.html, "utf-8")
    for wide, high in SIZES:
        session.open(f"file://{path}", wide, high)
        first = session.value(measure)
        for block in made.blocks:
            wrong = wrong_layout(session.value(measure), first, wide, high)
            session.value("byId('more').click()")
            opened = session.value(measure)
            wrong += ["boxes moved as the sentences were opened"] * (opened["boxes"] != first["boxes"])
            session.press("ArrowRight")
            assert not wrong, f"{wide} by {high}, step {number_of(block)}"
    read_out = session.value("[...document.querySelectorAll('svg')].map((it) => "
                             "it.getAttribute('aria-label'))")
    assert read_out == ["Counts over the run: " + ", ".join(line for line, _ in lines) for lines in CHARTS]
    check_paper(session, made)


SHEETS = ("dispatchEvent(new Event('beforeprint')), [...document.querySelectorAll('.sheet')].map((it) => "
          "['h1', '.where', '.lines-of'].map((part) => it.querySelector(part)?.textContent ?? ''))")


def check_paper(session: browser.Session, made: Page) -> None:
    """A sheet has the title, the step's number and its line. Each step has one, until they were printed."""
    assert len(re.findall(rb"/Type /Page\b", session.paper())) == len(made.blocks)
    lines = [at for at, line in enumerate(made.script) if re.match("[0-9]", line)]
    of = ["", *(f"line {at + 1}: {made.script[at]}" for at in lines)]
    title = made.script[0].lstrip("# ")
    assert session.value(SHEETS) == [[title, f"step {at} of {len(lines)}", told] for at,
                                     told in enumerate(of)]
    assert session.value("dispatchEvent(new Event('afterprint')), "
                         "document.querySelectorAll('.sheet').length") == 0


LANES = ("[[...byId('laned').rows].map((row) => [...row.cells].map((it) => it.textContent)), "
         "[...byId('laned').rows].findIndex((row) => getComputedStyle(row).backgroundColor !== "
         "'rgba(0, 0, 0, 0)') - 1, byId('where').textContent]")


@pytest.mark.parametrize("name", ["lost_update", "fork", "memory_short"])
def test_lanes(session: browser.Session, folder: str, name: str) -> None:
    """Each call is in its process's lane, in order; a click goes to its step. One process needs no lanes."""
    made, path = page_of_example(name), os.path.join(folder, "page.html")
    Path(path).write_text(made.html, "utf-8")
    session.open(f"file://{path}", *SIZES[0])
    calls = [block[1] for block in made.blocks]
    if name == "memory_short":
        assert session.value("byId('lanes').hidden")
        return
    want = [["step", "process 1", "process 2"], ["0", "", ""]]
    want += [[str(at), *(" ".join(words[3:]) if words[2] == pid else "" for pid in ("1", "2"))]
             for at, words in enumerate(calls[1:], 1)]
    for at in range(len(calls)):
        assert session.value(LANES) == [want, at, f"step {at} of {len(calls) - 1}"]
        session.press("ArrowRight")
    session.value("byId('laned').rows[5].cells[2].click()")
    assert session.value(LANES)[1:] == [4, f"step 4 of {len(calls) - 1}"]


def record_of_replies() -> str:
    """A record of calls with each refusal, and with replies that are not refusals."""
    rest = "process 1 live 0 0\nframes 2 hand 0\narea 0 1\n" \
        "usage events {0} segments 0 reserved 0 locked 0\nusage frames 0/2 dirty 0 slots 0/1\n" \
        "usage in 0 out 0 failures 0\n\n"
    replies = [*REFUSALS, "ok", "0", "0x40000000", "e1", "key=0x00000000 status=- atime=0"]
    return "".join(f"step {at}\ncall {at} 1 stat 0 = {reply}\n" + rest.format(at) for at,
                   reply in enumerate(replies, 1))


@pytest.mark.parametrize("name", SCRIPTS)
def test_record(name: str) -> None:
    """A record begins with the machine before the first call, and has a step for each line."""
    script, swap = example(name)
    ended = run([PROGRAM, *swap], script)
    lines = [line for line in script.splitlines() if re.match(r"[0-9]", line)]
    assert (ended.status, ended.said) == (0, "")
    assert [step.number for step in read_record(ended.out)] == list(range(len(lines) + 1))


@pytest.mark.parametrize("name", SCRIPTS)
def test_sentences(name: str) -> None:
    """The viewer's sentences about each step, and their layout for a terminal."""
    script, swap = example(name)
    record = record_of(script, swap)
    said = dict(all_sentences(read_record(record)))
    assert said == {number: TOLD[name].get(number, []) for number in said}
    assert TOLD[name].keys() <= said.keys()
    text = run([*VIEWER, "--text", *swap], script).out
    assert text == "".join(laid_out(block, TOLD[name]) for block in record.split("\n\n") if block)


def test_marks() -> None:
    """A comment with marks of HTML, which could end the page's element around it, is shown unchanged."""
    comment = "# </script><i>&lt; \\u003c"
    made = run([*VIEWER, "ram:1"], f"{comment}\nlimits 1 1 1 2 0\n").out
    kept = re.findall(r'id="data">(.*?)</script>', made, re.DOTALL)
    assert json.loads(kept[0])["script"] == [[comment, None], ["limits 1 1 1 2 0", None]]


def laid_out(block: str, told: dict[int, list[str]]) -> str:
    """A block for a terminal: what the step changed comes after the second line."""
    lines = block.split("\n")
    said = ["    " + it for it in told.get(int(lines[0].split()[1]), [])]
    return "\n".join(lines[:2] + said + lines[2:]) + "\n\n"


LONG = "limits 4096 1 1 2 0\nprocess 1 1 1\n" + "1 stat 0\n" * 2001
USAGE = "shmview: usage: shmview [--text] [--steps FROM-TO] SWAP...\n"
MANY = "shmview: 2001 steps are more than 2000: choose some by --steps FROM-TO\n"
SHORT = example("memory_short")[0]


@pytest.mark.parametrize("words, given, status, said", [
    ("--steps 3-5 ram:64", SHORT, 0, ""),
    ("--text --steps 2001-2001 ram:1", LONG, 0, ""),
    ("ram:1", LONG[:-len("1 stat 0\n")], 0, ""),
    ("ram:1", LONG, 2, MANY),
    ("", SHORT, 2, USAGE),
    ("--text", SHORT, 2, USAGE),
    ("--steps 5-3 ram:64", SHORT, 2, USAGE),
    ("--steps 5 ram:64", SHORT, 2, USAGE),
    ("--steps 3-5", SHORT, 2, USAGE),
    ("ram:0", SHORT, 2, USAGE),
    ("ram:1 " * 9, SHORT, 2, USAGE),
    ("serial ram:1", SHORT, 2, USAGE),
    ("ram:1", "limits 65536 16 64 4 1\nno form\n", 1, "shmview: line 2: bad line\n"),
    ("ram:1", "", 1, "shmview: line 1: no limits line\n")], ids=lambda it: str(it)[:20])
def test_words(words: str, given: str, status: int, said: str) -> None:
    """The steps that words choose, and how the viewer ends. The start script says which word is wrong, and
    what a swap area is, in lines after the usage."""
    ended = run([*VIEWER, *words.split()], given)
    assert ended.status == status
    assert (status == 0) == bool(ended.out)
    assert ended.said.startswith(USAGE) if said == USAGE else ended.said == said


def test_steps() -> None:
    ended = run([*VIEWER, "--text", "--steps", "99-100", "ram:64"], SHORT)
    assert ended == (0, "", "shmview: the run has no step from 99 to 100: its last is step 9\n")
    blocks = record_of(SHORT, ["ram:64"]).split("\n\n")
    assert record_of(SHORT, ["--steps", "3-5", "ram:64"]) == "\n\n".join(blocks[3:6]) + "\n\n"


@pytest.mark.parametrize("program", [VIEWER, [PROGRAM]], ids=["start script", "program"])
def test_full_device(program: list[str]) -> None:
    with open("/dev/full", "wb") as full:
        done = subprocess.run([*program, "ram:64"], input=SHORT.encode(), stdout=full, stderr=subprocess.PIPE,
                              check=False)
    assert done.returncode == 3
    assert done.stderr.endswith(b"shmview: write failed\n")


def test_folder_as_the_script() -> None:
    folder = os.open("/", os.O_RDONLY)
    done = subprocess.run([*VIEWER, "ram:64"], stdin=folder, capture_output=True, check=False)
    os.close(folder)
    assert (done.returncode, done.stdout) == (3, b"")
    assert done.stderr.endswith(b"shmview: read failed\n")


def test_little_memory(proved_shmview: str) -> None:
    """256 MB for the slots, where 128 are allowed."""
    narrow = f"ulimit -v 131072; exec {shlex.quote(proved_shmview)} ram:65536"
    assert run(["sh", "-c", narrow], SHORT) == (4, "", "shmview: out of memory\n")


def test_stored_pages() -> None:
    """The pages in docs/pages are those that the examples make now."""
    ended = run_command([os.path.join(TOP, "tools", "pages"), "check"],
                        env=environment(VIEWER=" ".join(VIEWER)))
    assert ended.status == 0, ended.out + ended.said


@pytest.mark.parametrize("name", LESSONS)
def test_solution(session: browser.Session, folder: str, name: str) -> None:
    """The page of a lesson's solution shows that the task is solved; that of the lesson shows the task."""
    said, path = [], os.path.join(folder, "page.html")
    for script in f"examples/{name}", f"examples/solutions/{name}":
        swap = text_of(f"{script}.swap", "ram:64").split()
        Path(path).write_text(run([*VIEWER, *swap], text_of(f"{script}.shm")).out, "utf-8")
        session.open(f"file://{path}", *SIZES[0])
        said.append(session.value("[byId('wanted').innerText, byId('verdict').innerText]"))
    [task] = re.findall("^# task: (.*)$", text_of(f"examples/{name}.shm"), re.M)
    assert said == [[f"Task: {task}", "Not solved by this run."], [f"Task: {task}", "Solved by this run."]]


@pytest.fixture(scope="module")
def all_records() -> list[Record]:
    """The records of all stored scripts."""
    return records(PROGRAM)


def test_loads(all_records: list[Record]) -> None:
    check_loads(all_records)


def test_hand(all_records: list[Record]) -> None:
    check_hand(all_records)


@pytest.mark.parametrize("check", [served.check_headers, served.check_opened, served.check_hostile,
                                   served.check_limits, served.check_search])
def test_served(check: Any) -> None:
    check()


@pytest.fixture(scope="module")
def address() -> Iterator[str]:
    """The address of a page that is served."""
    with served.served() as found:
        assert found, "no address was printed"
        yield found[0]


@pytest.mark.parametrize("check", served.EDITOR)
def test_editor(session: browser.Session, address: str, check: Any) -> None:
    """A script that is edited next to its picture."""
    session.open(address, *SIZES[0])
    assert served.wait_for(session, "byId('where').textContent === 'step 0 of 9'")
    check(session)


def test_editor_with_a_script(session: browser.Session) -> None:
    served.check_with_a_script(session)


@pytest.mark.parametrize("name", ["remap", "other_changes", "bytes", "swap_taken_away"])
def test_moving(session: browser.Session, folder: str, name: str) -> None:
    """Search finds each step of a kind; play, the handout and swipes move as they should."""
    made, path = page_of_example(name), os.path.join(folder, "page.html")
    Path(path).write_text(made.html, "utf-8")
    session.open(f"file://{path}", *SIZES[0])
    check_seeking(session, made)
    if name == "swap_taken_away":
        check_playing(session, made, served.wait_for)
        check_names(session)
        check_handout(session, made)
        session.open(f"file://{path}", *SIZES[1])
        check_swipes(session)


def test_long_run(session: browser.Session) -> None:
    check_long_run(session, page_of)


def test_many_sheets(session: browser.Session, folder: str) -> None:
    made, path = page_by(["ram:1"], MANY_STEPS, "sheets"), os.path.join(folder, "page.html")
    Path(path).write_text(made.html, "utf-8")
    session.open(f"file://{path}", *SIZES[0])
    check_sheets(session)


@pytest.mark.parametrize("name", SCRIPTS)
def test_bytes(session: browser.Session, folder: str, name: str) -> None:
    check_bytes(session, page_of_example(name), folder)


def test_bytes_of_many_rows(session: browser.Session, folder: str) -> None:
    check_many_rows(session, page_by(["ram:64"], MANY_ROWS, "rows"), folder)


def test_bytes_of_chosen_steps(session: browser.Session, folder: str) -> None:
    chosen = page_by(["--steps", "9-12", "ram:64"], example("bytes")[0], "bytes, steps 9 to 12",
                     begins=["--steps", "0-12", "ram:64"], skipped=9)
    late = page_by(["--steps", "2004-2006", "ram:64"], LATE, "late")
    check_late(session, chosen, late, folder)


def test_bytes_on_paper(session: browser.Session, folder: str) -> None:
    check_many_processes(session, page_of_example("permissions"), folder)
