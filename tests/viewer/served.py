"""The page of `shmview --serve`: what its reader sees in a browser while a script is edited, and the server's
answers.

All values are written by hand, from the script below and docs/MACHINE.md.
"""

from __future__ import annotations

import base64
import concurrent.futures
import contextlib
import glob
import http.client
import json
import os
import re
import socket
import subprocess
import tempfile
import threading
import time
from collections.abc import Iterator
from pathlib import Path
from typing import Any

import answer
import serve
from commands import TOP, text_of, write_file
from viewer.browser import Session
from viewer.pages import TASK, VIEWER

EXPLAINED = """line 9, column 3: bad line
    1 laod a 1
      ^^^^
    allowed here: a call: shmget, shmat, shmdt, munmap, mprotect, load, store, xadd, swap, cas, stat, set, \
rmid, lock, unlock, fork, exec, exit, setuid, swapoff
    nearest form: load"""
LESSONS = ["1. Three pages in two frames", "2. A read of swap that fails", "3. A swap area is taken away",
           "4. An attach in the middle of another", "5. A removed segment lives on",
           "6. A child and its parent", "7. Who may do what", "8. Pages that must stay",
           "9. Two processes at once"]
NAMES = ["memory_short", "failing_swap", "swap_taken_away", "remap", "deferred_removal", "fork",
         "permissions", "locks", "lost_update"]
# the edits of the page: the text to find, its replacement, and what the page must show then
EDITS = (
    ("1 load a 1", "1 load a 2", "step 6 of 9", "process 1: load 0x40000000 2 = 0100 call 6 of the history",
     2),
    ("limits 65536 16 64 2 0", "limits 65536 16 64 3 0", "step 6 of 9",
     "process 1: load 0x40000000 2 = 0100 call 6 of the history", 3),
    ("1 a = shmat s null -\n", "1 a = shmat s null -\n1 fork 2\n", "step 6 of 9", "", 3),
    ("process 1 100 100\n", "process 1 100 100\nchild 2\n", "step 7 of 10",
     "process 1: load 0x40000000 2 = 0100 call 7 of the history", 3),
    ("1 store a 01", "1 store a ff", "step 7 of 10",
     "process 1: load 0x40000000 2 = ff00 call 7 of the history", 3),
    ("1 load a 2", "1 load a 3", "step 7 of 10",
     "process 1: load 0x40000000 3 = ff0000 call 7 of the history", 3),
)
SEEN = ("[byId('where').textContent, byId('call').innerText.replace(/\\s+/g, ' ').trim(), "
        "document.querySelectorAll('#frames .cell').length]")


@contextlib.contextmanager
def served(*words: Any) -> Iterator[Any]:
    """The address of a page that is served."""
    with subprocess.Popen([*VIEWER, "--serve", *words], stdout=subprocess.PIPE,
                          stderr=subprocess.PIPE) as server:
        assert server.stdout is not None
        found = re.fullmatch(rb"shmview: (http://127\.0\.0\.1:(\d+)/([\w-]{32})/) shows the page, until "
                             rb"Ctrl-C\n", server.stdout.readline())
        try:
            yield (found[1].decode(), int(found[2]), found[3].decode()) if found else None
        finally:
            server.terminate()


def wait_for(session: Session, expression: Any, seconds: int = 120) -> Any:
    """Returns whether an expression holds in the page, by then."""
    end = time.monotonic() + seconds
    while time.monotonic() < end:
        if session.value(expression) is True:
            return True
        time.sleep(.05)
    return False


def run_by(session: Session, expression: str, also: str = "true") -> Any:
    """Does something that runs the script, and waits for the run."""
    runs = session.value("document.body.dataset.runs")
    session.value(expression)
    return wait_for(session, f"document.body.dataset.runs !== {json.dumps(runs)} && {also}")


def edit(session: Session, old: Any, new: Any) -> Any:
    """Types into the script."""
    text = session.value("byId('text').value")
    return run_by(session, f"byId('text').value = {json.dumps(text.replace(old, new))}; "
                           "byId('text').dispatchEvent(new Event('input'))") and old in text


def choose(session: Session, name: str, kind: str = "example") -> None:
    """Chooses an example or a lesson."""
    run_by(session, f"byId('choose').value = '{kind} {name}'; "
                    "byId('choose').dispatchEvent(new Event('change'))")


TOPS = "['#script', '#lesson', '.spaces'].map((it) => document.querySelector(it).getBoundingClientRect().top)"


def check_choices(session: Session) -> None:
    """The list has each lesson and each example."""
    names = session.value("[...byId('choose').querySelectorAll('optgroup')].map((it) => "
                          "[...it.children].map((name) => name.textContent))")
    examples = sorted(os.path.basename(path)[:-4] for path in glob.glob(f"{TOP}/examples/*.shm"))
    assert names == [LESSONS, examples]


def check_order(session: Session) -> None:
    """The lesson comes before script and boxes, and on a phone between them."""
    script, lesson, spaces = session.value(TOPS)
    assert lesson < script == spaces
    session.resize(390, 844)
    assert session.value(TOPS) == sorted(session.value(TOPS))
    session.resize(1280, 900)


def check_lesson(session: Session) -> None:
    """A lesson has its script, text, question, and the answer folded; an example has none of these."""
    choose(session, LESSONS[7], "lesson")
    seen = session.value("[byId('lesson').hidden, byId('where').textContent, "
                         "byId('lesson').querySelector('h2').textContent, "
                         "byId('lesson').querySelectorAll('li').length, "
                         "[...byId('lesson').querySelectorAll('details')].map((it) => [it.open, "
                         "it.textContent.slice(0, 53)]), byId('lesson').innerText.includes('Question: "
                         "MEMLOCK, the last number')]")
    answer = "AnswerIf all frames could be locked, no frame would b"
    assert seen == [False, "step 0 of 16", LESSONS[7], 5, [[False, answer]], True]
    choose(session, LESSONS[6], "lesson")
    check_order(session)
    choose(session, LESSONS[8], "lesson")
    said = session.value("byId('lesson').innerText")
    assert "./shmcheck outcomes tries every order too" in said
    assert "OUTCOMES.md says" in said
    assert not {*"`[]|$"} & {*said}
    choose(session, "memory_short")
    assert session.value("byId('lesson').hidden") is True


# the outcomes of the ninth lesson, by hand: what each process loads first. Either both load before a store,
# or one loads after the other has stored.
LOST = [[f"load 0x40000000 1 = {byte}" for byte in bytes_of_both]
        for bytes_of_both in (("00", "00"), ("00", "01"), ("01", "00"))]
ROWS = "[...byId('outcomes').rows].map((row) => [...row.cells].slice(1).map((it) => it.textContent))"
CURRENT = ("[...byId('outcomes').rows].findIndex((row) => "
           "getComputedStyle(row).backgroundColor !== 'rgba(0, 0, 0, 0)')")
LOADED = ("['1', '2'].map((pid) => steps.find((it) => it.call.includes(` ${pid} load `)).call)"
          ".map((it) => it.split(' ').slice(3).join(' '))")
# the first load of each process in the only row
SHOWN = ("[...byId('outcomes').rows[1].cells].slice(1)"
         ".map((it) => it.textContent.split('\\n').find((line) => line.startsWith('load ')))")
OWN = "[1, 2].map((pid) => byId('text').value.split('\\n').filter((it) => it.startsWith(pid + ' ')))"


# whether a section lies between the bar and the lower end of the screen
IN_SIGHT = ("byId('bar').getBoundingClientRect().bottom <= byId('orders').getBoundingClientRect().top && "
            "byId('orders').getBoundingClientRect().bottom <= innerHeight")


def check_in_sight(session: Session) -> None:
    """On a phone the outcomes come below the lesson, and the page shows them at once."""
    session.resize(390, 844)
    session.value("byId('orders').hidden = true; showOutcomes([]); scrollTo(0, 0); byId('every').click()")
    assert wait_for(session, "byId('outcomes').rows.length === 4")
    assert wait_for(session, IN_SIGHT)
    session.resize(1280, 900)


def check_orders(session: Session) -> None:
    """Every order of a script: its outcomes, a column for each process. A click replays an order that gives
    this outcome, with the lines of each process in their order."""
    choose(session, LESSONS[8], "lesson")
    lines = session.value(OWN)
    session.value("byId('every').click()")
    assert wait_for(session, "byId('outcomes').rows.length > 0")
    head, *rows = session.value(ROWS)
    assert (head, sorted(rows)) == (["process 1", "process 2"], LOST)
    assert session.value("byId('found').textContent").startswith("3 outcomes,")
    for at, row in [*enumerate(rows, 1), (1, rows[0])]:
        assert run_by(session, f"byId('outcomes').rows[{at}].querySelector('button').click()")
        assert (session.value(LOADED), session.value(CURRENT)) == (row, at)
        assert session.value(OWN) == lines
        assert session.value("[byId('where').textContent, byId('title').textContent.slice(0, 13)]") == [
            "step 0 of 8", "Two processes"]
    late = session.value("(async () => { const search = findOrders(); byId('text').value += '# late'; "
                         "await search; return byId('outcomes').rows.length; })()")
    assert late == 0
    edit(session, "# late", "")
    check_in_sight(session)
    edit(session, "1 fork 2", "0 flush 1\n# both have it now\n1 fork 2\n# process 2 is born")
    assert session.value("byId('orders').hidden")
    session.value("byId('every').click()")
    assert wait_for(session, "byId('outcomes').rows.length === 4")
    assert run_by(session, "byId('outcomes').rows[1].querySelector('button').click()")
    text = session.value("byId('text').value")
    assert "# both have it now" in text and "flush" not in text
    assert "# process 2 is born\n1 load a 1\n" in text
    edit(session, "1 fork 2", "1 frok 2")
    session.value("byId('every').click()")
    assert wait_for(session, "byId('found').textContent.includes('bad line')")
    edit(session, "1 frok 2", "1 exit")
    session.value("byId('every').click()")
    assert wait_for(session, "byId('found').textContent.startsWith('1 outcome:')")


# lines 4 and 5 of process 1 and lines 1 and 2 of process 2 are its loads and stores
ASKED: list[tuple[str, list[list[str]], str]] = [
    ("1:4=00 /\\ 2:1=00", [LOST[0]], "Yes: "), ("~(1:4=00) /\\ ~(2:1=00)", [], "No: "),
    ("2:1=01", [LOST[1]], "Yes: "), ("1:4=", [], "shmcheck: condition, byte ")]


def check_condition(session: Session) -> None:
    """An order whose replies meet a condition: it is the only one below, and a click replays it. For a
    condition that none meets, and for a wrong one, the page says so."""
    choose(session, LESSONS[8], "lesson")
    session.value("byId('every').click()")
    assert wait_for(session, "byId('outcomes').rows.length === 4")
    for condition, found, said in ASKED:
        session.value(f"byId('condition').value = {json.dumps(condition)}; "
                      "byId('exists').querySelector('button').click()")
        assert wait_for(session, f"byId('found').textContent.startsWith({json.dumps(said)})")
        assert session.value("byId('outcomes').rows.length") == 2 * len(found)
        for loads in found:
            assert session.value(SHOWN) == loads
            assert run_by(session, "byId('outcomes').rows[1].querySelector('button').click()")
            assert (session.value(LOADED), session.value(CURRENT)) == (loads, 1)


def check_search() -> None:
    """A search that does not end says how far it came; without shmcheck the answer says what to do."""
    with tempfile.TemporaryDirectory(prefix="viewer.") as folder:
        program = "#!/bin/sh\ncase $3 in 100 | 1000) exit 5 ;; esac\nexec sleep 60\n"
        slow = write_file(folder, "slow", program, 0o755)
        answer.ORDER_SECONDS = 2
        said = answer.orders(slow, [], SCRIPT["script"])
    assert list(said) == ["words"]
    assert "more than 1000 different beginnings" in said["words"][0]
    runner = serve.Runner({"orders": ""}, "")
    said = json.loads(runner.run("orders", SCRIPT["script"].encode(), []) or b"")
    assert list(said) == ["words"] and "./shmcheck is not built" in said["words"][0]


# keeps the answer of the run with threads
KEEP = """(() => {
  const real = window.fetch;
  window.fetch = async (path, how) => {
    const answer = await real(path, how);
    if (path === "threads") window.threaded = await answer.clone().json();
    return answer;
  };
})()"""


# an order of the lines of shared_counter in which the processes take turns, as a run with threads may have it
TURNS = ["1", "1", "1", "2", "1", "2", "2", "1", "1"]
# answers a run with threads by this order
ANSWER = f"""(() => {{
  const real = window.fetch;
  const answer = {{ schedule: {json.dumps(TURNS)}, lines: [], words: [] }};
  window.fetch = async (path, how) => path === "threads" ? Response.json(answer) : real(path, how);
}})()"""


def check_threads(session: Session) -> None:
    """A run with threads is shown in its order, with the replies that it had."""
    choose(session, "shared_counter")
    lines = session.value(OWN)
    session.value(KEEP)
    for _ in range(3):
        assert run_by(session, "window.threaded = null; byId('race').click()",
                      "byId('words').textContent.startsWith('This is the order of a run')")
        told = session.value("threaded.lines")
        assert len(told) == 9
        assert session.value("steps.slice(1).map((it) => it.call.replace('call ', ''))") == told
        assert session.value(OWN) == lines
        assert session.value("[byId('lanes').hidden, byId('laned').rows.length]") == [False, 11]
    late = session.value("(async () => { const race = runThreads(); byId('text').value += '# late'; "
                         "await race; return byId('text').value.endsWith('# late'); })()")
    assert late is True
    edit(session, "# late", "")
    edit(session, "1 fork 2", "1 frok 2")
    session.value("byId('race').click()")
    assert wait_for(session, "byId('words').textContent.includes('nearest form: fork')")
    choose(session, "shared_counter")
    session.value(f"{ANSWER}; byId('race').click()")
    assert wait_for(session, "byId('words').textContent.startsWith('This is the order of a run')")
    assert session.value("steps.slice(1).map((it) => it.call.split(' ')[2])") == TURNS
    added = session.value("steps.filter((it) => it.call.includes('xadd'))"
                          ".map((it) => it.call.split(' = ')[1])")
    assert added == ["0", "1", "2", "3"]


def script_of(name: str) -> str:
    """An example without its task."""
    lines = text_of(f"examples/{name}.shm").splitlines(keepends=True)
    return "".join(line for line in lines if not line.startswith(TASK))


VERDICT = ("[byId('wanted').textContent.slice(0, 6), byId('verdict').textContent, "
           "byId('task').querySelector('details').open]")


def check_tasks(session: Session) -> None:
    """Each lesson has a task with a hint. The lesson's script does not solve it, and its solution does. The
    table is on the first screen."""
    for title, name in zip(LESSONS, NAMES):
        choose(session, title, "lesson")
        assert session.value("byId('segments').getBoundingClientRect().bottom") < 900
        assert session.value(VERDICT) == ["Task: ", "Not solved by this run.", False]
        assert session.value("byId('text').value") == script_of(name)
        edit(session, script_of(name), script_of(f"solutions/{name}"))
        assert session.value(VERDICT) == ["Task: ", "Solved by this run.", False]
        assert len(session.value("byId('hint').textContent")) > 20
    choose(session, LESSONS[0], "lesson")
    edit(session, "64 2 0", "64 3 0")
    assert session.value(VERDICT)[1] == "Solved by this run."
    edit(session, "1 load a+8192 1\n", "")
    assert session.value(VERDICT)[1] == "Not solved by this run."
    choose(session, "page_seam")
    assert session.value("byId('task').hidden")


def check_editing(session: Session) -> None:
    choose(session, "memory_short")
    session.value("go(6), openPage('0·0')")
    for old, new, where, call, frames in EDITS:
        is_run, seen = edit(session, old, new), session.value(SEEN)
        if call:
            assert is_run
            assert seen == [where, call, frames]
        else:
            said = session.value("byId('words').textContent").split("\n")[0]
            assert is_run
            assert (said, seen[0]) == ("line 6, column 8: unknown process", where)
    seen = session.value("[byId('opened').value, byId('dump').querySelector('tr').cells[1].innerText]")
    assert seen == ["0·0", "ff"]
    choose(session, "locks")
    session.value("go(12), openPage('1·2')")
    choose(session, "memory_short")
    seen = session.value("[byId('opened').value, byId('dump').innerText]")
    assert seen == ["", "No step so far loads or stores a byte."]


def check_fault(session: Session) -> None:
    choose(session, "memory_short")
    session.value("go(6)")
    edit(session, "1 load a 1", "1 laod a 1")
    seen = session.value("[byId('words').textContent, document.querySelector('#under mark').textContent, "
                         "[...byId('under').children].findIndex((it) => it.className === 'fault'), "
                         "byId('where').textContent, "
                         "byId('picture').classList.contains('stale')]")
    assert seen == [EXPLAINED, "laod", 8, "step 6 of 9", True]
    edit(session, "1 laod a 1", "1 load a 1")
    seen = session.value("[byId('words').textContent, document.querySelectorAll('#under .fault').length, "
                         "document.querySelector('#under .current').textContent, "
                         "byId('picture').classList.contains('stale')]")
    assert seen == ["", 0, "1 load a 1", False]
    edit(session, "1 load a 1", "1 load b 1")
    said = session.value("byId('words').textContent")
    assert said.startswith("warning: line 9: variable b of process 1 is used before it is set")
    session.value("byId('text').focus()")
    session.press("ArrowRight")
    assert session.value("byId('where').textContent") == "step 6 of 9"


def check_swap_and_link(session: Session) -> None:
    address = session.value("location.href.split('#')[0]")
    choose(session, "failing_swap")
    session.value("go(6)")
    seen = session.value(SEEN)
    assert seen[1] == "process 1: load 0x40000000 1 = SIGBUS call 6 of the history"
    session.value("byId('link').click()")
    link = session.value("location.hash")
    data = link.removeprefix("#script=")
    linked = json.loads(base64.urlsafe_b64decode(data + "=" * (-len(data) % 4)))
    assert linked == {"script": script_of("failing_swap"), "swap": ["fuse:64:r1"], "step": 6}
    session.open(address + link, 1280, 900)
    is_there = wait_for(session, "byId('where').textContent === 'step 6 of 7'")
    assert is_there
    assert session.value(SEEN)[1] == seen[1]


# a slow answer to the first text, and a quick one to the second, which is typed before the first is there
LATE_ANSWER = """(async () => {
  const real = window.fetch;
  let asked = 0;
  window.fetch = async (path, how) => {
    asked += 1;
    const isFirst = asked === 1;
    const answer = await real(path, { ...how, signal: undefined });
    if (isFirst) await new Promise((done) => setTimeout(done, 1500));
    if (how.signal?.aborted) throw new DOMException("aborted", "AbortError");
    return answer;
  };
  const type = (bytes) => {
    byId("text").value = byId("text").value.replace(/store a \\w+/, `store a ${bytes}`);
    return run();
  };
  const both = [type("a1"), type("b2")];
  await Promise.all(both);
  window.fetch = real;
  return [asked, byId("text").value.includes("store a b2"),
    steps.some((it) => it.lines.join().includes("store 0x40000000 b2")),
    steps.some((it) => it.lines.join().includes("store 0x40000000 a1"))];
})()"""


def check_late(session: Session) -> None:
    """An answer that comes after the text was changed once more is not shown."""
    choose(session, "memory_short")
    assert session.value(LATE_ANSWER) == [2, True, True, False]


def check_saving(session: Session) -> None:
    choose(session, "failing_swap")
    session.value("go(6)")
    session.value("URL.createObjectURL = (page) => "
                  "{ page.text().then((text) => { window.saved = text; }); return 'blob:none'; }; "
                  "byId('save').click()")
    wait_for(session, "typeof window.saved === 'string'")
    saved = session.value("window.saved") or ""
    with tempfile.TemporaryDirectory(prefix="viewer.") as folder:
        path = os.path.join(folder, "run.html")
        Path(path).write_text(saved, "utf-8")
        session.open(f"file://{path}", 1280, 900)
        seen = session.value(SEEN)
    want = ["step 6 of 7", "process 1: load 0x40000000 1 = SIGBUS call 6 of the history", 2]
    assert seen == want
    assert "127.0.0.1" not in saved


def check_with_a_script(session: Session) -> None:
    """The page opens a script that was named, with the swap areas that were named or are next to it."""
    example = f"{TOP}/examples/failing_swap.shm"
    with served(example) as found, served("ram:3", example) as other:
        for address, swap in ((found, "fuse:64:r1"), (other, "ram:3")):
            session.open(address[0], 1280, 900)
            is_there = wait_for(session, "byId('where').textContent === 'step 0 of 7'")
            seen = session.value("byId('swap').value")
            assert is_there
            assert seen == swap


def ask(port: Any, method: Any, path: str, body: Any = None, headers: Any = (),
        length: Any = None) -> tuple[Any, bytes]:
    """The status of an answer, and its body."""
    connection = http.client.HTTPConnection("127.0.0.1", port, timeout=60)
    try:
        connection.putrequest(method, path, skip_host="Host" in dict(headers))
        for name, value in dict(headers).items():
            connection.putheader(name, value)
        if body is not None or length is not None:
            connection.putheader("Content-Length", str(len(body or b"") if length is None else length))
        connection.endheaders()
        if body:
            with contextlib.suppress(OSError):
                connection.send(body)
        answer = connection.getresponse()
        return answer.status, answer.read()
    except (OSError, http.client.HTTPException) as error:
        return type(error).__name__, b""
    finally:
        connection.close()


# the headers of every answer: they let the page send requests to this server only, and load nothing else
HEADERS = {
    "Content-Security-Policy": "default-src 'none'; script-src 'unsafe-inline'; style-src 'unsafe-inline'; "
                               "img-src data:; connect-src 'self'; "
                               "base-uri 'none'; form-action 'none'; frame-ancestors 'none'",
    "X-Content-Type-Options": "nosniff", "Referrer-Policy": "no-referrer",
    "Cross-Origin-Resource-Policy": "same-origin", "Cache-Control": "no-store"}


def check_headers() -> None:
    """Each answer has these headers, also a refusal."""
    with served() as (_address, port, token):
        for path, wanted in (f"/{token}/", "text/html; charset=utf-8"), ("/", "text/plain; charset=utf-8"):
            connection = http.client.HTTPConnection("127.0.0.1", port, timeout=60)
            connection.request("GET", path)
            found = dict(connection.getresponse().getheaders())
            connection.close()
            want = {**HEADERS, "Content-Type": wanted}
            assert {name: found.get(name) for name in want} == want


def check_opened() -> None:
    """A file that is opened: its text, which could end the page's data, and swap areas by a dotted path."""
    text = "# </script><!-- <i>&lt; \\u003c\nlimits 1 1 1 2 0\n"
    with tempfile.TemporaryDirectory(prefix="viewer.") as folder:
        below = os.path.join(folder, "of.this")
        os.mkdir(below)
        for name, given in (("one.shm", text), ("one.swap", "ram:3 sparse:9\n")):
            Path(os.path.join(below, name)).write_text(given, "ascii")
        for words in [os.path.join(below, "one.shm")], [os.path.relpath(os.path.join(below, "one.shm"))]:
            with served(*words) as (_address, port, token):
                _, body = ask(port, "GET", f"/{token}/")
            opened = json.loads(re.findall(r'id="choices">(.*?)</script>', body.decode(), re.DOTALL)[0])
            assert (opened["script"], opened["swap"]) == (text, ["ram:3", "sparse:9"])
            assert opened["task"] is None
        task = {"task": "Make step 1 fail.", "goal": "step 1 = EINVAL", "hint": "No segment is there."}
        told = "".join(f"# {name}: {words}\n" for name, words in task.items())
        for given, want in (text + told, (text, task)), (text + told[:20], (text + told[:20], None)):
            path = write_file(folder, "task.shm", given)
            with served(path) as (_address, port, token):
                _, body = ask(port, "GET", f"/{token}/")
            opened = json.loads(re.findall(r'id="choices">(.*?)</script>', body.decode(), re.DOTALL)[0])
            assert (opened["script"], opened["task"]) == want


SCRIPT: dict[str, Any] = {"script": "limits 4096 1 1 2 0\nprocess 1 1 1\n1 stat 0\n", "swap": ["ram:1"]}


def check_hostile() -> None:
    """The requests that the server answers, and those that it refuses."""
    with served() as (_address, port, token):
        run, good = f"/{token}/run", json.dumps(SCRIPT).encode()
        own = f"http://127.0.0.1:{port}"
        refused = ["/", "/run", "/index.html", "/favicon.ico", f"/{token}", f"/{token}/..",
                   f"/{token}/../../../../../etc/passwd", "//etc/passwd",
                   f"/{token}/%2e%2e/%2e%2e/etc/passwd", f"/{token}/run", f"/{token}/../{token}/",
                   f"/{token[:-1]}/", f"/{token}x/", f"/{token}/?x",
                   f"{own}/{token}/", "/etc/passwd", f"/{'A' * 32}/", f"/{token}/page.html", f"/{token}/\xe4"]
        for path in refused:
            status, body = ask(port, "GET",
                               path.encode("latin-1").decode("latin-1")) if path.isascii() else (404, b"")
            assert (status, body) == (404, b"")
        status, body = ask(port, "GET", f"/{token}/")
        assert status == 200
        assert body.startswith(b"<!doctype html>")
        rows: tuple[tuple[tuple[Any, ...], int], ...] = (
                ((run, good), 200), ((run, good, {"Origin": own}), 200),
                ((f"/{token}/orders", good), 200), (("/orders", good), 404),
                ((run, good, {"Origin": "http://evil.example"}), 404),
                ((run, good, {"Origin": "null"}), 404),
                ((run, good, {"Origin": f"http://localhost:{port}"}), 404),
                ((run, good, {"Host": f"evil.example:{port}"}), 404),
                ((run, good, {"Host": f"localhost:{port}"}), 404),
                (("/run", good), 404), ((f"/{'A' * 32}/run", good), 404), ((f"/{token}/", good), 404),
                ((f"/{token}/../run", good), 404),
                ((run, b"x" * (2 << 20)), 413), ((run, None, {}, 2 << 20), 413),
                ((run, b" " * (1 << 20)), 400), ((run, None), 411),
                ((run, None, {}, "-1"), 411), ((run, None, {"Transfer-Encoding": "chunked"}), 411),
                ((run, b"[]"), 400), ((run, b"[" * 100000), 400),
                ((run, b"{}"), 400), ((run, json.dumps({**SCRIPT, "swap": ["ram:1; id"]}).encode()), 400),
                ((run, json.dumps({**SCRIPT, "swap": ["--steps"]}).encode()), 400),
                ((run, json.dumps({**SCRIPT, "swap": []}).encode()), 400),
                ((run, json.dumps({**SCRIPT, "swap": "ram:1"}).encode()), 400),
                ((run, json.dumps({**SCRIPT, "script": 7}).encode()), 400),
                *(((f"/{token}/exists", json.dumps({**SCRIPT, "condition": condition}).encode()), want)
                  for condition, want in (("1:1=EINVAL", 200), ("--at-most", 200), (7, 400), ("\0", 400),
                                          ("1:1=\xe9", 400), ("~" * 2000, 200), ("~" * 2001, 400))))
        for words, want in rows:
            status, _ = ask(port, "POST", *words)
            assert status == want
        for method in ("PUT", "DELETE", "OPTIONS", "HEAD"):
            status, _ = ask(port, method, f"/{token}/")
            assert status == 501
        with socket.socket() as other:
            status = other.connect_ex(("127.0.0.2", port))
        assert status != 0
        with concurrent.futures.ThreadPoolExecutor(100) as pool:
            statuses = [status for status, _ in pool.map(lambda _: ask(port, "POST", run, good), range(100))]
        assert 200 in statuses
        assert {*statuses} <= {200, 503}
        status, body = ask(port, "POST", run, good)
        assert status == 200
        assert b"EINVAL" in body


def check_limits() -> None:
    """One run at a time; one that takes too long, or too much memory, is ended."""
    serve.RUN_SECONDS = 2
    with tempfile.TemporaryDirectory(prefix="viewer.") as folder:
        programs = {
            "turns": f"mkdir {folder}/turn 2> /dev/null || echo together >> {folder}/log\nsleep .05\nrmdir "
                     f"{folder}/turn",
            "long": "while :; do :; done",
            "idle": "sleep 600",
            "large": "exec python3 -S -c 'import mmap; mmap.mmap(-1, 2 << 30)'",
            "wordy": "exec python3 -c 'import sys; sys.stdout.write(\"x\" * (200 << 20))'",
        }
        runners = {}
        for name, text in programs.items():
            Path(f"{folder}/{name}").write_text(f"#!/bin/sh\n{text}\n", "ascii")
            os.chmod(f"{folder}/{name}", 0o755)
            runners[name] = serve.Runner({"run": f"{folder}/{name}"}, f"{TOP}/bindings/python")
        given = ("run", SCRIPT["script"].encode(), ["ram:1"])
        threads = [threading.Thread(target=runners["turns"].run, args=given) for _ in range(6)]
        for thread in threads:
            thread.start()
        for thread in threads:
            thread.join()
        assert not os.path.exists(f"{folder}/log")
        for name, words in (("long", "the run was ended"), ("idle", "the run was ended"),
                            ("large", "Cannot allocate memory"), ("wordy", "the run was ended")):
            said = json.loads(runners[name].run(*given) or b"")
            assert "record" not in said
            assert words in said["words"][0]


# the parts of the page that is served, each with the page as it opens
EDITOR = (check_choices, check_lesson, check_orders, check_condition, check_tasks, check_threads,
          check_editing, check_fault, check_late, check_swap_and_link, check_saving)
