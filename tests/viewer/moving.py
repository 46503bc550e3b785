"""How a page moves: play, search for the next step of a kind, swipes, and the handout."""

from __future__ import annotations

import re
from typing import Any

from viewer.browser import Session
from viewer.expected import all_sought, number_of, steps_sought
from viewer.memory import Memory
from viewer.pages import Page

# what a reader of the screen hears of each control of the bar
NAMES = [("button", "One step back"), ("button", "One step on"), ("slider", "Step"), ("button", "Play"),
         ("combobox", "What to look for"),
         ("button", "The step before that has it"), ("button", "The next step that has it"),
         ("combobox", "Page"), ("textbox", "Steps to print:"), ("button", "Print")]
WHERE = "Number(/step (\\d+)/.exec(byId('where').textContent)[1])"
NOTICE = "document.querySelector('#changes .notice')?.textContent ?? ''"
WORDS = {"fault": "a page comes into a frame", "refusal": "a call is refused"}
# presses a key until it leads nowhere: the steps that are shown, and the message
WALK = f"""((key, most) => {{
  const seen = [];
  while (seen.length <= most) {{
    const was = {WHERE};
    dispatchEvent(new KeyboardEvent("keydown", {{ key, cancelable: true }}));
    if ({WHERE} === was) break;
    seen.push({WHERE});
  }}
  return [seen, {NOTICE}];
}})"""


def walk(session: Session, press: Any, last: Any) -> Any:
    """The steps to which a key leads, and the message after the last."""
    return session.value(f"{WALK}('{press}', {last} + 1)")


def check_seeking(session: Session, made: Page) -> None:
    """The page finds everything that can be looked for, forwards and backwards."""
    last, changed = number_of(made.blocks[-1]), Memory(made.blocks).changed()
    choices = session.value("[...byId('seek').options].map((it) => it.value)")
    assert choices == all_sought(made.blocks)
    for what in all_sought(made.blocks):
        want = steps_sought(what, made.blocks, changed)
        session.value(f"byId('seek').value = '{what}'")
        found = []
        for begin, key in (("Home", "n"), ("End", "p")):
            session.press(begin)
            found.append(walk(session, key, last)[0])
        # the last step is where the way back begins
        back = [step for step in reversed(want) if step != last]
        assert found == [want, back]
    for what, key in (("fault", "f"), ("refusal", "r")):
        session.press("Home")
        seen, said = walk(session, key, last)
        assert seen == steps_sought(what, made.blocks, changed)
        assert said == f"no step after this one has it: {WORDS[what]}"
    session.press("Home")
    session.value("byId('seek').value = 'fault'; byId('next').click()")
    first = session.value(WHERE)
    session.value("byId('next').click(); byId('before').click()")
    want = steps_sought("fault", made.blocks, changed)[0]
    assert [first, session.value(WHERE)] == [want, want]


def check_playing(session: Session, made: Page, wait_for: Any) -> None:
    """Play continues, by its key and its button, and ends at the last step and at any other move."""
    text = "byId('play').textContent"
    last = number_of(made.blocks[-1])
    session.press("Home")
    session.press(" ")
    begun = session.value(text)
    is_on = wait_for(session, f"{WHERE} === 2")
    session.press("ArrowLeft")
    stopped = session.value(f"[{WHERE}, {text}]")
    session.value("byId('play').click(); 0")
    session.press(" ")
    paused = session.value(text)
    session.press("End")
    session.press("ArrowLeft")
    session.value("byId('play').click(); 0")
    is_over = wait_for(session, f"{WHERE} === {last} && {text} === 'Play'")
    session.press(" ")
    again = session.value(f"[{WHERE}, {text}]")
    session.press(" ")
    seen = [begun, is_on, stopped, paused, is_over, again]
    assert seen == ["Pause", True, [1, "Play"], "Play", True, [0, "Pause"]]


def check_names(session: Session) -> None:
    """Each control has a name and is reached by Tab."""
    tree = session.ask("Accessibility.getFullAXTree")["nodes"]
    kinds = {"button", "slider", "combobox", "textbox"}
    seen = [(it["role"]["value"], it["name"]["value"]) for it in tree if not it["ignored"]
            and it["role"]["value"] in kinds]
    missing = [it for it in NAMES if it not in seen]
    assert not missing
    assert all(name for _, name in seen)
    told = session.value("byId('slider').getAttribute('aria-valuetext')")
    assert told == session.value("byId('where').textContent")
    ids = "['back', 'on', 'slider', 'where', 'play', 'seek', 'before', 'next', 'opened', 'printed']"
    reached = session.value(f"{ids}.filter((id) => "
                            f"{{ const it = byId(id); it.disabled = false; it.focus(); "
                            f"return document.activeElement !== it || it.tabIndex < 0; }})")
    assert reached == []
    session.value("document.activeElement.blur()")


def settle(session: Session) -> None:
    """Waits until the page has handled its events and drawn twice."""
    session.value("new Promise((done) => requestAnimationFrame(() => requestAnimationFrame(() => done(0))))")


def swipe(session: Session, begin: Any, end: Any, selector: Any = None) -> None:
    where = {"x": begin[0], "y": begin[1]}
    if selector:
        box = session.value(f"(() => {{ const it = document.querySelector('{selector}'); "
                            f"it.scrollIntoView({{ block: 'center' }}); "
                            "const box = it.getBoundingClientRect(); return [box.left + box.width / 2, "
                            "box.top + box.height / 2]; })()")
        where, end = {"x": box[0], "y": box[1]}, (box[0] + end[0] - begin[0], box[1])
    session.ask("Input.dispatchTouchEvent", type="touchStart", touchPoints=[where])
    session.ask("Input.dispatchTouchEvent", type="touchMove", touchPoints=[{"x": end[0], "y": end[1]}])
    session.ask("Input.dispatchTouchEvent", type="touchEnd", touchPoints=[])
    settle(session)


def check_swipes(session: Session) -> None:
    """On a phone a swipe to the left goes a step on, and one to the right a step back; a short or steep one,
    or one in a table, does nothing."""
    session.ask("Emulation.setTouchEmulationEnabled", enabled=True)
    session.value("location.hash = '#step-3'; 0")
    settle(session)
    seen = []
    swipes: tuple[tuple[Any, ...], ...] = (((300, 500), (100, 510)), ((300, 500), (100, 490)),
                                           ((100, 500), (300, 500)), ((300, 500), (265, 500)),
                                           ((300, 300), (220, 420)),
                  ((300, 500), (200, 500), ".scrolls"))
    for words in swipes:
        swipe(session, *words)
        seen.append(session.value(WHERE))
    assert seen == [4, 5, 4, 4, 4, 4]
    # two fingers, which make the page larger: the one goes to the left, the other to the right
    touches: tuple[tuple[str, list[tuple[int, int]]], ...] = (("touchStart", [(250, 500), (260, 500)]),
                                                              ("touchMove", [(100, 500), (380, 500)]),
                                                              ("touchEnd", []))
    for kind, points in touches:
        session.ask("Input.dispatchTouchEvent", type=kind,
                    touchPoints=[{"x": x, "y": y, "id": at} for at, (x, y) in enumerate(points)])
    settle(session)
    assert session.value(WHERE) == 4
    session.ask("Emulation.setTouchEmulationEnabled", enabled=False)


def check_handout(session: Session, made: Page) -> None:
    """Chosen steps are printed, each on a sheet with its number, line and title."""
    lines = [at for at, line in enumerate(made.script) if re.match("[0-9]", line)]
    rows: tuple[tuple[str, list[int], str], ...] = (("2, 4-6", [2, 4, 5, 6], ""),
                                                    ("5-99", list(range(5, len(lines) + 1)), ""),
                                                    ("1", [1], ""), ("0 1", [0, 1], ""),
                                 ("x", [], f"no steps are named by x: the steps are 0 to {len(lines)}"),
                                 ("3 99", [3], f"no steps are named by 99: the steps are 0 to {len(lines)}"))
    for words, numbers, said in rows:
        session.value(f"byId('printed').value = '{words}'; 0")
        sheets = len(re.findall(rb"/Type /Page\b", session.paper()))
        seen = session.value("dispatchEvent(new Event('beforeprint')), "
                             "[...document.querySelectorAll('.sheet')].map((it) => "
                             "['h1', '.where', '.lines-of'].map((part) => "
                             "it.querySelector(part)?.textContent ?? ''))")
        told = session.value("dispatchEvent(new Event('afterprint')), byId('unprinted').textContent")
        want = [[made.script[0].lstrip("# "), f"step {at} of {len(lines)}",
                 f"line {lines[at - 1] + 1}: {made.script[lines[at - 1]]}" if at else ""]
                for at in numbers]
        assert (seen, told, sheets) == (want, said, max(1, len(numbers)))
    session.value("byId('printed').value = ''; 0")
