// Uses a page as its reader does, and leaves as text what is seen: as it opens, at each step, and after each other move.
"use strict";
(() => {
  const errors = [];
  addEventListener("error", (event) => errors.push(event.message));
  const byId = (id) => document.getElementById(id);
  const all = (root, selector) => [...root.querySelectorAll(selector)];
  const texts = (root, selector) => all(root, selector).map((it) => it.innerText.trim());
  const text = (root, selector) => texts(root, selector)[0];
  const style = (it, part) => getComputedStyle(it, part);
  // the colour of what changed: that of the sentences
  const accent = style(byId("changes")).color;
  const isFramed = (it) => style(it).boxShadow.includes(accent);
  const isFilled = (row) => style(row).backgroundColor !== "rgba(0, 0, 0, 0)";
  const colour = (it) => style(it).backgroundColor;

  const struck = (it) => all(it, ".was").filter((was) => style(was).textDecorationLine === "line-through").map((was) => was.innerText.trim());
  const isReached = (it) => style(it).outlineStyle === "solid";
  // a box: its number, its owner, what is struck out, its marks, and whether it is framed and reached
  const cell = (it) => [text(it, ".number"), text(it, ".owner"), ...struck(it), text(it, ".marks") || "", isFramed(it), isReached(it)];
  const isHatched = (it) => style(it).backgroundImage.startsWith("repeating-linear-gradient");
  const page = (it) => [...cell(it), isHatched(it), style(it).borderLeftWidth === "5px", it.title];
  const state = (it) => [text(it, ".state"), isFramed(it.querySelector(".state"))];
  const process = (it) => [text(it, ".name"), ...state(it), all(it, ".page, .gap").map((box) => box.className === "gap" ? "gap" : page(box))];
  // a text after the slots says how many more there are
  const area = (it) => [text(it, ".name"), all(it, ".cell").map(cell), texts(it, ".rest")];
  // the hand's way at a frame, from the lowest line up: whether it begins there, how it is drawn, whether an arrow ends it, and whether
  // it reaches the next box; lines lie apart, and are seen
  const hasMark = (it, part) => style(it, part).content === '""' && style(it, part).display !== "none";
  const way = (box) => {
    const edge = box.getBoundingClientRect();
    const lines = all(box, ".way").map((it) => ({ it, at: it.getBoundingClientRect() })).sort((one, other) => other.at.bottom - one.at.bottom);
    const isApart = lines.every(({ at }, index) => !index || at.bottom < lines[index - 1].at.bottom - 2);
    const isSeen = ({ it, at }) => isApart && style(it).borderBottomColor === accent && at.bottom < edge.bottom && at.left <= edge.left + 2;
    const reach = (at) => at.right > edge.right ? "on" : at.right < edge.right - 20 ? "ends" : "near";
    return lines.map((line) => isSeen(line) && [hasMark(line.it, "::before"), style(line.it).borderBottomStyle, hasMark(line.it, "::after"), reach(line.at)]);
  };
  const hasBar = (it) => style(it.querySelector(".marks"), "::after").borderBottomStyle === "solid";
  const row = (it) => [texts(it, "td"), all(it, "td").map(isFilled), style(it.cells[0]).textDecorationLine === "line-through"];
  const coloured = () => [
    ...all(document, "#live .cell").filter((it) => text(it, ".owner")).map((it) => [text(it, ".owner").split("·")[0], colour(it)]),
    ...all(document, "#segments tr").filter((it) => text(it, "td")).map((it) => [texts(it, "td")[1], colour(it.querySelector(".swatch"))]),
  ];
  const number = (it, name) => Number(it.getAttribute(name));
  const chart = (kind) => {
    const lines = all(byId("chart-" + kind), "line:not(.here)");
    const here = byId("chart-" + kind).querySelector(".here");
    return {
      unit: byId("chart-" + kind).querySelector(".unit")?.textContent,
      paths: all(byId("chart-" + kind), "path").map((it) => [style(it).stroke, it.getAttribute("d")]),
      axis: lines.map((it) => [it.previousElementSibling.textContent, number(it, "y1"), number(it, "x1"), number(it, "x2")]),
      here: here && [number(here, "x1"), number(here, "x2"), here.nextElementSibling.textContent],
      legend: all(byId("legend-" + kind), "li").map((it) => [it.innerText.trim(), style(it.querySelector("i")).borderTopColor]),
    };
  };
  const replyStyle = () => all(byId("call"), ".reply").map((it) => [style(it).color === accent, style(it).fontWeight]);
  const shown = () => ({
    heading: text(document, "#title"),
    where: text(document, "#where"),
    link: byId("where").getAttribute("href"),
    title: document.title,
    slider: ["max", "value"].map((name) => byId("slider")[name]),
    disabled: ["back", "on"].map((id) => byId(id).disabled),
    call: text(document, "#call"),
    reply: replyStyle(),
    changes: texts(document, "#changes li:not(.notice)"),
    notice: texts(document, "#changes li.notice"),
    script: byId("script").hidden ? [] : all(byId("lines"), "li").map((it) => it.textContent.trim()),
    current: all(byId("lines"), "li").flatMap((it, at) => isFilled(it) ? [at] : []),
    processes: all(document, ".process").map(process),
    frames: all(byId("frames"), ".cell").map(cell),
    hands: all(byId("frames"), ".cell").filter(hasBar).map((it) => text(it, ".number")),
    ways: all(byId("frames"), ".cell").map(way),
    areas: all(document, ".area").map(area),
    segments: all(document, "#segments tr").map(row),
    coloured: coloured(),
    charts: [chart("now"), chart("sum")],
  });

  // a name of a move is a key, with the key that is held; a button; the slider's value; or what the address ends with
  const press = (held, key) => !dispatchEvent(new KeyboardEvent("keydown", { key, cancelable: true, [held + "Key"]: true }));
  const slide = (value) => {
    byId("slider").value = value;
    byId("slider").dispatchEvent(new Event("input"));
  };
  const follow = (hash) => {
    history.replaceState(null, "", hash);
    dispatchEvent(new Event("hashchange"));
  };
  // the middle of a step on a chart, by the chart's own axis
  const clickAt = (kind, part) => {
    const [svg] = all(byId("chart-" + kind), "svg");
    const box = svg.querySelector("line:not(.here)").getBoundingClientRect();
    svg.dispatchEvent(new MouseEvent("click", { clientX: box.left + box.width * part }));
  };
  const move = (name) => {
    const [kind, what] = name.split(" ");
    if (kind === "button") byId(what).click();
    else if (kind === "slider") slide(what);
    else if (kind === "address") follow(what);
    else if (kind === "line") all(byId("lines"), "li")[what].querySelector("button").click();
    else if (kind === "chart") clickAt(...what.split(":"));
    else return press(kind, what);
    return null;
  };
  const opened = shown();
  const steps = [];
  press("no", "Home");
  do {
    steps.push(shown());
    press("no", "ArrowRight");
  } while (byId("where").getAttribute("href") !== steps.at(-1).link);
  const moves = JSON.parse(byId("moves-to-make").textContent);
  const moved = moves.map((name) => [name, move(name), location.hash, shown()]);
  const told = document.createElement("pre");
  told.id = "collected";
  told.textContent = JSON.stringify({ opened, steps, moved, errors });
  document.body.replaceChildren(told);
})();
