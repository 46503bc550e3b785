// Reads the bytes that are shown at each step of a run, from the first on: for each page its line and its rows.
"use strict";
(() => {
  const byId = (id) => document.getElementById(id);
  const style = (it, part) => getComputedStyle(it, part);
  const accent = style(byId("changes")).color;
  const press = (key) => dispatchEvent(new KeyboardEvent("keydown", { key, cancelable: true }));
  // a byte, with * where it is marked as changed, ! where it is named, and ~ where it is struck out
  const byte = (it) => [
    it.innerText.trim(),
    style(it).color === accent && style(it).backgroundColor !== "rgba(0, 0, 0, 0)" ? "*" : "",
    style(it).outlineStyle === "solid" ? "!" : "",
    [...it.children].some((was) => style(was).textDecorationLine === "line-through") ? "~" : "",
  ].join("");
  const cells = (row) => [...row.querySelectorAll("td:not(.space)")];
  const row = (it) => it.cells.length === 1 ? it.innerText.trim() : [it.cells[0].innerText, cells(it).slice(0, -1).map(byte).join(" "), cells(it).at(-1).innerText];
  const lines = () => [...byId("dump").querySelectorAll(".held")];
  const shown = () => lines().map((it) => [it.innerText.trim(), it.nextElementSibling ? [...it.nextElementSibling.rows].map(row) : []]);
  const found = [];
  press("Home");
  do {
    found.push([byId("named").innerText, shown()]);
    press("ArrowRight");
  } while (found.length < Number(byId("slider").max) + 1);
  return found;
})()
