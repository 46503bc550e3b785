// Measures a page as it lies on the screen: where its boxes are, and what a reader sees of it.
"use strict";
(() => {
  const all = (selector) => [...document.querySelectorAll(selector)];
  const box = (it) => {
    const { left, top, width, height } = it.getBoundingClientRect();
    return [left, top + scrollY, width, height].map((number) => Math.round(number * 10) / 10);
  };
  const bottom = (selector) => Math.max(...all(selector).map((it) => it.getBoundingClientRect().bottom));
  const table = document.querySelector(".scrolls");
  const style = getComputedStyle(table);
  const more = document.getElementById("more");
  const told = document.getElementById("told");
  // the sentences that lie within their area, and the button that shows the rest
  const area = told.getBoundingClientRect();
  const isWithin = (it) => it.getBoundingClientRect().bottom <= area.bottom + 1;
  const lines = [document.getElementById("call"), ...all("#changes li")];
  // a mark of the legend: its words, how its picture looks, and where its middle is
  const LOOKS = [
    ["hatched", (it) => it.backgroundImage.startsWith("repeating-linear-gradient")],
    ["thick", (it) => it.borderLeftWidth === "5px"],
    ["inner", (it) => it.outlineStyle === "solid"],
    ["outer", (it) => it.boxShadow !== "none"],
    ["struck", (it) => it.textDecorationLine === "line-through"],
  ];
  const marks = all("#marks li").filter((it) => it.offsetWidth).map((it) => {
    const picture = it.firstElementChild && getComputedStyle(it.firstElementChild);
    const { top, bottom, right } = it.getBoundingClientRect();
    return [it.innerText.trim().replace(/\s+/g, " "), picture ? LOOKS.filter(([, test]) => test(picture)).map(([name]) => name).join() : "", Math.round((top + bottom) / 2), right];
  });
  // the outline of a box that was accessed lies 4px inside it, and crosses no text
  const isClear = (it) => {
    const [edge, text] = [it.getBoundingClientRect(), document.createRange()];
    text.selectNodeContents(it.querySelector(".number"));
    const { top, left, right } = text.getBoundingClientRect();
    return top >= edge.top + 4 && left >= edge.left + 4 && right <= edge.right - 4;
  };
  return {
    boxes: all("#bar, #live section, .key, #live .cell, #segments tr, #live svg, .legend li").map(box),
    wide: document.documentElement.scrollWidth,
    lowest: bottom("#processes .cell, #frames .cell"),
    script: bottom("#script"),
    highest: Math.min(...all(".spaces, .memory").map((it) => it.getBoundingClientRect().top)),
    scrolls: table.scrollWidth <= table.clientWidth || style.overflowX === "auto" && style.backgroundImage.includes("gradient"),
    isTold: lines.every(isWithin) || !more.hidden,
    marks,
    isClear: all(".cell.reached").every(isClear),
    areBeside: new Set(all(".process").slice(0, 2).map((it) => it.getBoundingClientRect().top)).size === 1,
    frameRows: new Set(all("#frames .cell").map((it) => it.getBoundingClientRect().top)).size,
    table: bottom("#segments"),
    isWhole: table.scrollWidth <= table.clientWidth,
    cell: document.querySelector(".cell").offsetWidth,
    font: parseFloat(getComputedStyle(document.getElementById("call")).fontSize),
  };
})()
