"use strict";
// Escape sequences, for the page and its worker: those of a style change the style, and no other shows anything.
const LONGEST = 20000, STRETCHES = 200, EDGE = 2000;
const SEQUENCE =
  /\x1b(?:\[([0-9;:]*)([ -/]*[@-~])|\][^\x07\x1b]*(?:\x07|\x1b\\)?|[ -/]*[0-~])|[\x00-\x08\x0b-\x1f\x7f]/g;
const PLAIN = { on: "", fore: "", back: "" };
const FLAGS = { 1: "b", 2: "d", 3: "i", 4: "u", 9: "s" }, OFF = { 22: "bd", 23: "i", 24: "u", 29: "s" };
const LEVELS = [0, 95, 135, 175, 215, 255];

// A colour of 256: one of the eight, which the page names by a digit, or its own.
const indexed = n => {
  if (n < 16) return String(n < 8 || n === 8 ? n : n - 8);
  if (n > 231) return `rgb(${Array(3).fill(8 + 10 * (n - 232))})`;
  return `rgb(${[36, 6, 1].map(k => LEVELS[Math.floor((n - 16) / k) % 6])})`;
};
// The colour after 38 or 48, and how many numbers it takes.
const extended = list => {
  const [kind, ...rest] = list.map(n => Math.min(255, n || 0));
  return kind === 2 ? [`rgb(${[...rest, 0, 0, 0].slice(0, 3)})`, 4] : kind === 5 ? [indexed(rest[0] || 0), 2] : ["", 1];
};
const restyled = (style, codes) => {
  let { on, fore, back } = style;
  const list = codes.split(/[;:]/).map(Number);
  for (let k = 0; k < list.length; k++) {
    const c = list[k], base = Math.floor(c / 10);
    if (c === 0) on = fore = back = "";
    else if (FLAGS[c]) on = on.replace(FLAGS[c], "") + FLAGS[c];
    else if (OFF[c]) on = [...on].filter(it => !OFF[c].includes(it)).join("");
    else if (c === 38 || c === 48) {
      const [colour, count] = extended(list.slice(k + 1, k + 5));
      k += count;
      if (c === 38) fore = colour; else back = colour;
    } else if (c === 39) fore = "";
    else if (c === 49) back = "";
    else if ((base === 3 || base === 9) && c % 10 < 8) fore = String(c === 90 ? 8 : c % 10);
    else if ((base === 4 || base === 10) && c % 10 < 8) back = String(c === 100 ? 8 : c % 10);
  }
  return { on, fore, back };
};

// The style behind a line. Of a long line that does not end it the beginning and the end are looked at.
const styleAfter = (line, style) => {
  const reset = Math.max(line.lastIndexOf("\x1b[0m"), line.lastIndexOf("\x1b[m"));
  const rest = reset < 0 ? line : line.slice(reset);
  const looked = rest.length > 2 * EDGE ? rest.slice(0, EDGE) + rest.slice(-EDGE) : rest;
  if (reset >= 0) style = PLAIN;
  if (!looked.includes("\x1b")) return style;
  for (const found of looked.matchAll(SEQUENCE)) {
    if (found[2] === "m") style = restyled(style, found[1]);
  }
  return style;
};

// The pieces of a line that have one style each, as text and style. What is behind the last that a line may have has
// its style.
const pieces = (line, style) => {
  const made = [], cut = line.length > LONGEST ? line.slice(0, LONGEST) : line;
  const add = text => {
    const last = made.at(-1);
    if (!text) return;
    if (last && last[1] === style.on && last[2] === style.fore && last[3] === style.back) last[0] += text;
    else made.push([text, style.on, style.fore, style.back]);
  };
  let from = 0;
  for (const found of cut.matchAll(SEQUENCE)) {
    add(cut.slice(from, found.index));
    from = found.index;
    if (made.length === STRETCHES) break;
    from += found[0].length;
    if (found[2] === "m") style = restyled(style, found[1]);
  }
  if (made.length === STRETCHES) made.at(-1)[0] += cut.slice(from).replace(SEQUENCE, "");
  else add(cut.slice(from));
  if (cut !== line) made.push([` … and ${line.length - LONGEST} characters more`, "i", "8", ""]);
  return made;
};
