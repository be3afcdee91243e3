// Makes the elements of the page. Text always comes in as text: nothing of it is taken as HTML.

import { say } from "./words.js";

const SVG = "http://www.w3.org/2000/svg";

export const byId = (id) => document.getElementById(id);

function fill(element, attributes, children) {
  for (const [name, value] of Object.entries(attributes)) {
    if (value !== null && value !== undefined) {
      element.setAttribute(name, value);
    }
  }
  element.append(...children.filter((it) => it !== null && it !== undefined));
  return element;
}

/** An element with attributes and children; a child that is a string becomes a text. */
export function make(name, attributes = {}, ...children) {
  return fill(document.createElement(name), attributes, children);
}

export function makeSvg(name, attributes = {}, ...children) {
  return fill(document.createElementNS(SVG, name), attributes, children);
}

export function button(text, act, attributes = {}) {
  const made = make("button", { type: "button", ...attributes }, text);
  made.addEventListener("click", act);
  return made;
}

/** A table with a caption and headers. A column is the key of its words and the class of its cells; a row is
 * an array of cells, each a text or an element, the first of them its header. The roles are said, since the
 * styles of a narrow window, where a row is a block, take them away. */
export function table(id, caption, columns, rows) {
  const named = columns.map(([word, kind]) => [say(word), kind]);
  const heads = named.map(([name, kind]) =>
    make("th", { scope: "col", role: "columnheader", class: kind }, name));
  const body = make("tbody", { role: "rowgroup" });
  for (const { cells, attributes } of rows) {
    const made = cells.map((cell, place) => {
      const [name, kind] = named[place];
      return place === 0
        ? make("th", { scope: "row", role: "rowheader", class: kind, "data-column": name }, cell)
        : make("td", { role: "cell", class: kind, "data-column": name }, cell);
    });
    body.append(make("tr", { role: "row", ...attributes }, ...made));
  }
  const head = make("thead", { role: "rowgroup" }, make("tr", { role: "row" }, ...heads));
  const whole = make("table", { id, role: "table" }, make("caption", {}, caption), head, body);
  // It scrolls by itself where the window is narrow, by keyboard too.
  return make("div", { class: "scroll", tabindex: "0", role: "region", "aria-label": caption }, whole);
}

/** Does what the clerk has clicked on and then this, as taking the focus along, unless the clerk has gone on to
 * something else meanwhile. */
export async function goAlong(act, then) {
  const before = document.activeElement;
  await act();
  if ([before, document.body].includes(document.activeElement)) {
    then();
  }
}

export const row = (...cells) => ({ cells });

/** The pairs of a description list: the key of a term's words, and what is said of it. */
export function pairs(list, ...told) {
  list.replaceChildren(...told.map(([word, value, attributes]) =>
    make("div", attributes ?? {}, make("dt", {}, say(word)), make("dd", {}, value))));
}
