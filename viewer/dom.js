// Makes elements of the page, and the hints that say what a word means.
import { meaningOf, COLOURS, inkOn } from "./words.js";
import { kindNamed } from "./votes.js";

// An element with attributes and children; a child is an element or a text.
export function element(tag, attributes = {}, ...children) {
  const made = document.createElement(tag);
  for (const [name, value] of Object.entries(attributes)) {
    if (name.startsWith("on")) made.addEventListener(name.slice(2), value);
    else if (value === true) made.setAttribute(name, "");
    else if (value !== false && value !== null && value !== undefined) made.setAttribute(name, value);
  }
  made.append(...children.flat(Infinity).filter((child) => child !== null && child !== undefined));
  return made;
}

// Puts children in the place of what an element has; what is null is left out.
export function fill(parent, children) {
  parent.replaceChildren(...children.flat(Infinity).filter((child) => child !== null && child !== undefined));
}

// A word that shows its meaning where the pointer or the keyboard comes to it. Where a word stands many times the keyboard may
// pass it by.
export function word(text, name = text, isStop = true) {
  return meaningOf(name) ? element("span", { class: "word", tabindex: isStop ? "0" : null, "data-word": name }, text) : text;
}

// The letter of a kind of vote on its colour.
export function chip(name) {
  const kind = kindNamed(name);
  const style = `background:${COLOURS[name]};color:${inkOn(COLOURS[name])}`;
  return element("span", { class: `chip ${kind.group}`, style, "aria-hidden": "true" }, kind.letter);
}

export function postLink(history, k, text = `post ${k} of node ${history.from[k]}`) {
  const name = history.kindName(k);
  return element("a", { class: "post", href: `#post-${k}`, "data-word": name }, chip(name), text);
}

// A paragraph of a style.
export function para(style, ...children) {
  return element("p", { class: style || null }, children);
}

// A section with a heading.
export function part(title, ...children) {
  return element("section", {}, element("h3", {}, title), children);
}

// A head of a column or of a row, and a row.
export function head(scope, ...children) {
  return element("th", { scope }, children);
}

export function row(...cells) {
  return element("tr", {}, cells);
}

// A table of rows that are made.
export function tableOf(attributes, caption, heads, rows) {
  return element("table", attributes, caption, element("thead", {}, heads), element("tbody", {}, rows));
}

// A caption that only a screen reader tells.
export function unseenCaption(text) {
  return element("caption", { class: "unseen" }, text);
}

// A table with a caption, the heads of its columns, and rows of cells, of which the first is a head.
export function table(caption, heads, rows, attributes = {}) {
  const cells = ([first, ...others]) => row(head("row", first), others.map((cell) => element("td", {}, cell)));
  const top = row(heads.map((text) => head("col", text)));
  return tableOf(attributes, element("caption", {}, caption), top, rows.map(cells));
}

// A count with its noun.
export function counted(count, noun, plural = `${noun}s`) {
  return `${count.toLocaleString("en")} ${count === 1 ? noun : plural}`;
}

function placeHint(hint, box) {
  hint.hidden = false;
  const left = Math.min(Math.max(8, box.left), window.innerWidth - hint.offsetWidth - 8);
  const below = box.bottom + 6 + hint.offsetHeight < window.innerHeight;
  hint.style.left = `${left}px`;
  hint.style.top = `${below ? box.bottom + 6 : Math.max(8, box.top - hint.offsetHeight - 6)}px`;
}

// Shows a text beside a place of the window.
export function showHint(title, text, box) {
  const hint = document.getElementById("hint");
  hint.replaceChildren(element("strong", {}, title), ` ${text}`);
  placeHint(hint, box);
}

export function hideHint() {
  document.getElementById("hint").hidden = true;
}

// Words show their hints under the pointer and with the focus of the keyboard; Escape hides them.
export function followWords() {
  const show = (event) => {
    const found = event.target instanceof Element ? event.target.closest("[data-word]") : null;
    if (found) showHint(`${found.dataset.word}:`, meaningOf(found.dataset.word), found.getBoundingClientRect());
    else if (!(event.target instanceof HTMLCanvasElement)) hideHint();
  };
  document.addEventListener("mouseover", show);
  document.addEventListener("focusin", show);
  document.addEventListener("keydown", (event) => {
    if (event.key === "Escape") hideHint();
  });
}
