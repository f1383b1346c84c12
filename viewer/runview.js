// The view of a run: the filters, the picture with its keys, and the panel beside it.
import { counted, element, hideHint, showHint } from "./dom.js";
import { choices, FILTERS, placeOf, shownPosts } from "./filters.js";
import { Drawing } from "./drawing.js";
import { Layout } from "./layout.js";
import { Minimap } from "./minimap.js";
import { addressText } from "./reach.js";
import { meaningOf } from "./words.js";
import { voteText } from "./votes.js";

const KEYS = "The posts as a picture. Arrow keys select a post, page keys scroll, plus and minus zoom, Enter leads to the panel.";
const EMPTY = { epoch: "", lane: "", node: "", kind: "", round: "" };

export class RunView {
  constructor(section, world, onSelect) {
    Object.assign(this, { section, world, onSelect, history: world.history });
    this.layout = new Layout(world.config.n);
    this.view = { list: new Uint32Array(0), top: 0, selected: null, rests: new Set() };
    this.isDue = false;
    this.isSized = false;
    this.build();
    this.filter({});
    new ResizeObserver(() => this.resize()).observe(this.canvas);
  }

  build() {
    this.selects = Object.fromEntries(FILTERS.map((name) => [name, this.select(name)]));
    this.number = element("input", { type: "text", inputmode: "numeric", id: "number", size: "7", autocomplete: "off" });
    this.number.addEventListener("change", () => this.goTo(this.number.value));
    this.shown = element("span", { id: "shown", role: "status" });
    const attributes = { id: "picture", tabindex: "0", role: "application", "aria-label": KEYS, "aria-describedby": "said" };
    this.canvas = element("canvas", attributes);
    this.map = element("canvas", { id: "minimap", "aria-hidden": "true" });
    this.said = element("p", { id: "said", class: "unseen", "aria-live": "polite" });
    this.panel = element("aside", { id: "panel", tabindex: "-1", "aria-label": "What is selected" });
    const stage = element("div", { id: "stage" }, this.canvas, this.map, this.panel);
    this.section.append(element("h2", { class: "unseen" }, "Run"), this.bar(), stage, this.said);
    this.drawing = new Drawing(this.canvas, this.world, this.layout);
    const toShare = (share) => this.scrollTo(share * this.view.list.length - this.layout.rows / 2);
    this.minimap = new Minimap(this.map, this.world, toShare);
    this.listen();
  }

  select(name) {
    const options = choices(this.history)[name].map(([value, text]) => element("option", { value }, text));
    const onchange = () => this.filter(this.chosen());
    return element("select", { id: `filter-${name}`, "aria-label": `Show ${name}`, onchange }, options);
  }

  bar() {
    const button = (text, title, onclick, id) => element("button", { type: "button", "aria-label": title, title, id, onclick }, text);
    const zooms = [button("−", "Zoom out", () => this.zoom(-1), "zoom-out"), button("+", "Zoom in", () => this.zoom(1), "zoom-in")];
    const right = element("span", { class: "right" }, zooms, element("label", { for: "number" }, "Post"), this.number);
    const all = button("Show all", "Show all posts", () => this.filter({}), "show-all");
    const attributes = { id: "bar", role: "group", "aria-label": "Filters and zoom" };
    return element("div", attributes, Object.values(this.selects), all, this.shown, right);
  }

  listen() {
    const { canvas } = this;
    canvas.addEventListener("wheel", (event) => this.wheel(event), { passive: false });
    canvas.addEventListener("keydown", (event) => this.key(event));
    canvas.addEventListener("click", (event) => this.click(event));
    canvas.addEventListener("mousemove", (event) => this.hover(event));
    canvas.addEventListener("mouseleave", hideHint);
  }

  chosen() {
    return Object.fromEntries(FILTERS.map((name) => [name, this.selects[name].value]));
  }

  // Shows the posts that pass the filters, with the post that is in sight or selected still in sight.
  filter(wanted) {
    const chosen = { ...EMPTY, ...wanted };
    for (const name of FILTERS) this.selects[name].value = chosen[name];
    const kept = this.view.selected ?? this.view.list[Math.floor(this.view.top)] ?? 0;
    this.view.list = shownPosts(this.world, this.chosen());
    const { length } = this.view.list;
    this.shown.textContent = `${length.toLocaleString("en")} of ${counted(this.history.count, "post")}`;
    this.minimap.paint(this.view.list);
    this.scrollTo(placeOf(this.view.list, kept) - this.layout.rows / 3);
  }

  // Shows the posts that pass these filters from the first on, and none is selected.
  showOnly(wanted) {
    this.view.selected = null;
    this.view.rests = new Set();
    this.number.value = "";
    this.filter(wanted);
    this.scrollTo(0);
  }

  // Selects a post and brings it in sight; where the filters hide it they are cleared.
  choose(k, rests) {
    this.view.selected = k;
    this.view.rests = new Set(rests);
    if (this.view.list[placeOf(this.view.list, k)] !== k) this.filter({});
    this.number.value = `${k}`;
    this.said.textContent = this.words(k);
    this.bringInSight();
    this.redraw();
  }

  words(k) {
    const { history } = this;
    const sender = `node ${history.from[k]}, ${history.actorName(history.actor[k])}`;
    return `Post ${k} from ${sender}: ${voteText(history.bytes, history.vote(k))}. To ${addressText(history, k)}.`;
  }

  bringInSight() {
    const place = placeOf(this.view.list, this.view.selected);
    const { rows } = this.layout;
    if (place < this.view.top + 1 || place > this.view.top + rows - 2) this.scrollTo(Math.floor(place - rows / 3));
  }

  scrollTo(top) {
    const last = this.layout.lastTop(this.view.list.length);
    this.view.top = Math.min(Math.max(0, top), last);
    this.redraw();
  }

  // Draws once before the next frame, however often it is asked for.
  redraw() {
    if (this.isDue || !this.isSized) return;
    this.isDue = true;
    requestAnimationFrame(() => {
      this.isDue = false;
      this.drawing.draw(this.view);
      this.minimap.draw(this.view, this.layout.rows);
    });
  }

  resize() {
    if (this.canvas.clientWidth === 0) return;
    const wasEmpty = !this.isSized;
    this.isSized = true;
    this.drawing.resize();
    this.minimap.paint(this.view.list);
    if (wasEmpty && this.view.selected !== null) this.bringInSight();
    this.scrollTo(this.view.top);
  }

  zoom(steps) {
    const middle = this.view.top + this.layout.rows / 2;
    if (this.layout.zoomBy(steps)) this.scrollTo(middle - this.layout.rows / 2);
  }

  wheel(event) {
    event.preventDefault();
    hideHint();
    if (event.ctrlKey) {
      this.zoom(event.deltaY < 0 ? 1 : -1);
      return;
    }
    const rows = event.deltaMode === 1 ? event.deltaY : event.deltaY / this.layout.rowHeight;
    this.scrollTo(this.view.top + rows);
  }

  // The post that is so many rows from the selected one, or the first in sight where none is selected.
  step(rows) {
    const { list, selected, top } = this.view;
    if (list.length === 0) return;
    const place = selected === null ? Math.floor(top) : placeOf(list, selected) + rows;
    this.onSelect(list[Math.min(Math.max(0, place), list.length - 1)]);
  }

  // The next or previous post of the node whose post is selected.
  stepOfNode(direction) {
    const { list, selected } = this.view;
    if (selected === null) return;
    let place = placeOf(list, selected) + direction;
    while (
      place >= 0 && place < list.length && this.history.from[list[place]] !== this.history.from[selected]
    ) place += direction;
    if (place >= 0 && place < list.length) this.onSelect(list[place]);
  }

  key(event) {
    const page = Math.floor(this.layout.rows) - 1;
    const acts = {
      ArrowDown: () => this.step(1), ArrowUp: () => this.step(-1),
      ArrowRight: () => this.stepOfNode(1), ArrowLeft: () => this.stepOfNode(-1),
      PageDown: () => this.scrollTo(this.view.top + page), PageUp: () => this.scrollTo(this.view.top - page),
      Home: () => this.scrollTo(0), End: () => this.scrollTo(Infinity),
      "+": () => this.zoom(1), "=": () => this.zoom(1), "-": () => this.zoom(-1),
      Enter: () => this.panel.focus(),
    };
    if (!acts[event.key] || event.ctrlKey || event.altKey || event.metaKey) return;
    event.preventDefault();
    acts[event.key]();
  }

  postAt(event) {
    const y = event.clientY - this.canvas.getBoundingClientRect().top;
    const place = this.layout.placeAt(y, this.view.top);
    return this.layout.rowY(0, 0) <= y && place < this.view.list.length ? this.view.list[place] : null;
  }

  click(event) {
    const k = this.postAt(event);
    if (k !== null) this.onSelect(k);
  }

  hover(event) {
    const k = this.postAt(event);
    if (k === null) {
      hideHint();
      return;
    }
    const box = { left: event.clientX + 14, top: event.clientY - 8, bottom: event.clientY + 12 };
    showHint(this.words(k), meaningOf(this.history.kindName(k)), box);
  }

  goTo(text) {
    const k = Number(text);
    if (/^\d+$/.test(text.trim()) && k < this.history.count) {
      this.onSelect(k);
      this.canvas.focus();
    } else this.said.textContent = `There is no post ${text}.`;
    this.number.classList.toggle("wrong", !(k < this.history.count));
  }
}
