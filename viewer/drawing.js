// Draws the rows in sight: the texts of each post, its letter at the node that said it, and an arrow to each node that its
// address reaches.
import { COLOURS, FAINT, inkOn, MARKS } from "./words.js";
import { KIND_LIST, bitsText } from "./votes.js";
import { ARROW_HEIGHT, HEAD, TEXT_HEIGHT } from "./layout.js";
import { drawLowRows } from "./lowrows.js";
import { NO_KIND } from "./history.js";

const INK = "#1b1b1b";
const FONT = '"DejaVu Sans", "Segoe UI", system-ui, sans-serif';

// What a post says beside kind, epoch and round.
export function saysText(history, k) {
  const kind = KIND_LIST[history.kind[k]];
  if (kind.fields.includes("bits")) return bitsText(history.says[k]);
  if (kind.fields.includes("bit")) return `bit ${history.says[k]}`;
  return kind.fields.includes("target") ? `for ${history.says[k]}` : "";
}

export class Drawing {
  constructor(canvas, world, layout) {
    Object.assign(this, { canvas, world, layout, history: world.history });
    this.pen = canvas.getContext("2d", { alpha: false });
    this.ground = document.createElement("canvas");
    this.chips = new Map();
  }

  resize() {
    const scale = window.devicePixelRatio || 1;
    const { clientWidth, clientHeight } = this.canvas;
    this.canvas.width = Math.round(clientWidth * scale);
    this.canvas.height = Math.round(clientHeight * scale);
    this.layout.resize(clientWidth, clientHeight);
    this.scale = scale;
    this.ground.width = this.canvas.width;
    this.ground.height = this.canvas.height;
    this.paintGround(this.ground.getContext("2d", { alpha: false }));
  }

  // `view` has the list of posts that are shown, the top row, the selected post and those on which it rests.
  draw(view) {
    const { pen, layout } = this;
    pen.setTransform(1, 0, 0, 1, 0, 0);
    pen.drawImage(this.ground, 0, 0);
    pen.scale(this.scale, this.scale);
    const first = Math.max(0, Math.floor(view.top));
    const last = Math.min(view.list.length, Math.ceil(view.top + layout.rows) + 1);
    for (let place = first; place < last; place += 1) this.drawRow(view, place);
    if (layout.rowHeight < ARROW_HEIGHT) drawLowRows(pen, this.world, layout, view, first, last);
    this.drawHead();
  }

  // What does not move: the columns of the nodes.
  paintGround(pen) {
    const { layout, world } = this;
    pen.scale(this.scale, this.scale);
    pen.fillStyle = "#ffffff";
    pen.fillRect(0, 0, layout.width, layout.height);
    for (let node = 0; node < layout.nodes; node += 1) {
      const state = world.nodeState(node);
      const left = layout.nodeX(node) - layout.columnWidth() / 2 + 2;
      const width = layout.columnWidth() - 4;
      if (state === "liar") hatch(pen, left, HEAD, width, layout.height - HEAD);
      if (state === "ended") {
        pen.fillStyle = "#ececec";
        pen.fillRect(left, HEAD, width, layout.height - HEAD);
      }
      pen.strokeStyle = "#c9c9c9";
      pen.lineWidth = 1;
      pen.beginPath();
      pen.moveTo(Math.round(layout.nodeX(node)) + 0.5, HEAD);
      pen.lineTo(Math.round(layout.nodeX(node)) + 0.5, layout.height);
      pen.stroke();
    }
  }

  drawHead() {
    const { pen, layout, world } = this;
    pen.fillStyle = "#f3f3f3";
    pen.fillRect(0, 0, layout.width, HEAD);
    pen.fillStyle = "#bbbbbb";
    pen.fillRect(0, HEAD - 1, layout.width, 1);
    pen.fillStyle = INK;
    pen.font = `bold 12px ${FONT}`;
    pen.textBaseline = "middle";
    pen.textAlign = "left";
    for (const [name, left] of layout.textColumns) pen.fillText(name, left, HEAD / 2);
    pen.textAlign = "center";
    const isWide = layout.columnWidth() >= 56;
    for (let node = 0; node < layout.nodes; node += 1) {
      const state = world.nodeState(node);
      const isTold = state === "liar" || state === "ended";
      pen.font = `bold 12px ${FONT}`;
      pen.fillText(isWide ? `node ${node}` : `${node}`, layout.nodeX(node), isTold ? HEAD / 2 - 7 : HEAD / 2);
      pen.font = `11px ${FONT}`;
      if (isTold) pen.fillText(state, layout.nodeX(node), HEAD / 2 + 8);
    }
  }

  drawRow(view, place) {
    const { pen, layout } = this;
    const k = view.list[place];
    const y = layout.rowY(place, view.top);
    this.drawBack(view, k, y);
    if (layout.rowHeight >= TEXT_HEIGHT) this.drawTexts(k, y);
    else if (place % Math.ceil(TEXT_HEIGHT / layout.rowHeight) === 0) this.drawNumber(k, y);
    if (layout.rowHeight < ARROW_HEIGHT) return;
    this.drawArrows(k, y + layout.rowHeight / 2);
    this.drawChip(k, y + layout.rowHeight / 2);
  }

  // The ground of a row: whether it is selected, one of those on which the selected post rests, or marked.
  drawBack(view, k, y) {
    const { pen, layout, world } = this;
    const height = layout.rowHeight;
    const mark = MARKS[world.marks.get(k)];
    if (k === view.selected || view.rests.has(k) || mark) {
      pen.fillStyle = k === view.selected ? "#ffe9a8" : view.rests.has(k) ? "#e2f1e4" : mark.ground;
      pen.globalAlpha = k === view.selected ? 1 : 0.8;
      pen.fillRect(0, y, layout.width, height);
      pen.globalAlpha = 1;
    }
    if (k === view.selected || view.rests.has(k)) {
      pen.fillStyle = k === view.selected ? "#8a6100" : "#2e7d32";
      pen.fillRect(0, y, 4, Math.max(2, height - 1));
    }
    if (mark) {
      pen.strokeStyle = mark.line;
      pen.lineWidth = 2;
      pen.strokeRect(1, y + 1, layout.width - 2, Math.max(2, height - 2));
    }
  }

  drawTexts(k, y) {
    const { pen, layout, history, world } = this;
    const kind = KIND_LIST[history.kind[k]];
    const middle = y + layout.rowHeight / 2 + 0.5;
    const isVote = kind.name !== "no vote";
    const actor = history.actor[k];
    const lane = actor < history.config.n ? `${actor}` : actor === history.config.n ? "desk" : `(${actor})`;
    const [epoch, says] = isVote ? [`${history.epoch[k]}`, saysText(history, k)] : ["", ""];
    const texts = [`${k}`, kind.name, epoch, lane, world.lanes.roundText(k), says];
    pen.font = `${layout.rowHeight < 18 ? 11 : 12}px ${FONT}`;
    pen.textBaseline = "middle";
    pen.textAlign = "left";
    texts.forEach((text, at) => {
      pen.fillStyle = at === 0 ? FAINT : INK;
      if (text) pen.fillText(text, layout.textColumns[at][1], middle);
    });
  }

  // Where rows are too low for texts, some have their number and epoch.
  drawNumber(k, y) {
    const { pen, layout, history } = this;
    pen.font = `11px ${FONT}`;
    pen.textBaseline = "middle";
    pen.textAlign = "left";
    pen.fillStyle = FAINT;
    pen.fillText(`${k}`, layout.textColumns[0][1], y + layout.rowHeight / 2);
    if (history.kind[k] !== NO_KIND) pen.fillText(`${history.epoch[k]}`, layout.textColumns[2][1], y + layout.rowHeight / 2);
  }

  drawArrows(k, y) {
    const { pen, layout, history, world } = this;
    const from = history.from[k];
    const targets = world.reach.nodes(k).filter((node) => node !== from);
    if (targets.length === 0 || from >= layout.nodes) return;
    const colour = COLOURS[KIND_LIST[history.kind[k]].name];
    pen.strokeStyle = colour === "#ffffff" ? FAINT : colour;
    pen.lineWidth = 1.5;
    pen.globalAlpha = 0.85;
    pen.beginPath();
    pen.moveTo(layout.nodeX(Math.min(from, ...targets)), y);
    pen.lineTo(layout.nodeX(Math.max(from, ...targets)), y);
    pen.stroke();
    pen.globalAlpha = 1;
    pen.fillStyle = pen.strokeStyle;
    this.drawTips(k, targets, y);
  }

  // The ends of the arrows of a row: full where the post comes once, doubled, hollow where it is late, a cross where it is
  // lost. All full ones are one path, which is drawn much faster.
  drawTips(k, targets, y) {
    const { pen, layout, history, world } = this;
    const size = Math.min(5, layout.rowHeight / 3);
    const others = [];
    pen.beginPath();
    for (const node of targets) {
      const x = layout.nodeX(node);
      const towards = node > history.from[k] ? 1 : -1;
      const shape = world.reach.links.length === 0 ? "once" : world.reach.shape(k, node);
      if (shape === "once" || shape === "twice") addTip(pen, x, y, size, towards);
      if (shape === "twice") addTip(pen, x - 6 * towards, y, size, towards);
      if (shape === "drop" || shape === "late") others.push({ x, towards, shape });
    }
    pen.fill();
    for (const { x, towards, shape } of others) {
      if (shape === "drop") this.drawCross(x - 7 * towards, y, size);
      else this.drawHollow(x, y, size, towards);
    }
  }

  drawHollow(x, y, size, towards) {
    const { pen } = this;
    const kept = pen.fillStyle;
    pen.beginPath();
    addTip(pen, x, y, size, towards);
    pen.fillStyle = "#ffffff";
    pen.fill();
    pen.stroke();
    pen.fillStyle = kept;
  }

  drawCross(x, y, size) {
    const { pen } = this;
    const kept = pen.strokeStyle;
    pen.strokeStyle = MARKS.illegal.line;
    pen.lineWidth = 2;
    pen.beginPath();
    pen.moveTo(x - size, y - size);
    pen.lineTo(x + size, y + size);
    pen.moveTo(x - size, y + size);
    pen.lineTo(x + size, y - size);
    pen.stroke();
    pen.strokeStyle = kept;
    pen.lineWidth = 1.5;
  }

  // The letter of a post at its node. The form tells the group: broadcasts are square, agreements round, desks six-sided.
  drawChip(k, y) {
    const { pen, layout, history } = this;
    const kind = KIND_LIST[history.kind[k]];
    const x = history.from[k] < layout.nodes ? layout.nodeX(history.from[k]) : layout.gutter;
    const size = Math.min(layout.rowHeight - 3, 19) / 2;
    const side = 2 * size + 8;
    pen.drawImage(this.chip(kind, size), x - side / 2, y - side / 2, side, side);
  }

  // The picture of a letter, made once for each kind and size.
  chip(kind, size) {
    const key = `${kind.name} ${size} ${this.scale}`;
    if (!this.chips.has(key)) this.chips.set(key, paintChip(kind, size, this.scale));
    return this.chips.get(key);
  }
}

// Adds the end of an arrow to a path.
function addTip(pen, x, y, size, towards) {
  pen.moveTo(x, y);
  pen.lineTo(x - 1.6 * size * towards, y - size);
  pen.lineTo(x - 1.6 * size * towards, y + size);
  pen.closePath();
}

function paintChip(kind, size, scale) {
  const side = 2 * size + 8;
  const picture = document.createElement("canvas");
  picture.width = Math.ceil(side * scale);
  picture.height = picture.width;
  const pen = picture.getContext("2d");
  pen.scale(picture.width / side, picture.height / side);
  pen.beginPath();
  outline(pen, kind.group, side / 2, side / 2, size);
  pen.fillStyle = COLOURS[kind.name];
  pen.fill();
  pen.strokeStyle = kind.name === "no vote" ? MARKS.illegal.line : "rgba(0,0,0,0.55)";
  pen.stroke();
  if (size >= 5) {
    pen.fillStyle = inkOn(COLOURS[kind.name]);
    pen.font = `bold ${Math.round(1.3 * size)}px ${FONT}`;
    pen.textAlign = "center";
    pen.textBaseline = "middle";
    pen.fillText(kind.letter, side / 2, side / 2 + 0.5);
  }
  return picture;
}

function outline(pen, group, x, y, size) {
  if (group === "agreement") pen.arc(x, y, size, 0, 2 * Math.PI);
  else if (group === "desk") {
    for (let corner = 0; corner < 6; corner += 1) {
      const angle = (corner * Math.PI) / 3;
      pen.lineTo(x + 1.15 * size * Math.cos(angle), y + 1.05 * size * Math.sin(angle));
    }
    pen.closePath();
  } else pen.rect(x - size * 0.92, y - size * 0.92, 1.84 * size, 1.84 * size);
}

function hatch(pen, left, top, width, height) {
  pen.save();
  pen.beginPath();
  pen.rect(left, top, width, height);
  pen.clip();
  pen.strokeStyle = "#e3d3d3";
  pen.lineWidth = 1;
  pen.beginPath();
  for (let y = top - width; y < top + height; y += 9) {
    pen.moveTo(left, y + width);
    pen.lineTo(left + width, y);
  }
  pen.stroke();
  pen.restore();
}
