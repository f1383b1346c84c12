// Draws rows that are too low for texts and arrow heads. Each has a line over the nodes that its post reaches, and a mark at the
// node that said it. What has one colour is drawn together and as rectangles, since hundreds of rows are in sight.
import { COLOURS, FAINT, MARKS } from "./words.js";
import { KIND_LIST } from "./votes.js";

const LINE_ALPHA = 0.45;
// A post to so few nodes has a dot at each of them.
const FEW = 2;

// Draws the rows from place `first` up to `last`.
export function drawLowRows(pen, world, layout, view, first, last) {
  const groups = byKind(world.history, view, layout, first, last);
  pen.globalAlpha = LINE_ALPHA;
  groups.forEach((rows, kind) => drawLines(pen, world, layout, rows, KIND_LIST[kind].name));
  pen.globalAlpha = 1;
  groups.forEach((rows, kind) => drawDots(pen, world, layout, rows, KIND_LIST[kind].name));
  groups.forEach((rows, kind) => drawSenders(pen, world, layout, rows, KIND_LIST[kind].name));
}

// The rows of each kind of vote, each with its post and the height of its middle.
function byKind(history, view, layout, first, last) {
  const groups = KIND_LIST.map(() => []);
  for (let place = first; place < last; place += 1) {
    const k = view.list[place];
    groups[history.kind[k]].push({ k, y: layout.rowY(place, view.top) + layout.rowHeight / 2 });
  }
  return groups;
}

function lineColour(name) {
  return name === "no vote" ? FAINT : COLOURS[name];
}

function drawLines(pen, world, layout, rows, name) {
  pen.fillStyle = lineColour(name);
  for (const { k, y } of rows) {
    const from = world.history.from[k];
    const { least, most, count } = world.reach.extent(k);
    if (count > 0 && from < layout.nodes) {
      const left = layout.nodeX(Math.min(from, least));
      pen.fillRect(left, y - 0.5, layout.nodeX(Math.max(from, most)) - left, 1);
    }
  }
}

function drawDots(pen, world, layout, rows, name) {
  pen.fillStyle = lineColour(name);
  for (const { k, y } of rows) {
    const from = world.history.from[k];
    const { count } = world.reach.extent(k);
    const targets = count > 0 && count <= FEW && from < layout.nodes ? world.reach.nodes(k) : [];
    for (const node of targets) {
      if (node !== from) pen.fillRect(layout.nodeX(node) - 1.5, y - 1, 3, Math.min(3, layout.rowHeight));
    }
  }
}

function drawSenders(pen, world, layout, rows, name) {
  pen.fillStyle = name === "no vote" ? MARKS.illegal.line : COLOURS[name];
  const half = Math.max(1, (layout.rowHeight - 3) / 2);
  for (const { k, y } of rows) {
    const from = world.history.from[k];
    const x = from < layout.nodes ? layout.nodeX(from) : layout.gutter;
    pen.fillRect(x - 4, y - half, 8, 2 * half);
  }
}
