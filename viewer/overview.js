// The overview: what stands out in a run, its nodes, and a grid for each epoch with the state of each lane.
import { counted, element, fill, head, para, part, postLink, row, table, tableOf, unseenCaption, word } from "./dom.js";
import { stateOf, stateText } from "./lanes.js";
import { brokenRules } from "./liars.js";
import { actorText, lieText, planTexts } from "./scenario.js";
import { causeText, statusText } from "./texts.js";
import { meaningOf } from "./words.js";

const STATES = ["not begun", "begun", "delivered", "decided 1", "decided 0", "spent"];
const SIGNS = { "not begun": "–", begun: "b", delivered: "L", "decided 1": "1", "decided 0": "0", spent: "S" };
const STYLES = {
  "not begun": "none",
  begun: "begun",
  delivered: "delivered",
  "decided 1": "decided1",
  "decided 0": "decided0",
  spent: "spent",
};

function item(kind, ...children) {
  return element("li", { class: kind }, children);
}

// A liar's posts are no part of what the audit allows.
function legalText({ verdict, config }) {
  const posts = counted(verdict.posts, "post");
  if (config.liars.length === 0) return `the history legal: each of ${posts} was allowed.`;
  return `the history of ${posts} legal: each post of a correct node was allowed, and a liar may say anything.`;
}

function verdictItem(world) {
  const { verdict, data } = world;
  if (!verdict) return item("warn", `The history was not audited${data.refused ? ` (${data.refused})` : ""}.`);
  const judge = word("The audit", "audit");
  if (verdict.legal) return item("good", judge, ` found ${legalText(world)}`);
  const link = verdict.post < world.history.count ? linkTo(`post-${verdict.post}`, `Show post ${verdict.post}`) : null;
  return item("alarm", judge, ` found the history illegal: post ${verdict.post} may not follow those before it. `, link);
}

function linkTo(place, text) {
  return element("a", { href: `#${place}` }, text);
}

function pairLink(first, second) {
  return linkTo(`pair-${first}-${second}`, `posts ${first} and ${second}`);
}

// A node whose posts contradict each other though it is no liar: that is so only in a history that is not legal.
function accusedItem({ node, posts: [first, second] }) {
  return item("alarm", `Node ${node} contradicts itself in `, pairLink(first, second), ".");
}

// The first posts of each kind of a liar that break a rule, when they are found.
function brokenText(world, node) {
  const broken = element("span", {}, " …");
  brokenRules(world, node).then((posts) => {
    const links = posts.flatMap((k) => [postLink(world.history, k, `${k}`), " "]);
    const isSilent = !world.history.from.includes(node);
    if (posts.length > 0) broken.replaceChildren(" First posts of each kind that break a rule: ", ...links);
    else broken.textContent = isSilent ? "" : " None of its posts breaks a rule.";
  });
  return broken;
}

// A liar: how it lies, the two posts that convict it, and the first posts that break a rule.
function liarItem(world, node) {
  const name = world.lieName(node);
  const accused = world.accused.find((one) => one.node === node);
  const how = name ? ` (${name}): it ${lieText(name)}.` : ".";
  const pair = accused ? [" It contradicts itself in ", pairLink(...accused.posts), "."] : null;
  return item("liar", `Node ${node} is a `, word("liar"), how, pair, brokenText(world, node));
}

function endedItem(world, node) {
  const name = (actor) => (actor === world.config.n ? "its desk" : `its lane ${actor}`);
  const causes = world.run.nodes[node].ended.map(({ actor, cause }) => `${name(actor)} ${causeText(cause)}`);
  return item("warn", `Node ${node} `, word("ended"), `: ${causes.join("; ")}.`);
}

// A node that runs and left epochs open: the way to what it lacks.
function openItem(world, node) {
  const { epochs } = world.config;
  let epoch = 0;
  while (world.lanes.closed(epoch, node) >= 0) epoch += 1;
  const lost = world.reach.droppedTo(node);
  const dropped = ` ${counted(lost, "post")} of other nodes to it ${lost === 1 ? "was" : "were"} dropped on the way.`;
  const closed = `Node ${node} closed ${world.lanes.closedCount(node)} of ${counted(epochs, "epoch")}.`;
  const link = linkTo(`desk-${epoch}-${node}`, `Show what it lacks in epoch ${epoch}`);
  return item("warn", closed, lost > 0 ? dropped : "", " ", link);
}

// A line of the text that is no line of a history.
function faultItem({ line, reason, text }) {
  const told = `Line ${line} of the text is no line of a history: ${reason}. What came before it is shown. `;
  return item("alarm", told, text ? element("code", {}, text) : null);
}

function findings(world) {
  const { config, fault } = world;
  const found = fault ? [faultItem(fault)] : [];
  found.push(verdictItem(world), ...world.accused.filter(({ node }) => !world.history.isLiar(node)).map(accusedItem));
  for (let node = 0; node < config.n; node += 1) {
    const state = world.nodeState(node);
    if (state === "liar") found.push(liarItem(world, node));
    if (state === "ended") found.push(endedItem(world, node));
    if (state !== "liar" && !fault && world.lanes.closedCount(node) < config.epochs) found.push(openItem(world, node));
  }
  return element("ul", { class: "findings" }, found);
}

function nodeTable(world) {
  const { history, config } = world;
  const counts = new Array(config.n).fill(0);
  for (let k = 0; k < history.count; k += 1) if (history.from[k] < config.n) counts[history.from[k]] += 1;
  const rows = counts.map((count, node) => {
    const state = world.nodeState(node);
    const lie = world.lieName(node);
    const shown = state === "unknown" ? "correct" : state;
    return [
      `node ${node}`,
      [word(shown, state, false), lie ? ` (${lie})` : ""],
      history.isLiar(node) ? "–" : `${world.lanes.closedCount(node)} of ${config.epochs}`,
      count.toLocaleString("en"),
    ];
  });
  return table("The nodes of the run", ["Node", "State", "Epochs closed", "Posts"], rows, { class: "nodes" });
}

// A cell of a grid, which leads to a panel. The keyboard comes to the first of a grid, and from it to the others by arrows.
function gridCell(style, place, name, title, isFirst, ...children) {
  const attributes = { href: `#${place}`, title, "aria-label": name, tabindex: isFirst ? "0" : "-1" };
  return element("td", { class: style }, element("a", attributes, children));
}

function laneCell(world, epoch, node, lane) {
  const cell = world.lanes.cell(epoch, node, lane);
  const state = stateOf(cell);
  const name = `node ${node}, lane ${lane}: ${stateText(cell)}`;
  const round = state.round === null ? null : element("small", {}, ` r${state.round}`);
  const title = `${name}. ${meaningOf(state.name)}`;
  return gridCell(state.style, `lane-${epoch}-${node}-${lane}`, name, title, node === 0 && lane === 0, state.text, round);
}

function deskCell(world, epoch, node) {
  const isClosed = world.lanes.closed(epoch, node) >= 0;
  const name = `desk of node ${node}: epoch ${epoch} ${isClosed ? "closed" : "not closed"}`;
  return gridCell(isClosed ? "closed" : "open", `desk-${epoch}-${node}`, name, name, false, isClosed ? "✓" : "✗");
}

function gridHead(lanes) {
  const isNarrow = lanes.length > 8;
  const laneHead = (lane) => {
    const title = `lane ${lane}: the batch of node ${lane}`;
    return element("th", { scope: "col", title }, isNarrow ? `${lane}` : `lane ${lane}`);
  };
  return row(head("col", "Node"), lanes.map(laneHead), element("th", { scope: "col", title: meaningOf("desk") }, "desk"));
}

function gridRow(world, epoch, node, lanes) {
  const state = world.nodeState(node);
  const told = state === "liar" || state === "ended" ? element("small", {}, ` ${state}`) : null;
  const cells = lanes.map((lane) => laneCell(world, epoch, node, lane));
  return element("tr", { class: state }, head("row", `${node}`, told), cells, deskCell(world, epoch, node));
}

function grid(world, epoch) {
  const { n } = world.config;
  const lanes = Array.from({ length: n }, (_, lane) => lane);
  const style = `contain-intrinsic-size:auto ${n * 44 + 110}px auto ${n * 25 + 70}px`;
  const caption = unseenCaption(`Epoch ${epoch}: a row for each node, a column for each lane`);
  const rows = lanes.map((node) => gridRow(world, epoch, node, lanes));
  const cells = tableOf({ class: n > 8 ? "grid many" : "grid", onkeydown: moveInGrid }, caption, gridHead(lanes), rows);
  return element("section", { class: "epoch", style }, element("h4", {}, `Epoch ${epoch}`), cells);
}

// Arrow keys move from cell to cell of a grid.
function moveInGrid(event) {
  const moves = { ArrowRight: [0, 1], ArrowLeft: [0, -1], ArrowDown: [1, 0], ArrowUp: [-1, 0] };
  const move = moves[event.key];
  const cell = event.target.closest("td");
  if (!move || !cell) return;
  event.preventDefault();
  const row = cell.parentElement.parentElement.rows[cell.parentElement.sectionRowIndex + move[0]];
  const next = row && row.cells[cell.cellIndex + move[1]];
  const link = next && next.querySelector("a");
  if (link) link.focus();
}

function legendItem(style, sign, ...text) {
  return element("li", {}, element("span", { class: `swatch ${style}` }, sign), text);
}

function legend() {
  const states = STATES.map((name) => legendItem(STYLES[name], SIGNS[name], word(name)));
  const signs = [["closed", "✓"], ["liar", "\u00a0"], ["ended", "\u00a0"]];
  const others = signs.map(([name, sign]) => legendItem(name, sign, word(name)));
  return element("ul", { class: "legend" }, states, others, element("li", {}, "r0: the round in which it decided"));
}

function liarCount({ liars }) {
  if (liars.length === 0) return "none is a liar";
  return liars.length === 1 ? "1 is a liar" : `${liars.length} are liars`;
}

function summary(world) {
  const { config, history, run } = world;
  const numbers = [
    `${counted(config.n, "node")}, of which at most ${config.f} may lie, and ${liarCount(config)}`,
    counted(config.epochs, "epoch"), `version ${config.version} of the rules`, `seed ${config.seed}`,
    counted(history.count, "post"),
  ];
  const ended = run && run.status !== null ? ` The run ended with status ${run.status}: ${statusText(run.status)}.` : "";
  return para("", `${numbers.join("; ")}.${ended}`);
}

// Where an actor that is to stop began again, as far as the history shows it.
function restartText({ history, config }, { node, actor, posts }) {
  const name = actorText({ node, actor }, config.n);
  if (posts.length === 0) return `The history shows no restart of ${name}: nothing that it says stands twice.`;
  const links = posts.flatMap((k, at) => [at > 0 ? ", and again with " : "", postLink(history, k, `post ${k}`)]);
  return [`After a stop ${name} began again with `, ...links, "."];
}

function plans(world) {
  const texts = world.scenario ? planTexts(world.scenario) : [];
  const restarts = world.restarts.map((one) => restartText(world, one));
  const list = element("ul", {}, [...texts, ...restarts].map((text) => element("li", {}, text)));
  return texts.length === 0 ? null : part("What the scenario plans", list);
}

// Adds the grids of all epochs, some at a time, so that the first are there at once.
function addGrids(place, world, first) {
  const last = Math.min(first + 2, world.config.epochs);
  for (let epoch = first; epoch < last; epoch += 1) place.append(grid(world, epoch));
  if (last < world.config.epochs) setTimeout(() => addGrids(place, world, last));
}

const WORKERS = "The scenario has workers: each run has another history. This is one of them.";
const GUIDE = "A row for each node, a column for each lane. A click opens the lane; within a grid the arrow keys move.";

export function fillOverview(section, world) {
  const grids = element("div", { class: "epochs" });
  const hasWorkers = world.scenario && world.scenario.workers > 0;
  const nodes = element("section", { class: "nodes-part" }, element("h3", {}, "Nodes"), nodeTable(world), plans(world));
  const title = element("h3", {}, "How far each lane came");
  const lanes = element("section", { class: "lanes-part" }, title, para("note", GUIDE), legend(), grids);
  fill(section, [
    element("h2", {}, "Overview"), summary(world), hasWorkers ? para("note", WORKERS) : null,
    part("What stands out", findings(world)), element("div", { class: "beside" }, nodes, lanes),
  ]);
  addGrids(grids, world, 0);
}
