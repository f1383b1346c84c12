// The panels of a lane and of a desk in an epoch: what it said, and what it lacks to go on.
import { counted, element, para, part, postLink, table, word } from "./dom.js";
import { leadingRoot } from "./broadcast_rules.js";
import { asks } from "./scene.js";
import { stateOf, stateText } from "./lanes.js";
import { saysText } from "./drawing.js";
import { waysList } from "./postpanel.js";
import { causeText } from "./texts.js";

const SHOWN = 200;

// The own posts of an actor in an epoch.
function ownPosts(history, node, actor, epoch) {
  return [...history.ofActor(actor, epoch)].filter((k) => history.from[k] === node);
}

function saidTable({ history, lanes }, posts) {
  const rows = posts.slice(0, SHOWN).map((k) => {
    return [postLink(history, k, `post ${k}`), history.kindName(k), lanes.roundText(k), saysText(history, k)];
  });
  const more = posts.length > SHOWN ? para("note", `The first ${SHOWN} of ${posts.length} posts.`) : null;
  return [table("What it said", ["Post", "Vote", "Round", "Says"], rows, { class: "said" }), more];
}

// How many posts of others to this actor were lost on their way.
function droppedPosts(world, node, actor, epoch) {
  const { history, reach } = world;
  return [...history.ofActor(actor, epoch)].filter(
    (k) => history.from[k] !== node && reach.reaches(k, node, actor) && reach.shape(k, node) === "drop",
  );
}

function droppedText(world, node, actor, epoch) {
  const lost = droppedPosts(world, node, actor, epoch);
  if (lost.length === 0) return null;
  const many = `${counted(lost.length, "post")} of other nodes to this lane ${lost.length === 1 ? "was" : "were"} dropped`;
  const first = postLink(world.history, lost[0]);
  return para("alarm", `${many} by the scenario's links, the first is `, first, ".");
}

// How an actor ended, if it did.
function endedText(world, node, actor) {
  const found = world.run ? world.run.nodes[node].ended.find((one) => one.actor === actor) : null;
  return found ? para("alarm", `It ended for good: it ${causeText(found.cause)}.`) : null;
}

// A vote that the actor did not cast, with what it would have asked for.
function lacking(world, node, actor, vote) {
  const bit = vote.bit === undefined ? "" : ` ${vote.bit}`;
  const round = vote.round === undefined ? "" : ` in round ${vote.round}`;
  return [`For ${vote.kind}${bit}${round}`, world.rules.ways(node, actor, vote, world.history.count)];
}

// What a lane lacks in its broadcast, first the vote that comes first.
function lackingBroadcast(world, scene) {
  const { node, actor, epoch } = scene;
  const found = [];
  const root = leadingRoot(scene);
  if (scene.ownVote("ECHO").length === 0) {
    const vals = scene.heard((k) => scene.is(k, "VAL", undefined, node) && world.history.from[k] === actor);
    const val = asks(`a VAL of node ${actor} to this node whose branch leads to its root`, 1, vals);
    found.push(["For ECHO", [{ text: "", parts: [val] }]]);
  }
  if (scene.ownVote("READY").length === 0 && root) found.push(lacking(world, node, actor, { kind: "READY", epoch, root }));
  if (scene.ownVote("DELIVERED").length === 0) found.push(lacking(world, node, actor, { kind: "DELIVERED", epoch }));
  return found;
}

// What a lane lacks to begin its agreement, or to go on in the round where it stands.
function lackingAgreement(world, scene) {
  const { node, actor, epoch } = scene;
  const { version, rounds } = world.config;
  const cell = world.lanes.cell(epoch, node, actor);
  const round = cell.lastRound;
  const need = (kind, more) => lacking(world, node, actor, { kind, epoch, ...more });
  if (round < 0) return [need("EST", { round: 0, bit: 1 }), need("EST", { round: 0, bit: 0 })];
  if (scene.ownVote("AUX", round).length === 0) return [0, 1].map((bit) => need("AUX", { round, bit }));
  if (version === 2 && scene.ownVote("CONF", round).length === 0) return [1, 2].map((bits) => need("CONF", { round, bits }));
  if (scene.ownVote("PICK", round).length === 0) return [1, 2].map((bits) => need("PICK", { round, bits }));
  const spent = `It spent all its ${counted(rounds, "round")}: in none did the coin fall on the bit that it picked.`;
  if (cell.spent) return [[spent, []]];
  return [0, 1].map((bit) => need("DECIDED", { bit }));
}

function saidPart(world, posts) {
  return part("What it said", posts.length > 0 ? saidTable(world, posts) : para("", "Nothing."));
}

function lackingPart(history, found) {
  return part("What it lacks at the end", found.map(([title, ways]) => [element("h4", {}, title), ...waysList(history, ways)]));
}

// What a lane lacks, unless it has decided and, where that was 1, delivered.
function lackingOfLane(world, cell, scene) {
  const isOver = cell.decided >= 0 && (cell.bit === 0 || cell.delivered >= 0);
  if (isOver || world.history.isLiar(scene.node)) return [];
  const ofBroadcast = cell.delivered < 0 ? lackingBroadcast(world, scene) : [];
  return cell.decided < 0 ? [...ofBroadcast, ...lackingAgreement(world, scene)] : ofBroadcast;
}

// Fills the panel with a lane of a node in an epoch.
export function lanePanel(world, epoch, node, lane) {
  const { history } = world;
  const cell = world.lanes.cell(epoch, node, lane);
  const found = lackingOfLane(world, cell, world.rules.scene(node, lane, epoch));
  const duty = `. Here node ${node} works on the batch that node ${lane} proposed.`;
  return [
    element("h2", {}, `Lane ${lane} of node ${node}, epoch ${epoch}`),
    para("meaning", word(stateText(cell), stateOf(cell).name), duty),
    cell.decided >= 0 ? para("", "It decided with ", postLink(history, cell.decided), ".") : null,
    endedText(world, node, lane),
    droppedText(world, node, lane, epoch),
    found.length > 0 ? lackingPart(history, found) : null,
    saidPart(world, ownPosts(history, node, lane, epoch)),
  ];
}

// The lanes of a desk with their states and, where links dropped posts to any of them, how many.
function lanesTable(world, epoch, node) {
  const lanes = Array.from({ length: world.config.n }, (_, lane) => lane);
  const lost = lanes.map((lane) => droppedPosts(world, node, lane, epoch).length);
  const isLossy = lost.some((count) => count > 0);
  const rows = lanes.map((lane) => {
    const link = element("a", { href: `#lane-${epoch}-${node}-${lane}` }, `lane ${lane}`);
    const cells = [link, stateText(world.lanes.cell(epoch, node, lane))];
    return isLossy ? [...cells, `${lost[lane]}`] : cells;
  });
  const heads = ["Lane", "State"];
  return table("Its lanes", isLossy ? [...heads, "Posts dropped"] : heads, rows);
}

// What a desk lacks to close an epoch; without the lanes' decisions nothing can be said of their batches.
function lackingClosed(world, epoch, node) {
  const [title, ways] = lacking(world, node, world.config.n, { kind: "CLOSED", epoch });
  return [[title, ways.map((way) => ({ ...way, parts: way.parts.filter((part) => part.need > 0) }))]];
}

// Fills the panel with the desk of a node in an epoch.
export function deskPanel(world, epoch, node) {
  const { history, config } = world;
  const closing = world.lanes.closed(epoch, node);
  const isOpen = closing < 0 && !history.isLiar(node);
  return [
    element("h2", {}, `Desk of node ${node}, epoch ${epoch}`),
    closing >= 0 ? para("meaning", "It closed the epoch with ", postLink(history, closing), ".") : null,
    closing < 0 ? para("alarm", "It did not close this epoch.") : null,
    endedText(world, node, config.n),
    isOpen ? lackingPart(history, lackingClosed(world, epoch, node)) : null,
    lanesTable(world, epoch, node),
    saidPart(world, ownPosts(history, node, config.n, epoch)),
  ];
}
