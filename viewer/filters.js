// Which posts are shown: by epoch, lane, node, kind and round.
import { KIND_LIST, KIND_PLACES } from "./votes.js";
import { NO_KIND, NO_ROUND } from "./history.js";

export const FILTERS = ["epoch", "lane", "node", "kind", "round"];
const GROUPS = new Map([["broadcast", "broadcast votes"], ["agreement", "agreement votes"], ["desk", "desk votes"]]);

// The choices of each filter: pairs of a value and a text. The value "" lets all through.
export function choices(history) {
  const { n, epochs, version } = history.config;
  const upTo = (count, text) => Array.from({ length: count }, (_, i) => [`${i}`, `${text} ${i}`]);
  let rounds = 0;
  for (let k = 0; k < history.count; k += 1) if (history.round[k] !== NO_ROUND) rounds = Math.max(rounds, history.round[k] + 1);
  const kinds = KIND_LIST.filter((kind) => kind.name !== "CONF" || version === 2).map(
    (kind) => [kind.name, `${kind.letter}  ${kind.name}`],
  );
  return {
    epoch: [["", "all epochs"], ...upTo(epochs, "epoch")],
    lane: [["", "all lanes, desks"], ...upTo(n, "lane"), ["desk", "desks"]],
    node: [["", "all nodes"], ...upTo(n, "from node"), ...Array.from({ length: n }, (_, i) => [`to${i}`, `reaching node ${i}`])],
    kind: [["", "all kinds"], ...GROUPS, ...kinds],
    round: [["", "all rounds"], ...upTo(rounds, "round")],
  };
}

// A test of posts for each filter that is set.
function tests(world, chosen) {
  const { history, reach } = world;
  const found = [];
  if (chosen.epoch) found.push((k) => history.kind[k] !== NO_KIND && history.epoch[k] === Number(chosen.epoch));
  if (chosen.lane) {
    const actor = chosen.lane === "desk" ? history.config.n : Number(chosen.lane);
    found.push((k) => history.actor[k] === actor);
  }
  if (chosen.round) found.push((k) => history.round[k] === Number(chosen.round));
  if (GROUPS.has(chosen.kind)) found.push((k) => KIND_LIST[history.kind[k]].group === chosen.kind);
  else if (chosen.kind) found.push((k) => history.kind[k] === KIND_PLACES.get(chosen.kind));
  if (chosen.node.startsWith("to")) {
    const node = Number(chosen.node.slice(2));
    found.push((k) => reach.nodes(k).includes(node) && reach.shape(k, node) !== "drop");
  } else if (chosen.node) found.push((k) => history.from[k] === Number(chosen.node));
  return found;
}

// The numbers of the posts that pass all filters.
export function shownPosts(world, chosen) {
  const all = tests(world, chosen);
  const shown = new Uint32Array(world.history.count);
  let count = 0;
  for (let k = 0; k < world.history.count; k += 1) {
    if (all.every((test) => test(k))) {
      shown[count] = k;
      count += 1;
    }
  }
  return shown.subarray(0, count);
}

// The place of the first number in a rising list that is not below k.
export function placeOf(list, k) {
  let low = 0;
  let high = list.length;
  while (low < high) {
    const middle = (low + high) >> 1;
    if (list[middle] < k) low = middle + 1;
    else high = middle;
  }
  return low;
}
