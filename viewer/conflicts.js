// Which posts of one actor contradict each other, as the accusation has it.
import { KIND_LIST } from "./votes.js";

// Votes of which an actor may cast any, and bytes that are no vote.
const NEVER = new Set(["BVAL", "NOMORE", "no vote"]);

// Whether two posts of one actor contradict each other: they are two different votes of a kind, an epoch and a round. Two
// VALs contradict each other where their roots differ, or where one target gets two of them.
export function excludes(history, one, other) {
  const same = (table) => table[one] === table[other];
  const kind = KIND_LIST[history.kind[one]].name;
  const isOfOneKind = same(history.kind) && same(history.epoch) && same(history.round);
  if (NEVER.has(kind) || !isOfOneKind || history.sameBytes(one, other)) return false;
  if (kind !== "VAL" || same(history.says)) return true;
  return !history.samePart(history.vote(one).root, history.vote(other).root);
}

// The nodes whose own posts contradict each other, each with the first such post and the first that it contradicts.
export function accusedNodes(history) {
  const found = [];
  for (let node = 0; node < history.config.n; node += 1) {
    const pair = firstPair(history, node);
    if (pair) found.push({ node, posts: pair });
  }
  return found;
}

function firstPair(history, node) {
  const said = new Map();
  for (let k = 0; k < history.count; k += 1) {
    if (history.from[k] === node && !NEVER.has(history.kindName(k))) {
      const key = ((history.actor[k] * 32 + history.kind[k]) * 32 + history.epoch[k]) * 256 + history.round[k];
      const earlier = said.get(key) || [];
      const first = earlier.find((p) => excludes(history, p, k));
      if (first !== undefined) return [first, k];
      if (earlier.length < 16 || !earlier.some((p) => history.sameBytes(p, k))) said.set(key, [...earlier, k]);
    }
  }
  return null;
}
