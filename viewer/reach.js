// What reaches whom: by the address of a post, and by the links of the scenario where the page has one.
import { TO_ALL, TO_BOOK, TO_HOME, TO_NODE } from "./trace.js";

const NOWHERE = { least: 0, most: 0, count: 0 };

export class Reach {
  // `links` are the scenario's rules, in its order; a history alone has none.
  constructor(history, links = []) {
    this.history = history;
    this.links = links;
  }

  // Whether the address of a post reaches an actor of a node.
  reaches(k, node, actor) {
    const { toKind, toNode, from, config } = this.history;
    const poster = this.history.actor[k];
    if (toKind[k] === TO_ALL) return actor === poster;
    if (toKind[k] === TO_NODE) return actor === poster && node === toNode[k];
    if (toKind[k] !== TO_HOME || node !== from[k]) return false;
    return (poster < config.n && actor === config.n) || (poster === config.n && actor < config.n);
  }

  // The nodes that a post reaches, one actor of them at least.
  nodes(k) {
    const { toKind, toNode, from, config } = this.history;
    const poster = this.history.actor[k];
    if (toKind[k] === TO_BOOK || poster > config.n) return [];
    if (toKind[k] === TO_HOME) return from[k] < config.n ? [from[k]] : [];
    if (toKind[k] === TO_NODE) return toNode[k] < config.n ? [toNode[k]] : [];
    return Array.from({ length: config.n }, (_, node) => node);
  }

  // Of the nodes other than its sender that a post reaches: the least, the most, and how many they are.
  extent(k) {
    const { toKind, toNode, from, config } = this.history;
    const last = config.n - 1;
    const target = toNode[k];
    if (this.history.actor[k] > config.n) return NOWHERE;
    if (toKind[k] === TO_NODE && target <= last && target !== from[k]) return { least: target, most: target, count: 1 };
    if (toKind[k] !== TO_ALL || from[k] > last || last === 0) return NOWHERE;
    return { least: from[k] === 0 ? 1 : 0, most: from[k] === last ? last - 1 : last, count: last };
  }

  // How a post comes to a node, by the first link that fits: once, twice, late or drop.
  shape(k, node) {
    const from = this.history.from[k];
    if (from === node) return "once";
    for (const link of this.links) {
      const fits = (link.from ?? from) === from && (link.to ?? node) === node;
      if (fits && k % link.every === link.at) return link.shape;
    }
    return "once";
  }

  // Whether a post gets through to an actor of a node, as far as address and links say.
  arrives(k, node, actor) {
    return this.reaches(k, node, actor) && (this.links.length === 0 || this.shape(k, node) !== "drop");
  }

  // How many posts to a node from others are dropped.
  droppedTo(node) {
    let count = 0;
    if (!this.links.some((link) => link.shape === "drop" && (link.to ?? node) === node)) return 0;
    for (let k = 0; k < this.history.count; k += 1) {
      if (this.history.from[k] !== node && this.nodes(k).includes(node) && this.shape(k, node) === "drop") count += 1;
    }
    return count;
  }

  // Which actors hear a post where it arrives.
  hearers(k) {
    const { toKind, config } = this.history;
    const poster = this.history.actor[k];
    if (toKind[k] === TO_HOME) return poster === config.n ? "all its lanes" : "its desk";
    return this.history.actorName(poster);
  }
}

// The address in words.
export function addressText(history, k) {
  const kind = history.toKind[k];
  if (kind === TO_BOOK) return "nobody: it stands in the book of posts alone";
  if (kind === TO_HOME) return history.actor[k] === history.config.n ? "the lanes of its own node" : "the desk of its own node";
  if (kind === TO_ALL) return `all nodes, ${history.actorName(history.actor[k])}`;
  return `node ${history.toNode[k]}, ${history.actorName(history.actor[k])}`;
}

// The address as the history says it.
export function addressWord(history, k) {
  return [() => "book", () => "home", () => "all", () => `node ${history.toNode[k]}`][history.toKind[k]]();
}
