// How far each lane of each node came in each epoch, and which epochs each desk closed.
import { KIND_PLACES } from "./votes.js";
import { NO_KIND, NO_ROUND } from "./history.js";

const NONE = -1;

// What the posts say of the lanes: one entry for each epoch, node and lane.
export class Lanes {
  constructor(history, coins) {
    Object.assign(this, { history, coins });
    const { n, epochs } = history.config;
    this.cells = Array.from({ length: epochs * n * n }, () => ({
      begun: NONE, delivered: NONE, decided: NONE, bit: null, round: null, lastRound: NONE, spent: false, picks: [0, 0],
    }));
    this.closings = new Int32Array(epochs * n).fill(NONE);
    for (let k = 0; k < history.count; k += 1) this.note(k);
    this.cells.forEach((cell, place) => this.findRound(cell, place));
  }

  cell(epoch, node, lane) {
    const { n } = this.history.config;
    return this.cells[(epoch * n + node) * n + lane];
  }

  // The post with which a desk closed an epoch, or -1.
  closed(epoch, node) {
    return this.closings[epoch * this.history.config.n + node];
  }

  closedCount(node) {
    let count = 0;
    for (let epoch = 0; epoch < this.history.config.epochs; epoch += 1) if (this.closed(epoch, node) !== NONE) count += 1;
    return count;
  }

  // The round of a post in words: the one that its vote names or, where a lane decided with it, the one in which it did so.
  roundText(k) {
    const { history } = this;
    const { n, epochs } = history.config;
    if (history.round[k] !== NO_ROUND) return `${history.round[k]}`;
    const isOfLane = history.from[k] < n && history.actor[k] < n && history.epoch[k] < epochs;
    if (!isOfLane || !this.is(k, "DECIDED")) return "";
    const cell = this.cell(history.epoch[k], history.from[k], history.actor[k]);
    return history.says[k] === cell.bit && cell.round !== null ? `${cell.round}` : "";
  }

  note(k) {
    const { history } = this;
    const { n, epochs } = history.config;
    const node = history.from[k];
    const actor = history.actor[k];
    const epoch = history.epoch[k];
    if (history.kind[k] === NO_KIND || node >= n || actor > n || epoch >= epochs) return;
    if (actor < n) this.noteLane(this.cell(epoch, node, actor), k);
    else if (this.is(k, "CLOSED") && this.closed(epoch, node) === NONE) this.closings[epoch * n + node] = k;
  }

  is(k, kind) {
    return this.history.kind[k] === KIND_PLACES.get(kind);
  }

  noteLane(cell, k) {
    const { history } = this;
    if (cell.begun === NONE) cell.begun = k;
    if (this.is(k, "DELIVERED") && cell.delivered === NONE) cell.delivered = k;
    if (this.is(k, "EST")) cell.lastRound = Math.max(cell.lastRound, history.round[k]);
    if (this.is(k, "PICK")) this.notePick(cell, k);
    if (this.is(k, "DECIDED") && cell.decided === NONE) {
      cell.decided = k;
      cell.bit = history.says[k];
    }
  }

  // Notes a round in which a lane picked a bit alone, up to its decision.
  notePick(cell, k) {
    const { history } = this;
    const round = history.round[k];
    if (round === history.config.rounds - 1) cell.spent = true;
    if (cell.decided !== NONE) return;
    for (const bit of [0, 1]) if (history.says[k] === bit + 1) cell.picks[bit] |= 1 << round;
  }

  // The round of a decision: the first in which the lane picked the bit alone and whose coin is the bit.
  findRound(cell, place) {
    if (cell.decided === NONE) return;
    cell.spent = false;
    const { n, rounds } = this.history.config;
    const epoch = Math.floor(place / (n * n));
    for (let round = 0; round < rounds && cell.round === null; round += 1) {
      const isPicked = (cell.picks[cell.bit] & (1 << round)) !== 0;
      if (isPicked && this.coins.bit(epoch, place % n, round) === cell.bit) cell.round = round;
    }
  }
}

// The state of a lane: a name, and the short text that stands in the grid.
export function stateOf(cell) {
  if (cell.decided !== NONE) return {
    name: `decided ${cell.bit}`,
    style: `decided${cell.bit}`,
    text: `${cell.bit}`,
    round: cell.round,
  };
  if (cell.spent) return { name: "spent", style: "spent", text: "S", round: null };
  if (cell.delivered !== NONE) return { name: "delivered", style: "delivered", text: "L", round: null };
  if (cell.begun !== NONE) return { name: "begun", style: "begun", text: "b", round: null };
  return { name: "not begun", style: "none", text: "–", round: null };
}

export function stateText(cell) {
  const state = stateOf(cell);
  return state.round === null ? state.name : `${state.name} in round ${state.round}`;
}
