// The coins of the rounds. A share counts where its branch leads from it to the root that was dealt for the round.
import { foldBranch, sameBytes } from "./digest.js";
import { Deal } from "./deal.js";
import { KIND_PLACES } from "./votes.js";

const COIN = KIND_PLACES.get("COIN");

export class Coins {
  constructor(history) {
    this.history = history;
    this.deal = new Deal(history.config);
    this.known = new Map();
  }

  // The coin of a round of a lane, 0 or 1.
  bit(epoch, lane, round) {
    return this.deal.coin(epoch, lane, round);
  }

  // The posts with good shares of a round, the first of each node, in their order.
  shares(epoch, lane, round) {
    const key = (epoch * 16 + lane) * 32 + round;
    if (!this.known.has(key)) this.known.set(key, this.find(epoch, lane, round));
    return this.known.get(key);
  }

  find(epoch, lane, round) {
    const { history } = this;
    const root = this.deal.root(epoch, lane, round);
    const found = new Map();
    for (const k of history.ofActor(lane, epoch)) {
      const from = history.from[k];
      const isShare = history.kind[k] === COIN && history.round[k] === round && from < history.config.n && !found.has(from);
      if (isShare && this.isGood(k, root)) found.set(from, k);
    }
    return [...found.values()];
  }

  // Whether the share of a post leads to a root.
  isGood(k, root) {
    const { bytes, from } = this.history;
    const vote = this.history.vote(k);
    const leaf = Uint8Array.from([vote.share, ...bytes.subarray(vote.salt.at, vote.salt.at + 16)]);
    return sameBytes(foldBranch(from[k], leaf, bytes, vote.branch), root);
  }
}
