// The posts of a history as tables: of each post the kind, the epoch, the round and what it says in one number, so that
// lists and filters need not decode. A post is decoded as a whole when it is looked at.
import { decodeVote, KIND_LIST, KIND_PLACES, hexOf } from "./votes.js";

// stands for a round that a vote has not
export const NO_ROUND = 255;
export const NO_KIND = KIND_PLACES.get("no vote");

export class History {
  constructor(config, tables) {
    Object.assign(this, tables);
    this.config = config;
    this.kind = new Uint8Array(this.count).fill(NO_KIND);
    this.epoch = new Uint8Array(this.count);
    this.round = new Uint8Array(this.count).fill(NO_ROUND);
    this.says = new Uint8Array(this.count);
    for (let k = 0; k < this.count; k += 1) this.note(k);
    this.sortByActor();
  }

  // Notes the kind, epoch, round and bit, bits or target of a post.
  note(k) {
    const vote = this.vote(k);
    if (!vote) return;
    this.kind[k] = KIND_PLACES.get(vote.kind);
    this.epoch[k] = vote.epoch;
    if (vote.round !== undefined) this.round[k] = vote.round;
    this.says[k] = vote.bit ?? vote.bits ?? vote.target ?? vote.share ?? 0;
  }

  // The vote of a post, or null.
  vote(k) {
    return decodeVote(this.bytes, this.offsets[k], this.offsets[k + 1], this.config.n, this.config.version);
  }

  kindName(k) {
    return KIND_LIST[this.kind[k]].name;
  }

  // The posts that are votes of actors of the run, sorted by actor and epoch, each list in the order of the posts.
  sortByActor() {
    const counts = new Uint32Array((this.config.n + 1) * 32 + 1);
    const slot = (k) => this.actor[k] * 32 + this.epoch[k];
    const isListed = (k) => this.kind[k] !== NO_KIND && this.actor[k] <= this.config.n;
    for (let k = 0; k < this.count; k += 1) if (isListed(k)) counts[slot(k) + 1] += 1;
    for (let i = 1; i < counts.length; i += 1) counts[i] += counts[i - 1];
    this.starts = counts;
    const next = counts.slice();
    this.sorted = new Uint32Array(counts[counts.length - 1]);
    for (let k = 0; k < this.count; k += 1) {
      if (isListed(k)) {
        this.sorted[next[slot(k)]] = k;
        next[slot(k)] += 1;
      }
    }
  }

  // The numbers of the votes of an actor of all nodes in an epoch.
  ofActor(actor, epoch) {
    const slot = actor * 32 + epoch;
    return this.sorted.subarray(this.starts[slot], this.starts[slot + 1]);
  }

  length(k) {
    return this.offsets[k + 1] - this.offsets[k];
  }

  // Whether two posts have the same bytes.
  sameBytes(one, other) {
    const length = this.length(one);
    return length === this.length(other) && this.sameAt(this.offsets[one], this.offsets[other], length);
  }

  sameAt(one, other, length) {
    for (let i = 0; i < length; i += 1) if (this.bytes[one + i] !== this.bytes[other + i]) return false;
    return true;
  }

  // Whether two parts of votes have the same bytes.
  samePart(one, other) {
    return one.length === other.length && this.sameAt(one.at, other.at, one.length);
  }

  hex(k, most = Infinity) {
    return hexOf(this.bytes, { at: this.offsets[k], length: this.length(k) }, most);
  }

  isLiar(node) {
    return this.config.liars.includes(node);
  }

  // "lane 2" or "desk".
  actorName(actor) {
    if (actor < this.config.n) return `lane ${actor}`;
    return actor === this.config.n ? "desk" : `actor ${actor}`;
  }
}
