// What one actor has said and heard at a point of a history: what the rules look at.
import { KIND_PLACES } from "./votes.js";

// One thing that a rule asks for: words, how many posts of different senders it takes, and the posts that are there.
export function asks(text, need, posts) {
  return { text, need, posts, met: posts.length >= need };
}

// A thing that holds or does not, without posts.
export function holds(text, met) {
  return { text, need: 0, posts: [], met };
}

export class Scene {
  // Before post `before`, as actor `actor` of node `node` sees epoch `epoch`.
  constructor(world, node, actor, epoch, before) {
    Object.assign(this, { world, node, actor, epoch, before });
    this.history = world.history;
    this.config = world.history.config;
  }

  // The posts of an actor in an epoch before this point.
  *posts(actor, epoch = this.epoch) {
    for (const k of this.history.ofActor(actor, epoch)) {
      if (k >= this.before) return;
      yield k;
    }
  }

  is(k, kind, round, says) {
    const { history } = this;
    return history.kind[k] === KIND_PLACES.get(kind)
      && (round === undefined || history.round[k] === round)
      && (says === undefined || history.says[k] === says);
  }

  // The first own post that passes a test, as a list of none or one.
  own(test, epoch = this.epoch) {
    for (const k of this.posts(this.actor, epoch)) {
      if (this.history.from[k] === this.node && test(k)) return [k];
    }
    return [];
  }

  ownVote(kind, round, says, epoch) {
    return this.own((k) => this.is(k, kind, round, says), epoch);
  }

  // Of each node the first post heard that passes a test.
  heard(test) {
    const found = new Map();
    for (const k of this.posts(this.actor)) {
      const from = this.history.from[k];
      if (
        from < this.config.n && !found.has(from) && test(k) && this.world.reach.arrives(k, this.node, this.actor)
      ) found.set(from, k);
    }
    return [...found.values()];
  }

  heardVotes(kind, round, says) {
    return this.heard((k) => this.is(k, kind, round, says));
  }

  // The first post of another actor of the own node that passes a test, as a list of none or one.
  home(actor, test) {
    for (const k of this.posts(actor)) {
      if (this.history.from[k] === this.node && this.world.reach.reaches(k, this.node, this.actor) && test(k)) return [k];
    }
    return [];
  }
}
