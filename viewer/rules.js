// Why a post was allowed: the earlier posts on which its rule rests. It illustrates; the proved judge is `audit`.
import { restsOfDelivered, restsOfEcho, restsOfReady, restsOfVal } from "./broadcast_rules.js";
import { restsOfAux, restsOfBval, restsOfCoin, restsOfConf, restsOfDecided, restsOfEst, restsOfPick } from "./agreement_rules.js";
import { restsOfClosed, restsOfNomore, restsOfPropose } from "./desk_rules.js";
import { holds, Scene } from "./scene.js";
import { addressWord } from "./reach.js";
import { excludes } from "./conflicts.js";
import { kindNamed } from "./votes.js";

const RULES = {
  VAL: restsOfVal, ECHO: restsOfEcho, READY: restsOfReady, DELIVERED: restsOfDelivered,
  EST: restsOfEst, BVAL: restsOfBval, AUX: restsOfAux, CONF: restsOfConf, PICK: restsOfPick, COIN: restsOfCoin,
  DECIDED: restsOfDecided, PROPOSE: restsOfPropose, NOMORE: restsOfNomore, CLOSED: restsOfClosed,
};

const ADDRESSES = {
  DELIVERED: "home",
  DECIDED: "home",
  PROPOSE: "home",
  NOMORE: "home",
  EST: "book",
  PICK: "book",
  CLOSED: "book",
};

// The world that the rules look at: history, reach and coins.
export class Rules {
  constructor(history, reach, coins) {
    Object.assign(this, { history, reach, coins });
  }

  // The ways in which an actor may cast a vote at a point, each with what it asks for. The vote may be one that nobody cast.
  ways(node, actor, vote, before, k) {
    const scene = new Scene(this, node, actor, vote.epoch, before);
    const found = RULES[vote.kind](scene, vote, k);
    for (const way of found) way.met = way.parts.every((part) => part.met);
    return found;
  }

  scene(node, actor, epoch, before = this.history.count) {
    return new Scene(this, node, actor, epoch, before);
  }

  // Why a post was allowed: the ways that hold, or else all; what is wrong with it before any rule; whether it was said before.
  why(k) {
    const { history } = this;
    const vote = history.vote(k);
    const node = history.from[k];
    const faults = this.faults(k, vote);
    if (!vote || faults.some((fault) => fault.stops)) return { vote, faults, ways: [], again: null, met: false };
    const again = this.saidBefore(k, vote);
    const ways = this.ways(node, history.actor[k], vote, k, k);
    const met = ways.filter((way) => way.met);
    return {
      vote,
      faults,
      again,
      ways: met.length > 0 ? met : ways,
      met: faults.length === 0 && (again !== null || met.length > 0),
    };
  }

  // The earlier post by which the actor said just this, or null.
  saidBefore(k, vote) {
    const scene = this.scene(this.history.from[k], this.history.actor[k], vote.epoch, k);
    const [first] = scene.own((other) => this.history.sameBytes(other, k));
    return first ?? null;
  }

  // What is wrong with a post whatever stood before: who casts it, where it goes, of which epoch and round it is; and
  // another vote of the actor that excludes it.
  faults(k, vote) {
    const { history } = this;
    const { n, epochs, rounds } = history.config;
    const node = history.from[k];
    const actor = history.actor[k];
    const stop = (text) => ({ ...holds(text, false), stops: true });
    if (node >= n) return [stop(`there is no node ${node}`)];
    if (!vote) return [stop("the bytes spell no vote")];
    if (actor > n) return [stop(`node ${node} has no actor ${actor}`)];
    const isDesk = kindNamed(vote.kind).group === "desk";
    if (isDesk !== (actor === n)) return [
      stop(isDesk ? "only a desk casts this, and this actor is a lane" : "only a lane casts this, and this actor is the desk"),
    ];
    if (vote.epoch >= epochs) return [stop(`the run has no epoch ${vote.epoch}`)];
    if ((vote.round ?? 0) >= rounds) return [stop(`the run has no round ${vote.round}`)];
    const faults = [];
    const wanted = vote.kind === "VAL" ? `node ${vote.target}` : ADDRESSES[vote.kind] || "all";
    if (addressWord(history, k) !== wanted) faults.push(
      holds(`it goes to "${addressWord(history, k)}", and should go to "${wanted}"`, false),
    );
    const scene = this.scene(node, actor, vote.epoch, k);
    const other = scene.own((p) => excludes(history, p, k));
    if (other.length > 0) faults.push(
      { text: "the actor had said something else before that excludes it", need: 0, posts: other, met: false },
    );
    return faults;
  }
}
