// All that the page knows of a run, made once: the history, what the program said of it, and what follows from the posts.
import { History } from "./history.js";
import { Reach } from "./reach.js";
import { Coins } from "./coins.js";
import { Rules } from "./rules.js";
import { Lanes } from "./lanes.js";
import { accusedNodes } from "./conflicts.js";
import { readAccusation, readRun, readVerdict } from "./texts.js";
import { readScenario } from "./scenario.js";
import { plannedRestarts } from "./restarts.js";

export class World {
  // `data` are the texts in the page; `reader` has read the history.
  constructor(data, reader) {
    this.data = data;
    this.fault = reader.fault;
    this.scenario = readScenario(data.scenario);
    this.history = new History(reader.config, reader.tables());
    this.config = this.history.config;
    this.reach = new Reach(this.history, this.scenario ? this.scenario.links : []);
    this.coins = new Coins(this.history);
    this.rules = new Rules(this.history, this.reach, this.coins);
    this.verdict = readVerdict(data.audit);
    this.lanes = new Lanes(this.history, this.coins);
    this.run = readRun(data.run);
    this.accused = this.findAccused();
    this.restarts = plannedRestarts(this.history, this.scenario);
    this.marks = this.findMarks();
  }

  // A run with workers has another history each time, so that the posts which the program names are of another one. Then,
  // and where there is only a history, the posts are those that this page finds.
  findAccused() {
    const told = readAccusation(this.data.accuse);
    const isOfThisRun = told !== null && !(this.scenario && this.scenario.workers > 0);
    this.accusedBy = isOfThisRun ? "program" : "page";
    return isOfThisRun ? told : accusedNodes(this.history);
  }

  // The posts that are marked: the one that the audit names, those that contradict each other, and those with which an actor
  // began again.
  findMarks() {
    const marks = new Map();
    for (const { posts } of this.restarts) for (const k of posts) marks.set(k, "restart");
    for (const { posts } of this.accused) for (const k of posts) marks.set(k, "contradiction");
    if (this.verdict && !this.verdict.legal && this.verdict.post < this.history.count) marks.set(this.verdict.post, "illegal");
    return marks;
  }

  nodeState(node) {
    if (this.history.isLiar(node)) return "liar";
    return this.run && this.run.nodes[node] ? this.run.nodes[node].state : "unknown";
  }

  // How a liar lies, by the scenario.
  lieName(node) {
    const entry = this.scenario && this.scenario.liars.find((liar) => liar.node === node);
    return entry ? entry.name : null;
  }
}
