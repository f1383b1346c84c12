// Begins: reads the history, makes the views, and follows the address of the page, in which each view has its place.
import { element, fill, followWords } from "./dom.js";
import { decodeVote, voteText } from "./votes.js";
import { readTrace } from "./loader.js";
import { World } from "./world.js";
import { RunView } from "./runview.js";
import { fillOverview } from "./overview.js";
import { fillLedgers } from "./ledgerpanel.js";
import { fillWords } from "./wordspanel.js";
import { pairPanel, postPanel } from "./postpanel.js";
import { deskPanel, lanePanel } from "./lanepanel.js";

const VIEWS = ["overview", "run", "ledgers", "words"];
const byId = (id) => document.getElementById(id);

class Page {
  constructor(world) {
    this.world = world;
    this.filled = new Set();
    this.fillers = {
      overview: (section) => fillOverview(section, world),
      run: (section) => {
        this.run = new RunView(section, world, (k) => this.select(k));
        this.run.panel.replaceChildren(
          element("h2", {}, "Nothing is selected"),
          element("p", {}, "Click a row, or press an arrow key, to see what a post says and why it was allowed."),
        );
      },
      ledgers: (section) => fillLedgers(section, world),
      words: fillWords,
    };
    window.addEventListener("hashchange", () => this.follow());
    document.addEventListener("keydown", (event) => this.key(event));
  }

  // Selects a post by keyboard or click. Steps from post to post make no history of their own.
  select(k) {
    history.replaceState(null, "", `#post-${k}`);
    this.follow();
  }

  show(view) {
    for (const name of VIEWS) {
      byId(name).hidden = name !== view;
      const link = document.querySelector(`nav [data-view=${name}]`);
      if (name === view) link.setAttribute("aria-current", "page");
      else link.removeAttribute("aria-current");
    }
    if (!this.filled.has(view)) {
      this.filled.add(view);
      this.fillers[view](byId(view));
    }
  }

  // Shows what the address names.
  follow() {
    const [name, ...numbers] = (location.hash.slice(1) || this.start()).split("-");
    const places = numbers.map(Number);
    const acts = {
      post: () => this.post(...places),
      pair: () => this.pair(...places),
      lane: () => this.lane(...places),
      desk: () => this.desk(...places),
    };
    if (acts[name] && this.isKnown(name, places)) {
      this.show("run");
      acts[name]();
    } else this.show(VIEWS.includes(name) ? name : "overview");
  }

  isKnown(name, places) {
    const { count } = this.world.history;
    const { n, epochs } = this.world.config;
    const wanted = { post: [count], pair: [count, count], lane: [epochs, n, n], desk: [epochs, n] }[name];
    return places.length === wanted.length && wanted.every(
      (limit, at) => Number.isInteger(places[at]) && places[at] >= 0 && places[at] < limit,
    );
  }

  // Where the page opens: at the post that the audit names, if there is one.
  start() {
    const { verdict, history: posts } = this.world;
    return verdict && !verdict.legal && verdict.post < posts.count ? `post-${verdict.post}` : "overview";
  }

  post(k) {
    const why = this.world.rules.why(k);
    const rests = why.ways.flatMap((way) => way.parts.flatMap((part) => part.posts));
    this.run.choose(k, rests);
    this.fill(postPanel(this.world, k, why));
  }

  pair(first, second) {
    this.run.choose(second, [first]);
    this.fill(pairPanel(this.world, first, second));
  }

  lane(epoch, node, lane) {
    this.run.showOnly({ epoch: `${epoch}`, lane: `${lane}` });
    this.fill(lanePanel(this.world, epoch, node, lane));
  }

  desk(epoch, node) {
    this.run.showOnly({ epoch: `${epoch}`, lane: "desk" });
    this.fill(deskPanel(this.world, epoch, node));
  }

  fill(children) {
    fill(this.run.panel, children);
    this.run.panel.scrollTop = 0;
  }

  key(event) {
    const isTyping = event.target instanceof HTMLInputElement || event.target instanceof HTMLSelectElement;
    if (event.key === "/" && !isTyping && !event.ctrlKey && !event.altKey) {
      event.preventDefault();
      if (byId("run").hidden) location.hash = "#run";
      this.follow();
      this.run.number.focus();
      this.run.number.select();
    }
    if (event.key === "Escape" && this.run && !byId("run").hidden) this.run.canvas.focus();
  }
}

function tellVerdict(world) {
  const { verdict } = world;
  const place = byId("verdict");
  if (!verdict) place.textContent = "not audited";
  else if (verdict.legal) place.textContent = `✓ audit: legal, ${verdict.posts.toLocaleString("en")} posts`;
  else place.replaceChildren(element("a", { href: `#post-${verdict.post}` }, `✗ audit: illegal, post ${verdict.post}`));
  place.className = verdict ? (verdict.legal ? "good" : "alarm") : "warn";
}

// A text of which not even the first line could be read.
function tellNothing(fault) {
  byId("verdict").textContent = "";
  const line = fault.text ? [element("p", {}, "The line:"), element("pre", {}, fault.text)] : [];
  byId("overview").hidden = false;
  byId("overview").append(
    element("h2", {}, "There is no history to show"),
    element("p", { class: "alarm" }, `Line ${fault.line}: ${fault.reason}.`),
    ...line,
  );
}

async function begin() {
  const data = JSON.parse(byId("run-data").textContent);
  followWords();
  const reader = await readTrace(byId("trace-data"), data.traceLength);
  if (!reader.config) {
    tellNothing(reader.fault);
  } else {
    const world = new World(data, reader);
    window.shownRun = { world, decodeVote, voteText };
    tellVerdict(world);
    window.shownRun.page = new Page(world);
    window.shownRun.page.follow();
  }
  document.documentElement.dataset.ready = `${Math.round(performance.now())}`;
}

begin().catch((error) => {
  byId("verdict").textContent = `The history could not be read: ${error.message}`;
  throw error;
});
