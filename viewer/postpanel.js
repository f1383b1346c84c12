// The panel of one post: what it says, whom it reaches, and why it was allowed.
import { chip, counted, element, head, para, part, postLink, row, table, tableOf, word } from "./dom.js";
import { addressText, addressWord } from "./reach.js";
import { bitsText, decodeBatch, hexOf, kindNamed } from "./votes.js";
import { transactionText } from "./ledgers.js";
import { meaningOf } from "./words.js";
import { lieText } from "./scenario.js";

const SHOWN_HEX = 400;
const SHOWN_POSTS = 20;
const SHOWN_TRANSACTIONS = 3;
const SHAPES = { once: "arrives", twice: "arrives twice", late: "arrives late", drop: "is dropped on the way" };

function shortHex(history, place) {
  const text = hexOf(history.bytes, place, 8);
  return place.length > 8 ? `${text}… (${place.length.toLocaleString("en")} bytes)` : text || "no bytes";
}

// The transactions of a batch: how many there are, and the first few.
function batchText(history, place) {
  const transactions = decodeBatch(history.bytes, place);
  if (transactions.length === 0) return `no transactions (${place.length} bytes)`;
  const first = transactions.slice(0, SHOWN_TRANSACTIONS).map((one) => transactionText(hexOf(history.bytes, one)));
  const more = transactions.length > first.length ? " …" : "";
  return `${counted(transactions.length, "transaction")}: ${first.join(", ")}${more}`;
}

function branchText(history, branch) {
  if (branch.length === 0) return "empty: there is one leaf";
  return `${counted(branch.length / 32, "digest")}: ${hexOf(history.bytes, branch, 8)}…`;
}

function batchList(history, items) {
  const texts = items.map((item) => element("li", {}, `batch of node ${item.node}: `, batchText(history, item.value)));
  return items.length > 0 ? element("ul", {}, texts) : "no batches";
}

// The value of a field, in words.
function fieldCell(history, vote, field) {
  const found = vote[field];
  if (field === "bits") return bitsText(found);
  if (field === "root") return `${hexOf(history.bytes, found, 8)}…`;
  if (field === "target") return `node ${found}`;
  if (field === "branch") return branchText(history, found);
  if (field === "items") return batchList(history, found);
  if (field === "value") return batchText(history, found);
  return typeof found === "number" ? `${found}` : shortHex(history, found);
}

function fieldTable({ history, lanes }, k, vote) {
  const sender = [`node ${history.from[k]}`, history.isLiar(history.from[k]) ? [" (", word("liar"), ")"] : null];
  const rows = [["from", [sender, `, ${history.actorName(history.actor[k])}`]], ["to", addressText(history, k)]];
  if (vote) {
    rows.push([word("epoch"), `${vote.epoch}`]);
    for (const field of kindNamed(vote.kind).fields) {
      const name = field === "items" ? word("batches", "batch") : word(field);
      rows.push([name, fieldCell(history, vote, field)]);
    }
    const round = vote.round === undefined ? lanes.roundText(k) : "";
    if (round) rows.push([word("round"), `${round}: in it the lane decided; the vote names none`]);
  }
  return table("What it says", ["Part", "Says"], rows, { class: "fields" });
}

// One thing that a rule asks for, whether it is there, and the posts that are.
function needItem(history, need) {
  const sign = { class: "mark", "aria-label": need.met ? "holds:" : "does not hold:", role: "img" };
  const found = need.need > 0 ? ` — ${need.posts.length} of ${need.need}` : "";
  const shown = need.posts.slice(0, Math.max(need.need, SHOWN_POSTS));
  const links = shown.map((k) => element("li", {}, postLink(history, k)));
  const more = need.posts.length > shown.length ? element("li", {}, `and ${need.posts.length - shown.length} more`) : null;
  const posts = links.length > 0 ? element("ul", { class: "posts" }, links, more) : null;
  const [style, mark] = need.met ? ["met", "✓"] : ["unmet", "✗"];
  return element("li", { class: style }, element("span", sign, mark), ` ${need.text}${found}`, posts);
}

function needList(history, needs) {
  return element("ul", { class: "parts" }, needs.map((need) => needItem(history, need)));
}

// The ways in which a vote may be cast, each with what it asks for.
export function waysList(history, ways) {
  return ways.map((way, at) => {
    const isNamed = way.text !== "" || ways.length > 1;
    return [isNamed ? para("way", `${at > 0 ? "Or " : ""}${way.text}:`) : null, needList(history, way.parts)];
  });
}

function verdictOf(world, k, why) {
  const { verdict, history } = world;
  if (verdict && !verdict.legal && verdict.post === k) {
    return para("alarm", element("strong", {}, "The audit names this post: it may not follow those before it."));
  }
  if (history.isLiar(history.from[k])) {
    const other = why.met ? "A correct node might have said it too." : "A correct node would not have been allowed to:";
    return para("liar", "A liar said this. ", other);
  }
  return why.met ? null : para("alarm", "This page finds no reason for this post:");
}

const AGAIN = "It was said before, and an actor that was switched on again may repeat what it said: ";
const ILLUSTRATION =
  "This is an illustration: it lists earlier posts that reach this actor and meet the rule. The proved judge is ";

function whySection(world, k, why) {
  const { history } = world;
  const isLiar = history.isLiar(history.from[k]);
  const title = why.met ? "Why it was allowed" : "Why it was not allowed";
  return part(isLiar ? "What a correct node would need" : title,
    verdictOf(world, k, why),
    why.again !== null ? para("", AGAIN, postLink(history, why.again)) : null,
    why.faults.length > 0 ? needList(history, why.faults) : null,
    waysList(history, why.ways),
    para("note", ILLUSTRATION, word("audit"), "."));
}

function reachSection(world, k) {
  const { history, reach } = world;
  const title = "Whom it reaches";
  const nodes = reach.nodes(k);
  if (nodes.length === 0) return part(title, para("", "Nobody: the node keeps it for itself."));
  const how = (node) => (node === history.from[k] ? "its own" : SHAPES[reach.shape(k, node)]);
  const rows = nodes.map((node) => [`node ${node}`, reach.hearers(k), how(node)]);
  const note = world.scenario ? null : para("note", "By the address alone: without its scenario the page knows of no links.");
  return part(title, table("Where it arrives", ["Node", "Actor", "How"], rows), note);
}

function bytesSection(history, k) {
  const length = history.length(k);
  const isLong = length > SHOWN_HEX;
  const attributes = { class: "bytes", tabindex: "0", "aria-label": "the bytes in hex" };
  const block = element("pre", attributes, history.hex(k, SHOWN_HEX) || "none", isLong ? "…" : null);
  const all = element("button", { type: "button" }, `Show all ${counted(length, "byte")}`);
  all.addEventListener("click", () => {
    block.textContent = history.hex(k);
    all.remove();
  });
  const line = `In the history: post ${k} from ${history.from[k]} actor ${history.actor[k]} to ${addressWord(history, k)}`;
  return part(`Bytes (${length.toLocaleString("en")})`, block, isLong ? all : null, para("note", line));
}

function contradiction(world, k) {
  const found = world.accused.find(({ posts }) => posts.includes(k));
  if (!found) return null;
  const [first, second] = found.posts;
  const link = element("a", { href: `#pair-${first}-${second}` }, "Show both side by side");
  return para("alarm", `Posts ${first} and ${second} of node ${found.node} contradict each other. `, link);
}

function restartNote(world, k) {
  const isRestart = world.restarts.some(({ posts }) => posts.includes(k));
  return isRestart ? para("warn", "Here the actor begins again, after a power stop that the scenario plans.") : null;
}

// Fills the panel with a post.
export function postPanel(world, k, why) {
  const { history } = world;
  const name = history.kindName(k);
  const lie = world.lieName(history.from[k]);
  const step = (at, text) => (at >= 0 && at < history.count ? element("a", { href: `#post-${at}` }, text) : null);
  return [
    element("h2", {}, chip(name), ` Post ${k}: ${name}`),
    para("steps", step(k - 1, "‹ previous"), " ", step(k + 1, "next ›")),
    para("meaning", meaningOf(name)),
    lie ? para("liar", `Node ${history.from[k]} is a liar (${lie}): it ${lieText(lie)}.`) : null,
    contradiction(world, k),
    restartNote(world, k),
    fieldTable(world, k, why.vote),
    whySection(world, k, why),
    reachSection(world, k),
    bytesSection(history, k),
  ];
}

// In what two posts contradict each other.
function contradictionText(history, first, second) {
  const [one, other] = [first, second].map((k) => history.vote(k));
  if (!one || !other || one.kind !== other.kind) return "";
  const when = one.round === undefined ? `epoch ${one.epoch}` : `epoch ${one.epoch}, round ${one.round}`;
  const differ = `Both are its ${one.kind} of ${when}, and they differ: it said two things where one may be said.`;
  if (one.kind !== "VAL") return differ;
  const isOneRoot = history.samePart(one.root, other.root);
  if (isOneRoot) return `Both are its shard of ${when} for node ${one.target}, and they differ.`;
  return `Both hand out shards of its batch of ${when}, but the roots differ: these are two batches.`;
}

// The rows of two posts side by side: a name, the two cells, and whether they differ.
function pairRows(history, pair) {
  const votes = pair.map((k) => history.vote(k));
  const plain = (name, read) => [name, pair.map(read), read(pair[0]) !== read(pair[1])];
  const rows = [
    plain("from", (k) => `node ${history.from[k]}, ${history.actorName(history.actor[k])}`),
    plain("to", (k) => addressText(history, k)), plain("kind", (k) => history.kindName(k)),
    plain("epoch", (k) => `${history.epoch[k]}`),
  ];
  if (!votes[0] || !votes[1] || votes[0].kind !== votes[1].kind) return rows;
  for (const field of kindNamed(votes[0].kind).fields) {
    const [one, other] = votes.map((vote) => vote[field]);
    const isSame = one.at === undefined ? JSON.stringify(one) === JSON.stringify(other) : history.samePart(one, other);
    rows.push([field, votes.map((vote) => fieldCell(history, vote, field)), !isSame]);
  }
  return rows;
}

function pairTable(history, pair) {
  const heads = pair.map((k) => head("col", postLink(history, k, `post ${k}`)));
  const rows = pairRows(history, pair).map(([name, cells, isOther]) => element("tr", { class: isOther ? "differs" : null },
    head("row", name, isOther ? " ≠" : ""), cells.map((cell) => element("td", {}, cell))));
  const caption = element("caption", {}, `Posts ${pair[0]} and ${pair[1]}`);
  return tableOf({ class: "pair" }, caption, row(head("col", "Part"), heads), rows);
}

const FOUND_BY = {
  program: "The program named these two posts (--accuse).",
  page: "This page found these two posts; the program's accusation is of another run, or was not asked for.",
};

// Fills the panel with two posts side by side; rows in which they differ are marked.
export function pairPanel(world, first, second) {
  const { history } = world;
  const node = history.from[first];
  const lie = world.lieName(node);
  return [
    element("h2", {}, `Node ${node} contradicts itself`),
    para("alarm", contradictionText(history, first, second)),
    para("", "A correct node says only one of these two. Only liars are accused."),
    lie ? para("liar", `By the scenario node ${node} is a liar (${lie}): it ${lieText(lie)}.`) : null,
    pairTable(history, [first, second]),
    para("note", FOUND_BY[world.accusedBy]),
  ];
}
