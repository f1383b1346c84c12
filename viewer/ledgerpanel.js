// The ledgers of the nodes side by side, epoch by epoch; equal ones are folded into one with the nodes' names.
import { counted, element, fill, head, para, postLink, row, tableOf, unseenCaption } from "./dom.js";
import { equalClosings, ledgerLines, ledgerOf, transactionText } from "./ledgers.js";

// so many transactions of a batch are shown at once
const FEW = 8;

function transactionItem({ hex, isKnown }) {
  return element(
    "li",
    { class: isKnown ? "known" : null, title: hex.length > 48 ? hex : null },
    element("code", {}, transactionText(hex)),
    isKnown ? " stood before" : "",
  );
}

function batchItem({ node, transactions }) {
  const title = `batch of node ${node}: ${counted(transactions.length, "transaction")}`;
  if (transactions.length === 0) return element("li", {}, title);
  if (transactions.length <= FEW) return element("li", {}, title, element("ul", {}, transactions.map(transactionItem)));
  const list = element("ul", {});
  const details = element("details", {}, element("summary", {}, title), list);
  details.addEventListener("toggle", () => {
    if (list.childElementCount === 0) list.append(...transactions.map(transactionItem));
  });
  return element("li", {}, details);
}

function names(nodes) {
  return nodes.length === 1 ? `Node ${nodes[0]}` : `Nodes ${nodes.slice(0, -1).join(", ")} and ${nodes[nodes.length - 1]}`;
}

function cellOf(world, ledgers, group, epoch) {
  if (group.post < 0) {
    const link = element("a", { href: `#desk-${epoch}-${group.nodes[0]}` }, "What is lacking");
    return element("td", { class: "open" }, "not closed. ", link);
  }
  const entry = ledgers.get(group.nodes[0])[epoch];
  const link = postLink(world.history, group.post);
  if (!entry) return element("td", {}, "closed, but an epoch before it is not: ", link);
  return element("td", {}, para("", "closed with ", link), element("ul", { class: "batches" }, entry.batches.map(batchItem)));
}

function epochSection(world, ledgers, epoch, nodes) {
  const groups = equalClosings(world.history, world.lanes, epoch, nodes);
  const isEqual = (group) => group.nodes.length > 1 && group.post >= 0;
  const heads = groups.map((group) => head("col", names(group.nodes), isEqual(group) ? element("small", {}, " (equal)") : null));
  const cells = groups.map((group) => cellOf(world, ledgers, group, epoch));
  const lists = tableOf({}, unseenCaption(`Ledgers of epoch ${epoch}`), row(heads), row(cells));
  return element("section", { class: "ledger" }, element("h3", {}, `Epoch ${epoch}`), lists);
}

// Where the printed ledgers of the same run differ from those in the posts, the page says so.
function difference(world, ledgers, nodes) {
  if (!world.run || (world.scenario && world.scenario.workers > 0)) return null;
  const others = nodes.filter((node) => world.run.nodes[node].lines.join() !== ledgerLines(ledgers.get(node)).join());
  return others.length === 0 ? null : para("alarm", `The ledgers printed by the run differ from these for ${names(others)}.`);
}

export function fillLedgers(section, world) {
  const { config, history } = world;
  const nodes = Array.from({ length: config.n }, (_, node) => node).filter((node) => !history.isLiar(node));
  const ledgers = new Map(nodes.map((node) => [node, ledgerOf(history, world.lanes, node)]));
  const liars = config.liars.length > 0 ? ` Nothing is shown of liars: ${names(config.liars).toLowerCase()} may say anything.` : "";
  fill(section, [
    element("h2", {}, "Ledgers"),
    para("", `What the desks of the correct nodes closed. Equal lists stand in one column.${liars}`),
    difference(world, ledgers, nodes),
    Array.from({ length: config.epochs }, (_, epoch) => epochSection(world, ledgers, epoch, nodes)),
  ]);
}
