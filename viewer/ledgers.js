// The ledgers of the nodes: the lists with which their desks closed the epochs, up to the first epoch that is not closed.
import { decodeBatch, hexOf } from "./votes.js";

// The ledger of a node: for each closed epoch its post, and the batches with their transactions in hex. Of each transaction
// it tells whether it stood before in this ledger.
export function ledgerOf(history, lanes, node) {
  const seen = new Set();
  const epochs = [];
  for (let epoch = 0; epoch < history.config.epochs; epoch += 1) {
    const post = lanes.closed(epoch, node);
    if (post < 0) break;
    epochs.push({ epoch, post, batches: history.vote(post).items.map((item) => batchOf(history, item, seen)) });
  }
  return epochs;
}

function batchOf(history, item, seen) {
  const transactions = decodeBatch(history.bytes, item.value).map((place) => {
    const hex = hexOf(history.bytes, place);
    const isKnown = seen.has(hex);
    seen.add(hex);
    return { hex, isKnown };
  });
  return { node: item.node, transactions };
}

// The lines that a run prints of a ledger.
export function ledgerLines(ledger) {
  const lines = [];
  for (const { epoch, batches } of ledger) {
    lines.push(`epoch ${epoch} batches ${batches.length}`);
    for (const { node, transactions } of batches) {
      lines.push(`batch ${node} txs ${transactions.length}`);
      for (const { hex, isKnown } of transactions) if (!isKnown) lines.push(`tx ${hex}`);
    }
  }
  return lines;
}

// The nodes in groups whose posts that closed an epoch have the same bytes.
export function equalClosings(history, lanes, epoch, nodes) {
  const groups = [];
  for (const node of nodes) {
    const post = lanes.closed(epoch, node);
    const group = groups.find(
      (other) => (post < 0 || other.post < 0 ? post === other.post : history.sameBytes(post, other.post)),
    );
    if (group) group.nodes.push(node);
    else groups.push({ post, nodes: [node] });
  }
  return groups;
}

// Bytes in hex, and behind it the text that they spell, if they spell one.
export function transactionText(hex) {
  const bytes = hex.match(/../g).map((pair) => parseInt(pair, 16));
  const isText = bytes.every((byte) => byte > 32 && byte < 127);
  const shown = hex.length > 48 ? `${hex.slice(0, 48)}…` : hex;
  return isText && bytes.length <= 24 ? `${shown} (“${String.fromCharCode(...bytes)}”)` : shown;
}
