// Reads the texts that the program printed of a run: the verdict of the audit, the accusation, and the states of the nodes.

// {legal: true, posts} or {legal: false, post}; null where the history was not audited, or refused.
export function readVerdict(text) {
  const found = /^(legal|illegal) (\d+)$/m.exec(text || "");
  if (!found) return null;
  const number = Number(found[2]);
  return found[1] === "legal" ? { legal: true, posts: number } : { legal: false, post: number };
}

// The accused nodes with their two posts; null where there is no such text.
export function readAccusation(text) {
  if (!text) return null;
  return [...text.matchAll(/^accused (\d+) posts (\d+) (\d+)$/gm)].map((found) => {
    const [node, first, second] = found.slice(1).map(Number);
    return { node, posts: [first, second] };
  });
}

// Of each node its state, the actors that ended with the cause, and the lines of its ledger; and the status of the run.
export function readRun(text) {
  if (!text) return null;
  const nodes = [];
  let status = null;
  for (const line of text.split("\n")) {
    const node = /^node (\d+) (running|ended|liar)$/.exec(line);
    const actor = /^actor (\d+) (memory|journal|full)$/.exec(line);
    const end = /^end (\d+)$/.exec(line);
    if (node) nodes.push({ state: node[2], ended: [], lines: [] });
    else if (actor) nodes[nodes.length - 1].ended.push({ actor: Number(actor[1]), cause: actor[2] });
    else if (end) status = Number(end[1]);
    else if (nodes.length > 0 && line !== "") nodes[nodes.length - 1].lines.push(line);
  }
  return { nodes, status };
}

const CAUSES = {
  memory: "found no memory",
  journal: "could not keep its journal: a call of its disk failed",
  full: "found the book of posts full",
};

export function causeText(cause) {
  return CAUSES[cause];
}

const STATUSES = new Map([
  [0, "each node that runs closed the last epoch"],
  [4, "a node that runs has not closed the last epoch"],
  [5, "a lane went through all its rounds without a decision"],
  [9, "memory ran out"],
]);

export function statusText(status) {
  return STATUSES.get(status) || "";
}
