// Tells in words what a scenario asks for: the liars, the links, the power stops and the faults of disks.

const LIES = {
  silent: "says nothing",
  equivocate: "hands out shards of two batches in its own lane: of one to even nodes, of another to odd ones",
  echo_split:
    "echoes the shard that it gets to even nodes alone, and tells odd ones that it is ready for a root that nobody sent",
  bval_both: "supports and accepts both bits in each round (BVAL 0 and 1, AUX 0 and 1)",
  false_share: "shows a share of the coin of its own making (a COIN whose branch leads nowhere)",
  babble: "sends back what it hears with a bit turned, and a byte that is no vote",
};

export function lieText(name) {
  return LIES[name] || "";
}

// The scenario's text as an object with all its lists, or null.
export function readScenario(text) {
  if (!text) return null;
  const lists = { submit: [], liars: [], links: [], stops: [], faults: [] };
  return { ...lists, ...JSON.parse(text) };
}

const SHAPES = {
  drop: "is dropped",
  twice: "comes twice",
  late: "comes late, when nothing else is left to deliver",
  once: "comes once",
};

function linkText(link) {
  const which = link.every === 1 ? "each post" : `each post whose number leaves ${link.at} when divided by ${link.every}`;
  const ends = [
    link.from === undefined ? "from any node" : `from node ${link.from}`,
    link.to === undefined ? "to any other node" : `to node ${link.to}`,
  ];
  return `Links: ${which} ${ends.join(" ")} ${SHAPES[link.shape]}.`;
}

const LEAVES = {
  old: "of what was written since the last sync nothing is left",
  new: "all that was written is left",
  torn: "of what was written since the last sync every other byte is spoilt",
};

// "the desk of node 1" or "lane 2 of node 1".
export function actorText(entry, n) {
  return `${entry.actor === n ? "the desk" : `lane ${entry.actor}`} of node ${entry.node}`;
}

// What a scenario plans, one sentence each.
export function planTexts(scenario) {
  const texts = [];
  for (const link of scenario.links) texts.push(linkText(link));
  for (const stop of scenario.stops) {
    texts.push(
      `Power: ${actorText(stop, scenario.nodes)} loses its power at call ${stop.call} of its disk; ${LEAVES[stop.leave]}.`,
    );
  }
  if (scenario.stops.length > 0) texts.push("What loses its power is restarted at once, from its disk.");
  for (const fault of scenario.faults) texts.push(
    `Disk: call ${fault.call} of the disk of ${actorText(fault, scenario.nodes)} fails.`,
  );
  return texts;
}
