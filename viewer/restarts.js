// Where the actors that the scenario stops began again: a restarted actor posts once more all that its journal has.

// The posts of an actor that have what its first one had: with each of them it began again.
function beginnings(history, node, actor) {
  const own = [];
  for (let k = 0; k < history.count; k += 1) if (history.from[k] === node && history.actor[k] === actor) own.push(k);
  return own.slice(1).filter((k) => history.sameBytes(own[0], k));
}

// Each actor of a correct node that the scenario stops, with the posts with which it began again. There is none where it had
// posted nothing before, or where the call at which it was to stop never came.
export function plannedRestarts(history, scenario) {
  const actors = new Map();
  for (const { node, actor } of scenario ? scenario.stops : []) {
    if (!history.isLiar(node)) actors.set(`${node} ${actor}`, { node, actor });
  }
  return [...actors.values()].map(({ node, actor }) => ({ node, actor, posts: beginnings(history, node, actor) }));
}
