// What liars did that a correct node would not have been allowed to, by the rules as this page illustrates them.

// How long one piece of the search may take, in milliseconds.
const PIECE = 12;

// Of each kind of vote the first post of a node that breaks a rule, as [kind, post]; in pieces, so that the page stays quick.
export async function brokenRules(world, node) {
  const { history } = world;
  const found = new Map();
  let began = performance.now();
  for (let k = 0; k < history.count; k += 1) {
    if (history.from[k] === node && !found.has(history.kind[k]) && !world.rules.why(k).met) found.set(history.kind[k], k);
    if (k % 64 === 0 && performance.now() - began > PIECE) {
      await new Promise((resume) => {
        setTimeout(resume);
      });
      began = performance.now();
    }
  }
  return [...found.values()];
}
