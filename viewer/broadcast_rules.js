// On which earlier posts the votes of a broadcast rest: VAL, ECHO, READY and DELIVERED.
import { asks, holds } from "./scene.js";
import { foldBranch, sameBytes, treeRoot } from "./digest.js";
import { completeShards, shardsOfValue, valueOfShards } from "./field.js";

const bytesAt = (history, place) => history.bytes.subarray(place.at, place.at + place.length);
const dataCount = (config) => config.n - 2 * config.f;

// Whether a shard's branch leads to the root that a vote names.
function leadsToRoot(history, index, vote) {
  const root = foldBranch(index, bytesAt(history, vote.shard), history.bytes, vote.branch);
  return sameBytes(root, bytesAt(history, vote.root));
}

// Of each node the first ECHO for a root whose shard leads to it.
export function validEchoes(scene, root) {
  const { history } = scene;
  return scene.heard((k) => {
    if (!scene.is(k, "ECHO")) return false;
    const vote = history.vote(k);
    return history.samePart(vote.root, root) && leadsToRoot(history, history.from[k], vote);
  });
}

export function readies(scene, root) {
  return scene.heard((k) => scene.is(k, "READY") && scene.history.samePart(scene.history.vote(k).root, root));
}

// All shards of the codeword through the shards of the first k of these ECHOes, or null.
function rebuilt(scene, echoes) {
  const { history, config } = scene;
  const k = dataCount(config);
  if (echoes.length < k) return null;
  const used = echoes.slice(0, k);
  const shards = used.map((post) => bytesAt(history, history.vote(post).shard));
  return completeShards(used.map((post) => history.from[post]), shards, config.n);
}

function rebuildsTo(scene, echoes, root) {
  const shards = rebuilt(scene, echoes);
  return shards !== null && sameBytes(treeRoot(shards), bytesAt(scene.history, root));
}

export function restsOfVal(scene, vote) {
  const { history, config } = scene;
  const proposals = scene.home(config.n, (k) => scene.is(k, "PROPOSE"));
  const parts = [
    holds("the lane is the node's own: a node hands out shards in its own lane alone", scene.actor === scene.node),
    asks("the PROPOSE of the node's own desk in this epoch", 1, proposals),
  ];
  if (proposals.length > 0) {
    const value = bytesAt(history, history.vote(proposals[0]).value);
    const shards = shardsOfValue(value, config.n, dataCount(config));
    const isShard = sameBytes(shards[vote.target], bytesAt(history, vote.shard));
    parts.push(holds("shard, branch and root are those of what the desk proposed", isShard
      && sameBytes(treeRoot(shards), bytesAt(history, vote.root)) && leadsToRoot(history, vote.target, vote)));
  }
  return [{ text: "", parts }];
}

export function restsOfEcho(scene, vote) {
  const { history } = scene;
  const sent = scene.heard((k) => {
    if (!scene.is(k, "VAL") || history.from[k] !== scene.actor || history.says[k] !== scene.node) return false;
    const other = history.vote(k);
    return ["root", "shard", "branch"].every((part) => history.samePart(other[part], vote[part]));
  });
  return [{ text: "", parts: [
    asks(`the VAL of node ${scene.actor} to this node, with the same shard and root`, 1, sent),
    holds("the branch leads from the shard to the root", leadsToRoot(history, scene.node, vote)),
  ] }];
}

export function restsOfReady(scene, vote) {
  const { n, f } = scene.config;
  const echoes = validEchoes(scene, vote.root);
  const byEchoes = [asks(`ECHO for this root from n - f = ${n - f} nodes, with branches that lead to it`, n - f, echoes)];
  if (echoes.length >= n - f) {
    byEchoes.push(holds("the shards of these ECHOes rebuild to the root", rebuildsTo(scene, echoes, vote.root)));
  }
  const byReadies = [asks(`READY for this root from f + 1 = ${f + 1} nodes`, f + 1, readies(scene, vote.root))];
  return [{ text: "by echoes", parts: byEchoes }, { text: "by others that are ready", parts: byReadies }];
}

// The root for which most nodes are ready, and else the one that most echo; null where there is none.
export function leadingRoot(scene) {
  const roots = [];
  for (const kind of ["READY", "ECHO", "VAL"]) {
    for (const k of scene.heardVotes(kind)) {
      const { root } = scene.history.vote(k);
      const known = roots.find((other) => scene.history.samePart(other.root, root));
      const weight = { READY: 1000, ECHO: 10, VAL: 1 }[kind];
      if (known) known.weight += weight;
      else roots.push({ root, weight });
    }
  }
  roots.sort((one, other) => other.weight - one.weight);
  return roots.length > 0 ? roots[0].root : null;
}

export function restsOfDelivered(scene, vote) {
  const { f } = scene.config;
  const k = dataCount(scene.config);
  const root = leadingRoot(scene);
  const ready = root === null ? [] : readies(scene, root);
  const parts = [asks(`READY for one root from 2f + 1 = ${2 * f + 1} nodes`, 2 * f + 1, ready)];
  if (root === null) return [{ text: "", parts }];
  const echoes = validEchoes(scene, root);
  parts.push(asks(`ECHO for that root from n - 2f = ${k} nodes, whose shards give the value`, k, echoes));
  const shards = vote.value ? rebuilt(scene, echoes) : null;
  if (shards !== null) {
    const isValue = sameBytes(valueOfShards(shards, k), bytesAt(scene.history, vote.value));
    parts.push(holds("the value is the one that these shards give", isValue && rebuildsTo(scene, echoes, root)));
  }
  return [{ text: "", parts }];
}
