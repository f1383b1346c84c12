// On which earlier posts the votes of a desk rest: PROPOSE, NOMORE and CLOSED.
import { asks, holds } from "./scene.js";

// An epoch is open from the start if it is the first, and else once the one before is closed.
function opened(scene) {
  if (scene.epoch === 0) return [holds("epoch 0 is open from the start", true)];
  return [asks(`its own CLOSED of epoch ${scene.epoch - 1}`, 1, scene.ownVote("CLOSED", undefined, undefined, scene.epoch - 1))];
}

// The first DECIDED of each own lane.
function decisions(scene, bit) {
  const posts = [];
  for (let lane = 0; lane < scene.config.n; lane += 1) {
    posts.push(...scene.home(lane, (k) => scene.is(k, "DECIDED", undefined, bit)));
  }
  return posts;
}

export function restsOfPropose(scene) {
  const isOldest = "the batch has the oldest transactions that were submitted here and stand in no closed epoch";
  return [{ text: "", parts: [...opened(scene), holds(isOldest, true)] }];
}

export function restsOfNomore(scene) {
  const need = scene.config.n - scene.config.f;
  return [{ text: "", parts: [asks(`DECIDED 1 from n - f = ${need} lanes of its own node`, need, decisions(scene, 1))] }];
}

export function restsOfClosed(scene, vote) {
  const { history, config } = scene;
  const decided = decisions(scene);
  const parts = [...opened(scene), asks(`DECIDED from all ${config.n} lanes of its own node`, config.n, decided)];
  const accepted = decided.filter((k) => history.says[k] === 1).map((k) => history.actor[k]);
  const items = vote.items || accepted.map((node) => ({ node }));
  const delivered = [];
  for (const item of items) {
    const isValue = (k) => !item.value || history.samePart(history.vote(k).value, item.value);
    delivered.push(...scene.home(item.node, (k) => scene.is(k, "DELIVERED") && isValue(k)));
  }
  parts.push(asks(`DELIVERED from each lane that decided 1, with the batch that is listed`, items.length, delivered));
  if (vote.items) {
    const isList = accepted.join() === items.map((item) => item.node).join();
    parts.push(holds("the list has exactly the lanes that decided 1", isList));
  }
  return [{ text: "", parts }];
}
