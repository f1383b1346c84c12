// On which earlier posts the votes of an agreement rest: EST, BVAL, AUX, CONF, PICK, COIN and DECIDED.
import { asks, holds } from "./scene.js";
import { hasBit } from "./votes.js";

const BOTH = 3;
const setOf = (bit) => bit + 1;

// The coin of a round with the shares that this actor could hear.
function coinPart(scene, round, bit) {
  const { f } = scene.config;
  const coin = scene.world.coins.bit(scene.epoch, scene.actor, round);
  const heard = scene.world.coins.shares(scene.epoch, scene.actor, round).filter(
    (k) => k < scene.before && scene.world.reach.arrives(k, scene.node, scene.actor),
  );
  const parts = [asks(`good shares (COIN) of round ${round} from f + 1 = ${f + 1} nodes`, f + 1, heard)];
  if (bit !== null && heard.length > f) {
    parts.push(holds(`the coin of round ${round} is ${bit}; here it is ${coin}`, coin === bit));
  }
  return parts;
}

function begins(scene, vote) {
  if (vote.bit === 1) return [{ text: "", parts: [asks("its own DELIVERED", 1, scene.ownVote("DELIVERED"))] }];
  const wanted = scene.home(scene.config.n, (k) => scene.is(k, "NOMORE"));
  return [{ text: "", parts: [asks("the NOMORE of the node's own desk", 1, wanted)] }];
}

export function restsOfEst(scene, vote) {
  if (vote.round === 0) return begins(scene, vote);
  const before = vote.round - 1;
  const alone = [
    asks(`its own PICK of round ${before} with {${vote.bit}} alone`, 1, scene.ownVote("PICK", before, setOf(vote.bit))),
  ];
  const both = [asks(`its own PICK of round ${before} with both bits`, 1, scene.ownVote("PICK", before, BOTH))];
  return [
    { text: "by a picked bit", parts: [...alone, ...coinPart(scene, before, null)] },
    { text: "by the coin", parts: [...both, ...coinPart(scene, before, vote.bit)] },
  ];
}

export function restsOfBval(scene, vote) {
  const { f } = scene.config;
  const { round, bit } = vote;
  const supported = asks(
    `BVAL ${bit} of round ${round} from f + 1 = ${f + 1} nodes`,
    f + 1,
    scene.heardVotes("BVAL", round, bit),
  );
  return [
    { text: "by its own estimate", parts: [asks(`its own EST ${bit} of round ${round}`, 1, scene.ownVote("EST", round, bit))] },
    { text: "by others", parts: [asks(`its own EST of round ${round}`, 1, scene.ownVote("EST", round)), supported] },
  ];
}

function supports(scene, round, bit) {
  const need = 2 * scene.config.f + 1;
  return asks(`BVAL ${bit} of round ${round} from 2f + 1 = ${need} nodes`, need, scene.heardVotes("BVAL", round, bit));
}

export function restsOfAux(scene, vote) {
  const entered = asks(`its own EST of round ${vote.round}`, 1, scene.ownVote("EST", vote.round));
  return [{ text: "", parts: [entered, supports(scene, vote.round, vote.bit)] }];
}

// The bits with which a lane is left, by the votes of a kind of n - f nodes: AUX, or CONF after the confirm phase.
function left(scene, round, bits, kind) {
  const need = scene.config.n - scene.config.f;
  const saysBit = (k, bit) => (kind === "AUX" ? scene.history.says[k] === bit : hasBit(scene.history.says[k], bit));
  const parts = [asks(`its own ${kind} of round ${round}`, 1, scene.ownVote(kind, round))];
  const chosen = [0, 1].filter((bit) => hasBit(bits, bit));
  for (const bit of chosen) parts.push(supports(scene, round, bit));
  if (bits === BOTH) {
    for (const bit of chosen) {
      parts.push(
        asks(
          `${kind} with ${bit} from some node`,
          1,
          scene.heard((k) => scene.is(k, kind, round) && saysBit(k, bit)).slice(0, 1),
        ),
      );
    }
    parts.push(
      asks(`${kind} of round ${round} from n - f = ${need} nodes, with either bit`, need, scene.heardVotes(kind, round)),
    );
  } else {
    const says = kind === "AUX" ? chosen[0] : bits;
    parts.push(
      asks(
        `${kind} of round ${round} with ${chosen[0]} alone from n - f = ${need} nodes`,
        need,
        scene.heardVotes(kind, round, says),
      ),
    );
  }
  return parts;
}

export function restsOfConf(scene, vote) {
  return [{ text: "", parts: left(scene, vote.round, vote.bits, "AUX") }];
}

export function restsOfPick(scene, vote) {
  return [{ text: "", parts: left(scene, vote.round, vote.bits, scene.config.version === 2 ? "CONF" : "AUX") }];
}

export function restsOfCoin(scene, vote, k) {
  const parts = [asks(`its own PICK of round ${vote.round}`, 1, scene.ownVote("PICK", vote.round))];
  if (k !== undefined) {
    const root = scene.world.coins.deal.root(scene.epoch, scene.actor, vote.round);
    parts.push(
      holds(
        "the share, its salt and its branch lead to the root that was dealt for this round",
        scene.world.coins.isGood(k, root),
      ),
    );
  }
  return [{ text: "", parts }];
}

// A decision rests on a round in which the lane picked the bit alone and the coin is the bit. The votes on which that PICK
// rests are told too.
export function restsOfDecided(scene, vote) {
  const { rounds } = scene.config;
  const ways = [];
  for (let round = 0; round < rounds; round += 1) {
    const picked = scene.ownVote("PICK", round, setOf(vote.bit));
    if (picked.length > 0) {
      const others = left(scene, round, setOf(vote.bit), scene.config.version === 2 ? "CONF" : "AUX");
      const parts = [
        asks(`its own PICK of round ${round} with {${vote.bit}} alone`, 1, picked),
        ...coinPart(scene, round, vote.bit),
      ];
      ways.push({ text: `in round ${round}`, parts: [...parts, others[others.length - 1]] });
    }
  }
  if (ways.length > 0) return ways;
  return [{ text: "", parts: [asks(`its own PICK with {${vote.bit}} alone, of a round whose coin is ${vote.bit}`, 1, [])] }];
}
