// What the words mean: of each kind of vote, and of the other words of the page.

export const MEANINGS = new Map(Object.entries({
  PROPOSE: "The desk of a node hands a batch of its oldest transactions to the node's own lane.",
  VAL: "The sender of a broadcast hands one node its shard of the batch, with the root that commits to all shards.",
  ECHO: "A node passes on the shard that it got from the sender. n - f echoes for one root make a node ready.",
  READY: "A node says that the broadcast for this root will complete. 2f + 1 of them let a node deliver.",
  DELIVERED: "A lane has put the batch together from the shards, and gives it to its desk.",
  EST: "The estimate with which a lane begins a round of its agreement: the bit that it is for. It is sent to nobody.",
  BVAL: "A node supports a bit in a round. f + 1 of them make others support it too; 2f + 1 let a node accept it.",
  AUX: "A node accepts a bit in a round, since 2f + 1 nodes support it.",
  CONF: "In version 2: a node tells with which bits it is left, before it shows its share of the coin.",
  PICK: "The bits with which a lane is left in a round. It is sent to nobody.",
  COIN: "A node shows its share of the round's coin. f + 1 good shares make the coin, which is 0 or 1.",
  DECIDED: "A lane has decided: 1 accepts its node's batch for the epoch, 0 leaves it out.",
  NOMORE: "A desk wants no more lanes: n - f of them decided 1, so the others are now voted against.",
  CLOSED: "A desk closes the epoch with the batches of all lanes that decided 1: this is the ledger.",
  "no vote": "Bytes that spell no vote. Nobody heeds them.",
  node: "One of the n machines of the run. At most f of them may lie.",
  lane: "The part of a node that works on the batch of one node. Lane 2 of each node is for the batch that node 2 proposed.",
  desk: "The part of a node that proposes batches, hears what its lanes decided, and closes epochs.",
  epoch: "One entry of the ledger: a set of batches, one at most of each node.",
  round: "One turn of an agreement: support, accept, pick, coin.",
  coin: "A bit of each round, dealt before the run and put together from shares. A lane decides when it is the bit that it picked.",
  root: "The digest that commits to all shards of a batch: the root of a Merkle tree.",
  shard: "A piece of a batch. Any n - 2f shards give the batch back.",
  branch: "The digests that lead from a shard, or from a share of a coin, to the root.",
  batch: "The transactions that a node proposes for an epoch.",
  share: "A node's part of a coin. f + 1 of them give the coin.",
  salt: "Random bytes beside a share, so that it cannot be guessed.",
  target: "The node for which a shard is meant.",
  bit: "1 is for a lane's batch, 0 is against it.",
  bits: "The set of bits with which a lane is left.",
  value: "The bytes of a batch.",
  liar: "A node that may say anything. The scenario names it.",
  ended: "A node of which an actor has stopped for good, since its disk failed or memory ran out.",
  running: "A correct node of which no actor has ended.",
  "not begun": "The lane has said nothing in this epoch.",
  begun: "The lane has said something, but has not put the batch together, and has not decided.",
  delivered: "The lane has put the batch together, and has not decided yet.",
  "decided 1": "The lane decided that its node's batch counts in this epoch.",
  "decided 0": "The lane decided that its node's batch does not count in this epoch.",
  spent: "The lane went through all its rounds without a decision.",
  closed: "The desk has closed the epoch: its batches stand in the ledger.",
  audit: "The proved judge of a history: it says whether each post of a correct node was allowed by what stood before.",
  accused: "A node of which two own posts contradict each other. Only liars are accused.",
  late: "The post comes when nothing else is left to deliver.",
  dropped: "A link of the scenario loses the post on its way.",
}));

export function meaningOf(word) {
  return MEANINGS.get(word) || "";
}

// The colour of each kind of vote. They differ in lightness too, and a letter always stands beside them.
export const COLOURS = {
  PROPOSE: "#332288", VAL: "#0072b2", ECHO: "#56b4e9", READY: "#009e73", DELIVERED: "#00503c",
  EST: "#f0e442", BVAL: "#e69f00", AUX: "#d55e00", CONF: "#117733", PICK: "#f3b6cf", COIN: "#882255", DECIDED: "#c051a8",
  NOMORE: "#7a7a7a", CLOSED: "#111111", "no vote": "#ffffff",
};

// What is less important than other texts and lines.
export const FAINT = "#5c5c5c";

// How a marked row looks: the post that the audit names, one that contradicts another, and one with which an actor began again.
export const MARKS = {
  illegal: { line: "#b00020", ground: "#f6e6f8" },
  contradiction: { line: "#6a1b9a", ground: "#f6e6f8" },
  restart: { line: "#1565c0", ground: "#e3effa" },
};

// Whether a letter on this colour is dark or light, by the colour's lightness.
export function inkOn(colour) {
  const [red, green, blue] = [1, 3, 5].map((at) => parseInt(colour.slice(at, at + 2), 16));
  return 0.299 * red + 0.587 * green + 0.114 * blue > 140 ? "#111111" : "#ffffff";
}
