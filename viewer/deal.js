// The coins that are dealt before a run, by the stream of ChaCha20 (RFC 8439) with the run's seed as its key: of each round of
// each lane a polynomial, a share and a salt for each node, and the root of the tree over shares with salts.
import { times } from "./field.js";
import { treeRoot } from "./digest.js";

const CONSTANTS = [0x61707865, 0x3320646e, 0x79622d32, 0x6b206574];
const QUARTERS = [
  [0, 4, 8, 12], [1, 5, 9, 13], [2, 6, 10, 14], [3, 7, 11, 15], [0, 5, 10, 15], [1, 6, 11, 12], [2, 7, 8, 13], [3, 4, 9, 14],
];

const rotate = (word, by) => (word << by) | (word >>> (32 - by));

function quarter(words, [a, b, c, d]) {
  for (const [x, y, z, by] of [[a, b, d, 16], [c, d, b, 12], [a, b, d, 8], [c, d, b, 7]]) {
    words[x] = (words[x] + words[y]) | 0;
    words[z] = rotate(words[z] ^ words[x], by);
  }
}

// The sixteen words of a block of the stream.
function blockOf(key, number) {
  const start = Int32Array.from([...CONSTANTS, ...key, number, 0, 0, 0]);
  const words = start.slice();
  for (let i = 0; i < 10; i += 1) QUARTERS.forEach((places) => quarter(words, places));
  return words.map((word, i) => word + start[i]);
}

// The eight bytes of a number, the greatest first, as two words with the least byte first.
function keyOf(seed) {
  const bytes = new DataView(new ArrayBuffer(32));
  bytes.setBigUint64(0, BigInt(seed));
  return Array.from({ length: 8 }, (_, i) => bytes.getInt32(4 * i, true));
}

export class Deal {
  constructor(config) {
    this.config = config;
    this.key = keyOf(config.seed);
    this.coins = new Map();
  }

  // So many words of the round of a lane, from its first on.
  words(epoch, lane, round, count) {
    const { n, f, rounds } = this.config;
    const first = ((epoch * n + lane) * rounds + round) * (f + 1 + 4 * n);
    const found = [];
    let block = null;
    for (let place = first; place < first + count; place += 1) {
      if (block === null || place % 16 === 0) block = blockOf(this.key, Math.floor(place / 16));
      found.push(block[place % 16]);
    }
    return found;
  }

  // The coin: the lowest bit of the polynomial's value at 0.
  coin(epoch, lane, round) {
    const key = (epoch * 16 + lane) * 32 + round;
    if (!this.coins.has(key)) this.coins.set(key, this.words(epoch, lane, round, 1)[0] & 1);
    return this.coins.get(key);
  }

  // The root that is published for a round.
  root(epoch, lane, round) {
    const { n, f } = this.config;
    const words = this.words(epoch, lane, round, f + 1 + 4 * n);
    const leaves = Array.from({ length: n }, (_, node) => {
      const leaf = new Uint8Array(17);
      leaf[0] = shareOf(words.slice(0, f + 1), node + 1);
      const salt = new DataView(leaf.buffer, 1);
      for (let i = 0; i < 4; i += 1) salt.setInt32(4 * i, words[f + 1 + 4 * node + i], true);
      return leaf;
    });
    return treeRoot(leaves);
  }
}

// The value at a point of the polynomial whose coefficients are the low bytes of words.
function shareOf(words, point) {
  return words.reduceRight((sum, word) => times(sum, point) ^ (word & 255), 0);
}
