// SHA-256 (FIPS 180-4), and the digest that a branch of a Merkle tree leads to.

// The first 32 bits of the fractional parts of a root of each of the first primes.
function fractions(count, power) {
  const words = [];
  for (let candidate = 2; words.length < count; candidate += 1) {
    let isPrime = true;
    for (let d = 2; d * d <= candidate; d += 1) if (candidate % d === 0) isPrime = false;
    if (isPrime) words.push(Math.floor((candidate ** power % 1) * 2 ** 32) | 0);
  }
  return words;
}

const CONSTANTS = Int32Array.from(fractions(64, 1 / 3));
const START = Int32Array.from(fractions(8, 1 / 2));
const WORDS = new Int32Array(64);

const rotate = (word, by) => (word >>> by) | (word << (32 - by));

function spreadWords(block, at) {
  for (let i = 0; i < 16; i += 1) {
    const p = at + 4 * i;
    WORDS[i] = (block[p] << 24) | (block[p + 1] << 16) | (block[p + 2] << 8) | block[p + 3];
  }
  for (let i = 16; i < 64; i += 1) {
    const a = WORDS[i - 15];
    const b = WORDS[i - 2];
    const low = rotate(a, 7) ^ rotate(a, 18) ^ (a >>> 3);
    const high = rotate(b, 17) ^ rotate(b, 19) ^ (b >>> 10);
    WORDS[i] = (WORDS[i - 16] + low + WORDS[i - 7] + high) | 0;
  }
}

// One block. Plain variables: lists that are taken apart would make this many times slower.
function compress(state, block, at) {
  spreadWords(block, at);
  let a = state[0];
  let b = state[1];
  let c = state[2];
  let d = state[3];
  let e = state[4];
  let f = state[5];
  let g = state[6];
  let h = state[7];
  for (let i = 0; i < 64; i += 1) {
    const one = (h + (rotate(e, 6) ^ rotate(e, 11) ^ rotate(e, 25)) + ((e & f) ^ (~e & g)) + CONSTANTS[i] + WORDS[i]) | 0;
    const two = ((rotate(a, 2) ^ rotate(a, 13) ^ rotate(a, 22)) + ((a & b) ^ (a & c) ^ (b & c))) | 0;
    h = g;
    g = f;
    f = e;
    e = (d + one) | 0;
    d = c;
    c = b;
    b = a;
    a = (one + two) | 0;
  }
  state[0] += a;
  state[1] += b;
  state[2] += c;
  state[3] += d;
  state[4] += e;
  state[5] += f;
  state[6] += g;
  state[7] += h;
}

export function sha256(message) {
  const padded = new Uint8Array(64 * Math.ceil((message.length + 9) / 64));
  padded.set(message);
  padded[message.length] = 0x80;
  const bits = message.length * 8;
  for (let i = 0; i < 4; i += 1) padded[padded.length - 1 - i] = bits >>> (8 * i);
  const state = START.slice();
  for (let at = 0; at < padded.length; at += 64) compress(state, padded, at);
  const digest = new Uint8Array(32);
  for (let i = 0; i < 32; i += 1) digest[i] = state[i >> 2] >>> (24 - 8 * (i & 3));
  return digest;
}

// The digest of a leaf at an index, and of two digests side by side.
function leafDigest(index, leaf) {
  const text = new Uint8Array(leaf.length + 2);
  text[1] = index;
  text.set(leaf, 2);
  return sha256(text);
}

function pairDigest(left, right) {
  const pair = new Uint8Array(65);
  pair[0] = 1;
  pair.set(left, 1);
  pair.set(right, 33);
  return sha256(pair);
}

// The root of the tree over leaves; the places up to the next power of two hold zeros.
export function treeRoot(leaves) {
  let level = leaves.map((leaf, index) => leafDigest(index, leaf));
  while (level.length & (level.length - 1)) level.push(new Uint8Array(32));
  while (level.length > 1) {
    const next = [];
    for (let i = 0; i < level.length; i += 2) next.push(pairDigest(level[i], level[i + 1]));
    level = next;
  }
  return level[0];
}

// The root to which a branch leads from a leaf at an index; the branch is a place in the bytes.
export function foldBranch(index, leaf, bytes, branch) {
  let digest = leafDigest(index, leaf);
  for (let level = 0; level < branch.length / 32; level += 1) {
    const at = branch.at + 32 * level;
    const sibling = bytes.subarray(at, at + 32);
    const isLeft = ((index >> level) & 1) === 0;
    digest = isLeft ? pairDigest(digest, sibling) : pairDigest(sibling, digest);
  }
  return digest;
}

export function sameBytes(one, other) {
  return one.length === other.length && one.every((byte, i) => byte === other[i]);
}
