// The field of bytes: polynomials over bits modulo x^8 + x^4 + x^3 + x^2 + 1, and polynomials through given points.

const POWERS = new Uint8Array(510);
const LOGARITHMS = new Uint8Array(256);
for (let exponent = 0, power = 1; exponent < 255; exponent += 1) {
  POWERS[exponent] = power;
  POWERS[exponent + 255] = power;
  LOGARITHMS[power] = exponent;
  power = (power << 1) ^ (power & 0x80 ? 0x11d : 0);
}

export function times(a, b) {
  return a === 0 || b === 0 ? 0 : POWERS[LOGARITHMS[a] + LOGARITHMS[b]];
}

function over(a, b) {
  return a === 0 ? 0 : POWERS[LOGARITHMS[a] + 255 - LOGARITHMS[b]];
}

// The weights with which values at these points make the value at another point, on the polynomial through them.
export function weightsAt(points, x) {
  return points.map((point) => {
    let weight = 1;
    for (const other of points) if (other !== point) weight = times(weight, over(x ^ other, point ^ other));
    return weight;
  });
}

// All n shards of the codeword through k of them. Null where the shards differ in length.
export function completeShards(indices, shards, n) {
  const size = shards[0].length;
  if (shards.some((shard) => shard.length !== size)) return null;
  return Array.from({ length: n }, (_, m) => {
    const known = indices.indexOf(m);
    return known >= 0 ? shards[known] : shardAt(weightsAt(indices, m), shards, size);
  });
}

function shardAt(weights, shards, size) {
  const shard = new Uint8Array(size);
  for (let column = 0; column < size; column += 1) {
    for (let i = 0; i < shards.length; i += 1) shard[column] ^= times(weights[i], shards[i][column]);
  }
  return shard;
}

// The value of a codeword: its k data shards put together are a length of four bytes, the value, and fewer than k zeros.
// Shards that are no such frame carry the empty value.
export function valueOfShards(shards, k) {
  const size = shards[0].length;
  const frame = new Uint8Array(k * size);
  for (let piece = 0; piece < k; piece += 1) frame.set(shards[piece], piece * size);
  const view = new DataView(frame.buffer);
  const length = frame.length < 4 ? Infinity : view.getUint32(0);
  const isFrame = length <= 16514 && 4 + length <= frame.length && frame.length - 4 - length < k;
  const isPadded = isFrame && frame.subarray(4 + length).every((byte) => byte === 0);
  return isPadded ? frame.subarray(4, 4 + length) : new Uint8Array(0);
}

// The n shards of a value.
export function shardsOfValue(value, n, k) {
  const frame = new Uint8Array(k * Math.ceil((4 + value.length) / k));
  new DataView(frame.buffer).setUint32(0, value.length);
  frame.set(value, 4);
  const size = frame.length / k;
  const indices = Array.from({ length: k }, (_, piece) => piece);
  return completeShards(indices, indices.map((piece) => frame.subarray(piece * size, (piece + 1) * size)), n);
}
