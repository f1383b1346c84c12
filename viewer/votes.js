// Decodes votes: the bytes of a post, by the byte format. Each vote has one spelling, so equal votes have equal bytes.
// A decoded vote tells where its parts stand in the bytes; nothing is copied.

// The kinds of votes, by the first byte. The group says which part of the protocol casts it; `where` names the fields
// that come behind kind and epoch.
export const KINDS = new Map([
  [0x10, { name: "PROPOSE", letter: "P", group: "desk", fields: ["value"] }],
  [0x01, { name: "VAL", letter: "V", group: "broadcast", fields: ["target", "root", "shard", "branch"] }],
  [0x02, { name: "ECHO", letter: "E", group: "broadcast", fields: ["root", "shard", "branch"] }],
  [0x03, { name: "READY", letter: "R", group: "broadcast", fields: ["root"] }],
  [0x04, { name: "DELIVERED", letter: "L", group: "broadcast", fields: ["value"] }],
  [0x05, { name: "EST", letter: "T", group: "agreement", fields: ["round", "bit"] }],
  [0x06, { name: "BVAL", letter: "B", group: "agreement", fields: ["round", "bit"] }],
  [0x07, { name: "AUX", letter: "A", group: "agreement", fields: ["round", "bit"] }],
  [0x0b, { name: "CONF", letter: "F", group: "agreement", fields: ["round", "bits"] }],
  [0x08, { name: "PICK", letter: "K", group: "agreement", fields: ["round", "bits"] }],
  [0x09, { name: "COIN", letter: "C", group: "agreement", fields: ["round", "share", "salt", "branch"] }],
  [0x0a, { name: "DECIDED", letter: "D", group: "agreement", fields: ["bit"] }],
  [0x11, { name: "NOMORE", letter: "N", group: "desk", fields: [] }],
  [0x12, { name: "CLOSED", letter: "S", group: "desk", fields: ["items"] }],
]);

// How bytes are shown that spell no vote.
export const NO_VOTE = { name: "no vote", letter: "?", group: "none", fields: [] };

const MOST_EPOCHS = 32;
const MOST_ROUNDS = 32;
const LONGEST_VALUE = 16514;
const LONGEST_SHARD = 16520;

// How many digests a branch has among n leaves: the least h with 2^h >= n.
export function branchHeight(n) {
  let height = 0;
  while (1 << height < n) height += 1;
  return height;
}

// Reads fields from left to right; after a fault `failed` stays true.
class Cursor {
  constructor(bytes, at, end, n) {
    Object.assign(this, { bytes, at, end, n, failed: false });
  }

  // One byte below a limit.
  below(limit) {
    const byte = this.at < this.end ? this.bytes[this.at] : limit;
    this.at += 1;
    if (byte >= limit) this.failed = true;
    return byte;
  }

  // So many bytes, of which the place is answered.
  skip(count) {
    const place = { at: this.at, length: count };
    this.at += count;
    if (this.at > this.end) this.failed = true;
    return place;
  }

  // A length of four bytes, between two limits, and so many bytes.
  counted(least, most) {
    let length = 0;
    for (let i = 0; i < 4; i += 1) length = length * 256 + this.below(256);
    if (this.failed || length < least || length > most) this.failed = true;
    return this.skip(this.failed ? 0 : length);
  }

  branch() {
    return this.skip(32 * branchHeight(this.n));
  }

  // The batches of a CLOSED: a count, and for each a node and a value. The nodes rise.
  items() {
    const items = [];
    const count = this.below(this.n + 1);
    let least = 0;
    for (let i = 0; i < count && !this.failed; i += 1) {
      const node = this.below(this.n);
      if (node < least) this.failed = true;
      least = node + 1;
      items.push({ node, value: this.counted(0, LONGEST_VALUE) });
    }
    return items;
  }
}

// Reads one field by its name.
const FIELD_READERS = {
  target: (cursor) => cursor.below(cursor.n),
  root: (cursor) => cursor.skip(32),
  shard: (cursor) => cursor.counted(1, LONGEST_SHARD),
  branch: (cursor) => cursor.branch(),
  value: (cursor) => cursor.counted(0, LONGEST_VALUE),
  round: (cursor) => cursor.below(MOST_ROUNDS),
  bit: (cursor) => cursor.below(2),
  bits: (cursor) => readBits(cursor),
  share: (cursor) => cursor.below(256),
  salt: (cursor) => cursor.skip(16),
  items: (cursor) => cursor.items(),
};

// A set of bits: 1 for {0}, 2 for {1}, 3 for both.
function readBits(cursor) {
  const byte = cursor.below(4);
  if (byte === 0) cursor.failed = true;
  return byte;
}

// The vote that the bytes from `at` to `end` spell, or null. CONF is a vote of version 2 alone.
export function decodeVote(bytes, at, end, n, version) {
  const code = at < end ? bytes[at] : 0;
  const kind = KINDS.get(code);
  if (!kind || (kind.name === "CONF" && version !== 2)) return null;
  const cursor = new Cursor(bytes, at + 1, end, n);
  const vote = { kind: kind.name, epoch: cursor.below(MOST_EPOCHS) };
  for (const field of kind.fields) vote[field] = FIELD_READERS[field](cursor);
  return cursor.failed || cursor.at !== end ? null : vote;
}

// The transactions of a batch, as places in the bytes. Bytes that are no batch have none.
export function decodeBatch(bytes, place) {
  const end = place.at + place.length;
  const two = (at) => (at + 2 <= end ? bytes[at] * 256 + bytes[at + 1] : -1);
  const count = two(place.at);
  if (count < 0 || count > 64) return [];
  const transactions = [];
  let at = place.at + 2;
  for (let i = 0; i < count; i += 1) {
    const length = two(at);
    if (length < 1 || length > 256 || at + 2 + length > end) return [];
    transactions.push({ at: at + 2, length });
    at += 2 + length;
  }
  return at === end ? transactions : [];
}

// The name of a set of bits, and whether a bit is in it.
export function bitsText(bits) {
  return ["", "{0}", "{1}", "both"][bits];
}

export function hasBit(bits, bit) {
  return (bits & (1 << bit)) !== 0;
}

export function hexOf(bytes, place, most = Infinity) {
  const count = Math.min(place.length, most);
  let text = "";
  for (let i = 0; i < count; i += 1) text += bytes[place.at + i].toString(16).padStart(2, "0");
  return text;
}

// The vote in words: digests by their first eight hex digits, shards and values by length.
export function voteText(bytes, vote) {
  if (!vote) return "no vote";
  const words = [vote.kind, `epoch ${vote.epoch}`];
  for (const field of kindNamed(vote.kind).fields) words.push(fieldText(bytes, field, vote[field]));
  return words.join(" ");
}

function fieldText(bytes, field, part) {
  if (field === "bits") return `bits ${[0, 1].filter((bit) => hasBit(part, bit)).join(" ")}`;
  if (field === "items") return [
    `values ${part.length}`,
    ...part.map((item) => `node ${item.node} value length ${item.value.length}`),
  ].join(" ");
  if (field === "root" || field === "salt") return `${field} ${hexOf(bytes, part, 4)}`;
  if (field === "branch") return `branch ${branchText(bytes, part)}`;
  return typeof part === "number" ? `${field} ${part}` : `${field} length ${part.length}`;
}

// The digests of a branch from the bottom up, or a dash where there is none.
function branchText(bytes, branch) {
  const starts = Array.from({ length: branch.length / 32 }, (_, level) => ({ at: branch.at + 32 * level, length: 4 }));
  return starts.map((start) => hexOf(bytes, start)).join(" ") || "-";
}

const BY_NAME = new Map([...KINDS.values()].map((kind) => [kind.name, kind]));

export function kindNamed(name) {
  return BY_NAME.get(name) || NO_VOTE;
}

// The kinds in the order in which they are listed, and the place of a name in it; bytes that are no vote come last.
export const KIND_LIST = [...KINDS.values(), NO_VOTE];
export const KIND_PLACES = new Map(KIND_LIST.map((kind, place) => [kind.name, place]));
