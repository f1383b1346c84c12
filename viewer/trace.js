// Reads the text of a history: its first line, a line for each post, and the line `end`. It takes the text piece by piece
// and keeps the bytes of all posts once, in one block. At the first line that is none it stops, and keeps what came before.

const LONGEST_HEAD = 200;
const HEAD = new RegExp(
  "^trace nodes (N) faulty (N) version (N) epochs (N) rounds (N) batch (N) seed (N) liars (N)$".replaceAll("N", "0|[1-9][0-9]*"),
);
export const TO_BOOK = 0;
export const TO_HOME = 1;
export const TO_ALL = 2;
export const TO_NODE = 3;

const codes = (text) => Uint8Array.from(text, (letter) => letter.charCodeAt(0));
const POST = codes("post ");
const FROM = codes(" from ");
const ACTOR = codes(" actor ");
const TO = codes(" to ");
const ADDRESSES = [codes("book "), codes("home "), codes("all "), codes("node ")];
const END = codes("end ");
const BLANK = codes(" ");
const NEW_LINE = 10;
const DASH = 45;

// The value of each hex digit in lower case; 255 for all other bytes.
const HEX_VALUES = new Uint8Array(256).fill(255);
[..."0123456789abcdef"].forEach((digit, value) => {
  HEX_VALUES[digit.charCodeAt(0)] = value;
});

// The numbers of the first line, or null where they make no run.
export function readHead(line) {
  const found = HEAD.exec(line);
  if (!found) return null;
  const [n, f, version, epochs, rounds, batch] = found.slice(1, 7).map(Number);
  const seed = found[7];
  const liars = [];
  for (let node = 0; node < 16; node += 1) if ((Number(found[8]) >> node) & 1) liars.push(node);
  const inside = (value, least, most) => value >= least && value <= most;
  const isSound =
    inside(n, 1, 16) && inside(f, 0, 5) && n > 3 * f && inside(version, 1, 2) && inside(epochs, 1, 32)
    && inside(rounds, 1, 32) && inside(batch, 1, 64) && BigInt(seed) < 2n ** 64n && Number(found[8]) < 65536
    && liars.length <= f && liars.every((node) => node < n);
  return isSound ? { n, f, version, epochs, rounds, batch, seed, liars } : null;
}

// A list of numbers that grows.
class Growing {
  constructor(Kind, room) {
    this.items = new Kind(room);
    this.length = 0;
  }

  // Makes room for so many more.
  reserve(more) {
    if (this.length + more <= this.items.length) return;
    const wider = new this.items.constructor(Math.max(2 * this.items.length, this.length + more));
    wider.set(this.items.subarray(0, this.length));
    this.items = wider;
  }

  push(item) {
    this.reserve(1);
    this.items[this.length] = item;
    this.length += 1;
  }

  take() {
    return this.items.subarray(0, this.length);
  }
}

export class TraceReader {
  // `expected` is how many bytes the text will have, as far as that is known.
  constructor(expected = 4096) {
    this.config = null;
    this.line = 0;
    this.fault = null;
    this.isEnded = false;
    this.carry = new Uint8Array(0);
    this.bytes = new Growing(Uint8Array, (expected >> 1) + 16);
    this.offsets = new Growing(Uint32Array, 4096);
    this.offsets.push(0);
    this.columns = ["from", "actor", "toKind", "toNode"].map(() => new Growing(Uint8Array, 4096));
  }

  get count() {
    return this.offsets.length - 1;
  }

  // Takes the next bytes of the text.
  push(chunk) {
    let start = 0;
    let text = chunk;
    if (this.carry.length > 0) {
      text = new Uint8Array(this.carry.length + chunk.length);
      text.set(this.carry);
      text.set(chunk, this.carry.length);
    }
    while (!this.fault) {
      const end = text.indexOf(NEW_LINE, start);
      if (end < 0) break;
      this.readLine(text, start, end);
      start = end + 1;
    }
    this.carry = this.fault ? new Uint8Array(0) : text.slice(start);
  }

  // Ends the reading: a last line that has no end is none, and so is one that is missing.
  finish() {
    if (this.fault) return;
    const isLeft = this.carry.length > 0;
    if (this.isEnded && !isLeft) return;
    this.line += 1;
    const wanted = this.config ? `"post ${this.count} ..." or "end ${this.count}"` : 'the first line, "trace nodes ..."';
    const reason = this.isEnded ? "there is more behind the end" : `the text is cut off: here should stand ${wanted}`;
    this.fail(reason, this.carry, 0, this.carry.length);
  }

  fail(reason, text, start, end) {
    const shown = String.fromCharCode(...text.subarray(start, Math.min(end, start + 160)));
    this.fault = { line: this.line, reason, text: end - start > 160 ? `${shown} ...` : shown };
  }

  readLine(text, start, end) {
    this.line += 1;
    if (this.isEnded) this.fail("there is more behind the end", text, start, end);
    else if (!this.config) this.readFirst(text, start, end);
    else if (text[start] === END[0]) this.readEnd(text, start, end);
    else this.readPost(text, start, end);
  }

  readFirst(text, start, end) {
    const line = end - start > LONGEST_HEAD ? "" : String.fromCharCode(...text.subarray(start, end));
    this.config = readHead(line);
    if (!this.config) this.fail("this is not the first line of a history, or its numbers make no run", text, start, end);
  }

  readEnd(text, start, end) {
    this.isEnded = String.fromCharCode(...text.subarray(start, Math.min(end, start + 20))) === `end ${this.count}`;
    if (!this.isEnded) this.fail(`the last line should be "end ${this.count}"`, text, start, end);
  }

  // Reads the line of a post; nothing is kept of a line that is none.
  readPost(text, start, end) {
    const line = new LineCursor(text, start, end);
    line.word(POST);
    const number = line.number(0xffffffff);
    if (number !== this.count) line.fail(`post ${this.count} should stand here`);
    line.word(FROM);
    const from = line.number(255);
    line.word(ACTOR);
    const actor = line.number(255);
    line.word(TO);
    const address = line.address();
    if (!line.failed) this.readBytes(line);
    if (line.failed) {
      this.fail(line.failed, text, start, end);
      return;
    }
    [from, actor, address.kind, address.node].forEach((item, place) => this.columns[place].push(item));
    this.offsets.push(this.bytes.length);
  }

  // Reads the hex at the end of a line into the block.
  readBytes(line) {
    const { text, at, end } = line;
    if (end === at + 1 && text[at] === DASH) return;
    if (end === at || (end - at) % 2 === 1) {
      line.fail("the bytes are no hex: two digits for each byte, or a dash");
      return;
    }
    this.bytes.reserve((end - at) / 2);
    const { items } = this.bytes;
    let place = this.bytes.length;
    let wrong = 0;
    for (let i = at; i < end; i += 2) {
      const high = HEX_VALUES[text[i]];
      const low = HEX_VALUES[text[i + 1]];
      wrong |= high | low;
      items[place] = (high << 4) | low;
      place += 1;
    }
    if (wrong > 15) line.fail("the bytes are no hex in lower case");
    else this.bytes.length = place;
  }

  // The tables that were read.
  tables() {
    const [from, actor, toKind, toNode] = this.columns.map((column) => column.take());
    return { count: this.count, bytes: this.bytes.take(), offsets: this.offsets.take(), from, actor, toKind, toNode };
  }
}

// Reads the words of a line from left to right.
class LineCursor {
  constructor(text, start, end) {
    Object.assign(this, { text, at: start, end, failed: null });
  }

  fail(reason) {
    this.failed = this.failed || reason;
  }

  begins(word) {
    if (this.at + word.length > this.end) return false;
    for (let i = 0; i < word.length; i += 1) if (this.text[this.at + i] !== word[i]) return false;
    return true;
  }

  word(word) {
    if (this.begins(word)) this.at += word.length;
    else this.fail(`"${String.fromCharCode(...word).trim()}" should stand here`);
  }

  // A number without needless zeros, at most so large.
  number(most) {
    const start = this.at;
    let value = 0;
    while (this.at < this.end && this.text[this.at] >= 48 && this.text[this.at] <= 57 && value <= most) {
      value = value * 10 + this.text[this.at] - 48;
      this.at += 1;
    }
    const digits = this.at - start;
    if (digits === 0 || value > most || (digits > 1 && this.text[start] === 48)) this.fail("a number should stand here");
    return value;
  }

  address() {
    const kind = ADDRESSES.findIndex((word) => this.begins(word));
    if (kind < 0) {
      this.fail('an address should stand here: "book", "home", "all" or "node" with its number');
      return { kind: TO_BOOK, node: 0 };
    }
    this.at += ADDRESSES[kind].length;
    const node = kind === TO_NODE ? this.number(255) : 0;
    if (kind === TO_NODE) this.word(BLANK);
    return { kind, node };
  }
}
