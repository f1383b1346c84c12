"""Votes as bytes: a kind, an epoch, and the fields of the kind, with nothing behind them.

An epoch and a round are below 32; a bit is 0 or 1; a set of bits is 1 for {0}, 2 for {1} and 3 for both; a node is below n; a
root is 32 bytes, a salt 16, a branch as many digests as the tree is high; a shard has 1 to 16,520 bytes and a value at most
16,514, each behind its length in 4 bytes. The items of a closed list are a count, and for each a node and a value, the nodes
rising. A batch is a count of at most 64 in 2 bytes, and for each transaction its length, 1 to 256, in 2 bytes and its bytes.
"""
import trees

KINDS = {1: "Val", 2: "Echo", 3: "Ready", 4: "Delivered", 5: "Est", 6: "Bval", 7: "Aux", 8: "Pick", 9: "Coin", 10: "Decided",
         11: "Conf", 16: "Propose", 17: "NoMore", 18: "Closed"}
FIELDS = {"Val": "target root shard branch", "Echo": "root shard branch", "Ready": "root", "Delivered": "value",
          "Est": "round bit", "Bval": "round bit", "Aux": "round bit", "Pick": "round set", "Conf": "round set",
          "Coin": "round share salt branch", "Decided": "bit", "Propose": "value", "NoMore": "", "Closed": "list"}
# to whom a vote goes; a Val goes to its target
ADDRESSES = {"Echo": "To::All", "Ready": "To::All", "Bval": "To::All", "Aux": "To::All", "Conf": "To::All", "Coin": "To::All",
             "Delivered": "To::Home", "Decided": "To::Home", "Propose": "To::Home", "NoMore": "To::Home",
             "Est": "To::Book", "Pick": "To::Book", "Closed": "To::Book"}
DESK_KINDS = ("Propose", "NoMore", "Closed")


class NoVote(Exception):
    """The bytes spell no vote."""


class Cursor:
    """Bytes that are read from the front."""

    def __init__(self, data, n):
        self.data, self.n, self.place = data, n, 0

    def take(self, count):
        if self.place + count > len(self.data):
            raise NoVote
        self.place += count
        return self.data[self.place - count:self.place]

    def number(self, low, high):
        found = self.take(1)[0]
        if not low <= found <= high:
            raise NoVote
        return found

    def counted(self, low, high):
        length = int.from_bytes(self.take(4), "big")
        if not low <= length <= high:
            raise NoVote
        return self.take(length)

    def items(self):
        found = []
        for _ in range(self.number(0, self.n)):
            node = self.number(found[-1][0] + 1 if found else 0, self.n - 1)
            found.append((node, self.counted(0, 16_514)))
        return tuple(found)

    def field(self, name):
        if name in ("target", "round", "bit", "set", "share"):
            low, high = {"target": (0, self.n - 1), "round": (0, 31), "bit": (0, 1), "set": (1, 3), "share": (0, 255)}[name]
            return self.number(low, high)
        if name in ("root", "salt"):
            return self.take(32 if name == "root" else 16)
        if name in ("shard", "value"):
            return self.counted(1, 16_520) if name == "shard" else self.counted(0, 16_514)
        if name == "branch":
            return tuple(self.take(32) for _ in range(trees.height(self.n)))
        return self.items()


def read(n, version, data):
    """The vote that the bytes spell, as a dictionary, or None."""
    cursor = Cursor(data, n)
    try:
        kind = KINDS.get(cursor.take(1)[0])
        if kind is None or kind == "Conf" and version == 1:
            return None
        vote = {"kind": kind, "epoch": cursor.number(0, 31)}
        for name in FIELDS[kind].split():
            vote[name] = cursor.field(name)
    except NoVote:
        return None
    return vote if cursor.place == len(data) else None


def counted(data):
    return len(data).to_bytes(4, "big") + data


def spelled(vote):
    """The bytes of a vote."""
    kind = next(number for number, name in KINDS.items() if name == vote["kind"])
    data = bytes([kind, vote["epoch"]])
    for name in FIELDS[vote["kind"]].split():
        field = vote[name]
        if name in ("target", "round", "bit", "set", "share"):
            data += bytes([field])
        elif name in ("shard", "value"):
            data += counted(field)
        elif name == "branch":
            data += b"".join(field)
        elif name == "list":
            data += bytes([len(field)]) + b"".join(bytes([node]) + counted(value) for node, value in field)
        else:
            data += field
    return data


def vote(kind, epoch, **fields):
    return {"kind": kind, "epoch": epoch, **fields}


def address(vote):
    return ("To::Node", vote["target"]) if vote["kind"] == "Val" else ADDRESSES[vote["kind"]]


def batch(transactions):
    """The bytes of a batch."""
    data = len(transactions).to_bytes(2, "big")
    return data + b"".join(len(tx).to_bytes(2, "big") + tx for tx in transactions)


def transactions(value):
    """The transactions of a batch: none where the bytes are no batch."""
    count = int.from_bytes(value[:2], "big")
    if len(value) < 2 or count > 64:
        return []
    found, place = [], 2
    for _ in range(count):
        length = int.from_bytes(value[place:place + 2], "big")
        place += 2 + length
        if not 1 <= length <= 256 or place > len(value):
            return []
        found.append(value[place - length:place])
    return found if place == len(value) else []
