"""Decodes votes by the byte format, apart from the page's own decoder: what the tests compare that with."""
import random

HEADS = {
    1: "VAL", 2: "ECHO", 3: "READY", 4: "DELIVERED", 5: "EST", 6: "BVAL", 7: "AUX", 8: "PICK", 9: "COIN", 10: "DECIDED",
    11: "CONF", 16: "PROPOSE", 17: "NOMORE", 18: "CLOSED",
}
LONGEST_VALUE, LONGEST_SHARD = 16_514, 16_520


class NoVote(Exception):
    """The bytes spell no vote."""


def take(data, count):
    """The first bytes and the rest."""
    if len(data) < count:
        raise NoVote
    return data[:count], data[count:]


def small(data, least, most):
    """A byte between two numbers."""
    byte, rest = take(data, 1)
    if not least <= byte[0] <= most:
        raise NoVote
    return byte[0], rest


def counted(data, least, most):
    """A length of four bytes, and so many bytes."""
    length, rest = take(data, 4)
    size = int.from_bytes(length, "big")
    if not least <= size <= most:
        raise NoVote
    return take(rest, size)


def branch(data, nodes):
    """One digest of 32 bytes for each level of a tree of so many leaves."""
    return take(data, 32 * (nodes - 1).bit_length())


def batches(data, nodes):
    """A count, and for each batch its node and its bytes; the nodes rise."""
    count, data = small(data, 0, nodes)
    found, least = [], 0
    for _ in range(count):
        node, data = small(data, least, nodes - 1)
        value, data = counted(data, 0, LONGEST_VALUE)
        found.append([node, value.hex()])
        least = node + 1
    return found, data


def fields(kind, data, nodes):
    """The fields behind the epoch, and the bytes behind them."""
    found = {}
    if kind == "VAL":
        found["target"], data = small(data, 0, nodes - 1)
    if kind in ("VAL", "ECHO", "READY"):
        root, data = take(data, 32)
        found["root"] = root.hex()
    if kind in ("VAL", "ECHO"):
        shard, data = counted(data, 1, LONGEST_SHARD)
        found["shard"] = shard.hex()
    if kind in ("DELIVERED", "PROPOSE"):
        value, data = counted(data, 0, LONGEST_VALUE)
        found["value"] = value.hex()
    if kind in ("EST", "BVAL", "AUX", "PICK", "COIN", "CONF"):
        found["round"], data = small(data, 0, 31)
    if kind in ("EST", "BVAL", "AUX", "DECIDED"):
        found["bit"], data = small(data, 0, 1)
    if kind in ("PICK", "CONF"):
        found["bits"], data = small(data, 1, 3)
    if kind == "COIN":
        share, data = small(data, 0, 255)
        salt, data = take(data, 16)
        found.update(share=share, salt=salt.hex())
    if kind in ("VAL", "ECHO", "COIN"):
        digests, data = branch(data, nodes)
        found["branch"] = digests.hex()
    if kind == "CLOSED":
        found["items"], data = batches(data, nodes)
    return found, data


def decode(data, nodes, version):
    """The vote that bytes spell, as a dictionary, or None."""
    try:
        head, rest = small(data, 0, 255)
        kind = HEADS.get(head)
        if kind is None or (kind == "CONF" and version != 2):
            return None
        epoch, rest = small(rest, 0, 31)
        found, rest = fields(kind, rest, nodes)
    except NoVote:
        return None
    return None if rest else {"kind": kind, "epoch": epoch, **found}


def digests(branch_hex):
    """The digests of a branch by their first eight digits, or a dash."""
    return " ".join(branch_hex[at:at + 8] for at in range(0, len(branch_hex), 64)) or "-"


def words(vote):
    """A vote in words, as `./run --votes` prints it."""
    if vote is None:
        return "no vote"
    told = [f"{vote['kind']} epoch {vote['epoch']}"]
    for name, part in list(vote.items())[2:]:
        if name == "bits":
            told.append("bits " + ("", "0", "1", "0 1")[part])
        elif name == "items":
            told.append(f"values {len(part)}" + "".join(f" node {node} value length {len(value) // 2}" for node, value in part))
        elif name == "branch":
            told.append(f"branch {digests(part)}")
        elif isinstance(part, int):
            told.append(f"{name} {part}")
        else:
            told.append(f"{name} {part[:8]}" if name in ("root", "salt") else f"{name} length {len(part) // 2}")
    return " ".join(told)


def broken(samples, count):
    """Byte strings made of votes by a change: cut, longer, with another byte, or with a field at the edge of its range."""
    draw = random.Random(54)
    found = []
    while len(found) < count:
        data = bytearray(draw.choice(samples))
        way = len(found) % 6
        place = draw.randrange(len(data))
        if way == 0:
            data = data[:place]
        elif way == 1:
            data += bytes(draw.randrange(1, 4))
        elif way == 2:
            data[place] ^= 1 << draw.randrange(8)
        elif way == 3:
            data[draw.randrange(min(4, len(data)))] = draw.choice([0, 1, 2, 3, 4, 31, 32, 33, 255])
        elif way == 4:
            data[0] = draw.choice([0, 11, 12, 15, 16, 17, 18, 19, 255])
        else:
            data[place:place + 1] = bytes(draw.randrange(256) for _ in range(draw.randrange(3)))
        found.append(bytes(data))
    return found
