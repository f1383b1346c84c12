"""Scenarios: which bytes are one, the line that tells the first fault of other bytes, and the scenario of a number."""
import json

import words

LIARS = ("silent", "equivocate", "echo_split", "bval_both", "false_share", "babble")
# How many words choose the numbers of a scenario.
CHOSEN = 4


def chosen(number):
    """What the first four words of a number choose: its nodes, how many may lie, epochs, transactions in a batch, and workers."""
    drawn = [words.word(number, place) for place in range(CHOSEN)]
    n = 4 + drawn[0] % 7
    return {"n": n, "f": (n - 1) // 3, "epochs": 2 + drawn[1] % 4, "batch": 8 + drawn[2] % 16, "workers": 1 + drawn[3] % 3}


def draw(number):
    """The scenario of a number, drawn from its words one after another.

    n is 4 to 10 and f the most that may lie; epochs 2 to 5, batches of 8 to 23, workers 1 to 3; 64 transactions of two words for
    each node; a kind for each of the last f nodes; and for each other node a stop: its actor, its call and what it leaves.
    """
    found, place = chosen(number), CHOSEN

    def word():
        nonlocal place
        place += 1
        return words.word(number, place - 1)

    correct = found["n"] - found["f"]
    halves = [word().to_bytes(4, "little") for _ in range(128 * found["n"])]
    found["submit"] = [a + b for a, b in zip(halves[::2], halves[1::2])]
    found["liars"] = [(node, LIARS[word() % 6]) for node in range(correct, found["n"])]
    found["stops"] = [(node, word() % (found["n"] + 1), 1 + word() % 40, ("Old", "New", "Torn")[word() % 3])
                      for node in range(correct)]
    return found


def row_of(number):
    """The scenario of a number as a row of the test tells it."""
    s = draw(number)
    parts = [f"{number}: {s['n']} {s['f']} {s['epochs']} {s['batch']} {s['workers']}"]
    parts += [s["submit"][0].hex(), s["submit"][-1].hex()]
    parts += [f"{node} {name}" for node, name in s["liars"]]
    parts += [f"{node} {actor} {call} {leave}" for node, actor, call, leave in s["stops"]]
    return ", ".join(parts)


# ---- which bytes are a scenario

class Fault(Exception):
    """The first fault of a text, as the line that tells it."""


class Number(str):
    """A number as it is written."""


def no_constant(name):
    raise ValueError(name)


def float_of(letters):
    if float(letters) in (float("inf"), float("-inf")):
        raise ValueError("a number that is too great")
    return Number(letters)


def parsed(data):
    """The JSON value of some bytes. Of a key that stands twice the last counts; more than 127 levels are refused."""
    try:
        text = data.decode("utf-8")
        if text.startswith("\ufeff"):
            raise ValueError("a byte order mark")
        value = json.loads(text, parse_int=Number, parse_float=float_of, parse_constant=no_constant)
        json.dumps(value, ensure_ascii=False).encode("utf-8")
    except (ValueError, RecursionError):
        raise Fault("refused 2 NotJson") from None
    if depth_of(value) > 127:
        raise Fault("refused 2 NotJson")
    return value


def depth_of(value):
    """How many lists and objects stand one in another."""
    depth, row = 0, [value]
    while row := [entry for entry in row if isinstance(entry, (list, dict))]:
        depth += 1
        row = [item for entry in row for item in (entry.values() if isinstance(entry, dict) else entry)]
    return depth


def is_text(value):
    return isinstance(value, str) and not isinstance(value, Number)


def number_at(place, value, low, high):
    """A whole number below 2^64, written without a sign, a fraction or an exponent, within its bounds."""
    if not isinstance(value, Number) or not value.isdigit() or int(value) >= 2**64:
        raise Fault(f"refused 6 NotNumber {place}")
    if not low <= int(value) <= high:
        raise Fault(f"refused 7 OutOfRange {place} value={value}")
    return int(value)


def word_at(place, value, is_known):
    if not is_text(value):
        raise Fault(f"refused 3 WrongKind {place}")
    if not is_known(value):
        raise Fault(f"refused 14 BadWord {place} word={value.encode().hex()}")
    return value


def transaction_at(place, value):
    if not is_text(value):
        raise Fault(f"refused 3 WrongKind {place}")
    if len(value) % 2 or any(letter not in "0123456789abcdefABCDEF" for letter in value):
        raise Fault(f"refused 12 BadHex {place}")
    if not 1 <= len(value) // 2 <= 256:
        raise Fault(f"refused 13 BadLength {place} length={len(value) // 2}")
    return value


def keys_at(where, entry, required, others):
    """An entry is an object, has the keys that it must have, and none that it may not have; of several the least is told."""
    if not isinstance(entry, dict):
        raise Fault(f"refused 3 WrongKind {where} -")
    for key in required:
        if key not in entry:
            raise Fault(f"refused 4 Missing {where} {key}")
    unknown = sorted(key.encode() for key in entry if key not in required and key not in others)
    if unknown:
        raise Fault(f"refused 5 Unknown {where} key={unknown[0].hex()}")


def is_liar_name(name):
    return 1 <= len(name) <= 16 and all(letter in "abcdefghijklmnopqrstuvwxyz0123456789_" for letter in name)


class Reading:
    """A scenario that is read, up to its first fault."""

    NUMBERS = {"nodes": (1, 16), "faulty": (0, 5), "epochs": (1, 32), "rounds": (1, 32), "batch": (1, 64),
               "seed": (0, 2**64 - 1), "version": (1, 2), "workers": (0, 4)}
    LISTS = {"submit": (("node", "tx"), ()), "liars": (("node", "name"), ("hears",)),
             "links": (("every", "at", "shape"), ("from", "to")), "stops": (("node", "actor", "call", "leave"), ()),
             "faults": (("node", "actor", "call"), ())}
    ORDER = {"submit": ("node", "tx"), "liars": ("node", "name", "hears"), "links": ("from", "to", "every", "at", "shape"),
             "stops": ("node", "actor", "call", "leave"), "faults": ("node", "actor", "call")}

    def __init__(self, data, cast):
        if len(data) > 1_048_576:
            raise Fault("refused 1 TooLong")
        self.top, self.cast = parsed(data), cast
        keys_at("top 0", self.top, ("nodes", "faulty", "epochs"), (*self.NUMBERS, "order", *self.LISTS))
        for key, (low, high) in self.NUMBERS.items():
            if key in self.top:
                number_at(f"top 0 {key}", self.top[key], low, high)
        if "order" in self.top:
            word_at("top 0 order", self.top["order"], ("fifo", "mixed").__contains__)
        self.n, self.f = int(self.top["nodes"]), int(self.top["faulty"])
        if self.n <= 3 * self.f:
            raise Fault(f"refused 8 TooFewNodes n={self.n} f={self.f}")
        for name in self.LISTS:
            self.read_list(name)

    def read_list(self, name):
        entries = self.top.get(name, [])
        if not isinstance(entries, list):
            raise Fault(f"refused 3 WrongKind top 0 {name}")
        if name == "links" and len(entries) > 256:
            raise Fault(f"refused 7 OutOfRange top 0 links value={len(entries)}")
        planned = {}
        for index, entry in enumerate(entries):
            self.read_entry(name, index, entry)
            if name in ("stops", "faults"):
                actor = (int(entry["node"]), int(entry["actor"]))
                planned[actor] = planned.get(actor, 0) + 1
                if planned[actor] > 4:
                    raise Fault(f"refused 7 OutOfRange {name} {index} actor value=5")
        if name == "liars":
            self.check_liars(entries)

    def read_entry(self, name, index, entry):
        where = f"{name} {index}"
        keys_at(where, entry, *self.LISTS[name])
        for key in self.ORDER[name]:
            if key in entry:
                self.read_key(f"{where} {key}", key, entry)

    def read_key(self, place, key, entry):
        value = entry[key]
        if key == "tx":
            transaction_at(place, value)
        elif key == "name":
            word_at(place, value, is_liar_name)
        elif key == "shape":
            word_at(place, value, ("once", "twice", "late", "drop").__contains__)
        elif key == "leave":
            word_at(place, value, ("old", "new", "torn").__contains__)
        else:
            bounds = {"hears": (0, 4_194_304), "every": (1, 65_536), "actor": (0, self.n), "call": (1, 1_000_000)}
            low, high = bounds.get(key, (0, self.n - 1))
            number_at(place, value, low, int(entry["every"]) - 1 if key == "at" else high)

    def check_liars(self, entries):
        if len(entries) > self.f:
            raise Fault(f"refused 9 TooManyLiars named={len(entries)} f={self.f}")
        nodes = [int(entry["node"]) for entry in entries]
        for place, node in enumerate(nodes):
            if node in nodes[:place]:
                raise Fault(f"refused 10 LiarTwice node={node}")
        names = [entry["name"] for entry in entries]
        for place, name in enumerate(names):
            if names[:place + 1].count(name) > self.cast.count(name):
                raise Fault(f"refused 11 NoSuchLiar name={name.encode().hex()}")


def told(data, cast):
    """The line of the first fault of some bytes, or 'fine'."""
    try:
        Reading(data, cast)
    except Fault as fault:
        return str(fault)
    return "fine"
