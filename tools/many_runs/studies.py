"""The runs of the study: for each of its tables the keys of the rows, and how the rows of a key come from runs.

A row is a key and numbers behind it. Each key can be run alone, so any row can be made again. All runs are on one thread, so that
they are the same on every machine; what is drawn is drawn by digests of words.
"""
import collections
import hashlib
import json

from many_runs import history, program

LIARS = ("silent", "equivocate", "echo_split", "bval_both", "false_share", "babble")
NODES = (1, 4, 7, 10, 13, 16)

Study = collections.namedtuple("Study", "name key columns keys rows")


class Runs:
    """Runs the program on scenarios."""

    def __init__(self, hb_ledger):
        self.hb_ledger = hb_ledger

    def text(self, word, scenario):
        answer = program.ask([self.hb_ledger, word], json.dumps(scenario).encode())
        if answer.status not in (0, 5):
            told = answer.err.decode(errors="replace").strip()
            raise program.Fault(1, f"`{word}` ended with status {answer.status} {told} on {json.dumps(scenario)}")
        return answer.out.decode()

    def trace(self, scenario):
        return history.read(self.text("trace", scenario))


def draw(below, *words):
    """A number below another, drawn by words."""
    digest = hashlib.sha256(" ".join(map(str, words)).encode()).digest()
    return int.from_bytes(digest[:8], "big") % below


def faulty(nodes):
    """As many as may be faulty among so many nodes."""
    return (nodes - 1) // 3


def submissions(nodes, count, size):
    """So many transactions of a size at each node, no two alike."""
    return [{"node": node, "tx": (bytes([node, number]) + bytes(size - 2)).hex()}
            for node in range(nodes) for number in range(count)]


# ---- rounds until a lane decides

SPLIT_LANE = 5
# By liar: how many nodes get the Readies of the split lane late, so that they begin it with 0.
SPLIT_LATE = {"none": 4, "bval_both": 4, "babble": 3}


def rounds_keys():
    """2,000 runs, each with a seed of its own: 400 for each version with and without a liar, and 100 with a split lane."""
    keys, seed = [], 0
    for version in (1, 2):
        for inputs, liars, count in (("drawn", ("none",), 400), ("drawn", LIARS, 400),
                                     ("split", ("none",), 100), ("split", ("bval_both", "babble"), 100)):
            for number in range(count):
                keys.append((version, inputs, liars[number % len(liars)], seed))
                seed += 1
    return keys


def rounds_rows(runs, key):
    version, inputs, liar, seed = key
    scenario = {"nodes": 7, "faulty": 2, "epochs": 1, "seed": seed, "version": version, "order": "mixed"}
    if liar != "none":
        scenario["liars"] = [{"node": 6, "name": liar}]
    found = split(runs, scenario, SPLIT_LATE[liar]) if inputs == "split" else runs.trace(scenario)
    rounds = history.deciding_rounds(found)
    begun = collections.defaultdict(set)
    for post in history.votes(found):
        if history.KINDS[post.hex[:2]] == "Est" and post.hex[4:6] == "00":
            begun[post.actor].add(post.hex[6:8])
    mixed = sum(len(bits) > 1 for bits in begun.values())
    return [[mixed, *(max(rounds[0, lane]) for lane in range(7))]]


def split(runs, scenario, late):
    """The history of a scenario in which the first nodes get all Readies of one lane late, and begin it with 0.

    A rule on links can name one post by its number. What is late changes later posts alone, so the Readies are found one by one.
    """
    links, named = [], set()
    while True:
        found = runs.trace({**scenario, "links": links})
        readies = [number for number, post in enumerate(found.posts) if history.KINDS.get(post.hex[:2]) == "Ready"
                   and post.actor == SPLIT_LANE and post.node not in found.liars and number not in named]
        if not readies:
            return found
        named.add(readies[0])
        links = links + [{"from": found.posts[readies[0]].node, "to": node, "every": 65536, "at": readies[0], "shape": "late"}
                         for node in range(late)]


# ---- posts, messages and bytes by kind of vote

def votes_keys():
    return [(nodes, seed) for nodes in NODES for seed in range(20)]


def votes_rows(runs, key):
    nodes, seed = key
    found = runs.trace({"nodes": nodes, "faulty": faulty(nodes), "epochs": 1, "seed": seed, "submit": submissions(nodes, 10, 100)})
    return [[kind, *cost] for kind, cost in history.costs(found).items() if kind != "Conf"]


# ---- bytes for each transaction

def batch_keys():
    return [(nodes, batch, seed) for nodes in (4, 7, 10, 16) for batch in (1, 2, 4, 8, 16, 32, 64) for seed in range(3)]


def batch_rows(runs, key):
    nodes, batch, seed = key
    scenario = {"nodes": nodes, "faulty": faulty(nodes), "epochs": 1, "seed": seed, "submit": submissions(nodes, batch, 256)}
    settled = history.transactions(runs.text("run", scenario))
    return [[settled, sum(cost[2] for cost in history.costs(runs.trace(scenario)).values())]]


# ---- lanes accepted

ACCEPTED_EPOCHS = 3
# The cases in which all nodes are honest: all is well; all posts of f nodes are late; each fifth post of every node is late.
ALL_HONEST = ("none", "late", "fifth_late")


def accepted_keys():
    return [(nodes, case, order, seed) for nodes in (4, 7, 10) for case in (*ALL_HONEST, *LIARS)
            for order in ("fifo", "mixed") for seed in range(10)]


def accepted_rows(runs, key):
    nodes, case, order, seed = key
    last = range(nodes - faulty(nodes), nodes)
    scenario = {"nodes": nodes, "faulty": faulty(nodes), "epochs": ACCEPTED_EPOCHS, "seed": seed, "order": order,
                "submit": submissions(nodes, ACCEPTED_EPOCHS, 32), "batch": 1}
    if case == "late":
        scenario["links"] = [{"from": node, "every": 1, "at": 0, "shape": "late"} for node in last]
    elif case == "fifth_late":
        scenario["links"] = [{"every": 5, "at": 1, "shape": "late"}]
    elif case in LIARS:
        scenario["liars"] = [{"node": node, "name": case} for node in last]
    ledger = history.ledgers(runs.text("run", scenario))[0]
    honest = {node for node in range(nodes) if case in ALL_HONEST or node not in last}
    waited = sum(len(honest - epoch) for epoch in ledger)
    return [[*(len(epoch) for epoch in ledger), len(honest) * len(ledger), waited]]


# ---- stops

STOPS_BASE = {"nodes": 4, "faulty": 1, "epochs": 3, "submit": submissions(4, 3, 32), "batch": 1}
LEAVES = ("old", "new", "torn")


def stop_keys():
    """One stop, at one device call of a lane or of a desk, which makes fewer calls."""
    calls = {"lane": range(1, 202, 8), "desk": range(1, 52, 2)}
    return [(actor, call, leave) for actor in calls for call in calls[actor] for leave in LEAVES]


def stop_rows(runs, key):
    actor, call, leave = key
    stop = {"node": 1, "actor": {"lane": 0, "desk": 4}[actor], "call": call, "leave": leave}
    found = runs.trace({**STOPS_BASE, "stops": [stop]})
    return [[len(found.posts), history.said_twice(found)]]


def stops_keys():
    """At each actor of each node so many stops, at device calls that are drawn."""
    return [(stops, seed) for stops in range(5) for seed in range(20)]


def stops_rows(runs, key):
    stops, seed = key
    plans = []
    for node in range(4):
        for actor in range(5):
            for number in range(stops):
                # A fifth of the calls for each, so that no two stops of an actor are at one call.
                call = 1 + 40 * number + draw(40, "call", seed, node, actor, number)
                plans.append({"node": node, "actor": actor, "call": call, "leave": LEAVES[draw(3, "leave", seed, node, actor, number)]})
    found = runs.trace({**STOPS_BASE, "seed": seed, "stops": plans})
    return [[len(found.posts), history.said_twice(found)]]


STUDIES = (
    Study("rounds", ("version", "inputs", "liar", "seed"), ("split_lanes", *(f"lane_{lane}" for lane in range(7))),
          rounds_keys, rounds_rows),
    Study("votes", ("nodes", "seed"), ("kind", "posts", "messages", "bytes"), votes_keys, votes_rows),
    Study("batch", ("nodes", "batch", "seed"), ("transactions", "bytes"), batch_keys, batch_rows),
    Study("accepted", ("nodes", "case", "order", "seed"),
          (*(f"lanes_{epoch}" for epoch in range(ACCEPTED_EPOCHS)), "honest_batches", "waited"), accepted_keys, accepted_rows),
    Study("stop", ("actor", "call", "leave"), ("posts", "said_twice"), stop_keys, stop_rows),
    Study("stops", ("stops", "seed"), ("posts", "said_twice"), stops_keys, stops_rows),
)
