"""Runs in which liars, links, power stops and failing disks go wrong together, each made of its number.

A storm has 0, 1 or 4 workers, in turn, and three of six storms run on one processor, the others on all. Whatever the schedule,
its text has to be one that a run may leave, its history has to be legal, and nobody who does not lie is accused. Beside these
the scenario storm.json, in which only a liar's posts are dropped, runs on all processors two thirds as often.
"""
import collections
import functools
import json
import os
import random

from hostile_rows.calls import check_ledgers_of, compare, read, read_legal
from hostile_rows.program import Limits
from hostile_rows.texts import Wrong, check_ledgers

NAMES = ("silent", "equivocate", "echo_split", "bval_both", "false_share", "babble")
SHAPES = ("once", "twice", "late", "drop")
LEAVES = ("old", "new", "torn")
WORKERS = (0, 1, 4)
NODES = (1, 2, 4, 4, 5, 7)
STORED = os.path.join(os.path.dirname(os.path.realpath(__file__)), "storm.json")


def link_of(draw, nodes, liars):
    """A rule for links. Some rules drop what correct nodes send, so that a run need not close an epoch."""
    every = draw.choice((1, 2, 3, 5, 7))
    rule = {"every": every, "at": draw.randrange(every), "shape": draw.choice(SHAPES)}
    if rule["shape"] == "drop" and liars and draw.random() < 0.8:
        rule["from"] = draw.choice(liars)
    elif draw.random() < 0.5:
        rule["from"] = draw.randrange(nodes)
    if draw.random() < 0.3:
        rule["to"] = draw.randrange(nodes)
    return rule


def stop_of(draw, nodes, call):
    return {"node": draw.randrange(nodes), "actor": draw.randrange(nodes + 1), "call": call, "leave": draw.choice(LEAVES)}


def stops_of(draw, nodes):
    """Power stops, some of which are met while the disk recovers from the one before. At most two are at one actor."""
    stops, taken = [], set()
    for _ in range(draw.randrange(1, 9)):
        stop = stop_of(draw, nodes, draw.randrange(1, 50))
        if (stop["node"], stop["actor"]) in taken:
            continue
        taken.add((stop["node"], stop["actor"]))
        stops.append(stop)
        if draw.random() < 0.5:
            stops.append({**stop, "call": stop["call"] + draw.randrange(1, 9), "leave": draw.choice(LEAVES)})
    return stops


def scenario(number):
    """The scenario of a storm."""
    draw = random.Random(number)
    nodes = draw.choice(NODES)
    faulty = (nodes - 1) // 3
    liars = draw.sample(range(nodes), draw.choice((faulty, faulty, faulty // 2)))
    faults = [{"node": draw.randrange(nodes), "actor": draw.randrange(nodes + 1), "call": draw.randrange(1, 60)}
              for _ in range(draw.choice((0, 0, 0, 1, 2)))]
    return {
        "nodes": nodes, "faulty": faulty, "epochs": draw.randint(1, 3), "batch": draw.randint(1, 4),
        "seed": draw.getrandbits(64), "version": draw.choice((1, 2)), "order": draw.choice(("fifo", "mixed")),
        "workers": WORKERS[number % len(WORKERS)],
        "submit": [{"node": draw.randrange(nodes), "tx": f"{draw.randrange(40):02x}"} for _ in range(draw.randrange(20))],
        "liars": [{"node": node, "name": draw.choice(NAMES), "hears": draw.choice((1, 50, 300, 4194304))} for node in liars],
        "links": [link_of(draw, nodes, liars) for _ in range(draw.randrange(5))],
        "stops": stops_of(draw, nodes), "faults": faults,
    }


def check_repeats(told, posts):
    """A correct actor repeats a post at most once for each stop that is planned for it."""
    liars = {liar["node"] for liar in told["liars"]}
    planned = collections.Counter((stop["node"], stop["actor"]) for stop in told["stops"])
    for (node, actor, to, code), count in collections.Counter(posts).items():
        if node not in liars and count > 1 + planned[node, actor]:
            raise Wrong(f"actor {actor} of node {node} says {code[:8]} to {to} {count} times, with {planned[node, actor]} stops")


def check_alike(ledgers, nodes, liars):
    """On one thread the observers have seen the run that was printed: their ledgers and those of its nodes are comparable."""
    check_ledgers([*ledgers, *(node.ledger for place, node in enumerate(nodes) if place not in liars)])


def check(bench, number):
    """One storm, by each word."""
    told = scenario(number)
    given = json.dumps(told).encode()
    one = frozenset(sorted(os.sched_getaffinity(0))[:1])
    limits = Limits(processors=one if number // len(WORKERS) % 2 == 0 else None)
    answer, nodes = read(bench, "run", given, limits=limits)
    check_repeats(told, read_legal(bench, given, limits=limits))
    _, ledgers = read(bench, "observe", given, limits=limits)
    read(bench, "accuse", given, limits=limits)
    if told["workers"] == 0:
        check_alike(ledgers, nodes, {liar["node"] for liar in told["liars"]})
        return compare(bench.ask(["run"], given, limits), *answer)
    return None


def check_stored(bench):
    """The stored storm: every correct node closes both epochs, or a lane has gone through its rounds."""
    with open(STORED, "rb") as file:
        given = file.read()
    _, nodes = read(bench, "run", given, statuses=(0, 5))
    if any(node.state == "ended" for node in nodes):
        raise Wrong("a node has ended")
    posts = read_legal(bench, given, statuses=(0, 5))
    check_repeats(json.loads(given), posts)
    check_ledgers_of(given, posts)
    return None


def check_counts(count):
    """The first thirty storms have what makes a storm, and each of it more than once: so no row of storms is idle."""
    storms = [scenario(number) for number in range(count)]
    for key in ("liars", "links", "stops", "faults", "submit"):
        if sum(bool(storm[key]) for storm in storms) < 2:
            raise Wrong(f"fewer than two storms of {count} have {key}")
    return None


def cases(bench):
    """So many storms as are wanted."""
    yield "what storms have", functools.partial(check_counts, max(30, bench.storms))
    for number in range(bench.storms):
        yield f"storm {number}", functools.partial(check, bench, number)
    for turn in range((2 * bench.storms + 2) // 3):
        yield f"stored storm, turn {turn}", functools.partial(check_stored, bench)
