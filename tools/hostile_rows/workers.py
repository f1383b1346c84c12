"""Runs with one worker and with four at each node.

Where no schedule can change what is cast, the whole text is known. Elsewhere it is held to what every schedule leaves: a status
that may come, ledgers that agree in the text and in the history, which is legal, and lines that the text has.
"""
import functools
import itertools
import json

from hostile_rows import disks, four_nodes, streams
from hostile_rows.calls import check_ledgers_of, compare, read, read_legal
from hostile_rows.texts import Wrong

WORKERS = (1, 4)
LEAVES = ("old", "new", "torn")
# A run closes every epoch, or a lane has gone through its rounds.
ENDS = (0, 5)

# One node alone casts the same votes in every schedule. With the seed 0 its coins of rounds 0, 1 and 2 are 0, 0 and 1.
ONE = {"nodes": 1, "faulty": 0, "epochs": 1, "rounds": 3, "seed": 0, "submit": [{"node": 0, "tx": "6869"}]}
TWO_EPOCHS = {"nodes": 1, "faulty": 0, "epochs": 2}
ONE_LEDGER = "epoch 0 batches 1\nbatch 0 txs 1\ntx 6869\n"
AGAIN = [{"node": 0, "tx": tx} for tx in ("61", "62", "61")]
ALONE = (
    ("three rounds", ONE, ONE_LEDGER, 0),
    ("two rounds", {**ONE, "rounds": 2}, "", 5),
    ("three rounds of version 2", {**ONE, "version": 2}, ONE_LEDGER, 0),
    ("two rounds of version 2", {**ONE, "version": 2, "rounds": 2}, "", 5),
    ("a transaction twice", {**TWO_EPOCHS, "batch": 1, "submit": AGAIN},
     "epoch 0 batches 1\nbatch 0 txs 1\ntx 61\nepoch 1 batches 1\nbatch 0 txs 1\ntx 62\n", 0),
    ("no transaction", TWO_EPOCHS, "epoch 0 batches 1\nbatch 0 txs 0\nepoch 1 batches 1\nbatch 0 txs 0\n", 0),
)
OBSERVED = ("observe nodes 1 faulty 0 version 1 epochs 1\n", "observer 0 epochs 1\n", *ONE_LEDGER.splitlines(True), "end 0\n")

# The calls of a disk at which the node alone stops: the first, and those of the first fold of its lane's.
STOPS = {0: (*range(1, 41), *range(260, 275)), 1: range(1, 41)}

# Four nodes, by the keys of their scenario besides: the statuses that a schedule may leave, and lines of each text.
EVERY, SECOND = {"every": 1, "at": 0}, {"every": 2, "at": 0}
FOUR = (
    ("no more", {}, ENDS, "node 3 running\n"),
    ("version 2", {"version": 2}, ENDS, "node 3 running\n"),
    ("each post once", {"links": [{**EVERY, "shape": "once"}]}, ENDS, "node 3 running\n"),
    ("each post twice", {"links": [{**EVERY, "shape": "twice"}]}, ENDS, "node 3 running\n"),
    ("mixed order", {"order": "mixed", "seed": 7, "links": [{**SECOND, "shape": "twice"}]}, ENDS, "node 3 running\n"),
    ("late", {"links": [{"from": 3, **EVERY, "shape": "late"}, {**SECOND, "shape": "twice"}]}, ENDS, "node 3 running\n"),
    ("node 2 hears nobody", {"links": [{"to": 2, **EVERY, "shape": "drop"}]}, (4, 5), "node 2 running\nnode 3 running\n"),
    # In its first entry, which it writes whatever it hears; and in that of its proposal, and again as it begins again.
    ("a lane stops", {"stops": [disks.stop(1, 1, 9, "torn")]}, ENDS, "node 1 running\n"),
    ("a desk stops", {"stops": [disks.stop(1, 4, 9, "old"), disks.stop(1, 4, 12, "new")]}, ENDS, "node 1 running\n"),
    ("a fault that is not met", {"faults": [{"node": 1, "actor": 1, "call": 1000000}]}, ENDS, "node 1 running\n"),
    ("a fault", {"faults": [{"node": 1, "actor": 1, "call": 9}]}, ENDS, "node 1 ended\nactor 1 journal\n"),
)


def submitted(*entries):
    """Transactions, each with its node."""
    return [{"node": node, "tx": tx} for node, tx in entries]


# Other scenarios, with the same.
THREE_EPOCHS = {"nodes": 4, "faulty": 1, "epochs": 3, "batch": 2, "submit": submitted(
    (0, "6131"), (0, "6132"), (0, "6133"), (1, "7373"), (2, "7373"), (3, "6431"), (3, "7373"))}
OTHERS = (
    ("three epochs", THREE_EPOCHS, "node 3 running\n"),
    ("three epochs beside a liar", {**THREE_EPOCHS, "version": 2, "liars": [{"node": 3, "name": "bval_both"}]}, "node 3 liar\n"),
    ("six nodes", {"nodes": 6, "faulty": 1, "epochs": 2, "submit": submitted(
        (0, "61"), (1, "62"), (1, "6263"), (2, "63"), (3, "64"), (4, "65"), (5, "66"))}, "node 5 running\n"),
    # One transaction at three nodes, and at one of them twice.
    ("one transaction", {"nodes": 4, "faulty": 1, "epochs": 1, "submit": submitted(*((node, "61") for node in (0, 1, 2, 2)))},
     "node 3 running\n"),
)
LEGAL = (
    ("no more", {}), ("version 2", {"version": 2}), ("beside a liar", {"liars": [{"node": 3, "name": "bval_both"}]}),
    ("a lane stops", {"stops": [disks.stop(1, 1, 9, "torn")]}),
)
ACCUSED = "accuse nodes 4 faulty 1 version 1 epochs 1\n"

# The last calls of a disk for the first entry of an actor and for the second, which each lane and desk writes in every schedule.
FIRST_ENTRY, SECOND_ENTRY = 10, 14
SEVEN = {"nodes": 7, "faulty": 2, "epochs": 1, "liars": [
    {"node": 5, "name": "equivocate", "hears": 0}, {"node": 6, "name": "babble", "hears": 1}]}
SIXTEEN = {"nodes": 16, "faulty": 5, "epochs": 1, "submit": submitted((0, "61"), (15, "62"))}
FULL = {"nodes": 16, "faulty": 5, "epochs": 1, "batch": 64,
        "submit": submitted(*((number // 64, f"{number:04x}{'ab' * 254}") for number in range(1024)))}


def bytes_of(told, workers):
    return json.dumps({**told, "workers": workers}).encode()


def four(workers, **keys):
    return four_nodes.scenario(workers=workers, **keys)


def check_alone(bench, workers, told, ledger, status):
    """One node: its whole text."""
    front = f"run nodes 1 faulty 0 version {told.get('version', 1)} epochs {told['epochs']}\nnode 0 running\n"
    return compare(bench.ask(["run"], bytes_of(told, workers)), status, f"{front}{ledger}end {status}\n".encode())


def check_for_long(bench, workers, stops):
    """One node over fourteen epochs, in which its journals fold."""
    return compare(bench.ask(["run"], disks.alone(workers=workers, stops=stops)), 0, disks.whole())


def check_stops_for_long(bench, workers, actor, call):
    """It stops at a call, and once more at the third call of the restart, and begins again."""
    for leave in LEAVES:
        stops = [disks.stop(0, actor, call, leave), disks.stop(0, actor, call + disks.AGAIN, leave)]
        wrong = check_for_long(bench, workers, stops)
        if wrong:
            return f"what is left is {leave}: {wrong}"
    return None


def judge_text(bench, given, statuses, lines=""):
    """What every schedule has to leave in the text of a run. The answer, and the nodes. Raises Wrong."""
    answer, nodes = read(bench, "run", given, statuses)
    if lines.encode() not in answer.out:
        raise Wrong(f"the text has no {lines!r}")
    return answer, nodes


def judge_history(bench, given, statuses):
    """What every schedule has to leave in the history of a run. The answer, and the posts. Raises Wrong."""
    answer, posts = read(bench, "trace", given, statuses)
    check_ledgers_of(given, posts)
    return answer, posts


def check_lines(bench, given, statuses, lines):
    judge_text(bench, given, statuses, lines)
    judge_history(bench, given, statuses)


def check_stop(bench, workers, actor, call, leave):
    """However early or late it comes, the actor begins again. What it had posted it posts again: nothing up to its first entry,
    and that entry at least where the stop comes in the calls of the second."""
    given = four(workers, stops=[disks.stop(1, actor, call, leave)])
    judge_text(bench, given, ENDS, "node 1 running\n")
    answer, posts = judge_history(bench, given, ENDS)
    is_again = disks.place_of_again(posts, 1, actor) is not None
    if is_again if call <= FIRST_ENTRY else not (is_again or call > SECOND_ENTRY or answer.status == 5):
        raise Wrong(f"whether actor {actor} posts something twice: {is_again}")


def check_two_liars(bench, workers):
    """Each at its own node: one sends each node a VAL, and the other answers one post by a byte of no vote and that post bent."""
    given = bytes_of(SEVEN, workers)
    judge_text(bench, given, ENDS, "node 5 liar\nnode 6 liar\n")
    _, posts = judge_history(bench, given, ENDS)
    vals, said = ([code[:2] for node, _, _, code in posts if node == liar] for liar in (5, 6))
    if vals != ["01"] * 7 or len(said) != 2 or said[0] != "ff":
        raise Wrong(f"the liars have posts of the kinds {vals[:9]} and {said[:9]}")


def check_sixteen(bench):
    """272 actors, and 64 workers. A node is running if each of its 17 actors is."""
    given = bytes_of(SIXTEEN, 4)
    _, nodes = judge_text(bench, given, ENDS)
    if [node.state for node in nodes] != ["running"] * 16:
        raise Wrong("a node is not running")
    judge_history(bench, given, ENDS)


def check_longest_batches(bench, workers):
    """64 transactions of 256 bytes at each of sixteen nodes: a list has whole batches."""
    given = bytes_of(FULL, workers)
    answer, _ = judge_text(bench, given, ENDS)
    if answer.status != 5 and b" txs 64\ntx " not in answer.out:
        raise Wrong("there is no whole batch")
    judge_history(bench, given, ENDS)


def check_observed(bench, workers):
    """The text of an observer. Each line is put by itself, so where one can't be put, those before it stand."""
    given = bytes_of(ONE, workers)
    wrong = compare(bench.ask(["observe"], given), 0, "".join(OBSERVED).encode())
    for count in range(len(OBSERVED)):
        wrong = wrong or streams.check_failing_write(bench, ["observe"], given, len("".join(OBSERVED[:count])))
    return wrong


def check_legal(bench, workers, keys):
    """The history is found legal, with all its posts."""
    read_legal(bench, four(workers, **keys), ENDS)


def check_accused(bench, workers, liars, line):
    """Nobody is accused but who lies."""
    answer, _ = read(bench, "accuse", four(workers, liars=liars), ENDS)
    return None if answer.out.startswith(f"{ACCUSED}{line}".encode()) else "another text"


def cases_of_one(bench, workers):
    """One node alone."""
    for name, told, ledger, status in ALONE:
        yield f"alone, {name}", functools.partial(check_alone, bench, workers, told, ledger, status)
    yield "alone, for long", functools.partial(check_for_long, bench, workers, [])
    for actor, calls in STOPS.items():
        for call in calls:
            yield f"alone, actor {actor} stops at {call}", functools.partial(check_stops_for_long, bench, workers, actor, call)
    yield "an observer", functools.partial(check_observed, bench, workers)


def cases_of_four(bench, workers):
    """Four nodes and more."""
    for name, keys, statuses, lines in FOUR:
        yield f"four nodes, {name}", functools.partial(check_lines, bench, four(workers, **keys), statuses, lines)
    for name, told, lines in OTHERS:
        yield f"others, {name}", functools.partial(check_lines, bench, bytes_of(told, workers), ENDS, lines)
    for actor, call, leave in itertools.product((1, 4), range(1, 41), LEAVES):
        case = functools.partial(check_stop, bench, workers, actor, call, leave)
        yield f"four nodes, actor {actor} stops at {call} and leaves {leave}", case
    for call in range(1, 61):
        given = four(workers, faults=[{"node": 1, "actor": 1, "call": call}])
        lines = "node 1 " if call > FIRST_ENTRY else "node 1 ended\nactor 1 journal\n"
        yield f"four nodes, call {call} of actor 1 fails", functools.partial(check_lines, bench, given, ENDS, lines)
    yield "two liars", functools.partial(check_two_liars, bench, workers)
    for name, keys in LEGAL:
        yield f"legal, {name}", functools.partial(check_legal, bench, workers, keys)
    yield "nobody is accused", functools.partial(check_accused, bench, workers, [], "end ")
    liars = [{"node": 3, "name": "equivocate"}]
    yield "a liar is accused", functools.partial(check_accused, bench, workers, liars, "accused 3 posts ")
    yield "the longest batches", functools.partial(check_longest_batches, bench, workers)


def cases(bench):
    """Each with one worker and with four, but for sixteen nodes with four."""
    for workers in WORKERS:
        for name, case in itertools.chain(cases_of_one(bench, workers), cases_of_four(bench, workers)):
            yield f"{name}, {workers} workers", case
    yield "sixteen nodes, 4 workers", functools.partial(check_sixteen, bench)
