"""Checks of the study: its counting against numbers counted by hand, and its files against runs that are made again.

The count by hand is of scenarios/four_nodes.json: four nodes, none of which lies, one epoch, and one transaction of two bytes at
each. f is 1, so values are cut into k = n - 2f = 2 data shards, and a branch has two digests, 64 bytes.

Broadcasts. Each of four desks proposes, and each of four nodes sends a Val to four nodes, one of them itself: 16 posts, 12 messages
to others. In each of four lanes four nodes echo, are ready, deliver and decide: 16 posts of each kind. An Echo and a Ready go to
three other nodes: 48 messages. Delivered and Decided stay at home. Each desk says NoMore and Closed once: 4 posts of each.

Agreements. All broadcasts come before any agreement has ended, so all four nodes begin each lane with 1. All are then left with 1
alone in each round, decide in the first round whose coin is 1, and take part up to the second such round. The coin of a round is
the lowest bit of word 18 * (32 * lane + round) of the key stream of ChaCha20 with a key of zeros, rounds counted from 0: a coin has
f + 1 + 4n = 18 words. The bits are:

    lane 0: 0 0 0 1 0 1    decided in round 4, 6 rounds
    lane 1: 1 1            decided in round 1, 2 rounds
    lane 2: 0 1 1          decided in round 2, 3 rounds
    lane 3: 1 1            decided in round 1, 2 rounds

That is 13 rounds, in each of which four nodes cast an Est, a Bval, an Aux, a Pick and a Coin: 52 posts of each kind, and 156
messages for Bval, Aux and Coin. Est and Pick are notes, which go nowhere.

Bytes of a message. The batch has 2 bytes for its count, 2 for a length and 2 of the transaction: 6. Its frame has 4 bytes more, 10,
so a shard has 5. Kind and epoch are 2 bytes. Val: 2, the target 1, the root 32, a length 4, the shard 5, the branch 64: 108. Echo:
the same without a target, 107. Ready: 2 and the root, 34. Bval and Aux: 2, round, bit: 4. Coin: 2, round 1, share 1, salt 16, branch
64: 84. So Val has 12 * 108 = 1296 bytes, Echo 48 * 107 = 5136, Ready 48 * 34 = 1632, Bval and Aux 156 * 4 = 624, Coin 156 * 84 = 13104.
"""
import json

from many_runs import figures, history, program, studies, tables

BY_HAND = {
    "Propose": [4, 0, 0], "Val": [16, 12, 1296], "Echo": [16, 48, 5136], "Ready": [16, 48, 1632], "Delivered": [16, 0, 0],
    "Est": [52, 0, 0], "Bval": [52, 156, 624], "Aux": [52, 156, 624], "Conf": [0, 0, 0], "Pick": [52, 0, 0],
    "Coin": [52, 156, 13104], "Decided": [16, 0, 0], "NoMore": [4, 0, 0], "Closed": [4, 0, 0],
}
ROUNDS_BY_HAND = {(0, 0): [4] * 4, (0, 1): [1] * 4, (0, 2): [2] * 4, (0, 3): [1] * 4}

# Of each table the rows of one key in so many are made again.
AGAIN = {"rounds": 500, "votes": 30, "batch": 25, "accepted": 135, "stop": 40, "stops": 30}


def four_nodes():
    return json.loads(program.read_file(program.TOP / "scenarios" / "four_nodes.json"))


def by_hand(runs):
    """What the counting says otherwise of four_nodes than the count by hand."""
    scenario = four_nodes()
    found, text = runs.trace(scenario), runs.text("run", scenario)
    told = [("kinds of votes", history.costs(found), BY_HAND), ("deciding rounds", history.deciding_rounds(found), ROUNDS_BY_HAND),
            ("posts", len(found.posts), 352), ("posts said twice", history.said_twice(found), 0),
            ("ledgers", history.ledgers(text), {node: [{0, 1, 2, 3}] for node in range(4)}),
            ("transactions", history.transactions(text), 4)]
    return [f"four_nodes, {name}: counted {counted}, by hand {hand}" for name, counted, hand in told if counted != hand]


def restarts_by_hand(runs):
    """What the counting says otherwise of four_nodes with one stop at the desk of node 0.

    The desk casts three votes, each in an entry of its own, which takes four calls of its disk: a write, a sync, a write that opens
    the gate, a sync. The first begins with call 7, as torn_stops tells. So a stop at calls 7 to 10 comes before Propose is said,
    one at 11 to 14 when it was, and one at 15 to 18 when NoMore was said too. There is no call 19. What was said is said again.
    """
    scenario, found = four_nodes(), []
    for call, twice in ((7, 0), (10, 0), (11, 1), (14, 1), (15, 2), (18, 2), (19, 0)):
        for leave in studies.LEAVES:
            stopped = runs.trace({**scenario, "stops": [{"node": 0, "actor": 4, "call": call, "leave": leave}]})
            counted = len(stopped.posts), history.said_twice(stopped)
            if counted != (352 + twice, twice):
                found.append(f"four_nodes, {leave} at call {call}: counted {counted}, by hand {352 + twice, twice}")
    return found


def files(folder):
    """Which plots are not those of the tables, and which tables the document does not have as they come out."""
    found = []
    for name, draw in figures.PLOTS.items():
        path = folder / f"{name}.svg"
        if not path.is_file() or program.read_file(path) != draw(folder).svg().encode():
            found.append(f"{path} is not the plot of its table; tools/study --draw makes it")
    document = program.TOP / "docs" / "STUDY.md"
    stated = program.read_file(document).decode(errors="replace")
    for name, write in figures.TABLES.items():
        if write(folder) not in stated:
            found.append(f"{document} has not the table {name} as tools/study --tables prints it")
    return found


def check(runs, folder):
    """All that is wrong."""
    wrong = by_hand(runs) + restarts_by_hand(runs) + files(folder)
    for study in studies.STUDIES:
        keys = study.keys()
        wrong += tables.differences(study, folder, runs, keys[7 % len(keys)::AGAIN[study.name]])
    return wrong
