"""One power stop, or one call that fails, at each of the first calls of a disk, on one thread: of node 1 among four nodes, and of
one node alone.

Six calls make a journal, and four write an entry. 64 entries are folded into one by nine calls before the next. What an entry
says is posted behind its last call. An actor that stops begins again at once, and first posts all again that it had posted. One
whose call fails ends.

Among the four nodes the desk has three entries: Propose, NoMore and Closed. Lane 1 has nine. The first four are the shards of its
node's proposal; Echo; Ready; Delivered with what it begins round 0 with. The others are Aux; Pick with its share; Decided with
what it begins round 1 with, since its coins of rounds 0 and 1 are 1 and 1; its Aux; its Pick with its share.

The node alone closes fourteen epochs. By a model of the rules its lane casts 260 votes, in 156 entries of its journal, and its
desk 42 votes, in 15 entries. So the lane's disk is called 648 times, with folds at calls 263 to 271 and 524 to 532, and the
desk's 66 times. `tools/oracles/run journals_of_one` counts all this again.
"""
import functools
import itertools
import json

from hostile_rows.calls import ENDS, compare, read, read_legal
from hostile_rows.four_nodes import ALL, ledger, scenario, text
from hostile_rows.texts import Wrong

LEAVES = ("old", "new", "torn")
CALLS, FAULTS = range(1, 41), range(1, 61)
# The last call of the first entry of any journal.
FIRST_ENTRY = 10

# Node 1 of the four nodes. The last calls of its lane's entry with Decided and of the last entries of both actors.
NODE, LANE, DESK = 1, 1, 4
DECIDED, LAST = 34, {LANE: 42, DESK: 18}
NOBODY = b"accuse nodes 4 faulty 1 version 1 epochs 1\nend 0\n"

# The node alone, and its lane and its desk. How many votes these cast, how often their disks are called, and the calls at the two
# folds and around them.
ALONE = {"nodes": 1, "faulty": 0, "epochs": 14, "rounds": 12, "seed": 58}
OWN_LANE = 0
OWN_ACTORS = (OWN_LANE, 1)
VOTES = (260, 42)
TIMES = (648, 66)
FOLDS = (*range(260, 275), *range(521, 536))
# The second of two stops comes so much later, at the third call of the restart.
AGAIN = 3


def stop(node, actor, call, leave):
    return {"node": node, "actor": actor, "call": call, "leave": leave}


def place_of_again(posts, node, actor):
    """The place of an actor's first post that stands twice, if one does. From there on it has to post all that it had posted, in
    that order. Raises Wrong."""
    own = [post for post in posts if post[:2] == (node, actor)]
    first = next((place for place, post in enumerate(own) if post in own[:place]), None)
    if first is not None and own[first:2 * first] != own[:first]:
        raise Wrong(f"actor {actor} had {first} posts, and does not post just these again")
    return first


def check_again(posts, node, actor, is_again):
    """Whether an actor posts something twice is told. Where it does, it posts all again that it had posted, in that order."""
    first = place_of_again(posts, node, actor)
    if (first is not None) != is_again:
        raise Wrong(f"actor {actor} posts nothing twice" if is_again else f"actor {actor} posts its post {first} twice")


def check_stop(bench, actor, call):
    """Whatever a crash leaves, all nodes close all four batches, the history is legal, and nobody is accused."""
    for leave in LEAVES:
        given = scenario(stops=[stop(NODE, actor, call, leave)])
        wrong = compare(bench.ask(["run"], given), 0, text(ALL, ALL, ALL, ALL))
        wrong = wrong or compare(bench.ask(["accuse"], given), 0, NOBODY)
        if wrong:
            return f"what is left is {leave}: {wrong}"
        check_again(read_legal(bench, given), NODE, actor, FIRST_ENTRY < call <= LAST[actor])
    return None


def check_fault(bench, call):
    """Lane 1 of node 1 ends if this call of its disk is made. Up to the first entry it has sent no shard. Later the three other
    nodes are enough to deliver the proposal, and node 1 closes the epoch if the lane has decided by then."""
    given = scenario(faults=[{"node": NODE, "actor": LANE, "call": call}])
    if call > LAST[LANE]:
        return compare(bench.ask(["run"], given), 0, text(ALL, ALL, ALL, ALL))
    other = ALL if call > FIRST_ENTRY else "running\n" + ledger(0, 2, 3)
    own = "ended\nactor 1 journal\n" + (ledger(0, 1, 2, 3) if call > DECIDED else "")
    return compare(bench.ask(["run"], given), 0, text(other, own, other, other))


def alone(**keys):
    return json.dumps({**ALONE, **keys}).encode()


def whole():
    """The text of the node alone: an empty batch in each epoch."""
    epochs = "".join(f"epoch {epoch} batches 1\nbatch 0 txs 0\n" for epoch in range(ALONE["epochs"]))
    return f"run nodes 1 faulty 0 version 1 epochs {ALONE['epochs']}\nnode 0 running\n{epochs}end 0\n".encode()


def check_own_stops(bench, actor, call):
    """A stop at a call, and one more in the restart. Whatever the crashes leave, the node closes all epochs."""
    for leave in LEAVES:
        given = alone(stops=[stop(0, actor, call, leave), stop(0, actor, call + AGAIN, leave)])
        wrong = compare(bench.ask(["run"], given), 0, whole())
        if wrong:
            return f"what is left is {leave}: {wrong}"
        check_again(read_legal(bench, given), 0, actor, call > FIRST_ENTRY)
    return None


def check_own_fault(bench, actor, call, statuses, is_met=True):
    """The actor ends if this call of its disk is made, and it alone."""
    _, nodes = read(bench, "run", alone(faults=[{"node": 0, "actor": actor, "call": call}]), statuses)
    if nodes[0].causes != ([(actor, "journal")] if is_met else []):
        raise Wrong(f"with a fault at call {call} of actor {actor}, the actors {nodes[0].causes} have ended")


def check_times(bench, actor):
    """So often is a disk called: a fault at the last call is met, and one behind it is not."""
    check_own_fault(bench, actor, TIMES[actor], ENDS)
    check_own_fault(bench, actor, TIMES[actor] + 1, (0,), is_met=False)


def check_votes(bench):
    """How many votes the actors of the node alone cast."""
    posts = read_legal(bench, alone(), (0,))
    found = tuple(sum(post[1] == actor for post in posts) for actor in OWN_ACTORS)
    return None if found == VOTES else f"the votes of its actors are {found}"


def cases(bench):
    """Stops and faults among the four nodes, and then of the node alone."""
    for actor, call in itertools.product((LANE, DESK), CALLS):
        yield f"four nodes, actor {actor} stops at {call}", functools.partial(check_stop, bench, actor, call)
    for call in FAULTS:
        yield f"four nodes, call {call} of actor {LANE} fails", functools.partial(check_fault, bench, call)
    yield "alone, its votes", functools.partial(check_votes, bench)
    for actor in OWN_ACTORS:
        yield f"alone, how often the disk of actor {actor} is called", functools.partial(check_times, bench, actor)
        for call in FAULTS:
            yield f"alone, call {call} of actor {actor} fails", functools.partial(check_own_fault, bench, actor, call, (4,))
        for call in FAULTS:
            yield f"alone, actor {actor} stops at {call}", functools.partial(check_own_stops, bench, actor, call)
    for call in FOLDS:
        yield f"alone, actor {OWN_LANE} stops at {call}", functools.partial(check_own_stops, bench, OWN_LANE, call)
