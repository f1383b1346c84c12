"""Two power stops, one right behind the other, at each of the first calls of a desk's disk, with all that they may leave.

And the same of a lane with workers, at calls that the lane's disk has in every schedule.
"""
import collections
import functools
import itertools

from hostile_rows import four_nodes
from hostile_rows.calls import compare, read_legal
from hostile_rows.texts import Wrong

LEAVES = ("old", "new", "torn")
CALLS = range(1, 41)
NODE, LANE, DESK = 1, 1, 4
# Six calls make a journal, and four each entry. A desk has three: of Propose, NoMore and Closed, in this order.
# A vote is posted behind the last call of its entry. By kind, these calls; there is no call behind that of Closed.
BEFORE = {"10": 10, "11": 14, "12": 18}
LAST = 18
# The first entry of a node's own lane has its four shards, so these are sent with call 10. At least those of Echo, Delivered,
# Aux and Pick come later in every schedule, so each lane's disk has the calls up to 26.
SHARDS, LANE_CALLS = 4, range(11, 23)


def text(is_lying):
    """What every schedule prints beside a liar that says nothing, and one thread without a liar."""
    return four_nodes.text_beside(3) if is_lying else four_nodes.text(*[four_nodes.ALL] * 4)


def check_posts(posts, first):
    """What the desk had posted before its disk stopped stands twice, and nothing else of it or of other actors does."""
    counts = collections.Counter((node, actor, code) for node, actor, to, code in posts)
    for (node, actor, code), count in counts.items():
        is_said_again = (node, actor) == (NODE, DESK) and BEFORE.get(code[:2], LAST) < first <= LAST
        if count != 1 + is_said_again:
            raise Wrong(f"a post of kind {code[:2]} of actor {actor} of node {node} stands {count} times")
    kinds = {code[:2] for node, actor, code in counts if (node, actor) == (NODE, DESK)}
    if kinds != set(BEFORE):
        raise Wrong(f"the desk that stops has posts of the kinds {sorted(kinds)}")


def check_lane_posts(posts):
    """The shards of the lane that stops stand twice. Nothing stands three times, and no other actor says anything twice."""
    counts = collections.Counter((node, actor, code) for node, actor, to, code in posts)
    for (node, actor, code), count in counts.items():
        is_own = (node, actor) == (NODE, LANE)
        most, least = 1 + is_own, 1 + (is_own and code.startswith("01"))
        if not least <= count <= most:
            raise Wrong(f"a post of kind {code[:2]} of actor {actor} of node {node} stands {count} times")
    shards = sum(post[:2] == (NODE, LANE) and post[3].startswith("01") for post in posts)
    if shards != 2 * SHARDS:
        raise Wrong(f"the lane that stops has sent {shards} shards")


def check(bench, actor, stops, workers, is_lying):
    """One pair of stops."""
    liars = [{"node": 3, "name": "silent"}] if is_lying else []
    planned = [{"node": NODE, "actor": actor, "call": call, "leave": leave} for call, leave in stops]
    given = four_nodes.scenario(workers=workers, liars=liars, stops=planned)
    wrong = compare(bench.ask(["run"], given), 0, text(is_lying))
    if wrong:
        return f"run: {wrong}"
    posts = read_legal(bench, given)
    if actor == DESK:
        check_posts(posts, stops[0][0])
    else:
        check_lane_posts(posts)
    return None


def name_of(call, pair):
    return f"stops at {call} and {call + 1} that leave {pair[0]} and {pair[1]}"


def cases(bench):
    """One thread with every pair of leaves, and workers beside a liar, where no schedule changes the text."""
    for call in CALLS:
        for pair in itertools.product(LEAVES, LEAVES):
            stops = list(zip((call, call + 1), pair))
            yield f"{name_of(call, pair)}, one thread", functools.partial(check, bench, DESK, stops, 0, False)
    for call, leave, workers in itertools.product(CALLS, LEAVES, (1, 4)):
        stops = [(call, leave), (call + 1, leave)]
        name = f"{name_of(call, (leave, leave))}, {workers} workers beside a liar"
        yield name, functools.partial(check, bench, DESK, stops, workers, True)
    for call, leave, workers in itertools.product(LANE_CALLS, LEAVES, (1, 4)):
        stops = [(call, leave), (call + 1, leave)]
        name = f"a lane, {name_of(call, (leave, leave))}, {workers} workers"
        yield name, functools.partial(check, bench, LANE, stops, workers, True)
