"""On one thread nodes are started in their order, and deliveries come first in first out: the first posts show it."""
import functools
import json

from hostile_rows.calls import place_of_difference, post_at, read_legal

NODES = (1, 2, 3, 4, 5, 6, 7, 10, 16)
PROPOSE, VAL, ECHO = "10", "01", "02"


def scenario(nodes, liar, name):
    told = {"nodes": nodes, "faulty": (nodes - 1) // 3, "epochs": 1}
    told["submit"] = [{"node": node, "tx": f"{node:02x}"} for node in range(nodes)]
    if name:
        told["liars"] = [{"node": liar, "name": name}]
    return json.dumps(told).encode()


def shards(nodes, node):
    """The shards of a node, one for each."""
    return [(node, node, VAL)] * nodes


def wanted(nodes, liar, name):
    """The first posts, by node, actor and kind.

    At its start each desk proposes, and a liar that equivocates sends its shards, first those of the even nodes. Each proposal
    lets a lane send its shards, and each shard that reaches a correct node lets a lane echo it. All proposals are heard before
    the first shard of a correct node, and all shards before the first echo. So a liar's shards are heard where it was started.
    """
    posts, replies, echoes = [], [], []
    for node in range(nodes):
        correct = [other for other in range(nodes) if other != liar]
        if node != liar:
            posts.append((node, nodes, PROPOSE))
            replies += shards(nodes, node)
            echoes += [(other, node, ECHO) for other in correct]
        elif name == "equivocate":
            posts += shards(nodes, node)
            replies += [(other, node, ECHO) for other in sorted(correct, key=lambda other: other % 2)]
    # Beside one that equivocates its echoes are heard among the shards of those that started later.
    return posts + replies + (echoes if name != "equivocate" else [])


def check(bench, nodes, liar, name):
    """A run whose first posts are these, in this order."""
    want = wanted(nodes, liar, name)
    found = [(node, actor, code[:2]) for node, actor, _, code in read_legal(bench, scenario(nodes, liar, name))][: len(want)]
    if found != want:
        place = place_of_difference(found, want)
        return f"post {place} is {post_at(found, place)} (node, actor, kind) in the place of {want[place]}"
    return None


def cases(bench):
    """Runs of one to sixteen nodes, and of four and of seven beside a liar at one place after another."""
    for nodes in NODES:
        yield f"{nodes} nodes", functools.partial(check, bench, nodes, None, None)
    for name in ("silent", "equivocate"):
        for nodes, places in ((4, range(4)), (7, (0, 3, 6))):
            for liar in places:
                yield f"{nodes} nodes, {name} at {liar}", functools.partial(check, bench, nodes, liar, name)
