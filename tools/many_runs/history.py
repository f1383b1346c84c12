"""Reads the texts that the program prints, and counts what stands in them.

It counts the posts of nodes that do not lie: each of these spells a vote, by its first byte the kind, by its second the epoch, and
of the votes of an agreement by its third the round.
"""
import collections

KINDS = {
    "01": "Val", "02": "Echo", "03": "Ready", "04": "Delivered", "05": "Est", "06": "Bval", "07": "Aux", "0b": "Conf",
    "08": "Pick", "09": "Coin", "0a": "Decided", "10": "Propose", "11": "NoMore", "12": "Closed",
}

# `hex` is the vote in hexadecimal digits.
Post = collections.namedtuple("Post", "node actor to hex")
History = collections.namedtuple("History", "nodes liars posts")


def read(text):
    """The history in a text that `trace` printed."""
    lines = text.split("\n")
    words = lines[0].split()
    marks = int(words[words.index("liars") + 1])
    nodes = int(words[words.index("nodes") + 1])
    posts = []
    for line in lines[1:-2]:
        _, _, _, node, _, actor, _, address = line.split(" ", 7)
        to, _, code = address.rpartition(" ")
        posts.append(Post(int(node), int(actor), to, code))
    return History(nodes, {node for node in range(nodes) if marks >> node & 1}, posts)


def votes(history):
    """The posts of nodes that do not lie."""
    return [post for post in history.posts if post.node not in history.liars]


def others_reached(history, post):
    """How many other nodes a post goes to."""
    if post.to == "all":
        return history.nodes - 1
    if post.to.startswith("node "):
        return int(int(post.to[5:]) != post.node)
    return 0


def costs(history):
    """By kind: posts, messages to other nodes, and bytes in these messages."""
    found = {name: [0, 0, 0] for name in KINDS.values()}
    for post in votes(history):
        reached = others_reached(history, post)
        cost = found[KINDS[post.hex[:2]]]
        cost[0] += 1
        cost[1] += reached
        cost[2] += reached * (len(post.hex) // 2)
    return found


def deciding_rounds(history):
    """By epoch and lane: the rounds, from 1 on, in which the nodes that do not lie decided, and None for one that did not.

    A lane decides by what it has picked in a round, before it picks in the next: so its last Pick tells the round.
    """
    picked, decided = {}, collections.defaultdict(dict)
    for post in votes(history):
        kind, place = KINDS[post.hex[:2]], (post.hex[2:4], post.actor, post.node)
        if kind == "Pick":
            # What is said twice after a restart must not lower the round.
            picked[place] = max(picked.get(place, 0), int(post.hex[4:6], 16))
        elif kind == "Decided":
            decided[int(post.hex[2:4], 16), post.actor].setdefault(post.node, picked[place] + 1)
    correct = [node for node in range(history.nodes) if node not in history.liars]
    lanes = {(epoch, lane) for epoch, _ in decided for lane in range(history.nodes)}
    return {place: [decided[place].get(node) for node in correct] for place in sorted(lanes)}


def said_twice(history):
    """How many posts are of a node that does not lie and say again what the same actor had said."""
    said = collections.Counter((post.node, post.actor, post.hex) for post in votes(history))
    return sum(count - 1 for count in said.values())


def ledgers(text):
    """Of a text that `run` printed: for each node that runs, the set of nodes whose batches each of its epochs has."""
    found, node = {}, None
    for line in text.splitlines():
        words = line.split()
        if words[0] == "node":
            node = int(words[1])
            if words[2] == "running":
                found[node] = []
        elif words[0] == "epoch":
            found.setdefault(node, []).append(set())
        elif words[0] == "batch":
            found[node][-1].add(int(words[1]))
    return found


def transactions(text):
    """Of a text that `run` printed: how many different transactions the first ledger in it has."""
    first = text.split("\nnode ")[1]
    return sum(line.startswith("tx ") for line in first.splitlines())
