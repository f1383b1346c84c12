"""Liars on one thread that hear so many posts: each answers these, and says nothing more. None tells more than 4,096 lies.

A liar that babbles answers each post that it hears with the byte FF. Where that was another node's it also says the bytes of that
post with the last bit turned. It says both to all, in the lane of the post. First in first out, posts come to it in their order.
"""
import functools
import json

from hostile_rows.calls import place_of_difference, read_legal
from hostile_rows.texts import Wrong

MOST_LIES, ALL = 4096, 4194304
HEARS = (0, 1, 3, 50, 100)
DROPPED = {"from": 0, "to": 3, "every": 1, "at": 0, "shape": "drop"}


def scenario(nodes, hears, **keys):
    """A run in which these nodes babble, each until it has heard so many posts."""
    liars = [{"node": node, "name": "babble", "hears": count} for node, count in hears.items()]
    submit = [{"node": node, "tx": f"613{node}"} for node in range(nodes)]
    told = {"nodes": nodes, "faulty": (nodes - 1) // 3, "epochs": 1, "submit": submit, "liars": liars, **keys}
    return json.dumps(told).encode()


def heard_by(node, posts, links):
    """The posts that come to a node that lies: those to all, to the node, and of the node to itself."""
    deaf = {link["from"] for link in links if link["to"] == node}
    return [post for post in posts
            if post[0] not in deaf and (post[2] in ("all", f"node {node}") or post[2] == "home" and post[0] == node)]


def answers(node, heard):
    """What a node says that babbles, where it hears these posts."""
    lies = []
    for sender, lane, _, code in heard:
        lies.append((node, lane, "all", "ff"))
        if sender != node:
            lies.append((node, lane, "all", f"{code[:-1]}{int(code[-1], 16) ^ 1:x}"))
    return lies[:MOST_LIES]


def check(bench, nodes, hears, keys):
    """Each liar has said what it answers to the first posts that came to it, as many as it hears, and nothing else."""
    posts = read_legal(bench, scenario(nodes, hears, **keys))
    for node, count in hears.items():
        heard = heard_by(node, posts, keys.get("links", []))[:count]
        if len(heard) < count < ALL:
            raise Wrong(f"only {len(heard)} posts come to node {node}")
        said, want = [post for post in posts if post[0] == node], answers(node, heard)
        if said != want:
            place = place_of_difference(said, want)
            return f"node {node} has {len(said)} posts in the place of {len(want)}; number {place} is the first that differs"
        if count == ALL and len(said) != MOST_LIES:
            return f"node {node} has {len(said)} posts, and a liar that never ends has {MOST_LIES}"
    return None


def cases(bench):
    """Liars at the last and at the first node, two of them, one to whom a node's posts are dropped, and some that never end."""
    for hears in (*HEARS, ALL):
        for node in (3, 0):
            yield f"node {node} hears {hears}", functools.partial(check, bench, 4, {node: hears}, {})
    yield "version 2", functools.partial(check, bench, 4, {3: 50}, {"version": 2})
    yield "deaf to node 0", functools.partial(check, bench, 4, {3: 50}, {"links": [DROPPED]})
    yield "two liars", functools.partial(check, bench, 7, {5: 3, 6: 50}, {})
    yield "two liars that never end", functools.partial(check, bench, 7, {2: ALL, 6: ALL}, {})
