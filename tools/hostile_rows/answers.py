"""What a node that lies posts, on one thread and by workers, where it hears 0, 1, 3, 50 and 100 posts, and where it hears all.

Workers choose in which order a liar hears, but no schedule changes how much it may say. On one thread, first in first out, it
hears the first posts of the history that reach it, so there its answers are those that these call for. What each kind says is
told in docs/SCENARIOS.md. Where a liar hears all that reaches its node, its answers are as many as what others post calls for.
That shows too that the workers have carried each post, since a liar hears nothing of what the last deliveries bring about.
"""
import collections
import functools
import json

from hostile_rows import four_nodes
from hostile_rows.calls import ENDS, compare, read, read_legal
from hostile_rows.texts import Wrong

ALL, SPENT = 4194304, 4096
HEARS = (0, 1, 3, 50, 100, ALL)
WORKERS = (0, 1, 4)
VAL, BVAL, COIN = "01", "06", "09"
FALSE_ROOT = "ff" * 32

Post = collections.namedtuple("Post", "node actor to code")


def scenario(name, hears, workers, nodes=4, epochs=1):
    """The last of the nodes lies."""
    return json.dumps({
        "nodes": nodes, "faulty": (nodes - 1) // 3, "epochs": epochs, "workers": workers,
        "submit": [{"node": node, "tx": f"61{node:02x}"} for node in range(nodes)],
        "liars": [{"node": nodes - 1, "name": name, "hears": hears}],
    }).encode()


class History:
    """The posts of a run in which the last node lies: its own, and the first that reach it, with those of others among them."""

    def __init__(self, posts, nodes, epochs, most=ALL):
        posts = [Post(*post) for post in posts]
        self.nodes, self.epochs, self.liar = nodes, epochs, nodes - 1
        self.own = [post for post in posts if post.node == self.liar]
        self.reaching = [post for post in posts if post.to in ("all", f"node {self.liar}")][:most]
        self.heard = [post for post in self.reaching if post.node != self.liar]

    def rounds(self, kind):
        """The lane, the epoch and the round of each vote of this kind that others post."""
        return {(post.actor, post.code[2:4], post.code[4:6]) for post in self.heard if post.code.startswith(kind)}

    def groups(self, size):
        """The posts of the liar, so many at a time."""
        if len(self.own) % size:
            raise Wrong(f"the liar has {len(self.own)} posts, and answers with {size} each time")
        return [self.own[first:first + size] for first in range(0, len(self.own), size)]


def check_number(found, hears, calls, history):
    """So many answers are no more than posts were heard, and all that are called for where all were."""
    if found > min(hears, calls):
        raise Wrong(f"the liar hears {hears} posts, of which {calls} call for an answer, and has given {found}")
    if hears >= len(history.reaching) and found < calls:
        raise Wrong(f"the liar hears all posts, of which {calls} call for an answer, and has given {found}")


def check_silent(history, _hears):
    if history.own:
        raise Wrong(f"a liar that says nothing has {len(history.own)} posts")


def check_equivocate(history, _hears):
    """A shard to each node in each epoch, the even ones first, and nothing after that."""
    targets = [*range(0, history.nodes, 2), *range(1, history.nodes, 2)] * history.epochs
    found = [(post.actor, post.to, post.code[:2]) for post in history.own]
    if found != [(history.liar, f"node {target}", VAL) for target in targets]:
        raise Wrong(f"the liar has {len(found)} posts, and not a shard for each node")


def check_echo_split(history, hears):
    """An answer to each shard for the node: an echo to each even node, and a Ready to each odd one."""
    evens, odds = range(0, history.nodes, 2), range(1, history.nodes, 2)
    groups = history.groups(history.nodes)
    for group in groups:
        lane, echo = group[0].actor, group[0].code
        wanted = [(lane, f"node {node}", echo) for node in evens]
        wanted += [(lane, f"node {node}", f"03{echo[2:4]}{FALSE_ROOT}") for node in odds]
        if [post[1:] for post in group] != wanted or not echo.startswith("02"):
            raise Wrong("an answer is not an echo for even nodes and a Ready for odd ones")
    lanes = {(group[0].actor, group[0].code[2:4]) for group in groups}
    calls = {(post.actor, post.code[2:4]) for post in history.heard if post.code.startswith(VAL)}
    if len(lanes) < len(groups) or not lanes <= calls:
        raise Wrong("a shard is answered twice, or one that nobody has sent")
    check_number(len(groups), hears, len(calls), history)


def check_rounds(history, hears, kind, size, answers):
    """An answer to each round of which it hears a vote of this kind, by so many posts."""
    groups, told = history.groups(size), set()
    for group in groups:
        lane, code = group[0].actor, group[0].code
        if [post[1:3] for post in group] != [(lane, "all")] * size or not answers(code[2:6], [post.code for post in group]):
            raise Wrong("an answer has not the votes that it is to have")
        told.add((lane, code[2:4], code[4:6]))
    calls = history.rounds(kind)
    if len(told) < len(groups) or not told <= calls:
        raise Wrong("a round is answered twice, or one that nobody has begun")
    check_number(len(groups), hears, len(calls), history)


def check_bval_both(history, hears):
    def answers(at, codes):
        return codes == [f"{kind}{at}{bit}" for kind in (BVAL, "07") for bit in ("00", "01")]
    check_rounds(history, hears, BVAL, 4, answers)


def check_false_share(history, hears):
    def answers(at, codes):
        return codes[0].startswith(f"{COIN}{at}") and set(codes[0][6:]) == {"0"}
    check_rounds(history, hears, COIN, 1, answers)


def check_babble(history, hears):
    """The byte FF for each post that it hears, its own too, and behind it a bent one where that was another's."""
    signs = sum(post.code == "ff" for post in history.own)
    # It answers its own posts, so it always has another one to hear.
    if hears == ALL and len(history.own) != SPENT or hears != ALL and signs != hears:
        raise Wrong(f"the liar hears {hears} posts, and has answered {signs} by {len(history.own)} posts")
    bent = collections.Counter()
    for before, post in zip([None, *history.own], history.own):
        if post.code != "ff":
            bent[post.actor, post.code[:-1] + f"{int(post.code[-1], 16) ^ 1:x}"] += 1
        if post.to != "all" or (post.code != "ff" and (before is None or before[1:] != (post.actor, "all", "ff"))):
            raise Wrong("what the liar says is not FF and then a bent post")
    if bent - collections.Counter((post.actor, post.code) for post in history.heard):
        raise Wrong("a post is bent twice, or one that nobody has sent")


CHECKS = {"silent": check_silent, "equivocate": check_equivocate, "echo_split": check_echo_split,
          "bval_both": check_bval_both, "false_share": check_false_share, "babble": check_babble}


def check(bench, name, hears, workers):
    """What a liar among four nodes says that hears so much."""
    posts = read_legal(bench, scenario(name, hears, workers))
    CHECKS[name](History(posts, 4, 1, ALL if workers else hears), hears)
    return None


def check_large(bench, name, workers):
    """Sixteen nodes over three epochs, in which some 10,000 posts reach each node: the liar answers to the end."""
    _, posts = read(bench, "trace", scenario(name, ALL, workers, 16, 3), ENDS)
    CHECKS[name](History(posts, 16, 3), ALL)
    return None


def check_text(bench, name, liar, workers):
    """No kind broadcasts a value that a correct node delivers, so the others agree on the batches of the three of them."""
    given = four_nodes.scenario(workers=workers, liars=[{"node": liar, "name": name}])
    return compare(bench.ask(["run"], given), 0, four_nodes.text_beside(liar))


def check_two(bench, sender, babbler):
    """Two liars among seven nodes: each speaks at its own node, in whichever order the scenario names them. What reaches the one
    that babbles first is a shard."""
    liars = [{"node": sender, "name": "equivocate", "hears": 0}, {"node": babbler, "name": "babble", "hears": 1}]
    posts = read_legal(bench, json.dumps({"nodes": 7, "faulty": 2, "epochs": 1, "liars": liars}).encode())
    for node, want in ((sender, [VAL] * 7), (babbler, ["ff", VAL])):
        said = [code[:2] for other, _, _, code in posts if other == node]
        if said != want:
            return f"node {node} has {len(said)} posts, of the kinds {said[:8]} first, in the place of {want}"
    return None


def cases(bench):
    """Each kind with each of these numbers, the text of a run beside it at the last and at the first node, two kinds in a large
    run, and two liars."""
    for workers in WORKERS:
        for name in CHECKS:
            for hears in HEARS:
                yield f"{name} hears {hears}, {workers} workers", functools.partial(check, bench, name, hears, workers)
            for liar in (3, 0):
                case = functools.partial(check_text, bench, name, liar, workers)
                yield f"the text beside {name} at {liar}, {workers} workers", case
        for name in ("bval_both", "false_share") if workers else ():
            yield f"{name} among sixteen, {workers} workers", functools.partial(check_large, bench, name, workers)
    for sender, babbler in ((5, 6), (6, 5)):
        yield f"two liars, {sender} equivocates", functools.partial(check_two, bench, sender, babbler)
