"""Whether a post of a correct node may follow a history: whether its bytes spell a vote that goes where such a vote goes, and
that its actor has cast already or the rules allow, by what the actor has cast and heard. A post is its node, its actor, where it
goes and its bytes. All counts are of distinct nodes.
"""
import itertools

import codes
import trees
import votes
from coins import Deal


def reaches(to, sender, actor, node, at, n):
    """Whether a post reaches an actor of a node."""
    if to == "To::Home":
        return node == sender and (at == n) != (actor == n) and max(at, actor) <= n
    if to == "To::All":
        return at == actor
    return isinstance(to, tuple) and at == actor and node == to[1]


class History:
    """The posts of a run so far, and what they let its actors do."""

    def __init__(self, n, f, epochs, rounds, version, seed, liars=()):
        self.n, self.f, self.k, self.epochs, self.rounds, self.version = n, f, n - 2 * f, epochs, rounds, version
        self.liars, self.posts, self.deal = liars, [], Deal(seed, n, f, epochs, rounds)

    def own(self, node, actor):
        found = (votes.read(self.n, self.version, data) for sender, at, _, data in self.posts if (sender, at) == (node, actor))
        return [vote for vote in found if vote]

    def heard(self, node, at):
        """The votes that an actor takes heed of, each with the node, or at a desk the lane, that it comes from."""
        lane_kinds = ("Echo", "Ready", "Bval", "Aux", "Coin") + (("Conf",) if self.version == 2 else ())
        for sender, actor, to, data in self.posts:
            vote = votes.read(self.n, self.version, data) if reaches(to, sender, actor, node, at, self.n) else None
            if vote is None or vote["epoch"] >= self.epochs or vote.get("round", 0) >= self.rounds:
                continue
            if at == self.n:
                is_heeded = vote["kind"] in ("Delivered", "Decided") and sender == node
            elif vote["kind"] == "Val":
                is_heeded = sender == at and vote["target"] == node
            else:
                is_of_desk = vote["kind"] in ("Propose", "NoMore") and (sender, actor) == (node, self.n)
                is_heeded = vote["kind"] in lane_kinds or is_of_desk
            if is_heeded:
                yield (actor if at == self.n else sender), vote

    def may_follow(self, post):
        node, actor, to, data = post
        if node >= self.n:
            return False
        if node in self.liars:
            return True
        vote = votes.read(self.n, self.version, data)
        if vote is None or actor > self.n or to != votes.address(vote):
            return False
        own = self.own(node, actor)
        if vote in own:
            return True
        rules = DeskRules if actor == self.n else LaneRules
        return rules(self, node, actor, own, vote["epoch"]).allow(vote)


class Rules:
    """What an actor has cast and heard in an epoch."""

    def __init__(self, history, node, actor, own, epoch):
        self.run, self.node, self.actor, self.epoch, self.cast = history, node, actor, epoch, own
        self.own = [vote for vote in own if vote["epoch"] == epoch]
        self.heard = [(sender, vote) for sender, vote in history.heard(node, actor) if vote["epoch"] == epoch]

    def has(self, kind, **fields):
        return any(vote["kind"] == kind and all(vote[k] == v for k, v in fields.items()) for vote in self.own)

    def said(self, kind, **fields):
        """The nodes that were heard with such a vote."""
        return {sender for sender, vote in self.heard
                if vote["kind"] == kind and all(vote[k] == v for k, v in fields.items())}

    def allow(self, vote):
        rule = getattr(self, vote["kind"].lower(), None)
        return rule is not None and rule(vote)


class LaneRules(Rules):
    """What a lane may cast."""

    def codewords(self, root):
        """The codewords of this root through the shards of k nodes with valid echoes of it, and how many such nodes there are."""
        echoes = {sender: vote["shard"] for sender, vote in self.heard if vote["kind"] == "Echo" and vote["root"] == root
                  and trees.is_branch(root, self.run.n, sender, vote["shard"], vote["branch"])}
        found = []
        for nodes in itertools.combinations(sorted(echoes), self.run.k):
            shards = [echoes[node] for node in nodes]
            if len({len(shard) for shard in shards}) == 1:
                word = codes.codeword(self.run.n, nodes, shards)
                found += [word] if trees.root_of(word) == root else []
        return found, len(echoes)

    def val(self, vote):
        wanted = [said["value"] for _, said in self.heard if said["kind"] == "Propose"]
        words = [codes.encode(self.run.n, self.run.k, value) for value in wanted]
        m = vote["target"]
        shown = (vote["root"], vote["shard"], vote["branch"])
        return (self.node == self.actor and not self.has("Val", target=m)
                and any(shown == (trees.root_of(word), word[m], tuple(trees.branch_of(word, m))) for word in words))

    def echo(self, vote):
        shown = {key: vote[key] for key in ("root", "shard", "branch")}
        is_valid = trees.is_branch(vote["root"], self.run.n, self.node, vote["shard"], vote["branch"])
        return is_valid and bool(self.said("Val", **shown)) and not self.has("Echo")

    def ready(self, vote):
        words, count = self.codewords(vote["root"])
        by_echoes = count >= self.run.n - self.run.f and bool(words)
        return not self.has("Ready") and (by_echoes or len(self.said("Ready", root=vote["root"])) > self.run.f)

    def delivered(self, vote):
        roots = {said["root"] for _, said in self.heard if said["kind"] == "Ready"}
        roots = [root for root in roots if len(self.said("Ready", root=root)) > 2 * self.run.f]
        values = [codes.value_of(self.run.k, word) for root in roots for word in self.codewords(root)[0]]
        return not self.has("Delivered") and vote["value"] in values

    def coin_of(self, r):
        """The coin of a round by the shares that were heard, or None."""
        if r >= self.run.rounds:
            return None
        place = (self.epoch, self.actor, r)
        root = self.run.deal.root(*place)
        good = {sender: said["share"] for sender, said in self.heard if said["kind"] == "Coin" and said["round"] == r
                and trees.is_branch(root, self.run.n, sender, bytes([said["share"]]) + said["salt"], said["branch"])}
        nodes = sorted(good)[:self.run.f + 1]
        if len(nodes) <= self.run.f:
            return None
        return codes.value_at([node + 1 for node in nodes], [good[node] for node in nodes], 0) & 1

    def est(self, vote):
        r, b = vote["round"], vote["bit"]
        if r >= self.run.rounds or self.has("Est", round=r):
            return False
        if r == 0:
            return self.has("Delivered") if b else bool(self.said("NoMore"))
        coin = self.coin_of(r - 1)
        is_picked = self.has("Pick", round=r - 1, set=b + 1)
        return coin is not None and (is_picked or self.has("Pick", round=r - 1, set=3) and coin == b)

    def bval(self, vote):
        r, b = vote["round"], vote["bit"]
        by_others = self.has("Est", round=r) and len(self.said("Bval", round=r, bit=b)) > self.run.f
        return (self.has("Est", round=r, bit=b) or by_others) and not self.has("Bval", round=r, bit=b)

    def is_supported(self, r, b):
        return len(self.said("Bval", round=r, bit=b)) > 2 * self.run.f

    def aux(self, vote):
        r, b = vote["round"], vote["bit"]
        return self.has("Est", round=r) and self.is_supported(r, b) and not self.has("Aux", round=r)

    def are_left(self, kind, r, bits):
        """Whether these bits are left, by what nodes say in votes of a kind, of which an own one is cast."""
        quorum = self.run.n - self.run.f
        single = [self.said(kind, round=r, **({"bit": b} if kind == "Aux" else {"set": b + 1})) for b in (0, 1)]
        both = self.said(kind, round=r, set=3) if kind == "Conf" else set()
        chosen = [b for b in (0, 1) if bits >> b & 1]
        if not self.has(kind, round=r) or not all(self.is_supported(r, b) for b in chosen):
            return False
        if len(chosen) == 1:
            return len(single[chosen[0]]) >= quorum
        return all(some | both for some in single) and len(single[0] | single[1] | both) >= quorum

    def conf(self, vote):
        return self.are_left("Aux", vote["round"], vote["set"]) and not self.has("Conf", round=vote["round"])

    def pick(self, vote):
        kind = "Conf" if self.run.version == 2 else "Aux"
        return self.are_left(kind, vote["round"], vote["set"]) and not self.has("Pick", round=vote["round"])

    def coin(self, vote):
        r = vote["round"]
        if r >= self.run.rounds or not self.has("Pick", round=r) or self.has("Coin", round=r):
            return False
        place, deal = (self.epoch, self.actor, r, self.node), self.run.deal
        shown = (vote["share"], vote["salt"], vote["branch"])
        return shown == (deal.share(*place), deal.salt(*place), tuple(deal.branch(*place)))

    def decided(self, vote):
        picked = [said["round"] for said in self.own if said["kind"] == "Pick" and said["set"] == vote["bit"] + 1]
        return not self.has("Decided") and any(self.coin_of(r) == vote["bit"] for r in picked)


class DeskRules(Rules):
    """What a desk may cast."""

    def is_open(self):
        return self.epoch == 0 or any(vote["kind"] == "Closed" and vote["epoch"] == self.epoch - 1 for vote in self.cast)

    def propose(self, vote):
        return self.is_open() and self.epoch < self.run.epochs and not self.has("Propose")

    def nomore(self, vote):
        return len(self.said("Decided", bit=1)) >= self.run.n - self.run.f and not self.has("NoMore")

    def closed(self, vote):
        ones = sorted(self.said("Decided", bit=1))
        is_backed = all(self.said("Delivered", value=value) & {lane} for lane, value in vote["list"])
        return (self.is_open() and not self.has("Closed") and len(self.said("Decided")) == self.run.n
                and [lane for lane, _ in vote["list"]] == ones and is_backed)
