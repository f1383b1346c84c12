"""What the six kinds of liars say, by name. A lie is its actor, where it goes, and its bytes.

silent: nothing. equivocate, at its start and for each epoch, in the lane of its own number: a valid Val of the batch of the one
transaction 41 to each even node, and one of 42 to each odd node. echo_split, on a Val for itself: its Echo to each even node,
and a Ready of 32 bytes FF to each odd one. bval_both, on the first Bval of a lane, epoch and round: Bval 0, Bval 1, Aux 0 and
Aux 1 to all. false_share, on the first Coin of a lane, epoch and round: a Coin of zeros to all. babble: the byte FF to all, and,
where the post is of another node and not empty, that post with its last bit turned, to all. Each answers in the lane of the
post that it hears, and says nothing where that post is of no lane.
"""
import codes
import trees
import votes


class Liar:
    """A node that lies, in the seat of a node of a run."""

    def __init__(self, name, n, f, epochs, version, node):
        self.name, self.n, self.f, self.epochs, self.version, self.node = name, n, f, epochs, version, node
        self.answered = set()

    def nodes(self, first):
        return range(first, self.n, 2)

    def start(self):
        if self.name != "equivocate":
            return []
        return [lie for epoch in range(self.epochs) for lie in self.two_values(epoch)]

    def two_values(self, epoch):
        for first, letter in ((0, b"\x41"), (1, b"\x42")):
            shards = codes.encode(self.n, self.n - 2 * self.f, votes.batch([letter]))
            for m in self.nodes(first):
                val = votes.vote("Val", epoch, target=m, root=trees.root_of(shards), shard=shards[m],
                                 branch=trees.branch_of(shards, m))
                yield self.node, f"Node({m})", votes.spelled(val)

    def hear(self, sender, actor, data):
        if actor >= self.n:
            return []
        if self.name == "babble":
            turned = [data[:-1] + bytes([data[-1] ^ 1])] if sender != self.node and data else []
            return [(actor, "All", said) for said in [b"\xff", *turned]]
        heard = votes.read(self.n, self.version, data)
        answer = {"echo_split": self.split, "bval_both": self.both, "false_share": self.show}.get(self.name)
        return list(answer(actor, heard)) if heard and answer else []

    def split(self, actor, heard):
        if heard["kind"] != "Val" or heard["target"] != self.node:
            return
        echo = votes.spelled({**heard, "kind": "Echo"})
        yield from ((actor, f"Node({m})", echo) for m in self.nodes(0))
        ready = votes.spelled(votes.vote("Ready", heard["epoch"], root=b"\xff" * 32))
        yield from ((actor, f"Node({m})", ready) for m in self.nodes(1))

    def is_first(self, actor, heard, kind):
        place = (actor, heard["epoch"], heard.get("round"))
        if heard["kind"] != kind or place in self.answered:
            return False
        self.answered.add(place)
        return True

    def both(self, actor, heard):
        if self.is_first(actor, heard, "Bval"):
            for kind in ("Bval", "Aux"):
                for bit in (0, 1):
                    yield actor, "All", votes.spelled({**heard, "kind": kind, "bit": bit})

    def show(self, actor, heard):
        if self.is_first(actor, heard, "Coin"):
            zeros = (bytes(32),) * trees.height(self.n)
            yield actor, "All", votes.spelled({**heard, "share": 0, "salt": bytes(16), "branch": zeros})
