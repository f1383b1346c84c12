"""What a lane owes in one epoch, by the rows of the rules, which are gone through in order, again and again, until no row gives a
vote. All counts are of distinct nodes; n - f is a quorum.

Broadcast, in the lane of its sender: V, a shard to each node, once the own desk has proposed. O, an echo of the first shard that
was sent to the node. R, ready: by n - f echoes, or by f + 1 that are ready. L, delivered: by 2f + 1 that are ready and k echoes.
All nodes show shards of one value here.

Agreement: E, an estimate. B, support for a bit. A, a bit that is accepted. C, in version 2 alone, a set that is confirmed. P, the
set that is left. S, the own share of the round's coin. D, what is decided. A vote is its letter, its round or target, and a bit,
a set of bits as a number (1 for {0}, 2 for {1}, 3 for both), or whether a share is good.
"""


class Numbers:
    """The numbers of a run, and the bits of its coins in an epoch and lane."""

    def __init__(self, n, f, rounds, version, coins):
        self.n, self.f, self.k, self.rounds, self.version, self.coins = n, f, n - 2 * f, rounds, version, coins
        self.quorum = n - f


class Agreement:
    """A node in one agreement: what it has cast, and which nodes it has heard with each vote, as the bits of a number."""

    def __init__(self, numbers):
        self.numbers, self.own, self.has, self.heard, self.inputs = numbers, [], set(), {}, set()
        self.entered = -1
        self.rows = list(self.all_rows())
        self.rows_by = {(letter, r): self.rows_that_read(letter, r) for letter in "BACS" for r in range(numbers.rounds)}

    def count(self, *claims):
        """How many nodes were heard with one of these votes at least."""
        found = 0
        for claim in claims:
            found |= self.heard.get(claim, 0)
        return found.bit_count()

    def is_supported(self, r, b):
        return self.count(("B", r, b)) >= 2 * self.numbers.f + 1

    def coin(self, r):
        return self.numbers.coins[r] if self.count(("S", r, True)) >= self.numbers.f + 1 else None

    def are_left(self, letter, single, r, bits):
        """Whether these bits are left, by what nodes say in votes of a letter; `single` is what they say of one bit alone."""
        quorum, both = self.numbers.quorum, [(letter, r, single(0)), (letter, r, single(1))]
        if bits != 3:
            return self.is_supported(r, bits - 1) and self.count(both[bits - 1]) >= quorum
        either = both + ([(letter, r, 3)] if letter == "C" else [])
        with_bit = [[claim, *either[2:]] for claim in both]
        return (self.is_supported(r, 0) and self.is_supported(r, 1) and all(self.count(*claims) for claims in with_bit)
                and self.count(*either) >= quorum and all(self.count(claim) < quorum for claim in both))

    # each row answers the vote that it makes owed, if any

    def begin(self, b):
        return ("E", 0, b) if b in self.inputs and ("E", 0) not in self.has else None

    def support(self, r, b):
        if ("E", r) not in self.has or ("B", r, b) in self.has:
            return None
        is_due = ("E", r, b) in self.has or self.count(("B", r, b)) >= self.numbers.f + 1
        return ("B", r, b) if is_due else None

    def accept(self, r):
        if ("A", r) in self.has or ("E", r) not in self.has:
            return None
        return next((("A", r, b) for b in (1, 0) if self.is_supported(r, b)), None)

    def confirm(self, r, bits):
        if ("C", r) in self.has or ("A", r) not in self.has:
            return None
        return ("C", r, bits) if self.are_left("A", lambda b: b, r, bits) else None

    def pick(self, r, bits):
        letter = "C" if self.numbers.version == 2 else "A"
        if ("P", r) in self.has or (letter, r) not in self.has:
            return None
        single = (lambda b: b + 1) if letter == "C" else (lambda b: b)
        return ("P", r, bits) if self.are_left(letter, single, r, bits) else None

    def show(self, r):
        return ("S", r, True) if ("P", r) in self.has and ("S", r) not in self.has else None

    def go_on(self, r):
        """The next estimate: the bit that is left, or the coin where both are. None after a round in which the coin is the bit
        that was decided in an earlier round."""
        coin = self.coin(r)
        if coin is None or ("P", r) not in self.has or ("E", r + 1) in self.has:
            return None
        is_settled = any(("P", s, coin + 1) in self.has and self.coin(s) == coin for s in range(r))
        if ("D", 0, coin) in self.has and is_settled:
            return None
        return "E", r + 1, next((b for b in (0, 1) if ("P", r, b + 1) in self.has), coin)

    def decide(self, r):
        coin = self.coin(r)
        is_due = coin is not None and ("P", r, coin + 1) in self.has and ("D", 0) not in self.has
        return ("D", 0, coin) if is_due else None

    def rows_that_read(self, letter, r):
        """The rows of a round that look at votes of this letter that are heard."""
        left = (self.confirm, self.pick) if self.numbers.version == 2 else (self.pick, self.pick)
        readers = {"B": (self.support, self.accept, *left), "A": left[:1], "C": left[1:], "S": (self.go_on, self.decide)}
        return [(row, at) for row, at in self.rows if row in readers[letter] and at[0] == r]

    def all_rows(self):
        rounds = range(self.numbers.rounds)
        yield from ((self.support, (r, b)) for r in rounds for b in (0, 1))
        yield from ((self.accept, (r,)) for r in rounds)
        for row in (self.confirm, self.pick) if self.numbers.version == 2 else (self.pick,):
            yield from ((row, (r, bits)) for r in rounds for bits in (1, 2))
            yield from ((row, (r, 3)) for r in rounds)
        yield from ((self.show, (r,)) for r in rounds)
        yield from ((self.go_on, (r,)) for r in rounds[:-1])
        yield from ((self.decide, (r,)) for r in rounds)

    def cast(self, vote):
        self.own.append(vote)
        self.has |= {vote, vote[:2]}
        if vote[0] == "E":
            self.entered = max(self.entered, vote[1])
        return vote

    def settle(self):
        """The votes of all rows, until none gives one more. No row of a round gives a vote before its estimate is cast."""
        made, last = [], None
        while last != len(made):
            last = len(made)
            made += [self.cast(vote) for vote in map(self.begin, (1, 0)) if vote is not None]
            for row, at in self.rows:
                vote = row(*at) if at[0] <= self.entered else None
                if vote is not None:
                    made.append(self.cast(vote))
        return made

    def input(self, b):
        self.inputs.add(b)
        return self.settle()

    def hear(self, node, vote):
        """What becomes owed. Where no row that looks at such a vote gives one, no other does: nothing has changed for it."""
        self.heard[vote] = self.heard.get(vote, 0) | 1 << node
        if vote[1] <= self.entered:
            for row, at in self.rows_by[vote[:2]]:
                if row(*at) is not None:
                    return self.settle()
        return []

    def decided(self):
        return next((str(vote[2]) for vote in self.own if vote[0] == "D"), "-")


class Lane:
    """A lane of a node in one epoch: its broadcast, of which the node is the sender or not, and its agreement."""

    def __init__(self, numbers, node, is_sender):
        self.numbers, self.node, self.is_sender = numbers, node, is_sender
        self.agreement = Agreement(numbers)
        self.own, self.has_sent, self.is_sent, self.echoes, self.readies = [], False, False, 0, 0

    def broadcast(self):
        numbers, letters = self.numbers, {vote[0] for vote in self.own}
        echoes, readies = self.echoes.bit_count(), self.readies.bit_count()
        if self.has_sent and self.is_sender and "V" not in letters:
            yield from (("V", m, 0) for m in range(numbers.n))
        if self.is_sent and "O" not in letters:
            yield "O", 0, 0
        if (echoes >= numbers.quorum or readies > numbers.f) and "R" not in letters:
            yield "R", 0, 0
        if readies > 2 * numbers.f and echoes >= numbers.k and "L" not in letters:
            yield "L", 0, 0

    def hear(self, node, vote):
        """What becomes owed by a vote of a node: p is a proposal of the own desk, n that it wants no more."""
        letter = vote[0]
        if letter in "BACS":
            made = self.agreement.hear(node, vote)
            self.own += made
            return made
        if letter == "n":
            made = self.agreement.input(0)
            self.own += made
            return made
        self.has_sent |= letter == "p"
        self.is_sent |= letter == "V" and vote[1] == self.node
        self.echoes |= (letter == "O") << node
        self.readies |= (letter == "R") << node
        made = list(self.broadcast())
        self.own += made
        if any(vote[0] == "L" for vote in made):
            more = self.agreement.input(1)
            self.own += more
            made += more
        return made
