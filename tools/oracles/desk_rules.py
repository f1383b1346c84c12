"""What a desk owes, by the rows of its rules, which are gone through in order, again and again, until no row gives a vote.

Propose, in the first epoch and behind a closed one: the first of the transactions submitted to it, each once, that stand in no
list that it closed in an earlier epoch, at most as many as a batch has. NoMore: once n - f of its lanes have decided 1. Closed,
behind the epoch before: once all n lanes have decided, and those that decided 1 have delivered, with these and their values.
Of each lane and epoch the first decision and the first delivery count.
"""
import votes


class Desk:
    """A desk of a run: what it has cast, as pairs of a kind and an epoch with their values, and what it has heard."""

    def __init__(self, n, f, epochs, batch, submitted):
        self.n, self.f, self.epochs, self.batch = n, f, epochs, batch
        self.submitted = list(dict.fromkeys(submitted))
        self.own, self.decided, self.delivered = {}, {}, {}

    def pooled(self, epoch):
        closed = set()
        for (kind, e), items in self.own.items():
            if kind == "C" and e < epoch:
                closed.update(tx for _, value in items for tx in votes.transactions(value))
        return [tx for tx in self.submitted if tx not in closed][:self.batch]

    def propose(self, e):
        is_due = (e == 0 or ("C", e - 1) in self.own) and ("P", e) not in self.own
        return votes.batch(self.pooled(e)) if is_due else None

    def want_no_more(self, e):
        ones = sum(self.decided.get((lane, e)) == 1 for lane in range(self.n))
        return () if ones >= self.n - self.f and ("N", e) not in self.own else None

    def close(self, e):
        bits = [self.decided.get((lane, e)) for lane in range(self.n)]
        if ("C", e) in self.own or e > 0 and ("C", e - 1) not in self.own or None in bits:
            return None
        items = tuple((lane, self.delivered.get((lane, e))) for lane in range(self.n) if bits[lane] == 1)
        return None if any(value is None for _, value in items) else items

    def settle(self):
        made, last = [], None
        while last != len(made):
            last = len(made)
            for kind, row in (("P", self.propose), ("N", self.want_no_more), ("C", self.close)):
                for e in range(self.epochs):
                    value = row(e)
                    if value is not None:
                        self.own[kind, e] = value
                        made.append((kind, e, value))
        return made

    def hear(self, lane, epoch, decided=None, delivered=None):
        if decided is not None:
            self.decided.setdefault((lane, epoch), decided)
        else:
            self.delivered.setdefault((lane, epoch), delivered)
        return self.settle()
