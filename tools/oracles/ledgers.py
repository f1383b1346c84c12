"""What the histories of a run come to: whom they accuse, ledgers, what observers take, and the texts of runs. A post is its node,
its actor and its bytes.

The ledger of a node is the lists that its desk has closed, in order of their epochs, each at its first place; a desk is the actor
of number n. A transaction is told in a ledger at its first place alone.
"""
import votes

# fields that two votes of one actor may not have different: those of one epoch, and round where they have one
ONE = {"Echo": "root shard branch", "Ready": "root", "Delivered": "value", "Est": "bit", "Aux": "bit", "Pick": "set",
       "Conf": "set", "Coin": "share salt branch", "Decided": "bit", "Propose": "value", "Closed": "list"}


def contradict(a, b):
    """Whether no correct actor casts both votes. Vals of an epoch have one root, and those for one node are alike."""
    places = ("kind", "epoch", "round")
    if any(a.get(key) != b.get(key) for key in places):
        return False
    if a["kind"] == "Val":
        return a["root"] != b["root"] or a["target"] == b["target"] and a != b
    return any(a[key] != b[key] for key in ONE.get(a["kind"], "").split())


def accused(n, version, posts):
    """Each accused node, with its first post that contradicts an earlier one, which is told last, and the first of these."""
    found = {}
    read = [votes.read(n, version, data) for _, _, data in posts]
    for second, (node, actor, _) in enumerate(posts):
        if node >= n or node in found or read[second] is None:
            continue
        for first in range(second):
            if posts[first][:2] == (node, actor) and read[first] and contradict(read[first], read[second]):
                found[node] = (node, first, second)
                break
    return [found[node] for node in sorted(found)]


class Run:
    """A history among n nodes, of which at most f lie."""

    def __init__(self, n, f, version, liars, posts):
        self.n, self.f, self.version, self.liars, self.posts = n, f, version, liars, posts
        self.correct = [node for node in range(n) if node not in liars]

    def cast(self, node, kind):
        """The votes of a kind of a node's desk, each at its first place."""
        read = [votes.read(self.n, self.version, data) for sender, actor, data in self.posts if (sender, actor) == (node, self.n)]
        found = []
        for vote in read:
            if vote and vote["kind"] == kind and vote not in found:
                found.append(vote)
        return found

    def closed(self, node):
        return sorted(self.cast(node, "Closed"), key=lambda vote: vote["epoch"])

    def lists(self, node):
        return [vote["list"] for vote in self.closed(node)]

    def are_comparable(self):
        ledgers = [self.lists(node) for node in self.correct]
        return all(a[:len(b)] == b[:len(a)] for a in ledgers for b in ledgers)

    def have_batches_enough(self):
        return all(len(items) >= self.n - self.f for node in self.correct for items in self.lists(node))

    def are_unaltered(self):
        proposed = {node: [(vote["epoch"], vote["value"]) for vote in self.cast(node, "Propose")] for node in self.correct}
        return all((vote["epoch"], value) in proposed[item] for node in self.correct for vote in self.closed(node)
                   for item, value in vote["list"] if item in proposed)

    def epochs_in_common(self, at_work):
        counts = [len(self.lists(node)) for node in self.correct if at_work[node] == self.n + 1]
        return min(counts, default=0)


class Observer:
    """Takes of each epoch the list that f + 1 nodes have closed it with first, up to the first epoch without one."""

    def __init__(self, run):
        self.run, self.claims, self.taken, self.closers = run, {}, {}, {}

    def hear(self, post):
        """Whether the post adds a node to those that have closed its epoch with its list."""
        node, actor, data = post
        vote = votes.read(self.run.n, self.run.version, data)
        if node >= self.run.n or actor != self.run.n or vote is None or vote["kind"] != "Closed":
            return False
        nodes = self.claims.setdefault((vote["epoch"], vote["list"]), set())
        is_new = node not in nodes
        nodes.add(node)
        self.closers.setdefault(vote["epoch"], set()).add(node)
        if len(nodes) > self.run.f:
            self.taken.setdefault(vote["epoch"], vote)
        return is_new

    def has_what_it_must(self):
        """Whether it has a list of each epoch up to which f + 1 correct nodes were heard to close each."""
        e = 0
        while len(self.closers.get(e, set()) - set(self.run.liars)) > self.run.f:
            e += 1
        return len(self.lists()) >= e

    def lists(self):
        found = []
        while len(found) in self.taken:
            found.append(self.taken[len(found)])
        return found


def ledger_lines(closed):
    told = set()
    for vote in closed:
        yield f"epoch {vote['epoch']} batches {len(vote['list'])}"
        for node, value in vote["list"]:
            found = votes.transactions(value)
            yield f"batch {node} txs {len(found)}"
            for tx in found:
                if tx not in told:
                    told.add(tx)
                    yield f"tx {tx.hex()}"


FATES = {"r": "running", "m": "memory", "j": "journal", "f": "full"}


def run_text(run, epochs, ends, status):
    """The text of a run. The end of each actor is a letter, or a dot where it is missing."""
    lines = [f"run nodes {run.n} faulty {run.f} version {run.version} epochs {epochs}"]
    for node in range(run.n):
        if node in run.liars:
            lines.append(f"node {node} liar")
            continue
        fates = ends[node] if node < len(ends) else ""
        is_running = fates == "r" * (run.n + 1)
        lines.append(f"node {node} {'running' if is_running else 'ended'}")
        lines += [f"actor {actor} {FATES[fate]}" for actor, fate in enumerate(fates) if fate in "mjf"]
        lines += ledger_lines(run.closed(node))
    return "\n".join([*lines, f"end {status}", ""])


def soak_text(run, number, epochs, batch, workers, status):
    """The text of a generated run."""
    answers = {"comparable": run.are_comparable(), "batches": run.have_batches_enough(), "unaltered": run.are_unaltered()}
    lines = [f"soak {number} nodes {run.n} faulty {run.f} epochs {epochs} batch {batch} workers {workers}"]
    lines += [f"{name} {'yes' if answer else 'no'}" for name, answer in answers.items()]
    return "\n".join([*lines, f"end {status}", ""])


def trace_text(head, posts):
    """The text of a history, behind its first line."""
    lines = [head]
    for number, (node, actor, to, data) in enumerate(posts):
        goes = f"node {to[1]}" if isinstance(to, tuple) else to.removeprefix("To::").lower()
        lines.append(f"post {number} from {node} actor {actor} to {goes} {data.hex() or '-'}")
    return "\n".join([*lines, f"end {len(posts)}", ""])
