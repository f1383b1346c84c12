"""Reads what the program prints, line by line, and says what is wrong with it.

The form of each text, and what its status has to be, are those of README.md and docs: nothing here is taken from the program.
"""
import collections
import json
import re

NUMBER = "(0|[1-9][0-9]*)"
# The words that run a scenario and print a text of it.
WORDS = ("run", "trace", "observe", "accuse")

# `lines` are those that are printed. `epochs` has for each epoch its batches: node, count, and new transactions.
Ledger = collections.namedtuple("Ledger", "lines epochs")
Node = collections.namedtuple("Node", "state causes ledger")


class Wrong(Exception):
    """A text that no run prints."""


class Lines:
    """The lines of a text, which are taken one by one."""

    def __init__(self, text):
        if not text.endswith(b"\n"):
            raise Wrong("the text does not end with a line's end")
        self.lines, self.next = text.decode("ascii", errors="replace").split("\n")[:-1], 0

    def take_if(self, pattern):
        """The match of the next line, if it has this form."""
        found = self.next < len(self.lines) and re.fullmatch(pattern, self.lines[self.next])
        self.next += bool(found)
        return found or None

    def take(self, pattern):
        found = self.take_if(pattern)
        if not found:
            line = self.lines[self.next] if self.next < len(self.lines) else ""
            raise Wrong(f"line {self.next + 1} is '{line[:60]}' in the place of {pattern[:60]}")
        return found

    def end(self):
        if self.next < len(self.lines):
            raise Wrong(f"line {self.next + 1} stands behind the end")


class Scene:
    """What a scenario says that a text can be held to."""

    def __init__(self, given):
        told = json.loads(given)
        self.nodes, self.faulty, self.epochs = told["nodes"], told["faulty"], told["epochs"]
        self.version, self.batch = told.get("version", 1), told.get("batch", 64)
        self.rounds, self.seed = told.get("rounds", 32), told.get("seed", 0)
        self.liars = {liar["node"] for liar in told.get("liars", [])}
        self.submitted = collections.defaultdict(set)
        for entry in told.get("submit", []):
            self.submitted[entry["node"]].add(entry["tx"].lower())

    def first_line(self, word):
        return f"{word} nodes {self.nodes} faulty {self.faulty} version {self.version} epochs {self.epochs}"


def read_ledger(lines, scene):
    """The ledger that stands next. Each of its epochs has the batches of n - f nodes, in their order."""
    first, epochs, known = lines.next, [], set()
    while len(epochs) < scene.epochs and (found := lines.take_if(f"epoch {len(epochs)} batches {NUMBER}")):
        count = int(found[1])
        if not scene.nodes - scene.faulty <= count <= scene.nodes:
            raise Wrong(f"an epoch has {count} batches")
        batches = [read_batch(lines, scene, known) for _ in range(count)]
        if any(one[0] >= other[0] for one, other in zip(batches, batches[1:])):
            raise Wrong(f"the batches of epoch {len(epochs)} are not in order")
        epochs.append(batches)
    return Ledger(lines.lines[first:lines.next], epochs)


def read_batch(lines, scene, known):
    found, new = lines.take(f"batch {NUMBER} txs {NUMBER}"), []
    node, count = int(found[1]), int(found[2])
    while tx := lines.take_if("tx ((?:[0-9a-f]{2}){1,256})"):
        if tx[1] in known:
            raise Wrong(f"transaction {tx[1][:20]} stands twice in a ledger")
        known.add(tx[1])
        new.append(tx[1])
        if node not in scene.liars and tx[1] not in scene.submitted[node]:
            raise Wrong(f"transaction {tx[1][:20]} was not submitted at node {node}")
    if node >= scene.nodes or count > 64 or len(new) > count or (node not in scene.liars and count > scene.batch):
        raise Wrong(f"the batch of node {node} says {count} transactions and has {len(new)}")
    return node, count, new


def check_ledgers(ledgers):
    """Of any two ledgers one begins with the other."""
    longest = max((ledger.lines for ledger in ledgers), key=len, default=[])
    for ledger in ledgers:
        if ledger.lines != longest[: len(ledger.lines)]:
            raise Wrong("two ledgers part")


def read_node(lines, scene, node):
    if node in scene.liars:
        lines.take(f"node {node} liar")
        return Node("liar", [], Ledger([], []))
    state, causes = lines.take(f"node {node} (running|ended)")[1], []
    while state == "ended" and (found := lines.take_if(f"actor {NUMBER} (memory|journal|full)")):
        causes.append((int(found[1]), found[2]))
    if (state == "ended") != bool(causes) or [actor for actor, _ in causes] != sorted({actor for actor, _ in causes}):
        raise Wrong(f"the actors of node {node} that have ended are {causes}")
    return Node(state, causes, read_ledger(lines, scene))


def statuses_of(scene, nodes):
    """The statuses that a run may have which left these nodes."""
    if any(cause == "memory" for node in nodes for _, cause in node.causes):
        return (9,)
    running = [node for node in nodes if node.state == "running"]
    if running and all(len(node.ledger.epochs) == scene.epochs for node in running):
        return (0,)
    return 4, 5


def read_run(text, scene, status):
    """The nodes of a text of `run`. Its ledgers are comparable, and the status is the one that they call for."""
    lines = Lines(text)
    lines.take(re.escape(scene.first_line("run")))
    nodes = [read_node(lines, scene, node) for node in range(scene.nodes)]
    check_ledgers([node.ledger for node in nodes])
    end = int(lines.take(f"end {NUMBER}")[1])
    lines.end()
    if end != status or status not in statuses_of(scene, nodes):
        raise Wrong(f"the status is {status}, the last line says {end}, and the nodes call for {statuses_of(scene, nodes)}")
    return nodes


def read_observers(text, scene, status):
    """The ledgers of a text of `observe`."""
    lines, ledgers = Lines(text), []
    lines.take(re.escape(scene.first_line("observe")))
    for node in range(scene.nodes):
        count = int(lines.take(f"observer {node} epochs {NUMBER}")[1])
        ledgers.append(read_ledger(lines, scene))
        if len(ledgers[-1].epochs) != count:
            raise Wrong(f"observer {node} says {count} epochs and has {len(ledgers[-1].epochs)}")
    check_ledgers(ledgers)
    lines.take(f"end {status}")
    lines.end()
    return ledgers


def read_accusations(text, scene, status):
    """The nodes that a text of `accuse` names. Each is a liar."""
    lines, named = Lines(text), []
    lines.take(re.escape(scene.first_line("accuse")))
    while found := lines.take_if(f"accused {NUMBER} posts {NUMBER} {NUMBER}"):
        named.append(int(found[1]))
        if int(found[2]) >= int(found[3]):
            raise Wrong(f"the posts against node {found[1]} are not in order")
    lines.take(f"end {status}")
    lines.end()
    if named != sorted(set(named)) or not set(named) <= scene.liars:
        raise Wrong(f"the nodes {named} are accused, and the liars are {sorted(scene.liars)}")
    return named


def read_trace(text, scene, _status):
    """The posts of a text of `trace`: the node, the actor, where it goes, and the bytes in hex."""
    lines, posts = Lines(text), []
    marks = sum(1 << node for node in scene.liars)
    first = scene.first_line("trace")
    lines.take(re.escape(f"{first} rounds {scene.rounds} batch {scene.batch} seed {scene.seed} liars {marks}"))
    form = f"from {NUMBER} actor {NUMBER} to (book|home|all|node {NUMBER}) ((?:[0-9a-f]{{2}})+|-)"
    while found := lines.take_if(f"post {len(posts)} {form}"):
        posts.append((int(found[1]), int(found[2]), found[3], found[5]))
    lines.take(f"end {len(posts)}")
    lines.end()
    return posts


READERS = {"run": read_run, "observe": read_observers, "accuse": read_accusations, "trace": read_trace}


def read_answer(word, given, answer, statuses):
    """What a text of a scenario says, after a run with one of these statuses and nothing in its error output."""
    if answer.status not in statuses or answer.err != (b"no memory\n" if answer.status == 9 else b""):
        raise Wrong(f"the statuses {statuses} are right")
    return READERS[word](answer.out, Scene(given), answer.status)
