"""Reads the texts that the program prints, apart from the page's own code."""
import re
import subprocess
from pathlib import Path

import votes

TOP = Path(__file__).resolve().parent.parent.parent
POST = re.compile(r"post (\d+) from (\d+) actor (\d+) to (book|home|all|node \d+) (-|[0-9a-f]+)")


def program(*words):
    """What ./run prints."""
    return subprocess.run([TOP / "run", *words], capture_output=True, text=True, check=False).stdout


def scenario(name):
    """The path of a scenario of the repository."""
    return TOP / "scenarios" / f"{name}.json"


class Trace:
    """A history: the numbers of the run, and of each post the sender, the actor, the address and the vote."""

    def __init__(self, text):
        head, *lines = text.splitlines()
        words = head.split()
        numbers = dict(zip(words[1::2], map(int, words[2::2])))
        self.nodes, self.faulty, self.version = numbers["nodes"], numbers["faulty"], numbers["version"]
        self.epochs, self.rounds, self.seed = numbers["epochs"], numbers["rounds"], numbers["seed"]
        self.liars = [node for node in range(16) if numbers["liars"] >> node & 1]
        self.bytes, self.posts = [], []
        for found in map(POST.fullmatch, lines):
            if found:
                data = b"" if found[5] == "-" else bytes.fromhex(found[5])
                self.bytes.append(data)
                self.posts.append((int(found[2]), int(found[3]), found[4], votes.decode(data, self.nodes, self.version)))

    def kinds(self):
        """How many posts there are of each kind."""
        counts = {}
        for *_, vote in self.posts:
            name = vote["kind"] if vote else "no vote"
            counts[name] = counts.get(name, 0) + 1
        return counts

    def decisions(self):
        """The bit that each lane of each node decided first, by epoch, node and lane."""
        found = {}
        for node, actor, _, vote in self.posts:
            if vote and vote["kind"] == "DECIDED" and node < self.nodes and actor < self.nodes and vote["epoch"] < self.epochs:
                found.setdefault((vote["epoch"], node, actor), vote["bit"])
        return found

    def closings(self):
        """The first post with which each desk closed each epoch, by epoch and node."""
        found = {}
        for k, (node, actor, _, vote) in enumerate(self.posts):
            if vote and vote["kind"] == "CLOSED" and actor == self.nodes and vote["epoch"] < self.epochs:
                found.setdefault((vote["epoch"], node), k)
        return found

    def picks(self, place):
        """The rounds in which a lane picked one bit alone before it decided, as pairs of round and bit."""
        epoch, node, lane = place
        found = []
        for from_node, actor, _, vote in self.posts:
            if (from_node, actor) == (node, lane) and vote and vote["epoch"] == epoch:
                if vote["kind"] == "DECIDED":
                    break
                if vote["kind"] == "PICK" and vote["bits"] < 3:
                    found.append((vote["round"], vote["bits"] - 1))
        return found


def ledgers(text):
    """Of each node of a run the lines of its ledger, and None of a liar."""
    found = []
    for line in text.splitlines():
        if re.fullmatch(r"node \d+ (running|ended|liar)", line):
            found.append(None if line.endswith("liar") else [])
        elif found and found[-1] is not None and re.match(r"(epoch|batch|tx) ", line):
            found[-1].append(line)
    return found


def accused(text):
    """The accused nodes, each with its two posts."""
    return [tuple(map(int, found)) for found in re.findall(r"^accused (\d+) posts (\d+) (\d+)$", text, re.MULTILINE)]


def bends(name):
    """What the audit says of bent histories of a scenario: pairs of the answer and the command of sed."""
    path = TOP / "scenarios" / f"{name}.bends"
    lines = [line for line in path.read_text().splitlines() if line and not line.startswith("#")]
    return [tuple(line.split(": ", 1)) for line in lines]


def bent(text, command):
    """A history with one post bent."""
    return subprocess.run(["sed", command], input=text, capture_output=True, text=True, check=True).stdout
