"""Scenarios at each limit, which run, and one step beyond, which are refused with a line."""
import functools
import json

from hostile_rows.calls import compare, read, read_legal
from hostile_rows.program import tell
from hostile_rows.texts import Wrong

FOUR = {"nodes": 4, "faulty": 1, "epochs": 1}
MOST_BYTES, MOST_LINKS, MOST_NUMBER = 1048576, 256, 2**64 - 1
MOST_SUBMITTED, MOST_BATCH, MOST_EPOCHS, MOST_TX = 20000, 64, 32, 256
# How long votes of the largest epoch are, by kind. A batch has its count in 2 bytes, and 64 transactions of 256 with their
# lengths in 2: 2 + 64 * 258 = 16,514. Its frame has its length in 4 bytes before it, and k = 16 - 2 * 5 = 6 shards make it up:
# 16,518 / 6 = 2,753, and nothing is left. A branch over 16 leaves has 4 digests of 32: 128. A Val has kind, epoch and target, the
# root, the length in 4, the shard, and the branch: 3 + 32 + 4 + 2,753 + 128. An Echo has no target. A Delivered has kind and
# epoch, the length in 4, and the batch: 2 + 4 + 16,514. In each of 16 lanes there is one of each for each node.
LENGTHS = {"01": 2920, "02": 2919, "04": 16520}


def text_of(told):
    return json.dumps(told, separators=(",", ":")).encode()


def four_texts():
    return [{"node": node, "tx": f"613{node}"} for node in range(4)]


def whole_text(nodes, faulty, ledger, epochs):
    """The text of a run in which each node has this ledger."""
    blocks = "".join(f"node {node} running\n{ledger}" for node in range(nodes))
    return f"run nodes {nodes} faulty {faulty} version 1 epochs {epochs}\n{blocks}end 0\n".encode()


def ledger_of(epochs):
    """The lines of a ledger: of each epoch for each node the new transactions of its batch."""
    lines = []
    for epoch, batches in enumerate(epochs):
        lines.append(f"epoch {epoch} batches {len(batches)}")
        for node, batch in enumerate(batches):
            lines += [f"batch {node} txs {len(batch)}", *(f"tx {tx}" for tx in batch)]
    return "".join(f"{line}\n" for line in lines)


def check_largest_epoch(bench):
    """16 nodes, of which five may be faulty, with batches of 64 transactions of 256 bytes, on one thread."""
    batches = [[(bytes([node, place]) + bytes(MOST_TX - 2)).hex() for place in range(MOST_BATCH)] for node in range(16)]
    submit = [{"node": node, "tx": tx} for node, batch in enumerate(batches) for tx in batch]
    given = text_of({"nodes": 16, "faulty": 5, "epochs": 1, "submit": submit})
    wrong = compare(bench.ask(["run"], given), 0, whole_text(16, 5, ledger_of([batches]), 1))
    return wrong or check_lengths(read_legal(bench, given, (0,)))


def check_lengths(posts):
    """How long the Vals, the Echoes and the Delivereds of the largest epoch are, and how many."""
    for kind, length in LENGTHS.items():
        found = [len(code) // 2 for _, _, _, code in posts if code[:2] == kind]
        if found != [length] * 256:
            return f"{len(found)} posts of kind {kind} have the lengths {sorted(set(found))[:5]} in the place of 256 of {length}"
    return None


def check_most_submitted(bench):
    """20,000 transactions at four nodes, over 32 epochs with batches of 64: the first 2,048 of each node, in their order."""
    submit = [{"node": place % 4, "tx": f"{place:06x}"} for place in range(MOST_SUBMITTED)]
    own = [[entry["tx"] for entry in submit if entry["node"] == node] for node in range(4)]
    epochs = [[own[node][MOST_BATCH * epoch:MOST_BATCH * (epoch + 1)] for node in range(4)] for epoch in range(MOST_EPOCHS)]
    given = text_of({**FOUR, "epochs": MOST_EPOCHS, "rounds": 32, "submit": submit})
    return compare(bench.ask(["run"], given), 0, whole_text(4, 1, ledger_of(epochs), MOST_EPOCHS))


def check_all_at_once(bench, workers):
    """16 nodes over 32 epochs with five liars and 256 links, of which the first that fits drops what a liar says to node 0."""
    names = ("silent", "equivocate", "echo_split", "bval_both", "false_share")
    liars = [{"node": 11 + place, "name": name} for place, name in enumerate(names)]
    links = [{"from": 11 + place % 5, "to": 0, "every": 65536, "at": place, "shape": "drop"} for place in range(MOST_LINKS)]
    told = {"nodes": 16, "faulty": 5, "epochs": MOST_EPOCHS, "rounds": 32, "batch": 1, "workers": workers, "liars": liars,
            "links": links, "seed": MOST_NUMBER, "submit": [{"node": node, "tx": f"{node:02x}"} for node in range(16)]}
    answer, nodes = read(bench, "run", text_of(told), statuses=(0, 5))
    if any(node.state == "ended" for node in nodes):
        raise Wrong("a node has ended")
    return None if answer.status == 5 or len(nodes[0].ledger.epochs) == MOST_EPOCHS else tell(answer)


def check_last_link(bench):
    """Of 256 links only the last one fits anything: it drops all that others send to node 2, which then closes no epoch."""
    idle = [{"every": 65536, "at": 65535, "shape": "drop"}] * (MOST_LINKS - 1)
    given = text_of({**FOUR, "links": [*idle, {"to": 2, "every": 1, "at": 0, "shape": "drop"}], "submit": four_texts()})
    return compare(bench.ask(["run"], given), 4, bench.scenario("lost_node.out"))


def check_most_bytes(bench, more):
    """The most bytes that a scenario may have, and one more."""
    given = bench.scenario("four_nodes.json")
    given += b" " * (MOST_BYTES + more - len(given))
    if more:
        return compare(bench.ask(["run"], given), 3, b"", b"refused 1 TooLong\n")
    return compare(bench.ask(["run"], given), 0, bench.scenario("four_nodes.out"))


def check_taken(bench, keys):
    """A scenario that is not refused, and runs well."""
    read(bench, "run", text_of({**FOUR, **keys}), statuses=(0, 5))
    return None


def check_refused(bench, keys, line):
    return compare(bench.ask(["run"], text_of({**FOUR, **keys})), 3, b"", f"refused {line}\n".encode())


def of_stop(call, actor=4):
    return {"node": 0, "actor": actor, "call": call, "leave": "old"}


def out_of_range(key, most):
    """Rows for a key of the top: what it may be at most, and the line that refuses one more."""
    return {key: most}, {key: most + 1}, f"7 OutOfRange top 0 {key} value={most + 1}"


def in_list(name, entry, key, most):
    """The same for a key of the entry of a list."""
    return {name: [{**entry, key: most}]}, {name: [{**entry, key: most + 1}]}, f"7 OutOfRange {name} 0 {key} value={most + 1}"


def tables():
    """What is taken, what is not, and the line that refuses it."""
    link = {"every": 65536, "at": 0, "shape": "once"}
    fault = {"node": 0, "actor": 4, "call": 1000000}
    liar = {"node": 3, "name": "silent"}
    tx = [{"node": 0, "tx": "61" * MOST_TX}]
    long = [{"node": 0, "tx": "61" * (MOST_TX + 1)}]
    yield out_of_range("epochs", 32)
    yield out_of_range("rounds", 32)
    yield out_of_range("batch", 64)
    yield out_of_range("workers", 4)
    yield out_of_range("version", 2)
    yield {"nodes": 16, "faulty": 5}, {"nodes": 17, "faulty": 5}, "7 OutOfRange top 0 nodes value=17"
    yield {"nodes": 16, "faulty": 5}, {"nodes": 16, "faulty": 6}, "7 OutOfRange top 0 faulty value=6"
    yield FOUR, {"nodes": 3}, "8 TooFewNodes n=3 f=1"
    yield {"seed": MOST_NUMBER}, {"seed": MOST_NUMBER + 1}, "6 NotNumber top 0 seed"
    yield {"submit": tx}, {"submit": long}, f"13 BadLength submit 0 tx length={MOST_TX + 1}"
    yield {"submit": tx}, {"submit": [{"node": 0, "tx": ""}]}, "13 BadLength submit 0 tx length=0"
    yield {"links": [link] * MOST_LINKS}, {"links": [link] * (MOST_LINKS + 1)}, f"7 OutOfRange top 0 links value={MOST_LINKS + 1}"
    yield in_list("links", link, "every", 65536)
    yield in_list("links", link, "at", 65535)
    yield in_list("stops", of_stop(1), "call", 1000000)
    yield in_list("stops", of_stop(1000000), "actor", 4)
    yield in_list("faults", fault, "call", 1000000)
    yield in_list("liars", liar, "hears", 4194304)
    yield {"liars": [liar]}, {"liars": [liar, {**liar, "node": 2}]}, "9 TooManyLiars named=2 f=1"
    four, five = ([of_stop(1000000 - place) for place in range(count)] for count in (4, 5))
    yield {"stops": four}, {"stops": five}, "7 OutOfRange stops 4 actor value=5"
    yield {"faults": [fault] * 4}, {"faults": [fault] * 5}, "7 OutOfRange faults 4 actor value=5"


def cases(bench):
    """What runs at the limits, and the rows of what is taken and refused."""
    yield "the largest epoch", functools.partial(check_largest_epoch, bench)
    yield "20,000 submissions", functools.partial(check_most_submitted, bench)
    for workers in (0, 4):
        yield f"all limits at once, {workers} workers", functools.partial(check_all_at_once, bench, workers)
    yield "the last link", functools.partial(check_last_link, bench)
    for more in (0, 1):
        yield f"{MOST_BYTES + more} bytes", functools.partial(check_most_bytes, bench, more)
    for taken, refused, line in tables():
        yield f"taken: {str(taken)[:60]}", functools.partial(check_taken, bench, taken)
        yield f"refused: {line}", functools.partial(check_refused, bench, refused, line)
