"""What the study says of its tables: plots, and tables in Markdown for docs/STUDY.md. Both come from the CSV alone."""
import collections

from many_runs import studies, tables
from many_runs.plot import Plot

ROUNDS_SHOWN = 10
DESK = ("Propose", "NoMore", "Closed")
BROADCAST = ("Val", "Echo", "Ready", "Delivered", "Decided")
AGREEMENT = ("Est", "Bval", "Aux", "Pick", "Coin")
SENT = ("Val", "Echo", "Ready", "Bval", "Aux", "Coin")


def mean(values):
    values = list(values)
    return sum(values) / len(values)


def markdown(head, rows):
    """A table in Markdown. Words stand at the left, numbers at the right."""
    lines = ["| " + " | ".join(head) + " |", "|" + "|".join(["---"] + ["--:"] * (len(head) - 1)) + "|"]
    return "\n".join(lines + ["| " + " | ".join(map(str, row)) + " |" for row in rows]) + "\n"


def grouped(records, *names):
    """The records by the values of some columns, in the order in which these come first."""
    groups = collections.defaultdict(list)
    for record in records:
        groups[tuple(record[name] for name in names)].append(record)
    return groups


# ---- rounds

def lanes_by_setting(folder):
    """By setting: for each run, in which rounds its lanes decided. Of a run with a split lane that lane alone counts."""
    found = collections.defaultdict(list)
    for row in tables.records(tables.by_name("rounds"), folder):
        split = row["inputs"] == "split"
        lanes = [studies.SPLIT_LANE] if split else range(7)
        liar = "no liar" if row["liar"] == "none" else "a liar"
        found[split, row["version"], liar].append([row[f"lane_{lane}"] for lane in lanes])
    return dict(sorted(found.items(), key=lambda item: item[0][0]))


def undecided(runs):
    """What share of the lanes has not decided after so many rounds."""
    rounds = sum(runs, [])
    return [(r, sum(one > r for one in rounds) / len(rounds)) for r in range(ROUNDS_SHOWN + 1)]


def rounds_plot(folder):
    found = lanes_by_setting(folder)
    plot = Plot("Lanes that have not decided yet", "rounds", "share of the lanes", (0, ROUNDS_SHOWN), (0.001, 1), y_log=True,
                x_labels=[(r, str(r)) for r in range(ROUNDS_SHOWN + 1)])
    # Both versions at once: four lines that lie on one another cannot be told apart.
    for split, name in ((False, "lanes"), (True, "split lane")):
        for liar in ("no liar", "a liar"):
            plot.line(f"{name}, {liar}", undecided(found[split, 1, liar] + found[split, 2, liar]))
    plot.guide("law of a fair coin", [(r, 0.5**r) for r in range(ROUNDS_SHOWN + 1)])
    return plot


def rounds_table(folder):
    rows = []
    for (split, version, liar), runs in lanes_by_setting(folder).items():
        rounds = sum(runs, [])
        shares = [f"{100 * rounds.count(r) / len(rounds):.1f}" for r in range(1, 5)]
        later = f"{100 * sum(r > 4 for r in rounds) / len(rounds):.1f}"
        slowest = "" if split else f"{mean(map(max, runs)):.2f}"
        rows.append([f"version {version}, {liar}{', split lane' * split}", len(rounds), *shares, later, f"{mean(rounds):.2f}", slowest,
                     max(rounds)])
    # The mean of the slowest of seven: the sum of the chances that not all have decided after so many rounds.
    slowest = sum(1 - (1 - 0.5**r)**7 for r in range(64))
    rows.append(["law of a fair coin", "", "50.0", "25.0", "12.5", "6.3", "6.3", "2.00", f"{slowest:.2f}", ""])
    return markdown(["Setting", "Lanes", "Round 1 (%)", "2", "3", "4", "Later", "Mean", "Slowest of 7, mean", "Most"], rows)


# ---- posts and bytes

def votes_by_kind(folder):
    groups = grouped(tables.records(tables.by_name("votes"), folder), "nodes", "kind")
    return {key: {name: mean(row[name] for row in rows) for name in ("posts", "messages", "bytes")} for key, rows in groups.items()}


def posts_plot(folder):
    found = votes_by_kind(folder)
    plot = Plot("Posts of an epoch, mean of 20 runs", "nodes", "posts of each kind", (1, 16), (1, 2000), True, True,
                [(n, str(n)) for n in studies.NODES])
    for kinds, name in ((AGREEMENT, ", ".join(AGREEMENT)), (BROADCAST, "Val, Echo, Ready, ..."), (DESK, ", ".join(DESK))):
        plot.line(name, [(n, mean(found[n, kind]["posts"] for kind in kinds)) for n in studies.NODES])
    plot.guide("n²", [(n, n * n) for n in studies.NODES])
    plot.guide("n", [(n, n) for n in studies.NODES], "2 4")
    return plot


def bytes_plot(folder):
    found = votes_by_kind(folder)
    nodes = studies.NODES[1:]

    def kilobytes(n, *kinds):
        return mean(found[n, kind]["bytes"] for kind in kinds) / 1000

    plot = Plot("Bytes sent in an epoch, mean of 20 runs", "nodes", "kB (1,000 bytes) in messages to others", (4, 16), (0.5, 4000),
                True, True, [(n, str(n)) for n in nodes])
    for kinds in (("Coin",), ("Echo",), ("Val",), ("Ready",), ("Bval", "Aux")):
        plot.line(f"{' and '.join(kinds)}{', each' * (len(kinds) > 1)}", [(n, kilobytes(n, *kinds)) for n in nodes])
    for kind, power, dashes in (("Val", 2, "2 4"), ("Ready", 3, "7 5")):
        plot.guide(f"grows as n{'²³'[power - 2]}", [(n, kilobytes(4, kind) * (n / 4)**power) for n in nodes], dashes)
    return plot


def votes_table(folder):
    found = votes_by_kind(folder)
    rows = []
    for n in studies.NODES:
        def total(name, *kinds, n=n):
            return sum(found[n, kind][name] for kind in kinds)

        every = (*DESK, *BROADCAST, *AGREEMENT)
        rounds = total("posts", "Est") / n**2
        # There are n lanes, so this is for one lane, as a multiple of n squared.
        messages = [f"{total('messages', *kinds) / n**3:.1f}" for kinds in (BROADCAST, AGREEMENT)]
        sizes = [f"{total('bytes', *kinds) / 1000:,.1f}" for kinds in (("Val",), ("Echo",), ("Ready",), ("Bval", "Aux"), ("Coin",), every)]
        rows.append([n, f"{total('posts', *every):,.0f}", f"{total('messages', *every):,.0f}", f"{rounds:.1f}", *messages, *sizes])
    return markdown(["Nodes", "Posts", "Messages", "Rounds of a lane", "Broadcast, n²", "Agreement, n²", "Val (kB)", "Echo", "Ready",
                     "Bval, Aux", "Coin", "All (kB)"], rows)


# ---- bytes for each transaction

def for_each_transaction(folder):
    groups = grouped(tables.records(tables.by_name("batch"), folder), "nodes", "batch")
    return {key: mean(row["bytes"] / row["nodes"] / row["transactions"] for row in rows) for key, rows in groups.items()}


def limit(nodes, size=258):
    """What is left for large batches: each node sends a shard of each value to each other node, and once more as a sender."""
    k = nodes - 2 * studies.faulty(nodes)
    return (nodes - 1) * (nodes + 1) / (nodes * k) * size


def batch_plot(folder):
    found = for_each_transaction(folder)
    batches = sorted({batch for _, batch in found})
    plot = Plot("Bytes that a node sends for a transaction of 256 bytes", "transactions in each node's batch",
                "bytes", (1, 64), (100, 20000), True, True, [(b, str(b)) for b in batches])
    for n in sorted({n for n, _ in found}):
        plot.line(f"{n} nodes", [(b, found[n, b]) for b in batches])
    for n, dashes in ((16, "7 5"), (4, "2 4")):
        plot.guide(f"shards alone, {n} nodes", [(b, limit(n)) for b in batches], dashes)
    return plot


def batch_table(folder):
    found = for_each_transaction(folder)
    batches = sorted({batch for _, batch in found})
    rows = [[n, *(f"{found[n, b]:,.0f}" for b in batches), f"{limit(n):,.0f}"] for n in sorted({n for n, _ in found})]
    return markdown(["Nodes", *(f"Batch {b}" for b in batches), "Shards alone"], rows)


# ---- lanes accepted

CASES = {"none": "all well", "late": "f late", "fifth_late": "fifth late", "silent": "silent", "equivocate": "equivocate",
         "echo_split": "echo split", "bval_both": "both bits", "false_share": "false share", "babble": "babble"}


def accepted(folder):
    """By nodes, case and order: the least, mean and most lanes accepted in an epoch, and the share of honest batches that waited."""
    groups = grouped(tables.records(tables.by_name("accepted"), folder), "nodes", "case", "order")
    found = {}
    for key, rows in groups.items():
        lanes = [row[f"lanes_{epoch}"] for row in rows for epoch in range(studies.ACCEPTED_EPOCHS)]
        waited = sum(row["waited"] for row in rows) / sum(row["honest_batches"] for row in rows)
        found[key] = (min(lanes), mean(lanes), max(lanes), waited)
    return found


def accepted_plot(folder):
    found = accepted(folder)
    plot = Plot("Lanes accepted in an epoch, order drawn", "what f nodes do, or what befalls all", "lanes, mean of 30 epochs",
                (-0.5, 8.5), (0, 10.4), x_labels=list(enumerate(CASES.values())))
    for n in (10, 7, 4):
        plot.line(f"{n} nodes", [(place, found[n, case, "mixed"][1]) for place, case in enumerate(CASES)], joined=False)
    for n, dashes in ((10, "2 4"), (7, "7 5"), (4, "1 6")):
        plot.guide(f"n - f of {n} nodes", [(-0.5, n - studies.faulty(n)), (8.5, n - studies.faulty(n))], dashes)
    return plot


def accepted_table(folder):
    found = accepted(folder)
    rows = []
    for case, name in CASES.items():
        row = [name]
        for n in (4, 7, 10):
            for order in ("fifo", "mixed"):
                least, _, most, waited = found[n, case, order]
                lanes = str(least) if least == most else f"{least} to {most}"
                row.append(f"{lanes}; {100 * waited:.0f}%")
        rows.append(row)
    return markdown(["Case", *(f"{n} nodes, {order}" for n in (4, 7, 10) for order in ("in order", "drawn"))], rows)


# ---- stops

def stop_plot(folder):
    """All three kinds of stops at once: a mean is drawn, which is each of them where they are equal."""
    groups = grouped(tables.records(tables.by_name("stop"), folder), "actor", "call")
    plot = Plot("One stop of the power at one actor", "device call of this actor at which the power goes off",
                "posts said twice", (0, 210), (0, 90))
    for actor, name in (("lane", "lane 0 of node 1"), ("desk", "desk of node 1")):
        plot.line(name, [(key[1], mean(row["said_twice"] for row in rows)) for key, rows in groups.items() if key[0] == actor])
    return plot


def shares_twice(folder):
    groups = grouped(tables.records(tables.by_name("stops"), folder), "stops")
    return {key[0]: [100 * row["said_twice"] / row["posts"] for row in rows] for key, rows in groups.items()}


def stops_plot(folder):
    found = shares_twice(folder)
    plot = Plot("Stops at every actor of every node", "stops planned at each actor", "posts said twice, % of all",
                (0, 4), (0, 80), x_labels=[(stops, str(stops)) for stops in found])
    for name, choose in (("mean of 20 runs", mean), ("least", min), ("most", max)):
        plot.line(name, [(stops, choose(shares)) for stops, shares in found.items()])
    return plot


def stops_table(folder):
    groups = grouped(tables.records(tables.by_name("stops"), folder), "stops")
    rows = []
    for (stops,), records in groups.items():
        shares = [100 * row["said_twice"] / row["posts"] for row in records]
        rows.append([stops, f"{mean(row['posts'] for row in records):,.0f}", f"{mean(row['said_twice'] for row in records):,.0f}",
                     f"{mean(shares):.1f}", f"{min(shares):.1f}", f"{max(shares):.1f}"])
    return markdown(["Stops planned at each actor", "Posts", "Said twice", "Mean (%)", "Least (%)", "Most (%)"], rows)


PLOTS = {"rounds": rounds_plot, "posts": posts_plot, "bytes": bytes_plot, "batch": batch_plot, "accepted": accepted_plot,
         "stop": stop_plot, "stops": stops_plot}
TABLES = {"rounds": rounds_table, "votes": votes_table, "batch": batch_table, "accepted": accepted_table, "stops": stops_table}
# The table that a plot is drawn from, where its name is another.
SOURCE = {"posts": "votes", "bytes": "votes"}
