"""Shows that counts grow as the epochs do: for each epoch, or for each delivery, they are level."""
from bounds import MEASURES
from counter import ALLOCATED, DELIVERIES, TURNS

# By how much a count for each epoch, or for each delivery, may differ between short and long runs; and which may differ by more.
# The coins decide how many deliveries an epoch has. A list that grows asks for twice as many bytes each time, and what an actor
# asks for once weighs more in a short run.
MOST_SPREAD = 1.10
MORE_SPREAD = {DELIVERIES: 1.25, ALLOCATED: 1.75}
# One thread has no turns at a book.
SHOWN = tuple(measure for measure in MEASURES if measure != TURNS)


def spread_of(values):
    """How many times the least the most is."""
    return max(values) / min(values)


def spread(row, measure):
    """By how much a count differs between runs of a row, which has the counts by epochs: for each epoch or for each delivery,
    whichever is less. The coins decide how many rounds an epoch has, and some of what is counted comes with each round."""
    for_epochs = spread_of([counts[measure] / epochs for epochs, counts in row.items()])
    if measure == DELIVERIES:
        return for_epochs
    return min(for_epochs, spread_of([counts[measure] / counts[DELIVERIES] for counts in row.values()]))


def is_level(row, measure):
    """Whether a count grows as the epochs do, up to what the coins decide."""
    return spread(row, measure) <= MORE_SPREAD.get(measure, MOST_SPREAD)


def rows_of(results):
    """The rows: the counts by epochs, by the number of nodes. Results are the counts by nodes and epochs."""
    rows = {}
    for (nodes, epochs), counts in sorted(results.items()):
        rows.setdefault(nodes, {})[epochs] = counts
    return rows


def wrong_in(rows):
    """What does not grow as the epochs do, in words."""
    return [f"{measure} of {nodes} nodes are not level" for nodes, row in rows.items() for measure in SHOWN
            if not is_level(row, measure)]


def print_table(rows):
    """The counts for each epoch, and below them by how much they differ."""
    print("\nfor each epoch, on one thread, batches of 4 transactions of 4 bytes")
    print("nodes epochs" + "".join(f"{measure:>17}" for measure in SHOWN))
    for nodes, row in rows.items():
        for epochs, counts in row.items():
            print(f"{nodes:5} {epochs:6}" + "".join(f"{counts[measure] / epochs:17,.0f}" for measure in SHOWN))
        told = "".join(f"{100 * (spread(row, measure) - 1):15.1f} %" for measure in SHOWN)
        print(f"{'differ by':>12}{told}")
