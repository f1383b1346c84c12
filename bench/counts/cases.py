"""The runs that are counted."""
import dataclasses
import json

from hostile_rows.processes import with_workers


@dataclasses.dataclass(frozen=True)
class Way:
    """How a scenario is run."""
    name: str
    workers: int
    # Whether no thread can be started, so that the caller runs the workers.
    is_alone: bool = False
    # Whether each run comes to the same counts.
    is_fixed: bool = True


@dataclasses.dataclass(frozen=True)
class Run:
    """A run of a scenario in one way."""
    name: str
    given: bytes
    way: Way

    def count(self, counted):
        """What the run comes to, by name."""
        return counted.counts(["run"], with_workers(self.given, self.way.workers), self.way.is_alone)


ONE_THREAD = Way("one thread", 0)
WAYS = (ONE_THREAD, Way("4 workers, run by the caller", 4, is_alone=True), Way("4 workers", 4, is_fixed=False))
# Four nodes over 2 to 32 epochs, and 8 and 32 epochs of 4 to 16 nodes. The longest come first.
GROWTH = (*((nodes, (32, 8)) for nodes in (16, 13, 10, 7)), (4, (32, 16, 8, 4, 2)))


def scenario(nodes, epochs, batch, size):
    """Each node has a full batch for each epoch, of transactions of so many bytes: the t-th of node i begins with the number
    1000 i + t. As many nodes as may be faulty are called so, and none is."""
    submitted = [{"node": node, "tx": f"{1000 * node + t:08x}".ljust(2 * size, "0")}
                 for node in range(nodes) for t in range(batch * epochs)]
    told = {"nodes": nodes, "faulty": (nodes - 1) // 3, "epochs": epochs, "batch": batch, "submit": submitted}
    return json.dumps(told).encode()


def bound_runs(top):
    """Three scenarios, each in each way."""
    with open(f"{top}/scenarios/four_nodes.json", "rb") as file:
        four_nodes = file.read()
    scenes = {
        "16 nodes, 4 epochs, batches of 16 transactions of 256 bytes": scenario(16, 4, 16, 256),
        "4 nodes, 32 epochs, batches of 4 transactions of 4 bytes": scenario(4, 32, 4, 4),
        "scenarios/four_nodes.json": four_nodes,
    }
    return [Run(name, given, way) for name, given in scenes.items() for way in WAYS]


def growth_runs():
    """The runs that show how counts grow, by the numbers of nodes and of epochs. Batches are of 4 transactions of 4 bytes."""
    return {(nodes, epochs): Run(f"{nodes} nodes, {epochs} epochs", scenario(nodes, epochs, 4, 4), ONE_THREAD)
            for nodes, row in GROWTH for epochs in row}
