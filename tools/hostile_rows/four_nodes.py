"""Four nodes, of which one may be faulty, with a transaction each: their scenario, and the text of a run."""
import json


def scenario(**keys):
    """The scenario with these keys besides."""
    submit = [{"node": node, "tx": f"613{node}"} for node in range(4)]
    return json.dumps({"nodes": 4, "faulty": 1, "epochs": 1, "submit": submit, **keys}).encode()


def ledger(*nodes):
    """The ledger with the batches of these nodes."""
    return f"epoch 0 batches {len(nodes)}\n" + "".join(f"batch {node} txs 1\ntx 613{node}\n" for node in nodes)


ALL = "running\n" + ledger(0, 1, 2, 3)
LIAR = "liar\n"


def text(*nodes):
    """The text of a run with status 0 that leaves this of each node."""
    blocks = "".join(f"node {node} {left}" for node, left in enumerate(nodes))
    return f"run nodes 4 faulty 1 version 1 epochs 1\n{blocks}end 0\n".encode()


def text_beside(liar):
    """The text of a run in which the correct nodes close the batches of all three of them."""
    correct = "running\n" + ledger(*(node for node in range(4) if node != liar))
    return text(*(LIAR if node == liar else correct for node in range(4)))
