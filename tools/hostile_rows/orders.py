"""The mixed order: it goes by the seed, is the same each time, and another than first in first out."""
import functools
import itertools

from hostile_rows import four_nodes
from hostile_rows.calls import compare, read, read_legal
from hostile_rows.texts import Wrong

SEEDS = (0, 7, 18446744073709551615)
# Whatever the order, every node without a liar sends these: shards, and an echo in each lane.
ALWAYS = ("01", "02")


def scenario(order, seed, **keys):
    return four_nodes.scenario(order=order, seed=seed, **keys)


def broadcasts(bench, order, seed):
    """The posts of a legal history that stand in it in every order, as they stand there."""
    return [post for post in read_legal(bench, scenario(order, seed)) if post[3][:2] in ALWAYS]


def check_two(bench, one, other):
    """Two runs post the same shards and echoes, in another order."""
    found = [broadcasts(bench, *settings) for settings in (one, other)]
    if sorted(found[0]) != sorted(found[1]):
        raise Wrong("the shards and echoes are not the same")
    return "the order is the same" if found[0] == found[1] else None


def check_again(bench, seed):
    """Two runs of one scenario have one history."""
    first, second = (bench.ask(["trace"], scenario("mixed", seed)) for _ in range(2))
    return compare(second, first.status, first.out, first.err)


def check_stored(bench):
    """The history that another implementation of the rules has."""
    return compare(bench.ask(["trace"], bench.scenario("mixed_small.json")), 0, bench.scenario("mixed_small.trace.out"))


def check_doubled(bench, seed):
    """Each second post comes twice. Whatever the order, the nodes agree, or a lane has gone through its rounds."""
    read(bench, "run", scenario("mixed", seed, links=[{"every": 2, "at": 0, "shape": "twice"}]), (0, 5))


def cases(bench):
    """Cases over seeds and orders."""
    yield "the stored history", functools.partial(check_stored, bench)
    yield "seed 7, each second post twice", functools.partial(check_doubled, bench, 7)
    for seed in SEEDS:
        yield f"seed {seed} twice", functools.partial(check_again, bench, seed)
        yield f"seed {seed}, mixed and not", functools.partial(check_two, bench, ("mixed", seed), ("fifo", seed))
    for one, other in itertools.combinations(SEEDS, 2):
        yield f"seeds {one} and {other}", functools.partial(check_two, bench, ("mixed", one), ("mixed", other))
