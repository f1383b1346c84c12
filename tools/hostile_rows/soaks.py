"""The first 300 generated runs, which have liars, stops, links and workers: all that is printed of each.

A generated scenario drops nothing that a correct node posts, and plans no fault of a disk. So each run closes every epoch, or a
lane has gone through its rounds. What a number chooses is drawn by `tools/oracles`.
"""
import functools

import scenarios

from hostile_rows.calls import compare

NUMBERS = range(300)
ENDS = (0, 5)
SAID = "comparable yes\nbatches yes\nunaltered yes\n"


def check(bench, number):
    """One generated run: its numbers, the three answers, and a status that it may have."""
    answer = bench.ask(["soak", str(number)])
    chosen = scenarios.chosen(number)
    first = "soak {} nodes {n} faulty {f} epochs {epochs} batch {batch} workers {workers}\n".format(number, **chosen)
    status = answer.status if answer.status in ENDS else ENDS[0]
    return compare(answer, status, f"{first}{SAID}end {status}\n".encode())


def cases(bench):
    """A case for each number."""
    for number in NUMBERS:
        yield f"soak {number}", functools.partial(check, bench, number)
