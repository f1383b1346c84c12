"""Tests the counter and what judges the counts: they have to see what is wrong."""
import copy
import os

import bounds
import counter
import growth
from hostile_rows.program import Bench
from hostile_rows.shims import TARGET, call, compile_c, kit
from hostile_rows.texts import Scene, Wrong, read_trace
from places import Program

# What sample.c does: it asks for 100 bytes and then for 300, copies 1, 100 and 200, and passes 1000 times in each of 4 threads.
# Where no thread can be started, the caller passes 1000 times.
KNOWN = {counter.ALLOCATIONS: 2, counter.ALLOCATED: 400, counter.COPIES: 3, counter.COPIED: 301}
ON_THREADS, ALONE = {**KNOWN, "threads": 4, "passes": 4000}, {**KNOWN, "threads": 0, "passes": 1000}
# A bound that is so many times the count, and what has to be said of the count.
BOUNDS = ((0.96, bounds.OK), (0.94, bounds.ABOVE), (1.06, bounds.BELOW), (None, bounds.NONE))


def known_counts(scratch):
    """A program whose counts are known."""
    sample = f"{scratch}/sample"
    compile_c(f"{os.path.dirname(os.path.realpath(__file__))}/sample.c", f"{sample}.o")
    folder = kit()
    call(f"{folder}/bin/rattle-link", "--target", TARGET, "--toolchain", f"{folder}/toolchain", "-o", sample, f"{sample}.o")
    program = Program(sample)
    counted = counter.counter_at(program, sample, scratch, [("passes", program.function("passed"))])
    for is_alone, wanted in ((False, ON_THREADS), (True, ALONE)):
        found = counted.counts(is_alone=is_alone)
        if found != wanted:
            yield f"sample.c comes to {found}, and not {wanted}"
    try:
        program.function("nowhere")
        yield "a function that is not there was found"
    except Wrong:
        pass


def history_counts(counted, run, counts):
    """The posts of a run without liars, links and stops, and whom they reach, as its history has them. They were counted, unless
    the compiler took one of the functions into a caller."""
    answer, scene = Bench(counted.program, counted.scratch, "").ask(["trace"], run.given), Scene(run.given)
    posts = read_trace(answer.out, scene, answer.status)
    # At home a desk speaks to all lanes, and a lane to its desk. All others go to the actor of that number, at all nodes or one.
    deliveries = sum({"book": 0, "all": scene.nodes, "home": scene.nodes if actor == scene.nodes else 1}.get(to, 1)
                     for _, actor, to, _ in posts)
    for name, wanted in ((counter.POSTS, len(posts)), (counter.DELIVERIES, deliveries)):
        if counts[name] != wanted:
            yield f"{run.name}; {run.way.name}: {name} are {wanted}, and {counts[name]} were counted"


def changed_bounds(results, scratch):
    """Each bound in turn is raised, lowered and left out. That has to be seen, and nothing else."""
    path = f"{scratch}/bounds.json"
    bounds.store(path, results)
    stored = bounds.load(path)
    for row in bounds.rows_of(results, stored, True):
        for part, wanted in BOUNDS if row.value else ():
            changed = copy.deepcopy(stored)
            changed[row.run.name][row.run.way.name][row.measure] = part and row.value * part
            rows = list(bounds.rows_of(results, changed, True))
            found = [other.verdict for other in rows if (other.run, other.measure) == (row.run, row.measure)]
            wrong = list(bounds.wrong_in(rows, changed))
            if found != [wanted] or len(wrong) != (wanted in (bounds.ABOVE, bounds.NONE)):
                yield f"{row.measure} with a bound of {part} times the count: {found}, and {wrong}"
    stored["a run"] = {"a way": {"a measure": 1}}
    if len(list(bounds.wrong_in(list(bounds.rows_of(results, stored, True)), stored))) != 1:
        yield "a bound of what is not counted was not seen"


def grown_counts():
    """Counts that grow as the epochs do are let through, and one that grows faster is told."""
    linear = {epochs: {measure: 1000 * epochs for measure in growth.SHOWN} for epochs in (2, 8, 32)}
    if growth.wrong_in({4: linear}):
        yield "counts that grow as the epochs do are not let through"
    for measure in growth.SHOWN:
        # At 32 epochs a fifth of the count is what grows with their square; of allocated bytes, which may differ by more, two thirds.
        slow = 16 if measure == counter.ALLOCATED else 128
        faster = {epochs: {**counts, measure: round(1000 * epochs * (1 + epochs / slow))} for epochs, counts in linear.items()}
        if measure != counter.DELIVERIES and growth.wrong_in({4: faster}) != [f"{measure} of 4 nodes are not level"]:
            yield f"{measure} that grow faster than the epochs are let through"
    if not growth.wrong_in({4: {epochs: {**counts, counter.DELIVERIES: epochs ** 2} for epochs, counts in linear.items()}}):
        yield "deliveries that grow faster than the epochs are let through"


def wrong_in(counted, results):
    """What the tests find wrong, in words. Results are the runs of a scenario with their counts, on one thread first."""
    scratch = counted.scratch
    return [*known_counts(scratch), *history_counts(counted, *results[0]), *changed_bounds(results, scratch), *grown_counts()]
