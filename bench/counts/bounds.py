"""Holds counts to the bounds that are stored."""
import collections
import json

from counter import ALLOCATED, ALLOCATIONS, BLOCKS, COPIED, COPIES, DELIVERIES, POSTS, TURNS

MEASURES = (DELIVERIES, POSTS, BLOCKS, ALLOCATIONS, ALLOCATED, COPIES, COPIED, TURNS)
# A count may be so many times its bound. What is below it by as much can have a lower bound.
ROOM = 1.05
OK, ABOVE, BELOW, NONE = "ok", "above", "below", "without a bound"

# What is compared, which is None where nothing is, its bound, and the verdict.
Row = collections.namedtuple("Row", "run measure counts value bound verdict")


def compared(run, measure, counts, is_proved):
    """What of a measure is held to a bound: where each run has a schedule of its own, turns for each delivery alone."""
    if not run.way.is_fixed:
        return round(counts[measure] / counts[DELIVERIES], 3) if measure == TURNS else None
    return None if measure in (COPIES, COPIED) and not is_proved else counts[measure]


def verdict_on(value, bound):
    """What a bound says of a count."""
    if value is None:
        return ""
    if bound is None:
        return NONE
    return ABOVE if value > bound * ROOM else BELOW if value * ROOM < bound else OK


def rows_of(results, bounds, is_proved):
    """A row for each measure of each run. Results are the runs with their counts."""
    for run, counts in results:
        for measure in MEASURES:
            value = compared(run, measure, counts, is_proved)
            bound = bounds.get(run.name, {}).get(run.way.name, {}).get(measure)
            yield Row(run, measure, counts, value, bound, verdict_on(value, bound))


def wrong_in(rows, bounds):
    """What is wrong with counts and their bounds, in words."""
    for row in rows:
        if row.verdict in (ABOVE, NONE):
            yield f"{row.run.name}; {row.run.way.name}: {row.measure}: {row.value:,} is {told(row)}"
    counted = {(row.run.name, row.run.way.name, row.measure) for row in rows}
    stored = {(name, way, measure) for name, ways in bounds.items() for way, of_way in ways.items() for measure in of_way}
    for place in sorted(stored - counted):
        yield f"a bound is stored of what is not counted: {'; '.join(place)}"


def told(row):
    """The verdict on a row, as the end of a sentence."""
    return f"{100 * (row.value / row.bound - 1):.1f} % above its bound, {row.bound:,}" if row.bound else row.verdict


def print_table(rows):
    """A line for each row, below the name of its run."""
    run = None
    for row in rows:
        if row.run is not run:
            run = row.run
            print(f"\n{run.name}; {run.way.name}")
            print(f"{'measure':18} {'count':>14} {'per delivery':>14} {'per post':>12} {'bound':>14}")
        count, bound = row.counts[row.measure], "-" if row.value is None or row.bound is None else f"{row.bound:,}"
        line = f"{row.measure:18} {count:14,} {count / row.counts[DELIVERIES]:14,.3f} {count / row.counts[POSTS]:12,.3f}"
        print(f"{line} {bound:>14} {row.verdict}".rstrip())


def load(path):
    """The stored bounds: by the run, its way and the measure."""
    with open(path, encoding="utf-8") as file:
        return json.load(file)


def store(path, results):
    """Stores the counts of a proved program as bounds."""
    told = collections.defaultdict(dict)
    for run, counts in results:
        values = {measure: compared(run, measure, counts, True) for measure in MEASURES}
        told[run.name][run.way.name] = {measure: value for measure, value in values.items() if value is not None}
    with open(path, "w", encoding="utf-8") as file:
        file.write(json.dumps(told, indent=2) + "\n")
