"""Forty limits of memory and of the stack: each command ends by a status that is told, and prints its whole text or nothing.

Where memory suffices it prints the text.
"""
import functools

from hostile_rows.calls import ENDS
from hostile_rows.program import Limits, tell
from hostile_rows.texts import READERS, WORDS, Scene, Wrong

SCENARIOS = ("torn_stops.json", "four_nodes.json", "workers.json")
MOST = 65536
# What is above the least address space with which the program loads, in kilobytes.
ABOVE = (0, 4, 32, 128, 256, 384, 512, 768, 1024, 1280, 1536, 1792, 2048, 2560, 3072, 4096, 6144)
FAR_ABOVE = (16384, 65536, 131072, 262144, 1048576)
# So much above the least suffices: of all runs of this row that of `workers` has the most threads, twelve, whose stacks take
# 96 MB, and what else a run takes is far less.
AMPLE = 262144
STACKS = (512, 640, 768, 1024, 1536, 2048, 2560, 3072, 4096, 8192)
LARGEST_STACK = STACKS[-1]
ABOVE_WITH_SMALL_STACK = (0, 256, 512, 1024, 2048, 4096, 8192, 65536)
SOAK = ("comparable yes", "batches yes", "unaltered yes")


def loads(bench, memory, words):
    """Whether the program loads in so many kilobytes: with words that it does not know it tells how it is used."""
    return bench.ask(words, limits=Limits(memory=memory)).status in (2, 9)


def least_memory(bench, words):
    """The least address space with which the program loads, in kilobytes. It does not know these words."""
    low, high = 0, MOST
    if not loads(bench, high, words):
        raise Wrong(f"the program does not load in {MOST} kilobytes")
    while high - low > 4:
        middle = (low + high) // 2
        low, high = (low, middle) if loads(bench, middle, words) else (middle, high)
    return high


class Least:
    """The least address space with which the program loads, in kilobytes. It is looked for where a case first asks for it."""

    def __init__(self, bench, words=()):
        self.bench, self.words, self.found = bench, words, None

    def limits(self, above, stack=None):
        """Limits of so much more address space, or of none, and of the stack."""
        if above is not None and self.found is None:
            self.found = least_memory(self.bench, self.words)
        return Limits(memory=None if above is None else self.found + above, stack=stack)


def all_limits():
    """Limits of what is above the least memory, and of the stack, in kilobytes."""
    yield from ((above, None) for above in ABOVE)
    yield from ((above, LARGEST_STACK) for above in FAR_ABOVE)
    yield from ((None, stack) for stack in STACKS)
    yield from ((above, 512) for above in ABOVE_WITH_SMALL_STACK)


def bounds_of(above, stack):
    """These limits in words."""
    bounds = ((f"{above} kB above the least memory", above), (f"{stack} kB of stack", stack))
    return ", ".join(bound for bound, limit in bounds if limit is not None)


def check_text(word, given, answer):
    """Raises Wrong where a text is neither whole nor nothing, or fits its status no more."""
    if answer.err != (b"no memory\n" if answer.status == 9 else b""):
        raise Wrong("the error output is another")
    if answer.status == 9 and not answer.out:
        return
    if word == "soak":
        lines = answer.out.decode().split("\n")
        if tuple(lines[1:4]) != SOAK or lines[4:] != [f"end {answer.status}", ""] or not lines[0].startswith("soak 1 nodes 5 "):
            raise Wrong("the text of soak is another")
    elif word == "audit":
        if answer.status != 0 or not answer.out.startswith(b"legal ") or not answer.out.endswith(b"\n"):
            raise Wrong("the history is legal")
    else:
        READERS[word](answer.out, Scene(given), answer.status)


def check(bench, words, given, limits, is_ample):
    """One command under limits."""
    answer = bench.ask(words, given, limits())
    statuses = ((0,) if words[0] == "audit" else ENDS) + (() if is_ample else (9,))
    try:
        if answer.status not in statuses:
            raise Wrong(f"the statuses {statuses} are right")
        check_text(words[0], given, answer)
    except Wrong as why:
        return f"{why} ({tell(answer)})"
    return None


def cases(bench):
    """A case for each limit, word and scenario."""
    commands = [([word], bench.scenario(name), name) for name in SCENARIOS for word in WORDS]
    commands.append((["soak", "1"], b"", "no input"))
    commands.append((["audit"], bench.ask(["trace"], bench.scenario("four_nodes.json")).out, "the history of four_nodes"))
    least = Least(bench)
    for above, stack in all_limits():
        limits, is_ample = functools.partial(least.limits, above, stack), above is None or above >= AMPLE
        for words, given, name in commands:
            call = functools.partial(check, bench, words, given, limits, is_ample)
            yield f"{' '.join(words)} on {name} in {bounds_of(above, stack)}", call
