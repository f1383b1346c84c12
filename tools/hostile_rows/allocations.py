"""Each allocation of a run fails in turn. The run ends by itself, and prints its whole text or nothing; of its ledgers one
begins with the other.

A run on one thread makes the same allocations each time, and so does one with workers that the caller runs, since no thread can
be started. There it is checked that the one that is to fail was asked for. Where threads are started, each run has its own.
A library that is loaded before the C library counts them and lets one fail. The kit's compiler builds it.
"""
import dataclasses
import functools
import os

from hostile_rows.calls import ENDS
from hostile_rows.processes import FIRST_USER, for_all, probe, with_workers
from hostile_rows.program import Bench, Limits, tell
from hostile_rows.shims import build
from hostile_rows.texts import Scene, Wrong, read_run

SCENARIO = "torn_stops.json"
NO_END, NO_RUN, AN_END = "no actor ended by it", "nothing printed", "an actor ended by it"


@dataclasses.dataclass(frozen=True)
class Part:
    """A way in which the scenario is run, and which of its allocations fail: by how many they are apart."""
    name: str
    workers: int
    every: int
    # Whether no thread can be started, so that the caller runs the workers.
    is_alone: bool = False
    # Whether each run makes the same allocations.
    is_fixed: bool = True


PARTS = (
    Part("one thread", 0, 1),
    Part("4 workers, run by the caller", 4, 1, is_alone=True),
    Part("4 workers", 4, 10, is_fixed=False),
)


@dataclasses.dataclass(frozen=True)
class Runs:
    """The runs of a part: the program, the library, the scenario and the limits."""
    bench: Bench
    shim: str
    part: Part
    given: bytes
    limits: Limits

    def ask(self, number):
        """How a run ends in which this allocation fails (0: none), and how many were asked for: 0 where it did not tell."""
        count = f"{self.bench.scratch}/count.{os.getpid()}"
        with open(count, "w", encoding="ascii"):
            os.chmod(count, 0o666)
        environment = {**(self.bench.environment or os.environ), "LD_PRELOAD": self.shim, "FAIL_ALLOC": f"{number}",
                       "FAIL_COUNT": count, "FAIL_PROGRAM": os.path.realpath(self.program())}
        answer = dataclasses.replace(self.bench, environment=environment).ask(["run"], self.given, self.limits)
        with open(count, encoding="ascii") as file:
            return answer, int(file.read() or 0)

    def program(self):
        """The program itself, also where another one starts it."""
        return (self.bench.environment or {}).get("HOSTILE_PROGRAM", self.bench.program)

    def end_of(self, number):
        """What kind of end a run has in which this allocation fails. Raises Wrong where it is none that may be."""
        answer, asked = self.ask(number)
        try:
            if self.part.is_fixed and asked < number:
                raise Wrong(f"only {asked} allocations were asked for")
            return kind_of(self.given, answer)
        except Wrong as why:
            raise Wrong(f"{why} ({tell(answer)})") from why

    def count(self):
        """How many allocations a run asks for in which none fails."""
        return self.ask(0)[1]

    def check_none(self):
        """A run in which no allocation fails: no actor ends, and each run asks for as many of them, where that is fixed."""
        (answer, asked), others = self.ask(0), self.count()
        if kind_of(self.given, answer) != NO_END:
            raise Wrong(f"no allocation failed, and yet: {tell(answer)}")
        if not asked or self.part.is_fixed and asked != others:
            raise Wrong(f"a run asks for {asked} allocations, and another one for {others}")


def kind_of(given, answer):
    """What kind of end a run has. Raises Wrong where its text is neither whole nor nothing, or does not fit its status."""
    if answer.status not in (*ENDS, 9) or answer.err != (b"no memory\n" if answer.status == 9 else b""):
        raise Wrong(f"the statuses {(*ENDS, 9)} are right, and with 9 the words 'no memory'")
    if answer.status == 9 and not answer.out:
        return NO_RUN
    read_run(answer.out, Scene(given), answer.status)
    return AN_END if answer.status == 9 else NO_END


def limits_of(part):
    """One thread of a user who may not do everything is all that the limit leaves: a probe shows it."""
    if not part.is_alone:
        return Limits()
    limits = Limits(processes=1, user=None if os.geteuid() else FIRST_USER - 1)
    if probe(limits) != 1:
        raise Wrong("no way was found to allow one thread alone")
    return limits


def runs_of(bench, parts=PARTS, given=None):
    """The runs of each part, of this scenario or the one that ships."""
    bench = for_all(bench)
    shim = build(f"{bench.top}/bench/memory/fail.c", f"{bench.scratch}/fail.so")
    given = given or bench.scenario(SCENARIO)
    return [Runs(bench, shim, part, with_workers(given, part.workers), limits_of(part)) for part in parts]


def check(runs, number):
    """One allocation that fails."""
    runs.end_of(number)


def cases(bench):
    """A case for each part in which no allocation fails, and one for each that does."""
    for runs in runs_of(bench):
        yield f"{runs.part.name}, no allocation", runs.check_none
        for number in range(1, runs.count() + 1, runs.part.every):
            yield f"{runs.part.name}, allocation {number}", functools.partial(check, runs, number)
