"""Counts what a program does, which is not changed for it: neither its sources nor its file.

A library that is loaded before the C library (count.c) counts its calls of that library, and how often it comes to functions of
its own. The whole program is counted, from its first line to its last.
"""
import dataclasses
import os
import subprocess
import tempfile

from hostile_rows.program import SECONDS, end_with_parent
from hostile_rows.shims import build
from hostile_rows.texts import Wrong
from places import Program

DELIVERIES, POSTS, BLOCKS, TURNS = "deliveries", "posts", "digest blocks", "turns at the book"
ALLOCATIONS, ALLOCATED, COPIES, COPIED = "allocations", "allocated bytes", "copies", "copied bytes"
# The functions that the program comes to once for each delivery that an actor of a correct node hears; for each post, a vote or
# a lie; and for each 64 bytes that SHA-256 takes.
FUNCTIONS = {
    DELIVERIES: ("hb_rules::hearing::hear",),
    POSTS: ("hb_rules::posts::Posts::add_vote", "hb_rules::posts::Posts::add_lie"),
    BLOCKS: ("sha2::block256::compress",),
}
# What the library counts besides, in its order: calls of malloc and realloc, and what they ask for; of memcpy and memmove, and
# what they copy; and the threads that are started. A copy that the compiler makes without a call is not seen.
CALLS = (ALLOCATIONS, ALLOCATED, COPIES, COPIED, "threads")
# The last words of the section .comment of a program that `rt run` has built.
PROOF_MARK = b"\0rattle logic="


@dataclasses.dataclass(frozen=True)
class Counter:
    """A program, the library, its places, what is counted at each, and a folder for files."""
    program: str
    library: str
    places: str
    counted: tuple
    scratch: str

    def counts(self, words=(), given=b"", is_alone=False):
        """What a run with status 0 comes to, by name. With `is_alone` no thread can be started."""
        # A pipe would give the input in pieces, which are not the same each time.
        with tempfile.TemporaryFile(dir=self.scratch) as source, tempfile.NamedTemporaryFile(dir=self.scratch) as told:
            source.write(given)
            source.seek(0)
            environment = {**os.environ, "LD_PRELOAD": self.library, "COUNT_PROGRAM": self.program, "COUNT_INTO": told.name,
                           "COUNT_PLACES": self.places, **({"COUNT_ALONE": "1"} if is_alone else {})}
            how = {"env": environment, "timeout": SECONDS, "preexec_fn": end_with_parent, "stdin": source}
            try:
                ran = subprocess.run([self.program, *words], stdout=subprocess.DEVNULL, check=False, **how)
            except (OSError, subprocess.SubprocessError) as fault:
                raise Wrong(f"the program does not run ({fault})") from fault
            counts = [int(line) for line in told.read().split()]
        names = (*CALLS, *self.counted)
        if ran.returncode or len(counts) != len(names):
            raise Wrong(f"the program ended with status {ran.returncode} and told {len(counts)} counts of {len(names)}")
        total = dict.fromkeys(names, 0)
        for name, count in zip(names, counts):
            total[name] += count
        return total


def counter_of(path, scratch):
    """A counter of the program. Raises Wrong where a function is not in it that is counted."""
    program = Program(path)
    at_functions = [(what, program.function(name)) for what, names in FUNCTIONS.items() for name in names]
    # Each turn that a seat has at a book ends at one of these.
    at_turns = [(TURNS, place) for place in program.freed_locks()]
    return counter_at(program, path, scratch, at_functions + at_turns)


def counter_at(program, path, scratch, places):
    """A counter of a program at these places, each with what is counted there."""
    library = build(f"{os.path.dirname(os.path.realpath(__file__))}/count.c", f"{scratch}/count.so")
    numbers = [program.entry, *(number for _, place in places for number in place)]
    words = " ".join(f"{number:x}" for number in numbers)
    return Counter(os.path.realpath(path), library, words, tuple(what for what, _ in places), scratch)


def is_proved(program):
    """Whether `rt run` has built the program. What ./run builds without proofs makes more of its copies by calls."""
    with open(program, "rb") as file:
        return PROOF_MARK in file.read()
