"""Which ways of misbehaving each row has to notice, and what it must not take for one."""
import dataclasses
import os

# The row, the fault of tools/hostile_rows/false_program, and what the names of the cases have that must notice it.
FAULTS = (
    ("limits", "crash", "run on four_nodes.json in 512 kB of stack"),
    ("limits", "half_by_memory", "trace on four_nodes.json in 8192 kB of stack"),
    ("limits", "gives_up", "trace on workers.json in 262144 kB above the least memory"),
    ("limits", "gives_up", "audit on the history of four_nodes in 8192 kB of stack"),
    ("limits", "parted", "run on four_nodes.json in 8192 kB of stack"),
    ("allocations", "parted", "one thread, no allocation"),
    ("allocations", "uncounted", "4 workers, run by the caller, no allocation"),
    ("allocations", "uncounted", "4 workers, no allocation"),
    ("allocations", "falls", "one thread, allocation 1000"),
    ("allocations", "falls", "4 workers, allocation 101"),
    ("allocations", "half_by_memory", "one thread, allocation 1000"),
    ("processes", "one_thread", "4 workers, run by the caller"),
    ("processes", "one_less", "1 workers, 2 threads allowed"),
    ("orders", "fifo", "the stored history"),
    ("orders", "fifo", "seed 7, mixed and not"),
    ("orders", "fifo", "seeds 0 and 7"),
    ("orders", "restless", "seed 7 twice"),
    ("orders", "parted", "seed 7, each second post twice"),
    ("starts", "exchanged", "4 nodes"),
    ("starts", "mixed", "7 nodes, silent at 3"),
    ("hears", "all_ears", "node 3 hears 0"),
    ("hears", "eager", "node 0 hears 100"),
    ("hears", "soon_spent", "two liars that never end"),
    ("stops", "no_stops", "stops at 12 and 13 that leave old and torn, one thread"),
    ("stops", "no_stops_with_workers", "stops at 11 and 12 that leave new and new, 1 workers"),
    ("stops", "no_stops_with_workers", "stops at 18 and 19 that leave torn and torn, 4 workers"),
    ("stops", "no_stops_with_workers", "a lane, stops at 11 and 12 that leave old and old, 4 workers"),
    ("stops", "bent", "stops at 1 and 2 that leave old and old, one thread"),
    ("disks", "no_stops", "four nodes, actor 1 stops at 11"),
    ("disks", "no_stops", "four nodes, actor 4 stops at 18"),
    ("disks", "no_stops", "alone, actor 0 stops at 263"),
    ("disks", "no_faults", "four nodes, call 1 of actor 1 fails"),
    ("disks", "no_faults", "four nodes, call 42 of actor 1 fails"),
    ("disks", "no_faults", "alone, call 60 of actor 0 fails"),
    ("disks", "no_faults", "alone, how often the disk of actor 1 is called"),
    ("disks", "accuser", "four nodes, actor 1 stops at 1"),
    ("disks", "bent", "four nodes, actor 4 stops at 40"),
    ("disks", "half_by_memory", "alone, its votes"),
    ("streams", "one_read", "run, 7 bytes at a read"),
    ("streams", "one_read", "audit, 4095 bytes at a read"),
    ("streams", "content_with_less", "observe, a read that fails behind 189 bytes"),
    ("streams", "lenient", "audit, input that ends behind 0 bytes"),
    ("streams", "deaf", "accuse, full output"),
    ("streams", "deaf", "trace, a reader of 100 bytes"),
    ("streams", "deaf", "run run, full error output"),
    ("streams", "shifted", "soak, a write that fails behind 1 bytes"),
    ("workers", "parted", "alone, three rounds, 1 workers"),
    ("workers", "content", "alone, two rounds of version 2, 4 workers"),
    ("workers", "half_by_memory", "alone, actor 0 stops at 263, 4 workers"),
    ("workers", "shifted", "an observer, 4 workers"),
    ("workers", "deaf", "an observer, 1 workers"),
    ("workers", "parted", "four nodes, each post twice, 4 workers"),
    ("workers", "no_links", "four nodes, node 2 hears nobody, 1 workers"),
    ("workers", "forged", "others, six nodes, 4 workers"),
    ("workers", "no_stops_with_workers", "actor 1 stops at 12 and leaves old, 4 workers"),
    ("workers", "no_stops_with_workers", "actor 4 stops at 14 and leaves torn, 1 workers"),
    ("workers", "no_faults", "call 10 of actor 1 fails, 4 workers"),
    ("workers", "eager", "two liars, 4 workers"),
    ("workers", "bent", "legal, no more, 4 workers"),
    ("workers", "accuser", "nobody is accused, 1 workers"),
    ("workers", "unaccused", "a liar is accused, 4 workers"),
    ("workers", "small_batches", "the longest batches, 1 workers"),
    ("workers", "ended", "sixteen nodes, 4 workers"),
    ("storms", "parted", "storm 0"),
    ("storms", "bent", "storm 1"),
    ("storms", "accuser", "storm 2"),
    ("storms", "content", "storm"),
    ("storms", "restless", "storm 0"),
    ("storms", "forged", "stored storm, turn 19"),
    ("soaks", "denied", "soak 299"),
    ("soaks", "half_by_memory", "soak 0"),
    ("largest", "few_links", "the last link"),
    ("largest", "few_submitted", "20,000 submissions"),
    ("largest", "lenient", "refused: 7 OutOfRange top 0 nodes value=17"),
    ("largest", "lenient", "1048577 bytes"),
    ("votes", "crash", "longer posts in 512 kB of stack"),
    ("votes", "half_by_memory", "many posts in 8192 kB of stack"),
    ("votes", "gives_up", "many posts in 65536 kB above the least memory"),
    ("votes", "gives_up", "longer posts in 8192 kB of stack"),
    ("votes", "greedy", "100000 posts"),
    ("votes", "bent", "hb_votes, its words"),
    ("votes", "one_read", "hb_votes --full, 4095 bytes at a read"),
    ("votes", "content_with_less", "hb_votes, a read that fails behind 100 bytes"),
    ("votes", "shifted", "hb_votes --full, a write that fails behind"),
    ("votes", "deaf", "hb_votes, full output"),
    ("votes", "loud", "hb_votes, a reader of 0 bytes"),
    ("votes", "lenient", "input that ends behind 0 bytes"),
    ("votes", "lenient", "behind the end"),
    ("votes", "deaf", "words ['--all'], full error output"),
    ("answers", "eager", "babble hears 0, 1 workers"),
    ("answers", "eager", "babble hears 50, 4 workers"),
    ("answers", "hard_of_hearing", "echo_split hears 4194304, 1 workers"),
    ("answers", "tired", "bval_both among sixteen, 4 workers"),
    ("answers", "eager", "echo_split hears 1, 0 workers"),
    ("answers", "parted", "the text beside silent at 0, 0 workers"),
    ("answers", "all_ears", "two liars, 6 equivocates"),
)

# Ways of false_program that are no faults, and the faults that take the same way: they too hand on a text, or a scenario. The
# case that notices such a fault has to be silent here. So it notices the fault, and not that a program stands in between.
CONTROLS = {
    "same_text": {"half_by_memory", "parted", "bent", "accuser", "exchanged", "content", "lenient", "falls", "shifted", "deaf",
                  "forged", "unaccused", "ended", "denied"},
    "same_keys": {"one_thread", "one_less", "fifo", "mixed", "restless", "no_stops", "no_stops_with_workers", "no_faults",
                  "few_links", "few_submitted", "all_ears", "soon_spent", "eager", "tired", "hard_of_hearing", "no_links",
                  "small_batches"},
}


def control_of(fault):
    """The control for a case that notices this fault."""
    return next((control for control, faults in CONTROLS.items() if fault in faults), "itself")


def bench_of(bench, row, fault):
    """A bench whose program, or hb_votes for its row, misbehaves in this way, and else is that program."""
    false = os.path.join(os.path.dirname(os.path.realpath(__file__)), "false_program")
    which = "votes" if row == "votes" else "program"
    environment = {**os.environ, "HOSTILE_PROGRAM": getattr(bench, which), "HOSTILE_FAULT": fault}
    return dataclasses.replace(bench, environment=environment, **{which: false})
