"""For each check a change of the test that it reads, in one place, which it has to notice: the crate and the file, what stands
there, and what is put in its place. The file is a source, the output of a stored run, or a path where no crate is named."""

SOURCE = "crates/{}/src/{}.rt"
LIBRARIES, LANES, DESKS = "library_calls", "lane_cases", "epoch_cases"
JUDGES, TEXTS, SCRIPTS = "judge_cases", "text_cases", "script_cases"

CHANGES = {
    "first_words": ("seed_words", "tests", "0x28BD_8653", "0x28BD_8652"),
    "generated_scenarios": (SCRIPTS, "generated", "6 0 29 Old", "6 0 29 New"),
    "shards": (LIBRARIES, "shards/codes", "0xFCC83A1D", "0xFCC83A1C"),
    "broadcast_roots": (LANES, "broadcasts", r"\x3c\x35\xd6\xf6\x94\xac", r"\x3c\x35\xd6\xf6\x94\xad"),
    "text_trees": ("wire_cases", "trees", "ab1527347e9f2a", "ab1527347e9f2b"),
    "wire_probes": ("wire_cases", "probes", "090300fe44", "090300ff44"),
    "dealt_coins": (LIBRARIES, "deals", "0xFF, 0xE7, 0x73, 0x31", "0xFF, 0xE7, 0x73, 0x32"),
    "shares_of_coins": (LIBRARIES, "shares", "0x25, 0xCD", "0x25, 0xCC"),
    "votes_of_libraries": (LIBRARIES, "tests", r"\x00\x00\x00\x03\x04\xd0\xd2", r"\x00\x00\x00\x03\x04\xd0\xd3"),
    "said_by_liars": (LIBRARIES, "liars/said", "2 babble 26 3 All ff", "2 babble 26 3 All fe"),
    "splits_1_low": (LANES, "splits", "0x2cec_2566_01ed_b238", "0x2cec_2566_01ed_b239"),
    "splits_1_high": (LANES, "splits", "[202, 68, 105]", "[202, 69, 104]"),
    "splits_2_low": (LANES, "splits", '(2, 0, "000", "000"', '(2, 0, "000", "00-"'),
    "splits_2_high": (LANES, "splits", "0xba63_0b70_ac78_6c81", "0xba63_0b70_ac78_6c82"),
    "fronts": (LANES, "again", "36, 37, 30]", "36, 37, 31]"),
    "alone": (LANES, "alone", "E00B00A00C01P01", "E00B00A00C02P01"),
    "lanes": (LANES, "lanes", "P32S33D01\"", "P32S34D01\""),
    "desks": (DESKS, "cases", "+P1de+P2ef", "+P1de+P2eg"),
    "subsets": (DESKS, "subsets", '"1g2f3d"', '"1g2f3e"'),
    "journals_of_one": ("", "tools/hostile_rows/disks.py", "VOTES = (260, 42)", "VOTES = (260, 43)"),
    "histories_of_one": ("", "scenarios/spent_rounds.trace.out", "post 5 from 0 actor 0", "post 5 from 0 actor 1"),
    "whole_texts": (SCRIPTS, "rows", "refused 8 TooFewNodes n=15 f=5", "refused 8 TooFewNodes n=15 f=4"),
    "keys_and_lists": (SCRIPTS, "rows", "refused 14 BadWord links 1", "refused 14 BadWord links 0"),
    "bounds_and_kinds": (SCRIPTS, "rows", "| 4194304", "| 4194305"),
    "long_texts": (SCRIPTS, "rows", "OutOfRange top 0 links value=257", "OutOfRange top 0 links value=256"),
    "fronts_of_a_scenario": (SCRIPTS, "tests", '"workers":4,"order"', '"workers":5,"order"'),
    "accusations": (JUDGES, "histories", "&[(15, 1, 2)]", "&[(15, 0, 2)]"),
    "accusation_texts": (JUDGES, "texts", r"accused 9 posts 10 99\n", r"accused 9 posts 10 98\n"),
    "answers_on_ledgers": (JUDGES, "ledgers", '(false, "0dC31ab--")', '(true, "0dC31ab--")'),
    "observed_posts": (TEXTS, "observers", '"ccnc"', '"cccc"'),
    "observed_texts": (TEXTS, "observing", "[TWO, THREE, TWO, TWO]", "[TWO, THREE, TWO, THREE]"),
    "agreeing_observers": (TEXTS, "observers", '(true, "0dC00ab--", &[])', '(false, "0dC00ab--", &[])'),
    "run_texts": (TEXTS, "runs", "actor 2 journal", "actor 3 journal"),
    "soak_texts": (TEXTS, "soaks", "unaltered no\nend 9", "unaltered yes\nend 9"),
    "full_texts": (TEXTS, "full", "336_444", "336_445"),
    "trace_texts": (TEXTS, "traces", "to node 255 0001", "to node 255 0002"),
    "posts_that_may_follow": ("", "tools/histories/two_nodes.trace", "post 46 from 0 actor 1 to book 08000102",
                              "post 46 from 0 actor 1 to book 08000101"),
    "words_of_votes": ("votes_cases", "rows", "PICK epoch 0 round 4 bits 0 1", "PICK epoch 0 round 4 bits 1"),
    "words_of_a_run": ("hb_votes", "stdout", "AUX epoch 0 round 0 bit 1", "AUX epoch 0 round 0 bit 0"),
}


def change_of(check):
    """The path of the test, and the two texts."""
    crate, name, old, new = CHANGES[check]
    if not crate:
        return name, old, new
    path = f"crates/{crate}/stdout" if name == "stdout" else SOURCE.format(crate, name)
    return path, old, new
