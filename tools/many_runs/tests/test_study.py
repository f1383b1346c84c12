"""Tests of tools/study: that its counting and its checks find what is wrong, and words and files that are wrong."""
import os
import pathlib
import shutil
import signal
import subprocess
import sys
import tempfile
import unittest
import xml.etree.ElementTree

from many_runs import checks, figures, history, plot, program, studies, tables
from waiting import wait_for

STUDY = [sys.executable, str(program.TOP / "tools" / "study")]
KEPT = program.TOP / "docs" / "study"

# Node 3 lies. Lane 1 of node 0 is restarted after its first round, and decides in its third.
TRACE = """trace nodes 4 faulty 1 version 1 epochs 1 rounds 32 batch 64 seed 0 liars 8
post 0 from 0 actor 1 to book 08000002
post 1 from 3 actor 1 to all ff
post 2 from 3 actor 1 to home 0a0001
post 3 from 0 actor 1 to book 08000002
post 4 from 0 actor 1 to node 0 010000
post 5 from 0 actor 1 to node 2 010002
post 6 from 0 actor 1 to book 08000203
post 7 from 0 actor 1 to book 08000002
post 8 from 0 actor 1 to home 0a0001
post 9 from 1 actor 1 to all 0300aabb
post 10 from 3 actor 1 to all -
post 11 from 0 actor 1 to home 0a0001
end 12
"""


class Counts(unittest.TestCase):
    def test_a_history(self):
        found = history.read(TRACE)
        self.assertEqual((found.nodes, found.liars, len(found.posts)), (4, {3}, 12))
        costs = history.costs(found)
        self.assertEqual(costs["Val"], [2, 1, 3])
        self.assertEqual(costs["Ready"], [1, 3, 12])
        self.assertEqual(costs["Pick"], [4, 0, 0])
        self.assertEqual(costs["Decided"], [2, 0, 0])
        self.assertEqual(history.deciding_rounds(found)[0, 1], [3, None, None])
        self.assertEqual(history.said_twice(found), 3)

    def test_ledgers(self):
        text = ("run nodes 4 faulty 1 version 1 epochs 2\nnode 0 running\nepoch 0 batches 2\nbatch 0 txs 1\ntx aa\nbatch 2 txs 0\n"
                "epoch 1 batches 1\nbatch 1 txs 1\ntx bb\nnode 1 running\nnode 2 ended\nactor 1 journal\nepoch 0 batches 1\n"
                "batch 0 txs 1\ntx aa\nnode 3 liar\nend 4\n")
        self.assertEqual(history.ledgers(text), {0: [{0, 2}, {1}], 1: [], 2: [{0}]})
        self.assertEqual(history.transactions(text), 2)

    def test_the_count_by_hand_can_fail(self):
        runs = studies.Runs(program.find_program())
        self.assertEqual(checks.by_hand(runs), [])
        for kind, cost in checks.BY_HAND.items():
            for place in range(3):
                kept = cost[place]
                cost[place] += 1
                self.assertEqual(len(checks.by_hand(runs)), 1, kind)
                cost[place] = kept

    def test_the_batch_limit_by_hand(self):
        # Of four nodes each has two data shards: (3 * 5) / (4 * 2) = 15 / 8 of a value, per node and value.
        self.assertEqual(figures.limit(4, 8), 15)


class Tables(unittest.TestCase):
    def setUp(self):
        folder = tempfile.TemporaryDirectory()
        self.addCleanup(folder.cleanup)
        self.folder = pathlib.Path(folder.name)
        for file in KEPT.iterdir():
            shutil.copy(file, self.folder)
        self.stops = tables.by_name("stops")

    def change(self, name, old, new):
        path = self.folder / name
        text = path.read_text()
        self.assertIn(old, text)
        path.write_text(text.replace(old, new, 1))

    def test_a_changed_row_is_found(self):
        runs, keys = studies.Runs(program.find_program()), [(0, 3), (0, 4)]
        self.assertEqual(tables.differences(self.stops, self.folder, runs, keys), [])
        self.change("stops.csv", "\n0,3,", "\n0,3,1")
        self.assertEqual(len(tables.differences(self.stops, self.folder, runs, keys)), 1)

    def test_a_missing_row_is_found(self):
        runs = studies.Runs(program.find_program())
        self.change("stops.csv", "\n0,3,", "\n9,3,")
        self.assertEqual(len(tables.differences(self.stops, self.folder, runs, [])), 1)

    def test_changed_plots_and_tables_are_found(self):
        self.assertEqual(checks.files(self.folder), [])
        self.change("stops.svg", "circle", "ring")
        self.assertEqual(len(checks.files(self.folder)), 1)
        (self.folder / "posts.svg").unlink()
        self.assertEqual(len(checks.files(self.folder)), 2)
        # A number that counts in a mean changes the plot and the table.
        self.change("batch.csv", "\n4,1,0,4,", "\n4,1,0,4,9")
        self.assertEqual(len(checks.files(self.folder)), 4)

    def test_what_is_no_table(self):
        for name, old, new in [("stops.csv", "said_twice", "twice"), ("stops.csv", "\n0,3,", "\n0,")]:
            with self.subTest(new):
                self.change(name, old, new)
                ran = self.study("--tables")
                self.assertEqual((ran.returncode, ran.stderr.count("\n")), (3, 1))
                shutil.copy(KEPT / name, self.folder)
        (self.folder / "votes.csv").unlink()
        self.assertEqual(self.study("--tables").returncode, 6)

    def study(self, *words, **more):
        return subprocess.run([*STUDY, "--folder", str(self.folder), *words], capture_output=True, text=True, timeout=900, **more)

    def test_the_same_again(self):
        (self.folder / "stop.csv").unlink()
        (self.folder / "stop.svg").unlink()
        ran = self.study("stop", "--jobs", "2")
        self.assertEqual((ran.returncode, ran.stdout), (0, ""))
        for name in ("stop.csv", "stop.svg"):
            self.assertEqual((self.folder / name).read_text(), (KEPT / name).read_text())

    def test_wrong_words(self):
        for words in [("none",), ("--check", "stops"), ("--draw", "--check"), ("--jobs", "x"), ("--folder",), ("--loud",)]:
            with self.subTest(words):
                ran = self.study(*words)
                self.assertEqual((ran.returncode, ran.stdout, ran.stderr.count("\n")), (2, "", 1))
        for folder in ("/nowhere/at/all", "/dev/full"):
            self.assertEqual(subprocess.run([*STUDY, "--folder", folder, "stops"], capture_output=True).returncode, 7)

    def test_a_run_that_goes_wrong(self):
        fake = self.folder / "fake"
        fake.write_text("#!/bin/sh\necho no memory >&2\nexit 9\n")
        fake.chmod(0o755)
        before = sorted(self.folder.iterdir())
        ran = self.study("stops", env={**os.environ, "HB_LEDGER": str(fake)})
        self.assertEqual((ran.returncode, ran.stderr.count("\n")), (1, 1))
        self.assertIn("ended with status 9 no memory on {", ran.stderr)
        self.assertEqual(sorted(self.folder.iterdir()), before)
        self.assertEqual((self.folder / "stops.csv").read_text(), (KEPT / "stops.csv").read_text())

    def test_interrupt(self):
        fake, begun = self.folder / "fake", self.folder / "begun"
        fake.write_text(f"#!/bin/sh\ntouch '{begun}'\nsleep 900\n")
        fake.chmod(0o755)
        before = sorted([*self.folder.iterdir(), begun])
        ran = subprocess.Popen([*STUDY, "--folder", str(self.folder), "rounds", "--jobs", "1"], stderr=subprocess.PIPE, text=True,
                               env={**os.environ, "HB_LEDGER": str(fake)})
        wait_for(begun.exists)
        ran.send_signal(signal.SIGINT)
        self.assertEqual((ran.communicate(timeout=300)[1], ran.returncode), ("tools/study: interrupted\n", 130))
        self.assertEqual(sorted(self.folder.iterdir()), before)
        self.assertEqual((self.folder / "rounds.csv").read_text(), (KEPT / "rounds.csv").read_text())


class Plots(unittest.TestCase):
    def test_places_by_hand(self):
        # 0 to 10 over 482 units from 84 on, and 1 to 100 over 322 units from 366 upwards.
        drawn = plot.Plot("t", "x", "y", (0, 10), (1, 100), y_log=True)
        self.assertEqual([drawn.across.place(x) for x in (0, 5, 10)], [84, 325, 566])
        self.assertEqual([round(drawn.up.place(y)) for y in (1, 10, 100)], [366, 205, 44])
        self.assertEqual(drawn.up.labels, [(1, "1"), (10, "10"), (100, "100")])
        self.assertEqual([label for _, label in drawn.across.labels], ["0", "2", "4", "6", "8", "10"])
        drawn.line("a < b", [(0, 1), (5, 10), (7, 0)])
        self.assertIn('points="84.0,366.0 325.0,205.0"', drawn.svg())

    def test_all_are_well_formed(self):
        for name, draw in figures.PLOTS.items():
            with self.subTest(name):
                root = xml.etree.ElementTree.fromstring(draw(KEPT).svg())
                self.assertTrue(root.tag.endswith("svg"))


if __name__ == "__main__":
    unittest.main()
