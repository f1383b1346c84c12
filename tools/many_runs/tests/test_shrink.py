"""Tests of tools/shrink: ten scenarios with a property planted in each, and words and files that are wrong.

The property is a line of Python, which a process of its own asks of the file. What the smallest scenario is was found by hand.
"""
import json
import os
import pathlib
import signal
import subprocess
import sys
import tempfile
import unittest

from many_runs import program, scenario
from waiting import wait_for

SHRINK = [sys.executable, str(program.TOP / "tools" / "shrink")]
HAYSTACK = {
    "nodes": 10, "faulty": 3, "epochs": 5, "rounds": 9, "batch": 7, "seed": 77, "version": 2, "workers": 3, "order": "mixed",
    "submit": [{"node": i % 10, "tx": f"{i:02x}" * (1 + i % 5)} for i in range(20)] + [{"node": 4, "tx": "aabbcc"}] * 2,
    "liars": [{"node": 9, "name": "babble", "hears": 900}, {"node": 2, "name": "silent"}, {"node": 5, "name": "bval_both"}],
    "links": [{"from": i, "every": 3 + i, "at": i, "shape": ("late", "drop", "twice")[i % 3]} for i in range(6)],
    "stops": [{"node": i, "actor": (3 * i) % 11, "call": 5 + i, "leave": ("old", "torn")[i % 2]} for i in range(8)],
    "faults": [{"node": i, "actor": 10, "call": 20 + i} for i in range(3)],
}
BASE = {"nodes": 1, "faulty": 0, "epochs": 1}

# Each has a property of a scenario `s`, and a smallest scenario that has it.
PLANTED = [
    ("sum(e['node'] >= 2 for e in s.get('submit', [])) >= 3",
     {**BASE, "nodes": 3, "submit": [{"node": 2, "tx": "02"}] * 3}),
    ("any(e['shape'] == 'drop' and e.get('from') == 1 for e in s.get('links', []))",
     {**BASE, "nodes": 2, "links": [{"from": 1, "every": 1, "at": 0, "shape": "drop"}]}),
    ("sum(e['leave'] == 'torn' for e in s.get('stops', [])) >= 2",
     {**BASE, "stops": [{"node": 0, "actor": 0, "call": 1, "leave": "torn"}] * 2}),
    ("any(e['name'] == 'babble' and e.get('hears', 4194304) >= 40 and 'hears' in e for e in s.get('liars', []))",
     {**BASE, "nodes": 4, "faulty": 1, "liars": [{"node": 0, "name": "babble", "hears": 40}]}),
    ("s['epochs'] * s['nodes'] >= 4 and s.get('seed', 0) >= 13",
     {**BASE, "epochs": 4, "seed": 13}),
    ("len({e['name'] for e in s.get('liars', [])}) == 3",
     {**BASE, "nodes": 10, "faulty": 3, "liars": [{"node": 0, "name": "silent"}, {"node": 1, "name": "equivocate"},
                                                  {"node": 2, "name": "echo_split"}]}),
    ("any(a['node'] != b['node'] and a['tx'][:1] == b['tx'][:1] for a in s.get('submit', []) for b in s['submit'])",
     {**BASE, "nodes": 2, "submit": [{"node": 0, "tx": "00"}, {"node": 1, "tx": "01"}]}),
    ("any(e['actor'] == s['nodes'] and e['call'] >= 7 for e in s.get('faults', []))",
     {**BASE, "faults": [{"node": 0, "actor": 1, "call": 7}]}),
    ("s.get('workers', 0) >= 2 and s.get('order') == 'mixed'",
     {**BASE, "workers": 2, "order": "mixed"}),
    ("len(s.get('stops', [])) + len(s.get('links', [])) >= 3 and s.get('batch', 64) <= 5 and s.get('rounds', 32) <= 4",
     {**BASE, "rounds": 4, "batch": 5, "links": [{"every": 1, "at": 0, "shape": "once"}] * 3}),
]


def judge(holds):
    """A command that ends with 0 where a line of Python is true of the scenario in a file."""
    text = f"import json, sys; s = json.load(open(sys.argv[1])); sys.exit(not ({holds}))"
    return [sys.executable, "-I", "-S", "-c", text]


def shrink(*words):
    return subprocess.run([*SHRINK, *words], capture_output=True, text=True, timeout=300)


class Shrinks(unittest.TestCase):
    def setUp(self):
        folder = tempfile.TemporaryDirectory()
        self.addCleanup(folder.cleanup)
        self.folder = pathlib.Path(folder.name)
        self.path = self.folder / "haystack.json"
        self.write(HAYSTACK)

    def write(self, value):
        self.path.write_text(json.dumps(value))

    def test_planted(self):
        for holds, known in PLANTED:
            with self.subTest(holds):
                # The last one asks for numbers that are lower than those of the haystack.
                changed = {**HAYSTACK, "batch": 5, "rounds": 4} if "batch" in holds else HAYSTACK
                self.write(changed)
                ran = shrink(str(self.path), "--", *judge(holds))
                self.assertEqual((ran.returncode, ran.stderr), (0, ""))
                found = json.loads(ran.stdout)
                self.assertTrue(eval(holds, {"s": found}))
                self.assertNotEqual(self.status_of(ran.stdout), 3)
                self.assertEqual(found["nodes"], known["nodes"])
                self.assertLessEqual(scenario.elements(found), scenario.elements(known) + 1)
                self.assertEqual(json.loads(self.path.read_text()), changed)

    def status_of(self, text):
        return program.ask([program.find_program(), "run"], text.encode()).status

    def test_each_change_is_valid_and_told(self):
        # The command keeps what it was asked, and the program takes each of it for a scenario.
        kept = self.folder / "kept"
        kept.mkdir()
        command = ["sh", "-c", 'cp "$2" "$1/$(ls "$1" | wc -l)"; grep -q late "$2"', "judge", str(kept)]
        ran = shrink("--verbose", str(self.path), "--", *command)
        self.assertEqual(ran.returncode, 0)
        asked = sorted(kept.iterdir(), key=lambda file: int(file.name))
        told = ran.stderr.splitlines()
        self.assertEqual(len(told), len(asked) - 1)
        self.assertTrue(all(line.startswith(("+ ", "- ")) for line in told))
        weights = [scenario.weight(json.loads(file.read_text())) for file in asked if "late" in file.read_text()]
        self.assertEqual(min(weights), scenario.weight(json.loads(ran.stdout)))
        self.assertEqual(weights, sorted(set(weights), reverse=True))
        for file in asked[::5]:
            self.assertNotEqual(self.status_of(file.read_text()), 3, file.read_text())
        again = shrink(str(self.path), "--", "grep", "-q", "late")
        self.assertEqual(again.stdout, ran.stdout)

    def test_out(self):
        out = self.folder / "small.json"
        ran = shrink("--out", str(out), str(self.path), "--", "true")
        self.assertEqual((ran.returncode, ran.stdout), (0, ""))
        self.assertEqual(json.loads(out.read_text()), BASE)
        self.assertEqual(sorted(file.name for file in self.folder.iterdir()), ["haystack.json", "small.json"])

    def test_never_over_its_input(self):
        os.link(self.path, self.folder / "other")
        for name in ("haystack.json", "other"):
            ran = shrink("--out", str(self.folder / name), str(self.path), "--", "true")
            self.assertEqual(ran.returncode, 2)
            self.assertIn("is not written over", ran.stderr)
            self.assertEqual(json.loads(self.path.read_text()), HAYSTACK)

    def test_wrong_words(self):
        wrong = self.folder / "wrong.json"
        wrong.write_text('{"nodes": 3, "faulty": 1, "epochs": 1}')
        path = str(self.path)
        for words, status, told in [
            ([], 2, "no command"), ([path], 2, "no command"), ([path, "--"], 2, "needed"), (["--", "true"], 2, "needed"),
            (["--loud", path, "--", "true"], 2, "unknown option --loud"), (["--out"], 2, "no command"),
            (["--seconds", "0", path, "--", "true"], 2, "0 is no whole number"),
            ([path, "--", "/nowhere/command"], 2, "cannot run /nowhere/command: No such file"),
            ([path, "--", str(self.path)], 2, "Permission denied"),
            ([path, "--", "false"], 1, "ends with status 1 on"),
            (["--seconds", "1", path, "--", "sh", "-c", "sleep 99", "judge"], 1, "the command takes too long on"),
            ([str(self.folder / "none.json"), "--", "true"], 6, "cannot read"),
            ([str(wrong), "--", "true"], 3, "refused 8 TooFewNodes n=3 f=1"),
            (["--out", "/dev/full/x", path, "--", "true"], 7, "write failed"),
        ]:
            with self.subTest(words):
                ran = shrink(*words)
                self.assertEqual((ran.returncode, ran.stdout), (status, ""))
                self.assertIn(told, ran.stderr)
                self.assertEqual(ran.stderr.count("\n"), 1)

    def test_full_disk(self):
        with open("/dev/full", "w") as full:
            ran = subprocess.run([*SHRINK, str(self.path), "--", "true"], stdout=full, stderr=subprocess.PIPE, text=True)
        self.assertEqual((ran.returncode, ran.stderr), (7, "tools/shrink: write failed\n"))

    def test_interrupt(self):
        asked = self.folder / "asked"
        command = ["sh", "-c", 'echo >>"$1"; sleep 0.1; grep -q late "$2"', "judge", str(asked)]
        ran = subprocess.Popen([*SHRINK, str(self.path), "--", *command], stdout=subprocess.PIPE, stderr=subprocess.PIPE, text=True)
        # The fourth question is asked when at least one change was kept: to leave out all submissions.
        wait_for(lambda: asked.exists() and asked.stat().st_size >= 4)
        ran.send_signal(signal.SIGINT)
        out, err = ran.communicate(timeout=300)
        self.assertEqual((ran.returncode, err), (130, "tools/shrink: interrupted; this is the smallest so far\n"))
        self.assertIn("late", out)
        self.assertLess(scenario.weight(json.loads(out)), scenario.weight(HAYSTACK))


if __name__ == "__main__":
    unittest.main()
