"""Tests of tools/soak, mostly with a program of their own in the place of hb_ledger, whose answers are known."""
import os
import pathlib
import shutil
import signal
import subprocess
import sys
import tempfile
import time
import unittest

from many_runs import program
from waiting import wait_for

SOAK = [sys.executable, str(program.TOP / "tools" / "soak")]

# Answers for a number: the status, what stands for `comparable`, how long it takes, and what is added to its text.
FAKE = """#!/bin/sh
status=0 yes=yes
number=$2
CASES
cat <<TEXT
soak $number nodes $((4 + $2 % 2)) faulty 1 epochs 2 batch 8 workers $((1 + $2 % 3))
comparable yes
batches $yes
unaltered yes
end $status
TEXT
exit $status
"""


class Soaks(unittest.TestCase):
    def setUp(self):
        folder = tempfile.TemporaryDirectory()
        self.addCleanup(folder.cleanup)
        self.folder = pathlib.Path(folder.name)

    def fake(self, cases):
        """A program that answers by these cases of the shell."""
        path = self.folder / "fake"
        path.write_text(FAKE.replace("CASES", cases))
        path.chmod(0o755)
        return {**os.environ, "HB_LEDGER": str(path)}

    def soak(self, cases, *words, **more):
        return subprocess.run([*SOAK, *words], env=self.fake(cases), capture_output=True, text=True, timeout=600, **more)

    def test_all_yes(self):
        ran = self.soak("[ $2 = 3 ] && status=5", "0", "6", "--jobs", "3")
        self.assertEqual((ran.returncode, ran.stderr), (0, ""))
        # Even numbers have four nodes, odd ones five; workers are one more than what is left of the number by three.
        self.assertEqual(ran.stdout.splitlines()[2:], [
            "| 4 | 1 | 1 | 2 | 0 | 2 |", "| 4 | 1 | 2 | 1 | 0 | 1 |", "| 4 | 1 | 3 | 1 | 0 | 1 |",
            "| 5 | 1 | 1 | 0 | 1 | 1 |", "| 5 | 1 | 2 | 1 | 0 | 1 |", "| 5 | 1 | 3 | 1 | 0 | 1 |",
            "| all | | | 6 | 1 | 7 |"])

    def test_the_least_that_is_wrong(self):
        # 9 is wrong at once, 7 only after a while: 7 is told, whatever comes first.
        ran = self.soak("case $2 in 7) sleep 1; yes=no ;; 9) status=4 ;; esac", "0", "99", "--jobs", "4")
        self.assertEqual(ran.returncode, 1)
        self.assertIn("| all | | | 7 | 0 | 7 |\nsoak 7: the program answers no\nsoak 7 nodes 5 ", ran.stdout)
        self.assertIn("batches no\n", ran.stdout)
        self.assertIn("to see it again: ./run --soak 7\n", ran.stdout)

    def test_each_wrong_answer(self):
        for cases, told in [
            ("status=4", "status 4, where 0 or 5"), ("status=9", "status 9, where 0 or 5"), ("number=1", "not that of a soak"),
            ("echo more", "not that of a soak"), ("exit 0", "not that of a soak"), ("echo oh >&2", "standard error is not empty"),
            ("sleep 99", "no answer in the time"), ("kill -9 $$", "not that of a soak"), ("yes=maybe", "not that of a soak"),
        ]:
            with self.subTest(cases):
                ran = self.soak(cases, "0", "0", "--seconds", "2" if "sleep" in cases else "600")
                self.assertEqual(ran.returncode, 1)
                self.assertIn("soak 0: ", ran.stdout)
                self.assertIn(told, ran.stdout)

    def test_wrong_words(self):
        for words in [(), ("1",), ("1", "2", "3"), ("2", "1"), ("a", "2"), ("01", "2"), ("0", "18446744073709551616"), ("0", ""),
                      ("-1", "2"), ("0", "1", "--jobs"), ("0", "1", "--jobs", "0"), ("0", "1", "--seconds", "x"), ("0", "²")]:
            with self.subTest(words):
                ran = self.soak("", *words)
                self.assertEqual((ran.returncode, ran.stdout, ran.stderr.count("\n")), (2, "", 1))
                self.assertTrue(ran.stderr.startswith("tools/soak: "))

    def test_no_program(self):
        for name in ("/nowhere/program", str(self.folder)):
            ran = subprocess.run([*SOAK, "0", "1"], env={**os.environ, "HB_LEDGER": name}, capture_output=True, text=True)
            self.assertEqual((ran.returncode, ran.stdout, ran.stderr.count("\n")), (2, "", 1))

    def test_the_program_that_run_names(self):
        # A copy of the tools beside a script of its own in the place of `run`.
        shutil.copytree(program.TOP / "tools" / "many_runs", self.folder / "tools" / "many_runs")
        shutil.copy(SOAK[1], self.folder / "tools")
        plain = {name: value for name, value in os.environ.items() if name != "HB_LEDGER"}
        fake = self.fake("")["HB_LEDGER"]
        for script, status, told in [(f"[ $1 = --program ] && echo >&2 building && echo {fake}", 0, "building\n"),
                                     ("echo >&2 no kit; exit 11", 11, "names no program; its status is 11"),
                                     ("echo /nowhere/at/all", 1, "names no program"), (None, 2, "cannot run")]:
            run = self.folder / "run"
            run.unlink(missing_ok=True)
            if script:
                run.write_text(f"#!/bin/sh\n{script}\n")
                run.chmod(0o755)
            ran = subprocess.run([sys.executable, str(self.folder / "tools" / "soak"), "0", "1"], env=plain, capture_output=True, text=True)
            self.assertEqual(ran.returncode, status, ran.stderr)
            self.assertIn(told, ran.stderr)
            self.assertEqual("| all | | | 2 | 0 | 2 |" in ran.stdout, status == 0)

    def test_full_disk_and_closed_pipe(self):
        with open("/dev/full", "w") as full:
            ran = subprocess.run([*SOAK, "0", "1"], env=self.fake(""), stdout=full, stderr=subprocess.PIPE, text=True)
        self.assertEqual((ran.returncode, ran.stderr), (7, "tools/soak: write failed\n"))
        read, write = os.pipe()
        os.close(read)
        ran = subprocess.run([*SOAK, "0", "1"], env=self.fake(""), stdout=write, stderr=subprocess.PIPE, text=True)
        os.close(write)
        self.assertEqual((ran.returncode, ran.stderr), (7, "tools/soak: write failed\n"))

    def test_interrupt(self):
        for number in (signal.SIGINT, signal.SIGTERM):
            begun = self.folder / f"begun {number}"
            ran = subprocess.Popen([*SOAK, "10", "99", "--jobs", "2"],
                                   env=self.fake(f"[ $2 -ge 30 ] && echo >>'{begun}' && sleep 900"),
                                   stdout=subprocess.PIPE, stderr=subprocess.PIPE, text=True)
            wait_for(lambda: begun.exists() and begun.stat().st_size == 2)
            # With two processes those before 30 are done once 30 and 31 have begun; the tool has three seconds to count them.
            time.sleep(3)
            ran.send_signal(number)
            out, err = ran.communicate(timeout=300)
            self.assertEqual((ran.returncode, err), (130, "tools/soak: interrupted; to go on: tools/soak 30 99\n"))
            self.assertIn("| all | | | 20 | 0 | 20 |", out)

    def test_the_program(self):
        # That number 0 is of nine nodes, two liars and three workers is known from the words of its seed.
        ran = subprocess.run([*SOAK, "0", "0"], capture_output=True, text=True, timeout=300)
        self.assertEqual((ran.returncode, ran.stderr), (0, ""))
        self.assertIn("| 9 | 2 | 3 | 1 | 0 | 1 |", ran.stdout)


if __name__ == "__main__":
    unittest.main()
