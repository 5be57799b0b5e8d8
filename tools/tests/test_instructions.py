"""Tests of bench/instructions: that it counts rows by their names, and what it says of words, of valgrind and of sessions that fail."""
import os
import subprocess
import sys
import tempfile
import unittest

from common import PROGRAM, TOP, needs

INSTRUCTIONS = TOP / "bench" / "instructions"


def asked(*words: str, **changed: str) -> subprocess.CompletedProcess:
    """What bench/instructions does with these words, where some variables of the environment are changed."""
    words = [sys.executable, str(INSTRUCTIONS), *words]
    return subprocess.run(words, capture_output=True, text=True, env={**os.environ, **changed}, timeout=120)


def cells(run: subprocess.CompletedProcess) -> list[list[str]]:
    """The cells of the table's lines after its heading."""
    return [[cell.strip() for cell in line.split(" | ")] for line in run.stdout.splitlines()[1:]]


@needs("valgrind")
class Table(unittest.TestCase):
    def test_rows_by_name(self):
        with tempfile.TemporaryDirectory() as folder:
            run = asked("--jobs", "2", PROGRAM, "--", "7|A", "-A", TMPDIR=folder)
            self.assertEqual(os.listdir(folder), [])
        self.assertEqual(run.returncode, 0, run.stderr)
        self.assertEqual(run.stdout.splitlines()[0].split(), ["function", "|", "instructions", "|", "turns"])
        self.assertEqual([name for name, _, _ in cells(run)], ["-A", "7|A"])
        for name, instructions, turns in cells(run):
            with self.subTest(name):
                self.assertGreater(float(turns), 0.1)
                self.assertGreater(float(instructions), 2 * float(turns))
                self.assertLess(float(instructions), 100)

    def test_sessions_that_fail(self):
        for program, written in [("/bin/true", ""), ("/bin/echo", "--workers 1\n")]:
            with self.subTest(program):
                run = asked(program, "A+A", "A-A")
                self.assertEqual(run.returncode, 1)
                self.assertIn("instructions: A+A: the session ended with status 0 and wrote %r\n" % written, run.stderr)
                self.assertEqual(cells(run), [["A+A", "failed", ""], ["A-A", "failed", ""]])


class Words(unittest.TestCase):
    def test_refused_words(self):
        for words, reason in [
            ([], "PROGRAM"),
            (["--jobs", "0", PROGRAM], "'0' is no number from 1 to 64"),
            (["--jobs", "65", PROGRAM], "'65' is no number from 1 to 64"),
            (["/nowhere"], "/nowhere is no program"),
            (["/"], "/ is no program"),
            ([str(TOP / "aplcalc")], "aplcalc is a script"),
            ([PROGRAM, "A+A", "A?B"], "there is no row 'A?B'; the rows are A+A; A-A;"),
            ([PROGRAM, "--jobs", "2", "A?B"], "there is no row 'A?B'; the rows are A+A; A-A;"),
        ]:
            with self.subTest(words):
                run = asked(*words)
                self.assertEqual(run.returncode, 2, run.stderr)
                self.assertIn(reason, run.stderr)
                self.assertEqual(run.stdout, "")

    def test_missing_valgrind(self):
        with tempfile.TemporaryDirectory() as empty:
            run = asked(PROGRAM, "A+A", PATH=empty)
        self.assertEqual(run.returncode, 3, run.stderr)
        self.assertEqual(run.stderr, "instructions: valgrind is missing: 'apt-get install valgrind'\n")
        self.assertEqual(run.stdout, "")

    def test_help(self):
        run = asked("--help")
        self.assertEqual(run.returncode, 0)
        self.assertIn("usage: bench/instructions", run.stdout)
