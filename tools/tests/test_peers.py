"""Tests of bench/peers, with tiny sizes: that it computes and prints all rows, and what it says of words and peers."""
import os
import pathlib
import subprocess
import sys
import tempfile
import unittest

from common import PROGRAM, TOP

PEERS = TOP / "bench" / "peers"
ROWS = 83


def asked(*words: str, path: str = os.environ["PATH"]) -> subprocess.CompletedProcess:
    """What bench/peers does with these words, where programs are found on a path."""
    environment = {**os.environ, "PATH": path}
    return subprocess.run([sys.executable, str(PEERS), *words], capture_output=True, text=True, env=environment, timeout=120)


def has_wide_vectors() -> bool:
    """Whether this machine has instructions that numpy has loops for and the calculator doesn't ask for."""
    with open("/proc/cpuinfo", encoding="utf-8") as info:
        return " avx2" in info.read()


class Table(unittest.TestCase):
    def test_tiny_sizes(self):
        run = asked("--size", "100", "--starts", "1", "--rounds", "1", PROGRAM)
        is_missing = "is missing: 'apt-get install" in run.stderr
        self.assertEqual(run.returncode, 3 if is_missing else 0, run.stderr)
        heading, *rows = run.stdout.split("\n\n")[1].splitlines()
        self.assertIn("aplcalc, 1 worker ", heading)
        self.assertIn("aplcalc, 4 workers", heading)
        if "numpy is missing" not in run.stderr:
            self.assertEqual("numpy, x86-64-v2" in heading, has_wide_vectors())
        self.assertEqual(len(rows), ROWS)

    def test_rows_by_name(self):
        run = asked("--size", "100", "--starts", "1", "--rounds", "1", PROGRAM, "A+B", "A+.×A, small")
        rows = run.stdout.split("\n\n")[1].splitlines()[1:]
        self.assertEqual([row[:20].strip() for row in rows], ["A+B", "A+.×A, small"])

    def test_starts_in_turn(self):
        with tempfile.TemporaryDirectory() as folder:
            program, starts = pathlib.Path(folder, "program"), pathlib.Path(folder, "starts")
            program.write_text('#!/bin/sh\necho "$2" >> "%s"\nexec "%s" "$@"\n' % (starts, PROGRAM), encoding="utf-8")
            program.chmod(0o755)
            asked("--size", "100", "--starts", "2", "--rounds", "1", str(program), "A+B")
            self.assertEqual(starts.read_text(encoding="utf-8").split(), ["1", "4", "1", "4"])

    def test_missing_peer(self):
        with tempfile.TemporaryDirectory() as empty:
            run = asked("--size", "100", "--starts", "1", "--rounds", "1", PROGRAM, "A+B", path=empty)
        self.assertEqual(run.returncode, 3, run.stderr)
        self.assertIn("A+ is missing: 'apt-get install aplus-fsf', or bench/peers --install", run.stderr)
        heading, row = run.stdout.splitlines()[-2:]
        self.assertIn("A+ is missing", heading)
        self.assertEqual(row[:4], "A+B ")

    def test_nothing_to_install_with(self):
        with tempfile.TemporaryDirectory() as empty:
            run = asked("--install", "--size", "100", PROGRAM, "A+B", path=empty)
        self.assertEqual(run.returncode, 3)
        self.assertIn("peers: there is no apt-get here to install A+", run.stderr)
        self.assertIn("A+B", run.stdout)


class Words(unittest.TestCase):
    def test_refused_words(self):
        for words, reason in [
            ([], "PROGRAM"),
            (["--starts", "0", PROGRAM], "'0' is no number from 1 to 100"),
            (["--rounds", "101", PROGRAM], "'101' is no number from 1 to 100"),
            (["--size", "99", PROGRAM], "'99' is no number from 100 to 10000000"),
            (["--size", "1e3", PROGRAM], "'1e3' is no number from 100 to 10000000"),
            (["/nowhere"], "/nowhere is no program"),
            (["/"], "/ is no program"),
            ([PROGRAM, "A?B"], "there is no row 'A?B'"),
            ([PROGRAM, "--starts", "3", "A?B"], "there is no row 'A?B'"),
        ]:
            with self.subTest(words):
                run = asked(*words)
                self.assertEqual(run.returncode, 2, run.stderr)
                self.assertIn(reason, run.stderr)
                self.assertEqual(run.stdout, "")

    def test_program_that_is_no_calculator(self):
        run = asked("--size", "100", "/bin/true", "A+B", "A-B")
        self.assertEqual(run.returncode, 1)
        self.assertIn("peers: aplcalc, 1 worker ended", run.stderr)
        self.assertEqual([row.split() for row in run.stdout.splitlines()[-2:]], [["A+B", "failed"], ["A-B", "failed"]])

    def test_help(self):
        run = asked("--help")
        self.assertEqual(run.returncode, 0)
        self.assertIn("usage: bench/peers", run.stdout)
