"""Tests of what bench/run says of its words."""
import subprocess
import sys
import unittest

from common import TOP

RUN = TOP / "bench" / "run"


class Words(unittest.TestCase):
    def test_refused_words(self):
        for words, reason in [
            (["0"], "'0' is no number from 1 to 100"),
            (["5", "--starts", "101"], "'101' is no number from 1 to 100"),
            (["5", "A?B"], "no function is named 'A?B'"),
            (["5", "--starts", "3", "A?B"], "no function is named 'A?B'"),
            (["--starts", "3", "5", "--", "-/A?B"], "no function is named '-/A?B'"),
        ]:
            with self.subTest(words):
                run = subprocess.run([sys.executable, str(RUN), *words], capture_output=True, text=True, timeout=120)
                self.assertEqual(run.returncode, 2, run.stderr)
                self.assertIn(reason, run.stderr)
                self.assertEqual(run.stdout, "")

    def test_help(self):
        run = subprocess.run([sys.executable, str(RUN), "--help"], capture_output=True, text=True, timeout=120)
        self.assertEqual(run.returncode, 0)
        self.assertIn("--starts N", run.stdout)
