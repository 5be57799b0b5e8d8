"""What the tests of the tools share."""
import os
import pathlib
import shutil
import subprocess
import sys
import unittest

TOP = pathlib.Path(__file__).resolve().parent.parent.parent
PROGRAM = os.environ.get("APLCALC", str(TOP / "release" / "aplcalc"))


def needs(*programs):
    """Leaves a test out where one of the programs is not on this machine."""
    missing = [program for program in programs if shutil.which(program) is None]
    return unittest.skipIf(missing, "%s: not found" % ", ".join(missing))


def pythons_with_numpy():
    """The Pythons of this machine that have numpy: the one of the tests, and the system's."""
    pythons = [python for python in (sys.executable, "/usr/bin/python3") if os.access(python, os.X_OK)]
    return [python for python in pythons if subprocess.run([python, "-c", "import numpy"], capture_output=True).returncode == 0]
