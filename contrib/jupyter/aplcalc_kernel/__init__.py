"""A Jupyter kernel for sessions of aplcalc, an APL calculator over whole numbers and characters.

    python3 -m aplcalc_kernel install

It asks the calculator through the package aplcalc. In a clone of the calculator this is taken from tools/python, unless one is installed.
"""
import importlib.util
import pathlib
import sys

__version__ = "1.0.0"


def _find_calculator() -> None:
    """Puts the clone's package aplcalc on the path where there is no other. A mere folder of that name, such as a clone, is no package."""
    folder = pathlib.Path(__file__).resolve().parents[3] / "tools" / "python"
    found = importlib.util.find_spec("aplcalc")
    if (found is None or found.origin is None) and (folder / "aplcalc").is_dir():
        sys.path.append(str(folder))


_find_calculator()
