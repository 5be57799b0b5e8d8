#!/usr/bin/env python3
"""Uses the calculator from Python: values go in and come out exactly, and a refused line is an error with its place."""
import pathlib
import sys

sys.path.insert(0, str(pathlib.Path(__file__).resolve().parent.parent / "tools" / "python"))

from aplcalc import AplError, Calculator  # noqa: E402


def main() -> None:
    readings = [18, -3, 7, 25, -11, 4]
    with Calculator() as apl:
        apl["T"] = readings
        assert apl["T"] == readings
        print("sorted:", apl("T[⍋T]"))
        print("highest so far:", apl("⌈\\T"))
        table = apl.value("(⍳3)∘.×T")
        print("table of", *table.shape, "ends with", table.python()[-1])
        assert table.python() == [[row * reading for reading in readings] for row in (1, 2, 3)]
        apl["NAMES"] = ["IT'S HOT", "COLD    "]
        print("second name:", repr(apl("NAMES[2;]")), "of", apl("⍴NAMES"))
        try:
            apl("T+1 2")
        except AplError as error:
            print(error)
            print("so the place is", error.column, "of", repr(error.line))


if __name__ == "__main__":
    main()
