"""Sessions of aplcalc, an APL calculator over whole numbers and characters.

    from aplcalc import Calculator

    with Calculator() as apl:
        apl["PRICES"] = [250, 480, -300]
        print(apl("+/PRICES"))
"""
from .calculator import Calculator
from .errors import (AplError, Busy, CalculatorError, ConversionError, InvalidLine, InvalidName, ProgramEnded, ProgramMissing,
                     SessionOver, TimedOut)
from .reports import report_of
from .session import find_program
from .values import CHARACTERS, NUMBERS, Value, constant, number, numbers, numeral, value_of

__all__ = ["AplError", "Busy", "CHARACTERS", "Calculator", "CalculatorError", "ConversionError", "InvalidLine", "InvalidName", "NUMBERS",
           "ProgramEnded", "ProgramMissing", "SessionOver", "TimedOut", "Value", "constant", "find_program", "number", "numbers",
           "numeral", "report_of", "value_of"]
