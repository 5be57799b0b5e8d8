"""The errors of this package. Each is a CalculatorError."""
from typing import Optional


class CalculatorError(Exception):
    """What all errors of this package have in common."""


class AplError(CalculatorError):
    """A report: the calculator refused a line.

    kind is the report's heading, such as 'LENGTH ERROR', 'WS FULL' or 'INCORRECT COMMAND'. line is the line that was refused. column is
    the number of characters before the caret, or None for the two kinds that have no caret. str() gives the report as it is written.
    """

    def __init__(self, kind: str, line: str, column: Optional[int], report: str) -> None:
        super().__init__(kind, line, column, report)
        self.kind = kind
        self.line = line
        self.column = column
        self.report = report

    def __str__(self) -> str:
        return self.report


class ProgramMissing(CalculatorError):
    """There is no calculator to start."""


class ProgramEnded(CalculatorError):
    """The calculator ended in the middle of a session. status is as subprocess has it: negative for a signal."""

    def __init__(self, status: int, said: str) -> None:
        super().__init__(status, said)
        self.status = status
        self.said = said

    def __str__(self) -> str:
        return "the calculator ended with status %d%s" % (self.status, ": " + self.said if self.said else "")


class SessionOver(CalculatorError):
    """The session had ended before this call."""


class TimedOut(CalculatorError):
    """A call took longer than it was allowed. The session is over."""


class Busy(CalculatorError):
    """A call came while another one was under way, from a second thread or a signal handler."""


class InvalidLine(CalculatorError, ValueError):
    """A text that is not one line."""


class InvalidName(CalculatorError, ValueError):
    """A text that is no name of the language."""


class ConversionError(CalculatorError, ValueError):
    """A value of Python's that no array of the language can hold."""
