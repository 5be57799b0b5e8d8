"""Values of Python's in a session."""
import enum
import re
from types import TracebackType
from typing import Any, NamedTuple, Optional, Tuple, Type

from .errors import AplError, Busy, CalculatorError, InvalidLine, InvalidName
from .reports import BLANKS, report, report_of, without_return
from .session import Session
from .values import CHARACTERS, NUMBERS, Value, constant, numbers

HELD = "⍙⍙PYTHON"
PREFIX = HELD + "←"
NAME = re.compile("[A-Za-z∆⍙][A-Za-z∆⍙0-9_]*")
ARROW = re.compile(" *←")
BRACKETS = re.compile(r"'[^']*'|[][⍝]")


class Statement(enum.Enum):
    """What a line is, as far as its first symbols tell."""

    NOTHING = enum.auto()
    COMMAND = enum.auto()
    ASSIGNMENT = enum.auto()
    EXPRESSION = enum.auto()


class Written(NamedTuple):
    """A value as the calculator wrote it."""

    shape: Tuple[int, ...]
    kind: str
    text: str

    def value(self) -> Value:
        return Value(self.shape, self.kind, numbers(self.text) if self.kind == NUMBERS else characters(self.text))

    def array(self) -> Any:
        """The value as a numpy array, its numbers read without making Python's."""
        import numpy

        if self.kind == CHARACTERS or 0 in self.shape:
            return self.value().numpy()
        return numpy.fromstring(self.text.replace("¯", "-"), dtype=numpy.int64, sep=" ").reshape(self.shape)


class Calculator(Session):
    """A session of the calculator with Python's values.

        with Calculator() as apl:
            apl["T"] = [[1, 2, 3], [4, 5, 6]]
            apl("+/T")          # [6, 15]
            apl.value("0 3⍴T")  # Value(shape=(0, 3), kind='numbers', ravel=[])

    One call at a time: a call during another one, from a second thread, raises Busy. After )OFF, a timeout or a call that was broken off,
    as by Ctrl-C, each call raises SessionOver.
    """

    def __enter__(self) -> "Calculator":
        return self

    def __exit__(self, kind: Optional[Type[BaseException]], error: Optional[BaseException], trace: Optional[TracebackType]) -> None:
        """Ends the session, also in the middle of a call."""
        try:
            self.close()
        except Busy:
            self.kill()

    def __call__(self, line: str, timeout: Optional[float] = None) -> Any:
        """The value of a line as Python has it: an int, a str, or lists nested by the shape. Value.python tells what these can't show.

        The line is evaluated exactly once. An assignment gives None, and so do a comment and )OFF; the other commands give the text that
        they write. A line that is refused raises AplError.
        """
        kind = statement(line)
        if kind is Statement.EXPRESSION:
            return self._written(line, timeout).value().python()
        text = self.text(line, timeout)
        if text and (kind is not Statement.COMMAND or report_of(line, text)):
            raise refusal(line, text)
        return text.rstrip("\n") or None

    def value(self, line: str, timeout: Optional[float] = None) -> Value:
        """The value of an expression exactly: its shape, kind and elements, of any rank, also where it is empty."""
        return self._written(line, timeout).value()

    def array(self, line: str, timeout: Optional[float] = None) -> Any:
        """The value of an expression as a numpy array: of int64, or of strings of one character."""
        return self._written(line, timeout).array()

    def __getitem__(self, name: str) -> Any:
        """The value of a name, as a call gives it."""
        return self(valid(name))

    def __setitem__(self, name: str, given: Any) -> None:
        """Gives a name a value of Python's: an int, a str, a numpy array, a Value, or lists nested by the shape. See values.value_of."""
        line = "%s←%s" % (valid(name), constant(given))
        text = self.text(line)
        if text:
            raise refusal(line, text)

    def _written(self, line: str, timeout: Optional[float]) -> Written:
        """The value of an expression, which is held under a name so that it is evaluated once. The name is empty afterwards."""
        if statement(line) is not Statement.EXPRESSION:
            raise InvalidLine("%r is no expression, so it writes no value" % line)
        asked = [PREFIX + line, "⍴" + HELD, "1↑0⍴" + HELD, "," + HELD, PREFIX + "⍳0"]
        with self._call(timeout) as deadline:
            answers = self._ask(asked, deadline)
        if answers[0]:
            raise moved(refusal(asked[0], answers[0]), line)
        for sent, text in zip(asked[1:], answers[1:]):
            error = report_of(sent, text)
            if error is not None:
                raise report(error.kind, line, None)
        _, shape, fill, elements, _ = answers
        return Written(tuple(numbers(shape)), NUMBERS if fill == "0\n" else CHARACTERS, elements)


def valid(name: str) -> str:
    """The name, which must be one of the language."""
    if not isinstance(name, str) or NAME.fullmatch(name) is None:
        raise InvalidName("%r is no name: a name is a letter, and then letters, digits and _" % (name,))
    return name


def statement(line: str) -> Statement:
    """What a line is. One that can't be read is what its beginning says."""
    begins = without_return(line).lstrip(" ")
    if not begins or begins.startswith("⍝"):
        return Statement.NOTHING
    if begins.startswith(")"):
        return Statement.COMMAND
    name = NAME.match(begins)
    end = None if name is None else target_end(begins, name.end())
    return Statement.EXPRESSION if end is None or not ARROW.match(begins, end) else Statement.ASSIGNMENT


def target_end(line: str, name_end: int) -> Optional[int]:
    """Where the index after a name ends, or the name where there is no index; None where the index doesn't end."""
    if not line[name_end:].lstrip(" ").startswith("["):
        return name_end
    depth = 0
    for part in BRACKETS.finditer(line, name_end):
        depth += {"[": 1, "]": -1}.get(part[0], 0)
        if depth == 0 and part[0] == "]":
            return part.end()
        if part[0] == "⍝":
            return None
    return None


def characters(text: str) -> str:
    """The vector of characters that was written so, on lines of any width."""
    first, *others = text[:-1].split("\n")
    return first + "".join(line[len(BLANKS):] for line in others)


def refusal(line: str, text: str) -> CalculatorError:
    """The error of a line that should have written nothing."""
    return report_of(line, text) or CalculatorError("the calculator answered %r to %r" % (text, line))


def moved(error: CalculatorError, line: str) -> CalculatorError:
    """The error of a line that was sent after the prefix, as it is of the line alone."""
    if not isinstance(error, AplError) or error.column is None:
        return report(error.kind, line, None) if isinstance(error, AplError) else error
    line = without_return(line)
    column = error.column - len(PREFIX)
    first = len(line) - len(line.lstrip(" "))
    return report(error.kind, line, column if column >= 0 else first)
