"""How a report is told from a value."""
import itertools
import re
from typing import Optional

from .errors import AplError

ALPHABET = frozenset(map(chr, range(0x20, 0x7F))) | frozenset("¯×÷←↑↓∆∊∘∧∨≠≤≥⊖⊤⊥⌈⌊⌽⌿⍀⍉⍋⍒⍙⍝⍱⍲⍳⍴")
BLANKS = " " * 6
INCORRECT_COMMAND = "INCORRECT COMMAND"
WS_FULL = "WS FULL"
CHARACTER_ERROR = "CHARACTER ERROR"
WITH_CARET = frozenset("%s ERROR" % word for word in "SYNTAX VALUE INDEX RANK LENGTH DOMAIN LIMIT CHARACTER".split())
CARET_LINE = re.compile(BLANKS + "( *)∧\n")


def without_return(line: str) -> str:
    """The line without the carriage return at its end, which the calculator drops."""
    return line[:-1] if line.endswith("\r") else line


def front_of_symbols(line: str) -> str:
    """The line up to its first character that is none of the language's."""
    return "".join(itertools.takewhile(ALPHABET.__contains__, line))


def report(kind: str, line: str, column: Optional[int]) -> AplError:
    """The error whose report the calculator writes so."""
    if kind == INCORRECT_COMMAND:
        return AplError(kind, line, None, kind)
    if column is None:
        return AplError(kind, line, None, "%s\n%s%s" % (kind, BLANKS, line))
    shown = line[:column] if kind == CHARACTER_ERROR else line
    return AplError(kind, line, column, "%s\n%s%s\n%s%s∧" % (kind, BLANKS, shown, BLANKS, " " * column))


def report_of(line: str, text: str) -> Optional[AplError]:
    """The error that a text is the report of, or None where the text is no report of this line.

    A report is known by all of its lines: the exact heading, the line that was sent, after six blanks, and a line of blanks and one caret.
    CHARACTER ERROR has only the front of the line that was sent. WS FULL has no caret. INCORRECT COMMAND is a report where the line is a command.
    """
    line = without_return(line)
    kind, _, rest = text.partition("\n")
    if kind == INCORRECT_COMMAND:
        return report(kind, line, None) if text == kind + "\n" and line.lstrip(" ").startswith(")") else None
    if kind == WS_FULL:
        return report(kind, line, None) if rest == BLANKS + line + "\n" else None
    if kind not in WITH_CARET:
        return None
    shown = front_of_symbols(line) if kind == CHARACTER_ERROR else line
    if not rest.startswith(BLANKS + shown + "\n"):
        return None
    caret = CARET_LINE.fullmatch(rest, len(BLANKS) + len(shown) + 1)
    if caret is None:
        return None
    column = len(caret[1])
    is_place = column == len(shown) < len(line) if kind == CHARACTER_ERROR else column < len(shown)
    return report(kind, line, column) if is_place else None
