"""A session whose names outlive an interrupted line."""
from __future__ import annotations

import contextlib
import re
import signal
import threading
from typing import Iterator, Optional

from aplcalc import Busy, Calculator, CalculatorError, report_of

from .completion import NAME

MOST_SHOWN = 400
_IS_NAME = re.compile(NAME)
_ASSIGNED = re.compile(r"(%s) *(?:\[[^\]]*\] *)?←" % NAME)


class LastingSession:
    """A session of the calculator, which starts when a line needs it.

    The calculator has no interrupt: to break off a line is to end the calculator. So the lines that can have changed the workspace are kept, and
    restore() has them answered again by a new calculator. What a line answers depends on the lines before it alone.
    """

    def __init__(self) -> None:
        self._calculator: Optional[Calculator] = None
        self._changes: list[str] = []

    def text(self, line: str) -> str:
        """Exactly what a line writes. Where an earlier line has ended the session it raises SessionOver, until end() is called."""
        if self._calculator is None:
            self._calculator = _started()
        text = self._calculator.text(line)
        self._keep(line, text)
        return text

    def _keep(self, line: str, text: str) -> None:
        is_command = line.lstrip(" ").startswith(")")
        if is_command and text == "CLEAR WS\n":
            self._changes.clear()
        elif is_command or "←" in line:
            self._changes.append(line)

    def restore(self) -> None:
        """Brings the workspace back as it was after the last line that was answered. Where this fails, the session has no names."""
        changes = self._changes
        self.end()
        calculator = _started()
        try:
            for _ in calculator.texts(changes):
                pass
        except BaseException:
            calculator.kill()
            raise
        self._calculator, self._changes = calculator, changes

    def end(self) -> None:
        """Ends the session, from any thread, and forgets its names."""
        calculator, self._calculator, self._changes = self._calculator, None, []
        if calculator is not None:
            calculator.kill()
            with contextlib.suppress(Busy):
                calculator.close()

    def names(self) -> list[str]:
        """The names that have values."""
        candidates = {name for line in self._changes for name in _ASSIGNED.findall(line)}
        return sorted(name for name in candidates if self._asked("⍴⍴" + name) is not None)

    def about(self, name: str) -> str:
        """The shape of a name's value, and the value unless it is large, or an empty text where it has none."""
        shape = self._asked("⍴" + name) if _IS_NAME.fullmatch(name) else None
        if shape is None:
            return ""
        said = "%s  %s\n" % (name, "shape " + shape.strip() if shape.strip() else "one element")
        is_small = self._asked("%d≥×/⍴%s" % (MOST_SHOWN, name)) == "1\n"
        return said + (self._asked(name) or "" if is_small else "")

    def _asked(self, expression: str) -> Optional[str]:
        """What an expression writes, or None where it is refused or there is no session to ask."""
        if self._calculator is None:
            return None
        try:
            text = self._calculator.text(expression)
        except CalculatorError:
            return None
        return None if report_of(expression, text) else text


def _started() -> Calculator:
    """A calculator that an interrupt of this process and its children doesn't end."""
    with _interrupts_ignored():
        return Calculator()


@contextlib.contextmanager
def _interrupts_ignored() -> Iterator[None]:
    """A process that starts now ignores SIGINT, as does this one until then. Only the main thread can do so."""
    if threading.current_thread() is not threading.main_thread():
        yield
        return
    before = signal.signal(signal.SIGINT, signal.SIG_IGN)
    try:
        yield
    finally:
        signal.signal(signal.SIGINT, before)
