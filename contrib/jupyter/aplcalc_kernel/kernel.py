"""The kernel: the messages of Jupyter on one side, a session of the calculator on the other."""
from __future__ import annotations

from typing import Any, Optional

from aplcalc import AplError, CalculatorError, ProgramEnded, SessionOver, report_of
from ipykernel.kernelbase import Kernel

from . import __version__
from .completion import about_symbol, asked_of, complete
from .lasting import LastingSession

BLANKS = " " * 6
RED, PLAIN = "\x1b[1;31m", "\x1b[0m"
NEW_SESSION = "The session before had ended. This is a new one: no name has a value.\n"

Reply = dict[str, Any]


class AplcalcKernel(Kernel):
    """A kernel whose cells are lines of a session."""

    implementation = "aplcalc_kernel"
    implementation_version = __version__
    banner = "aplcalc, APL over whole numbers and characters. `r or \\rho and Tab is ⍴; a backquote or a backslash and Tab shows all."
    language_info = {
        "name": "aplcalc",
        "version": __version__,
        "mimetype": "text/apl",
        "file_extension": ".apl",
        "pygments_lexer": "apl",
        "codemirror_mode": "apl",
    }

    def __init__(self, **settings: Any) -> None:
        super().__init__(**settings)
        self.calculator = LastingSession()
        self.is_over = False

    def do_execute(self, code: str, silent: bool, store_history: bool = True, user_expressions: Optional[dict] = None,
                   allow_stdin: bool = False, *, cell_id: Optional[str] = None) -> Reply:
        """Answers the lines of a cell up to its first report."""
        cell = Cell(self, code, silent)
        try:
            return cell.answered()
        except KeyboardInterrupt:
            return cell.broken_off("INTERRUPTED", BLANKS + cell.line)

    def do_complete(self, code: str, cursor_pos: Optional[int]) -> Reply:
        """What the Tab key offers."""
        cursor = len(code) if cursor_pos is None else cursor_pos
        start, end, offers = complete(code, cursor, self.calculator.names)
        kinds = [{"start": start, "end": end, "text": text, "type": kind} for text, kind in offers]
        return {"status": "ok", "matches": [text for text, _ in offers], "cursor_start": start, "cursor_end": end,
                "metadata": {"_jupyter_types_experimental": kinds}}

    def do_inspect(self, code: str, cursor_pos: int, detail_level: int = 0, omit_sections: Any = ()) -> Reply:
        """What Shift-Tab tells: of a name its shape and value, of a symbol its names, keys and meanings."""
        asked = asked_of(code, cursor_pos)
        said = self.calculator.about(asked) or about_symbol(asked) if asked else ""
        return {"status": "ok", "found": bool(said), "data": {"text/plain": said} if said else {}, "metadata": {}}

    def do_is_complete(self, code: str) -> Reply:
        """A line is a line: an unclosed quote is closed by no further line."""
        return {"status": "complete"}

    def do_shutdown(self, restart: bool) -> Reply:
        """Ends the calculator, also in the middle of a line. This call comes from a thread of its own."""
        self.is_over = True
        self.calculator.end()
        return {"status": "ok", "restart": restart}


class Cell:
    """The lines of a cell while they are answered."""

    def __init__(self, kernel: AplcalcKernel, code: str, silent: bool) -> None:
        self.kernel = kernel
        self.silent = silent
        self.lines = code.split("\n")
        self.line = ""
        self.is_first = True
        self.has_several = sum(map(_says_something, self.lines)) > 1

    def answered(self) -> Reply:
        """The reply to the cell, when its answers are written."""
        try:
            for self.line in self.lines:
                text = self._text()
                report = report_of(self.line, text)
                if report is not None:
                    return self._refused(report)
                self._write("stdout", self._shown(text))
                self.is_first = False
        except SessionOver:
            pass  # A line )OFF ended the session: the further lines are not answered.
        except ProgramEnded as error:
            return self.broken_off("NO ANSWER", str(error))
        except CalculatorError as error:
            return self._error("NO ANSWER", [str(error)])
        return {"status": "ok", **self._count(), "payload": [], "user_expressions": {}}

    def _text(self) -> str:
        """What the line writes. Where an earlier cell ended the session, the first line begins a new one."""
        try:
            return self.kernel.calculator.text(self.line)
        except SessionOver:
            if not self.is_first:
                raise
            self.kernel.calculator.end()
            self._write("stderr", NEW_SESSION)
            return self.kernel.calculator.text(self.line)

    def _shown(self, text: str) -> str:
        """The text of a line, with the line above it where the cell has several."""
        return BLANKS + self.line + "\n" + text if text and self.has_several else text

    def broken_off(self, kind: str, reason: str) -> Reply:
        """The reply where the calculator was ended in the middle of a line: the workspace is brought back."""
        try:
            if not self.kernel.is_over:
                self.kernel.calculator.restore()
            names = "The names have the values from before this line."
        except (KeyboardInterrupt, CalculatorError):
            self.kernel.calculator.end()
            names = "No name has a value now."
        return self._error(kind, [reason, names])

    def _refused(self, report: AplError) -> Reply:
        _, *rest = report.report.split("\n")
        if report.column is not None:
            rest[-1] = rest[-1][:-1] + _red(rest[-1][-1])
        return self._error(report.kind, rest)

    def _error(self, kind: str, rest: list[str]) -> Reply:
        content = {"ename": kind, "evalue": self.line.strip(" "), "traceback": [_red(kind), *rest]}
        self._send("error", content)
        return {"status": "error", **self._count(), **content}

    def _count(self) -> dict[str, int]:
        return {"execution_count": self.kernel.execution_count}

    def _write(self, stream: str, text: str) -> None:
        if text:
            self._send("stream", {"name": stream, "text": text})

    def _send(self, kind: str, content: dict[str, Any]) -> None:
        if not (self.silent or self.kernel.is_over):
            self.kernel.send_response(self.kernel.iopub_socket, kind, content)


def _says_something(line: str) -> bool:
    """Whether a line is more than blanks and a comment."""
    line = line.strip(" \r")
    return bool(line) and not line.startswith("⍝")


def _red(text: str) -> str:
    return RED + text + PLAIN
