"""The command aplrun: runs a session file, and ends at the first line that is refused."""
import argparse
import contextlib
import os
import re
import signal
import sys
from typing import Callable, Iterator, List, NamedTuple, Optional, Sequence, TextIO, Tuple

from .calculator import Calculator, valid
from .errors import AplError, CalculatorError, ConversionError, InvalidName, ProgramEnded
from .reports import BLANKS, report_of, without_return
from .tables import FORMATS, format_of, read_table, read_text, written

OFF = re.compile(" *\\)OFF *\r?")
FAILED, INTERRUPTED, NO_READER = 1, 128 + signal.SIGINT, 128 + signal.SIGPIPE
SHOWN = 100
EPILOG = """\
exit status:
  0    every line was answered
  1    a line was refused, or a file could not be read or written
  2    the command was used wrongly
  130  it was interrupted
  141  the reader of its output has ended

examples:
  aplrun bill.apl
  aplrun --table T=prices.csv --out json TOTAL bill.apl
  aplrun -e '+/⍳100'
"""


class Setting(NamedTuple):
    """A name that gets a value from a file before the first line."""

    name: str
    path: str


class Source(NamedTuple):
    """The lines of a session, each with its number, and what messages call it."""

    called: str
    lines: List[Tuple[int, str]]


def parser() -> argparse.ArgumentParser:
    made = argparse.ArgumentParser(
        prog="aplrun", allow_abbrev=False, formatter_class=argparse.RawDescriptionHelpFormatter, epilog=EPILOG,
        description="Runs a session file of aplcalc and writes the answers. A line that is refused ends it with status 1: its place, its\n"
                    "error and its caret are written to standard error.")
    add = made.add_argument
    add("file", metavar="FILE", nargs="?", help="the session; standard input where it is - or left out")
    add("-e", "--line", metavar="LINE", action="append", help="runs this line in place of a file; may be given several times, and as "
                                                               "--line=LINE where the line begins with a minus")
    add("--keep-going", action="store_true", help="goes on after a line that is refused; the status is 1 at the end")
    add("--transcript", action="store_true", help="writes each line after six blanks before its answer, and reports among the answers")
    add("--table", metavar="NAME=FILE", type=table_setting, action="append", default=[],
        help="gives NAME the whole numbers of a file .csv, .tsv or .json before the first line")
    add("--skip", metavar="N", type=whole_number(0, sys.maxsize), default=0, help="leaves out the first N rows of each .csv and .tsv file")
    add("--text", metavar="NAME=FILE", type=text_setting, action="append", default=[],
        help="gives NAME the lines of a text file as a matrix of characters before the first line")
    add("--out", metavar=("FORMAT", "NAME"), nargs=2, help="after the session writes NAME's value exactly, as csv, tsv or json, in place "
                                                         "of the answers; a transcript then goes to standard error")
    add("--workers", metavar="N", type=whole_number(1, 64), help="how many workers share the work, from 1 to 64")
    add("--piece", metavar="N", type=whole_number(1, 1 << 20), help="how many elements each piece of the work has, from 1 to 1048576")
    add("--schedule", choices=["claims", "deques"], help="how the pieces come to the workers")
    return made


def whole_number(least: int, greatest: int) -> Callable[[str], int]:
    """Reads a whole number of a range."""
    def whole(text: str) -> int:
        if re.fullmatch("[0-9]{1,19}", text) is None or not least <= int(text) <= greatest:
            raise argparse.ArgumentTypeError("%r is no whole number from %d to %d" % (text, least, greatest))
        return int(text)
    return whole


def text_setting(text: str) -> Setting:
    name, equals, path = text.partition("=")
    if not equals or not path:
        raise argparse.ArgumentTypeError("%r is not NAME=FILE" % text)
    try:
        return Setting(valid(name), path)
    except InvalidName as error:
        raise argparse.ArgumentTypeError(str(error))


def table_setting(text: str) -> Setting:
    setting = text_setting(text)
    if not format_of(setting.path):
        raise argparse.ArgumentTypeError("the name of %s does not end with .csv, .tsv or .json" % setting.path)
    return setting


def arguments_of(words: Optional[Sequence[str]]) -> argparse.Namespace:
    """The arguments, or the end with status 2."""
    made = parser()
    arguments = made.parse_args(words)
    if arguments.line and arguments.file is not None:
        made.error("give a file or lines by -e, and not both")
    if arguments.out:
        form, name = arguments.out
        if form not in FORMATS:
            made.error("--out: the format is csv, tsv or json, and not %r" % form)
        try:
            valid(name)
        except InvalidName as error:
            made.error("--out: %s" % error)
    return arguments


def source_of(arguments: argparse.Namespace) -> Source:
    """The lines up to one that is )OFF, without a first line that begins with #!."""
    if arguments.line:
        called, data = "-e", b"\n".join(map(os.fsencode, arguments.line))
    elif arguments.file in (None, "-"):
        called, data = "<stdin>", sys.stdin.buffer.read()
    else:
        called = arguments.file
        with open(called, "rb") as file:
            data = file.read()
    lines = list(enumerate(data.decode("utf-8", "surrogateescape").split("\n"), start=1))
    if not lines[-1][1]:
        lines.pop()
    if lines and lines[0][1].startswith("#!"):
        lines.pop(0)
    return Source(called, list(up_to_off(lines)))


def up_to_off(lines: List[Tuple[int, str]]) -> Iterator[Tuple[int, str]]:
    for number, line in lines:
        if OFF.fullmatch(line):
            return
        yield number, line


def put(text: str, stream: TextIO) -> None:
    """Writes a text at once, with the bytes that are no UTF-8 as they came."""
    try:
        stream.buffer.write(text.encode("utf-8", "surrogateescape"))
        stream.flush()
    except OSError as error:
        discard(stream)
        if isinstance(error, BrokenPipeError):
            raise
        raise CalculatorError("writing failed: %s" % error.strerror) from error


def discard(stream: TextIO) -> None:
    """Lets what a stream still holds go nowhere, so that its end does not fail again."""
    nowhere = os.open(os.devnull, os.O_WRONLY)
    os.dup2(nowhere, stream.fileno())
    os.close(nowhere)


def excerpt(line: str, column: Optional[int]) -> str:
    """The line with the caret below its place; of a long line what is near the place."""
    at = column or 0
    begin = max(0, at - SHOWN // 2) if len(line) > SHOWN else 0
    before, after = "..." if begin else "", "..." if begin + SHOWN < len(line) else ""
    shown = BLANKS + before + line[begin:begin + SHOWN] + after + "\n"
    return shown if column is None else shown + BLANKS + " " * (len(before) + at - begin) + "∧\n"


def message(called: str, number: int, error: AplError) -> str:
    """Where a line was refused and why. Columns are counted from 1, as lines are."""
    where = "" if error.column is None else " at column %d" % (error.column + 1)
    return "%s:%d: %s%s\n%s" % (called, number, error.kind, where, excerpt(error.line, error.column))


def run_session(apl: Calculator, source: Source, arguments: argparse.Namespace) -> int:
    """Runs the lines. The status: whether a line was refused."""
    status = 0
    with contextlib.closing(apl.texts(line for _, line in source.lines)) as texts:
        for text, (number, line) in zip(texts, source.lines):
            error = report_of(line, text)
            show(line, text, error is not None, arguments)
            if error is not None:
                put(message(source.called, number, error), sys.stderr)
                status = FAILED
            if status == FAILED and not arguments.keep_going:
                break
    return status


def show(line: str, text: str, is_report: bool, arguments: argparse.Namespace) -> None:
    """Writes what a line wrote where it is to be seen."""
    if arguments.transcript:
        put(BLANKS + without_return(line) + "\n" + text, sys.stderr if arguments.out else sys.stdout)
    elif text and not is_report and not arguments.out:
        put(text, sys.stdout)


def run(arguments: argparse.Namespace) -> int:
    settings = [(setting.name, read_table(setting.path, arguments.skip)) for setting in arguments.table]
    settings += [(setting.name, read_text(setting.path)) for setting in arguments.text]
    source = source_of(arguments)
    with Calculator(workers=arguments.workers, piece=arguments.piece, schedule=arguments.schedule) as apl:
        for name, value in settings:
            apl[name] = value
        status = run_session(apl, source, arguments)
        if arguments.out and (status == 0 or arguments.keep_going):
            put(value_written(apl, *arguments.out), sys.stdout)
    return status


def value_written(apl: Calculator, form: str, name: str) -> str:
    """The value of a name as a text."""
    try:
        return written(apl.value(name), form)
    except AplError as error:
        raise CalculatorError("--out: %s: %s" % (name, error.kind)) from error
    except ConversionError as error:
        raise CalculatorError("--out: %s: %s" % (name, error)) from error


def failure(error: Exception) -> str:
    """What is told of an error that ends the command."""
    if isinstance(error, OSError) and error.filename is not None:
        return "%s: %s" % (error.filename, error.strerror)
    return error.strerror or str(error) if isinstance(error, OSError) else str(error)


def main(words: Optional[Sequence[str]] = None) -> int:
    """The command. Its status is told in its help."""
    if None in (sys.stdin, sys.stdout, sys.stderr):
        sys.exit("aplrun: standard input, standard output or standard error is closed")
    try:
        return run(arguments_of(words))
    except KeyboardInterrupt:
        return INTERRUPTED
    except BrokenPipeError:
        return NO_READER
    except (CalculatorError, OSError) as error:
        if isinstance(error.__cause__, ProgramEnded) and error.__cause__.status == -signal.SIGINT:
            return INTERRUPTED
        put("aplrun: %s\n" % failure(error), sys.stderr)
        return FAILED
