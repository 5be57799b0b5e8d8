"""Tables and texts of files as values, and values as tables."""
import csv
import io
import json
import os
import re
import reprlib
from typing import Any, Iterable, Iterator, List, Sequence, Tuple

from .errors import ConversionError
from .reports import ALPHABET
from .values import CHARACTERS, GREATEST, LEAST, NUMBERS, Value, number, unnested

DELIMITERS = {"csv": ",", "tsv": "\t"}
FORMATS = (*DELIMITERS, "json")
CELL = re.compile("[-¯]?[0-9]{1,100}")
Row = Tuple[int, List[Any]]


def format_of(path: str) -> str:
    """The format that a file's name tells, or '' where it tells none of them."""
    suffix = os.path.splitext(path)[1][1:].lower()
    return suffix if suffix in FORMATS else ""


def read_table(path: str, skip: int = 0) -> Value:
    """The table of whole numbers in a file.

    One of CSV or TSV is a matrix, without its first rows where skip says so. One of JSON has the shape of its lists; a whole number may be
    a string there.
    """
    text = decoded(path)
    if format_of(path) == "json":
        return json_table(path, text)
    try:
        rows = list(csv_rows(text, DELIMITERS[format_of(path)], skip))
    except csv.Error as error:
        raise ConversionError("%s: this is no table: %s" % (path, error)) from error
    check_lengths(path, rows)
    numbers = [whole(cell, place(path, row, column), row == 1) for row, cells in rows for column, cell in enumerate(cells, start=1)]
    return Value((len(rows), len(rows[0][1]) if rows else 0), NUMBERS, numbers)


def decoded(path: str) -> str:
    """The text of a file. A byte order mark is no part of it."""
    with open(path, "rb") as file:
        return file.read().decode("utf-8-sig", "surrogateescape")


def csv_rows(text: str, delimiter: str, skip: int) -> Iterator[Row]:
    """The rows that have cells, each with its number in the file."""
    for row, cells in enumerate(csv.reader(io.StringIO(text, newline=""), delimiter=delimiter), start=1):
        if row > skip and cells:
            yield row, cells


def check_lengths(path: str, rows: Sequence[Row]) -> None:
    """All rows have as many cells as the first one."""
    for row, cells in rows:
        if len(cells) != len(rows[0][1]):
            raise ConversionError("%s: row %d has %d cells, and row %d has %d"
                                  % (path, row, len(cells), rows[0][0], len(rows[0][1])))


def place(path: str, row: int, column: int) -> str:
    return "%s: row %d, column %d" % (path, row, column)


def whole(cell: Any, where: str, is_first_row: bool = False) -> int:
    """The whole number that a cell is."""
    is_numeral = isinstance(cell, str) and CELL.fullmatch(cell.strip(" "))
    found = number(cell.strip(" ")) if is_numeral else cell
    if type(found) is int and LEAST <= found <= GREATEST:
        return found
    advice = "; if this row has headings, leave it out by --skip 1" if is_first_row else ""
    raise ConversionError("%s: %s is no whole number from %d to %d%s" % (where, reprlib.repr(cell), LEAST, GREATEST, advice))


def json_table(path: str, text: str) -> Value:
    """The whole numbers of nested lists."""
    try:
        given = json.loads(text, parse_int=lambda digits: int(digits) if CELL.fullmatch(digits) else digits)
    except (ValueError, RecursionError) as error:
        raise ConversionError("%s: this is no JSON: %s" % (path, error)) from error
    try:
        shape, leaves = unnested(given)
    except ConversionError as error:
        raise ConversionError("%s: %s" % (path, error)) from error
    return Value(shape, NUMBERS, [whole(leaf, json_place(path, shape, at)) for at, leaf in enumerate(leaves)])


def json_place(path: str, shape: Sequence[int], at: int) -> str:
    """The row and column of an item of a table, or its indexes counted from 1 in an array of another rank."""
    indexes: List[int] = []
    for length in reversed(shape):
        at, index = divmod(at, length)
        indexes.insert(0, index + 1)
    if len(indexes) == 2:
        return place(path, *indexes)
    return "%s: item %s" % (path, " ".join(map(str, indexes))) if indexes else path


def read_text(path: str) -> Value:
    """The lines of a file as a matrix of characters, with blanks after the shorter ones."""
    lines = decoded(path).split("\n")
    if not lines[-1]:
        lines.pop()
    lines = [line[:-1] if line.endswith("\r") else line for line in lines]
    for row, line in enumerate(lines, start=1):
        if not ALPHABET.issuperset(line):
            column = next(at for at, character in enumerate(line) if character not in ALPHABET)
            raise ConversionError("%s: line %d, column %d: %r is none of the language's characters" % (path, row, column + 1, line[column]))
    width = max(map(len, lines), default=0)
    return Value((len(lines), width), CHARACTERS, "".join(line.ljust(width) for line in lines))


def written(value: Value, form: str) -> str:
    """The value as a text of a format: JSON of any rank, or a table of rows and columns. A row of characters is one cell."""
    if form == "json":
        return json.dumps(value.python(), ensure_ascii=False) + "\n"
    if len(value.shape) > 2:
        raise ConversionError("a value of %d axes is no table of rows and columns: use json" % len(value.shape))
    matrix = Value((1, 1, *value.shape)[-2:], value.kind, value.ravel).python()
    rows: Iterable[Sequence[Any]] = matrix if value.kind == NUMBERS else ([text] for text in matrix)
    table = io.StringIO()
    csv.writer(table, delimiter=DELIMITERS[form], lineterminator="\n").writerows(rows)
    return table.getvalue()
