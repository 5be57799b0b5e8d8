"""What the Tab key offers, and what Shift-Tab tells of a symbol."""
from __future__ import annotations

import re
import unicodedata
from typing import Callable, Iterable, NamedTuple

from .symbols import BY_CHARACTER, BY_KEY, SYMBOLS, beginning

CLOSING = {"(": ")", "[": "]"}
COMMANDS = ("ORIGIN", "WIDTH", "CLEAR", "OFF")
NAME = "[A-Za-z∆⍙][A-Za-z0-9_∆⍙]*"

_AFTER_BACKQUOTE = re.compile("`([^`]?)$")
_AFTER_BACKSLASH = re.compile(r"\\([A-Za-z∆⍙]?[A-Za-z0-9_∆⍙]*)$")
_COMMAND = re.compile(r"^ *\)([A-Z]*)$")
_NAME_AT_END = re.compile("(%s)$" % NAME)
_NAME = re.compile(NAME)

Names = Callable[[], Iterable[str]]


class Offer(NamedTuple):
    """A text that can be put in, and what it is."""

    text: str
    kind: str


class Completion(NamedTuple):
    """What is offered for the characters of a cell from one place up to another."""

    start: int
    end: int
    offers: list[Offer]


def complete(code: str, cursor: int, names: Names) -> Completion:
    """What is offered at the cursor of a cell. names gives the names that have values."""
    line = code[:cursor].rpartition("\n")[2]
    if found := _AFTER_BACKQUOTE.search(line):
        return Completion(cursor - len(found[0]), _end_of_key(code, cursor, found[1]), _of_key(found[1]))
    if found := _AFTER_BACKSLASH.search(line):
        return Completion(cursor - len(found[0]), cursor, _of_symbol_name(found[1], names))
    if found := _COMMAND.search(line):
        return Completion(cursor - len(found[1]), cursor, _beginning(found[1], COMMANDS, "command"))
    if found := _NAME_AT_END.search(line):
        return Completion(cursor - len(found[1]), cursor, _beginning(found[1], names(), "name"))
    return Completion(cursor, cursor, [])


def _end_of_key(code: str, cursor: int, key: str) -> int:
    """Where a key ends that was typed: after the closing bracket that some editors put there by themselves for an opening one."""
    closing = CLOSING.get(key)
    if closing is None or code[cursor:cursor + 1] != closing:
        return cursor
    line = code[:cursor].rpartition("\n")[2] + code[cursor:].partition("\n")[0]
    is_extra = line.count(closing) >= line.count(key)
    return cursor + is_extra


def _of_key(key: str) -> list[Offer]:
    """The symbol of a key, or all of them where no key was typed."""
    if key:
        return [Offer(BY_KEY[key].character, BY_KEY[key].names[0])] if key in BY_KEY else []
    return [Offer(symbol.character, "key " + symbol.key) for symbol in SYMBOLS if symbol.key]


def _of_symbol_name(prefix: str, names: Names) -> list[Offer]:
    """The symbols whose names begin so; and the names that have values, since a backslash is a symbol too."""
    offers = [Offer(symbol.character, ", ".join(fitting)) for symbol, fitting in beginning(prefix)]
    return offers + ([Offer("\\" + text, kind) for text, kind in _beginning(prefix, names(), "name")] if prefix else [])


def _beginning(prefix: str, words: Iterable[str], kind: str) -> list[Offer]:
    return [Offer(word, kind) for word in sorted(words) if word.startswith(prefix)]


def asked_of(code: str, cursor: int) -> str:
    """The name or the symbol that is before the cursor, or else after it."""
    for place in (cursor - 1, cursor):
        if 0 <= place < len(code) and not code[place].isspace():
            around = (found[0] for found in _NAME.finditer(code) if found.start() <= place < found.end())
            return next(around, code[place])
    return ""


def about_symbol(character: str) -> str:
    """What there is to say of a character."""
    if character in BY_CHARACTER:
        return str(BY_CHARACTER[character])
    if character.isascii():
        return ""
    return "%s  U+%04X %s\nnot a symbol of the language" % (character, ord(character), unicodedata.name(character, ""))
