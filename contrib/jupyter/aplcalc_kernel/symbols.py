"""The symbols of the language: their keys after a backquote, their names after a backslash, and their meanings.

The keys are those of contrib/inputrc, and the meanings those of the index of symbols in docs/MANUAL.md.
"""
from __future__ import annotations

import unicodedata
from typing import Iterator, NamedTuple


class Symbol(NamedTuple):
    """A character of the language. A key or a meaning that it has not is empty."""

    character: str
    key: str
    names: tuple[str, ...]
    one_argument: str
    two_arguments: str
    meaning: str = ""

    def __str__(self) -> str:
        """What a person asks of a symbol, on a few lines."""
        ways = ["\\" + name for name in self.names] + (["`" + self.key] if self.key else [])
        code = "U+%04X %s" % (ord(self.character), unicodedata.name(self.character))
        parts = [("means", self.meaning), ("one argument", self.one_argument), ("two arguments", self.two_arguments)]
        said = ["%s: %s" % part for part in parts if part[1]]
        return "\n".join(["%s  %s" % (self.character, code), *said, "type: %s and Tab" % ", ".join(ways)])


def _symbol(character: str, key: str, names: str, one_argument: str = "", two_arguments: str = "", meaning: str = "") -> Symbol:
    return Symbol(character, key, tuple(names.split()), one_argument, two_arguments, meaning)


SYMBOLS = (
    _symbol("+", "", "plus", "itself", "sum"),
    _symbol("-", "", "minus subtract negative", "negative", "difference"),
    _symbol("×", "-", "times multiply sign", "sign", "product"),
    _symbol("÷", "=", "divide quotient", "1 for 1, ¯1 for ¯1", "quotient"),
    _symbol("|", "", "stile residue magnitude", "magnitude", "residue"),
    _symbol("⌊", "d", "floor minimum lesser", "itself", "the lesser"),
    _symbol("⌈", "s", "ceiling maximum", "itself", "the greater"),
    _symbol("*", "", "star power", "", "power"),
    _symbol("!", "", "factorial binomial exclamation", "factorial", "binomial"),
    _symbol("~", "", "tilde not", "not", ""),
    _symbol("∧", "0", "and", "", "and"),
    _symbol("∨", "9", "or", "", "or"),
    _symbol("⍲", ")", "nand", "", "not and"),
    _symbol("⍱", "(", "nor", "", "not or"),
    _symbol("<", "", "less", "", "less"),
    _symbol("≤", "4", "lessequal notgreater", "", "not greater"),
    _symbol("=", "", "equal equals", "", "equal"),
    _symbol("≥", "6", "greaterequal notless", "", "not less"),
    _symbol(">", "", "greater", "", "greater"),
    _symbol("≠", "8", "notequal unequal", "", "not equal"),
    _symbol("⍴", "r", "rho shape reshape", "shape", "reshape"),
    _symbol(",", "", "comma ravel catenate", "ravel", "catenate"),
    _symbol("⍳", "i", "iota count indexof", "count", "index of"),
    _symbol("∊", "e", "epsilon membership member", "", "membership"),
    _symbol("↑", "y", "take uparrow", "", "take"),
    _symbol("↓", "u", "drop downarrow", "", "drop"),
    _symbol("⌽", "%", "reverse rotate circlestile", "reverse", "rotate"),
    _symbol("⊖", "&", "reversefirst rotatefirst circledminus", "reverse, first axis", "rotate, first axis"),
    _symbol("⍉", "^", "transpose circlebackslash", "transpose", "axes moved"),
    _symbol("⍋", "$", "gradeup deltastile", "grade up", ""),
    _symbol("⍒", "#", "gradedown delstile", "grade down", ""),
    _symbol("⊥", "b", "decode base uptack", "", "decode"),
    _symbol("⊤", "n", "encode downtack", "", "encode"),
    _symbol("/", "", "slash reduction replicate", "f/B reduction", "A/B replicate"),
    _symbol("⌿", "/", "slashbar reductionfirst replicatefirst", "f⌿B, first axis", "A⌿B, first axis"),
    _symbol("\\", "", "backslash scan expand", "f\\B scan", "A\\B expand"),
    _symbol("⍀", ".", "backslashbar scanfirst expandfirst", "f⍀B, first axis", "A⍀B, first axis"),
    _symbol(".", "", "dot inner", "", "Af.gB inner product"),
    _symbol("∘", "j", "jot ring outer", "", "A∘.fB outer product"),
    _symbol("¯", "2", "highminus macron", meaning="a negative numeral"),
    _symbol("←", "[", "gets assignment leftarrow", meaning="assignment"),
    _symbol("[", "", "leftbracket", meaning="begins an index or an axis"),
    _symbol("]", "", "rightbracket", meaning="ends an index or an axis"),
    _symbol(";", "", "semicolon", meaning="between the parts of an index"),
    _symbol("(", "", "leftparenthesis", meaning="begins a group"),
    _symbol(")", "", "rightparenthesis", meaning="ends a group; as the first symbol of a line: a command"),
    _symbol("'", "", "quote", meaning="begins and ends a text"),
    _symbol("⍝", ",", "lamp comment", meaning="a comment, to the end of the line"),
    _symbol("∆", "h", "delta", meaning="a letter of names"),
    _symbol("⍙", ">", "deltaunderbar", meaning="a letter of names"),
    _symbol("_", "", "underscore lowline", meaning="in a name, after its first letter"),
)

BY_CHARACTER = {symbol.character: symbol for symbol in SYMBOLS}
BY_KEY = {symbol.key: symbol for symbol in SYMBOLS if symbol.key}
BY_NAME = {name: symbol for symbol in SYMBOLS for name in symbol.names}


def beginning(prefix: str) -> Iterator[tuple[Symbol, list[str]]]:
    """The symbols with a name that begins so, each once with these names. A whole name means its symbol alone."""
    if prefix in BY_NAME:
        yield BY_NAME[prefix], [prefix]
        return
    for symbol in SYMBOLS:
        names = [name for name in symbol.names if name.startswith(prefix)]
        if names:
            yield symbol, names
