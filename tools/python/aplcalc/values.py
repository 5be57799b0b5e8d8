"""Values of Python's as arrays of the language, and the other way."""
import collections.abc
import itertools
import math
import operator
import re
import reprlib
import sys
from typing import Any, List, NamedTuple, Sequence, Tuple, Union

from .errors import ConversionError
from .reports import ALPHABET

NUMBERS = "numbers"
CHARACTERS = "characters"
LEAST, GREATEST = -(1 << 63), (1 << 63) - 1
MOST_AXES = 15
MOST_ELEMENTS = 1 << 30
NUMERAL = re.compile("[-¯]?[0-9]+")


class Value(NamedTuple):
    """An array exactly: its shape, its kind ('numbers' or 'characters'), and its elements in row order, a list of int or a str."""

    shape: Tuple[int, ...]
    kind: str
    ravel: Union[List[int], str]

    def python(self) -> Any:
        """The array as Python has it. A scalar is an int or a str of length 1. Any other array is a list or a str, nested by the shape.

        The last axis of characters is a str. A scalar character and a vector of one are the same str. Where an axis before the last one
        is 0, the lengths after it are lost, and so is the kind.
        """
        items: Sequence[Any] = self.ravel
        for depth in range(len(self.shape) - 1, 0, -1):
            length = self.shape[depth]
            items = [items[start * length:(start + 1) * length] for start in range(math.prod(self.shape[:depth]))]
        return items if self.shape else items[0]

    def numpy(self) -> Any:
        """The array as numpy has it: of int64, or of strings of one character."""
        import numpy

        if self.kind == NUMBERS:
            return numpy.array(self.ravel, dtype=numpy.int64).reshape(self.shape)
        return numpy.array(list(self.ravel), dtype="U1").reshape(self.shape)


def numeral(whole: int) -> str:
    """A whole number as the language writes it, with a high minus."""
    return str(whole).replace("-", "¯")


def number(text: str) -> int:
    """The whole number that a numeral means, with either minus."""
    if NUMERAL.fullmatch(text) is None:
        raise ConversionError("%r is no whole number" % text)
    return int(text.replace("¯", "-"))


def numbers(text: str) -> List[int]:
    """The numbers of a text that the calculator wrote, with blanks or line ends between them."""
    return list(map(int, text.replace("¯", "-").split()))


def constant(given: Any) -> str:
    """An expression of the language for a value of Python's."""
    shape, kind, ravel = value_of(given)
    if kind == NUMBERS:
        text = " ".join(map(str, ravel)).replace("-", "¯") or "⍳0"
    else:
        text = "'%s'" % str(ravel).replace("'", "''")
    if len(shape) == 1:
        return "," + text if shape == (1,) else text
    return "%s⍴%s" % (" ".join(map(str, shape)), text) if shape else text


def value_of(given: Any) -> Value:
    """The array that a value of Python's is. That may be an int, a str, a numpy array, a Value, or nested lists of int or of str.

    A str is a vector of characters, whatever its length, and a list of strs a matrix, so these must have one length.
    """
    if isinstance(given, Value):
        return checked(given)
    numpy = sys.modules.get("numpy")
    if numpy is not None and isinstance(given, numpy.ndarray):
        return of_numpy(given)
    shape, leaves = unnested(given)
    if set(map(type, leaves)) != {str}:
        return checked(Value(shape, NUMBERS, leaves))
    lengths = set(map(len, leaves))
    if len(lengths) > 1:
        raise ConversionError("the strings have different lengths, from %d to %d: pad them, as by str.ljust" % (min(lengths), max(lengths)))
    return checked(Value((*shape, *lengths), CHARACTERS, "".join(leaves)))


def of_numpy(array: Any) -> Value:
    """The Value of a numpy array of whole numbers, of truth values, or of strings of one length."""
    if array.dtype.kind in "iub":
        return checked(Value(array.shape, NUMBERS, array.ravel().tolist()))
    if array.dtype.kind != "U":
        raise ConversionError("a numpy array of %s has neither whole numbers nor characters" % array.dtype)
    if array.dtype.itemsize == array.dtype.alignment:
        return checked(Value(array.shape, CHARACTERS, "".join(array.ravel().tolist())))
    return value_of(array.tolist())


def is_list(kind: type) -> bool:
    return issubclass(kind, collections.abc.Sequence) and not issubclass(kind, (str, bytes, bytearray, memoryview))


def unnested(given: Any) -> Tuple[Tuple[int, ...], List[Any]]:
    """The lengths of nested lists, and what is in them in row order."""
    shape: List[int] = []
    level = [given]
    while any(are_lists := set(map(is_list, set(map(type, level))))):
        if not all(are_lists):
            raise ConversionError("the list is ragged: at depth %d it has lists and other items side by side" % len(shape))
        lengths = set(map(len, level))
        if len(lengths) > 1:
            raise ConversionError("the list is ragged: its lists at depth %d have from %d to %d items"
                                  % (len(shape) + 1, min(lengths), max(lengths)))
        shape += lengths
        if len(shape) > MOST_AXES:
            raise ConversionError("an array has at most %d axes" % MOST_AXES)
        level = list(itertools.chain.from_iterable(level))
    return tuple(shape), level


def checked(value: Value) -> Value:
    """The value, which must be an array of the language."""
    shape, kind, ravel = tuple(value.shape), value.kind, value.ravel
    if len(shape) > MOST_AXES:
        raise ConversionError("an array has at most %d axes, and this one has %d" % (MOST_AXES, len(shape)))
    if not all(isinstance(length, int) and 0 <= length <= MOST_ELEMENTS for length in shape):
        raise ConversionError("the shape %r has a length that is not from 0 to %d" % (shape, MOST_ELEMENTS))
    if math.prod(shape) != len(ravel) or len(ravel) > MOST_ELEMENTS:
        raise ConversionError("the shape %r is of %d elements, and there are %d" % (shape, math.prod(shape), len(ravel)))
    if kind == NUMBERS:
        return Value(shape, kind, in_range(whole_numbers(list(ravel))))
    if kind == CHARACTERS and isinstance(ravel, str):
        return Value(shape, kind, of_alphabet(ravel))
    raise ConversionError("elements of kind %r are no %s" % (kind, type(ravel).__name__))


def whole_numbers(leaves: List[Any]) -> List[int]:
    """The leaves as Python's own numbers."""
    if set(map(type, leaves)) <= {int}:
        return leaves
    found = []
    for place, leaf in enumerate(leaves):
        try:
            found.append(int(operator.index(leaf)))
        except TypeError:
            raise ConversionError("item %d in row order, %s, is no whole number" % (place, reprlib.repr(leaf))) from None
    return found


def in_range(ravel: List[int]) -> List[int]:
    """The numbers, each of which must be one of the language's."""
    if ravel and not LEAST <= min(ravel) <= max(ravel) <= GREATEST:
        place = next(place for place, item in enumerate(ravel) if not LEAST <= item <= GREATEST)
        raise ConversionError("item %d in row order is not from %d to %d" % (place, LEAST, GREATEST))
    return ravel


def of_alphabet(ravel: str) -> str:
    """The characters, each of which must be one of the language's."""
    foreign = set(ravel) - ALPHABET
    if foreign:
        place = next(place for place, character in enumerate(ravel) if character in foreign)
        raise ConversionError("character %d in row order, %r, is none of the language's" % (place, ravel[place]))
    return ravel
