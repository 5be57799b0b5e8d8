"""The keys and their symbols, as each of the files has them."""
import re

from common import TOP

NAMES_OF_KEYS = {
    "minus": "-",
    "equal": "=",
    "parenright": ")",
    "parenleft": "(",
    "bracketleft": "[",
    "percent": "%",
    "ampersand": "&",
    "asciicircum": "^",
    "slash": "/",
    "period": ".",
    "dollar": "$",
    "numbersign": "#",
    "comma": ",",
    "greater": ">",
}


def text_of(path):
    return (TOP / path).read_text(encoding="utf-8")


def found(path, pattern):
    """The pairs of a key and a symbol that a pattern finds in a file."""
    return dict(re.findall(pattern, text_of(path), re.MULTILINE))


def keys_of_keyboard_page():
    return found("docs/KEYBOARD.md", r"\| `(\S)` \| `(\S)` [^|]*(?=\|)")


def keys_of_inputrc():
    return found("contrib/inputrc", r'^"`(.)": "(.)"$')


def keys_of_compose():
    named = found("contrib/XCompose", r'^<Multi_key> <backslash> <(\w+)> : "(.)" U')
    return {NAMES_OF_KEYS.get(name, name): symbol for name, symbol in named.items()}


def keys_of_vim():
    return found("contrib/vim/keymap/aplcalc.vim", r"^`([^`]) (.)")


def keys_of_emacs():
    return found("contrib/emacs/aplcalc.el", r'\("`([^`])" \?(.)\)')
