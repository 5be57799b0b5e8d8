"""The files for Vim: the filetype, the colours and the keys."""
import json
import os
import pathlib
import subprocess
import tempfile
import unittest

from common import TOP, needs
from keys import keys_of_keyboard_page

FOLDER = TOP / "contrib" / "vim"
SESSION = """#!/usr/bin/env aplrun
TOTAL←+/¯12 5×A1[2;]
'IT''S ⍝ A'=∆X ⍝ it's a comment
)ORIGIN 0
'OPEN
3∈⍳5
VALUE ERROR
         ∧
X∘.=Y∧"
"""
# Line, the text whose first character is looked at, and the group of colours that it has.
COLOURS = [
    (1, "#!/usr", "aplcalcComment"),
    (2, "TOTAL", "aplcalcName"),
    (2, "←", "aplcalcAssignment"),
    (2, "+", "aplcalcFunction"),
    (2, "/", "aplcalcOperator"),
    (2, "¯12", "aplcalcNumber"),
    (2, "5×", "aplcalcNumber"),
    (2, "×", "aplcalcFunction"),
    (2, "1[", "aplcalcName"),
    (2, "[", "aplcalcDelimiter"),
    (2, ";", "aplcalcDelimiter"),
    (3, "'IT", "aplcalcText"),
    (3, "S ⍝", "aplcalcText"),
    (3, "⍝ A", "aplcalcText"),
    (3, "=", "aplcalcFunction"),
    (3, "∆X", "aplcalcName"),
    (3, "⍝ it", "aplcalcComment"),
    (3, "'s a", "aplcalcComment"),
    (4, ")", "aplcalcCommand"),
    (4, "0", "aplcalcNumber"),
    (5, "'", "aplcalcOpenText"),
    (6, "∈", "aplcalcRefused"),
    (6, "⍳", "aplcalcFunction"),
    (7, "VALUE", "aplcalcHeading"),
    (8, "∧", "aplcalcCaret"),
    (9, "∘", "aplcalcOperator"),
    (9, ".", "aplcalcOperator"),
    (9, "∧", "aplcalcFunction"),
    (9, '"', "aplcalcMeaningless"),
]


def vim(folder, name, text, *commands):
    """What Vim answers, as JSON in a file, after a file was opened there and the commands were run."""
    path, answer = pathlib.Path(folder, name), pathlib.Path(folder, "answer")
    path.write_text(text, encoding="utf-8")
    words = ["vim", "-es", "-u", "NONE", "-i", "NONE", "-N", "--cmd", "set encoding=utf-8 runtimepath^=%s" % FOLDER]
    words += ["--cmd", "filetype plugin on | syntax on", str(path)]
    for command in commands:
        words += ["-c", command]
    environment = {**os.environ, "HOME": str(folder), "LC_ALL": "C.UTF-8"}
    subprocess.run(words + ["-c", "quitall!"], stdin=subprocess.DEVNULL, timeout=10, env=environment, check=True, capture_output=True)
    return json.loads(answer.read_text(encoding="utf-8"))


def answering(expression):
    """The command by which Vim writes an expression's value."""
    return "call writefile([json_encode(%s)], expand('%%:p:h') . '/answer')" % expression


def place(line, text):
    """The line and the column, in bytes from 1, where a text begins in the session."""
    shown = SESSION.split("\n")[line - 1]
    return [line, len(shown[: shown.index(text)].encode()) + 1]


@needs("vim")
class Vim(unittest.TestCase):
    def setUp(self):
        self.folder = tempfile.TemporaryDirectory()
        self.addCleanup(self.folder.cleanup)

    def test_the_name_of_a_file_makes_its_filetype(self):
        settings = vim(self.folder.name, "a.apl", "2+3\n", answering("[&filetype, &keymap, &commentstring, &expandtab]"))
        self.assertEqual(settings, ["aplcalc", "aplcalc", "⍝ %s", 1])

    def test_the_first_line_makes_a_filetype(self):
        self.assertEqual(vim(self.folder.name, "script", "#!/usr/bin/env aplrun\n2+3\n", answering("&filetype")), "aplcalc")
        self.assertEqual(vim(self.folder.name, "script", "2+3\n", answering("&filetype")), "")

    def test_colours(self):
        places = [place(line, text) for line, text, _ in COLOURS]
        groups = vim(
            self.folder.name,
            "a.apl",
            SESSION,
            answering("map(%s, \"synIDattr(synID(v:val[0], v:val[1], 1), 'name')\")" % json.dumps(places)),
        )
        self.assertEqual(list(zip(COLOURS, groups)), [(row, row[2]) for row in COLOURS])

    def test_each_group_has_a_colour(self):
        groups = sorted({group for _, _, group in COLOURS})
        linked = vim(self.folder.name, "a.apl", "", answering("map(%s, \"synIDattr(synIDtrans(hlID(v:val)), 'name')\")" % json.dumps(groups)))
        self.assertFalse([group for group, name in zip(groups, linked) if name in ("", group)])

    def test_each_key_types_its_symbol(self):
        keys = {**keys_of_keyboard_page(), "`": "`"}
        typed = "".join("`" + key for key in keys)
        answer = vim(self.folder.name, "a.apl", "", "call feedkeys('i' . %s . \"\\<Esc>\", 'xt')" % json.dumps(typed), answering("getline(1)"))
        self.assertEqual(answer, "".join(keys.values()))


if __name__ == "__main__":
    unittest.main()
