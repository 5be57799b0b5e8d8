"""The Jupyter kernel of contrib/jupyter, its notebooks and its page.

The tests that start the kernel are in jupyter_cases.py. They run in a process of their own, under the first Python that has ipykernel and
jupyter_client: this one, or else the system's.
"""
import json
import os
import pathlib
import re
import shutil
import subprocess
import sys
import tempfile
import unittest

from common import PROGRAM, TOP, needs

CLONE = TOP / "contrib" / "jupyter"
NOTEBOOKS = [TOP / "examples" / "first_half_hour.ipynb", TOP / "examples" / "tables.ipynb"]
SYSTEM_PYTHON = "/usr/bin/python3"
SECONDS = 120

sys.path.insert(0, str(CLONE))
from aplcalc_kernel import completion, symbols  # noqa: E402


def environment(folder):
    """Variables by which nothing outside a folder is read or written."""
    kept = {name: value for name, value in os.environ.items() if not name.startswith(("JUPYTER", "IPYTHON", "PYTHON", "XDG"))}
    return {**kept, "HOME": folder, "IPYTHONDIR": folder + "/ipython", "JUPYTER_DATA_DIR": folder + "/data",
            "JUPYTER_CONFIG_DIR": folder + "/config", "JUPYTER_RUNTIME_DIR": folder + "/runtime", "PYTHONDONTWRITEBYTECODE": "1",
            "APLCALC": PROGRAM}


def python_of_jupyter():
    """The Python that can start the kernel, or None."""
    for python in filter(shutil.which, (sys.executable, SYSTEM_PYTHON)):
        tried = subprocess.run([python, "-c", "import ipykernel, jupyter_client"], env=environment("/nonexistent"), capture_output=True)
        if tried.returncode == 0:
            return python
    return None


PYTHON = python_of_jupyter()


def keys_of_inputrc():
    """What contrib/inputrc has for a backquote and a key, but for the backquote itself."""
    text = (TOP / "contrib" / "inputrc").read_text(encoding="utf-8")
    return {key: symbol for key, symbol in re.findall(r'^"`(.)": "(.)"$', text, re.M) if key != "`"}


def rows_of(page, heading):
    """The rows of the tables of a page whose first row is this one, each as the texts of its cells without code marks."""
    rows, inside = [], False
    for line in (TOP / "docs" / page).read_text(encoding="utf-8").split("\n"):
        inside = line.startswith(heading) or inside and line.startswith("|")
        if inside and not line.startswith(("|---", heading)):
            rows.append([cell.strip().replace("\\|", "|") for cell in re.split(r"(?<!\\)\|", line)[1:-1]])
    return rows


def code_of(cell):
    return re.fullmatch("`(.*)`", cell)[1]


class Symbols(unittest.TestCase):
    """The table of symbols agrees with the pages and the files that have the same."""

    def test_keys_are_those_of_inputrc(self):
        self.assertEqual({symbol.key: symbol.character for symbol in symbols.SYMBOLS if symbol.key}, keys_of_inputrc())

    def test_meanings_are_those_of_the_manual(self):
        without_link = re.compile(r"\[(.*)\]\(#.*\)")
        functions = {}
        for character, _, _, *meanings in rows_of("MANUAL.md", "| Symbol | Code | Name | One"):
            functions[code_of(character)] = tuple(without_link.sub(r"\1", text).replace("`", "").replace("–", "") for text in meanings)
        self.assertEqual(len(functions), 39)
        ours = {symbol.character: (symbol.one_argument, symbol.two_arguments) for symbol in symbols.SYMBOLS if not symbol.meaning}
        self.assertEqual(ours, functions)

    def test_every_symbol_has_a_name_that_no_other_has(self):
        letters_and_more = set(map(chr, range(0x20, 0x7F))) - set("+-*/\\|!~<=>,.[]();'_")
        listed = set(re.findall(".", "¯×÷←↑↓∆∊∘∧∨≠≤≥⊖⊤⊥⌈⌊⌽⌿⍀⍉⍋⍒⍙⍝⍱⍲⍳⍴")) | set(map(chr, range(0x20, 0x7F)))
        self.assertEqual({symbol.character for symbol in symbols.SYMBOLS}, listed - letters_and_more)
        names = [name for symbol in symbols.SYMBOLS for name in symbol.names]
        self.assertEqual(len(names), len(set(names)))
        self.assertTrue(all(symbol.names for symbol in symbols.SYMBOLS))
        self.assertTrue(all(re.fullmatch("[a-z]+", name) for name in names))

    def test_the_page_has_this_table(self):
        rows = [(code_of(character), key and code_of(key), tuple(re.findall("[a-z]+", names)))
                for character, key, names in rows_of("NOTEBOOKS.md", "| Symbol | Key | Names")]
        self.assertEqual(rows, [(symbol.character, symbol.key, symbol.names) for symbol in symbols.SYMBOLS])


class Completions(unittest.TestCase):
    """What Tab offers at the end of a text, where RATES, RATIO and tax have values: from which place on, and what."""

    ROWS = [
        ("`r", 0, "⍴"),
        ("A`i", 1, "⍳"),
        ("1 2`-", 3, "×"),
        ("``r", 1, "⍴"),
        ("`q", 0, ""),
        ("`", 0, "× ÷ ⌊ ⌈ ∧ ∨ ⍲ ⍱ ≤ ≥ ≠ ⍴ ⍳ ∊ ↑ ↓ ⌽ ⊖ ⍉ ⍋ ⍒ ⊥ ⊤ ⌿ ⍀ ∘ ¯ ← ⍝ ∆ ⍙"),
        ("\\rho", 0, "⍴"),
        ("2 3\\reshape", 3, "⍴"),
        ("\\ro", 0, "⌽ ⊖"),
        ("\\take", 0, "↑"),
        ("\\ta", 0, "↑ \\tax"),
        ("\\delta", 0, "∆"),
        ("\\del", 0, "⍋ ⍒ ∆ ⍙"),
        ("+\\RAT", 1, "\\RATES \\RATIO"),
        ("\\zzz", 0, ""),
        ("A←1\nRAT", 4, "RATES RATIO"),
        ("5+t", 2, "tax"),
        (")", 1, "CLEAR OFF ORIGIN WIDTH"),
        ("  )O", 3, "OFF ORIGIN"),
        ("(2)O", 3, ""),
        ("2+", 2, ""),
        ("", 0, ""),
    ]

    def test_offers(self):
        for code, start, texts in self.ROWS:
            with self.subTest(code):
                offered = completion.complete(code + "⌽)", len(code), lambda: ["RATES", "RATIO", "tax"])
                self.assertEqual((offered.start, offered.end), (start, len(code)))
                self.assertEqual([offer.text for offer in offered.offers], texts.split())

    def test_a_bracket_that_the_editor_closed_goes_with_its_key(self):
        for before, after, end in (("A`[", "]", 4), ("A`(", ")+1", 4), ("(A`(", "))", 5), ("(A`(", ")", 4), ("X[A`[", "]]\n", 6),
                                   ("X[A`[", "]\n]", 5), ("A`[", "B", 3), ("(`r", ")", 3), ("(1)\n`(", ")\n(2)", 7)):
            with self.subTest(before + "|" + after):
                self.assertEqual(completion.complete(before + after, len(before), list).end, end)


class Notebooks(unittest.TestCase):
    """The files of the notebooks."""

    def test_they_are_notebooks_that_tell_nothing_of_a_machine(self):
        for path in NOTEBOOKS:
            text = path.read_text(encoding="utf-8")
            notebook = json.loads(text)
            ids = [cell["id"] for cell in notebook["cells"]]
            with self.subTest(path.name):
                self.assertEqual((notebook["nbformat"], notebook["nbformat_minor"]), (4, 5))
                self.assertEqual(len(ids), len(set(ids)))
                self.assertEqual(set(notebook["metadata"]), {"kernelspec", "language_info"})
                self.assertNotRegex(text, r"/home|/root|/tmp|/usr|20\d\d-\d\d-\d\dT")
                for cell in notebook["cells"]:
                    self.assertLessEqual(set(cell["metadata"]), {"tags"})

    @needs("jupyter-nbconvert")
    def test_the_page_of_a_notebook_has_carets_in_their_places_and_no_unknown_symbol(self):
        with tempfile.TemporaryDirectory() as folder:
            made = subprocess.run(["jupyter-nbconvert", "--to", "html", "--output-dir", folder, str(NOTEBOOKS[0])], env=environment(folder),
                                  capture_output=True, text=True, timeout=SECONDS)
            self.assertEqual(made.returncode, 0, made.stderr)
            page = (pathlib.Path(folder) / "first_half_hour.html").read_text(encoding="utf-8")
        self.assertNotIn('class="err"', page)
        shown = re.sub(r"<[^>]*>", "", "".join(re.findall(r"<pre>(.*?)</pre>", page, re.S)))
        self.assertIn("LENGTH ERROR\n      1 2+1 2 3\n         ∧", shown)
        self.assertIn("DOMAIN ERROR\n      7÷2\n       ∧", shown)


class Command(unittest.TestCase):
    """The command python3 -m aplcalc_kernel under a Python that need not have Jupyter."""

    def test_wrong_words(self):
        with tempfile.TemporaryDirectory() as folder:
            for words in ([], ["setup"], ["install", "--user", "--prefix", "x"], ["install", "--name"], ["remove", "x"]):
                done = subprocess.run([sys.executable, "-m", "aplcalc_kernel", *words], cwd=CLONE, env=environment(folder),
                                      capture_output=True)
                self.assertEqual((done.returncode, done.stdout), (2, b""))

    def test_says_which_package_is_missing(self):
        program = "import sys, runpy; sys.modules[%r] = None; sys.argv[1:] = [%r]; runpy.run_module('aplcalc_kernel', run_name='__main__')"
        with tempfile.TemporaryDirectory() as folder:
            for package, word in (("jupyter_client.kernelspec", "install"), ("ipykernel.kernelapp", "start"), ("jupyter_client", "remove")):
                done = subprocess.run([sys.executable, "-c", program % (package, word)], cwd=CLONE, env=environment(folder),
                                      capture_output=True, text=True, timeout=SECONDS)
                self.assertEqual(done.returncode, 1)
                self.assertIn("python3-ipykernel", done.stderr)
                self.assertEqual(done.stderr.count("\n"), 1)


class Kernel(unittest.TestCase):
    """The kernel itself."""

    @unittest.skipIf(PYTHON is None, "python3-ipykernel, python3-jupyter-client: not found")
    def test_cases(self):
        with tempfile.TemporaryDirectory() as folder:
            done = subprocess.run([PYTHON, "-m", "unittest", "jupyter_cases"], cwd=TOP / "tools" / "tests", env=environment(folder),
                                  capture_output=True, text=True, timeout=SECONDS)
        self.assertEqual(done.returncode, 0, done.stderr)


if __name__ == "__main__":
    unittest.main()
