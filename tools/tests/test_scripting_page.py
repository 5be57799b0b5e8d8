"""The examples of docs/SCRIPTING.md: its files are made, its commands typed, its Python run, and what is written compared with the page."""
import os
import pathlib
import re
import shutil
import subprocess
import sys
import tempfile
import unittest

from common import PROGRAM, TOP, pythons_with_numpy

PAGE = TOP / "docs" / "SCRIPTING.md"
BLOCK = re.compile(r"^```(.*)\n((?:.*\n)*?)^```$", re.MULTILINE)
WORDS = ("jq", "awk", "sed", "tr", "fold", "head")


def blocks(kind):
    """The blocks of a kind: the words after the kind, and the text."""
    found = [(match[1].split(), match[2]) for match in BLOCK.finditer(PAGE.read_text(encoding="utf-8"))]
    return [(words[1:], text) for words, text in found if words[:1] == [kind]]


def typed_and_written(text):
    """The commands of a block, each with what it writes."""
    examples = []
    for line in text.splitlines():
        if line.startswith("$ "):
            examples.append([line[2:], ""])
        elif line.startswith("> ") and not examples[-1][1]:
            examples[-1][0] += "\n" + line[2:]
        else:
            examples[-1][1] += line + "\n"
    return examples


WITH_NUMPY = pythons_with_numpy()


class Page(unittest.TestCase):
    def setUp(self):
        folder = tempfile.TemporaryDirectory()
        self.addCleanup(folder.cleanup)
        self.folder = pathlib.Path(folder.name)
        (self.folder / "bin").mkdir()
        (self.folder / "bin" / "aplcalc").symlink_to(PROGRAM)
        (self.folder / "bin" / "aplrun").symlink_to(TOP / "tools" / "aplrun")
        for (name,), text in blocks("text"):
            (self.folder / name).write_text(text, encoding="utf-8")
        self.environment = {**os.environ, "APLCALC": PROGRAM, "PATH": "%s:%s" % (self.folder / "bin", os.environ["PATH"]),
                            "PYTHONPATH": str(TOP / "tools" / "python"), "LC_ALL": "C.UTF-8"}

    def run_here(self, *words):
        """What a program writes in the folder."""
        run = subprocess.run(words, cwd=self.folder, env=self.environment, stdin=subprocess.DEVNULL, stdout=subprocess.PIPE,
                             stderr=subprocess.STDOUT, timeout=60)
        return run.stdout.decode()

    def test_commands(self):
        shown = [typed_and_written(text) for _, text in blocks("console")]
        self.assertGreater(len(shown), 15)
        for examples in shown:
            script = "\n".join("%s\nlast=$?; echo NEXT; (exit $last)" % command for command, _ in examples)
            missing = [word for word in WORDS if re.search(r"\b%s\b" % word, script) and shutil.which(word) is None]
            with self.subTest(command=examples[0][0]):
                if missing:
                    self.skipTest("%s: not found" % ", ".join(missing))
                self.assertEqual(self.run_here("bash", "-c", script).split("NEXT\n"), [written for _, written in examples] + [""])

    def run_python(self, python, texts):
        """What doctest complains about by a Python."""
        (self.folder / "page").write_text("\n".join(texts), encoding="utf-8")
        return self.run_here(python, "-B", "-X", "utf8", "-m", "doctest", "-o", "ELLIPSIS", "page")

    def test_python(self):
        shown = [text for _, text in blocks("pycon") if "numpy" not in text]
        self.assertGreater(len(shown), 4)
        self.assertEqual(self.run_python(sys.executable, shown), "")

    @unittest.skipUnless(WITH_NUMPY, "no Python here has numpy")
    def test_numpy(self):
        shown = [text for _, text in blocks("pycon") if "numpy" in text]
        self.assertEqual(self.run_python(WITH_NUMPY[0], [">>> from aplcalc import Calculator\n", *shown]), "")

    def test_links(self):
        text = PAGE.read_text(encoding="utf-8")
        headings = re.findall(r"^#+ (.*)$", text, re.MULTILINE)
        anchors = {re.sub(r"[^\w -]", "", heading.lower()).replace(" ", "-") for heading in headings}
        for target in re.findall(r"\]\(#([^)]*)\)", text):
            self.assertIn(target, anchors)


if __name__ == "__main__":
    unittest.main()
