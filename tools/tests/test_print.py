"""Tests of docs/print, the card and the cookbook."""
import html.parser
import os
import pathlib
import re
import shutil
import subprocess
import sys
import tempfile
import unittest
from typing import Dict, List, Tuple

from common import PROGRAM, TOP, needs

PRINT = TOP / "docs" / "print"
RENDERERS = ["weasyprint", "chromium", "chromium-browser", "google-chrome", "google-chrome-stable"]
HAS_RENDERER = any(shutil.which(name) for name in RENDERERS)
RECIPES = 40


def printed(*words: str, path: str = os.environ["PATH"]) -> subprocess.CompletedProcess:
    """What docs/print does with these words, where programs are found on a path."""
    environment = {**os.environ, "PATH": path}
    return subprocess.run([sys.executable, str(PRINT), *words], capture_output=True, text=True, env=environment, timeout=120)


def prose(page: str) -> List[str]:
    """The lines of a page outside its fenced blocks."""
    text = (TOP / "docs" / page).read_text(encoding="utf-8")
    return re.sub(r"^```.*?^```$", "", text, flags=re.M | re.S).split("\n")


def cells(line: str) -> List[str]:
    """The cells of a line of a table."""
    return [cell.strip().replace("\\|", "|") for cell in re.split(r"(?<!\\)\|", line.strip().strip("|"))]


def plain(heading: str) -> str:
    """A heading on one line, without backslashes."""
    return " ".join(heading.split()).replace("\\", "")


class Page(html.parser.HTMLParser):
    """The headings, identifiers, links and code of a page in HTML."""

    def __init__(self, file: pathlib.Path) -> None:
        super().__init__()
        self.headings: List[str] = []
        self.identifiers: List[str] = []
        self.links: List[str] = []
        self.code = ""
        self.open_code = self.open_heading = False
        self.feed(file.read_text(encoding="utf-8"))

    def handle_starttag(self, tag: str, attrs: List[Tuple[str, str]]) -> None:
        values = dict(attrs)
        self.identifiers += [values["id"]] if "id" in values else []
        self.links += [values["href"]] if "href" in values else []
        self.open_code = self.open_code or tag == "code"
        if re.fullmatch(r"h[1-6]", tag):
            self.open_heading = True
            self.headings.append("")

    def handle_endtag(self, tag: str) -> None:
        self.open_code = self.open_code and tag != "code"
        self.open_heading = self.open_heading and not re.fullmatch(r"h[1-6]", tag)

    def handle_data(self, data: str) -> None:
        if self.open_code:
            self.code += data
        if self.open_heading:
            self.headings[-1] += data


@needs("pandoc")
@unittest.skipUnless(HAS_RENDERER, "weasyprint and chromium: not found")
class Files(unittest.TestCase):
    """The files that docs/print makes; manual.pdf takes long and is not made here."""

    @classmethod
    def setUpClass(cls) -> None:
        place = tempfile.TemporaryDirectory()
        cls.addClassCleanup(place.cleanup)
        cls.folder = pathlib.Path(place.name) / "new" / "folder"
        cls.made = printed("--only", "manual.html", "--only", "card.html", "--only", "card.pdf", str(cls.folder))
        cls.manual, cls.card = (Page(cls.folder / name) for name in ("manual.html", "card.html"))

    def test_files_are_made_and_named(self) -> None:
        names = ["manual.html", "card.html", "card.pdf"]
        self.assertEqual((self.made.returncode, self.made.stderr), (0, ""))
        self.assertEqual(self.made.stdout.split("\n")[:-1], [str(self.folder / name) for name in names])
        self.assertEqual(sorted(os.listdir(self.folder)), sorted(names))

    def test_the_card_has_two_pages_of_a4(self) -> None:
        if shutil.which("pdfinfo"):
            told = subprocess.run(["pdfinfo", str(self.folder / "card.pdf")], capture_output=True, text=True, check=True).stdout
            self.assertRegex(told, r"Pages: +2\n")
            self.assertRegex(told, r"Page size: +59[45][0-9.]* x 84[12][0-9.]* pts")
        else:
            self.assertEqual(len(re.findall(rb"/Type\s*/Page\b", (self.folder / "card.pdf").read_bytes())), 2)

    def test_the_manual_has_every_heading_of_its_pages(self) -> None:
        pages = ["MANUAL.md", "KEYBOARD.md", "COOKBOOK.md"]
        wanted = [line.lstrip("#").strip().replace("`", "") for page in pages for line in prose(page) if re.match(r"#+ ", line)]
        self.assertGreater(len(wanted), 100)
        self.assertEqual(set(map(plain, wanted)) - set(map(plain, self.manual.headings)), set())

    def test_links_lead_somewhere(self) -> None:
        for page in (self.manual, self.card):
            self.assertEqual(len(page.identifiers), len(set(page.identifiers)))
            inner = [link[1:] for link in page.links if link.startswith("#")]
            self.assertEqual(set(inner) - set(page.identifiers), set())
            others = [link for link in page.links if not re.match(r"#|https?:", link)]
            self.assertEqual(others, [])
        self.assertGreater(len(self.manual.links), 200)

    def test_every_symbol_of_the_manual_is_on_the_card(self) -> None:
        lines = prose("MANUAL.md")
        rows = [cells(line)[0] for line in lines[lines.index("## Index of symbols"):] if line.startswith("| `")]
        symbols = [symbol for row in rows for symbol in re.findall(r"`([^`]+)`", row)]
        self.assertGreater(len(symbols), 45)
        self.assertEqual([symbol for symbol in symbols if symbol not in self.card.code], [])

    def test_no_folder_of_the_machine_is_told(self) -> None:
        for name in os.listdir(self.folder):
            content = (self.folder / name).read_bytes()
            for folder in (TOP, self.folder, pathlib.Path.home()):
                self.assertNotIn(str(folder).encode() + b"/", content, name)
            self.assertNotIn(b"file://", content, name)


class Refusals(unittest.TestCase):
    """What is said where something is missing or fails."""

    def setUp(self) -> None:
        place = tempfile.TemporaryDirectory()
        self.addCleanup(place.cleanup)
        self.tools, self.folder = pathlib.Path(place.name) / "tools", pathlib.Path(place.name) / "out"
        self.tools.mkdir()

    def program(self, name: str, text: str) -> None:
        """Puts a program of this text on the path."""
        (self.tools / name).write_text(text, encoding="utf-8")
        (self.tools / name).chmod(0o755)

    def test_pandoc_is_asked_for(self) -> None:
        run = printed(str(self.folder), path=str(self.tools))
        self.assertEqual(run.returncode, 1)
        self.assertIn("pandoc is not found", run.stderr)
        self.assertFalse(self.folder.exists())

    @needs("pandoc")
    def test_without_a_renderer_the_html_is_made(self) -> None:
        (self.tools / "pandoc").symlink_to(shutil.which("pandoc"))
        run = printed("--only", "card.html", "--only", "card.pdf", str(self.folder), path=str(self.tools))
        self.assertEqual(run.returncode, 1)
        self.assertIn("card.pdf: weasyprint or chromium is not found", run.stderr)
        self.assertEqual(os.listdir(self.folder), ["card.html"])

    @needs("pandoc")
    def test_a_failure_leaves_the_file_as_it_was(self) -> None:
        (self.tools / "pandoc").symlink_to(shutil.which("pandoc"))
        self.program("weasyprint", "#!/bin/sh\necho half > \"$3\"\necho broken >&2\nexit 3\n")
        self.folder.mkdir()
        (self.folder / "card.pdf").write_text("whole", encoding="utf-8")
        run = printed("--only", "card.pdf", str(self.folder), path=str(self.tools))
        self.assertEqual(run.returncode, 1)
        self.assertIn("weasyprint ended with status 3: broken", run.stderr)
        self.assertEqual(os.listdir(self.folder), ["card.pdf"])
        self.assertEqual((self.folder / "card.pdf").read_text(encoding="utf-8"), "whole")

    def test_wrong_words_are_refused(self) -> None:
        for words in (["--only", "card.txt"], ["--nothing"], ["a", "b"]):
            run = printed(*words)
            self.assertEqual((run.returncode, run.stdout), (2, ""))
            self.assertIn("usage: docs/print", run.stderr)

    def test_help(self) -> None:
        run = printed("--help")
        self.assertEqual((run.returncode, run.stderr), (0, ""))
        for name in ("manual.html", "manual.pdf", "card.html", "card.pdf", "FOLDER", "--only", "--renderer"):
            self.assertIn(name, run.stdout)


class Card(unittest.TestCase):
    """The examples of the card."""

    def examples(self) -> Dict[str, str]:
        """The lines of the tables that end in Example and Answer, in one session, with what each is said to write."""
        found: Dict[str, str] = {}
        heads: List[str] = []
        for line in prose("CARD.md"):
            row = cells(line) if line.startswith("|") else []
            if heads[-2:] == ["Example", "Answer"] and row and not row[0].startswith("---"):
                found[row[-2].strip("`")] = "".join(part.strip("`") + "\n" for part in row[-1].split("<br>") if part)
            heads = heads or row if row else []
        return found

    def test_each_example_is_answered_as_the_card_says(self) -> None:
        examples = self.examples()
        self.assertGreater(len(examples), 60)
        session = "".join(line + "\n" for line in examples)
        answers = subprocess.run([PROGRAM], input=session, capture_output=True, encoding="utf-8", check=True, timeout=60).stdout
        self.assertEqual(answers, "".join(examples.values()))


class Cookbook(unittest.TestCase):
    """The shape of the cookbook; checks/pages/run runs its examples."""

    def recipes(self) -> Dict[str, str]:
        """The text of each recipe by its heading."""
        text = (TOP / "docs" / "COOKBOOK.md").read_text(encoding="utf-8")
        parts = re.split(r"^(#{2,3}) (.+)$", text, flags=re.M)[1:]
        return {title: body for level, title, body in zip(parts[::3], parts[1::3], parts[2::3]) if level == "###"}

    def test_each_recipe_has_a_reason_and_an_example(self) -> None:
        recipes = self.recipes()
        self.assertGreaterEqual(len(recipes), RECIPES)
        for title, body in recipes.items():
            reason, _, example = body.strip().partition("\n\n```apl")
            self.assertTrue(2 <= len(reason.split("\n")) <= 4, title)
            self.assertRegex(example, r"\A( more)?\n {6}\S[^`]*\n```\Z", title)

    def test_the_index_names_each_recipe(self) -> None:
        front = (TOP / "docs" / "COOKBOOK.md").read_text(encoding="utf-8").split("\n## ")[0]
        linked = set(re.findall(r"\]\(#([^)]+)\)", front))
        wanted = {re.sub(r"[^\w\- ]", "", title.lower()).replace(" ", "-") for title in self.recipes()}
        self.assertEqual(wanted - linked, set())


if __name__ == "__main__":
    unittest.main()
