"""The manual pages, the version that they name, and the completions in the real shells."""
import os
import pathlib
import re
import shlex
import subprocess
import sys
import tempfile
import unittest

from common import PROGRAM, TOP, needs

PAGES = sorted((TOP / "tools").glob("*.1"))
SECTIONS = ["NAME", "SYNOPSIS", "DESCRIPTION", "OPTIONS", "EXIT STATUS", "ENVIRONMENT", "EXAMPLES", "SEE ALSO"]
COMPLETIONS = TOP / "tools" / "completions"
APLRUN = TOP / "tools" / "aplrun"
RULES = ["claims", "deques"]
BASH = '. "$1"; shift; COMP_WORDS=("$@"); COMP_CWORD=$(($# - 1)); _aplcalc; printf "%s\\n" "${COMPREPLY[@]}"'
ZSH_SETTINGS = """
PS1= PS2=
fpath=(%s $fpath)
autoload -Uz compinit && compinit -D -u
bindkey '^I' complete-word
aplcalc() { print -r -- "GOT:$*:END" }
"""
ZSH = """
zmodload zsh/zpty
zpty shell zsh -d -i
zpty -w -n shell "$1"$'\\n'
zpty -r -m shell text '*GOT:*:END*'
print -r -- "$text"
zpty -d shell
"""


def run(*command, **options):
    """What a command writes to standard output and to standard error, one after the other."""
    done = subprocess.run([str(word) for word in command], stdout=subprocess.PIPE, stderr=subprocess.STDOUT, stdin=subprocess.DEVNULL,
                          text=True, encoding="utf-8", timeout=60, check=False, **options)
    return done.stdout


def options_of(text):
    """The long options that a text names."""
    return set(re.findall(r"(?<![\w-])--[a-z][a-z-]*", text))


def source_of(page):
    """A page's text without the escapes of its format that these pages have."""
    text = re.sub(r"\\f[BIR]", "", page.read_text(encoding="utf-8"))
    for written, meant in ((r"\(aq", "'"), (r"\-", "-"), (r"\~", " "), (r"\&", ""), (r"\e", "\\")):
        text = text.replace(written, meant)
    return text


class ManualPage(unittest.TestCase):
    """What each page is and names."""

    @needs("mandoc")
    def test_mandoc_has_nothing_to_say(self):
        for page in PAGES:
            self.assertEqual(run("mandoc", "-Tlint", page), "")

    @needs("man", "groff")
    def test_man_has_nothing_to_say(self):
        for page in PAGES:
            for language in ("C", "C.UTF-8"):
                done = subprocess.run(["man", "--warnings", "-l", page], env={**os.environ, "LC_ALL": language, "MANWIDTH": "80"},
                                      capture_output=True, text=True, encoding="utf-8", timeout=60, check=False)
                self.assertEqual((done.returncode, done.stderr), (0, ""), page)
                self.assertIn("SEE ALSO", done.stdout)

    def test_sections(self):
        for page in PAGES:
            found = [line[4:].strip('"') for line in source_of(page).split("\n") if line.startswith(".SH ")]
            self.assertEqual([name for name in found if name in SECTIONS], SECTIONS, page)

    def test_version(self):
        version, date = run(TOP / "release/version").split()
        for page in PAGES:
            heading = '.TH %s 1 %s "aplcalc %s" "User Commands"' % (page.stem.upper(), date, version)
            self.assertEqual(page.read_text(encoding="utf-8").split("\n")[0], heading)
        others = {"tools/python/pyproject.toml": 'version = "%s"', "contrib/jupyter/pyproject.toml": 'version = "%s"',
                  "contrib/emacs/aplcalc.el": ";; Version: %s"}
        for name, line in others.items():
            if (TOP / name).exists():
                self.assertIn("\n%s\n" % (line % version), (TOP / name).read_text(encoding="utf-8"), name)

    def test_the_newest_version_is_the_first_heading(self):
        versions = re.findall(r"^## (.*)$", (TOP / "CHANGELOG.md").read_text(encoding="utf-8"), re.M)
        parsed = [re.fullmatch(r"(\d+)\.(\d+)\.(\d+) \(\d{4}-\d\d-\d\d\)", version) for version in versions]
        self.assertTrue(all(parsed), versions)
        numbers = [tuple(map(int, version.groups())) for version in parsed]
        self.assertEqual(numbers, sorted(set(numbers), reverse=True))
        self.assertEqual(run(TOP / "release/version").split(), re.findall(r"[\d.-]+", versions[0]))

    def test_options_are_those_of_the_help(self):
        self.assertEqual(options_of(source_of(TOP / "tools/aplcalc.1")), options_of(run(PROGRAM, "--help")))
        if APLRUN.exists():
            self.assertEqual(options_of(source_of(TOP / "tools/aplrun.1")), options_of(run(sys.executable, APLRUN, "--help")))

    def test_examples(self):
        with tempfile.TemporaryDirectory() as name:
            folder = pathlib.Path(name)
            (folder / "session.apl").write_text("A←1\n", encoding="utf-8")
            (folder / "prices.csv").write_text("3,5\n4,6\n", encoding="utf-8")
            (folder / "aplcalc").symlink_to(PROGRAM)
            path = "%s:%s:%s" % (folder, TOP / "tools", os.environ["PATH"])
            for page in [TOP / "tools/aplcalc.1"] + [TOP / "tools/aplrun.1"] * APLRUN.exists():
                blocks = re.findall(r"\n\.EX\n(.*?)\.EE\n", source_of(page), re.S)
                self.assertTrue(blocks)
                for typed, shown in [part for block in blocks for part in re.findall(r"^\$ (.*)\n((?:(?!\$ ).*\n)*)", block, re.M)]:
                    with self.subTest(typed):
                        self.assertEqual(run("bash", "-c", typed, cwd=folder, env={**os.environ, "PATH": path, "APLCALC": PROGRAM}), shown)


class Completions(unittest.TestCase):
    """Each shell offers the words that the program has."""

    def setUp(self):
        self.options = sorted(options_of(run(PROGRAM, "--help")))

    def test_bash(self):
        offered = {("",): self.options, ("--",): self.options, ("--s",): ["--schedule"], ("--schedule", ""): RULES,
                   ("--schedule", "d"): ["deques"], ("--schedule", "="): RULES, ("--schedule", "=", "c"): ["claims"],
                   ("--workers", "2", "--p"): ["--piece"], ("--workers", "2", "--schedule", ""): RULES, ("--workers", ""): [], ("x",): []}
        for words, expected in offered.items():
            found = run("bash", "-c", BASH, "bash", COMPLETIONS / "aplcalc.bash", "aplcalc", *words).split()
            self.assertEqual(sorted(found), expected, words)

    def test_bash_has_them_for_the_command(self):
        said = run("bash", "-c", '. "$1"; complete -p aplcalc', "bash", COMPLETIONS / "aplcalc.bash")
        self.assertEqual(said, "complete -F _aplcalc aplcalc\n")

    @needs("fish")
    def test_fish(self):
        offered = {"--": self.options, "--s": ["--schedule"], "--schedule ": RULES, "--schedule d": ["deques"],
                   "--schedule=": ["--schedule=" + rule for rule in RULES], "--workers 2 --p": ["--piece"], "--workers ": [], "": []}
        with tempfile.TemporaryDirectory() as home:
            place = pathlib.Path(home) / ".local/share/fish/vendor_completions.d/aplcalc.fish"
            place.parent.mkdir(parents=True)
            place.symlink_to(COMPLETIONS / "aplcalc.fish")
            (pathlib.Path(home) / "aplcalc").symlink_to(PROGRAM)
            variables = {**os.environ, "HOME": home, "PATH": "%s:%s" % (home, os.environ["PATH"])}
            variables = {name: value for name, value in variables.items() if not name.startswith("XDG_")}
            for words, expected in offered.items():
                said = run("fish", "-c", 'complete -C "aplcalc $argv[1]"', "--", words, env=variables, cwd=home)
                self.assertEqual(sorted(line.split("\t")[0] for line in said.splitlines() if not line.startswith("-h\t")), expected, words)

    @needs("zsh")
    def test_zsh(self):
        offered = {"--s\t": "--schedule", "--schedule d\t": "--schedule deques", "--schedule=c\t": "--schedule=claims",
                   "--w\t2 --p\t3 --h\t": "--workers=2 --piece=3 --h"}
        with tempfile.TemporaryDirectory() as home:
            (pathlib.Path(home) / ".zshrc").write_text(ZSH_SETTINGS % shlex.quote(str(COMPLETIONS)), encoding="utf-8")
            variables = {**os.environ, "HOME": home, "ZDOTDIR": home, "TERM": "dumb"}
            for typed, expected in offered.items():
                said = run("zsh", "-f", "-c", ZSH, "zsh", "aplcalc " + typed, env=variables, cwd=home)
                self.assertEqual(re.findall("GOT:(.*):END", said), [expected], said)


if __name__ == "__main__":
    unittest.main()
