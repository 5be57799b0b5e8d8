"""The page of the keys: it agrees with the files of the keys, and its commands lose nobody's settings."""
import os
import pathlib
import re
import subprocess
import tempfile
import unittest

import keys
from common import TOP

PAGE = keys.text_of("docs/KEYBOARD.md")
CONTRIB = TOP / "contrib"


def command_with(words):
    """The one command of the page that has these words in it."""
    (command,) = [line[2:] for line in PAGE.split("\n") if line.startswith("$ ") and words in line]
    return command


class Keys(unittest.TestCase):
    def test_all_files_have_the_same_symbol_on_each_key(self):
        page = keys.keys_of_keyboard_page()
        for others in (keys.keys_of_inputrc, keys.keys_of_compose, keys.keys_of_vim, keys.keys_of_emacs):
            with self.subTest(others.__name__):
                self.assertEqual(others(), page)

    def test_the_drawing_agrees_with_the_table(self):
        drawn = dict(re.findall(r"(?<=│)(\S) (\S) (?=│)", PAGE))
        self.assertEqual(drawn, keys.keys_of_keyboard_page())

    def test_the_line_to_copy_has_all_symbols_once(self):
        line = PAGE.split("```\n")[1].split()
        self.assertEqual(sorted(line), sorted(keys.keys_of_keyboard_page().values()))

    def test_the_symbols_are_those_of_the_manual(self):
        codes = re.findall(r"^\| (.*?) \| (U\+.*?) \|", keys.text_of("docs/MANUAL.md"), re.MULTILINE)
        symbols = {chr(int(code, 16)) for _, row in codes for code in re.findall(r"U\+(\w{4})", row)}
        self.assertEqual({symbol for symbol in symbols if not symbol.isascii()}, set(keys.keys_of_keyboard_page().values()))

    def test_two_backquotes_are_one_everywhere(self):
        self.assertIn('"``": self-insert\n', keys.text_of("contrib/inputrc"))
        self.assertIn("\n`` ` ", keys.text_of("contrib/vim/keymap/aplcalc.vim"))
        self.assertIn('("``" ?`)', keys.text_of("contrib/emacs/aplcalc.el"))


class Commands(unittest.TestCase):
    def setUp(self):
        folder = tempfile.TemporaryDirectory()
        self.addCleanup(folder.cleanup)
        self.home = pathlib.Path(folder.name)

    def run_commands(self, *commands):
        environment = {**os.environ, "HOME": str(self.home), "FILES": str(CONTRIB)}
        for command in commands:
            subprocess.run(["bash", "-c", command], cwd=TOP, env=environment, check=True)

    def lines(self, name):
        return [line for line in (self.home / name).read_text(encoding="utf-8").split("\n") if line]

    def test_inputrc_if_it_is_new(self):
        commands = [command_with("echo '$include /etc/inputrc'"), command_with('inputrc" >> ~')]
        self.run_commands(*commands, *commands)
        self.assertEqual(self.lines(".inputrc"), ["$include /etc/inputrc", "$include %s/inputrc" % CONTRIB])

    def test_inputrc_that_has_settings(self):
        (self.home / ".inputrc").write_text("set editing-mode vi")
        commands = [command_with("echo '$include /etc/inputrc'"), command_with('inputrc" >> ~')]
        self.run_commands(*commands, *commands)
        self.assertEqual(self.lines(".inputrc"), ["set editing-mode vi", "$include %s/inputrc" % CONTRIB])

    def test_compose_keeps_what_is_there(self):
        mine = '<Multi_key> <o> <o> : "o"'
        (self.home / ".XCompose").write_text(mine)
        self.run_commands(command_with(">> ~/.XCompose"), command_with(">> ~/.XCompose"))
        self.assertEqual(self.lines(".XCompose"), [mine, 'include "%s/XCompose"' % CONTRIB])

    def test_vim_keeps_what_is_there(self):
        (self.home / ".vim" / "syntax").mkdir(parents=True)
        (self.home / ".vim" / "syntax" / "mine.vim").write_text("mine")
        self.run_commands(command_with("mkdir -p ~/.vim"), command_with("cp -r contrib/vim/."))
        names = {str(path.relative_to(self.home / ".vim")) for path in self.home.rglob("*.vim") if path.is_file()}
        ours = {folder + "/aplcalc.vim" for folder in ("ftdetect", "ftplugin", "keymap", "syntax")}
        self.assertEqual(names, ours | {"syntax/mine.vim"})

    def test_the_rows_of_a_table_are_joined(self):
        (self.home / "prices.csv").write_text("31,-4,15\r\n9,26,5\r\n")
        command = command_with("prices.csv |").replace("prices.csv", "~/prices.csv")
        environment = {**os.environ, "HOME": str(self.home), "LC_ALL": "C.UTF-8"}
        run = subprocess.run(["bash", "-c", command], env=environment, capture_output=True, check=True)
        self.assertEqual(run.stdout.decode().strip(), "31 ¯4 15 9 26 5")


if __name__ == "__main__":
    unittest.main()
