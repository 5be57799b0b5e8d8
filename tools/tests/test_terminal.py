"""The command apl, as a person meets it: sessions at a terminal that tmux draws, without rlwrap, and without a terminal."""
import itertools
import os
import pathlib
import shutil
import subprocess
import tempfile
import time
import unittest

from common import PROGRAM, TOP, needs
from keys import keys_of_keyboard_page

APL = TOP / "tools" / "apl"
CONTRIB = TOP / "contrib"
SECONDS = 8
# What apl calls, but for rlwrap.
CALLED = "bash env readlink dirname locale grep sed sort mktemp rm mkdir stty cat".split()


class Screen:
    """A terminal of tmux with a shell that runs a command and then tells its status."""

    def __init__(self, socket, command, environment):
        self.tmux = ["tmux", "-S", str(socket), "-f", "/dev/null"]
        shell = "trap : INT; %s; echo status $?; cat >/dev/null" % command
        self.call("new-session", "-d", "-x", "100", "-y", "40", "env", "-i", *environment, "bash", "-c", shell)

    def call(self, *words, text=""):
        environment = {**os.environ, "LC_ALL": "C.UTF-8"}
        run = subprocess.run(
            self.tmux + list(words), input=text, encoding="utf-8", capture_output=True, timeout=SECONDS, check=True, env=environment
        )
        return run.stdout

    def close(self):
        self.call("kill-server")

    def lines(self):
        """The lines that are not empty."""
        return [line for line in self.call("capture-pane", "-p").split("\n") if line]

    def wait(self, what, is_so):
        end = time.monotonic() + SECONDS
        while not is_so():
            if time.monotonic() > end:
                raise AssertionError("%s is not shown in %r" % (what, self.lines()))
            time.sleep(0.02)

    def wait_for(self, front):
        """What is shown, when a line begins so."""
        self.wait(repr(front), lambda: any(line.startswith(front) for line in self.lines()))
        return self.lines()

    def wait_for_prompt(self):
        self.wait("a prompt", lambda: self.call("display-message", "-p", "#{cursor_x}") == "6\n")

    def write(self, text):
        self.call("send-keys", "-l", text)

    def type(self, text, key="Enter"):
        self.write(text)
        self.press(key)

    def press(self, *keys):
        self.call("send-keys", *keys)

    def paste(self, text):
        self.call("load-buffer", "-", text=text)
        self.call("paste-buffer", "-p")


class Terminal(unittest.TestCase):
    """A temporary folder with an empty home."""

    def setUp(self):
        self.numbers = itertools.count()
        # (a session that is ended may still write its history)
        folder = tempfile.TemporaryDirectory(ignore_cleanup_errors=True)
        self.addCleanup(folder.cleanup)
        self.folder = pathlib.Path(folder.name)
        self.home = self.folder / "home"
        self.home.mkdir()

    def environment(self, **changes):
        variables = {"HOME": str(self.home), "APLCALC": PROGRAM, "LC_ALL": "C.UTF-8", "PATH": os.environ["PATH"], **changes}
        return {name: value for name, value in variables.items() if value is not None}

    def open(self, command=APL, **changes):
        """A terminal in which a command was started."""
        words = ["%s=%s" % pair for pair in self.environment(TERM="screen", **changes).items()]
        screen = Screen(self.folder / ("socket%d" % next(self.numbers)), command, words)
        self.addCleanup(screen.close)
        return screen

    def start(self, command=APL, **changes):
        """A session that is ready for a line, under rlwrap in a terminal."""
        screen = self.open(command, **changes)
        screen.wait_for_prompt()
        return screen

    def path_without_rlwrap(self):
        folder = self.folder / "without"
        folder.mkdir()
        for name in CALLED:
            (folder / name).symlink_to(shutil.which(name))
        return str(folder)

    def files_at_home(self):
        return [str(path.relative_to(self.home)) for path in self.home.rglob("*") if path.is_file()]

    def run_apl(self, *words, text="", **changes):
        """How apl ends without a terminal."""
        return subprocess.run(
            [str(APL), *words], input=text, capture_output=True, timeout=SECONDS, encoding="utf-8", env=self.environment(**changes)
        )


@needs("tmux", "rlwrap")
class Sessions(Terminal):
    def test_each_key_and_the_pair_of_backquotes(self):
        keys = keys_of_keyboard_page()
        screen = self.start()
        screen.type("'" + "".join("`" + key for key in keys) + "``b```b'")
        symbols = "".join(keys.values()) + "`b`⊥"
        self.assertEqual(screen.wait_for(symbols), ["      '%s'" % symbols, symbols])

    def test_a_session_looks_like_the_manual(self):
        screen = self.start()
        screen.type("A`[1 2 3")
        screen.wait_for_prompt()
        screen.type("A+1 2")
        screen.wait_for("       ∧")
        screen.type("+/`i30000000")
        screen.wait_for("450000015000000")
        screen.type(")OFF")
        self.assertEqual(
            screen.wait_for("status"),
            ["      A←1 2 3", "      A+1 2", "LENGTH ERROR", "      A+1 2", "       ∧", "      +/⍳30000000", "450000015000000"]
            + ["      )OFF", "status 0"],
        )

    def test_lines_that_are_pasted_are_answered_in_turn(self):
        screen = self.start()
        screen.paste("B←5\n1 2 3\nB\n2×")
        screen.type("4")
        self.assertEqual([line.strip() for line in screen.wait_for("8")], ["B←5", "1 2 3", "1 2 3", "B", "5", "2×4", "8"])

    def test_tab_completes_a_command(self):
        screen = self.start()
        screen.type(")W", "Tab")
        screen.type("60")
        self.assertEqual(screen.wait_for("WAS"), ["      )WIDTH 60", "WAS 120"])

    def test_the_history_and_nothing_else_is_written(self):
        screen = self.start()
        screen.type("1 2 3+4")
        screen.wait_for("5 6 7")
        screen.press("C-d")
        screen.wait_for("status 0")
        self.assertEqual(self.files_at_home(), [".local/state/aplcalc/history"])
        screen = self.start(XDG_STATE_HOME=str(self.home / ".local" / "state"))
        screen.press("Up")
        screen.type("0")
        self.assertEqual(screen.wait_for("41 42 43"), ["      1 2 3+40", "41 42 43"])

    def test_a_history_that_can_not_be_written_is_told(self):
        (self.folder / "file").write_text("")
        screen = self.start(XDG_STATE_HOME=str(self.folder / "file"))
        screen.wait_for("apl: no history is kept: the folder %s/aplcalc" % (self.folder / "file"))
        screen.type("2+3")
        screen.wait_for("5")
        self.assertEqual(self.files_at_home(), [])

    def test_your_settings_are_read_and_kept(self):
        settings = self.home / ".inputrc"
        settings.write_text('"\\C-g": "6×7"\n', encoding="utf-8")
        screen = self.start()
        screen.press("C-g", "Enter")
        self.assertEqual(screen.wait_for("42"), ["      6×7", "42"])
        self.assertEqual(settings.read_text(encoding="utf-8"), '"\\C-g": "6×7"\n')

    def test_inputrc_names_your_settings(self):
        settings = self.folder / "my settings"
        settings.write_text('"\\C-g": "6×7"\n', encoding="utf-8")
        screen = self.start("INPUTRC='%s' %s" % (settings, APL))
        screen.press("C-g", "Enter")
        screen.wait_for("42")

    def test_a_control_c_ends_the_session(self):
        screen = self.start()
        screen.write("half a line")
        screen.wait_for("      half a line")
        screen.press("C-c")
        self.assertEqual(screen.wait_for("status"), ["      half a line", "status 130"])

    def test_the_status_of_the_program_is_kept(self):
        program = self.folder / "program"
        program.write_text("#!/bin/sh\nread line\nexit 7\n")
        program.chmod(0o755)
        screen = self.start(APLCALC=str(program))
        screen.type("2+3")
        screen.wait_for("status 7")

    def test_a_wrong_option_is_refused_at_a_terminal(self):
        self.assertEqual(self.open("%s --workers 0" % APL).wait_for("status")[-1], "status 2")

    def test_another_locale_is_told(self):
        screen = self.start(LC_ALL=None)
        screen.wait_for("apl: your locale is not UTF-8, so this session uses LC_ALL=C.UTF-8.")
        screen.type("2`-3")
        screen.wait_for("      2×3")
        screen.wait_for("6")

    def test_a_terminal_that_rlwrap_can_not_edit_on(self):
        screen = self.open("TERM=dumb %s" % APL)
        screen.type("2+3")
        self.assertEqual(screen.wait_for("5"), ["2+3", "5"])

    def test_installed_and_called_by_a_link(self):
        prefix = self.folder / "prefix"
        for source, place in ((APL, "bin"), (PROGRAM, "bin"), (CONTRIB / "inputrc", "share/aplcalc"), (CONTRIB / "words", "share/aplcalc")):
            (prefix / place).mkdir(parents=True, exist_ok=True)
            shutil.copy(source, prefix / place)
        (self.folder / "link").symlink_to(prefix / "bin" / "apl")
        screen = self.start(self.folder / "link", APLCALC=None)
        screen.type("2`-3")
        self.assertEqual(screen.wait_for("6"), ["      2×3", "6"])


class Plain(Terminal):
    @needs("tmux")
    def test_a_missing_rlwrap_is_told(self):
        screen = self.open("%s 2>%s/told" % (APL, self.folder), PATH=self.path_without_rlwrap())
        screen.type("2+3")
        screen.wait_for("5")
        screen.type(")OFF")
        self.assertEqual(screen.wait_for("status"), ["2+3", "5", ")OFF", "status 0"])
        told = (self.folder / "told").read_text()
        for command in ("apt install rlwrap", "dnf install rlwrap", "pacman -S rlwrap", "brew install rlwrap"):
            self.assertIn(command, told)
        self.assertEqual(self.files_at_home(), [])

    def test_without_a_terminal_it_is_the_calculator(self):
        run = self.run_apl("--workers", "2", "--schedule", "claims", text="2+3 4 5\n", PATH=self.path_without_rlwrap())
        self.assertEqual((run.stdout, run.stderr, run.returncode), ("5 6 7\n", "", 0))
        self.assertEqual(self.files_at_home(), [])

    def test_a_wrong_option_is_refused(self):
        run = self.run_apl("--piece", "none")
        self.assertEqual((run.stdout, run.returncode), ("", 2))
        self.assertIn("--piece", run.stderr)

    def test_help_tells_its_own_and_the_options_of_the_calculator(self):
        for word in ("--help", "-h"):
            run = self.run_apl(word)
            self.assertEqual((run.returncode, run.stderr), (0, ""))
            for part in ("Usage: apl [OPTIONS]", "rlwrap", "--workers <N>", "--piece <N>", "--schedule <RULE>", "history"):
                self.assertIn(part, run.stdout)

    def test_missing_files_are_named(self):
        alone = self.folder / "bin" / "apl"
        alone.parent.mkdir()
        shutil.copy(APL, alone)
        run = subprocess.run([str(alone)], input="", capture_output=True, timeout=SECONDS, encoding="utf-8", env=self.environment())
        self.assertEqual((run.stdout, run.returncode), ("", 1))
        self.assertIn("share/aplcalc/inputrc is not found", run.stderr)
        run = self.run_apl(APLCALC=str(self.folder / "nothing"))
        self.assertEqual((run.stdout, run.returncode), ("", 1))
        self.assertIn("nothing is not found", run.stderr)


if __name__ == "__main__":
    unittest.main()
