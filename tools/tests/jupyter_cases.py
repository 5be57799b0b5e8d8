"""What the Jupyter kernel answers, by jupyter_client. test_jupyter.py runs these tests, with all folders of Jupyter in a temporary one."""
import contextlib
import io
import json
import os
import pathlib
import re
import shlex
import shutil
import signal
import subprocess
import sys
import tempfile
import threading
import time
import unittest
from unittest import mock

from jupyter_client.manager import start_new_kernel
from pygments.lexers import get_lexer_by_name
from pygments.token import Error

from common import PROGRAM, TOP

CLONE = TOP / "contrib" / "jupyter"
sys.path.insert(0, str(CLONE))
from aplcalc_kernel.__main__ import main  # noqa: E402
from aplcalc_kernel.kernel import Cell  # noqa: E402
from aplcalc_kernel.symbols import SYMBOLS  # noqa: E402

BLANKS = " " * 6
LONG_LINE = "(2000 2000⍴⍳7)+.⌈2000 2000⍴⍳11"
SECONDS = 30
COLOUR = re.compile("\x1b\\[[0-9;]*m")


def setUpModule():
    """Starts a kernel whose calculator notes its process."""
    folder = tempfile.TemporaryDirectory()
    unittest.addModuleCleanup(folder.cleanup)
    KernelCase.noted = pathlib.Path(folder.name) / "pid"
    program = pathlib.Path(folder.name) / "aplcalc"
    program.write_text("#!/bin/sh\necho $$ > %s\nexec %s \"$@\"\n" % (shlex.quote(str(KernelCase.noted)), shlex.quote(PROGRAM)))
    program.chmod(0o755)
    subprocess.run([sys.executable, "-m", "aplcalc_kernel", "install"], cwd=CLONE, check=True, env={**os.environ, "APLCALC": str(program)},
                   stdout=subprocess.DEVNULL)
    KernelCase.manager, KernelCase.client = start_new_kernel(kernel_name="aplcalc")
    unittest.addModuleCleanup(KernelCase.manager.shutdown_kernel)
    unittest.addModuleCleanup(KernelCase.client.stop_channels)


class KernelCase(unittest.TestCase):
    """Tests of one kernel, whose session is new for each test."""

    def setUp(self):
        self.run_cell(")CLEAR")

    def run_cell(self, code, when_written=None):
        """How a cell ends, and its outputs as a notebook keeps them. While the kernel still refuses cells after an error, this waits.

        when_written is called when the cell has written something to the standard output.
        """
        outputs = []

        def keep(message):
            content = message["content"]
            if message["msg_type"] == "stream" and when_written is not None:
                when_written()
            if message["msg_type"] == "stream" and outputs and outputs[-1].get("name") == content["name"]:
                outputs[-1]["text"] += content["text"]
            elif message["msg_type"] in ("stream", "error"):
                outputs.append({"output_type": message["msg_type"], **content})

        while True:
            reply = self.client.execute_interactive(code, output_hook=keep, timeout=SECONDS, allow_stdin=False)["content"]
            if reply["status"] != "aborted":
                return reply["status"], outputs
            time.sleep(0.05)

    def text_of(self, code):
        """All that a cell writes, without colours."""
        return "".join(text_of_output(output) for output in self.run_cell(code)[1])

    def calculator(self):
        """The calculator's process."""
        return int(self.noted.read_text())

    def asked(self, request, *words):
        return getattr(self.client, request)(*words, reply=True, timeout=SECONDS)["content"]

    def restart(self):
        self.manager.restart_kernel(now=False)
        self.client.wait_for_ready(timeout=SECONDS)


def text_of_output(output):
    return COLOUR.sub("", "\n".join(output["traceback"]) + "\n" if output["output_type"] == "error" else "".join(output["text"]))


def answers(lines):
    """What the calculator writes for each of the lines of a session. A line of a text after each one tells where that ends."""
    mark = "the answer ends here"
    session = "".join("%s\n'%s'\n" % (line, mark) for line in lines)
    written = subprocess.run([PROGRAM], input=session, capture_output=True, encoding="utf-8", timeout=SECONDS, check=True).stdout
    return written.split(mark + "\n")[:-1]


class Command(unittest.TestCase):
    """The command python3 -m aplcalc_kernel."""

    def setUp(self):
        folder = tempfile.TemporaryDirectory()
        self.addCleanup(folder.cleanup)
        self.folder = pathlib.Path(folder.name)
        self.variables = {"JUPYTER_DATA_DIR": str(self.folder / "data"), "APLCALC": PROGRAM}

    def run_command(self, *words):
        """The status, what was written, and what was complained of."""
        with contextlib.redirect_stdout(io.StringIO()) as out, contextlib.redirect_stderr(io.StringIO()) as complaint:
            with mock.patch.dict(os.environ, self.variables):
                status = main(list(words))
        return status, out.getvalue(), complaint.getvalue()

    def test_installs_and_removes(self):
        for words, place, name in (([], "data", "aplcalc"), (["--user", "--name", "apl-2"], "data", "apl-2"),
                                   (["--prefix", str(self.folder / "all")], "all/share/jupyter", "aplcalc")):
            kernel = self.folder / place / "kernels" / name
            for _ in range(2):
                self.assertEqual(self.run_command("install", *words)[:2], (0, "the kernel %s is in %s\n" % (name, kernel)))
            spec = json.loads((kernel / "kernel.json").read_text(encoding="utf-8"))
            self.assertEqual(spec["argv"], [sys.executable, "-Xfrozen_modules=off", "-m", "aplcalc_kernel", "start", "-f",
                                            "{connection_file}"])
            self.assertEqual(spec["env"], {"PYTHONSAFEPATH": "1", "PYTHONPATH": str(CLONE), "APLCALC": PROGRAM})
            command = "uninstall" if words else "remove"
            self.assertEqual(self.run_command(command, *words), (0, "removed %s\n" % kernel, ""))
            self.assertFalse(kernel.exists())

    def test_keeps_the_path_of_modules_that_it_was_installed_with(self):
        with mock.patch.dict(self.variables, {"PYTHONPATH": "one:" + str(CLONE)}):
            self.run_command("install")
        spec = json.loads((self.folder / "data" / "kernels" / "aplcalc" / "kernel.json").read_text(encoding="utf-8"))
        self.assertEqual(spec["env"]["PYTHONPATH"], "%s:%s" % (CLONE, os.path.abspath("one")))

    def test_leaves_other_kernels_alone(self):
        other = self.folder / "data" / "kernels" / "python3" / "kernel.json"
        other.parent.mkdir(parents=True)
        other.write_text('{"argv": ["python3", "-m", "ipykernel_launcher"]}')
        for words in (["install", "--name", "python3"], ["remove", "--name", "python3"], ["remove"], ["install", "--name", "a b"]):
            status, out, complaint = self.run_command(*words)
            self.assertEqual((status, out), (1, ""))
            self.assertRegex(complaint, "^aplcalc_kernel: .*\n$")
        self.assertEqual([path.name for path in other.parent.parent.iterdir()], ["python3"])

    def test_installs_nothing_that_could_not_answer(self):
        for program in (str(self.folder / "none"), shutil.which("true"), shutil.which("cat")):
            with mock.patch.dict(self.variables, APLCALC=program):
                status, out, complaint = self.run_command("install")
            self.assertEqual((status, out), (1, ""))
            self.assertRegex(complaint, "^aplcalc_kernel: .*\n$")
            self.assertEqual(list(self.folder.iterdir()), [])


class Cells(KernelCase):
    """Cells with what they write, worked out by hand."""

    ROWS = [
        ("2+3", "5\n"),
        ("A←5", ""),
        ("", ""),
        ("⍝ nothing", ""),
        ("⍝ a sum\n\n2+3", "5\n"),
        ("A←1 2\nA,3\n+/A", "      A,3\n1 2 3\n      +/A\n3\n"),
        ("''", "\n"),
        ("2+3\r", "5\n"),
        (")ORIGIN 0\n⍳3", "      )ORIGIN 0\nWAS 1\n      ⍳3\n0 1 2\n"),
        ("3 12⍴'LENGTH ERROR'", "LENGTH ERROR\nLENGTH ERROR\nLENGTH ERROR\n"),
    ]
    REFUSED = [
        ("1 2+1 2 3\n4", "LENGTH ERROR", "LENGTH ERROR\n      1 2+1 2 3\n         ∧\n"),
        ("A←7\nA\nB\nA←8", "VALUE ERROR", "      A\n7\nVALUE ERROR\n      B\n      ∧\n"),
        ("'é'", "CHARACTER ERROR", "CHARACTER ERROR\n      '\n       ∧\n"),
        (")origin 0\n2", "INCORRECT COMMAND", "INCORRECT COMMAND\n"),
        ("'AB", "SYNTAX ERROR", "SYNTAX ERROR\n      'AB\n      ∧\n"),
    ]

    def test_answers(self):
        for code, text in self.ROWS:
            with self.subTest(code):
                self.run_cell(")CLEAR")
                status, outputs = self.run_cell(code)
                self.assertEqual((status, "".join(map(text_of_output, outputs))), ("ok", text))

    def test_a_report_ends_its_cell(self):
        for code, kind, text in self.REFUSED:
            with self.subTest(code):
                self.run_cell(")CLEAR")
                status, outputs = self.run_cell(code)
                self.assertEqual((status, outputs[-1]["ename"], "".join(map(text_of_output, outputs))), ("error", kind, text))

    def test_the_caret_and_the_heading_are_red(self):
        _, (output,) = self.run_cell("7÷2")
        self.assertEqual(output["traceback"], ["\x1b[1;31mDOMAIN ERROR\x1b[0m", "      7÷2", "       \x1b[1;31m∧\x1b[0m"])

    def test_a_report_ends_the_cells_that_wait(self):
        # The first cell takes so long that the second one waits for it.
        sent = [self.client.execute(code) for code in ("A←(1000 1000⍴1)⌈.+1000 1000⍴1\nA←1 2+3 4 5", "A←6")]
        replies = {}
        while len(replies) < 2:
            message = self.client.get_shell_msg(timeout=SECONDS)
            replies[message["parent_header"]["msg_id"]] = message["content"]["status"]
        self.assertEqual([replies[one] for one in sent], ["error", "aborted"])

    def test_the_example_of_the_page(self):
        page = (TOP / "docs" / "NOTEBOOKS.md").read_text(encoding="utf-8")
        cell, shown = re.search(r"```\n(T←.*?\n)```\n.*?```\n(.*?)```\n", page, re.S).groups()
        self.assertEqual(self.text_of(cell), shown)

    def test_the_lexer_of_pages_knows_every_symbol(self):
        lexer = get_lexer_by_name(self.asked("kernel_info")["language_info"]["pygments_lexer"])
        for symbol in SYMBOLS:
            text = "'a'" if symbol.character == "'" else "A" + symbol.character
            self.assertNotIn(Error, [kind for kind, _ in lexer.get_tokens(text)], symbol.character)

    def test_a_line_is_whole(self):
        for code in ("'AB", "2+", "(", ""):
            self.client.is_complete(code)
            self.assertEqual(self.client.get_shell_msg(timeout=SECONDS)["content"], {"status": "complete"})


class Notebooks(KernelCase):
    """Each cell writes the calculator's own answers to its lines, and the notebook has them."""

    def test_first_half_hour(self):
        self.try_notebook("first_half_hour")

    def test_tables(self):
        self.try_notebook("tables")

    def try_notebook(self, name):
        notebook = json.loads((TOP / "examples" / (name + ".ipynb")).read_text(encoding="utf-8"))
        cells = [cell for cell in notebook["cells"] if cell["cell_type"] == "code"]
        self.assertGreater(len(cells), 15)
        written = iter(answers([line for cell in cells for line in "".join(cell["source"]).split("\n")]))
        for cell in cells:
            lines = "".join(cell["source"]).split("\n")
            is_refused = "raises-exception" in cell["metadata"].get("tags", [])
            expected = self.shown([(line, next(written)) for line in lines], is_refused)
            with self.subTest(cell["id"]):
                status, outputs = self.run_cell("".join(cell["source"]))
                self.assertEqual(status, "error" if is_refused else "ok")
                self.assertEqual("".join(map(text_of_output, outputs)), expected)
                self.assertEqual([{**output, **({"text": "".join(output["text"])} if "text" in output else {})}
                                  for output in cell["outputs"]], outputs)

    @staticmethod
    def shown(answered, is_refused):
        """What a cell of these lines and answers writes; the last answer is a report where the cell is refused."""
        has_several = sum(bool(line) and not line.startswith("⍝") for line, _ in answered) > 1
        reports = 1 if is_refused else 0
        values = answered[:len(answered) - reports]
        said = ["%s%s\n%s" % (BLANKS, line, answer) if answer and has_several else answer for line, answer in values]
        return "".join(said + [answer for _, answer in answered[len(values):]])


class Keys(KernelCase):
    """What Tab and Shift-Tab answer."""

    def test_tab_makes_a_symbol_of_every_key_and_of_every_name(self):
        for symbol in SYMBOLS:
            typed = ["`" + symbol.key] * bool(symbol.key) + ["\\" + name for name in symbol.names]
            for text in typed:
                reply = self.asked("complete", "A+" + text + "B", 2 + len(text))
                self.assertEqual((reply["matches"], reply["cursor_start"], reply["cursor_end"]), ([symbol.character], 2, 2 + len(text)))

    def test_tab_offers_all_that_fit_and_names_that_have_values(self):
        self.run_cell("RATES←1 2\nRATIO←3\nRATIO[1]←4")
        self.assertEqual(self.asked("complete", "2×RA", 4)["matches"], ["RATES", "RATIO"])
        self.assertEqual(self.asked("complete", "\\ro", 3)["matches"], ["⌽", "⊖"])
        reply = self.asked("complete", "\\take", 5)
        self.assertEqual(reply["metadata"]["_jupyter_types_experimental"], [{"start": 0, "end": 5, "text": "↑", "type": "take"}])

    def test_shift_tab_tells_of_symbols_and_names(self):
        self.run_cell("T←2 3⍴⍳6\nBIG←⍳1000\nV←7")
        for code, cursor, found in (("2 3⍴1", 4, "one argument: shape\ntwo arguments: reshape"), ("⍴T", 2, "T  shape 2 3\n1 2 3\n4 5 6\n"),
                                    ("⍴T", 0, "U+2374 APL FUNCTIONAL SYMBOL RHO"), ("V", 1, "V  one element\n7\n"),
                                    ("+/BIG", 4, "BIG  shape 1000\n"), ("3∈T", 2, "not a symbol of the language")):
            with self.subTest(code):
                reply = self.asked("inspect", code, cursor)
                self.assertTrue(reply["found"])
                self.assertIn(found, reply["data"]["text/plain"])
        for code, cursor in (("NONE", 2), ("", 0), ("12", 1)):
            self.assertFalse(self.asked("inspect", code, cursor)["found"])


class Endings(KernelCase):
    """Interrupt, restart, )OFF, and a calculator that is ended from outside."""

    def test_an_interrupt_keeps_the_names(self):
        self.run_cell(")ORIGIN 0\nA←1 2 3\nA[0]←9\nC←4")
        first = self.calculator()
        interrupt = threading.Timer(0.5, self.manager.interrupt_kernel)
        begun = time.monotonic()
        status, outputs = self.run_cell("(C←5)\nC←%s\nC←6" % LONG_LINE, interrupt.start)
        self.assertLess(time.monotonic() - begun, 10)
        self.assertEqual(status, "error")
        self.assertEqual("".join(map(text_of_output, outputs)),
                         "      (C←5)\n5\nINTERRUPTED\n      C←%s\nThe names have the values from before this line.\n" % LONG_LINE)
        self.assertEqual(self.text_of("A,C,⍳2"), "9 2 3 5 0 1\n")
        self.assertNotEqual(self.calculator(), first)
        self.assertRaises(ProcessLookupError, os.kill, first, 0)

    def test_an_interrupt_of_nothing_changes_nothing(self):
        self.run_cell("A←3")
        first = self.calculator()
        self.manager.interrupt_kernel()
        time.sleep(0.2)
        self.assertEqual(self.text_of("A"), "3\n")
        self.assertEqual(self.calculator(), first)

    def test_a_second_interrupt_gives_the_names_up(self):
        kernel = mock.Mock(is_over=False, execution_count=1)
        kernel.calculator.restore.side_effect = KeyboardInterrupt
        reply = Cell(kernel, "A", silent=False).broken_off("INTERRUPTED", "      A")
        self.assertEqual((reply["status"], reply["traceback"][1:]), ("error", ["      A", "No name has a value now."]))
        kernel.calculator.end.assert_called_once_with()

    def test_off_ends_the_session_and_the_next_cell_says_so(self):
        self.assertEqual(self.run_cell("A←3\n)OFF\nA"), ("ok", []))
        status, outputs = self.run_cell("2+2\n3+3")
        self.assertEqual((status, [output["name"] for output in outputs]), ("ok", ["stderr", "stdout"]))
        self.assertEqual(outputs[0]["text"], "The session before had ended. This is a new one: no name has a value.\n")
        self.assertEqual(outputs[1]["text"], "      2+2\n4\n      3+3\n6\n")
        self.assertEqual(self.text_of("A"), "VALUE ERROR\n      A\n      ∧\n")

    def test_a_calculator_that_was_ended(self):
        self.run_cell("A←3")
        os.kill(self.calculator(), signal.SIGKILL)
        status, (output,) = self.run_cell("A←4\nA")
        self.assertEqual((status, output["ename"]), ("error", "NO ANSWER"))
        self.assertEqual(self.text_of("A"), "3\n")

    def test_restart_forgets(self):
        self.run_cell(")ORIGIN 0\nA←3")
        first = self.calculator()
        self.restart()
        self.assertEqual(self.text_of("⍳2"), "1 2\n")
        self.assertEqual(self.text_of("A"), "VALUE ERROR\n      A\n      ∧\n")
        self.assertRaises(ProcessLookupError, os.kill, first, 0)

    def test_restart_breaks_off_a_line(self):
        self.client.execute(LONG_LINE)
        time.sleep(0.3)
        begun = time.monotonic()
        first = self.calculator()
        self.restart()
        self.assertLess(time.monotonic() - begun, 10)
        self.assertEqual(self.text_of("2+3"), "5\n")
        self.assertRaises(ProcessLookupError, os.kill, first, 0)
