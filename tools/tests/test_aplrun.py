"""aplrun: what it writes where, its exit statuses, the tables and texts that go in, and the values that come out."""
import io
import json
import os
import pathlib
import re
import shutil
import signal
import subprocess
import sys
import tempfile
import time
import unittest
from unittest import mock

from common import PROGRAM, TOP, needs

sys.path.insert(0, str(TOP / "tools" / "python"))
from aplcalc.run import main  # noqa: E402

APLRUN = TOP / "tools" / "aplrun"
BLANKS = " " * 6
LONG_WORK = "(3000 3000⍴1)+.×3000 3000⍴1"
SESSIONS = sorted([*TOP.glob("checks/sessions/*.apl"), *TOP.glob("examples/*.apl")])


def stream(data=b""):
    """A standard stream that is kept in memory."""
    return io.TextIOWrapper(io.BytesIO(data), encoding="utf-8")


def aplrun(*words, text=b"", program=PROGRAM):
    """Runs the command in this process: its status, and what it writes to standard output and standard error."""
    given = stream(text.encode() if isinstance(text, str) else text)
    answers, told = stream(), stream()
    with mock.patch.multiple(sys, stdin=given, stdout=answers, stderr=told), mock.patch.dict(os.environ, APLCALC=program):
        try:
            status = main(words)
        except SystemExit as end:
            status = end.code
    return status, whole(answers), whole(told)


def whole(written):
    written.flush()
    return written.buffer.getvalue().decode("utf-8", "surrogateescape")


class InFolder(unittest.TestCase):
    def setUp(self):
        folder = tempfile.TemporaryDirectory()
        self.addCleanup(folder.cleanup)
        self.folder = pathlib.Path(folder.name)

    def file(self, name, text):
        """A file of the folder with this text."""
        path = self.folder / name
        path.write_bytes(text if isinstance(text, bytes) else text.encode())
        return str(path)


class Sessions(InFolder):
    def test_a_session_without_a_report(self):
        path = self.file("a.apl", "A←2 3⍴⍳6\n\nA\n⍝ nothing\n+/A")
        self.assertEqual(aplrun(path), (0, "1 2 3\n4 5 6\n6 15\n", ""))

    def test_it_ends_at_the_first_report(self):
        path = self.file("a.apl", "1+1\n  1 2+1 2 3\n5\n")
        told = "%s:2: LENGTH ERROR at column 6\n        1 2+1 2 3\n           ∧\n" % path
        self.assertEqual(aplrun(path), (1, "2\n", told))

    def test_it_does_not_wait_for_lines_after_a_report(self):
        self.assertEqual(aplrun("-e", "X", "-e", LONG_WORK)[0], 1)

    def test_keep_going(self):
        told = "-e:1: VALUE ERROR at column 1\n      X\n      ∧\n-e:3: INCORRECT COMMAND\n      )Y\n"
        self.assertEqual(aplrun("--keep-going", "-e", "X", "-e", "5", "-e", ")Y", "-e", "6"), (1, "5\n6\n", told))

    def test_transcript(self):
        shown = "      A←5\n      A\n5\n      \n      A+X\nVALUE ERROR\n      A+X\n        ∧\n"
        told = "<stdin>:4: VALUE ERROR at column 3\n      A+X\n        ∧\n"
        self.assertEqual(aplrun("--transcript", text="A←5\r\nA\n\nA+X\nA\n"), (1, shown, told))

    def test_it_writes_what_the_calculator_writes(self):
        for path in SESSIONS:
            with self.subTest(session=path.name):
                wanted = subprocess.run([PROGRAM], input=path.read_bytes(), capture_output=True).stdout.decode("utf-8", "surrogateescape")
                status, transcript, told = aplrun("--keep-going", "--transcript", str(path))
                lines = [line.removesuffix("\r") for line in path.read_bytes().decode("utf-8", "surrogateescape").split("\n")]
                answers, reports = answers_of(transcript, lines)
                self.assertEqual("".join(answers), wanted)
                self.assertEqual((status, len(re.findall(r"^\S+:\d+: [A-Z ]+", told, re.MULTILINE))), (int(reports > 0), reports))

    def test_without_reports_the_output_is_the_calculators(self):
        for path in SESSIONS:
            wanted = path.with_suffix(".txt").read_text(encoding="utf-8")
            if re.search(r"ERROR$|INCORRECT|WS FULL", wanted, re.MULTILINE) is None:
                with self.subTest(session=path.name):
                    self.assertEqual(aplrun(str(path)), (0, wanted, ""))

    def test_values_that_look_like_reports_are_values(self):
        self.assertEqual(aplrun("-e", "3 12⍴'LENGTH ERROR'", "-e", "'WS FULL'"), (0, "LENGTH ERROR\n" * 3 + "WS FULL\n", ""))

    def test_off_ends_the_session(self):
        self.assertEqual(aplrun(text="1\n)OFF\nX\n"), (0, "1\n", ""))
        self.assertEqual(aplrun("--transcript", text="1\n )OFF \r\nX\n")[0:2], (0, "      1\n1\n"))
        self.assertEqual(aplrun(text=")OFF 1\n")[0], 1)

    def test_a_file_that_can_be_run_itself(self):
        path = self.file("a.apl", "#!/usr/bin/env aplrun\n1+1\n#!\n")
        os.chmod(path, 0o755)
        (self.folder / "aplrun").symlink_to(APLRUN)
        environment = {**os.environ, "APLCALC": PROGRAM, "PATH": "%s:%s" % (self.folder, os.environ["PATH"])}
        run = subprocess.run([path], capture_output=True, text=True, env=environment)
        self.assertEqual((run.returncode, run.stdout, run.stderr.split("\n")[0]), (1, "2\n", path + ":3: SYNTAX ERROR at column 1"))

    def test_bytes_that_are_no_text(self):
        told = "<stdin>:1: CHARACTER ERROR at column 2\n      1\udcff2\n       ∧\n"
        self.assertEqual(aplrun(text=b"1\xff2\n"), (1, "", told))
        self.assertEqual(aplrun("--transcript", text=b"1\xff2\n")[1], "      1\udcff2\nCHARACTER ERROR\n      1\n       ∧\n")
        self.assertEqual(aplrun(text="\ufeff1\n")[0], 1)

    def test_a_long_line_is_cut_in_the_message(self):
        told = aplrun(text="1 " * 100000 + "+1 2")[2]
        self.assertEqual(told.count("\n"), 3)
        self.assertLess(len(told), 400)
        line, caret = told.split("\n")[1:3]
        self.assertEqual(line[caret.index("∧")], "+")
        self.assertTrue(line.startswith(BLANKS + "...1 "))

    def test_empty_input(self):
        self.assertEqual(aplrun(), (0, "", ""))
        self.assertEqual(aplrun("-", text="\n"), (0, "", ""))
        self.assertEqual(aplrun("--transcript", text="\n"), (0, BLANKS + "\n", ""))

    def test_many_lines(self):
        status, answers, told = aplrun(text="".join("%d+1\n" % number for number in range(20000)))
        self.assertEqual((status, answers, told), (0, "".join("%d\n" % (number + 1) for number in range(20000)), ""))


def answers_of(transcript, lines):
    """The answers in a transcript of lines, and how many of them are reports. Each line is echoed once, and a report repeats it."""
    answers, reports = [], 0
    for place, line in enumerate(lines):
        echo = BLANKS + line + "\n"
        if not transcript:
            break
        assert transcript.startswith(echo), (transcript[:200], line)
        transcript = transcript[len(echo):]
        following = lines[place + 1] if place + 1 < len(lines) - (not lines[-1]) else None
        end = len(transcript) if following is None or line == ")OFF" else end_of_answer(transcript, line, following)
        answers.append(transcript[:end])
        reports += bool(re.match(r"([A-Z]+ ERROR\n {6}.*\n {6} *∧|INCORRECT COMMAND|WS FULL\n {6})", transcript[:end]))
        transcript = transcript[end:]
    return answers, reports


def end_of_answer(transcript, line, following):
    """Where the next line's echo begins. A report's own second line may be the same as that echo."""
    report = re.match(r"[A-Z]+ ERROR\n {6}.*\n {6} *∧\n", transcript)
    return report.end() if report else ("\n" + transcript).index("\n" + BLANKS + following + "\n")


class Data(InFolder):
    def test_tables(self):
        for name, text in (("t.csv", "1,2,3\n4,-5,¯6\n"), ("t.csv", '\ufeff"1", 2 ,3\r\n\r\n4,-5,-6'), ("t.tsv", "1\t2\t3\n4\t-5\t-6\n"),
                           ("t.json", '[[1,2,3],[4,"-5",-6]]')):
            with self.subTest(text=text):
                path = self.file(name, text)
                self.assertEqual(aplrun("--table", "T=" + path, "-e", "T", "-e", "⍴T"), (0, "1  2  3\n4 ¯5 ¯6\n2 3\n", ""))

    def test_shapes(self):
        for name, text, shape in (("t.csv", "5\n", "1 1\n"), ("t.csv", "5\n6\n", "2 1\n"), ("t.csv", "", "0 0\n"), ("t.json", "5", "\n"),
                                  ("t.json", "[5]", "1\n"), ("t.json", "[]", "0\n"), ("t.json", "[[[1],[2]]]", "1 2 1\n")):
            with self.subTest(text=text):
                self.assertEqual(aplrun("--table", "T=" + self.file(name, text), "-e", "⍴T"), (0, shape, ""))

    def test_extremes(self):
        path = self.file("t.csv", "-9223372036854775808,9223372036854775807\n9007199254740993,0005\n")
        self.assertEqual(aplrun("--table", "T=" + path, "--out", "json", "T"),
                         (0, "[[-9223372036854775808, 9223372036854775807], [9007199254740993, 5]]\n", ""))

    def test_cells_that_are_no_whole_numbers(self):
        for name, text, words in (("t.csv", "1,2\n3,4.5\n", "row 2, column 2: '4.5'"), ("t.csv", "1,2\n\n3,\n", "row 3, column 2: ''"),
                                  ("t.csv", "n,m\n1,2\n", "row 1, column 1: 'n' is no whole number"),
                                  ("t.csv", "1\n9223372036854775808\n", "row 2, column 1"), ("t.csv", "1e3\n", "row 1, column 1"),
                                  ("t.csv", "1,2\n3\n", "row 2 has 1 cells, and row 1 has 2"), ("t.csv", "٣\n", "row 1, column 1"),
                                  ("t.csv", "1_0\n", "row 1, column 1"), ("t.csv", "%s\n" % ("9" * 9999), "row 1, column 1"),
                                  ("t.tsv", "1\t2\n3\t4,5\n", "row 2, column 2: '4,5'"),
                                  ("t.json", "[[1,2],[3,4.5]]", "row 2, column 2: 4.5"),
                                  ("t.json", "[[1,true]]", "row 1, column 2: True"), ("t.json", "[[1,null]]", "row 1, column 2: None"),
                                  ("t.json", "[[1,2],[3]]", "ragged"), ("t.json", "[[1,2],3]", "ragged"),
                                  ("t.json", "[1,{}]", "item 2: {}"), ("t.json", "{}", "t.json: {}"), ("t.json", "[1", "no JSON"),
                                  ("t.json", "[" * 99999, "no JSON"), ("t.json", "[[%s]]" % ("9" * 9999), "row 1, column 1")):
            with self.subTest(text=text[:30]):
                status, answers, told = aplrun("--table", "T=" + self.file(name, text), "-e", "5")
                self.assertEqual((status, answers, told.count("\n")), (1, "", 1), told)
                self.assertIn(words, told)
                self.assertTrue(told.startswith("aplrun: " + str(self.folder)), told)

    def test_headings(self):
        path = self.file("t.csv", "item,price\n1,250\n2,480\n")
        self.assertIn("--skip 1", aplrun("--table", "T=" + path, "-e", "T")[2])
        self.assertEqual(aplrun("--table", "T=" + path, "--skip", "1", "-e", "T"), (0, "1 250\n2 480\n", ""))

    def test_texts(self):
        path = self.file("t.txt", "ONE\nIT'S A\r\n\nX")
        self.assertEqual(aplrun("--text", "T=" + path, "--out", "json", "T"), (0, '["ONE   ", "IT\'S A", "      ", "X     "]\n', ""))
        for text, shape in (("", "0 0\n"), ("\n", "1 0\n"), ("A", "1 1\n"), ("\ufeffA\nBC\n", "2 2\n")):
            with self.subTest(text=text):
                self.assertEqual(aplrun("--text", "T=" + self.file("t.txt", text), "-e", "⍴T"), (0, shape, ""))

    def test_texts_with_other_characters(self):
        for text, words in (("A\nBÉ\n", "line 2, column 2: 'É'"), ("\t", "line 1, column 1: '\\t'"), (b"AB\xff", "line 1, column 3")):
            with self.subTest(text=text):
                status, _, told = aplrun("--text", "T=" + self.file("t.txt", text), "-e", "5")
                self.assertEqual(status, 1)
                self.assertIn(words, told)

    def test_a_text_as_wide_as_the_language_goes(self):
        line = "".join(sorted(map(chr, range(0x20, 0x7F)))) + "¯×÷←↑↓∆∊∘∧∨≠≤≥⊖⊤⊥⌈⌊⌽⌿⍀⍉⍋⍒⍙⍝⍱⍲⍳⍴"
        path = self.file("t.txt", line)
        self.assertEqual(json.loads(aplrun("--text", "T=" + path, "--out", "json", "T")[1]), [line])

    def test_several_at_once(self):
        table, text = self.file("t.csv", "1,2\n"), self.file("t.txt", "AB\n")
        words = ["--table", "T=" + table, "--table", "U=" + table, "--text", "V=" + text, "-e", "T+U", "-e", "V"]
        self.assertEqual(aplrun(*words), (0, "2 4\nAB\n", ""))


class Results(InFolder):
    def test_json(self):
        for line, wanted in (("A←5", "5"), ("A←¯5 9223372036854775807", "[-5, 9223372036854775807]"), ("A←2 2⍴⍳4", "[[1, 2], [3, 4]]"),
                             ("A←2 1 2⍴⍳4", "[[[1, 2]], [[3, 4]]]"), ("A←⍳0", "[]"), ("A←2 0⍴0", "[[], []]"), ("A←'AB\"C'", '"AB\\"C"'),
                             ("A←2 2⍴'ABCD'", '["AB", "CD"]'), ("A←''", '""'), ("A←'⍴'", '"⍴"')):
            with self.subTest(line=line):
                self.assertEqual(aplrun("-e", line, "--out", "json", "A"), (0, wanted + "\n", ""))

    def test_csv_and_tsv(self):
        for line, wanted in (("A←5", "5\n"), ("A←¯5 6", "-5,6\n"), ("A←2 2⍴⍳4", "1,2\n3,4\n"), ("A←⍳0", "\n"), ("A←0 3⍴0", ""),
                             ("A←'IT''S, \"A\"'", '"IT\'S, ""A"""\n'), ("A←2 2⍴'ABCD'", "AB\nCD\n"), ("A←2 2⍴' BC '", " B\nC \n")):
            with self.subTest(line=line):
                self.assertEqual(aplrun("-e", line, "--out", "csv", "A"), (0, wanted, ""))
        self.assertEqual(aplrun("-e", "A←2 2⍴⍳4", "--out", "tsv", "A"), (0, "1\t2\n3\t4\n", ""))

    def test_what_goes_out_comes_in_again(self):
        for form in ("csv", "tsv", "json"):
            with self.subTest(form=form):
                table = aplrun("-e", "A←¯7+3 5⍴⍳15", "--out", form, "A")[1]
                path = self.file("t." + form, table)
                self.assertEqual(aplrun("--table", "B=" + path, "-e", "A←¯7+3 5⍴⍳15", "-e", "∧/∧/A=B", "-e", "⍴B"), (0, "1\n3 5\n", ""))

    def test_answers_are_not_written_and_a_transcript_goes_to_standard_error(self):
        self.assertEqual(aplrun("-e", "A←5", "-e", "A+1", "--out", "json", "A"), (0, "5\n", ""))
        self.assertEqual(aplrun("-e", "A←5", "-e", "A+1", "--transcript", "--out", "json", "A"), (0, "5\n", "      A←5\n      A+1\n6\n"))

    def test_after_off(self):
        self.assertEqual(aplrun("--out", "json", "A", text="A←5\n)OFF\nA←6\n"), (0, "5\n", ""))

    def test_no_value_is_written_after_a_report(self):
        self.assertEqual(aplrun("-e", "A←5", "-e", "X", "--out", "json", "A")[0:2], (1, ""))
        self.assertEqual(aplrun("--keep-going", "-e", "X", "-e", "A←5", "--out", "json", "A")[0:2], (1, "5\n"))

    def test_no_such_value(self):
        self.assertEqual(aplrun("--out", "json", "A"), (1, "", "aplrun: --out: A: VALUE ERROR\n"))
        self.assertIn("use json", aplrun("-e", "A←1 1 1⍴5", "--out", "csv", "A")[2])


class Usage(InFolder):
    def test_wrong_usage(self):
        path = self.file("t.txt", "")
        for words in (["--table", "T"], ["--table", "T=t.txt"], ["--table", "1=t.csv"], ["--text", "T="], ["--text", "=t"],
                      ["--skip", "-1"], ["--out", "xml", "A"], ["--out", "json", "1"], ["--out", "json"], ["--workers", "0"],
                      ["--workers", "65"], ["--piece", "x"], ["--piece", "1048577"], ["--schedule", "none"], [path, "-e", "1"],
                      [path, path], ["--nothing"], ["--trans", path]):
            with self.subTest(words=words):
                status, answers, told = aplrun(*words)
                self.assertEqual((status, answers), (2, ""))
                self.assertIn("aplrun: error: ", told)

    def test_help(self):
        status, answers, told = aplrun("--help")
        self.assertEqual((status, told), (0, ""))
        for word in ("--keep-going", "--transcript", "--table", "--text", "--out", "--skip", "--workers", "--piece", "--schedule",
                     "exit status"):
            self.assertIn(word, answers)

    def test_options_are_handed_on(self):
        echo = self.file("echo", '#!/bin/sh\necho "$@" >&2\nexit 3\n')
        os.chmod(echo, 0o755)
        told = aplrun("--workers", "2", "--piece", "7", "--schedule", "claims", "-e", "1", program=echo)[2]
        self.assertIn("--workers 2 --piece 7 --schedule claims", told)
        self.assertEqual(aplrun("--workers", "2", "--piece", "1", "--schedule", "claims", "-e", "+/⍳1000"), (0, "500500\n", ""))

    def test_files_that_cannot_be_read(self):
        for words in (["none"], [str(self.folder)], ["--table", "T=none.csv"], ["--text", "T=none"]):
            with self.subTest(words=words):
                status, answers, told = aplrun(*words)
                self.assertEqual((status, answers, told.count("\n")), (1, "", 1))
                self.assertIn(words[-1].rpartition("=")[2], told)

    def test_no_program(self):
        self.assertEqual(aplrun("-e", "1", program="/nowhere/aplcalc")[0:2], (1, ""))

    def test_several_lines_in_one(self):
        self.assertEqual(aplrun("-e", "A←5\nA", "--line=-A"), (0, "5\n¯5\n", ""))


class Ends(InFolder):
    def started(self, *lines, **streams):
        """The command in a process group of its own."""
        words = [sys.executable, str(APLRUN), *(word for line in lines for word in ("-e", line))]
        given = {"stdout": subprocess.PIPE, "stderr": subprocess.PIPE, "start_new_session": True, **streams}
        environment = {name: value for name, value in os.environ.items() if name != "PYTHONUNBUFFERED"}
        return subprocess.Popen(words, env={**environment, "APLCALC": PROGRAM}, **given)

    def test_a_reader_that_ends_early(self):
        command = self.started("1", "2000000⍴1 2 3")
        self.assertEqual(command.stdout.readline(), b"1\n")
        command.stdout.close()
        told = command.stderr.read()
        command.stderr.close()
        self.assertEqual((command.wait(), told), (141, b""))

    def test_a_full_device_for_reports(self):
        with open("/dev/full", "wb") as full:
            command = self.started("7÷2", stderr=full)
            written, _ = command.communicate(timeout=30)
        self.assertEqual((command.returncode, written), (1, b""))

    def test_a_full_device(self):
        with open("/dev/full", "wb") as full:
            command = self.started("1", stdout=full)
            _, told = command.communicate(timeout=30)
        self.assertEqual((command.returncode, told), (1, b"aplrun: writing failed: No space left on device\n"))

    def test_an_interrupt(self):
        for signalled in (os.kill, os.killpg):
            with self.subTest(signalled=signalled):
                command = self.started("1", LONG_WORK)
                self.assertEqual(command.stdout.readline(), b"1\n")
                time.sleep(0.1)
                signalled(command.pid, signal.SIGINT)
                _, told = command.communicate(timeout=30)
                self.assertEqual((command.returncode, told), (130, b""))

    def test_a_calculator_that_ends(self):
        dies = self.file("dies", "#!/bin/sh\nread line\necho no memory >&2\nexit 1\n")
        os.chmod(dies, 0o755)
        status, answers, told = aplrun("-e", "1", program=dies)
        self.assertEqual((status, answers), (1, ""))
        self.assertIn("status 1: no memory", told)


@needs("bash")
class Places(InFolder):
    """Where the command finds the module and the calculator."""

    def installed(self):
        """A folder laid out as an installation is."""
        for part in ("bin", "lib/aplcalc"):
            (self.folder / part).mkdir(parents=True)
        shutil.copy(APLRUN, self.folder / "bin")
        shutil.copytree(TOP / "tools" / "python", self.folder / "lib/aplcalc/python", ignore=shutil.ignore_patterns("__pycache__"))
        self.calculator(self.folder / "bin" / "aplcalc")

    def calculator(self, path):
        path.write_text('#!/bin/bash\necho "$0" >&2\nexec %s "$@"\n' % PROGRAM)
        path.chmod(0o755)

    def run_it(self, command, **environment):
        kept = {"PATH": "%s:/usr/bin:/bin" % pathlib.Path(sys.executable).parent, "HOME": str(self.folder), "PYTHONDONTWRITEBYTECODE": "1"}
        return subprocess.run([str(command), "-e", "2+3"], capture_output=True, text=True, env={**kept, **environment})

    def test_installed(self):
        self.installed()
        self.assertEqual(self.run_it(self.folder / "bin" / "aplrun").stdout, "5\n")
        link = self.folder / "link"
        link.symlink_to(self.folder / "bin" / "aplrun")
        self.assertEqual(self.run_it(link).stdout, "5\n")

    def test_on_the_path(self):
        (self.folder / "tools").mkdir()
        shutil.copy(APLRUN, self.folder / "tools")
        shutil.copytree(TOP / "tools" / "python", self.folder / "tools" / "python", ignore=shutil.ignore_patterns("__pycache__"))
        alone = self.run_it(self.folder / "tools" / "aplrun")
        self.assertEqual((alone.returncode, alone.stdout, alone.stderr.count("\n")), (1, "", 1))
        (self.folder / "other").mkdir()
        self.calculator(self.folder / "other" / "aplcalc")
        path = "%s:%s:/usr/bin:/bin" % (self.folder / "other", pathlib.Path(sys.executable).parent)
        self.assertEqual(self.run_it(self.folder / "tools" / "aplrun", PATH=path).stdout, "5\n")
        self.calculator(self.folder / "aplcalc")
        self.assertEqual(self.run_it(self.folder / "tools" / "aplrun").stdout, "5\n")


if __name__ == "__main__":
    unittest.main()
