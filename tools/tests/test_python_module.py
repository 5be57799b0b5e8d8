"""The Python module: values go in and come back as they were, reports are told from values, and each way to misuse it has its error."""
import contextlib
import math
import os
import random
import signal
import subprocess
import sys
import tempfile
import threading
import time
import unittest

from common import PROGRAM, TOP, pythons_with_numpy

sys.path.insert(0, str(TOP / "tools" / "python"))
import aplcalc  # noqa: E402
from aplcalc import CHARACTERS, NUMBERS, AplError, Calculator, ConversionError, Value, report_of  # noqa: E402
from aplcalc.reports import ALPHABET, BLANKS  # noqa: E402

SEED = 20240229
LEAST, GREATEST = -9223372036854775808, 9223372036854775807
LONG_WORK = "(3000 3000⍴1)+.×3000 3000⍴1"


def random_shape(chance, rank, is_empty):
    """A shape of a small number of elements, or of none."""
    shape = [chance.choice([1, 1, 1, 2, 3]) for _ in range(rank)]
    if rank < 3 and not is_empty:
        shape = [chance.randint(1, 70) for _ in range(rank)]
    if is_empty and rank:
        shape[chance.randrange(rank)] = 0
    return tuple(shape)


def random_value(chance, rank, is_empty):
    """An array of either kind."""
    shape = random_shape(chance, rank, is_empty)
    count = math.prod(shape)
    if chance.random() < 0.5:
        return Value(shape, CHARACTERS, "".join(chance.choices(sorted(ALPHABET), k=count)))
    edges = [LEAST, LEAST + 1, -1, 0, 1, GREATEST - 1, GREATEST]
    return Value(shape, NUMBERS, [chance.choice(edges) if chance.random() < 0.3 else chance.randint(-999, 999) for _ in range(count)])


WITH_NUMPY = pythons_with_numpy()


class WithCalculator(unittest.TestCase):
    def setUp(self):
        self.apl = Calculator(PROGRAM)
        self.addCleanup(self.apl.close)

    def refused(self, line):
        """The report of a line."""
        with self.assertRaises(AplError) as caught:
            self.apl(line)
        return caught.exception


class RoundTrips(WithCalculator):
    def test_arrays_of_every_rank_and_kind(self):
        chance = random.Random(SEED)
        for width in (120, 30, 130):
            self.apl(")WIDTH %d" % width)
            for rank in range(16):
                for is_empty in (False, False, True):
                    value = random_value(chance, rank, is_empty)
                    with self.subTest(width=width, value=value):
                        self.apl["A"] = value
                        self.assertEqual(self.apl.value("A"), value)
                        self.assertEqual(self.apl("⍴A"), list(value.shape))

    def test_friendly_values_are_assigned_as_they_were_read(self):
        for value in (7, 0, LEAST, GREATEST, [], [5], [1, -2], "", "A", "IT'S", [[1, 2, 3], [4, 5, 6]], [[], []], ["AB", "CD"], ["", ""],
                      [["AB", "CD"], ["EF", "GH"]], [[[1], [2]], [[3], [4]]], "⍝ not a comment", " ", "'" * 200, " " * 200):
            with self.subTest(value=value):
                self.apl["A"] = value
                self.assertEqual(self.apl["A"], value)

    def test_values_of_expressions(self):
        for line, value in (("+/⍳10", 55), ("(A←5)", 5), ("A←5", None), ("A", 5), ("'A'", "A"), (",'A'", "A"), ("2 2⍴'ABCD'", ["AB", "CD"]),
                            ("⍳0", []), ("''", ""), ("0 3⍴0", []), ("2 0⍴0", [[], []]), ("2 0⍴' '", ["", ""]), (" ", None), ("⍝ A", None),
                            ("A[1]", None), (")WIDTH 130", "WAS 120"), (")ORIGIN 0", "WAS 1"), ("⍳3", [0, 1, 2]), (")CLEAR", "CLEAR WS")):
            with self.subTest(line=line):
                if line == "A[1]":
                    self.assertEqual(self.refused(line).kind, "RANK ERROR")
                else:
                    self.assertEqual(self.apl(line), value)

    def test_shape_and_kind_are_exact_where_python_has_one_value_for_two(self):
        for line, value in (("'A'", Value((), CHARACTERS, "A")), (",'A'", Value((1,), CHARACTERS, "A")), ("⍳0", Value((0,), NUMBERS, [])),
                            ("''", Value((0,), CHARACTERS, "")), ("0 3⍴0", Value((0, 3), NUMBERS, [])),
                            ("0 3⍴' '", Value((0, 3), CHARACTERS, "")), ("3 0⍴5", Value((3, 0), NUMBERS, [])),
                            ("1 1⍴¯5", Value((1, 1), NUMBERS, [-5]))):
            with self.subTest(line=line):
                self.assertEqual(self.apl.value(line), value)

    def test_what_python_types_become(self):
        for given, value in ((True, Value((), NUMBERS, [1])), ((1, 2), Value((2,), NUMBERS, [1, 2])),
                             (range(3), Value((3,), NUMBERS, [0, 1, 2])), ([True, 7], Value((2,), NUMBERS, [1, 7])),
                             ("A", Value((1,), CHARACTERS, "A")), (["A"], Value((1, 1), CHARACTERS, "A"))):
            with self.subTest(given=given):
                self.apl["A"] = given
                self.assertEqual(self.apl.value("A"), value)

    def test_a_million_numbers(self):
        given = [(place * 2654435761 * 2654435769) % (1 << 64) - (1 << 63) for place in range(1000000)]
        self.apl["A"] = given
        self.assertEqual(self.apl("⍴A"), [1000000])
        self.assertEqual(self.apl["A"], given)

    def test_an_expression_is_evaluated_once_and_names_are_left_alone(self):
        self.apl["A"] = [1, 2]
        self.assertEqual(self.apl("⍴A←A,3"), [3])
        self.assertEqual(self.apl.value("(A←A,4)").ravel, [1, 2, 3, 4])
        self.assertEqual(self.apl("A"), [1, 2, 3, 4])


class Reports(WithCalculator):
    LINES = (("1 2+1 2 3", "LENGTH ERROR", 3), ("(2 2⍴0)+1 2", "RANK ERROR", 7), ("7÷2", "DOMAIN ERROR", 1), ("2*63", "LIMIT ERROR", 1),
             ("9223372036854775808", "LIMIT ERROR", 0), ("(⍳3)[4]", "INDEX ERROR", 4), ("TOTAL", "VALUE ERROR", 0),
             ("2+TOTAL", "VALUE ERROR", 2), ("3+", "SYNTAX ERROR", 1), ("(1+2", "SYNTAX ERROR", 0), ("1)", "SYNTAX ERROR", 0),
             ("  1)", "SYNTAX ERROR", 2), ("←5", "SYNTAX ERROR", 0), ("[1]←5", "SYNTAX ERROR", 0), ("3←4", "SYNTAX ERROR", 0),
             ("1 ¯ 2", "SYNTAX ERROR", 2), ("'AB", "SYNTAX ERROR", 0), ("A←", "SYNTAX ERROR", 1), ("A[1]←5", "VALUE ERROR", 0),
             ("É", "CHARACTER ERROR", 0), ("1 ⍝ É", "CHARACTER ERROR", 4), ("⍝ É", "CHARACTER ERROR", 2),
             (")CLEAR É", "CHARACTER ERROR", 7), ("A←'É'", "CHARACTER ERROR", 3), ("1+1\t", "CHARACTER ERROR", 3),
             (")FOO", "INCORRECT COMMAND", None), (" ) ", "INCORRECT COMMAND", None), (")WIDTH 7", "INCORRECT COMMAND", None),
             ("B←5+÷0×C←4", "DOMAIN ERROR", 4))

    def test_kind_line_and_column(self):
        for line, kind, column in self.LINES:
            with self.subTest(line=line):
                error = self.refused(line)
                self.assertEqual((error.kind, error.line, error.column), (kind, line, column))

    def test_a_report_is_as_the_calculator_writes_it(self):
        for line, _, _ in self.LINES:
            with self.subTest(line=line):
                self.assertEqual(str(self.refused(line)) + "\n", self.apl.text(line))
                self.assertEqual(str(report_of(line, self.apl.text(line))) + "\n", self.apl.text(line))

    def test_every_line_of_the_sessions_is_refused_where_the_calculator_refuses_it(self):
        for path in sorted([*TOP.glob("checks/sessions/*.apl"), *TOP.glob("examples/*.apl")]):
            lines = path.read_bytes().decode("utf-8", "surrogateescape").split("\n")
            with self.subTest(session=path.name), Calculator(PROGRAM) as apl, Calculator(PROGRAM) as other:
                for line in lines:
                    given, wanted = catch(apl, line), report_of(line, other.text(line))
                    self.assertEqual(str(given) if isinstance(given, AplError) else None, str(wanted) if wanted else None)
                    if other.is_over:
                        break

    def test_a_carriage_return_at_the_end_is_no_part_of_the_line(self):
        error = self.refused("1 2+1 2 3\r")
        self.assertEqual((error.line, error.column), ("1 2+1 2 3", 3))

    def test_bytes_that_are_no_text(self):
        error = self.refused("1+\udcff")
        self.assertEqual((error.kind, error.column), ("CHARACTER ERROR", 2))

    def test_names_get_their_values_as_far_as_the_line_went(self):
        self.refused("B←5+÷0×C←4")
        self.assertEqual(self.apl["C"], 4)
        self.assertEqual(self.refused("B").kind, "VALUE ERROR")

    def test_values_that_look_like_reports(self):
        for line in ("3 12⍴'LENGTH ERROR'", "'VALUE ERROR'", "'WS FULL'", "'INCORRECT COMMAND'", "1 7⍴'WS FULL'"):
            with self.subTest(line=line):
                self.assertIsNone(report_of(line, self.apl.text(line)))
                self.assertIn(line.rpartition("⍴")[2].strip("'"), (self.apl(line), self.apl(line)[0]))

    def test_a_value_that_is_written_just_like_a_report(self):
        self.apl["A"] = ["VALUE ERROR", "      ⍉⍉⍉⍉A", "          ∧"]
        self.assertEqual(self.apl("⍉⍉⍉⍉A"), ["VALUE ERROR", "      ⍉⍉⍉⍉A", "          ∧"])

    def test_texts_that_are_nearly_reports(self):
        for text in ("LENGTH ERROR\n      1 2+1 2 3\n         ∧ \n", "LENGTH ERROR\n     1 2+1 2 3\n         ∧\n",
                     "LENGTH ERROR\n      1 2+1 2 3\n", "LENGTH ERROR\n      1 2+1 2 3\n               ∧\n",
                     "LENGTH  ERROR\n      1 2+1 2 3\n         ∧\n", "LENGTH ERROR\n      1 2+1 2\n         ∧\n",
                     "CHARACTER ERROR\n      1 2+1 2 3\n               ∧\n", "WS FULL\n      1 2+1 2\n", "WS FULL\n",
                     "INCORRECT COMMAND\n", ""):
            with self.subTest(text=text):
                self.assertIsNone(report_of("1 2+1 2 3", text))

    def test_out_of_memory(self):
        with limited_memory(), Calculator(PROGRAM, workers=1) as apl:
            with self.assertRaises(AplError) as caught:
                apl("+/(30000⍴1)∘.+⍳30000")
            self.assertEqual((caught.exception.kind, caught.exception.column), ("WS FULL", None))
            self.assertEqual(str(caught.exception), "WS FULL\n" + BLANKS + "+/(30000⍴1)∘.+⍳30000")
            self.assertEqual(apl("2+3"), 5)


@contextlib.contextmanager
def limited_memory():
    """Programs that are started meanwhile get two gigabytes of room."""
    import resource

    before = resource.getrlimit(resource.RLIMIT_AS)
    resource.setrlimit(resource.RLIMIT_AS, (2 << 30, before[1]))
    try:
        yield
    finally:
        resource.setrlimit(resource.RLIMIT_AS, before)


class Refusals(WithCalculator):
    def test_values_that_no_array_can_hold(self):
        cyclic = []
        cyclic.append(cyclic)
        for given, words in ((1.5, "1.5, is no whole number"), ([1, 2.0], "item 1"), ([[1, 2], [3]], "ragged"), ([1, [2]], "ragged"),
                             (["AB", "C"], "lengths"), ([1, "A"], "'A', is no whole number"), ("É", "'É'"), ("A\nB", r"'\n'"),
                             (GREATEST + 1, "is not from"), ([0, LEAST - 1], "item 1"), (10 ** 5000, "is not from"), (None, "None"),
                             ({}, "{}"), (b"AB", "b'AB'"), (cyclic, "at most 15 axes"),
                             (Value((1,) * 16, NUMBERS, [1]), "at most 15 axes"), (Value((2,), NUMBERS, [1]), "2 elements"),
                             (Value((2,), NUMBERS, "AB"), "'A'"), (Value((1,), CHARACTERS, [1]), "list"),
                             (Value((-1,), NUMBERS, []), "length"), (Value((0, 1 << 31), NUMBERS, []), "length"),
                             (Value((1,), "bits", [1]), "bits")):
            with self.subTest(words=words):
                with self.assertRaisesRegex(ConversionError, ".*") as caught:
                    self.apl["A"] = given
                self.assertIn(words, str(caught.exception))
        self.assertEqual(self.refused("A").kind, "VALUE ERROR")

    def test_names_and_lines(self):
        for name in ("", "1A", "A B", "A-B", "_A", "É", "A\n", 5):
            with self.subTest(name=name), self.assertRaises(aplcalc.InvalidName):
                self.apl[name] = 1
        for line in ("1\n2", "\ud800"):
            with self.subTest(line=line), self.assertRaises(aplcalc.InvalidLine):
                self.apl(line)
        for line in ("A←5", "", ")CLEAR"):
            with self.subTest(line=line), self.assertRaises(aplcalc.InvalidLine):
                self.apl.value(line)
        self.assertEqual(self.apl("2+3"), 5)

    def test_all_errors_have_one_base(self):
        for name in ("AplError", "Busy", "ConversionError", "InvalidLine", "InvalidName", "ProgramEnded", "ProgramMissing", "SessionOver",
                     "TimedOut"):
            self.assertTrue(issubclass(getattr(aplcalc, name), aplcalc.CalculatorError))


class Lives(unittest.TestCase):
    def test_after_off(self):
        apl = Calculator(PROGRAM)
        self.assertIsNone(apl(")OFF"))
        for use in (lambda: apl("1"), lambda: apl.text("1"), lambda: apl["A"], lambda: list(apl.texts(["1"])), lambda: apl.value("1")):
            self.assertRaisesRegex(aplcalc.SessionOver, "OFF", use)
        self.assertTrue(apl.is_over)
        self.assertEqual(apl.close(), 0)
        self.assertEqual(apl.close(), 0)

    def test_after_close(self):
        with Calculator(PROGRAM) as apl:
            apl["A"] = 1
        self.assertRaisesRegex(aplcalc.SessionOver, "closed", apl, "A")

    def test_the_program_was_killed(self):
        apl = Calculator(PROGRAM)
        self.addCleanup(apl.close)
        apl.kill()
        with self.assertRaises(aplcalc.ProgramEnded) as caught:
            apl("1")
        self.assertEqual(caught.exception.status, -signal.SIGKILL)
        self.assertRaises(aplcalc.SessionOver, apl, "1")

    def test_killed_in_the_middle_of_a_call(self):
        apl = Calculator(PROGRAM)
        self.addCleanup(apl.close)
        timer = threading.Timer(0.2, apl.kill)
        timer.start()
        self.addCleanup(timer.join)
        self.assertRaises(aplcalc.ProgramEnded, apl, LONG_WORK)

    def test_the_program_refuses_an_option(self):
        with Calculator(PROGRAM, workers=65) as apl:
            with self.assertRaises(aplcalc.ProgramEnded) as caught:
                apl("1")
        self.assertEqual(caught.exception.status, 2)
        self.assertIn("--workers", str(caught.exception))

    def test_no_program(self):
        with tempfile.TemporaryDirectory() as folder:
            for program in (folder, folder + "/none"):
                self.assertRaisesRegex(aplcalc.ProgramMissing, folder, Calculator, program)

    def test_options_are_handed_on(self):
        with Calculator(PROGRAM, workers=2, piece=1, schedule="claims") as apl:
            self.assertEqual(apl("+/⍳1000"), 500500)

    def test_the_variable_names_the_program(self):
        command = "import aplcalc\nwith aplcalc.Calculator() as apl: print(apl('2+3'))"
        environment = {"APLCALC": PROGRAM, "PYTHONPATH": str(TOP / "tools" / "python"), "PATH": "/usr/bin:/bin",
                       "PYTHONDONTWRITEBYTECODE": "1"}
        run = subprocess.run([sys.executable, "-c", command], env=environment, capture_output=True, text=True)
        self.assertEqual((run.stdout, run.stderr), ("5\n", ""))

    def test_timeouts(self):
        for given in ({"timeout": 0.1}, {}):
            with self.subTest(given=given):
                apl = Calculator(PROGRAM, **given)
                self.addCleanup(apl.close)
                self.assertRaises(aplcalc.TimedOut, apl, LONG_WORK, None if given else 0.1)
                self.assertRaisesRegex(aplcalc.SessionOver, "too long", apl, "1")

    def test_a_second_thread(self):
        apl = Calculator(PROGRAM)
        self.addCleanup(apl.close)
        ended = []
        first = threading.Thread(target=lambda: ended.append(catch(apl, LONG_WORK)))
        first.start()
        self.addCleanup(first.join)
        wait_until(apl._turn.locked)
        for use in (lambda: apl("1"), lambda: apl.text("1"), lambda: apl.close(), lambda: apl["A"], lambda: next(apl.texts(["1"]))):
            self.assertRaises(aplcalc.Busy, use)
        apl.kill()
        first.join()
        self.assertIsInstance(ended[0], aplcalc.ProgramEnded)

    def test_threads_one_after_the_other(self):
        answers = []
        with Calculator(PROGRAM) as apl:
            for number in range(3):
                thread = threading.Thread(target=lambda: answers.append(apl("%d+%d" % (number, number))))
                thread.start()
                thread.join()
        self.assertEqual(answers, [0, 2, 4])

    def test_an_interrupted_call_ends_the_session(self):
        command = ("import aplcalc, os, signal, threading\napl = aplcalc.Calculator()\n"
                   "threading.Timer(0.3, os.kill, [os.getpid(), signal.SIGINT]).start()\n"
                   "try: apl(%r)\nexcept KeyboardInterrupt: print('interrupted')\n"
                   "try: apl('1')\nexcept aplcalc.SessionOver as error: print(error)\n" % LONG_WORK)
        environment = {**os.environ, "APLCALC": PROGRAM, "PYTHONPATH": str(TOP / "tools" / "python")}
        run = subprocess.run([sys.executable, "-c", command], env=environment, capture_output=True, text=True, timeout=30)
        self.assertEqual(run.stdout, "interrupted\nthe session was ended, since a call was broken off\n")

    def test_a_process_is_not_left_behind(self):
        with Calculator(PROGRAM) as apl:
            apl("1")
            process = apl._process
        self.assertEqual(process.poll(), 0)


def catch(call, *arguments):
    """The error that a call raises."""
    try:
        return call(*arguments)
    except aplcalc.CalculatorError as error:
        return error


def wait_until(condition):
    for _ in range(1000):
        if condition():
            return
        time.sleep(0.01)
    raise AssertionError("waited in vain")


class Streams(WithCalculator):
    def test_texts(self):
        self.assertEqual(list(self.apl.texts(["⍳3", "A←5", "A", "B", ""])), ["1 2 3\n", "", "5\n", "VALUE ERROR\n      B\n      ∧\n", ""])
        self.assertEqual(self.apl("A"), 5)

    def test_texts_end_with_off(self):
        self.assertEqual(list(self.apl.texts(["1", ")OFF", "2"])), ["1\n", ""])
        self.assertRaises(aplcalc.SessionOver, self.apl, "1")

    def test_texts_that_are_left_end_the_session(self):
        texts = self.apl.texts("1" for _ in range(100000))
        self.assertEqual(next(texts), "1\n")
        texts.close()
        self.assertRaises(aplcalc.SessionOver, self.apl, "1")

    def test_long_lines_with_long_answers(self):
        ones = "1 " * 500000
        self.assertEqual(self.apl.text(ones + "+").count("1"), 500000)
        texts = list(self.apl.texts([ones] * 4))
        self.assertEqual([text.count("1") for text in texts], [500000] * 4)

    def test_many_lines(self):
        texts = self.apl.texts("%d+%d" % (number, number) for number in range(20000))
        self.assertEqual(list(texts), ["%d\n" % (2 * number) for number in range(20000)])


class Numpy(unittest.TestCase):
    @unittest.skipUnless(WITH_NUMPY, "no Python here has numpy")
    def test_numpy(self):
        words = [WITH_NUMPY[0], "-B", "-m", "unittest", "-q", "numpy_arrays"]
        run = subprocess.run(words, cwd=TOP / "tools" / "tests", capture_output=True, text=True, env={**os.environ, "APLCALC": PROGRAM})
        self.assertEqual(run.returncode, 0, run.stderr)
        self.assertIn("Ran 4 tests", run.stderr)


if __name__ == "__main__":
    unittest.main()
