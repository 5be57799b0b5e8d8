"""Arrays of numpy in the Python module; test_python_module runs these by a Python that has numpy."""
import random

import numpy
from test_python_module import GREATEST, LEAST, SEED, ConversionError, WithCalculator, random_value


class NumpyArrays(WithCalculator):
    def test_round_trips(self):
        chance = random.Random(SEED)
        for rank in range(16):
            for is_empty in (False, True):
                given = random_value(chance, rank, is_empty).numpy()
                with self.subTest(rank=rank, is_empty=is_empty):
                    self.apl["A"] = given
                    read = self.apl.array("A")
                    self.assertEqual((read.shape, read.dtype), (given.shape, given.dtype))
                    numpy.testing.assert_array_equal(read, given)

    def test_kinds_of_numbers(self):
        for kind in ("i1", "i2", "i4", "i8", "u1", "u2", "u4", "u8", "?", ">i4"):
            with self.subTest(kind=kind):
                self.apl["A"] = numpy.array([[0, 1], [1, 1]], dtype=kind)
                self.assertEqual(self.apl["A"], [[0, 1], [1, 1]])
        self.apl["A"] = numpy.arange(6).reshape(2, 3).T[::-1]
        self.assertEqual(self.apl["A"], [[2, 5], [1, 4], [0, 3]])
        self.apl["A"] = numpy.int64(-7)
        self.assertEqual(self.apl["A"], -7)
        self.apl["A"] = numpy.array(["AB ", "C D"])
        self.assertEqual(self.apl["A"], ["AB ", "C D"])

    def test_extremes(self):
        self.assertEqual(self.apl.array("9223372036854775807 ¯9223372036854775808").tolist(), [GREATEST, LEAST])
        self.apl["A"] = numpy.array([GREATEST, LEAST])
        self.assertEqual(self.apl["A"], [GREATEST, LEAST])

    def test_refusals(self):
        for given in (numpy.zeros(3), numpy.array([1 << 63], dtype="u8"), numpy.array(1j), numpy.array(["AB", "C"]), numpy.array([None]),
                      numpy.zeros((1,) * 16, dtype="i8"), numpy.float64(1)):
            with self.subTest(given=given), self.assertRaises(ConversionError):
                self.apl["A"] = given
