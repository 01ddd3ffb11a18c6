"""Means of readings along an axis, of lists and of buffers of Python."""
import ctypes
import unittest
from array import array

from test_copy import STRETCHED, wide
from test_layout import SHEET, Refused

from strided import Layout

FACES = [105, 106, -104, -105, 220, 220]
LOW, HIGH = -2**31, 2**31 - 1


class Means(Refused):
    def test_means(self):
        cube = Layout(24, 0, [2, 3, 4], [12, 4, 1])
        for layout, axis, readings, means in [
            (SHEET, 0, FACES, [106, -105, 220]),
            (SHEET, 1, FACES, [74, 74]),
            (cube, 0, range(24), [6, 10, 14, 7, 11, 15, 8, 12, 16, 9, 13, 17]),
            (cube, 1, range(24), [4, 16, 5, 17, 6, 18, 7, 19]),
            (cube, 2, range(24), [2, 14, 6, 18, 10, 22]),
            (Layout(6, 5, [2, 3], [-1, -2]), 0, FACES, [220, -105, 106]),
            (Layout(4, 1, [3], [1]), 0, [90, 1, 2, 2], [2]),
            (STRETCHED, 0, [-1, -2], [-2] * 3),
            (STRETCHED, 1, [-1, -2], [-1, -2]),
            (wide(65536), 0, [LOW], [LOW]),
            (wide(65536), 0, [HIGH], [HIGH]),
            (Layout(0, 7, [2, 0], [1, 1]), 0, [], []),
        ]:
            self.assertEqual(layout.means(axis, list(readings)), array("i", means))
            out = array("i", [-9] * (len(means) + 2))
            self.assertEqual(layout.means(axis, array("i", readings), out), len(means))
            self.assertEqual(out.tolist(), means + [-9, -9])

    def test_rounded_once(self):
        for readings, mean in [
            ([1, 0], 1),
            ([-1, 0], -1),
            ([3, 0], 2),
            ([-3, 0], -2),
            ([LOW, HIGH], -1),
            ([HIGH, HIGH - 1], HIGH),
            ([LOW, LOW + 1], LOW),
            ([1, 0, 0], 0),
            ([-1, 0, 0], 0),
            ([-1, -1, 0], -1),
            ([HIGH] * 4, HIGH),
            ([LOW] * 5, LOW),
            ([1, 2, 2, 1], 2),
            ([-1, -2, -2, -1], -2),
        ]:
            row = Layout(len(readings), 0, [len(readings)], [1])
            self.assertEqual(row.means(0, readings).tolist(), [mean])

    def test_refused(self):
        none_along = Layout(0, 0, [0, 3], [1, 1])
        none_and_many = Layout(0, 0, [0, 2**32, 2**32], [1, 1, 1])
        for number, values, layout, axis, readings, room in [
            (5, (2, 2), SHEET, 2, 0, 0),
            (5, (2**64 - 1, 2), SHEET, 2**64 - 1, 0, 0),
            (5, (0, 0), Layout(1, 0, [], []), 0, 1, 1),
            (8, (), wide(2, 2**32, 2**32), 0, 0, 0),
            (8, (), none_and_many, 0, 0, 0),
            (13, (), wide(2**32, 2, 2**31), 0, 0, 0),
            (13, (), Layout(100, 0, [2, 3], [1, 2]), 0, 5, 2),
            (10, (3,), SHEET, 0, 6, 2),
            (10, (2**33,), wide(2**32, 2, 2**32), 0, 1, 5),
            (10, (3,), none_along, 0, 0, 2),
            (15, (), none_along, 0, 0, 3),
            (15, (), Layout(0, 0, [0, 0], [1, 1]), 0, 0, 0),
            (16, (), none_and_many, 1, 0, 0),
            (16, (), wide(65537), 0, 1, 1),
        ]:
            out = array("i", range(-room, 0))
            self.refused(number, values, layout.means, axis, array("i", range(readings)), out)
            self.assertEqual(out.tolist(), list(range(-room, 0)))
            if number != 10:
                self.refused(number, values, layout.means, axis, [0] * readings)

    def test_more_means_than_memory(self):
        self.assertRaises(MemoryError, wide(2, 2**63).means, 0, [5])
        self.assertRaises(MemoryError, wide(2, 2**64 - 1).means, 0, [5])

    def test_axis_is_a_number_from_0(self):
        for axis in (-1, 2**64):
            self.assertRaises(OverflowError, SHEET.means, axis, FACES)
        self.assertRaises(TypeError, SHEET.means, 0.0, FACES)
        self.assertRaises(TypeError, SHEET.means, None, FACES)


class Buffers(unittest.TestCase):
    def test_of_readings(self):
        faces = memoryview(array("i", FACES))
        rows = faces.cast("B").cast("i", (3, 2))
        for readings in (faces, faces.toreadonly(), rows, tuple(FACES)):
            self.assertEqual(SHEET.means(0, readings).tolist(), [106, -105, 220])
            grid = ((ctypes.c_int32 * 2) * 2)()
            self.assertEqual(SHEET.means(0, readings, grid), 3)
            self.assertEqual([list(row) for row in grid], [[106, -105], [220, 0]])

    def test_that_share_memory(self):
        readings = array("i", FACES)
        self.assertEqual(SHEET.means(0, readings, readings), 3)
        self.assertEqual(readings.tolist(), [106, -105, 220, -105, 220, 220])

    def test_that_are_none_of_readings(self):
        out = array("i", [7] * 6)
        for other in (array("q", out), array("f", out), b"readings", range(6), 7, None):
            self.assertRaises(TypeError, SHEET.means, 0, other)
            self.assertRaises(TypeError, SHEET.means, 0, other, out)
            if other is not None:
                self.assertRaises(TypeError, SHEET.means, 0, FACES, other)
        self.assertRaises(TypeError, SHEET.means, 0, FACES, [7] * 6)
        self.assertRaises(TypeError, SHEET.means, 0, [7.0] * 6)
        self.assertRaises(OverflowError, SHEET.means, 0, [HIGH + 1] * 6)
        self.assertRaises(TypeError, SHEET.means, 0, FACES, memoryview(out).toreadonly())
        with self.assertRaisesRegex(ValueError, "one behind the other"):
            SHEET.means(0, memoryview(array("i", range(12)))[::2])
        self.assertEqual(out.tolist(), [7] * 6)

    def test_is_lent_no_longer_than_the_call(self):
        readings, out = array("i", FACES), array("i", [0] * 3)
        SHEET.means(0, readings, out)
        means = SHEET.means(0, readings)
        for lent in (readings, out, means):
            lent.append(6)


if __name__ == "__main__":
    unittest.main()
