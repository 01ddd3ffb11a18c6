"""Readings copied through two layouts, in buffers of Python."""
import ctypes
import unittest
from array import array

from test_layout import SHEET, TWELVE, Refused

from strided import Layout, Refusal, copy

TURNED = Layout(6, 0, [2, 3], [3, 1])
STRETCHED = Layout(2, 0, [2, 3], [1, 0])


def wide(*targets):
    """Targets of which all positions stand in one cell."""
    return Layout(1, 0, [1] * len(targets), [0] * len(targets)).broadcast(targets)


class Copies(Refused):
    def test_copies(self):
        one, other = Layout(0, 7, [0, 3], [1, 1]), Layout(0, -9, [0, 3], [5, 5])
        back, behind, far = ([3], [-1]), ([3], [1]), ([3], [-3])
        low, high = -2**31, 2**31 - 1
        for source, readings, destination, before, after in [
            (SHEET, [1, 2, 3, 4, 5, 6], TURNED, [0] * 6, [1, 3, 5, 2, 4, 6]),
            (Layout(3, 2, *back), [7, 8, 9], Layout(5, 1, *behind), [-1] * 5, [-1, 9, 8, 7, -1]),
            (Layout(3, 0, *behind), [1, 2, 3], Layout(7, 6, *far), [0] * 7, [3, 0, 0, 2, 0, 0, 1]),
            (Layout(3, 2, [], []), [5, 6, 7], Layout(2, 1, [], []), [1, 1], [1, 7]),
            (STRETCHED, [4, 9], SHEET, [0] * 6, [4, 9, 4, 9, 4, 9]),
            (SHEET, [low] * 6, Layout(100, 0, [2, 3], [1, 2]), [high] * 7, [low] * 6 + [high]),
            (one, [], other, [4], [4]),
            (one, [], other, [], []),
        ]:
            out = array("i", before)
            self.assertIsNone(copy(source, array("i", readings), destination, out))
            self.assertEqual(out.tolist(), after)

    def test_refused(self):
        for number, source, readings, destination, room in [
            (12, Layout(2, 0, [2, 1], [1, 0]), 2, Layout(2, 0, [2], [1]), 2),
            (12, Layout(0, 0, [0, 3], [1, 1]), 0, Layout(0, 0, [3, 0], [1, 1]), 0),
            (13, SHEET, 6, Layout(100, 0, [2, 3], [1, 2]), 5),
            (13, Layout(100, 0, [2, 3], [1, 2]), 5, SHEET, 6),
            (13, SHEET, 6, STRETCHED, 1),
            (14, SHEET, 6, STRETCHED, 2),
            (14, Layout(3, 0, [2, 2], [1, 1]), 3, Layout(3, 0, [2, 2], [1, 1]), 3),
            (8, wide(2**32, 2**32), 1, wide(2**32, 2**32), 1),
            (14, wide(2**32, 2**32 - 1), 1, wide(2**32, 2**32 - 1), 1),
            (14, wide(2**63 + 1), 1, wide(2**63 + 1), 1),
        ]:
            out = array("i", range(-room, 0))
            self.refused(number, (), copy, source, array("i", range(readings)), destination, out)
            self.assertEqual(out.tolist(), list(range(-room, 0)))

    def test_scratch(self):
        whole = Layout(708587, 0, *zip(*TWELVE))
        readings, out = array("i", range(708587)), array("i", [-1]) * 708587
        self.refused(9, (11072,), copy, whole, readings, whole, out, scratch_words=11071)
        self.assertEqual(out.count(-1), 708587)
        copy(whole, readings, whole, out, scratch_words=11072)
        self.assertEqual(708587 - out.count(-1), 3**12)
        self.assertTrue(all(reading in (-1, place) for place, reading in enumerate(out)))
        again = Layout(708587, 0, *zip(*TWELVE[:11], (3, 177146)))
        self.refused(14, (), copy, again, readings, again, out)
        out.pop()
        self.refused(13, (), copy, whole, readings, whole, out, scratch_words=0)


class Buffers(unittest.TestCase):
    def test_of_readings(self):
        grid = ((ctypes.c_int32 * 3) * 2)()
        squares = memoryview(array("i", [1, 4, 9, 16, 25, 36]))
        for readings in (squares, squares.toreadonly(), squares.cast("B").cast("i", (3, 2))):
            ctypes.memset(grid, 0, ctypes.sizeof(grid))
            copy(SHEET, readings, TURNED, grid)
            self.assertEqual([list(row) for row in grid], [[1, 9, 25], [4, 16, 36]])

    def test_that_are_not_aligned(self):
        odd = memoryview(bytearray(25))[1:].cast("i")
        odd[:] = array("i", range(6))
        out = array("i", [0] * 6)
        copy(SHEET, odd, TURNED, out)
        self.assertEqual(out.tolist(), [0, 2, 4, 1, 3, 5])
        with self.assertRaisesRegex(ValueError, "multiples of 4 bytes"):
            copy(SHEET, out, TURNED, odd)

    def test_that_share_memory(self):
        readings = array("i", range(7))
        copy(SHEET, readings, TURNED, readings)
        self.assertEqual(readings.tolist(), [0, 2, 4, 1, 3, 5, 6])
        halves = memoryview(array("i", range(8)))
        copy(SHEET, halves[:6], TURNED, halves[2:])
        self.assertEqual(halves.tolist(), [0, 1, 0, 2, 4, 1, 3, 5])

    def test_that_are_none_of_readings(self):
        out = array("i", [0] * 6)
        for other in (array("q", out), array("f", out), array("I", out), b"readings", [0] * 6):
            self.assertRaises(TypeError, copy, SHEET, other, TURNED, out)
            self.assertRaises(TypeError, copy, SHEET, out, TURNED, other)
        self.assertRaises(TypeError, copy, SHEET, out, TURNED, memoryview(out).toreadonly())
        with self.assertRaisesRegex(ValueError, "one behind the other"):
            copy(SHEET, memoryview(array("i", range(12)))[::2], TURNED, out)
        self.assertEqual(out.tolist(), [0] * 6)

    def test_is_lent_no_longer_than_the_call(self):
        readings, out = array("i", range(6)), array("i", range(6))
        copy(SHEET, readings, TURNED, out)
        with self.assertRaises(Refusal):
            copy(SHEET, readings, STRETCHED, out)
        readings.append(6)
        out.append(6)


if __name__ == "__main__":
    unittest.main()
