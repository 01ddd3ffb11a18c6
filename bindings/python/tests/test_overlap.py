"""The verdict of arrays, without NumPy: buffers of Python, and objects that describe an array."""
import array
import ctypes
import unittest

from strided import Axis, Layout, Refusal, UnevenStride, Verdict, judge, overlap
from strided._arrays import element_axes, memory_of

CODES = [("b", 1), ("h", 2), ("i", 4), ("q", 8), ("d", 8)]
# The strides, in bytes, of an array of twelve axes of extent 3 whose verdict needs scratch.
TWELVE = [2 * 3**power for power in range(11)] + [3**11]


class Described:
    """An array that says where its elements lie, and has none."""

    def __init__(self, shape, strides, typestr="|u1"):
        self.__array_interface__ = {
            "version": 3,
            "shape": shape,
            "strides": strides,
            "typestr": typestr,
            "data": (0, True),
        }


class Buffers(unittest.TestCase):
    def test_buffers_of_python(self):
        grid = ((ctypes.c_int32 * 4) * 3)()
        for buffer in [
            b"readings",
            bytearray(8),
            b"",
            array.array("d", range(9)),
            array.array("i"),
            grid,
            ctypes.c_double(),
            memoryview(b"readings")[::-2],
            memoryview(array.array("h", range(9)))[1:8:3],
            memoryview(bytes(24)).cast("B", (2, 3, 4)),
        ]:
            self.assertIs(overlap(buffer), Verdict.DISTINCT, buffer)
        self.assertEqual(element_axes(memory_of(grid)), [Axis(3, 4), Axis(4, 1)])
        for code, size in CODES:
            view = memoryview(array.array(code, range(9)))[::-2]
            self.assertEqual(memory_of(view), ((5,), (-2 * size,), size))

    def test_no_array(self):
        for other in ([1, 2], 3, "text"):
            self.assertRaises(TypeError, overlap, other)


class Interface(unittest.TestCase):
    def test_verdicts(self):
        for shape, strides, typestr, verdict in [
            ((3, 4), (16, 4), "<i4", Verdict.DISTINCT),
            ((3, 4), (8, 4), "<i4", Verdict.REPEATED),
            ((3, 4), (4, 12), "<i4", Verdict.DISTINCT),
            ((3, 4), (-16, -4), "<i4", Verdict.DISTINCT),
            ((3, 4), (0, 4), "<i4", Verdict.REPEATED),
            ((1, 4), (0, 4), "<i4", Verdict.DISTINCT),
            ((0, 4), (0, 0), "<i4", Verdict.DISTINCT),
            ((3, 4), None, "<i4", Verdict.DISTINCT),
            ((), None, "<f8", Verdict.DISTINCT),
            ((1449,) * 4, range(10**10, 10**10 + 4), "|u1", Verdict.UNDECIDED),
            ((2, 2, 2), (16, 24, 40), "<f8", Verdict.REPEATED),
            ((5, 5), (0, 0), "|V0", Verdict.DISTINCT),
        ]:
            found = overlap(Described(shape, strides, typestr))
            self.assertIs(found, verdict, (shape, strides, typestr))

    def test_normal_form_of_the_transpose_may_be_decided(self):
        strides = [8000014000, 4000007, 8000006000, 4000003]
        self.assertIs(overlap(Described((2000,) * 4, strides)), Verdict.UNDECIDED)
        transpose = Layout.of(Described((2000,) * 4, strides[::-1]))
        self.assertIs(transpose.normal_form().verdict(), Verdict.DISTINCT)

    def test_item_sizes(self):
        for typestr, size in [
            ("|b1", 1),
            (">f8", 8),
            ("<c16", 16),
            ("<M8[ns]", 8),
            ("|S3", 3),
            ("<U5", 20),
            ("|V12", 12),
            ("|O", 8),
        ]:
            memory = memory_of(Described((2, 3), None, typestr))
            self.assertEqual(memory, ((2, 3), (3 * size, size), size))
        for typestr in ("|t4", "f8 ", "|V", ""):
            self.assertRaises(ValueError, overlap, Described((2, 3), None, typestr))

    def test_uneven_strides(self):
        with self.assertRaises(UnevenStride) as caught:
            overlap(Described((3, 4), (20, 5), "<i4"))
        uneven = caught.exception
        self.assertEqual((uneven.axis, uneven.stride, uneven.item_size), (1, 5, 4))
        self.assertEqual(
            str(uneven),
            "axis 1 has a stride of 5 bytes, no multiple of the item size 4; "
            "judge([*zip(shape, strides), (itemsize, 1)]) asks of bytes",
        )
        self.assertIs(judge([*zip((3, 4), (20, 5)), (4, 1)])[0], Verdict.DISTINCT)
        self.assertIs(judge([*zip((3, 4), (20, 3)), (4, 1)])[0], Verdict.REPEATED)
        # No element depends on these strides.
        self.assertIs(overlap(Described((1, 4), (3, 4), "<i4")), Verdict.DISTINCT)
        self.assertIs(overlap(Described((0, 4), (3, 5), "<i4")), Verdict.DISTINCT)

    def test_refused(self):
        for shape, strides, number in [
            ((1,) * 17, None, 1),
            ((1,) * 17, (1,) * 17, 1),
            ((2**32, 2**32), (1, 2**32), 8),
            ((2, 2), (2**62, 2**62), 3),
        ]:
            with self.assertRaises(Refusal) as caught:
                overlap(Described(shape, strides))
            self.assertEqual(caught.exception.number, number)
        with self.assertRaises(Refusal) as caught:
            overlap(Described((3,) * 12, TWELVE), scratch_words=100)
        self.assertEqual(caught.exception.values, (11072,))
        self.assertIs(overlap(Described((3,) * 12, TWELVE)), Verdict.DISTINCT)


class LayoutOf(unittest.TestCase):
    def test_shortest_buffer(self):
        rows = Layout.of(Described((3, 4), (-32, 8), "<f8"))
        self.assertEqual(rows, Layout(12, 8, [3, 4], [-4, 1]))
        self.assertEqual(Layout.of(memoryview(b"readings")[::-2]), Layout(7, 6, [4], [-2]))
        self.assertEqual(Layout.of(Described((2, 0), (7, 3), "<f8")), Layout(0, 0, [2, 0], [0, 0]))
        self.assertEqual(Layout.of(ctypes.c_double()), Layout(1, 0, [], []))
        self.assertRaises(ValueError, Layout.of, Described((2,), (0,), "|V0"))
        self.assertRaises(UnevenStride, Layout.of, Described((2,), (3,), "<i2"))


if __name__ == "__main__":
    unittest.main()
