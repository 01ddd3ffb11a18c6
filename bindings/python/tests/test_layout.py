"""Layouts: check-in, views, the verdict, the normal form, the record."""
import copy
import dataclasses
import pickle
import unittest

from strided import Axis, Layout, Refusal, Verdict, judge, step_over, validate_bounds
from strided import column_strides, index_order, row_strides

SHEET = Layout(6, 0, [2, 3], [1, 2])
# Twelve axes of extent 3: too many difference vectors for the search; the verdict needs scratch.
TWELVE = [(3, 2 * 3**power) for power in range(11)] + [(3, 3**11)]
APART = [(1449, 10**10 + more) for more in range(4)]


class Refused(unittest.TestCase):
    def refused(self, number, values, call, *arguments, **named):
        """Holds a call to a refusal, and returns it."""
        with self.assertRaises(Refusal) as caught:
            call(*arguments, **named)
        self.assertEqual((caught.exception.number, caught.exception.values), (number, values))
        return caught.exception


class CheckIn(Refused):
    def test_accepted(self):
        self.assertEqual((SHEET.length, SHEET.offset, SHEET.rank), (6, 0, 2))
        self.assertEqual(SHEET.axes, (Axis(2, 1), Axis(3, 2)))
        self.assertEqual(Layout(3, 2, [3], [-1]).offset_at([2]), 0)
        self.assertEqual(Layout(1, 0, [], []).axes, ())
        self.assertEqual(Layout(0, -5, (0,), iter([9])).strides, (9,))

    def test_refused(self):
        for arguments, number in [
            ((6, 0, [1] * 17, [1] * 17), 1),
            ((6, 0, [2, 3], [1]), 2),
            ((5, 0, [2, 3], [1, 2]), 3),
            ((0, 0, [], []), 3),
        ]:
            self.refused(number, (), Layout, *arguments)
            self.refused(number, (), validate_bounds, *arguments)
        self.assertIsNone(validate_bounds(6, 0, [2, 3], [1, 2]))

    def test_numbers_that_do_not_fit(self):
        for arguments in [
            (-1, 0, [], []),
            (2**64, 0, [], []),
            (1, 2**63, [], []),
            (1, 0, [-1], [1]),
            (1, 0, [1], [-2**63 - 1]),
        ]:
            self.assertRaises(OverflowError, Layout, *arguments)
            self.assertRaises(OverflowError, validate_bounds, *arguments)
        with self.assertRaises(OverflowError):
            SHEET.permute([-1, 0])
        with self.assertRaises(TypeError):
            Layout(6, 0, [2.0, 3], [1, 2])

    def test_sentence(self):
        refusal = self.refused(5, (2, 2), SHEET.permute, [0, 2])
        self.assertEqual(refusal.sentence, "axis 2 is outside the rank 2, or named twice")
        self.assertEqual(str(refusal), f"refused 5: {refusal.sentence}")
        self.assertIsInstance(refusal, ValueError)
        again = pickle.loads(pickle.dumps(refusal))
        self.assertEqual((again.number, again.values, str(again)), (5, (2, 2), str(refusal)))


class Value(unittest.TestCase):
    def test_equal(self):
        same = Layout(length=6, offset=0, extents=(2, 3), strides=(1, 2))
        self.assertEqual((SHEET, hash(SHEET)), (same, hash(same)))
        self.assertNotEqual(SHEET, Layout(7, 0, [2, 3], [1, 2]))
        self.assertEqual(repr(SHEET), "Layout(length=6, offset=0, extents=(2, 3), strides=(1, 2))")
        for again in (copy.deepcopy(SHEET), pickle.loads(pickle.dumps(SHEET)), eval(repr(SHEET))):
            self.assertEqual(again, SHEET)

    def test_never_changes(self):
        with self.assertRaises(dataclasses.FrozenInstanceError):
            SHEET.offset = 1
        SHEET.permute([1, 0])
        self.assertEqual(SHEET.extents, (2, 3))


class Views(Refused):
    def test_permute(self):
        self.assertEqual(SHEET.permute([1, 0]), Layout(6, 0, [3, 2], [2, 1]))
        self.refused(1, (), SHEET.permute, [0] * 17)
        self.refused(4, (1, 2), SHEET.permute, [0])
        self.refused(5, (0, 2), SHEET.permute, [0, 0])

    def test_diagonal(self):
        block = Layout(6000, 60, [3, 4, 5, 2, 6, 7], [1, 3, 12, -60, 120, 720])
        tied = block.diagonal([(0, 3), (4, 1), (3, 5)])
        self.assertEqual(tied, Layout(6000, 60, [2, 4, 5], [661, 123, 12]))
        self.assertEqual(SHEET.diagonal([]), SHEET)
        self.refused(5, (6, 6), block.diagonal, [(0, 3), (6, 6)])
        with self.assertRaises(ValueError):
            SHEET.diagonal([(0, 1, 1)])

    def test_broadcast(self):
        row = Layout(3, 0, [1, 3], [0, 1])
        self.assertEqual(row.broadcast([5, 3]), Layout(3, 0, [5, 3], [0, 1]))
        self.refused(4, (2, 1), row.broadcast, [5])
        self.refused(6, (1,), row.broadcast, [5, 4])
        # Check-in refuses an extent above 2^63; broadcast makes one.
        self.assertEqual(row.broadcast([2**64 - 1, 3]).permute([1, 0]).extents, (3, 2**64 - 1))

    def test_offset_at(self):
        self.assertEqual(SHEET.offset_at([1, 2]), 5)
        self.refused(4, (1, 2), SHEET.offset_at, [1])
        self.refused(7, (1,), SHEET.offset_at, [1, 3])


class Verdicts(Refused):
    def test_verdicts_and_counts(self):
        for axes, verdict, count in [
            ([], Verdict.DISTINCT, 0),
            ([(2, 1), (3, 2)], Verdict.DISTINCT, 0),
            ([(2, 0), (3, 1)], Verdict.REPEATED, 0),
            ([(2, 2), (2, 3), (2, 5)], Verdict.REPEATED, 1),
            ([(2, 4), (2, 5), (5000000, 6)], Verdict.DISTINCT, 1),
            (APART, Verdict.UNDECIDED, 0),
        ]:
            self.assertEqual(judge(axes), (verdict, count))
        self.assertEqual(SHEET.judge(), (Verdict.DISTINCT, 0))
        self.assertIs(Layout(24, 0, [4, 6], [1, 3]).verdict(), Verdict.REPEATED)

    def test_scratch(self):
        self.assertEqual(judge(TWELVE), (Verdict.DISTINCT, 0))
        self.assertEqual(judge(TWELVE, scratch_words=11072), (Verdict.DISTINCT, 0))
        self.refused(9, (11072,), judge, TWELVE, scratch_words=11071)
        layout = Layout(10**6, 0, *zip(*TWELVE[::-1]))  # descending strides do not merge
        self.refused(9, (11072,), layout.verdict, scratch_words=0)
        self.refused(9, (11072,), layout.record, scratch_words=0)
        self.refused(9, (11072,), Layout.read, layout.record(), scratch_words=0)

    def test_refused(self):
        self.refused(1, (), judge, [(1, 1)] * 17)
        self.refused(8, (), judge, [(2**32, 1), (2**32, 2**32)])
        self.refused(3, (), judge, [(2, -2**63)])
        self.assertRaises(ValueError, judge, [(2, 1, 1)])

    def test_verdict_is_no_truth_value(self):
        for verdict in Verdict:
            self.assertRaises(TypeError, bool, verdict)


class Records(Refused):
    def test_normal_form(self):
        form = Layout(100, 0, [2, 1, 3], [4, 9, 8]).normal_form()
        self.assertEqual(form, Layout(100, 0, [6], [4]))
        wide = Layout(1, 0, [1, 1], [0, 0]).broadcast([2**32, 2**32])
        self.refused(8, (), wide.normal_form)
        self.refused(8, (), wide.record)

    def test_record(self):
        record = SHEET.record()
        self.assertEqual(record.hex(), "001d010101" + f"{0:016x}{6:016x}{1:016x}")
        self.assertEqual(Layout.read(record), SHEET.normal_form())
        for data in (bytearray(record), memoryview(record + b"more")):
            self.assertEqual(Layout.read(data), SHEET.normal_form())
        longest = Layout(2**20, 0, [2] * 16, [3 * 2**axis for axis in range(16)][::-1]).record()
        self.assertEqual((len(longest), Layout.read(longest).rank), (269, 16))
        undecided = Layout(2**63 - 1, 0, *zip(*APART)).record()
        self.assertIs(Layout.read(undecided).verdict(), Verdict.UNDECIDED)

    def test_no_record(self):
        record = SHEET.record()
        for data in (b"", record[:-1], record[:3] + b"\2" + record[4:], bytes(29)):
            self.refused(11, (), Layout.read, data)
        self.assertRaises(TypeError, Layout.read, "text")

    def test_step_over(self):
        one, other = SHEET.record(), SHEET.permute([1, 0]).record()
        self.assertEqual(step_over(one + other), other)
        self.assertEqual(step_over(step_over(one + other)), b"")
        for data in (b"", b"\0", b"\0\x0c" + bytes(20), one[:-1]):
            self.assertEqual(step_over(data), b"")
        # Lengths at both ends, with more bytes behind than any length says.
        for length, rest in [(0, 0), (12, 0), (13, 70000 - 13), (65535, 70000 - 65535)]:
            data = length.to_bytes(2, "big") + bytes(69998)
            self.assertEqual(len(step_over(data)), rest, length)
        for size, rest in [(65534, 0), (65535, 0), (65536, 1), (65537, 2)]:
            self.assertEqual(len(step_over(b"\xff\xff" + bytes(size - 2))), rest, size)


class Strides(Refused):
    def test_dense(self):
        self.assertEqual(column_strides([2, 3, 4]), (1, 2, 6))
        self.assertEqual(row_strides([2, 3, 4]), (12, 4, 1))
        self.assertEqual(column_strides([0, 2**63, 5]), (1, 0, 2**63 - 1))
        self.assertEqual(row_strides([]), ())
        self.refused(3, (), row_strides, [2**62, 4])
        self.refused(1, (), column_strides, [1] * 17)

    def test_index_order(self):
        self.assertEqual(index_order([5, 0, -3, 3]), (3, 1, 1, 1))
        self.refused(1, (), index_order, [1] * 17)


if __name__ == "__main__":
    unittest.main()
