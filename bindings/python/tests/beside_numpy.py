"""Compares the module's answers with NumPy's on random arrays: beside_numpy.py [ARRAYS [SEED]]

These answers are compared for each array:
- The verdict of `overlap`. Two positions share memory exactly if some axis can be cut so that
  `shares_memory` finds memory that both parts share. If `may_share_memory` denies it for every
  cut, no two positions do. NumPy's test of a single array, `internal_overlap`, and the bytes at
  which all elements stand are compared too.
- The views of `permute`, `broadcast` and `diagonal`, with those of `transpose`, `broadcast_to`
  and `einsum`.
- The offset of each position, in the layout, in its normal form and in its record.
- A copy of readings through the layout into one of the same extents, with an assignment from one
  array to another. It has to be refused 14 if `internal_overlap` finds that two positions of the
  second share memory.
- The means of readings along an axis, with a sum of NumPy's int64 that is divided once, halves away
  from zero. They have to be refused 15 if the extent along the axis is 0.
If a stride is no multiple of the item size, `overlap` has to raise UnevenStride, and `judge` is
asked of bytes instead. One array in fifty more has twelve axes, and most of these need scratch;
only their verdict is compared, with `internal_overlap`. The last line is
`N arrays, Q answers compared, D differences`; the status is 0 if D is 0.
"""
import collections
import itertools
import random
import sys

import numpy

from strided import Layout, Refusal, UnevenStride, Verdict, copy, judge, overlap

try:
    from numpy._core import _multiarray_tests
except ImportError:  # before NumPy 2
    from numpy.core import _multiarray_tests

# Elements of 1 to 24 bytes; in a packed record the strides of a field are no multiple of its size.
PACKED = numpy.dtype([("flag", "i1"), ("reading", "f4"), ("place", "i2", (3,))])
NAMES = ["i1", "i2", "f4", "f8", "c16", "S3", "U2", "M8[s]", "O"]
TYPES = [*map(numpy.dtype, NAMES), PACKED]
POSITIONS = 1500
BUFFER = numpy.zeros(2**20, "i1")
# NumPy's solver looks at no more candidates than this for an array of twelve axes.
CANDIDATES = 10**7


def extents_of(draw, most=POSITIONS):
    """Extents of up to 6 axes with few positions; now and then one of them is 0."""
    extents = []
    for _ in range(draw.randint(0, 6)):
        extents.append(min(draw.choice([1, 2, 2, 3, 3, 4, 5, 7, 11]), max(1, most)))
        most //= extents[-1]
    if extents and draw.random() < 0.03:
        extents[draw.randrange(len(extents))] = 0
    return extents


def dense(draw):
    """An array by row, by column, or with its axes in any order."""
    extents = extents_of(draw)
    array = numpy.zeros(extents, draw.choice(TYPES), order=draw.choice("CF"))
    return array.transpose(draw.sample(range(len(extents)), len(extents)))


def sliced(draw):
    """A part of a dense array, along each axis with a step of either sign."""
    array = dense(draw)
    steps = [slice(None, None, draw.choice([1, 1, 2, 3, -1, -2])) for _ in array.shape]
    return array[(*steps, ...)]


def stretched(draw):
    """A broadcast array."""
    array = dense(draw)
    extents = [draw.choice([1, 2, 3]) if extent == 1 else extent for extent in array.shape]
    more = [draw.choice([1, 2]) for _ in range(draw.randint(0, 1))]
    return numpy.broadcast_to(array, [*more, *extents])


def windows(draw):
    """Windows that slide over an array, all or every second or third of them."""
    size, width, hop = draw.randint(2, 30), draw.randint(1, 5), draw.randint(1, 6)
    array = numpy.zeros((draw.randint(1, 4), size + width), draw.choice(TYPES))
    return numpy.lib.stride_tricks.sliding_window_view(array, width, axis=1)[:, ::hop]


def field(draw):
    """A field of packed records."""
    array = numpy.zeros(extents_of(draw, POSITIONS // 3), PACKED)
    return array[draw.choice(PACKED.names)]


def strided(draw):
    """Any extents and strides; those of one array in eight are any numbers of bytes."""
    kind, extents = draw.choice(TYPES[:7]), extents_of(draw)
    unit = kind.itemsize if draw.random() < 0.875 else 1
    most = draw.choice([3, 12, 60, 200])
    strides = [unit * draw.randint(-most, most) for _ in extents]
    below = -sum(stride * (extent - 1) for extent, stride in zip(extents, strides) if stride < 0)
    above = sum(stride * (extent - 1) for extent, stride in zip(extents, strides) if stride > 0)
    if 0 in extents or below + above + kind.itemsize > len(BUFFER):
        return strided(draw)
    whole = BUFFER[below:][:kind.itemsize].view(kind)
    return numpy.lib.stride_tricks.as_strided(whole, [*extents, 1], [*strides, 1])[..., 0]


def twelve(draw):
    """Twelve axes of three bytes: too many difference vectors to search, so most need scratch."""
    strides = [2 * 3**power for power in range(11)] + [3**11]
    off = draw.choice([[0], [0, 0, 0, 0, 1, -1, 2]])
    strides = [stride + draw.choice(off) for stride in strides]
    return numpy.lib.stride_tricks.as_strided(BUFFER, [3] * 12, draw.sample(strides, 12))


KINDS = [dense, sliced, stretched, windows, field, strided, strided, strided]


def room(draw, extents):
    """A layout of any axis order, with gaps and steps of either sign; one in five may repeat."""
    strides, step = [0] * len(extents), 1
    for axis in draw.sample(range(len(extents)), len(extents)):
        step *= draw.choice([1, 1, 1, 2, 3])
        strides[axis] = draw.choice([1, 1, -1]) * step
        step *= max(1, extents[axis])
    if strides and draw.random() < 0.2:
        strides[draw.randrange(len(strides))] = draw.choice([0, 1, 2])
    spans = [stride * (extent - 1) for extent, stride in zip(extents, strides) if 0 not in extents]
    offset = draw.randint(0, 3) - sum(span for span in spans if span < 0)
    behind = 1 + draw.randint(0, 3) + sum(span for span in spans if span > 0)
    return Layout(offset + behind, offset, extents, strides)


def laid(readings, layout):
    """The readings of a buffer that a layout names, as an array."""
    strides = [stride * readings.itemsize for stride in layout.strides]
    return numpy.lib.stride_tricks.as_strided(readings[layout.offset:], layout.extents, strides)


def offsets(array):
    """The byte of each position, counted from that of the first; axis 0 changes fastest."""
    places = [0]
    for extent, stride in zip(array.shape, array.strides):
        places = [place + index * stride for index in range(extent) for place in places]
    return places


def cuts(array):
    """The two parts of an array, for each way to cut one of its axes in two."""
    for axis, extent in enumerate(array.shape):
        line = numpy.moveaxis(array, axis, 0)
        yield from ((line[:at], line[at:]) for at in range(1, extent))


class Comparison:
    """How many answers were compared and how many differed; how often each verdict came, and how
    often copies and means were made."""

    def __init__(self):
        self.compared = self.differences = 0
        self.verdicts, self.answered = collections.Counter(), collections.Counter()

    def same(self, what, array, ours, theirs):
        self.compared += 1
        if ours != theirs:
            self.differences += 1
            print(f"{what}: {ours!r}, NumPy {theirs!r}:", array.shape, array.strides, array.dtype)

    def verdict(self, array):
        """Compares the verdict; answers whether it was one of bytes, as the strides are uneven."""
        axes = [*zip(array.shape, array.strides)]
        try:
            verdict, uneven = overlap(array), False
        except UnevenStride:
            verdict, uneven = judge([*axes, (array.itemsize, 1)])[0], True
        self.verdicts[verdict.name.lower() + (", asked of bytes" if uneven else "")] += 1
        active = [stride for extent, stride in axes if extent > 1 and array.size]
        self.same("uneven", array, uneven, any(stride % array.itemsize for stride in active))
        repeated = {Verdict.REPEATED: True, Verdict.DISTINCT: False}.get(verdict, verdict)
        parts = list(cuts(array))
        shared = any(numpy.shares_memory(*two) for two in parts)
        self.same("shares_memory", array, repeated, shared)
        if not any(numpy.may_share_memory(*two) for two in parts):
            self.same("may_share_memory", array, repeated, False)
        solved = bool(_multiarray_tests.internal_overlap(array, -1))
        self.same("internal_overlap", array, repeated, solved)
        places = sorted(offsets(array))
        near = any(after - before < array.itemsize for before, after in zip(places, places[1:]))
        self.same("offsets", array, repeated, near)
        return uneven

    def scratch(self, array):
        """Compares a verdict that may need scratch."""
        verdict, lent = overlap(array), ""
        try:
            overlap(array, scratch_words=0)
        except Refusal as refusal:
            lent = f", with scratch after refusal {refusal.number}"
        self.verdicts[f"{verdict.name.lower()} of twelve axes{lent}"] += 1
        try:
            solved = bool(_multiarray_tests.internal_overlap(array, CANDIDATES))
        except ValueError as error:
            if "max_work" not in str(error):
                raise
        else:
            self.same("scratch", array, verdict is Verdict.REPEATED, solved)

    def cells(self, draw, array):
        """Compares where the elements of an array and of its views stand, counted in elements."""
        layout = Layout.of(array)
        if 0 in array.shape:
            self.same("empty", array, layout.verdict(), Verdict.DISTINCT)
            return
        lowest = min(offsets(array))
        places = [(place - lowest) // array.itemsize for place in offsets(array)]
        positions = itertools.product(*(range(extent) for extent in array.shape[::-1]))
        found = [layout.offset_at(index[::-1]) for index in positions]
        self.same("offset_at", array, found, places)
        self.same("length", array, layout.length, max(places) + 1)
        again = Layout.read(layout.record())
        for name, form in ("normal_form", layout.normal_form()), ("record", again):
            start = numpy.array([form.offset])
            for extent, stride in form.axes:
                start = (numpy.arange(extent)[:, None] * stride + start).reshape(-1)
            self.same(name, array, start.tolist(), places)
        order = draw.sample(range(array.ndim), array.ndim)
        self.same("permute", array, layout.permute(order), Layout.of(array.transpose(order)))
        targets = [draw.randint(1, 3) if extent == 1 else extent for extent in array.shape]
        stretched_array = numpy.broadcast_to(array, targets)
        self.same("broadcast", array, layout.broadcast(targets), Layout.of(stretched_array))
        self.diagonal(draw, array, layout)

    def copies(self, draw, array):
        """Compares a copy into a second layout with an assignment from one array to another."""
        source, destination = Layout.of(array), room(draw, array.shape)
        readings = numpy.arange(source.length, dtype="i4")
        out = numpy.full(destination.length, -1, "i4")
        wanted = out.copy()
        into = laid(wanted, destination)
        shared = bool(_multiarray_tests.internal_overlap(into, -1))
        if not shared:
            into[...] = laid(readings, source)
        try:
            copy(source, readings, destination, out)
            answer = "copied"
        except Refusal as refusal:
            answer = f"not copied, refused {refusal.number}"
        self.answered[answer] += 1
        self.same("copy", array, answer, "not copied, refused 14" if shared else "copied")
        self.same("readings", array, numpy.array_equal(out, wanted), True)

    def means(self, draw, array):
        """Compares the means along an axis with sums of NumPy that are divided once."""
        if not array.ndim:
            return
        layout, axis = Layout.of(array), draw.randrange(array.ndim)
        most, along = draw.choice([3, 1000, 2**31 - 1]), array.shape[axis]
        numbers = numpy.random.default_rng(draw.getrandbits(32))
        readings = numbers.integers(-most - 1, most, layout.length, "i4", endpoint=True)
        try:
            ours, answer = layout.means(axis, readings), "means"
        except Refusal as refusal:
            ours, answer = [], f"no means, refused {refusal.number}"
        self.answered[answer] += 1
        self.same("means", array, answer, "means" if along else "no means, refused 15")
        if not along:
            return
        sums = laid(readings, layout).astype("i8").sum(axis)
        sizes = (2 * abs(sums) + along) // (2 * along)
        wanted = (numpy.sign(sums) * sizes).flatten("F").tolist()
        self.same("means", array, list(ours), wanted)
        out = numpy.full(len(wanted) + 2, -1, "i4")
        self.same("count", array, layout.means(axis, readings, out), len(wanted))
        self.same("out", array, out.tolist(), [*wanted, -1, -1])

    def diagonal(self, draw, array, layout):
        """Compares the view that ties two axes; `einsum` makes it of numbers and equal extents."""
        pairs = itertools.combinations(range(array.ndim), 2)
        equal = [pair for pair in pairs if array.shape[pair[0]] == array.shape[pair[1]]]
        if not equal or array.dtype.kind not in "ifc":
            return
        one, other = draw.choice(equal)
        names = [one if axis == other else axis for axis in range(array.ndim)]
        tied = numpy.einsum(array, names, [axis for axis in range(array.ndim) if axis != other])
        ours = layout.diagonal([(other, one)])
        self.same("diagonal", array, (ours.offset, ours.extents), (layout.offset, tied.shape))
        self.same("diagonal", array, ours.axes, Layout.of(tied).axes)


def main(arrays=3000, seed=20261127):
    draw, comparison = random.Random(seed), Comparison()
    for number in range(arrays):
        array = KINDS[number % len(KINDS)](draw)
        if not comparison.verdict(array):
            comparison.cells(draw, array)
            comparison.copies(draw, array)
            comparison.means(draw, array)
    for _ in range(arrays // 50):
        comparison.scratch(twelve(draw))
    print(f"NumPy {numpy.__version__}, seed {seed}")
    for counted in comparison.verdicts, comparison.answered:
        for what, times in sorted(counted.items()):
            print(times, what)
    compared, differences = comparison.compared, comparison.differences
    total = sum(comparison.verdicts.values())
    print(f"{total} arrays, {compared} answers compared, {differences} differences")
    return 1 if comparison.differences else 0


if __name__ == "__main__":
    sys.exit(main(*map(int, sys.argv[1:])))
