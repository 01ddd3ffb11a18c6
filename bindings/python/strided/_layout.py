"""Layouts: check-in, views, the verdict, copies and means of readings, normal form and record."""
from __future__ import annotations

import sys
from array import array
from ctypes import c_int64, c_size_t, c_uint8, c_uint64
from dataclasses import dataclass
from typing import Any, Iterable, SupportsIndex, overload

from ._arrays import element_axes, memory_of
from ._axes import Axis, Verdict, judge
from ._library import LIBRARY, LONGEST_RECORD, MOST_AXES, SHORT_OUTPUT, CAxis, CLayout, CValues
from ._library import check, fitting, slice_of, with_scratch
from ._readings import buffered, given, written

# One byte more than the length of a record can say.
LONGEST_STEP = 2**16


@dataclass(frozen=True, init=False)
class Layout:
    """A buffer length, an offset and up to 16 axes, all counted in elements.

    A layout never changes: each view is a new one.
    """

    length: int
    offset: int
    extents: tuple[int, ...]
    strides: tuple[int, ...]

    def __init__(
        self,
        length: int,
        offset: int,
        extents: Iterable[SupportsIndex],
        strides: Iterable[SupportsIndex],
    ) -> None:
        """Check-in: refusals 1, 2, 3.

        Here and in every call, a number that does not fit 64 bits is an OverflowError.
        """
        struct = CLayout(fitting(length, c_uint64), fitting(offset, c_int64))
        lists = *slice_of(c_uint64, extents), *slice_of(c_int64, strides)
        check(LIBRARY.strided_new(struct, *lists))
        self._take(struct)

    @classmethod
    def of(cls, array: Any) -> Layout:
        """The layout of an array's elements in the shortest buffer that holds them.

        Offset 0 is the element at the lowest address. The stride of an axis of extent 1 is 0, and
        so is every stride of an empty array. Raises UnevenStride, and refusals 1, 3.
        """
        memory = memory_of(array)
        if memory.item_size == 0:
            raise ValueError("elements of no bytes have no layout")
        axes = element_axes(memory)
        spans = [stride * (extent - 1) for extent, stride in axes]
        offset = -sum(span for span in spans if span < 0)
        length = 0 if 0 in memory.shape else 1 + offset + sum(span for span in spans if span > 0)
        return cls(length, offset, memory.shape, [axis.stride for axis in axes])

    @classmethod
    def read(cls, data: Any, *, scratch_words: int | None = None) -> Layout:
        """The layout of the record that some bytes begin with. Refusals 11, 9."""
        prefix = memoryview(data).cast("B")[:LONGEST_RECORD]
        lent = (c_uint8 * len(prefix)).from_buffer_copy(prefix), len(prefix)
        struct = CLayout()
        with_scratch(
            lambda *scratch, values: LIBRARY.strided_read(struct, *lent, *scratch, values),
            scratch_words,
        )
        return cls._made(struct)

    @property
    def axes(self) -> tuple[Axis, ...]:
        """The axes, each with its extent and its stride."""
        return tuple(map(Axis, self.extents, self.strides))

    @property
    def rank(self) -> int:
        """How many axes there are."""
        return len(self.extents)

    def permute(self, order: Iterable[SupportsIndex]) -> Layout:
        """The axes in the order of a list. Refusals 1, 4, 5."""
        return self._viewed(LIBRARY.strided_permute, slice_of(c_size_t, order))

    def diagonal(self, pairs: Iterable[tuple[int, int]]) -> Layout:
        """One axis of axes that are tied by pairs. Refusals 5, 3."""
        axes = [axis for one, other in pairs for axis in (one, other)]
        return self._viewed(LIBRARY.strided_diagonal_view, slice_of(c_size_t, axes))

    def broadcast(self, targets: Iterable[SupportsIndex]) -> Layout:
        """Axes of extent 1 stretched to target extents. Refusals 1, 4, 6."""
        return self._viewed(LIBRARY.strided_broadcast, slice_of(c_uint64, targets))

    def offset_at(self, index: Iterable[SupportsIndex]) -> int:
        """The offset of the position that has these indices. Refusals 1, 4, 7, 3."""
        struct, offset, values = self._struct(), c_int64(), CValues()
        entries = slice_of(c_uint64, index)
        check(LIBRARY.strided_indexed_offset(struct, *entries, offset, values), values)
        return offset.value

    def verdict(self, *, scratch_words: int | None = None) -> Verdict:
        """Whether two positions share a cell. Refusals 8, 3, 9."""
        return self.judge(scratch_words=scratch_words)[0]

    def judge(self, *, scratch_words: int | None = None) -> tuple[Verdict, int]:
        """The verdict and the count, as `judge` of the axes. Refusals 8, 3, 9."""
        return judge(self.axes, scratch_words=scratch_words)

    @overload
    def means(self, axis: SupportsIndex, readings: Any, out: None = None) -> array[int]: ...

    @overload
    def means(self, axis: SupportsIndex, readings: Any, out: Any) -> int: ...

    def means(self, axis: SupportsIndex, readings: Any, out: Any = None) -> array[int] | int:
        """The mean of the readings along an axis, for each position of the remaining axes.

        The remaining axes are all but this one, in their order; the index of the first of them
        changes fastest. The readings are a list of whole numbers, or the whole buffer, as `copy`
        takes it. The means are in their unit: each is a whole sum divided once, to the nearest
        whole number, halves away from zero.

        Without `out` the means are answered, as an `array("i")`. A buffer `out` gets them at its
        front, and the answer is how many they are; all else in it stays. If it shares memory with
        the readings, they are those from before the call. Refusals 5, 8, 13, 10, 15, 16; after
        each of them `out` is as it was.
        """
        readings = buffered(readings)
        to = array("i") if out is None else out
        answer, values = self._means(axis, readings, to)
        if out is None and answer == SHORT_OUTPUT:
            to = array("i", [0]) * min(values.first, sys.maxsize)
            answer, values = self._means(axis, readings, to)
        check(answer, values)
        return to if out is None else values.first

    def normal_form(self) -> Layout:
        """The fewest axes that give the same offsets in the same order. Refusal 8."""
        struct = self._struct()
        check(LIBRARY.strided_normal_form(struct))
        return self._made(struct)

    def record(self, *, scratch_words: int | None = None) -> bytes:
        """The bytes of the normal form and its verdict. Refusals 8, 9.

        Two records are equal exactly if their layouts have the same offsets in the same order.
        """
        struct, out = self._struct(), (c_uint8 * LONGEST_RECORD)()
        lent = out, len(out)
        values = with_scratch(
            lambda *scratch, values: LIBRARY.strided_write(struct, *lent, *scratch, values),
            scratch_words,
        )
        return bytes(out)[:values.first]

    def _struct(self) -> CLayout:
        axes = (CAxis * MOST_AXES)(*[CAxis(*axis) for axis in self.axes])
        return CLayout(self.length, self.offset, self.rank, axes)

    def _means(self, axis: SupportsIndex, readings: Any, out: Any) -> tuple[int, CValues]:
        to, values = written(out), CValues()
        lent = given(readings, to)
        buffers = lent, len(lent), to, len(to)
        along = fitting(axis, c_size_t)
        return LIBRARY.strided_means(self._struct(), along, *buffers, values), values

    def _take(self, struct: CLayout) -> None:
        axes = struct.axes[:struct.rank]
        self.__dict__.update(
            length=struct.len,
            offset=struct.offset,
            extents=tuple(axis.extent for axis in axes),
            strides=tuple(axis.stride for axis in axes),
        )

    @classmethod
    def _made(cls, struct: CLayout) -> Layout:
        """A layout that the library made: broadcast makes extents that check-in refuses."""
        made = cls.__new__(cls)
        made._take(struct)
        return made

    def _viewed(self, call: Any, entries: tuple[Any, int]) -> Layout:
        struct, values = self._struct(), CValues()
        check(call(struct, *entries, values), values)
        return self._made(struct)


def copy(
    source: Layout,
    readings: Any,
    destination: Layout,
    out: Any,
    *,
    scratch_words: int | None = None,
) -> None:
    """Copies readings through one layout into the buffer `out` through another.

    For each index vector the reading at its offset in `source` is stored at its offset in
    `destination`; all else in `out` stays. Both buffers hold signed numbers of 32 bits, one behind
    the other, as `array("i")` and NumPy's arrays of int32 do. If they share memory, the readings
    are those from before the call. Refusals 12, 13, 8, 9, and 14 if the verdict on `destination` is
    not Distinct; after each of them `out` is as it was.
    """
    to = written(out)
    lent = given(readings, to)
    layouts = source._struct(), lent, len(lent), destination._struct(), to, len(to)
    with_scratch(
        lambda *scratch, values: LIBRARY.strided_copy(*layouts, *scratch, values), scratch_words
    )


def step_over(data: Any) -> memoryview:
    """The bytes behind the record that some bytes begin with, by its length alone.

    There are none if that length is missing, below 13, or past the end.
    """
    whole = memoryview(data).cast("B")
    prefix = whole[:LONGEST_STEP]
    at = LIBRARY.strided_step((c_uint8 * len(prefix)).from_buffer_copy(prefix), len(prefix))
    return whole[at if at < len(prefix) else len(whole):]
