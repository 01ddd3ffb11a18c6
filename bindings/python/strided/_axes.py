"""The calls on axes and on lists of numbers."""
from __future__ import annotations

from ctypes import c_int64, c_size_t, c_uint64
from enum import Enum
from typing import Any, Iterable, NamedTuple, SupportsIndex

from ._library import LIBRARY, CAxis, CFound, check, fitting, slice_of, with_scratch


class Axis(NamedTuple):
    """An extent, and a stride in elements."""

    extent: int
    stride: int


class Verdict(Enum):
    """Whether two positions share a cell."""

    DISTINCT = 1
    """No two positions share a cell."""
    REPEATED = 2
    """Two positions share a cell."""
    UNDECIDED = 3
    """It was not found out: both budgets are passed (docs/RULES.md, "The verdict: budgets")."""

    def __bool__(self) -> bool:
        raise TypeError("a verdict is one of three: compare it, as in `is Verdict.DISTINCT`")


def judge(
    axes: Iterable[tuple[int, int]], *, scratch_words: int | None = None
) -> tuple[Verdict, int]:
    """The verdict of axes, and the count: how many difference vectors the search looked at.

    Each axis is an extent and a stride. The verdict may need scratch: at most 16,777,217 words
    of 8 bytes. `scratch_words` bounds them; if more are needed, refusal 9 says how many. The
    other refusals are 1, 8, 3.
    """
    structs = [
        CAxis(fitting(extent, c_uint64), fitting(stride, c_int64)) for extent, stride in axes
    ]
    lent, found = ((CAxis * len(structs))(*structs), len(structs)), CFound()
    with_scratch(
        lambda *scratch, values: LIBRARY.strided_is_injective(*lent, *scratch, found, values),
        scratch_words,
    )
    return Verdict(found.verdict), found.count


def validate_bounds(
    length: int, offset: int, extents: Iterable[SupportsIndex], strides: Iterable[SupportsIndex]
) -> None:
    """Check-in's answer without the layout: nothing, or refusal 1, 2 or 3."""
    numbers = fitting(length, c_uint64), fitting(offset, c_int64)
    lists = *slice_of(c_uint64, extents), *slice_of(c_int64, strides)
    check(LIBRARY.strided_validate_bounds(*numbers, *lists))


def index_order(strides: Iterable[SupportsIndex]) -> tuple[int, ...]:
    """The number of each stride by absolute value; stride 0 has number 1. Refusal 1."""
    return _numbers(LIBRARY.strided_index_order, slice_of(c_int64, strides), c_size_t)


def column_strides(extents: Iterable[SupportsIndex]) -> tuple[int, ...]:
    """Dense strides in elements; the first axis is the densest. Refusals 1, 3."""
    return _numbers(LIBRARY.strided_column_strides, slice_of(c_uint64, extents), c_int64)


def row_strides(extents: Iterable[SupportsIndex]) -> tuple[int, ...]:
    """Dense strides in elements; the last axis is the densest. Refusals 1, 3."""
    return _numbers(LIBRARY.strided_row_strides, slice_of(c_uint64, extents), c_int64)


def _numbers(call: Any, given: tuple[Any, int], kind: Any) -> tuple[int, ...]:
    """What a call answers for each entry of a list."""
    out = (kind * given[1])()
    check(call(*given, out, len(out)))
    return tuple(out)
