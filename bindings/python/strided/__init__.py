"""Strided layouts over one buffer of elements: may two positions share a cell?

    >>> from strided import Layout, Verdict, overlap
    >>> overlap(memoryview(b"readings")[::2])
    <Verdict.DISTINCT: 1>
    >>> rows = Layout(24, 0, [4, 6], [1, 3])  # six rows of four, three apart: a slip
    >>> rows.verdict() is Verdict.REPEATED
    True

The answers are those of the static library, whose functions are proved; docs/PYTHON.md says more.
"""
from ._arrays import UnevenStride, overlap
from ._axes import Axis, Verdict, column_strides, index_order, judge, row_strides, validate_bounds
from ._layout import Layout, copy, step_over
from ._refusal import Refusal

__version__ = "0.4.0"

__all__ = [
    "Axis",
    "Layout",
    "Refusal",
    "UnevenStride",
    "Verdict",
    "column_strides",
    "copy",
    "index_order",
    "judge",
    "overlap",
    "row_strides",
    "step_over",
    "validate_bounds",
]
