"""Arrays of any library: their axes in elements, and whether two elements share memory."""
from __future__ import annotations

import re
from ctypes import c_void_p, sizeof
from typing import Any, NamedTuple

from ._axes import Axis, Verdict, judge, row_strides


class UnevenStride(ValueError):
    """A stride is no multiple of the item size: two elements may share a part of their bytes."""

    def __init__(self, axis: int, stride: int, item_size: int) -> None:
        super().__init__(axis, stride, item_size)
        self.axis = axis
        self.stride = stride
        self.item_size = item_size

    def __str__(self) -> str:
        return (
            f"axis {self.axis} has a stride of {self.stride} bytes, no multiple of the item size "
            f"{self.item_size}; judge([*zip(shape, strides), (itemsize, 1)]) asks of bytes"
        )


class Memory(NamedTuple):
    """How an array lies in memory: extents, strides in bytes, and the bytes of an element."""

    shape: tuple[int, ...]
    strides: tuple[int, ...]
    item_size: int


def overlap(array: Any, *, scratch_words: int | None = None) -> Verdict:
    """Whether two positions of an array share memory.

    The array has `__array_interface__`, as NumPy's have, or the buffer protocol, as `memoryview`
    and `bytes` have. Its elements are neither read nor written. An element of no bytes shares
    none. Raises UnevenStride if a stride is no multiple of the item size, and Refusal as `judge`.
    """
    memory = memory_of(array)
    if memory.item_size == 0:
        return Verdict.DISTINCT
    return judge(element_axes(memory), scratch_words=scratch_words)[0]


def element_axes(memory: Memory) -> list[Axis]:
    """The axes with strides counted in elements; a stride that no element depends on is 0."""
    axes, empty = [], 0 in memory.shape
    for number, (extent, stride) in enumerate(zip(memory.shape, memory.strides)):
        if empty or extent == 1:
            stride = 0
        if stride % memory.item_size:
            raise UnevenStride(number, stride, memory.item_size)
        axes.append(Axis(extent, stride // memory.item_size))
    return axes


def memory_of(array: Any) -> Memory:
    """How an array lies in memory, by `__array_interface__`, or else by the buffer protocol."""
    interface = getattr(array, "__array_interface__", None)
    if interface is None:
        with memoryview(array) as view:
            if any(suboffset >= 0 for suboffset in view.suboffsets or ()):
                raise ValueError("the array has suboffsets: strides do not say where it lies")
            return Memory(view.shape or (), view.strides or (), view.itemsize)
    shape, item_size = tuple(interface["shape"]), size_of_type(interface["typestr"])
    strides = interface.get("strides")
    if strides is None:
        strides = (stride * item_size for stride in row_strides(shape))
    return Memory(shape, tuple(strides), item_size)


def size_of_type(typestr: str) -> int:
    """The bytes of an element, by the type that `__array_interface__` names, as `<f8`."""
    named = re.fullmatch(r"[<>|=]?([A-Za-z])(\d*)(\[.*\])?", typestr)
    if not named or named[1] == "t" or not (named[2] or named[1] == "O"):
        raise ValueError(f"elements of type {typestr!r} have no size in bytes")
    if named[1] == "U":
        return 4 * int(named[2])
    return int(named[2] or sizeof(c_void_p))
