"""The sixteen calls of bindings/c/strided.h and the structs that cross."""
from __future__ import annotations

import ctypes
import operator
import os
from ctypes import POINTER, Structure, c_int32, c_int64, c_size_t, c_uint8, c_uint64
from pathlib import Path
from typing import Any, Callable, Iterable, SupportsIndex

from ._refusal import SENTENCES, Refusal

MOST_AXES = 16
LONGEST_RECORD = 269
SHORT_SCRATCH = 9
SHORT_OUTPUT = 10


class CAxis(Structure):
    _fields_ = [("extent", c_uint64), ("stride", c_int64)]


class CLayout(Structure):
    _fields_ = [
        ("len", c_uint64),
        ("offset", c_int64),
        ("rank", c_size_t),
        ("axes", CAxis * MOST_AXES),
    ]


class CValues(Structure):
    _fields_ = [("first", c_size_t), ("second", c_size_t)]


class CFound(Structure):
    _fields_ = [("verdict", c_uint8), ("count", c_uint64)]


LAYOUT, VALUES = POINTER(CLayout), POINTER(CValues)
# A slice crosses as a pointer and a length.
AXES = [POINTER(CAxis), c_size_t]
BYTES = [POINTER(c_uint8), c_size_t]
READINGS = [POINTER(c_int32), c_size_t]
SIGNED = [POINTER(c_int64), c_size_t]
SIZES = [POINTER(c_size_t), c_size_t]
UNSIGNED = [POINTER(c_uint64), c_size_t]

# The result of each call, and its parameters.
CALLS: dict[str, tuple[Any, list[Any]]] = {
    "strided_new": (c_uint8, [LAYOUT, *UNSIGNED, *SIGNED]),
    "strided_validate_bounds": (c_uint8, [c_uint64, c_int64, *UNSIGNED, *SIGNED]),
    "strided_permute": (c_uint8, [LAYOUT, *SIZES, VALUES]),
    "strided_diagonal_view": (c_uint8, [LAYOUT, *SIZES, VALUES]),
    "strided_broadcast": (c_uint8, [LAYOUT, *UNSIGNED, VALUES]),
    "strided_indexed_offset": (c_uint8, [LAYOUT, *UNSIGNED, POINTER(c_int64), VALUES]),
    "strided_normal_form": (c_uint8, [LAYOUT]),
    "strided_is_injective": (c_uint8, [*AXES, *UNSIGNED, POINTER(CFound), VALUES]),
    "strided_copy": (c_uint8, [LAYOUT, *READINGS, LAYOUT, *READINGS, *UNSIGNED, VALUES]),
    "strided_means": (c_uint8, [LAYOUT, c_size_t, *READINGS, *READINGS, VALUES]),
    "strided_write": (c_uint8, [LAYOUT, *BYTES, *UNSIGNED, VALUES]),
    "strided_read": (c_uint8, [LAYOUT, *BYTES, *UNSIGNED, VALUES]),
    "strided_step": (c_size_t, [*BYTES]),
    "strided_index_order": (c_uint8, [*SIGNED, *SIZES]),
    "strided_column_strides": (c_uint8, [*UNSIGNED, *SIGNED]),
    "strided_row_strides": (c_uint8, [*UNSIGNED, *SIGNED]),
}


def load() -> ctypes.CDLL:
    """The shared object of bindings/python/build, or the one that STRIDED_LIBRARY names."""
    beside = Path(__file__).resolve().parents[1] / "out" / "libstrided.so"
    path = os.environ.get("STRIDED_LIBRARY") or str(beside)
    try:
        library = ctypes.CDLL(path)
    except OSError as error:
        message = f"{error}; bindings/python/build makes {beside}, STRIDED_LIBRARY names another"
        raise ImportError(message) from error
    for name, (result, parameters) in CALLS.items():
        call = getattr(library, name)
        call.restype, call.argtypes = result, parameters
    return library


LIBRARY = load()


def fitting(value: SupportsIndex, kind: Any) -> int:
    """The value as a number that `kind` holds; ctypes alone would cut off what does not fit."""
    number = operator.index(value)
    if kind(number).value != number:
        sign = "a signed" if kind is c_int64 else "an unsigned"
        raise OverflowError(f"{number} does not fit {sign} number of 64 bits")
    return number


def slice_of(kind: Any, entries: Iterable[SupportsIndex]) -> tuple[Any, int]:
    """A list of numbers as it crosses: an array, and its length."""
    numbers = [fitting(entry, kind) for entry in entries]
    return (kind * len(numbers))(*numbers), len(numbers)


def check(answer: int, values: CValues | None = None) -> None:
    """Raises the refusal that an answer is the number of."""
    if answer:
        returned = (values.first, values.second) if values else ()
        raise Refusal(answer, *returned[:SENTENCES[answer].count("{")])


def with_scratch(call: Callable[..., int], most: int | None) -> CValues:
    """Makes a call without scratch, and if it is refused 9, again with as many words as it needs.

    If it needs more than `most`, the refusal stays.
    """
    values = CValues()
    answer = call((c_uint64 * 0)(), 0, values=values)
    if answer == SHORT_SCRATCH and (most is None or values.first <= most):
        words = values.first
        answer = call((c_uint64 * words)(), words, values=values)
    check(answer, values)
    return values
