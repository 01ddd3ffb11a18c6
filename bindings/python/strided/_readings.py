"""Readings as they cross: signed numbers of 32 bits, one behind the other in a buffer."""
from __future__ import annotations

from array import array
from ctypes import addressof, c_int32, sizeof
from typing import Any

SIZE = sizeof(c_int32)


def written(out: Any) -> Any:
    """The readings of a buffer that a call writes, in place."""
    view, kind = _seen(out)
    lent = kind.from_buffer(view) if view.nbytes else kind()
    if addressof(lent) % SIZE:
        raise ValueError("readings that are written have to stand at multiples of 4 bytes")
    return lent


def given(readings: Any, to: Any) -> Any:
    """The readings of a buffer that a call only reads, while it writes `to`.

    They are lent in place, or as a copy: if they cannot be written to, since ctypes lends no such
    memory; if they are not aligned; and if they share memory with `to`.
    """
    view, kind = _seen(readings)
    if view.readonly or not view.nbytes:
        return kind.from_buffer_copy(view)
    lent = kind.from_buffer(view)
    start, stop = addressof(lent), addressof(lent) + sizeof(lent)
    apart = stop <= addressof(to) or addressof(to) + sizeof(to) <= start
    return lent if apart and start % SIZE == 0 else kind.from_buffer_copy(view)


def buffered(readings: Any) -> Any:
    """Readings in a buffer, also if they are listed; such a list is copied."""
    return array("i", readings) if isinstance(readings, (list, tuple)) else readings


def _seen(buffer: Any) -> tuple[memoryview, Any]:
    """A view of a buffer of readings, and the type of an array of as many."""
    view = memoryview(buffer)
    if view.itemsize != SIZE or view.format.lstrip("@=<") not in ("i", "l"):
        raise TypeError(f"readings are signed numbers of 32 bits, not of format {view.format!r}")
    if not view.c_contiguous:
        raise ValueError(
            "the readings do not stand one behind the other: hand over the whole buffer, and say "
            "by the layout which of them are meant"
        )
    return view, c_int32 * (view.nbytes // SIZE)
