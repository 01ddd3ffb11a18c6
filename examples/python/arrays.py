"""Arrays of other libraries: whether two of their elements share memory."""
from array import array

from strided import UnevenStride, Verdict, overlap

# The buffer protocol: every second reading, from the last.
readings = memoryview(array("i", range(8)))
if overlap(readings[::-2]) is Verdict.DISTINCT:
    readings[::-2] = array("i", [0] * 4)
    print(*readings)


class Windows:
    """Two windows of three readings of 4 bytes, described as NumPy describes an array."""

    def __init__(self, apart):
        self.__array_interface__ = {
            "version": 3,
            "shape": (2, 3),
            "strides": (apart, 4),
            "typestr": "<i4",
            "data": (0, True),
        }


for apart in (12, 4, 6):
    try:
        print(f"windows {apart} bytes apart:", overlap(Windows(apart)).name.lower())
    except UnevenStride as uneven:
        print(f"windows {apart} bytes apart: {uneven}")
