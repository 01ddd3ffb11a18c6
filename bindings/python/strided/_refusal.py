"""Why a call of the library is refused."""
from __future__ import annotations

# Why each number is answered, with a mark for each of its values: the sentences of
# crates/view/src/layout.rt.
SENTENCES = {
    1: "more than 16 axes or entries",
    2: "the lists differ in length",
    3: "an offset would lie outside the buffer, or a number does not fit 64 bits",
    4: "a list and the axes of the layout differ in number: {0} and {1}",
    5: "axis {0} is outside the rank {1}, or named twice",
    6: "the extent of axis {0} is neither its target nor 1",
    7: "the index of axis {0} is not below its extent",
    8: "more than 2^64 - 1 positions",
    9: "{0} words of scratch are needed",
    10: "an output of {0} is needed, in bytes of a record or in readings of means",
    11: "the bytes are not a record",
    12: "the two layouts differ in extents",
    13: "a buffer is shorter than its layout needs",
    14: "the verdict on the destination is not distinct",
    15: "the extent along the axis is 0",
    16: "the extent along the axis is above 65536",
}


class Refusal(ValueError):
    """The library refused a call.

    docs/RULES.md, "Refusals, and which comes first" has the numbers and their values.
    """

    def __init__(self, number: int, *values: int) -> None:
        super().__init__(number, *values)
        self.number = number
        self.values = values

    @property
    def sentence(self) -> str:
        """Why the call was refused."""
        return SENTENCES[self.number].format(*self.values)

    def __str__(self) -> str:
        return f"refused {self.number}: {self.sentence}"
