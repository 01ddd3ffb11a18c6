"""Checks before a write: writes through a layout only if no two positions share a cell."""
from array import array

from strided import Layout, Refusal, Verdict

READINGS = 24


def try_rows(apart):
    """Numbers six rows of four, so many readings apart, row by row."""
    rows = Layout(READINGS, 0, [4, 6], [1, apart])
    if rows.verdict() is not Verdict.DISTINCT:
        print(f"rows {apart} apart: two positions share a cell, nothing is written")
        return
    buffer = array("i", [0] * READINGS)
    positions = ((column, row) for row in range(6) for column in range(4))
    for number, position in enumerate(positions):
        buffer[rows.offset_at(position)] = number
    print(f"rows {apart} apart:", *buffer)


# 4: one row behind the other. 3: a slip, the rows overlap. 5: the last row would end too late.
for apart in (4, 3, 5):
    try:
        try_rows(apart)
    except Refusal as refusal:
        print(f"rows {apart} apart: {refusal}")
