"""Copies a shot list onto a plan sheet: column after column in place of row after row."""
from array import array

from strided import Layout, Refusal, copy

SHOTS = array("i", [11, 12, 21, 22, 31, 32])


def columns(column, row):
    """Two columns of three rows."""
    return Layout(column + 2 * row + 1, 0, [2, 3], [column, row])


def try_columns(apart):
    """A plan sheet whose columns are so many readings apart."""
    sheet = array("i", [0] * len(SHOTS))
    copy(columns(1, 2), SHOTS, columns(apart, 1), sheet)
    print(f"columns {apart} apart:", *sheet)


# 3: one column behind the other. 2: a slip, the columns overlap. 4: the last shot would stand past
# the sheet.
for apart in (3, 2, 4):
    try:
        try_columns(apart)
    except Refusal as refusal:
        print(f"columns {apart} apart: {refusal}")
