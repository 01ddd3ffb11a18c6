"""Undecided, and the normal form, which has fewer axes and may be decided."""
from strided import Layout


def ask(name, extents, strides):
    layout = Layout(2**63 - 1, 0, extents, strides)
    form = layout.normal_form()
    ours, of_form = layout.verdict().name.lower(), form.verdict().name.lower()
    print(f"{name}: {layout.rank} axes, {ours}; normal form: {form.rank} axes, {of_form}")


# Axis 1 goes on where axis 0 ends, and axis 3 where axis 2 ends. The normal form has two axes, and
# the verdict of two axes is always found. It holds for the layout too: both have the same offsets.
ask("tiles", [2000] * 4, [4000003, 8000006000, 4000007, 8000014000])
# Nothing merges here. After Undecided nobody knows whether two positions share a cell: no write.
ask("apart", [1449] * 4, [10000000000, 10000000001, 10000000002, 10000000003])
