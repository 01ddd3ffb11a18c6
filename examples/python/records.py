"""A file of records, read by stepping from each to the next.

One of them is damaged; the others are still found.
"""
from pathlib import Path
from tempfile import TemporaryDirectory

from strided import Layout, Refusal, step_over

whole = Layout(24, 0, [4, 6], [1, 4])
half = Layout(24, 0, [4, 3], [1, 8])
turned = whole.permute([1, 0])

with TemporaryDirectory() as folder:
    file = Path(folder, "records.bin")
    file.write_bytes(b"".join(layout.record() for layout in (whole, half, turned)))
    data = bytearray(file.read_bytes())

data[29 + 3] = 2  # the verdict of the second record is now Repeated, which is false
rest = memoryview(data)
while rest:
    behind = step_over(rest)
    print(f"{len(rest) - len(behind)} bytes at {len(data) - len(rest)}:", end=" ")
    try:
        axes = Layout.read(rest).axes
        print(*(f"(extent {extent}, stride {stride})" for extent, stride in axes))
    except Refusal as refusal:
        print("refused", refusal.number)
    rest = behind
