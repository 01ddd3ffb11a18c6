"""A sheet of six readings: checked in, transposed, judged, and written as a record."""
from strided import Layout, Refusal, Verdict

sheet = Layout(6, 0, [2, 3], [1, 2])  # two columns of three
turned = sheet.permute([1, 0])
(rows, down), (columns, across) = turned.axes
print(f"transposed: {rows} by {columns}, strides {down} and {across}")

try:
    turned.permute([0, 2])
except Refusal as refusal:
    print(refusal)
print("verdict:", "distinct" if turned.verdict() is Verdict.DISTINCT else "not distinct")

record = turned.record()
print(f"record: {len(record)} bytes:", record.hex(" "))
