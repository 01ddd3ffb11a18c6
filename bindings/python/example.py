"""May a view of an array be written through? And what a layout says of it."""
import numpy
from numpy.lib.stride_tricks import sliding_window_view

from strided import Layout, UnevenStride, overlap

image = numpy.zeros((4, 6), "f4")
print(overlap(image[::2, ::-1]))  # a view of every second row, from right to left
print(overlap(sliding_window_view(image, 3, axis=1)))  # windows of three columns share elements
try:
    overlap(numpy.zeros(5, "i1, f4")["f1"])  # numbers of 4 bytes in records of 5
except UnevenStride as uneven:
    print(uneven)
columns = Layout.of(image.T)
print(columns)
print(columns.diagonal([(0, 1)]).axes)
print(columns.record() == Layout.of(image).permute([1, 0]).record())
