"""Means over the two faces of an instrument: each point is read in both."""
from array import array

from strided import Layout, Refusal

# In tenths of a millimetre; a point's second face stands right behind its first.
READINGS = array("i", [105, 106, -104, -105, 220, 220])
FACES = Layout(6, 0, [2, 3], [1, 2])  # the first axis is the face

means = FACES.means(0, READINGS)
print(f"{len(means)} means in tenths of a millimetre:", *means)
try:
    FACES.means(0, READINGS, array("i", [0, 0]))
except Refusal as refusal:
    print("2 places:", refusal)
try:
    FACES.means(2, READINGS)
except Refusal as refusal:
    print("axis 2:", refusal)
