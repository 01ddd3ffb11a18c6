"""Scratch: a call lends as many words as the verdict needs, unless the caller sets a bound."""
from strided import Layout, Refusal

strides = [2, 6, 18, 54, 162, 486, 1458, 4374, 13122, 39366, 118098, 177147]
layout = Layout(708587, 0, [3] * 12, strides)

try:
    layout.verdict(scratch_words=1000)
except Refusal as refusal:
    print(refusal)
    (words,) = refusal.values
    print(f"with {words} words:", layout.verdict(scratch_words=words).name.lower())
print("with no bound:", layout.verdict().name.lower())
