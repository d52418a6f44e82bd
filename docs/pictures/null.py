#!/usr/bin/env python3
# Draws null.svg: what is left of takes/tone.raw and its inverse together, through circuits/clipper.circuit and circuits/clipper-2.circuit, from the
# outputs of the program `take` itself. From the repository's root:
#
#     python3 docs/pictures/null.py
import os
import sys

from draw import DOWN, GREY, UP, Picture

ROOT = os.path.join(os.path.dirname(os.path.abspath(__file__)), "..", "..")
sys.path.insert(0, os.path.join(ROOT, "takes"))
from null import held, residue

RATE = 48_000
LEFT, RIGHT, TOP, STEP = 120, 870, 90, 22

take = held(os.path.join(ROOT, "takes", "tone.raw"))
first, second = (residue(held(os.path.join(ROOT, "circuits", name)), take) for name in ("clipper.circuit", "clipper-2.circuit"))
low, high = min(first), max(first)
p = Picture(
    "null.svg", 900, TOP + STEP * (high - low) + 70, "A take and its inverse, added up, in version 1 and in version 2",
    [
        f"What is left of the two outputs of each of {len(first)} samples: in version 1 between {low} and {high} half microvolts, in version 2",
        f"between {min(second)} and {max(second)}.",
    ])
p.text(28, 34, "A take and its inverse, added up", size=16, bold=True)
p.text(RIGHT, 34, "version 1: circuits/clipper.circuit", "end", ink=UP, bold=True)
p.text(RIGHT, 54, "version 2: circuits/clipper-2.circuit", "end", ink=DOWN, bold=True)


def on(i, halves):
    return LEFT + (RIGHT - LEFT) * i / len(first), TOP + STEP * (high - halves)


for halves in range(low, high + 1, 2):
    p.run([on(0, halves), on(len(first), halves)], ink=GREY if halves == 0 else "#ddd", width=1)
    p.text(LEFT - 8, on(0, halves)[1] + 4, f"{halves / 2:g} µV".replace("-", "\u2212"), "end", 12, GREY)
for ms in range(0, 21, 5):
    x, y = on(ms * RATE / 1000, low)
    p.run([(x, y), (x, y + 5)], ink=GREY, width=1)
    p.text(x, y + 20, f"{ms} ms", "middle", 12, GREY)
p.run([on(i, s) for i, s in enumerate(first)], ink=UP, width=1)
p.run([on(i, s) for i, s in enumerate(second)], ink=DOWN, width=2.5)
p.save()
