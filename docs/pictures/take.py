#!/usr/bin/env python3
# Draws take.svg: the take takes/tone.raw before and after circuits/clipper.circuit, from the outputs of the program `take` itself. From the
# repository's root:
#
#     python3 docs/pictures/take.py
import os
import struct
import subprocess

from draw import DOWN, GREY, UP, Picture

ROOT = os.path.join(os.path.dirname(os.path.abspath(__file__)), "..", "..")
RATE = 48_000


def held(*path):
    with open(os.path.join(ROOT, *path), "rb") as file:
        return file.read()


circuit, take = held("circuits", "clipper.circuit"), held("takes", "tone.raw")
played = subprocess.run([os.path.join(ROOT, "run"), "take"], input=circuit + take, stdout=subprocess.PIPE, check=True).stdout
before = [int.from_bytes(take[i:i + 3], "little", signed=True) / 1e6 for i in range(0, len(take), 3)]
after = [half / 2e6 for half, in struct.iter_unpack("<i", played)]
assert len(before) == len(after)

LEFT, RIGHT, MID, VOLT = 70, 870, 260, 60
p = Picture(
    "take.svg", 900, 420, "A take before and after the circuit clipper.circuit",
    [
        "A tone of 200 hertz whose amplitude falls from 3 volts, and what comes out: while the tone is loud its swings are cut off near",
        "0.6 volts, later they follow the tone. 960 samples, 20 milliseconds.",
    ])
p.text(28, 34, "A take before and after the clipper", size=16, bold=True)
p.text(RIGHT, 34, "before: takes/tone.raw", "end", ink=UP, bold=True)
p.text(RIGHT, 54, "after: what the program take puts out", "end", ink=DOWN, bold=True)


def on(i, volts):
    return LEFT + (RIGHT - LEFT) * i / len(before), MID - VOLT * volts


for volts in range(-2, 4):
    p.run([on(0, volts), on(len(before), volts)], ink=GREY if volts == 0 else "#ddd", width=1)
    p.text(LEFT - 8, MID - VOLT * volts + 4, f"{volts} V".replace("-", "\u2212"), "end", 12, GREY)
for ms in range(0, 21, 5):
    x, y = on(ms * RATE / 1000, -2)
    p.run([(x, y), (x, y + 5)], ink=GREY, width=1)
    p.text(x, y + 20, f"{ms} ms", "middle", 12, GREY)
p.run([on(i, v) for i, v in enumerate(before)], ink=UP, width=1.5)
p.run([on(i, v) for i, v in enumerate(after)], ink=DOWN, width=2)
p.save()
