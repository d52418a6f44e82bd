#!/usr/bin/env python3
# Draws knees.svg: three knees on circuits/clipper.circuit, from the files that the program `knob` writes, and takes/tone.raw through each, from
# the outputs of the program `take`. From the repository's root:
#
#     python3 docs/pictures/knees.py
import os
import struct
import subprocess

from draw import DOWN, GREY, UP, Picture, single

ROOT = os.path.join(os.path.dirname(os.path.abspath(__file__)), "..", "..")
RATE = 48_000
THERMAL = 45312
KNEES = [(100000, UP), (292700, DOWN), (600000, "#5d7a2b")]
FURTHEST = 1_000_000


def held(*path):
    with open(os.path.join(ROOT, *path), "rb") as file:
        return file.read()


def told(program, *words, given):
    return subprocess.run([os.path.join(ROOT, "run"), program, *words], input=given, stdout=subprocess.PIPE, check=True).stdout


def columns(circuit):
    """The columns of a circuit file: block 2, as many as byte 5 says."""
    return [struct.unpack_from("<ii", circuit, 1024 + 8 * i) for i in range(circuit[5])]


before, take = held("circuits", "clipper.circuit"), held("takes", "tone.raw")
built = [(knee, ink, told("knob", str(knee), str(THERMAL), given=before)) for knee, ink in KNEES]

p = Picture(
    "knees.svg", 900, 400, "Three knees on one circuit, and a take through each",
    [
        "Left: the curves that the program knob builds with a thermal voltage of 45.312 millivolts and knees at 100, 292.7 and 600 millivolts.",
        "Each follows its input up to the knee, bends over within about four thermal voltages, and falls; past its last column it goes on",
        "with the slope of the last two. Right: the first 5 milliseconds of a loud tone through the clipper with each of them. The higher the",
        "knee, the later the tone is cut off.",
    ])
p.text(28, 34, "Three knees on one circuit", size=16, bold=True)
p.text(28, 56, "knob A 45312 < circuits/clipper.circuit", ink=GREY)

# ---- the curves, in volts

LEFT, BASE, VOLT = 70, 264, 310


def on(x, y):
    return LEFT + VOLT * x / 1e6, BASE - VOLT * y / 1e6 * 0.5


p.text(on(0, 0)[0], 84, "wave sent back", size=12, ink=GREY)
p.text(on(FURTHEST, 0)[0], 392, "wave that reaches the diode", "end", 12, GREY)
for tenths in range(-6, 11, 2):
    x, y = on(0, tenths * 100_000)
    p.run([(x, y), on(FURTHEST, tenths * 100_000)], ink=GREY if tenths == 0 else "#ddd", width=1)
    p.text(x - 8, y + 4, f"{tenths / 10:g} V".replace("-", "\u2212"), "end", 12, GREY)
for tenths in range(0, 11, 2):
    x, y = on(tenths * 100_000, -600_000)
    p.run([(x, y), (x, y + 5)], ink=GREY, width=1)
    p.text(x, y + 20, f"{tenths / 10:g} V", "middle", 12, GREY)
p.run([on(0, 0), on(FURTHEST, FURTHEST)], ink=GREY, width=1, dash="4 4")
for knee, ink, circuit in built:
    curve = columns(circuit)
    p.run([on(x, y) for x, y in curve + [(FURTHEST, single(curve, FURTHEST))]], ink=ink, width=2)
    p.circle(*on(*curve[1]), 4, ink=ink, fill="white")
    x, y = on(*curve[-1])
    p.run([(x, y - 6), (x, y + 6)], ink=ink, width=2)

# ---- the take through each, in volts

START, END, MID, HIGH = 500, 870, 244, 142
SHOWN = 5 * RATE // 1000
p.text(START, 84, "takes/tone.raw through each", size=12, ink=GREY)


def heard(i, volts):
    return START + (END - START) * i / SHOWN, MID - HIGH * volts


for tenths in range(-8, 11, 2):
    x, y = heard(0, tenths / 10)
    p.run([(x, y), heard(SHOWN, tenths / 10)], ink=GREY if tenths == 0 else "#ddd", width=1)
    p.text(x - 8, y + 4, f"{tenths / 10:g} V".replace("-", "\u2212"), "end", 12, GREY)
for ms in range(0, 6):
    x, y = heard(ms * RATE / 1000, -0.8)
    p.run([(x, y), (x, y + 5)], ink=GREY, width=1)
    p.text(x, y + 20, f"{ms} ms", "middle", 12, GREY)
for knee, ink, circuit in built:
    outputs = [half / 2e6 for half, in struct.iter_unpack("<i", told("take", given=circuit + take))]
    p.run([heard(i, volts) for i, volts in enumerate(outputs[:SHOWN + 1])], ink=ink, width=2)
for i, (knee, ink, circuit) in enumerate(built):
    p.text(400 + 170 * i, 34, f"knee {knee / 1000:g} mV", ink=ink, bold=True)
p.text(400, 56, "circle: the knee; bar: the last column; dashed: the wave itself", size=12, ink=GREY)
p.save()
