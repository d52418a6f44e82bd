#!/usr/bin/env python3
"""Prints the table of Omega, src/table.rt:  python3 crates/omega/table.py > crates/omega/src/table.rt

Each entry is the cubic of source document 002, equation 10, at i/256, times 2^24, rounded down, worked in fractions. The prover holds every
entry to the definition, so nothing rests on this script.
"""
from fractions import Fraction
from math import floor

ALPHA, BETA, GAMMA, ZETA = (
    Fraction(d) for d in ("0.009451797158780131", "0.1126446405111627", "0.4451353886588814", "0.5836596684310648")
)
FIRST, LAST = -943, 505


def cubic(x):
    return ((ALPHA * x + BETA) * x + GAMMA) * x + ZETA


entries = [floor(cubic(Fraction(i, 256)) * 2**24) for i in range(FIRST, LAST + 1)]
print("// Omega in parts of 2^24: entry n is for (n - 943)/256. Printed by table.py, and held to the definition by the proof of `read`.")
print("pub(crate) const OMEGA: [u32; %d] = [" % len(entries))
for entry in entries:
    print("    %d," % entry)
print("];")
