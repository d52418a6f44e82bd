#!/usr/bin/env python3
# Writes tone.raw, a take of 960 samples: a tone of 200 Hz at 48,000 samples a second, whose amplitude falls from 3 V. A sample is three bytes, signed,
# the lowest first, in microvolts. From the repository's root:
#
#     python3 takes/tone.py > takes/tone.raw
import math
import sys

for i in range(960):
    microvolts = round(3_000_000 * math.exp(-i / 240) * math.sin(2 * math.pi * 200 * i / 48_000))
    sys.stdout.buffer.write(microvolts.to_bytes(3, "little", signed=True))
