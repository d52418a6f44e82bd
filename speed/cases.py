#!/usr/bin/env python3
# The circuits and the take that speed is measured on. As a program it writes one circuit file and after it the take, as `take` reads them:
#
#     python3 speed/cases.py chain 31 62 pair 1200 2 | ./run take > outputs
#
# The last word is the version, 1 where there is none. A chain joins one leaf after another to what is there; a tree joins two by two, then those two by two. The leaves are a capacitor, a
# resistor, an inductor and a steady source in turn, and the last is the input; adaptors are parallel and series in turn, by their height.
# Each run writes the same bytes.
import math
import struct
import sys

RATE = 48_000
RESISTOR, CAPACITOR, INDUCTOR, INPUT, STEADY, SERIES, PARALLEL = range(1, 8)
LEAVES = [(CAPACITOR, 0, 4.7e-8), (RESISTOR, 0, 2200.0), (INDUCTOR, 0, 0.02), (STEADY, 250_000, 3300.0)]
LAST_LEAF = (INPUT, 0, 4700.0)

# Every case: 3 rows are a chain and a tree at once.
SHAPES = [("chain", 3), ("chain", 15), ("chain", 31), ("tree", 15), ("tree", 31)]
WIDTHS = [2, 62]
KINDS = ["pair", "single"]


def leaves(count):
    return [LEAVES[i % len(LEAVES)] for i in range(count - 1)] + [LAST_LEAF]


def join(rows, height, first, second):
    """Puts an adaptor over two rows, and hands back its own."""
    rows.append((PARALLEL if height % 2 else SERIES, first, second))
    return len(rows) - 1


def chain(count):
    rest = leaves((count + 1) // 2)
    rows = rest[:1]
    for height, leaf in enumerate(rest[1:], 1):
        rows.append(leaf)
        join(rows, height, len(rows) - 2, len(rows) - 1)
    return rows


def tree(count):
    rows = leaves((count + 1) // 2)
    level, height = list(range(len(rows))), 0
    while len(level) > 1:
        height += 1
        level = [join(rows, height, *pair) for pair in zip(level[::2], level[1::2])]
    return rows


def ports(rows):
    """The port resistances, each step one operation on doubles."""
    ohms = []
    for kind, a, b in rows:
        if kind == CAPACITOR:
            ohms.append(1.0 / ((2.0 * b) * RATE))
        elif kind == INDUCTOR:
            ohms.append((2.0 * b) * RATE)
        elif kind == SERIES:
            ohms.append(ohms[a] + ohms[b])
        elif kind == PARALLEL:
            ohms.append((ohms[a] * ohms[b]) / (ohms[a] + ohms[b]))
        else:
            ohms.append(b)
    return ohms


def bent(x, step, count):
    """Columns from (x, x) on whose slopes fall evenly from 1 to -1."""
    y, columns = x, [(x, x)]
    for i in range(count):
        x, y = x + step, y + step * (count - 1 - 2 * i) // (count - 1)
        columns.append((x, y))
    return columns


def columns(width, kind):
    """Of 62 columns those of a pair reach 6.1 V, and those of a single 6 V below and 6.2 V above the origin."""
    if width == 2:
        return [(0, 0), (500_000, 400_000)] if kind == "pair" else [(-500_000, -490_000), (0, 0)]
    if kind == "pair":
        return bent(0, 100_000, width - 1)
    below = width // 2 - 1
    return [(200_000 * i, 200_000 * i) for i in range(-below, 0)] + bent(0, 200_000, width - below - 1)


def block(number, data):
    data = data.ljust(508, b"\0")
    return data + struct.pack("<I", (sum(struct.unpack("<127I", data)) + number + 1) % 2**32)


def row_bytes(kind, a, b):
    return struct.pack("<BBBx12x", kind, a, b) if kind >= SERIES else struct.pack("<B3xid", kind, a, b)


def file_of(rows, width, kind, version=1):
    """The bytes of a circuit file. The tap is row 0."""
    heading = struct.pack("<HBBBBxxIxxxxd", version, len(rows), 0, 1 + (kind == "pair"), width, RATE, ports(rows)[-1])
    points = b"".join(struct.pack("<ii", *c) for c in columns(width, kind))
    return block(0, heading) + block(1, b"".join(row_bytes(*r) for r in rows)) + block(2, points)


def circuit(shape, count, width, kind, version=1):
    """A chain or a tree; row 0 is a capacitor."""
    return file_of((chain if shape == "chain" else tree)(count), width, kind, version)


def lone(width):
    """The input alone against a single: the wave that reaches the diode is the sample."""
    return file_of([LAST_LEAF], width, "single")


def held(width, passed, samples):
    """The same sample over and over, that has passed so many of the single's columns."""
    edges = [x for x, _ in columns(width, "single")]
    edges = [edges[0] - 200_000, *edges, edges[-1] + 200_000]
    microvolts = (edges[passed] + edges[passed + 1]) // 2
    return microvolts.to_bytes(3, "little", signed=True) * samples


def take(samples):
    """Two tones, of 4 V and 3.5 V, at about 1 kHz and 7 kHz."""
    tone = (4_000_000 * math.sin(0.131 * i) + 3_500_000 * math.sin(0.917 * i) for i in range(samples))
    return b"".join(round(microvolts).to_bytes(3, "little", signed=True) for microvolts in tone)


if __name__ == "__main__":
    shape, count, width, kind, samples, *version = sys.argv[1:]
    sys.stdout.buffer.write(circuit(shape, int(count), int(width), kind, *map(int, version)) + take(int(samples)))
