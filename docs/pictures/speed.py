#!/usr/bin/env python3
# Draws speed.svg and segments.svg, and fills in the tables of docs/SPEED.md, from what the scripts of speed/ printed: take.count, take.time,
# halving.segments, and walk.segments for the program as it was when it looked for a wave's segment from the left. From the repository's root:
#
#     python3 docs/pictures/speed.py
import os

from draw import DOWN, GREY, INK, UP, Picture

ROOT = os.path.join(os.path.dirname(os.path.abspath(__file__)), "..", "..")
PAGE = os.path.join(ROOT, "docs", "SPEED.md")


def figures(name, words):
    """The lines of a table as printed, below two lines of heading: by the words that say of what, what was measured."""
    with open(os.path.join(ROOT, "speed", name), encoding="utf-8") as file:
        rows = [line.split() for line in file.read().splitlines()[2:]]
    return {tuple(row[:words]): [float(f) for f in row[words:]] for row in rows}


COUNTS, TIMES = figures("take.count", 4), figures("take.time", 5)
HALVING, WALK = figures("halving.segments", 2), figures("walk.segments", 2)

# Where the costs stand in a line of counts, of a sample in version 1 and in version 2 and of a call: that of plain C, after it that of `take`, and
# the ratio. In a line of segments C and `take` stand
# twice, first in instructions and then in nanoseconds.
SAMPLE, LATER, CALL = 0, 3, 6


# ---- tables

def line(cells):
    return "| " + " | ".join(cells) + " |"


def table(head, rows):
    return "\n".join([line(head), "|" + "---|" * len(head), *map(line, rows)])


def costs(case, place, shown):
    c, take, ratio = COUNTS[case][place:place + 3]
    return [shown.format(c), shown.format(take), f"{ratio:.2f}"]


def count_table():
    rows = ([*case, *costs(case, SAMPLE, "{:.0f}"), *costs(case, LATER, "{:.0f}"), *costs(case, CALL, "{:,.0f}")] for case in COUNTS)
    beside = ["take", "take / C"]
    return table(["shape", "rows", "columns", "curve", "sample: C", *beside, "version 2: C", *beside, "call: C", *beside], rows)


def time_table():
    rows = []
    for (*case, piece), (c, take, ratio) in TIMES.items():
        rows.append([*case, f"{int(piece):,}", f"{c:.0f}", f"{take:.0f}", f"{ratio:.2f}"])
    return table(["shape", "rows", "columns", "curve", "samples of a call", "C", "take", "take / C"], rows)


def segment_table():
    rows = ([width, passed, *(f"{f:.0f}" for f in HALVING[width, passed][:2]), *(f"{f:.1f}" for f in HALVING[width, passed][2:])]
            for width, passed in [("2", "0"), ("2", "1"), ("2", "2"), ("62", "0"), ("62", "1"), ("62", "31"), ("62", "61"), ("62", "62")])
    return table(["columns", "passed", "instructions: C", "take", "nanoseconds: C", "take"], rows)


def growth(words, place, least, most, steps):
    """What one step more costs, between two chains that are so many steps apart."""
    return [words, *(f"{(COUNTS[most][place + i] - COUNTS[least][place + i]) / steps:,.1f}" for i in (0, 1))]


def growth_table():
    chain = lambda rows, width: ("chain", str(rows), str(width), "pair")
    small, tall, wide = chain(3, 2), chain(31, 2), chain(31, 62)
    return table(
        ["instructions of", "C", "take"], [
            growth("a sample, for each adaptor, that is two rows", SAMPLE, small, tall, 14),
            growth("the same in version 2", LATER, small, tall, 14),
            growth("a call, for each row", CALL, small, tall, 28),
            growth("a call, for each column", CALL, tall, wide, 60),
        ])


def put(page, name, text):
    """The page with a table put between its two marks."""
    start, end = f"<!-- {name} -->\n", f"\n<!-- end of {name} -->"
    before, rest = page.split(start)
    return before + start + text + end + rest.split(end)[1]


def fill_in():
    with open(PAGE, encoding="utf-8") as file:
        page = file.read()
    for name, text in (("counts", count_table()), ("growth", growth_table()), ("segments", segment_table()), ("times", time_table())):
        page = put(page, name, text)
    with open(PAGE, "w", encoding="utf-8", newline="\n") as file:
        file.write(page)


# ---- pictures

class Plot:
    """Something across from 0 to `far`, with a mark at each of `marks`; a cost upwards from 0 to `high`, with a line at every `step`."""
    width, height = 330, 260

    def __init__(self, p, x, y, title, across, far, marks, high, step):
        self.p, self.x, self.y, self.far, self.high = p, x, y, far, high
        p.text(x, y - 22, title, size=15, bold=True)
        for value in range(0, high + 1, step):
            p.run([self.on(0, value), self.on(far, value)], ink=GREY if value == 0 else "#ddd", width=1)
            p.text(x - 8, self.on(0, value)[1] + 4, f"{value:,}", "end", 11, GREY)
        for mark in marks:
            right, _ = self.on(mark, 0)
            p.run([(right, y + self.height), (right, y + self.height + 5)], ink=GREY, width=1)
            p.text(right, y + self.height + 20, str(mark), "middle", 11, GREY)
        p.text(x + self.width / 2, y + self.height + 40, across, "middle", 12, GREY)

    def on(self, across, value):
        return self.x + self.width * across / self.far, self.y + self.height * (1 - value / self.high)

    def line(self, points, ink, dash="", dots=True):
        points = [self.on(*point) for point in points]
        self.p.run(points, ink=ink, width=2, dash=dash)
        for point in points if dots else []:
            self.p.circle(*point, 3, ink=ink, fill=ink)


def legend(p, lines, words):
    x = 80
    for name, ink in lines:
        p.run([(x, 398), (x + 28, 398)], ink=ink, width=2)
        p.text(x + 36, 402, name, ink=ink, bold=True)
        x += 60 + 8 * len(name)
    p.text(870, 402, words, "end", 12, GREY)


def speed():
    """Both costs against the rows, of a chain with a pair."""
    most = COUNTS["chain", "31", "62", "pair"]
    lines = [("take", UP, 1), ("plain C", INK, 0)]
    said = ["Chains of 3, 15 and 31 rows with a pair. At 31 rows and 62 columns, instructions for a sample and for a call:"]
    said += [f"{name} {most[SAMPLE + at]:.0f} and {most[CALL + at]:,.0f}." for name, _, at in lines]
    p = Picture("speed.svg", 900, 420, "Instructions for a sample and for a call, against the rows of a circuit", said)
    for x, title, place, high, step in ((80, "sample", SAMPLE, 800, 200), (520, "call", CALL, 12_000, 3_000)):
        plot = Plot(p, x, 70, f"Instructions for a {title}", "rows", 32, (3, 15, 31), high, step)
        for _, ink, at in lines:
            for width, dash in (("2", ""), ("62", "6 4")):
                plot.line([(rows, COUNTS["chain", str(rows), width, "pair"][place + at]) for rows in (3, 15, 31)], ink, dash)
    legend(p, [(name, ink) for name, ink, _ in lines], "chains with a pair: full 2 columns, dashed 62")
    p.save()


def segments():
    """A sample by how many of 62 columns its wave has passed."""
    lines = [("walk from the left", DOWN, WALK, 1), ("halving", UP, HALVING, 1), ("plain C, halving", INK, HALVING, 0)]
    said = ["An input alone against a single of 62 columns. Instructions and nanoseconds for a sample whose wave has passed none and all of them:"]
    for name, _, measured, at in lines:
        none, every = measured["62", "0"], measured["62", "62"]
        said.append(f"{name}: {none[at]:.0f} and {every[at]:.0f}; {none[at + 2]:.1f} and {every[at + 2]:.1f}.")
    p = Picture("segments.svg", 900, 420, "What a sample costs by the columns that its wave has passed", said)
    for x, title, place, high, step in ((80, "Instructions", 0, 250, 50), (520, "Nanoseconds", 2, 40, 10)):
        plot = Plot(p, x, 70, f"{title} for a sample", "columns passed", 62, (0, 10, 20, 30, 40, 50, 62), high, step)
        for _, ink, measured, at in lines:
            plot.line([(passed, measured["62", str(passed)][place + at]) for passed in range(63)], ink, dots=False)
    legend(p, [(name, ink) for name, ink, _, _ in lines], "an input alone, a single of 62 columns")
    p.save()


speed()
segments()
fill_in()
