#!/usr/bin/env python3
# Draws seven pictures of this folder: tree.svg, curve.svg, ends.svg, flow.svg, bound.svg, reversed.svg, light.svg. From the repository's root:
#
#     python3 docs/pictures/draw.py
#
# Each run writes the same bytes. Nothing but Python's standard library is needed. The waves in tree.svg, bound.svg, reversed.svg and light.svg and the
# lines in curve.svg and ends.svg are worked out here, by the rules of one sample and of the curve.
import math
import os
import textwrap
from fractions import Fraction
from xml.sax.saxutils import escape

CURVE_K = [(0, 0), (1000, 1000), (2000, 0)]
PARTS = 2**24

UP, DOWN, INK, GREY, PALE, REGION = "#1f6f8b", "#b5462f", "#222", "#666", "#f6f6f2", "#e3eef2"


# ---- one sample, rounded as the engine rounds (`whole`) or not at all

def single(columns, x):
    """The line through the columns. Outside them it goes on with the slope of the first two, and of the last two."""
    passed = sum(c <= x for c, _ in columns)
    begin = min(max(passed - 1, 0), len(columns) - 2)
    (x0, y0), (x1, y1) = columns[begin:begin + 2]
    return y0 + Fraction(y1 - y0, x1 - x0) * (x - x0)


def pair(columns, x):
    return -single(columns, -x) if x < 0 else single(columns, x)


def diode(columns, x, whole):
    return math.trunc(pair(columns, x)) if whole else pair(columns, x)


def parallel_up(g, a1, a2, whole):
    part = Fraction(g * (a1 - a2), PARTS)
    return a2 + (math.floor(part) if whole else part)


# ---- numbers as text

def num(z):
    """A whole number, or eight places of a fraction; with a true minus."""
    text = str(z) if z == int(z) else f"{float(z):.8f}"
    return text.replace("-", "\u2212")


def both(rounded, unrounded):
    return num(rounded) if rounded == unrounded else f"{num(rounded)} ({num(unrounded)})"


# ---- drawing: a picture is a list of lines of text

def at(*numbers):
    return " ".join(f"{n:g}" for n in (round(n, 1) for n in numbers))


class Picture:
    def __init__(self, name, width, height, title, desc):
        self.name = name
        self.lines = [
            f'<svg xmlns="http://www.w3.org/2000/svg" viewBox="0 0 {width} {height}" width="{width}" height="{height}" role="img">',
            f"<title>{escape(title)}</title>",
            "<desc>",
            *(escape(line) for line in desc),
            "</desc>",
            "<style>",
            "text { font-family: Helvetica, Arial, sans-serif; }",
            "</style>",
            f'<rect width="{width}" height="{height}" fill="white"/>',
        ]

    def text(self, x, y, words, anchor="start", size=13, ink=INK, bold=False, turn=False):
        more = ' font-weight="bold"' if bold else ""
        more += f' transform="rotate(-90 {at(x, y)})"' if turn else ""
        place = f'x="{at(x)}" y="{at(y)}" text-anchor="{anchor}" font-size="{size}" fill="{ink}"{more}'
        cut = "\n" if len(place) + len(words) > 140 else ""
        self.lines.append(f"<text {place}{cut}>{escape(words)}</text>")

    def path(self, d, ink=INK, width=1.5, fill="none", dash=""):
        more = f' stroke-dasharray="{dash}"' if dash else ""
        self.lines.append(f'<path d="{d}" stroke="{ink}" stroke-width="{width}"{more} fill="{fill}"/>')

    def run(self, points, **how):
        steps = [("L" if i else "M") + at(x, y) for i, (x, y) in enumerate(points)]
        self.path("\n".join(" ".join(steps[i:i + 8]) for i in range(0, len(steps), 8)), **how)

    def circle(self, x, y, r, ink=INK, fill="none"):
        self.lines.append(f'<circle cx="{at(x)}" cy="{at(y)}" r="{at(r)}" stroke="{ink}" stroke-width="1.5" fill="{fill}"/>')

    def rect(self, x, y, w, h, ink=GREY, fill=PALE, dash="", rx=6):
        more = f' stroke-dasharray="{dash}"' if dash else ""
        place = f'x="{at(x)}" y="{at(y)}" width="{at(w)}" height="{at(h)}" rx="{rx}"'
        self.lines.append(f'<rect {place} stroke="{ink}"{more} fill="{fill}"/>')

    def box(self, cx, y, w, words, fill=PALE):
        """A box centred at cx: a line of title and lines below it. Hands back its lower edge."""
        h = 14 + 17 * len(words)
        self.rect(cx - w / 2, y, w, h, fill=fill)
        for i, line in enumerate(words):
            self.text(cx, y + 20 + 17 * i, line, "middle", 13 if i == 0 else 12, INK if i == 0 else GREY, bold=i == 0)
        return y + h

    def arrow(self, points, ink):
        """A line through the points with a head at its end."""
        (x0, y0), (x1, y1) = points[-2:]
        long = math.hypot(x1 - x0, y1 - y0)
        ux, uy = (x1 - x0) / long, (y1 - y0) / long
        bx, by = x1 - 10 * ux, y1 - 10 * uy
        self.run(points[:-1] + [(bx, by)], ink=ink, width=2)
        self.path(f"M{at(x1, y1)} L{at(bx - 4 * uy, by + 4 * ux)} L{at(bx + 4 * uy, by - 4 * ux)} z", ink=ink, width=0.5, fill=ink)

    def waves(self, child, parent, up, down, gap=13):
        """A wave up from the child's edge to the parent's, and one down beside it, with their values outside."""
        (cx, cy), (px, py) = child, parent
        self.arrow([(cx - gap, cy - 3), (px - gap, py + 3)], UP)
        self.arrow([(px + gap, py + 3), (cx + gap, cy - 3)], DOWN)
        x, y = (cx + px) / 2, (cy + py) / 2 + 4
        off = gap + 9 + 7 * abs(cx - px) / (cy - py)
        self.text(x - off, y, up, "end", ink=UP, bold=True)
        self.text(x + off, y, down, "start", ink=DOWN, bold=True)

    def save(self):
        path = os.path.join(os.path.dirname(os.path.abspath(__file__)), self.name)
        with open(path, "w", encoding="utf-8", newline="\n") as out:
            out.write("\n".join(self.lines + ["</svg>"]) + "\n")


# ---- tree.svg: bench case 8 as a schematic and as a tree, with the waves of its first sample

def tree():
    sample, stored, rate, ohms, henries = 4000, 0, 48000, 250.0, 0.0078125
    port = 2 * henries * rate
    ratio = math.floor(Fraction(port / (ohms + port)) * PARTS)
    top = ohms * port / (ohms + port)
    u = parallel_up(ratio, sample, stored, True)
    answer = diode(CURVE_K, u, True)
    b1, b2 = u + answer - sample, u + answer - stored
    p = Picture(
        "tree.svg", 1000, 500, "A circuit, and its tree with the waves of one sample",
        [
            "Left: an input of 250 ohms, an inductor and a diode pair, all across the same two wires.",
            "Right: the tree. The diode is at the top, the parallel adaptor below it, the input and the inductor are its children.",
            f"Up go {sample} from the input, {stored} from the inductor and {u} to the diode; the diode answers {answer}.",
            f"Down come {b1} to the input and {b2} to the inductor.",
        ])

    p.text(30, 34, "The circuit", size=16, bold=True)
    p.text(30, 56, "input, inductor and diode across the same two wires", ink=GREY)
    left, mid, right, high, low = 72, 232, 394, 112, 412
    p.run([(left, high), (right, high)])
    p.run([(left, low), (right, low)])
    for x, name, row in ((left, "input", "row 0"), (mid, "inductor", "row 1"), (right, "diode pair", "at the top")):
        p.rect(x - 36, 146, 144 if x != right else 132, 232, dash="4 4", fill="none")
        p.text(x + 10, 168, name, bold=True)
        p.text(x + 10, 185, row, size=12, ink=GREY)
    for x in (left, mid):
        p.circle(x, high, 3, fill=INK)
        p.circle(x, low, 3, fill=INK)
    # the input: a source behind its ohms
    p.run([(left, high), (left, 204)])
    p.rect(left - 10, 204, 20, 52, ink=INK, fill="white", rx=0)
    p.run([(left, 256), (left, 288)])
    p.circle(left, 310, 22)
    p.path(f"M{left - 12} 310 q6 -12 12 0 t12 0")
    p.run([(left, 332), (left, low)])
    p.text(left + 20, 235, f"{ohms:g} \u03a9", size=12)
    p.text(left + 32, 315, "sample", size=12)
    # the inductor
    p.run([(mid, high), (mid, 220)])
    p.path(f"M{mid} 220" + " a11 11 0 0 1 0 22" * 4)
    p.run([(mid, 308), (mid, low)])
    p.text(mid + 20, 269, f"{henries:g} H", size=12)
    # the diode pair
    p.run([(right, high), (right, 226)])
    p.run([(right, 302), (right, low)])
    p.path(f"M{right - 18} 226 h36 v76 h-36 z")
    p.path(f"M{right - 28} 254 h20 l-10 18 z M{right - 28} 274 h20", fill="white")
    p.path(f"M{right + 8} 272 h20 l-10 -18 z M{right + 8} 252 h20", fill="white")
    p.text(right + 36, 269, "curve K", size=12)
    p.text(30, 440, "The two wires are row 2, the parallel adaptor.", ink=GREY)

    p.text(520, 34, f"Its tree, at a first sample of {sample} \u00b5V", size=16, bold=True)
    p.text(520, 56, "waves in microvolts:", ink=GREY)
    p.text(665, 56, "going up", ink=UP, bold=True)
    p.text(740, 56, "coming down", ink=DOWN, bold=True)
    x = 750
    below = p.box(x, 78, 200, ["diode", f"curve K, made for {top:g} \u03a9"], "#fbe9d0")
    p.waves((x, 200), (x, below), num(u), num(answer))
    below = p.box(x, 200, 200, ["parallel, row 2", f"ratio {ratio} of 2\u00b2\u2074"], REGION)
    p.waves((640, 352), (x - 48, below), num(sample), num(b1))
    p.waves((860, 352), (x + 48, below), num(stored), num(b2))
    p.box(625, 352, 180, ["input, row 0", f"{ohms:g} \u03a9"])
    p.box(875, 352, 180, ["inductor, row 1", f"{port:g} \u03a9 at {rate:,} Hz"])
    p.text(535, 428, f"The inductor stores {num(-b2)}, its wave of the next sample.", ink=GREY)
    p.text(535, 450, f"A tap at the inductor reads {num(stored)} + {num(b2)} = {num(stored + b2)} half microvolts,", ink=GREY)
    p.text(535, 468, f"which is {num((stored + b2) // 2)} \u00b5V.", ink=GREY)
    p.save()


# ---- curve.svg: a curve that is accepted beside two that are refused

class Plot:
    """A square of microvolts from -4000 to 4000 either way, with the region where the answer is no larger than the wave."""
    reach, side = 4000, 248

    def __init__(self, p, x, y):
        self.p, self.x, self.y = p, x, y
        p.rect(x, y, self.side, self.side, rx=0, fill="white")
        far = self.reach
        for s in (1, -1):
            p.path("M" + " L".join(at(*self.on(*q)) for q in ((0, 0), (s * far, far), (s * far, -far))) + " z", width=0, fill=REGION)
        p.run([self.on(-far, 0), self.on(far, 0)], ink="#aaa", width=1)
        p.run([self.on(0, -far), self.on(0, far)], ink="#aaa", width=1)
        for t in range(-far, far + 1, 1000):
            long = 6 if t % 2000 == 0 else 3
            (u, v) = self.on(t, -far)
            p.run([(u, v), (u, v + long)], ink=GREY, width=1)
            (a, b) = self.on(-far, t)
            p.run([(a, b), (a - long, b)], ink=GREY, width=1)
            if t % 2000 == 0:
                p.text(u, v + 19, num(t), "middle", 11, GREY)
                p.text(a - 9, b + 4, num(t), "end", 11, GREY)
        p.text(x + self.side / 2, y + self.side + 37, "wave to the diode, \u00b5V", "middle", 12, GREY)
        p.text(x - 52, y + self.side / 2, "wave sent back, \u00b5V", "middle", 12, GREY, turn=True)

    def on(self, x, y):
        scale = self.side / (2 * self.reach)
        return self.x + (x + self.reach) * scale, self.y + (self.reach - y) * scale

    def line(self, points, **how):
        self.p.run([self.on(x, y) for x, y in points], **how)

    def columns(self, columns, ink):
        for c in columns:
            self.p.circle(*self.on(*c), 4, ink=ink, fill=ink)

    def ends(self, columns, sides):
        """The line through the columns, and dashed as it goes on at these sides."""
        for side in sides:
            self.line([columns[-1 if side > 0 else 0], (side * self.reach, single(columns, side * self.reach))], ink=UP, width=2.5, dash="7 4")
        self.line(columns, ink=UP, width=2.5)
        self.columns(columns, UP)

    def pair(self, columns):
        self.line([(t, pair(columns, t)) for t in range(-self.reach, 1, 1000)], ink=UP, width=1.5, dash="2 3")
        self.ends(columns, [1])


def curve():
    p = Picture(
        "curve.svg", 1030, 500, "An accepted curve and two refused ones",
        [
            "Each plot has the wave to the diode across and the wave that it sends back upwards; the shaded region is where the wave",
            "sent back is no larger than the wave that came. The accepted curve stays in it for every wave. The second curve falls by",
            "1500 while the wave rises by 1000. The third follows a parabola past its last column and leaves the region at 3000.",
        ])
    xs = [70, 412, 754]
    y = 76

    def heading(x, title, columns):
        p.text(x - 48, 30, title, size=15, bold=True)
        p.text(x - 48, 52, "pair " + " ".join(f"({num(a)}, {num(b)})" for a, b in columns), ink=GREY)

    def below(x, words):
        for i, line in enumerate(textwrap.wrap(words, 47)):
            p.text(x - 48, y + 312 + 18 * i, line, size=12)

    # accepted
    x = xs[0]
    gentle = [(0, 0), (1000, 1000), (2000, 500)]
    heading(x, "Accepted", gentle)
    plot = Plot(p, x, y)
    plot.pair(gentle)
    below(
        x, "Full: straight between columns. "
        "Dashed: past the last column it goes on with the slope of the last two. "
        "Dotted: a negative wave gets minus the answer for its opposite. "
        "The line stays in the shaded region, |sent\u00a0back|\u00a0\u2264\u00a0|wave|, for every wave.")

    # too steep between two columns
    x = xs[1]
    steep = [(0, 0), (1000, 1000), (2000, -500)]
    heading(x, "Refused 10 at 2: too steep", steep)
    plot = Plot(p, x, y)
    (x1, y1), (x2, y2) = steep[1:]
    plot.line([(x1, y1), (x2, y1), (x2, y2)], ink=GREY, width=1, dash="3 3")
    plot.line(steep, ink=DOWN, width=2.5)
    plot.columns(steep, DOWN)
    a, b = plot.on((x1 + x2) / 2, y1)
    p.text(a, b - 6, num(x2 - x1), "middle", 11, GREY)
    a, b = plot.on(x2, (y1 + y2) / 2)
    p.text(a + 6, b + 4, num(y1 - y2), "start", 11, GREY)
    below(
        x, f"From column 1 to column 2 the wave rises by {num(x2 - x1)} and the answer falls by {num(y1 - y2)}. "
        "It stays in the shaded region, and is refused even so: a change of the wave would come back larger.")

    # past the last column by its last spline
    x = xs[2]
    carried = lambda t: Fraction(t * (2000 - t), 1000)
    out = 3000
    heading(x, "Refused: the last spline carried on", CURVE_K)
    plot = Plot(p, x, y)
    end = 3236
    plot.line([(t, carried(t)) for t in range(2000, end, 103)] + [(end, carried(end))], ink=DOWN, width=2.5, dash="7 4")
    plot.line(CURVE_K, ink=DOWN, width=2.5)
    plot.columns(CURVE_K, DOWN)
    p.circle(*plot.on(out, carried(out)), 4, ink=DOWN, fill="white")
    below(
        x, "An old table ran on past its last column. Here curve K runs on by the parabola through its columns. "
        f"At {num(out)} it leaves the shaded region: the diode would send back more than it got. "
        f"As a column, ({num(out)}, {num(carried(out))}) is refused 10 at 3.")
    p.save()


# ---- ends.svg: the line outside its columns, and what it was before request 3

def ends():
    p = Picture(
        "ends.svg", 1030, 452, "The line outside its columns, before and after",
        [
            "Three curves. Before, the line fell one for one past the last column, and went down one for one to the left of a single's first",
            "column. Now it goes on with the slope of the two columns at that end. It stays where the wave sent back is no larger than the wave.",
        ])
    y = 76

    def draw(x, title, kind, columns, words):
        p.text(x - 48, 30, title, size=15, bold=True)
        p.text(x - 48, 52, kind + " " + " ".join(f"({num(a)}, {num(b)})" for a, b in columns), ink=GREY)
        plot = Plot(p, x, y)
        far = plot.reach
        for side in [1] if kind == "pair" else [1, -1]:
            a, b = columns[-1 if side > 0 else 0]
            plot.line([(a, b), (side * far, b - (far - abs(a)))], ink=DOWN, width=1.5)
        if kind == "pair":
            plot.pair(columns)
        else:
            plot.ends(columns, [1, -1])
        for i, line in enumerate(textwrap.wrap(words, 47)):
            p.text(x - 48, y + 312 + 18 * i, line, size=12)

    draw(
        70, "The last two columns level", "pair", [(0, 0), (1000, 1000), (2000, 1000)],
        "Dashed, the line now: it stays at 1000. Thin, before: it fell from the last column on.")
    draw(
        412, "A gentle last slope", "pair", [(0, 0), (1000, 1000), (2000, 500)],
        "A wave of 4000 is answered with \u2212500, where \u22121500 was the answer before.")
    draw(
        754, "A single, at both ends", "single", [(-2000, 1000), (0, 0), (1000, 500)],
        "To the left the line goes on with the slope of the first two columns, \u22121/2, and to the right with that of the last two, 1/2.")
    p.save()


# ---- flow.svg: from bytes to outputs

def flow():
    p = Picture(
        "flow.svg", 1040, 470, "From the bytes of a circuit file to outputs",
        [
            "A circuit file is read into a record, set-up makes prepared rows of it, a run lays out a plan and works samples by it.",
            "read can refuse with 1 to 11, write with 1 and 3 to 11, set_up with 3 to 11, run with 3 to 15.",
            "build makes a curve of a knee and a thermal voltage, and can refuse with 18; put puts it into a record.",
            "feed makes raw outputs of the bytes of a take, call by call, and can refuse with 3 to 12, 15 and 16; finish ends the take, and can",
            "refuse with 3 to 12, 15 and 17.",
            "list makes the text of a listing from the bytes; where reading refuses, the text says the number, 1 to 11.",
        ])
    p.text(28, 34, "From a circuit file to outputs", size=16, bold=True)
    p.text(28, 56, "a function's name, and the numbers that it can refuse with", ink=GREY)
    w, gap, y, h = 130, 84, 112, 65
    mid = y + h / 2
    centre = [28 + w / 2 + i * (w + gap) for i in range(5)]
    for x, words in zip(centre, (
            ["bytes", "a circuit file,", "1,536 bytes"],
            ["record", "rate, rows, tap,", "curve"],
            ["prepared rows", "port resistance", "and ratio"],
            ["plan", "laid out once, read", "by every sample"],
            ["outputs", "half microvolts, one", "for each sample"])):
        p.box(x, y, w, words, REGION if words[0] == "plan" else PALE)

    def label(x, y, name, numbers, anchor="middle"):
        p.text(x, y, name, anchor, bold=True)
        p.text(x, y + 16, numbers, anchor, 12, DOWN)

    def between(i):
        return centre[i] + w / 2 + 4, centre[i + 1] - w / 2 - 4, (centre[i] + centre[i + 1]) / 2

    a, b, x = between(0)
    p.arrow([(a, mid - 8), (b, mid - 8)], UP)
    label(x, mid - 32, "read", "1 to 11")
    p.arrow([(b, mid + 10), (a, mid + 10)], UP)
    label(x, mid + 30, "write", "1, 3 to 11")
    a, b, x = between(1)
    p.arrow([(a, mid), (b, mid)], UP)
    label(x, mid - 24, "set_up", "3 to 11")
    a, b = centre[1] + 30, centre[2] + 40
    p.arrow([(b, 88), (a, 88), (a, y - 4)], UP)
    p.text((a + b) / 2 + 20, 80, "build, put", "end", bold=True)
    p.text((a + b) / 2 + 28, 80, "18", size=12, ink=DOWN)
    p.text(b + 8, 92, "a knee and a thermal voltage", size=12, ink=GREY)
    for i in (2, 3):
        a, b, x = between(i)
        p.arrow([(a, mid), (b, mid)], GREY)
        p.text(x, mid - 9, "in run", "middle", 12, GREY)

    under = y + h
    p.arrow([(centre[1], under + 4), (centre[1], 252), (centre[4], 252), (centre[4], under + 4)], UP)
    x = (centre[1] + centre[4]) / 2
    label(x, 226, "run", "3 to 15")
    p.text(x, 274, "takes the record, the stored waves and samples in microvolts; sets the record up anew;", "middle", 12, GREY)
    p.text(x, 291, "hands back how many samples are done, the segment of the last, and the stored waves", "middle", 12, GREY)

    p.arrow([(centre[0], under + 4), (centre[0], 316)], UP)
    label(centre[0] + 10, 254, "list", "in its text: 1 to 11", "start")
    p.box(centre[0], 320, w, ["listing", "a line for each row,", "or the refusal"])

    p.box(centre[1], 320, w, ["raw take", "three bytes each,", "cut at any byte"])
    p.box(centre[4], 320, w, ["raw outputs", "four bytes", "for each sample"])
    p.arrow([(centre[1] + w / 2 + 4, 352), (centre[4] - w / 2 - 4, 352)], UP)
    label(centre[2], 328, "feed, for each piece", "3 to 12, 15, 16")
    label(centre[3], 328, "finish, at the end", "3 to 12, 15, 17")
    p.text(x, 372, "feed takes the record and what the call before it carried on: the stored waves,", "middle", 12, GREY)
    p.text(x, 389, "the bytes of a sample that is not whole yet, how many samples are done", "middle", 12, GREY)
    p.text(28, 440, "What each number means, its place and what to do about it: docs/NUMBERS.md.", ink=GREY)
    p.save()


# ---- bound.svg: the chain of docs/BOUND.md with two adaptors, each wave rounded and unrounded

def bound():
    columns = [(0, 0), (67108864, 67108863)]
    ratio = PARTS - 1
    sample, low, high = 3, 0, 0

    def worked(whole):
        inner = parallel_up(ratio, sample, low, whole)
        top = parallel_up(ratio, inner, high, whole)
        answer = diode(columns, top, whole)
        to_inner, to_high = top + answer - inner, top + answer - high
        return inner, top, answer, to_inner, to_high, inner + to_inner - sample, inner + to_inner - low

    inner, top, answer, to_inner, to_high, to_input, to_low = (both(r, e) for r, e in zip(worked(True), worked(False)))
    p = Picture(
        "bound.svg", 900, 520, "A chain of two adaptors, each wave rounded and unrounded",
        [
            "The diode is at the top, then the parallel adaptor of row 4 over row 2 and a capacitor, and the parallel adaptor of row 2",
            "over the input, at 3 microvolts, and a resistor. Every rounding goes the same way: the wave that arrives at the capacitor",
            f"is {to_high} microvolts.",
        ])
    p.text(28, 34, "microvolts: rounded (unrounded)", size=14, bold=True)
    p.text(28, 56, "going up", ink=UP, bold=True)
    p.text(28, 76, "coming down", ink=DOWN, bold=True)
    g = f"g = {ratio}"
    below = p.box(500, 20, 210, ["diode", " ".join(f"({x}, {y})" for x, y in columns)], "#fbe9d0")
    p.waves((500, 142), (500, below), top, answer)
    below = p.box(500, 142, 180, ["parallel, row 4", g], REGION)
    p.waves((340, 290), (460, below), inner, to_inner)
    p.waves((730, 290), (560, below), num(high), to_high)
    below = p.box(330, 290, 180, ["parallel, row 2", g], REGION)
    p.box(750, 290, 180, ["capacitor, row 3", "2\u207b\u2074\u00b9 F, 22.9 M\u03a9"])
    p.waves((170, 440), (290, below), num(sample), to_input)
    p.waves((520, 440), (380, below), num(low), to_low)
    p.box(150, 440, 180, ["input, row 0", f"sample {sample}, 1 \u03a9"])
    p.box(540, 440, 180, ["resistor, row 1", f"{PARTS} \u03a9"])
    p.save()


# ---- reversed.svg: bench case 6 with a steady source for its resistor, as it was and with the source reversed

def turned_round():
    sample, own, ratio = 4000, 600, PARTS // 4
    p = Picture(
        "reversed.svg", 960, 470, "A source in series with the input, as it was and reversed",
        [
            "Twice the same tree: the diode at the top, the series adaptor below it, an input of 4000 microvolts and a steady source of 600.",
            "On the right the source is reversed: between it and its row both waves change sign, and the tap reads its own two.",
        ])
    for left, turn, title in ((0, 1, "as it was"), (480, -1, "the source reversed")):
        up = turn * own
        risen = -(sample + up)
        answer = diode(CURVE_K, risen, True)
        b1 = sample - math.floor(Fraction(ratio * (sample + up + answer), PARTS))
        b2 = -(answer + b1)
        x = left + 240
        p.text(left + 28, 34, title, size=16, bold=True)
        below = p.box(x, 52, 180, ["diode", "curve K"], "#fbe9d0")
        p.waves((x, 162), (x, below), num(risen), num(answer))
        below = p.box(x, 162, 180, ["series, row 2", "ratio 1/4"], REGION)
        p.waves((left + 130, 300), (x - 46, below), num(sample), num(b1))
        p.waves((left + 350, 300), (x + 46, below), num(up), num(b2))
        p.box(left + 120, 300, 160, ["input, row 0", f"sample {sample}"])
        p.box(left + 360, 300, 170, ["source, row 1", f"sends {num(own)}, gets {num(turn * b2)}"], PALE if turn > 0 else "#f3e3ea")
        p.text(left + 445, 376, f"tap: {num(own)} + {num(turn * b2)} = {num(own + turn * b2)}".replace("+ \u2212", "\u2212 "), "end", bold=True)
    p.text(28, 420, "waves in microvolts:", ink=GREY)
    p.text(172, 420, "going up", ink=UP, bold=True)
    p.text(246, 420, "coming down", ink=DOWN, bold=True)
    p.text(28, 444, "Reversed, a leaf's two waves change sign between it and its row. The tap adds the leaf's own two, in half microvolts.", ink=GREY)
    p.save()


# ---- light.svg: the segments of a single and of a pair, and what a light shows of a take

SHADES = ["#c9c9c9", "#8fc1d0", "#e0a33a", "#b5462f"]


def segment(kind, columns, x):
    """How many columns have an x that is not above the wave, of a pair its magnitude."""
    return sum(c <= (abs(x) if kind == "pair" else x) for c, _ in columns)


def light():
    p = Picture(
        "light.svg", 1030, 470, "Segments of a curve, and what the light shows",
        [
            "On the left a single's curve with three columns: segment 0 is left of its first column, and each column begins the next. In the",
            "middle a pair, whose segments are counted by the wave's magnitude. On the right the waves that 24 samples send to that pair's",
            "diode, in three calls of eight: each call tells the segment of its last sample.",
        ])
    y, side = 76, Plot.side

    def draw(x, title, kind, columns):
        p.text(x - 48, 30, title, size=15, bold=True)
        p.text(x - 48, 52, kind + " " + " ".join(f"({num(a)}, {num(b)})" for a, b in columns), ink=GREY)
        plot = Plot(p, x, y)
        inner = [a for a, _ in columns] if kind == "single" else sorted({s * a for a, _ in columns for s in (1, -1)} - {0})
        edges = [-plot.reach, *inner, plot.reach]
        for a, b in zip(edges, edges[1:]):
            n = segment(kind, columns, (a + b) / 2)
            (u, v), (w, _) = plot.on(a, plot.reach), plot.on(b, plot.reach)
            p.rect(u, v - 18, w - u, 18, ink="white", fill=SHADES[n], rx=0)
            p.text((u + w) / 2, v - 5, str(n), "middle", 12, INK, bold=True)
            if b < plot.reach:
                plot.line([(b, plot.reach), (b, -plot.reach)], ink=GREY, width=1, dash="3 3")
        if kind == "pair":
            plot.pair(columns)
        else:
            plot.ends(columns, [1, -1])

    def below(x, words, wide=47):
        for i, line in enumerate(textwrap.wrap(words, wide)):
            p.text(x - 48, y + 312 + 18 * i, line, size=12)

    draw(70, "A single", "single", [(-2000, 1000), (0, 0), (1000, 500)])
    below(70, "The number of columns whose x is not above the wave. It is 0 only left of a single's first column, and never falls as the wave rises.")
    draw(412, "A pair", "pair", CURVE_K)
    below(412, "The same of the wave's magnitude. It never falls as the magnitude rises. A wave at a column's own x has passed it.")

    # a take whose amplitude falls, at the pair's diode
    x, calls, long = 754, 3, 8
    p.text(x - 48, 30, "The light, call by call", size=15, bold=True)
    p.text(x - 48, 52, "24 waves at the pair's diode, in calls of eight", ink=GREY)
    waves = [round(3800 * math.exp(-i / 15) * math.cos(4.35 + 1.17 * i)) for i in range(calls * long)]
    p.rect(x, y, side, side, rx=0, fill="white")
    across = lambda i: x + side * (i + 0.5) / len(waves)
    up = lambda v: y + side * (Plot.reach - v) / (2 * Plot.reach)
    for level in (-2000, -1000, 0, 1000, 2000):
        p.run([(x, up(level)), (x + side, up(level))], ink="#aaa", width=1, dash="" if level == 0 else "3 3")
        p.text(x - 9, up(level) + 4, num(level), "end", 11, GREY)
    for i, v in enumerate(waves):
        n = segment("pair", CURVE_K, v)
        p.run([(across(i), up(0)), (across(i), up(v))], ink=SHADES[n], width=4)
        p.circle(across(i), up(v), 3.5, ink=SHADES[n], fill=SHADES[n])
    for c in range(calls):
        a, b = x + side * c / calls, x + side * (c + 1) / calls
        last = segment("pair", CURVE_K, waves[(c + 1) * long - 1])
        p.run([(a + 3, y + side + 8), (b - 3, y + side + 8)], ink=GREY, width=1)
        p.circle((a + b) / 2, y + side + 27, 11, ink=GREY, fill=SHADES[last])
        p.text((a + b) / 2, y + side + 31, str(last), "middle", 12, INK, bold=True)
    below(x, "Each call tells the segment of its last finished sample, and none where it has finished none. "
          "Where the calls are cut makes no difference to the last light of a take.", 46)
    p.save()


if __name__ == "__main__":
    tree()
    curve()
    ends()
    flow()
    bound()
    turned_round()
    light()
