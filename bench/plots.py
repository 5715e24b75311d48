#!/usr/bin/env python3
"""Draws the figures of the benches as SVG, into docs/plots.

    bench/plots.py

From bench/sizes.txt, which bench/sizes.py prints: memory against the number of memberships, speed against it, and speed
against the depth of a chain of groups, as far as the file has them. From bench/rates.txt, which is copied from tables of
docs/BENCHMARKS.md: how many commands and questions of each kind there are in a second. A line `# note: ..` of a file
stands below the titles of its pictures.
"""
import math
import os
import sys

HERE = os.path.dirname(os.path.abspath(__file__))
PLOTS = os.path.join(HERE, "..", "docs", "plots")
WIDE, HIGH = 760, 420
LEFT, RIGHT, TOP, BOTTOM = 78, 196, 74, 56
INK, SOFT, GRID = "#222222", "#666666", "#e3e3e3"
COLORS = {"blue": "#1f6fb2", "orange": "#cc6a1e", "green": "#2f855a", "purple": "#7d4fa0"}


def escaped(text):
    return text.replace("&", "&amp;").replace("<", "&lt;")


def number(value):
    """A number as it is read: 1,500, 30,000, 2 million."""
    if value >= 1e6:
        return "%g million" % (value / 1e6)
    return "{:,.0f}".format(value) if value >= 1 else "%g" % value


class Drawing:
    """The elements of a picture."""

    def __init__(self, title, below, high=HIGH):
        self.high = high
        self.parts = []
        self.text(16, 28, title, size=16, weight="bold")
        self.text(16, 48, below, color=SOFT)

    def text(self, x, y, text, size=12, color=INK, anchor="start", weight="normal"):
        self.parts.append('<text x="%.1f" y="%.1f" font-size="%d" fill="%s" text-anchor="%s" font-weight="%s">%s</text>'
                          % (x, y, size, color, anchor, weight, escaped(text)))

    def line(self, x, y, to_x, to_y, color=GRID, width=1.0):
        self.parts.append('<line x1="%.1f" y1="%.1f" x2="%.1f" y2="%.1f" stroke="%s" stroke-width="%.1f"/>'
                          % (x, y, to_x, to_y, color, width))

    def path(self, points, color):
        steps = " ".join("%s%.1f %.1f" % ("L" if n else "M", x, y) for n, (x, y) in enumerate(points))
        self.parts.append('<path d="%s" fill="none" stroke="%s" stroke-width="2"/>' % (steps, color))
        for x, y in points:
            self.parts.append('<circle cx="%.1f" cy="%.1f" r="3.5" fill="%s"/>' % (x, y, color))

    def write(self, name):
        with open(os.path.join(PLOTS, name), "w") as file:
            file.write('<svg xmlns="http://www.w3.org/2000/svg" width="%d" height="%d" viewBox="0 0 %d %d" '
                       'font-family="Helvetica, Arial, sans-serif">\n' % (WIDE, self.high, WIDE, self.high))
            file.write('<rect width="%d" height="%d" fill="#ffffff"/>\n' % (WIDE, self.high))
            file.write("\n".join(self.parts) + "\n</svg>\n")


class Axis:
    """Where values stand between two places, by their size or by their logarithm."""

    def __init__(self, low, high, begin, end, ticks, by_log=False):
        self.low, self.high, self.begin, self.end, self.ticks, self.by_log = low, high, begin, end, ticks, by_log

    def at(self, value):
        low, high, value = (map(math.log10, (self.low, self.high, value)) if self.by_log
                            else (self.low, self.high, value))
        return self.begin + (value - low) / (high - low) * (self.end - self.begin)


def rising(most):
    """About five round steps from 0 up to a value."""
    step = 10 ** math.floor(math.log10(most / 4))
    step = next(step * k for k in (1, 2, 2.5, 5, 10) if most / (step * k) <= 5)
    return [step * n for n in range(math.ceil(most / step) + 1)]


def tens(low, high):
    """The powers of ten from below a value to above another; within two of them also twice and five times each."""
    powers = [10.0 ** n for n in range(math.floor(math.log10(low)), math.ceil(math.log10(high)) + 1)]
    return powers if high > 100 * low else sorted(power * k for power in powers for k in (1, 2, 5))


def spread(places, least):
    """The places moved apart by this at least, in their order."""
    order = sorted(range(len(places)), key=lambda n: places[n])
    moved = list(places)
    for before, after in zip(order, order[1:]):
        moved[after] = max(moved[after], moved[before] + least)
    return moved


def curves(name, title, below, across, series, x_log, y_log):
    """A picture with a curve for each series that has points: its label, its color, its points."""
    series = [it for it in series if it[2]]
    if not series:
        return
    drawing = Drawing(title, below)
    xs = [x for _, _, points in series for x, _ in points]
    ys = [y for _, _, points in series for _, y in points]
    x_ticks = tens(min(xs), max(xs)) if x_log else rising(max(xs))
    y_ticks = tens(min(ys), max(ys)) if y_log else rising(max(ys))
    x_low, x_high = (min(xs), max(xs)) if x_log else (0, max(xs))
    x = Axis(x_low, x_high, LEFT, WIDE - RIGHT, x_ticks, x_log)
    y = Axis(y_ticks[0], y_ticks[-1], HIGH - BOTTOM, TOP, y_ticks, y_log)
    for tick in y_ticks:
        drawing.line(LEFT, y.at(tick), WIDE - RIGHT, y.at(tick))
        drawing.text(LEFT - 8, y.at(tick) + 4, number(tick), color=SOFT, anchor="end")
    for tick in (it for it in x_ticks if x_low <= it <= x_high):
        drawing.line(x.at(tick), HIGH - BOTTOM, x.at(tick), HIGH - BOTTOM + 5, SOFT)
        drawing.text(x.at(tick), HIGH - BOTTOM + 20, number(tick), color=SOFT, anchor="middle")
    drawing.line(LEFT, HIGH - BOTTOM, WIDE - RIGHT, HIGH - BOTTOM, SOFT)
    drawing.text((LEFT + WIDE - RIGHT) / 2, HIGH - 12, across, color=SOFT, anchor="middle")
    lasts = spread([y.at(points[-1][1]) for _, _, points in series], 18)
    for (label, color, points), place in zip(series, lasts):
        drawing.path([(x.at(a), y.at(b)) for a, b in points], COLORS[color])
        drawing.text(WIDE - RIGHT + 10, place + 4, label, color=COLORS[color])
    drawing.write(name)


def rows_of_dots(name, title, below, rows):
    """A picture with a row for each label: its least and its greatest figure, by logarithm, and its color."""
    step, left = 25, 330
    drawing = Drawing(title, below, high=TOP + step * len(rows) + 40)
    bottom = TOP + step * len(rows)
    axis = Axis(3000, 200000, left, WIDE - 110, [3000, 10000, 30000, 100000], by_log=True)
    for tick in axis.ticks:
        drawing.line(axis.at(tick), TOP - 8, axis.at(tick), bottom)
        drawing.text(axis.at(tick), bottom + 18, number(tick), color=SOFT, anchor="middle")
    for n, (label, low, high, color) in enumerate(rows):
        middle = TOP + step * n + 8
        drawing.text(left - 10, middle + 4, label, anchor="end")
        drawing.path([(axis.at(value), middle) for value in sorted({low, high})], COLORS[color])
        told = number(low) if low == high else "%s to %s" % (number(low), number(high))
        drawing.text(axis.at(high) + 10, middle + 4, told, color=SOFT)
    drawing.write(name)


def table(name):
    """The rows of a file of figures, and its note, or nothing."""
    with open(os.path.join(HERE, name)) as file:
        lines = file.read().splitlines()
    notes = [line[len("# note: "):] for line in lines if line.startswith("# note: ")]
    return [line for line in lines if line and not line.startswith("#")], "; ".join(["", *notes])


def sizes():
    """Of what was measured: a list of sizes, each with its requests, seconds, those of a processor, and memory in kB;
    and the note."""
    found = {}
    rows, note = table("sizes.txt")
    for line in rows:
        what, *figures = line.split()
        size, count, seconds, processor, peak = map(float, figures)
        found.setdefault(what, []).append((size, count, seconds, processor, peak))
    return found, note


def memory(found, note):
    def of(what):
        return [(size, peak * 1024 / 1e6) for size, _, _, _, peak in found.get(what, [])]

    curves("memory.svg", "Memory against memberships", "MB that the program had resident at most" + note, "memberships",
           [("opening the journal", "orange", of("opening")), ("adding them", "blue", of("adding"))], False, False)


def speeds(found, what):
    return [(size, count / processor) for size, count, _, processor, _ in found.get(what, [])]


def speed(found, note):
    series = [("members of a group of 20", "green", speeds(found, "members")),
              ("adding", "blue", speeds(found, "adding")),
              ("one in and out", "purple", speeds(found, "changing")),
              ("opening the journal", "orange", speeds(found, "opening"))]
    curves("speed.svg", "Speed against memberships",
           "commands or questions in a second of a processor, the journal in memory" + note, "memberships", series,
           True, False)


def depth(found, note):
    series = [("at the top: one group", "green", speeds(found, "top")),
              ("at the bottom: every group", "orange", speeds(found, "bottom"))]
    curves("depth.svg", "Speed against the depth of nesting",
           "one person in and out of a chain of groups: commands in a second of a processor" + note,
           "groups in the chain", series, True, True)


def rates():
    rows = []
    lines, note = table("rates.txt")
    for line in lines:
        label, low, high, color = (part.strip() for part in line.split("|"))
        rows.append((label, float(low), float(high), color))
    rows_of_dots("rates.svg", "Commands and questions in a second",
                 "from the least to the greatest run; docs/BENCHMARKS.md says by which bench" + note, rows)


def main():
    os.makedirs(PLOTS, exist_ok=True)
    found, note = sizes()
    memory(found, note)
    speed(found, note)
    depth(found, note)
    rates()


sys.exit(main())
