"""Draws how long the answers of bench/day took: day.py COUNTS PICTURE. It needs Python 3.8.

Each line of COUNTS is a number of microseconds, what the program did beside its answer, and how many
answers took that long.
"""
import math
import sys
from collections import Counter
from html import escape

KINDS = {  # of an answer: what it is called, and its colour
    "kept": ("a reading was kept", "#1f5fa8"),
    "renewed": ("and a piece of the heap was renewed", "#b00000"),
    "saved": ("and the heap was saved", "#00705c"),
}
PER_DOUBLE = 8  # bars for each factor of two
WIDTH, HEIGHT, LEFT, RIGHT, TOP, BOTTOM = 900, 420, 78, 30, 56, 52


def read(path):
    """The answers of each kind, by bar."""
    bars = {kind: Counter() for kind in KINDS}
    with open(path, encoding="utf-8") as lines:
        for line in lines:
            at, kind, count = line.split()
            bars[kind][int(PER_DOUBLE * math.log2(max(1, int(at))))] += int(count)
    return bars


class Picture:
    def __init__(self, bars):
        ends = [bar for counts in bars.values() for bar in counts]
        self.first = PER_DOUBLE * math.floor(min(ends) / PER_DOUBLE)
        self.last = PER_DOUBLE * math.ceil((max(ends) + 1) / PER_DOUBLE)
        most = max(count for counts in bars.values() for count in counts.values())
        self.decades = math.ceil(math.log10(most + 1))
        self.parts = []

    def x(self, bar):
        return LEFT + (WIDTH - LEFT - RIGHT) * (bar - self.first) / (self.last - self.first)

    def y(self, count):  # a bar of one answer can be seen
        share = (math.log10(count) + 0.3) / (self.decades + 0.3)
        return HEIGHT - BOTTOM - (HEIGHT - TOP - BOTTOM) * share

    def text(self, x, y, said, anchor="middle", size=13):
        self.parts.append(f'<text x="{x:.1f}" y="{y:.1f}" font-size="{size}" fill="#222"'
                          f' text-anchor="{anchor}">{escape(said)}</text>')

    def rectangle(self, x, y, x2, y2, fill, opacity=1.0):
        self.parts.append(f'<rect x="{x:.1f}" y="{y:.1f}" width="{x2 - x:.1f}"'
                          f' height="{y2 - y:.1f}" fill="{fill}" fill-opacity="{opacity}"/>')

    def axes(self):
        for bar in range(self.first, self.last + 1, PER_DOUBLE):
            self.rectangle(self.x(bar), TOP, self.x(bar) + 1, HEIGHT - BOTTOM, "#ddd")
            micros = 2 ** (bar // PER_DOUBLE)
            said = f"{micros} µs" if micros < 1024 else f"{micros // 1000} ms"
            self.text(self.x(bar), HEIGHT - BOTTOM + 18, said)
        for decade in range(self.decades + 1):
            self.rectangle(LEFT, self.y(10 ** decade), WIDTH - RIGHT, self.y(10 ** decade) + 1,
                           "#ddd")
            self.text(LEFT - 8, self.y(10 ** decade) + 4, f"{10 ** decade:,}", "end")
        self.text((LEFT + WIDTH) / 2, HEIGHT - 10, "from a reading to its answer")

    def bars(self, kind, counts):
        for bar, count in sorted(counts.items()):
            self.rectangle(self.x(bar), self.y(count), self.x(bar + 1), HEIGHT - BOTTOM,
                           KINDS[kind][1], 0.6)

    def legend(self):
        x = LEFT
        for said, colour in KINDS.values():
            self.rectangle(x, 22, x + 12, 34, colour, 0.6)
            self.text(x + 18, 33, said, "start")
            x += 40 + 7 * len(said)

    def drawn(self):
        return "\n".join([
            f'<svg xmlns="http://www.w3.org/2000/svg" viewBox="0 0 {WIDTH} {HEIGHT}"'
            ' font-family="sans-serif">',
            f'<rect width="{WIDTH}" height="{HEIGHT}" fill="white"/>',
            *self.parts, "</svg>", ""])


def main():
    counts_of, path = sys.argv[1:]
    bars = read(counts_of)
    picture = Picture(bars)
    picture.axes()
    for kind, counts in bars.items():
        picture.bars(kind, counts)
    picture.legend()
    with open(path, "w", encoding="utf-8") as out:
        out.write(picture.drawn())


main()
