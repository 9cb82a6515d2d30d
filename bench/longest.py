"""Prints the figures that bench/longest keeps, and draws them: longest.py FIGURES [PICTURE].

A time is that of the longest command of a round; the mark is the median of the rounds, and the line
through it goes from the least round to the greatest. It needs Python 3.8.
"""
import math
import statistics
import sys
from collections import defaultdict
from html import escape

# Heaps by the name under which they are kept: what they are called, their colour, their mark.
HEAPS = {
    "rtheap": ("rtheap, least rate", "#b00000", "square"),
    "rtheap-18": ("rtheap, rate 18", "#b00000", "frame"),
    "Boehm": ("Boehm", "#1f5fa8", "circle"),
    "Boehm-steps": ("Boehm, in steps", "#1f5fa8", "ring"),
    "Go": ("Go", "#00705c", "triangle"),
    "Java-G1": ("Java, G1", "#a06000", "diamond"),
    "Java-Parallel": ("Java, Parallel", "#6a3b8a", "cross"),
    "Java-Z": ("Java, ZGC", "#3f7d20", "down"),
    "Java-Shenandoah": ("Java, Shenandoah", "#b03a86", "plus"),
}
FLOOR = "bump"  # the program that frees nothing
FLOOR_NAME = "machine's noise floor"
WIDTH, HEIGHT = 1040, 960
LEFT, PLOT, LABELS = 78, 294, 148  # of a panel: room for the y axis, the plot, names behind it


class Figures:
    """What was kept, by the words at the head of its lines."""

    def __init__(self, path):
        self.times, self.use, self.turns = defaultdict(list), {}, {}
        self.machine, self.rounds = [], ("?", "?", "?", "0")
        with open(path, encoding="utf-8") as lines:
            for line in lines:
                self.add(line.rstrip("\n").split("\t"))
        self.threads = sorted({key[1] for key in self.times})
        self.lives = sorted({key[2] for key in self.times})
        self.heaps = list(dict.fromkeys(key[0] for key in self.times))

    def add(self, words):
        kind, rest = words[0], words[1:]
        if kind == "time":
            self.times[rest[0], int(rest[1]), int(rest[2])].append(tuple(map(int, rest[4:8])))
        elif kind == "use":
            self.use[rest[0], int(rest[1]), int(rest[2])] = tuple(map(float, rest[3:5]))
        elif kind == "turns":
            self.turns[rest[0], int(rest[1]), rest[2]] = tuple(map(int, rest[3:7]))
        elif kind == "machine":
            self.machine.append(rest[0])
        elif kind == "rounds":
            self.rounds = tuple(rest)

    def longest(self, heap, threads, live):
        return [max(1, one[2]) for one in self.times[heap, threads, live]]


def said_threads(threads):
    return "1 thread" if threads == 1 else f"{threads} threads"


def grouped(number):
    return f"{number:,}"


def print_table(figures):
    for line in figures.machine:
        print(line)
    if figures.times:
        print_times(figures)
    print("turns of one command at most, one thread")
    print("heap       command      live  rate  counted  bound  as stated")
    for (heap, live, command), (rate, counted, near, stated) in figures.turns.items():
        print(f"{heap:10} {command:10} {live:6} {rate:5} {counted:8} {near:6} {stated:10}")


def print_times(figures):
    rounds, warm, times, churn = figures.rounds
    print(f"{rounds} rounds; of each thread {warm} times {churn} commands untimed, then {times}"
          f" times {churn} timed")
    print("medians of the rounds in ns, the least and the greatest longest, MiB, seconds")
    print(f"{'heap':15} threads  live    timed median    99.9%   longest    least greatest"
          "   MiB seconds")
    for threads in figures.threads:
        for live in figures.lives:
            for heap in figures.heaps:
                print_row(figures, heap, threads, live)


def print_row(figures, heap, threads, live):
    rounds = figures.times.get((heap, threads, live))
    if rounds:
        median, most, longest, count = (int(statistics.median(one)) for one in zip(*rounds))
        spread = figures.longest(heap, threads, live)
        mib, seconds = figures.use.get((heap, threads, live), (0, 0))
        print(f"{heap:15} {threads:7} {live:5} {count:8} {median:6} {most:8} {longest:9}"
              f" {min(spread):8} {max(spread):8} {mib:5.1f} {seconds:7.2f}")


class Picture:
    def __init__(self):
        self.parts = []

    def add(self, part):
        self.parts.append(part)

    def text(self, x, y, said, size=13, anchor="start", fill="#222", more=""):
        self.add(f'<text x="{x:.1f}" y="{y:.1f}" font-size="{size}" text-anchor="{anchor}"'
                 f' fill="{fill}"{more}>{escape(said)}</text>')

    def line(self, x, y, x2, y2, stroke="#ddd", width=1.0, more=""):
        self.add(f'<line x1="{x:.1f}" y1="{y:.1f}" x2="{x2:.1f}" y2="{y2:.1f}" stroke="{stroke}"'
                 f' stroke-width="{width}"{more}/>')

    def mark(self, shape, x, y, colour, size=5.0):
        fill = "white" if shape in ("ring", "frame") else colour
        if shape in ("circle", "ring"):
            self.add(f'<circle cx="{x:.1f}" cy="{y:.1f}" r="{size:.1f}" fill="{fill}"'
                     f' stroke="{colour}" stroke-width="1.8"/>')
        elif shape in ("cross", "plus"):
            turn = 45 if shape == "cross" else 0
            ends = [(math.cos(math.radians(turn + 90 * k)) * size * 1.3,
                     math.sin(math.radians(turn + 90 * k)) * size * 1.3) for k in range(2)]
            for dx, dy in ends:
                self.line(x - dx, y - dy, x + dx, y + dy, colour, 2.6)
        else:
            corners = {
                "square": [(-1, -1), (1, -1), (1, 1), (-1, 1)],
                "frame": [(-1, -1), (1, -1), (1, 1), (-1, 1)],
                "triangle": [(0, -1.3), (1.2, 1), (-1.2, 1)],
                "down": [(0, 1.3), (1.2, -1), (-1.2, -1)],
                "diamond": [(0, -1.4), (1.2, 0), (0, 1.4), (-1.2, 0)],
            }[shape]
            points = " ".join(f"{x + dx * size:.1f},{y + dy * size:.1f}" for dx, dy in corners)
            self.add(f'<polygon points="{points}" fill="{fill}" stroke="{colour}"'
                     f' stroke-width="{2 if shape == "frame" else 0}"/>')

    def svg(self, title, described):
        head = (f'<svg xmlns="http://www.w3.org/2000/svg" viewBox="0 0 {WIDTH} {HEIGHT}"'
                f' width="{WIDTH}" height="{HEIGHT}" font-family="sans-serif" role="img"'
                ' aria-labelledby="title desc">')
        return "\n".join([head, f'<title id="title">{escape(title)}</title>',
                          f'<desc id="desc">{escape(described)}</desc>',
                          f'<rect width="{WIDTH}" height="{HEIGHT}" fill="white"/>',
                          *self.parts, "</svg>", ""])


class Panel:
    """A plot over live blocks, each number with a column, with a y axis, and names beside it."""

    def __init__(self, picture, lives, left, top, height, title):
        self.picture, self.lives = picture, lives
        self.left, self.top, self.height = left + LEFT, top, height
        self.bottom, self.right = top + height, left + LEFT + PLOT
        picture.text(self.left, top - 12, title, 15, fill="#111", more=' font-weight="bold"')
        for live in lives:
            picture.text(self.x(live), self.bottom + 20, grouped(live), anchor="middle")
        middle = (self.left + self.right) / 2
        picture.text(middle, self.bottom + 40, "live blocks", anchor="middle")

    def x(self, live, offset=0.0):
        column = PLOT / len(self.lives)
        return self.left + column * (self.lives.index(live) + 0.5) + offset

    def frame(self, title):
        picture, x = self.picture, self.left - 62
        picture.add(f'<rect x="{self.left}" y="{self.top}" width="{PLOT}" height="{self.height}"'
                    ' fill="none" stroke="#888"/>')
        middle = self.top + self.height / 2
        picture.text(x, middle, title, anchor="middle",
                     more=f' transform="rotate(-90 {x:.1f} {middle:.1f})"')

    def tick(self, y, said, strong=True):
        self.picture.line(self.left, y, self.right, y, "#d4d4d4" if strong else "#eee")
        if said:
            self.picture.text(self.left - 8, y + 4, said, 12, "end")

    def name_points(self, points):
        """Writes names beside the plot, each at its height and none over another."""
        spots = sorted(points)
        heights = [spot[0] for spot in spots]
        for k in range(1, len(heights)):
            heights[k] = max(heights[k], heights[k - 1] + 17)
        lowest = self.bottom + 12
        for k in reversed(range(len(heights))):
            heights[k] = min(heights[k], lowest)
            lowest = heights[k] - 17
        for (y, x, name, colour), height in zip(spots, heights):
            self.picture.line(x + 8, y, self.right + 6, height, "#bbb", 0.8)
            self.picture.text(self.right + 10, height + 4, name, fill=colour)


def time_said(nanoseconds):
    for unit, size in (("s", 10**9), ("ms", 10**6), ("µs", 1000)):
        if nanoseconds >= size:
            return f"{nanoseconds / size:g} {unit}"
    return f"{nanoseconds:g} ns"


def steps_between(least, greatest):
    """1, 2 and 5 times the powers of ten, from the last at or below to the first at or above."""
    marks = [factor * 10**power for power in range(12) for factor in (1, 2, 5)]
    low = max(mark for mark in marks if mark <= least)
    high = min(mark for mark in marks if mark >= greatest)
    return [mark for mark in marks if low <= mark <= high]


def draw_times(picture, figures, threads, left, top, height, ticks):
    title = f"Measured, {said_threads(threads)}: lower is better"
    panel = Panel(picture, figures.lives, left, top, height, title)
    low, high = math.log10(ticks[0]), math.log10(ticks[-1])

    def up(nanoseconds):
        return panel.bottom - (math.log10(nanoseconds) - low) / max(0.001, high - low) * height

    points = []
    if FLOOR in figures.heaps:
        points.append(draw_floor(picture, panel, figures, threads, up))
    for tick in ticks:
        strong = math.log10(tick).is_integer()
        panel.tick(up(tick), time_said(tick), strong)
    panel.frame("longest time of any command (log scale)")
    shown = [heap for heap in figures.heaps if heap in HEAPS]
    for k, heap in enumerate(shown):
        name, colour, shape = HEAPS[heap]
        offset = (k - (len(shown) - 1) / 2) * 8.5
        last = None
        for live in figures.lives:
            spread = figures.longest(heap, threads, live)
            if spread:
                x, y = panel.x(live, offset), up(statistics.median(spread))
                picture.line(x, up(min(spread)), x, up(max(spread)), colour, 1.6)
                picture.mark(shape, x, y, colour, 5.4 if heap.startswith("rtheap") else 4.2)
                last = (y, x, name, colour)
        if last:
            points.append(last)
    panel.name_points(points)


def draw_floor(picture, panel, figures, threads, up):
    """A band in each column, from the least round to the greatest; answers what is to be named."""
    column = PLOT / len(figures.lives)
    for live in figures.lives:
        spread = figures.longest(FLOOR, threads, live) or [1]
        over, under = up(max(spread)), up(min(spread))
        left = panel.x(live, -column / 2)
        picture.add(f'<rect x="{left:.1f}" y="{over:.1f}" width="{column:.1f}"'
                    f' height="{under - over:.1f}" fill="#dcdcdc"/>')
    return (over + under) / 2, panel.right - 8, FLOOR_NAME, "#666"


def draw_turns(picture, figures, left, top, height):
    panel = Panel(picture, figures.lives, left, top, height, "Proved, 1 thread: a bound in steps")
    highest = max((near for _, _, near, _ in figures.turns.values()), default=100)
    most = 50 * math.ceil(highest * 1.08 / 50)

    def up(steps):
        return panel.bottom - steps / most * height

    for steps in range(0, most + 1, 50):
        panel.tick(up(steps), str(steps), steps % 100 == 0)
    panel.frame("steps of one command, at most")
    points = []
    for heap, command, name, offset, dot in (
        ("rtheap-18", "allocation", "new, rate 18", 16, "ring"),
        ("rtheap", "allocation", "new, least rate", -16, "circle"),
        ("rtheap", "other", "any other command", 0, "diamond"),
    ):
        colour = HEAPS[heap][1] if command == "allocation" else "#555"
        for live in figures.lives:
            _, counted, near, _ = figures.turns.get((heap, live, command), (0, 0, 0, 0))
            x = panel.x(live, offset)
            picture.line(x - 14, up(near), x + 14, up(near), colour, 3.2)
            picture.line(x, up(near), x, up(counted), colour, 1.0, ' stroke-dasharray="3 3"')
            picture.mark(dot, x, up(counted), colour, 4.4)
        points.append((up(near), x + 8, name, colour))
    panel.name_points(points)


def draw_notes(picture, figures, left, top):
    rounds, warm, times, churn = figures.rounds
    timed = int(times) * int(churn) if times.isdigit() else 0
    rates = [figures.turns[key][0] for key in figures.turns
             if key[0] == "rtheap" and key[2] == "allocation"]
    said = ", ".join(map(str, rates))
    notes = [
        f"Above: a mark is the median, over {rounds} rounds, of the longest time of",
        "any command; the line through it goes from the least round to the",
        "greatest. In a round each heap has the same commands and each of",
        f"them is timed: {grouped(timed)} a thread, after {warm} × {grouped(int(churn))} untimed.",
        "The grey bands are a program that frees nothing: what the machine",
        "adds by itself.",
        "",
        "Left: a bar is the bound that is proved for a thread that has the",
        "heap to itself, and the mark below it the most that was counted in",
        "these jobs. For several threads no bound is proved.",
        "",
        "rtheap is the library shared_heap, which the threads ask one command",
        f"at a time. Least rate: of the largest heap, 65,535 blocks: {said}.",
        "Rate 18: a heap so small that its rate is 18.",
    ]
    picture.text(left, top - 12, "How to read it", 15, fill="#111", more=' font-weight="bold"')
    for k, note in enumerate(notes):
        picture.text(left, top + 8 + 18 * k, note)
    for k, line in enumerate(figures.machine[:9]):
        picture.text(left, top + 8 + 18 * len(notes) + 10 + 15 * k, line, 11, fill="#555")


def described(figures):
    parts = []
    for threads in figures.threads:
        for heap in figures.heaps:
            name = HEAPS[heap][0] if heap in HEAPS else "nothing freed"
            medians = [time_said(int(statistics.median(spread)))
                       for live in figures.lives
                       for spread in [figures.longest(heap, threads, live)] if spread]
            parts.append(f"{said_threads(threads)}, {name}: {', '.join(medians)}")
    lives = ", ".join(map(grouped, figures.lives))
    head = f"Longest command at {lives} live blocks, medians of the rounds. "
    return head + ". ".join(parts) + "."


def drawn(figures):
    picture = Picture()
    title = "How long the longest command takes, by live blocks"
    picture.text(20, 34, title, 20, fill="#111")
    spreads = [one for key in figures.times for one in figures.longest(*key)]
    ticks = steps_between(min(spreads), max(spreads))
    for k, threads in enumerate(figures.threads):
        draw_times(picture, figures, threads, k * (LEFT + PLOT + LABELS), 84, 380, ticks)
    draw_turns(picture, figures, 0, 560, 260)
    draw_notes(picture, figures, LEFT + PLOT + LABELS + 20, 560)
    return picture.svg(title, described(figures))


def main(words):
    figures = Figures(words[0])
    print_table(figures)
    if len(words) > 1:
        if not figures.times:
            sys.exit(f"{words[0]} has no times: run bench/longest first")
        with open(words[1], "w", encoding="utf-8") as file:
            file.write(drawn(figures))


if __name__ == "__main__":
    main(sys.argv[1:])
