"""Plots of what was measured, as SVG: black on white, each line with its own dashes and marks."""

import json
import math
import pathlib
import statistics
from html import escape

from turns import PEER, PROGRAM

# The frame of a plot; below it stand the ticks, the name of the axis and the legend, a row for each line.
WIDTH, LEFT, RIGHT, TOP, BOTTOM = 660, 80, 620, 44, 320
LEGEND, ROW = BOTTOM + 64, 18
DASHES = ("none", "7 4", "2 3", "9 3 2 3")

# Each plot: its file, title and axes; and its lines: part, work, who, which of the numbers, and what it is called.
PLOTS = (
    {
        "file": "puts.svg",
        "title": "A durable put of 100 bytes on a new key",
        "x": "entries in the vault",
        "y": "microseconds",
        "lines": (
            ("puts", "put, new key", PROGRAM, "wall", "vaultctl"),
            ("puts", "put, new key", PEER, "wall", "the peer"),
            ("puts", "put, new key", PROGRAM, "processor", "vaultctl, processor's time"),
            ("puts", "put, new key", PEER, "processor", "the peer, processor's time"),
        ),
    },
    {
        "file": "opening.svg",
        "title": "Opening a vault of contents of 100 bytes",
        "x": "entries in the vault",
        "y": "seconds",
        "log": True,
        "scale": 1e-3,
        "lines": (
            ("opening", "open to first reply", PROGRAM, "wall", "vaultctl, to its first reply"),
            ("opening", "open to first reply", PROGRAM, "processor", "vaultctl, processor's time"),
            ("opening", "verify", PEER, "wall", "SQLite's integrity and foreign key checks"),
        ),
    },
    {
        "file": "memory.svg",
        "title": "Most memory as a vault of contents of 1 MiB is opened",
        "x": "MiB of contents in the vault",
        "y": "MiB of memory",
        "log": True,
        "lines": (
            ("volume", "open to first reply", PROGRAM, "memory", "vaultctl"),
            ("volume", "open to first reply", PEER, "memory", "the peer"),
        ),
    },
)


def points_of(kept, line, scale):
    """The points of a line, by rising size."""
    part, what, who, number, _ = line
    points = []
    for row in kept.get(part, {"rows": []})["rows"]:
        found = row.get(who, {}).get(number) if row["what"] == what else None
        if found:
            points.append((row["size"], scale * (statistics.median(found) if isinstance(found, list) else found)))
    return sorted(points)


def steps_to(most):
    """Even steps from 0 to beyond a number."""
    step = 10 ** math.floor(math.log10(most))
    step = next(it for it in (step / 5, step / 2, step, 2 * step) if most / it <= 8)
    return [step * i for i in range(math.ceil(most / step) + 1)]


def tens_around(values):
    """The powers of ten from below the least number to above the greatest."""
    first, last = math.floor(math.log10(min(values))), math.ceil(math.log10(max(values)))
    return [10.0**it for it in range(first, max(last, first + 1) + 1)]


class Axis:
    """Where a number stands along an axis of that many points, and its ticks."""

    def __init__(self, values, is_log, start, end):
        self.is_log, self.start, self.end = is_log, start, end
        self.ticks = tens_around(values) if is_log else steps_to(max(values))

    def place(self, value):
        low, high = self.ticks[0], self.ticks[-1]
        if self.is_log:
            value, low, high = (math.log10(it) for it in (value, low, high))
        return round(self.start + (value - low) / (high - low) * (self.end - self.start), 1)


def text(x, y, words, anchor="middle", more=""):
    return f'<text x="{x}" y="{y}" text-anchor="{anchor}"{more}>{escape(words)}</text>'


def number_text(value):
    return f"{value:,g}" if value < 1 else f"{value:,.0f}"


def mark(number, x, y):
    """The mark of a point: a different one for each line."""
    fill = "black" if number % 2 == 0 else "white"
    if number < 2:
        return f'<circle cx="{x}" cy="{y}" r="4" fill="{fill}"/>'
    return f'<rect x="{round(x - 4, 1)}" y="{round(y - 4, 1)}" width="8" height="8" fill="{fill}"/>'


def grid(x, y):
    """The lines at the ticks."""
    across = [f'<path d="M{LEFT} {y.place(it)}H{RIGHT}"/>' for it in y.ticks]
    return [f'<path d="M{x.place(it)} {TOP}V{BOTTOM}"/>' for it in x.ticks] + across


def words_of(plot, x, y):
    """The title, the names of the axes and the numbers at their ticks."""
    middle = (TOP + BOTTOM) // 2
    across = [text(x.place(it), BOTTOM + 18, number_text(it)) for it in x.ticks]
    up = [text(LEFT - 8, y.place(it) + 4, number_text(it), "end") for it in y.ticks]
    return [
        text((LEFT + RIGHT) // 2, 26, plot["title"], more=' font-size="15"'),
        text((LEFT + RIGHT) // 2, BOTTOM + 40, plot["x"]),
        text(18, middle, plot["y"], more=f' transform="rotate(-90 18 {middle})"'),
        *across,
        *up,
    ]


def line_of(number, places):
    """A line through places, with a mark at each."""
    path = "M" + "L".join(f"{a} {b}" for a, b in places)
    return [f'<path d="{path}" stroke-dasharray="{DASHES[number]}"/>', *(mark(number, a, b) for a, b in places)]


def draw(plot, series):
    """The plot of these lines, each with its name and its points."""
    found = [point for _, points in series for point in points]
    x = Axis([a for a, _ in found], True, LEFT, RIGHT)
    y = Axis([b for _, b in found], plot.get("log", False), BOTTOM, TOP)
    black, words = [], words_of(plot, x, y)
    for number, (name, points) in enumerate(series):
        row = LEGEND + ROW * number
        black += line_of(number, [(x.place(a), y.place(b)) for a, b in points])
        black += line_of(number, [(LEFT, row), (LEFT + 40, row)])
        words.append(text(LEFT + 56, row + 4, name, "start"))
    height = LEGEND + ROW * len(series)
    return "\n".join(
        [
            f'<svg xmlns="http://www.w3.org/2000/svg" viewBox="0 0 {WIDTH} {height}" width="{WIDTH}" role="img">',
            f"<title>{escape(plot['title'])}</title>",
            f'<rect width="{WIDTH}" height="{height}" fill="white"/>',
            '<g stroke="#bbb" fill="none">',
            *grid(x, y),
            '</g><g stroke="black" stroke-width="1.5" fill="none">',
            *black,
            '</g><g font-family="sans-serif" font-size="12">',
            *words,
            "</g></svg>\n",
        ]
    )


def draw_all(results, folder):
    """Draws each plot of which something was measured."""
    kept = json.loads(pathlib.Path(results).read_text())
    pathlib.Path(folder).mkdir(parents=True, exist_ok=True)
    for plot in PLOTS:
        lines = [(line[-1], points_of(kept, line, plot.get("scale", 1))) for line in plot["lines"]]
        series = [(name, points) for name, points in lines if points]
        if series:
            (pathlib.Path(folder) / plot["file"]).write_text(draw(plot, series))
