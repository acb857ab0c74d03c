"""A plot of cost against chip size, as SVG: both axes in powers, a line for each case and side."""
import math

from drawing import line, picture, sample, text, turned_text

# The chips that differ in size alone, by the name that the benchmark gives them.
SIZES = ["1/64", "1/16", "1/4", "largest"]
CASES = [
    ("check, fresh", "#1b6ca8", "check, fresh chip"),
    ("check, full", "#c0392b", "check, full chip"),
    ("run of 1,024 reads, spread", "#2e7d32", "run of 1,024 reads"),
    ("run of 1,024 writes, spread", "#7b4397", "run of 1,024 writes"),
]
SWEEP = "#6b6b6b"
WIDTH, HEIGHT = 860, 520
LEFT, RIGHT, TOP, BOTTOM = 84, 180, 60, 66


class Axes:
    """Places on the picture for a number of words and a time in nanoseconds."""

    def __init__(self, words, nanoseconds):
        self.words = min(words), max(words)
        self.decades = math.floor(math.log10(min(nanoseconds))), math.ceil(math.log10(max(nanoseconds)))

    def x(self, words):
        low, high = (math.log(n) for n in self.words)
        return LEFT + (math.log(words) - low) / (high - low) * (WIDTH - LEFT - RIGHT)

    def y(self, nanoseconds):
        low, high = self.decades
        return HEIGHT - BOTTOM - (math.log10(nanoseconds) - low) / (high - low) * (HEIGHT - TOP - BOTTOM)


def power(exponent):
    """A decade of nanoseconds in words."""
    unit, base = ("ns", 0) if exponent < 3 else ("µs", 3) if exponent < 6 else ("ms", 6) if exponent < 9 else ("s", 9)
    return f"{10 ** (exponent - base):,} {unit}"


def grid(axes, chips):
    parts = []
    right, bottom = WIDTH - RIGHT, HEIGHT - BOTTOM
    for exponent in range(axes.decades[0], axes.decades[1] + 1):
        y = axes.y(10**exponent)
        parts.append(f'<line x1="{LEFT}" y1="{y:.1f}" x2="{right}" y2="{y:.1f}" stroke="#dddddd"/>')
        parts.append(text(LEFT - 10, y + 4, power(exponent), "end"))
    for name, words in chips:
        x = axes.x(words)
        parts.append(f'<line x1="{x:.1f}" y1="{TOP}" x2="{x:.1f}" y2="{bottom}" stroke="#dddddd"/>')
        parts.append(text(x, bottom + 20, f"{words:,}", "middle"))
        parts.append(text(x, bottom + 36, name, "middle", 12, "#666666"))
    parts.append(f'<path d="M{LEFT},{TOP} V{bottom} H{right}" fill="none" stroke="#444444"/>')
    parts.append(text((LEFT + right) / 2, HEIGHT - 10, "words of the chip (log scale)", "middle"))
    parts.append(turned_text(20, (TOP + bottom) / 2, "least time of a call (log scale)"))
    return parts


def apart(places, least=17):
    """The heights of the labels, in their order and moved down where two would touch."""
    moved, last = {}, -math.inf
    for key, y in sorted(places.items(), key=lambda item: item[1]):
        last = max(y, last + least)
        moved[key] = last
    return moved


def legend():
    parts = [text(LEFT, 24, "Cost against chip size", size=17)]
    parts += sample(LEFT, "", "library")
    parts += sample(LEFT + 100, "6 4", "independent program")
    parts += sample(LEFT + 310, "2 3", "plain sweep of the same words", SWEEP)
    return parts


def svg(rows):
    rows = [row for row in rows if row["chip"] in SIZES]
    series = {}
    for case, _colour, _label in CASES:
        own = sorted((row for row in rows if row["case"] == case), key=lambda row: row["words"])
        for side in ("ours", "theirs", "sweep"):
            points = [(row["words"], row[side]) for row in own if row[side]]
            if points:
                series[case, side] = points
    every = [point for points in series.values() for point in points]
    axes = Axes([words for words, _ in every], [time for _, time in every])
    chips = sorted({(row["chip"], row["words"]) for row in rows}, key=lambda chip: chip[1])
    parts = legend() + grid(axes, chips)
    for case, colour, _label in CASES:
        for side, dash in (("sweep", "2 3"), ("theirs", "6 4"), ("ours", "")):
            if (case, side) in series:
                parts += line(axes, series[case, side], SWEEP if side == "sweep" else colour, dash)
    labels = apart({case: axes.y(series[case, "ours"][-1][1]) + 4 for case, _, _ in CASES})
    for case, colour, label in CASES:
        parts.append(text(WIDTH - RIGHT + 14, labels[case], label, fill=colour))
    return picture(WIDTH, HEIGHT, parts)
