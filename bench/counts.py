"""What the reports of the studies share: what their programs print, by chip and trace, and the figures that are made of it."""
import re
import sys

from pages import fail

NUMBERS = ["P", "W", "D", "T", "L", "C"]
COUNTS = ["requests", "writes", "misses", "programs", "translation", "reads", "erases"]
LINE = re.compile(r"((?:\d+\t){6})([^\t]+)\t([^\t]+)((?:\t\d+){7})")


def named(names, digits):
    return dict(zip(names, map(int, digits.split())))


def counted(path, settings):
    """A dictionary for each chip and trace, in the order of the lines: its numbers, and the counts by setting."""
    found = {}
    with open(path, encoding="utf-8") as lines:
        for line in lines:
            match = LINE.fullmatch(line.rstrip("\n"))
            if not match:
                fail(f"{path} has a line that no study prints: {line.rstrip()}")
            numbers, trace, setting, counts = match.groups()
            row = found.setdefault((numbers, trace), {**named(NUMBERS, numbers), "trace": trace})
            row[setting] = named(COUNTS, counts)
    rows = list(found.values())
    if not rows or any(setting not in row for row in rows for setting in settings):
        fail(f"{path} hasn't {' and '.join(settings)} for each chip and trace")
    return rows


def each_write(row, setting, what):
    return row[setting][what] / row[setting]["writes"]


def each_request(row, setting, what):
    return row[setting][what] / row[setting]["requests"]


def hits(row, setting):
    """In percent."""
    return 100 * (1 - each_request(row, setting, "misses"))


def less(row, settings, what):
    """By how much of the first setting's count the second's is lower, in percent."""
    before, after = (row[setting][what] for setting in settings)
    return 100 * (before - after) / before


def fullness(row):
    most = (row["D"] - 1) * row["P"] - 1
    return f"{100 * row['L'] / most:.0f} %"


def chip(row):
    numbers = ", ".join(f"{name} = {row[name]:,}" for name in ("P", "W", "D", "T", "L"))
    pages = -(-row["L"] // row["W"])
    return f"{numbers}: {fullness(row)} of the most that the geometry allows, and {pages} translation pages."


def lines_against_cache(rows, settings, figure):
    """By trace, for each setting the points of a line: the entries of the cache, and the figure."""
    found = {}
    for row in rows:
        lines = found.setdefault(row["trace"], [[] for _setting in settings])
        for points, setting in zip(lines, settings):
            points.append((row["C"], figure(row, setting)))
    return found


def main(report):
    """A study's report, of what its program printed, into the folder docs/."""
    if len(sys.argv) != 3:
        fail(f"usage: {sys.argv[0]} COUNTS.tsv DOCS")
    try:
        report(*sys.argv[1:])
    except OSError as problem:
        fail(f"{problem.filename}: {problem.strerror}")
