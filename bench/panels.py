"""Plots against the size of the cache, as SVG: rows of panels, and in each two lines."""
import math
from collections import namedtuple

from drawing import line, picture, sample, text, turned_text

COLOURS = ["#1b6ca8", "#c0392b", "#2e7d32", "#7b4397", "#8a5a00"]
# The line of the former rule, and of the one in force. Where both run together, its dots stand in the other's rings.
DASHES = ["6 4", ""]
RADII = [5, 2.5]
LEFT, RIGHT, TOP, BOTTOM = 84, 24, 88, 62
LEAST_WIDTH, LEAST_PANEL_WIDTH, GAP_X, GAP_Y = 860, 235, 56, 60
SAMPLE_WIDTH = 330
MOST_LABELS = 5

# From lowest to highest in steps, each written by the form.
Scale = namedtuple("Scale", "lowest highest step form")
# The lines are the points of each: the entries of the cache, and the figure.
Panel = namedtuple("Panel", "title colour scale lines")
# What is said beside its panels, upwards.
Row = namedtuple("Row", "title panels")


def scale_of(lines, step, form, lowest=None):
    """A scale for all points, from the lowest or, without one, from just below them."""
    figures = [figure for points in lines for _cache, figure in points]
    low = math.floor(min(figures) / step) * step if lowest is None else lowest
    return Scale(low, low + math.ceil((max(figures) - low) / step) * step, step, form)


class Axes:
    """Places on one panel for a number of entries and a figure."""

    def __init__(self, left, top, width, height, caches, scale):
        self.left, self.right = left, left + width
        self.top, self.bottom = top, top + height
        self.caches = caches
        self.scale = scale

    def x(self, cache):
        low, high = math.log(self.caches[0]), math.log(self.caches[-1])
        return self.left + (math.log(cache) - low) / (high - low) * (self.right - self.left)

    def y(self, figure):
        low, high = self.scale.lowest, self.scale.highest
        return self.bottom - (figure - low) / (high - low) * (self.bottom - self.top)


def grid(axes, panel):
    left, right, top, bottom = axes.left, axes.right, axes.top, axes.bottom
    parts = [text(left, top - 10, panel.title, size=15, fill=panel.colour)]
    low, high, step, form = panel.scale
    for i in range(round((high - low) / step) + 1):
        y = axes.y(low + i * step)
        parts.append(f'<line x1="{left:.1f}" y1="{y:.1f}" x2="{right:.1f}" y2="{y:.1f}" stroke="#dddddd"/>')
        parts.append(text(left - 8, y + 4, form.format(low + i * step), "end"))
    apart = -(-len(axes.caches) // MOST_LABELS)
    for i, cache in enumerate(axes.caches):
        x = axes.x(cache)
        parts.append(f'<line x1="{x:.1f}" y1="{top:.1f}" x2="{x:.1f}" y2="{bottom:.1f}" stroke="#dddddd"/>')
        if i % apart == 0:
            parts.append(text(x, bottom + 20, f"{cache:,}", "middle"))
    parts.append(f'<path d="M{left:.1f},{top:.1f} V{bottom:.1f} H{right:.1f}" fill="none" stroke="#444444"/>')
    return parts


def legend(title, names, width, height):
    parts = [text(LEFT, 24, title, size=17)]
    for i, words in enumerate(names):
        parts += sample(LEFT + i * SAMPLE_WIDTH, DASHES[i], words, radius=RADII[i])
    parts.append(text((LEFT + width - RIGHT) / 2, height - 12, "C, the entries of the cache (log scale)", "middle"))
    return parts


def panel_width(columns):
    """Panels fill the picture, which grows where they would be too narrow."""
    return max(LEAST_PANEL_WIDTH, (LEAST_WIDTH - LEFT - RIGHT - (columns - 1) * GAP_X) / columns)


def svg(title, names, rows, panel_height):
    """The names are what the two kinds of line stand for."""
    every = [points for row in rows for panel in row.panels for points in panel.lines]
    caches = sorted({cache for points in every for cache, _figure in points})
    columns = max(len(row.panels) for row in rows)
    each = panel_width(columns)
    width = round(LEFT + columns * (each + GAP_X) - GAP_X + RIGHT)
    height = TOP + len(rows) * (panel_height + GAP_Y) - GAP_Y + BOTTOM
    parts = legend(title, names, width, height)
    for i, row in enumerate(rows):
        top = TOP + i * (panel_height + GAP_Y)
        parts.append(turned_text(24, top + panel_height / 2, row.title, 15))
        for column, panel in enumerate(row.panels):
            axes = Axes(LEFT + column * (each + GAP_X), top, each, panel_height, caches, panel.scale)
            parts += grid(axes, panel)
            for points, dash, radius in zip(panel.lines, DASHES, RADII):
                parts += line(axes, points, panel.colour, dash, radius)
    return picture(width, height, parts)
