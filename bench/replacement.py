"""What P5 buys, as two Markdown tables and a plot.

replacement.py COUNTS.tsv DOCS: puts the tables into DOCS/REPLACEMENT.md, between its two marks, and writes DOCS/replacement.svg.
COUNTS.tsv is what build/replacement prints.
"""
import panels
from counts import chip, counted, each_request, each_write, hits, less, lines_against_cache, main
from pages import fail, table, write_page

ORDERS = ["plain", "segmented"]
# The plot has all sizes of the cache, the table these.
TABLE = [16, 64, 256, 1024, 4096]
# Document 000's cache is of 32 KB, and of no told number of entries. Ours beside it: the size nearest to the same part of all pages, the
# three words of an entry in as many bytes (counted for this alone), and the most that document 01 accepts, entries of two words there.
FINANCIAL = "Financial-like"
IN_32_KIB = 32 * 1024 // (3 * 4)
ANCHORS = {16: "the nearest to the same part of all pages", IN_32_KIB: "three words each in 32 KiB", 4096: "two words each in 32 KiB"}


def reads(row, order):
    return each_request(row, order, "reads")


def amplification(row, order):
    return each_write(row, order, "programs")


def change(number):
    """With its sign, but for what is rounded to nothing."""
    digits = f"{number:+.1f}"
    return "0.0" if float(digits) == 0 else digits


def figures(row):
    """The cells of both orders, side by side, each pair with its change."""
    return [
        *(f"{hits(row, order):.1f} %" for order in ORDERS),
        change(hits(row, ORDERS[1]) - hits(row, ORDERS[0])),
        *(f"{reads(row, order):.3f}" for order in ORDERS),
        f"{change(-less(row, ORDERS, 'reads'))} %",
        *(f"{amplification(row, order):.3f}" for order in ORDERS),
        f"{change(-less(row, ORDERS, 'programs'))} %",
    ]


def head(*first):
    kinds = ("hits", "reads", "amplification")
    return [*first, *(f"{kind}, {what}" for kind in kinds for what in (*ORDERS, "change"))]


def by_cache(rows):
    return table(head("trace", "C"), [[row["trace"], f"{row['C']:,}", *figures(row)] for row in rows])


def anchor(rows):
    """Document 000's hits beside ours. Its reads are worked out from its table 5, as the page says."""
    cells = [["000: Financial", "32 KB", "", "about 63 %", "", "0.76"]]
    for row in rows:
        both = [*(f"{hits(row, order):.1f} %" for order in ORDERS), *(f"{reads(row, order):.3f}" for order in ORDERS)]
        cells.append([row["trace"], f"{row['C']:,} entries: {ANCHORS[row['C']]}", *both])
    return table(["trace", "cache", *(f"{kind}, {order}" for kind in ("hits", "reads") for order in ORDERS)], cells)


def summary(rows):
    """The chip, what was counted, and how often each order has more hits, as far as a table would show it."""
    first = rows[0]
    changes = [float(change(hits(row, ORDERS[1]) - hits(row, ORDERS[0]))) for row in rows]
    better, worse = sum(more > 0 for more in changes), sum(more < 0 for more in changes)
    return (
        f"{chip(first)} {first[ORDERS[0]]['requests']:,} requests are counted under each order. "
        f"Of the {len(rows)} pairs in the plot, {better} have more hits when segmented, {worse} when plain, "
        f"and {len(rows) - better - worse} as many to a tenth of a point."
    )


# The panels of a trace: a title, the figure, and its scale, as panels.scale_of takes it.
KINDS = [
    ("hits, %", hits, (20, "{:.0f}", 0)),
    ("translation reads / request", reads, (0.5, "{:.1f}", 0)),
    ("write amplification", amplification, (0.2, "{:.1f}")),
]


def plot(rows):
    """A row of panels for each trace. Each panel has its own scale: what is to be compared are its two lines."""
    found = [lines_against_cache(rows, ORDERS, figure) for _title, figure, _scale in KINDS]
    parts = []
    for trace, colour in zip(found[0], panels.COLOURS):
        of_trace = [(title, scale, by_trace[trace]) for (title, _figure, scale), by_trace in zip(KINDS, found)]
        parts.append(
            panels.Row(trace, [panels.Panel(title, colour, panels.scale_of(lines, *scale), lines) for title, scale, lines in of_trace])
        )
    return panels.svg("Plain and segmented replacement", ["plain: document 01 before P5", "segmented: with P5"], parts, 130)


def report(path, docs):
    rows = counted(path, ORDERS)
    names = list(dict.fromkeys(row["trace"] for row in rows))
    rows.sort(key=lambda row: (names.index(row["trace"]), row["C"]))
    plotted = [row for row in rows if row["C"] != IN_32_KIB]
    tabled = [row for row in plotted if row["C"] in TABLE]
    anchors = [row for row in rows if row["trace"] == FINANCIAL and row["C"] in ANCHORS]
    if len(tabled) != len(names) * len(TABLE) or len(anchors) != len(ANCHORS):
        fail(f"{path} hasn't every size of the cache for each trace")
    lines = [summary(plotted), "", *by_cache(tabled), "", "Beside document 000:", "", *anchor(anchors)]
    write_page(docs, "replacement", lines, plot(plotted))


if __name__ == "__main__":
    main(report)
