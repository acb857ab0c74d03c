"""What P2 buys, as two Markdown tables and a plot.

amplification.py COUNTS.tsv DOCS: puts the tables into DOCS/AMPLIFICATION.md, between its two marks, and writes DOCS/amplification.svg.
COUNTS.tsv is what build/amplification prints.
"""
import panels
from counts import chip, counted, each_write, fullness, hits, less, lines_against_cache, main
from pages import table, write_page

RULES = ["one entry", "neighbours"]
COLUMNS = 2


def figures(row):
    """The cells of both rules, side by side."""
    return [
        *(f"{each_write(row, rule, 'translation'):.3f}" for rule in RULES),
        *(f"{each_write(row, rule, 'programs'):.3f}" for rule in RULES),
        *(f"{1000 * each_write(row, rule, 'erases'):.1f}" for rule in RULES),
        f"{less(row, RULES, 'programs'):.1f} %",
    ]


def head(*first):
    kinds = ("translation", "amplification", "erases")
    return [*first, *(f"{kind}, {rule}" for kind in kinds for rule in RULES), "saved"]


def by_cache(rows):
    """Hits are the same under both rules, as the program saw to."""
    cells = [
        [row["trace"], f"{row['C']:,}", f"{row[RULES[0]]['writes']:,}", f"{hits(row, RULES[0]):.1f} %", *figures(row)] for row in rows
    ]
    return table(head("trace", "C", "host writes", "hits"), cells)


def by_fullness(rows):
    cells = [[row["trace"], f"{row['L']:,}", fullness(row), *figures(row)] for row in rows]
    return table(head("trace", "L", "of the most"), cells)


def summary(rows, first):
    """The chip, and whether the rule costs anything anywhere."""
    worse = sum(row[RULES[1]][what] > row[RULES[0]][what] for row in rows for what in ("translation", "programs", "erases"))
    return f"{chip(first)} Figures of both tables that are higher with neighbours: {worse}."


def plot(rows):
    """A panel for each trace, all to one scale."""
    found = lines_against_cache(rows, RULES, lambda row, rule: each_write(row, rule, "translation"))
    scale = panels.scale_of([points for lines in found.values() for points in lines], 0.5, "{:.1f}", 0)
    traces = [panels.Panel(trace, colour, scale, lines) for (trace, lines), colour in zip(found.items(), panels.COLOURS)]
    return panels.svg(
        "Translation-page programs for each host write",
        ["one entry: document 01 before P2", "neighbours: with P2"],
        [panels.Row("programs for each host write", traces[i : i + COLUMNS]) for i in range(0, len(traces), COLUMNS)],
        210,
    )


def report(path, docs):
    rows = counted(path, RULES)
    # The chip of the first line comes with every size of the cache, the cache of the last one with every fullness.
    length, cache = rows[0]["L"], rows[-1]["C"]
    names = list(dict.fromkeys(row["trace"] for row in rows))
    rows.sort(key=lambda row: (names.index(row["trace"]), row["C"], row["L"]))
    caches = [row for row in rows if row["L"] == length]
    lines = [
        summary(rows, caches[0]),
        "",
        *by_cache(caches),
        "",
        f"At C = {cache:,}, with more room and with less:",
        "",
        *by_fullness([row for row in rows if row["C"] == cache]),
    ]
    write_page(docs, "amplification", lines, plot(caches))


if __name__ == "__main__":
    main(report)
