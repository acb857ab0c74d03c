"""The figures of a run of the benchmark as two Markdown tables and a plot.

report.py TIME.tsv .. COUNTS DOCS: puts the tables into DOCS/SPEED.md, between its two marks, and writes DOCS/speed.svg.
TIME.tsv is what `bench time` prints, and the least of several counts; COUNTS is the folder of what callgrind dumped under `bench count`, empty
where it wasn't run.
"""
import os
import platform
import subprocess
import sys

import plot
from pages import fail, table, write_between_marks

LIMIT = 1.1
# What stands for a chip in the lines of the settings record's calls, whose sizes are in bytes.
SETTINGS = "settings"
SIDES = ["library", "independent", "ratio", "by instructions"]


def times(path):
    """A dictionary for each line: a chip and a case, with the times in nanoseconds."""
    rows = []
    with open(path, encoding="utf-8") as lines:
        for line in lines:
            fields = line.rstrip("\n").split("\t")
            if len(fields) != 7:
                fail(f"{path} has a line that `bench time` doesn't print: {line.rstrip()}")
            chip, words, case, ours, theirs, sweep, _rounds = fields
            rows.append(
                {
                    "chip": chip,
                    "words": int(words),
                    "case": case,
                    "ours": float(ours),
                    "theirs": float(theirs),
                    "sweep": float(sweep),
                }
            )
    return rows


def least(runs):
    """The rows of several runs as one, each time the least that it was in any."""
    if any([(row["chip"], row["case"]) for row in run] != [(row["chip"], row["case"]) for row in runs[0]] for run in runs):
        fail("the runs have not the same rows")
    return [{**rows[0], **{side: min(row[side] for row in rows) for side in ("ours", "theirs", "sweep")}} for rows in zip(*runs)]


def counts(folder):
    """Instructions a call by chip, case and side, from callgrind's dumps."""
    found = {}
    for name in sorted(os.listdir(folder)):
        label = total = None
        with open(os.path.join(folder, name), encoding="utf-8", errors="replace") as lines:
            for line in lines:
                if line.startswith("desc: Trigger: Client Request: "):
                    label = line.rstrip("\n").split("Request: ")[1].split("\t")
                elif line.startswith("totals: "):
                    total = int(line.split()[1])
        if label and total:
            chip, case, side, calls = label
            found[chip, case, side] = total / int(calls)
    return found


def duration(nanoseconds):
    """Three figures, in the unit that suits them."""
    for unit, size in (("ms", 1e6), ("µs", 1e3)):
        if nanoseconds >= size:
            return f"{nanoseconds / size:.3g} {unit}"
    return f"{nanoseconds:.3g} ns"


def ratio(ours, theirs, limit=None):
    """Two decimals, in bold where it is over the limit."""
    text = f"{ours / theirs:.2f}"
    return f"**{text}**" if limit and ours / theirs > limit else text


def compared(row, instructions):
    """The cells of both sides: times, their ratio, and the ratio of instructions."""
    ours, theirs = (instructions.get((row["chip"], row["case"], side)) for side in ("ours", "theirs"))
    return [
        duration(row["ours"]),
        duration(row["theirs"]),
        ratio(row["ours"], row["theirs"], LIMIT),
        ratio(ours, theirs) if ours and theirs else "",
    ]


def on_chips(rows, instructions):
    head = ["chip", "words", "case", *SIDES, "plain sweep", "library to sweep"]
    cells = [
        [
            row["chip"],
            f"{row['words']:,}",
            row["case"],
            *compared(row, instructions),
            duration(row["sweep"]) if row["sweep"] else "",
            ratio(row["ours"], row["sweep"], LIMIT) if row["sweep"] else "",
        ]
        for row in rows
        if row["chip"] != SETTINGS
    ]
    return table(head, cells)


def on_settings(rows, instructions):
    cells = [[row["case"], f"{row['words']:,}", *compared(row, instructions)] for row in rows if row["chip"] == SETTINGS]
    return table(["settings record", "bytes", *SIDES], cells)


def version():
    """The last commit that touched the crates."""
    command = ["git", "log", "-1", "--format=%h", "--", ":/crates"]
    found = subprocess.run(command, capture_output=True, text=True, check=False)
    return found.stdout.strip() or "an unknown commit"


def summary(rows, runs):
    """What was compared where, in how many runs, and how many ratios are over the limit."""
    over = sum(row["ours"] / row["theirs"] > LIMIT for row in rows)
    over += sum(row["sweep"] > 0 and row["ours"] / row["sweep"] > LIMIT for row in rows)
    machine = platform.machine()
    library = "libtrianglefire.a"
    if machine != "x86_64":
        library += ", compiled for this machine"
    often = "" if runs == 1 else f", the least of {runs} runs"
    return [
        f"Measured on {machine}, of {library}, the crates as of {version()}{often}. Ratios over {LIMIT}: {over}.",
        "",
    ]


def report(time_files, count_folder, docs):
    rows = least([times(path) for path in time_files])
    if not rows:
        fail(f"{time_files[0]} is empty")
    instructions = counts(count_folder)
    lines = [*summary(rows, len(time_files)), *on_chips(rows, instructions), "", *on_settings(rows, instructions)]
    write_between_marks(os.path.join(docs, "SPEED.md"), "bench/run", lines)
    with open(os.path.join(docs, "speed.svg"), "w", encoding="utf-8") as file:
        file.write(plot.svg(rows))
    print("\n".join(lines))
    print(f"written: {docs}/SPEED.md and {docs}/speed.svg")


def main(arguments):
    if len(arguments) < 3:
        fail("usage: report.py TIME.tsv .. COUNTS DOCS")
    *time_files, count_folder, docs = arguments
    try:
        report(time_files, count_folder, docs)
    except OSError as problem:
        fail(f"{problem.filename}: {problem.strerror}")


if __name__ == "__main__":
    main(sys.argv[1:])
