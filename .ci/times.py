#!/usr/bin/env python3
"""Prints where the gate's time went, as tables for docs/TESTING.md.

usage: times.py CI TESTS ALL

CI is what `rt ci` printed, each line behind the seconds since the gate began; TESTS has a line 'STATUS SECONDS NAME' for each test; ALL are the
seconds of the whole gate, by the clock.
"""
import collections
import re
import sys

PROVED = re.compile(r"rt: (\w+) (?:proved|is kept: .*)$")
REFUSED = re.compile(r"rt: must-fail (\w+)/\S+: refused, ")


def main():
    if len(sys.argv) != 4 or not sys.argv[3].isdigit():
        sys.exit("usage: times.py CI TESTS ALL")
    proofs, edits, last = {}, collections.Counter(), 0
    with open(sys.argv[1], encoding="utf-8") as file:
        for seconds, line in (line.rstrip("\n").split(" ", 1) for line in file):
            last = int(seconds)
            if proved := PROVED.match(line):
                proofs[proved[1]] = last
            elif refused := REFUSED.match(line):
                edits[refused[1]] += 1
    print("\n| crate | proved after, s | edits refused |\n|---|---|---|")
    for name, seconds in proofs.items():
        print(f"| {name} | {seconds} | {edits[name] or ''} |")
    print(f"| **all, and their edits** | {last} | {sum(edits.values())} |")
    print("\n| test | s |\n|---|---|")
    with open(sys.argv[2], encoding="utf-8") as file:
        for line in file:
            _, seconds, name = line.split()
            print(f"| {name} | {seconds} |")
    print(f"\nBy the clock: rt ci {last} s, the whole gate {sys.argv[3]} s. Several ran at a time: what one took is more than it would take alone.\n")


if __name__ == "__main__":
    main()
