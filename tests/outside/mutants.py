#!/usr/bin/env python3
"""Tries the mutants of mutants.txt: each takes the archive's place, and the sessions must see it.

A line a mutant says which part of the tests caught it, after how many calls, and how many steps the shortest session has, or bytes
the shortest record, that shows it. The exit status is 1 if one was not caught, or if its lines do not stand in its file exactly once.

    make mutants                    every mutant
    make mutants MUTANTS=NAME       this one, with the session that shows it
    make mutants MUTANTS=--table    every mutant, as the table of docs/TESTING.md

The Makefile builds what is linked: the program's own objects, and the independent program under the archive's names.
"""
import concurrent.futures
import os
import pathlib
import re
import shutil
import subprocess
import sys

HERE = pathlib.Path(__file__).resolve().parent
BUILD = HERE / "build"
INDEPENDENT = HERE.parent / "independent"
COMPILE = [os.environ.get("CC", "cc"), "-std=c11", "-O2", "-w", f"-I{INDEPENDENT}", "-include", str(HERE / "names.h"), "-c"]
# The parts that a mutant meets, in this order; the settings record has one of its own.
PARTS = ["small", "damage", "middle", "bounds"]
SETTINGS = ["settings"]


class Mutant:
    def __init__(self, name, what):
        self.name, self.what, self.file, self.places = name, what, None, [[]]

    def source(self):
        """The file with the lines of each place ('-') replaced by those of the mutant ('+')."""
        text = (INDEPENDENT / self.file).read_text()
        for lines in self.places:
            old, new = ("".join(line[1:] + "\n" for line in lines if line[0] in (" ", mark)) for mark in "-+")
            if text.count(old) != 1:
                sys.exit(f"error: the lines of mutant {self.name} do not stand in {self.file} exactly once")
            text = text.replace(old, new)
        return text


def read_mutants(path):
    mutants = []
    for line in path.read_text().splitlines():
        if line.startswith("== "):
            mutants.append(Mutant(*line[3:].split(": ", 1)))
        elif line == "@@":
            mutants[-1].places.append([])
        elif line and line[0] in " +-":
            mutants[-1].places[-1].append(line)
        elif line and line[0] != "#":
            mutants[-1].file = line
    return mutants


def build(mutant):
    place = BUILD / "mutants" / mutant.name
    shutil.rmtree(place, ignore_errors=True)
    place.mkdir(parents=True)
    stand_in, objects = sorted((BUILD / "stand-in").glob("*.o")), sorted((BUILD / "own").glob("*.o"))
    # A changed header is seen by each source that lies beside it.
    changed = [path.stem for path in stand_in if mutant.file in (f"{path.stem}.c", "ind_internal.h")]
    for stem in changed:
        shutil.copy(INDEPENDENT / f"{stem}.c", place)
    (place / mutant.file).write_text(mutant.source())
    for stem in changed:
        objects.append(place / f"{stem}.o")
        subprocess.run([*COMPILE, str(place / f"{stem}.c"), "-o", str(objects[-1])], check=True)
    objects += [path for path in stand_in if path.stem not in changed]
    subprocess.run([COMPILE[0], *map(str, objects), "-o", str(place / "outside")], check=True)
    return place / "outside"


def attempt(mutant):
    """What the parts print of the mutant, and what caught it: calls, difference, part, placing, the shortest; None if nothing did."""
    parts = SETTINGS if mutant.file == "ind_settings.c" else PARTS
    run = subprocess.run([str(build(mutant)), *parts], capture_output=True, text=True)
    caught = re.search(r"failed after (\d+) calls: (.*)\nreplay: (\w+) .*--placing (\w+)\n(?:.*\n)*?the shortest \w+ found, of (\d+ \w+)",
                       run.stdout)
    return run.stdout, caught.groups() if run.returncode == 1 and caught else None


def main():
    names = [name for name in sys.argv[1:] if name != "--table"]
    mutants = [m for m in read_mutants(HERE / "mutants.txt") if not names or m.name in names]
    missed = []
    with concurrent.futures.ThreadPoolExecutor(min(2, os.cpu_count() or 1)) as pool:
        for mutant, (printed, caught) in zip(mutants, pool.map(attempt, mutants)):
            if names:
                print(printed)
            if caught is None:
                missed.append(mutant.name)
                print(f"{mutant.name}: NOT CAUGHT", flush=True)
            elif "--table" in sys.argv:
                calls, difference, part, placing, shortest = caught
                steps, by = shortest.removesuffix(" steps"), part if placing == "ending" else f"{part}, {placing}"
                print(f"| `{mutant.name}` | {mutant.what} | {by} | {int(calls):,} | {steps} | {difference} |", flush=True)
            else:
                calls, difference, part, placing, shortest = caught
                print(f"{mutant.name}: {part}, slices {placing}, {calls} calls, shortest {shortest}; {difference}", flush=True)
    if missed or not mutants:
        sys.exit(f"error: not caught: {', '.join(missed)}" if missed else "error: no such mutant")
    if "--table" not in sys.argv:
        print(f"mutants: {len(mutants)} tried, each caught")


if __name__ == "__main__":
    main()
