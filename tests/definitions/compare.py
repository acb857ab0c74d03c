#!/usr/bin/env python3
"""Holds the definitions of documents 01 and 02 to the independent program.

Random sessions on tiny geometries are played by the independent program; what
it printed and the whole state it left are then stated of the definitions, one
closed instance a session, and proved by computation in a scratch repository.
A session on which the two differ is refused by the prover with both values.
So are records and geometries that are read and written as settings.

Every other session begins from a state in the midst of others' work, in some with
entries set to *none* or protected by hand, on a geometry with several cached
entries of one translation page: dropped ones are then written back with
neighbours, and requests find their entries in both parts of the cache. Each tenth
begins from a state with more entries protected than is sound.

usage: compare.py [--seed N] [--sessions N] [--settings N]
"""
import argparse
import pathlib
import random
import shutil
import subprocess
import sys
import tempfile

import settings

HERE = pathlib.Path(__file__).resolve().parent
ROOT = HERE.parent.parent
NUMBERS = "PWDTLC"
RECORD = ["open_data", "data_offset", "open_translation", "translation_offset", "used", "protected"]
# What the driver counts, in its order.
MET = ["neighbours written back", "of them at none", "drops with neighbours in both parts", "misses behind protected entries", "of them with a drop",
       "hits in trial below the limit", "at the limit", "hits of protected's first", "of one between", "of its last", "demoted entries dropped",
       "refused for more protected than C/2", "than used"]
HEAD = """-- Printed by tests/definitions/compare.py.
use Rattle.std.specs.Prelude.{◌≡◌, refl, List, [], ◌∷◌}
use Rattle.scope.specs.Tables.Play.{computed, W, R, Played, formatted, play}

"""


def geometries(words, widths, entries):
    """Every accepted geometry of so many words at most, these words in a page and these cache entries, the corners among them."""
    for p in range(1, 5):
        for w in widths:
            for d in range(2, 5):
                for t in range(2, 5):
                    for l in range(1, (d - 1) * p):
                        m = -(-l // w)
                        if m <= (t - 1) * p - 1 and (d + t) * p * w <= words:
                            yield from ((p, w, d, t, l, c) for c in entries)


SMALL = list(geometries(40, (1, 2, 3), (1, 2, 3)))
# Drops with neighbours need entries of one translation page, and fewer entries than pages. There is a list for each W and C, since where
# both are great geometries are few. Of six entries three are protected at the most, so that one lies between.
SHAPES = ((2, 2), (2, 3), (2, 4), (2, 6), (3, 2), (3, 3), (3, 4), (4, 2), (4, 3))
CROWDED = [[g for g in geometries(48, (w,), (c,)) if c < g[4]] for w, c in SHAPES]


def session(rng, l, least, most):
    """Lines of a session, now and then with a page past the limit."""
    lines = []
    for i in range(rng.randint(least, most)):
        page = rng.randrange(l + (rng.random() < 0.1))
        lines.append(f"W {page} {10 + i}" if rng.random() < 0.75 else f"R {page}")
    return lines


def small_session(rng):
    """From a formatted node."""
    geometry = rng.choice(SMALL)
    return geometry, [], session(rng, geometry[4], 8, 14)


def crowded_session(rng):
    """From a state after other requests, in which up to three entries of the last ones are then set to *none*, changed.

    In half of them the number of protected entries is set too.
    """
    geometry = rng.choice(rng.choice(CROWDED))
    l, c = geometry[4:]
    before = session(rng, l, 4, 16)
    emptied = [f"E {line.split()[1]}" for line in rng.sample(before[-4:], rng.randint(0, 3))]
    protected = [f"P {rng.randint(0, c // 2)}"] if rng.random() < 0.5 else []
    return geometry, before + emptied + protected + ["B"], session(rng, l, 6, 12)


def damaged_session(rng):
    """From a state in which more entries are protected than may be, after few requests no more than C/2 but more than are used."""
    geometry = rng.choice(rng.choice(CROWDED))
    l, few = geometry[4], rng.choice((0, 0, 1, 4, 6))
    return geometry, session(rng, l, few, few) + [f"D {rng.choice((1, 1, 1, 2, 4294960000))}", "B"], session(rng, l, 2, 3)


def session_of(number):
    """By its number: each tenth damaged, half of all from a formatted node."""
    return damaged_session if number % 10 == 9 else crowded_session if number % 2 else small_session


def as_list(items):
    return "(" + "".join(f"{x} ∷ " for x in items) + "[])"


def as_state(sides):
    """The state of the driver's five lines `S`."""
    small = "; ".join(f"{k} = {v}" for k, v in zip(RECORD, sides[4]))
    lists = "; ".join(f"{k} = {as_list(v)}" for k, v in zip(["chip", "spare", "directory", "cache"], sides))
    return f"record {{ {lists}; small = record {{ {small} }} }}"


def instance(driver, number, geometry, before, lines):
    """The statement that the definitions give what the independent program gave, and how often it met each of MET."""
    run = subprocess.run([driver, *map(str, geometry)], input="\n".join(before + lines), text=True, capture_output=True, check=True)
    played = [x.split() for x in run.stdout.splitlines()]
    prints = [as_list(x[1:]) for x in played if x[0] == "L"][-len(lines):]
    sides = [x[1:] for x in played if x[0] == "S"]
    g = "(record { " + "; ".join(f"{k} = {v}" for k, v in zip(NUMBERS, geometry)) + " })"
    start = f"({as_state(sides[:5])})" if before else f"(formatted {g})"
    return (f"session_{number} : record {{ lines = {as_list(prints)}; left = {as_state(sides[-5:])} }}\n"
            f"    ≡ play {g} {as_list(lines)} {start}\n"
            f"unfolding computed\nsession_{number} = refl\n\n"), [int(x) for x in played[-1][1:]]


def sessions(rng, driver, count):
    """The statements of so many sessions, and how often each of MET was met in them."""
    text, met = HEAD, [0] * len(MET)
    for number in range(count):
        stated, new = instance(driver, number, *session_of(number)(rng))
        text += stated
        met = list(map(sum, zip(met, new, strict=True)))
    return text, met


def crates_under(names):
    """The crates that these stand on, themselves among them, as lines of crates.txt in its order."""
    lines = [x for x in (ROOT / "crates.txt").read_text().splitlines() if ":" in x and not x.startswith("#")]
    wanted = set(names)
    for name, under in reversed([x.split(":", 1) for x in lines]):
        if name in wanted:
            wanted.update(under.split())
    return [x for x in lines if x.split(":", 1)[0] in wanted]


def compiled(scratch, source):
    """A driver over the independent program."""
    program = scratch / pathlib.Path(source).stem
    core = sorted((ROOT / "tests/independent").glob("ind*.c"))
    subprocess.run(["cc", "-std=c11", "-O1", "-o", program, HERE / source, *core], check=True)
    return program


def main():
    arguments = argparse.ArgumentParser(description=__doc__, formatter_class=argparse.RawDescriptionHelpFormatter)
    arguments.add_argument("--seed", type=int, default=1)
    arguments.add_argument("--sessions", type=int, default=100)
    arguments.add_argument("--settings", type=int, default=200)
    asked = arguments.parse_args()
    rng = random.Random(asked.seed)
    with tempfile.TemporaryDirectory() as scratch:
        scratch = pathlib.Path(scratch)
        crate = scratch / "crates/compared"
        for folder in ("src", "specs"):
            (crate / folder).mkdir(parents=True)
        under = crates_under(["scope", "settings"])
        for line in under:
            name = line.split(":", 1)[0]
            shutil.copytree(ROOT / "crates" / name, scratch / "crates" / name, ignore=shutil.ignore_patterns("out"))
        (scratch / "crates.txt").write_text("\n".join(under) + "\ncompared: scope settings\n")
        (crate / "src/lib.rt").write_text("// Sessions and settings of the independent program. No code.\n#![tactic(auto)]\n")
        (crate / "specs/Lib.antt").write_text("pub mod Sessions\npub mod Settings\n")
        text, met = sessions(rng, compiled(scratch, "driver.c"), asked.sessions)
        (crate / "specs/Sessions.antt").write_text(text)
        text, answers = settings.instances(rng, compiled(scratch, "settings.c"), asked.settings)
        (crate / "specs/Settings.antt").write_text(text)
        print(f"definitions: {asked.sessions} random sessions of the independent program and {asked.settings} settings, "
              f"seed {asked.seed} ..", flush=True)
        proved = subprocess.run(["rt", "check"], cwd=crate, text=True, capture_output=True)
        if proved.returncode != 0:
            sys.stderr.write(proved.stdout + proved.stderr)
            sys.exit(f"error: the definitions and the independent program differ; replay with --seed {asked.seed} "
                     f"--sessions {asked.sessions} --settings {asked.settings}")
    print(f"definitions: {asked.sessions} sessions agree in every printed line and every word of the state; met in them: "
          + ", ".join(f"{name} {n}" for name, n in zip(MET, met)))
    if asked.sessions >= 100 and 0 in met:
        sys.exit(f"error: seed {asked.seed} never met: {MET[met.index(0)]}")
    print(f"definitions: {asked.settings} settings read or written agree: {answers}")


if __name__ == "__main__":
    main()
