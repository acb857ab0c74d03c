#!/usr/bin/env python3
"""Holds a session program to the independent one.

Both are run on the same input, odd input first and then random sessions, in
which lines are served, refused and skipped; they must print the same bytes.

usage: compare.py PROGRAM INDEPENDENT [--seed N] [--sessions N]
"""
import argparse
import random
import subprocess
import sys

MEGABYTE = 1 << 20
TOP = 4294967295


def odd_inputs(rng):
    """Names and inputs that a reader of lines can stumble on."""
    served = b"W 2 7\nR 2\n"
    yield "empty input", b""
    yield "no last newline", served + b"R 2"
    yield "newlines alone", b"\n" * 1000 + served
    yield "carriage returns", b"W 2 7\r\nR 2\r\nR 2\r" + b"\n" + served
    yield "two spaces", b"W  2 7\nW 2  7\nR  2\n" + served
    yield "over 32 bits", b"".join(b"R %d\nW 2 %d\n" % (n, n) for n in (TOP + 1, 2**33, 2**64, 2**64 + 2, 10**30)) + served
    yield "at 32 bits", b"W 2 %d\nR %d\nR 2\n" % (TOP, TOP)
    yield "leading zeros", b"W 0002 %s7\nR %s2\n" % (b"0" * 70000, b"0" * 70000)
    yield "a line of 1 MB that is served", served + b"R " + b"0" * MEGABYTE + b"2\n" + served
    yield "a line of 1 MB that is skipped", served + b"x" * MEGABYTE + b"\n" + served
    yield "a number of 1 MB", served + b"R " + b"2" * MEGABYTE + b"\n" + served
    yield "1 MB with no newline", served + b"R 2 " * (MEGABYTE // 4)
    yield "each byte after a line", served + b"".join(b"R 2%c\n" % b for b in range(256))
    yield "each byte in a line", served + b"".join(b"R%c2\nW 2%c7\n%c 2\n" % (b, b, b) for b in range(256))
    yield "binary bytes", rng.randbytes(MEGABYTE) + b"\n" + served
    yield "bytes of lines at random", served + bytes(rng.choices(b"WR 0123\n", k=MEGABYTE))
    yield "lines across any buffer", b"".join(b"W %d %d\nR %d\n" % (i % 3, i, i % 4) for i in range(30000))


def number(rng, n):
    """A decimal of n, now and then with zeros in front."""
    return b"0" * rng.choice((0, 0, 0, 0, 1, 9)) + b"%d" % n


def line(rng):
    """A line of a session: most are served, some refused, some spoilt."""
    page = number(rng, rng.choice((0, 0, 1, 1, 2, 2, 3, TOP, TOP + 1) if rng.random() < 0.3 else (0, 1, 2)))
    value = number(rng, rng.choice((rng.randrange(100), rng.randrange(TOP + 1), TOP)))
    text = bytearray(b"W " + page + b" " + value if rng.random() < 0.6 else b"R " + page)
    if rng.random() < 0.1:
        at = rng.randrange(len(text) + 1)
        text[at:at + rng.randrange(2)] = rng.choice((b" ", b"\r", b"\0", b"-", b"W", b"7", b"", b"\xff"))
    return bytes(text)


def session(rng):
    lines = [line(rng) for _ in range(rng.randrange(1, 120))]
    return b"\n".join(lines) + rng.choice((b"", b"\n", b"\n", b"\n"))


def inputs(seed, sessions):
    yield from odd_inputs(random.Random(seed))
    for i in range(sessions):
        yield f"session {i}", session(random.Random(seed * 1000003 + i))


def output(program, given):
    ended = subprocess.run([program], input=given, stdout=subprocess.PIPE, check=False)
    if ended.returncode != 0:
        sys.exit(f"error: {program} ended with status {ended.returncode}")
    return ended.stdout


def byte_by_byte(program, given):
    """What the program prints for input that comes a byte at a time."""
    running = subprocess.Popen([program], stdin=subprocess.PIPE, stdout=subprocess.PIPE, bufsize=0)
    for at in range(len(given)):
        running.stdin.write(given[at:at + 1])
    return running.communicate()[0]


def tell(name, seed, got, expected):
    got, expected = got.splitlines(), expected.splitlines()
    at = next((i for i, pair in enumerate(zip(got, expected)) if pair[0] != pair[1]), min(len(got), len(expected)))
    sys.exit(f"error: {name}, seed {seed}: printed line {at + 1} is {b''.join(got[at:at + 1])!r}, and the independent program's is "
             f"{b''.join(expected[at:at + 1])!r} ({len(got)} and {len(expected)} lines)")


def main():
    arguments = argparse.ArgumentParser(description=__doc__, formatter_class=argparse.RawDescriptionHelpFormatter)
    arguments.add_argument("program")
    arguments.add_argument("independent")
    arguments.add_argument("--seed", type=int, default=1)
    arguments.add_argument("--sessions", type=int, default=400)
    asked = arguments.parse_args()
    seen, lines = set(), 0
    for name, given in inputs(asked.seed, asked.sessions):
        expected = output(asked.independent, given)
        got = output(asked.program, given)
        if got == expected and len(given) < 2000:
            got = byte_by_byte(asked.program, given)
        if got != expected:
            tell(name, asked.seed, got, expected)
        printed = [tuple(x.split()) for x in expected.splitlines()]
        lines += len(printed)
        seen.update((x[0], len(x), x[3] != b"0") for x in printed)
    missing = {(b"0", 4, False), (b"0", 4, True), (b"0", 5, False), (b"0", 5, True), (b"1", 4, False), (b"6", 4, False)} - seen
    if missing:
        sys.exit(f"error: seed {asked.seed} never gave (answer, numbers, whether erases): {sorted(missing)}")
    print(f"session program: {asked.sessions} random sessions and the odd input agree with the independent program, {lines} lines")


if __name__ == "__main__":
    main()
