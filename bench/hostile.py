#!/usr/bin/env python3
"""Looks for small buildings that are dear to plan: random ones of at most 40 KB, with windows, grids, long ladders and few exits.

    bench/hostile.py [--program PATH] [--count N] [--from SEED] [--command solve] [--seconds N] [--write FOLDER]

Each building is made from its number alone, the same at every call. The table has the dearest ten with the seconds of processor time that each took, so a
busy machine counts less. A building that takes longer than `--seconds` is ended there. `--write` keeps the dearest ten as files. It is no part of any test.
"""
import argparse
import pathlib
import random
import resource
import subprocess
import sys
import tempfile

from buildings import LONGEST, MOST_CELLS, Building

TOP = pathlib.Path(__file__).resolve().parent.parent
MOST_BYTES, MOST_NODES, MOST_ARCS = 40_000, 390, 1_500


def grid(b, rng):
    """Joins halls in a square, some of them one way alone."""
    wide = rng.randint(3, 19)
    high = rng.randint(2, min(19, MOST_NODES // wide))
    halls = rooms(b, rng, wide * high)
    for at, hall in enumerate(halls):
        beside = [at + 1] if (at + 1) % wide else []
        for other in [*beside, at + wide]:
            if other < len(halls):
                join(b, rng, hall, halls[other])
    return halls


def ladder(b, rng):
    """Joins halls in two long rows with rungs between them."""
    count = rng.randint(10, MOST_NODES // 2 - 5)
    rows = [rooms(b, rng, count) for _ in range(2)]
    for one in rows:
        for pair in zip(one, one[1:]):
            join(b, rng, *pair)
    for pair in zip(*rows):
        if rng.random() < 0.8:
            join(b, rng, *pair)
    return rows[0] + rows[1]


def line(b, rng):
    """Joins halls in a row, as along a metro line, with some ways back that are long."""
    halls = rooms(b, rng, rng.randint(20, MOST_NODES - 10))
    for pair in zip(halls, halls[1:]):
        join(b, rng, *pair)
    for _ in range(len(halls) // 10):
        one, other = sorted(rng.sample(range(len(halls)), 2))
        if other - one > 1:
            join(b, rng, halls[one], halls[other])
    return halls


def net(b, rng):
    """Joins halls with others near them by chance."""
    halls = rooms(b, rng, rng.randint(10, 200))
    pairs = set(zip(range(len(halls) - 1), range(1, len(halls))))
    for _ in range(rng.randint(1, 3) * len(halls)):
        one, other = rng.randrange(len(halls)), rng.randrange(len(halls))
        if 0 < other - one < 20:
            pairs.add((one, other))
    for one, other in sorted(pairs):
        join(b, rng, halls[one], halls[other])
    return halls


def rooms(b, rng, count):
    """Returns so many halls, with people in some, in most or in a few."""
    share, most, wide = rng.choice((0.05, 0.5, 1)), rng.choice((5, 30, 90_000 // count)), rng.choice((0, 1, 10))
    starts = [rng.randint(1, most) if rng.random() < share else 0 for _ in range(count)]
    starts[0] = starts[0] or 1
    return [b.room("HA", 1, start + rng.randint(0, 10) * wide, start) for start in starts]


def join(b, rng, one, other):
    """Joins two halls, both ways as a rule, with a rate and a travel by chance."""
    if len(b.arcs) >= MOST_ARCS:
        return
    travel, rate = rng.choice((1, 1, 2, 5, 30)), rng.choice((1, 2, 3, 8, 100))
    b.arc(one, other, travel, rate)
    if rng.random() < 0.8:
        b.arc(other, one, travel + rng.randint(0, 2), rate)


def building(seed):
    """Returns the text of the building of a number, or None where it would be too long."""
    rng = random.Random(seed)
    b = Building(f"Hostile {seed}", longest=rng.choice((200, 600, LONGEST)), cells=MOST_CELLS)
    halls = rng.choice((grid, ladder, line, net))(b, rng)
    for _ in range(rng.choice((1, 2, 3, 8))):
        b.arc(rng.choice(halls), b.exit(), rng.randint(1, 20), rng.choice((1, 2, 5, 50)))
    text = with_windows(b.text(), rng) if rng.random() < 0.5 else b.text()
    return text if len(text) <= MOST_BYTES else None


def with_windows(text, rng):
    """Returns a building in version 2 whose arcs are closed at times."""
    lines = text.replace("evacplan 1", "evacplan 2", 1).split("\n")
    arcs = [line.split() for line in lines if line.startswith("arc ")]
    horizon = next(int(line.split()[1]) for line in lines if line.startswith("horizon "))
    share, end, windows = rng.choice((0.1, 0.5, 1)), lines.index("end"), []
    for fields in arcs:
        moments = sorted(rng.sample(range(horizon), 2 * rng.randint(1, 3))) if rng.random() < share else []
        windows += [f"window {fields[1]} {fields[2]} {since} {until}" for since, until in zip(moments[::2], moments[1::2])]
    return "\n".join([*lines[:end], *windows, *lines[end:]])


def seconds_of(program, command, text, most):
    """Returns the seconds of processor time that a program takes on a building, at most so many and one more, and how it ended."""
    with tempfile.TemporaryFile() as given:
        given.write(text.encode())
        given.seek(0)
        before = resource.getrusage(resource.RUSAGE_CHILDREN)
        ended = subprocess.run(
            [program, command],
            stdin=given,
            stdout=subprocess.DEVNULL,
            stderr=subprocess.DEVNULL,
            preexec_fn=lambda: resource.setrlimit(resource.RLIMIT_CPU, (most, most + 1)),
        )
        after = resource.getrusage(resource.RUSAGE_CHILDREN)
    return after.ru_utime + after.ru_stime - before.ru_utime - before.ru_stime, ended.returncode


def main():
    parser = argparse.ArgumentParser(description=__doc__.split("\n")[0])
    parser.add_argument("--program", default=str(TOP / "crates/evacplan/out/evacplan"))
    parser.add_argument("--count", type=int, default=2_000)
    parser.add_argument("--from", type=int, default=0, dest="first")
    parser.add_argument("--command", default="solve")
    parser.add_argument("--seconds", type=int, default=60)
    parser.add_argument("--write", type=pathlib.Path)
    given = parser.parse_args()
    tried = []
    for seed in range(given.first, given.first + given.count):
        text = building(seed)
        if text is None:
            continue
        took, status = seconds_of(given.program, given.command, text, given.seconds)
        tried.append((took, seed, len(text), status))
        print(f"{seed} {took:.2f} {status}", file=sys.stderr, flush=True)
    print(f"{len(tried)} buildings of {given.count} numbers.\n\n| number | bytes | seconds | ended with |\n|---|--:|--:|--:|")
    for took, seed, size, status in sorted(tried, reverse=True)[:10]:
        print(f"| {seed} | {size:,} | {took:.2f} | {status} |")
        if given.write:
            (given.write / f"hostile_{seed}.evac").write_text(building(seed))


if __name__ == "__main__":
    main()
