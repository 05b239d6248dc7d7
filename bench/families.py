#!/usr/bin/env python3
"""Shows how a run's time grows with the building: families of buildings, each at four sizes that double.

    bench/families.py [--program PATH] [--rounds N] [--only NAME,..] [--write FOLDER]

The largest of a family has nearly as many cells as a building may have, (nodes + arcs) * (horizon + 1), the others a half, a quarter
and an eighth of that. The table has the nanoseconds for each cell, the least of some rounds: where they stay as they are, the time grows with
the size of the building, and no more. Each building is solved or found short. `--write` keeps the buildings as files. It is no part of any test.
"""
import argparse
import pathlib
import random
import sys

import buildings
import measure

SIZES = (8, 4, 2, 1)


def metro_line(part):
    """A metro line with few exits: stations of ten sections in a row, one exit of rate 2 to 4 each, and long tunnels between them."""
    b, rng = of("Metro line", part), random.Random(11)
    before = None
    for station in range(1, 29 // part + 2):
        sections = [b.room("HA", station, 120, 60) for _ in range(10)]
        for one, other in zip(sections, sections[1:]):
            b.both(one, other, rng.randint(1, 2), rng.randint(4, 8))
        b.arc(rng.choice(sections), b.exit(station), rng.randint(3, 8), rng.randint(2, 4))
        if before:
            b.both(before, sections[0], rng.randint(20, 40), 3)
        before = sections[-1]
    return b.text()


def ladder(part, people):
    """Two long rows of halls with rungs between them, one way fast and the other slow by turns, and a door at the far end of each row."""
    b, rng = of("Ladder", part), random.Random(12)
    left, right = ([b.room("HA", 1, 100_000 if rng.random() < 0.3 else 500, people) for _ in range(180 // part)] for _ in range(2))
    for number in range(180 // part - 1):
        for row in (left, right):
            b.arc(row[number], row[number + 1], rng.randint(1, 4), 2 ** rng.randint(1, 7))
        b.arc(left[number], right[number], rng.randint(1, 4), 2 ** rng.randint(1, 7))
        b.arc(right[number], left[number], rng.randint(1, 4), 2 ** rng.randint(1, 7))
    b.arc(left[-1], b.exit(), 1, 20)
    b.arc(right[-1], b.exit(), 2, 20)
    return b.text()


def dense_grid(part):
    """Halls in a square, each joined with those beside it and across, full of people, and four doors in the corners."""
    b, rng = of("Dense grid", part), random.Random(13)
    side = {8: 6, 4: 9, 2: 12, 1: 18}[part]
    halls = [[b.room("HA", 1, 60, 40) for _ in range(side)] for _ in range(side)]
    for x in range(side):
        for y in range(side):
            for dx, dy in ((1, 0), (0, 1)):
                if x + dx < side and y + dy < side:
                    b.both(halls[x][y], halls[x + dx][y + dy], rng.randint(1, 3), rng.randint(2, 6))
    for x, y in ((0, 0), (0, -1), (-1, 0), (-1, -1)):
        b.arc(halls[x][y], b.exit(), 1, 8)
    return b.text()


def long_grid(part):
    """The square with long ways between the halls."""
    b, rng = of("Grid with long ways", part), random.Random(14)
    side = {8: 5, 4: 7, 2: 10, 1: 14}[part]
    halls = [[b.room("HA", 1, 60, 20) for _ in range(side)] for _ in range(side)]
    for x in range(side):
        for y in range(side):
            for dx, dy in ((1, 0), (0, 1)):
                if x + dx < side and y + dy < side:
                    b.both(halls[x][y], halls[x + dx][y + dy], rng.randint(5, 40), rng.randint(2, 6))
    for x, y in ((0, 0), (-1, -1)):
        b.arc(halls[x][y], b.exit(), 10, 10)
    return b.text()


def many_exits(part):
    """Nearly 100,000 people in rooms of many sizes, and an exit for each two or three of them."""
    b, rng = of("Many exits", part), random.Random(15)
    count = 230 // part
    rooms = [b.room("WP", 1, 100_000, 95_000 // count) for _ in range(count)]
    for number in range(count):
        for other in rng.sample(range(count), 3):
            if other != number and f"arc {rooms[number]} {rooms[other]} " not in "".join(it[: it.rindex(" ")] for it in b.arcs[-6:]):
                b.arc(rooms[number], rooms[other], rng.randint(1, 12), rng.randint(2, 9))
    for number in range(150 // part):
        b.arc(rooms[rng.randrange(count)], b.exit(), rng.randint(1, 32), 3)
    return b.text()


def shut_short_cuts(part):
    """A long row of halls, written from far to near, with many short cuts that nobody may enter."""
    b = of("Shut short cuts", part)
    count = 384 // part
    halls = [b.room("HA", 1, 100_000, 60) for _ in range(count)]
    for number in range(1, count):
        b.arc(halls[number - 1], halls[number], 1, 100)
    for number in range(count):
        for far in (2, 3, 5):
            if number + far < count:
                b.arc(halls[number], halls[number + far], 1, 0)
    b.arc(halls[-1], b.exit(), 1, 100)
    return b.text()


def narrow_doors(part):
    """Rooms with one exit of rate 1 each, which all of their people wait for."""
    b = of("Narrow doors", part)
    for _ in range(200 // part):
        b.arc(b.room("WP", 1, 100_000, min(480, 1_150 // part)), b.exit(), 1, 1)
    return b.text()


def one_door(part):
    """100,000 people in one room with an exit of rate 1, more than can get out."""
    b = of("One door", part, longest=1_200 // part)
    b.arc(b.room("WP", 1, 100_000, 100_000), b.exit(), 1, 1)
    return b.text()


def of(title, part, longest=1_200):
    """Returns a building with a part of the cells that one may have."""
    return buildings.Building(title, longest=longest, cells=buildings.MOST_CELLS // part)


ALL = {
    "metro_line": metro_line,
    "ladder": lambda part: ladder(part, 40),
    "ladder_short": lambda part: ladder(part, 250),
    "dense_grid": dense_grid,
    "long_grid": long_grid,
    "many_exits": many_exits,
    "shut_short_cuts": shut_short_cuts,
    "narrow_doors": narrow_doors,
    "one_door": one_door,
}


def cells_of(text):
    """Returns how many cells a building has."""
    places = sum(line.startswith(("node ", "arc ")) for line in text.split("\n"))
    return places * (int(buildings.statements(text, "horizon")[0][0]) + 1)


def main():
    parser = argparse.ArgumentParser(description=__doc__.split("\n")[0])
    parser.add_argument("--program", default=str(measure.TOP / "crates/evacplan/out/evacplan"))
    parser.add_argument("--rounds", type=int, default=3)
    parser.add_argument("--only")
    parser.add_argument("--write", type=pathlib.Path)
    given = parser.parse_args()
    print("| family | cells | ms | ns for each cell, from small to large |")
    print("|---|--:|--:|---|")
    for name in given.only.split(",") if given.only else ALL:
        cells, times = [], []
        for part in SIZES:
            text = ALL[name](part)
            if given.write:
                (given.write / f"{name}_{SIZES[0] // part}.evac").write_text(text)
            ended = [measure.run([given.program, "solve"], text.encode()) for _ in range(given.rounds)]
            if any(status not in (0, 1) or answer.startswith(b"refused") and b"refused 22" not in answer for _, answer, status in ended):
                sys.exit(f"{name}: {ended[0][1][:80]!r}")
            cells.append(cells_of(text))
            times.append(min(took for took, _, _ in ended))
        each = ", ".join(f"{took * 1e6 / count:.0f}" for took, count in zip(times, cells))
        print(f"| {name} | {cells[-1]:,} | {times[-1]:.0f} | {each} |", flush=True)


if __name__ == "__main__":
    main()
