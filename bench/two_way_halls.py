#!/usr/bin/env python3
"""Buildings whose halls are walked both ways, as in malls, ships and hotels: what tempts a plan to walk people to and fro.

Nothing of the solver was tuned to them. Each is made anew from its name, the same at every call:
`python3 bench/two_way_halls.py NAME` prints one.
"""
import random
import sys

from buildings import Building


def row(b, halls, travel, rate):
    """Joins halls in a row, both ways."""
    for one, other in zip(halls, halls[1:]):
        b.both(one, other, travel, rate)


def loop(b, halls, travel, rate):
    """Joins halls in a circle, both ways."""
    row(b, [*halls, halls[0]], travel, rate)


def mall():
    """Three levels of a shopping mall: a promenade round an atrium on each, two bridges across it, shops, and stairs down to narrow doors."""
    b, rng = Building("Shopping mall"), random.Random(21)
    levels = []
    for floor in (1, 2, 3):
        halls = [b.room("HA", floor, 45, 5) for _ in range(24)]
        loop(b, halls, 2, 5)
        for at in (4, 16):
            b.both(halls[at], halls[(at + 8) % 24], 3, 3)
        for hall in halls:
            for _ in range(2):
                b.arc(b.room("WP", floor, 60, rng.randint(10, 40)), hall, rng.randint(1, 2), 2)
        levels.append(halls)
    for above, below in ((levels[2], levels[1]), (levels[1], levels[0])):
        for at in (0, 6, 12, 18):
            stair = b.room("SW", 2, 20)
            b.both(above[at], stair, 2, 3)
            b.both(stair, below[at], 2, 3)
    for at in (2, 9, 14, 21):
        b.arc(levels[0][at], b.exit(), 2, 3)
    return b.text()


def ship():
    """A passenger ship: six decks with a passage on each side and crossings between, stairs fore, midships and aft, and lifeboats on one deck."""
    b, rng = Building("Passenger ship"), random.Random(22)
    decks = []
    for deck in range(1, 7):
        sides = [[b.room("HA", deck, 14) for _ in range(12)] for _ in range(2)]
        for side in sides:
            row(b, side, 2, 3)
        for at in (0, 4, 8, 11):
            b.both(sides[0][at], sides[1][at], 2, 2)
        for side in sides:
            for hall in side:
                b.arc(b.room("WP", deck, 40, rng.randint(6, 30)), hall, 1, rng.randint(1, 2))
        decks.append(sides)
    for deck in range(5):
        for at in (1, 6, 10):
            stair = b.room("SW", deck + 1, 12)
            b.both(decks[deck][0][at], stair, 2, 2)
            b.both(stair, decks[deck + 1][1][at], 3, 2)
    for at in (2, 5, 9):
        for side in (0, 1):
            b.arc(decks[3][side][at], b.exit(4), 3, 1)
    return b.text()


def pier():
    """A pier with kiosks: one long deck that is walked both ways, a pavilion at its end, gates to the land, and a narrow jetty to boats."""
    b, rng = Building("Pier"), random.Random(23)
    deck = [b.room("HA", 1, 50, rng.randint(10, 50)) for _ in range(60)]
    row(b, deck, 2, 6)
    pavilion = [b.room("HA", 2, 120, 110) for _ in range(8)]
    loop(b, pavilion, 1, 8)
    b.both(pavilion[0], deck[-1], 2, 5)
    b.both(pavilion[4], deck[-2], 3, 4)
    for at in range(0, 60, 3):
        b.both(deck[at], b.room("LO", 1, 20, rng.randint(0, 20)), 1, 2)
    for at in (0, 1):
        b.arc(deck[at], b.exit(), 2, 4)
    b.arc(deck[40], b.exit(), 12, 1)
    return b.text()


def campus():
    """A campus: eight houses of two floors, each a row of halls that is left at both ends, on a net of covered ways, and four gates."""
    b, rng = Building("Campus"), random.Random(24)
    ways = [[b.room("HA", 1, 40) for _ in range(5)] for _ in range(5)]
    for x in range(5):
        row(b, ways[x], rng.randint(2, 5), 4)
        row(b, [line[x] for line in ways], rng.randint(2, 5), 4)
    for house in range(8):
        below = None
        for floor in (1, 2):
            halls = [b.room("HA", floor, 25) for _ in range(6)]
            row(b, halls, 1, 3)
            for hall in halls:
                for _ in range(2):
                    b.both(b.room("WP", floor, 45, rng.randint(5, 35)), hall, 1, 2)
            if below:
                for at in (0, 5):
                    b.both(halls[at], below[at], 3, 2)
            else:
                b.both(halls[0], ways[house % 5][house // 2], 2, 3)
                b.both(halls[5], ways[(house + 2) % 5][house // 2 + 1], 2, 3)
            below = below or halls
    for x, y in ((0, 0), (0, 4), (4, 0), (4, 4)):
        b.arc(ways[x][y], b.exit(), 2, 4)
    return b.text()


def hotel():
    """A hotel of ten floors: on each a corridor in the shape of a U with a stair at each end and one in the middle, and a lobby below."""
    b, rng = Building("Hotel"), random.Random(25)
    lobby = [b.room("LO", 1, 60, 40) for _ in range(4)]
    loop(b, lobby, 2, 6)
    below = [lobby[0], lobby[1], lobby[2]]
    for floor in range(2, 12):
        halls = [b.room("HA", floor, 10) for _ in range(9)]
        row(b, halls, 2, 2)
        stairs = [b.room("SW", floor, 15) for _ in range(3)]
        for stair, hall, lower in zip(stairs, (halls[0], halls[4], halls[8]), below):
            b.both(hall, stair, 1, 2)
            b.both(stair, lower, 3, 3)
        for hall in halls:
            b.arc(b.room("WP", floor, 30, rng.randint(2, 20)), hall, 1, 2)
        below = stairs
    for hall, rate in zip(lobby, (2, 1, 2, 1)):
        b.arc(hall, b.exit(), 2, rate)
    return b.text()


def airport():
    """An airport: three concourses of gates that meet in a hall of passages in a circle, with few doors there and one at each far end."""
    b, rng = Building("Airport"), random.Random(26)
    hub = [b.room("HA", 1, 80, 30) for _ in range(12)]
    loop(b, hub, 2, 7)
    for at in (1, 5, 9):
        b.arc(hub[at], b.exit(), 3, 4)
    for number, at in enumerate((0, 4, 8)):
        lanes = [[b.room("HA", number + 2, 35) for _ in range(15)] for _ in range(2)]
        for lane in lanes:
            row(b, lane, 3, 4)
        for one, other in zip(*lanes):
            b.both(one, other, 1, 2)
        b.both(lanes[0][0], hub[at], 2, 6)
        b.both(lanes[1][0], hub[at + 1], 3, 5)
        for lane in lanes:
            for hall in lane:
                b.both(b.room("WP", number + 2, 90, rng.randint(20, 80)), hall, 1, rng.randint(2, 3))
        b.arc(lanes[0][-1], b.exit(number + 2), 5, 1)
    return b.text()


def balconies():
    """Houses with open galleries: on each of six floors two rows of balconies, joined at both ends, and a stair at every third of them."""
    b, rng = Building("Balconies"), random.Random(27)
    below = None
    for floor in range(1, 7):
        rows = [[b.room("HA", floor, 18) for _ in range(12)] for _ in range(2)]
        loop(b, [*rows[0], *reversed(rows[1])], 1, 3)
        for halls in rows:
            for hall in halls:
                b.arc(b.room("WP", floor, 25, rng.randint(8, 24)), hall, 1, 1)
        for side in (0, 1):
            for at in (1, 4, 7, 10):
                if below:
                    stair = b.room("SW", floor, 8)
                    b.both(rows[side][at], stair, 1, 2)
                    b.both(stair, below[side][at], 2, 2)
                elif at in (1, 10):
                    b.arc(rows[side][at], b.exit(), 2, 2)
        below = rows
    return b.text()


def terminal():
    """A railway terminal: ten platforms with a bridge over them and a subway under them, a concourse at their heads, and gates that let few through."""
    b, rng = Building("Railway terminal"), random.Random(28)
    heads = [b.room("HA", 1, 70, 20) for _ in range(10)]
    bridge = [b.room("HA", 2, 25) for _ in range(10)]
    subway = [b.room("HA", 0, 25) for _ in range(10)]
    row(b, heads, 2, 6)
    row(b, bridge, 2, 4)
    row(b, subway, 2, 4)
    for number in range(10):
        parts = [b.room("HA", 1, 60, rng.randint(20, 55)) for _ in range(9)]
        row(b, parts, 1, 5)
        b.both(parts[0], heads[number], 2, 3)
        b.both(parts[4], bridge[number], 3, 2)
        b.both(parts[7], subway[number], 2, 2)
    for hall, travel, rate in ((heads[3], 2, 4), (heads[7], 2, 4), (bridge[0], 4, 2), (subway[9], 3, 2)):
        b.arc(hall, b.exit(), travel, rate)
    return b.text()


def museum():
    """A museum: rooms in a square on two floors, from each to the next both ways, two stairs, and doors at three corners."""
    b, rng = Building("Museum"), random.Random(29)
    floors = []
    for floor in (1, 2):
        rooms = [[b.room("HA", floor, 40, rng.randint(5, 35)) for _ in range(9)] for _ in range(9)]
        for x in range(9):
            row(b, rooms[x], 2, 2)
            row(b, [line[x] for line in rooms], 3, 2)
        floors.append(rooms)
    for x, y in ((2, 2), (6, 6)):
        b.both(floors[1][x][y], floors[0][x][y], 4, 3)
    for x, y in ((0, 0), (0, 8), (8, 4)):
        b.arc(floors[0][x][y], b.exit(), 1, 3)
    return b.text()


def market():
    """A covered market: five long aisles of stalls, crossings at every fourth of them, all full, and narrow gates at the ends of the outer aisles."""
    b, rng = Building("Covered market"), random.Random(30)
    aisles = [[b.room("HA", 1, 16, 15) for _ in range(24)] for _ in range(5)]
    for aisle in aisles:
        row(b, aisle, 1 + rng.randint(0, 1), 3)
    for at in range(0, 24, 4):
        row(b, [aisle[at] for aisle in aisles], 2, 2)
    for aisle, at, rate in ((0, 0, 2), (0, 23, 1), (4, 0, 1), (4, 23, 2), (2, 12, 1)):
        b.arc(aisles[aisle][at], b.exit(), 2, rate)
    return b.text()


ALL = {
    "mall": mall,
    "ship": ship,
    "pier": pier,
    "campus": campus,
    "hotel": hotel,
    "airport": airport,
    "balconies": balconies,
    "terminal": terminal,
    "museum": museum,
    "market": market,
}


if __name__ == "__main__":
    print(ALL[sys.argv[1]](), end="")
