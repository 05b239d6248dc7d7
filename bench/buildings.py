"""Large buildings to time a planner on, each made anew from its name: the same at every call.

A name that ends with `_shut` is a building whose busiest exit lets nobody out, and one that ends with `_late` has people who come in later.
`python3 bench/buildings.py NAME` prints one.
"""
import collections
import heapq
import random
import sys

CELLS = 400_000
MOST_CELLS, LONGEST = 1_000_000, 1_200


class Building:
    """A model in the making: rooms, exits and arcs, written out with the longest horizon that a number of cells allows."""

    def __init__(self, title, seconds=5, longest=600, cells=CELLS):
        self.title, self.seconds, self.longest, self.cells = title, seconds, longest, cells
        self.nodes, self.arcs, self.counts = [], [], {}

    def name(self, kind, floor):
        number = self.counts.get((kind, floor), 0) + 1
        self.counts[kind, floor] = number
        return f"{kind}{number}.{floor}"

    def room(self, kind, floor, capacity, start=0):
        name = self.name(kind, floor)
        self.nodes.append((floor, f"node {name} {capacity} {start}"))
        return name

    def exit(self, floor=1):
        name = self.name("DS", floor)
        self.nodes.append((floor, f"node {name}"))
        return name

    def arc(self, tail, head, travel, rate):
        self.arcs.append(f"arc {tail} {head} {travel} {rate}")

    def both(self, one, other, travel, rate):
        self.arc(one, other, travel, rate)
        self.arc(other, one, travel, rate)

    def text(self):
        moments = self.cells // (len(self.nodes) + len(self.arcs))
        lines = ["evacplan 1", f"title {self.title}", f"period {self.seconds}"]
        lines.append(f"horizon {min(self.longest, moments - 1)}")
        lines += [f"floor {floor} Floor {floor}" for floor in sorted({f for f, _ in self.nodes})]
        lines += [line for _, line in self.nodes]
        return "\n".join([*lines, *self.arcs, "end", ""])


def ring():
    """A corridor that leads round, rooms along it, and exits far apart."""
    b, rng = Building("Ring"), random.Random(1)
    halls = [b.room("HA", 1, 30) for _ in range(130)]
    for number, hall in enumerate(halls):
        b.both(hall, halls[(number + 1) % len(halls)], rng.randint(1, 3), rng.randint(3, 6))
        room = b.room("WP", 1, 40, rng.randint(10, 30))
        b.arc(room, hall, 1, 2)
        if number % 26 == 0:
            b.arc(hall, b.exit(), 1, 1)
    return b.text()


def zigzag():
    """Two rows of halls with rungs between them that are near or far by turns, and a narrow exit at each rung of the far ones."""
    b, rng = Building("Zigzag ladder"), random.Random(2)
    left = [b.room("HA", 1, 12, 10) for _ in range(110)]
    right = [b.room("HA", 2, 12, 10) for _ in range(110)]
    for number in range(109):
        near = 1 + number % 2 * 4
        b.both(left[number], left[number + 1], near, 3)
        b.both(right[number], right[number + 1], 6 - near, 3)
    for number in range(110):
        b.both(left[number], right[number], rng.randint(1, 4), 2)
        if number % 18 == 0:
            b.arc((left if number % 36 else right)[number], b.exit(1 + (number % 36 == 0)), 1 + number % 5, 1)
    return b.text()


def concert():
    """A concert hall: blocks of seats, aisles between them, a ring of foyers, and wide doors."""
    b, rng = Building("Concert hall"), random.Random(3)
    foyers = [b.room("HA", 1, 250) for _ in range(24)]
    for number, foyer in enumerate(foyers):
        b.both(foyer, foyers[(number + 1) % 24], 2, 12)
        if number % 3 == 0:
            b.arc(foyer, b.exit(), 2, 2)
    for block in range(24):
        aisle = [b.room("HA", 2, 15) for _ in range(6)]
        for row in range(5):
            b.both(aisle[row], aisle[row + 1], 1, 5)
        b.arc(aisle[-1], foyers[block], 2, 6)
        for row in range(6):
            seats = b.room("WP", 2, 60, rng.randint(20, 45))
            b.arc(seats, aisle[row], 1, rng.randint(1, 2))
    return b.text()


def crowd():
    """80,000 people in a dense net of halls, with many doors."""
    b, rng = Building("Crowd of 80,000"), random.Random(4)
    halls = [b.room("HA", 1, 1_000, 250) for _ in range(320)]
    pairs = {(number, number + 1) for number in range(319)}
    while len(pairs) < 1_300:
        one, other = rng.sample(range(320), 2)
        if abs(one - other) < 60:
            pairs.add((one, other))
    for one, other in sorted(pairs):
        b.arc(halls[one], halls[other], rng.randint(1, 4), rng.randint(8, 25))
    for number in range(40):
        door = b.exit()
        for hall in rng.sample(range(number * 8, number * 8 + 8), 3):
            b.arc(halls[hall], door, rng.randint(1, 3), rng.randint(2, 5))
    return b.text()


def tower(floors=40, longest=600, cells=CELLS):
    """A tower with wide stairs, which take all who come, and halls that don't."""
    b, rng = Building("Tower with wide stairs", longest=longest, cells=cells), random.Random(5)
    stairs = {}
    for floor in range(1, floors + 1):
        halls = [b.room("HA", floor, 20) for _ in range(3)]
        b.both(halls[0], halls[1], 2, 4)
        b.both(halls[1], halls[2], 2, 4)
        for side in (0, 1):
            stair = stairs[floor, side] = b.room("SW", floor, 60)
            b.arc(halls[side * 2], stair, 1, 6)
            if floor > 1:
                b.arc(stair, stairs[floor - 1, side], 3, 12)
            else:
                b.arc(stair, b.exit(), 1, 6)
        for number in range(4):
            room = b.room("WP", floor, 40, rng.randint(15, 40))
            b.arc(room, halls[number % 3], 1, 2)
    return b.text()


def tall_tower():
    """The tower at the longest horizon, and nearly at the most cells."""
    return tower(39, LONGEST, MOST_CELLS)


def hospital():
    """A hospital: wards with rates of their own, two stairs, and an arc of rate 1 from each floor to each of two lifts, longer from a higher one."""
    b, rng = Building("Hospital"), random.Random(6)
    lobby = b.room("LO", 1, 80)
    lifts = [b.room("LO", 1, 4) for _ in range(2)]
    for lift in lifts:
        b.arc(lift, lobby, 1, 2)
    for _ in range(2):
        b.arc(lobby, b.exit(), 2, 3)
    below = []
    for floor in range(1, 17):
        halls = [b.room("HA", floor, 16) for _ in range(4)]
        for one, other in zip(halls, halls[1:]):
            b.both(one, other, 2, 3)
        stairs = [b.room("SW", floor, 10) for _ in range(2)]
        for stair, hall in zip(stairs, (halls[0], halls[3])):
            b.arc(hall, stair, 1, 3)
        for stair, next_stair in zip(stairs, below):
            b.arc(stair, next_stair, 4, 2)
        if not below:
            b.arc(stairs[0], lobby, 2, 3)
            b.arc(stairs[1], b.exit(), 2, 3)
        for lift, hall in zip(lifts, halls[1:]):
            b.arc(hall, lift, 3 + floor, 1)
        for number in range(8):
            ward = b.room("WP", floor, 30, rng.randint(8, 24))
            b.arc(ward, halls[number // 2], rng.randint(1, 3), rng.randint(1, 3))
        below = stairs
    return b.text()


def metro():
    """A metro line: platforms of eight sections in a row, a narrow exit at each, and long tunnels from one platform to the next."""
    b, rng = Building("Metro line"), random.Random(7)
    before = None
    for station in range(1, 26):
        crowd = rng.choice([5, 15, 40, 90])
        sections = [b.room("HA", station, 120, rng.randint(crowd // 2, crowd)) for _ in range(8)]
        for one, other in zip(sections, sections[1:]):
            b.both(one, other, rng.randint(1, 2), rng.randint(4, 8))
        b.arc(rng.choice(sections), b.exit(station), rng.randint(3, 8), rng.randint(2, 4))
        if before:
            b.both(before, sections[0], rng.randint(20, 40), 3)
        before = sections[-1]
    return b.text()


def arena():
    """An arena: sectors of four tiers, each with a stair of its own, steps to the tier below and to the sectors beside, and gates on a ring."""
    b, rng = Building("Arena"), random.Random(8)
    ring = [b.room("HA", 0, 150) for _ in range(40)]
    tiers = [[b.room("WP", tier, 800, rng.randint(300, 600)) for _ in ring] for tier in range(1, 5)]
    for sector, hall in enumerate(ring):
        beside = (sector + 1) % len(ring)
        b.both(hall, ring[beside], 3, 15)
        lobby = b.room("LO", 0, 60)
        b.arc(lobby, hall, 1, 24)
        if sector % 2 == 0:
            b.arc(hall, b.exit(0), rng.randint(1, 4), rng.randint(8, 18))
        for tier, stands in enumerate(tiers):
            b.arc(stands[sector], lobby, 3 + tier, rng.randint(3, 6))
            b.both(stands[sector], stands[beside], 2, 3)
            if tier > 0:
                b.arc(stands[sector], tiers[tier - 1][sector], 2, rng.randint(5, 9))
    return b.text()


def layers():
    """Layers of four halls, from each a way for one person to each hall of the next: its block has more than 20,000,000 bytes."""
    b, before = Building("Layers", longest=LONGEST, cells=MOST_CELLS), []
    for _ in range(45):
        halls = [b.room("HA", 100, 5_000, 0 if before else 4_300) for _ in range(4)]
        for one in before:
            for other in halls:
                b.arc(one, other, 1, 1)
        before = halls
    for hall in before:
        b.arc(hall, b.exit(100), 1, 4)
    return b.text()


def statements(text, word):
    """Returns the fields after a word, for each line of a text that begins with it."""
    lines = (line.split() for line in text.split("\n"))
    return [fields[1:] for fields in lines if fields[:1] == [word]]


def exits_of(text):
    """Returns the names of a building's exits."""
    return [name for name, *_ in statements(text, "node") if name.startswith("DS")]


def busiest_exit(text):
    """Returns the exit that the most people have nearest, by travel alone."""
    entering = collections.defaultdict(list)
    for tail, head, travel, _ in statements(text, "arc"):
        entering[head].append((tail, int(travel)))
    nearest, ahead = {}, [(0, door, door) for door in exits_of(text)]
    while ahead:
        far, node, door = heapq.heappop(ahead)
        if node not in nearest:
            nearest[node] = door
            for tail, travel in entering[node]:
                heapq.heappush(ahead, (far + travel, tail, door))
    people = collections.Counter()
    for name, *numbers in statements(text, "node"):
        people[nearest.get(name)] += int(numbers[1]) if numbers else 0
    return max(exits_of(text), key=people.get)


def without(text, door):
    """Returns a building whose exit lets nobody out: the rates of the arcs into it are 0."""
    lines = text.split("\n")
    for at, fields in enumerate(line.split() for line in lines):
        if fields[:1] == ["arc"] and fields[2] == door:
            lines[at] = " ".join([*fields[:4], "0"])
    return "\n".join(lines)


def shut(text):
    """Returns a building without its busiest exit."""
    return without(text, busiest_exit(text))


def late(text):
    """Returns a building in version 2: half of the people of each room come into it later, each at some moment of the first half."""
    rng = random.Random(9)
    half = int(statements(text, "horizon")[0][0]) // 2
    lines = text.replace("evacplan 1", "evacplan 2", 1).split("\n")
    entrants = []
    for at, fields in enumerate(line.split() for line in lines):
        if fields[:1] == ["node"] and len(fields) == 4:
            start = int(fields[3])
            lines[at] = " ".join([*fields[:3], str(start - start // 2)])
            moments = collections.Counter(rng.randint(1, half) for _ in range(start // 2))
            entrants += [f"entrant {fields[1]} {moment} {people}" for moment, people in sorted(moments.items())]
    end = lines.index("end")
    return "\n".join([*lines[:end], *entrants, *lines[end:]])


ALL = {
    "ring": ring,
    "zigzag": zigzag,
    "concert": concert,
    "crowd": crowd,
    "tower": tower,
    "hospital": hospital,
    "metro": metro,
    "arena": arena,
    "zigzag_shut": lambda: shut(zigzag()),
    "arena_shut": lambda: shut(arena()),
    "tower_shut": lambda: shut(tall_tower()),
    "tower_late": lambda: late(tall_tower()),
}
# Too large to be measured beside the others.
LARGE = {"layers": layers}


if __name__ == "__main__":
    print({**ALL, **LARGE}[sys.argv[1]](), end="")
