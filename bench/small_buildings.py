"""Small random buildings, as texts, and what the program says of them: for the laws that are tried on the program."""
import copy
import os
import pathlib
import subprocess
import sys
from dataclasses import dataclass, field

TOP = pathlib.Path(__file__).resolve().parent.parent
PROGRAM = pathlib.Path(os.environ.get("EVACPLAN", TOP / "crates/evacplan/out/evacplan"))


# ---- buildings


@dataclass
class Building:
    """Rooms with capacity and start, exits, arcs with travel and rate; windows as (tail, head, from, until), entrants as (room, moment, people)."""

    horizon: int
    rooms: dict
    exits: list
    arcs: dict
    windows: list = field(default_factory=list)
    entrants: list = field(default_factory=list)

    def lines(self):
        floors = sorted({int(name.split(".")[1]) for name in [*self.rooms, *self.exits]})
        lines = ["evacplan 2", "period 5", f"horizon {self.horizon}", *(f"floor {floor} Storey" for floor in floors)]
        lines += [f"node {name} {room} {start}" for name, (room, start) in self.rooms.items()]
        lines += [f"node {name}" for name in self.exits]
        lines += [f"arc {tail} {head} {travel} {rate}" for (tail, head), (travel, rate) in self.arcs.items()]
        lines += [f"window {tail} {head} {first} {end}" for tail, head, first, end in self.windows]
        return [*lines, *(f"entrant {room} {moment} {people}" for room, moment, people in self.entrants), "end"]

    def people(self):
        return sum(start for _, start in self.rooms.values()) + sum(people for _, _, people in self.entrants)

    def has_room(self):
        """Whether each room holds all who come into it from nowhere."""
        return all(start + sum(it[2] for it in self.entrants if it[0] == name) <= room for name, (room, start) in self.rooms.items())

    def rate_at(self, arc, moment):
        closed = any((tail, head) == arc and first <= moment < end for tail, head, first, end in self.windows)
        return 0 if closed else self.arcs[arc][1]


def random_building(rng, windows=0, entrants=0, exits=2, room=2):
    """A small building: rooms in a row with other arcs between them, some of which hold few people more than start there."""
    count = rng.randint(1, 5)
    names = [f"WP{number}.1" for number in range(1, count + 1)]
    doors = [f"DS{number}.1" for number in range(1, rng.randint(1, exits) + 1)]
    rooms = {}
    for name in names:
        start = rng.choice([0, rng.randint(1, 6)])
        rooms[name] = [start + rng.randint(0, room), start]
    pairs = {(name, rng.choice(names[at + 1 :] or doors)) for at, name in enumerate(names)}
    for _ in range(rng.randint(0, 2 * count)):
        tail, head = rng.choice(names), rng.choice(names + doors)
        if tail != head:
            pairs.add((tail, head))
    arcs = {pair: [rng.randint(1, 3), rng.randint(1, 4)] for pair in sorted(pairs)}
    made = Building(rng.randint(3, 14), rooms, doors, arcs)
    for tail, head in rng.sample(sorted(pairs), min(len(pairs), rng.randint(0, windows))):
        first = rng.randint(0, made.horizon)
        made.windows.append((tail, head, first, first + rng.randint(1, 4)))
    for name in rng.sample(names, min(count, rng.randint(0, entrants))):
        made.entrants.append((name, rng.randint(1, made.horizon), rng.randint(1, 3)))
    return made


# ---- the program


def run(words, lines):
    ran = subprocess.run([str(PROGRAM), *words], input="\n".join(lines).encode() + b"\n", capture_output=True)
    said = ran.stdout.decode().split("\n")
    if ran.returncode > 1 or said[0].startswith("refused") and not said[0].startswith("refused 22 "):
        sys.exit("\n".join([*lines, f"tried: {' '.join(words)} ended with {ran.returncode}: {said[0]}"]))
    return said


def numbers_out(said, horizon):
    """The people out by each moment up to the horizon, of an answer block."""
    curve = [int(it.split()[2]) for it in said if it.startswith("out ")]
    return (curve + curve[-1:] * (horizon + 1))[: horizon + 1]


def clears(made):
    return run(["solve"], made.lines())[0].startswith("answer")


def most_out(made):
    """The most people who can be out by each moment up to the horizon, where some plan is feasible.

    A way that everybody may take to one exit more, and that ends after the horizon, changes no cut of a moment up to then. With it everybody gets
    out, so one answer has all the numbers."""
    longer = copy.deepcopy(made)
    longer.horizon = 2 * made.horizon + 2
    longer.exits.append("DS99.1")
    longer.arcs.update({(name, "DS99.1"): [made.horizon + 1, 10_000] for name in made.rooms})
    return numbers_out(run(["solve"], longer.lines()), made.horizon)


def after(made, command, edited):
    """The most people out by each moment after an edit: as a session says where everybody gets out before and after it, else of the edited text."""
    said = run(["session"], [*made.lines(), command]) if clears(made) else []
    at = said.index("answer 1") if "answer 1" in said else None
    return most_out(edited) if at is None else numbers_out(said[at:], made.horizon)


def edit(made, **changed):
    """A building with other parts, the rest as it was."""
    made = copy.deepcopy(made)
    for part, value in changed.items():
        setattr(made, part, value)
    return made


def with_room(made, name, room):
    return edit(made, rooms={**made.rooms, name: [room, made.rooms[name][1]]})


def with_start(made, name, start):
    return edit(made, rooms={**made.rooms, name: [made.rooms[name][0], start]})


def with_arc(made, arc, travel=None, rate=None):
    return edit(made, arcs={**made.arcs, arc: [travel or made.arcs[arc][0], made.arcs[arc][1] if rate is None else rate]})


def without_arcs(made, *closed):
    return edit(made, arcs={arc: [travel, 0 if arc in closed else rate] for arc, (travel, rate) in made.arcs.items()})


def without_exits(made, *lost):
    return without_arcs(made, *(arc for arc in made.arcs if arc[1] in lost))


def with_window(made, first, end, *arcs):
    return edit(made, windows=[*made.windows, *((*arc, first, end) for arc in arcs)])


def is_least(lower, upper, more=0):
    """Whether one curve is nowhere above another one raised by a number."""
    return all(one <= other + more for one, other in zip(lower, upper))
