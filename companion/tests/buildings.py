"""Random small buildings and random edits of them, for tests that compare the package with the program."""
import random
from typing import List

from evacask.model.building import Model
from evacask.model.forms import EDITS

NUMBERS = (0, 1, 1, 2, 3, 4, 5, 6, 7, 12, 50, 1200, 1201, 10000, 10001, 100000, 100001, 123456789)


def random_building(chance: random.Random) -> str:
    """The text of a building of up to six rooms and three exits; half of them have windows and entrants."""
    rooms = [f"{chance.choice(('WP', 'HA', 'SW', 'LO'))}{number}.1" for number in range(1, chance.randint(1, 6) + 1)]
    exits = [f"DS{number}.1" for number in range(1, chance.randint(1, 3) + 1)]
    horizon, is_timed = chance.choice((6, 10, 20, 40)), chance.random() < 0.5
    lines = [f"evacplan {1 + is_timed}", "# a comment", "period 5", f"horizon {horizon}", "floor 1 G"]
    for name in rooms:
        capacity = chance.choice((3, 10, 50))
        lines += ["#: own " + name] * (chance.random() < 0.3) + [f"node {name} {capacity} {chance.randint(0, min(capacity, 12))}"]
    lines += [f"node {name}" for name in exits]
    ways = [(a, b) for a in rooms for b in rooms + exits if a != b and chance.random() < (0.5 if b in exits else 0.35)]
    lines += [f"arc {a} {b} {chance.randint(1, 3)} {chance.choice((0, 1, 1, 2, 3, 5))}" for a, b in ways]
    if is_timed:
        lines += timed_lines(chance, ways, rooms, horizon)
    return "\n".join([*lines, "end", ""])


def timed_lines(chance: random.Random, ways: "List[tuple[str, str]]", rooms: List[str], horizon: int) -> List[str]:
    """Windows of some ways, and entrants of some rooms."""
    lines = []
    for tail, head in ways:
        first = chance.randint(0, 6)
        lines += [f"window {tail} {head} {first} {first + chance.randint(1, 4)}"] * (chance.random() < 0.3)
    for name in rooms:
        lines += [f"entrant {name} {chance.randint(1, min(horizon, 8))} {chance.randint(1, 3)}"] * (chance.random() < 0.3)
    return lines


def random_edit(chance: random.Random, model: Model) -> str:
    """An edit of a building; some are refused, by each code that an edit can get."""
    word = chance.choice(list(EDITS)) if chance.random() < 0.97 else "shutt"
    forms = EDITS.get(word, "A B").split()
    tail, head = (
        chance.choice(list(model.arcs)) if model.arcs and chance.random() < 0.85 else (random_name(chance, model), random_name(chance, model))
    )
    fields = []
    for form in forms:
        if form in ("A", "B"):
            fields.append({"A": tail, "B": head}[form] if "B" in forms else random_name(chance, model))
        elif form == "D":
            fields.append(chance.choice(model.exits).name if chance.random() < 0.8 else random_name(chance, model))
        else:
            fields.append(str(chance.choice(NUMBERS)) if chance.random() < 0.97 else chance.choice(("z", "-1", "1234567890", "١")))
    return " ".join([word, *fields][: None if chance.random() < 0.98 else -1])


def random_name(chance: random.Random, model: Model) -> str:
    """A node's name; sometimes one that isn't there, or that is none."""
    others = ("WP99.1", "x", "DS1.2", "WP0.1", "WP10000.1", "WP01.1", "WP1.01", "WP1.1000", "WP9999.999", "wp1.1")
    return chance.choice(list(model.nodes)) if chance.random() < 0.9 else chance.choice(others)
