"""The laws of cuts, of waiting and of doors into exits, to be tried on random buildings by tried.py."""
import itertools
from dataclasses import dataclass, field

from small_buildings import edit, most_out, random_building, run, without_exits


@dataclass
class Answer:
    """The people that a plan sends into an arc at a moment, and for each moment the value of a cut and its items in words."""

    moves: dict = field(default_factory=dict)
    values: dict = field(default_factory=dict)
    items: dict = field(default_factory=dict)


def answer_of(made):
    """The plan and the cuts that a session states; none if not everybody gets out."""
    said = run(["session"], [*made.lines(), *(f"cut {moment}" for moment in range(made.horizon + 1))])
    if not said[0].startswith("answer"):
        return None
    answer, moment = Answer(), None
    for kind, *words in (line.split() for line in said if line):
        if kind == "move":
            answer.moves[words[1], words[2], int(words[0])] = int(words[3])
        elif kind == "cut":
            moment = int(words[0])
            answer.values[moment], answer.items[moment] = int(words[1]), []
        elif kind in ("arc", "hold", "entry") and moment is not None:
            answer.items[moment].append([kind, *words])
    return answer


def shuffled(rng, made):
    """The same building with its rooms and arcs in another order, for which the program may print another plan."""
    rooms, arcs = list(made.rooms.items()), list(made.arcs.items())
    rng.shuffle(rooms)
    rng.shuffle(arcs)
    return edit(made, rooms=dict(rooms), arcs=dict(arcs))


def fills(plan, cuts):
    """Whether a plan fills each arc of the cuts of another one at its moments."""
    items = [words for moment in cuts.items.values() for kind, *words in moment if kind == "arc"]
    return all(plan.moves.get((tail, head, int(moment)), 0) == int(rate) for moment, tail, head, rate in items)


def filled(rng):
    """What a cut lists is full in each of two best plans, whichever of both has the cut."""
    made = random_building(rng, windows=1, entrants=1)
    one, other = answer_of(made), answer_of(shuffled(rng, made))
    return one and fills(one, other) and fills(other, one)


def gain_of(items, before, after):
    """What the items of a cut grow by."""
    total = 0
    for kind, *words in items:
        if kind == "arc":
            arc, moment = (words[1], words[2]), int(words[0])
            total += after.rate_at(arc, moment) - before.rate_at(arc, moment)
        elif kind == "hold":
            total += after.rooms[words[0]][0] - before.rooms[words[0]][0]
    return total


def widening(rng):
    """Wider arcs and larger rooms bring at most what the items of each cut grow by."""
    made = random_building(rng, windows=2, entrants=1)
    answer = answer_of(made)
    if answer is None:
        return None
    wider = edit(made)
    for arc in wider.arcs.values():
        arc[1] += rng.choice([0, 0, 1, 2])
    for room in wider.rooms.values():
        room[0] += rng.choice([0, 0, 1, 2])
    out = most_out(wider)
    return all(out[moment] <= value + gain_of(answer.items[moment], made, wider) for moment, value in answer.values.items())


def waits(rng):
    """Rooms that hold just those who start in them let as many out by each moment, if rates are steady and nobody comes later."""
    made = random_building(rng, room=3)
    return most_out(made) == most_out(edit(made, rooms={name: [start, start] for name, (_, start) in made.rooms.items()}))


def doors_of(made):
    """The arcs that lead into exits."""
    return [arc for arc in made.arcs if arc[1] in made.exits]


def wider_doors(made, *gains):
    """The building with doors that are wider by all of some gains."""
    arcs = {arc: [travel, rate + sum(gain.get(arc, 0) for gain in gains)] for arc, (travel, rate) in made.arcs.items()}
    return edit(made, arcs=arcs)


def doors(rng):
    """Two changes at doors, wider ones and closures less, bring together at most what each brings alone, added up."""
    made = random_building(rng, windows=2, entrants=2, exits=3)
    if not made.has_room():
        return None
    closed = rng.sample(doors_of(made), min(2, len(doors_of(made))))
    one, other = ({arc: rng.choice([0, 0, 1, 2]) for arc in doors_of(made) if arc not in closed} for _ in range(2))
    free = [arc for arc in closed if all(window[:2] != arc for window in made.windows)]
    shut = [(*arc, first, first + 2) for arc, first in zip(free, rng.choices(range(4), k=2))]
    neither = edit(made, windows=[*made.windows, *shut])
    with_one = wider_doors(edit(made, windows=[*made.windows, *shut[1:]]), one)
    with_other = wider_doors(edit(made, windows=[*made.windows, *shut[:1]]), other)
    curves = [most_out(it) for it in (wider_doors(made, one, other), neither, with_one, with_other)]
    return all(both + none <= alone + beside for both, none, alone, beside in zip(*curves))


def several_exits(rng):
    """Several exits lost keep inside at least as many as each alone, added up."""
    made = random_building(rng, windows=2, entrants=2, exits=5)
    if not made.has_room():
        return None
    lost = rng.sample(made.exits, rng.randint(1, len(made.exits)))
    out, none = most_out(made), most_out(without_exits(made, *lost))
    kept = [[all_out - fewer for all_out, fewer in zip(out, most_out(without_exits(made, it)))] for it in lost]
    return all(sum(each) <= all_out - fewest for all_out, fewest, *each in zip(out, none, *kept))


def greedy_exits(rng):
    """Exits that are chosen one after the other are as good as the law says, against any others."""
    made = random_building(rng, windows=1, entrants=1, exits=4)
    if not made.has_room():
        return None
    sets = [frozenset(it) for count in range(len(made.exits) + 1) for it in itertools.combinations(made.exits, count)]
    curves = {opened: most_out(without_exits(made, *set(made.exits) - opened)) for opened in sets}
    moment, chosen = rng.randint(1, made.horizon), frozenset()
    for count in range(1, len(made.exits) + 1):
        chosen = max((chosen | {exit} for exit in made.exits), key=lambda opened: curves[opened][moment])
        for others in filter(None, sets):
            best, lacking = curves[others][moment], (len(others) - 1) ** count
            if len(others) ** count * (best - curves[chosen][moment]) > lacking * best:
                return False
    return True


LAWS = (filled, widening, waits, doors, several_exits, greedy_exits)
