#!/usr/bin/env python3
"""Tries the laws of docs/maintainers/laws.md on random buildings, and shows by a building that what is nearly one of them is false.

    bench/tried.py [--program PATH] [--count N] [--seed N] [NAME ..]

A name is that of a law or of a near miss; without names all are tried. For a law N buildings are made that meet what it asks, planned, and compared
with what it says. For a near miss one building is made, by its seed in NEAR, and must go against it. Buildings are edited in a session
where everybody gets out of them, and else as texts. Capacities are tried on the large buildings of `buildings.py` and on examples/ too.

No test tries the laws; tests/near_misses.py tries the near misses too. It prints each building that goes against a law, and each near miss that its
building doesn't show to be false. Its status is 1 where there is one.
"""
import argparse
import pathlib
import random
import sys

sys.dont_write_bytecode = True
import buildings
import small_buildings
import tried_cuts
import tried_periods
from small_buildings import (
    PROGRAM,
    TOP,
    Building,
    after,
    clears,
    edit,
    is_least,
    most_out,
    random_building,
    run,
    with_arc,
    with_room,
    with_start,
    with_window,
    without_arcs,
    without_exits,
)


# ---- the laws: None where the building isn't one that the law asks for, else whether it holds of it


def best(rng):
    """One plan has as many out by each moment as can be out by it at all."""
    made = random_building(rng, windows=2)
    made.horizon = max(made.horizon, 4)
    shorter = edit(made, horizon=rng.randint(0, made.horizon))
    return most_out(shorter) == most_out(made)[: shorter.horizon + 1]


def most(rng):
    """The number of a shortfall is how many can get out by the horizon, where some plan is feasible."""
    made = random_building(rng, windows=2, entrants=2)
    said = run(["solve"], made.lines())
    if said[0].startswith("answer") or not made.has_room():
        return None
    return [int(it[5:]) for it in said if it.startswith("most ")] == most_out(made)[-1:]


def capacities(rng):
    """Without windows, and where each room holds all who come into it from nowhere, a capacity changes no number out."""
    made = random_building(rng, entrants=1)
    name = rng.choice(list(made.rooms))
    room = made.rooms[name][1] + sum(it[2] for it in made.entrants if it[0] == name) + rng.randint(0, 5)
    other = with_room(made, name, room)
    if not made.has_room():
        return None
    return after(made, f"room {name} {room}", other) == most_out(made) and clears(made) == clears(other)


def looser(rng):
    """A larger rate or capacity, a window less, or an arc or exit opened: never fewer out."""
    made = random_building(rng, windows=2, entrants=2)
    name, arc = rng.choice(list(made.rooms)), rng.choice(list(made.arcs))
    room, rate = made.rooms[name][0] + rng.randint(0, 3), made.arcs[arc][1] + rng.randint(0, 3)
    kind = rng.choice(["room", "rate", "unwindow", "reopen"])
    if kind == "room":
        first, command, second = made, f"room {name} {room}", with_room(made, name, room)
    elif kind == "rate":
        first, command, second = made, f"rate {' '.join(arc)} {rate}", with_arc(made, arc, rate=rate)
    elif kind == "unwindow" and made.windows:
        first, command, second = made, f"unwindow {' '.join(map(str, made.windows[0]))}", edit(made, windows=made.windows[1:])
    else:
        first, command, second = without_arcs(made, arc), f"rate {' '.join(arc)} {made.arcs[arc][1]}", made
    cleared = clears(first)
    if not cleared and not first.has_room():
        return None
    return is_least(most_out(first), after(first, command, second)) and (clears(second) or not cleared)


def people(rng):
    """People who leave a room, come into one or are shifted: at most so many more or fewer out by each moment, and never the wrong way round."""
    made = random_building(rng, windows=2, entrants=2)
    name, other = rng.choice(list(made.rooms)), rng.choice(list(made.rooms))
    count = rng.randint(1, 3)
    room, start = made.rooms[name]
    if start < count or not made.has_room() and not clears(made):
        return None
    fewer = with_start(made, name, start - count)
    before, left = most_out(made), after(made, f"leave {name} {count}", fewer)
    holds = is_least(left, before) and is_least(before, left, count) and (clears(fewer) or not clears(made))
    back = after(fewer, f"enter {name} {count}", made)
    holds = holds and back == before
    if other != name and made.rooms[other][1] + count <= made.rooms[other][0]:
        shifted = with_start(fewer, other, made.rooms[other][1] + count)
        if shifted.has_room() or clears(shifted):
            moved = after(made, f"shift {name} {other} {count}", shifted)
            holds = holds and is_least(moved, before, count) and is_least(before, moved, count)
    return holds


def exits(rng):
    """Two exits lost together keep inside at least as many as each alone, added up."""
    made = random_building(rng, windows=2, entrants=2, exits=3)
    if len(made.exits) < 2:
        return None
    one, other = rng.sample(made.exits, 2)
    both = without_exits(made, one, other)
    if not made.has_room() and not clears(both):
        return None
    alone = [after(made, f"shutexit {lost}", without_exits(made, lost)) for lost in (one, other)]
    return all(a + b <= c + d for a, b, c, d in zip(most_out(made), most_out(both), *alone))


def one_arc(rng):
    """One arc with windows of w moments in all: by w moments later as many are out. Rates are steady else, and there is room."""
    made = random_building(rng, entrants=1)
    arc, held = rng.choice(list(made.arcs)), rng.randint(1, 2)
    if not made.has_room():
        return None
    moments = sorted(rng.sample(range(made.horizon + 1), min(held * 2, made.horizon + 1)))
    spans = [(first, first + 1) for first in moments[::2]]
    closed, length = edit(made, windows=[(*arc, first, end) for first, end in spans]), len(spans)
    curve = after(made, f"window {' '.join(arc)} {spans[0][0]} {spans[0][1]}", closed) if length == 1 else most_out(closed)
    return is_least(most_out(made), curve[length:])


def common_window(rng):
    """Arcs that are closed in one common window, where each room holds everybody."""
    made = random_building(rng, entrants=1)
    made.rooms = {name: [made.people(), start] for name, (_, start) in made.rooms.items()}
    first, length = rng.randint(0, made.horizon), rng.randint(1, 4)
    closed = with_window(made, first, first + length, *rng.sample(list(made.arcs), rng.randint(1, len(made.arcs))))
    return is_least(most_out(made), most_out(closed)[length:])


def walking_time(made, width):
    """The time that somebody needs at most who starts in a room, over arcs for so many people at once; none where there is no way."""
    time = {name: 0 for name in made.exits}
    for _ in made.rooms:
        for (tail, head), (travel, rate) in made.arcs.items():
            if rate >= width and head in time:
                time[tail] = min(time.get(tail, 10_000), time[head] + travel)
    needed = [time.get(name) for name, (_, start) in made.rooms.items() if start]
    return None if not needed or None in needed else max(needed)


def keeps_pace(made, width, longest):
    """Whether from so long on so many more are out at each moment until all are, and nobody is left too late."""
    curve, people = most_out(made), made.people()
    grows = all(after == people or before + width <= after for before, after in zip(curve[max(longest - 1, 0) :], curve[max(longest, 1) :]))
    return grows and all(it == people for at, it in enumerate(curve) if people <= width * (at + 1 - longest))


def ways(rng):
    """Where ways for r people are no longer than u, r come out at each moment from u on, until all are out."""
    made, width = random_building(rng), rng.randint(1, 3)
    longest = walking_time(made, width)
    return None if longest is None else keeps_pace(made, width, longest)


def never_falls(made, smallest, ahead=2, strict=True):
    """Whether no fewer come out at a moment than at the one before, as long as fewer are out than start in any room with people."""
    curve = most_out(made)
    early = [at for at in range(len(curve) - 2) if (curve[at + ahead] < smallest if strict else curve[at + ahead] <= smallest)]
    return all(2 * curve[at + 1] <= curve[at] + curve[at + 2] for at in early)


def smallest_start(made):
    return min([start for _, start in made.rooms.values() if start] or [0])


def pace(rng):
    """As long as fewer are out than start in any room with people, no fewer come out at a moment than at the one before."""
    made = random_building(rng)
    return never_falls(made, smallest_start(made)) if smallest_start(made) else None


def slower(rng):
    """A longer travel and a smaller rate never let more out, where rates are steady and there is room."""
    made = random_building(rng, entrants=1)
    arc = rng.choice(list(made.arcs))
    travel, rate = made.arcs[arc]
    if not made.has_room():
        return None
    worse = with_arc(made, arc, travel + rng.randint(1, 3), max(rate - rng.randint(0, 2), 0))
    return is_least(most_out(worse), most_out(made)) and (clears(made) or not clears(worse))


def walks_and_clearing(made):
    """The numbers `uncongested` and `cleared` of the reports on a plan; none where there is no plan or nobody starts inside."""
    said = run(["solve", "--reports"], made.lines())
    if not said[0].startswith("answer") or not smallest_start(made):
        return None
    number = {it.split()[0]: int(it.split()[1]) for it in said if it.startswith(("cleared ", "uncongested "))}
    return number["uncongested"], number["cleared"]


def uncongested(rng):
    """Those who meet nobody need no longer than all of them."""
    found = walks_and_clearing(random_building(rng, windows=2, entrants=2))
    return found and found[0] <= found[1]


def tower(storeys):
    """The building that `drill` generates, of any number of storeys."""
    rooms, arcs = {"LO1.1": [40, 0]}, {("LO1.1", "DS1.1"): [1, 3], ("LO1.1", "DS2.1"): [2, 2]}
    for at in range(1, storeys + 1):
        rooms.update({f"WP{room}.{at}": [40, 10 + (7 * at + 3 * room) % 11] for room in (1, 2)})
        rooms.update({f"HA1.{at}": [30, 0], f"SW1.{at}": [12, 0]})
        arcs.update({(f"WP{room}.{at}", f"HA1.{at}"): [1, 6] for room in (1, 2)})
        arcs.update({(f"HA1.{at}", f"SW1.{at}"): [1, 4], (f"SW1.{at}", f"SW1.{at - 1}" if at > 1 else "LO1.1"): [2, 4]})
    return Building(600, rooms, ["DS1.1", "DS2.1"], arcs)


def drills(rng):
    """A generated building of up to 40 storeys can be cleared, as `drill` says and `solve` of the same building."""
    storeys = rng.randint(1, 40)
    said, solved = run(["drill", "--number", str(storeys)], []), run(["solve"], tower(storeys).lines())
    return [it for it in said if it.startswith("cleared ")] == [it for it in solved if it.startswith("cleared ")] != []


LAWS = (
    best, most, capacities, looser, slower, people, exits, one_arc, common_window, ways, pace, uncongested, drills, *tried_periods.LAWS, *tried_cuts.LAWS
)


# ---- near misses: whether the building goes against one


def unreached(rng):
    """The number of a shortfall is reached, whether or not some plan is feasible."""
    made = random_building(rng, entrants=2, room=0)
    over = [it for it in made.entrants if it[2] > made.rooms[it[0]][0] + sum(rate for arc, (_, rate) in made.arcs.items() if arc[0] == it[0])]
    said = run(["solve"], made.lines()) if over and not made.has_room() else []
    return any(int(it[5:]) > 0 for it in said if it.startswith("most "))


def other_room(rng, **kinds):
    """The first numbers out that a capacity changes."""
    made = random_building(rng, **kinds)
    name = rng.choice(list(made.rooms))
    other = with_room(made, name, made.rooms[name][0] + rng.randint(1, 4))
    return clears(made) and most_out(made) != most_out(other)


def capacities_window(rng):
    """A capacity changes nothing, with a window."""
    return other_room(rng, windows=1, room=0)


def capacities_later(rng):
    """A capacity changes nothing, where somebody comes later into a room that doesn't hold them."""
    return other_room(rng, entrants=2, room=0)


def full_halls(rng):
    """A building of halls for nobody and doors for one, into each of which one person comes."""
    made = random_building(rng)
    made.rooms = {name: [0, 0] for name in made.rooms}
    made.arcs = {arc: [travel, 1] for arc, (travel, _) in made.arcs.items()}
    made.entrants = [(name, rng.randint(1, 3), 1) for name in made.rooms]
    return made


def capacities_one_less(rng):
    """A capacity changes nothing, where each room lacks place for one of those who come into it from nowhere."""
    made = full_halls(rng)
    return clears(made) and most_out(made) != most_out(with_room(made, rng.choice(list(made.rooms)), 1))


def looser_one_less(rng):
    """A rate that is one smaller lets no fewer out."""
    made = random_building(rng)
    arc = rng.choice(list(made.arcs))
    return not is_least(most_out(made), most_out(with_arc(made, arc, rate=made.arcs[arc][1] - 1)))


def looser_turned(rng):
    """A smaller room lets no fewer out, with windows."""
    made = random_building(rng, windows=2, room=0)
    name = rng.choice(list(made.rooms))
    return not is_least(most_out(with_room(made, name, made.rooms[name][0] + 1)), most_out(made))


def slower_one_less(rng):
    """A travel that is one shorter lets no more out."""
    made = random_building(rng)
    arc = rng.choice(list(made.arcs))
    return made.arcs[arc][0] > 1 and not is_least(most_out(with_arc(made, arc, travel=made.arcs[arc][0] - 1)), most_out(made))


def slower_turned(rng):
    """A greater rate lets no more out."""
    made = random_building(rng)
    arc = rng.choice(list(made.arcs))
    return not is_least(most_out(with_arc(made, arc, rate=made.arcs[arc][1] + 1)), most_out(made))


def slower_later(rng):
    """A longer travel lets no more out, where somebody comes later into a room that doesn't hold them."""
    made = full_halls(rng)
    arc = rng.choice(list(made.arcs))
    longer = with_arc(made, arc, travel=made.arcs[arc][0] + 1)
    return clears(made) and clears(longer) and not is_least(most_out(longer), most_out(made))


def shorter_travel(rng):
    """A shorter travel lets no fewer out, with windows and small rooms."""
    made = random_building(rng, windows=2, room=0)
    arc = rng.choice(list(made.arcs))
    return made.arcs[arc][0] > 1 and not is_least(most_out(made), most_out(with_arc(made, arc, travel=made.arcs[arc][0] - 1)))


def people_one_less(rng):
    """Where one person leaves a room, no fewer are out."""
    made = random_building(rng)
    name = rng.choice([it for it, (_, start) in made.rooms.items() if start] or [None])
    return name is not None and not is_least(most_out(made), most_out(with_start(made, name, made.rooms[name][1] - 1)))


def clearing_of(made):
    """When each room is empty, as the report on a plan says."""
    said = run(["solve", "--reports"], made.lines())
    rows = [it.split() for it in said[said.index("clearing 0") : said.index("bottlenecks 0")]]
    return {row[1]: int(row[2]) if row[2].isdigit() else -1 for row in rows if row[0] == "node"}


def emptied_sooner(rng):
    """Where people leave a room, no room is empty later."""
    made = random_building(rng)
    name = rng.choice(list(made.rooms))
    if not made.rooms[name][1] or not clears(made):
        return False
    before, left = clearing_of(made), clearing_of(with_start(made, name, made.rooms[name][1] - 1))
    return any(left[room] > before[room] for room in before)


def two_losses(rng, lost):
    """The numbers out of a building, without each of two, and without both."""
    made = random_building(rng, exits=3)
    parts = made.exits if lost is without_exits else list(made.arcs)
    if len(parts) < 2:
        return None
    one, other = rng.sample(parts, 2)
    return made, [most_out(it) for it in (made, lost(made, one), lost(made, other), lost(made, one, other))]


def two_arcs(rng):
    """Two arcs that are shut together keep inside at least as many as each alone, added up."""
    found = two_losses(rng, without_arcs)
    return found is not None and any(m + both > one + other for m, one, other, both in zip(*found[1]))


def exits_one_less(rng):
    """Two exits lost together keep inside more than each alone, added up."""
    found = two_losses(rng, without_exits)
    return found is not None and any(m + both + 1 > one + other and m > both for m, one, other, both in zip(*found[1]))


def at_most_both(rng):
    """Two exits lost together keep inside at most as many as each alone, added up."""
    found = two_losses(rng, without_exits)
    return found is not None and any(m + both < one + other for m, one, other, both in zip(*found[1]))


def moments_add_up(rng):
    """Two exits lost together make it later by at least as much as each alone, added up."""
    found = two_losses(rng, without_exits)
    if found is None or any(curve[-1] < found[0].people() for curve in found[1]):
        return False
    m, one, other, both = (curve.index(found[0].people()) for curve in found[1])
    return both - m < (one - m) + (other - m)


def held_up(made, closed, length):
    return not is_least(most_out(made), most_out(closed)[length:])


def one_arc_one_less(rng):
    """A closure of one moment delays nobody."""
    made = random_building(rng)
    first = rng.randint(0, made.horizon)
    return held_up(made, with_window(made, first, first + 1, rng.choice(list(made.arcs))), 0)


def one_arc_turned(rng):
    """A closure of more moments than w delays nobody by more than w."""
    made = random_building(rng)
    first = rng.randint(0, made.horizon)
    return held_up(made, with_window(made, first, first + 2, rng.choice(list(made.arcs))), 1)


def common_one_less(rng):
    """Arcs that are closed in one common window, where each room holds all but one."""
    made = random_building(rng)
    made.rooms = {name: [max(made.people() - 1, start), start] for name, (_, start) in made.rooms.items()}
    first = rng.randint(0, made.horizon)
    return held_up(made, with_window(made, first, first + 1, *made.arcs), 1)


def two_windows(rng):
    """Two arcs that are closed for the same moment delay nobody by more than it, whatever the rooms hold."""
    made = random_building(rng, room=0)
    first = rng.randint(0, made.horizon)
    return len(made.arcs) > 1 and held_up(made, with_window(made, first, first + 1, *rng.sample(list(made.arcs), 2)), 1)


def window_again(rng):
    """A window of an arc that has one already delays nobody by more than its length."""
    made = random_building(rng)
    arc, first = rng.choice(list(made.arcs)), rng.randint(1, made.horizon)
    made = with_window(made, first, first + 3, arc)
    return held_up(made, with_window(made, first - 1, first, arc), 1)


def window_elsewhere(rng):
    """A window of an arc delays nobody by more than its length, where another arc has one."""
    made = random_building(rng, windows=1)
    others = [arc for arc in made.arcs if made.windows and arc != made.windows[0][:2]]
    first = rng.randint(0, made.horizon)
    return bool(others) and held_up(made, with_window(made, first, first + 1, rng.choice(others)), 1)


def off_pace(rng, sooner=0, **kinds):
    """Whether fewer than r come out at some moment from u on."""
    made, width = random_building(rng, **kinds), rng.randint(1, 3)
    longest = walking_time(made, width)
    return longest is not None and longest > sooner and not keeps_pace(made, width, longest - sooner)


def ways_sooner(rng):
    """r people come out at each moment from u - 1 on."""
    return off_pace(rng, sooner=1)


def ways_turned(rng):
    """r people come out at each moment from u on, by ways for one person at once."""
    made = random_building(rng)
    longest = walking_time(made, 1)
    return longest is not None and not keeps_pace(made, rng.randint(2, 3), longest)


def ways_window(rng):
    """r people come out at each moment from u on, with a window."""
    return off_pace(rng, windows=1)


def ways_later(rng):
    """r people come out at each moment from u on until all are out, where somebody comes later."""
    return off_pace(rng, entrants=1)


def pace_at_most(rng):
    """No fewer come out than at the moment before, as long as at most as many are out as start in any room with people."""
    made = random_building(rng)
    return smallest_start(made) > 0 and not never_falls(made, smallest_start(made), strict=False)


def pace_turned(rng):
    """No more come out than at the moment before."""
    curve = most_out(random_building(rng))
    return any(2 * now < before + after for before, now, after in zip(curve, curve[1:], curve[2:]))


def pace_before(rng):
    """No fewer come out than at the moment before, as long as fewer were out by then than start in any room with people."""
    made = random_building(rng)
    return smallest_start(made) > 0 and not never_falls(made, smallest_start(made), ahead=1)


def pace_window(rng):
    """No fewer come out than at the moment before, with a window."""
    made = random_building(rng, windows=1)
    return smallest_start(made) > 0 and not never_falls(made, smallest_start(made))


def uncongested_one_less(rng):
    """Those who meet nobody need less time than all of them."""
    found = walks_and_clearing(random_building(rng, windows=2, entrants=2))
    return found is not None and found[0] >= found[1]


def uncongested_turned(rng):
    """All of them need no longer than those who meet nobody."""
    found = walks_and_clearing(random_building(rng, windows=2, entrants=2))
    return found is not None and found[0] < found[1]


def drills_taller(rng):
    """The generated building can be cleared, of whatever number of storeys."""
    return clears(tower(79)) and not clears(tower(80))


# each with the seed of a building that goes against it
NEAR = {
    unreached: 33,
    capacities_one_less: 23,
    capacities_window: 840,
    capacities_later: 57,
    looser_one_less: 1,
    looser_turned: 840,
    shorter_travel: 524,
    slower_one_less: 1,
    slower_turned: 14,
    slower_later: 23,
    people_one_less: 1,
    emptied_sooner: 65,
    exits_one_less: 1,
    at_most_both: 4,
    two_arcs: 1,
    moments_add_up: 695,
    one_arc_one_less: 41,
    one_arc_turned: 41,
    window_again: 6,
    window_elsewhere: 883,
    two_windows: 241,
    common_one_less: 77,
    ways_sooner: 1,
    ways_turned: 5,
    ways_window: 121,
    ways_later: 1,
    pace_at_most: 1,
    pace_turned: 1,
    pace_before: 3,
    pace_window: 186,
    uncongested_one_less: 4,
    uncongested_turned: 3,
    drills_taller: 1,
}


# ---- large buildings


def roomy(lines):
    """The building with each capacity raised to the greatest."""
    words = [line.split() for line in lines]
    return [" ".join([*it[:2], "100000", it[3]]) if it[:1] == ["node"] and len(it) == 4 else " ".join(it) for it in words]


def curve_of(lines):
    """What `solve` says of the people out: by each period, or at most."""
    return [line for line in run(["solve"], lines) if line.startswith(("cleared ", "out ", "most "))]


def large_buildings():
    """Those of buildings.py and of examples/ in which rates never change with time and everybody is there at moment 0."""
    large = {name: make().split("\n")[:-1] for name, make in buildings.ALL.items()}
    for path in sorted((TOP / "examples").glob("*.evac")):
        large[path.name] = [line for line in path.read_text().split("\n") if line.strip() and not line.startswith("#")]
    return {name: lines for name, lines in large.items() if not any(line.split()[0] in ("window", "entrant") for line in lines)}


def large_capacities():
    """The large buildings whose numbers out change with each capacity raised to the greatest."""
    return [name for name, lines in large_buildings().items() if curve_of(lines) != curve_of(roomy(lines))]


# ---- the whole


def try_law(law, count, seed):
    """How many of so many buildings that the law asks for go against it."""
    against = made = 0
    while made < count:
        holds = law(random.Random(f"{law.__name__} {seed}"))
        seed += 1
        if holds is None:
            continue
        made += 1
        if not holds:
            against += 1
            print(f"{law.__name__}: seed {seed - 1} goes against it")
    print(f"{law.__name__}: {made} buildings, {against} against it")
    return against


def try_near(near):
    """Whether the building of a near miss's seed fails to show that it is false."""
    shown = near(random.Random(NEAR[near]))
    print(f"{near.__name__}: {'false' if shown else 'NOT shown to be false'} by the building of seed {NEAR[near]}")
    return not shown


def main():
    parser = argparse.ArgumentParser(description=__doc__.split("\n")[0])
    parser.add_argument("--program", type=pathlib.Path, default=PROGRAM)
    parser.add_argument("--count", type=int, default=2000)
    parser.add_argument("--seed", type=int, default=1)
    parser.add_argument("names", nargs="*", metavar="NAME")
    given = parser.parse_args()
    small_buildings.PROGRAM = given.program
    known = {it.__name__ for it in (*LAWS, *NEAR)}
    if not set(given.names) <= known:
        parser.error(f"a name is one of {', '.join(sorted(known))}")
    wanted = given.names or known
    bad = sum(try_law(law, given.count, given.seed) for law in LAWS if law.__name__ in wanted)
    bad += sum(try_near(near) for near in NEAR if near.__name__ in wanted)
    if "capacities" in wanted:
        changed = large_capacities()
        print(f"capacities: {len(large_buildings())} large buildings and examples, {len(changed)} against it", *changed)
        bad += len(changed)
    return 1 if bad else 0


if __name__ == "__main__":
    sys.exit(main())
