#!/usr/bin/env python3
"""Tries the answers about varied buildings against plain enumeration by the program, on small random buildings.

    companion/tests/enumeration.py COUNT [NAME..] [--seed N]    COUNT buildings for each trial, or for those that are named
    companion/tests/enumeration.py COUNT [NAME..] --broken      breaks each answer on purpose, and says what its trial sees

The expected values come from solving every building that the question is about, one by one, with no law and no cut in between.
"""
import argparse
import dataclasses
import itertools
import pathlib
import random
import sys
import time
from typing import Any, Callable, Dict, FrozenSet, Iterator, List, Optional, Tuple
from unittest import mock

sys.path.insert(0, str(pathlib.Path(__file__).resolve().parents[2]))
sys.path.insert(0, str(pathlib.Path(__file__).resolve().parents[1] / "src"))
from evacask import Outcome, found_program  # noqa: E402
from evacask.client.asking import check, plan_or_short  # noqa: E402
from evacask.client.blocks import Plan  # noqa: E402
from evacask.client.talk import Client  # noqa: E402
from evacask.errors import NoAnswer  # noqa: E402
from evacask.model.building import Entrant, Model, Way, model_of  # noqa: E402
from evacask.model.crossings import Crossings  # noqa: E402
from evacask.model.shares import Count  # noqa: E402
from evacask.model.variant import counted_in, people_of, varied, whole, with_starts  # noqa: E402
from evacask.questions import admit, assign, assign_bound, assign_search, assign_times, improve, losses, ranges, rescue, sweep  # noqa: E402
from evacask.questions.assign_ways import Path, choices_of  # noqa: E402
from evacask.questions.losses import Place  # noqa: E402

# (Kept here, as one of the breaks below replaces it.)
CORNER = ranges.corner
MOST_BUILDINGS = 500  # (of one enumeration: a larger one is passed over)


class Passed(Exception):
    """A building that the trial has nothing to say about."""


def needs(condition: bool) -> None:
    if not condition:
        raise Passed


def small(dice: random.Random, horizon: Tuple[int, int] = (6, 14), windows: float = 0.3) -> Model:
    """A building of two to four rooms and one or two exits, with a window or two for some."""
    rooms = [f"WP{it}.1" for it in range(1, dice.randint(2, 4) + 1)]
    doors = [f"DS{it}.1" for it in range(1, dice.randint(1, 2) + 1)]
    lines = ["evacplan 2", "period 5", f"horizon {dice.randint(*horizon)}", "floor 1 Ground"]
    for name in rooms:
        start = dice.choice([0, dice.randint(1, 6)])
        lines.append(f"node {name} {start + dice.randint(0, 2)} {start}")
    lines += [f"node {name}" for name in doors]
    ways = {(name, dice.choice(rooms[at + 1 :] or doors)) for at, name in enumerate(rooms)}
    ways |= {(dice.choice(rooms), dice.choice(rooms + doors)) for _ in range(dice.randint(0, 3))}
    ways = {(tail, head) for tail, head in ways if tail != head}
    lines += [f"arc {tail} {head} {dice.randint(1, 3)} {dice.randint(1, 3)}" for tail, head in sorted(ways)]
    if dice.random() < windows:
        for tail, head in dice.sample(sorted(ways), min(len(ways), dice.randint(1, 2))):
            first = dice.randint(0, 4)
            lines.append(f"window {tail} {head} {first} {first + dice.randint(1, 3)}")
    return model_of("\n".join([*lines, "end", ""]))


def with_entrant(model: Model, dice: random.Random, moment: int, room: int = 0) -> Model:
    """The building with people who come into a room later, which has so much more room."""
    node = dice.choice(model.rooms)
    wider = dataclasses.replace(node, capacity=whole(node.capacity) + room)
    return varied(model, nodes={node.name: wider}, entrants=[Entrant(node.name, dice.randint(1, moment), dice.randint(1, 4), 0)])


def cleared(client: Client, model: Model, moment: Optional[int] = None) -> Optional[int]:
    answer = plan_or_short(client, model, moment)
    return answer.cleared if isinstance(answer, Plan) else None


def outcome(client: Client, model: Model) -> Outcome:
    answer = plan_or_short(client, model)
    return Outcome(answer.cleared, answer.people) if isinstance(answer, Plan) else Outcome(None, answer.most)


def try_improve(client: Client, dice: random.Random) -> None:
    """Every cheaper purchase leaves somebody inside: all that aren't part of a larger one of less than the cost are solved."""
    model = small(dice, windows=0.4)
    now = cleared(client, model)
    needs(now is not None and now >= 2)
    moment = dice.randint(max(1, (now or 0) // 2), (now or 0) - 1)
    offers = [improve.Widening(way, 1, dice.randint(1, 4), dice.choice([2, 9000])) for way in model.arcs]
    offers += [improve.Widening((it.name,), 1, 2, 9000) for it in model.rooms if model.windows]
    answer = improve.improve(client, model, moment, offers)
    if answer.cost is None:
        everything = improve.widened(model, offers, [it.most for it in offers])
        assert cleared(client, everything, moment) is None, "a purchase is enough after all"
        return
    needs(answer.cost <= 9)
    assert answer.is_exact and sum(it.cost for it in answer.purchases) == answer.cost
    bought = {it.place: it.times for it in answer.purchases}
    assert cleared(client, improve.widened(model, offers, [bought.get(it.place, 0) for it in offers]), moment) is not None, "it isn't enough"
    for x in purchases_below(offers, answer.cost):
        assert cleared(client, improve.widened(model, offers, x), moment) is None, f"{x} is cheaper and enough"


def purchases_below(offers: List[improve.Widening], cost: int) -> Iterator[List[int]]:
    """All purchases for less than a cost to which nothing can be added for less than it."""

    def more(at: int, left: int, x: List[int]) -> Iterator[List[int]]:
        if at == len(offers):
            if not any(it.cost <= left and count < it.most for it, count in zip(offers, x)):
                yield x
            return
        for count in range(min(offers[at].most, left // offers[at].cost) + 1):
            yield from more(at + 1, left - count * offers[at].cost, [*x, count])

    return more(0, cost - 1, [])


def without(model: Model, lost: Tuple[Place, ...]) -> Model:
    """The building without some arcs and exits."""
    shut = {it for it in lost if len(it) == 2}
    exits = {it[0] for it in lost if len(it) == 1}
    arcs = {way: dataclasses.replace(arc, rate=0) for way, arc in model.arcs.items() if way in shut or way[1] in exits}
    return varied(model, arcs=arcs)


def try_losses(client: Client, dice: random.Random) -> None:
    """All single losses, pairs and triples are solved; the worst that cost more than each part must be those of the answer."""
    model = small(dice)
    needs(len(model.arcs) >= 3)
    places: List[Place] = [*model.arcs, *((it.name,) for it in model.exits)]
    truth: Dict[FrozenSet[Place], Tuple[float, float]] = {}
    for count in range(4):
        for lost in itertools.combinations(places, count):
            found = outcome(client, without(model, lost))
            truth[frozenset(lost)] = (-float(found.most), float("inf") if found.cleared is None else found.cleared)
    for count in (1, 2, 3):
        worse = [bad for lost, bad in truth.items() if len(lost) == count and all(truth[lost - {one}] < bad for one in lost)]
        for top in (1, 4):
            answer = losses.losses(client, model, count, places, top)
            mine = [(-float(it.most), float("inf") if it.cleared is None else it.cleared) for it in answer.worst]
            assert mine == sorted(worse, reverse=True)[:top], f"{count} at once, the worst {top}: {mine}, and {sorted(worse, reverse=True)[:top]}"
            assert all(truth[frozenset(it.places)] == bad for it, bad in zip(answer.worst, mine)), "another loss has this cost"


def try_admit(client: Client, dice: random.Random) -> None:
    """Each number of people in each room is solved, from none on, until one is too many."""
    model = small(dice)
    now = cleared(client, model)
    needs(now is not None)
    moment = dice.randint(max(1, (now or 0) - 1), min(model.horizon, (now or 0) + 3))
    if dice.random() < 0.5:
        model = with_entrant(model, dice, moment)
    for room in [it.name for it in model.rooms]:
        one = admit.admit_room(client, model, room, moment)
        people = -1
        while people < 100 and cleared(client, admit.with_room(model, room, people + 1), moment) is not None:
            people += 1
        assert (one.people == (None if people < 0 else people)) or people == 100 and (one.people or 0) > 100, f"{room}: {one}, and {people}"
    if cleared(client, admit.scaled(model, 0), moment) is None or not any(it.start for it in model.rooms):
        return
    answer = admit.admit(client, model, moment)
    assert cleared(client, admit.scaled(model, answer.thousandths), moment) is not None, "that share isn't out"
    assert (
        cleared(client, admit.scaled(model, answer.thousandths + 1), moment) is None or answer.thousandths > 99_000
    ), "one more thousandth is out too"
    shares = {it.room: whole(it.people) for it in answer.shares}
    assert sum(shares.values()) == answer.shared and cleared(client, with_starts(model, shares), moment) is not None, "that sharing isn't out"
    for it in answer.shares:
        more = {**shares, it.room: whole(it.people) + 1}
        assert it.people == it.capacity or cleared(client, with_starts(model, more), moment) is None, f"one more in {it.room} is out too"


def try_rescue(client: Client, dice: random.Random) -> None:
    """All choices of who is there are solved; the most who can be out together must be the answer's."""
    model = small(dice)
    moment = dice.randint(1, model.horizon)
    if dice.random() < 0.4:
        model = with_entrant(model, dice, moment, 9)
    needs(bool(model.people))
    groups = rescue.starts_of(model)
    sizes = [range(people + 1) for people in groups.values()]
    count = 1
    for it in sizes:
        count *= len(it)
    needs(count <= MOST_BUILDINGS)
    answer = rescue.rescue(client, model, moment)
    most = 0
    for chosen in itertools.product(*sizes):
        if sum(chosen) > most and cleared(client, rescue.with_only(model, dict(zip(groups, chosen))), moment) is not None:
            most = sum(chosen)
    assert answer.most == most == sum(it.saved for it in answer.groups) == answer.plan.people, f"{answer.most}, and {most}"
    assert all(0 <= it.saved <= it.people for it in answer.groups)


def try_range(client: Client, dice: random.Random) -> None:
    """Fifteen buildings inside the ranges, by lot: all are out between the two bounds in each."""
    model = small(dice, (60, 60))
    needs(cleared(client, model) is not None)
    travel = (0, 0) if model.windows else (dice.choice([0, 30, 60]), dice.choice([0, 50, 100]))
    given = ranges.percents(model, (dice.choice([0, 20, 50]), dice.choice([0, 30])), travel, (dice.choice([0, 40]), dice.choice([0, 50])))
    answer = ranges.ranges(client, model, given)
    needs(answer.doubt is None and bool(given.kinds))
    low, high = CORNER(model, given, True), CORNER(model, given, False)
    for _ in range(15):
        found = cleared(client, inside(model, low, high, dice))
        bounds = answer.spans[-1]
        assert bounds.earliest is not None, "the best corner isn't out"
        assert bounds.latest is None or found is not None and found <= bounds.latest, f"{found} is after {bounds.latest}"
        assert found is None or bounds.earliest <= found, f"{found} is before {bounds.earliest}"


def inside(model: Model, low: Model, high: Model, dice: random.Random) -> Model:
    """A building between the two corners, each number by lot."""
    arcs = {}
    for way, arc in model.arcs.items():
        rate = dice.randint(whole(high.arcs[way].rate), whole(low.arcs[way].rate))
        arcs[way] = dataclasses.replace(arc, rate=rate, travel=dice.randint(low.arcs[way].travel, high.arcs[way].travel))
    nodes = {}
    for it in model.rooms:
        start = dice.randint(whole(low.nodes[it.name].start), whole(high.nodes[it.name].start))
        nodes[it.name] = dataclasses.replace(it, start=start, capacity=max(whole(it.capacity), start))
    return varied(model, nodes=nodes, arcs=arcs)


def try_assign(client: Client, dice: random.Random) -> None:
    """The plan passes check and is no better than the best plan; no choice of ways with times that check takes is before the bound."""
    model = small(dice, (40, 40), 0.2)
    needs(cleared(client, model) not in (None, 0))
    try:
        answer = assign.assign(client, model)
    except NoAnswer as fault:
        needs("no way leads out" not in str(fault) and "by the horizon" not in str(fault))
        raise AssertionError(f"check doesn't take the plan: {fault}") from None
    assert check(client, model, answer.block).code in (None, 57)
    assert (cleared(client, model) or 0) == answer.best <= answer.bound <= answer.cleared
    choices = choices_of(model, ())
    count = 1
    for paths in choices.values():
        count *= len(paths)
    needs(count <= MOST_BUILDINGS)
    search = assign_search.Search(model, choices, 0, 1)
    bound = assign_bound.lower_bound(client, model, answer.best, model.horizon)
    for ways in itertools.product(*choices.values()):
        found = search.timed(dict(zip(choices, ways)))
        assert found.times.cleared >= bound, f"{ways} has all out by {found.times.cleared}, and the bound is {bound}"
        assert len(answer.rooms) > 6 or found.times.cleared >= answer.cleared, f"the search missed {ways}: {found.times.cleared}"


def try_shares(client: Client, dice: random.Random) -> None:
    """The same building with each person in so many shares has the same answers: parts of people are out no sooner than whole ones."""
    model = small(dice)
    if dice.random() < 0.4:
        model = with_entrant(model, dice, 3, 9)
    shares, now = dice.choice((2, 3, 10)), cleared(client, model)
    needs(now is not None and now >= 4)
    parted = in_parts(model, shares)
    moment = dice.randint(4, now or 4)  # (the last people come in at 3)
    offers = [improve.Widening(way, 1, dice.randint(1, 4), dice.choice([2, 9000])) for way in model.arcs]
    given = ranges.percents(model, (20, 20), (0, 0), (40, 40))
    questions: Tuple[Callable[[Model], object], ...] = (
        lambda it: [(room, getattr(admit.admit_room(client, it, room, moment), "people")) for room in (node.name for node in model.rooms)],
        lambda it: losses.losses(client, it, 2),
        lambda it: rescue.rescue(client, it, moment - 1).most,
        lambda it: ranges.ranges(client, it, given),
        lambda it: dataclasses.replace(improve.improve(client, it, moment - 1, offers), purchases=(), cuts=0),
        lambda it: [outcome(client, it), sweep.sweep(client, it, [["rate WP1.1 DS1.1 2"], []])],
    )
    for number, question in enumerate(questions):
        whole_ones, parts = question(model), question(parted)
        assert whole_ones == parts, f"question {number}: {whole_ones} in people, and {parts} in shares"
    try:
        answer = assign.assign(client, parted)
    except NoAnswer as fault:
        assert "by the horizon" in str(fault) or model.entrants, f"no way for each room was found: {fault}"
        return
    assert check(client, parted, answer.block).code in (None, 57)
    assert {it.room: it.people for it in answer.rooms} == {name: people for name, people in people_of(model).items() if people}


def in_parts(model: Model, shares: int) -> Model:
    """A building in whole people with each of them in so many shares."""
    nodes = {it.name: dataclasses.replace(it, capacity=shares * whole(it.capacity), start=shares * whole(it.start)) for it in model.rooms}
    arcs = {way: dataclasses.replace(arc, rate=shares * whole(arc.rate)) for way, arc in model.arcs.items()}
    entrants = [dataclasses.replace(it, people=shares * whole(it.people)) for it in model.entrants]
    return counted_in(varied(model, nodes=nodes, arcs=arcs, entrants=entrants), shares)


TRIALS: Dict[str, Callable[[Client, random.Random], None]] = {
    "improve": try_improve,
    "losses": try_losses,
    "admit": try_admit,
    "rescue": try_rescue,
    "range": try_range,
    "assign": try_assign,
    "shares": try_shares,
}


def trial(client: Client, name: str, count: int, seed: int = 7) -> int:
    """Tries so many buildings; how many were made for that. `AssertionError` for the first that is wrong, with its text."""
    dice, done, made = random.Random(seed), 0, 0
    while done < count:
        made += 1
        try:
            TRIALS[name](client, dice)
            done += 1
        except Passed:
            pass
    return made


def broken() -> Dict[str, List["mock._patch[Any]"]]:
    """For each trial the ways in which an answer is broken on purpose."""
    demand, cost_of, lower_bound, leave = improve.Search.demand, losses.Search.cost_of, assign_bound.lower_bound, assign_times.Timetable.leave

    def demands_one_more(self: improve.Search, cut: Crossings) -> None:
        demand(self, cut)
        self.demands[-1] = (self.demands[-1][0], self.demands[-1][1] + 1)

    def forgets_a_use(self: losses.Search, plan: Plan) -> losses.Cost:
        cost = cost_of(self, plan)
        return losses.Cost(cost.most, cost.cleared, dict(itertools.islice(cost.used.items(), 1, None)))

    def admits_one_fewer(client: Client, model: Model, room: str, moment: int) -> admit.RoomAdmission:
        answer = admit_room(client, model, room, moment)
        return dataclasses.replace(answer, people=answer.people and answer.people - 1)

    def saves_late_ones(client: Client, model: Model, by: int) -> Dict[rescue.Group, int]:
        return saved_by(client, model, by + 1)

    def bounds_one_late(client: Client, model: Model, best: int, stop: int) -> int:
        return lower_bound(client, model, best, stop) + 1

    def sends_all_at_once(
        self: assign_times.Timetable, group: assign_times.Group, path: Path, walk: int, free: Dict[Way, List[int]]
    ) -> List[Tuple[int, int]]:
        return [(group[1], group[2])] if leave(self, group, path, walk, free) else []

    def forgets_the_shares(count: Count, shares: int) -> int:
        return int(count)

    def takes_the_middle(model: Model, given: ranges.Ranges, is_best: bool) -> Model:
        return model if is_best else CORNER(model, given, is_best)

    admit_room, saved_by = admit.admit_room, rescue.saved_by
    return {
        "improve": [mock.patch.object(improve.Search, "demand", demands_one_more)],
        "losses": [mock.patch.object(losses.Search, "cost_of", forgets_a_use)],
        "admit": [mock.patch.object(admit, "admit_room", admits_one_fewer)],
        "rescue": [mock.patch.object(rescue, "saved_by", saves_late_ones)],
        "range": [mock.patch.object(ranges, "corner", takes_the_middle)],
        "assign": [
            mock.patch.object(assign_bound, "lower_bound", bounds_one_late),
            mock.patch.object(assign_times.Timetable, "leave", sends_all_at_once),
        ],
        "shares": [mock.patch.object(losses, "in_people", forgets_the_shares), mock.patch.object(improve, "exact_shares", forgets_the_shares)],
    }


def seen_broken(client: Client, name: str, count: int) -> List[Optional[str]]:
    """What the trial says of an answer that is broken on purpose, in each of the ways; None if it sees nothing in so many buildings."""
    said: List[Optional[str]] = []
    for patch in broken()[name]:
        with patch:
            try:
                trial(client, name, count)
                said.append(None)
            except Exception as fault:
                said.append(f"{type(fault).__name__}: {fault}")
    return said


def main() -> int:
    words = argparse.ArgumentParser(description="tries answers about varied buildings against plain enumeration")
    words.add_argument("count", type=int, help="how many buildings for each trial")
    words.add_argument("names", nargs="*", metavar="NAME", help=f"trials: {', '.join(TRIALS)}")
    words.add_argument("--seed", type=int, default=7)
    words.add_argument("--broken", action="store_true", help="break each answer on purpose")
    given = words.parse_args()
    client, wrong = found_program(), 0
    for name in given.names or TRIALS:
        began = time.time()
        if given.broken:
            for said in seen_broken(client, name, given.count):
                wrong += said is None
                print(f"{name}: {'broken, and NOT seen' if said is None else f'broken, and seen: {said[:90]}'}", flush=True)
        else:
            made = trial(client, name, given.count, given.seed)
            print(f"{name}: {given.count} buildings of seed {given.seed} agree, of {made} made, {time.time() - began:.1f} s", flush=True)
    return int(wrong > 0)


if __name__ == "__main__":
    sys.exit(main())
