"""Tables of a plan and the data of a page: by hand for one room and two ways, and by what has to add up for random buildings."""
import random
import unittest
from dataclasses import replace
from typing import Any, Dict, Iterator, List, Tuple

from companion.tests.buildings import random_building
from companion.tests.planner import Planner
from companion.tests.table import BLOCK, Table
from companion.tests.table import ROOM as HALL
from evacask import Broken, Plan, Shortfall, WordsError
from evacask.client.asking import plan_or_short, solve
from evacask.model.building import Model, Way, Window, model_of
from evacask.model.drawn_building import drawn_building
from evacask.model.edits import edited
from evacask.model.ground import Ground
from evacask.model.variant import varied
from evacask.questions.full import full
from evacask.questions.occupancy import occupancy
from evacask.questions.report import Report, ShortReport, report
from evacask.questions.tables import KINDS, tables

PLANNER = Planner()
# Eight people, an exit for one a period at 1 period, and one for five a period at 3. Before moment 3 two are out, and at 3 six more.
ROOM = "evacplan 1\nperiod 5\nhorizon 20\nfloor 1 G\nnode WP1.1 10 8\nnode DS1.1\nnode DS2.1\narc WP1.1 DS1.1 1 1\narc WP1.1 DS2.1 3 5\nend\n"
# Four people upstairs, two below, whose door is shut at moment 0, and one who comes in at 2. The way out lets two through: out are 2, 4, 6, 7 from 3 on.
HOUSE = """evacplan 2
period 5
horizon 20
floor 1 G
floor 2 Up
node WP1.2 5 4
node SW1.2 4 0
node WP1.1 5 2
node LO1.1 3 0
node DS1.1
arc WP1.2 SW1.2 1 2
arc SW1.2 LO1.1 2 2
arc WP1.1 LO1.1 1 2
arc LO1.1 DS1.1 1 2
window WP1.1 LO1.1 0 1
entrant WP1.1 2 1
end
"""
HALLWAY = """evacplan 2
period 5
horizon 20
floor 1 G
node WP1.1 5 4
node HA1.1 1 0
node DS1.1
arc WP1.1 HA1.1 1 1
arc HA1.1 DS1.1 1 5
window HA1.1 DS1.1 0 3
end
"""
PLAN = "evacplan 1\nperiod 5\nhorizon 60\nfloor 1 G\nnode WP1.1 50 20\nnode DS1.1\nway WP1.1 DS1.1 free 11 door 0.90\nend\n"


def cleared_models(count: int) -> Iterator[Tuple[Model, Plan]]:
    """Random buildings from which everybody gets out, and their plans."""
    for number in range(count):
        model = model_of(random_building(random.Random(f"pages {number}")))
        plan = plan_or_short(PLANNER, model)
        if isinstance(plan, Plan):
            yield model, plan


def with_closure(model: Model, way: Way, moment: int) -> Model:
    """The building with a way shut at one more moment, at which it is open."""
    return varied(model, windows=[*model.windows, Window(way, moment, moment + 1, 0)])


class Tables(unittest.TestCase):
    """The one room: three people, a door for two a period at 1 period. Two leave at moment 0, and one at 1."""

    def test_each_table_of_the_one_room_by_hand(self) -> None:
        routes = "routes 0\nroute 2 WP1.1\nstep 0 WP1.1 DS1.1\nroute 1 WP1.1\nstep 1 WP1.1 DS1.1\nend\n"
        client, model = Table({"routes": routes}), model_of(HALL)
        own, walk = "evacask's own arithmetic, not proved", "=Hall to DS1.1"
        wanted: Dict[str, List[Tuple[Any, ...]]] = {
            "exits": [(0, 0, 0, 0), (1, 5, 2, 2), (2, 10, 3, 3)],
            "nodes": [(0, 0, 1), (1, 5, 0), (2, 10, 0)],
            "arcs": [(0, 0, 2), (1, 5, 1), (2, 10, 0)],
            "totals": [("WP1.1", "DS1.1", walk, 2, 3, 2, 0, 1)],
            "fullest": [("WP1.1", "=Hall", 10, 1, 0, 0)],
            "routes": [("WP1.1", "=Hall", 3, "DS1.1", 0, 1, "WP1.1 DS1.1")],
            "walks": [("WP1.1", "=Hall", 3, 1, 5, "DS1.1", own)],
            "full": [(0, 0, "arc", "WP1.1", "DS1.1", walk, 2)],
            "all": [
                (0, 0, "node", "WP1.1", "", "=Hall", 1),
                (0, 0, "arc", "WP1.1", "DS1.1", walk, 2),
                (1, 5, "exit", "DS1.1", "", "", 2),
                (1, 5, "arc", "WP1.1", "DS1.1", walk, 1),
                (2, 10, "exit", "DS1.1", "", "", 3),
            ],
        }
        self.assertEqual(set(wanted), set(KINDS))
        for kind, rows in wanted.items():
            with self.subTest(kind):
                table = tables(client, model, kind)
                self.assertEqual((table.kind, list(table.rows)), (kind, rows))
                self.assertEqual(table.ground, {"walks": Ground.OWN, "full": Ground.CUTS}.get(kind, Ground.PRINTED))
                self.assertEqual(table.records()[0][table.heads[0]], rows[0][0])

    def test_random_buildings_add_up(self) -> None:
        for model, plan in cleared_models(12):
            with self.subTest(model.text):
                names = [it.name for it in model.exits]
                by_exit = {it: sum(n.people for n in plan.moves if n.head == it) for it in names}
                for row, out in zip(tables(PLANNER, model, "exits").rows, plan.arrivals):
                    self.assertEqual((row[2], sum(row[3:])), (out, out))
                self.assertEqual(row[3:], tuple(by_exit.values()))
                routed = tables(PLANNER, model, "routes").records()
                self.assertEqual({it: sum(int(str(r["people"])) for r in routed if r["exit"] == it) for it in names}, by_exit)
                self.assertEqual(sum(row[4] for row in tables(PLANNER, model, "totals").rows if row[1] in names), model.people)

    def test_what_has_no_table(self) -> None:
        with self.assertRaisesRegex(WordsError, "there is no table doors: there are exits, nodes"):
            tables(PLANNER, model_of(ROOM), "doors")
        short = model_of(ROOM.replace("horizon 20", "horizon 2"))
        with self.assertRaises(Shortfall):
            tables(PLANNER, short, "exits")
        self.assertEqual(tables(PLANNER, short, "walks").rows[0][3], 1)
        caught = model_of(ROOM.replace("node DS1.1\n", "node DS1.1\nnode HA1.1 1 0\n"))
        self.assertEqual(tables(PLANNER, caught, "walks").rows[1][3:6], ("none", "", ""))
        with self.assertRaises(Broken):
            tables(Table({"session": BLOCK.replace("move 1 WP1.1 DS1.1", "move 1 DS1.1 WP1.1")}), model_of(HALL), "exits")
        # (three people)
        for people in (2, 4):
            with self.subTest(people), self.assertRaises(Broken):
                tables(Table({"routes": f"routes 0\nroute {people} WP1.1\nstep 0 WP1.1 DS1.1\nend\n"}), model_of(HALL), "routes")


class Occupancies(unittest.TestCase):
    def test_the_one_room_by_hand(self) -> None:
        model = model_of(HALL)
        where = occupancy(model, solve(PLANNER, model))
        self.assertEqual((where.stay("WP1.1"), where.stay("DS1.1"), where.through()), ([1, 0, 0], [0, 2, 3], {("WP1.1", "DS1.1"): 3}))
        self.assertEqual(list(where.by_moment(["WP1.1", "DS1.1"])), [[1, 0], [0, 2], [0, 3]])

    def test_moves_that_do_not_add_up(self) -> None:
        model = model_of(HALL)
        plan = solve(PLANNER, model)
        # The one who is left walks out at the end, and stands for two, for nobody, or comes too early.
        last = plan.raw.splitlines()[-2]
        self.assertTrue(last.startswith(b"move 1 ") and last.endswith(b" 1"), last)
        for other in (last[:-1] + b"2", last[:-1] + b"0", last.replace(b"move 1", b"move 0")):
            with self.subTest(other), self.assertRaises(Broken):
                occupancy(model, replace(plan, raw=plan.raw.replace(last, other)))

    def test_nobody_is_lost_or_too_many(self) -> None:
        for model, plan in cleared_models(12):
            where = occupancy(model, plan)
            for it in model.rooms:
                self.assertTrue(all(0 <= stay <= (it.capacity or 0) for stay in where.stay(it.name)), model.text)
            self.assertEqual(sum(where.stay(it.name)[-1] for it in model.exits), model.people)
            for way, entered in where.entered.items():
                self.assertTrue(all(people <= model.arcs[way].rate for people in entered.values()), model.text)


class FullPlaces(unittest.TestCase):
    def test_two_ways_by_hand(self) -> None:
        # At most 1 is out by 1 and 2 by 2, all by the short way: so it is full at moments 0 and 1. By 3 all eight are, with one to spare.
        model = model_of(ROOM)
        answer = full(model, solve(PLANNER, model))
        self.assertEqual([(it.names, it.people, it.moments) for it in answer.places], [(("WP1.1", "DS1.1"), 1, (0, 1))])
        self.assertEqual((answer.records()[1]["moment"], answer.ground, answer.ways), (1, Ground.CUTS, {("WP1.1", "DS1.1")}))

    def test_a_full_way_that_is_shut_for_that_moment_costs_somebody(self) -> None:
        checked = 0
        for model, plan in cleared_models(20):
            for it in (it for it in full(model, plan).places if len(it.names) == 2):
                for moment in it.moments:
                    self.assert_costs(with_closure(model, (it.names[0], it.names[1]), moment), plan)
                    checked += 1
        self.assertGreater(checked, 30)

    def test_a_full_node_by_hand(self) -> None:
        # One a period comes into a hall that holds one, and its door opens at 3: who came at 2 waits, so that two are out at 4.
        model = model_of(HALLWAY)
        plan = solve(PLANNER, model)
        self.assertEqual(plan.arrivals, (0, 0, 0, 0, 2, 3, 4))
        places = {it.names: (it.people, it.moments) for it in full(model, plan).places}
        self.assertEqual(places, {("WP1.1", "HA1.1"): (1, (2, 3)), ("HA1.1",): (1, (2,))})
        self.assertEqual(tables(PLANNER, model, "full").rows[1], (2, 10, "node", "HA1.1", "", "", 1))
        self.assert_costs(edited(model, ["room HA1.1 0"]), plan)

    def assert_costs(self, changed: Model, plan: Plan) -> None:
        """Fewer are out by some period of a changed building."""
        left = plan_or_short(PLANNER, changed)
        self.assertTrue(isinstance(left, Shortfall) or left.arrivals != plan.arrivals, changed.text)

    def test_a_closed_way_is_not_called_full(self) -> None:
        model = model_of(HOUSE.replace("WP1.1 5 2", "WP1.1 5 3"))
        plan = solve(PLANNER, model)
        self.assertEqual(plan.arrivals, (0, 0, 0, 2, 4, 6, 8))
        below = {it.names: it for it in full(model, plan).places}["WP1.1", "LO1.1"]
        # Of three two can be out at 3, as they enter at 1, the first moment at which the door is open.
        self.assertEqual((below.people, below.moments[0]), (2, 1))


class Reports(unittest.TestCase):
    def test_two_ways_by_hand(self) -> None:
        answer = report(PLANNER, model_of(ROOM))
        assert isinstance(answer, Report) and answer.cut is not None
        self.assertEqual((answer.plan.cleared, answer.uncongested, answer.verdict.is_right, answer.bracket), (3, 1, True, None))
        self.assertEqual((answer.moment_of(25), answer.moment_of(26), answer.moment_of(100)), (2, 3, 3))
        # Without the short way five are out at 3 and all at 4; without the long way one a period is. With 10,000 all take the short way, or still 3 periods.
        worth = {it.names: (it.without.cleared, it.wide.cleared) for it in answer.worth.ways}
        short, long = (4, 1), (8, 3)
        self.assertEqual(worth, {("WP1.1", "DS1.1"): short, ("DS1.1",): short, ("WP1.1", "DS2.1"): long, ("DS2.1",): long})
        (storey,) = answer.storeys
        self.assertEqual((storey.number, storey.name, storey.stay[3], storey.left <= 3), (1, "G", 0, True))
        self.assertEqual((storey.stay[storey.first], sum(it.people for it in answer.rooms)), (storey.most, 8))

    def test_a_house_adds_up(self) -> None:
        model = model_of(HOUSE)
        answer = report(PLANNER, model)
        assert isinstance(answer, Report)
        self.assertEqual([it.number for it in answer.storeys], [2, 1])
        for moment, out in enumerate(answer.plan.arrivals):
            walking = sum(it.people for it in answer.plan.moves if it.moment <= moment < it.moment + model.arcs[it.tail, it.head].travel)
            inside = sum(it.stay[moment] for it in answer.storeys)
            self.assertEqual(inside + walking + out, 6 if moment < 2 else 7)
        by_room = {name: sum(it.people for it in answer.rooms if it.nodes[0] == name) for name in ("WP1.2", "WP1.1")}
        self.assertEqual((by_room, {it.nodes[-1] for it in answer.rooms}), ({"WP1.2": 4, "WP1.1": 3}, {"DS1.1"}))
        self.assertTrue(all(it.first <= it.last for it in answer.rooms))

    def test_as_many_trials_as_are_allowed(self) -> None:
        none, some = (report(PLANNER, model_of(ROOM), trials=most) for most in (0, 2))
        assert isinstance(none, Report) and isinstance(some, Report)
        self.assertEqual((len(none.worth.ways), none.worth.untried), (0, 4))
        self.assertEqual(len(some.worth.ways) + some.worth.untried, 4)
        self.assertGreater(len(some.worth.ways), 0)

    def test_a_plan_in_metres_has_its_bracket(self) -> None:
        drawn = drawn_building("room.plan", PLAN)
        answer = report(PLANNER, model_of(PLAN.replace("way WP1.1 DS1.1 free 11 door 0.90", "arc WP1.1 DS1.1 2 3")), drawn)
        assert isinstance(answer, Report) and answer.bracket is not None
        # 20 people through 0.78 a second, and 9.24 s of walk: 34.9 s.
        self.assertTrue((answer.bracket.earliest or 99) <= 34.9 <= (answer.bracket.latest or 0))

    def test_nobody_and_too_few_periods(self) -> None:
        nobody = report(PLANNER, model_of(ROOM.replace("10 8", "10 0")))
        assert isinstance(nobody, Report)
        self.assertEqual((nobody.plan.cleared, nobody.cut, nobody.by_hand, nobody.storeys[0].left), (0, None, None, 0))
        short = report(PLANNER, model_of(ROOM.replace("horizon 20", "horizon 2")))
        assert isinstance(short, ShortReport)
        self.assertEqual((short.short.most, short.short.people, short.source), (2, 8, PLANNER.source))
        # By 2 the short way lets one in at each of the moments 0 and 1, and nobody is out by the long one.
        self.assertEqual([(it.names, it.people, it.periods) for it in short.crossed], [(("WP1.1", "DS1.1"), 2, 2)])
        self.assertEqual(short.free, 0)


if __name__ == "__main__":
    unittest.main()
