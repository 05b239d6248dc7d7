"""Questions asked of the planner of the tests: the same answers as asking everything, on random buildings and by hand."""
import random
import unittest
from typing import Iterator, List, Union

from companion.tests.buildings import random_building
from companion.tests.planner import Planner
from evacask import Building, Plan, Shortfall, reads
from evacask.client.asking import plan_or_short
from evacask.client.blocks import Outcome
from evacask.model.building import Model
from evacask.model.drawn_building import drawn_building
from evacask.model.edits import edited
from evacask.questions.bracket import brackets, narrow_period
from evacask.questions.by_hand import by_hand
from evacask.questions.spared import Names
from evacask.questions.why import why_of

ROOM = "evacplan 1\nperiod 5\nhorizon 20\nfloor 1 G\nnode WP1.1 10 8\nnode DS1.1\nnode DS2.1\narc WP1.1 DS1.1 1 1\narc WP1.1 DS2.1 3 5\nend\n"
PLAN = "evacplan 1\nperiod 5\nhorizon 60\nfloor 1 Ground\nnode WP1.1 50 20\nnode DS1.1\nway WP1.1 DS1.1 free 11 door 0.90\nend\n"
PLANNER, BUILDINGS = Planner(), 25


def buildings() -> Iterator[Building]:
    """Random buildings, those that can be cleared."""
    for number in range(BUILDINGS):
        building = reads(random_building(random.Random(f"planned {number}")), PLANNER)
        if isinstance(plan_or_short(PLANNER, building.model), Plan):
            yield building


def outcome(model: Model, edits: List[str]) -> Outcome:
    """What an edited building comes to, planned from nothing."""
    planned: Union[Plan, Shortfall] = plan_or_short(PLANNER, edited(model, edits))
    return Outcome(planned.cleared, planned.people) if isinstance(planned, Plan) else Outcome(None, planned.most)


class Planned(unittest.TestCase):
    def test_why_counts_all_who_are_out(self) -> None:
        for building in buildings():
            plan = building.solve()
            for period, out in enumerate(plan.arrivals):
                answer = building.why(period)
                self.assertEqual((answer.most, answer.people, sum(it.people for it in answer.places)), (out, plan.people, out))
                self.assertEqual(sum(int(str(it["people"])) for it in answer.records()), out)

    def test_sensitivity_is_that_of_asking_everything(self) -> None:
        for at, building in enumerate(buildings()):
            rate = (10_000, 0, 1, 2, 5)[at % 5]
            answer = building.sensitivity(rate, workers=2)
            for way in answer.ways:
                with self.subTest(building=building.text, way=way.names, rate=rate):
                    self.assertEqual(way.without, outcome(building.model, lost(way.names)))
                    self.assertEqual(way.wide, outcome(building.model, widened(building.model, way.names, rate)))
            self.assertEqual([it["names"] for it in answer.records()], [" ".join(it.names) for it in answer.ways])
            self.assertLessEqual(answer.asked, 2 * len(answer.ways))

    def test_sweeps_by_hand(self) -> None:
        told: List[int] = []
        scenarios: List[List[str]] = [
            ["shutexit DS2.1"],
            [],
            ["shut a b"],
            ["rate WP1.1 DS1.1 8"],
            ["shutexit DS1.1", "shutexit DS2.1", "openexit DS1.1"],
            ["room WP1.1 9"] * 65,
        ]
        outcomes = reads(ROOM, PLANNER).sweep(scenarios, workers=3, tell=lambda done, of: told.append(done))
        # Eight by the narrow way alone take 8 periods, and by both 3; in the third step of the fifth nobody could be out in between.
        self.assertEqual([it.cleared for it in outcomes], [8, 3, None, 1, 8, 3])
        self.assertIsNotNone(outcomes[2].refused)
        self.assertEqual((max(told), reads(ROOM, PLANNER).sweep([])), (6, []))
        short = reads(ROOM.replace("horizon 20", "horizon 2"), PLANNER).sweep([["leave WP1.1 6"], ["leave WP1.1 1"]])
        self.assertEqual([(it.cleared, it.most) for it in short], [(2, 2), (None, 2)])
        with self.assertRaises(Shortfall):
            reads(ROOM.replace("horizon 20", "horizon 2"), PLANNER).sensitivity()

    def test_another_horizon(self) -> None:
        building = reads(ROOM, PLANNER)
        self.assertEqual(building.solve(horizon=3).cleared, 3)
        with self.assertRaises(Shortfall):
            building.solve(horizon=2)

    def test_a_study(self) -> None:
        with reads(ROOM, PLANNER).study() as study:
            self.assertEqual(([it.cleared for it in study.exits()], study.least("WP1.1", "DS1.1", 3).rate), ([4, 8], 1))

    def test_reports(self) -> None:
        with reads(ROOM, PLANNER).session() as session:
            for word, line in (
                ("clearing", ("node", "WP1.1", "2")),
                ("routes", ("step", "0", "WP1.1", "DS2.1")),
                ("bottlenecks", ("arc", "WP1.1", "DS1.1", "2")),
            ):
                self.assertIn(line, session.report(word).lines)
            # One is out at 1, one at 2, and six at 3.
            self.assertEqual(session.report("summary").people("personperiods"), 21)

    def test_the_bracket_and_the_sum_by_hand(self) -> None:
        drawn = drawn_building("room.plan", PLAN)
        for it in brackets(PLANNER, drawn, [5], 10):
            # 20 people through 0.78 a second, and 9.24 s of walk: 34.9 s.
            self.assertTrue(it.earliest is not None and it.latest is not None and it.earliest <= 34.9 <= it.latest)
        self.assertIsNone(narrow_period(PLANNER, drawn, 1))
        building = reads(ROOM, PLANNER)
        with building.session() as session:
            self.assertIsNotNone(by_hand(building.model, session.plan, why_of(session, None)))


def lost(names: Names) -> List[str]:
    return [f"shut {names[0]} {names[1]}"] if len(names) == 2 else [f"shutexit {names[0]}"]


def widened(model: Model, names: Names, rate: int) -> List[str]:
    """The edits by which a way, or all arcs into an exit, have a rate."""
    ways = [(names[0], names[1])] if len(names) == 2 else [way for way in model.arcs if way[1] == names[0]]
    return [f"rate {tail} {head} {rate}" for tail, head in ways]


if __name__ == "__main__":
    unittest.main()
