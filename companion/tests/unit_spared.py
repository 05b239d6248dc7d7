"""Losses that need no plan of their own, by hand."""
import unittest
from typing import Dict, List, Set

from companion.tests.planner import Planner
from evacask import reads
from evacask.client.blocks import Outcome
from evacask.model.building import Way
from evacask.questions.spared import Names, can_leave, harmless, only_ways_out
from evacask.questions.sweep import Scenario

# Three people in a room with a short way through a hall, and a long way of its own; two in a room that has only the hall; nobody starts in the hall.
LINES = ["evacplan 1", "period 5", "horizon 20", "floor 1 G", "node WP1.1 10 3", "node WP2.1 10 2", "node HA1.1 10 0", "node DS1.1", "node DS2.1"]
ARCS = ["arc WP1.1 HA1.1 1 1", "arc WP1.1 DS2.1 9 5", "arc WP2.1 HA1.1 1 1", "arc HA1.1 DS1.1 1 4", "end", ""]
HALL = reads("\n".join(LINES + ARCS), Planner())
OWN, LONG, DOOR, LAST = ("WP1.1", "HA1.1"), ("WP1.1", "DS2.1"), ("WP2.1", "HA1.1"), ("HA1.1", "DS1.1")


class OnlyWaysOut(unittest.TestCase):
    def test_people_without_another_way_stay_inside(self) -> None:
        losses: Dict[Names, List[Way]] = {it: [it] for it in (OWN, LONG, DOOR)}
        self.assertEqual(only_ways_out(HALL.solve(), losses), {DOOR: Outcome(None, 3)})

    def test_a_way_that_others_take_too_needs_a_plan(self) -> None:
        self.assertEqual(only_ways_out(HALL.solve(), {LAST: [LAST]}), {})

    def test_an_exit_is_lost_with_all_ways_into_it(self) -> None:
        alone = reads(HALL.text.replace("arc WP1.1 DS2.1 9 5\n", ""), Planner())
        self.assertEqual(only_ways_out(alone.solve(), {("DS1.1",): [LAST]}), {("DS1.1",): Outcome(None, 0)})

    def test_people_who_come_later_count(self) -> None:
        later = reads(HALL.text.replace("evacplan 1", "evacplan 2").replace("end\n", "entrant WP2.1 2 1\nend\n"), Planner())
        self.assertEqual(only_ways_out(later.solve(), {DOOR: [DOOR]}), {DOOR: Outcome(None, 3)})

    def test_who_can_leave(self) -> None:
        self.assertEqual(can_leave(HALL.model, []), set(HALL.model.nodes))
        self.assertEqual(can_leave(HALL.model, [DOOR]), set(HALL.model.nodes) - {"WP2.1"})
        self.assertEqual(can_leave(HALL.model, [LAST]), {"WP1.1", "DS1.1", "DS2.1"})


class Groups(unittest.TestCase):
    def spared(self, ways: List[Way], costly: Set[Way]) -> Set[Way]:
        """What is found if some ways cost time, each by itself and with others."""

        def ask(scenarios: List[Scenario]) -> List[Outcome]:
            self.asked += [len(it) for it in scenarios]
            return [Outcome(9 if {tuple(line.split()[1:]) for line in it} & costly else 7, 5) for it in scenarios]

        self.asked: List[int] = []
        return harmless(ways, 7, ask)

    def test_groups_without_a_costly_way(self) -> None:
        ways = [(f"WP{it}.1", "DS1.1") for it in range(20)]
        self.assertEqual((self.spared(ways, set()), self.asked), (set(ways), [4] * 5))

    def test_a_group_that_costs_time_is_halved_down_to_two(self) -> None:
        ways = [(f"WP{it}.1", "DS1.1") for it in range(6)]
        self.assertEqual((self.spared(ways, {ways[0]}), self.asked), (set(ways[2:]), [4, 2, 2, 2]))

    def test_nothing_to_lose(self) -> None:
        self.assertEqual((self.spared([], set()), self.asked), (set(), []))
