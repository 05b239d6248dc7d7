#!/usr/bin/env python3
"""Shows on the built program, or on the one that EVACPLAN names, that what is nearly a law of docs/maintainers/laws.md is false: each by a building.

    tests/near_misses.py

The docstring of a test says the near miss. The numbers of people out by each moment were worked out by hand; the program must print them, and they
go against the near miss. A plan that the program doesn't print is shown to be best by `check`, with the labels of the one that it prints.
"""
import pathlib
import random
import sys
import unittest

sys.dont_write_bytecode = True
sys.path.insert(0, str(pathlib.Path(__file__).resolve().parent.parent / "bench"))
import small_buildings
import tried
from small_buildings import Building, most_out, run

TWO_DOORS = "node WP1.1 1 1; arc WP1.1 DS1.1 1 1; arc WP1.1 DS2.1 1 1"
THREE_AT_A_DOOR = "node WP1.1 3 3; arc WP1.1 DS1.1 1 1"
TWO_AT_A_HALL = "node WP1.1 2 2; node HA1.1 {} 0; arc WP1.1 HA1.1 1 1; arc HA1.1 DS1.1 1 2; window HA1.1 DS1.1 1 2"


def building(horizon: int, text: str) -> Building:
    """The building of some lines of a file, with `;` between them. A name that is the head of an arc and no node is an exit."""
    made = Building(horizon, {}, [], {})
    for kind, *words in (line.split() for line in text.split(";")):
        if kind == "node":
            made.rooms[words[0]] = [int(words[1]), int(words[2])]
        elif kind == "arc":
            made.arcs[words[0], words[1]] = [int(words[2]), int(words[3])]
        elif kind == "window":
            made.windows.append((words[0], words[1], int(words[2]), int(words[3])))
        else:
            made.entrants.append((words[0], int(words[1]), int(words[2])))
    made.exits = sorted({head for _, head in made.arcs} - set(made.rooms))
    return made


def is_best(made: Building, *moves: str) -> bool:
    """Whether `check` says of a plan that no plan has more people out by any moment, with the labels of the plan that is printed."""
    block = run(["solve"], made.lines())
    kept = [line for line in block if line and not line.startswith(("move ", "end"))]
    return run(["check"], [*made.lines(), *kept, *(f"move {move}" for move in moves), "end"])[0] == "yes"


class NearMisses(unittest.TestCase):
    """Each test has the name of the law, and then what is nearly it."""

    def assert_out(self, made: Building, *curve: int) -> None:
        """As many people are out by each moment, in whole numbers from moment 0 on."""
        self.assertEqual(most_out(made)[: len(curve)], list(curve))

    # ---- doors into exits

    def test_doors_are_substitutes_one_less(self) -> None:
        """Two doors bring one fewer together than each alone, added up: here one and one, and two."""
        text = "node WP1.1 2 2; arc WP1.1 DS1.1 1 {}; arc WP1.1 DS2.1 1 {}"
        for rates, out in (((0, 0), 0), ((1, 0), 1), ((0, 1), 1), ((1, 1), 2)):
            self.assert_out(building(4, text.format(*rates)), 0, out)

    def test_doors_are_substitutes_turned(self) -> None:
        """Two doors bring at least as many together as each alone, added up: here there is only one person."""
        text = "node WP1.1 1 1; arc WP1.1 DS1.1 1 {}; arc WP1.1 DS2.1 1 {}"
        for rates, out in (((0, 0), 0), ((1, 0), 1), ((0, 1), 1), ((1, 1), 1)):
            self.assert_out(building(4, text.format(*rates)), 0, out)

    def test_doors_are_substitutes_of_other_arcs(self) -> None:
        """Two arcs bring at most as many together as each alone, added up: of two in a row neither alone brings anybody."""
        text = "node WP1.1 1 1; node HA1.1 0 0; arc WP1.1 HA1.1 1 {}; arc HA1.1 DS1.1 1 {}"
        for rates, out in (((0, 0), 0), ((1, 0), 0), ((0, 1), 0), ((1, 1), 1)):
            self.assert_out(building(4, text.format(*rates)), 0, 0, out)

    def test_doors_are_substitutes_of_rooms(self) -> None:
        """The same of rooms, with windows: whoever has to wait in two halls gets out only with a place in each."""
        arcs = "arc WP1.1 HA1.1 1 1; arc HA1.1 HA2.1 1 1; arc HA2.1 DS1.1 1 1; "
        opened = "window WP1.1 HA1.1 1 9; window HA1.1 HA2.1 0 2; window HA1.1 HA2.1 3 9; window HA2.1 DS1.1 0 4; window HA2.1 DS1.1 5 9"
        for places, out in (((0, 0), 0), ((1, 0), 0), ((0, 1), 0), ((1, 1), 1)):
            rooms = "node WP1.1 1 1; node HA1.1 {} 0; node HA2.1 {} 0; ".format(*places)
            self.assert_out(building(8, rooms + arcs + opened), 0, 0, 0, 0, 0, out)

    def test_several_exits_cost_most_one_less(self) -> None:
        """Three exits lost keep inside one more than each alone, added up: here one, one and two, and four."""
        text = "node WP1.1 4 4; arc WP1.1 DS1.1 1 {}; arc WP1.1 DS2.1 1 {}; arc WP1.1 DS3.1 1 {}"
        for rates, out in (((1, 1, 2), 4), ((0, 1, 2), 3), ((1, 0, 2), 3), ((1, 1, 0), 2), ((0, 0, 0), 0)):
            self.assert_out(building(4, text.format(*rates)), 0, out)

    def test_several_exits_cost_most_in_moments(self) -> None:
        """The same of moments: without one of two exits it takes one moment more, and without both one as well."""
        text = "node WP1.1 4 4; arc WP1.1 DS1.1 1 {}; arc WP1.1 DS2.1 1 {}; arc WP1.1 DS3.1 1 2"
        for rates, cleared in (((1, 1), 1), ((0, 1), 2), ((1, 0), 2), ((0, 0), 2)):
            self.assertIn(f"cleared {cleared}", run(["solve"], building(4, text.format(*rates)).lines()))

    def test_greedy_exits_are_good_as_the_best(self) -> None:
        """Exits chosen one after the other are as good as the best: DS1.1 is best alone, with four, and DS2.1 and DS3.1 are best together."""
        text = "node WP1.1 3 3; node WP2.1 3 3; arc WP1.1 DS1.1 1 {0}; arc WP2.1 DS1.1 1 {0}; arc WP1.1 DS2.1 1 {1}; arc WP2.1 DS3.1 1 {2}"
        for rates, out in (((2, 0, 0), 4), ((0, 3, 0), 3), ((0, 0, 3), 3), ((2, 3, 0), 5), ((2, 0, 3), 5), ((0, 3, 3), 6)):
            self.assert_out(building(4, text.format(*rates)), 0, out)

    # ---- shorter periods

    def test_finer_periods_agree_one_part_sooner(self) -> None:
        """By the first short period of each long one as many are out as by the long one."""
        self.assert_out(building(2, "node WP1.1 2 2; arc WP1.1 DS1.1 1 2"), 0, 2, 2)
        self.assert_out(building(5, "node WP1.1 2 2; arc WP1.1 DS1.1 2 1"), 0, 0, 1, 2, 2, 2)

    def test_finer_clears_within_at_the_first_part(self) -> None:
        """Whoever clears at moment C of long periods clears at q C of short ones: here 1, and 3 in place of 2."""
        self.assertIn("cleared 1", run(["solve"], building(2, "node WP1.1 2 2; arc WP1.1 DS1.1 1 2").lines()))
        self.assertIn("cleared 3", run(["solve"], building(5, "node WP1.1 2 2; arc WP1.1 DS1.1 2 1").lines()))

    def test_finer_periods_agree_with_late_arrivals(self) -> None:
        """Shorter periods change nothing, if somebody comes later into a hall that doesn't hold everybody."""
        long = building(4, "node HA1.1 0 0; arc HA1.1 DS1.1 1 2; entrant HA1.1 1 2")
        short = building(9, "node HA1.1 0 0; arc HA1.1 DS1.1 2 1; entrant HA1.1 2 2")
        self.assertIn("cleared 2", run(["solve"], long.lines()))
        said = run(["solve"], short.lines())
        self.assertTrue(said[0].startswith("refused 22 "))
        self.assertIn("most 1", said)

    def test_finer_periods_agree_with_room_for_entries(self) -> None:
        """The same, if each room holds those who come into it from nowhere, with a window."""
        text = "node WP1.1 2 2; node HA1.1 2 0; arc WP1.1 HA1.1 {0} {1}; arc HA1.1 DS1.1 {0} {1}; "
        closed = "window WP1.1 HA1.1 {} {}; window HA1.1 DS1.1 0 {}; entrant HA1.1 {} 2"
        self.assert_out(building(5, text.format(1, 2) + closed.format(1, 6, 2, 2)), 0, 0, 0, 2, 4, 4)
        self.assertEqual(most_out(building(11, text.format(2, 1) + closed.format(2, 12, 4, 4)))[-1], 3)

    def test_finer_periods_agree_with_uneven_rates(self) -> None:
        """Shorter periods change nothing, if a rate isn't shared evenly among them: here all of it in each first one."""
        uneven = "; ".join(f"window HA1.1 DS1.1 {moment} {moment + 1}" for moment in (1, 3, 5, 7))
        self.assert_out(building(3, "node WP1.1 2 2; node HA1.1 0 0; arc WP1.1 HA1.1 1 2; arc HA1.1 DS1.1 1 2"), 0, 0, 2, 2)
        short = "node WP1.1 2 2; node HA1.1 0 0; arc WP1.1 HA1.1 2 1; arc HA1.1 DS1.1 2 2; "
        self.assert_out(building(7, short + uneven), 0, 0, 0, 0, 1, 1, 2, 2)

    # ---- rounded travel times

    def test_rounded_travels_bracket_one_part_sooner(self) -> None:
        """By the first short period of each long one no fewer are out than with travel times rounded up: here they are whole."""
        self.assert_out(building(2, "node WP1.1 2 2; arc WP1.1 DS1.1 1 2"), 0, 2)
        self.assert_out(building(5, "node WP1.1 2 2; arc WP1.1 DS1.1 2 1"), 0, 0, 1)

    def test_rounded_travels_bracket_with_windows(self) -> None:
        """Travel times rounded up and rounded down have the true curve between them, with windows: 2 and 0, and 1 between in truth."""
        text = "node WP1.1 2 2; node HA1.1 0 0; arc WP1.1 HA1.1 {} {}; arc HA1.1 DS1.1 {} {}; "
        long = "window WP1.1 HA1.1 1 6; window HA1.1 DS1.1 0 2; window HA1.1 DS1.1 3 6"
        short = "window WP1.1 HA1.1 2 12; window HA1.1 DS1.1 0 4; window HA1.1 DS1.1 6 12"
        self.assert_out(building(5, text.format(2, 2, 1, 2) + long), 0, 0, 0, 2, 2, 2)
        self.assert_out(building(5, text.format(1, 2, 1, 2) + long), 0, 0, 0, 0, 0, 0)
        self.assert_out(building(11, text.format(3, 1, 2, 1) + short), 0, 0, 0, 0, 0, 0, 1, 1, 1, 1, 1, 1)

    # ---- shares of a person

    def test_shares_agree_with_small_rooms(self) -> None:
        """Twice as many are out, if capacities stay: three of four in place of four."""
        text = "node WP1.1 {0} {0}; node HA1.1 {1} 0; arc WP1.1 HA1.1 1 {2}; arc HA1.1 DS1.1 1 {3}; window HA1.1 DS1.1 1 2"
        self.assert_out(building(4, text.format(2, 1, 1, 2)), 0, 0, 0, 2, 2)
        self.assert_out(building(4, text.format(4, 2, 2, 4)), 0, 0, 0, 4, 4)
        self.assert_out(building(4, text.format(4, 1, 2, 4)), 0, 0, 0, 3, 4)

    def test_shares_agree_with_the_same_rates(self) -> None:
        """Twice as many are out, if rates stay."""
        self.assert_out(building(4, "node WP1.1 2 2; arc WP1.1 DS1.1 1 1"), 0, 1, 2, 2)
        self.assert_out(building(4, "node WP1.1 4 4; arc WP1.1 DS1.1 1 1"), 0, 1, 2, 3)

    def test_shares_agree_with_the_same_late_arrivals(self) -> None:
        """Twice as many are out, if as many come later as before."""
        self.assert_out(building(4, "node WP1.1 1 0; arc WP1.1 DS1.1 1 1; entrant WP1.1 1 1"), 0, 0, 1)
        self.assert_out(building(4, "node WP1.1 2 0; arc WP1.1 DS1.1 1 2; entrant WP1.1 1 1"), 0, 0, 1)

    def test_rounded_rates_bracket_rounded_to_the_nearest(self) -> None:
        """Rates rounded to the nearest are a bound: of two shares each, rate 3 is rounded to two people, who are four shares in place of three."""
        self.assert_out(building(4, "node WP1.1 6 6; arc WP1.1 DS1.1 1 3"), 0, 3)
        self.assert_out(building(4, "node WP1.1 3 3; arc WP1.1 DS1.1 1 2"), 0, 2)

    # ---- what is full in every best plan

    def test_equal_is_tight_of_a_cut_worth_one_more(self) -> None:
        """A plan that has one fewer out than a cut is worth fills it: the empty cut is worth all three, and one is still inside."""
        self.assert_out(building(4, THREE_AT_A_DOOR), 0, 1, 2, 3)

    def test_stated_cuts_are_filled_by_the_printed_plan_alone(self) -> None:
        """What is full in the printed plan is full in every best plan: of two doors it is one here, and there the other."""
        self.assertTrue(is_best(building(4, TWO_DOORS), "0 WP1.1 DS1.1 1"))
        self.assertTrue(is_best(building(4, TWO_DOORS), "0 WP1.1 DS2.1 1"))

    def test_full_in_every_best_plan_from_the_clearing_moment_on(self) -> None:
        """A cut lists what is full from the clearing moment on too: there it has no arc, and the door has nobody to let in."""
        said = run(["session"], [*building(6, THREE_AT_A_DOOR).lines(), "cut 2", "cut 4"])
        self.assertEqual(said[said.index("cut 2 2") :][:4], ["cut 2 2", "arc 0 WP1.1 DS1.1 1", "arc 1 WP1.1 DS1.1 1", "end"])
        self.assertEqual(said[said.index("cut 4 3") :][:3], ["cut 4 3", "entry WP1.1 3", "end"])

    # ---- what wider arcs can bring

    def test_widening_is_bounded_by_one_person(self) -> None:
        """A rate of one more brings at most one person more."""
        self.assert_out(building(4, "node WP1.1 4 4; arc WP1.1 DS1.1 1 1"), 0, 1, 2)
        self.assert_out(building(4, "node WP1.1 4 4; arc WP1.1 DS1.1 1 2"), 0, 2, 4)

    def test_widening_is_bounded_turned(self) -> None:
        """A wider arc brings as many as the items of a cut grow by: of two in a row, neither alone brings anybody."""
        for first, second in ((1, 1), (2, 1), (1, 2)):
            made = building(4, f"node WP1.1 3 3; node HA1.1 0 0; arc WP1.1 HA1.1 1 {first}; arc HA1.1 DS1.1 1 {second}")
            self.assert_out(made, 0, 0, 1, 2, 3)

    def test_widening_is_bounded_without_rooms(self) -> None:
        """Larger rooms needn't be counted: with room for one more both are out by 3, with the same rates."""
        self.assert_out(building(4, TWO_AT_A_HALL.format(0)), 0, 0, 0, 1, 2)
        self.assert_out(building(4, TWO_AT_A_HALL.format(1)), 0, 0, 0, 2, 2)

    # ---- who has to wait where

    def test_best_waits_at_home_with_a_window(self) -> None:
        """Nobody has to wait in a hall, with a window: if nobody may, both are out by 4 and not by 3."""
        self.assert_out(building(4, TWO_AT_A_HALL.format(1)), 0, 0, 0, 2, 2)
        self.assert_out(building(4, TWO_AT_A_HALL.format(0)), 0, 0, 0, 1, 2)

    def test_best_waits_at_home_with_late_arrivals(self) -> None:
        """Nobody has to wait in a hall, if somebody comes later: the hall for one lets both out by 4, and the hall for nobody by 6."""
        text = "node HA1.1 {} 0; node HA2.1 0 0; arc HA1.1 HA2.1 1 1; arc HA2.1 DS1.1 1 1; arc HA1.1 DS1.1 5 1; entrant HA1.1 1 1; entrant HA2.1 2 1"
        self.assertIn("cleared 4", run(["solve"], building(9, text.format(1)).lines()))
        self.assertIn("cleared 6", run(["solve"], building(9, text.format(0)).lines()))

    def test_best_waits_at_home_nobody_at_all(self) -> None:
        """Some best plan has nobody wait anywhere: of three at a door for one, two are inside at moment 0."""
        self.assert_out(building(4, THREE_AT_A_DOOR), 0, 1, 2, 3)

    def test_best_waits_at_home_in_every_best_plan(self) -> None:
        """No best plan has anybody wait in a hall: here all three may go at once, and wait there."""
        made = building(6, "node WP1.1 3 3; node HA1.1 3 0; arc WP1.1 HA1.1 1 3; arc HA1.1 DS1.1 1 1")
        self.assertTrue(is_best(made, "0 WP1.1 HA1.1 3", "1 HA1.1 DS1.1 1", "2 HA1.1 DS1.1 1", "3 HA1.1 DS1.1 1"))

    # ---- the others

    def test_each_seed(self) -> None:
        """The near misses of the other laws, each by the random building of its seed in `tried.NEAR`."""
        for near, seed in tried.NEAR.items():
            with self.subTest(near.__name__):
                self.assertTrue(near(random.Random(seed)), near.__doc__)


if __name__ == "__main__":
    if not small_buildings.PROGRAM.is_file():
        sys.exit(f"near misses weren't tried: there is no program {small_buildings.PROGRAM}; ./build makes it, and EVACPLAN may name another")
    unittest.main()
