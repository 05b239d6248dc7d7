"""Questions about varied buildings, by hand: what to buy, what to lose, whom to admit and to rescue, ranges, drills, and one way for each room."""
import unittest
from typing import Tuple
from unittest import mock

from companion.tests.planner import Planner
from evacask import NoAnswer, WordsError, reads
from evacask.client.asking import solve
from evacask.model.building import Model, model_of
from evacask.model.ground import Ground
from evacask.model.shares import Count, People
from evacask.questions import admit as admissions
from evacask.questions import assign as assignments
from evacask.questions.admit import admit, admit_room
from evacask.questions.assign import assign
from evacask.questions.improve import Widening, improve
from evacask.questions.improve_budget import improve_within
from evacask.questions.late import with_late_exit
from evacask.questions.losses import losses
from evacask.questions.observed import observed
from evacask.questions.ranges import Ranges, percents, ranges
from evacask.questions.rescue import rescue

PLANNER = Planner()
# Eight people, an exit for one a period at 1 period, and one for five a period at 3: out are 0, 1, 2, 8.
ROOM = "evacplan 1\nperiod 5\nhorizon 20\nfloor 1 G\nnode WP1.1 10 8\nnode DS1.1\nnode DS2.1\narc WP1.1 DS1.1 1 1\narc WP1.1 DS2.1 3 5\nend\n"
SHORT, LONG = ("WP1.1", "DS1.1"), ("WP1.1", "DS2.1")
MODEL = model_of(ROOM)


def timed(lines: str, text: str = ROOM) -> Model:
    """A building with windows and entrants."""
    return model_of(text.replace("evacplan 1", "evacplan 2").replace("end\n", lines + "end\n"))


class Bought(unittest.TestCase):
    def test_what_is_bought_by_hand(self) -> None:
        # By 2 nobody can be out by the long way, so four a period have to go the short one: three more, or twice two more.
        answer = improve(PLANNER, MODEL, 2)
        self.assertEqual((answer.cost, answer.at_least, answer.cleared, answer.is_exact, answer.ground), (3, 3, 2, True, Ground.CUTS))
        self.assertEqual(answer.records(), [{"place": "WP1.1 DS1.1", "times": 3, "cost": 3, "before": 1, "after": 4}])
        answer = improve(PLANNER, MODEL, 2, [Widening(SHORT, 2, 7), Widening(LONG, 1, 1)])
        self.assertEqual([(it.place, it.times, it.cost, it.after) for it in answer.purchases], [(SHORT, 2, 14, 5)])
        barred = improve(PLANNER, MODEL, 2, [Widening(SHORT, 1, 1, 2), Widening(LONG)])
        self.assertEqual((barred.cost, barred.most, barred.is_exact, barred.purchases), (None, 6, True, ()))
        self.assertEqual((improve(PLANNER, MODEL, 3).cost, improve(PLANNER, MODEL, 2, work=0).cost), (0, None))

    def test_a_budget_by_hand(self) -> None:
        # For 3 all are out at 2, for 7 at 1; a moment 0 can't be bought.
        # (cleared with what is needed a moment sooner, or the most who can be out then)
        table = ((0, 0, 3, 3), (2, 0, 3, 3), (3, 3, 2, 7), (6, 3, 2, 7), (7, 7, 1, None), (999, 7, 1, None))
        for budget, cost, cleared, needed in table:
            with self.subTest(budget):
                answer = improve_within(PLANNER, MODEL, budget)
                self.assertEqual((answer.cost, answer.cleared), (cost, cleared))
                sooner = answer.sooner
                assert sooner is not None
                self.assertEqual((sooner.moment, sooner.cost, sooner.most), (cleared - 1, needed, 0 if needed is None else None))
        self.assertIsNone(improve_within(PLANNER, model_of(ROOM.replace("10 8", "10 0")), 9).sooner)  # (nobody is inside at all)
        late = improve_within(PLANNER, model_of(ROOM.replace("horizon 20", "horizon 2")), 2)
        self.assertEqual((late.cost, late.moment), (3, 2))  # (even the horizon costs more than there is)

    def test_capacities_may_be_bought_if_they_can_matter(self) -> None:
        # One a period comes into a hall that holds one, and its door opens at 3. Two who wait there may be out at 4 besides the one who comes then.
        text = "evacplan 2\nperiod 5\nhorizon 20\nfloor 1 G\nnode WP1.1 5 3\nnode HA1.1 1 0\nnode DS1.1\narc WP1.1 HA1.1 1 1\narc HA1.1 DS1.1 1 5\nwindow HA1.1 DS1.1 0 3\nend\n"
        answer = improve(PLANNER, model_of(text), 4, [Widening(("HA1.1",), 1, 2)])
        self.assertEqual([(it.place, it.before, it.after) for it in answer.purchases], [(("HA1.1",), 1, 2)])

    def test_more_than_a_rate_may_be(self) -> None:
        # 10,001 people through a door for 9,999 a period, by moment 1: a rate of 10,000, the greatest, leaves one inside.
        crowd = model_of(ROOM.replace("10 8", "20000 10001").replace("arc WP1.1 DS2.1 3 5\n", "").replace("1 1\nend", "1 9999\nend"))
        answer = improve(PLANNER, crowd, 1, [Widening(SHORT, 1, 5)])
        self.assertEqual((answer.cost, answer.most), (None, 10_000))
        with self.assertRaisesRegex(WordsError, "WP1.1 DS1.1 .* together more than a rate or a capacity may be"):
            improve(PLANNER, crowd, 1, [Widening(SHORT, 1, 5, 1), Widening(SHORT, 1, 9)])


class InShares(unittest.TestCase):
    """The same room in tenths of a person, with a short way for 1.5 people a period: out are 0, 1.5, 3, 8."""

    model = model_of(ROOM.replace("10 8", "100 80").replace("1 1\n", "1 15\n").replace("3 5\n", "3 50\n").replace("end\n", "#shares 10\nend\n"))

    def test_what_is_bought(self) -> None:
        # By 2 all go the short way, four a period: 2.5 more, which are three people more, or five halves.
        steps: Tuple[Tuple[Count, int, float], ...] = ((1, 3, 4.5), (People(1, 2), 5, 4))
        for step, times, after in steps:
            (bought,) = improve(PLANNER, self.model, 2, [Widening(SHORT, step)]).purchases
            self.assertEqual((bought.times, bought.before, bought.after), (times, 1.5, after))
        barred = improve(PLANNER, self.model, 2, [Widening(SHORT, 1, 1, 1)])
        self.assertEqual((barred.people, barred.cost, barred.most), (8, None, 5))

    def test_what_is_lost(self) -> None:
        found = losses(PLANNER, model_of(self.model.text.replace("horizon 20", "horizon 3")), 1)
        self.assertEqual([(it.places, it.most, it.cleared) for it in found.worst], [((LONG,), 4.5, None), ((SHORT,), 5, None)])

    def test_who_is_admitted_and_saved(self) -> None:
        # By 2 three are out, so three may be there; of 3.0 and not of 2.9. With a fourth 3 of 4 are.
        self.assertEqual((admit_room(PLANNER, self.model, "WP1.1", 2).people, admit_room(PLANNER, self.model, "WP1.1", 2).most), (3, 3))
        one = admit_room(PLANNER, self.model, "WP1.1", 1)
        self.assertEqual((one.people, one.now, one.capacity, one.most), (1, 8, 10, 1.5))  # (half a person isn't admitted)
        every = admit(PLANNER, self.model, 2)
        self.assertEqual((every.thousandths, every.alike, every.shared, every.shares[0].now), (499, 3, 3, 8))
        saved = rescue(PLANNER, self.model, 1)
        self.assertEqual((saved.most, saved.people, saved.groups[0].staying, saved.plan.people, saved.plan.model.shares), (1.5, 8, 6.5, 1.5, 10))

    def test_ranges_are_rounded_to_shares(self) -> None:
        # 1.5 less or more a third, and 5: from 1.0 to 2.0, and from 3.3 to 6.7.
        given = percents(self.model, rate=(33, 33))
        self.assertEqual(given.rates, {SHORT: (1, 2), LONG: (People(33, 10), People(67, 10))})
        self.assertEqual([(it.earliest, it.latest) for it in ranges(PLANNER, self.model, given).spans], [(3, 4)])

    def test_one_way_for_each_room(self) -> None:
        answer = assign(PLANNER, self.model)
        self.assertEqual([(it.room, it.people, it.exit) for it in answer.rooms], [("WP1.1", 8, "DS2.1")])
        self.assertEqual(sum(it.people for it in answer.moves), 8)
        self.assertIn(b"people 80\n", answer.block)

    def test_a_drill(self) -> None:
        drill = observed(PLANNER, self.model, {"DS1.1": [(9, 1)], "DS2.1": [(9, 1)]})
        self.assertEqual([(it.out, it.best, it.is_beyond) for it in drill.moments], [(2, 1.5, True)])


class Lost(unittest.TestCase):
    def test_what_is_lost_by_hand(self) -> None:
        exits = (("DS1.1",), ("DS2.1",))
        one, two = (losses(PLANNER, MODEL, count, exits) for count in (1, 2))
        self.assertEqual([(it.places, it.most, it.cleared) for it in one.worst], [((("DS2.1",),), 8, 8), ((("DS1.1",),), 8, 4)])
        self.assertEqual([(it.most, it.cleared) for it in two.worst], [(0, None)])
        self.assertEqual((one.cleared, one.possible, two.records()[0]["places"]), (3, 2, ["DS1.1", "DS2.1"]))

    def test_a_late_exit_changes_nothing_up_to_its_moment(self) -> None:
        extended, name = with_late_exit(model_of(ROOM.replace("horizon 20", "horizon 2")), 2)
        plan = solve(PLANNER, extended)
        self.assertEqual((name, plan.arrivals[:3], plan.people), ("DS9999.1", (0, 1, 2), 8))
        # Travels go to 600, so a moment behind that is reached through a hall.
        far, _ = with_late_exit(model_of(ROOM.replace("horizon 20", "horizon 700")), 700)
        self.assertEqual(sorted(it.travel for way, it in far.arcs.items() if way not in MODEL.arcs), [101, 600])


class Admitted(unittest.TestCase):
    def test_who_may_be_there_by_hand(self) -> None:
        # By 3 three go the short way, and five the long one: eight; by 4 four and ten.
        for moment, people in ((3, 8), (4, 14)):
            answer = admit_room(PLANNER, MODEL, "WP1.1", moment)
            self.assertEqual((answer.people, answer.most, answer.now, answer.others), (people, people, 8, 0))
        caught = model_of(ROOM.replace("node DS1.1\n", "node DS1.1\nnode HA1.1 2 2\n"))
        self.assertEqual((admit_room(PLANNER, caught, "WP1.1", 4).people, admit_room(PLANNER, caught, "WP1.1", 4).most), (None, 0))

    def test_all_rooms_by_hand(self) -> None:
        # Of 14 places by moment 4 the room has ten. 1.874 times eight are 14.99, so 14; 1.875 times are 15.
        answer = admit(PLANNER, MODEL, 4)
        self.assertEqual((answer.thousandths, answer.alike, answer.shared, answer.room), (1874, 14, 10, 10))
        self.assertEqual(answer.records(), [{"room": "WP1.1", "people": 10, "now": 8, "capacity": 10}])


class Rescued(unittest.TestCase):
    def test_rooms_that_hold_more_than_are_planned(self) -> None:
        # The two ways let 3 x 1 and 1 x 5 people set out in time to be out by 3. Of 100,000 a period all of 200,000 would.
        hall = ROOM.replace("10 8", "100000 8").replace("node DS1.1", "node WP2.1 100000 0\nnode DS1.1").replace("arc WP1.1 DS2.1", "arc WP2.1 DS2.1")
        every = admit(PLANNER, model_of(hall.replace("WP1.1 DS1.1 1 1", "WP1.1 DS1.1 1 3")), 3)
        self.assertEqual((every.shared, every.room, [it.people for it in every.shares]), (14, 200_000, [9, 5]))
        wide = hall.replace("WP1.1 DS1.1 1 1", "WP1.1 DS1.1 1 9999").replace("DS2.1 3 5", "DS2.1 3 9999").replace("horizon 20", "horizon 40")
        with mock.patch.object(admissions, "greatest_share", return_value=1000), self.assertRaisesRegex(NoAnswer, "at most 100,000 are planned"):
            admit(PLANNER, model_of(wide), 40)

    def test_late_comers_are_not_shared_out(self) -> None:
        # Out by 3 are three by the short way and five by the long one, of whom one comes in at 2 and goes the short way. A plan may have him stay.
        late = timed("entrant WP1.1 2 1\n")
        self.assertEqual([(it.shared, it.shares[0].people) for it in (admit(PLANNER, late, 3),)], [(7, 7)])
        saved = rescue(PLANNER, late, 2)
        self.assertEqual(saved.groups[1].staying, 1)
        with mock.patch.object(admissions, "rescue", return_value=saved):
            self.assertEqual(admit(PLANNER, late, 3).shared, 7)
            self.assertEqual(admit(PLANNER, late, 4).shared, 10)

    def test_who_is_saved_by_hand(self) -> None:
        few, all_of_them = rescue(PLANNER, MODEL, 2), rescue(PLANNER, MODEL)
        self.assertEqual((few.most, few.people, few.plan.people), (2, 8, 2))
        self.assertEqual(few.records(), [{"room": "WP1.1", "moment": 0, "people": 8, "saved": 2, "staying": 6}])
        self.assertEqual((all_of_them.most, all_of_them.groups[0].staying), (8, 0))
        # Who comes in at 2 can't be out at 2.
        self.assertEqual([(it.moment, it.saved) for it in rescue(PLANNER, timed("entrant WP1.1 2 1\n"), 2).groups], [(0, 2), (2, 0)])
        self.assertEqual([(it.moment, it.saved) for it in rescue(PLANNER, timed("entrant WP1.1 4 1\n"), 2).groups], [(0, 2), (4, 0)])


class Ranged(unittest.TestCase):
    def test_corners_by_hand(self) -> None:
        # With a rate of 0 the short way helps nobody: five are out at 3 and three at 4, or four of nine. With 8 all eight are out at 1.
        answer = ranges(PLANNER, MODEL, Ranges(rates={SHORT: (0, 8)}))
        self.assertEqual([(it.earliest, it.latest) for it in answer.spans], [(1, 4)])
        both = ranges(PLANNER, MODEL, Ranges(rates={SHORT: (0, 8)}, people={"WP1.1": (8, 9)}))
        self.assertEqual([it["varied"] for it in both.records()], [["rate"], ["people"], ["rate", "people"]])
        self.assertEqual([(it.earliest, it.latest) for it in both.spans], [(1, 4), (3, 4), (1, 4)])
        self.assertEqual((both.depends, both.doubt, both.ground, both.coarse), (("rate", "people"), None, Ground.PROVED, 0))
        # By 2 two of eight are out, and two of 8 x 25 % = 2.
        short = ranges(PLANNER, model_of(ROOM.replace("horizon 20", "horizon 2")), percents(MODEL, people=(75, 0)))
        self.assertEqual(
            (short.cleared, short.most, short.spans[0].earliest, short.spans[0].latest, short.spans[0].latest_most), (None, 2, 2, None, 2)
        )

    def test_percents_are_rounded_outwards(self) -> None:
        given = percents(MODEL, (20, 10), (30, 30), (10, 10))
        self.assertEqual(given.rates, {SHORT: (0, 2), LONG: (4, 6)})
        self.assertEqual(given.travels, {SHORT: (1, 2), LONG: (2, 4)})
        self.assertEqual((given.people, given.kinds), ({"WP1.1": (7, 9)}, ["rate", "travel", "people"]))

    def test_what_keeps_the_bounds_from_being_certain(self) -> None:
        window, late = timed("window WP1.1 DS1.1 0 1\n"), timed("entrant WP1.1 1 3\n")
        longer = percents(MODEL, travel=(0, 50))
        for model, given, what in (
            (window, longer, "an arc has a window"),
            (late, longer, "WP1.1 doesn't hold all who come into it"),
            (late, Ranges(people={"WP1.1": (8, 11)}), "WP1.1 doesn't hold the most who may start there"),
        ):
            with self.subTest(what):
                answer = ranges(PLANNER, model, given)
                self.assertIn(what, answer.doubt or "")
                self.assertIs(answer.ground, Ground.OWN)
        self.assertIsNone(ranges(PLANNER, late, Ranges(people={"WP1.1": (8, 9)})).doubt)


class Drills(unittest.TestCase):
    def test_a_drill_by_hand(self) -> None:
        # The best plan: 1 from 5 s on, 2 from 10 s, 8 from 15 s. One at 9 s is 4 s behind; eight at 40 s are 25 s behind, of which 21 s are new.
        answer = observed(PLANNER, MODEL, {"DS1.1": [(10, 0), (19, 1), (50, 3)], "DS2.1": [(50, 5)]}, start=10)
        self.assertEqual(
            [(it.seconds, it.out, it.best, it.best_by, it.behind, it.lost) for it in answer.moments][1:], [(9, 1, 1, 5, 4, 4), (40, 8, 8, 15, 25, 21)]
        )
        self.assertEqual((answer.records()[0]["behind"], answer.beyond, answer.cleared, answer.start), (0, [], 3, 10))
        # Of the short way the first came at 9 s and the last at 40 s, period 8: one at each of the moments 0 to 7.
        one, other = answer.exits
        self.assertEqual((one.first, one.last, one.could, other.out, other.could), (9, 40, 8, 5, 5 * 6))
        self.assertEqual(one.planned + other.planned, 8)

    def test_more_than_any_plan(self) -> None:
        answer = observed(PLANNER, MODEL, {"DS1.1": [(4, 1), (5, 9)], "DS2.1": []})
        self.assertEqual([it.is_beyond for it in answer.moments], [True, True])
        self.assertEqual((answer.moments[1].best_by, answer.moments[1].lost, answer.exits[1].first, answer.exits[1].could), (None, None, None, 0))
        shut = observed(PLANNER, timed("window WP1.1 DS1.1 0 2\n"), {"DS1.1": [(25, 3)]})
        self.assertEqual(shut.exits[0].could, 3)  # (moments 0 to 4, of which two are closed)


class Assigned(unittest.TestCase):
    def setUp(self) -> None:
        patched = mock.patch.object(assignments, "WORK", 4_000)  # (a search that can't reach the best plan goes on to the end of its work)
        patched.start()
        self.addCleanup(patched.stop)

    def test_one_way_for_a_room_by_hand(self) -> None:
        # All by the long way: five at 3, three at 4. All by the short way: at 8.
        best, nearest = assign(PLANNER, MODEL), assign(PLANNER, MODEL, nearest=True)
        self.assertEqual((best.cleared, best.best, best.bound), (4, 3, 4))
        self.assertEqual(best.records(), [{"room": "WP1.1", "people": 8, "exit": "DS2.1", "last_out": 4, "way": ["WP1.1", "DS2.1"]}])
        self.assertEqual((nearest.cleared, nearest.rooms[0].exit, nearest.bound), (8, "DS1.1", 3))
        self.assertEqual([(it.moment, it.people) for it in best.moves], [(0, 5), (1, 3)])

    def test_two_rooms_share_the_exits(self) -> None:
        # Four and four, each room with a way of its own at 2 a period and a common one at 1: each goes its own way, out at 1 + 1.
        text = "evacplan 1\nperiod 5\nhorizon 20\nfloor 1 G\nnode WP1.1 5 4\nnode WP2.1 5 4\nnode DS1.1\nnode DS2.1\n"
        ways = "arc WP1.1 DS1.1 1 2\narc WP1.1 DS2.1 1 1\narc WP2.1 DS2.1 1 2\narc WP2.1 DS1.1 1 1\nend\n"
        answer = assign(PLANNER, model_of(text + ways))
        self.assertEqual((answer.cleared, {it.room: it.exit for it in answer.rooms}), (2, {"WP1.1": "DS1.1", "WP2.1": "DS2.1"}))

    def test_the_api_asks_the_same(self) -> None:
        building = reads(ROOM, PLANNER)
        self.assertEqual(
            (building.improve(2), building.rescue(2), building.admit_room("WP1.1", 4).people),
            (improve(PLANNER, MODEL, 2), rescue(PLANNER, MODEL, 2), 14),
        )

    def test_a_horizon_that_is_too_short(self) -> None:
        with self.assertRaisesRegex(NoAnswer, "by one way for each room not everybody is out by the horizon"):
            assign(PLANNER, model_of(ROOM.replace("horizon 20", "horizon 3")))


if __name__ == "__main__":
    unittest.main()
