"""Plans in metres, shares of a person and the ends between which a building clears: by hand, and where nothing is claimed."""
import pathlib
import unittest
from fractions import Fraction

from evacask.errors import MarkError, WordsError
from evacask.model.building import model_of
from evacask.model.drawn import PlanFault, Rounding
from evacask.model.drawn_building import Scale, best_shares, building_text, drawn_building, too_short
from evacask.model.edits import edited
from evacask.model.shares import in_people, in_shares, typed
from evacask.questions.bracket import reasons

EXAMPLES = pathlib.Path(__file__).resolve().parent.parent.parent / "examples"
# One door of 0.90 m, which lets 1.3 x 0.60 = 0.78 people a second through, and a walk of 11 m / 1.19 m/s = 9.24 s.
PLAN = "evacplan 1\nperiod 5\nhorizon 60\nfloor 1 Ground\nnode WP1.1 50 20\nnode DS1.1\nway WP1.1 DS1.1 free 11 door 0.90\nend\n"
WHOLE = "evacplan 1\nperiod 5\nhorizon 60\nfloor 1 Ground\nnode WP1.1 50 20\nnode DS1.1\narc WP1.1 DS1.1 2 3\nend\n"


def converted(scale: Scale, plan: str = PLAN) -> str:
    return building_text(drawn_building("room.plan", plan), scale)


class Plans(unittest.TestCase):
    def test_numbers_by_hand(self) -> None:
        self.assertEqual(converted(Scale(5)), WHOLE)
        self.assertIn("arc WP1.1 DS1.1 1 4\n", converted(Scale(5, 1, Rounding.EARLIER)))
        self.assertIn("arc WP1.1 DS1.1 2 39\n#shares 10\nend\n", converted(Scale(5, 10)))
        self.assertIn("node WP1.1 500 200\n", converted(Scale(5, 10)))
        self.assertIn("period 2\nhorizon 150\n", converted(Scale(2)))

    def test_shares_that_lose_little(self) -> None:
        drawn = drawn_building("room.plan", PLAN)
        self.assertEqual(best_shares(drawn, 5).number, 9)  # (of 3.9 x 8 = 31.2 0.6 % are lost, and of 3.9 x 9 = 35.1 0.3 %)
        self.assertLessEqual(best_shares(drawn_building("t", (EXAMPLES / "tower.plan").read_text()), 5).loss, 0.005)
        crowded = drawn_building("room.plan", PLAN.replace("50 20", "9000 9000"))
        self.assertLessEqual(best_shares(crowded, 5).number * 9000, 100_000)

    def test_more_shares_than_the_language_allows(self) -> None:
        entrants = PLAN.replace("end\n", "entrant WP1.1 3 1500\nentrant WP1.1 4 1000\nend\n")
        self.assertIn("entrant WP1.1 4 39000\n", converted(Scale(5, 39), entrants))
        for plan, shares, line in ((PLAN.replace("50 20", "9000 9000"), 12, 5), (entrants, 40, 9)):
            with self.assertRaisesRegex(PlanFault, "shares of a person, and the most is 100000") as fault:
                converted(Scale(5, shares), plan)
            self.assertEqual(fault.exception.line, line)
        # Too many whole people are the plan's own, and the program says so.
        self.assertIn("node WP1.1 50 100001\n", converted(Scale(5), PLAN.replace("50 20", "50 100001")))

    def test_a_way_that_takes_less_than_a_period(self) -> None:
        self.assertIsNone(too_short(drawn_building("room.plan", PLAN), 9))
        self.assertIsNotNone(too_short(drawn_building("room.plan", PLAN), 10))

    def test_faults_name_their_line(self) -> None:
        for old, new, line, what in (
            ("door 0.90", "door", 7, "a number is missing"),
            ("door 0.90", "door 0.30", 7, "no wider than its boundary layers"),
            ("door 0.90", "dor 0.90", 7, "no part of a way"),
            ("door 0.90", "", 7, "how many it lets through"),
            ("free 11", "crowd 11 3.9", 7, "nobody moves"),
            ("period 5", "period 0", 2, "1 to 600 seconds"),
        ):
            with self.subTest(new=new), self.assertRaises(PlanFault) as fault:
                drawn_building("room.plan", PLAN.replace(old, new))
            self.assertEqual((fault.exception.line, what in str(fault.exception)), (line, True))
        for plan, scale in ((PLAN.replace("way WP1.1 DS1.1 free 11 door 0.90", "arc WP1.1 DS1.1 2 3"), Scale(2)), (f"#shares 3\n{PLAN}", Scale(5))):
            with self.assertRaises(PlanFault):
                converted(scale, plan)


class SharesOfAPerson(unittest.TestCase):
    def test_people_are_read_and_sent_in_people(self) -> None:
        model = model_of(converted(Scale(5, 10)))
        self.assertEqual((model.shares, model.people, model.arcs["WP1.1", "DS1.1"].rate), (10, 20, Fraction(39, 10)))
        self.assertEqual(f"{model.arcs['WP1.1', 'DS1.1'].rate}", "3.9")
        self.assertIn("arc WP1.1 DS1.1 2 45\n", edited(model, ["rate WP1.1 DS1.1 4.5"]).text)
        self.assertIn("node WP1.1 500 180\n", edited(model, ["leave WP1.1 2"]).text)

    def test_people_that_are_no_whole_number_of_shares_are_refused(self) -> None:
        with self.assertRaises(WordsError):
            edited(model_of(converted(Scale(5, 10))), ["rate WP1.1 DS1.1 4.55"])
        self.assertEqual(in_shares(typed(in_people(1, 3)), 3), "1")

    def test_sums_of_people_are_exact(self) -> None:
        self.assertEqual(sum(in_people(1, 3) for _ in range(3)), 1)
        self.assertIsInstance(in_people(1, 3) + in_people(2, 3), int)

    def test_marks(self) -> None:
        for mark in ("#shares", "#shares 0", "#shares 101", "#shares x", "#shares 4 4", "#shares 4\n#shares 4"):
            with self.subTest(mark=mark), self.assertRaises(MarkError):
                model_of(WHOLE.replace("end\n", f"{mark}\nend\n"))
        self.assertEqual(model_of(WHOLE.replace("end\n", "# shares 4\nend\n#shares 9\n")).shares, 1)


class Claims(unittest.TestCase):
    """The laws are silent with windows, and if people come in where there is no room for all of them."""

    def test_nothing_is_claimed_where_the_laws_are_silent(self) -> None:
        window = WHOLE.replace("evacplan 1", "evacplan 2").replace("end\n", "window WP1.1 DS1.1 3 5\nend\n")
        full = WHOLE.replace("evacplan 1", "evacplan 2").replace("end\n", "entrant WP1.1 3 31\nend\n")
        room = WHOLE.replace("evacplan 1", "evacplan 2").replace("end\n", "entrant WP1.1 3 30\nend\n")
        self.assertEqual([bool(reasons(model_of(text))) for text in (WHOLE, window, full, room)], [False, True, True, False])

    def test_the_later_end_of_a_period(self) -> None:
        self.assertEqual(model_of(WHOLE).time(28), "28 (140 to 145 s)")
        hall = "evacplan 2\nperiod 5\nhorizon 9\nfloor 1 G\nnode HA1.1 0 0\nnode DS1.1\narc HA1.1 DS1.1 1 2\nentrant HA1.1 1 2\nend\n"
        self.assertEqual(model_of(hall).time(2), "2 (from 10 s)")


if __name__ == "__main__":
    unittest.main()
