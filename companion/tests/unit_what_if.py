"""Comparisons, widths and edits that nobody foresaw, by hand."""
import unittest
from typing import Dict, List

from companion.tests.planner import Planner
from companion.tests.table import Table
from evacask import Broken, NoAnswer, Refused, Shortfall, WordsError
from evacask.client.blocks import Outcome
from evacask.model.building import model_of
from evacask.model.edits import edited
from evacask.model.ground import Ground
from evacask.model.seconds import End
from evacask.questions.compare import compare
from evacask.questions.unforeseen import unforeseen
from evacask.questions.width import width, widths_of

PLANNER = Planner()
# Eight people, an exit for one a period at 1 period, and one for five a period at 3: out are 0, 1, 2, 8.
ROOM = "evacplan 1\nperiod 5\nhorizon 20\nfloor 1 G\nnode WP1.1 10 8\nnode DS1.1\nnode DS2.1\narc WP1.1 DS1.1 1 1\narc WP1.1 DS2.1 3 5\nend\n"
MODEL = model_of(ROOM)
# The plan, and what is left of it after moment 1 if five took the long way at 0, and one the short: two more go the short way.
OPENING = "answer 0\npeople 8\ncleared 3\nout 0 0\nout 1 1\nout 2 2\nout 3 8\nend\n"
GONE = "advance 1\ngone 0 0\ngone 1 1\ngone 2 1\ngone 3 6\nend\n"
LEFT = "answer 1\npeople 2\ncleared 3\nout 0 0\nout 1 0\nout 2 1\nout 3 2\nend\n"
LATE = "answer 2\npeople 2\ncleared 4\nout 0 0\nout 1 0\nout 2 0\nout 3 0\nout 4 2\nend\n"
SHORT = "refused 22 12\npeople 2\nmost 0\nin WP1.1 1 20\nend\n"


class Comparisons(unittest.TestCase):
    def test_figures_by_hand(self) -> None:
        wider = edited(MODEL, ["rate WP1.1 DS1.1 8"])
        answer = compare(PLANNER, MODEL, [["shutexit DS2.1"], ["shut WP1.1 WP9.1"], ["leave WP1.1 8"]], [("wider", wider)], "as it is")
        self.assertEqual([it.name for it in answer.scenarios], ["as it is", "wider", "shutexit DS2.1", "shut WP1.1 WP9.1", "leave WP1.1 8"])
        # Half of eight are four, and 95 of 100 all eight. The sums of moments: 1 + 2 + 6 x 3, 8 x 1, and 1 + 2 + .. + 8.
        figures = [(it.cleared, it.by_share, it.person_periods, it.mean) for it in answer.scenarios]
        self.assertEqual(figures[:3], [(3, (3, 3), 21, 21 / 8), (1, (1, 1), 8, 1.0), (8, (4, 8), 36, 4.5)])
        refused, nobody = answer.scenarios[3:]
        self.assertEqual((refused.refused and refused.refused.code, refused.mean, nobody.mean, answer.is_any_refused), (13, None, None, True))
        self.assertEqual([it["refused"] for it in answer.records()], [None, None, None, 13, None])

    def test_a_building_that_can_not_be_cleared(self) -> None:
        (it,) = compare(PLANNER, model_of(ROOM.replace("horizon 20", "horizon 2"))).scenarios
        self.assertEqual((it.cleared, it.most, it.people, it.by_share, it.mean), (None, 2, 8, (None, None), None))


class Widths(unittest.TestCase):
    def test_least_rates_by_hand(self) -> None:
        # Periods 0 to 3 end after 20 s. By 3 five go the long way, so three the short one: one a period. By 2 nobody goes the long way: 8 / 2 = 4.
        for seconds, end, rate, moment, most in (
            (20, End.LATER, 1, 3, 5),
            (15, End.LATER, 4, 2, 6),
            (15, End.EARLIER, 1, 3, 5),
            (99, End.LATER, 0, 18, None),
        ):
            with self.subTest(seconds=seconds, end=end):
                answer = width(PLANNER, MODEL, "WP1.1", "DS1.1", seconds, end)
                self.assertEqual((answer.rate, answer.moment, answer.most, answer.now, answer.people), (rate, moment, most, 1, 8))
                self.assertEqual((answer.records()[0]["rate"], answer.widths is None), (rate, rate == 0))
        never = width(PLANNER, MODEL, "WP1.1", "DS2.1", 15)
        self.assertEqual((never.rate, never.most, never.widths), (None, 2, None))

    def test_clear_widths_by_hand(self) -> None:
        # 4 in 5 s are 0.8 a second. At 1.30 a second and metre 0.615 m, with sides of 0.30 m for a door and of 0.40 m for a level way. A leaf lets 50 a
        # minute through.
        widths = widths_of(4, 5)
        self.assertEqual((widths.door, widths.level, widths.ground), (0.92, 1.02, Ground.OWN))
        self.assertEqual((widths.leaves.leaves, widths.leaves.doors), (1, 1))
        # Stairs, of 0.94 to 1.16 a second and metre, with sides of 0.30 m: 0.8 / 0.94 + 0.30 = 1.151 m, and so on.
        self.assertEqual(widths.stairs, (("191/254", 1.16), ("178/279", 1.10), ("165/305", 1.04), ("165/330", 0.99)))

    def test_times_that_no_plan_has(self) -> None:
        for seconds, what in ((4, "The first period ends after 5 s"), (110, "The plan looks 105 s ahead")):
            with self.subTest(seconds), self.assertRaisesRegex(Refused, what) as refused:
                width(PLANNER, MODEL, "WP1.1", "DS1.1", seconds)
            self.assertEqual(refused.exception.code, 33)
        other = Table({"least WP1.1 DS1.1 3": "least WP1.1 DS2.1 3 0\nend\n"})
        with self.assertRaises(Broken):
            width(other, MODEL, "WP1.1", "DS1.1", 20)
        with self.assertRaises(Shortfall):
            width(PLANNER, model_of(ROOM.replace("horizon 20", "horizon 2")), "WP1.1", "DS1.1", 10)


class Advanced(Table):
    """A table whose reply to an advance has the plan of those who are left as its second part. What is solved is planned."""

    def __init__(self, replies: Dict[str, str]):
        super().__init__({"replan": OPENING, "advance 1": GONE, "left": LEFT, **replies})

    def run(self, words: "object", text: bytes) -> bytes:
        return PLANNER.run(["solve"], text)

    def reply(self) -> bytes:
        said = super().reply()
        if said.startswith(b"advance"):
            self.sent.insert(0, "left")
        return said


class Unforeseen(unittest.TestCase):
    def test_an_exit_that_is_lost_by_hand(self) -> None:
        # Two are left at moment 1, and go the long way: they are out at 4. If it is known, seven take the long way: five at 0, so out at 3, and two at 4.
        for edits in (["shutexit DS1.1"], ["shut WP1.1 DS1.1"], ["window WP1.1 DS1.1 1 1201"]):
            answer = unforeseen(Advanced({edits[0]: LATE}), MODEL, edits, 1)
            self.assertEqual((answer.gone, answer.trapped, answer.ground), (6, 0, Ground.PRINTED))
            self.assertEqual((answer.as_it_is, answer.foreseen, answer.unforeseen), (Outcome(3, 8), Outcome(4, 8), Outcome(4, 8)))

    def test_who_is_trapped(self) -> None:
        edits = ["shutexit DS2.1", "shutexit DS1.1"]
        for given in (edits, edits[::-1]):
            answer = unforeseen(Advanced({"shutexit DS2.1": LEFT, "shutexit DS1.1": SHORT}), MODEL, given, 1)
            # Known from the beginning, one goes the short way at 0 and five the long way.
            self.assertEqual((answer.unforeseen, answer.trapped, answer.foreseen), (Outcome(None, 6), 2, Outcome(None, 6)))

    def test_the_last_who_are_gone_may_be_out_last(self) -> None:
        soon = "answer 2\npeople 2\ncleared 2\nout 0 0\nout 1 0\nout 2 2\nend\n"
        answer = unforeseen(Advanced({"rate WP1.1 DS1.1 9": soon}), MODEL, ["rate WP1.1 DS1.1 9"], 1)
        self.assertEqual((answer.unforeseen, answer.foreseen), (Outcome(3, 8), None))  # (no building says that a rate changes at a moment)

    def test_a_way_that_has_a_window_already(self) -> None:
        timed = model_of(ROOM.replace("evacplan 1", "evacplan 2").replace("end\n", "window WP1.1 DS1.1 5 9\nend\n"))
        self.assertIsNone(unforeseen(Advanced({"shut WP1.1 DS1.1": LATE}), timed, ["shut WP1.1 DS1.1"], 1).foreseen)

    def test_what_can_not_be_asked(self) -> None:
        cases: List[List[str]] = [[], ["shutexit DS1.1"], ["shutexit DS1.1"]]
        for edits, moment in zip(cases, (1, 0, 21)):
            with self.subTest(edits=edits, moment=moment), self.assertRaises(WordsError):
                unforeseen(PLANNER, MODEL, edits, moment)
        with self.assertRaisesRegex(NoAnswer, "not everybody can be out before the last of these edits is made"):
            unforeseen(Advanced({"shutexit DS1.1": SHORT}), MODEL, ["shutexit DS1.1", "rate WP1.1 DS2.1 9"], 1)
        with self.assertRaises(Refused):
            unforeseen(Advanced({"enter WP1.1 1": "refused 42 13\n"}), MODEL, ["enter WP1.1 1"], 1)


if __name__ == "__main__":
    unittest.main()
