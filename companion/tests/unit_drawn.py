"""Ways in metres by hand: each part of a way, what is wrong about one, other periods, and the curve of a block and fractions of people besides."""
import unittest
from typing import Tuple

from evacask import Broken
from evacask.client.curve import curve_of
from evacask.model.drawn import PlanFault, Rounding, drawn_way
from evacask.model.drawn_building import Scale, building_text, drawn_building, has_ways
from evacask.model.shares import People, in_people, whole_or_people

PLAN = "evacplan 2\nperiod 5\nhorizon 60\nfloor 1 G\nnode WP1.1 50 20\nnode DS1.1\n{}\nend\n"
# A way, and what is wrong about it.
FAULTS = (
    ("way A B", "nothing says how many"),
    ("way A", "a way needs the node"),
    ("way A B level 5", "a number is missing"),
    ("way A B level 5 0.4", "no wider than its boundary layers"),
    ("way A B level x 2", "x is no number"),
    ("way A B level -5 2", "-5 is no number"),
    ("way A B level 5 2,40", "2,40 is no number up to 9999, with a point"),
    ("way A B level 0.0 2", "out of its range"),
    ("way A B leaves 1.5", "no whole number"),
    ("way A B stair 5 1.2 180/280", "a stair needs its riser/tread"),
    ("way A B lift 3", "lift is no part of a way"),
    ("way A B crowd 5 3.8 door 0.9", "nobody moves"),
    ("way A B free 9000 door 0.9", "it takes 757 periods of 10 s, and the most is 600"),
    ("way A B doors 9999 2.0", "its rate would be"),
    ("arc A B 1 2", "an arc has no metres"),
    ("window A B 3 7", "no whole number of periods"),
    ("window A B x 7", "x is no number"),
)
# The parts of a way, and its seconds and people a second by hand.
WAYS: Tuple[Tuple[str, float, float], ...] = (
    ("free 11.9 door 0.90", 10.0, 0.78),  # 0.85 x 1.40 m/s = 1.19 m/s; 1.3 x 0.60 m
    ("free 11.9 doors 2 0.90", 10.0, 1.56),
    ("free 11.9 leaves 3", 10.0, 2.5),  # three leaves of 50 a minute
    ("free 11.9 leaves 3 people 0.5", 10.0, 0.5),
    ("escalator 10 0.5 1.2", 20.0, 1.2),
    ("stair 8.5 1.30 191/254", 17.0, 0.94),  # full at 0.94 x 1 m, where people go at half of 1.00 m/s
    ("level 7 1.40", 10.0, 1.3),  # full, at half of 1.40 m/s
    ("level 11.9 1.40 door 0.50", 10.0, 0.26),  # (0.26 a second and metre: as if alone)
    ("level 11.9 1.40 door 0.90 comes 0.1", 10.0, 0.78),
    ("crowd 13.104 2 door 0.90", 20.0, 0.78),  # 1.40 x (1 - 0.266 x 2) = 0.6552 m/s
)


class Ways(unittest.TestCase):
    def test_each_part_by_hand(self) -> None:
        for words, seconds, flow in WAYS:
            with self.subTest(words):
                way = drawn_way(["way", "A", "B", *words.split()], 1)
                self.assertAlmostEqual(way.seconds, seconds, 2)
                self.assertAlmostEqual(way.flow, flow, 6)

    def test_faults_name_their_line(self) -> None:
        for line, what in FAULTS:
            with self.subTest(line), self.assertRaises(PlanFault) as fault:
                building_text(drawn_building("room.plan", PLAN.format(line)), Scale(10))
            self.assertEqual(fault.exception.line, 7)
            self.assertIn(what, str(fault.exception))
        with self.assertRaisesRegex(PlanFault, "the plan has no line `period SECONDS`"):
            drawn_building("room.plan", "evacplan 1\n")

    def test_moments_and_people_go_over_to_another_period_and_to_shares(self) -> None:
        drawn = drawn_building("room.plan", PLAN.format("way WP1.1 DS1.1 free 5 door 0.9\nwindow WP1.1 DS1.1 12 36\nentrant WP1.1 4 7"))
        self.assertEqual((drawn.people, drawn.has_windows, has_ways(PLAN)), (27, True, False))
        made = building_text(drawn, Scale(10, 10, Rounding.LATER)).splitlines()
        # 5 m take 4.2 s, and 0.78 a second are 78 shares in 10 s.
        self.assertEqual(made[1:3], ["period 10", "horizon 30"])
        self.assertEqual(
            made[4:],
            ["node WP1.1 500 200", "node DS1.1", "arc WP1.1 DS1.1 1 78", "window WP1.1 DS1.1 6 18", "entrant WP1.1 2 70", "#shares 10", "end"],
        )


class Numbers(unittest.TestCase):
    def test_the_curve_of_a_block(self) -> None:
        block = "answer 0\npeople 3\ncleared 2\nout 0 0\nout 1 2\nout 2 3\nlabel WP1.1 0 2\nmove 0 WP1.1 DS1.1 2\nend\n"
        self.assertEqual(curve_of(block.encode()), [0, 2, 3])
        self.assertEqual(curve_of(b"answer 0\npeople 0\ncleared 0\nout 0 0\nend\n"), [0])
        for old, new in (("answer", "refused"), ("out 1", "out 2"), ("out 1 2\n", ""), ("1 2", "1 4"), ("2 3", "2 2"), ("1 2", "1 x")):
            with self.subTest(new), self.assertRaises(Broken):
                curve_of(block.replace(old, new, 1).encode())

    def test_fractions_of_people(self) -> None:
        half, quarter = in_people(5, 10), in_people(5, 20)
        assert isinstance(half, People) and isinstance(quarter, People)
        self.assertEqual(
            (half + half, 1 - half, half * 4, 4 * half, half - quarter, -half, 2 + half),
            (1, People(1, 2), 2, 2, quarter, People(-1, 2), People(5, 2)),
        )
        self.assertTrue(all(isinstance(it, int) for it in (half + half, half * 2, half - half, 2 * half)))
        self.assertTrue(all(isinstance(it, People) for it in (half + quarter, half * quarter, 1 + half, 1 - half, -half)))
        self.assertEqual((str(half), f"{in_people(123456, 100):,}", f"{half:.2f}", whole_or_people("x")), ("0.5", "1,234.6", "0.50", "x"))


if __name__ == "__main__":
    unittest.main()
