"""Each doubt of a review by a building that has it: what the language allows, and is often a mistake."""
import unittest
from typing import Tuple

from companion.tests.planner import Planner
from evacask.model.building import model_of
from evacask.questions.review import review, review_of

ROOM = "evacplan 2\nperiod 5\nhorizon 400\nfloor 1 G\nfloor 3 Up\nnode WP1.1 90 3\nnode DS1.1\narc WP1.1 DS1.1 1 2\nend\n"
# What is put in place of what, the moment when all are out and the longest walk, and the line and the words of the only doubt.
DOUBTS: Tuple[Tuple[str, str, int, int, int, str], ...] = (
    ("node DS1.1\n", "node DS1.1\nnode DS2.1\n", 2, 1, 8, "no arc leads into the exit DS2.1: is one missing?"),
    (
        "node DS1.1\n",
        "node DS1.1\nnode WP2.1 5 2\n",
        2,
        1,
        8,
        "no way leads out from WP2.1, and people are in it: is an arc missing, or turned round?",
    ),
    ("node DS1.1\n", "node DS1.1\nnode HA2.1 5 0\n", 2, 1, 8, "no way leads out from HA2.1: is an arc missing, or turned round?"),
    (
        "node DS1.1\narc",
        "node DS1.1\nnode HA2.1 5 0\narc HA2.1 DS1.1 1 1\narc",
        2,
        1,
        8,
        "nobody is in HA2.1 or ever comes there: is an arc into it missing?",
    ),
    ("node DS1.1\narc", "node DS1.1\nnode SW1.1 5 1\narc SW1.1 DS1.1 1 1\narc", 2, 1, 8, "1 person starts on the stair SW1.1: do they, at moment 0?"),
    ("node DS1.1\narc", "node DS1.1\nnode SW1.1 5 2\narc SW1.1 DS1.1 1 1\narc", 2, 1, 8, "2 people start on the stair SW1.1: do they, at moment 0?"),
    (
        "DS1.1\narc",
        "DS1.1\nnode WP2.1 5 0\narc WP1.1 WP2.1 1 1\narc WP2.1 DS1.1 1 1\narc",
        2,
        1,
        8,
        "nobody is in the work place WP2.1: is its start forgotten?",
    ),
    (
        "node DS1.1\narc",
        "node DS1.1\nnode LO2.1 5 1\narc LO2.1 WP1.1 1 0\narc LO2.1 DS1.1 1 1\narc",
        2,
        1,
        9,
        "nobody may enter this arc: its rate is 0",
    ),
    ("1 2\nend", "1 55\nend", 1, 1, 8, "11 people a second may enter this arc: is its rate one for a period?"),
    ("node DS1.1\narc", "node DS1.1\nnode LO2.1 5 1\narc LO2.1 DS1.1 61 1\narc", 61, 61, 9, "this arc takes 305 s: is its travel in periods?"),
    (
        "DS1.1\narc",
        "DS1.1\nnode HA1.1 5 1\nnode HA2.1 5 0\narc HA1.1 HA2.1 1 1\narc HA2.1 DS1.1 1 1\narc",
        2,
        1,
        10,
        "no arc leads back from HA2.1 to HA1.1, so nobody can go that way",
    ),
    ("node DS1.1\narc", "node DS1.1\nnode LO1.3 5 1\narc LO1.3 DS1.1 1 1\narc", 2, 1, 9, "this arc joins floors 3 and 1: is a name wrong?"),
    (
        "node DS1.1\narc",
        "node DS1.1\nnode WP2.1 5 1\nnode WP3.1 5 1\narc WP2.1 DS1.1 1 2\narc WP3.1 DS1.1 2 1\narc",
        2,
        1,
        11,
        "travel 2 and rate 1: like arcs have them the other way round, as 1 2",
    ),
    ("end\n", "window WP1.1 DS1.1 400 401\nend\n", 2, 1, 9, "the window begins at the horizon or after it: are these moments, and not seconds?"),
    ("end\n", "window WP1.1 DS1.1 2 3\nend\n", 2, 1, 9, "the window begins when everybody is out, at moment 2: are these moments, and not seconds?"),
    ("end\n", "entrant WP1.1 361 1\nend\n", 362, 1, 9, "these people come in 1805 s after the start: is this a moment, and not seconds?"),
    ("1 2\nend", "4 2\nend", 5, 4, 8, "no arc takes less than 20 s: are the travels in periods, and not in seconds?"),
    (
        "90 3",
        "90 30",
        1,
        1,
        9,
        "everybody is out at moment 1 (5 to 10 s), and the longest walk alone takes 1 periods (5 s): are the rates too great?",
    ),
)


class Doubts(unittest.TestCase):
    def test_each_doubt(self) -> None:
        for old, new, cleared, walk, line, what in DOUBTS:
            with self.subTest(what):
                self.assertEqual(ROOM.count(old), 1)
                found = review_of(model_of(ROOM.replace(old, new)), cleared, walk)
                self.assertEqual(found.records(), [{"line": line, "doubt": what}])

    def test_just_below_each_doubt(self) -> None:
        for old, new, cleared, walk in (
            ("end\n", "end\n", 2, 1),
            ("1 2\nend", "1 50\nend", 1, 1),  # 10 people a second
            ("1 2\nend", "3 2\nend", 4, 3),  # 15 s
            ("end\n", "entrant WP1.1 360 1\nend\n", 361, 1),  # 1,800 s
            ("90 3", "90 29", 1, 1),  # no crowd
            ("90 3", "90 30", 116, 100),  # more than 1.15 times the walk
            ("end\n", "window WP1.1 DS1.1 1 2\nend\n", 2, 1),
        ):
            with self.subTest(new):
                self.assertEqual(review_of(model_of(ROOM.replace(old, new)), cleared, walk).doubts, ())

    def test_a_building_that_can_not_be_cleared_is_reviewed_too(self) -> None:
        self.assertEqual(review(Planner(), model_of(ROOM)).doubts, ())
        caught = ROOM.replace("node DS1.1\n", "node DS1.1\nnode WP2.1 5 2\n")
        self.assertEqual([it.line for it in review(Planner(), model_of(caught)).doubts], [8])


if __name__ == "__main__":
    unittest.main()
