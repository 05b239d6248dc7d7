"""The answers about varied buildings against plain enumeration, with the planner of the tests in place of the program. See enumeration.py."""
import unittest

from companion.tests.enumeration import TRIALS, seen_broken, trial
from companion.tests.planner import Planner

# How many buildings each trial is given: a trial of losses plans hundreds of buildings for each of them.
BUILDINGS = {"improve": 25, "losses": 3, "admit": 10, "rescue": 12, "range": 4, "assign": 8, "shares": 6}
BROKEN = 40


class Enumerated(unittest.TestCase):
    def test_answers_are_those_of_enumeration(self) -> None:
        self.assertEqual(set(BUILDINGS), set(TRIALS))
        for name, count in BUILDINGS.items():
            with self.subTest(name):
                self.assertGreaterEqual(trial(Planner(), name, count), count)

    def test_each_trial_sees_a_broken_answer(self) -> None:
        for name in TRIALS:
            for number, said in enumerate(seen_broken(Planner(), name, BROKEN)):
                with self.subTest(f"{name}, break {number}"):
                    self.assertIsNotNone(said)


if __name__ == "__main__":
    unittest.main()
