"""The answers about varied buildings against plain enumeration: some buildings here, as many as you like by companion/tests/enumeration.py."""
import unittest

from companion.tests.enumeration import TRIALS, seen_broken, trial
from evacask import found_program

BUILDINGS, BROKEN = 15, 40


class Enumeration(unittest.TestCase):
    def test_answers_are_those_of_enumeration(self) -> None:
        for name in TRIALS:
            with self.subTest(name):
                trial(found_program(), name, BUILDINGS)

    def test_each_trial_sees_a_broken_answer(self) -> None:
        for name in TRIALS:
            for number, said in enumerate(seen_broken(found_program(), name, BROKEN)):
                with self.subTest(f"{name}, break {number}"):
                    self.assertIsNotNone(said)


if __name__ == "__main__":
    unittest.main()
