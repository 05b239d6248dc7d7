"""The planner of the tests against the program, on random buildings: so what is tested by it is tested by the right numbers."""
import random
import unittest

from companion.tests.buildings import random_building
from companion.tests.package import program
from companion.tests.planner import Planner
from evacask.client.asking import accepted, check, plan_or_short, session, study
from evacask.client.reports import Verdict
from evacask.client.talk import Program
from evacask.errors import Shortfall

BUILDINGS = 60


class Planners(unittest.TestCase):
    def test_it_agrees_with_the_program(self) -> None:
        real, own, solved = Program(program()), Planner(), 0
        for number in range(BUILDINGS):
            model = accepted(real, random_building(random.Random(f"planner {number}")))
            with self.subTest(building=number):
                mine, wanted = plan_or_short(own, model), plan_or_short(real, model)
                if isinstance(wanted, Shortfall):
                    assert isinstance(mine, Shortfall)
                    self.assertEqual((mine.most, mine.people), (wanted.most, wanted.people))
                    continue
                assert not isinstance(mine, Shortfall)
                self.assertEqual(mine.arrivals, wanted.arrivals)
                self.assertEqual(check(real, model, mine.raw), Verdict(None))
                solved += 1
                with session(own, model) as here, session(real, model) as there:
                    for period in range(wanted.cleared):
                        self.assertEqual(here.cut(period).people, there.cut(period).people)
                    self.assertEqual(here.report("summary").lines, there.report("summary").lines)
                with study(own, model) as here_study, study(real, model) as there_study:
                    self.assertEqual([(it.cleared, it.most) for it in here_study.exits()], [(it.cleared, it.most) for it in there_study.exits()])
                    tail, head = next(iter(model.arcs))
                    self.assertEqual(here_study.least(tail, head, wanted.cleared).rate, there_study.least(tail, head, wanted.cleared).rate)
        self.assertGreater(solved, BUILDINGS // 3)


if __name__ == "__main__":
    unittest.main()
