"""The cheapest whole numbers that meet some demands, against plain enumeration, by this package's search and by what it hands to HiGHS."""
import importlib
import itertools
import math
import random
import types
import unittest
from typing import Any, Dict, List, Optional, Sequence, Tuple
from unittest import mock

from evacask import NoAnswer
from evacask.questions.cover import Cover, Row, Work, cover
from evacask.questions.highs import highs
from evacask.questions.relaxed import Tableau, relaxed

Problem = Tuple[List[Tuple[Row, int]], List[int], List[int]]
PLENTY = 10_000_000


def problem_of(dice: random.Random) -> Problem:
    """Up to four demands on up to four columns, each bought up to three times."""
    size = dice.randint(1, 4)
    rows = [({at: dice.randint(1, 5) for at in range(size) if dice.random() < 0.7}, dice.randint(-2, 12)) for _ in range(dice.randint(1, 4))]
    return rows, [dice.randint(0, 9) for _ in range(size)], [dice.randint(0, 3) for _ in range(size)]


def cheapest(problem: Problem) -> Optional[int]:
    """The least cost of all purchases that meet the demands."""
    rows, costs, most = problem
    choices = itertools.product(*(range(it + 1) for it in most))
    enough = (x for x in choices if is_enough(rows, x))
    return min((cost_of(costs, x) for x in enough), default=None)


def is_enough(rows: List[Tuple[Row, int]], x: Sequence[int]) -> bool:
    return all(sum(amount * x[at] for at, amount in row.items()) >= need for row, need in rows)


class Covers(unittest.TestCase):
    def test_random_problems(self) -> None:
        dice = random.Random(3)
        for number in range(300):
            problem = problem_of(dice)
            with self.subTest(number=number, problem=problem):
                self.assert_cheapest(cover(*problem, Work(PLENTY)), problem)

    def assert_cheapest(self, found: Optional[Cover], problem: Problem) -> None:
        wanted = cheapest(problem)
        if wanted is None:
            self.assertIsNone(found)
            return
        assert found is not None and found.x is not None
        self.assertEqual((found.cost, found.at_least, cost_of(problem[1], found.x)), (wanted, wanted, wanted))
        self.assertTrue(is_enough(problem[0], found.x) and all(0 <= it <= most for it, most in zip(found.x, problem[2])))

    def test_by_hand(self) -> None:
        # Ten by threes for 4 and fives for 7: two fives cost 14, four threes 16, and one five with two threes 15.
        rows: List[Tuple[Row, int]] = [({0: 3, 1: 5}, 10)]
        self.assertEqual(cover(rows, [4, 7], [9, 9], Work(PLENTY)), Cover(14, 14, (0, 2)))
        self.assertEqual(cover(rows, [4, 7], [9, 1], Work(PLENTY)), Cover(15, 15, (2, 1)))
        self.assertEqual(cover([], [4], [9], Work(PLENTY)), Cover(0, 0, (0,)))
        self.assertIsNone(cover(rows, [4, 7], [1, 1], Work(PLENTY)))

    def test_bounds_when_the_work_runs_out(self) -> None:
        dice, open_ones = random.Random(4), 0
        for number in range(120):
            rows = [({at: dice.randint(1, 9) for at in range(6)}, dice.randint(20, 40)) for _ in range(4)]
            costs = [dice.randint(3, 9) for _ in range(6)]
            problem, exact = (rows, costs, [3] * 6), cover(rows, costs, [3] * 6, Work(PLENTY))
            found = cover(*problem, Work(1))
            assert exact is not None and exact.cost is not None
            with self.subTest(number):
                self.assertEqual(exact.cost, exact.at_least)
                if found is not None and found.cost is not None:
                    self.assertTrue(found.at_least <= exact.cost <= found.cost)
                    open_ones += found.at_least < found.cost
        self.assertGreater(open_ones, 0)

    def test_the_relaxed_bound_by_hand(self) -> None:
        # Ten by threes for 4 and fives for 7: 4 / 3 for one is dearer than 7 / 5, so 10 x 4 / 3 = 13 1/3 is the least.
        found = relaxed([({0: 3, 1: 5}, 10)], [4, 7], [0, 0], [None, None])
        assert found is not None
        self.assertAlmostEqual(float(found.bound), 40 / 3, 6)
        self.assertLessEqual(found.bound * 3, 40)
        bounded = relaxed([({0: 3, 1: 5}, 10)], [4, 7], [0, 0], [2, None])  # (two threes for 8, and 4 / 5 of a five for 5.6)
        self.assertAlmostEqual(float(bounded.bound) if bounded else 0, 13.6, 6)
        self.assertIsNone(relaxed([({0: 3}, 10)], [4], [0], [3]))

    def test_no_line_bounds_the_rise(self) -> None:
        tableau = Tableau([[0.0, 1.0]], [-1.0, 0.0], [0])
        tableau.solve()
        self.assertEqual((tableau.leaving(0), tableau.work), (-1, 0))
        self.assertEqual((tableau.entering(10_000), Tableau([], [0.0, 0.0], []).entering(10_000)), (0, -1))


def cost_of(costs: Sequence[int], x: Sequence[int]) -> int:
    return sum(price * count for price, count in zip(costs, x))


def milp(costs: List[int], constraints: Any, integrality: Any, bounds: Any, options: Dict[str, Any]) -> Any:
    """What scipy's milp answers, by enumeration."""
    matrix, needs = constraints
    rows: List[Tuple[Row, int]] = [({it: n for (row, it), n in matrix.items() if row == at}, need) for at, need in enumerate(needs)]
    low, most = bounds
    choices = [x for x in itertools.product(*(range(low, it + 1) for it in most)) if is_enough(rows, x)]
    x = min(choices, key=lambda it: cost_of(costs, it), default=None)
    bound = cost_of(costs, x) if x else 0
    return types.SimpleNamespace(x=x and [it + 1e-7 for it in x], status=0 if x else 2, mip_dual_bound=bound - 1e-8)


FAKES = {
    "numpy": types.SimpleNamespace(zeros=lambda shape: {}, ones=lambda size: [1] * size, inf=math.inf),
    "scipy.optimize": types.SimpleNamespace(
        LinearConstraint=lambda matrix, low, high: (matrix, low), Bounds=lambda low, most: (low, most), milp=milp
    ),
}


class Highs(unittest.TestCase):
    def test_random_problems(self) -> None:
        dice = random.Random(5)
        with mock.patch.object(importlib, "import_module", FAKES.__getitem__):
            for number in range(100):
                rows, costs, most = problem_of(dice)
                with self.subTest(number):
                    wanted, found = cheapest((rows, costs, most)), highs(rows, costs, most, Work(PLENTY))
                    self.assertEqual((found and found.cost, found and found.at_least), (wanted, wanted))

    def test_nothing_was_found_in_time(self) -> None:
        late = types.SimpleNamespace(**{**vars(FAKES["scipy.optimize"]), "milp": lambda *given, **more: types.SimpleNamespace(x=None, status=1)})
        with mock.patch.object(importlib, "import_module", {**FAKES, "scipy.optimize": late}.__getitem__):
            self.assertEqual(highs([({0: 1}, 1)], [1], [1], Work(PLENTY)), Cover(0, None, None))

    def test_it_is_not_installed(self) -> None:
        with mock.patch.object(importlib, "import_module", side_effect=ImportError), self.assertRaisesRegex(NoAnswer, "HiGHS isn't installed"):
            highs([({0: 1}, 1)], [1], [1], Work(PLENTY))


if __name__ == "__main__":
    unittest.main()
