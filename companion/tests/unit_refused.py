"""Questions about varied buildings that have no answer, or are no questions: each ends in its own error."""
import unittest
from typing import Any, Callable, Dict, Tuple, Type

from companion.tests.unit_varied import MODEL, PLANNER, ROOM, SHORT, timed
from evacask import NoAnswer, UnknownName, WordsError
from evacask.model.building import model_of
from evacask.model.shares import People
from evacask.questions.admit import admit, admit_room
from evacask.questions.assign import assign
from evacask.questions.improve import Widening, improve
from evacask.questions.improve_budget import improve_within
from evacask.questions.losses import losses
from evacask.questions.observed import observed
from evacask.questions.ranges import Ranges, percents, ranges
from evacask.questions.sweep import sweep

Ask = Callable[[], Any]
SHARES = model_of(ROOM.replace("10 8", "100 80").replace("end\n", "#shares 10\nend\n"))
WRONG: Dict[str, Tuple[Type[Exception], Tuple[Ask, ...]]] = {
    "are words that no question has": (
        WordsError,
        (
            lambda: improve(PLANNER, MODEL, 21),
            lambda: improve(PLANNER, timed("entrant WP1.1 4 1\n"), 3),
            lambda: improve(PLANNER, MODEL, 2, [Widening(SHORT, 0)]),
            lambda: improve(PLANNER, MODEL, 2, [Widening(("DS1.1",))]),
            lambda: improve_within(PLANNER, MODEL, -1),
            lambda: losses(PLANNER, MODEL, 4),
            lambda: losses(PLANNER, MODEL, 1, top=0),
            lambda: losses(PLANNER, MODEL, 1, [("WP1.1",)]),
            lambda: losses(PLANNER, model_of(ROOM.replace("horizon 20", "horizon 1200"))),
            lambda: admit_room(PLANNER, MODEL, "DS1.1", 4),
            lambda: admit_room(PLANNER, MODEL, "WP1.1", 21),
            lambda: admit(PLANNER, timed("entrant WP1.1 4 1\n"), 3),
            lambda: percents(MODEL, rate=(101, 0)),
            lambda: ranges(PLANNER, MODEL, Ranges(rates={SHORT: (2, 3)})),
            lambda: ranges(PLANNER, MODEL, Ranges(travels={SHORT: (0, 1)})),
            lambda: ranges(PLANNER, MODEL, Ranges(people={"DS1.1": (0, 1)})),
            lambda: ranges(PLANNER, SHARES, Ranges(rates={SHORT: (0, People(1, 3))})),
            lambda: improve(PLANNER, SHARES, 2, [Widening(SHORT, People(1, 3))]),
            lambda: sweep(PLANNER, SHARES, [["rate WP1.1 DS1.1 0.33"]]),
            lambda: observed(PLANNER, MODEL, {}),
            lambda: observed(PLANNER, MODEL, {"DS1.1": []}),
            lambda: observed(PLANNER, MODEL, {"WP1.1": [(1, 1)]}),
            lambda: observed(PLANNER, MODEL, {"DS1.1": [(5, 1), (5, 2)]}),
            lambda: observed(PLANNER, MODEL, {"DS1.1": [(5, 2), (6, 1)]}),
            lambda: assign(PLANNER, MODEL, effort=0),
        ),
    ),
    "name what isn't there": (
        UnknownName,
        (
            lambda: improve(PLANNER, MODEL, 2, [Widening(("WP1.1", "WP9.1"))]),
            lambda: losses(PLANNER, MODEL, 1, [("DS9.1",)]),
            lambda: admit_room(PLANNER, MODEL, "WP9.1", 4),
            lambda: observed(PLANNER, MODEL, {"DS9.1": [(1, 1)]}),
        ),
    ),
    "have no answer": (
        NoAnswer,
        (
            lambda: admit(PLANNER, model_of(ROOM.replace("10 8", "10 0")), 4),
            lambda: admit(PLANNER, timed("entrant WP1.1 4 1\n"), 4),
        ),
    ),
}


class Wrong(unittest.TestCase):
    def test_questions_that(self) -> None:
        for what, (error, asks) in WRONG.items():
            for at, ask in enumerate(asks):
                with self.subTest(f"{what}, {at}"), self.assertRaises(error):
                    ask()


if __name__ == "__main__":
    unittest.main()
