"""The questions asked of a client that answers from a table: no program is needed."""
import unittest

from companion.tests.table import ROOM, Table
from evacask import Broken, Refused, Shortfall, reads
from evacask.faces.sheet import as_csv, as_text
from evacask.faces.why import why_sheet
from evacask.model.building import model_of
from evacask.questions.summary import Short, summary


class Questions(unittest.TestCase):
    def test_why(self) -> None:
        building = reads(ROOM, Table({"cut 1": "cut 1 2\narc 0 WP1.1 DS1.1 2\nend\n"}))
        answer = building.why()
        self.assertEqual((answer.most, answer.people, answer.places[0].moments), (2, 3, (0,)))
        drawn = why_sheet(answer, building.model)
        self.assertEqual(as_text(drawn).splitlines()[2], "     2  WP1.1 DS1.1  0        0 to 5   =Hall to DS1.1")
        self.assertEqual(as_csv(drawn).splitlines()[1], "2,WP1.1 DS1.1,0,0 to 5,'=Hall to DS1.1")

    def test_a_cut_that_does_not_add_up_is_no_answer(self) -> None:
        building = reads(ROOM, Table({"cut 1": "cut 1 3\narc 0 WP1.1 DS1.1 2\nend\n"}))
        with self.assertRaises(Broken):
            building.why()

    def test_the_greatest_horizon_by_the_limit_on_cells(self) -> None:
        # 1,000 nodes and arcs: 1,000,000 / 1,000 moments, of which 0 is the first.
        lines = [f"node WP{it}.1 1 1\narc WP{it}.1 DS1.1 1 1" for it in range(1, 500)]
        text = "evacplan 1\nperiod 5\nhorizon 0\nfloor 1 G\nnode DS1.1\n" + "\n".join(lines) + "\narc WP1.1 WP2.1 1 1\nend\n"
        answer = summary(Table({"session": "refused 22 1\npeople 499\nmost 0\nin WP1.1 0 0\nend\n"}), model_of(text))
        assert isinstance(answer, Short)
        self.assertEqual((answer.greatest, answer.most, answer.people), (999, 0, 499))

    def test_endings(self) -> None:
        with self.assertRaises(Refused) as refused:
            reads(ROOM, Table({"upgrade": "refused 13 8\n"}))
        self.assertEqual((refused.exception.line, refused.exception.text), (8, "arc WP1.1 DS1.1 1 2"))
        self.assertIn("node", refused.exception.remedy)
        with self.assertRaises(Shortfall) as short:
            reads(ROOM, Table({"solve": "refused 22 8\npeople 3\nmost 2\nin WP1.1 0 1\nend\n"})).solve()
        self.assertEqual((short.exception.most, short.exception.people, short.exception.cut), (2, 3, (("WP1.1", 0, 1),)))
        for wrong in ("answer x\npeople 3\ncleared 2\nend\n", "\n\nend\n", "answer 0\npeople 3\nend\n"):
            with self.assertRaises(Broken):
                reads(ROOM, Table({"solve": wrong})).solve()


if __name__ == "__main__":
    unittest.main()
