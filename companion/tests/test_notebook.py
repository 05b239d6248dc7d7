"""The lines that a user writes in a notebook, with the numbers that they give."""
import threading
import unittest
from typing import List

import evacask
from companion.tests.package import OFFICE


class Notebook(unittest.TestCase):
    def test_what_a_user_imports(self) -> None:
        office = evacask.read(OFFICE)
        plan = office.solve()
        # By hand: the last of 240 through two ways of 4 and 8 a period; docs/users/guide.md has the block.
        self.assertEqual((plan.seconds, plan.interval, plan.arrivals[0], plan.arrivals[-1], len(plan.arrivals)), (140, (140, 145), 0, 240, 29))
        self.assertEqual(office.edited("shutexit DS2.1", "rate SW1.2 LO1.1 8").solve().seconds, 155)
        with office.session() as session:
            self.assertEqual(session.edit("rate SW1.2 LO1.1 8").seconds, 115)
            self.assertEqual(session.cut().people, 236)
            self.assertEqual(session.undo().seconds, 140)
        self.assertEqual(len(office.sensitivity(workers=4).ways), 16)
        # Within 120 s, the end of its period included, is by moment 23.
        self.assertEqual((office.width("SW2.2", "DS2.1", seconds=120).rate, office.width("SW2.2", "DS2.1", seconds=125).rate), (7, 6))
        outcomes = office.sweep([["rate SW2.2 DS2.1 3"], ["leave WP1.1 10"], ["shut A B"]])
        self.assertEqual([getattr(it, "cleared", None) for it in outcomes], [31, 28, None])
        self.assertEqual((outcomes[2].refused, outcomes[2].refused_edit), (8, "shut A B"))
        self.assertTrue(office.check(plan.raw).is_right)
        self.assertEqual(len(office.source.sha256), 64)
        self.assertEqual(sum(int(str(it["people"])) for it in plan.records() if str(it["to"]).startswith("DS")), 240)
        self.assertTrue(office.why()._repr_html_().startswith("<table>"))

    def test_errors(self) -> None:
        with self.assertRaises(evacask.InputError):
            evacask.read("/nowhere/none.evac")
        with self.assertRaises(evacask.Refused) as refused:
            evacask.reads(OFFICE.read_text().replace("arc WP1.1 LO1.1 1 10", "arc WP1.1 LO9.1 1 10"))
        self.assertEqual((refused.exception.code, refused.exception.text), (13, "arc WP1.1 LO9.1 1 10"))
        with self.assertRaises(evacask.Shortfall):
            evacask.reads(OFFICE.read_text().replace("horizon 120", "horizon 20")).solve()

    def test_threads_share_a_building(self) -> None:
        office, found = evacask.read(OFFICE), []  # type: evacask.Building, List[int]
        threads = [threading.Thread(target=lambda: found.append(office.solve().cleared)) for _ in range(6)]
        for it in threads:
            it.start()
        for it in threads:
            it.join()
        self.assertEqual(found, [28] * 6)


if __name__ == "__main__":
    unittest.main()
