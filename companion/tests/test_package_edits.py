"""Edits of a text against the same edits in a session of the program, on random buildings."""
import random
import unittest
from typing import List, Optional

from companion.tests.asking import program
from companion.tests.buildings import random_building, random_edit
from evacask.client.asking import accepted, session, solve
from evacask.client.dialogue import Session
from evacask.client.talk import Program
from evacask.errors import Refused, Shortfall
from evacask.model.building import Model
from evacask.model.edits import edited

BUILDINGS, EDITS = 200, 14


class Edits(unittest.TestCase):
    def test_a_text_and_a_session_agree(self) -> None:
        client, codes = Program(program()), set()
        for number in range(BUILDINGS):
            chance = random.Random(f"edits {number}")
            model = accepted(client, random_building(chance))
            try:
                with session(client, model) as talk:
                    made: List[str] = []
                    for _ in range(EDITS):
                        codes.add(self.try_edit(model, talk, made, random_edit(chance, model), number))
            except Shortfall:
                continue
        self.assertLessEqual({None, 5, 6, 7, 8, 12, 13, 14, 22, 24, 25, 27, 31, 32, 34, 35, 36, 37, 38}, codes)

    def try_edit(self, model: Model, talk: Session, made: List[str], edit: str, number: int) -> Optional[int]:
        """Makes an edit in both, and compares the codes, and then when all are out. The edit is kept where the session keeps it."""
        here: Optional[Model] = None
        code: Optional[int] = None
        try:
            here = edited(model, [*made, edit])
        except Refused as refused:
            code = refused.code
        with self.subTest(building=number, made=made, edit=edit):
            try:
                plan = talk.edit(edit)
            except Shortfall as short:
                assert here, code
                with self.assertRaises(Shortfall) as own:
                    solve(talk_client, here)
                self.assertEqual((own.exception.most, own.exception.people), (short.most, short.people))
                return 22
            except Refused as refused:
                self.assertEqual(code, refused.code)
                return code
            assert here, code
            self.assertEqual((code, solve(talk_client, here).arrivals), (None, plan.arrivals))
            made.append(edit)
        return code


talk_client = Program(program())

if __name__ == "__main__":
    unittest.main()
