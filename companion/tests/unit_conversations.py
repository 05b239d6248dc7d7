"""Lines of a session, a study and a replan as somebody types them, and refusals explained."""
import unittest
from typing import List, Tuple, Union

from companion.tests.planner import Planner
from companion.tests.table import BLOCK, Table
from companion.tests.table import ROOM as HALL
from evacask import Plan, Refused, Shortfall, WordsError
from evacask.client.blocks import Cut
from evacask.client.reports import Exit, Gone, Least
from evacask.model.building import model_of
from evacask.questions.conversation import Lines, conversation
from evacask.questions.explain import explain

# Eight people, an exit for one a period at 1 period, and one for five a period at 3: all are out at moment 3.
ROOM = "evacplan 1\nperiod 5\nhorizon 20\nfloor 1 G\nnode WP1.1 10 8\nnode DS1.1\nnode DS2.1\narc WP1.1 DS1.1 1 1\narc WP1.1 DS2.1 3 5\nend\n"
MODEL = model_of(ROOM)


class Conversations(unittest.TestCase):
    def test_a_session(self) -> None:
        with conversation(Planner(), MODEL) as talk:
            self.assertEqual((talk.mode, talk.opening.cleared), ("session", 3))
            wide, cut = talk.say("rate WP1.1 DS1.1 8").said, talk.say("cut 0").said
            assert isinstance(wide, Plan) and isinstance(cut, Cut)
            self.assertEqual((wide.cleared, cut.period, cut.people), (1, 0, 0))
            self.assertEqual([said.code for said in (talk.say(it).said for it in ("undo", "undo", "shutt")) if isinstance(said, Refused)], [39, 31])
            self.assertEqual(talk.say("work").said, Lines(("work 0 8",)))
            clearing = talk.say("clearing").said
            assert isinstance(clearing, Lines)
            self.assertEqual(clearing.lines, ("clearing 2", "node WP1.1 2", "floor 1 2", "end"))
            self.assertIsInstance(talk.say("shutexit DS1.1").said, Plan)
            short = talk.say("shutexit DS2.1").said
            assert isinstance(short, Shortfall)
            self.assertEqual((short.most, short.people), (0, 8))

    def test_a_study(self) -> None:
        with conversation(Planner(), MODEL, "study") as talk:
            self.assertEqual(talk.opening.cleared, 3)
            self.assertEqual(talk.say("exits").said, (Exit("DS1.1", 4, None, ()), Exit("DS2.1", 8, None, ())))
            least, barred = talk.say("least WP1.1 DS1.1 3").said, talk.say("least WP1.1 DS1.1 21").said
            assert isinstance(least, Least) and isinstance(barred, Refused)
            # By moment 3 five go the long way, so three have to go the short one: one a period.
            self.assertEqual((least.rate, barred.code), (1, 33))

    def test_a_replan_whose_advance_has_two_parts(self) -> None:
        left = "answer 1\npeople 1\ncleared 2\nout 0 0\nout 1 0\nout 2 1\nlabel WP1.1 0 2\nmove 1 WP1.1 DS1.1 1\nend\n"
        with conversation(Parts({"advance 1": "advance 1\ngone 0 0\ngone 1 2\nend\n", "rest": left}), model_of(HALL), "replan") as talk:
            reply = talk.say("advance 1")
        assert isinstance(reply.said, Gone)
        self.assertEqual((reply.said.moment, reply.said.out, reply.said.plan.people, reply.said.plan.cleared), (1, (0, 2), 1, 2))
        self.assertTrue(reply.text.startswith("advance 1\n") and reply.text.endswith(left))

    def test_what_is_not_sent(self) -> None:
        with self.assertRaisesRegex(WordsError, "there is no talk chat: there are session, study, replan"):
            with conversation(Planner(), MODEL, "chat"):
                pass
        shares = model_of(ROOM.replace("10 8", "100 80").replace("end\n", "#shares 10\nend\n"))
        with conversation(Planner(), shares) as talk, self.assertRaisesRegex(WordsError, "type a multiple of 1/10 of a person"):
            talk.say("rate WP1.1 DS1.1 0.55")
        for mode in ("session", "study", "replan"):
            with self.subTest(mode), self.assertRaises(Shortfall), conversation(Planner(), model_of(ROOM.replace("horizon 20", "horizon 2")), mode):
                pass

    def test_a_line_that_ends_with_a_return(self) -> None:
        # The program takes one return at the end of a line away, so the line that it reads is the one that was typed.
        table = Kept({"undo": BLOCK})
        with conversation(table, model_of(HALL)) as talk:
            self.assertIsInstance(talk.say("undo\r").said, Plan)
        self.assertEqual(table.last, b"undo\r\r\n")


class Parts(Table):
    """A table whose reply to an advance has a second part."""

    def reply(self) -> bytes:
        said = super().reply()
        if said.startswith(b"advance"):
            self.sent.insert(0, "rest")
        return said


class Kept(Table):
    """A table that keeps the bytes that were sent last."""

    last = b""

    def send(self, lines: bytes) -> None:
        self.last = lines
        self.sent.append(lines.split()[0].decode())


# The text, the mode, what the program says of it, and of the refusal: its line's text, its odd letters, its forms and words of its meaning.
Case = Tuple[str, str, str, Union[str, None], Tuple[str, ...], Tuple[str, ...], str]
SESSION = ROOM + "rate WP1.1\n"
CASES: Tuple[Case, ...] = (
    (ROOM, "solve", "refused 13 8\n", "arc WP1.1 DS1.1 1 1", (), (), "node"),
    (ROOM, "solve", "refused 5 5\n", "node WP1.1 10 8", (), ("`node NAME CAPACITY START`", "`node NAME`"), "number of fields"),
    (
        ROOM.replace("arc WP1.1 DS1.1", "arc WP1.1\u00a0DS1.1"),
        "solve",
        "refused 5 8\n",
        None,
        ("U+00A0 NO-BREAK SPACE",),
        ("`arc FROM TO",),
        "fields",
    ),
    (ROOM.replace("floor 1 G", "floor 1 \udcff\x1b"), "solve", "refused 8 4\n", None, ("the byte FF", "U+001B a control character"), ("`floor",), ""),
    (SESSION, "session", "refused 5 11\n", "rate WP1.1", (), ("`rate A B n`",), "fields"),
    (ROOM, "solve", "refused 11 99\n", "", (), (), ""),
    (ROOM, "solve", "refused 40 0\n", "", (), (), "words"),
)


class Explained(unittest.TestCase):
    def test_refusals(self) -> None:
        for text, mode, reply, line, odd, forms, meaning in CASES:
            with self.subTest(reply):
                (it,) = explain(Table({mode: reply}), text, mode).refusals
                if line is not None:
                    self.assertEqual(it.text or "", line)
                self.assertEqual((it.odd, len(it.forms)), (odd, len(forms)))
                self.assertTrue(all(mine.startswith(wanted) for mine, wanted in zip(it.forms, forms)), it.forms)
                self.assertIn(meaning, it.meaning.sentence if it.meaning else "")

    def test_a_building_that_can_not_be_cleared(self) -> None:
        text = ROOM.replace("horizon 20", "horizon 2")
        answer = explain(Planner(), text)
        (it,) = answer.refusals
        assert it.short is not None
        # By hand: the walk of 3 periods, and 8 people one by one in the way of rate 1: moment 3 + 8 is enough. Horizons go to 1,200.
        self.assertEqual((it.code, it.line, it.text, it.short.greatest), (22, 10, "end", 1200))
        self.assertEqual(answer.records()[0]["code"], 22)
        self.assertEqual(explain(Planner(), ROOM).refusals, ())

    def test_a_check(self) -> None:
        answer = explain(Table({"check": "no 53 1 WP1.1 DS1.1\n"}), ROOM, "check")
        said: List[Tuple[int, str]] = [(it.code, it.verdict) for it in answer.refusals]
        self.assertEqual((said, bool(answer.refusals[0].meaning)), ([(53, "no 53 1 WP1.1 DS1.1")], True))


if __name__ == "__main__":
    unittest.main()
