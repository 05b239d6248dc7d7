"""Replies read strictly: each form by an example, and what evacplan never prints."""
import unittest
from typing import Any, Callable, Tuple, Type

from companion.tests.table import BLOCK, ROOM, Table
from evacask import Broken, Refused, Shortfall, WordsError, reads
from evacask.client.blocks import Cut, Item, Label, Move, cut_of, outcome_of, plan_of
from evacask.client.reports import Exit, Least, exits_of, gone_of, least_of, report_of, verdict_of, work_of
from evacask.model.building import model_of

MODEL = model_of(ROOM)
# Lines that get no reply.
SILENT = ("", " \t", "\r", " \r", "# comment", "#\r", "undo\nundo")
SHORT = b"refused 22 8\npeople 3\nmost 2\nin WP1.1 0 1\nend\n"
LEAST = b"least WP1.1 DS1.1 2 2\nmove 0 WP1.1 DS1.1 2\nmove 1 WP1.1 DS1.1 1\ncut 2 2\nin WP1.1 0 2\nend\n"
# A reader, bytes that evacplan never prints, and what is wrong with them.
WRONG: Tuple[Tuple[Callable[[bytes], Any], Tuple[bytes, ...]], ...] = (
    (
        lambda it: plan_of(it, MODEL),
        (
            b"",
            b"end\n",
            b"answer x\npeople 3\ncleared 2\nend\n",
            b"answer 0\npeople 3\nend\n",
            BLOCK.encode()[:-4],
            b"answer 0\npeople 3\ncleared 21\nend\n",
            SHORT[:-5],
        ),
    ),
    (
        lambda it: plan_of(it, MODEL),
        (
            SHORT.replace(b"in WP1.1 0 1\n", b""),
            SHORT.replace(b"WP1.1", b"WP2.1"),
            SHORT.replace(b"in ", b"on "),
            SHORT.replace(b" 1\nend", b" x\nend"),
            SHORT.replace(b" 0 1", b" 0"),
        ),
    ),
    (
        lambda it: plan_of(it, MODEL).arrivals,
        (BLOCK.replace("out 1 2\n", "").encode(), BLOCK.replace("out 2 3", "out 2 2").encode(), BLOCK.replace("out 1 2", "out 1").encode()),
    ),
    (
        lambda it: plan_of(it, MODEL).moves,
        (
            BLOCK.replace("DS1.1 1\n", "DS2.1 1\n").encode(),
            BLOCK.replace("DS1.1 1\n", "DS1.1 -1\n").encode(),
            BLOCK.replace("move 0", "move").encode(),
        ),
    ),
    (
        lambda it: plan_of(it, MODEL).labels,
        (BLOCK.replace("label WP1.1", "label WP2.1").encode(), BLOCK.replace("label WP1.1 0 2", "label WP1.1 0").encode()),
    ),
    (
        lambda it: cut_of(it, MODEL),
        (
            b"cut 1 2\nend\n",
            b"cut 1 2\narc 0 WP1.1 DS9.1 2\nend\n",
            b"cut 1 2\nhold WP9.1 0 2\nend\n",
            b"cut 1 2\nin WP1.1 2\nend\n",
            b"cat 1 0\nend\n",
            b"cut 1\nend\n",
            b"cut 1 0\n",
        ),
    ),
    (
        exits_of,
        (
            b"exits 1\nend\n",
            b"exits 0\nexit DS1.1 2\nend\n",
            b"exits 1\nin WP1.1 0 1\nend\n",
            b"exits 1\nexit DS1.1 2\nin WP1.1 0 1\nend\n",
            b"exits 1\nexit DS1.1 short\nend\n",
            b"exit 1\nend\n",
        ),
    ),
    (
        least_of,
        (
            LEAST.replace(b"cut 2 2\nin WP1.1 0 2\n", b""),
            LEAST.replace(b"DS1.1 2 2\n", b"DS1.1 2 0\n"),
            LEAST.replace(b"least", b"last"),
            LEAST.replace(b"move 0", b"move"),
        ),
    ),
    (gone_of, (b"advance 1\nend\n", b"advance 1\ngone 1 0\nend\n", b"advanced 1\ngone 0 0\nend\n", b"advance x\ngone 0 0\nend\n")),
    (verdict_of, (b"", b"yes", b"no 51\n", b"no x\n", b"maybe 52\n", b"no 58\n", "no ٥٢\n".encode())),
    (work_of, (b"work 1\n", b"walk 1 2\n", b"work 1 x\n")),
    (lambda it: report_of(it, "summary"), (b"summary\nend\n", b"clearing 0\nend\n", b"summary x\nend\n")),
    (lambda it: report_of(it, "summary").number("seconds"), (b"summary 0\nend\n", b"summary 0\nseconds x\nend\n")),
)


class Readers(unittest.TestCase):
    def test_what_evacplan_never_prints(self) -> None:
        for read, texts in WRONG:
            for text in texts:
                with self.subTest(text), self.assertRaises(Broken):
                    read(text)

    def test_a_block(self) -> None:
        plan = plan_of(BLOCK.encode(), MODEL)
        self.assertEqual((plan.number, plan.people, plan.cleared, plan.seconds, plan.interval, plan.period), (0, 3, 2, 10, (10, 15), 5))
        self.assertEqual((plan.arrivals, plan.labels), ((0, 2, 3), (Label("WP1.1", 0, 2),)))
        self.assertEqual(plan.moves, (Move(0, "WP1.1", "DS1.1", 2), Move(1, "WP1.1", "DS1.1", 1)))
        self.assertNotIn("move", repr(plan))

    def test_a_shortfall(self) -> None:
        with self.assertRaises(Shortfall) as short:
            plan_of(SHORT, MODEL)
        self.assertEqual((short.exception.most, short.exception.people, short.exception.cut), (2, 3, (("WP1.1", 0, 1),)))
        self.assertEqual((outcome_of(SHORT, MODEL).cleared, outcome_of(SHORT, MODEL).most), (None, 2))
        self.assertEqual(outcome_of(BLOCK.encode(), MODEL).cleared, 2)

    def test_cuts(self) -> None:
        items = b"cut 3 9\nentry WP1.1 3\nhold WP1.1 0 4\narc 1 WP1.1 DS1.1 2\narc 2 WP1.1 DS1.1 0\nend\n"
        entry, hold, first, second = (
            Item("entry", ("WP1.1",), None, 3),
            Item("hold", ("WP1.1",), 0, 4),
            Item("arc", ("WP1.1", "DS1.1"), 1, 2),
            Item("arc", ("WP1.1", "DS1.1"), 2, 0),
        )
        self.assertEqual(cut_of(items, MODEL), Cut(3, 9, (entry, hold, first, second)))
        self.assertEqual(cut_of(b"cut 0 0\nend\n", MODEL), Cut(0, 0, ()))

    def test_a_study(self) -> None:
        self.assertEqual(
            exits_of(b"exits 2\nexit DS1.1 4\nexit DS2.1 short 0\nin WP1.1 0 20\nend\n"),
            (Exit("DS1.1", 4, None, ()), Exit("DS2.1", None, 0, (("WP1.1", 0, 20),))),
        )
        moves = (Move(0, "WP1.1", "DS1.1", 2), Move(1, "WP1.1", "DS1.1", 1))
        self.assertEqual(least_of(LEAST), Least("WP1.1", "DS1.1", 2, 2, moves, 2, 2, (("WP1.1", 0, 2),)))
        never = least_of(b"least WP1.1 DS1.1 0 never\ncut 0 0\nin WP1.1 0 0\nend\n")
        self.assertEqual((never.rate, never.most, never.moves), (None, 0, ()))
        self.assertEqual(least_of(b"least WP1.1 DS1.1 9 0\nend\n").cut_period, None)

    def test_the_rest(self) -> None:
        self.assertEqual(gone_of(b"advance 1\ngone 0 0\ngone 1 1\nend\n"), (1, (0, 1)))
        self.assertEqual((verdict_of(b"yes\n").is_right, verdict_of(b"no 53 1 WP1.1 DS1.1\n").place), (True, ("1", "WP1.1", "DS1.1")))
        self.assertEqual((work_of(b"work 3 4\n"), report_of(b"summary 0\ntitle T\nseconds 9\nend\n", "summary").number("seconds")), ((3, 4), 9))


class Talks(unittest.TestCase):
    """A session, a study and a replan on the one room, by hand."""

    def test_a_session(self) -> None:
        wide = BLOCK.replace("answer 0", "answer 1")
        replies = {
            "rate WP1.1 DS1.1 9": wide,
            "undo": wide,
            "work": "work 1 2\n",
            "summary": "summary 0\nseconds 10\nend\n",
            "cut 9": "cut 9 3\nentry WP1.1 3\nend\n",
        }
        replies.update(
            {
                "cut 1": "cut 2 2\narc 0 WP1.1 DS1.1 2\nend\n",
                "cut 21": "refused 33 9\n",
                "rate WP1.1 DS1.1 0": "refused 22 9\npeople 3\nmost 0\nin WP1.1 0 20\nend\n",
                "shut a b": "refused 8 9\n",
            }
        )
        replies.update({"room WP1.1 1": "refused 99 9\n", "clearing": "refused 22 1\n"})
        with reads(ROOM, Table(replies)).session() as session:
            self.assertEqual((session.opening.number, session.edit('rate "=Hall" DS1.1 9').number, session.undo().number), (0, 1, 1))
            self.assertEqual((session.work(), session.report("summary").number("seconds"), session.cut(9).people), ((1, 2), 10, 3))
            wrong: Tuple[Tuple[Callable[[], Any], Type[Exception]], ...] = (
                (lambda: session.cut(), Broken),
                (lambda: session.cut(21), Refused),
                (lambda: session.edit("rate WP1.1 DS1.1 0"), Shortfall),
                (lambda: session.edit("shut a b"), Refused),
                (lambda: session.edit("room WP1.1 1"), Broken),
                (lambda: session.report("clearing"), Broken),
                (lambda: session.report("cards"), ValueError),
                (lambda: session.edit("# comment"), ValueError),
                (lambda: session.edit("x" * 201), ValueError),
                *((lambda line=line: session.ask(line), ValueError) for line in SILENT),
                *((lambda line=line: list(session.trials([[line]])), ValueError) for line in SILENT),
                (lambda: list(session.trials([["undo"] * 65])), ValueError),
            )
            for ask, error in wrong:
                with self.assertRaises(error):
                    ask()

    def test_trials_come_back(self) -> None:
        for undo, is_right in (
            (BLOCK.replace("answer 0", "answer 2"), True),
            (BLOCK.replace("cleared 2", "cleared 1"), False),
            ("refused 39 9\n", False),
        ):
            with self.subTest(undo), reads(ROOM, Table({"leave WP1.1 1": BLOCK, "undo": undo})).session() as session:
                if is_right:
                    self.assertEqual([len(it) for it in session.trials([["leave WP1.1 1"], []])], [1, 0])
                else:
                    with self.assertRaises(Broken):
                        list(session.trials([["leave WP1.1 1"]]))

    def test_a_study_and_a_replan(self) -> None:
        building = reads(
            ROOM,
            Table({"exits": "exits 1\nexit DS1.1 short 0\nin WP1.1 0 20\nend\n", "least WP1.1 DS1.1 2": LEAST.decode(), "exits 1": "refused 5 9\n"}),
        )
        with building.study() as study:
            self.assertEqual((study.exits()[0].most, study.least("=Hall", "DS1.1", 2).rate), (0, 2))
            with self.assertRaises(Refused):
                study.ask("exits 1")
        building = reads(ROOM, Two({"advance 1": "advance 1\ngone 0 0\nend\n", "cut 1": "refused 33 9\n"}))
        with building.replan() as replan:
            self.assertEqual((replan.advance(1).out, replan.plan.cleared), ((0,), 2))

    def test_checks(self) -> None:
        for reply, is_right in (("yes\n", True), ("no 52\n", False)):
            self.assertIs(reads(ROOM, Table({"check": reply})).check(BLOCK.encode()).is_right, is_right)
        with self.assertRaisesRegex(Refused, "refused 51: The line isn't one that a block has there"):
            reads(ROOM, Table({"check": "refused 51 10\n"})).check(b"x\n")

    def test_what_is_no_building(self) -> None:
        for reply, error in (
            ("refused 13 8\n", Refused),
            ("refused 99 8\n", Broken),
            ("refused 13 99\n", Broken),
            ("refused 13 0\n", Broken),
            ("refused 22 8\n", Broken),
            ("evacplan 2\n", Broken),
            ("", Broken),
        ):
            with self.subTest(reply), self.assertRaises(error):
                reads(ROOM, Table({"upgrade": reply}))
        with self.assertRaises(Broken):
            reads("evacplan 1\n", Table({}))
        with self.assertRaises(Refused):
            reads(ROOM, Table({"solve": "refused 20 8\n"})).solve(horizon=1200)
        with self.assertRaisesRegex(Broken, "planned for 4 people"):
            reads(ROOM, Table({"solve": BLOCK.replace("people 3", "people 4")})).solve()

    def test_words(self) -> None:
        with self.assertRaises(WordsError), reads(
            ROOM.replace("end\n", "#shares 10\nend\n"), Table({"session": BLOCK.replace("3\n", "3\n")})
        ).session() as session:
            session.edit("rate WP1.1 DS1.1 0.55")


class Two(Table):
    """A table whose reply to an advance has two parts."""

    def reply(self) -> bytes:
        said = super().reply()
        if said.startswith(b"advance"):
            self.sent.insert(0, "replan")
        return said


if __name__ == "__main__":
    unittest.main()
