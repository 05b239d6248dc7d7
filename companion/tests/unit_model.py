"""The model: statements of a text, own names, edits by hand, forms, and walks."""
import unittest
from typing import List, Tuple

from evacask.errors import MarkError, Refused, UnknownName, WordsError
from evacask.model.building import Arc, Entrant, Model, Node, Window, model_of
from evacask.model.edits import edited
from evacask.model.forms import plain, words_of
from evacask.model.ground import Ground
from evacask.model.lines import fields_of, is_number, lines_of, near, number_of, printable
from evacask.model.seconds import interval, last_moment_within, seconds_text
from evacask.model.walks import walking_bound, walks

TEXT = """# A comment.
evacplan 2
title  A house\t
period 5
horizon 30
floor 0 Ground floor
floor 1 First
#: Kitchen
node WP1.0 10 3
# no name
node HA1.0 5 0
#:Upper hall
node HA1.1 5 2
node DS1.0
#: Door of the kitchen
arc WP1.0 HA1.0 1 2
arc HA1.1 HA1.0 3 1
arc HA1.0 DS1.0 1 4
window HA1.0 DS1.0 4 6
entrant HA1.1 2 3
end
# after it
"""


class Models(unittest.TestCase):
    def test_statements(self) -> None:
        model = model_of(TEXT)
        self.assertEqual((model.title, model.period, model.horizon, model.end_line), ("A house", 5, 30, 21))
        self.assertEqual(model.nodes["WP1.0"], Node("WP1.0", 10, 3, 9, "Kitchen"))
        self.assertEqual(model.arcs["WP1.0", "HA1.0"], Arc("WP1.0", "HA1.0", 1, 2, 16, "Door of the kitchen"))
        self.assertEqual((model.windows, model.entrants), ((Window(("HA1.0", "DS1.0"), 4, 6, 19),), (Entrant("HA1.1", 2, 3, 20),)))
        self.assertEqual((model.floors, model.people, model.is_steady, model.shares), ({0: "Ground floor", 1: "First"}, 8, False, 1))
        self.assertEqual(([it.name for it in model.exits], [it.name for it in model.rooms]), (["DS1.0"], ["WP1.0", "HA1.0", "HA1.1"]))
        self.assertEqual((model.nodes["DS1.0"].is_exit, model.nodes["HA1.1"].floor, model.nodes["HA1.1"].kind), (True, 1, "HA"))
        self.assertEqual((model.arcs["HA1.0", "DS1.0"].way, model.bytes, model.seconds(3)), (("HA1.0", "DS1.0"), TEXT.encode(), 15))
        self.assertEqual((model, model == model_of(TEXT + "#")), (model_of(TEXT), False))

    def test_other_line_ends_and_bytes(self) -> None:
        model = model_of(TEXT.replace("\n", "\r\n"))
        self.assertEqual((model.title, model.nodes["WP1.0"].own_name, model.people), ("A house", "Kitchen", 8))
        odd = b"evacplan 1\nperiod 1\nhorizon 1\n#: a\xff\x1b[31mb\nnode DS1.1\nend".decode("utf-8", "surrogateescape")
        self.assertEqual(model_of(odd).nodes["DS1.1"].own_name, "a[31mb")
        self.assertEqual(model_of(odd).bytes.count(b"\xff"), 1)

    def test_what_is_no_building(self) -> None:
        for text in (
            "",
            "evacplan 1\n",
            "x\nend\n",
            "wall 1 2\nend\n",
            "wall WP1.1 DS1.1 1 2\nend\n",
            "node\nend\n",
            "arc A B 1\nend\n",
            "period x\nend\n",
            "node A 1\nend\n",
        ):
            with self.subTest(text), self.assertRaises((ValueError, IndexError)):
                model_of(text)
        with self.assertRaises(MarkError):
            model_of(TEXT.replace("end\n", "#shares 0\nend\n"))

    def test_names(self) -> None:
        model = model_of(TEXT)
        self.assertEqual((model.node("Kitchen").name, model.node("HA1.0").name), ("WP1.0", "HA1.0"))
        self.assertEqual(
            (model.named("HA1.0"), model.named("HA1.1", "HA1.0"), model.named("WP1.0", "HA1.0")), ("", "Upper hall to HA1.0", "Door of the kitchen")
        )
        self.assertEqual((model.arc("Kitchen", "HA1.0").rate, near("x", ["y"])), (2, ""))
        twice = model_of(TEXT.replace("# no name", "#: Kitchen"))
        for names, wanted, asked in (
            (("HA1.2",), "near it: HA1.1", model),
            (("Kitchn",), "near it: Kitchen", model),
            (("",), "there is no node", model),
            (("Kitchen",), "own name of 2 nodes: WP1.0, HA1.0", twice),
            (("HA1.0", "WP1.0"), "there is one from WP1.0 to HA1.0", model),
            (("WP1.0", "DS1.0"), "from WP1.0 there are arcs to HA1.0", model),
            (("DS1.0", "HA1.1"), "no arc leaves DS1.0", model),
        ):
            with self.subTest(names), self.assertRaisesRegex(UnknownName, wanted):
                asked.node(*names) if len(names) == 1 else asked.arc(*names)

    def test_lines(self) -> None:
        self.assertEqual((lines_of("a\r\nb\r\r\n\nc"), fields_of("\ta  b\t")), (["a", "b\r", "", "c"], ["a", "b"]))
        self.assertEqual(
            ([is_number(it) for it in ("0", "007", "123456789", "1234567890", "", "-1", "+1", "1.0", "١", "1_0")]), [True] * 3 + [False] * 7
        )
        with self.assertRaises(ValueError):
            number_of("1_0")
        self.assertEqual(printable("a\x1b[0m\u202eb\n"), "a[0mb")

    def test_seconds(self) -> None:
        self.assertEqual((interval(28, 5), seconds_text(28, 5), seconds_text(28, 5, False)), ((140, 145), "140 to 145 s", "from 140 s"))
        self.assertEqual((last_moment_within(145, 5), last_moment_within(144, 5), last_moment_within(4, 5)), (28, 27, -1))
        self.assertEqual(str(Ground.CUTS), "by the cuts")


class Edits(unittest.TestCase):
    """Edits of the house, each with the lines that it changes, by hand; codes are those of docs/users/formats.md."""

    def changed(self, *edits: str) -> List[str]:
        """The lines of the edited house that the house doesn't have."""
        return [line for line in edited(model_of(TEXT), edits).text.splitlines() if line not in TEXT.splitlines()]

    def test_each_edit(self) -> None:
        cases: List[Tuple[List[str], List[str]]] = [
            (["shut WP1.0 HA1.0"], ["arc WP1.0 HA1.0 1 0"]),
            (["shut WP1.0 HA1.0", "reopen WP1.0 HA1.0"], []),
            (["shutexit DS1.0"], ["arc HA1.0 DS1.0 1 0"]),
            (["shutexit DS1.0", "openexit DS1.0"], []),
            (["rate WP1.0 HA1.0 0010000"], ["arc WP1.0 HA1.0 1 10000"]),
            (["room HA1.0 0"], ["node HA1.0 0 0"]),
            (["shift WP1.0 HA1.0 2"], ["node WP1.0 10 1", "node HA1.0 5 2"]),
            (["enter WP1.0 7"], ["node WP1.0 10 10"]),
            (["leave WP1.0 3"], ["node WP1.0 10 0"]),
            (["window WP1.0 HA1.0 0 1201"], ["window WP1.0 HA1.0 0 1201"]),
            (["window HA1.0 DS1.0 6 7"], ["window HA1.0 DS1.0 6 7"]),
            (["unwindow HA1.0 DS1.0 4 6"], []),
            (['rate "Kitchen" HA1.0 7', "\trate  HA1.0 DS1.0\t3 "], ["arc WP1.0 HA1.0 1 7", "arc HA1.0 DS1.0 1 3"]),
            ([], []),
        ]
        for edits, wanted in cases:
            with self.subTest(edits):
                self.assertEqual(self.changed(*edits), wanted)
        self.assertEqual(edited(model_of(TEXT), []).text, TEXT)
        self.assertNotIn("window", edited(model_of(TEXT), ["unwindow HA1.0 DS1.0 4 6"]).text)

    def test_all_other_bytes_stay(self) -> None:
        crlf = "evacplan 1\r\n# a\r\nperiod 5\r\nhorizon 9\r\nfloor 1 G\r\nnode WP1.1 9 1\r\nnode DS1.1\r\narc WP1.1 DS1.1 1 1\r\nend\r\n# after"
        wanted = crlf.replace("evacplan 1", "evacplan 2").replace("1 1\r\nend", "1 1\r\nwindow WP1.1 DS1.1 1 2\r\nend")
        self.assertEqual(edited(model_of(crlf), ["window WP1.1 DS1.1 1 2"]).text, wanted)

    def test_what_refuses_an_edit(self) -> None:
        eight = TEXT.replace("end\n", "".join(f"window HA1.0 DS1.0 {at} {at + 1}\n" for at in range(10, 17)) + "end\n")
        many = TEXT.replace("node WP1.0 10 3", "node WP1.0 100000 99990")
        for edit, code, text in (
            ("", 31, TEXT),
            ("shutt WP1.0 HA1.0", 31, TEXT),
            ("shut WP1.0", 5, TEXT),
            ("room WP1.0 -1", 6, TEXT),
            ("room wp1.0 1", 8, TEXT),
            ("room WP01.0 1", 8, TEXT),
            ("room WP2.0 1", 13, TEXT),
            ("rate HA1.0 WP1.0 1", 32, TEXT),
            ("rate WP1.0 HA1.0 10001", 7, TEXT),
            ("reopen WP1.0 HA1.0", 35, TEXT),
            ("openexit DS1.0", 35, TEXT),
            ("shutexit HA1.0", 36, TEXT),
            ("room DS1.0 1", 37, TEXT),
            ("room WP1.0 2", 12, TEXT),
            ("room WP1.0 100001", 7, TEXT),
            ("shift WP1.0 WP1.0 1", 14, TEXT),
            ("shift WP1.0 DS1.0 1", 37, TEXT),
            ("shift WP1.0 HA1.0 0", 7, TEXT),
            ("shift WP1.0 HA1.0 4", 38, TEXT),
            ("shift HA1.1 WP1.0 1", 12, many.replace("100000 99990", "99990 99990")),
            ("shift WP9.0 WP1.0 1", 13, TEXT),
            ("enter WP1.0 8", 12, TEXT),
            ("enter WP1.0 100", 17, many),
            ("enter WP1.0 0", 7, TEXT),
            ("leave WP1.0 4", 38, TEXT),
            ("leave WP1.0 100001", 7, TEXT),
            ("window HA1.0 DS1.0 1201 1201", 7, TEXT),
            ("window HA1.0 DS1.0 1 0", 7, TEXT),
            ("window HA1.0 DS1.0 2 2", 24, TEXT),
            ("window HA1.0 DS1.0 5 9", 25, TEXT),
            ("window HA1.0 DS1.0 20 21", 26, eight),
            ("unwindow HA1.0 DS1.0 4 5", 27, TEXT),
        ):
            with self.subTest(edit), self.assertRaises(Refused) as refused:
                edited(model_of(text), [edit])
            self.assertEqual((refused.exception.code, refused.exception.text, bool(refused.exception.meaning)), (code, edit, True))
        for edits in (["shut WP1.0 HA1.0"] * 2, ["shutexit DS1.0"] * 2):
            with self.assertRaises(Refused) as refused:
                edited(model_of(TEXT), edits)
            self.assertEqual(refused.exception.code, 34)

    def test_shares(self) -> None:
        shares = model_of(TEXT.replace("end\n", "#shares 10\nend\n"))
        self.assertIn("arc WP1.0 HA1.0 1 15\n", edited(shares, ["rate WP1.0 HA1.0 1.5"]).text)
        with self.assertRaises(WordsError):
            edited(shares, ["rate WP1.0 HA1.0 1.55"])

    def test_own_names_in_a_command(self) -> None:
        model = model_of(TEXT.replace("# no name", "#: Upper hall"))
        for typed, sent in (
            ('rate "Kitchen" HA1.0 1', "rate WP1.0 HA1.0 1"),
            ("rate Kitchen HA1.0 1 2", "rate WP1.0 HA1.0 1 2"),
            ('room "Upper hall" 1', "room Upper hall 1"),
            ("cut Kitchen", "cut Kitchen"),
            ("foo Kitchen", "foo Kitchen"),
            ("", ""),
            ("least Kitchen HA1.0 9", "least WP1.0 HA1.0 9"),
            ('shut "Door of the kitchen"', "shut WP1.0 HA1.0"),
            ('window "Door of the kitchen" 4 6', "window WP1.0 HA1.0 4 6"),
            ('shut "Door"', "shut Door"),
            ("advance 3", "advance 3"),
        ):
            with self.subTest(typed):
                self.assertEqual(plain(model, typed), sent)
        self.assertEqual(words_of(' a "b c" d'), ["a", "b c", "d"])


class Walks(unittest.TestCase):
    def model(self) -> Model:
        return model_of(TEXT.replace("window HA1.0 DS1.0 4 6\nentrant HA1.1 2 3\n", ""))

    def test_walks_by_hand(self) -> None:
        found = walks(self.model())
        self.assertEqual({name: walk.periods for name, walk in found.items()}, {"DS1.0": 0, "HA1.0": 1, "WP1.0": 2, "HA1.1": 4})
        self.assertEqual((found["DS1.0"].first, getattr(found["HA1.1"].first, "head", None)), (None, "HA1.0"))
        self.assertEqual({name for name, _ in walks(self.model(), 2).items()}, {"DS1.0", "HA1.0", "WP1.0"})

    def test_the_walking_bound_by_hand(self) -> None:
        # 5 people, the longest walk 4 periods, the least rate on it 1: 4 + 4 div 1.
        bound = walking_bound(self.model())
        self.assertEqual(bound and (bound.periods, bound.rate, bound.moment), (4, 1, 8))
        self.assertIsNone(walking_bound(model_of(TEXT)))
        self.assertIsNone(walking_bound(edited(self.model(), ["leave WP1.0 3", "leave HA1.1 2"])))


if __name__ == "__main__":
    unittest.main()
