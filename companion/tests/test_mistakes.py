"""Mistakes that people make: from each the remedy is found by one command.

Of a building that is refused `explain` names the code and the remedy, and of one that isn't, but was meant otherwise, `doubts` says so.
"""
import re
import unittest
from typing import List, Optional, Sequence, Tuple, Union

from companion.tests.asking import EXAMPLES, OFFICE, SCHOOL, TOP, Ended, ask, solved

# The office without its comments, so that its lines are those of the rows below.
TEXT = "".join(f"{line}\n" for line in OFFICE.read_text().split("\n") if line and not line.startswith("#"))
ONE_ROOM = (TOP / "examples/one_room.evac").read_bytes()


def changed(old: str, new: str, text: str = TEXT) -> str:
    assert old in text, old
    return text.replace(old, new, 1)


def ended(line: str, version: int = 2) -> str:
    """The office with a line more before its `end`."""
    return changed("evacplan 1", f"evacplan {version}", changed("end\n", f"{line}\nend\n"))


def numbered(travels: int, rates: int) -> str:
    """The office with each travel and each rate times a number."""
    return re.sub(r"(arc \S+ \S+) (\d+) (\d+)", lambda it: f"{it[1]} {int(it[2]) * travels} {int(it[3]) * rates}", TEXT)


# What was done, the text, the code, and a part of the remedy.
REFUSED: List[Tuple[str, Union[str, bytes], int, str]] = [
    ("a letter l for a 1", changed("arc HA1.3 SW1.3", "arc HAl.3 SW1.3"), 8, "a letter O or l in place of a digit"),
    ("a node that isn't there", changed("arc HA1.3 SW1.3", "arc HA3.1 SW1.3"), 13, "mend the name"),
    ("a unit after a number", changed("period 5", "period 5s"), 6, "no unit"),
    ("a fraction for a period", changed("period 5", "period 0.5"), 6, "no point"),
    ("a decimal point", changed("arc SW1.2 LO1.1 3 4", "arc SW1.2 LO1.1 3 4.5"), 6, "no point"),
    ("a decimal comma", changed("arc SW1.2 LO1.1 3 4", "arc SW1.2 LO1.1 3 4,5"), 6, "no comma"),
    ("metres", changed("arc SW1.2 LO1.1 3 4", "arc SW1.2 LO1.1 11m 4"), 6, "no unit"),
    ("a floor is missing", changed("floor 3 Third\n", ""), 10, "Add its `floor` line"),
    ("a basement", changed("floor 1 Ground", "floor -1 Cellar\nfloor 1 Ground"), 6, "number all floors from the lowest"),
    ("a floor without a text", changed("floor 1 Ground", "floor 1"), 5, "a text is missing"),
    ("CR alone ends the lines", TEXT.replace("\n", "\r"), 2, "CR alone"),
    ("a byte order mark", b"\xef\xbb\xbf" + TEXT.encode(), 1, "byte order mark"),
    ("UTF-16", TEXT.encode("utf-16"), 1, "the byte FF"),
    ("a non-breaking space", changed("node LO1.1 40 0", "node LO1.1\u00a040 0"), 8, "non-breaking"),
    ("small letters in a node", changed("node WP1.1", "node wp1.1"), 8, "capitals"),
    ("small letters in an arc", changed("arc WP1.1", "arc wp1.1"), 8, "capitals"),
    ("a capital word", changed("arc WP1.1", "Arc WP1.1"), 4, "capital word"),
    ("a comment after a node", changed("node WP1.1 80 60", "node WP1.1 80 60 # office"), 5, "A comment can't"),
    ("a comment after an arc", changed("arc WP1.1 LO1.1 1 10", "arc WP1.1 LO1.1 1 10  # door"), 5, "A comment can't"),
    ("a comment by //", changed("node WP1.1", "// office\nnode WP1.1"), 4, "Put `#` before a comment"),
    ("end is missing", changed("end\n", ""), 21, "Add the line `end`"),
    ("an exit with a capacity", changed("node DS1.1", "node DS1.1 100 0"), 5, "An exit has a name alone"),
    ("a node without a start", changed("node LO1.1 40 0", "node LO1.1 40"), 5, "a capacity and a start"),
    ("start and capacity exchanged", changed("node WP1.1 80 60", "node WP1.1 60 80"), 12, "lower the start"),
    ("a horizon of 2000", changed("horizon 120", "horizon 2000"), 7, "out of its range"),
    ("a horizon that is too short", changed("horizon 120", "horizon 20"), 22, "a horizon of 68 is enough"),
    ("two titles", changed("title", "title x\ntitle"), 9, "Keep one of the two lines"),
    ("an arc leaves an exit", ended("arc DS1.1 LO1.1 1 8"), 15, "Turn the arc round"),
    ("a leading zero", changed("node WP1.1", "node WP01.1"), 8, "no leading zeros"),
    ("a free name", changed("node LO1.1", "node Lobby"), 8, "Write a kind, a number, a dot and a floor"),
    ("a kind that isn't one", changed("node SW1.2", "node ST1.2"), 8, "Write a kind"),
    ("a dash for a dot", changed("node WP1.2", "node WP1-2"), 8, "a dot"),
    ("two doors between two nodes", changed("arc LO1.1 DS1.1 1 8", "arc LO1.1 DS1.1 1 4\narc LO1.1 DS1.1 1 4"), 16, "Add the rates"),
    ("an arc before its node", changed("end\n", "node WP1.1 80 60\nend\n", changed("node WP1.1 80 60\n", "")), 13, "Add its `node` line above"),
    ("a window in version 1", ended("window SW1.2 LO1.1 12 36", 1), 4, "begin with `evacplan 2`"),
    ("an entrant at moment 0", ended("entrant LO1.1 0 5"), 7, "out of its range"),
    ("an entrant after the horizon", ended("entrant LO1.1 130 5"), 28, "Raise the horizon"),
    ("an entrant into an exit", ended("entrant DS1.1 3 5"), 37, "by which people come into"),
    ("a window of the arc turned round", ended("window LO1.1 SW1.2 12 36"), 32, "exchange the names"),
    ("a window turned round", ended("window SW1.2 LO1.1 36 12"), 24, "the first moment at which the arc is closed"),
    ("a window of an exit", ended("window DS1.1 12 36"), 5, "Compare the line with its row"),
    ("a misspelt word", changed("period 5", "periods 5"), 4, "misspelt"),
    ("commas between fields", changed("node WP1.1 80 60", "node WP1.1, 80, 60"), 8, "a comma"),
    ("a comma for thousands", changed("node WP1.1 80 60", "node WP1.1 1,000 60"), 6, "no comma"),
    ("a travel of 0", changed("arc LO1.1 DS1.1 1 8", "arc LO1.1 DS1.1 0 8"), 7, "For a travel below one period write 1"),
    ("no period", changed("period 5\n", ""), 18, "Add the line before `end`"),
    ("two buildings in a file", TEXT + TEXT, 23, "Take it out"),
    ("no first line", changed("evacplan 1\n", ""), 1, "Begin the "),
    ("an empty file", "", 21, "Add the line `end`"),
    ("another version", changed("evacplan 1", "evacplan 3"), 1, "Begin the "),
    ("a room without an arc, with people", changed("arc WP1.3 HA1.3 1 6\n", ""), 22, "no way leads out from WP1.3 (45 people)"),
    ("an arc turned round", changed("arc WP1.3 HA1.3", "arc HA1.3 WP1.3"), 22, "no way leads out from WP1.3 (45 people)"),
]

# What is read as it is meant, though one might doubt it.
TAKEN = [
    ("tabs", TEXT.replace(" ", "\t")),
    ("CR LF", TEXT.replace("\n", "\r\n")),
]

# What was done, the text, and the doubt; None where evacask has none.
SILENT = [
    ("a way is forgotten", changed("arc HA1.3 SW2.3 1 4\n", ""), "nobody is in SW2.3 or ever comes there"),
    ("a way back is forgotten", changed("arc HA2.1 HA1.1 3 7\n", "", SCHOOL.read_text()), "no arc leads back from HA2.1 to HA1.1"),
    ("a rate of 0", changed("arc SW1.3 SW1.2 3 4", "arc SW1.3 SW1.2 3 0"), "its rate is 0"),
    ("a window in seconds", ended("window SW1.2 LO1.1 60 180"), "are these moments, and not seconds?"),
    ("a room without an arc, empty", changed("arc WP1.3 HA1.3 1 6\n", "", changed("WP1.3 60 45", "WP1.3 60 0")), "no way leads out from WP1.3"),
    ("an exit without an arc", changed("node DS2.1\n", "node DS2.1\nnode DS3.1\n"), "no arc leads into the exit DS3.1"),
    ("a start is forgotten", changed("node WP1.3 60 45", "node WP1.3 60 0"), "nobody is in the work place WP1.3"),
    ("people on a stair", changed("node SW1.2 16 0", "node SW1.2 16 16"), "16 people start on the stair SW1.2"),
    ("rates for a minute", numbered(1, 12), "is its rate one for a period?"),
    ("travels in seconds", numbered(5, 1), "are the travels in periods, and not in seconds?"),
    ("a stair to another floor", changed("arc SW1.3 SW1.2 3 4", "arc SW1.3 LO1.1 3 4"), "this arc joins floors 3 and 1"),
    ("rate and travel exchanged", changed("arc SW1.2 LO1.1 3 4", "arc SW1.2 LO1.1 4 3"), "like arcs have them the other way round, as 3 4"),
    ("a horizon far too long", changed("horizon 120", "horizon 1200"), None),
]

BLOCK, WITH_REPORTS = (solved(TEXT.encode(), "solve", *flags) for flags in ((), ("--reports",)))
SHUT = "shutexit DS2.1\n"
# What was typed, the words of the program, its input, the code, and a part of the remedy.
COMMANDS: List[Tuple[str, Sequence[str], str, Optional[int], str]] = [
    ("a file after solve", ["solve", "office.evac"], "", 40, "its table of words"),
    ("no words", [], "", 40, "its table of words"),
    ("a flag that isn't one", ["solve", "--route"], TEXT, 40, "its table of words"),
    ("a drill without its flag", ["drill", "12"], "", 40, "its table of words"),
    ("a drill of 41", ["drill", "--number", "41"], "", 40, "its table of words"),
    ("shut of an exit", ["session"], TEXT + "shut DS2.1\n", 5, "An exit is shut by `shutexit D`"),
    ("shutexit of a room", ["session"], TEXT + "shutexit WP1.1\n", 36, "Use `shut`"),
    ("close", ["session"], TEXT + "close DS2.1\n", 31, "misspelt"),
    ("open", ["session"], TEXT + SHUT + "open DS2.1\n", 31, "it is `openexit`"),
    ("reopen of an exit", ["session"], TEXT + SHUT + "reopen DS2.1\n", 5, "An exit is opened by `openexit D`"),
    ("a decimal rate", ["session"], TEXT + "rate LO1.1 DS1.1 4.5\n", 6, "no point"),
    ("a dash between nodes", ["session"], TEXT + "shut SW1.2-LO1.1\n", 5, "the two names of an arc"),
    ("an arc turned round", ["session"], TEXT + "shut LO1.1 SW1.2\n", 32, "the other way round"),
    ("exits in a session", ["session"], TEXT + "exits\n", 31, "of another mode"),
    ("least in a session", ["session"], TEXT + "least LO1.1 DS1.1 27\n", 31, "of another mode"),
    ("a cut after the horizon", ["session"], TEXT + "cut 121\n", 33, "up to the horizon"),
    ("more leave than are there", ["session"], TEXT + "leave WP1.1 61\n", 38, "Lower the number"),
    ("more enter than there is room", ["session"], TEXT + "enter WP1.1 21\n", 12, "raise the capacity"),
    ("people enter an exit", ["session"], TEXT + "enter DS1.1 1\n", 37, "Name another node"),
    ("a capital word", ["session"], TEXT + "Summary\n", 31, "capital word"),
    ("a field too many", ["session"], TEXT + "summary 0\n", 5, "number of fields"),
    ("undo first", ["session"], TEXT + "undo\n", 39, "No edit was made"),
    ("an arc in a session", ["session"], TEXT + "add arc HA1.3 SW1.2 1 4\n", 31, "misspelt"),
    ("an entrant in a session", ["session"], TEXT + "entrant LO1.1 6 10\n", 31, "misspelt"),
    ("CR LF", ["session"], (TEXT + SHUT).replace("\n", "\r\n"), None, ""),
    ("a window in seconds", ["session"], TEXT + "window SW1.2 LO1.1 60 180\n", None, ""),
    ("shutexit in a study", ["study"], TEXT + SHUT, 31, "edits belong to `session`"),
    ("least without a moment", ["study"], TEXT + "least LO1.1 DS1.1\n", 5, "number of fields"),
    ("least in seconds", ["study"], TEXT + "least LO1.1 DS1.1 140\n", 33, "up to the horizon"),
    ("advance 0", ["replan"], TEXT + "advance 0\n", 41, "Name a later moment"),
    ("enter after an advance", ["replan"], TEXT + "advance 3\nenter WP1.1 1\n", 42, "before the first `advance`"),
    ("the block first", ["check"], BLOCK + TEXT, 1, "the building comes first"),
    ("a block with its reports", ["check"], TEXT + WITH_REPORTS, 23, "Take it out"),
    ("a block of another building", ["check"], TEXT + solved(ONE_ROOM, "solve"), 51, "belongs to this"),
    ("no block", ["check"], TEXT, 51, "cut off"),
    ("a block that is cut off", ["check"], TEXT + BLOCK[:-20], 51, "cut off"),
    ("a building with another rate", ["check"], changed("arc LO1.1 DS1.1 1 8", "arc LO1.1 DS1.1 1 7") + BLOCK, 53, "belongs to this"),
    ("names after the lines", ["check"], TEXT + changed("move 0 WP1.1 LO1.1 8", "move 0 WP1.1 LO1.1 8  # x", BLOCK), 51, "the rules for reading"),
]


def unwrapped(text: str) -> str:
    """A text without its line ends and indents."""
    return " ".join(text.split())


def looked_up(words: Sequence[str], text: str) -> Ended:
    """What one look explains: of a run of the program, or of the words that it refuses."""
    refused = re.match(r"refused 40 ", solved(text.encode(), *words))
    return ask("explain", 40) if refused else ask("explain", "-", words[0], text=text)


class Mistakes(unittest.TestCase):
    def test_how_many_there_are(self) -> None:
        self.assertEqual((len(REFUSED) + len(TAKEN) + len(SILENT), len(COMMANDS)), (67, 38))

    def test_refused_buildings(self) -> None:
        for what, text, code, remedy in REFUSED:
            with self.subTest(what):
                said = ask("explain", "-", text=text)
                self.assertRegex(said.out, rf"^refused {code} \d+\n    line ")
                self.assertIn(remedy, unwrapped(said.out))
                self.assertEqual((said.status, said.err), (1, ""))

    def test_a_refused_building_gets_one_line_elsewhere(self) -> None:
        for what, text, code, _ in REFUSED:
            for command in (("summary",), ("ways",), ("why",), ("doubts",), ("tables", "exits"), ("wide", "LO1.1", "DS1.1", 100), ("compare",)):
                if code == 22 and command[0] in ("summary", "doubts", "compare"):
                    continue
                with self.subTest(what, command=command[0]):
                    before = command[:1] + ("exits", "-") if command[0] == "tables" else command[:1] + ("-",) + command[1:]
                    said = ask(*before, text=text)
                    self.assertEqual((said.status, said.out), (1, ""))
                    self.assertRegex(said.err, r"\Aevacask: -[,:][^\n]+\n\Z")

    def test_buildings_that_are_taken(self) -> None:
        for what, text in TAKEN:
            with self.subTest(what):
                self.assertEqual((ask("explain", "-", text=text).status, ask("doubts", "-", text=text).out), (0, ""))
                self.assertRegex(ask("summary", "-", text=text).out, r"\ncleared +28 ")

    def test_silent_mistakes_are_doubted(self) -> None:
        for what, text, doubt in SILENT:
            with self.subTest(what):
                said = ask("doubts", "-", text=text)
                self.assertEqual((said.status, said.err), (10 if doubt else 0, ""))
                self.assertIn(doubt or "", said.out)

    def test_no_example_is_doubted(self) -> None:
        for path in EXAMPLES:
            with self.subTest(path.name):
                said = ask("doubts", path)
                self.assertEqual((said.status, said.out, said.err), (0, "", ""))

    def test_commands(self) -> None:
        for what, words, text, code, remedy in COMMANDS:
            with self.subTest(what):
                said = looked_up(words, text)
                self.assertEqual(said.err, "")
                if code is None:
                    self.assertEqual((said.status, said.out), (0, f"{words[0]} refuses nothing\n"))
                else:
                    self.assertRegex(said.out, rf"(?m)^(refused|no) {code}\b")
                    self.assertIn(remedy, unwrapped(said.out))


if __name__ == "__main__":
    unittest.main()
