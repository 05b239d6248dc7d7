"""Each command asked of the planner of the tests, about small buildings: it ends well, on each face, and says what can be reckoned by hand."""
import json
import os
import pathlib
import tempfile
import unittest
from typing import Dict, Tuple
from unittest import mock

from companion.tests.package import Ended, ask
from companion.tests.planner import Planner
from evacask.client.talk import Source
from evacask.faces import asked
from evacask.faces.commands import COMMANDS

# Eight people, a narrow way of 1 period and a wide one of 3. All are out at moment 3: 15 to 20 s.
ROOM = """evacplan 1
title Two ways
period 5
horizon 20
floor 1 G
#: Hall
node WP1.1 10 8
node DS1.1
node DS2.1
arc WP1.1 DS1.1 1 1
arc WP1.1 DS2.1 3 5
end
"""
# Six people on two floors, and a landing through which all go.
HOUSE = """evacplan 2
period 5
horizon 20
floor 1 G
floor 2 Up
node WP1.2 5 4
node SW1.2 4 0
node WP1.1 5 2
node LO1.1 3 0
node DS1.1
arc WP1.2 SW1.2 1 2
arc SW1.2 LO1.1 2 2
arc WP1.1 LO1.1 1 2
arc LO1.1 DS1.1 1 2
window WP1.1 LO1.1 0 1
entrant WP1.1 2 1
end
"""
FILES: Dict[str, str] = {
    "room.evac": ROOM,
    "house.evac": HOUSE,
    "shares.evac": ROOM.replace("10 8", "100 80").replace(" 1 1\n", " 1 10\n").replace(" 3 5\n", " 3 50\n").replace("end\n", "#shares 10\nend\n"),
    "short.evac": ROOM.replace("horizon 20", "horizon 2"),
    "wrong.evac": ROOM.replace("end\n", "wall\nend\n"),
    "room.plan": "evacplan 1\nperiod 5\nhorizon 60\nfloor 1 G\nnode WP1.1 50 20\nnode DS1.1\nway WP1.1 DS1.1 free 11 door 0.90\nend\n",
    "scenarios.csv": "name,edits\nwide,rate WP1.1 DS1.1 8\nlost,shutexit DS2.1\nwrong,shut WP1.1 WP9.1\n",
    "drill.csv": "seconds,DS1.1,DS2.1\n0,0,0\n10,2,0\n20,3,5\n",
    "nodes.csv": "name,capacity,start\nWP1.1,10,8\nDS1.1,,\n",
    "ways.csv": "from,to,travel,rate\nWP1.1,DS1.1,1,2\n",
    "costs.csv": "from,to,step,cost,most\nWP1.1,DS1.1,1,10,5\n",
    "intervals.csv": "from,to,rate low,rate high\nWP1.1,DS1.1,1,2\n",
}
ABOUT = ("room.evac", "house.evac", "shares.evac", "short.evac")
# Words, the status, and words that the answer has. BUILDING stands for each of the four buildings.
TABLE: Tuple[Tuple[str, Tuple[int, ...], str], ...] = (
    ("summary BUILDING", (0, 1), ""),
    ("summary room.evac", (0,), "3 (15 to 20 s)"),
    ("why BUILDING", (0, 1), ""),
    ("why room.evac 2", (0,), "At most 2 of 8"),
    ("why room.evac 21", (1,), ""),
    ("sensitivity BUILDING", (0, 1), ""),
    ("sensitivity BUILDING --rate 1", (0, 1), ""),
    ("width room.evac WP1.1 DS1.1 20", (0,), "1"),
    ("width room.evac Hall DS1.1 20", (0,), "1"),
    ("width room.evac WP1.1 DS2.1 10", (0,), "No rate"),
    ("width house.evac SW1.2 LO1.1 60", (0,), ""),
    ("width room.evac WP1.1 DS1.1 1000", (1,), ""),
    ("compare BUILDING house.evac --edit shutexit|DS2.1 --edit leave|WP1.1|1", (0, 1), ""),
    ("compare room.evac --edit shutexit|DS1.1 --unforeseen 5", (0, 1), ""),
    ("tables exits BUILDING", (0, 1), ""),
    ("tables nodes BUILDING", (0, 1), ""),
    ("tables arcs BUILDING", (0, 1), ""),
    ("tables routes BUILDING", (0, 1), ""),
    ("tables totals BUILDING", (0, 1), ""),
    ("tables fullest BUILDING", (0, 1), ""),
    ("tables full BUILDING", (0, 1), ""),
    ("tables walks BUILDING", (0, 1), ""),
    ("review BUILDING", (0, 1, 10), ""),
    ("explain 13", (0,), "13"),
    ("explain 12 3", (0,), "room"),
    ("explain room.evac", (0,), "refuses nothing"),
    ("explain short.evac", (1,), "refused 22"),
    ("convert room.plan", (0,), "arc WP1.1 DS1.1 2 3"),
    ("convert room.plan --shares auto", (0,), "#shares"),
    ("convert room.plan --both --period 5 --period 2", (0,), ""),
    ("edit room.evac --edit rate|WP1.1|DS1.1|2", (0,), "arc WP1.1 DS1.1 1 2"),
    ("assign room.evac", (0, 1), ""),
    ("assign house.evac --nearest", (0, 1), ""),
    ("improve room.evac 15", (0, 1), ""),
    ("improve room.evac 15 --costs costs.csv", (0, 1), ""),
    ("improve room.evac --costs costs.csv --budget 20", (0, 1), ""),
    ("range room.evac --rate 20 --people 10 --travel 10", (0,), ""),
    ("range room.evac --table intervals.csv", (0, 1), ""),
    ("sweep room.evac scenarios.csv", (0, 1), "lost"),
    ("losses room.evac -k 2", (0,), ""),
    ("losses room.evac -k 1 --exits", (0,), ""),
    ("admit room.evac 20", (0, 1), ""),
    ("admit room.evac 20 --room Hall", (0, 1), ""),
    ("rescue short.evac", (0, 1), "2"),
    ("rescue room.evac --seconds 10", (0, 1), ""),
    ("observed room.evac drill.csv", (0, 1, 10), ""),
    ("sheet nodes.csv ways.csv", (0,), "arc WP1.1 DS1.1 1 2"),
    ("report room.evac", (0,), "<html"),
    ("report house.evac --json", (0,), ""),
)


class Commands(unittest.TestCase):
    def setUp(self) -> None:
        folder = tempfile.TemporaryDirectory()
        self.addCleanup(folder.cleanup)
        self.addCleanup(os.chdir, os.getcwd())
        os.chdir(folder.name)
        for name, text in FILES.items():
            pathlib.Path(name).write_text(text, encoding="utf-8")
        patched = mock.patch.object(asked, "found_program", lambda *given: Proved())
        patched.start()
        self.addCleanup(patched.stop)

    def rows(self, *more: str) -> "list[tuple[str, Ended, tuple[int, ...], str]]":
        """Each row of the table for each building, and how it ended."""
        found = []
        for words, statuses, said in TABLE:
            for name in ABOUT if "BUILDING" in words else ("",):
                given = [it.replace("|", " ").replace("BUILDING", name) for it in words.split()]
                found.append((" ".join(given), ask(*given, *more), statuses, said))
        return found

    def test_each_command_ends_well(self) -> None:
        for words, ended, statuses, said in self.rows():
            with self.subTest(words):
                self.assertIn(ended.status, statuses, ended.err)
                self.assertIn(said, ended.out + ended.err)
                self.assertTrue(ended.out or ended.err or words.startswith("review"))

    def test_json_can_be_read(self) -> None:
        for words, ended, _, _ in self.rows("--json"):
            is_building = words.startswith(("edit", "sheet", "convert")) and "--both" not in words
            if ended.status in (0, 10) and not is_building:
                with self.subTest(words):
                    self.assertIsInstance(json.loads(ended.out), dict)

    def test_each_command_has_a_row(self) -> None:
        self.assertEqual({it.name for it in COMMANDS} - {words.split()[0] for words, _, _ in TABLE}, {"session"})

    def test_a_session(self) -> None:
        lines = 'rate "Hall" DS1.1 8\ncut 0\nundo\nundo\nshut x\nsummary\nroutes\nclearing\nbottlenecks\nwork\nwhole\nhelp\n# a comment\n\nrate WP1.1 DS1.1 0\nquit\n'
        ended = ask("session", "room.evac", text=lines)
        self.assertEqual((ended.status, ended.err), (0, ""))
        self.assertIn("cleared 3 (15 to 20 s)", ended.out)
        self.assertIn("refused 39", ended.out)
        ended = ask(
            "session", "room.evac", "--study", text="exits\nleast WP1.1 DS1.1 3\nleast WP1.1 DS1.1 99\nleast WP1.1 DS2.1 2\nleast WP1.1 DS1.1 8\n"
        )
        self.assertEqual((ended.status, ended.err), (0, ""))
        self.assertIn("DS2.1", ended.out)


class Proved(Planner):
    """The planner, as a program that is said to be proved."""

    source = Source("0" * 64, "0" * 16)
    path = pathlib.Path("/nowhere")


if __name__ == "__main__":
    unittest.main()
