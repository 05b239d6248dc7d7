"""Tables that users write: each fault is named with table, row and column, and what is right is read. No program is needed."""
import itertools
import pathlib
import random
import unittest
from typing import Tuple, Type, Union
from unittest import mock

from companion.tests.planner import Planner
from companion.tests.table import ROOM
from companion.tests.table import Table as Replies
from evacask import EvacaskError, NoAnswer, Refused, TableError, WordsError, read, reads
from evacask.client.talk import Client
from evacask.model import cells
from evacask.model.building import Model
from evacask.questions.given import counts_of, ranges_of, scenarios_of, widenings_of
from evacask.questions.sheets import Table, model_of_tables, tables_of

EXAMPLES = pathlib.Path(__file__).resolve().parents[2] / "examples"
NODES = "name,floors,capacity,start,own name\nLO1,0,114,0,Lobby\nDS1,0,,,Main door\nWP1,1-20,60,40,\nHA1,1-20,38,0,\nSW1,1-20,9,0,\n"
WAYS = "from,to,floors,travel,rate\nLO1,DS1,0,2,9\nWP1,HA1,1-20,4,3\nHA1,SW1,1-20,2,4\nSW1,LO1.0,1,3,5\nSW1,SW1.-1,2-20,3,5\n"
FLOORS = "name,capacity,start,floor text\nLO1.0,9,0,Lower\nDS1.0,,,\nWP1.0,9,1,Upstairs\n"
COSTS = "from,to,step,cost,most\nLO2.1,DS2.1,4,9,1\nLO1.1,,5,3,\n"
COUNTS = "seconds,DS1.1,DS2.1\n30,4,0\n60,31,6\n"
INTERVALS = "from,to,rate low,rate high,start low,start high\nLO2.1,DS2.1,3,5,,\nWP1.2,,,,20,30\n"
SCENARIOS = "name,edits\na,shut HA1.2 SW2.2; rate SW1.2 LO1.1 7\nb,enter WP1.2 5\n"
# What is changed in a table, and what the fault says.
HOSTILE = (
    ("costs", "", "row 1: there are no rows"),
    ("costs", "from,to,step,cost,most\n", "row 1: there are no rows"),
    ("costs", "from,to,step,cost\nLO2.1,DS2.1,4,9\n", "row 1, column most: the column is missing"),
    ("costs", COSTS.replace("step", "steps"), "row 1, column 3: 'steps' is no column of this table; near it: step"),
    ("costs", COSTS.replace("most", "cost"), "row 1, column 5: there are two columns cost"),
    ("costs", COSTS.replace(",9,1", ",0,1"), "row 2, column cost: '0' is no whole number from 1 to 1,000,000"),
    ("costs", COSTS.replace(",9,1", ",-3,1"), "row 2, column cost: '-3' is no whole number"),
    ("costs", COSTS.replace(",4,9", ",0,9"), "row 2, column step: '0' is no whole number from 1"),
    ("costs", COSTS.replace(",4,9", ",10000,9"), "row 2, column step: 4 and 10,000 more are above 10,000"),
    ("costs", COSTS.replace("DS2.1", "DS2.2"), "row 2, column to: there is no node DS2.2 in the building; near it: "),
    ("costs", COSTS.replace("LO1.1,,", "DS1.1,,"), "row 3, column from: DS1.1 is an exit, which has no capacity"),
    ("costs", COSTS.replace("9,1", "9,1,7"), "row 2: there are 6 cells and 5 columns"),
    ("costs", COSTS + "LO1.1,,5,3,\n" * 100_000, "row 5002: there are more than 5,000 rows"),
    ("ranges", INTERVALS.replace("3,5", "5,3"), "row 2, column rate low: 5 is above 3"),
    ("ranges", INTERVALS.replace("3,5", "5,6"), "row 2, column rate low: the rate is 4 now, and the interval from 5 to 6 has to hold it"),
    ("ranges", INTERVALS.replace("3,5,,", "3,5,1,"), "row 2, column start low: '1' is for a node"),
    ("ranges", INTERVALS + "LO2.1,DS2.1,3,4,,\n", "row 4, column rate low: the rate has an interval in a row above already"),
    ("ranges", INTERVALS.replace("WP1.2,,,,", "DS1.1,,,,"), "row 3, column from: DS1.1 is an exit: nobody starts there"),
    ("ranges", INTERVALS.replace("WP1.2,,,,", "WP1.2,,1,,"), "row 3, column rate low: '1' is for an arc"),
    ("ranges", INTERVALS.replace("WP1.2,,,,", "WP9.2,,,,"), "row 3, column from: there is no node WP9.2"),
    ("counts", COUNTS.replace("DS2.1", "DS2.2"), "row 1, column 3: 'DS2.2' is no column of this table; near it: "),
    ("counts", COUNTS.replace("31", "3x"), "row 3, column DS1.1: '3x' is no whole number"),
    ("counts", COUNTS.replace("60,", "30,"), "row 3, column seconds: 30 comes after 30: seconds rise"),
    ("counts", COUNTS.replace("31", "3"), "row 3, column DS1.1: 3 comes after 4"),
    ("counts", "seconds\n30\n", "row 1: no exit was counted"),
    ("counts", COUNTS.replace("seconds", "time"), "row 1, column 1: 'time' is no column"),
    ("scenarios", SCENARIOS.replace("shut HA1.2 SW2.2", "undo"), "row 2, column edits: undo is no edit"),
    ("scenarios", SCENARIOS.replace("enter WP1.2 5", '"enter WP1.2 5\nquit"'), "row 3, column 2: 'enter WP1.2 5?quit' has a line end"),
    ("nodes", NODES.replace("WP1,1-20", "WP1,20-1"), "row 4, column floors: '20-1' is no floor"),
    ("nodes", NODES.replace("WP1,1-20", "WP1,1-999 1-999"), "row 4, column floors: there are more than 999 floors"),
    ("nodes", NODES.replace("60,40", "60,70"), "row 4, column start: 70 people don't fit into WP1.1, which holds 60"),
    ("nodes", NODES.replace("WP1,", "XX1,"), "row 4, column name: 'XX1' is no name"),
    ("nodes", NODES.replace("WP1,1-20", "WP1,"), "row 4, column name: WP1 needs a floor"),
    ("nodes", NODES.replace("DS1,0,,", "DS1,0,4,"), "row 3, column capacity: DS1.0 is an exit"),
    ("nodes", NODES + "WP1,3,60,40,\n", "row 7, column name: WP1.3 is in row 4 already"),
    ("nodes", NODES + "".join(f"WP{it},1,5,1,\n" for it in range(2, 100_002)), "node 401, and a building has at most 400"),
    ("nodes", NODES.replace("Lobby", '"Lobby'), "row 2: a row that begins here is no CSV"),
    ("nodes", NODES.replace("WP1,1-20", "WP1.+1,999"), "row 4, column name: the floor 1000 isn't from 0 to 999"),
    ("nodes", NODES.replace("Lobby", "L" * 151), f"row 2, column own name: '{'L' * 37}..' has more than 150 bytes"),
    ("nodes", FLOORS.replace("Upstairs", "Ground"), "row 4, column floor text: floor 0 is called 'Lower' in a row above"),
    ("nodes", FLOORS.replace("Upstairs", "U" * 151), f"row 4, column floor text: '{'U' * 37}..' has more than 150 bytes"),
    ("ways", WAYS.replace("from,to", "from,both ways,to").replace("LO1,", "LO1,maybe,"), "row 2, column both ways: 'maybe' is neither yes nor no"),
    ("ways", WAYS.replace("LO1,DS1", "LO1,DS9"), "row 2, column to: there is no node DS9.0 in nodes.csv; near it: DS1.0"),
    ("ways", WAYS.replace("4,3", "4.5,3"), "row 3, column travel: '4.5' is no whole number from 1 to 600"),
    ("ways", WAYS.replace("SW1.-1,2-20", "SW1.-1,1-20"), "row 6, column to: there is no node SW1.0"),
    ("ways", WAYS.replace("LO1,DS1", "DS1,LO1"), "row 2, column from: no way leads on from DS1.0"),
    ("ways", WAYS + "LO1,DS1,0,2,9\n", "row 7, column to: the way from LO1.0 to DS1.0 is in row 2 already"),
    ("ways", WAYS.replace("LO1,DS1,0,2,9", "LO1,LO1,0,2,9"), "row 2, column to: no way leads from LO1.0 to itself"),
)
TABLES = {"costs": COSTS, "ranges": INTERVALS, "counts": COUNTS, "scenarios": SCENARIOS, "nodes": NODES, "ways": WAYS}
# The row of each table that one with 100,000 rows is refused at, and what the fault says. A sweep takes as many scenarios.
MANY = {
    "costs": (5002, "there are more than 5,000 rows"),
    "ranges": (5002, "there are more than 5,000 rows"),
    "counts": (10_002, "there are more than 10,000 rows"),
    "nodes": (402, "would be node 401, and a building has at most 400"),
    "ways": (1602, "this would be way 1,601, and a building has at most 1,600"),
}


def many(kind: str) -> str:
    """A table of 100,000 rows that differ."""
    head, numbers = TABLES[kind].split("\n", 1)[0], range(1, 100_001)
    if kind == "counts":
        return "seconds,DS1.1\n" + "".join(f"{it},0\n" for it in numbers)
    if kind == "nodes":
        return "name,capacity,start\n" + "".join(f"WP{it % 9999 + 1}.{it // 9999 + 1},5,1\n" for it in numbers)
    if kind == "ways":
        pairs = ((one, other) for one in ROOMS for other in ROOMS if one != other)
        return "from,to,travel,rate\n" + "".join(f"{one},{other},1,1\n" for one, other in itertools.islice(pairs, 100_000))
    row = {"costs": "LO2.1,DS2.1,1,1,1", "ranges": "LO2.1,DS2.1,,,,", "scenarios": "a,shut HA1.2 SW2.2"}[kind]
    return head + "\n" + f"{row}\n" * 100_000


# The nodes on which 100,000 ways could be: more than a building has.
ROOMS = [f"{kind}1.{floor}" for floor in range(1, 21) for kind in ("WP", "HA", "SW")] + ["LO1.0"]
# What is put into a table by lot.
PIECES = (
    b",",
    b'"',
    b"\n",
    b"\r",
    b"\0",
    b"\xff",
    b";",
    b"1-999",
    b"-",
    b"99999999999",
    "\u202e".encode(),
    b"'",
    b"=1+1",
    b"DS1",
    "\u0663".encode(),
    b".",
)


class Tables(unittest.TestCase):
    def setUp(self) -> None:
        self.client: Client = Planner()
        self.school = read(EXAMPLES / "school.evac", self.client).model

    def taken(self, kind: str, data: bytes) -> object:
        """What is made of a table."""
        if kind == "costs":
            return widenings_of(data, "costs.csv", self.school)
        if kind == "ranges":
            return ranges_of(data, "ranges.csv", self.school)
        if kind == "counts":
            return counts_of(data, "counts.csv", self.school)
        if kind == "scenarios":
            return list(scenarios_of(data, "scenarios.csv", self.school))
        return self.building(data) if kind == "nodes" else self.building(NODES.encode(), data)

    def building(self, nodes: Union[bytes, str] = NODES, ways: Union[bytes, str] = WAYS, title: str = "") -> Model:
        given, led = (it if isinstance(it, bytes) else it.encode() for it in (nodes, ways))
        return model_of_tables(self.client, Table("nodes.csv", given), Table("ways.csv", led), 5, 400, title)

    def test_faults_are_named(self) -> None:
        for kind, text, what in HOSTILE:
            with self.subTest(f"{kind}: {what}"):
                with self.assertRaises(TableError) as fault:
                    self.taken(kind, text.encode())
                self.assertTrue(str(fault.exception).startswith(f"{kind}.csv, row "), fault.exception)
                self.assertIn(what, str(fault.exception))

    def test_empty_tables(self) -> None:
        for kind, text in TABLES.items():
            head = text.split("\n", 1)[0]
            for empty in ("", "\n", head, f"{head}\n", f"{head}\n,,\n\n", f"{head}\n# nothing\n"):
                with self.subTest(f"{kind}: {empty!r}"), self.assertRaisesRegex(TableError, f"{kind}.csv, row 1: there are no rows"):
                    self.taken(kind, empty.encode())

    def test_100_000_rows(self) -> None:
        for kind, (row, what) in MANY.items():
            with self.subTest(kind), self.assertRaises(TableError) as fault:
                self.taken(kind, many(kind).encode())
            self.assertIn(what, str(fault.exception))
            self.assertEqual(fault.exception.row, row)
        scenarios = self.taken("scenarios", many("scenarios").encode())
        self.assertEqual(len(scenarios), 100_000)  # type: ignore[arg-type]

    def test_too_many_bytes(self) -> None:
        with mock.patch.object(cells, "MOST_BYTES", 9), self.assertRaisesRegex(TableError, "row 1: there are more than 9 bytes"):
            self.taken("costs", COSTS.encode())

    def test_what_is_read_of_the_tables_by_hand(self) -> None:
        costs = widenings_of(COSTS.encode(), "costs.csv", self.school)
        self.assertEqual([(it.place, it.step, it.cost, it.most) for it in costs], [(("LO2.1", "DS2.1"), 4, 9, 1), (("LO1.1",), 5, 3, 100_000)])
        given = ranges_of(INTERVALS.encode(), "ranges.csv", self.school)
        self.assertEqual((given.rates, given.travels, given.people), ({("LO2.1", "DS2.1"): (3, 5)}, {}, {"WP1.2": (20, 30)}))
        self.assertEqual(ranges_of(INTERVALS.replace("3,5", ",6").encode(), "", self.school).rates, {("LO2.1", "DS2.1"): (4, 6)})
        counts = counts_of(COUNTS.encode(), "counts.csv", self.school)
        self.assertEqual(counts, {"DS1.1": [(30, 4), (60, 31)], "DS2.1": [(30, 0), (60, 6)]})
        scenarios = list(scenarios_of(SCENARIOS.encode(), "scenarios.csv", self.school))
        self.assertEqual(scenarios, [(2, "a", ("shut HA1.2 SW2.2", "rate SW1.2 LO1.1 7")), (3, "b", ("enter WP1.2 5",))])

    def test_bytes_that_are_no_text(self) -> None:
        for data, what in ((b"seconds,DS1.1\n30,\xff\n", "row 2: byte 18 isn't UTF-8"), (b"seconds,DS1.1\n30,\0\n", "row 2: there is a byte 0")):
            with self.assertRaises(TableError) as fault:
                self.taken("counts", data)
            self.assertIn(what, str(fault.exception))

    def test_what_spreadsheets_write_is_read(self) -> None:
        wanted = self.taken("costs", COSTS.encode())
        for text in (
            COSTS.replace(",", ";"),
            COSTS.replace(",", "\t"),
            "\ufeff" + COSTS,
            COSTS.replace("\n", "\r\n"),
            COSTS.replace("9,1", "9.0,1"),
            COSTS + ",,,,\n#,\n",
        ):
            self.assertEqual(self.taken("costs", text.encode()), wanted, text)

    def test_rows_for_storeys(self) -> None:
        # Lobby, exit, and three nodes on each of 20 floors; a way out of the lobby, two on each floor, and one from each stair downwards.
        model = self.building(title="Tower")
        self.assertEqual((len(model.nodes), len(model.arcs), model.title), (2 + 3 * 20, 1 + 2 * 20 + 20, "Tower"))
        self.assertIn("arc SW1.7 SW1.6 3 5", model.text)
        self.assertIn("#: Lobby\nnode LO1.0 114 0", model.text)
        both = self.building(
            "name,capacity,start\nLO1.0,9,\nHA1.0,9,\nDS1.0,,\n", "from,to,travel,rate,both ways\nHA1.0,LO1.0,2,3,Yes\nLO1.0,DS1.0,1,4,no\n"
        )
        self.assertEqual([*both.arcs], [("HA1.0", "LO1.0"), ("LO1.0", "HA1.0"), ("LO1.0", "DS1.0")])

    def test_there_and_back(self) -> None:
        for given in (self.school, read(EXAMPLES / "tower.evac", self.client).model, reads(ROOM, self.client).model):
            nodes, ways = tables_of(given)
            back = model_of_tables(self.client, Table("n", nodes.encode()), Table("w", ways.encode()), given.period, given.horizon, given.title)
            self.assertEqual(
                [(it.name, it.capacity, it.start, it.own_name) for it in back.nodes.values()],
                [(it.name, it.capacity, it.start, it.own_name) for it in given.nodes.values()],
            )
            self.assertEqual(back.floors, given.floors)
            self.assertEqual(
                [(it.way, it.travel, it.rate, it.own_name) for it in back.arcs.values()],
                [(it.way, it.travel, it.rate, it.own_name) for it in given.arcs.values()],
            )
        self.assertIn("\nWP1.1,10,3,'=Hall,G\n", nodes)  # (a quote keeps a spreadsheet from taking it for a formula)

    def test_what_has_no_place_in_the_two_tables(self) -> None:
        timed = "window WP1.1 DS1.1 0 1\nentrant WP1.1 2 1\nend\n"
        with self.assertRaisesRegex(NoAnswer, "1 windows and 1 entrants have no place"):
            tables_of(reads(ROOM.replace("evacplan 1", "evacplan 2").replace("end\n", timed), self.client).model)
        for title in ("x" * 151, "a\nb"):
            with self.assertRaises(WordsError):
                self.building(title=title)

    def test_a_refusal_of_the_program_names_the_row(self) -> None:
        # Lines 1 to 3 are `evacplan`, `period` and `horizon`; 4 to 24 floors; 25 is the lobby's own name, and 26 the lobby of row 2.
        cases: Tuple[Tuple[int, Type[EvacaskError], str], ...] = ((26, TableError, "nodes.csv, row 2: "), (3, Refused, "line 3: refused 7"))
        for line, error, what in cases:
            self.client = Replies({"upgrade": f"refused 7 {line}\n"})
            with self.subTest(line), self.assertRaises(error) as fault:
                self.building()
            self.assertTrue(str(fault.exception).startswith(what), fault.exception)

    def test_changed_bytes_end_in_named_errors(self) -> None:
        dice = random.Random(5)
        for kind, text in TABLES.items():
            for _ in range(40):
                data = bytearray(text.encode())
                for _ in range(dice.randint(1, 2)):
                    at = dice.randrange(len(data) + 1)
                    data[at : at + dice.choice((0, 0, 3))] = dice.choice(PIECES)
                with self.subTest(f"{kind}: {bytes(data)!r}"):
                    try:
                        self.taken(kind, bytes(data))
                    except EvacaskError:
                        pass


if __name__ == "__main__":
    unittest.main()
