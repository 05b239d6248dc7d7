"""What evacask works out itself, on random buildings: against the program's answers, which are proved."""
import csv
import io
import random
import re
import unittest

from companion.tests.asking import ask, found, solved
from evacask.model.building import model_of
from evacask.model.walks import walking_bound, walks

BUILDINGS = 60


def random_building(dice: random.Random) -> str:
    """A building of up to ten nodes, of which a third has windows and a third entrants."""
    rooms = [f"WP{it}.1" for it in range(1, dice.randint(2, 5))] + [f"HA{it}.1" for it in range(1, dice.randint(2, 4))]
    exits = [f"DS{it}.1" for it in range(1, dice.randint(2, 4))]
    lines = ["evacplan 2", f"period {dice.randint(1, 9)}", "horizon 150", "floor 1 Ground"]
    lines += [f"node {name} {dice.randint(40, 60)} {dice.randint(0, 40) if name[0] == 'W' else 0}" for name in rooms]
    lines += [f"node {name}" for name in exits]
    ways = {(one, other) for one in rooms for other in dice.sample(rooms + exits, 3) if one != other}
    ways |= {(dice.choice(rooms), name) for name in exits}
    lines += [f"arc {one} {other} {dice.randint(1, 6)} {dice.randint(1, 9)}" for one, other in sorted(ways)]
    extra = dice.randint(0, 2)
    if extra == 1:
        one, other = dice.choice(sorted(ways))
        lines.append(f"window {one} {other} {dice.randint(0, 9)} {dice.randint(10, 20)}")
    if extra == 2:
        lines.append(f"entrant {dice.choice(rooms)} {dice.randint(1, 9)} {dice.randint(1, 9)}")
    return "\n".join([*lines, "end", ""])


class Random(unittest.TestCase):
    def setUp(self) -> None:
        dice = random.Random(20)
        self.texts = [random_building(dice) for _ in range(BUILDINGS)]
        self.cleared = [text for text in self.texts if solved(text.encode(), "solve").startswith("answer")]
        self.assertGreater(len(self.cleared), BUILDINGS // 2)

    def test_walks_and_the_walking_bound(self) -> None:
        bounds = 0
        for text in self.cleared:
            building, report = model_of(text), solved(text.encode(), "solve", "--reports")
            cleared, uncongested = (int(found(re.search(rf"(?m)^{word} (\d+)", report))) for word in ("cleared", "uncongested"))
            out = walks(building)
            self.assertEqual(max((out[it.name].periods for it in building.rooms if it.start), default=0), uncongested, text)
            bound = walking_bound(building)
            if bound:
                bounds += 1
                self.assertLessEqual(cleared, bound.moment, text)
        self.assertGreater(bounds, 10)

    def test_tables_and_cuts_add_up(self) -> None:
        for text in self.cleared:
            report = solved(text.encode(), "solve")
            curve = re.findall(r"(?m)^out \d+ (\d+)", report)
            rows = list(csv.DictReader(io.StringIO(ask("tables", "exits", "-", text=text).out)))
            self.assertEqual([row["out"] for row in rows], curve, text)
            period = max(0, len(curve) - 2)
            said = ask("why", "-", period, text=text)
            self.assertEqual(said.status, 0)
            if len(curve) > 1:
                self.assertEqual(sum(int(line.split()[0]) for line in said.lines[2:-1]), int(curve[period]), text)

    def test_each_command_answers(self) -> None:
        for text in self.texts[:20]:
            for words in (("summary", "-"), ("doubts", "-"), ("ways", "-"), ("compare", "-", "--edit", "shutexit DS1.1"), ("tables", "walks", "-")):
                said = ask(*words, text=text)
                self.assertIn(said.status, (0, 1, 10), text)
                self.assertTrue(said.status == 1 or not said.err, text)


if __name__ == "__main__":
    unittest.main()
