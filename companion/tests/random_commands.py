"""EVACPLAN=PROGRAM python3 -m companion.tests.random_commands [BUILDINGS [HUBS [SEED]]]: the numbers of each command against the program's own.

The program is run on texts that are edited here, and its blocks are read here, so that nothing of the package stands between. Hubs have 60 to 130 ways
into one exit. It prints each difference, and how many numbers were compared; the status is 1 if one differs.
"""
import random
import re
import sys
import tempfile
from typing import Dict, List, Tuple

from companion.tests.buildings import random_building
from companion.tests.random_questions import check_questions
from companion.tests.random_reading import COUNTS, FAULTS, answer, arcs, ask, numbers, outcome, rows, same, solved, with_rates


def hub(dice: random.Random) -> str:
    """Rooms with an arc each into one exit; the first has many people and another exit."""
    rooms = [f"WP{it}.1" for it in range(1, dice.randint(60, 130) + 1)]
    lines = ["evacplan 1", f"period {dice.randint(1, 9)}", "horizon 100", "floor 1 Ground"]
    lines += [f"node {name} 50 {dice.randint(20, 50) if name == 'WP1.1' else dice.randint(0, 3)}" for name in rooms]
    lines += ["node DS1.1", "node DS2.1", *(f"arc {name} DS1.1 {dice.randint(1, 3)} {dice.randint(1, 2)}" for name in rooms)]
    return "\n".join([*lines, "arc WP1.1 DS2.1 1 1", "end", ""])


def check_summary(text: str, block: str) -> None:
    said = answer("summary", "-", text=text)
    if block.startswith("refused 22 "):
        same("summary, short", (said["most"], said["people"]), (numbers(block, "most")[0][0], numbers(block, "people")[0][0]), text)
        return
    report = solved(text.encode(), "solve", "--reports")
    for key, word in (("people", "people"), ("cleared", "cleared"), ("uncongested", "uncongested"), ("person_periods", "personperiods")):
        same("summary", said[key], numbers(report, word)[0][0], text)


def check_why(text: str, curve: List[int], dice: random.Random) -> None:
    period = dice.randrange(len(curve))
    said = answer("why", "-", period, text=text)
    same("why", said["most"], curve[period], text)
    if period < len(curve) - 1:
        cut = solved(f"{text}cut {period}\n".encode(), "session").partition("\ncut ")[2]
        mine = sorted((list(it["names"]), it["people"]) for it in said["places"] if it["names"])  # type: ignore[attr-defined]
        found: Dict[Tuple[str, ...], int] = {}
        for word, *rest in map(str.split, cut.split("\n")[1:-2]):
            names = tuple(rest[1:3]) if word == "arc" else (rest[0],)
            if word != "entry":
                found[names] = found.get(names, 0) + int(rest[-1])
        same("why, places", mine, sorted((list(names), people) for names, people in found.items()), text)


def check_sensitivity(text: str, dice: random.Random, most: int) -> None:
    rate, ways = dice.choice((None, 0, 1, 2, 5)), arcs(text)
    said = rows("sensitivity", "-", *(() if rate is None else ("--rate", rate)), text=text)
    same("sensitivity, rows", len(said), len(ways) + len(re.findall(r"(?m)^node DS\S+$", text)), text)
    exits = [row for row in said if not row["from"]]
    others = [row for row in said if row["from"]]
    for row in exits + dice.sample(others, min(most, len(others))):
        changed = [way for way in ways if way[1] == row["to"]] if not row["from"] else [(row["from"], row["to"])]
        for new, key in ((0, "without"), (10_000 if rate is None else rate, "widened")):
            cleared, people = outcome(with_rates(text, {way: new for way in changed}))
            same("sensitivity", (row[key], row[f"{key}_out"]), ("" if cleared is None else str(cleared), str(people)), text)


def check_compare(text: str, dice: random.Random) -> None:
    ways = list(arcs(text))
    rates = {way: dice.randint(0, 4) for way in dice.sample(ways, min(3, len(ways)))}
    edits = "; ".join(f"rate {tail} {head} {rate}" for (tail, head), rate in rates.items())
    row = rows("compare", "-", "--edit", edits, text=text)[1]
    cleared, people = outcome(with_rates(text, rates))
    same("compare", (row["cleared"], row["most"]), ("" if cleared is None else str(cleared), str(people)), text)
    made = ask("edit", "-", "--edit", edits, text=text).out
    same("edit", outcome(made), (cleared, people), text)
    if cleared is not None and people:
        curve = [out for _, out in numbers(solved(with_rates(text, rates).encode(), "solve"), "out")]
        shares = [next(k for k, out in enumerate(curve) if out * 100 >= share * people) for share in (50, 95)]
        same("compare, shares", (row["half_out"], row["out_95"]), tuple(map(str, shares)), text)


def check_width(text: str, cleared: int, dice: random.Random) -> None:
    way = dice.choice(list(arcs(text)))
    horizon, period = (int(re.search(rf"(?m)^{word} (\d+)", text)[1]) for word in ("horizon", "period"))  # type: ignore[index]
    moment = max(0, min(horizon, cleared + dice.choice((-1, 0, 1, 2))))
    said = answer("width", "-", *way, (moment + 1) * period, text=text)

    def is_enough(rate: int) -> bool:
        found = outcome(with_rates(text, {way: rate}))[0]
        return found is not None and found <= moment

    rate = said["rate"]
    same("width, moment", said["moment"], moment, text)
    if rate is None:
        same("width, never", is_enough(10_000), False, text)
    elif isinstance(rate, int):
        same("width", (is_enough(rate), rate > 0 and is_enough(rate - 1)), (True, False), text)


def check_tables(text: str, block: str, curve: List[int]) -> None:
    said = rows("tables", "exits", "-", text=text)
    same("tables exits", [int(row["out"]) for row in said], curve, text)
    entered = [line.split() for line in block.split("\n") if line.startswith("move ")]
    everything = rows("tables", "all", "-", text=text)
    mine = sorted((row["moment"], row["from"], row["to"], row["people"]) for row in everything if row["kind"] == "arc")
    same("tables all, arcs", mine, sorted((t, tail, head, people) for _, t, tail, head, people in entered), text)
    totals = {(row["from"], row["to"]): int(row["people"]) for row in rows("tables", "totals", "-", text=text)}
    wanted = {way: sum(int(it[4]) for it in entered if (it[2], it[3]) == way) for way in arcs(text)}
    same("tables totals", totals, wanted, text)
    nodes = rows("tables", "nodes", "-", text=text)
    fullest = {row["node"]: int(row["most"]) for row in rows("tables", "fullest", "-", text=text)}
    same("tables fullest", fullest, {name: max(int(row[name]) for row in nodes) for name in fullest}, text)
    people = numbers(block, "people")[0][0]
    same("tables nodes", {sum(int(row[name]) for name in fullest) + out <= people for row, out in zip(nodes, curve)}, {True}, text)
    same("tables routes", sum(int(row["people"]) for row in rows("tables", "routes", "-", text=text)), people, text)


def check_session(text: str, dice: random.Random) -> None:
    (tail, head), exits = dice.choice(list(arcs(text))), re.findall(r"(?m)^node (DS\S+)$", text)
    with tempfile.NamedTemporaryFile("w", suffix=".evac") as file:
        file.write(text)
        file.flush()
        said = ask("session", file.name, text=f"rate {tail} {head} 7\n").lines[1]
        lost = ask("session", file.name, "--study", text="exits\n").lines[1:]
    cleared, people = outcome(with_rates(text, {(tail, head): 7}))
    found = re.search(r"cleared (\d+) |at most (\d+) of", said)
    same("session", int(found[1] or found[2]) if found else None, people if cleared is None else cleared, text)
    for name, line in zip(exits, lost):
        cleared, people = outcome(with_rates(text, {way: 0 for way in arcs(text) if way[1] == name}))
        found = re.search(r"cleared (\d+) |at most (\d+) of", line)
        same("session --study", int(found[1] or found[2]) if found else None, people if cleared is None else cleared, text)


def check_explain(text: str, dice: random.Random) -> None:
    lines = text.split("\n")
    at = dice.randrange(len(lines) - 1)
    broken = "\n".join([*lines[:at], lines[at] + " x y z w v", *lines[at + 1 :]])
    refused = re.match(r"refused \d+ \d+$", solved(broken.encode(), "solve"), re.M)
    said = ask("explain", "-", text=broken)
    same("explain", said.lines[0] if refused else said.status in (0, 1), refused[0] if refused else True, broken)


def check(text: str, dice: random.Random, most: int) -> None:
    """All commands on one building."""
    block = solved(text.encode(), "solve")
    zeros = len([1 for _, rate in arcs(text).values() if not rate])
    doubts = ask("review", "-", text=text)
    same("review", doubts.out.count("nobody may enter this arc"), zeros, text)
    check_summary(text, block)
    check_explain(text, dice)
    if not arcs(text):
        return
    check_compare(text, dice)
    if block.startswith("answer"):
        curve = [out for _, out in numbers(block, "out")]
        check_why(text, curve, dice)
        check_sensitivity(text, dice, most)
        check_width(text, len(curve) - 1, dice)
        check_tables(text, block, curve)
        check_session(text, dice)
        check_questions(text, block, curve, dice, most)


def main(buildings: int = 300, hubs: int = 20, seed: int = 1) -> int:
    for number in range(buildings):
        dice = random.Random(f"{seed} building {number}")
        check(random_building(dice), dice, 1000)
    for number in range(hubs):
        dice = random.Random(f"{seed} hub {number}")
        check(hub(dice), dice, 10)
    for fault in FAULTS:
        print(fault)
    print(f"{sum(COUNTS.values())} comparisons, {len(FAULTS)} differ: {dict(COUNTS)}")
    return 1 if FAULTS else 0


if __name__ == "__main__":
    sys.exit(main(*map(int, sys.argv[1:])))
