"""The later questions on random buildings, for random_commands.py: what each answers is tried by the program on texts that are edited here."""
import itertools
import pathlib
import random
import re
import tempfile
from typing import Dict, List, Mapping, Optional, Sequence, Tuple

from companion.tests.random_exactness import plan as random_plan
from companion.tests.random_reading import Way, answered, arcs, ask, numbers, outcome, rows, same, solved, with_rates

ROOMY = 100_000


def nodes(text: str) -> Dict[str, Tuple[int, int]]:
    """The capacity and the start of each room."""
    return {it[1]: (int(it[2]), int(it[3])) for it in map(str.split, text.split("\n")) if it[:1] == ["node"] and len(it) == 4}


def with_starts(text: str, starts: Mapping[str, int]) -> str:
    """A building with other starts of some rooms, which hold everybody then."""
    lines = [line.split() for line in text.split("\n")]
    return "\n".join(
        f"node {it[1]} {max(int(it[2]), starts[it[1]])} {starts[it[1]]}" if it[:1] == ["node"] and it[1] in starts else " ".join(it) for it in lines
    )


def with_travels(text: str, travels: Mapping[Way, int]) -> str:
    lines = [line.split() for line in text.split("\n")]
    return "\n".join(" ".join([*it[:3], str(travels[it[1], it[2]]), it[4]]) if it[:1] == ["arc"] else " ".join(it) for it in lines)


def clears_by(text: str, moment: int) -> bool:
    cleared = outcome(text)[0]
    return cleared is not None and cleared <= moment


def is_timed(text: str) -> bool:
    return re.search(r"(?m)^(window|entrant) ", text) is not None


def number_of(text: str, word: str) -> int:
    """The period or the horizon of a building."""
    return int(re.findall(rf"(?m)^{word} (\d+)", text)[0])


def seconds_to(text: str, moment: int) -> int:
    """The seconds within which a moment is over."""
    return (moment + 1) * number_of(text, "period")


def check_assign(text: str, curve: List[int]) -> None:
    with tempfile.TemporaryDirectory() as folder:
        file = pathlib.Path(folder, "plan")
        said = answered("assign", "-", "--plan", file, text=text)
        if said is None:
            return
        found = solved(text.encode() + file.read_bytes(), "check")
    # (a plan of one way for each room is a plan, and mostly no best one)
    same("assign, the plan", re.match(r"yes|no 57 ", found) is not None, True, text)
    same("assign, best", said["best"], len(curve) - 1, text)
    same("assign, bounds", said["best"] <= said["bound"] <= said["cleared"], True, text)
    through: Dict[Way, int] = {}
    for it in said["rooms"]:
        for way in zip(it["nodes"], it["nodes"][1:]):
            through[way] = through.get(way, 0) + it["people"]
    moved: Dict[Way, int] = {}
    for it in said["moves"]:
        way = it["tail"], it["head"]
        moved[way] = moved.get(way, 0) + it["people"]
    same("assign, one way a room", moved, {way: people for way, people in through.items() if people}, text)
    same("assign, cleared", said["cleared"], max((it["moment"] + arcs(text)[it["tail"], it["head"]][0] for it in said["moves"]), default=0), text)


def check_improve(text: str, cleared: int, dice: random.Random) -> None:
    if is_timed(text) or cleared < 2:
        return
    moment, ways = cleared - dice.choice((1, 2)), arcs(text)
    said = answered("improve", "-", seconds_to(text, moment), text=text)
    if said is None:
        same("improve, no answer", False, True, text)
    elif said["cost"] is None:
        same("improve, never", clears_by(with_rates(text, {way: 10_000 for way in ways}), moment), False, text)
    else:
        bought = {tuple(it["place"]): it["after"] for it in said["purchases"]}
        same("improve, enough", clears_by(with_rates(text, bought), moment), True, text)  # type: ignore[arg-type]
        same("improve, cost", sum(it["after"] - ways[tuple(it["place"])][1] for it in said["purchases"]), said["cost"], text)  # type: ignore[index]
        same("improve, exact", said["at_least"], said["cost"], text)
        for fewer in cheaper(list(ways), said["cost"] - 1, dice):
            less = {way: ways[way][1] + fewer.count(way) for way in fewer}
            same("improve, no cheaper one", clears_by(with_rates(text, less), moment), False, text)


def cheaper(ways: List[Way], count: int, dice: random.Random) -> Sequence[Tuple[Way, ...]]:
    """All ways to widen so often by 1, or 10 of them if there are many."""
    if count < 2:
        return list(itertools.combinations_with_replacement(ways, count))
    return [tuple(dice.choices(ways, k=count)) for _ in range(10)]


def check_range(text: str, dice: random.Random) -> None:
    percent = dice.choice((10, 25, 50))
    words = [it for kind in ("--rate", "--travel", "--people") for it in (kind, percent)]
    said = {row["varied"]: row for row in rows("range", "-", *words, text=text)}

    def low(number: int) -> int:
        return number * (100 - percent) // 100

    def high(number: int) -> int:
        return -(-number * (100 + percent) // 100)

    ways, starts = arcs(text), {name: start for name, (_, start) in nodes(text).items() if start}
    capacities = with_starts(text, {name: high(start) for name, start in starts.items()})
    corners = {
        "rate": [with_rates(text, {way: of(rate) for way, (_, rate) in ways.items()}) for of in (high, low)],
        "travel": [with_travels(text, {way: max(1, of(travel)) for way, (travel, _) in ways.items()}) for of in (low, high)],
        "people": [with_starts(capacities, {name: of(start) for name, start in starts.items()}) for of in (low, high)],
    }
    for kind, texts in corners.items():
        if kind in said:
            mine = [(said[kind][f"{end}_moment"], said[kind][f"{end}_most"]) for end in ("earliest", "latest")]
            program = [("" if cleared is None else str(cleared), str(most)) for cleared, most in map(outcome, texts)]
            same("range", mine, program, text)


def check_sweep(text: str, dice: random.Random) -> None:
    ways = list(arcs(text))
    scenarios = [{way: dice.randint(0, 4) for way in dice.sample(ways, min(2, len(ways)))} for _ in range(3)]
    with tempfile.NamedTemporaryFile("w", suffix=".csv") as file:
        edits = ("; ".join(f"rate {tail} {head} {rate}" for (tail, head), rate in it.items()) for it in scenarios)
        file.write("name,edits\n" + "".join(f"{number},{it}\n" for number, it in enumerate(edits)))
        file.flush()
        said = list(rows("sweep", "-", file.name, text=text))
    same("sweep, rows", len(said), len(scenarios), text)
    for row, rates in zip(said, scenarios):
        cleared, most = outcome(with_rates(text, rates))
        same("sweep", (row["cleared"], row["most"]), ("" if cleared is None else str(cleared), str(most)), text)


def check_losses(text: str) -> None:
    ways = list(arcs(text))
    for count in (1, 2) if len(ways) <= 8 else (1,):
        said = answered("losses", "-", "-k", count, "--top", 3, text=text)
        if said is None:
            continue
        # (a loss is listed if it costs more than each part of it: else one of its places adds nothing)
        tried = {lost: badness(text, lost) for number in range(count + 1) for lost in itertools.combinations(ways, number)}
        adding = [found for lost, found in tried.items() if len(lost) == count and adds_up(lost, tried)]
        worst = [(it["most"], it["cleared"]) for it in said["worst"]]
        lost = [tuple((tail, head) for tail, head in it["places"]) for it in said["worst"]]
        same("losses", worst, [badness(text, it) for it in lost], text)
        same("losses, no worse one", worst, sorted(adding, key=order)[:3], text)


def badness(text: str, lost: Tuple[Way, ...]) -> Tuple[int, Optional[int]]:
    """How many are out by the horizon without some ways, and when all are."""
    cleared, most = outcome(with_rates(text, {way: 0 for way in lost}))
    return most, cleared


def adds_up(lost: Tuple[Way, ...], tried: Mapping[Tuple[Way, ...], Tuple[int, Optional[int]]]) -> bool:
    return all(order(tried[lost]) < order(tried[lost[:at] + lost[at + 1 :]]) for at in range(len(lost)))


def order(found: Tuple[int, Optional[int]]) -> Tuple[int, int]:
    """The fewer out, and the later, the sooner in the list."""
    most, cleared = found
    return most, -ROOMY if cleared is None else -cleared


def check_admit(text: str, cleared: int, dice: random.Random) -> None:
    starts, moment = {name: start for name, (_, start) in nodes(text).items()}, min(number_of(text, "horizon"), cleared + dice.choice((-1, 0, 1, 3)))
    if is_timed(text) or moment < 0:
        return
    room = dice.choice(list(starts))
    said = answered("admit", "-", seconds_to(text, moment), "--room", room, text=text)
    if said is None or said["people"] is None:
        same("admit, nobody", clears_by(with_room(text, room, 0), moment), False, text)
    elif said["people"] + said["others"] < ROOMY:
        fits = [clears_by(with_room(text, room, said["people"] + more), moment) for more in (0, 1)]
        same("admit, one room", fits, [True, False], text)
    together = answered("admit", "-", seconds_to(text, moment), text=text)
    if together is not None:
        same("admit, shared", clears_by(with_starts(text, {it["room"]: it["people"] for it in together["shares"]}), moment), True, text)
        same("admit, sum", sum(it["people"] for it in together["shares"]), together["shared"], text)
        fits = [clears_by(with_starts(text, alike(starts, together["thousandths"] + more)), moment) for more in (0, 1)]
        same("admit, alike", fits, [True, False], text)


def with_room(text: str, room: str, start: int) -> str:
    """A building with so many people in a room that holds everybody."""
    return re.sub(rf"(?m)^node {room} \d+ \d+$", f"node {room} {ROOMY} {start}", text)


def alike(starts: Mapping[str, int], thousandths: int) -> Dict[str, int]:
    return {name: start * thousandths // 1000 for name, start in starts.items()}


def check_rescue(text: str, curve: List[int], dice: random.Random) -> None:
    moment = dice.randrange(len(curve))
    said = answered("rescue", "-", "--seconds", seconds_to(text, moment), text=text)
    if said is None:
        return
    same("rescue, most", said["most"], curve[moment], text)
    same("rescue, sum", sum(it["saved"] for it in said["groups"]), curve[moment], text)
    if not is_timed(text):
        saved = {name: start for name, (_, start) in nodes(text).items()}
        saved.update({it["room"]: it["saved"] for it in said["groups"]})
        same("rescue, they are out", clears_by(with_starts(text, saved), moment), True, text)


def check_observed(text: str, curve: List[int], dice: random.Random) -> None:
    period, door, out, seconds = number_of(text, "period"), re.findall(r"(?m)^node (DS\S+)$", text)[0], 0, 0
    counted = []
    for _ in range(4):
        seconds, out = seconds + dice.randint(1, 40), out + dice.randint(0, max(1, curve[-1] // 3))
        counted.append((seconds, out))
    with tempfile.NamedTemporaryFile("w", suffix=".csv") as file:
        file.write(f"seconds,{door}\n" + "".join(f"{at},{all_out}\n" for at, all_out in counted))
        file.flush()
        said = rows("observed", "-", file.name, text=text)
    best = [(str(at), str(curve[min(at // period, len(curve) - 1)])) for at, _ in counted]
    same("observed", [(row["seconds"], row["best"]) for row in said[: len(counted)]], best, text)


def check_sheet(text: str, block: str) -> None:
    if is_timed(text):
        return
    with tempfile.TemporaryDirectory() as folder:
        building, places, ways = (pathlib.Path(folder, name) for name in ("x.evac", "nodes.csv", "ways.csv"))
        building.write_text(text)
        same("sheet --back", ask("sheet", "--back", building, places, ways).status, 0, text)
        made = ask("sheet", places, ways, "--period", number_of(text, "period"), "--horizon", number_of(text, "horizon")).out
    same("sheet", curve_of(solved(made.encode(), "solve")), curve_of(block), text)


def curve_of(block: str) -> List[List[int]]:
    return numbers(block, "out") + numbers(block, "people") + numbers(block, "cleared")


def check_convert(dice: random.Random) -> None:
    """A building in metres: what the commands say of the drawing is what the program answers of the building that convert writes."""
    drawn, period = random_plan(dice), dice.choice((2, 5, 10))
    cleared, people = outcome(ask("convert", "-", "--period", period, text=drawn).out)
    both = answered("convert", "-", "--both", "--period", period, text=drawn)
    if both is None or not both[0]["shares"]:
        return
    number = both[0]["shares"]["number"]
    finer, out = outcome(ask("convert", "-", "--period", period, "--shares", number, text=drawn).out)
    latest = None if finer is None else (finer + 1) * period
    same("convert --both", both[0]["latest"], latest, drawn)
    if cleared is not None and finer is not None:
        same("convert, people", (both[0]["people"], out), (people, people * number), drawn)


def check_replan(text: str, curve: List[int], dice: random.Random) -> None:
    moment, (tail, head) = dice.randint(1, max(1, len(curve) // 2)), dice.choice(list(arcs(text)))
    talk = f"advance {moment}\nrate {tail} {head} 7\n"
    blocks = solved(text.encode() + talk.encode(), "replan").split("end\n")
    with tempfile.NamedTemporaryFile("w", suffix=".evac") as file:
        file.write(text)
        file.flush()
        said = ask("session", file.name, "--replan", text=talk).out
    gone = [str(found[-1][1]) for found in (numbers(block, "gone") for block in blocks) if found]
    same("session --replan, out", re.findall(r"(?m)^advance \d+: (\d+) ", said), gone, text)
    cleared = [str(it[0]) for block in blocks for it in numbers(block, "cleared")]
    same("session --replan", re.findall(r"cleared (\d+) ", said), cleared, text)


def check_questions(text: str, block: str, curve: List[int], dice: random.Random, most: int) -> None:
    """All later questions about a building that can be cleared. Those that try many ways are asked of buildings with up to `most` ways."""
    check_range(text, dice)
    check_sweep(text, dice)
    check_admit(text, len(curve) - 1, dice)
    check_rescue(text, curve, dice)
    check_observed(text, curve, dice)
    check_replan(text, curve, dice)
    check_convert(dice)
    if len(arcs(text)) <= most:
        check_assign(text, curve)
        check_improve(text, len(curve) - 1, dice)
        check_losses(text)
        check_sheet(text, block)
