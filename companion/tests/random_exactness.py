"""random_exactness.py SEED COUNT: random buildings in shorter periods and in shares, against the ends that were printed for the coarse ones.

EVACPLAN names the program. Each building is drawn in metres or in periods; what it comes to more finely must lie between the ends of the coarse answer,
and no answer gets worse if each share is cut into more.
"""
import pathlib
import random
import sys
from collections import Counter
from typing import List, Optional, Tuple

sys.path.insert(0, str(pathlib.Path(__file__).resolve().parent.parent / "src"))
from evacask.client.asking import accepted, plan_or_short
from evacask.client.blocks import Plan
from evacask.client.program import found_program
from evacask.client.talk import Client
from evacask.model.building import Model
from evacask.model.drawn import Rounding
from evacask.model.drawn_building import Scale, best_shares, building_text, drawn_building, fits, shares_for
from evacask.questions.bracket import Bracket, bracket
from evacask.questions.sensitivity import sensitivity
from evacask.questions.width import width

STAIRS = ("191/254", "178/279", "165/305", "165/330")


def building(chance: random.Random, finer: int = 1, shares: int = 1) -> str:
    """A random building with periods `finer` times shorter, which counts each person as so many shares. `shares` is a multiple of `finer`."""
    horizon, rooms, exits = chance.randint(8, 30), chance.randint(1, 5), chance.randint(1, 2)
    names = [f"{chance.choice(('WP', 'HA', 'SW', 'LO'))}{it}.1" for it in range(1, rooms + 1)]
    starts = [chance.choice((0, 1, 3, 7, 12)) for _ in names]
    lines = ["evacplan 1", f"period {60 // finer}", f"horizon {finer * (horizon + 1) - 1}", "floor 1 Ground"]
    lines += [f"node {name} {50 * shares} {start * shares}" for name, start in zip(names, starts)]
    lines += [f"node DS{it}.1" for it in range(1, exits + 1)]
    for tail in names:
        for head in [*names, *(f"DS{it}.1" for it in range(1, exits + 1))]:
            if head != tail and chance.random() < 0.5:
                lines.append(f"arc {tail} {head} {chance.randint(1, 4) * finer} {chance.randint(1, 5) * shares // finer}")
    return "\n".join([*lines, "end", ""])


def plan(chance: random.Random) -> str:
    """A random plan in metres: rooms along a corridor, a stair, doors."""
    rooms, lines = chance.randint(1, 4), ["evacplan 1", "period 5", "horizon 240", "floor 1 Ground"]
    lines += [f"node WP{it}.1 200 {chance.randint(1, 40)}" for it in range(1, rooms + 1)]
    lines += ["node HA1.1 500 0", "node SW1.1 500 0", "node DS1.1", "node DS2.1"]
    drawn = chance.randint
    for it in range(1, rooms + 1):
        lines.append(f"way WP{it}.1 HA1.1 free {drawn(10, 30)} door 0.{drawn(75, 99)}")
    lines.append(f"way HA1.1 SW1.1 level {drawn(12, 60)} 1.{drawn(10, 99)}")
    stair = f"stair {drawn(6, 15)}.{drawn(1, 9)} 1.{drawn(10, 80)} {chance.choice(STAIRS)}"
    lines.append(f"way SW1.1 DS1.1 {stair} level 9 3.00 {chance.choice(('door 0.90', 'leaves 1', 'door 1.20', 'comes 0.7'))}")
    if chance.random() < 0.5:
        lines.append(f"way HA1.1 DS2.1 level {drawn(20, 80)} 2.00 door 0.{drawn(75, 99)}")
    return "\n".join([*lines, "end", ""])


def finer_is_inside(client: Client, seed: str) -> str:
    """What comes of a building in periods 2 to 10 times shorter and in up to 60 shares: `inside`, `short`, or what is wrong."""
    chance = random.Random(seed)
    finer = chance.choice((2, 3, 4, 5, 6, 10))
    shares = finer * chance.randint(1, 60 // finer)
    coarse, fine = (answer(client, building(random.Random(seed), *it)) for it in ((1, 1), (finer, shares)))
    if coarse is None or fine is None:
        return "short" if coarse is fine else f"only one of both clears: {coarse} and {fine}"
    return "inside" if coarse[0] <= fine[0] and fine[1] <= coarse[1] else f"{fine} isn't within {coarse}"


def answer(client: Client, text: str) -> Optional[Tuple[int, int]]:
    """The seconds between which all are out, or None if not all can be."""
    found = plan_or_short(client, accepted(client, text))
    return found.interval if isinstance(found, Plan) else None


def brackets_meet(client: Client, seed: str) -> str:
    """What comes of a plan in several periods and shares: what is drawn lies in each bracket, so all of them meet."""
    drawn = drawn_building("random.plan", plan(random.Random(seed)))
    found: List[Bracket] = [bracket(client, drawn, period, shares) for period in (1, 2, 3, 5) for shares in (1, None, 60)]
    earliest = max((it.earliest for it in found if it.earliest is not None), default=0)
    latest = min((it.latest for it in found if it.latest is not None), default=10**9)
    return "inside" if earliest < latest else f"not before {earliest} and before {latest}"


def more_shares_are_no_worse(client: Client, seed: str) -> str:
    """What comes of a plan if each share is cut into more: with no way, and without each, all are out as soon, and the least rate is no greater."""
    chance = random.Random(f"{seed} in shares")
    drawn = drawn_building("random.plan", plan(random.Random(seed)))
    few = chance.randint(5, 20)
    coarse, fine = (accepted(client, building_text(drawn, Scale(5, it, Rounding.LATER))) for it in (few, few * chance.randint(2, 5)))
    plans = [plan_or_short(client, it) for it in (coarse, fine)]
    if not isinstance(plans[0], Plan):
        return "short"
    if not isinstance(plans[1], Plan) or plans[1].cleared > plans[0].cleared:
        return f"{plans[1]} is worse than {plans[0]}"
    for before, after in zip(lost(client, coarse), lost(client, fine)):
        if before is not None and (after is None or after > before):
            return f"without a way all are out by {after}, and by {before} in fewer shares"
    rates = [width(client, it, "SW1.1", "DS1.1", plans[0].interval[1]).rate for it in (coarse, fine)]
    return "inside" if rates[0] is None or rates[1] is not None and rates[1] <= rates[0] else f"it needs {rates[1]}, and {rates[0]} in fewer shares"


def lost(client: Client, model: Model) -> List[Optional[int]]:
    """By when all are out without each way, in the order of their names; None if not all can be."""
    return [it.without.cleared for it in sorted(sensitivity(client, model, workers=1).ways, key=lambda it: it.names)]


def loses_little(seed: str) -> str:
    """Whether `auto` keeps half a percent, or no number of shares that keeps the limits does."""
    drawn = drawn_building("random.plan", plan(random.Random(seed)))
    found = best_shares(drawn, 5)
    kept = found.loss <= 0.005 or all(shares_for(drawn, 5, it).loss > 0.005 for it in range(1, 101) if fits(drawn, 5, it))
    return "inside" if kept else f"{found} loses too much"


def tried(seed: int, count: int) -> Counter:  # type: ignore[type-arg]
    """How many of each kind came out how; what is wrong has its seed."""
    client, found = found_program(), Counter()  # type: ignore[var-annotated]
    for number in range(count):
        name = f"{seed}-{number}"
        trials = {
            "finer": finer_is_inside(client, name),
            "bracket": brackets_meet(client, name),
            "shares": more_shares_are_no_worse(client, name),
            "auto": loses_little(name),
        }
        for kind, said in trials.items():
            found[kind, said if said in ("inside", "short") else f"{name}: {said}"] += 1
    return found


if __name__ == "__main__":
    results = tried(int(sys.argv[1]), int(sys.argv[2]))
    for (kind, said), number in sorted(results.items()):
        print(kind, number, said)
    sys.exit(any(said not in ("inside", "short") for _, said in results))
