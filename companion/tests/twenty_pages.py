"""Twenty pages of `evacask report` read back: twenty_pages.py [NAME ..] says of each how many numbers were read, and what differs. EVACPLAN names the program.

Examples, a plan in metres, three large buildings, and random ones with closures and people who come in later.
"""
import importlib
import os
import pathlib
import random
import sys
from typing import Callable, Dict, List

TOP = pathlib.Path(__file__).resolve().parent.parent.parent
sys.path[:0] = [str(TOP), str(TOP / "companion/src"), str(TOP / "bench")]
from companion.tests.buildings import random_building  # noqa: E402
from companion.tests.package import ask  # noqa: E402
from companion.tests.page_check import Held, held  # noqa: E402

EXAMPLES = ("office.evac", "metro.evac", "theatre.evac", "stair_repair.evac", "two_ways_out.evac", "school.plan", "corridor.plan")
BENCH = importlib.import_module("buildings")
LARGE: Dict[str, Callable[[], str]] = {"tower": BENCH.tower, "hospital": BENCH.hospital, "late tower": lambda: str(BENCH.late(BENCH.tower()))}
RANDOM = 10
# What the ways of a large building are worth is tried for the first few only.
TRIALS, TRIALS_OF_LARGE = 40, 4


def timed_building(chance: random.Random) -> bytes:
    """A random building with a closure and people who come in later."""
    while True:
        text = random_building(chance)
        if "\nwindow " in text and "\nentrant " in text:
            return text.encode()


def texts() -> Dict[str, bytes]:
    """The twenty buildings, by name."""
    found = {name: (TOP / "examples" / name).read_bytes() for name in EXAMPLES}
    found.update({f"{name} of the bench": make().encode() for name, make in LARGE.items()})
    chance = random.Random(20)
    found.update({f"random {number}": timed_building(chance) for number in range(1, RANDOM + 1)})
    return found


def read_back(program: str, name: str, text: bytes) -> Held:
    """The page about a building, held against the program."""
    trials = TRIALS_OF_LARGE if name.endswith("of the bench") else TRIALS
    said = ask("report", "-", "--trials", trials, text=text)
    if said.status not in (0, 1) or said.err:
        raise RuntimeError(f"{name}: {said.err}")
    return held(program, text, said.out, trials)


def main(names: List[str]) -> int:
    program, wrong, count = os.environ["EVACPLAN"], 0, 0
    for name, text in texts().items():
        if names and name not in names:
            continue
        found = read_back(program, name, text)
        wrong, count = wrong + len(found.wrong), count + found.count
        print(f"{name}: {found.count:,} numbers, {len(found.wrong)} differ", *found.wrong[:8], sep="\n  ", flush=True)
    print(f"{count:,} numbers in all, {wrong} differ")
    return int(wrong > 0)


if __name__ == "__main__":
    sys.exit(main(sys.argv[1:]))
