"""What the ways are worth that most people use: when all are out without each, and when with it at any rate, as far as some trials reach."""
from __future__ import annotations

from dataclasses import dataclass
from typing import Callable, Collection, Dict, List, Optional, Sequence, Set, Tuple

from evacask.client.blocks import Outcome, Plan
from evacask.client.talk import Client
from evacask.model.building import Model, Way
from evacask.model.draft import MOST_RATE
from evacask.model.ground import Ground
from evacask.model.records import Record, Records
from evacask.model.shares import Count, in_people
from evacask.questions.sensitivity import Trial, WayOutcome, most_sent, outcome, questions
from evacask.questions.spared import Names
from evacask.questions.sweep import sweep

# So many buildings are planned at most, and so many that their plans have this many bytes together.
MOST_TRIALS, MOST_BYTES = 200, 8_000_000


@dataclass(frozen=True)
class Worth(Records):
    """What some ways cost and bring, what costs most first. `untried` ways, which fewer people use, weren't tried."""

    ways: Tuple[WayOutcome, ...]
    untried: int
    ground: Ground = Ground.PROVED

    def records(self) -> List[Record]:
        """A dict for each way; moments are in periods, and None if not all can be out."""
        return [{"names": " ".join(it.names), "without": it.without.cleared, "out": it.without.most, "widened": it.wide.cleared} for it in self.ways]


def worth(
    client: Client,
    plan: Plan,
    through: Dict[Way, Count],
    crossed: Set[Way],
    trials: Optional[int] = None,
    workers: int = 4,
    tell: Callable[[int, int], None] = lambda done, of: None,
) -> Worth:
    """The worth of ways. `through` has how many the plan sends each way, and `crossed` the arcs in the cut of the period before all are out."""
    model = plan.model
    asked = questions(model, in_people(MOST_RATE, model.shares), most_sent(plan), crossed)
    users = users_of(model, through)
    names = sorted({names for names, _ in asked}, key=lambda it: (-users[it], it))
    tried = within(asked, names, usual_trials(plan) if trials is None else trials)
    wanted = [key for key in asked if key[0] in set(tried)]
    found = dict(zip(wanted, map(outcome, sweep(client, model, [asked[it] for it in wanted], workers, tell))))
    same = Outcome(plan.cleared, plan.people)
    ways = [WayOutcome(it, found.get((it, "without"), same), found.get((it, "wide"), same)) for it in tried]
    return Worth(tuple(sorted(ways, key=lambda it: it.order)), len(names) - len(tried))


def usual_trials(plan: Plan) -> int:
    """How many buildings are planned if nobody says: fewer of a building whose plans are long, and the same at each run."""
    return min(MOST_TRIALS, MOST_BYTES // len(plan.raw))


def users_of(model: Model, through: Dict[Way, Count]) -> Dict[Names, Count]:
    """How many go each way, and out by each exit."""
    users: Dict[Names, Count] = {way: people for way, people in through.items()}
    for node in model.exits:
        users[(node.name,)] = sum(people for way, people in through.items() if way[1] == node.name)
    return users


def within(asked: Collection[Trial], names: Sequence[Names], most: int) -> List[Names]:
    """The first of some ways whose trials are so many at most."""
    found, count = [], 0
    for it in names:
        count += sum((it, kind) in asked for kind in ("without", "wide"))
        if count > most:
            break
        found.append(it)
    return found
