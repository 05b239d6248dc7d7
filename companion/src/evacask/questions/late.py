"""A building with one more exit, which everybody can reach, but only after a moment.

Nobody can be out by it up to that moment. So a best plan of this building has as many out by then as can be, whoever stays, and no loss of a way or
an exit leaves it without a plan.
"""
from __future__ import annotations

from typing import Dict, Tuple

from evacask.errors import WordsError
from evacask.model.building import Arc, Model, Node, Way
from evacask.model.variant import MOST_HORIZON, MOST_RATE, MOST_TRAVEL, people_of, varied, whole

MOST_NODES, MOST_ARCS, MOST_CELLS = 400, 1_600, 1_000_000


def with_late_exit(model: Model, moment: int) -> Tuple[Model, str]:
    """The building (in units) with an exit that is reached after `moment` at the earliest, from each room with people; and the exit's name.

    Who comes in after `moment` is left out. `WordsError` if the building would be larger than a building may be.
    """
    entrants = [it for it in model.entrants if it.moment <= moment]
    inside = people_of(varied(model, entrants=entrants))
    last = max((it.moment for it in entrants), default=0)
    horizon = moment + 1 + last + whole(max(inside.values(), default=0)) // MOST_RATE
    name = free_name(model, "DS")
    nodes = {name: Node(name, None, None, 0)}
    head, travel, arcs = halls_before(model, name, moment + 1, nodes)
    for room, people in inside.items():
        if people:
            arcs[room, head] = Arc(room, head, travel, MOST_RATE, 0)
    extended = varied(model, horizon=horizon, nodes=nodes, arcs=arcs, entrants=entrants)
    check_size(extended)
    return extended, name


def halls_before(model: Model, name: str, periods: int, nodes: Dict[str, Node]) -> Tuple[str, int, Dict[Way, Arc]]:
    """The node from which the exit is reached by one arc of a travel that is left, with halls in which nobody may wait, as an arc is at most so long."""
    head = name
    arcs: Dict[Way, Arc] = {}
    while periods > MOST_TRAVEL:
        hall = free_name(model, "HA", len(nodes) - 1)
        nodes[hall] = Node(hall, 0, 0, 0)
        arcs[hall, head] = Arc(hall, head, MOST_TRAVEL, MOST_RATE, 0)
        head, periods = hall, periods - MOST_TRAVEL
    return head, periods, arcs


def free_name(model: Model, kind: str, skipped: int = 0) -> str:
    """A name that no node has, on a floor that some node has."""
    floor = next(iter(model.nodes.values())).floor
    names = (f"{kind}{number}.{floor}" for number in range(9999 - skipped, 0, -1))
    return next(it for it in names if it not in model.nodes)


def check_size(model: Model) -> None:
    cells = (len(model.nodes) + len(model.arcs)) * (model.horizon + 1)
    for what, size, most in (
        ("periods ahead", model.horizon, MOST_HORIZON),
        ("nodes", len(model.nodes), MOST_NODES),
        ("arcs", len(model.arcs), MOST_ARCS),
        ("cells", cells, MOST_CELLS),
    ):
        if size > most:
            raise WordsError(f"this question plans a building with {size:,} {what}, and at most {most:,} can be: lower the horizon")
