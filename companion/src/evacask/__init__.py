"""Asks evacplan, the proved evacuation planner, about a building.

    import evacask

    office = evacask.read("examples/office.evac")
    plan = office.solve()
    plan.seconds                              # 140
    office.edited("shutexit DS2.1").solve().seconds
    with office.session() as session:
        session.edit("rate SW1.2 LO1.1 8").seconds
"""
from evacask.api import Building, read, reads
from evacask.client.blocks import Cut, Item, Label, Move, Outcome, Plan
from evacask.client.dialogue import Replan, Session, Study
from evacask.client.program import found_program
from evacask.client.reports import Exit, Gone, Least, Report, Verdict
from evacask.client.talk import Client, Program, Source
from evacask.errors import (
    Broken,
    EvacaskError,
    InputError,
    NoAnswer,
    NoMemory,
    NoProgram,
    NotProved,
    Refused,
    Shortfall,
    TableError,
    UnknownName,
    WordsError,
)
from evacask.model.building import Arc, Entrant, Model, Node, Window
from evacask.model.ground import Ground
from evacask.questions.improve import Widening
from evacask.questions.ranges import Ranges, percents
from evacask.version import VERSION as __version__

__all__ = [
    "Arc",
    "Broken",
    "Building",
    "Client",
    "Cut",
    "Entrant",
    "EvacaskError",
    "Exit",
    "Gone",
    "Ground",
    "InputError",
    "Item",
    "Label",
    "Least",
    "Model",
    "Move",
    "NoAnswer",
    "NoMemory",
    "NoProgram",
    "Node",
    "NotProved",
    "Outcome",
    "Plan",
    "Program",
    "Refused",
    "Ranges",
    "Replan",
    "Report",
    "Session",
    "Shortfall",
    "Source",
    "Study",
    "TableError",
    "UnknownName",
    "Verdict",
    "Widening",
    "Window",
    "WordsError",
    "__version__",
    "found_program",
    "percents",
    "read",
    "reads",
]
