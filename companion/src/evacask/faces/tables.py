"""The command `tables` and its sheet."""
from __future__ import annotations

from argparse import Namespace

from evacask.faces.asked import Asked, put
from evacask.faces.sheet import Column, Sheet
from evacask.faces.words import BUILDING, EDIT, Command, argument, faces
from evacask.model.building import Model
from evacask.questions.tables import KINDS, Table, tables

# Columns of text; all others have numbers, which stand to the right.
LEFT = ("from", "to", "name", "names", "exit", "way", "kind", "node", "next", "source")


def tables_sheet(answer: Table, model: Model) -> Sheet:
    """The table as it is."""
    grounds = dict(answer.grounds)
    columns = tuple(Column(head, head, head not in LEFT, ground=grounds.get(head)) for head in answer.heads)
    return Sheet(answer, (), columns, answer.rows)


def run(given: Namespace) -> int:
    asked = Asked(given)
    return put(tables_sheet(tables(asked.client, asked.model, given.kind), asked.model), "tables", given, asked.client)


COMMAND = Command(
    "tables",
    run,
    "tables for a spreadsheet: who is where and when, and who goes which way?",
    "exits    at each moment: how many are out, and by which exit\n"
    "nodes    at each moment: how many are in each node and stay there\n"
    "arcs     at each moment: how many enter each arc\n"
    "routes   for each room: how many go which way, and when the first and the last set out\n"
    "totals   for each arc: how many enter it in total, and when\n"
    "fullest  for each node: the most people who stay in it at once, and when that happens first\n"
    "full     the moments at which every best plan fills an arc or a node (by the cuts)\n"
    "all      exits, nodes and arcs at each moment in one long table, without rows of 0\n"
    "walks    for each node: the quickest way out if nobody else is there\n"
    "All but full and walks describe the printed plan: except for `out`, other best plans may differ. Seconds are the earlier end of a moment.",
    "exits examples/office.evac",
    (argument("kind", metavar="KIND", choices=KINDS, help=", ".join(KINDS)), BUILDING, EDIT, *faces("csv")),
)
