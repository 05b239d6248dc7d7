"""The command `sheet`: two tables to a building, and back."""
from __future__ import annotations

import os
import sys
from argparse import Namespace

from evacask.errors import OutputError, WordsError
from evacask.faces.asked import program_of, named, read
from evacask.faces.ending import Status
from evacask.faces.files import read_bytes, write_file
from evacask.faces.words import Command, argument, number
from evacask.model.lines import bytes_of
from evacask.questions.sheets import Table, model_of_tables, tables_of


def run(given: Namespace) -> int:
    client = program_of(given)
    if given.back is not None:
        nodes, ways = tables_of(named(given.back, client, read(given.back)))
        for name in (given.nodes, given.ways):
            if os.path.exists(name) and not given.force:
                raise OutputError(f"{name} is there already: --force writes over it")
        write_file(given.nodes, bytes_of(nodes))
        write_file(given.ways, bytes_of(ways))
        return Status.ANSWERED
    if given.nodes == given.ways == "-":
        raise WordsError("one of the two tables can come from standard input, and not both")
    nodes_table, ways_table = (Table(name, read_bytes(name)) for name in (given.nodes, given.ways))
    model = model_of_tables(client, nodes_table, ways_table, given.period, given.horizon, given.title)
    if given.output is None:
        sys.stdout.write(model.text)
    else:
        write_file(given.output, model.bytes)
    return Status.ANSWERED


COMMAND = Command(
    "sheet",
    run,
    "make a building from two tables of a spreadsheet, or tables from a building",
    "Nodes have the columns name,capacity,start and optionally floors, own name, floor text; ways have from,to,travel,rate and optionally\n"
    "floors, both ways, own name. The floors 1-20 turn a row into twenty: WP1 is then on each of them, and SW1.-1 on the one below. An error\n"
    "message names the table, the row and the column.",
    "examples/tower_nodes.csv examples/tower_ways.csv --period 5 --horizon 400",
    (
        argument("nodes", metavar="NODES.csv", help="the table of nodes"),
        argument("ways", metavar="WAYS.csv", help="the table of ways"),
        argument("--period", type=number, default=5, metavar="SECONDS", help="the seconds of a period (default: 5)"),
        argument("--horizon", type=number, default=240, metavar="PERIODS", help="how many periods the plan looks ahead (default: 240)"),
        argument("--title", default="", metavar="TEXT", help="the building's title"),
        argument("-o", "--output", metavar="FILE", default=None, help="write the building to this file"),
        argument("--back", metavar="BUILDING", default=None, help="write this building's two tables"),
        argument("--force", action="store_true", help="overwrite tables that exist"),
    ),
)
