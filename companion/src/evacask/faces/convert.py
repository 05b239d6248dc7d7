"""The command `convert`: a building with its ways in metres becomes one that the program reads, or its answers for several periods."""
from __future__ import annotations

import argparse
import sys
from argparse import Namespace
from typing import List, Optional, Tuple, Union

from evacask.errors import WordsError
from evacask.faces.asked import program_of, put, read
from evacask.faces.ending import Status
from evacask.faces.sheet import Column, Sheet
from evacask.faces.words import FACES, Command, argument
from evacask.model.drawn import Rounding
from evacask.model.drawn_building import LONGEST_PERIOD, DrawnBuilding, Scale, Shares, best_shares, building_text, drawn_building, shares_for
from evacask.model.lines import is_number
from evacask.model.shares import MOST
from evacask.questions.bracket import NARROW, Bracket, brackets, narrow_period

WHAT = f"""The plan is a building with lines `way FROM TO PART ..` instead of arcs. The parts of a way, in order:

    free 11                  metres walked without a crowd, such as in a room to its door
    crowd 7 1.63             metres in a crowd, and its people per square metre
    level 18 2.40            a corridor: its length, and its width from wall to wall
    stair 5.96 1.50 178/279  a stair: its length along the slope, its width between the walls, and its riser/tread
    escalator 10.7 0.5 1     a running escalator: its length, its metres a second, and the people a second who get on
    door 0.90                a door that is held open: its clear width
    doors 4 1.30             equal doors side by side: how many, and the clear width of each
    leaves 1                 a door that isn't held open: its leaves, for 50 people a minute each
    people 1.56              limited to so many people a second, and walked at the speed of that flow
    comes 0.78               no more than so many a second arrive: walked at the speed of that flow, with the rate of the width

Lengths and widths are in metres. The rate of a way is that of its narrowest part, and each part is walked at the speed for so many people.
Rates are rounded down and travel times up, which errs towards a later clearing time if there are no windows and no late-comers;
add one period.

A rate is a whole number of people a period. With --shares the building counts each person as several shares, so a rate may be a fraction:
all commands of evacask still read and print people. `--shares auto` takes the least number up to {MOST} that loses at most
0.5 % of each rate."""


def convert_sheet(answers: Tuple[Bracket, ...], narrow: Optional[int], drawn: DrawnBuilding) -> Sheet:
    """The answers of both sides, a row for each period."""
    columns = (
        Column("period", "period", is_right=True),
        Column("shares", "shares", is_right=True),
        Column("rates lose", "loss", is_right=True),
        Column("not before", "earliest", is_right=True),
        Column("all out before", "latest", is_right=True),
        Column("width", "width", is_right=True),
        Column("", "note"),
    )
    return Sheet(answers, (), columns, tuple(map(bracket_row, answers)), tuple(after(answers, narrow)))


def bracket_row(it: Bracket) -> Tuple[object, ...]:
    ends = (None if end is None else f"{end} s" for end in (it.earliest, it.latest))
    shares = (it.shares.number, f"{100 * it.shares.loss:.2f} %") if it.shares else (None, None)
    return (f"{it.period} s", *shares, *ends, None if it.width is None else f"{100 * it.width:.1f} %", note(it))


def note(it: Bracket) -> str:
    """Why an end is missing."""
    short = f"at most {it.most} of {it.people} are out by the horizon" if it.most is not None else ""
    return "; ".join(filter(None, (it.refused, short, *it.silent)))


def after(answers: Tuple[Bracket, ...], narrow: Optional[int]) -> List[str]:
    """What the table rests on, and which period is worth a try."""
    lines = [
        "When all are out of the building as it is drawn, whichever way its numbers are rounded: by the laws of rounded travels, rounded rates",
        "and shorter periods (proved). The rates and travels themselves are evacask's own arithmetic, by docs/users/modelling.md.",
    ]
    wide = [it for it in answers if it.width is None or it.width > NARROW]
    if wide:
        lines.append(f"A period of {narrow} s brings the width below 2 %." if narrow else "No shorter period brings the width below 2 %.")
    return lines


def shares_word(text: str) -> Union[int, str]:
    """A number of shares, or `auto`."""
    if text == "auto":
        return text
    if not is_number(text) or not 1 <= int(text) <= MOST:
        raise argparse.ArgumentTypeError(f"{text} is no number of shares: 1 to {MOST}, or auto")
    return int(text)


def period_word(text: str) -> int:
    if not is_number(text) or not 1 <= int(text) <= LONGEST_PERIOD:
        raise argparse.ArgumentTypeError(f"{text} is no period: 1 to {LONGEST_PERIOD} seconds")
    return int(text)


def chosen(given: Namespace, drawn: DrawnBuilding, period: int) -> Shares:
    """The shares that the words ask for; whole people without a word."""
    return best_shares(drawn, period) if given.shares == "auto" else shares_for(drawn, period, given.shares or 1)


def run(given: Namespace) -> int:
    drawn = drawn_building(given.plan, read(given.plan))
    if given.both:
        return run_both(given, drawn)
    if len(given.period) > 1:
        raise WordsError("several periods go with --both alone")
    if given.face != "text":
        raise WordsError(f"--{given.face} goes with --both alone: without it a building is written")
    period = given.period[0] if given.period else drawn.period
    shares = chosen(given, drawn, period)
    text = building_text(drawn, Scale(period, shares.number, given.rounding))
    sys.stdout.write(
        f"{text}# evacask's own arithmetic, not proved: ways in metres became arcs by docs/users/modelling.md, {given.rounding.value}.\n"
    )
    if given.shares == "auto" and sys.stderr is not None:
        sys.stderr.write(f"evacask: {shares.number} share{'s' * (shares.number > 1)} of a person; the rates lose {100 * shares.loss:.2f} % at most\n")
    return Status.ANSWERED


def run_both(given: Namespace, drawn: DrawnBuilding) -> int:
    client = program_of(given)
    answers = brackets(client, drawn, given.period, None if given.shares in (None, "auto") else given.shares)
    is_wide = any(it.width is None or it.width > NARROW for it in answers)
    narrow = narrow_period(client, drawn, min(it.period for it in answers)) if is_wide else None
    return put(convert_sheet(answers, narrow, drawn), "convert", given, client)


COMMAND = Command(
    "convert",
    run,
    "turn metres into a building: lengths and widths become travel times and rates",
    WHAT,
    "examples/school.plan",
    (
        argument("plan", metavar="PLAN", help="a building with `way` lines, or - for standard input"),
        argument("--period", type=period_word, action="append", default=[], metavar="N", help="a period of N seconds instead of the plan's"),
        argument("--shares", type=shares_word, default=None, metavar="N", help=f"count each person as N shares, 1 to {MOST}, or auto"),
        [
            argument(
                "--down",
                dest="rounding",
                action="store_const",
                const=Rounding.LATER,
                default=Rounding.LATER,
                help="rates down, travel times up (the default)",
            ),
            argument("--up", dest="rounding", action="store_const", const=Rounding.EARLIER, help="rates up, travel times down"),
            argument("--both", action="store_true", help="print a table: between which seconds everybody is out, for each --period"),
        ],
        *FACES,
    ),
)
