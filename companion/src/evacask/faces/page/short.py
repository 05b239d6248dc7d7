"""The sections of the page about a building from which not everybody can be out by the horizon."""
from __future__ import annotations

from typing import List

from evacask.faces.page.marks import heading, said
from evacask.faces.page.markup import Markup, joined, table, tag
from evacask.faces.page.numbers import by
from evacask.faces.page.sections import Row, named, rows_of
from evacask.model.building import Model
from evacask.model.ground import Ground
from evacask.questions.report import ShortReport
from evacask.questions.summary import Short


def answer(report: ShortReport) -> Markup:
    """How many can be out, and what to do about it."""
    short, model = report.short, report.model
    first = f"At most {short.most:,} of {short.people:,} people can be out {by(model, short.horizon)}."
    parts = [tag("p", first, class_="answer"), said("No plan has more of them out by then.", ground=Ground.PROVED)]
    if short.enough is not None and short.enough <= short.greatest:
        parts.append(said(f"A horizon of {short.enough:,} periods is enough ({model.seconds(short.enough):,} s).", ground=Ground.OWN))
    return joined(parts)


def why(report: ShortReport) -> Markup:
    """The cut of the horizon, added up by place."""
    model = report.model
    rows: List[Row] = [(named(model, it.names), f"{it.people:,}", f"{it.periods:,}") for it in report.crossed]
    text = "Nobody is out by then but over one of these places, or without being held up."
    free: Row = ("not held up", f"{report.free:,}", "")
    total = said(f"Together that is {report.short.most:,}.")
    parts = (heading("Why not everybody", Ground.CUTS), said(text), rows_of(("place", "people", "periods"), [free, *rows], "places"), total)
    return joined(parts)


def held(model: Model, short: Short) -> Markup:
    """Rooms with people from which no way leads out."""
    if not short.caught:
        return Markup("")
    rows = [(named(model, (name,)), f"{people:,}") for name, people in short.caught]
    return joined((heading("No way out from here", Ground.OWN), table(("node", "people"), rows)))
