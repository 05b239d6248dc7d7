"""The sections of the page about a building from which everybody gets out."""
from __future__ import annotations

from typing import List, Optional, Sequence, Tuple

from evacask.client.blocks import Outcome
from evacask.faces.page.curve import Curve, curve_picture
from evacask.faces.page.drawing import Drawing
from evacask.faces.page.marks import heading, mark, said
from evacask.faces.page.markup import Content, Markup, joined, own, table, tag
from evacask.faces.page.numbers import by, seconds, spans, when
from evacask.faces.page.strips import MOST_STOREYS, strips_picture
from evacask.model.building import Model
from evacask.model.ground import Ground
from evacask.questions.report import Report
from evacask.questions.room_ways import RoomWay
from evacask.questions.why import Place

MOST_ROWS, MOST_EXITS, MOST_TIMES, MOST_ROOMS = 40, 7, 21, 4
Row = Tuple[Content, ...]


def named(model: Model, names: Sequence[str]) -> Content:
    """A way or a node, with the user's own names."""
    own_names = model.named(*names)
    return joined((" to ".join(names), *((" (", own(own_names), ")") if own_names else ())))


def rows_of(heads: Sequence[Content], rows: Sequence[Row], what: str, texts: int = 1) -> Markup:
    """A table of the first rows, and how many more there are; nothing without rows."""
    if not rows:
        return Markup("")
    more = len(rows) - MOST_ROWS
    note = tag("p", f"{more:,} more {what} aren't listed.", class_="note") if more > 0 else None
    return joined((table(heads, rows[:MOST_ROWS], texts), note))


def answer(report: Report) -> Markup:
    """When all are out, and the figures beside it."""
    model, plan = report.model, report.plan
    first = f"All {plan.people:,} people can be out {when(model, plan.cleared)}." if plan.people else "Nobody is inside."
    parts = [tag("div", tag("dt", it), tag("dd", what, Markup(" "), mark(ground))) for it, what, ground in figures(report)]
    grid = tag("dl", *parts, class_="figures") if parts else None
    later = "" if model.has_later_end else " People come in where not everybody has room, so no later end of a period is claimed."
    sooner = said(f"No plan has them all out sooner.{later}", ground=Ground.PROVED) if plan.people else None
    return joined((tag("p", first, class_="answer"), sooner, grid, bracket(report), by_hand(report), verdict(report)))


def figures(report: Report) -> List[Tuple[str, str, Ground]]:
    """The figures beside the answer, what each is, and what it rests on: four, or none if nobody is inside."""
    model, plan = report.model, report.plan
    if not plan.people:
        return []
    late = ", and for those who come in later" if model.entrants else ""
    return [
        (when(model, report.uncongested), "the longest walk of those inside at first, with nobody in the way", Ground.PROVED),
        (f"{(plan.cleared - report.uncongested) * model.period:,} s", f"more than that walk, for congestion and closures{late}", Ground.CUTS),
        (when(model, report.moment_of(50)), "half of the people are out", Ground.PROVED),
        (when(model, report.moment_of(95)), "95 % of the people are out", Ground.PROVED),
    ]


def verdict(report: Report) -> Markup:
    """What the program's own check says of the plan that the page shows."""
    said_of_it = "yes" if report.verdict.is_right else f"no {report.verdict.code}"
    return said(f"The command evacplan check says {said_of_it} of the plan on this page.", ground=Ground.PROVED)


def bracket(report: Report) -> Optional[Markup]:
    """Between which seconds all are out of a building as it is drawn in metres."""
    found = report.bracket
    if not found:
        return None
    if found.latest is None:
        why = found.refused or "; ".join(found.silent) or "not everybody can be out by the horizon if its numbers are rounded to the later side"
        return said(f"Of the building as it is drawn in metres nothing more is claimed: {why}.", ground=found.ground)
    first = f"not before {found.earliest:,} s and " if found.earliest is not None else ""
    text = f"Whichever way the numbers of the drawing in metres are rounded, all can be out {first}before {found.latest:,} s."
    return said(text, ground=found.ground)


def by_hand(report: Report) -> Optional[Markup]:
    """The calculation by hand for the way that lets most people through."""
    hand = report.by_hand
    if not hand:
        return None
    flow = f"{hand.people:,} people / {hand.flow:.2f} a second = {hand.passing:,.0f} s"
    walk = f"{hand.before:,} s of walk to it, and {hand.after:,} s over it and on"
    text = f" lets its people through in {flow}; with {walk} that is {hand.seconds:,.0f} s."
    return said("By hand: ", named(report.model, hand.way), text, ground=hand.ground)


def why(report: Report) -> Markup:
    """The cut of the period before all are out."""
    cut, model = report.cut, report.model
    if not cut:
        return Markup("")
    rows: List[Row] = [(place(model, it), f"{it.people:,}", spans(model, it.moments)) for it in cut.places if it.people]
    head = f"At most {cut.most:,} of {cut.people:,} can be out {by(model, cut.period)}. Each of them counts in one of these lines:"
    foot = "At these moments the places listed are full in every best plan. Ways that aren't listed bring nobody more out by then, however wide they are."
    if not cut.most:
        head, foot = f"Nobody can be out {by(model, cut.period)}: no walk is so short, or the ways are closed.", ""
    heads = ("place", "people", "seconds")
    return joined(
        (heading("Why not sooner", Ground.PROVED), said(head), rows_of(heads, rows, "places"), said(foot, ground=Ground.CUTS) if foot else None)
    )


def place(model: Model, it: Place) -> Content:
    if not it.names:
        more = len(it.rooms) - MOST_ROOMS
        return f"not held up: {', '.join(it.rooms[:MOST_ROOMS])}" + (f" and {more:,} more" if more > 0 else "")
    return joined(("wait in " if len(it.names) == 1 else "", named(model, it.names)))


def exits_of(report: Report) -> List[Curve]:
    """The exits of the printed plan, those of most people first; all beyond some together."""
    period = report.model.period
    curves = [Curve(it.name, tuple(report.occupancy.stay(it.name)), period) for it in report.model.exits]
    used = sorted((it for it in curves if it.arrivals[-1]), key=lambda it: (-it.arrivals[-1], it.name))
    if len(used) <= MOST_EXITS + 1:
        return used
    rest = [it.arrivals for it in used[MOST_EXITS:]]
    return [*used[:MOST_EXITS], Curve(f"{len(rest):,} others", tuple(sum(row) for row in zip(*rest)), period)]


def curve(report: Report, others: Sequence[Curve] = ()) -> Markup:
    """The arrival curve, by exit, with a table of some moments."""
    exits, model, arrivals = exits_of(report), report.model, report.plan.arrivals
    drawn = curve_picture(Curve("all", arrivals, model.period), exits, others)
    dashes = " Dashed: the other buildings." if others else ""
    caption = tag("figcaption", "Line: people out by time, the same in every best plan. Areas: by exit, in the ", mark(Ground.PRINTED), f".{dashes}")
    step = -(-len(arrivals) // MOST_TIMES)
    moments = sorted({*range(0, len(arrivals), step), len(arrivals) - 1})
    rows = [(seconds(model, it), f"{arrivals[it]:,}", *(f"{one.arrivals[it]:,}" for one in exits)) for it in moments]
    note = tag("p", "The table has some moments; evacask tables exits has all.", class_="note") if step > 1 else None
    heads = ("seconds", "out", *(it.name for it in exits))
    return joined((heading("People out by time", Ground.PROVED), tag("figure", drawn, caption), note, table(heads, rows)))


def building(report: Report) -> Markup:
    """The building drawn by storeys."""
    drawing = Drawing(report.model, report.occupancy.through(), report.full.ways)
    caption = (
        "A line is as wide as people go there in the ",
        mark(Ground.PRINTED),
        ", with their number if there is room, and red if every best plan fills the way at some moment ",
        mark(Ground.CUTS),
        ". In a room: people at first / capacity. Dashed: nobody goes there.",
    )
    pictures = [tag("figure", it) for it in drawing.pictures()]
    return joined((heading("The building", Ground.OWN), *pictures, tag("p", *caption, class_="note")))


def full(report: Report) -> Markup:
    """The ways and rooms that every best plan fills."""
    model = report.model
    places = sorted(report.full.places, key=lambda it: -len(it.moments))
    rows: List[Row] = [(named(model, it.names), f"{it.people:,}", f"{len(it.moments):,}", spans(model, it.moments)) for it in places]
    text = "Every plan that is best at every moment fills these places at these moments. A wider one alone may still bring nothing, if another is as full."
    if not rows:
        text = "No way and no room is full at any moment in every best plan."
    heads = ("way or room", "people at a moment", "moments", "seconds")
    return joined((heading("Full in every best plan", Ground.CUTS), said(text), rows_of(heads, rows, "places")))


def storeys(report: Report) -> Markup:
    """Who stays on which storey, over time."""
    model, some = report.model, [it for it in report.storeys if it.most]
    if not some:
        return joined((heading("Storeys over time", Ground.PRINTED), said("Nobody stays on any storey: all go on at once.")))
    shown = some if len(some) <= MOST_STOREYS else [*some[: MOST_STOREYS // 2], *some[-MOST_STOREYS // 2 :]]
    rows = [(own(it.name or f"{it.number}"), f"{it.most:,}", seconds(model, it.first), seconds(model, it.left)) for it in shown]
    heads = ("storey", "most who stay", "first, in seconds", "last one leaves, in seconds")
    left = f" {len(some) - len(shown):,} storeys between are left out." if len(some) > len(shown) else ""
    note = tag("p", f"Who is on a storey at a moment and doesn't go on then; storeys on which nobody stays are left out.{left}", class_="note")
    return joined((heading("Storeys over time", Ground.PRINTED), tag("figure", strips_picture(shown, model.period)), note, table(heads, rows)))


def rooms(report: Report) -> Markup:
    """Rooms and their ways out."""
    rows = [room_row(report.model, it) for it in report.rooms]
    heads = ("room", "way", "people", "set out, in seconds")
    return joined((heading("Rooms and their ways", Ground.PRINTED), rows_of(heads, rows, "ways of rooms", texts=2)))


def room_row(model: Model, it: RoomWay) -> Row:
    set_out = f"{it.first * model.period:,} to {(it.last + 1) * model.period:,}"
    return named(model, it.nodes[:1]), " ".join(it.nodes[1:]), f"{it.people:,}", set_out


def worth(report: Report) -> Markup:
    """What the loss of a way costs, and what a wider one brings."""
    model, same = report.model, Outcome(report.plan.cleared, report.plan.people)
    changed = [it for it in report.worth.ways if (it.without, it.wide) != (same, same)]
    rows: List[Row] = [(named(model, it.names), *(cell(model, one) for one in (it.without, same, it.wide))) for it in changed]
    text = "Neither losing nor widening one of the other ways changes when everybody is out."
    if report.worth.untried:
        text = f"{report.worth.untried:,} ways that fewer people use weren't tried: evacask sensitivity tries all. {text[:-1]}, as far as they were tried."
    heads = ("way or exit", "all out without it, in seconds", "as it is", "at any rate")
    return joined((heading("What each way is worth", Ground.PROVED), rows_of(heads, rows, "ways"), said(text, ground=Ground.CUTS)))


def cell(model: Model, outcome: Outcome) -> str:
    """The seconds at which all are out, or how many can be."""
    return f"at most {outcome.most:,} out" if outcome.cleared is None else seconds(model, outcome.cleared)
