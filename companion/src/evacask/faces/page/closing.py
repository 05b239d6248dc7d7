"""How each page ends: what is assumed and doubted, what the marks mean, and the input and the program."""
from __future__ import annotations

import hashlib
from typing import List, Union

from evacask.client.talk import Source
from evacask.faces.page.marks import heading, meanings
from evacask.faces.page.markup import Markup, escaped, joined, tag
from evacask.model.building import Model
from evacask.model.ground import Ground
from evacask.model.lines import lines_of
from evacask.questions.report import Report, ShortReport

MOST_LINES = 2000


def closing(report: Union[Report, ShortReport]) -> List[Markup]:
    """The last sections of a page."""
    return [assumptions(report), meanings(), listing(report.model, report.source)]


def assumptions(report: Union[Report, ShortReport]) -> Markup:
    """What the page takes for granted, and the lines that are often a mistake."""
    doubts = [tag("li", f"line {it.line:,}: {it.what}") for it in report.review.doubts]
    doubted = (tag("p", "These lines are often a mistake:"), tag("ul", *doubts)) if doubts else ()
    return joined((heading("Assumptions", Ground.OWN), tag("ul", *(tag("li", it) for it in assumed(report.model))), *doubted))


def assumed(model: Model) -> List[str]:
    """What each page takes for granted of a building, a sentence or two each."""
    counted = f" Each person is counted as {model.shares} shares, so that a rate may be a fraction." if model.shares > 1 else ""
    numbers = f"{len(model.nodes):,} nodes, {len(model.arcs):,} ways, {len(model.windows):,} closures"
    return [
        f"A period lasts {model.period:,} s, and the plan looks {model.seconds(model.horizon):,} s ahead.{counted}",
        "A moment stands for its whole period: what is so by it comes about in the seconds that are given, however short the periods are.",
        f"The building has {numbers}, and {len(model.entrants):,} groups of people who come in later.",
        "Everybody follows the plan from the first moment, and knows each closure beforehand.",
        "Rates, travel times and capacities are those listed below. Nobody has proved that they are true of the building.",
    ]


def listing(model: Model, source: Source) -> Markup:
    """The input, line for line, and the program."""
    lines, left = lines_of(model.text), None
    if len(lines) > MOST_LINES:
        left = tag("p", f"{len(lines) - MOST_LINES:,} more lines aren't shown.", class_="note")
    proved = f"It is proved in logic {source.logic}." if source.logic else "It isn't proved on this machine."
    digest = hashlib.sha256(model.bytes).hexdigest()
    head = tag("p", f"The input has {len(lines):,} lines, SHA-256 {digest}. The program's SHA-256 is {source.sha256}. {proved}")
    return joined((tag("h2", "Input and program"), head, tag("pre", Markup("\n".join(map(escaped, lines[:MOST_LINES])))), left))
