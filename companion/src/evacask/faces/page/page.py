"""The page about a building: one file that loads nothing and runs no script, for a screen, a printer and an archive."""
from __future__ import annotations

import pathlib
from typing import List, Sequence, Tuple, Union

from evacask.faces.page import sections, short
from evacask.faces.page.closing import closing
from evacask.faces.page.curve import Curve
from evacask.faces.page.marks import heading
from evacask.faces.page.markup import Content, Markup, joined, own, table, tag
from evacask.faces.page.numbers import seconds
from evacask.model.ground import Ground
from evacask.questions.report import Report, ShortReport

STYLE = pathlib.Path(__file__).with_name("style.css")
POLICY = "default-src 'none'; style-src 'unsafe-inline'"
CAUTION = (
    "This is the best case, not a prediction: no plan that keeps to the capacities, rates and travel times of the model is faster. "
    "People don't follow plans. Add the time before they set out, and the margin that your code requires."
)
UNPROVED = (
    "The program that made this page isn't proved on this machine. What is marked as proved here is what evacplan's contract says; "
    "./build proves that the program keeps it."
)
AnyReport = Union[Report, ShortReport]
# Another building beside the one of the page: its name, and its report.
Other = Tuple[str, AnyReport]


def page(report: AnyReport, title: str, against: Sequence[Other] = ()) -> str:
    """The whole page, with other buildings beside it if there are some."""
    sections_of = long_body(report, against) if isinstance(report, Report) else short_body(report, against)
    head = joined(
        (
            Markup('<meta charset="utf-8">'),
            Markup('<meta name="viewport" content="width=device-width, initial-scale=1">'),
            Markup(f'<meta http-equiv="Content-Security-Policy" content="{POLICY}">'),
            tag("title", f"{title}: evacuation"),
            tag("style", Markup(STYLE.read_text(encoding="utf-8"))),
        )
    )
    main = tag("main", tag("h1", own(title)), *(tag("section", it) for it in sections_of if it))
    return f"<!doctype html>\n{tag('html', tag('head', head), tag('body', main), lang='en')}\n"


def long_body(report: Report, against: Sequence[Other]) -> List[Markup]:
    """The sections of a building from which everybody gets out."""
    others = [Curve(name, it.plan.arrivals, it.model.period) for name, it in against if isinstance(it, Report)]
    parts = [sections.answer(report), caution(report), beside(report, against), sections.why(report)]
    if report.plan.people:
        parts += [sections.curve(report, others), sections.building(report), sections.full(report), sections.storeys(report)]
        parts += [sections.rooms(report), sections.worth(report)]
    return [*parts, *closing(report)]


def short_body(report: ShortReport, against: Sequence[Other]) -> List[Markup]:
    """The sections of a building from which not everybody can be out by the horizon."""
    parts = [short.answer(report), caution(report), beside(report, against), short.why(report), short.held(report.model, report.short)]
    return [*parts, *closing(report)]


def caution(report: AnyReport) -> Markup:
    """What the answer isn't, and of an unproved program what the mark `proved` doesn't say."""
    return joined(tag("p", it, class_="caution") for it in (CAUTION, *(() if report.source.is_proved else (UNPROVED,))))


def beside(report: AnyReport, against: Sequence[Other]) -> Markup:
    """The building and others, side by side."""
    if not against:
        return Markup("")
    rows = [beside_row("this building", report), *(beside_row(name, it) for name, it in against)]
    heads = ("building", "people", "all out, in seconds", "half out", "95 % out", "longest walk")
    return joined((heading("Side by side", Ground.PROVED), table(heads, rows)))


def beside_row(name: str, report: AnyReport) -> Sequence[Content]:
    if isinstance(report, ShortReport):
        return own(name), f"{report.short.people:,}", f"at most {report.short.most:,} by the horizon", "", "", ""
    moments = report.plan.cleared, report.moment_of(50), report.moment_of(95), report.uncongested
    return (own(name), f"{report.plan.people:,}", *(seconds(report.model, it) for it in moments))
