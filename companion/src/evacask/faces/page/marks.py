"""What a statement rests on, as a mark with a border and a word, never by colour alone."""
from __future__ import annotations

from typing import Dict, Tuple

from evacask.faces.page.markup import Content, Markup, joined, tag
from evacask.model.ground import Ground

# The class of each mark, and what it means.
MARKS: Dict[Ground, Tuple[str, str]] = {
    Ground.PROVED: (
        "proved",
        "evacplan printed it, and a clause of its contract says that it is so. The clause was proved before the program was built.",
    ),
    Ground.CUTS: ("cuts", "It follows from what evacplan printed and from a proved law, by sums that a reader can redo."),
    Ground.PRINTED: ("printed", "It is so in the printed plan. Another plan that is as good at every moment may differ."),
    Ground.OWN: ("own", "It is evacask's own arithmetic or drawing. It is tested and not proved."),
}


def mark(ground: Ground) -> Markup:
    return tag("span", ground.value, class_=f"mark {MARKS[ground][0]}")


def heading(text: str, ground: Ground) -> Markup:
    """The heading of a section, with the mark of its weakest number."""
    return tag("h2", text, Markup(" "), mark(ground))


def said(*contents: Content, ground: "Ground | None" = None) -> Markup:
    """A paragraph, with the mark of what it rests on if that isn't the section's."""
    return tag("p", *contents, *((Markup(" "), mark(ground)) if ground else ()))


def meanings() -> Markup:
    """The section that says what the marks mean."""
    rows = (joined((tag("dt", mark(ground)), tag("dd", what))) for ground, (_, what) in MARKS.items())
    return joined((tag("h2", "What the marks mean"), tag("dl", *rows)))
