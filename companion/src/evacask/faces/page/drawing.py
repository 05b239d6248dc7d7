"""The pictures of the building: nodes as boxes, ways as wide as people use them, and red if every best plan fills them at some moment."""
from __future__ import annotations

import math
from dataclasses import dataclass, field
from functools import cached_property
from typing import Dict, List, Mapping, Set, Tuple

from evacask.faces.page.layout import LEFT, WIDTH, Figure, StoreyRow, figures_of
from evacask.faces.page.markup import Content, Markup, empty, joined, tag
from evacask.faces.page.picture import fitted, picture
from evacask.model.building import Arc, Model, Node, Way
from evacask.model.shares import Count

Point = Tuple[float, float]
BOX_WIDTH, BOX_HEIGHT = 64, 31
FULL, USED, UNUSED, EXIT = "#b3261e", "#1a1a1a", "#767676", "#1b6e3c"
ARROW = Markup(
    '<defs><marker id="arrow" viewBox="0 0 8 8" refX="7" refY="4" markerWidth="11" markerHeight="11" markerUnits="userSpaceOnUse" orient="auto">'
    '<path d="M0 0L8 4L0 8z" fill="#1a1a1a"/></marker></defs>'
)
# White around a text that stands on a line.
HALO: Dict[str, Content] = {"stroke": "#fff", "stroke_width": 3, "paint_order": "stroke"}


@dataclass
class Boxes:
    """The boxes that are taken in a picture of some size, so that no text stands over another or beyond its edges."""

    width: float
    height: float
    taken: List[Tuple[float, float, float, float]] = field(default_factory=list)

    def take(self, x: float, y: float, width: float, height: float) -> bool:
        """Takes a box by its middle, if it is free."""
        box = (x - width / 2, y - height / 2, x + width / 2, y + height / 2)
        if box[0] < 0 or box[1] < 0 or box[2] > self.width or box[3] > self.height:
            return False
        if any(box[0] < it[2] and it[0] < box[2] and box[1] < it[3] and it[1] < box[3] for it in self.taken):
            return False
        self.taken.append(box)
        return True


@dataclass(frozen=True)
class Drawing:
    """A building with how many go each way in all, and the ways that every best plan fills."""

    model: Model
    through: Mapping[Way, Count]
    full: Set[Way]

    @cached_property
    def most(self) -> float:
        """How many go the way that most go, or 1."""
        return max(1.0, float(max(self.through.values(), default=1)))

    def pictures(self) -> List[Markup]:
        """The building in one picture or several."""
        return [self.picture(at, it) for at, it in enumerate(figures_of(self.model))]

    def picture(self, number: int, shown: Figure) -> Markup:
        boxes, drawn = Boxes(WIDTH, shown.height), []
        for x, y in shown.places.values():
            boxes.take(x, y, BOX_WIDTH + 6, BOX_HEIGHT + 4)
        drawn += [self.storey(floor, y) for floor, y in shown.storeys.items()]
        drawn += [self.told(y, row, boxes) for y, row in shown.folds]
        ways = [it for it in self.model.arcs.values() if it.tail in shown.places or it.head in shown.places]
        drawn += [self.way(it, shown.places) for it in ways]
        drawn += [self.count(it, shown.places, boxes) for it in sorted(ways, key=lambda it: -self.through[it.way]) if self.through[it.way]]
        drawn += [self.node(name, place) for name, place in shown.places.items()]
        title = "The building by storeys. The tables have the same numbers."
        return picture(f"building-{number}", WIDTH, shown.height, title, joined([ARROW, *drawn]))

    def storey(self, floor: int, y: float) -> Markup:
        """The name of a storey, at the left."""
        name = self.model.floors.get(floor) or f"{floor}"
        return tag("text", tag("title", name), fitted(name, LEFT - 14), x=4, y=f"{y + 4:.0f}", font_weight=600)

    def told(self, y: float, row: StoreyRow, boxes: Boxes) -> Markup:
        """What is left out below a storey, and how many ways there decide."""
        count, floors = len(row.folded), set(row.folded)
        like = "like this one" if row.same else "of the same form"
        full = sum(self.model.nodes[tail].floor in floors for tail, _ in self.full)
        ways = f"; {full:,} of their ways are full in every best plan" if full else ""
        text = f".. and {count:,} more {'storey' if count == 1 else 'storeys'} {like}{ways} .."
        boxes.take(LEFT + 3.5 * len(text), y - 4, 7 * len(text), 16)
        return tag("text", text, x=LEFT, y=f"{y:.0f}", class_="soft", **HALO)

    def way(self, arc: Arc, places: Mapping[str, Point]) -> Markup:
        """A way as a curve with an arrow, or as a stub if one of its ends isn't in the picture."""
        people, line = self.through[arc.way], self.line(arc, places)
        colour = FULL if arc.way in self.full else USED if people else UNUSED
        width = 1 + 6 * float(people) / self.most
        (x1, y1), (mx, my), (x2, y2) = line
        what = f"{arc.tail} to {arc.head}: {people:,} people{', full in every best plan at some moments' if arc.way in self.full else ''}"
        return tag(
            "path",
            tag("title", what),
            d=f"M{x1:.0f} {y1:.0f}Q{mx:.0f} {my:.0f} {x2:.0f} {y2:.0f}",
            fill="none",
            stroke=colour,
            stroke_width=f"{width:.1f}",
            stroke_opacity=0.75,
            stroke_dasharray=None if people else "4 4",
            marker_end="url(#arrow)",
        )

    def line(self, arc: Arc, places: Mapping[str, Point]) -> Tuple[Point, Point, Point]:
        """The begin, the bend and the end of a way."""
        if arc.tail not in places or arc.head not in places:
            return stub(arc, self.model, places)
        (x1, y1), (x2, y2) = places[arc.tail], places[arc.head]
        is_both = (arc.head, arc.tail) in self.model.arcs
        if y1 == y2:
            return beside((x1, y1), x2, -1 if is_both and x1 > x2 else 1)
        middle = ((x1 + x2) / 2 + (9 if is_both else 0), (y1 + y2) / 2)
        return (x1, y1), middle, at_box((x2, y2), middle)

    def count(self, arc: Arc, places: Mapping[str, Point], boxes: Boxes) -> Markup:
        """How many go a way, at its middle or beside a stub, if there is room."""
        first, middle, last = self.line(arc, places)
        x = 0.25 * first[0] + 0.5 * middle[0] + 0.25 * last[0]
        y = 0.25 * first[1] + 0.5 * middle[1] + 0.25 * last[1]
        text = f"{self.through[arc.way]:,}"
        x += 4 if arc.tail in places and arc.head in places else 12 + 3.5 * len(text)
        if not boxes.take(x, y - 1, 7 * len(text) + 4, 14):
            return Markup("")
        return tag("text", text, x=f"{x:.0f}", y=f"{y + 4:.0f}", text_anchor="middle", **HALO)

    def node(self, name: str, place: Point) -> Markup:
        """A node as a box: its name, and its people and capacity."""
        node, (x, y) = self.model.nodes[name], place
        corner = {"x": f"{x - BOX_WIDTH / 2:.0f}", "y": f"{y - BOX_HEIGHT / 2:.0f}"}
        box = empty("rect", **corner, width=BOX_WIDTH, height=BOX_HEIGHT, rx=4, fill=EXIT if node.is_exit else "#fff", stroke="#1a1a1a")
        first = tag("text", name, x=f"{x:.0f}", y=f"{y - 2:.0f}", text_anchor="middle", class_=kind_of(node, 9 if len(name) > 8 else 12))
        people = "exit" if node.is_exit else f"{node.start:,}/{node.capacity:,}"
        second = tag(
            "text",
            people,
            x=f"{x:.0f}",
            y=f"{y + 11:.0f}",
            text_anchor="middle",
            class_=kind_of(node, 10 if len(people) < 10 else 8 if len(people) < 13 else 7),
        )
        return tag("g", tag("title", f"{name} {node.own_name}".strip()), box, first, second)


def kind_of(node: Node, size: int) -> str:
    """The class of a text in a node's box: its size, and light on the ground of an exit."""
    return f"size{size}{' light' if node.is_exit else ''}"


def beside(begin: Point, x2: float, side: int) -> Tuple[Point, Point, Point]:
    """A bow between two nodes of a line, below them, or above them if `side` is -1: from the edge of the one box to that of the other."""
    x1, y = begin[0], begin[1] + side * BOX_HEIGHT / 2
    onward = math.copysign(10, x2 - x1)
    bend = min(44.0, 18 + abs(x1 - x2) / 12)
    return (x1 + onward, y), ((x1 + x2) / 2, y + side * bend), (x2 - onward, y + side * 2)


def at_box(end: Point, middle: Point) -> Point:
    """Where a line from a bend to a node meets the node's box."""
    x, y = end[0] - middle[0], end[1] - middle[1]
    away = math.hypot(x, y) or 1.0
    inside = min((BOX_WIDTH / 2 + 2) / abs(x) if x else math.inf, (BOX_HEIGHT / 2 + 2) / abs(y) if y else math.inf) * away
    return end[0] - x / away * min(inside, away), end[1] - y / away * min(inside, away)


def stub(arc: Arc, model: Model, places: Mapping[str, Point]) -> Tuple[Point, Point, Point]:
    """A short line between a node and the edge beyond which the other end of a way is."""
    inner = arc.tail if arc.tail in places else arc.head
    outer = arc.head if arc.tail in places else arc.tail
    x, y = places[inner]
    down = 1 if model.nodes[outer].floor < model.nodes[inner].floor else -1
    near, far = (x, y + down * (BOX_HEIGHT / 2 + 2)), (x, y + down * (BOX_HEIGHT / 2 + 24))
    return (near, far, far) if arc.tail in places else (far, near, near)
