"""Reads pages of `evacask report` back. Nothing of evacask is used: a page is read as HTML, and the program is asked on its own (planned_page.py)."""
import html.parser
import re
from dataclasses import dataclass, field
from typing import Dict, List, Optional, Tuple

TAGS = set(
    "html head meta title style body main section h1 h2 p span dl div dt dd ul li bdi table thead tbody tr th td figure figcaption pre".split()
)
PICTURE_TAGS = set("svg title g rect line path polyline polygon text defs marker".split())
ATTRIBUTES = set("lang charset name content http-equiv class scope".split())
PICTURE_ATTRIBUTES = set(
    "viewbox role aria-labelledby id x y x1 x2 y1 y2 rx width height d points fill fill-opacity stroke stroke-width stroke-opacity stroke-dasharray"
    " marker-end text-anchor font-weight paint-order class refx refy markerwidth markerheight markerunits orient".split()
)
MARKS = ("proved", "by the cuts", "printed plan", "evacask")


@dataclass
class Section:
    """A section of a page: the mark of its heading, its paragraphs, its tables by rows of cells, and the texts and titles of its pictures."""

    mark: str = ""
    paragraphs: List[str] = field(default_factory=list)
    tables: List[List[Tuple[str, ...]]] = field(default_factory=list)
    texts: List[str] = field(default_factory=list)
    titles: List[str] = field(default_factory=list)


class Page(html.parser.HTMLParser):
    """A page by sections. `order` has its tags in their order; `faults` what isn't closed, or of no list."""

    def __init__(self, text: str) -> None:
        super().__init__(convert_charrefs=True)
        self.sections: Dict[str, Section] = {"": Section()}
        self.order: List[str] = []
        self.faults: List[str] = []
        self.open: List[str] = []
        self.here, self.heading, self.title, self.pre, self.style = self.sections[""], "", "", "", ""
        self.said: List[str] = []
        self.feed(text)
        self.close()
        self.faults += self.open

    def handle_starttag(self, tag: str, attributes: List[Tuple[str, Optional[str]]]) -> None:
        is_picture = "svg" in self.open or tag == "svg"
        allowed = ATTRIBUTES | PICTURE_ATTRIBUTES if is_picture else ATTRIBUTES
        if tag not in (PICTURE_TAGS if is_picture else TAGS):
            self.faults.append(tag)
        self.faults += [name for name, _ in attributes if name not in allowed or name.startswith("on")]
        self.order.append(tag)
        if tag != "meta":
            self.open.append(tag)
        if tag == "h2":
            self.heading, self.here = "", Section()
        if tag == "table":
            self.here.tables.append([])
        if tag == "tr":
            self.here.tables[-1].append(())
        if tag in ("p", "td", "th", "text", "title", "li", "dt", "dd", "figcaption"):
            self.said = []

    def handle_startendtag(self, tag: str, attributes: List[Tuple[str, Optional[str]]]) -> None:
        self.handle_starttag(tag, attributes)
        self.open.pop()

    def handle_endtag(self, tag: str) -> None:
        if not self.open or self.open.pop() != tag:
            self.faults.append(f"</{tag}>")
        said = "".join(self.said).strip()
        if tag == "h2":
            self.here.mark = next((it for it in MARKS if self.heading.endswith(it)), "")
            self.sections[self.heading[: -len(self.here.mark) or None].strip()] = self.here
        elif tag in ("td", "th"):
            self.here.tables[-1][-1] += (said,)
        elif tag in ("p", "li", "dt", "dd", "figcaption"):
            self.here.paragraphs.append(said)
        elif tag == "text":
            self.here.texts.append(said)
        elif tag == "title":
            self.here.titles.append(said)
            self.title = self.title or said

    def handle_data(self, data: str) -> None:
        self.said.append(data)
        if self.open[-1:] == ["h2"] or self.open[-2:-1] == ["h2"]:
            self.heading += data
        elif self.open[-1:] == ["pre"]:
            self.pre += data
        elif self.open[-1:] == ["style"]:
            self.style += data

    def handle_comment(self, data: str) -> None:
        self.faults.append(f"<!--{data}")

    def rows(self, heading: str) -> List[Tuple[str, ...]]:
        """The rows of the first table of a section, without its head."""
        return self.sections[heading].tables[0][1:] if heading in self.sections and self.sections[heading].tables else []


def numbers_in(text: str) -> int:
    """How many numbers a text has."""
    return len(re.findall(r"\d[\d,.]*", text))
