"""HTML as a type of its own: whatever isn't `Markup` already is escaped, so a forgotten call can't let a text of the user act as markup."""
from __future__ import annotations

import html
import unicodedata
from typing import Iterable, Optional, Union

# Letters that turn the direction of a line, or that nobody sees, by their category; each becomes a sign of replacement.
UNSEEN = ("Cc", "Cf", "Co", "Cs", "Cn", "Zl", "Zp")
REPLACEMENT = "\ufffd"


class Markup(str):
    """Text that is HTML."""


Content = Union[Markup, str, int, float, None]


def plain(text: object) -> str:
    """A text without letters that nobody sees or that turn the direction of a line, and without bytes that are no letter. A tab is a blank."""
    return "".join(REPLACEMENT if unicodedata.category(it) in UNSEEN else it for it in str(text).replace("\t", " "))


def escaped(content: Content) -> Markup:
    """Content as markup; nothing for None."""
    if content is None:
        return Markup("")
    return content if isinstance(content, Markup) else Markup(html.escape(plain(content)))


def tag(name: str, /, *contents: Content, **attributes: Content) -> Markup:
    """An element with its contents. An underscore of an attribute's name stands for a hyphen; one at its end falls away; None leaves it out."""
    given = "".join(f' {key.rstrip("_").replace("_", "-")}="{html.escape(plain(value))}"' for key, value in attributes.items() if value is not None)
    return Markup(f"<{name}{given}>{joined(contents)}</{name}>")


def empty(name: str, /, **attributes: Content) -> Markup:
    """An element of SVG without contents."""
    return Markup(str(tag(name, **attributes)).replace(f"></{name}>", "/>"))


def joined(contents: Iterable[Content]) -> Markup:
    return Markup("".join(map(escaped, contents)))


def own(text: object) -> Markup:
    """A text of the user, kept apart from the direction of what stands beside it."""
    return tag("bdi", str(text))


def table(heads: Iterable[Content], rows: Iterable[Iterable[Content]], texts: int = 1) -> Markup:
    """A table whose first columns, `texts` of them, are text, and all others numbers."""
    head = tag("tr", *(tag("th", it, scope="col", class_=side(at, texts)) for at, it in enumerate(heads)))
    body = (tag("tr", *(tag("td", it, class_=side(at, texts)) for at, it in enumerate(row))) for row in rows)
    return tag("div", tag("table", tag("thead", head), tag("tbody", *body)), class_="wide")


def side(at: int, texts: int) -> Optional[str]:
    """The class of a column."""
    return "text" if at < texts else None
