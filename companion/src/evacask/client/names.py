"""The names in what the program prints: all are the building's."""
from __future__ import annotations

import re
from typing import Collection, Container, TypeVar

from evacask.errors import Broken
from evacask.model.building import Model

T = TypeVar("T")
NAME = re.compile(rb"(?<= )(?:WP|HA|SW|LO|DS)\d+\.\d+(?=[ \n])")
TITLE = re.compile(rb"(?m)^title .*\n")


def check_known(names: Collection[T], known: Container[T]) -> None:
    """`ValueError` for a name that the building doesn't have."""
    for name in names:
        if name not in known:
            raise ValueError(f"the building has no {name}")


def check_names(raw: bytes, model: Model) -> None:
    """A reply with a name that the building doesn't have is `Broken`. (A title may have any words.)"""
    found = {it.decode("ascii") for it in NAME.findall(TITLE.sub(b"", raw))}
    try:
        check_known(found, model.nodes)
    except ValueError as fault:
        raise Broken(f"the program printed a name that evacplan never prints ({fault})") from None
