"""The arrival curve of a block, read without the rest of it: a block may have a megabyte of moves, and the curve is in its first lines."""
from __future__ import annotations

from typing import List

from evacask.client.blocks import HEAD, strictly


def curve_of(raw: bytes) -> List[int]:
    """How many are out by each period from 0 to the clearing moment, of an answer block."""
    return strictly(lambda: read_curve(raw), "an arrival")


def read_curve(raw: bytes) -> List[int]:
    head = HEAD.match(raw)
    if not head:
        raise ValueError(raw[:40])
    people, cleared = int(head[2]), int(head[3])
    end = raw.find(b"\nlabel ", head.end())
    fields = raw[head.end() : end if end >= 0 else raw.find(b"\nend\n", head.end())].split()
    count = 3 * (cleared + 1)
    if fields[0:count:3] != [b"out"] * (cleared + 1) or [int(it) for it in fields[1:count:3]] != list(range(cleared + 1)):
        raise ValueError("the periods of the arrivals aren't all from 0 on")
    curve = [int(it) for it in fields[2:count:3]]
    if curve[-1] != people or curve != sorted(curve):
        raise ValueError("the arrivals don't rise to all people")
    return curve
