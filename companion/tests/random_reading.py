"""What the independent reading of the commands shares: buildings edited as texts, blocks read here, and a count of what was compared."""
import collections
import csv
import io
import json
import re
from typing import Any, Dict, List, Mapping, Optional, Tuple

from companion.tests.asking import ask, solved

__all__ = ["COUNTS", "FAULTS", "Way", "answer", "answered", "arcs", "ask", "numbers", "outcome", "rows", "same", "solved", "with_rates"]

Way = Tuple[str, str]
COUNTS: "collections.Counter[str]" = collections.Counter()
FAULTS: List[str] = []


def numbers(block: str, word: str) -> List[List[int]]:
    """The numbers of all lines with a first word that have numbers alone after it."""
    return [[int(it) for it in line.split()[1:]] for line in block.split("\n") if re.fullmatch(rf"{word}( \d+)+", line)]


def outcome(text: str) -> Tuple[Optional[int], int]:
    """The clearing moment by the program, or None; and how many can be out."""
    block = solved(text.encode(), "solve")
    if block.startswith("refused 22 "):
        return None, numbers(block, "most")[0][0]
    return numbers(block, "cleared")[0][0], numbers(block, "people")[0][0]


def with_rates(text: str, rates: Mapping[Way, int]) -> str:
    """A building with other rates of some arcs."""
    lines = []
    for line in text.split("\n"):
        fields = line.split()
        is_there = fields[:1] == ["arc"] and (fields[1], fields[2]) in rates
        lines.append(" ".join([*fields[:4], str(rates[fields[1], fields[2]])]) if is_there else line)
    return "\n".join(lines)


def arcs(text: str) -> Dict[Way, List[int]]:
    return {(it[1], it[2]): [int(it[3]), int(it[4])] for it in map(str.split, text.split("\n")) if it[:1] == ["arc"]}


def same(what: str, mine: object, program: object, text: str) -> None:
    COUNTS[what] += 1
    if mine != program:
        FAULTS.append(f"{what}: {mine} and not {program}\n{text}")


def rows(*words: object, text: str) -> List[Dict[str, str]]:
    return list(csv.DictReader(io.StringIO(ask(*words, "--csv", text=text).out)))


def answer(*words: object, text: str) -> Dict[str, object]:
    said: Dict[str, object] = json.loads(ask(*words, "--json", text=text).out)["answer"]
    return said


def answered(*words: object, text: str) -> Any:
    """What a command answers, by JSON, or None if it says in one line why it doesn't. How often each doesn't is counted."""
    said = ask(*words, "--json", text=text)
    if said.out:
        return json.loads(said.out)["answer"]
    same(f"{words[0]}, no answer", (said.err.count("\n"), said.err[:9]), (1, "evacask: "), text)
    return None
