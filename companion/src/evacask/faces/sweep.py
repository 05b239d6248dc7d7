"""The command `sweep`: a table of scenarios to a table of answers, row by row, as far as it isn't there already."""
from __future__ import annotations

import hashlib
import itertools
import re
import sys
from argparse import ArgumentTypeError, Namespace
from typing import Iterator, List, Tuple

from evacask.faces.answer_file import AnswerFile, csv_line
from evacask.faces.asked import Asked, put
from evacask.faces.ending import Status
from evacask.faces.files import read_bytes
from evacask.faces.progress import LINE, progress
from evacask.faces.sheet import Column, Sheet
from evacask.faces.words import BUILDING, EDIT, FACES, Command, argument, number
from evacask.model.building import Model
from evacask.questions.given import scenarios_of
from evacask.questions.sweep import Answer, Edits, answers

KEYS = ("row", "name", "edits", "people", "cleared", "from_s", "before_s", "half_out", "out_95", "most", "refused", "building")
COLUMNS = tuple(Column(it, it, is_right=it not in ("name", "edits", "building")) for it in KEYS)
Given = Tuple[int, str, Edits]
MOST_JOBS = 256


def mark_of(model: Model) -> str:
    """A sum of the building's text, so that answers about another building aren't taken for answers about this one."""
    return hashlib.sha256(model.bytes).hexdigest()[:12]


def row_of(given: Given, answer: Answer, model: Model, mark: str) -> Tuple[object, ...]:
    """The cells of an answer: moments in periods, and the interval of the clearing moment in seconds."""
    number_, name, edits = given
    ends = (None, None) if answer.cleared is None else model.ends(answer.cleared)
    moments = (answer.people, answer.cleared, *ends, answer.half, answer.most_of, answer.most)
    return (number_, name, "; ".join(edits), *moments, answer.refused, mark)


def shard(text: str) -> Tuple[int, int]:
    """3/8: the third of eight parts."""
    match = re.fullmatch(r"([0-9]{1,6})/([0-9]{1,6})", text)
    if not match or not 1 <= int(match[1]) <= int(match[2]):
        raise ArgumentTypeError(f"{text} is no shard: write 3/8 for the third of eight")
    return int(match[1]), int(match[2])


def jobs(text: str) -> int:
    """How many programs are asked at once."""
    if not 1 <= number(text) <= MOST_JOBS:
        raise ArgumentTypeError(f"{text} is no number of jobs: 1 to {MOST_JOBS}")
    return int(text)


def answered(asked: Asked, given: List[Given], workers: int) -> Iterator[Tuple[Given, Answer]]:
    """The scenarios with their answers, in order."""
    with progress("scenarios") as tell:
        found = answers(asked.client, asked.model, [edits for _, _, edits in given], workers)
        for count, pair in enumerate(zip(given, found), 1):
            tell(count, len(given))
            yield pair


def run(given: Namespace) -> int:
    """Writes the answers that aren't in the file yet. A refused edit makes the status 1 and costs its row alone."""
    asked = Asked(given)
    part, of = given.shard
    scenarios = list(scenarios_of(read_bytes(given.scenarios), given.scenarios, asked.model))[part - 1 :: of]
    mark = mark_of(asked.model)
    if given.face == "json":
        pairs = list(answered(asked, scenarios, given.jobs))
        rows = tuple(row_of(*pair, asked.model, mark) for pair in pairs)
        return put(Sheet({"rows": [dict(zip(KEYS, it)) for it in rows]}, (), COLUMNS, rows), "sweep", given, asked.client, status_of(pairs))
    if given.output is None:
        return written_out(asked, scenarios, given.jobs, mark)
    heads = [(str(row), name, "; ".join(edits)) for row, name, edits in scenarios]
    with AnswerFile(given.output, KEYS, heads, mark) as file:
        status = Status.REFUSED if file.has_refused else Status.ANSWERED
        for pair in answered(asked, scenarios[file.count :], given.jobs):
            file.write(row_of(*pair, asked.model, mark))
            status = status if pair[1].refused is None else Status.REFUSED
    return status


def status_of(pairs: List[Tuple[Given, Answer]]) -> int:
    return Status.REFUSED if any(it.refused is not None for _, it in pairs) else Status.ANSWERED


def written_out(asked: Asked, scenarios: List[Given], workers: int, mark: str) -> int:
    """Writes the answers to standard output, each as soon as it is there."""
    sys.stdout.write(csv_line(KEYS))
    status: int = Status.ANSWERED
    for number_, pair in zip(itertools.count(1), answered(asked, scenarios, workers)):
        LINE.erase()
        sys.stdout.write(csv_line(row_of(*pair, asked.model, mark)))
        status = status if pair[1].refused is None else Status.REFUSED
        if not number_ % 100:
            sys.stdout.flush()
    return status


COMMAND = Command(
    "sweep",
    run,
    "many scenarios at once: from a table of edits to a table of answers",
    "The table has the columns name,edits, with ; between edits. A row of the answers depends only on its scenario, so several machines can\n"
    "each compute a --shard. Join the parts by sort -t, -k1,1n -u PART.. > ALL. With -o, an interrupted sweep continues after its last row.",
    "examples/office.evac examples/office_scenarios.csv",
    (
        BUILDING,
        argument("scenarios", metavar="SCENARIOS.csv", help="the table of scenarios"),
        argument("--jobs", type=jobs, default=4, metavar="N", help="how many programs to ask at once (default: 4)"),
        argument("--shard", type=shard, default=(1, 1), metavar="I/N", help="answer only every N-th scenario, starting with the I-th"),
        argument("-o", "--output", metavar="FILE", default=None, help="append to this file, after the answers that are in it"),
        EDIT,
        *FACES,
    ),
)
