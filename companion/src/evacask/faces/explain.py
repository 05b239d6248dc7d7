"""The command `explain` and its sheet."""
from __future__ import annotations

from argparse import Namespace
from dataclasses import dataclass
from typing import List, Optional, Tuple

from evacask.errors import WordsError
from evacask.faces.asked import program_of, put, read
from evacask.faces.ending import Status
from evacask.faces.sheet import Column, Sheet
from evacask.faces.summary import remedies
from evacask.faces.wording import indented
from evacask.faces.words import FACES, Command, argument
from evacask.model.codes import Meaning, meanings
from evacask.model.lines import is_number, near, number_of
from evacask.questions.explain import MODES, Explained, Refusal, code_point, explain, is_odd

REFUSALS = tuple(Column("", key, is_shown=False) for key in ("code", "line", "text", "meaning", "remedy"))
CODES = tuple(Column("", key, is_shown=False) for key in ("code", "place", "meaning", "remedy"))


@dataclass(frozen=True)
class Code:
    """What a code means, in each place where it has a meaning."""

    code: int
    meanings: Tuple[Meaning, ...]


def code_sheet(code: int, line: Optional[int]) -> Sheet:
    """What a code means."""
    rows = meanings(code)
    if not rows:
        raise WordsError(f"there is no code {code}: docs/users/formats.md has them all")
    said = [f"refused {code}" + (f" {line}: line {line} of the input" if line is not None else "")]
    for row in rows:
        place = f"{row.heading}: " if len(rows) > 1 else ""
        said += [*indented(place + row.what), *indented(row.remedy)]
    return Sheet(Code(code, tuple(rows)), tuple(said), CODES, tuple((code, it.heading, it.what, it.remedy) for it in rows))


def explain_sheet(answer: Explained) -> Sheet:
    """Each refusal with its line, what its code means, and what to do."""
    lines = [line for it in answer.refusals for line in refusal_lines(it)] or [f"{answer.mode} refuses nothing"]
    rows = tuple(
        (it.code, it.line, it.text, it.meaning.what if it.meaning else "", it.meaning.remedy if it.meaning else "") for it in answer.refusals
    )
    return Sheet(answer, tuple(lines), REFUSALS, rows)


def refusal_lines(it: Refusal) -> List[str]:
    """A refusal with its line of the input."""
    meaning = [*indented(it.meaning.what), *indented(it.meaning.remedy)] if it.meaning else ["    docs/users/formats.md says what it means."]
    if it.verdict:
        return [it.verdict, *meaning]
    said = [f"refused {it.code} {it.line}"]
    if it.text is None:
        said.append(f"    line {it.line}: the input has ended before it")
    else:
        said.append(f"    line {it.line}: {visible(it.text)}")
        said += [f"    in this line there is {', '.join(it.odd[:4])}"] if it.odd else []
    said += [*meaning, *(f"    {form}" for form in it.forms)]
    return said + [line for remedy in (remedies(it.short) if it.short else []) for line in indented(remedy)]


def visible(line: str) -> str:
    """A line with its odd letters as numbers, and not longer than a line of a terminal."""
    shown = "".join(it if it.isalpha() or not is_odd(it) else f"<{code_point(it):02X}>" for it in line[:101])
    return shown if len(line) <= 100 else shown[:100] + " .."


def run(given: Namespace) -> int:
    if is_number(given.what):
        if given.more is not None and not is_number(given.more):
            raise WordsError(f"after a code comes the number of a line, and not {given.more}")
        return put(code_sheet(number_of(given.what), None if given.more is None else number_of(given.more)), "explain", given)
    mode = given.more or "solve"
    if mode not in MODES:
        raise WordsError(f"there is no mode {mode}{near(mode, MODES)}: the modes are {', '.join(MODES)}")
    client = program_of(given)
    answer = explain(client, read(given.what), mode)
    return put(explain_sheet(answer), "explain", given, client, Status.REFUSED if answer.refusals else Status.ANSWERED)


COMMAND = Command(
    "explain",
    run,
    "why is it refused: which line, what is wrong, and what can I do about it?",
    "Runs the building and explains each refusal. If commands or a block follow the building, name the mode.",
    "13 33",
    (
        argument("what", metavar="BUILDING|CODE", help="a file with a building, or - for standard input; or a code, as in `refused 13 33`"),
        argument("more", metavar="MODE|LINE", nargs="?", help="the mode that refuses (default: solve); or after a code the number of the line"),
        *FACES,
    ),
)
