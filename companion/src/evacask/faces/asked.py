"""What every command does: it reads its building, makes the edits, and gives the answer's sheet to the face that was asked for."""
from __future__ import annotations

import dataclasses
import functools
import io
import sys
from argparse import Namespace
from typing import Any, Dict, List, Optional

from evacask.client.asking import accepted
from evacask.client.program import UNPROVED, found_program
from evacask.client.sources import NOT_PROVED
from evacask.client.talk import Program
from evacask.errors import InputError, Refused, WordsError
from evacask.faces.ending import Status, say
from evacask.faces.progress import LINE, waiting
from evacask.faces.sheet import Sheet, as_csv, as_json, as_text
from evacask.model.building import Model
from evacask.model.drawn_building import drawn_building, has_ways, in_periods
from evacask.model.edits import edited
from evacask.model.forms import EDITS, LINE_LIMIT
from evacask.model.lines import bytes_of, fields_of, text_of


def read(name: str) -> str:
    """The text of a file, or of standard input if its name is `-`."""
    if name == "-" and sys.stdin is None:
        raise InputError("standard input can't be read: it is closed")
    try:
        if name == "-":
            return text_of(sys.stdin.buffer.read())
        with open(name, "rb") as file:
            return text_of(file.read())
    except (OSError, ValueError, io.UnsupportedOperation) as fault:
        what = "standard input" if name == "-" else name
        raise InputError(f"{what} can't be read: {getattr(fault, 'strerror', None) or fault}") from None


def edits_of(groups: List[str]) -> List[str]:
    """The edits that some words name, with `;` between them."""
    edits = [edit.strip() for group in groups for edit in group.split(";")]
    for edit in edits:
        if next(iter(fields_of(edit)), "") not in EDITS or not edit.isprintable() or len(bytes_of(edit)) > LINE_LIMIT:
            raise WordsError(f"{edit or 'nothing'} is no edit: an edit begins with {', '.join(EDITS)}")
    return edits


class Asked:
    """A building that a command is about: its name, the program to ask, and its model after the edits that were given.

    Of a plan in metres `drawn` is the plan, and the model is its building in shares of a person, rounded to the later side. An edit changes the model and
    not the drawing, so `drawn` is None if there are edits.
    """

    def __init__(self, given: Namespace, name: Optional[str] = None):
        edits = edits_of(getattr(given, "edit", []))
        self.name = name or given.building
        self.client = program_of(given)
        text = read(self.name)
        self.drawn = drawn_building(self.name, text) if has_ways(text) else None
        self.model = named(self.name, self.client, in_periods(self.drawn) if self.drawn else text)
        if edits:
            self.model, self.drawn = edited(self.model, edits), None


def program_of(given: Namespace) -> Program:
    """The program that the words name, which must be proved if they say so."""
    program = found_program(given.program, given.proved, waiting)
    if program.path == UNPROVED or not program.source.is_proved and sys.stderr is not None and sys.stderr.isatty():
        tell_that_unproved()
    return program


@functools.lru_cache(maxsize=None)
def tell_that_unproved() -> None:
    """Says once that the program isn't proved. (Of a program that is named, it is said at a terminal alone.)"""
    say(f"evacask: {NOT_PROVED}\n")


def named(name: str, client: Program, text: str) -> Model:
    """The model of a text; a refusal of it names the file."""
    try:
        return accepted(client, text)
    except Refused as fault:
        raise RefusedFile(name, fault) from None


class RefusedFile(Refused):
    """A refused line of a file, whose name its message begins with."""

    def __init__(self, name: str, fault: Refused):
        super().__init__(fault.code, fault.line, fault.text, fault.remedy, fault.meaning)
        self.args = (f"{name}, {fault}",)


def source(client: Program) -> Dict[str, Any]:
    return dataclasses.asdict(client.source)


def put(answer: Sheet, question: str, given: Namespace, client: Optional[Program] = None, status: int = Status.ANSWERED) -> int:
    """Writes a sheet as the words ask for it, and gives the status back."""
    LINE.erase()
    if given.face == "json":
        sys.stdout.write(as_json(answer, question, source(client) if client else None))
    else:
        sys.stdout.write(as_csv(answer) if given.face == "csv" else as_text(answer, given.columns == "all"))
    return status
