"""The words of evacask: how a command is described, and how its words are read and refused."""
from __future__ import annotations

import argparse
import re
import sys
from argparse import ArgumentTypeError, Namespace
from dataclasses import dataclass
from typing import IO, Any, Callable, Dict, List, NoReturn, Optional, Sequence, Tuple, Union

from evacask.errors import WordsError
from evacask.faces.ending import STATUSES
from evacask.model.lines import near
from evacask.model.draft import MOST_RATE

WIDTH = 118


@dataclass(frozen=True)
class Argument:
    """An argument as argparse takes it."""

    names: Tuple[str, ...]
    options: Dict[str, Any]


def argument(*names: str, **options: Any) -> Argument:
    return Argument(names, options)


@dataclass(frozen=True)
class Command:
    """A command: its question in a line, what it does, an example, and its arguments. Of arguments in a list only one may be given."""

    name: str
    run: Callable[[Namespace], int]
    question: str
    what: str
    example: str
    arguments: Tuple[Union[Argument, List[Argument]], ...]


class Words(argparse.ArgumentParser):
    """A parser that refuses words in one line, and doesn't hide that its help can't be written."""

    known: Sequence[str] = ()

    def error(self, message: str) -> NoReturn:
        unknown = re.match(r"argument COMMAND: invalid choice: '([^']*)'", message)
        if unknown:
            message = f"there is no command {unknown[1]}{near(unknown[1], self.known)}"
        raise WordsError(f"{message}; {self.prog} --help says more")

    def _print_message(self, message: str, file: Optional[IO[str]] = None) -> None:
        (file or sys.stdout).write(message)


class Layout(argparse.RawDescriptionHelpFormatter):
    """Help as wide as the documents, whatever the terminal."""

    def __init__(self, prog: str):
        super().__init__(prog, max_help_position=28, width=WIDTH)


def number(text: str) -> int:
    """A number without a sign."""
    if not re.fullmatch(r"[0-9]{1,9}", text):
        raise ArgumentTypeError(f"{text} is no whole number of at most nine digits")
    return int(text)


def rate(text: str) -> int:
    """The rate of an arc: people a period."""
    if number(text) > MOST_RATE:
        raise ArgumentTypeError(f"{text} is no rate: 0 to {MOST_RATE:,} people a period")
    return int(text)


BUILDING = argument("building", metavar="BUILDING", help="a file with a building, or - for standard input")
EDIT = argument("--edit", action="append", default=[], metavar="EDITS", help="ask about the building after these edits, separated by ;")
PROGRAM = "the program to ask, instead of the built one or the one that EVACPLAN names"


def faces(default: str) -> Tuple[Union[Argument, List[Argument]], ...]:
    """How an answer is printed, and how if no word says so."""
    helps = {
        "text": "print lines to read",
        "csv": "print the table for a spreadsheet, with all its columns",
        "json": "print the answer as JSON",
    }
    one = [
        argument(f"--{name}", dest="face", action="store_const", const=name, default=default, help=what + " (the default)" * (name == default))
        for name, what in helps.items()
    ]
    return one, argument(
        "--columns", choices=("all",), default=None, help="all: also show the columns that are otherwise left out, with their grounds"
    )


FACES = faces("text")
# What a command that asks about one building takes besides its own arguments. One that reads something else takes FACES alone.
SHARED = (EDIT, *FACES)


def parser_of(commands: Sequence[Command]) -> Words:
    """The parser of all commands."""
    what = "Asks the proved program evacplan a question about a building, and explains the answer in an engineer's terms."
    epilog = f"{example_of(commands[0])}evacask COMMAND --help describes a command and its arguments.\n\n{STATUSES}"
    top = Words(prog="evacask", description=what, epilog=epilog, formatter_class=Layout)
    top.known = [it.name for it in commands]
    add_program(top, None, False)
    top.add_argument("--version", action="store_true", help="print the versions of evacask and of the program, and whether the program is proved")
    places = top.add_subparsers(title="commands", metavar="COMMAND", dest="command", parser_class=Words)
    for command in commands:
        question = f"{command.question[0].upper()}{command.question[1:]}"
        place = places.add_parser(
            command.name,
            help=command.question,
            description=f"{question}\n\n{command.what}".strip(),
            epilog=f"{example_of(command)}{STATUSES}",
            formatter_class=Layout,
        )
        add_program(place, argparse.SUPPRESS, argparse.SUPPRESS)
        place.set_defaults(run=command.run)
        for given in command.arguments:
            add_given(place, given)
    return top


def add_program(place: argparse.ArgumentParser, path: Optional[str], proved: Any) -> None:
    place.add_argument("--program", metavar="PATH", default=path, help=PROGRAM)
    place.add_argument("--proved", action="store_true", default=proved, help="ask the program only if it is proved on this machine")


def example_of(command: Command) -> str:
    return f"example:\n  ./evacask {command.name} {command.example}\n\n"


def add_given(place: argparse.ArgumentParser, given: Union[Argument, List[Argument]]) -> None:
    """Adds an argument, or several of which only one may be given."""
    if isinstance(given, Argument):
        place.add_argument(*given.names, **given.options)
        return
    group = place.add_mutually_exclusive_group()
    for one in given:
        group.add_argument(*one.names, **one.options)
