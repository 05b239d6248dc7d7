"""The commands of evacask, and how its words find one."""
from __future__ import annotations

import sys
from argparse import Namespace
from typing import List, Optional, Sequence, Tuple

from evacask.client.program import commit_of_release, path_of, source_of
from evacask.errors import NoProgram, Shortfall, WordsError
from evacask.faces import (
    admit,
    assign,
    compare,
    convert,
    edit,
    explain,
    improve,
    losses,
    observed,
    ranges,
    report,
    rescue,
    review,
    sensitivity,
    session,
    sheets,
    summary,
    sweep,
    tables,
    why,
    width,
)
from evacask.faces.ending import Status, ends, say
from evacask.faces.words import Command, parser_of
from evacask.version import VERSION

COMMANDS: Tuple[Command, ...] = (
    summary.COMMAND,
    why.COMMAND,
    sensitivity.COMMAND,
    width.COMMAND,
    compare.COMMAND,
    session.COMMAND,
    tables.COMMAND,
    review.COMMAND,
    explain.COMMAND,
    convert.COMMAND,
    edit.COMMAND,
    assign.COMMAND,
    improve.COMMAND,
    ranges.COMMAND,
    sweep.COMMAND,
    losses.COMMAND,
    admit.COMMAND,
    rescue.COMMAND,
    observed.COMMAND,
    sheets.COMMAND,
    report.COMMAND,
)
# Words of before, which answer still and aren't in the help.
OLD_WORDS = {"doubts": "review", "ways": "sensitivity", "wide": "width", "talk": "session", "metres": "convert"}


def run(words: Sequence[str]) -> int:
    """Runs the command that the words name."""
    top = parser_of(COMMANDS)
    if not words:
        say(top.format_help())
        return Status.WORDS
    try:
        given = top.parse_args(renamed(words))
    except SystemExit as ended:  # (after --help)
        return int(ended.code or 0)
    if given.version:
        sys.stdout.write(version_line(given))
        return Status.ANSWERED
    if given.command is None:
        raise WordsError("which command? evacask --help lists them")
    try:
        status: int = given.run(given)
    except Shortfall as short:
        raise ShortBuilding(given.building, short) from None
    return status


class ShortBuilding(Shortfall):
    """A building from which not everybody can be out, whose name its message begins with."""

    def __init__(self, name: str, short: Shortfall):
        super().__init__(short.most, short.people, short.cut)
        self.args = (f"{name}: {short}; evacask summary says where the others are",)


def renamed(words: Sequence[str]) -> List[str]:
    """The words with the new name of the command, which is the first word that is no option or an option's value."""
    at = 0
    while at < len(words) and words[at].startswith("-"):
        at += 2 if words[at] == "--program" else 1
    return [OLD_WORDS.get(word, word) if number == at else word for number, word in enumerate(words)]


def version_line(given: Namespace) -> str:
    """The version, the commit of a release, and what is known of the program. Nothing is built for it."""
    made_of = commit_of_release()
    version = f"evacask {VERSION}" + (f", commit {made_of[:16]}" if made_of else "")
    try:
        about = source_of(path_of(given.program, makes=False))
    except NoProgram:
        return f"{version}; there is no program\n"
    return f"{version}; program {about.sha256[:16]}, {f'proved in logic {about.logic}' if about.logic else 'not proved'}\n"


def main(words: Optional[Sequence[str]] = None) -> int:
    """The status of a command; its words are those of the process if none are given."""
    given = sys.argv[1:] if words is None else list(words)
    return ends(lambda: run(given))


if __name__ == "__main__":
    sys.exit(main())
