#!/usr/bin/env python3
"""Makes the man pages and the completions from what the commands themselves say.

    python3 tools/pages.py            prints which of the kept pages differ; the status is 1 if one does
    python3 tools/pages.py --write    writes them, into docs/man, docs/completion and the table of docs/users/evacask.md

evacask(1) and the completions are made from the table of commands of the package, evacplan(1) and evac(5) from the tables of the language (language.json) and
from the codes of the package.
"""
from __future__ import annotations

import argparse
import json
import pathlib
import re
import sys
from typing import Dict, List

TOP = pathlib.Path(__file__).resolve().parent.parent
sys.path.insert(0, str(TOP / "companion/src"))
from codes import CODES, language_rows, statement_rows  # noqa: E402
from completion import bash, fish, zsh  # noqa: E402
from evacask.faces.commands import COMMANDS  # noqa: E402
from evacask.faces.ending import STATUSES  # noqa: E402
from evacask.faces.words import parser_of  # noqa: E402
from evacask.version import VERSION  # noqa: E402

REFERENCE = TOP / "docs/users/evacask.md"
PART = re.compile(r"(?ms)^(<!-- from: commands -->\n)(?:.*?)^(<!-- end -->)$")
SEE = {
    "evacplan": r"\fBevacask\fR(1), \fBevac\fR(5)",
    "evacask": r"\fBevacplan\fR(1), \fBevac\fR(5)",
    "evac": r"\fBevacplan\fR(1), \fBevacask\fR(1)",
}
BEST_CASE = """The result is the best case, not a prediction: no plan that keeps to the capacities, rates and travel times of the model clears the building
sooner. People don't follow plans, so expect a real evacuation to take longer."""


def plain(text: str) -> str:
    """A text as roff takes it."""
    text = re.sub(r"\s+", " ", text).strip().replace("\\", r"\e").replace("-", r"\-")
    return rf"\&{text}" if text.startswith((".", "'")) else text


def marked(text: str) -> str:
    """A text of the documents as roff: what is in code is bold, and a link is its words."""
    text = re.sub(r"\[([^]]*)\]\([^)]*\)", r"\1", text)
    return re.sub(r"`([^`]*)`", lambda found: rf"\fB{found[1]}\fR", plain(text))


def item(head: str, text: str) -> str:
    return f".TP\n{head}\n{text}\n"


def page(name: str, section: int, what: str, parts: Dict[str, str]) -> str:
    """A man page of some parts, each a head with its roff."""
    begin = f'.\\" Made by tools/pages.py\n.TH {name.upper()} {section} "" "evacplan {VERSION}" "evacplan"\n.SH NAME\n{name} \\- {plain(what)}\n'
    return begin + "".join(f".SH {head}\n{text.rstrip()}\n" for head, text in {**parts, "SEE ALSO": SEE[name]}.items())


def program_page() -> str:
    read, words = "", ""
    for row in language_rows("words"):
        read = read if row[1] == "the same" else "nothing" if row[1] == "nothing is read" else row[1]
        words += item(marked(row[0]), f"reads {marked(read)}; prints {marked(row[2])}")
    statuses = "".join(item(rf"\fB{it[0]}\fR", marked(it[1])) for it in language_rows("statuses"))
    example = ".nf\nevacplan solve < office.evac\n.fi"
    parts = {
        "SYNOPSIS": r"\fBevacplan\fR \fIWORDS\fR < \fIBUILDING\fR",
        "DESCRIPTION": f"{plain('Reads a building from standard input and writes a plan that gets as many people out by every moment as any plan can, with cuts that show it.')}\n.PP\n{plain(BEST_CASE)}",
        "WORDS": words,
        "EXIT STATUS": statuses,
        "EXAMPLE": example,
    }
    return page("evacplan", 1, "plan how a building empties, with a proof that no plan is faster", parts)


def language_page() -> str:
    codes = json.loads(CODES.read_text("utf-8"))
    statements = "".join(item(marked(it[0]), marked("; ".join(cell for cell in it[1:] if cell) + ".")) for it in statement_rows(codes))
    refusals = "".join(item(rf"\fB{code}\fR", marked(f"{said['meaning']} {said['remedy']}")) for code, said in codes["building"].items())
    example = (TOP / "examples/one_room.evac").read_text("utf-8").replace("-", r"\-")
    parts = {
        "DESCRIPTION": plain(
            "A building is a text in which each line is a statement: words separated by blanks. A line that begins with # is a comment."
        ),
        "STATEMENTS": statements,
        "EXAMPLE": f".nf\n{example}.fi",
        "CODES": f"{marked('The answer to a building with a fault is `refused CODE LINE`.')}\n{refusals}",
    }
    return page("evac", 5, "the language of buildings", parts)


def argument_items(parser: argparse.ArgumentParser) -> str:
    """The arguments of a command with what they mean, but for those of every command."""
    found = []
    for it in parser._actions:
        if it.dest in ("help", "program", "proved", "version", "command"):
            continue
        value = it.metavar or (f"{{{','.join(map(str, it.choices))}}}" if it.choices else it.dest.upper() if it.nargs != 0 else "")
        name = ", ".join(rf"\fB{plain(flag)}\fR" for flag in it.option_strings)
        found.append(item(f"{name} \\fI{plain(str(value))}\\fR" if value else name, plain(it.help or "")))
    return "".join(found)


def companion_page() -> str:
    parser = parser_of(COMMANDS)
    places = subcommands(parser)
    commands = "".join(
        f".SS {it.name}\n{plain(it.question[0].upper() + it.question[1:])}\n.PP\n{plain(it.what)}\n.PP\n.nf\nevacask {plain(f'{it.name} {it.example}')}\n.fi\n{argument_items(places[it.name])}"
        for it in COMMANDS
    )
    shared = "".join(
        item(", ".join(rf"\fB{plain(flag)}\fR" for flag in it.option_strings) + (rf" \fI{it.metavar}\fR" if it.metavar else ""), plain(it.help or ""))
        for it in parser._actions
        if it.option_strings
    )
    statuses = "".join(item(rf"\fB{code}\fR", plain(text)) for code, text in re.findall(r"(?m)^  (\d+) +(.*)", STATUSES))
    parts = {
        "SYNOPSIS": r"\fBevacask\fR [\fB\-\-program\fR \fIPATH\fR] [\fB\-\-proved\fR] \fICOMMAND\fR ...",
        "DESCRIPTION": f"{plain(parser.description or '')}\n.PP\n{plain(BEST_CASE)}",
        "OPTIONS": shared,
        "COMMANDS": commands,
        "EXIT STATUS": f"{statuses}.PP\n{plain(STATUSES.rpartition(chr(10))[2])}",
        "ENVIRONMENT": item(r"\fBEVACPLAN\fR", "The file of the program to ask, if no \\fB\\-\\-program\\fR is given."),
    }
    return page("evacask", 1, "ask evacplan about a building", parts)


def subcommands(parser: argparse.ArgumentParser) -> Dict[str, argparse.ArgumentParser]:
    return next(dict(it.choices) for it in parser._actions if isinstance(it, argparse._SubParsersAction))


def own_words(parser: argparse.ArgumentParser) -> str:
    """The arguments of a command but for those of every command, in code."""
    found = []
    for it in parser._actions:
        if {it.dest, *it.option_strings} & {"help", "program", "proved", "--text", "--csv", "--json", "columns", "edit"}:
            continue
        value = it.metavar or (f"{{{','.join(map(str, it.choices))}}}" if it.choices else it.dest.upper())
        words = [*it.option_strings[-1:], *([str(value)] if it.nargs != 0 else [])]
        found.append(f"`{' '.join(words)}`".replace("|", r"\|"))
    return ", ".join(found)


def commands_table() -> str:
    """The table of commands on the page about evacask."""
    places = subcommands(parser_of(COMMANDS))
    rows = "".join(f"| `{it.name}` | {it.question[0].upper() + it.question[1:]} | {own_words(places[it.name])} |\n" for it in COMMANDS)
    return f"| Command | Question | Its own arguments |\n|---|---|---|\n{rows}"


def reference_page() -> str:
    """The page about evacask with its table of commands anew."""
    return PART.sub(lambda found: f"{found[1]}\n{commands_table()}{found[2]}", REFERENCE.read_text("utf-8"))


def pages() -> Dict[pathlib.Path, str]:
    """The pages by their places."""
    parser = parser_of(COMMANDS)
    words = sorted({word for row in language_rows("words") for word in re.findall(r"^`([a-z]+)", row[0])})
    made = {"man/evacplan.1": program_page(), "man/evacask.1": companion_page(), "man/evac.5": language_page()}
    questions = {it.name: it.question for it in COMMANDS}
    for name, shell in (("evacask.bash", bash), ("_evacask", zsh), ("evacask.fish", fish)):
        made[f"completion/{name}"] = shell(parser, subcommands(parser), questions, words)
    return {**{TOP / "docs" / name: text for name, text in made.items()}, REFERENCE: reference_page()}


def main(words: List[str]) -> int:
    if words not in ([], ["--write"]):
        sys.stderr.write("pages: tools/pages.py takes --write, or nothing\n")
        return 64
    differing = [(file, text) for file, text in pages().items() if not file.exists() or file.read_text("utf-8") != text]
    for file, text in differing:
        if words:
            file.parent.mkdir(parents=True, exist_ok=True)
            file.write_text(text, "utf-8")
        print(f"{'written' if words else 'not as the commands say'}: {file.relative_to(TOP)}")
    if differing and not words:
        print("pages: python3 tools/pages.py --write makes them anew")
    return 1 if differing and not words else 0


if __name__ == "__main__":
    sys.exit(main(sys.argv[1:]))
