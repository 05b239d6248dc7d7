"""The codes of refusals, by place, with what each means and what to do. The tables of docs/users/formats.md are checked against them."""
from __future__ import annotations

import enum
import functools
import json
import pathlib
from dataclasses import dataclass
from typing import Dict, List, Optional

from evacask.errors import Refused
from evacask.model.forms import COMMANDS
from evacask.model.lines import fields_of

FILE = pathlib.Path(__file__).resolve().parent / "codes.json"


class Place(str, enum.Enum):
    """What was refused: a line of a building, one of a session, a study or a replan, a block, or the words after evacplan."""

    BUILDING = "building"
    SESSION = "session"
    STUDY = "study"
    REPLAN = "replan"
    CHECK = "check"
    WORDS = "words"


# Where else a code may have its meaning, if its own place has none for it.
OTHERS = {Place.REPLAN: (Place.SESSION,), Place.STUDY: (Place.SESSION,), Place.CHECK: (Place.BUILDING,)}
HEADINGS = {
    Place.BUILDING: "a building",
    Place.SESSION: "a session",
    Place.STUDY: "a study",
    Place.REPLAN: "a replan",
    Place.CHECK: "a block that is checked",
    Place.WORDS: "the words after evacplan",
}
# The places of commands, which come one a line.
OF_COMMANDS = (Place.SESSION, Place.STUDY, Place.REPLAN)
COMMAND = "command "


@dataclass(frozen=True)
class Meaning:
    """What a code means in a place, or of a command with some first word, and what to do."""

    code: int
    place: Place
    what: str
    remedy: str
    word: str = ""

    @property
    def heading(self) -> str:
        """Where the code has this meaning."""
        return f"{HEADINGS[self.place]}, {self.word}" if self.word else HEADINGS[self.place]

    @property
    def sentence(self) -> str:
        return f"{self.what} {self.remedy}"


@functools.lru_cache(maxsize=None)
def table() -> Dict[str, Dict[str, Dict[str, str]]]:
    """The file as it is: by place, or by `command WORD`, and then by code; and the statements by their forms."""
    said: Dict[str, Dict[str, Dict[str, str]]] = json.loads(FILE.read_text(encoding="utf-8"))
    return said


def entry(key: str, code: int, place: Place, word: str = "") -> Optional[Meaning]:
    found = table().get(key, {}).get(str(code))
    return Meaning(code, place, found["meaning"], found["remedy"], word) if found else None


def meaning_of(place: Place, code: int, word: str = "") -> Optional[Meaning]:
    """What a code means: of a command by its first word, then in its place, then where that place takes its meanings from."""
    own = entry(COMMAND + word, code, place, word) if place in OF_COMMANDS else None
    places = (place, *OTHERS.get(place, ()))
    return own or next(filter(None, (entry(it.value, code, it) for it in places)), None)


def meanings(code: int) -> List[Meaning]:
    """All meanings of a code, those of a building first, and those of single commands last."""
    of_places = [entry(it.value, code, it) for it in Place]
    of_commands = [entry(key, code, Place.SESSION, key[len(COMMAND) :]) for key in table() if key.startswith(COMMAND)]
    return [it for it in (*of_places, *of_commands) if it]


def forms_of(word: str, is_command: bool = False) -> List[str]:
    """How a statement or a command with this first word is written, a statement with its ranges."""
    if is_command:
        return [f"{word} {forms[word]}".strip() for forms in COMMANDS.values() if word in forms][:1]
    return [form + (f": {it['ranges']}" if it["ranges"] else "") for form, it in table()["statements"].items() if form.split()[0] == word]


def refusal(place: Place, code: int, line: int, text: str) -> Refused:
    """The exception for a refused line, with its meaning and remedy. `line` is 0 for a command, whose first word may give the code its meaning."""
    word = next(iter(fields_of(text)), "") if not line else ""
    meaning = meaning_of(place, code, word)
    return Refused(code, line, text, meaning.remedy if meaning else "", meaning.what if meaning else "")
