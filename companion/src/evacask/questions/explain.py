"""Refusals explained: the line of the input, and what its code means there."""
from __future__ import annotations

import unicodedata
from dataclasses import dataclass
from typing import Dict, List, Optional, Tuple

from evacask.client.blocks import strictly
from evacask.client.talk import Client
from evacask.errors import Shortfall
from evacask.model.building import model_of
from evacask.model.codes import Meaning, Place, forms_of, meaning_of
from evacask.model.ground import Ground
from evacask.model.lines import bytes_of, fields_of, lines_of, number_of
from evacask.questions.summary import Short, short_of

# The codes whose remedy is to compare a line with its form: fields, a number, its range, a name.
OF_FORM = (5, 6, 7, 8)
MODES = ("solve", "cards", "upgrade", "check", "session", "study", "replan")


@dataclass(frozen=True)
class Refusal:
    """A refusal of a run: `refused CODE LINE`, or `no CODE ..` of a check with its place as the text.

    `line` is the number of a line of the input, `text` that line (None if the input has ended before it), and `odd` are letters in it that can't be seen
    or look like others. `forms` say how such a line is written. `short` says what to do about a building that can't be cleared.
    """

    code: int
    line: int
    text: Optional[str]
    odd: Tuple[str, ...]
    meaning: Optional[Meaning]
    forms: Tuple[str, ...]
    short: Optional[Short] = None
    verdict: str = ""


@dataclass(frozen=True)
class Explained:
    """The refusals of a run, in the order of their lines."""

    mode: str
    refusals: Tuple[Refusal, ...]
    ground: Ground = Ground.PROVED

    def records(self) -> List[Dict[str, object]]:
        """A dict for each refusal."""
        return [{"code": it.code, "line": it.line, "text": it.text, "meaning": it.meaning.sentence if it.meaning else ""} for it in self.refusals]


def explain(client: Client, text: str, mode: str = "solve") -> Explained:
    """Each refusal of a run of the program in a mode on some input, which is a building and what comes after it."""
    lines = lines_of(text)
    end = next((number for number, line in enumerate(lines, 1) if fields_of(line)[:1] == ["end"]), len(lines))
    found = []
    for reply in client.run([mode], bytes_of(text)).decode("utf-8", "surrogateescape").split("\n"):
        fields = fields_of(reply)
        if fields[:1] == ["refused"]:
            code, line = strictly(lambda: (number_of(fields[1]), number_of(fields[2])), "a refusal")
            found.append(refusal_of(code, line, lines, end, mode, text))
        elif fields[:1] == ["no"]:
            code = strictly(lambda: number_of(fields[1]), "a verdict")
            found.append(Refusal(code, 0, None, (), meaning_of(Place.CHECK, code), (), verdict=reply))
    return Explained(mode, tuple(found))


def refusal_of(code: int, line: int, lines: List[str], end: int, mode: str, text: str) -> Refusal:
    """A refusal with its line of the input."""
    is_after = line > end
    place = Place(mode) if is_after and mode in [it.value for it in Place] else Place.BUILDING
    there = lines[line - 1] if 0 < line <= len(lines) else None
    word = next(iter(fields_of(there or "")), "")
    meaning = meaning_of(Place.WORDS if code == 40 else place, code, word if is_after else "")
    odd = tuple(character_name(it) for it in dict.fromkeys(there or "") if is_odd(it))
    forms = tuple(map(quoted, forms_of(word, is_after))) if code in OF_FORM and there is not None else ()
    short = short_of(model_of(text), Shortfall(0, 0)) if code == 22 and not is_after else None
    return Refusal(code, line, there, odd, meaning, forms, short)


def quoted(form: str) -> str:
    """A form between backquotes, its ranges after them."""
    form, colon, ranges = form.partition(": ")
    return f"`{form}`{colon}{ranges}"


def is_odd(letter: str) -> bool:
    """Whether a letter can't be seen, or looks like another: it is none of those that a statement is written in."""
    return not (" " <= letter <= "~" or letter == "\t")


def is_byte(letter: str) -> bool:
    """Whether it is in place of a byte that is part of no letter."""
    return "\udc80" <= letter <= "\udcff"


def code_point(letter: str) -> int:
    return ord(letter) - 0xDC00 if is_byte(letter) else ord(letter)


def character_name(letter: str) -> str:
    """What an odd letter is: its number and its name, or its byte if it is no letter."""
    if is_byte(letter):
        return f"the byte {code_point(letter):02X}"
    return f"U+{code_point(letter):04X} {unicodedata.name(letter, 'a control character')}"
