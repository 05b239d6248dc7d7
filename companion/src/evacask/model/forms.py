"""The lines that a session, a study and a replan answer, and what follows their first words."""
from __future__ import annotations

import re
from typing import Dict, List

from evacask.errors import UnknownName
from evacask.model.building import Model
from evacask.model.shares import in_shares

# Nodes A and B, an exit D, and numbers by other letters.
EDITS = {
    "shut": "A B",
    "reopen": "A B",
    "shutexit": "D",
    "openexit": "D",
    "rate": "A B n",
    "room": "A n",
    "shift": "A B n",
    "enter": "A n",
    "leave": "A n",
    "window": "A B p q",
    "unwindow": "A B p q",
}
SESSION = {**EDITS, "undo": "", "cut": "k", "routes": "", "clearing": "", "bottlenecks": "", "summary": "", "work": ""}
COMMANDS: Dict[str, Dict[str, str]] = {
    "session": SESSION,
    "study": {"exits": "", "least": "A B K"},
    "replan": {**SESSION, "advance": "p"},
}
REPORTS = ("routes", "clearing", "bottlenecks", "summary")
# Of these A and B are the ends of an arc.
OF_ARCS = ("shut", "reopen", "rate", "window", "unwindow", "least")
# The most bytes of a line, without its end, and the edits that a session keeps.
LINE_LIMIT, MOST_UNDOS = 200, 64


def words_of(line: str) -> List[str]:
    """The words of a command that somebody typed: a name with blanks stands between double quotes."""
    return [quoted or plain for quoted, plain in re.findall(r'"([^"]*)"|([^ \t"]+)', line)]


def plain(model: Model, line: str) -> str:
    """A command as the program is sent it: with the names of nodes in place of own names of nodes and arcs, and people in shares."""
    word, *rest = words_of(line) or [""]
    wanted = COMMANDS["replan"].get(word, COMMANDS["study"].get(word, "")).split()
    if word in OF_ARCS and len(rest) == len(wanted) - 1:
        rest = [*ways_named(model, rest[0]), *rest[1:]]
    return " ".join([word, *(sent(model, form, it) for it, form in zip(rest, wanted)), *rest[len(wanted) :]])


def sent(model: Model, form: str, word: str) -> str:
    """A field of a command as the program is sent it. `ValueError` for people who are no whole number of shares."""
    if form in ("A", "B", "D"):
        return own_to_name(model, word)
    return in_shares(word, model.shares) if form == "n" else word


def ways_named(model: Model, word: str) -> List[str]:
    """The two names of the arc that has this own name, or the word itself if there isn't just one."""
    ways = [it.way for it in model.arcs.values() if it.own_name == word]
    return list(ways[0]) if len(ways) == 1 else [word]


def own_to_name(model: Model, word: str) -> str:
    """The node's name that a word stands for, or the word itself."""
    if word in model.nodes or not any(it.own_name == word for it in model.nodes.values()):
        return word
    try:
        return model.node(word).name
    except UnknownName:
        return word
