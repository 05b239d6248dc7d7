"""One line after the other, each answered: a session, a study or a replan as somebody types it."""
from __future__ import annotations

import contextlib
from dataclasses import dataclass
from typing import Iterator, Tuple, Union

from evacask.client import asking
from evacask.client.blocks import ONE_LINE, Cut, Plan, cut_of, lines_of_reply, plan_of, strictly, understood
from evacask.client.dialogue import Dialogue, Replan
from evacask.client.reports import Exit, Gone, Least, exits_of, gone_of, least_of
from evacask.client.talk import Client
from evacask.errors import Refused, Shortfall, WordsError
from evacask.model.building import Model
from evacask.model.codes import refusal
from evacask.model.forms import plain
from evacask.model.lines import bytes_of, text_of


@dataclass(frozen=True)
class Lines:
    """A reply that is lines, as a report: they are printed as they are."""

    lines: Tuple[str, ...]


Said = Union[Plan, Shortfall, Refused, Gone, Cut, Tuple[Exit, ...], Least, Lines]


@dataclass(frozen=True)
class Reply:
    """The text of a reply, and what it says."""

    text: str
    said: Said


class Conversation:
    """A session, a study or a replan on a building, whose plan at the opening is `opening`."""

    def __init__(self, mode: str, talk: Dialogue, opening: Plan):
        self.mode, self.talk, self.opening = mode, talk, opening
        self.model: Model = talk.model

    def say(self, line: str) -> Reply:
        """The reply to a line that is no blank and no comment. `WordsError` if it isn't sent: people that are no whole number of shares."""
        try:
            sent = plain(self.model, line)
        except ValueError as fault:
            raise WordsError(f"{line}: {fault}") from None
        # (the program takes one CR at the end of a line away, so a line that ends with one is sent with one more)
        self.talk.line.send(bytes_of(sent + "\r" * sent.endswith("\r")) + b"\n")
        raw = self.talk.line.reply()
        more = self.talk.line.reply() if raw.startswith(b"advance ") and isinstance(self.talk, Replan) else b""
        return Reply(text_of(raw + more), self.read(raw, more, line))

    def read(self, raw: bytes, more: bytes, line: str) -> Said:
        """What a reply says. That to an accepted advance has two parts."""
        shares = self.model.shares
        refused = ONE_LINE.match(raw)
        if refused:
            return understood(refusal(self.talk.place, int(refused[1]), 0, line))
        word = raw.split(b" ", 1)[0]
        if word == b"advance":
            at, out = gone_of(raw, shares)
            return Gone(at, out, plan_of(more, self.model))
        if word == b"cut":
            return cut_of(raw, self.model)
        if word == b"exits":
            return exits_of(raw, shares)
        if word == b"least":
            return least_of(raw, shares)
        if word in (b"answer", b"refused"):
            return plan_or_short(raw, self.model)
        return Lines(lines_of(raw))


def plan_or_short(raw: bytes, model: Model) -> Union[Plan, Shortfall]:
    try:
        return plan_of(raw, model)
    except Shortfall as short:
        return short


def lines_of(raw: bytes) -> Tuple[str, ...]:
    """The lines of a report, or of `work`."""
    if raw.startswith(b"work "):
        return (text_of(raw).rstrip("\n"),)
    strictly(lambda: lines_of_reply(raw), "a report")
    return tuple(text_of(raw).rstrip("\n").split("\n"))


@contextlib.contextmanager
def conversation(client: Client, model: Model, mode: str = "session") -> Iterator[Conversation]:
    """A session, a study or a replan; `Shortfall` if not everybody can be out by the horizon."""
    if mode == "study":
        opening = asking.solve(client, model)
        with asking.study(client, model) as study:
            yield Conversation(mode, study, opening)
    elif mode in ("session", "replan"):
        with (asking.replan if mode == "replan" else asking.session)(client, model) as talk:
            yield Conversation(mode, talk, talk.opening)
    else:
        raise WordsError(f"there is no talk {mode}: there are session, study, replan")
