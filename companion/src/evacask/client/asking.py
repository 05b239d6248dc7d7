"""The questions that the program itself answers about one building: is it accepted, its plan, talks on it, and whether a block is right."""
from __future__ import annotations

import contextlib
import dataclasses
from typing import Iterator, Optional, Union

from evacask.client.blocks import NOT_UNDERSTOOD, ONE_LINE, Plan, opening_of, understood
from evacask.client.dialogue import Replan, Session, Study
from evacask.client.reports import Verdict, verdict_of
from evacask.client.talk import Client
from evacask.errors import Broken, Refused, Shortfall
from evacask.model.building import Model, model_of
from evacask.model.codes import Place, refusal
from evacask.model.lines import bytes_of, fields_of, lines_of, text_of


def accepted(client: Client, text: str) -> Model:
    """The model of a text; `Refused` if the program refuses it. Nothing is planned."""
    reply = client.run(["upgrade"], bytes_of(text))
    refused = ONE_LINE.match(reply)
    if refused:
        raise refused_line(text, Place.BUILDING, int(refused[1]), int(refused[2]))
    if not reply.startswith(b"evacplan 2\n") or not reply.endswith(b"\nend\n"):
        raise Broken(f"the program printed {reply[:40]!r} in place of a building: {NOT_UNDERSTOOD}")
    try:
        return model_of(text)
    except (ValueError, KeyError, IndexError) as fault:
        raise Broken(f"the program accepted what is no building ({fault})") from None


def refused_line(text: str, place: Place, code: int, line: int) -> Refused:
    """The exception for a line of a text that the program refused."""
    lines = [*lines_of(text), ""]
    if not 0 < line <= len(lines):
        raise Broken(f"the program refused line {line} of {len(lines) - 1}: {NOT_UNDERSTOOD}")
    return understood(refusal(place, code, line, lines[line - 1]))


def solve(client: Client, model: Model, horizon: Optional[int] = None) -> Plan:
    """A plan that has the most people out by every period; `Shortfall` if not everybody can be out by the horizon, which another may stand for."""
    asked = model if horizon is None else with_horizon(model, horizon)
    reply = client.run(["solve"], asked.bytes)
    refused = ONE_LINE.match(reply)
    if refused:
        raise refused_line(asked.text, Place.BUILDING, int(refused[1]), int(refused[2]))
    return opening_of(reply, asked)


def plan_or_short(client: Client, model: Model, horizon: Optional[int] = None) -> Union[Plan, Shortfall]:
    """A plan, or why there is none."""
    try:
        return solve(client, model, horizon)
    except Shortfall as short:
        return short


def with_horizon(model: Model, horizon: int) -> Model:
    """The model with another horizon, all else as it is."""
    lines = [f"horizon {horizon}" if fields_of(line)[:1] == ["horizon"] else line for line in model.text.split("\n")]
    return dataclasses.replace(model, text="\n".join(lines), horizon=horizon)


def text_to_end(model: Model) -> bytes:
    """A building's text up to its line `end`, after which a talk has its commands."""
    return bytes_of("".join(f"{line}\n" for line in model.text.split("\n")[: model.end_line]))


@contextlib.contextmanager
def session(client: Client, model: Model) -> Iterator[Session]:
    """A session on a building; `Shortfall` if not everybody can be out by the horizon."""
    with client.talk("session", text_to_end(model)) as line:
        yield Session(line, model)


@contextlib.contextmanager
def study(client: Client, model: Model) -> Iterator[Study]:
    """A study of a building. `Shortfall` comes with its first answer."""
    with client.talk("study", text_to_end(model)) as line:
        yield Study(line, model)


@contextlib.contextmanager
def replan(client: Client, model: Model) -> Iterator[Replan]:
    """A session whose plan is carried out."""
    with client.talk("replan", text_to_end(model)) as line:
        yield Replan(line, model)


def check(client: Client, model: Model, block: bytes) -> Verdict:
    """Whether a block is a right answer about a building; `Refused` with 51 and the like if it is no block at all."""
    text = text_of(text_to_end(model) + block)
    reply = client.run(["check"], bytes_of(text))
    refused = ONE_LINE.match(reply)
    if refused:
        raise refused_line(text, Place.CHECK, int(refused[1]), int(refused[2]))
    return verdict_of(reply)
