"""Many scenarios of one building: each is some edits, and its answer is when all are out, or how many can be.

An answer depends on its scenario alone, and on nothing that differs between best plans. So the scenarios may be answered in any order, on any number
of machines, and the answers are the same.
"""
from __future__ import annotations

import functools
from bisect import bisect_left
from collections import deque
from concurrent.futures import Executor, Future, ThreadPoolExecutor, wait
from dataclasses import dataclass
from typing import Callable, Deque, Dict, Iterator, List, Optional, Sequence, Tuple

from evacask.client.asking import plan_or_short, session
from evacask.client.blocks import Plan, plan_of
from evacask.client.curve import curve_of
from evacask.client.talk import Client
from evacask.errors import NoMemory, Refused, Shortfall, WordsError
from evacask.model.building import Model, model_of
from evacask.model.edits import edited
from evacask.model.forms import EDITS, LINE_LIMIT, MOST_UNDOS, plain
from evacask.model.ground import Ground
from evacask.model.lines import bytes_of, fields_of
from evacask.model.shares import Count

Scenario = Sequence[str]
Edits = Tuple[str, ...]
# Seconds.
LOOK_UP = 0.5
# Scenarios that one session answers at most, and such batches that wait for a worker.
MOST_BATCH, WAITING = 128, 32


@dataclass(frozen=True)
class Answer:
    """All `people` are out by `cleared`, half of them by `half`, and 95 of 100 by `most_of` (moments).

    If not all can be out by the horizon these are None, and `most` says how many can. If an edit is refused all are None but `refused`, its code, and
    `refused_edit`.
    """

    people: Optional[Count] = None
    cleared: Optional[int] = None
    half: Optional[int] = None
    most_of: Optional[int] = None
    most: Optional[Count] = None
    refused: Optional[int] = None
    refused_edit: str = ""
    ground: Ground = Ground.PROVED


def sweep(
    client: Client,
    model: Model,
    scenarios: Sequence[Scenario],
    workers: int = 4,
    tell: Callable[[int, int], None] = lambda done, of: None,
    executor: Optional[Executor] = None,
    steps: int = MOST_UNDOS,
) -> List[Answer]:
    """The answer to each scenario, in their order: see `answers`. `tell` is told how many are there."""
    found = []
    for answer in answers(client, model, scenarios, workers, executor, steps):
        found.append(answer)
        tell(len(found), len(scenarios))
    return found


def answers(
    client: Client, model: Model, scenarios: Sequence[Scenario], workers: int = 4, executor: Optional[Executor] = None, steps: int = MOST_UNDOS
) -> Iterator[Answer]:
    """The answers in the order of the scenarios, asked by so many workers at once.

    They are threads, or those of an `executor`, which may be any of `concurrent.futures`. A session plans after each edit of a scenario, so one of more
    than `steps` edits is planned from its last building.
    """
    if workers < 1:
        raise WordsError(f"{workers} workers: there is at least 1")
    if executor is None:
        with ThreadPoolExecutor(workers) as pool:
            yield from answers(client, model, scenarios, workers, pool, steps)
        return
    batch = batch_of(len(scenarios), workers)
    waiting: "Deque[Future[List[Answer]]]" = deque()
    try:
        for start in range(0, len(scenarios), batch):
            some = [checked(it, model) for it in scenarios[start : start + batch]]
            waiting.append(begun(executor, client, model.text, some, steps))
            if len(waiting) > workers + WAITING:
                yield from result_of(waiting.popleft())
        while waiting:
            yield from result_of(waiting.popleft())
    finally:
        for it in waiting:
            it.cancel()


def begun(executor: Executor, client: Client, text: str, scenarios: List[Edits], steps: int) -> "Future[List[Answer]]":
    """A batch that is at work or waits for a thread; `NoMemory` where there is none for another thread."""
    try:
        return executor.submit(part, client, text, scenarios, steps)
    except RuntimeError as fault:
        if "start new thread" not in str(fault):
            raise
        raise NoMemory("there is too little memory for another thread") from None


def batch_of(scenarios: int, workers: int) -> int:
    """How many scenarios one session answers: few enough that no worker waits long for the last one, as each session plans the building first."""
    return max(1, min(MOST_BATCH, -(-scenarios // (3 * workers))))


def result_of(batch: "Future[List[Answer]]") -> List[Answer]:
    """What a batch answers. It looks up now and then: Python doesn't break off an endless wait for a signal that came while another thread took over."""
    while not wait([batch], timeout=LOOK_UP).done:
        pass
    return batch.result()


def checked(scenario: Scenario, model: Model) -> Edits:
    """The edits of a scenario; `WordsError` for what is no edit, as it would put a session out of step."""
    for edit in scenario:
        fault = fault_of(edit, model)
        if fault:
            raise WordsError(fault)
    return tuple(scenario)


def fault_of(edit: str, model: Model) -> str:
    """Why a text is no edit of a building; nothing if it may be one. (Whether its names are there, the program says.)"""
    if not edit.isprintable():
        return f"an edit has a line end or another control character in it: {edit!r}"
    if next(iter(fields_of(edit)), "") not in EDITS:
        return f"{edit[:40] or 'nothing'} is no edit: an edit begins with {', '.join(EDITS)}"
    if len(bytes_of(edit)) > LINE_LIMIT:
        return f"an edit has more than {LINE_LIMIT} bytes: {edit[:40]}.."
    try:
        if model.shares != 1:
            plain(model, edit)
    except ValueError as fault:
        return f"{edit}: {fault}"
    return ""


def part(client: Client, text: str, scenarios: List[Edits], steps: int) -> List[Answer]:
    """The answers to some scenarios of the building with a text: those of at most so many steps in one session, and the others one by one."""
    model = modelled(text)
    found = in_session(client, model, {at: it for at, it in enumerate(scenarios) if 0 < len(it) <= steps})
    return [found[at] if at in found else alone(client, model, edits) for at, edits in enumerate(scenarios)]


modelled = functools.lru_cache(maxsize=4)(model_of)


def in_session(client: Client, model: Model, scenarios: Dict[int, Edits]) -> Dict[int, Answer]:
    """The answers to scenarios by their numbers, but for those of which a step is refused: only their last building counts."""
    found: Dict[int, Answer] = {}
    if not scenarios:
        return found
    try:
        with session(client, model) as talk:
            for number, replies in zip(scenarios, talk.trials(scenarios.values())):
                if all(it.startswith(b"answer ") for it in replies[:-1]) and replies[-1].startswith((b"answer ", b"refused 22 ")):
                    found[number] = answer_of(replies[-1], model)
    except Shortfall:
        pass  # (the building itself can't be cleared, so there is no session on it)
    return found


def alone(client: Client, model: Model, edits: Edits) -> Answer:
    """The answer to a scenario of which only the last building is planned."""
    try:
        answer = plan_or_short(client, edited(model, edits))
    except Refused as refused:
        return Answer(refused=refused.code, refused_edit=refused.text)
    if isinstance(answer, Plan):
        return answer_of(answer.raw, model)
    return Answer(people=answer.people, most=answer.most)


def answer_of(reply: bytes, model: Model) -> Answer:
    """What a block or a shortfall block says of its building."""
    try:
        plan = plan_of(reply, model)
    except Shortfall as short:
        return Answer(people=short.people, most=short.most)
    curve = curve_of(reply)
    # (the first moments by which 50 and 95 of 100 are out, by whole numbers)
    half, most_of = (bisect_left(curve, -(-share * curve[-1] // 100)) for share in (50, 95))
    return Answer(plan.people, plan.cleared, half, most_of, plan.people)
