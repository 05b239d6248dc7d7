"""Sessions, studies and replans on a building that was accepted: lines with their replies as data."""
from __future__ import annotations

from typing import Iterable, Iterator, List, Optional, Sequence, Tuple

from evacask.client.blocks import HEAD, ONE_LINE, Cut, Plan, cut_of, opening_of, plan_of, understood
from evacask.client.names import check_names
from evacask.client.reports import Exit, Gone, Least, Report, exits_of, gone_of, least_of, report_of, work_of
from evacask.client.talk import Line
from evacask.errors import Broken, WordsError
from evacask.model.building import Model
from evacask.model.codes import Place, refusal
from evacask.model.forms import LINE_LIMIT, MOST_UNDOS, REPORTS, plain
from evacask.model.lines import bytes_of, fields_of


def line_of(command: str) -> bytes:
    """The line that a command is sent as; `ValueError` for what gets no reply: blanks, a comment, several lines or too long a line."""
    line = command[:-1] if command.endswith("\r") else command  # (a line may end with CR LF)
    if not fields_of(line) or "\n" in line or line.startswith("#") or len(bytes_of(line)) > LINE_LIMIT:
        raise ValueError(f"{command!r} is no command: it would get no reply")
    return bytes_of(line) + b"\n"


class Dialogue:
    """What all three share: a line that gets one reply, or is refused."""

    place = Place.SESSION

    def __init__(self, line: Line, model: Model):
        self.line, self.model = line, model

    def ask(self, command: str) -> bytes:
        """The reply to a command; `Refused` where the program refuses it, but for a shortfall, which is a reply."""
        try:
            sent = plain(self.model, command)
        except ValueError as fault:
            raise WordsError(f"{command}: {fault}") from None
        self.line.send(line_of(sent))
        return self.answered(self.line.reply(), command)

    def answered(self, reply: bytes, command: str) -> bytes:
        refused = ONE_LINE.match(reply)
        if refused:
            raise understood(refusal(self.place, int(refused[1]), 0, command))
        if not reply.startswith(b"answer "):
            check_names(reply, self.model)
        return reply


class Session(Dialogue):
    """A session: each edit gives a plan, or raises and changes nothing. It belongs to one thread."""

    def __init__(self, line: Line, model: Model):
        super().__init__(line, model)
        self.opening = self.plan = opening_of(line.reply(), model)

    def edit(self, command: str) -> Plan:
        """The plan after one edit; `Refused`, or `Shortfall` where not everybody could be out then."""
        self.plan = plan_of(self.ask(command), self.model)
        return self.plan

    def undo(self) -> Plan:
        """The plan after going back by one edit."""
        return self.edit("undo")

    def cut(self, period: Optional[int] = None) -> Cut:
        """The cut of a period, or of the one before all are out; `Refused` with 33 above the horizon."""
        wanted = max(0, self.plan.cleared - 1) if period is None else period
        cut = cut_of(self.ask(f"cut {wanted}"), self.model)
        worth = self.plan.arrivals[wanted] if wanted < self.plan.cleared else self.plan.people
        if (cut.period, cut.people) != (wanted, worth):
            raise Broken(f"the program printed a cut of period {cut.period} worth {cut.people}, in place of {wanted} worth {worth}")
        return cut

    def report(self, word: str) -> Report:
        """One of the reports: routes, clearing, bottlenecks, summary."""
        if word not in REPORTS:
            raise ValueError(f"{word!r} is no report: there are {', '.join(REPORTS)}")
        return report_of(self.ask(word), word, self.model.shares)

    def work(self) -> Tuple[int, int]:
        """The work of the last edit: people (or shares) taken back, and how often some were sent."""
        return work_of(self.ask("work"))

    def trials(self, groups: Iterable[Sequence[str]]) -> Iterator[List[bytes]]:
        """The replies to each group of at most 64 edits, each group undone before the next.

        All lines are sent ahead. It needs no answer to know how many edits to undo: after k edits and k undos the building is the opening's, as an
        undo too many is refused by 39 and changes nothing. The last reply of each group shows it.
        """
        all_groups = [[line_of(plain(self.model, edit)) for edit in group] for group in groups]
        if any(len(it) > MOST_UNDOS for it in all_groups):
            raise ValueError(f"a session keeps {MOST_UNDOS} edits: plan the edited building in place of the edits")
        self.line.send(b"".join(b"".join([*group, *[b"undo\n"] * len(group)]) for group in all_groups))
        opening = head_of(self.opening.raw)
        for group in all_groups:
            replies = [self.line.reply() for _ in group]
            self.check_back(replies, [self.line.reply() for _ in group], opening)
            yield replies

    def check_back(self, replies: List[bytes], backs: List[bytes], opening: Optional[Tuple[bytes, bytes]]) -> None:
        """The accepted edits are undone, the last undo gives the opening again, and each further one is refused by 39."""
        made = sum(it.startswith(b"answer ") for it in replies)
        blocks, others = backs[:made], backs[made:]
        is_back = not blocks or head_of(blocks[-1]) == opening
        if not is_back or not all(it.startswith(b"answer ") for it in blocks) or not all(it.startswith(b"refused 39 ") for it in others):
            raise Broken("the program didn't come back to the building of the opening")


def head_of(block: bytes) -> Optional[Tuple[bytes, bytes]]:
    """The people and the clearing moment of a block, None if it is none."""
    head = HEAD.match(block)
    return (head[2], head[3]) if head else None


class Study(Dialogue):
    """A study: what the building comes to without an exit, or with another rate of an arc."""

    place = Place.STUDY

    def answered(self, reply: bytes, command: str) -> bytes:
        """A reply that isn't refused; `Shortfall` if the building can't be cleared, which is the one answer of a study then."""
        if reply.startswith(b"refused 22 "):
            plan_of(reply, self.model)
        return super().answered(reply, command)

    def exits(self) -> Tuple[Exit, ...]:
        """When all are out without each exit."""
        return exits_of(self.ask("exits"), self.model.shares)

    def least(self, tail: str, head: str, moment: int) -> Least:
        """The least rate of an arc at which all are out by a moment."""
        return least_of(self.ask(f'least "{tail}" "{head}" {moment}'), self.model.shares)


class Replan(Session):
    """A session whose plan is carried out. Once it has advanced, people can't be moved by edits."""

    place = Place.REPLAN

    def advance(self, moment: int) -> Gone:
        """Carries the plan out up to a moment, and plans what is left."""
        first = self.ask(f"advance {moment}")
        at, out = gone_of(first, self.model.shares)
        self.plan = plan_of(self.line.reply(), self.model)
        return Gone(at, out, self.plan)
