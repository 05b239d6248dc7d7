"""Holds each number of a page against what the program prints: page_check.py PROGRAM BUILDING PAGE. Nothing of evacask is used."""
import heapq
import os
import re
import sys
from typing import Callable, Dict, Iterable, List, Optional, Tuple

sys.path.insert(0, os.path.join(os.path.dirname(os.path.abspath(__file__)), "..", ".."))
from companion.tests.drawn_page import Plan
from companion.tests.page_reader import MARKS, Page, numbers_in
from companion.tests.planned_page import Building, Names, Planned, Row, digest

ALWAYS = {"half of the people are out proved", "95 % of the people are out proved"}


class Held:
    """The numbers of a page that are held against the program, and what differs."""

    def __init__(self, page: Page, of: Building, trials: Optional[int] = None) -> None:
        self.page, self.of, self.trials = page, of, trials
        self.count, self.wrong = 0, []  # type: int, List[str]
        self.said: Dict[str, List[str]] = {}
        self.told: List[str] = []

    def rows(self, heading: str, expected: Iterable[Row], what: str = "", are_sorted: bool = True) -> None:
        """The rows of a table: 40 at most, and then how many more there are."""
        wanted, found = list(expected), self.page.rows(heading)
        shown = wanted if not what else wanted[:40] if are_sorted else [it for it in wanted if it in found]
        if what and len(wanted) > 40:
            self.tell(f"{len(wanted) - 40:,} more {what} aren't listed.")
        if (shown if are_sorted else sorted(shown)) != (found if are_sorted else sorted(found)) or len(found) != min(
            len(wanted), 40 if what else len(wanted)
        ):
            self.wrong.append(f"{heading}: {[it for it in found if it not in wanted][:3]} in place of {[it for it in shown if it not in found][:3]}")
        self.count += sum(numbers_in(cell) for row in found for cell in row)

    def must_say(self, sentence: str) -> None:
        """A sentence that the page has to say, and that is right."""
        self.tell(sentence)
        if not any(it.startswith(sentence) for section in self.page.sections.values() for it in section.paragraphs):
            self.wrong.append(f"it doesn't say: {sentence}")

    def tell(self, sentence: str) -> None:
        """A sentence that the page may say, and that is right."""
        self.told.append(sentence)

    def end(self) -> None:
        """Each paragraph with a number is one of the sentences that are right."""
        for heading, section in self.page.sections.items():
            for it in section.paragraphs:
                plain = next((it[: -len(mark)].strip() for mark in MARKS if it.endswith(mark)), it)
                if numbers_in(it) and plain not in self.told and it not in ALWAYS and not it.startswith("line "):
                    self.wrong.append(f"{heading}: {it}")
                self.count += numbers_in(it)


def walk_to(of: Building, starts: "List[Tuple[int, str]]", turned: bool) -> Dict[str, int]:
    """The periods of the shortest walks on from some nodes, or to them."""
    found: Dict[str, int] = {}
    while starts:
        periods, name = heapq.heappop(starts)
        if name in found:
            continue
        found[name] = periods
        for (tail, head), (travel, rate) in of.arcs.items():
            here, there = (head, tail) if turned else (tail, head)
            if here == name and rate:
                heapq.heappush(starts, (periods + travel, there))
    return found


def by_hand(held: Held, plan: Planned) -> None:
    """The calculation by hand for the way with most people in the cut before all are out."""
    of = held.of
    counted = [it for it in plan.places(plan.cleared - 1) if len(it[0]) == 2]
    for way in (it[0] for it in counted if it[1] == max(one[1] for one in counted)):
        travel, rate = of.arcs[way[0], way[1]]
        starts = [(0, name) for name, it in of.nodes.items() if it and it[1]] + [(t, name) for name, t, _ in of.entrants]
        heapq.heapify(starts)
        before = walk_to(of, starts, False).get(way[0], 0) * of.period
        after = (travel + walk_to(of, [(0, name) for name, it in of.nodes.items() if not it], True).get(way[1], 0)) * of.period
        people, flow = plan.through[way[0], way[1]], rate / of.shares / of.period
        passing = people / of.shares / flow
        first = f"By hand: {of.named(way)} lets its people through in {of.count(people)} people / {flow:.2f} a second = {passing:,.0f} s"
        held.tell(f"{first}; with {before:,} s of walk to it, and {after:,} s over it and on that is {before + passing + after:,.0f} s.")


def answer(held: Held, plan: Planned) -> None:
    of = held.of
    held.tell(f"All {of.count(of.people)} people can be out {of.when(plan.cleared)}.")
    for it in (of.when(plan.walk), f"{(plan.cleared - plan.walk) * of.period:,} s", of.when(plan.moment(50)), of.when(plan.moment(95))):
        held.tell(it)
    if ("The command evacplan check says yes of the plan on this page. proved" in held.page.sections[""].paragraphs) != plan.is_right():
        held.wrong.append("the verdict")
    figures = held.page.sections[""].paragraphs
    at = figures.index("half of the people are out proved")
    wanted = [of.when(plan.walk), f"{(plan.cleared - plan.walk) * of.period:,} s", of.when(plan.moment(50)), of.when(plan.moment(95))]
    if [figures[at - 5], figures[at - 3], figures[at - 1], figures[at + 1]] != wanted:
        held.wrong.append(f"figures {figures}")


def why(held: Held, plan: Planned) -> None:
    of, period = held.of, plan.cleared - 1
    if not plan.cleared:
        return
    value, rows = int(plan.cuts[period][0][2]), []
    for names, people, moments in plan.places(period):
        rooms = list(dict.fromkeys(it[1] for it in plan.cuts[period][1:] if it[0] == "entry"))  # (late-comers are entries of their own)
        free = f"not held up: {', '.join(rooms[:4])}" + (f" and {len(rooms) - 4:,} more" if len(rooms) > 4 else "")
        rows.append((("wait in " if len(names) == 1 else "") + of.named(names) if names else free, of.count(people), of.spans(moments)))
    held.rows("Why not sooner", rows, "places")
    by = f"by moment {period:,} ({of.seconds(period)} s)"
    held.tell(f"At most {of.count(value)} of {of.count(of.people)} can be out {by}. Each of them counts in one of these lines:")
    held.tell(f"Nobody can be out {by}: no walk is so short, or the ways are closed.")


def curve(held: Held, plan: Planned) -> None:
    of = held.of
    exits = sorted(plan.exits().items(), key=lambda it: (-it[1][-1], it[0]))
    if len(exits) > 8:
        exits = [*exits[:7], (f"{len(exits) - 7:,} others", [sum(row) for row in zip(*(it[1] for it in exits[7:]))])]
    step = -(-len(plan.out) // 21)
    moments = sorted({*range(0, len(plan.out), step), len(plan.out) - 1})
    held.rows("People out by time", ((of.seconds(k), of.count(plan.out[k]), *(of.count(it[1][k]) for it in exits)) for k in moments))
    section = held.page.sections["People out by time"]
    if list(section.tables[0][0]) != ["seconds", "out", *(it[0] for it in exits)]:
        held.wrong.append(f"exits {section.tables[0][0]}")
    legend = [f"{of.count(it[1][-1])} {it[0]}" for it in exits]
    last = (len(plan.out) - 1) * of.period
    numbers = [it for it in section.texts if re.fullmatch(r"[\d,]+", it)]
    times = [it[:-2] for it in section.texts if re.fullmatch(r"[\d,]+ s", it)]
    if not is_axis(numbers, of.people // of.shares) or not is_axis(times, last) or section.texts[len(numbers + times) :] != legend:
        held.wrong.append(f"curve {section.texts}")
    if section.titles != [f"People out by time: {of.count(of.people)} after {last:,} seconds. The table below has the numbers."]:
        held.wrong.append(f"curve {section.titles}")
    held.count += sum(map(numbers_in, section.texts))


def is_axis(labels: List[str], last: int) -> bool:
    """Whether the labels of an axis are 0 and each multiple of a round step that is no more than its last number, and nine at most."""
    found = [int(it.replace(",", "")) for it in labels]
    step = found[1] if len(found) > 1 else last + 1
    return (
        found == list(range(0, last + 1, step)) and len(found) < 10 and (last == 0 or step > last or re.fullmatch("[125]0*", f"{step}") is not None)
    )


def drawing(held: Held, plan: Planned) -> None:
    """The numbers of the picture: people and capacities in rooms, and people on ways."""
    of, section = held.of, held.page.sections["The building"]
    full = plan.full()
    ways = {}
    for (a, b), (_, rate) in of.arcs.items():
        is_full = ", full in every best plan at some moments" if (a, b) in full else ""
        ways[f"{a} to {b}: {of.count(plan.through[a, b])} people{is_full}"] = of.count(plan.through[a, b])
    rooms = {f"{of.count(it[1])}/{of.count(it[0])}" for it in of.nodes.values() if it}
    titles = [it for it in section.titles if re.match(r"\S+ to \S+: ", it)]
    pictures = [it for it in section.titles if it.startswith("The building by storeys")]
    held.wrong += [f"drawing {it}" for it in titles if it not in ways or titles.count(it) > len(pictures)]
    held.wrong += [f"drawing {it}" for it in section.texts if "/" in it and re.fullmatch(r"[\d,./]+", it) and it not in rooms]
    numbers = [it for it in section.texts if re.fullmatch(r"[\d,.]+", it)]
    held.wrong += [f"drawing {it}" for it in section.texts if re.fullmatch(r"[A-Z]{2}\d+\.\d+", it) and it not in of.nodes]
    drawn = [it for it in section.texts if it in of.nodes]
    held.wrong += [f"drawing {it} twice" for it in set(drawn) if drawn.count(it) > 1]
    named = [f"{it} {of.owns.get(it, '')}".strip() for it in drawn]
    if named != [it for it in section.titles if it.split(" ")[0] in of.nodes and it not in titles]:
        held.wrong.append("drawing: the titles of the nodes")
    floors = {name.split(".")[1] for name in of.nodes}
    held.wrong += [f"drawing {it}" for it in numbers if it not in ways.values() and it not in floors]
    left = floors - {it.split(".")[1] for it in drawn}
    told = [re.sub(",", "", it) for it in section.texts if it.startswith(".. and")]
    ways_left = sum(len(it) == 2 and it[0].split(".")[1] in left for it in full)
    folds = [int(it.split(" ")[2]) for it in told], [int(it) for line in told for it in re.findall(r"; (\d+) of their ways", line)]
    if (sum(folds[0]), sum(folds[1])) != (len(left), ways_left):
        held.wrong.append(f"drawing {told}")
    held.count += len(titles) + len(numbers) + sum("/" in it for it in section.texts)


def full(held: Held, plan: Planned) -> None:
    of, rows = held.of, []
    for names, moments in plan.full().items():
        people = of.arcs[names[0], names[1]][1] if len(names) == 2 else of.nodes[names[0]][0]
        rows.append((of.named(names), of.count(people), f"{len(moments):,}", of.spans(moments)))
    held.rows("Full in every best plan", rows, "places", are_sorted=False)


def storeys(held: Held, plan: Planned) -> None:
    of, floors = held.of, {it[1]: " ".join(it[2:]) for it in held.of.statements("floor")}
    rows = []
    for floor, stay in sorted(plan.stays().items(), reverse=True):
        if max(stay):
            most, last = stay.index(max(stay)), max(k + 1 for k, it in enumerate(stay) if it)
            rows.append((floors.get(f"{floor}", "") or f"{floor}", of.count(max(stay)), of.seconds(most), of.seconds(last)))
    held.rows("Storeys over time", rows if len(rows) <= 40 else rows[:20] + rows[-20:])
    times = [it[:-2] for it in held.page.sections["Storeys over time"].texts if re.fullmatch(r"[\d,]+ s", it)]
    if rows and not is_axis(times, (len(plan.out) - 1) * of.period):
        held.wrong.append(f"storeys {times}")
    held.count += len(times)


def rooms(held: Held, plan: Planned) -> None:
    of, place = held.of, list(held.of.nodes).index
    rows = []
    for nodes, people, first, last in sorted(plan.rooms(), key=lambda it: (place(it[0][0]), -it[1], it[0])):
        rows.append((of.named(nodes[:1]), " ".join(nodes[1:]), of.count(people), f"{first * of.period:,} to {(last + 1) * of.period:,}"))
    held.rows("Rooms and their ways", rows, "ways of rooms")


def worth(held: Held, plan: Planned) -> None:
    """Each way that is listed, planned again without it and with the greatest rate."""
    of = held.of
    for row in held.page.rows("What each way is worth"):
        names: Names = tuple(row[0].split(" (")[0].split(" to "))
        into = [way for way in of.arcs if way == names or way[1:] == names]
        if not into:
            held.wrong.append(f"worth {row}: no such way")
            continue
        lost = f"shut {names[0]} {names[1]}" if len(names) == 2 else f"shutexit {names[0]}"
        wide = plan.outcome(*(f"rate {tail} {head} {10_000 // of.shares * of.shares}" for tail, head in into))
        if row[1:] != (plan.outcome(lost), of.seconds(plan.cleared), wide):
            held.wrong.append(f"worth {row}: {plan.outcome(lost)}, {of.seconds(plan.cleared)}, {wide}")
        held.count += sum(map(numbers_in, row[1:]))
    left = untried(held, plan)
    if left:
        rest = "Neither losing nor widening one of the other ways changes when everybody is out, as far as they were tried."
        held.must_say(f"{left:,} ways that fewer people use weren't tried: evacask sensitivity tries all. {rest}")
    more = [it for it in held.page.sections["What each way is worth"].paragraphs if re.match(r"[\d,]+ more ways aren't listed", it)]
    held.told += more if len(held.page.rows("What each way is worth")) == 40 else []


def untried(held: Held, plan: Planned) -> int:
    """How many ways and exits are left if those of most people are tried first: without it if somebody takes it, and wider if it is in the last cut."""
    of, most = held.of, min(200, 8_000_000 // len(plan.block)) if held.trials is None else held.trials
    crossed = {(it[2], it[3]) for it in plan.cuts[plan.cleared - 1] if it[0] == "arc"} if plan.cleared else set()
    users: Dict[Names, int] = {way: plan.through[way] for way in of.arcs}
    trials: Dict[Names, int] = {way: (users[way] > 0) + (way in crossed) for way in of.arcs}
    for name in (name for name, it in of.nodes.items() if not it):
        into = [way for way in of.arcs if way[1] == name]
        users[(name,)] = sum(users[it] for it in into)
        trials[(name,)] = (users[(name,)] > 0) + any(it in crossed for it in into)
    order, count = sorted((it for it in trials if trials[it]), key=lambda it: (-users[it], it)), 0
    for at, names in enumerate(order):
        count += trials[names]
        if count > most:
            return len(order) - at
    return 0


def ending(held: Held) -> None:
    of, section = held.of, held.page.sections["Assumptions"]
    counted = f" Each person is counted as {of.shares} shares, so that a rate may be a fraction." if of.shares > 1 else ""
    held.tell(f"A period lasts {of.period:,} s, and the plan looks {of.horizon * of.period:,} s ahead.{counted}")
    windows, entrants = sum(1 for _ in of.statements("window")), len(of.entrants)
    numbers = f"{len(of.nodes):,} nodes, {len(of.arcs):,} ways, {windows:,} closures"
    held.tell(f"The building has {numbers}, and {entrants:,} groups of people who come in later.")
    lines = of.text.decode("utf-8").splitlines()
    sums = f"SHA-256 {digest(of.text)}. The program's SHA-256 is {digest(of.program)}."
    logic = re.search(r"It is proved in logic [0-9a-f]+\.", " ".join(held.page.sections["Input and program"].paragraphs))
    held.tell(f"The input has {len(lines):,} lines, {sums} {logic[0] if logic else 'It isn’t proved on this machine.'}".replace("’", "'"))
    if held.page.pre.splitlines() != lines[:2000]:
        held.wrong.append("the listing")
    if len(lines) > 2000:
        held.tell(f"{len(lines) - 2000:,} more lines aren't shown.")
    held.count += sum(it.startswith("line ") for it in section.paragraphs)


def short(held: Held) -> None:
    """The page of a building that can't be cleared."""
    of = held.of
    lines = [it.split(" ") for it in of.ask(["solve"], of.text).splitlines()]
    most = int(lines[2][1])
    held.tell(f"At most {of.count(most)} of {of.count(of.people)} people can be out by moment {of.horizon:,} ({of.seconds(of.horizon)} s).")
    held.tell(f"Together that is {of.count(most)}.")
    inside = {(name, t) for _, name, first, last in (it for it in lines if it[0] == "in") for t in range(int(first), int(last) + 1)}
    shut = {((it[1], it[2]), t) for it in of.statements("window") for t in range(int(it[3]), int(it[4]))}
    rows: List[Tuple[int, Names, int]] = []
    for (a, b), (travel, rate) in of.arcs.items():
        open_ = range(of.horizon - travel + 1)
        periods = sum((a, t) in inside and (b, t + travel) not in inside and ((a, b), t) not in shut for t in open_)
        rows.append((rate * periods, (a, b), periods))
    for name, it in of.nodes.items():
        periods = sum((name, t) in inside and (name, t + 1) not in inside for t in range(of.horizon)) if it else 0
        rows.append((it[0] * periods if it else 0, (name,), periods))
    free = sum(it[1] for name, it in of.nodes.items() if it and (name, 0) not in inside)
    free += sum(n for name, t, n in of.entrants if t <= of.horizon and (name, t) not in inside)
    shown = sorted((it for it in rows if it[0]), key=lambda it: (-it[0], it[1]))
    held.rows(
        "Why not everybody", [("not held up", of.count(free), ""), *((of.named(names), of.count(n), f"{p:,}") for n, names, p in shown)], "places"
    )
    if free + sum(it[0] for it in shown) != most:
        held.wrong.append("the cut of the shortfall isn't worth its people")
    enough = [it for it in held.page.sections[""].paragraphs if it.startswith("A horizon of")]
    held.told += [it.rsplit(" evacask", 1)[0] for it in enough]
    if enough:
        periods = int(re.sub(r"\D", "", enough[0].split(" periods")[0]))
        again = of.text.replace(f"horizon {of.horizon}".encode(), f"horizon {periods}".encode())
        held.wrong += [] if of.ask(["solve"], again).startswith("answer 0\n") else ["the horizon isn't enough"]


PARTS: Tuple[Callable[[Held, Planned], None], ...] = (answer, why, curve, drawing, full, storeys, rooms, worth)


def held(program: str, text: bytes, page_text: str, trials: Optional[int] = None) -> Held:
    """A page held against the program; `trials` if it was made with so many. A plan in metres is held by the building that the page lists, which must be the plan rounded to the later side."""
    page = Page(page_text)
    drawn = Plan(text, page.pre) if b"\nway " in text else None
    found = Held(page, Building(program, f"{page.pre}\n".encode() if drawn else text), trials)
    found.wrong += page.faults
    of = found.of
    if drawn:
        found.wrong += drawn.faults(page.pre)
        found.must_say(drawn.bracket(program, page.pre))
    if "Why not everybody" in page.sections:
        short(found)
    else:
        plan = Planned(of)
        if of.people:
            for part in PARTS:
                part(found, plan)
            if plan.cleared:
                by_hand(found, plan)
    ending(found)
    found.end()
    return found


if __name__ == "__main__":
    with open(sys.argv[2], "rb") as building, open(sys.argv[3], encoding="utf-8") as made:
        result = held(sys.argv[1], building.read(), made.read())
    print(f"{sys.argv[3]}: {result.count} numbers, {len(result.wrong)} differ", *result.wrong[:8], sep="\n  ")
