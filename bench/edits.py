"""Edits of a building of every kind, each with the building that it makes, and what a session spends on each of them.

A kind is a word of a session: the exit, the arc or the room to edit is drawn from the building's, the same ones at every call.
"""
import dataclasses
import pathlib
import random
import re
import subprocess
import tempfile

import buildings

# valgrind counts an instruction that copies or fills memory once for each byte. With these thresholds the C library takes vectors in its place.
VECTORS = "GLIBC_TUNABLES=glibc.cpu.x86_rep_movsb_threshold=1000000000:glibc.cpu.x86_rep_stosb_threshold=1000000000"
COUNTER = ("env", VECTORS, "valgrind", "--tool=callgrind")


@dataclasses.dataclass
class Edit:
    """A command, the commands that come before it in a session, the building that stood, and the one that it makes."""

    command: str
    before: list
    stood: str
    made: str

    @property
    def kind(self):
        return self.command.split()[0]


def with_fields(text, word, keys, change):
    """Returns a building whose statements by a word with these first fields have their other numbers changed."""
    lines = text.split("\n")
    for at, fields in enumerate(line.split() for line in lines):
        if fields[:1] == [word] and fields[1 : len(keys) + 1] == keys:
            numbers = change(*map(int, fields[len(keys) + 1 :]))
            lines[at] = " ".join([word, *keys, *map(str, numbers)])
    return "\n".join(lines)


def with_window(text, arc, since, until):
    """Returns a building in version 2 with one more window."""
    lines = text.replace("evacplan 1", "evacplan 2", 1).split("\n")
    end = lines.index("end")
    return "\n".join([*lines[:end], f"window {' '.join(arc)} {since} {until}", *lines[end:]])


def with_start(text, room, change):
    """Returns a building in which as many people more start in a room, or fewer."""
    return with_fields(text, "node", [room], lambda capacity, start: (capacity, start + change))


def of_exit(text, rng):
    """Yields an exit that is shut, and opened again."""
    door = rng.choice(buildings.exits_of(text))
    shut, made = f"shutexit {door}", buildings.without(text, door)
    yield Edit(shut, [], text, made)
    yield Edit(f"openexit {door}", [shut], made, text)


def of_arc(text, rng):
    """Yields edits of arcs: shut and opened again, rates, and a window that comes and goes."""
    arcs = [(fields[:2], int(fields[3])) for fields in buildings.statements(text, "arc") if int(fields[3]) > 0]
    horizon = int(buildings.statements(text, "horizon")[0][0])

    def with_rate(arc, rate):
        return with_fields(text, "arc", arc, lambda travel, _: (travel, rate))

    arc, _ = rng.choice(arcs)
    ends = " ".join(arc)
    yield Edit(f"shut {ends}", [], text, with_rate(arc, 0))
    yield Edit(f"reopen {ends}", [f"shut {ends}"], with_rate(arc, 0), text)
    for factor in (0.5, 2):
        arc, rate = rng.choice(arcs)
        rate = max(1, int(rate * factor))
        yield Edit(f"rate {' '.join(arc)} {rate}", [], text, with_rate(arc, rate))
    arc, _ = rng.choice(arcs)
    window, made = f"{' '.join(arc)} {horizon // 40} {horizon // 8}", with_window(text, arc, horizon // 40, horizon // 8)
    yield Edit(f"window {window}", [], text, made)
    yield Edit(f"unwindow {window}", [f"window {window}"], made, text)


def of_room(text, rng):
    """Yields edits of rooms: their sizes, and who starts there."""
    rooms = [(name, *map(int, numbers)) for name, *numbers in buildings.statements(text, "node") if len(numbers) == 2]
    some = [it for it in rooms if it[2] > 1]
    for size in (lambda capacity, start: max(start, capacity // 2), lambda capacity, _: capacity * 2):
        name, capacity, start = rng.choice(rooms)
        other = size(capacity, start)
        yield Edit(f"room {name} {other}", [], text, with_fields(text, "node", [name], lambda _, start: (other, start)))
    name, _, start = rng.choice(some)
    free = [it for it in rooms if it[1] > it[2] and it[0] != name]
    if free:
        other, capacity, there = rng.choice(free)
        count = min(start, capacity - there, 30)
        moved = with_start(with_start(text, name, -count), other, count)
        yield Edit(f"shift {name} {other} {count}", [], text, moved)
        other, capacity, there = rng.choice(free)
        count = min(capacity - there, 20)
        yield Edit(f"enter {other} {count}", [], text, with_start(text, other, count))
    name, _, start = rng.choice(some)
    count = min(start, 20)
    yield Edit(f"leave {name} {count}", [], text, with_start(text, name, -count))


def edits_of(text, count):
    """Returns some edits of a building of each kind."""
    rng = random.Random(19)
    return [edit for _ in range(count) for of in (of_exit, of_arc, of_room) for edit in of(text, rng)]


def are_accepted(program, text, commands):
    """Returns whether a session accepts some commands. Ends the run where it refuses one but for people who can't get out."""
    given = "\n".join([text.rstrip("\n"), *commands, "quit", ""])
    wrote = subprocess.run([program, "session"], input=given.encode(), stdout=subprocess.PIPE, check=True).stdout
    codes = re.findall(rb"^refused (\d+)", wrote, re.M)
    if any(code != b"22" for code in codes):
        raise SystemExit(f"{commands}: refused {codes}")
    return not codes


def spent_on(program, text, commands):
    """Returns how many millions of instructions a session takes on each command, its reply included."""
    with tempfile.TemporaryDirectory() as folder:
        counter = [*COUNTER, "--dump-before=*read_command*", f"--callgrind-out-file={folder}/counts"]
        given = "\n".join([text.rstrip("\n"), *commands, "quit", ""])
        subprocess.run([*counter, program, "session"], input=given.encode(), capture_output=True, check=True)
        # the first dump has what comes before the first command
        dumps = [pathlib.Path(f"{folder}/counts.{number}").read_text() for number in range(2, len(commands) + 2)]
    return [int(re.search(r"^(?:totals|summary): (\d+)", dump, re.M)[1]) / 1e6 for dump in dumps]
