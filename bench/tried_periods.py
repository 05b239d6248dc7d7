"""The laws of shorter periods, of rounded travel times and of shares, to be tried on random buildings by tried.py."""
from small_buildings import clears, edit, is_least, most_out, random_building


def in_long_periods(made, parts):
    """The building with rates that can be shared among so many short periods: each is so many times as large."""
    return edit(made, arcs={arc: [travel, parts * rate] for arc, (travel, rate) in made.arcs.items()})


def in_short_periods(made, parts, longer=None):
    """The same in so many short periods to each; arcs take so many times as long, and those named by `longer` so many short periods more."""
    longer = longer or {}
    return edit(
        made,
        horizon=parts * made.horizon + parts - 1,
        arcs={arc: [parts * travel + longer.get(arc, 0), rate] for arc, (travel, rate) in made.arcs.items()},
        windows=[(tail, head, parts * first, parts * end) for tail, head, first, end in made.windows],
        entrants=[(room, parts * moment, people) for room, moment, people in made.entrants],
    )


def at_ends(curve, parts):
    """The people out by the end of each long period."""
    return curve[parts - 1 :: parts]


def shorter_periods(rng):
    """Shorter periods change nothing, if nobody comes later."""
    made, parts = random_building(rng, windows=2), rng.randint(2, 3)
    long, short = in_long_periods(made, parts), in_short_periods(made, parts)
    return at_ends(most_out(short), parts) == most_out(long) and clears(short) == clears(long)


def shorter_periods_with_room(rng):
    """Shorter periods change nothing, if each room holds everybody."""
    made, parts = random_building(rng, windows=3, entrants=3), rng.randint(2, 3)
    made.rooms = {name: [max(made.people(), 1), start] for name, (_, start) in made.rooms.items()}
    long, short = in_long_periods(made, parts), in_short_periods(made, parts)
    return at_ends(most_out(short), parts) == most_out(long) and clears(short) == clears(long)


def rounded_travels(rng):
    """Travel times rounded up and down to whole long periods have the true curve between them, if rates are steady and there is room."""
    made, parts = random_building(rng, entrants=1), rng.randint(2, 3)
    if not made.has_room():
        return None
    fast, more = in_long_periods(made, parts), {arc: rng.randint(0, parts - 1) for arc in made.arcs}
    slow = edit(fast, arcs={arc: [travel + (more[arc] > 0), rate] for arc, (travel, rate) in fast.arcs.items()})
    short = in_short_periods(made, parts, longer=more)
    ends = at_ends(most_out(short), parts)
    cleared = clears(slow) <= clears(short) <= clears(fast)
    return is_least(most_out(slow), ends) and is_least(ends, most_out(fast)) and cleared


def in_shares(made, shares, capacities=True, rates=True, later=True):
    """The building with each person counted as so many shares; what is told not to grow stays, but a room holds those who start there."""
    by = shares if capacities else 1
    return edit(
        made,
        rooms={name: [max(room * by, start * shares), start * shares] for name, (room, start) in made.rooms.items()},
        arcs={arc: [travel, rate * (shares if rates else 1)] for arc, (travel, rate) in made.arcs.items()},
        entrants=[(room, moment, people * (shares if later else 1)) for room, moment, people in made.entrants],
    )


def shares(rng):
    """As many shares are out as people times the shares that each counts as."""
    made, count = random_building(rng, windows=2, entrants=2), rng.randint(2, 4)
    if not made.has_room():
        return None
    counted = in_shares(made, count)
    return most_out(counted) == [count * out for out in most_out(made)] and clears(counted) == clears(made)


def rounded_rates(rng):
    """Rates and capacities in shares, rounded down and up to whole people, have the curve between them."""
    slow, count = random_building(rng, windows=2, entrants=2), rng.randint(2, 4)
    if not slow.has_room():
        return None
    counted, fast = in_shares(slow, count), edit(slow)
    for arc in counted.arcs:
        more = rng.randint(0, count - 1)
        counted.arcs[arc][1] += more
        fast.arcs[arc][1] += more > 0
    for room in counted.rooms:
        more = rng.randint(0, count - 1)
        counted.rooms[room][0] += more
        fast.rooms[room][0] += more > 0
    out = most_out(counted)
    return is_least([count * it for it in most_out(slow)], out) and is_least(out, [count * it for it in most_out(fast)])


LAWS = (shorter_periods, shorter_periods_with_room, rounded_travels, shares, rounded_rates)
