"""Histories of every shape that a user or an attacker can bring, each the same in each run.

A shape is a function with a name and a line that says what it is. It takes a number of events, a source of random numbers and,
if it stands for several shapes, what tells them apart. It gives the rows of a history, or a whole text. Rows with stamps are
pairs of stamp and row.
"""
import random
import re

from generate import any_numbers, atomic, crossed, entries, overlapping, stale, toggling, update, writes

# how many events a history may have by default
MOST_EVENTS = 65536
GREATEST = 2**32 - 1
HEADER, STAMPED = "event,process,op,data", "at,event,process,op,data"
SHAPES = {}

# which views of a history are meant, by the number of a view and that of the last one
PLACES = {
    "every view": lambda i, last: True,
    "one view in two": lambda i, last: i % 2 == 1,
    "one view in 512": lambda i, last: i % 512 == 256,
    "the first view": lambda i, last: i == 0,
    "the last view": lambda i, last: i == last,
    "the first and the last view": lambda i, last: i in (0, last),
}
FAULTY = [[place] for place in PLACES if place != "one view in 512"]
# by the number of components
WIDTHS = [[1], [2], [8], [64], [256]]


def shape(name, cases=((),)):
    """Enters a function as a shape for each of these cases, under the name with the case in it."""

    def enter(make):
        SHAPES.update((name.format(*case), (make, case)) for case in cases)
        return make

    return enter


def texts_of(name, events):
    """The text of a shape, and that of the same history without stamps."""
    make, case = SHAPES[name]
    made = make(events, random.Random(1), *case)
    if isinstance(made, str):
        return made, made
    if isinstance(made[0], str):
        return text_of(made), text_of(made)
    return text_of([f"{at},{row}" for at, row in made], STAMPED), text_of([row for _, row in sorted(made)])


def bytes_of(events):
    """How many bytes a text with this limit of events may have."""
    return events * 1024


def text_of(rows, header=HEADER, end="\n"):
    return end.join([header, *rows, ""])


def about(name):
    """What a shape is."""
    return SHAPES[name][0].__doc__


# calls and components


@shape("none overlaps, width {}", WIDTHS)
def one_by_one(events, _draw, components, processes=8):
    """Calls that do not overlap: the components are updated in turn, and after each update comes a view."""
    board, rows = [0] * components, []
    for i in range(events // 4):
        k = i % components
        board[k] += 1
        writer, reader = k % processes, (components + i) % processes
        rows += [f"begin,{writer},update,{update(board, k)}", f"end,{writer},update,"]
        rows += [f"begin,{reader},view,", f"end,{reader},view,{entries(board)}"]
    return rows


@shape("atomic, width {}", WIDTHS)
def at_one_moment(events, draw, components):
    """Calls of 8 processes, each of which takes effect at a moment between its begin and its end."""
    return atomic(events, components, draw)


@shape("views in a chain, all open, width {}", WIDTHS)
def chain(events, draw, components):
    """Views that all overlap, and show the boards that one update after another makes, in any order."""
    board, boards, updates = [0] * components, [], []
    for i in range(events // 4):
        board[i % components] += 1
        updates += [f"begin,{i % components},update,{update(board, i % components)}", f"end,{i % components},update,"]
        boards.append(entries(board))
    draw.shuffle(boards)
    views = [f"{components + i},view,{board}" for i, board in enumerate(boards)]
    return ["begin," + view.rpartition(",")[0] + "," for view in views] + updates + ["end," + view for view in views]


@shape("all open, width {}", WIDTHS)
def all_open(events, draw, components):
    """Calls that all overlap, and views that each show any of the updates: read faults in every view."""
    views = range(components, events // 2)
    rows = [f"begin,{k},update,{k}:1:{3 + k}" for k in range(components)] + [f"begin,{p},view," for p in views]
    rows += [f"end,{p},view,{entries([draw.randrange(2) for _ in range(components)])}" for p in views]
    return rows + [f"end,{k},update," for k in range(components)]


@shape("crossed views, width {}", WIDTHS)
def crossed_views(events, draw, components):
    """Open updates, and one view after another that shows any of them: read faults in every view."""
    return overlapping(events, components, draw)


@shape("late writes, width {}", WIDTHS)
def late_writes(events, draw, components):
    """Open views that each show any numbers of updates that follow one another: read and write faults in every view."""
    return writes(events, components, draw)


@shape("any numbers, width {}", WIDTHS)
def any_shown(events, draw, components):
    """Calls that do not overlap, and views that show any numbers up to the next: all kinds of faults."""
    return any_numbers(events, components, draw)


@shape("none overlaps, {} {}", [[1, "process"], [1000, "processes"]])
def by_processes(events, draw, processes, _word):
    """Calls of this many processes, of which none overlaps another."""
    return one_by_one(events, draw, 8, processes)


@shape("a process for each view")
def process_each(events, _draw):
    """One update and then views, each of another process, up to the greatest that there is."""
    step = 65535 // (events // 2)
    views = [f"{65535 - i * step},view," for i in range(events // 2 - 1)]
    rows = [row for view in views for row in (f"begin,{view}", f"end,{view}0:1:3")]
    return ["begin,0,update,0:1:3", "end,0,update,", *rows]


@shape("pending views of {} processes", [[65536]])
def pending_views(events, _draw, processes):
    """A view of each process, of which none ends."""
    return [f"begin,{i},view," for i in range(min(events, processes))]


@shape("pending calls")
def pending(events, draw):
    """Calls of which the last ones never end, and an update that never ends and takes effect half way."""
    return atomic(events, 8, draw, ends_all=False)


@shape("empty views")
def empty(events, draw):
    """Views that show nothing, before all updates."""
    return [*views_of(events // 2, ""), *updates_of(events // 4)]


@shape("views alone")
def views_alone(events, _draw):
    """Views of a board without updates."""
    return views_of(events, "")


@shape("updates alone")
def updates_alone(events, _draw):
    """Updates of one component, of which none is shown."""
    return updates_of(events // 2)


def views_of(events, shown):
    return [row for i in range(events // 2) for row in (f"begin,{i % 8},view,", f"end,{i % 8},view,{shown}")]


def updates_of(updates):
    return [row for n in range(1, updates + 1) for row in (f"begin,0,update,0:{n}:{n * 3}", "end,0,update,")]


@shape("an update for 32 views")
def few_updates(events, draw):
    """Few updates, and many views that show them."""
    rows = one_by_one(events // 16, draw, 8)
    return [row for i in range(0, len(rows), 4) for row in (*rows[i : i + 2], *rows[i + 2 : i + 4] * 31)][:events]


@shape("views of two boards ago")
def two_ago(events, draw):
    """Groups of 512 views, every second of which shows what the board was two groups before."""
    return stale(events, 8, draw)


@shape("toggling views")
def toggled(events, _draw):
    """Open updates, the first shown by every second view, the second by every second pair of views, and so on."""
    return toggling(events, 4)


@shape("crossed views, the {} eighth", [["first"], ["last"]])
def crossed_part(events, draw, part):
    """Open updates, of which the first or the last eighth of the views show any, and the others all or none."""
    rest, eighth = (1, 0) if part == "first" else (0, 7)
    return crossed(events, 8, lambda i, views: [draw.randrange(2) if i * 8 // views == eighth else rest for _ in range(8)])


# faults of each kind, by the views that have them


def with_views(rows, place, change):
    """The same rows, in which each chosen view shows what `change` makes of the component, number and value of its entries."""
    ends = [i for i, row in enumerate(rows) if re.match(r"end,\d+,view,", row)]
    rows = rows[:]
    for count, at in enumerate(ends):
        if PLACES[place](count, len(ends) - 1):
            head, _, data = rows[at].rpartition(",")
            shown = [change(*map(int, entry.split(":"))) for entry in data.split()]
            rows[at] = f"{head},{' '.join('%d:%d:%d' % entry for entry in shown if entry[1])}"
    return rows


@shape("wrong values, {}", FAULTY)
def wrong_values(events, draw, place):
    """Views that show a value that no update wrote: integrity."""
    return with_views(one_by_one(events, draw, 8), place, lambda k, number, value: (k, number, value + 1))


@shape("updates shown early, {}", FAULTY)
def early(events, draw, place):
    """Views that show the update after the last of each component: proximity, and integrity at the last."""
    return with_views(one_by_one(events, draw, 8), place, lambda k, number, value: (k, number + 1, value + 3))


@shape("updates shown late, {}", FAULTY)
def late(events, draw, place):
    """Views that show the update before the last of each component: proximity."""
    return with_views(one_by_one(events, draw, 8), place, lambda k, number, value: (k, number - 1, value - 3))


@shape("far numbers, {}", FAULTY)
def far(events, draw, place):
    """Views that show numbers near the greatest, which no update has: integrity and proximity."""
    return with_views(one_by_one(events, draw, 8), place, lambda k, number, value: (k, GREATEST - number, value))


@shape("write faults, {}", FAULTY)
def write_faults(events, _draw, place):
    """Views that stay open for an update of each of two components; those at fault show the second and miss the first."""
    views, rows = events // 6, []
    for i in range(views):
        is_faulty = PLACES[place](i, views - 1)
        for k in range(2):
            rows += [f"begin,2,view,"] * (k == 0) + [f"begin,{k},update,{update([i + 1] * 2, k)}", f"end,{k},update,"]
        rows.append(f"end,2,view,{entries([i + 1 - is_faulty, i + 1])}")
    return rows


@shape("read faults, pairs of views")
def crossed_pairs(events, _draw):
    """Views of which two at a time overlap, and each of the two shows an update that the other misses."""
    rows = []
    for i in range(events // 8):
        for part in ("begin", "end"):
            rows += [f"{part},{k},update,{update([i + 1] * 2, k) if part == 'begin' else ''}" for k in range(2)]
            rows += [f"{part},{2 + k},view,{entries([i + k, i + 1 - k]) if part == 'end' else ''}" for k in range(2)]
        rows[-4:] = rows[-2:] + rows[-4:-2]
    return rows


@shape("read faults, the first and the last view")
def first_and_last(events, draw):
    """A view that is open from first to last, and a last one, each of which shows an update that the other misses."""
    between = with_views(one_by_one(events - 8, draw, 8), "every view", lambda k, number, value: (k + 2, number, value + 2))
    between = [re.sub(r"update,(\d+):(\d+):(\d+)", lambda m: "update,%d:%s:%d" % (int(m[1]) + 2, m[2], int(m[3]) + 2), row) for row in between]
    shown = between[-1].rpartition(",")[2]
    begins = ["begin,100,view,", "begin,101,update,0:1:3", "begin,102,update,1:1:4"]
    ends = ["begin,103,view,", f"end,103,view,1:1:4 {shown}", "end,101,update,", "end,102,update,", f"end,100,view,0:1:3 {shown}"]
    return begins + between + ends


# numbers and values, small, at their greatest and far apart


@shape("the {} value alone", [["least"], ["greatest"]])
def one_value(events, draw, which):
    """Updates and views with one value alone, 0 or the greatest."""
    value = 0 if which == "least" else GREATEST
    return [re.sub(r"(\d+:\d+):\d+", rf"\1:{value}", row) for row in atomic(events, 8, draw)]


@shape("the least number alone")
def least_number(events, draw):
    """An update of each of 256 components, and views that show all of them."""
    rows = [row for k in range(256) for row in (f"begin,{k},update,{k}:1:0", f"end,{k},update,")]
    shown = " ".join(f"{k}:1:0" for k in range(256))
    return rows + views_of(events - len(rows), shown)


@shape("the greatest number, {}", [["every view"], ["one view in 512"]])
def greatest_number(events, draw, place):
    """Views that show the greatest number of each component."""
    return with_views(one_by_one(events, draw, 8), place, lambda k, _, value: (k, GREATEST, value))


@shape("numbers drawn, none overlaps, width {}", [[1], [8], [64]])
def drawn_one_by_one(events, draw, components):
    """Calls that do not overlap, and every number of every view drawn from all that there are."""
    return with_views(one_by_one(events, draw, components), "every view", lambda k, _, value: (k, draw.randrange(1, 2**32), value))


@shape("numbers drawn, crossed views, width {}", [[1], [8], [64]])
def drawn_crossed(events, draw, components):
    """Open updates, and every number of every view drawn from all that there are."""
    return with_views(overlapping(events, components, draw), "every view", lambda k, _, value: (k, draw.randrange(1, 2**32), value))


@shape("a far number in 512 crossed views, width {}", [[1], [8], [64]])
def one_far(events, draw, components):
    """Open updates, views that show any of them, and in one of 512 the greatest number."""
    return with_views(overlapping(events, components, draw), "one view in 512", lambda k, _, value: (k, GREATEST, value))


@shape("one of {} far numbers, width {}", [[few, components] for few in (2, 256) for components in (1, 8, 64)])
def few_far(events, draw, few, components):
    """Open updates, and views that show one of few numbers, which are far apart."""
    return with_views(overlapping(events, components, draw), "every view", lambda k, _, value: (k, 2**31 + 2**20 * draw.randrange(few), value))


# forms of the text


@shape("stamps {}", [["in order"], ["reversed"], ["at random"]])
def stamps(events, draw, order):
    """A text with stamps, whose lines are in this order."""
    rows = list(enumerate(atomic(events, 8, draw)))
    if order == "at random":
        draw.shuffle(rows)
    return rows[::-1] if order == "reversed" else rows


@shape("quoted fields")
def quoted(events, draw):
    """Every field in quotes."""
    return ['"' + '","'.join(row.split(",")) + '"' for row in atomic(events, 8, draw)]


@shape("lines with CR LF")
def windows(events, draw):
    """Lines that end with CR and LF."""
    return text_of(atomic(events, 8, draw), end="\r\n")


@shape("an empty line behind each")
def empty_lines(events, draw):
    """Lines with empty ones between them."""
    return text_of(atomic(events, 8, draw), end="\n\n")


@shape("refused at the {} record", [["first"], ["last"]])
def refused(events, draw, place):
    """A record that is not one of a history, before or after the others."""
    rows = atomic(events - 1, 8, draw)
    return ["begin,0,nothing,", *rows] if place == "first" else [*rows, "begin,0,nothing,"]


@shape("{} to the limit of bytes", [["newlines"], ["commas"], ["an open quote"], ["one field"], ["a line of blanks"]])
def filled(events, _draw, what):
    """One byte again and again, up to the limit of bytes with 65,536 events."""
    byte, header = {"newlines": ("\n", ""), "commas": (",", ""), "an open quote": ("a", '"'), "one field": ("a", ""), "a line of blanks": (" ", HEADER + "\n")}[what]
    return header.ljust(bytes_of(events), byte)


@shape("a text at the limit of bytes{}", [[""], [" and one over"]])
def at_limit(events, draw, over):
    """A history of 256 components whose text has as many bytes as a text may have, or one more; empty lines fill it up."""
    rows = [re.sub(r"(\d+:\d+):\d+", r"\1:99999999", row) for row in one_by_one(events, draw, 256)]
    return text_of(rows).ljust(bytes_of(max(events, MOST_EVENTS)) + (over != ""), "\n")
