"""Pictures by lines of characters, as test-draw.py reads them."""
import re

# How many characters come before the first column, and how many a line of a lane has at most.
LEFT, WIDEST = 8, 120
BAR = re.compile(r"([\[(])([^\])>]*)([\])>])")
BEGINS = {"[": "update", "(": "view"}
ENDS = {"]": "update", ")": "view", ">": None}


class Bar:
    """A bar: its process, its kind, its ends in characters from the first column, and what is in it and below it."""

    def __init__(self, process, found, below):
        self.process, self.kind, self.end_sign = process, BEGINS[found.group(1)], found.group(3)
        self.begin, self.end = found.start() - LEFT, found.end() - 1 - LEFT
        self.is_marked, self.label = found.group(2)[:1] == "!", found.group(2).lstrip("!").rstrip("=- ")
        self.room = len(found.group(2))
        self.note = re.split(r"  +", below[found.start():].rstrip())[0] if below[found.start():found.start() + 1].strip() else ""


class LinePicture:
    """The parts of such a picture; `text` begins with its lanes, after what may come above them."""

    def __init__(self, text):
        lines = text.split("\n")
        self.left_out = next((tuple(map(int, re.findall(r"\d+", line))) for line in lines if line.startswith("calls drawn ")), None)
        self.records = next((line for line in lines if line.startswith("record ")), "")
        self.records = {found.start() - LEFT: int(found.group()) for found in re.finditer(r"\d+", self.records)}
        self.bars, self.lanes, self.widest = [], [], 0
        for place, line in enumerate(lines):
            process = re.match(r"p(\d+) ", line)
            if process:
                below = lines[place + 1] if lines[place + 1].startswith(" " * LEFT) else ""
                self.lanes.append(int(process.group(1)))
                self.widest = max(self.widest, len(line), len(below))
                self.bars += [Bar(process.group(1), found, below) for found in BAR.finditer(line)]
        key = next((place for place, line in enumerate(lines) if line.startswith("[ ] update")), len(lines))
        cut = lines.index("calls whose labels are cut") if "calls whose labels are cut" in lines else len(lines)
        self.key = lines[key] if key < len(lines) else ""
        self.sentences = [line for line in lines[key + 1:cut] if line]
        self.cut = [line.strip() for line in lines[cut + 1:] if line]


def is_front(text, whole):
    """Whether a text is another one, or a front of it that ends in an ellipsis."""
    return text == whole or (text.endswith("…") and whole.startswith(text[:-1]))


def try_bar(count, where, bar, call, marks, beside, columns, step):
    count.same(bar.process, call.process, f"{where}: its lane")
    count.same(bar.kind, call.kind, f"{where}: its kind")
    count.same(ENDS[bar.end_sign], call.kind if call.end else None, f"{where}: its end")
    count.same(bar.begin, columns[call.begin] * step, f"{where}: where it begins")
    count.same(bar.end, (columns[call.end] if call.end else len(columns)) * step, f"{where}: where it ends")
    count.same(bar.is_marked, bool(marks), f"{where}: its mark")
    kinds = " ".join(kind for kind in ("integrity", "proximity", "read", "write") if kind in marks)
    wanted = ", ".join(it for it in (kinds, beside) if it)
    count.expect(is_front(bar.note, wanted), f"{where}: below it stands {bar.note}, and not {wanted}")


def try_lines(count, name, text, calls, faults, order, said, sources=()):
    """Each call has its bar, from its begin to its end, with its marks. What is wrong is said, and what is cut is said in full. Where
    the calls are made from those of a run, the numbers of these stand below the bars."""
    sources = dict(enumerate(sources, 1))
    picture = LinePicture(text)
    records = sorted(record for call in calls.values() for record in (call.begin, call.end) if record)
    columns = {record: column for column, record in enumerate(records)}
    step = min((place for bar in picture.bars for place in (bar.begin, bar.end) if place), default=0)
    count.same(picture.lanes, sorted({int(call.process) for call in calls.values()}), f"{name}: lanes")
    count.same(sorted(int(re.match(r"\d*", bar.label).group() or 0) for bar in picture.bars), sorted(calls), f"{name}: calls")
    count.expect(picture.widest <= WIDEST, f"{name}: a line has {picture.widest} characters")
    count.same(picture.left_out, None, f"{name}: calls that are left out")
    count.same(picture.sentences, [line for line in said if line.split(":")[0] in faults], f"{name}: sentences")
    count.expect(all(records[at // step] == record and at % step == 0 for at, record in picture.records.items()) if step else not picture.records, f"{name}: records {picture.records}")
    count.expect(("!" in picture.key) == bool(faults) and ("#" in picture.key) == bool(order), f"{name}: the key is {picture.key}")
    cut = []
    for bar in sorted(picture.bars, key=lambda bar: bar.begin):
        number = int(re.match(r"\d*", bar.label).group() or 0)
        if number not in calls:
            continue
        call, where = calls[number], f"{name}: call {number}"
        marks = {kind for kind, members in faults.items() if number in members}
        beside = f"call {sources[number]} of the run" if number in sources else f"#{order.index(number) + 1}" if number in order else ""
        try_bar(count, where, bar, call, marks, beside, columns, step)
        label = f"{number} {call.kind} {call.data}".strip()
        count.expect(is_front(bar.label, label), f"{where}: its label is {bar.label}")
        has_room = len(label) + bar.is_marked <= bar.room
        count.same(bar.label == label, has_room, f"{where}: its label is cut")
        cut += [] if has_room else [call.title(number, sources.get(number))]
    count.same(picture.cut, cut, f"{name}: calls whose labels are cut")


# What is changed in the lines of new-old-inversion, so that they are wrong.
WRONG = {
    "a bar lies in the lane of a neighbour": (r"p1 (.*?\n.*?\n)", r"p3 \1"),
    "a call is left out": (r"p0.*?\n", ""),
    "a bar ends at the next event": (r"-\)", "-----------------)"),
    "a bar begins too early": (r"        \(!3", "(!3"),
    "a pending call has ended": (r"=\]", "=>"),
    "an update is a view": (r"\[!1(.*?)\]", r"(!1\1)"),
    "a call of a fault has no mark": (r"\(!3", "(3-"),
    "the update that shows a fault has no mark": (r"\[!1 update 0:1:7 ", "[1 update 0:1:7 ="),
    "a call has another kind of fault": (r"( +)read\np2", r"\1write\np2"),
    "a label has another entry": (r"view 0:1:7", "view 0:1:8"),
    "a label is cut for no reason": (r"update 0:1:7", "update 0:1:…"),
    "a record stands above another column": (r"record  2 ", "record   2"),
    "a fault has no sentence": (r"\nread: .*?\n", "\n"),
    "calls are left out": (r"\n\nrecord", "\n\ncalls drawn 3, left out 1\nrecord"),
}
# What is changed in the picture of the witness of recorded-1, so that it is wrong.
WRONG_BESIDE = {
    "a call has the number of another one": (r"call 5 of the run", "call 6 of the run"),
    "a call has no number of the run": (r"write, call 7 of the run", "write"),
    "a call has its own number twice": (r"call 4 of the run", "call 1 of the run"),
    "a call whose label is cut has none": (r" \(call 7 of the run\)", ""),
}
