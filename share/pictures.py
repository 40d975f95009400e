"""Histories and the pictures that `snapjudge draw` makes of them: as test-draw.py reads both, and as the pages show the pictures."""
import re
import textwrap
import xml.etree.ElementTree as tree

SVG = "{http://www.w3.org/2000/svg}"
# A picture in a page is no wider: on a telephone its letters would be too small.
WIDEST = 600
# How wide a character of a label is at most, and how far a line of text reaches above its foot and below it.
WIDE, HIGH, DEEP = 7, 10, 2


class Call:
    """A call of a history: its process, what it does, and the records of its begin and its end."""

    def __init__(self, process, kind, data, begin):
        self.process, self.kind, self.data, self.begin, self.end = process, kind, data, begin, None

    def title(self, number, source=None):
        records = f"record {self.begin}, pending" if self.end is None else f"records {self.begin} and {self.end}"
        beside = f" (call {source} of the run)" if source else ""
        return f"call {number}{beside} of process {self.process}, {records}: {self.kind} {self.data}".strip()


def calls_of(text):
    """The calls of a history by their numbers."""
    calls, open_calls = [], {}
    for record, line in enumerate(text.splitlines()[1:], 2):
        what, process, kind, data = line.split(",")
        if what == "begin":
            open_calls[process] = Call(process, kind, data, record)
            calls.append(open_calls[process])
        else:
            call = open_calls.pop(process)
            call.end, call.data = record, call.data or data
    return dict(enumerate(calls, 1))


def faults_of(report, calls):
    """For each kind of fault in a report the calls of the first one, and the printed order, or nothing."""
    updates = {tuple(call.data.split(":")[:2]): number for number, call in calls.items() if call.kind == "update"}
    faults, order = {}, []

    def update(component, number):
        found = updates.get((str(component), str(number)))
        return {found} if found else set()

    def excess(more, less):
        """The update that one view shows of the least component of which it shows more than another."""
        shown = {at: {int(k): int(n) for k, n, _ in (it.split(":") for it in calls[at].data.split())} for at in (more, less)}
        component = min((k for k, n in shown[more].items() if n > shown[less].get(k, 0)), default=None)
        return set() if component is None else update(component, shown[more][component])

    for line in report.splitlines():
        words = line.split()
        numbers = re.findall(r"\d+", line)
        if words[0] == "integrity":
            faults["integrity"] = {int(numbers[1])} | update(*numbers[2:4])
        elif words[0] == "proximity":
            number = int(numbers[3]) + (words[-1] == "old")
            faults["proximity"] = {int(numbers[1])} | update(numbers[2], number)
        elif words[0] == "read":
            one, other = int(numbers[1]), int(numbers[2])
            is_after = calls[one].end < calls[other].begin
            faults["read"] = {one, other} | excess(one, other) | (set() if is_after else excess(other, one))
        elif words[0] == "write":
            faults["write"] = {int(numbers[1])} | update(*numbers[2:4]) | update(*numbers[4:6])
        elif words[0].isdigit():
            order.append(int(words[0]))
    return faults, order


def kept_of(report, calls):
    """The numbers of the calls that a witness keeps: those of the first fault that a report has, and the updates that show it."""
    faults, _ = faults_of(report, calls)
    kind = next((it for it in ("integrity", "proximity", "read", "write") if it in faults), None)
    return sorted(faults.get(kind, ()))


class Box:
    """A rectangle of a picture."""

    def __init__(self, left, top, right, bottom):
        self.left, self.top, self.right, self.bottom = left, top, right, bottom

    def meets(self, other):
        return self.left < other.right and other.left < self.right and self.top < other.bottom and other.top < self.bottom


def number(element, name):
    return float(element.get(name))


def bar_box(element):
    left, top = number(element, "x"), number(element, "y")
    return Box(left, top, left + number(element, "width"), top + number(element, "height"))


def text_box(element, is_middle):
    wide = WIDE * len(element.text or "")
    left, foot = number(element, "x") - is_middle * wide / 2, number(element, "y")
    return Box(left, foot - HIGH, left + wide, foot + DEEP)


def points_of(path):
    """The points of a line of straight steps."""
    numbers = list(map(float, re.findall(r"-?\d+(?:\.\d+)?", path)))
    return list(zip(numbers[::2], numbers[1::2]))


class Picture:
    """A picture: its elements by their names, which are no ids, so that two pictures can stand in one document."""

    def __init__(self, text):
        self.root = tree.fromstring(text)
        self.all_ids = [it.get("data-id") for it in self.root.iter() if it.get("data-id")]
        self.by = {it.get("data-id"): it for it in self.root.iter() if it.get("data-id")}
        self.document_ids = {it.get("id") for it in self.root.iter() if it.get("id")}

    def ids(self, front):
        return {name[len(front):] for name in self.by if name.startswith(front)}

    def classes(self, name):
        return set(self.by[name].get("class", "").split())

    def part(self, name, tag, kind=None):
        """The first element of a tag, and of a class if one is named, in the element of an id; or none."""
        inside = self.by[name].iter(SVG + tag) if name in self.by else ()
        return next((it for it in inside if kind is None or kind in it.get("class", "").split()), None)

    def text(self, name, tag, kind=None):
        """The text of such an element, or nothing."""
        found = self.part(name, tag, kind)
        return "" if found is None else found.text or ""

    def bar(self, call):
        return bar_box(self.part(f"call-{call}", "rect", "bar"))

    def texts(self):
        """All visible texts, each with its box."""
        for group in self.root.iter():
            for it in group.findall(SVG + "text"):
                is_middle = group.get("data-id") in ("records", "places")
                yield it.text, text_box(it, is_middle)


# How far apart the lines of a folded sentence are, and how much stays free after the lanes and after the labels.
LINE, BEHIND_LANES, BEHIND_LABELS = 14, 12, 6
MARK = re.compile(r'(<g class="mark".*?</title>)<text x="(\d+)" y="(\d+)">(.*?)</text>')
SIZE = re.compile(r'viewBox="0 0 \d+ (\d+)" width="\d+" height="\d+"')


def folded(text):
    """A picture that is no wider than its lanes and their labels, as a narrow page can show it: its sentences take more lines."""
    picture, lower = Picture(text), 0
    said = {picture.text(f"fault-{kind}", "text") for kind in picture.ids("fault-")}
    labels = max(box.right for it, box in picture.texts() if it not in said)
    width = int(max(labels + BEHIND_LABELS, bar_box(picture.part("strip", "rect", "all")).right + BEHIND_LANES))

    def fold(found):
        nonlocal lower
        front, left, foot, sentence = found.groups()
        lines = textwrap.wrap(sentence, (width - 2 * int(left)) // WIDE)
        feet = [int(foot) + lower + LINE * place for place in range(len(lines))]
        lower += LINE * (len(lines) - 1)
        return front + "".join(f'<text x="{left}" y="{at}">{line}</text>' for at, line in zip(feet, lines))

    text = MARK.sub(fold, text)
    return SIZE.sub(lambda it: f'viewBox="0 0 {width} {int(it[1]) + lower}" width="{width}" height="{int(it[1]) + lower}"', text, count=1)
