#!/usr/bin/env python3
"""Compares examples/judge.py with the program, byte by byte, on random texts. The last line is 'N passed, M failed'.

usage: test-judge.py [PROGRAM]      the program is ./snapjudge by default

The texts are runs of a simulated board with overlapping and pending calls. In some a view takes effect at one moment, in others it reads
one component after another, and some views are changed. Some texts have stamps, in any order, and some are damaged. All come from
one seed. Wrong copies of judge.py must be found by the same texts.
"""
import collections
import importlib.util
import pathlib
import random
import re
import subprocess
import sys
import tempfile

TOP = pathlib.Path(__file__).resolve().parent.parent
FOLDER = TOP / "examples"
# The module that judge.py imports comes first.
SOURCES = {name: (FOLDER / f"{name}.py").read_text(encoding="utf-8") for name in ("reader", "judge")}
SEED, TEXTS, FILES = 20, 4000, 250
# At least this many reports have a line that begins so, or the texts say too little.
LEAST = 10
LINES = ("regular no", "monotone no", "atomic yes", "atomic no", "integrity", "proximity", "read", "write", "refused")
FAULTS = ("header", "fields", "at", "event", "process", "op", "data", "repeated", "busy", "idle", "otherop", "writer", "number")
MOST = 2**32 - 1

# What is changed in judge.py or in reader.py, so that it is wrong: the old text, and the new one.
WRONG = {
    "a call that ends at a begin precedes": ("first.end < second.begin", "first.end <= second.begin + 1"),
    "a pending call precedes": ("first and second and first.end and first.end <", "first and second and (first.end or 0) <"),
    "any value of an update will do": ("history.updates[k, n].entries[k] != (n, v)", "False"),
    "an old number is not seen": ("a.shows(k) + 1)), a)", "a.shows(k) + 2)), a)"),
    "an early number is not seen": ("if precedes(a, history.updates.get((k, a.shows(k))))", "if False"),
    "views that disagree are no fault": ("if more and (less or precedes(a, b))", "if more and precedes(a, b)"),
    "a later view may show less": ("if more and (less or precedes(a, b))", "if more and less"),
    "the greatest component is named": ("more[0]", "more[-1]"),
    "a missed update that overlaps is a fault": ("if precedes(history.updates.get((j, a.shows(j) + 1)), ", "if history.updates.get((j, a.shows(j) + 1)) and bool("),
    "views that disagree are not monotone": ("if precedes(a, b) for k in", "for k in"),
    "a level counts the views that show an update": ("view.shows(k) < n for", "view.shows(k) >= n for"),
    "the level of a view counts equal views": ("sum(any(view.shows(k) < call", "sum(any(view.shows(k) <= call"),
    "views stand before updates": ("call.op, call.number)", "call.op == 'update', call.number)"),
    "a pending update that no view shows is in the order": ("if call.end or any(", "if call.op == 'update' or call.end or any("),
    "a pending update that a view shows is left out": ("any(view.entries.items() & call.entries.items() for view in history.views)", "False"),
    "records keep their places in a text with stamps": ("sorted(events) if", "events if"),
    "a stamp may stand twice": ("at not in stamps", "True"),
    "a leading zero will do": ('(field == "0" or field[0] != "0")', "True"),
    "components may fall": ("components == sorted(set(components))", "True"),
}


class Board:
    """A run of a simulated board, by a chance; `rows` are its events."""

    def __init__(self, chance):
        self.chance, self.rows = chance, []
        processes = chance.sample([0, 1, 2, 3, 4, 7, 10, 65535], chance.randint(1, 6))
        components = chance.sample([0, 1, 2, 3, 9, 10, 200, 255], chance.randint(1, 5))
        self.writers = {component: chance.choice(processes) for component in components}
        self.written, self.shown = dict.fromkeys(components, (0, 0)), {}
        self.is_collect, updates = chance.random() < 0.5, chance.uniform(0.2, 0.8)
        calls = {process: iter(()) for process in processes}
        for _ in range(chance.randint(1, 90)):
            process = chance.choice(processes)
            if next(calls[process], None) is None:
                own = [component for component in components if self.writers[component] == process]
                is_update = own and chance.random() < updates
                calls[process] = self.update(process, chance.choice(own)) if is_update else self.view(process)
                next(calls[process])

    def update(self, process, component):
        number = sum(row[0] == "begin" and row[3].startswith(f"{component}:") for row in self.rows) + 1
        value = self.chance.choice([0, 1, 7, self.chance.randint(0, MOST), MOST])
        self.rows.append(["begin", process, "update", f"{component}:{number}:{value}"])
        yield True
        self.written[component] = number, value
        yield True
        self.rows.append(["end", process, "update", ""])

    def view(self, process):
        self.rows.append(["begin", process, "view", ""])
        yield True
        order, shown = self.chance.sample(sorted(self.written), len(self.written)), {}
        for component in order:
            shown[component] = self.written[component]
            if self.is_collect:
                yield True
        yield True
        self.rows.append(["end", process, "view", " ".join(f"{k}:{n}:{v}" for k, (n, v) in sorted(shown.items()) if n)])


def changed_views(chance, rows):
    """The same events, in which some views show something else."""
    rows = [list(row) for row in rows]
    ends = [row for row in rows if row[0] == "end" and row[2] == "view"]
    for row in chance.sample(ends, min(len(ends), chance.randint(1, 2))):
        entries = {int(k): [int(n), int(v)] for k, n, v in (entry.split(":") for entry in row[3].split())}
        what = chance.randrange(5)
        if what == 0 and entries:
            del entries[chance.choice(list(entries))]
        elif what == 1:
            entries[chance.choice([0, 1, 2, 3, 9, 10, 200, 255])] = [chance.randint(1, 3), chance.choice([0, 1, 7])]
        elif what == 2:
            row[3] = chance.choice(ends)[3]
            continue
        elif entries:
            chance.choice(list(entries.values()))[what - 3] += chance.choice([-1, 1, 2])
        row[3] = " ".join(f"{k}:{n}:{v}" for k, (n, v) in sorted(entries.items()) if n > 0 and 0 <= v <= MOST)
    return rows


def text_of(chance, rows):
    """The text of a history: with stamps or without, and with quotes and ends of lines as they may be."""
    fields = [["event", "process", "op", "data"]] + [list(map(str, row)) for row in rows]
    if chance.random() < 0.3:
        stamps = sorted(chance.sample(range(4 * len(rows) + 1), len(rows)))
        records = [[str(stamp)] + record for stamp, record in zip(stamps, fields[1:])]
        chance.shuffle(records)
        fields = [["at"] + fields[0]] + records
    if chance.random() < 0.1:
        fields = [[f'"{field}"' if chance.random() < 0.3 else field for field in record] for record in fields]
    end = chance.choice(["\n", "\n", "\n", "\r\n", "\r", "\n\n"])
    front = chance.choice([b"", b"", b"", b"\xef\xbb\xbf"])
    return front + end.join(",".join(record) for record in fields).encode() + chance.choice([b"", end.encode()])


def damaged_record(chance, record):
    """A record with another field, or with entries in another order."""
    fields, place = record.split(b","), chance.randrange(-5, 0)
    if len(fields) < -place:
        return record
    number, entries = chance.choice([b"1", b"2", b"3"]), fields[-1].split(b" ")
    fields[place] = chance.choice({
        -5: [b"", b"01", b"1.5", b"18446744073709551616"],
        -4: [b"", b"Begin", b"begin", b"end"],
        -3: [b"", b"00", b"65536", b"0", b"1", b"2", b"3"],
        -2: [b"", b"views", b"update", b"view"],
        -1: [b"", b" ".join(entries[::-1]), re.sub(b":[0-9]+:", b":" + number + b":", fields[-1]), fields[-1].replace(b":", b": ")],
    }[place])
    return b",".join(fields)


def damaged_event(chance, record):
    """A record whose fields are right each, while the events before it may not allow it."""
    fields = record.split(b",")
    if len(fields) < 4:
        return record
    if fields[-4:-3] + fields[-2:] == [b"end", b"update", b""]:
        fields[-2] = b"view"
    elif fields[-2] == b"update" and chance.random() < 0.5:
        fields[-1] = re.sub(b":[0-9]+:", lambda it: b":%d:" % (int(it[0][1:-1]) + 1), fields[-1])
    else:
        fields[-3] = b"8"
    return b",".join(fields)


def damaged(chance, text):
    """A text with a change of one byte or of one line."""
    what = chance.randrange(10)
    if what < 3:
        at = chance.randrange(len(text) + 1)
        byte = chance.choice([b"", b",", b'"', b"\n", b"\r", b" ", b":", b"\0", b"\x85", b"\xff", b"x", b"0", b"00", b"-", b"9999999999"])
        return text[:at] + byte + text[at + chance.randrange(2):]
    lines = text.split(b"\n")
    one, two = chance.randrange(len(lines)), chance.randrange(len(lines))
    if what == 3:
        del lines[one]
    elif what == 4:
        lines.insert(two, lines[one])
    elif what == 5:
        lines[one], lines[two] = lines[two], lines[one]
    else:
        lines[one] = (damaged_record if what < 8 else damaged_event)(chance, lines[one])
    return b"\n".join(lines)


def texts_of(chance, count):
    for _ in range(count):
        rows = Board(chance).rows
        rows = changed_views(chance, rows) if chance.random() < 0.4 else rows
        text = text_of(chance, rows)
        yield damaged(chance, text) if chance.random() < 0.3 else text


def module_of(name, text):
    """A module by its text."""
    module = importlib.util.module_from_spec(importlib.util.spec_from_loader(name, loader=None))
    sys.modules[name] = module
    exec(compile(text, name, "exec"), module.__dict__)
    return module


def judge_of(old="", new=""):
    """What judge.py says of a text: its status and its report. If a text is named, it is changed first."""
    reader, judge = (module_of(name, SOURCES[name].replace(old, new) if old else SOURCES[name]) for name in SOURCES)

    def judged(text):
        try:
            status, lines = judge.report_of(text)
        except reader.Refused as refused:
            status, lines = 3, [str(refused)]
        return status, "".join(f"{line}\n" for line in lines)

    return judged


def reports_of(program, texts):
    """What the program says of texts: of each its report, and of all of them the greatest status."""
    with tempfile.TemporaryDirectory() as room:
        names = [f"{place}.csv" for place in range(len(texts))]
        for name, text in zip(names, texts):
            pathlib.Path(room, name).write_bytes(text)
        ran = subprocess.run([program, "check", "--no-progress", *names], cwd=room, capture_output=True, check=False)
    reports = dict.fromkeys(names, "")
    for line in ran.stdout.decode().splitlines(keepends=True):
        name, _, rest = line.partition(": ")
        reports[name] += rest
    return list(reports.values()), ran.returncode


class Count:
    """What passed and what failed."""

    def __init__(self):
        self.passed, self.failed = 0, 0

    def expect(self, is_so, otherwise):
        self.passed += bool(is_so)
        self.failed += not is_so
        if not is_so:
            print(f"failed: {otherwise}")


def try_texts(count, program, texts):
    """Compares all reports; those of the program are returned."""
    judged, reports = judge_of(), []
    for first in range(0, len(texts), FILES):
        some = texts[first:first + FILES]
        wanted, greatest = reports_of(program, some)
        found = list(map(judged, some))
        for text, report, (_, said) in zip(some, wanted, found):
            count.expect(said == report, f"of {text!r} judge.py says {said!r}, and the program {report!r}")
        count.expect(greatest == max(status for status, _ in found), f"from text {first} on the greatest status is {greatest}")
        reports += wanted
    return reports


def try_tests(count, texts, reports):
    """The texts say enough: each line and each fault comes, and wrong copies of judge.py are found."""
    said = collections.Counter(front for report in reports for front in LINES if f"\n{front}" in f"\n{report}")
    said.update(report.split()[-1] for report in reports if report.startswith("refused"))
    for word in LINES + FAULTS:
        count.expect(said[word] >= LEAST, f"only {said[word]} of {len(texts)} texts have {word}")
    for what, (old, new) in WRONG.items():
        count.expect(any(old in source for source in SOURCES.values()), f"{what}: there is no {old}")
        wrong = judge_of(old, new)
        count.expect(any(wrong(text)[1] != report for text, report in zip(texts, reports)), f"a wrong judge.py is not found: {what}")


def main(words):
    count, texts = Count(), list(texts_of(random.Random(SEED), TEXTS))
    reports = try_texts(count, str(pathlib.Path(words[0] if words else TOP / "snapjudge").resolve()), texts)
    try_tests(count, texts, reports)
    print(f"{count.passed} passed, {count.failed} failed")
    return 1 if count.failed else 0


if __name__ == "__main__":
    sys.exit(main(sys.argv[1:]))
