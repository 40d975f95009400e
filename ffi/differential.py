#!/usr/bin/env python3
"""Generated and damaged texts through the library, and some of them through the program too: the same bytes for the same text.

usage: differential.py [TEXTS [OF_THEM_BY_THE_PROGRAM [SEED [DRIVER ..]]]]        (1000000, 1000000 and 1, if they are not given)

Build first: ffi/build.sh and ./snapjudge. Each text is judged twice, with ample room and with just enough; the status has to be
the one that the report says, and the bytes the same. Each other call of the library has to answer with the same status, and the counts
with that of a history. Some texts the program answers too, each by one of its commands, which is drawn. A quarter of the texts
are histories as they are generated, the others are damaged in one to eight places. Of half of the texts a component may have many
writers. A quarter come from histories that have them: those of share/test-writers.py.

The first texts are those of examples/, and the program answers them by each command. A driver answers each text by the wrapper of its language, as the
library does. It reads the length of a text and the words of a command on a line, and then the text. It writes the status and the length
of the answer on a line, and then the answer. The word `values` asks for the values of a text, written as its object, and below it the
order of the report, or why it is not a history. Where a component may have many writers, the words end with `--writers many`.
"""
import glob
import importlib
import itertools
import os
import random
import subprocess
import sys

HERE = os.path.dirname(os.path.abspath(__file__))
sys.path.insert(0, os.path.join(HERE, "python"))
import snapjudge  # noqa: E402
sys.path.append(os.path.join(HERE, "..", "share"))
test_writers = importlib.import_module("test-writers")

PROGRAM = os.path.join(HERE, "..", "built", "snapjudge")
HEADER = "event,process,op,data"
# The calls of the library beside the check, each with its option, its options or the name of the text, and the words for the program.
CALLS = (
    ("explain", 0, ["explain"]),
    ("explain", 1, ["explain", "--draw"]),
    ("explain", 2, ["explain", "--all"]),
    ("explain", 3, ["explain", "--all", "--draw"]),
    ("explain_faults", (0, 3), ["explain", "--faults", "3"]),
    ("explain_faults", (1, 3), ["explain", "--all", "--faults", "3"]),
    ("json", b"-", ["check", "--format", "json"]),
    ("shrink", 0, ["shrink"]),
    ("shrink", 1, ["shrink", "--draw"]),
    ("shrink", 2, ["shrink", "--map"]),
    ("draw", 0, ["draw"]),
    ("draw", 1, ["draw", "--svg"]),
    ("draw", 2, ["draw", "--text"]),
    ("draw", 3, ["draw", "--light"]),
    ("draw", 4, ["draw", "--dark"]),
    ("draw", 5, ["draw", "--svg", "--dark"]),
    ("draw_calls", (1, 5, 0, 0), ["draw", "--svg", "--calls", "5"]),
    ("stats", 0, ["stats"]),
    ("stats", 1, ["stats", "--format", "json"]),
)
ROOM = bytearray(1 << 20)


def first_updates(processes, components):
    """The records of an update of each component, one after the other."""
    for k in range(components):
        yield from (f"begin,{k % processes},update,{k}:1:{k + 3}", f"end,{k % processes},update,")


def history(draw):
    """A history whose views show what some moment between begin and end had, or at times something else. One of ten has views with more
    entries than an explanation lists unasked."""
    is_wide = draw.random() < 0.1
    processes, events = draw.randint(1, 6), draw.randint(0, 40)
    components = draw.randint(17, 24) if is_wide else draw.randint(1, 5)
    wrong = draw.choice((0, 0, 0.05, 0.3))
    begun, done, state = [int(is_wide)] * components, [int(is_wide)] * components, {}
    rows = list(first_updates(processes, components)) if is_wide else []
    for _ in range(events):
        p = draw.randrange(processes)
        if p not in state:
            owned = range(p, components, processes)
            if len(owned) and draw.random() < 0.5:
                k = draw.choice(owned)
                begun[k] += 1
                rows.append(f"begin,{p},update,{k}:{begun[k]}:{begun[k] * 3 + k}")
                state[p] = k
            else:
                rows.append(f"begin,{p},view,")
                state[p] = list(done)
        elif isinstance(state[p], int):
            done[state[p]] += 1
            rows.append(f"end,{p},update,")
            del state[p]
        else:
            shown = [draw.randint(low, high) for low, high in zip(state[p], begun)]
            if draw.random() < wrong:
                shown[draw.randrange(components)] = draw.randint(0, 3)
            words = (f"{k}:{n}:{n * 3 + k + (draw.random() < wrong / 4)}" for k, n in enumerate(shown) if n)
            rows.append(f"end,{p},view,{' '.join(words)}")
            del state[p]
    return [HEADER] + rows


def history_of_many(draw):
    """A history whose components have several writers, most of whose updates end in the order of their numbers."""
    return [HEADER] + test_writers.history(draw)[0]


def stamped(rows, draw):
    """The same history with a stamp before each record, the records in any order."""
    clock, found = 0, []
    for row in rows[1:]:
        clock += draw.randint(1, 3)
        found.append(f"{clock},{row}")
    draw.shuffle(found)
    return ["at," + rows[0]] + found


def damaged(text, draw):
    text = bytearray(text)
    for _ in range(draw.randint(1, 8)):
        kind, i = draw.randrange(5), draw.randrange(len(text) + 1)
        if kind == 0 and i < len(text):
            text[i] = draw.choice(b"0123456789:, \n\r\"abdegin\x00\xff")
        elif kind == 1:
            del text[i:i + draw.randint(1, 3)]
        elif kind == 2:
            text[i:i] = bytes([draw.choice(b"0123456789:, \n\r\"")])
        elif kind == 3:
            del text[i:]
        else:
            lines = bytes(text).split(b"\n")
            j, k = draw.randrange(len(lines)), draw.randrange(len(lines))
            lines[j], lines[k] = lines[k], lines[j]
            text = bytearray(b"\n".join(lines))
    return bytes(text)


def texts_of(draw, drawn=history):
    """Texts without end: a history, and then the same damaged, three times."""
    while True:
        rows = drawn(draw)
        if draw.random() < 0.2:
            rows = stamped(rows, draw)
        text = "".join(row + "\n" for row in rows).encode()
        yield text
        for _ in range(3):
            yield damaged(text, draw)


def texts_and_writers(draw):
    """Texts without end, each with the word for how many writers a component may have."""
    by_one, by_many = texts_of(draw), texts_of(draw, history_of_many)
    while True:
        yield next(by_one), "one"
        yield next(by_one), "one"
        yield next(by_one), "many"
        yield next(by_many), "many"


def examples():
    """The texts of the examples."""
    for name in sorted(glob.glob(os.path.join(HERE, "..", "examples", "*.csv"))):
        with open(name, "rb") as file:
            yield file.read()


class Driver:
    """A program that answers by the wrapper of its language."""

    def __init__(self, path):
        self.path = path
        self.child = subprocess.Popen([path], stdin=subprocess.PIPE, stdout=subprocess.PIPE)

    def answer(self, text, words):
        """The status and the answer of a command."""
        self.child.stdin.write(b"%d %s\n%s" % (len(text), words.encode(), text))
        self.child.stdin.flush()
        status, length = map(int, self.child.stdout.readline().split())
        return snapjudge.STATUSES[status], self.child.stdout.read(length)

    def end(self):
        self.child.stdin.close()
        return self.child.wait()


def said(report):
    """The status that a report says."""
    if report.startswith("refused record "):
        return "refused"
    return {"yesyes": "atomic", "yesno": "regular", "nono": "irregular"}[
        report.split("\n")[1].removeprefix("regular ") + report.split("\n")[3].removeprefix("atomic ")]


class Program:
    """The program, with a file in memory as standard input, and another as standard output."""

    def __init__(self):
        self.given, self.answered = os.memfd_create("given"), os.memfd_create("answered")

    def answer(self, text, words):
        """The status and the answer of a command."""
        for file in (self.given, self.answered):
            os.ftruncate(file, 0)
            os.lseek(file, 0, os.SEEK_SET)
        os.pwrite(self.given, text, 0)
        files = [(os.POSIX_SPAWN_DUP2, self.given, 0), (os.POSIX_SPAWN_DUP2, self.answered, 1),
                 (os.POSIX_SPAWN_OPEN, 2, os.devnull, os.O_WRONLY, 0)]
        child = os.posix_spawn(PROGRAM, [PROGRAM, *words], os.environ, file_actions=files)
        status = os.waitstatus_to_exitcode(os.waitpid(child, 0)[1])
        return snapjudge.STATUSES[status], os.pread(self.answered, os.fstat(self.answered).st_size, 0)


def by_library(text, writers, call, option):
    """The status and the answer of the library by a call."""
    words = option if isinstance(option, tuple) else (option, len(option)) if isinstance(option, bytes) else option if isinstance(option, tuple) else (option,)
    status, length = snapjudge.answer_into(call, text, words, ROOM, writers=writers)
    return status, bytes(ROOM[:length])


def by_calls(text, writers, status, report):
    """What the library answers by each call, by the words of its command."""
    found = {"check": (status, report.encode())}
    return found | {" ".join(words): by_library(text, writers, call, option) for call, option, words in CALLS}


def is_status(words, status, of_check):
    """Whether a command may have a status where the check has another: a history is counted without a verdict, and the status is 0."""
    return status == ("atomic" if words.startswith("stats") and of_check != "refused" else of_check)


def values(text, writers, status, report):
    """The status of a text and its values, as a driver writes them."""
    below = b""
    if status == "refused":
        below = by_library(text, writers, "explain", 0)[1]
    elif status == "atomic":
        below = "".join(report.splitlines(True)[5:]).encode()
    return status, by_library(text, writers, "json", b"-")[1] + below


def differing_drivers(text, end, wanted, drivers):
    """The name of each driver that answers otherwise than the library, with the words of the command."""
    for driver in drivers:
        for words, answer in wanted.items():
            if driver.answer(text, words + end) != answer:
                yield f"{words} of {driver.path}"


def wrong_answers(text, writers, asked, program, drivers):
    """The status of a text, and the words of each command whose call is wrong. The program is asked by some commands."""
    end = "" if writers == "one" else f" --writers {writers}"
    status, report = snapjudge.report(text, writers=writers)
    room = bytearray(len(report))
    again = snapjudge.report_into(text, room, writers=writers)
    same = again == (status, len(report)) and room.decode("ascii") == report and said(report) == status
    answers = by_calls(text, writers, status, report)
    wrong = [] if same else ["report"]
    wrong += [words for words, answer in answers.items() if not is_status(words, answer[0], status)]
    wrong += [f"{words} of the program" for words in asked if program.answer(text, (words + end).split()) != answers[words]]
    if drivers:
        wrong += differing_drivers(text, end, answers | {"values": values(text, writers, status, report)}, drivers)
    return status, wrong


def main():
    words = [int(word) for word in sys.argv[1:4]] + [1_000_000, 1_000_000, 1][len(sys.argv) - 1:]
    texts, programs, seed = words
    program, drivers = Program(), [Driver(path) for path in sys.argv[4:]]
    first = [(text, writers) for text in examples() for writers in snapjudge.WRITERS]
    commands = ["check"] + [" ".join(words) for _, _, words in CALLS]
    every, asked, differences, seen = (max(1, texts // max(1, programs)) - 1) | 1, 0, 0, dict.fromkeys(snapjudge.STATUSES, 0)
    several = 0
    turns = random.Random(seed)
    for i, (text, writers) in zip(range(texts), itertools.chain(first, texts_and_writers(random.Random(seed)))):
        words = commands if i < len(first) else [turns.choice(commands)] if asked < programs and i % every == 0 else []
        asked += len(words) > 0
        status, wrong = wrong_answers(text, writers, words, program, drivers)
        seen[status] += 1
        several += status != "refused" and snapjudge.report(text)[0] == "refused"
        if wrong:
            differences += 1
            print(f"text {i}, {writers} writers, differs by {', '.join(wrong)}: {text!r}", flush=True)
        if (i + 1) % 50_000 == 0:
            print(f"{i + 1} texts, {asked} of them by the program, {differences} differences", flush=True)
    counts = ", ".join(f"{status} {count}" for status, count in seen.items())
    print(f"{texts} texts ({counts}) through the library, {asked} of them through the program: {differences} differences")
    print(f"{several} of the histories have a component with several writers")
    ends = [driver.end() for driver in drivers]
    return differences != 0 or any(ends)


if __name__ == "__main__":
    if sys.argv[1:] in (["-h"], ["--help"]):
        sys.exit(print(__doc__.strip()))
    sys.exit(main())
