#!/usr/bin/env python3
"""Gives mutated texts to two builds of the program and compares status and report of each.

usage: compare.py --against PROGRAM [--program PROGRAM] [--texts N] [--seed S] [--jobs J]

A build is a program or a library. A program is run once for each text. A name that ends in .so is the shared library of
ffi/build.sh: it is called in this process, which is much faster. The texts come from the examples and from histories of
generate.py, in both forms of text: without stamps, and with stamps, the records then shuffled. Text i is the same for the same
seed, whatever the number of jobs. Each has up to three small changes: bytes, numbers, records, ends of lines, quotes; one in
sixteen has none. The status is 1 if some text got two answers; the first ten of these are kept in the folder that is named.
"""
import argparse
import collections
import ctypes
import glob
import multiprocessing
import os
import random
import re
import subprocess
import sys
import tempfile

HERE = os.path.dirname(os.path.abspath(__file__))
TOP = os.path.dirname(HERE)
SPLIT = 500
KINDS = ["atomic", "pending", "overlapping", "late", "writes"]
SHAPES = [(24, 2), (40, 3), (60, 8), (120, 20), (160, 40)]
NUMBERS = [b"", b"0", b"00", b"01", b"+1", b"-1", b"1", b"2", b"255", b"256", b"65535", b"65536", b"999999999", b"4294967295",
           b"4294967296", b"4294967297", b"9999999999", b"42949672960", b"18446744073709551615", b"18446744073709551616"]
BYTES = [b"0", b"1", b"9", b":", b";", b"/", b" ", b",", b"\n", b"\r", b"\"", b"a", b"\0", b"\xff"]


def with_stamps(rows, draw):
    """The same events with stamps that rise by one to three, their records shuffled."""
    at = draw.randrange(3)
    stamped = []
    for row in rows:
        stamped.append(b"%d,%s" % (at, row))
        at += draw.randrange(1, 4)
    draw.shuffle(stamped)
    return stamped


def histories():
    """The texts that are changed: of each history one without stamps and one with."""
    draw = random.Random(0)
    texts = [open(name, "rb").read() for name in sorted(glob.glob(os.path.join(TOP, "examples", "*.csv")))]
    for kind in KINDS:
        for events, components in SHAPES:
            words = [sys.executable, os.path.join(HERE, "generate.py"), kind, str(events), str(components)]
            texts.append(subprocess.run(words, stdout=subprocess.PIPE, check=True).stdout)
    stamped = []
    for text in texts:
        rows = text.split(b"\n")[1:-1]
        stamped.append(b"\n".join([b"at,event,process,op,data"] + with_stamps(rows, draw)) + b"\n")
    return texts + stamped


def change_byte(text, draw):
    at = draw.randrange(len(text) + 1)
    return text[:at] + draw.choice(BYTES) + text[at + draw.randrange(2):]


def drop_byte(text, draw):
    at = draw.randrange(len(text) + 1)
    return text[:at] + text[at + 1:]


def cut(text, draw):
    return text[:draw.randrange(len(text) + 1)]


def change_number(text, draw):
    places = list(re.finditer(rb"[0-9]+", text))
    if not places:
        return text
    place = draw.choice(places)
    if draw.randrange(2):
        number = draw.choice(NUMBERS)
    else:
        number = b"%d" % (int(place.group()) + draw.choice([-1, 1]))
    return text[:place.start()] + number + text[place.end():]


def change_records(text, draw):
    rows = text.split(b"\n")
    i, j = draw.randrange(len(rows)), draw.randrange(len(rows))
    way = draw.randrange(3)
    if way == 0:
        rows[i], rows[j] = rows[j], rows[i]
    elif way == 1:
        rows.insert(i, rows[j])
    else:
        del rows[i]
    return b"\n".join(rows)


def change_entries(text, draw):
    """Takes out, or repeats, one of the entries of a view."""
    places = list(re.finditer(rb"[0-9]+:[0-9]+:[0-9]+ ", text))
    if not places:
        return text
    place = draw.choice(places)
    return text[:place.start()] + place.group() * draw.choice([0, 2]) + text[place.end():]


def change_lines(text, draw):
    way = draw.randrange(4)
    if way == 0:
        return text.replace(b"\n", b"\r\n")
    if way == 1:
        return b"\xef\xbb\xbf" + text
    if way == 2:
        return text.rstrip(b"\n")
    return text.replace(b",view,", b",\"view\",", draw.randrange(1, 5))


CHANGES = [change_byte, change_byte, drop_byte, cut, change_number, change_number, change_number, change_records, change_entries, change_lines]


def mutated(texts, seed, i):
    draw = random.Random(f"{seed} {i}")
    text = draw.choice(texts)
    if draw.randrange(16):
        for _ in range(draw.randrange(1, 4)):
            text = draw.choice(CHANGES)(text, draw)
    return text


def by_library(path):
    check = ctypes.CDLL(path).snapjudge_check
    check.restype = ctypes.c_uint32
    check.argtypes = [ctypes.c_char_p, ctypes.c_size_t, ctypes.c_char_p, ctypes.c_size_t, ctypes.POINTER(ctypes.c_size_t)]

    def judge(text):
        room = 2 * len(text) + 1024
        report, length = ctypes.create_string_buffer(room), ctypes.c_size_t(0)
        status = check(text, len(text), report, room, ctypes.byref(length))
        return status, report.raw[:length.value]

    return judge


def by_program(path):
    def judge(text):
        run = subprocess.run([path, "check", "--workers", "1"], input=text, stdout=subprocess.PIPE)
        return run.returncode, run.stdout

    return judge


def judge_of(path):
    return by_library(os.path.abspath(path)) if path.endswith(".so") else by_program(path)


def compare(work):
    """How often each status came in a range of texts, and the texts that got two answers."""
    programs, seed, first, last = work
    texts = TEXTS
    judges = [judge_of(path) for path in programs]
    statuses, others = collections.Counter(), []
    for i in range(first, last):
        text = mutated(texts, seed, i)
        one, other = (judge(text) for judge in judges)
        statuses[one[0]] += 1
        if one != other:
            others.append((i, text, one, other))
    return statuses, others


def main():
    global TEXTS
    words = argparse.ArgumentParser(description=__doc__.split("\n")[0])
    words.add_argument("--against", required=True)
    words.add_argument("--program", default=os.path.join(TOP, "built", "snapjudge"))
    words.add_argument("--texts", type=int, default=100000)
    words.add_argument("--seed", type=int, default=1)
    words.add_argument("--jobs", type=int, default=1)
    given = words.parse_args()
    TEXTS = histories()
    programs = [given.program, given.against]
    works = [(programs, given.seed, i, min(i + SPLIT, given.texts)) for i in range(0, given.texts, SPLIT)]
    statuses, others = collections.Counter(), []
    with multiprocessing.Pool(given.jobs) as pool:
        for some, more in pool.imap(compare, works):
            statuses += some
            others += more
    print(f"{given.texts} texts of seed {given.seed}: {len(others)} with two answers")
    for status in sorted(statuses):
        print(f"status {status}: {statuses[status]}")
    if others:
        room = tempfile.mkdtemp(prefix="two-answers-")
        for i, text, one, other in others[:10]:
            for name, content in (("csv", text), ("program", one[1]), ("against", other[1])):
                with open(os.path.join(room, f"{i}.{name}"), "wb") as out:
                    out.write(content)
            print(f"text {i}: status {one[0]} and {other[0]}, kept in {room}")
    sys.exit(1 if others else 0)


main()
