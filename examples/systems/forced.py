"""Lets others update in the middle of a view, in each wrong way, and prints the first fault. usage: forced.py PROGRAM SYSTEM

A SYSTEM is sqlite, files or copies.
"""
import itertools
import os
import sys

import copies
import files
import sqlite
from harness import CALLS, HERE, WORKERS, Recorder, judge, need, output, update, view


def history(boards, views):
    """Before each view of the last worker, and in each pause of it, each other worker makes an update."""
    recorder, values = Recorder(WORKERS, WORKERS, CALLS), itertools.count(1)
    *writers, (viewer, log) = zip(boards, recorder.logs)

    def let_others_run():
        for board, other in writers:
            update(board, other, other.thread, next(values))

    viewer.pause = let_others_run
    for _ in range(views):
        let_others_run()
        view(viewer, log)
    for board in boards:
        board.close()
    return recorder.text()


class Paused(files.Files):
    """The listing of `os.listdir`, with a pause at the first name."""

    def names(self):
        with os.scandir(self.folder) as entries:
            yield next(entries).name
            self.pause()
            for entry in entries:
                yield entry.name


def of_sqlite():
    for way in sqlite.WAYS:
        if sqlite.AUTOCOMMIT in way:
            with sqlite.boards(way) as boards:
                yield way, history(boards, 1)


def of_files():
    *_, way = files.WAYS
    with files.boards(way, Paused) as boards:
        yield way, history(boards, 40)


def of_copies():
    with copies.compiled(f"{HERE}/CopiesForced.java") as folder:
        written = output([need("java"), "-cp", folder, "CopiesForced"])
    for lines in written.strip().split("\n\n"):
        way, _, text = lines.partition("\n")
        yield way, text + "\n"


def main():
    program, system = sys.argv[1:]
    for way, text in {"sqlite": of_sqlite, "files": of_files, "copies": of_copies}[system]():
        fault = judge(program, "check", text)[0].splitlines()[4]
        print(f"{way}: {fault}")


main()
