"""`snapjudge check --follow` beside this module: both write the same lines for the same recordings.

The judge of windows of the program is proved, and the cutting of the module is not. The two share what judges a window, and no cutting.
"""
import io
import os
import random
import shutil
import subprocess
import sys
import tempfile
import time
import unittest
from contextlib import redirect_stderr
from unittest import mock

from snapjudge import follow
from snapjudge.windows import RECORD
from test_follow import CALM, HEADER, LATER, PATIENCE, shapes_of, text_of

HERE = os.path.dirname(os.path.abspath(__file__))
sys.path[:0] = [os.path.join(HERE, "..")]
from differential import history, history_of_many  # noqa: E402

PROGRAM = os.environ["SNAPJUDGE_PROGRAM"]
# How many recordings are drawn, how many of folders, and how many to be written in several ways.
DRAWN, FOLDERS, WRITTEN = 400, 100, 60


def by_program(text, *words):
    """The exit status and the lines of the program."""
    ran = subprocess.run([PROGRAM, "check", "--follow", *words], input=text.encode(), capture_output=True, check=False)
    return ran.returncode, ran.stdout.decode()


def by_module(path, *words):
    """The exit status and the lines of the module, whose option for the least length of a window has another name."""
    lines = []
    with mock.patch("snapjudge.follow.write", lines.append), redirect_stderr(io.StringIO()), mock.patch("snapjudge.follow.say"):
        asked = follow.words_of(["--once", *words, path])
        with mock.patch.object(follow, "Interrupts", Calm):
            code = follow.run(asked)
    return code, b"".join(lines).decode()


def program_over(path, *words, idle="1"):
    """The program that follows a path."""
    asked = [PROGRAM, "check", "--follow", "--idle", idle, *words, path]
    return subprocess.Popen(asked, stdout=subprocess.PIPE, stderr=subprocess.PIPE, text=True)


def by_check(text):
    """The exit status of a check of the whole text, which another reader reads, and its first line."""
    ran = subprocess.run([PROGRAM, "check", "--quiet"], input=text.encode(), capture_output=True, check=False)
    return ran.returncode, ran.stdout.decode().partition("\n")[0]


def quoted(row, places):
    """The row with the fields at these places in quotes."""
    return ",".join(f'"{field}"' if place in places else field for place, field in enumerate(row.split(",")))


def ways_of(rows, draw):
    """The texts of a recording: with each end of a line, with empty lines, and with quotes."""
    rows = [HEADER.rstrip("\n"), *rows]
    for change in (str, lambda row: quoted(row, range(4)), lambda row: quoted(row, draw.sample(range(4), draw.randrange(4)))):
        for end in ("\n", "\r\n", "\r"):
            yield "".join(change(row) + end for row in rows)
            yield "".join(end * draw.randrange(3) + change(row) + end * draw.randint(1, 3) for row in rows)


class Calm:
    """Nobody interrupts."""

    def wait(self, seconds, files=()):
        return False


def changed(rows, draw):
    """The rows with one left out, doubled or moved, or as they are."""
    rows = list(rows)
    way = draw.randrange(6)
    if rows and way < 3:
        row = rows.pop(draw.randrange(len(rows)))
        if way:
            rows.insert(draw.randint(0, len(rows)), row)
        if way == 2:
            rows.insert(draw.randint(0, len(rows)), row)
    return rows


def stamped(rows, draw):
    """The rows with stamps that rise, some of which are wrong."""
    stamps = sorted(draw.sample(range(4 * len(rows) + 1), len(rows)))
    if stamps and draw.randrange(4) == 0:
        stamps[draw.randrange(len(stamps))] = draw.choice((*stamps, 2**64 - 1, 2**64, "01", ""))
    return [f"{stamp},{row}" for stamp, row in zip(stamps, rows)]


def nearly(rows, count, draw):
    """The rows in another order, in which fewer than this many later ones come before any."""
    return [row for _, row in sorted((place + count * draw.random(), row) for place, row in enumerate(rows))]


def stamped_text(rows):
    return "at," + text_of(rows)


class Beside(unittest.TestCase):
    def same(self, text, least, *words):
        found = by_program(text, "--window", str(least), *words)
        with tempfile.NamedTemporaryFile("w", suffix=".csv") as file:
            file.write(text)
            file.flush()
            self.assertEqual(found, by_module(file.name, "--events", str(least), *words), text)
        return found[0]

    def test_drawn_recordings_have_the_same_lines(self):
        draw, seen = random.Random(29), [0] * 4
        for _ in range(DRAWN):
            text = text_of(changed(history(draw)[1:], draw))
            seen[self.same(text, draw.choice((1, 2, 5)))] += 1
        self.assertTrue(min(seen) > DRAWN / 50, seen)

    def test_drawn_recordings_with_many_writers_have_the_same_lines(self):
        draw, seen, refused = random.Random(40), [0] * 4, 0
        for _ in range(DRAWN):
            text = text_of(changed(history_of_many(draw)[1:], draw))
            seen[self.same(text, draw.choice((1, 2, 5)), "--writers", "many")] += 1
            refused += ": writer\n" in by_program(text)[1]
        self.assertTrue(min(seen) > DRAWN / 50, seen)
        self.assertTrue(refused > DRAWN / 4, refused)

    def test_drawn_recordings_with_stamps_have_the_same_lines(self):
        draw, seen = random.Random(37), [0] * 4
        for _ in range(DRAWN):
            rows = stamped(changed(history(draw)[1:], draw), draw)
            draw.shuffle(rows)
            seen[self.same(stamped_text(rows), draw.choice((1, 2, 5)))] += 1
        self.assertTrue(min(seen) > DRAWN / 50, seen)

    def test_how_many_records_wait_changes_no_window(self):
        draw, late = random.Random(38), 0
        for _ in range(WRITTEN):
            rows = [f"{stamp},{row}" for stamp, row in enumerate(changed(history(draw)[1:], draw))]
            text = stamped_text(nearly(rows, 3, draw))
            found = by_program(text, "--window", "2")
            for count in ("3", "4", "1048576"):
                self.assertEqual(by_program(text, "--window", "2", "--late", count), found, text)
            plain = by_program(text_of(row.partition(",")[2] for row in rows), "--window", "2")
            self.assertEqual(found[0], plain[0], text)
            late += ": late\n" in by_program(text, "--window", "2", "--late", "0")[1]
        self.assertTrue(late > WRITTEN / 10, late)

    def test_ends_of_lines_and_quotes_change_no_line(self):
        draw, seen = random.Random(31), [0] * 4
        for _ in range(WRITTEN):
            rows = changed(history(draw)[1:], draw)
            status, lines = found = by_program(text_of(rows), "--window", "2")
            seen[status] += 1
            for text in ways_of(rows, draw):
                self.assertEqual(by_program(text, "--window", "2"), found, text)
                whole, line = by_check(text)
                self.assertEqual(whole, status, text)
                if status == 3:
                    self.assertIn(f" {line}\n", lines, text)
        self.assertTrue(min(seen) > 0, seen)

    def test_quotes_that_a_field_needs_stay(self):
        for row, word in (('begin,0,"view,",', "op"), ('begin,0,"vi""ew",', "op"), ('begin,0,"view"s,', "op"), ('begin,0,vi"ew,', "op"),
                          ('"begin,0,view,"', "fields"), ('"begin",0,view', "fields"), ('"', "fields"), ('""', "fields"), ('"","",,', "event")):
            for end in ("\n", "\r\n"):
                text = text_of(CALM).replace("\n", end) + row + end
                self.assertEqual(by_check(text), (3, f"refused record 6: {word}"), row)
                status, lines = by_program(text, "--window", "4")
                self.assertEqual((status, lines.splitlines()[1]), (3, f"window 2 refused record 6: {word}"), row)
        # text after a quoted part belongs to the field, and a field may be left open
        for row in ('"be"gin,2,"view",""', 'begin,"2","view","', "\ufeffbegin,2,view,", '\ufeffbegin,2,"view",'):
            status, lines = by_program(text_of(CALM + [row]), "--window", "4")
            self.assertEqual((status, lines.splitlines()[1]), (0, "window 2 events 1 atomic from 6 to 6"), row)

    def test_long_recordings_have_the_same_lines(self):
        for name in ("none overlaps, width 8", "atomic, width 8", "toggling views", "wrong values, the last view"):
            self.same(shapes_of(name, 4096)[1], 100)

    def test_the_longest_record_has_the_same_lines(self):
        begin = "begin,0,view,"
        for quote in ("", '"'):
            for size, word in ((RECORD, "data"), (RECORD + 1, "toolong")):
                row = begin + quote + "x" * (size - len(begin) - 2 * len(quote)) + quote
                for text in (text_of([row]), text_of([row]).rstrip("\n")):
                    status, lines = by_program(text)
                    self.assertEqual((status, lines.partition("\n")[0]), (3, f"window 1 refused record 2: {word}"))
                    self.same(text, 1)

    def test_few_views_are_told_of(self):
        text = text_of(CALM + LATER)
        self.assertEqual(by_program(text, "--window", "4", "--views", "3")[0], 0)
        self.assertEqual(by_program(text, "--window", "4", "--views", "4")[0], 3)

    def test_drawn_folders_have_the_same_lines(self):
        draw, seen = random.Random(30), [0] * 4
        with tempfile.TemporaryDirectory() as room:
            rounds = []
            for number in range(FOLDERS):
                folder = os.path.join(room, str(number))
                os.mkdir(folder)
                rows = changed(history(draw)[1:], draw)
                places = sorted(draw.randint(0, len(rows)) for _ in range(draw.randrange(4)))
                for name, (begin, end) in enumerate(zip([0, *places], [*places, len(rows)])):
                    with open(os.path.join(folder, f"{name}.csv"), "w") as file:
                        file.write(text_of(rows[begin:end]))
                least = str(draw.choice((1, 2, 5)))
                rounds.append((folder, least, program_over(folder, "--window", least)))
            for folder, least, ran in rounds:
                lines, _ = ran.communicate(timeout=PATIENCE)
                self.assertEqual((ran.returncode, lines), by_module(folder, "--events", least), folder)
                seen[ran.returncode] += 1
        self.assertTrue(min(seen) > FOLDERS / 50, seen)

    def test_drawn_folders_with_stamps_have_the_same_lines(self):
        draw, seen = random.Random(39), [0] * 4
        with tempfile.TemporaryDirectory() as room:
            rounds = []
            for number in range(FOLDERS):
                folder = os.path.join(room, str(number))
                os.mkdir(folder)
                rows = stamped(changed(history(draw)[1:], draw), draw)
                places = sorted(draw.randint(0, len(rows)) for _ in range(draw.randrange(4)))
                for name, (begin, end) in enumerate(zip([0, *places], [*places, len(rows)])):
                    part = rows[begin:end]
                    draw.shuffle(part)
                    with open(os.path.join(folder, f"{name}.csv"), "w") as file:
                        file.write(stamped_text(part))
                least = str(draw.choice((1, 2, 5)))
                rounds.append((folder, least, program_over(folder, "--window", least)))
            for folder, least, ran in rounds:
                lines, _ = ran.communicate(timeout=PATIENCE)
                self.assertEqual((ran.returncode, lines), by_module(folder, "--events", least), folder)
                seen[ran.returncode] += 1
        self.assertTrue(min(seen) > FOLDERS / 50, seen)

    def test_files_of_one_folder_have_one_header(self):
        for first, second in ((text_of, stamped_text), (stamped_text, text_of)):
            with tempfile.TemporaryDirectory() as room:
                for name, text in (("1.csv", first([])), ("2.csv", second([]))):
                    with open(os.path.join(room, name), "w") as file:
                        file.write(text)
                with program_over(room) as ran:
                    lines, _ = ran.communicate(timeout=PATIENCE)
                self.assertEqual((ran.returncode, lines.partition("\n")[0]), (3, f"window 1 refused record 1 of {room}/2.csv: header"))

    def test_files_come_while_a_folder_is_followed(self):
        with tempfile.TemporaryDirectory() as room:
            def put(name, rows):
                with open(os.path.join(room, name), "w") as file:
                    file.write(text_of(rows))

            with program_over(room, "--window", "4") as ran:
                time.sleep(0.3)
                put("1.csv", CALM[:3])
                time.sleep(0.3)
                # a call may be open at the end of a file
                put("2.csv", CALM[3:] + LATER[:2])
                self.assertEqual(ran.stdout.readline(), f"window 1 events 4 atomic from 2 of {room}/1.csv to 2 of {room}/2.csv\n")
                put("3.csv", LATER[2:])
                put("notes.txt", ["no record"])
                rest = ran.stdout.read()
                self.assertEqual(ran.wait(PATIENCE), 0)
        self.assertTrue(rest.startswith(f"window 2 events 4 atomic from 3 of {room}/2.csv to 3 of {room}/3.csv\n"
                                        f"window 3 events 2 atomic from 4 of {room}/3.csv to 5 of {room}/3.csv\nwindows 3 events 10 views 3\n"), rest)

    def test_a_folder_in_which_an_earlier_file_changes_has_failed(self):
        for name, told in (("1.csv", "came too late: a later name is read"), ("2.csv", "has changed after a later file began"), (None, "can't be opened")):
            with tempfile.TemporaryDirectory() as room:
                folder = os.path.join(room, "runs")
                os.mkdir(folder)
                for file, rows in (("2.csv", CALM), ("3.csv", LATER)):
                    with open(os.path.join(folder, file), "w") as to:
                        to.write(text_of(rows))
                with program_over(folder, "--window", "4", idle="20") as ran:
                    for line in (f"window 1 events 4 atomic from 2 of {folder}/2.csv to 5 of {folder}/2.csv\n",
                                 f"window 2 events 4 atomic from 2 of {folder}/3.csv to 5 of {folder}/3.csv\n"):
                        self.assertEqual(ran.stdout.readline(), line)
                    if name:
                        with open(os.path.join(folder, name), "a") as to:
                            to.write(text_of(LATER + LATER))
                    else:
                        shutil.rmtree(folder)
                    lines, said = ran.communicate(timeout=PATIENCE)
                at = os.path.join(folder, name) if name else folder
                self.assertEqual((ran.returncode, lines.splitlines()[0], said), (4, "window 3 failed", f"snapjudge: {at}: {told}\n"))

    def test_a_file_that_becomes_shorter_has_failed(self):
        for is_folder in (False, True):
            with tempfile.TemporaryDirectory() as room:
                path = os.path.join(room, "run.csv")
                with open(path, "w") as file:
                    file.write(text_of(CALM + LATER))
                place = f" of {path}" if is_folder else ""
                with program_over(room if is_folder else path, "--window", "4", idle="20") as ran:
                    for line in (f"window 1 events 4 atomic from 2{place} to 5{place}\n", f"window 2 events 4 atomic from 6{place} to 9{place}\n"):
                        self.assertEqual(ran.stdout.readline(), line)
                    os.truncate(path, len(HEADER))
                    lines, said = ran.communicate(timeout=PATIENCE)
                self.assertEqual((ran.returncode, lines.splitlines()[:2], said), (4, ["window 3 failed", "windows 3 events 8 views 2"],
                                                                                f"snapjudge: {path}: has become shorter\n"))

    def test_a_folder_without_recordings_has_no_verdict(self):
        with tempfile.TemporaryDirectory() as room:
            with program_over(room) as ran:
                lines, said = ran.communicate(timeout=PATIENCE)
            self.assertEqual((ran.returncode, lines, said), (4, "", "snapjudge: there are no recordings\n"))

    def test_a_file_is_followed_while_it_grows(self):
        with tempfile.TemporaryDirectory() as room:
            path = os.path.join(room, "run.csv")
            with open(path, "w") as file:
                file.write(text_of(CALM))
            words = [PROGRAM, "check", "--follow", "--window", "4", "--idle", "1", path]
            with subprocess.Popen(words, stdout=subprocess.PIPE, text=True) as ran:
                self.assertEqual(ran.stdout.readline(), "window 1 events 4 atomic from 2 to 5\n")
                with open(path, "a") as file:
                    for row in LATER:
                        file.write(row + "\n")
                        file.flush()
                        time.sleep(0.05)
                rest = ran.stdout.read()
                self.assertEqual(ran.wait(PATIENCE), 0)
        self.assertTrue(rest.startswith("window 2 events 4 atomic from 6 to 9\nwindow 3 events 2 atomic from 10 to 11\nwindows 3 events 10 views 3\n"), rest)

    def test_a_header_may_come_late(self):
        with tempfile.TemporaryDirectory() as room:
            path = os.path.join(room, "run.csv")
            with open(path, "w") as file:
                file.write(HEADER[:7])
            with subprocess.Popen([PROGRAM, "check", "--follow", "--idle", "1", path], stdout=subprocess.PIPE, text=True) as ran:
                time.sleep(0.3)
                with open(path, "a") as file:
                    file.write(HEADER[7:] + "".join(row + "\n" for row in CALM))
                self.assertTrue(ran.stdout.readline().startswith("window 1 events 4 atomic from 2 to 5"))
                self.assertEqual(ran.wait(PATIENCE), 0)


if __name__ == "__main__":
    unittest.main()
