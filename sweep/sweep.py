#!/usr/bin/env python3
"""Refuses snapjudge memory, threads and devices in turn, and gives it awkward texts.

usage: sweep.py SHIM PROGRAM [CALLS]        where SHIM is built from refuse.c and CALLS from the crate snap_sweep

Each run must end with its whole answer, or say what failed and have written nothing. If a write failed, it may have written a front of
its text. CALLS makes each public call that takes memory and says of each how it ended. Texts that are cut or damaged are judged by the
library in one process, if ffi/build has it, and some of them by the program. The tests run side by side, one for each processor. The last
line is 'N passed, M failed', and ', K skipped' after it if CALLS or the library is missing. A line before it names what is missing.
"""
import concurrent.futures
import ctypes
import errno
import faulthandler
import glob
import itertools
import json
import mmap
import multiprocessing
import os
import signal
import subprocess
import sys
import tempfile

HERE = os.path.dirname(os.path.abspath(__file__))
LIBRARY = os.environ.get("SNAPJUDGE_LIBRARY") or os.path.join(HERE, "..", "ffi", "build", "libsnapjudge.so")
CALLS = os.path.join(HERE, "..", "crates", "snap_sweep", "stdout")
LIMIT = 60
ALL = 2**64 - 1
# the verdicts of a report, in the order of their lines
VERDICTS = ("regular", "monotone", "atomic")
# green and red, after which the terminal's own colour follows
COLORS = {b"yes": b"\x1b[32m", b"no": b"\x1b[31m"}
HEADER, STAMPED = b"event,process,op,data\n", b"at,event,process,op,data\n"
# what a program says that was refused memory, or whose device failed
OUT_OF_MEMORY, READ_FAILED, WRITE_FAILED = (b"snapjudge: %s\n" % why for why in (b"out of memory", b"read failed", b"write failed"))
ROUNDS = 4


def ended(command, text=b"", **more):
    """A run that has ended, within LIMIT seconds. The timeout that `subprocess` has looks for the end once a millisecond only,
    so that most of the time would go by in waiting."""
    signal.alarm(LIMIT)
    try:
        return subprocess.run(command, input=text, capture_output=True, **more)
    finally:
        signal.alarm(0)


def give_up(*_):
    """The handler of that alarm."""
    raise TimeoutError(f"a run has not ended within {LIMIT} seconds")


class Page(ctypes.Structure):
    """What is refused, and what was asked for: the struct of refuse.c."""

    WISHES = ("allocation", "all_after", "thread", "read", "write", "error", "longest")
    COUNTS = ("allocations", "threads", "reads", "writes")
    _fields_ = [(name, ctypes.c_uint64) for name in WISHES + COUNTS]


class Shim:
    """Runs a program under the shim."""

    def __init__(self, shim, folder):
        name = os.path.join(folder, f"page-{os.getpid()}")
        with open(name, "w+b") as file:
            file.truncate(ctypes.sizeof(Page))
            self.page = Page.from_buffer(mmap.mmap(file.fileno(), ctypes.sizeof(Page)))
        self.environment = dict(os.environ, LD_PRELOAD=shim, SWEEP=name)

    def run(self, command, text, **wishes):
        """Status, standard output and standard error of one run; `page` has the counts."""
        for name in Page.WISHES + Page.COUNTS:
            setattr(self.page, name, wishes.get(name, 0))
        run = ended(command, text, env=self.environment)
        return run.returncode, run.stdout, run.stderr


def is_out_of_memory(run):
    """Whether a run wrote nothing, and says that memory ran out."""
    return run == (4, b"", OUT_OF_MEMORY)


class Case:
    """A command, the text that it reads, what its whole answer is, and what it may answer if it was refused memory."""

    def __init__(self, name, words, text, is_whole, report=None, is_refused=is_out_of_memory):
        self.name, self.command, self.text = name, [PROGRAM] + words, text
        self.is_whole, self.report, self.is_refused = is_whole, report, is_refused


def status_of(report):
    """The status that belongs to a report."""
    if report.startswith(b"refused "):
        return 3
    if b"\nregular no\n" in report:
        return 2
    return 1 if b"\natomic no\n" in report else 0


def check(name, text, report, workers=2):
    """A check, with its report."""
    whole = status_of(report), report, b""
    return Case(f"check {name}, {workers} workers", ["check", "--workers", str(workers)], text, lambda run: run == whole, report)


def quiet(name, text, report):
    """A quiet check, with the lines of the verdicts."""
    said = report if status_of(report) == 3 else b"".join(report.splitlines(keepends=True)[1:4])
    whole = status_of(report), said, b""
    return Case(f"check --quiet {name}", ["check", "--quiet"], text, lambda run: run == whole, said)


def painted(report):
    """A report with its verdicts in colours, alone or after names. A colour ends before the line does."""
    lines = []
    for line in report.splitlines():
        verdict, _, answer = line.split(b": ")[-1].partition(b" ")
        is_verdict = verdict in map(str.encode, VERDICTS) and answer in COLORS
        lines.append((COLORS[answer] + line + b"\x1b[0m" if is_verdict else line) + b"\n")
    return b"".join(lines)


def colored(name, text, report):
    """A check with colours."""
    whole = status_of(report), painted(report), b""
    return Case(f"check --color always {name}", ["check", "--color", "always"], text, lambda run: run == whole, painted(report))


def shrink(name, text, report):
    """A history no call of which can be left out, cut down."""
    left = report if status_of(report) == 3 else text
    whole = status_of(report), left, b""
    return Case(f"shrink {name}", ["shrink"], text, lambda run: run == whole, left)


def explain(name, text, report):
    """An explanation, as the program gives it if nothing fails."""
    run = subprocess.run([PROGRAM, "explain"], input=text, capture_output=True, timeout=LIMIT)
    whole = status_of(report), run.stdout, b""
    return Case(f"explain {name}", ["explain"], text, lambda run: run == whole, run.stdout)


def draw(name, text, report):
    """A picture on a page, as the program draws it if nothing fails."""
    run = subprocess.run([PROGRAM, "draw"], input=text, capture_output=True, timeout=LIMIT)
    whole = status_of(report), run.stdout, b""
    return Case(f"draw {name}", ["draw"], text, lambda run: run == whole, run.stdout)


def picture(words, name, text, report):
    """A picture by lines or as SVG, or an explanation with an option, as the program gives it if nothing fails."""
    run = subprocess.run([PROGRAM, *words], input=text, capture_output=True, timeout=LIMIT)
    whole = status_of(report), run.stdout, b""
    return Case(" ".join([*words, name]), words, text, lambda run: run == whole, run.stdout)


# what the sums count, by the status of a file
KINDS = b"atomic", b"only-regular", b"not-regular", b"refused", b"failed"


def sums_of(files):
    """The sums of some files, each with its report and its status."""
    lines = [b"files %d\n" % len(files)]
    for kind, status in zip(KINDS, range(5)):
        names = [name for name, _, found in files if found == status]
        lines.append(kind + b" %d" % len(names) + b"".join(b" first " + name for name in names[:1]) + b"\n")
    return b"".join(lines)


def reports_of(files):
    """The reports of some files, each line after its file's name. Of a file that failed there is none."""
    return b"".join(name + b": " + line for name, report, status in files if status < 4 for line in report.splitlines(keepends=True))


def answers(files, told):
    """What a run over files may answer, if each of them may fail for want of memory; first the whole answer. `told` makes
    standard output of names, reports and statuses."""
    for lost in itertools.product((False, True), repeat=len(files)):
        ended = [(name, report, 4 if is_lost else status_of(report)) for (name, report), is_lost in zip(files, lost)]
        said = b"".join(b"snapjudge: " + name + b": out of memory\n" for name, _, status in ended if status == 4)
        yield max(status for *_, status in ended), told(ended), said


def several(words, files, told, sources=()):
    """A run over files, of which each may be refused memory by itself. So may what names them."""
    whole, *others = answers(files, told)
    unlisted = [(4, b"", b"snapjudge: " + os.fsencode(source) + b": out of memory\n") for source in sources]
    name = " ".join(os.path.relpath(word, HERE) if os.path.isabs(word) else word for word in words)
    return Case(name, words, b"", lambda run: run == whole, whole[1], lambda run: is_out_of_memory(run) or run in others + unlisted)


def object_of(name, text, report):
    """The object of a history of a file's name, as the program writes it if nothing fails. It has the status of its report.
    A run that is refused memory writes an object that says so, or none."""
    run = subprocess.run([PROGRAM, "check", "--format", "json"], input=text, capture_output=True, timeout=LIMIT)
    found = json.loads(run.stdout)
    whole = status_of(report), run.stdout, b""
    lost = b'{"name":"-","status":4,"trouble":"out of memory"}\n'
    refused = [(4, out, b"snapjudge: -: out of memory\n") for out in (lost, b"")]
    return Case(f"check --format json {name}", ["check", "--format", "json"], text, lambda run: run == whole and found["status"] == whole[0], run.stdout, lambda run: is_out_of_memory(run) or run in refused)


def document_of(name, text, report):
    """The document of a history, as the program writes it if nothing fails. It has the status of its report. The case of a run that
    is refused memory says so, or is missing."""
    run = subprocess.run([PROGRAM, "check", "--format", "junit"], input=text, capture_output=True, timeout=LIMIT)
    whole = status_of(report), run.stdout, b""
    front = b'<?xml version="1.0" encoding="UTF-8"?>\n<testsuite name="snapjudge" tests="1" failures="0" errors="1">\n'
    lost = b'<testcase classname="snapjudge" time="0" name="-">\n<error message="out of memory">out of memory</error>\n</testcase>\n'
    refused = [(4, front + case + b"</testsuite>\n", b"snapjudge: -: out of memory\n") for case in (lost, b"")]
    return Case(f"check --format junit {name}", ["check", "--format", "junit"], text, lambda run: run == whole, run.stdout, lambda run: is_out_of_memory(run) or run in refused)


def files_of(folder, given):
    """Runs over several files, by their names, by a list and below a folder."""
    files = []
    for name, text, report in given:
        path = os.path.join(folder, f"{name}.csv")
        with open(path, "wb") as file:
            file.write(text)
        files.append((os.fsencode(path), report))
    names = [os.fsdecode(name) for name, _ in files]
    listed = os.path.join(folder, "names")
    with open(listed, "w", encoding="utf-8") as file:
        file.write("".join(f"{name}\n" for name in names))
    yield several(["check", *names], files, reports_of)
    yield several(["check", "--summary", *names], files, sums_of)
    yield several(["check", "--files-from", listed], files, reports_of, [listed])
    yield several(["check", "-r", folder], files, reports_of, [folder])
    yield several(["check", "--color", "always", *names], files, lambda ended: painted(reports_of(ended)))


def is_history(text, is_stamped, has_scans):
    """Whether these are the calls of two workers in this many rounds, each once and ended. A scan may have no record."""
    header = STAMPED if is_stamped else HEADER
    if not text.startswith(header) or not text.endswith(b"\n"):
        return False
    records = [record.split(b",") for record in text[len(header):].splitlines()]
    if is_stamped:
        records = [fields for _, *fields in sorted(records, key=lambda fields: int(fields[0]))]
    for worker in range(2):
        found = [(event, op, data) for event, process, op, data in records if int(process) == worker]
        for number in range(1, ROUNDS + 1):
            value = worker * 65536 + number
            if found[:2] != [(b"begin", b"update", b"%d:%d:%d" % (worker, number, value)), (b"end", b"update", b"")]:
                return False
            del found[:2]
            if [fields[:2] for fields in found[:2]] == [(b"begin", b"view"), (b"end", b"view")]:
                del found[:2]
            elif not has_scans:
                return False
        if found:
            return False
    return True


def record(*options):
    """A recording, whose whole answer is a history of all its calls that is regular, and of scans atomic; or its report."""
    is_stamped, has_scans = "--stamped" in options, "--scan" in options
    statuses = (0,) if has_scans else (0, 1)

    def is_report(status, report):
        counts = b"events %d calls %d pending 0 views %d\n" % (8 * ROUNDS, 4 * ROUNDS, 2 * ROUNDS)
        return status in statuses and status == status_of(report) and (has_scans or report.startswith(counts))

    def is_whole(run):
        status, out, error = run
        if error:
            return False
        if "--judge" in options:
            return is_report(status, out)
        judged = ended([PROGRAM, "check"], out)
        return status == 0 and is_history(out, is_stamped, has_scans) and is_report(judged.returncode, judged.stdout)

    words = ["record", "--rounds", str(ROUNDS), *options]
    return Case(" ".join(words), words, b"", is_whole)


def usage(*words):
    """Words that are not taken: what is said of them with ample memory is said whole."""
    said = ended([PROGRAM, *words]).stderr
    return Case(" ".join(("no job:",) + words), list(words), b"", lambda run: bool(said) and run == (5, b"", said))


class Tests:
    """Tests, of which each process runs some, under a shim of its own; they count what was refused."""

    COUNTS = ("allocations", "threads", "devices", "texts")

    def __init__(self):
        self.shim, self.tests = None, []

    def add(self, name, faults):
        """One test, which passes if there is no fault. It runs while its faults are asked for."""
        self.tests.append((name, faults))

    def start(self, shim, folder):
        """A process that runs tests begins."""
        self.shim = Shim(shim, folder)

    def run_one(self, number):
        """Runs one test. Its lines name its first faults, and the numbers are what it counted."""
        for count in self.COUNTS:
            setattr(self, count, 0)
        try:
            faults = list(self.tests[number][1])
        except TimeoutError as late:
            faults = [late]
        return [f"sweep: {self.tests[number][0]}: {fault}" for fault in faults[:3]], [getattr(self, count) for count in self.COUNTS]

    def unrefused(self, case):
        """A run that nothing is refused."""
        run = self.shim.run(case.command, case.text)
        if not case.is_whole(run):
            yield f"{run}"

    def reads_in_pieces(self, short, longer, long):
        """How many threads two workers start. A short text has one worker. Of a longer text a second thread reads pieces, and then
        another judges some."""
        started = []
        for case in (short, longer, long):
            yield from self.unrefused(case)
            started.append(self.shim.page.threads)
        if started != [0, 2, 2]:
            yield f"threads of a short, of a longer and of a long text: {started}"

    def refused_memory(self, case, all_after=0, thread=0):
        """Each allocation refused in turn, until a run meets no refusal."""
        for number in range(1, 10**6):
            run = self.shim.run(case.command, case.text, allocation=number, all_after=all_after, thread=thread)
            is_met = self.shim.page.allocations >= number
            self.allocations += is_met
            if not case.is_whole(run) and not (is_met and case.is_refused(run)):
                yield f"allocation {number}: {run}"
            if not is_met:
                return

    def refused_calls(self, program, all_after=0, thread=0):
        """Each allocation of the public calls refused in turn: each is whole, or says that it was refused memory."""
        with open(CALLS, "rb") as wanted:
            whole = wanted.read().splitlines()
        refused = [line.replace(b": whole", b": out of memory") for line in whole]
        for number in range(1, 10**6):
            status, out, said = self.shim.run([program], b"", allocation=number, all_after=all_after, thread=thread)
            is_met = self.shim.page.allocations >= number
            self.allocations += is_met
            lines = out.splitlines()
            is_each_right = len(lines) == len(whole) and all(line in both for line, both in zip(lines, zip(whole, refused)))
            many = sum(map(refused.__contains__, lines))
            if (status, said) != (0, b"") or not is_each_right or many > (len(whole) if all_after else is_met):
                yield f"allocation {number}: {status}, {out}, {said}"
            if not is_met:
                return

    def refused_threads(self, case):
        """All starts of threads refused, and each in turn."""
        for number in (ALL, *range(1, 10**6)):
            run = self.shim.run(case.command, case.text, thread=number)
            started = self.shim.page.threads
            self.threads += started if number == ALL else started >= number
            if not case.is_whole(run):
                yield f"thread {number}: {run}"
            if number != ALL and started < number:
                return

    def failed_reads(self, case, longest, error):
        """Each read failed in turn: it is said, and nothing was written."""
        for number in range(1, 10**6):
            run = self.shim.run(case.command, case.text, read=number, error=error, longest=longest)
            if self.shim.page.reads < number:
                if not case.is_whole(run):
                    yield f"no read failed: {run}"
                return
            self.devices += 1
            if run != (4, b"", READ_FAILED):
                yield f"read {number}: {run}"

    def failed_writes(self, case, longest, error):
        """Each write failed in turn, or, if the error is 0, made to take no byte: it is said, and what went out before it is a front."""
        for number in range(1, 10**6):
            status, out, said = run = self.shim.run(case.command, case.text, write=number, error=error, longest=longest)
            if self.shim.page.writes < number:
                if not case.is_whole(run):
                    yield f"no write failed: {run}"
                return
            self.devices += 1
            is_front = len(out) == (number - 1) * longest and (case.report is None or case.report.startswith(out))
            if (status, said) != (4, WRITE_FAILED) or not is_front:
                yield f"write {number}: {run}"

    def short_transfers(self, case):
        """Reads and writes of at most this many bytes."""
        for longest in range(1, 17):
            run = self.shim.run(case.command, case.text, longest=longest)
            if not case.is_whole(run):
                yield f"{longest} bytes at a time: {run}"

    def real_devices(self, text):
        """Devices of the system that fail, and one that never ends."""
        whole = subprocess.PIPE
        with open("/dev/zero", "rb") as endless, open("/dev/null", "rb") as empty, open("/dev/full", "wb") as full:
            folder, (pipe, closed) = os.open("/", os.O_RDONLY), os.pipe()
            os.close(pipe)
            for name, source, target, wanted in (
                ("a reader that never ends", endless, whole, (3, b"refused record 0: toolong\n", b"")),
                ("an empty text", empty, whole, (3, b"refused record 1: header\n", b"")),
                ("a folder", folder, whole, (4, b"", READ_FAILED)),
                ("a full device", empty, full, (4, None, WRITE_FAILED)),
                ("a pipe that nobody reads", empty, closed, (4, None, b"")),
            ):
                run = subprocess.run([PROGRAM, "check"], stdin=source, stdout=target, stderr=whole, timeout=LIMIT)
                if (run.returncode, run.stdout, run.stderr) != wanted:
                    yield f"{name}: {run}"
            os.close(folder)
            os.close(closed)

    def awkward(self, texts, judge, every):
        """Some of the texts judged: each gets a report or a refusal line, with the status that belongs to it."""
        for number, text in enumerate(texts):
            if number % every:
                continue
            self.texts += 1
            status, report = judge(text)
            if status not in range(4) or status != status_of(report) or not report.endswith(b"\n"):
                yield f"{text}: {status}, {report}"


def judge_by_program(text):
    run = ended([PROGRAM, "check"], text)
    return run.returncode, run.stdout


def judge_by_library():
    """A function that judges in this process, or None if the library is not built."""
    if not os.path.exists(LIBRARY):
        return None
    library = ctypes.CDLL(LIBRARY)
    library.snapjudge_check.argtypes = (ctypes.c_char_p, ctypes.c_size_t, ctypes.c_char_p, ctypes.c_size_t, ctypes.c_void_p)
    room, length = ctypes.create_string_buffer(1 << 16), ctypes.c_size_t()

    def judge(text):
        status = library.snapjudge_check(text, len(text), room, len(room), ctypes.byref(length))
        return status, room.raw[: length.value]

    return judge


def accepted(counts, order):
    """The report of an atomic history, with its counts and its order."""
    verdicts = b"".join(b"%s yes\n" % verdict.encode() for verdict in VERDICTS)
    numbered = b"".join(b"%d %s\n" % line for line in order)
    return b"events %d calls %d pending %d views %d\n" % counts + verdicts + b"order %d\n" % len(order) + numbered


def examples():
    """Name, text and report of each example."""
    for name in sorted(glob.glob(os.path.join(HERE, "..", "examples", "*.csv"))):
        with open(name, "rb") as text, open(name[:-4] + ".report", "rb") as report:
            yield os.path.basename(name)[:-4], text.read(), report.read()


def small_texts():
    """Name, text and report of small histories of both versions, and of texts that are none."""
    quoted = b'"event","process","op","data"\r\n"begin","0","view",""\r\n'
    yield "nothing", HEADER, accepted((0, 0, 0, 0), [])
    yield "quoted", quoted, accepted((1, 1, 1, 0), [])
    yield "busy", HEADER + b"begin,0,view,\nbegin,0,view,\n", b"refused record 3: busy\n"
    update = accepted((2, 1, 0, 0), [(1, b"p0 update 0:1:7")])
    yield "stamps in any order", STAMPED + b"7,end,0,update,\n3,begin,0,update,0:1:7\n", update
    yield "a stamp twice", STAMPED + b"5,begin,0,view,\n5,end,0,view,\n", b"refused record 3: repeated\n"


def cut_records():
    """Texts that end within a record."""
    yield "event,process,op,dat alone", b"event,process,op,dat", b"refused record 1: header\n"
    yield "two commas", HEADER + b"begin,0,upd", b"refused record 2: fields\n"
    yield "no value", HEADER + b"begin,0,update,0:1:", b"refused record 2: data\n"
    yield "no newline", HEADER + b"begin,0,update,0:1:7", accepted((1, 1, 1, 0), [])
    yield "a byte that is no text", HEADER + b"begin,0,view,\xff", b"refused record 2: data\n"


def long_texts():
    """Histories with as many events, and as many components, as there may be."""
    turns, order = [], []
    for i in range(1, 4097):
        turns.append(b"begin,0,update,0:%d:0\nend,0,update,\nbegin,0,view,\nend,0,view,0:%d:0\n" % (i, i))
        order += [(2 * i - 1, b"p0 update 0:%d:0" % i), (2 * i, b"p0 view 0:%d:0" % i)]
    yield "4096 updates, each seen", HEADER + b"".join(turns), accepted((16384, 8192, 0, 4096), order)
    shown = b" ".join(b"%d:1:%d" % (k, k) for k in range(256))
    turns = [b"begin,%d,update,%d:1:%d\nend,%d,update,\n" % (k, k, k, k) for k in range(256)]
    order = [(k + 1, b"p%d update %d:1:%d" % (k, k, k)) for k in range(256)] + [(257, b"p256 view " + shown)]
    text = HEADER + b"".join(turns) + b"begin,256,view,\nend,256,view,%s\n" % shown
    yield "256 components in one view", text, accepted((514, 257, 0, 1), order)


def updates_alone(count):
    """This many updates, with few allocations. Two workers read and judge the text of 6,000, which has 3 pieces. That of 5,000 has one
    worker."""
    turns = [b"begin,0,update,0:%d:0\nend,0,update,\n" % i for i in range(1, count + 1)]
    order = [(i, b"p0 update 0:%d:0" % i) for i in range(1, count + 1)]
    return f"{count} updates", HEADER + b"".join(turns), accepted((2 * count, count, 0, 0), order)


def lengthened(name, text, report):
    """The same history in a text that workers share, by empty lines."""
    return f"long {name}", text + b"\n" * 400_000, report


def awkward_texts(texts):
    """Each text cut after each byte, and with each byte replaced by some others."""
    for _, text, _ in texts:
        yield from (text[:length] for length in range(len(text)))
        for place in range(len(text)):
            yield from (text[:place] + other + text[place + 1:] for other in (b"\0", b"\n", b'"', b",", b" ", b"0", b"9", b"v", b"\xff"))


def recordings():
    """Each way to record that the program has."""
    said = ended([PROGRAM, "record", "--help"]).stderr
    yield record()
    yield record("--judge")
    if b"--scan" in said:
        yield record("--scan")
        yield record("--scan", "--judge")
    if b"--stamped" in said:
        yield record("--stamped")
    if b"--scan" in said and b"--stamped" in said:
        yield record("--scan", "--stamped")


def run_all():
    """The tests that were added, side by side: what they printed, how many had no fault, and all counts."""
    said, passed, counts = [], 0, [0] * len(Tests.COUNTS)
    processes, context = len(os.sched_getaffinity(0)), multiprocessing.get_context("fork")
    with tempfile.TemporaryDirectory() as folder:
        start = TESTS.start, (os.path.abspath(sys.argv[1]), folder)
        with concurrent.futures.ProcessPoolExecutor(processes, context, *start) as pool:
            for lines, counted in pool.map(run_one, range(len(TESTS.tests))):
                said, passed = said + lines, passed + (not lines)
                counts = [sum(pair) for pair in zip(counts, counted)]
    return said, passed, counts


def run_one(number):
    """The lines and the counts of one test."""
    return TESTS.run_one(number)


def main(folder):
    faulthandler.enable()
    signal.signal(signal.SIGALRM, give_up)
    given, small, recorded = list(examples()), list(small_texts()), list(recordings())
    checks = [check(*each) for each in given + small]
    shared = [check(*lengthened(*each), workers) for each in given + small for workers in (2, 8)]
    # of these calls are left out
    longer = ("value-nobody-wrote", "recorded-1", "recorded-2", "recorded-3")
    others = [quiet(*each) for each in given] + [shrink(*each) for each in given if each[0] not in longer]
    others += [explain(*each) for each in given if each[0] not in longer]
    # a page has some 13,000 bytes, and a device that fails at each of them is tried with shorter texts
    checks += others + [draw(*each) for each in given if each[0] not in longer]
    worked = [check(*each) for each in given + small] + others
    chosen = [each for each in given if each[0] in ("atomic-run", "new-old-inversion")]
    several_files = list(files_of(folder, chosen))
    drawn = ["draw", "--text"], ["draw", "--svg", "--dark"], ["explain", "--all"], ["explain", "--draw"], ["shrink", "--draw"], ["shrink", "--map"], ["explain", "--faults", "3"]
    pictures = [picture(words, *each) for words in drawn for each in chosen]
    colors = [colored(*each) for each in chosen]
    in_pieces = check(*updates_alone(21000), 2)
    checks += shared + [in_pieces] + [made(*each) for made in (object_of, document_of) for each in chosen] + several_files + pictures + colors
    worked += several_files[:2] + colors
    jobless = [usage(), usage("judge"), usage("check", "--pieces", "0"), usage("record", "--help"), usage("shrink", "--help"), usage("explain", "--help"), usage("draw", "--help")]
    for case in checks + recorded + jobless:
        TESTS.add(f"{case.name}: each allocation", TESTS.refused_memory(case))
    for case in worked + shared + [in_pieces] + recorded + jobless:
        TESTS.add(f"{case.name}: all from each allocation on", TESTS.refused_memory(case, all_after=1))
    for case in recorded + [in_pieces, check(*lengthened(*given[0]), 8)]:
        TESTS.add(f"{case.name}: each allocation without threads", TESTS.refused_memory(case, thread=ALL))
    for program in sys.argv[3:]:
        TESTS.add("calls: each allocation", TESTS.refused_calls(program))
        TESTS.add("calls: all from each allocation on", TESTS.refused_calls(program, all_after=1))
        TESTS.add("calls: each allocation without threads", TESTS.refused_calls(program, thread=ALL))
    for case in checks + recorded:
        TESTS.add(f"{case.name}: threads", TESTS.refused_threads(case))
    TESTS.add(f"{in_pieces.name}: read in pieces", TESTS.reads_in_pieces(*(check(*updates_alone(count)) for count in (5000, 6000)), in_pieces))
    for case in worked:
        for error in (errno.EIO, errno.EINTR):
            TESTS.add(f"{case.name}: reads, {errno.errorcode[error]}", TESTS.failed_reads(case, 1, error))
    for case in worked + recorded:
        for error in (errno.EIO, errno.EINTR, 0):
            TESTS.add(f"{case.name}: writes, error {error}", TESTS.failed_writes(case, 1, error))
        TESTS.add(f"{case.name}: a few bytes at a time", TESTS.short_transfers(case))
    TESTS.add("devices of the system", TESTS.real_devices(given[0][1]))
    for each in list(cut_records()) + list(long_texts()):
        case = check(*each, 8)
        TESTS.add(case.name, TESTS.unrefused(case))
    skipped = [] if sys.argv[3:] else ["the calls, snap_sweep is not built"]
    judge = judge_by_library()
    if judge is None:
        skipped.append("awkward texts by the library, it is not built")
    else:
        TESTS.add("awkward texts, by the library", TESTS.awkward(awkward_texts(given + small), judge, 1))
    TESTS.add("awkward texts, by the program", TESTS.awkward(awkward_texts(given + small), judge_by_program, 97))
    said, passed, (allocations, threads, devices, texts) = run_all()
    print("".join(f"{line}\n" for line in said), end="")
    print(f"sweep: refused {allocations} allocations and {threads} threads, failed {devices} devices, cut or damaged {texts} texts")
    print("".join(f"skipped: {what}\n" for what in skipped), end="")
    print(f"{passed} passed, {len(TESTS.tests) - passed} failed" + (f", {len(skipped)} skipped" if skipped else ""))
    return passed < len(TESTS.tests)


if sys.argv[1:] in (["-h"], ["--help"]):
    sys.exit(print(__doc__.strip()))
PROGRAM = os.path.abspath(sys.argv[2])
TESTS = Tests()
with tempfile.TemporaryDirectory() as FOLDER:
    sys.exit(main(FOLDER))
