"""Small recordings whose verdicts are known, what the program says of them, and Dask workers on this machine to judge them."""
import contextlib
import os
import shutil
import subprocess
import sys
import tempfile
import time

from histories import texts_of

TOP = os.path.join(os.path.dirname(os.path.abspath(__file__)), "..")
EXAMPLES = os.path.join(TOP, "examples")
PROGRAM = os.environ.get("SNAPJUDGE", os.path.join(TOP, "built", "snapjudge"))
PYTHON = os.path.join(TOP, "ffi", "python")
# What a worker and a scheduler find; a machine that is this one answers soon, or is dead.
SETTINGS = {"PYTHONPATH": PYTHON, "DASK_DISTRIBUTED__COMM__TIMEOUTS__CONNECT": "5s"}
# The recordings that are not atomic: each kind by an example, at this distance, from this one on.
OTHERS = (("new-old-inversion", 100, 37), ("stale-view", 250, 101), ("skipped-number", 1000, 702))
# The exit status that belongs to the three verdicts.
STATUS = {b"regular yes, monotone yes, atomic yes": 0, b"regular yes, monotone yes, atomic no": 1, b"regular yes, monotone no, atomic no": 1,
          b"regular no, monotone yes, atomic no": 2, b"regular no, monotone no, atomic no": 2}
# How long a scheduler may take to start and to have its workers, in seconds.
START = 60


def write_recordings(room, count, missing=None):
    """Writes this many recordings into a folder, except for a missing one, and returns the names of all."""
    atomic = texts_of("atomic, width 2", 10)[0]
    names = [b"%06d.csv" % number for number in range(count)]
    for number, name in enumerate(names):
        path = os.path.join(os.fsencode(room), name)
        kind = next((kind for kind, step, rest in OTHERS if number % step == rest), None)
        if kind:
            shutil.copyfile(os.path.join(EXAMPLES, f"{kind}.csv"), path)
        elif number != missing:
            with open(path, "w", encoding="utf-8") as file:
                file.write(atomic)
    return names


def program_answers(room, names):
    """The exit status of each of several files, by the lines that the program writes of them."""
    ran = subprocess.run([PROGRAM, "check", "--quiet", *names], cwd=room, stdout=subprocess.PIPE, stderr=subprocess.DEVNULL, check=False)
    told = {}
    for line in ran.stdout.splitlines():
        name, _, words = line.partition(b": ")
        told.setdefault(name, []).append(words)
    codes = []
    for name in names:
        lines = told.get(name, [])
        is_refused = len(lines) == 1 and lines[0].startswith(b"refused record ")
        codes.append(4 if not lines else 3 if is_refused else STATUS[b", ".join(lines)])
    if ran.returncode != max(codes):
        sys.exit(f"{PROGRAM} has the status {ran.returncode}, and its lines {max(codes)}")
    return [(code, "") for code in codes]


def program_sums(room, names, workers):
    """The sums that the program writes of several files, which it has from a list, by this many threads."""
    command = [PROGRAM, "check", "--summary", "--no-progress", "--workers", str(workers), "-0", "--files-from", "-"]
    ran = subprocess.run(command, cwd=room, input=b"\0".join(names), stdout=subprocess.PIPE, stderr=subprocess.DEVNULL, check=False)
    return ran.stdout


@contextlib.contextmanager
def scheduler(workers):
    """The address of a Dask scheduler on this machine, and the processes of its workers, one thread each."""
    with tempfile.TemporaryDirectory() as room, contextlib.ExitStack() as started:
        file = os.path.join(room, "scheduler.json")

        def start(which, *words):
            command = [sys.executable, "-B", "-m", f"distributed.cli.dask_{which}", "--host", "127.0.0.1", "--scheduler-file", file]
            how = {"cwd": room, "env": {**os.environ, **SETTINGS}, "stdout": subprocess.DEVNULL, "stderr": subprocess.DEVNULL}
            process = subprocess.Popen([*command, "--no-dashboard", *words], **how)
            started.callback(process.wait)
            started.callback(process.kill)
            return process

        start("scheduler", "--port", "0")
        found = [start("worker", "--nthreads", "1", "--no-nanny") for _ in range(workers)]
        yield address_in(file, workers), found


def address_in(file, workers):
    """The address of a scheduler, once it has its workers."""
    import distributed

    ends = time.monotonic() + START
    while not os.path.exists(file) and time.monotonic() < ends:
        time.sleep(0.1)
    with distributed.Client(scheduler_file=file, timeout=START, set_as_default=False) as client:
        client.wait_for_workers(workers, timeout=START)
        return client.scheduler.address
