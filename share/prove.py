"""Proves a program or a static library and everything that it depends on, each crate once those below it are proved, and builds it.

usage: prove.py [--keep] [--built BEGUN] [--times FILE] [--beside OTHER] CRATE [FLAG ..]
                (FLAGs are those of `rattle build` for CRATE itself; with --beside another one is proved and built in the same run)

As many crates are proved side by side as there are processors, if memory allows. Those with the longest chain of others above them come
first. A check of a crate over many libraries loads them in each of its jobs, so a crate has one job. The lowest crates and the last one
have more while processors are idle. What is proved and unchanged is not proved again: beside each library lies a note with a sum over
everything that it is made of. The libraries have no proofs in them, as in the gate, so that the crates above load them fast. With --keep
they have, and each check keeps its work, as `rt check` and `rt lib` want both. With --built, libraries that are newer than the file BEGUN
are taken, as a gate leaves them.

It says on standard error how far it is, and about how long it will still take: by the seconds in share/proof-times.txt, and by what
the crates use here. --times writes such a file, which also says when each check began and ended, in seconds after the first, and its
jobs. The first crate that fails ends all others, with what its check said on standard output and status 1.
"""
import contextlib
import functools
import hashlib
import os
import re
import shutil
import signal
import subprocess
import sys
import time

import schedule

TOP = os.path.dirname(os.path.dirname(os.path.abspath(__file__)))
KIT = os.path.dirname(os.path.dirname(os.path.realpath(shutil.which("rt") or sys.exit("snapjudge: there is no rt on the path; README.md says what a machine needs"))))
sys.path.insert(0, f"{KIT}/bin")
import rtlib  # noqa: E402

# How many lines of a failed check are printed: first those that name what was wrong. Those that only count, or say what is
# proved, are left out.
TOLD = 20
WRONG = re.compile(r"\berror\b|not proved")
LEFT_OUT = re.compile(r"statements |crate |rattle build: |.*: proved\b")
# How long standard error is silent at most, in seconds, if it is not a terminal.
SILENCE = 60
# If all proofs take more seconds, a first line says so.
LONG = 120


def clock(seconds):
    """A span of time in words."""
    return f"{seconds:.0f} s" if seconds < 100 else f"{seconds / 60:.0f} minutes"


@functools.cache
def sum_of(crate):
    """A sum over everything that a crate is proved from: its files, those of the libraries below it, its line of crates.txt and the kit."""
    parts = [rtlib.text_of(f"{KIT}/WHAT"), crate.said, [sum_of(it) for it in crate.deps]]
    for file in rtlib.files_of(crate.folder):
        parts.append((os.path.relpath(file, crate.folder), rtlib.sum_of(file)))
    return hashlib.sha256(repr(parts).encode()).hexdigest()


def has_proofs(crate):
    """Whether a library has its proofs in it, as --keep leaves it."""
    return crate.makes_rlib() and os.path.exists(f"{crate.folder}/out/rlib/stamp")


class Built:
    """What is built of a crate, and the note beside it that says from what it was built."""

    def __init__(self, crate, flags=()):
        self.crate, self.flags = crate, list(flags)
        out = f"{crate.folder}/out"
        self.file = crate.rlib if crate.makes_rlib() else f"{out}/lib{crate.name}.a" if crate.is_static else f"{out}/{crate.name}"
        self.note = f"{out}/rlib/note" if crate.makes_rlib() else f"{self.file}.note"

    def text(self):
        """What the note says of what is built now. Statements fit only the very libraries that they were built over."""
        below = [os.stat(it.rlib).st_mtime_ns for it in self.crate.below()]
        return repr((sum_of(self.crate), self.flags, below))

    def is_fresh(self, keep, begun):
        """Whether it is built of what lies there now; with `begun` also if a library and all below it are newer than that."""
        if not all(os.path.exists(it) for it in [self.file, *(below.rlib for below in self.crate.below())]):
            return False
        if self.crate.makes_rlib() and begun is not None and all(os.stat(it.rlib).st_mtime_ns > begun for it in [self.crate, *self.crate.below()]):
            self.write_note()
            return True
        if has_proofs(self.crate):
            return self.crate.is_built()
        return not keep and rtlib.text_of(self.note) == self.text()

    def forget(self):
        """Removes it before it is built anew, so that nothing half done is left."""
        if self.crate.makes_rlib():
            shutil.rmtree(os.path.dirname(self.file), ignore_errors=True)
        else:
            for it in (self.note, self.file):
                with contextlib.suppress(FileNotFoundError):
                    os.remove(it)
        os.makedirs(os.path.dirname(self.file), exist_ok=True)

    def write_note(self):
        with open(self.note, "w", encoding="utf-8") as note:
            note.write(self.text())


def link(program):
    """Links a program that is proved and compiled, and returns why it failed, or None."""
    words = [f"{KIT}/bin/rattle-link", "--target", "x86_64-unknown-linux-gnu", "--toolchain", f"{KIT}/toolchain", "-o", program, f"{program}.o"]
    ran = subprocess.run([*words, f"{KIT}/c/libos_c.a", f"{KIT}/c/liblibc_c.a"], capture_output=True, text=True, errors="replace")
    return ran.stdout + ran.stderr if ran.returncode else None


def told(said):
    """The lines of a failed check that are printed, first those that name what was wrong."""
    lines = [line for line in said.splitlines() if line and not LEFT_OUT.match(line)]
    return sorted(lines, key=lambda line: not WRONG.search(line))[:TOLD]


def used_by(process):
    """The processor seconds that a process has used so far, with those of what it started and waited for."""
    times = rtlib.text_of(f"/proc/{process}/stat").rpartition(")")[2].split()[11:15]
    return sum(map(int, times)) / os.sysconf("SC_CLK_TCK")


class Check:
    """A run of the prover over one crate."""

    def __init__(self, crate, jobs, keep, flags, megabytes):
        self.crate, self.jobs, self.keep, self.megabytes = crate, jobs, keep, megabytes
        self.built = Built(crate, flags)
        self.built.forget()
        self.sum, self.begun = sum_of(crate), time.monotonic()
        to = f"{self.built.file}.o" if crate.is_program else self.built.file
        words = [rtlib.RATTLE, "build", *crate.words(["--jobs", str(jobs), *flags]), "-o", to]
        if keep:
            words += rtlib.KEPT
        elif crate.makes_rlib():
            words += ["--statements"]
        if not crate.makes_rlib():
            words += ["--toolchain", f"{KIT}/toolchain", "--backend", "llvm"]
        self.log = open(f"{crate.folder}/out/build.log", "w+", errors="replace")
        how = {"cwd": crate.folder, "stdin": subprocess.DEVNULL, "stdout": self.log, "stderr": subprocess.STDOUT}
        self.run = subprocess.Popen([*rtlib.guarded(), *words], **how)

    def so_far(self):
        return schedule.Running(self.crate, self.jobs, self.megabytes, time.monotonic() - self.begun, used_by(self.run.pid))

    def whole(self):
        return schedule.Running(self.crate, self.jobs, self.megabytes, self.ended - self.begun, self.seconds)

    def end(self, status, used):
        """Takes in how the run ended, and returns why it failed, or None."""
        self.run.returncode = os.waitstatus_to_exitcode(status)
        self.ended = time.monotonic()
        self.seconds = used.ru_utime + used.ru_stime
        self.most = used.ru_maxrss // 1024
        with self.log:
            self.log.seek(0)
            said = self.log.read()
        if self.run.returncode:
            return "\n".join([f"{self.crate.name} was not proved", *told(said)])
        sum_of.cache_clear()
        if self.sum != sum_of(self.crate):
            return f"{self.crate.name} was changed while it was proved"
        why = link(self.built.file) if self.crate.is_program else None
        if not why and self.keep and self.crate.makes_rlib():
            with open(f"{self.crate.folder}/out/rlib/stamp", "w", encoding="utf-8") as stamp:
                stamp.write(self.crate.stamp())
        if not why:
            self.built.write_note()
        return why


class Progress:
    """What standard error says of how far the proofs are."""

    def __init__(self, crates):
        self.crates, self.done = crates, 0
        self.begun, self.said, self.is_terminal = time.monotonic(), 0, sys.stderr.isatty()

    def announce(self, seconds, lanes, is_program):
        """Says before a long proof what comes."""
        if seconds > LONG:
            processors = "processor" if lanes == 1 else "processors"
            crates = "crate" if self.crates == 1 else "crates"
            front = f"snapjudge: this proves {self.crates} {crates} first, about {clock(seconds)} on {lanes} {processors}"
            more = "; ./try runs it unproved in one or two" if is_program else ""
            print(f"{front}{more}", file=sys.stderr, flush=True)

    def is_due(self, is_news):
        return self.is_terminal or is_news or time.monotonic() - self.said >= SILENCE

    def say(self, running, seconds):
        """Says what is proved now, and in about how many seconds all will be."""
        self.said = time.monotonic()
        under_way = ", ".join(f"{it.crate.name} {clock(it.taken)}" for it in running)
        text = f"snapjudge: {self.done} of {self.crates} proved; now {under_way}; about {clock(seconds)} to go"
        if self.is_terminal:
            width = shutil.get_terminal_size().columns - 1
            print(f"\r\033[K{text[:width]}", end="", file=sys.stderr, flush=True)
        else:
            print(text, file=sys.stderr, flush=True)

    def close(self):
        if self.is_terminal:
            print("\r\033[K", end="", file=sys.stderr, flush=True)
        print(f"snapjudge: {self.done} of {self.crates} proved in {clock(time.monotonic() - self.begun)}", file=sys.stderr, flush=True)


def prove(crates, keep, flags, times):
    """Proves the crates, each with its flags, and returns what was measured, or why one was not proved."""
    lanes = rtlib.cores()
    room = 0.85 * rtlib.number_in("/proc/meminfo", r"MemAvailable:\s+(\d+)") / 1024
    waiting, checks, measured = schedule.order(crates, times), [], {}
    loads_proofs = keep or any(has_proofs(below) for it in crates for below in it.below())
    pace = schedule.Pace(times, lanes, os.getloadavg()[0], loads_proofs)
    progress = Progress(len(crates))
    progress.announce(schedule.left(waiting, [], lanes, room, pace), lanes, any(it.name == "snapjudge" for it in crates))
    try:
        while waiting or checks:
            is_news = False
            while start := schedule.next_start(waiting, checks, lanes, room, times):
                crate, jobs, megabytes = start
                waiting.remove(crate)
                checks.append(Check(crate, jobs, keep, flags.get(crate, []), megabytes))
                is_news = True
            if progress.is_due(is_news):
                running = [it.so_far() for it in checks]
                progress.say(running, schedule.left(waiting, running, lanes, room, pace))
            check, why = next_end(checks)
            if check is None:
                continue
            checks.remove(check)
            if why:
                progress.close()
                return None, why
            progress.done += 1
            pace.ended(check.whole())
            when = (round(check.begun - progress.begun), round(check.ended - progress.begun), check.jobs)
            measured[check.crate.name] = (round(check.seconds), check.most, *when)
    except KeyboardInterrupt:
        progress.close()
        return None, "it was interrupted"
    progress.close()
    return measured, None


def next_end(running):
    """The next check that ends within a second, and why it failed; none if none does."""
    for _ in range(10):
        for it in running:
            process, status, used = os.wait4(it.run.pid, os.WNOHANG)
            if process:
                return it, it.end(status, used)
        time.sleep(0.1)
    return None, None


def main(words):
    keep, begun, file, tops = False, None, None, []
    while words and words[0].startswith("--"):
        word = words.pop(0)
        if word == "--keep":
            keep = True
        elif word == "--built":
            begun = os.stat(words.pop(0)).st_mtime_ns
        elif word == "--times":
            file = words.pop(0)
        elif word == "--beside":
            tops.append(words.pop(0))
        else:
            sys.exit(f"there is no option {word}")
    # its first call sets a signal's handler, and starts what ends all checks with this process
    rtlib.guarded()
    for it in (signal.SIGINT, signal.SIGTERM, signal.SIGHUP):
        signal.signal(it, signal.default_int_handler)
    name, *own = words
    known = {}
    tops = [rtlib.Crate(f"{TOP}/crates/{it}", TOP, known) for it in (*tops, name)]
    crates = list(dict.fromkeys(it for top in tops for it in (*top.below(), top)))
    flags = {tops[-1]: own}
    held = rtlib.lock(crates)
    for it in crates:
        rtlib.stop_on_links(it.folder)
    left = []
    for it in crates:
        is_fresh = Built(it, flags.get(it, [])).is_fresh(keep, begun)
        if not is_fresh or any(below in left for below in it.below()):
            left.append(it)
    measured, why = prove(left, keep, flags, schedule.noted_times()) if left else ({}, None)
    del held
    if why:
        print(why, flush=True)
        return 1
    if file:
        with open(file, "w", encoding="utf-8") as times:
            print("# each crate's proof: processor seconds, megabytes of memory, begin and end in seconds after the first, and jobs", file=times)
            for name, numbers in measured.items():
                print(name, *numbers, file=times)
    return 0


def run(words):
    """The status of a run. Before the first check a signal ends it without a word: what started it says why."""
    try:
        return main(words)
    except KeyboardInterrupt:
        return 1


if __name__ == "__main__":
    sys.exit(run(sys.argv[1:]))
