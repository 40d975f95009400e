#!/usr/bin/env python3
"""Tries the wrong bodies of crates, those of many functions in one check.

usage: wrong_bodies.py ci [--anew]    the toolchain's gate, `rt ci`, with the wrong bodies tried so; it ends soon after a crate, or its
                                      tests, were not proved
       wrong_bodies.py CRATE ..       those of some crates, over the libraries below them, as `rt must-fail` does
       wrong_bodies.py compile CRATE ..    whether those of some crates compile, over the libraries below them; that proves nothing, and
                                      takes seconds for many. The gate is red for one that does not

The toolchain proves a crate once more for its wrong bodies, and then checks it once for each. Most of a check goes into loading what
the crate depends on. So here a check has many wrong bodies, and proves only their functions and what these call. A second wrong body
of a function comes after it, as a function with another name and with the same contract and proof. So does the right one, which must
be proved: otherwise nothing is known of the second. A wrong body is refused if the check names a goal of its function that is not
proved. One function more is as it was, and must be proved: otherwise the check shows nothing. What is not refused so, or is in no
function, is tried as the toolchain tries it, and that decides. A toolchain with other calls than this file knows tries all in its own
way.
"""
import collections
import copy
import functools
import hashlib
import importlib.machinery
import importlib.util
import inspect
import itertools
import os
import re
import shutil
import sys
import tempfile
import time
from dataclasses import dataclass, replace

TOP = os.path.dirname(os.path.dirname(os.path.abspath(__file__)))
RT = os.path.realpath(shutil.which("rt") or sys.exit("there is no rt on the path"))
# A check of more wrong bodies would need more memory than the proof of the crate.
MOST = 24
# More lines than all crates have together.
LINES = 10_000_000
# The first line of a function, as `rt fmt` lays it out. The last is a brace as far to the right, if the first does not end it.
BEGIN = re.compile(r'( *)(?:pub(?:\(\w+\))? )?(?:const )?(?:unsafe )?(?:extern "C" )?fn (\w+)')
# The first line of a block of methods: the trait and what it is of, if there is one, and the type. And that of a type.
BLOCK = re.compile(r"impl(?:<.*?>)? (?:(?:\w+::)*(\w+)(?:<(\w+)>)? for )?(\w+)")
TYPE = re.compile(r"(?:pub(?:\(\w+\))? )?(?:struct|enum) (\w+)")
# What a check says of a place, and what it says of a goal that is not proved.
PLACE = re.compile(r"(?:note: )?(?:\./)?((?:src|proofs)/\S+?):(\d+):\d+: (.*)")
UNPROVED = re.compile(r"error: `|it is not proved that ")
# What a check says if it cannot compile.
BROKEN = re.compile(r"(?:^|: )error\[")
# A proof that only misses a name which a wrong body took away says nothing of a contract.
MISSES = re.compile(r"has no field|is not in scope|has no `|was not admitted")


def toolchain():
    """The toolchain's command `rt`, as a module."""
    loader = importlib.machinery.SourceFileLoader("rt_command", RT)
    module = importlib.util.module_from_spec(importlib.util.spec_from_loader("rt_command", loader))
    loader.exec_module(module)
    return module


rt = toolchain()
# The calls of the toolchain that this file takes or replaces, each with its parameters: those that each has, those of one that keeps
# on the machine what it has tried, and that of one that keeps nothing.
CALLS = {
    "checked": "crate texts flags kept",
    "must_fail": "crate edit flags kept",
    "read_edit": "edit folder",
    "unread": "line changed",
    "need": "crate",
    "in_lanes": "tasks",
}
KEEPING = {
    "add_edits": "tasks crate edits first waits is_well kept start in_ci",
    "seeded": "crate flags start",
    "stamp_of": "crate seen",
}
FORGETTING = {"must_fail_all": "crate edits flags"}
# What the toolchain's own way of trying a wrong body answers first if it is refused.
REFUSED = getattr(rt, "REFUSED", True)
# How a toolchain that keeps nothing tries the wrong bodies of a crate.
must_fail_all = getattr(rt, "must_fail_all", None)
# What is kept of a wrong body counts only for those who try it as this file does.
with open(__file__, "rb") as own:
    OWN = hashlib.sha256(own.read()).hexdigest()


def has_calls(calls):
    """Whether the toolchain has these calls."""
    return all(callable(getattr(rt, name, None)) and [*inspect.signature(getattr(rt, name)).parameters] == has.split() for name, has in calls.items())


KEEPS = has_calls(CALLS | KEEPING)
FORGETS = not KEEPS and has_calls(CALLS | FORGETTING)


def is_known():
    """Whether the toolchain tries wrong bodies by the calls that this file knows. Otherwise it tries them in its own way."""
    return KEEPS or FORGETS


@dataclass(frozen=True)
class Function:
    """A function of a crate: its file, its path as a check prints it, its first and last line, counted from 0, and whether it is a
    method of a trait."""

    file: str
    path: str
    first: int
    last: int
    is_of_trait: bool = False

    @property
    def name(self):
        return self.path.rsplit("::", 1)[-1]

    @property
    def proofs(self):
        """The folders with the answers to its goals, and to those of its closures."""
        *above, name = self.path.split("::")
        return ["/".join(["proofs", *above, *inner, name, ""]) for inner in ([], ["fn"])]

    def has(self, first, last):
        return self.first <= first and last <= self.last


def module_of(file):
    return [it for it in file.removeprefix("src/").removesuffix(".rt").split("/") if it not in ("lib", "main")]


def functions_in(file, lines, modules):
    """The functions of a file, with their attributes. Methods of a type have its path, wherever they are."""
    path, is_of_trait, found, begin = module_of(file), False, [], 0
    for at, line in enumerate(lines):
        if opened := BLOCK.match(line):
            path = [*(module_of(file) if opened[1] else modules.get(opened[3], [])), f"{opened[3]}{opened[1] or ''}{opened[2] or ''}"]
            is_of_trait = bool(opened[1])
        elif line == "}":
            path, is_of_trait = module_of(file), False
        if begun := BEGIN.match(line):
            ends = (f"{begun[1]}}}", f"{begun[1]}{{}}")
            last = at if line.endswith("{}") else next((it for it in range(at, len(lines)) if lines[it] in ends), at)
            found.append(Function(file, "::".join([*path, begun[2]]), begin, last, is_of_trait))
        if not line.lstrip().startswith("#["):
            begin = at + 1
    return found


@dataclass(frozen=True)
class Wrong:
    """A wrong body: its edit, the texts of the files with it, the function that it makes wrong, and that function's lines with it. No
    lines, if it changes more than that function."""

    edit: str
    texts: dict
    function: Function
    lines: tuple | None

    def has_room(self):
        """Whether it can stand beside another wrong body of its function: no method of a trait can, nor what calls itself or keeps its
        name for callers in C."""
        if self.lines is None or self.function.is_of_trait:
            return False
        text = "\n".join(self.lines)
        return not re.search(rf"(?:^|[^\w. ]|::|\bself\.|[^n] )\s*\b{self.function.name}(?:::<[^>]*>)?\(|no_mangle", text)


def named_anew(function, lines, number):
    """A function with these lines under another name: the function and its lines."""
    name = f"{function.name}_{number}"
    text = re.sub(rf"\bfn {function.name}\b", f"fn {name}", "\n".join(lines), count=1)
    return replace(function, path=f"{function.path.removesuffix(function.name)}{name}"), text.split("\n")


@dataclass
class Tried:
    """Wrong bodies in one check: the texts of the files with them; those of the proofs of further functions; the function of each, by
    its edit; and the further functions that are right, each by the path of that which it is like."""

    texts: dict
    proofs: dict
    functions: dict
    right: dict


class Crate:
    """A crate whose wrong bodies are tried."""

    def __init__(self, crate):
        self.crate, self.lines = crate, {}
        for at, _, names in os.walk(f"{crate.folder}/src"):
            for name in names:
                self.lines[os.path.relpath(f"{at}/{name}", crate.folder)] = rt.rtlib.text_of(f"{at}/{name}").split("\n")
        self.modules = {it[1]: module_of(file) for file, lines in self.lines.items() for it in map(TYPE.match, lines) if it}
        self.functions = [it for file, lines in self.lines.items() for it in functions_in(file, lines, self.modules)]
        self.functions.sort(key=lambda it: it.last - it.first)
        self.named = {it.name: {other.path for other in self.functions if other.name == it.name} for it in self.functions}
        self.name = re.compile(rf"(?<!fn )\b({'|'.join(self.named)})(?=\(|::<|[,)])")

    @functools.cached_property
    def calls(self):
        """For each function the paths of those that it calls or hands on. Each one with such a name counts."""
        found = collections.defaultdict(set)
        for it in self.functions:
            for name in self.name.findall("\n".join(self.lines[it.file][it.first : it.last + 1])):
                found[it.path] |= self.named[name]
        return found

    @functools.cache
    def called_by(self, path):
        """The paths of the functions that one calls, and of those that these call in turn, without its own."""
        found, left = set(), [path]
        while left:
            new = self.calls[left.pop()] - found
            found |= new
            left += new
        return found - {path}

    def wrong_of(self, edit):
        """The wrong body of an edit; none if its function is not found."""
        texts, _ = rt.read_edit(edit, self.crate.folder)
        named = os.path.basename(edit).split(".")[1]
        for file, text in (texts or {}).items():
            old, new = self.lines.get(file, []), text.split("\n")
            short = min(len(old), len(new))
            front = next((at for at in range(short) if old[at] != new[at]), short)
            back = next((at for at in range(short - front) if old[-1 - at] != new[-1 - at]), short - front)
            # the functions are sorted by length, so an inner one comes before the one around it
            for it in self.functions:
                if len(texts) == 1 and it.file == file and it.has(front, len(old) - 1 - back):
                    return Wrong(edit, texts, it, tuple(new[it.first : it.last + 1 + len(new) - len(old)]))
            for it in functions_in(file, new, self.modules):
                if it.name == named:
                    return Wrong(edit, texts, it, None)
        return None

    def are_apart(self, one, other):
        """Whether two wrong bodies can stand in one check, the second of them in it already."""
        path, others = one.function.path, other.function.path
        if path == others:
            return one.has_room()
        return (one.has_room() or path not in self.called_by(others)) and (other.has_room() or others not in self.called_by(path))

    def together(self, wrongs):
        """Some wrong bodies in one check."""
        if wrongs[0].lines is None:
            return Tried(wrongs[0].texts, {}, {wrongs[0].edit: wrongs[0].function}, {})
        tried = Tried({}, {}, {}, {})
        called = set().union(*(self.called_by(it.function.path) for it in wrongs))
        for file in {it.function.file for it in wrongs}:
            lines, moved = [*self.lines[file]], 0
            here = sorted((it for it in wrongs if it.function.file == file), key=lambda it: it.function.first)
            for function, bodies in itertools.groupby(here, key=lambda it: it.function):
                first = function.first + moved
                new = self.put_bodies(tried, function, list(bodies), first, function.path in called)
                lines[first : function.last + moved + 1] = new
                moved = first + len(new) - (function.last + 1)
            tried.texts[file] = "\n".join(lines)
        return tried

    def put_bodies(self, tried, function, bodies, first, is_called):
        """Notes the wrong bodies of a function that begins at a line, and returns all lines: one in its place, which is the right one if
        another function calls it, and further functions."""
        right = self.lines[function.file][function.first : function.last + 1]
        further = [(it.edit, it.lines) for it in bodies]
        if is_called and all(it.has_room() for it in bodies):
            all_lines = [*right]
        else:
            edit, lines = further.pop(0)
            all_lines = [*lines]
            tried.functions[edit] = replace(function, first=first, last=first + len(all_lines) - 1)
        if further and self.proofs_of(function, function):
            further.append((None, right))
        for number, (edit, lines) in enumerate(further, 2):
            other, lines = named_anew(function, lines, number)
            other = replace(other, first=first + len(all_lines), last=first + len(all_lines) + len(lines) - 1)
            all_lines += lines
            tried.proofs |= self.proofs_of(function, other)
            if edit:
                tried.functions[edit] = other
            else:
                tried.right[function.path] = other
        return all_lines

    def proofs_of(self, function, other):
        """The texts of the proofs of one function, for another that is like it."""
        found = {}
        for one, to in zip(function.proofs, other.proofs):
            old, new = (it.replace("/", ".") for it in (one, to))
            for file in rt.rtlib.files_of(self.crate.folder):
                path = os.path.relpath(file, self.crate.folder)
                if path.startswith(one):
                    found[to + path.removeprefix(one)] = re.sub(rf"\b{re.escape(old)}", new, rt.rtlib.text_of(file))
        return found

    def checked(self, texts, flags, kept):
        """What a check says of the crate with these texts, of which some may be in new folders."""
        with tempfile.TemporaryDirectory(prefix="wrong-bodies-") as room:
            for part in rt.rtlib.PARTS:
                if os.path.isdir(f"{self.crate.folder}/{part}"):
                    shutil.copytree(f"{self.crate.folder}/{part}", f"{room}/{part}")
            for file in texts:
                os.makedirs(os.path.dirname(f"{room}/{file}"), exist_ok=True)
            crate = copy.copy(self.crate)
            crate.folder = room
            return rt.checked(crate, texts, flags, kept).stdout

    def control(self, wrongs):
        """The shortest function with a contract that is right here and calls none of the crate."""
        calls = re.compile(rf"\b({'|'.join(it.name for it in self.functions)})(?:::<[^>]*>)?\(")
        wrong = {it.function.path for it in wrongs}
        for it in self.functions:
            text = "\n".join(self.lines[it.file][it.first : it.last + 1])
            if it.path not in wrong and "ensures" in text and set(calls.findall(text)) <= {it.name}:
                return it
        return None

    def refused(self, wrongs, flags, kept):
        """Checks some wrong bodies together. For each that is refused it says why, by its edit."""
        control = self.control(wrongs)
        if not control:
            return {}
        tried = self.together(wrongs)
        asked = [word for it in [*tried.functions.values(), *tried.right.values(), control] for word in ("--only", it.path)]
        begun = time.monotonic()
        said = self.checked(tried.texts | tried.proofs, [*flags, *asked], kept)
        print(f"{self.crate.name}: a check of {len(wrongs)} wrong bodies took {time.monotonic() - begun:.0f} s", flush=True)
        lines = said.rstrip("\n").split("\n")
        states = dict(re.findall(r"^fn \w+?::(\S+): (proved|not proved|no proof)", said, re.M))
        is_read = lines[-1].startswith("only=") and not any(rt.unread(it, tried.texts) for it in lines)
        if not is_read or states.get(control.path) != "proved":
            return {}
        wanted = {}
        for it in wrongs:
            function, right = tried.functions[it.edit], tried.right.get(it.function.path)
            is_known = function.path == it.function.path or not right or states.get(right.path) == "proved"
            if is_known and states.get(function.path) in ("not proved", "no proof"):
                wanted[it.edit] = function
        found = {}
        for line in lines:
            at = PLACE.match(line)
            if not at or not UNPROVED.match(at[3]) or at[1].startswith("proofs/") and MISSES.search(at[3]):
                continue
            number = int(at[2]) - 1
            for edit, it in wanted.items():
                if it.file == at[1] and it.has(number, number) or at[1].startswith(tuple(it.proofs)):
                    found.setdefault(edit, line)
        return found


def checks_of(crate, wrongs):
    """Which wrong bodies of a crate are tried together: of a function that has no room for others one, without any of what calls it, and
    alone those that change more than a function."""
    left = [it for it in wrongs if it.lines is not None]
    while left:
        first = []
        for it in left:
            if len(first) < MOST and all(crate.are_apart(it, other) for other in first):
                first.append(it)
        yield first
        left = [it for it in left if it not in first]
    for it in wrongs:
        if it.lines is None:
            yield [it]


def try_alone(crate, edits, flags, kept):
    """Tries each wrong body in a check of its own, as the toolchain does: over what is kept, and of several over what a check of the
    crate as it is has proved besides. It is tried from nothing if that does not settle it."""
    if not KEEPS:
        return must_fail_all(crate, edits, flags)
    tried = []
    seed = rt.seeded(crate, flags, kept) if len(edits) > 1 else None
    for edit in edits:
        with tempfile.TemporaryDirectory(prefix="wrong-bodies-") as room:
            over = shutil.copytree(f"{seed}/seed" if seed else kept, f"{room}/kept")
            kind, text = rt.must_fail(crate, edit, flags, over)
        if kind not in rt.SETTLED:
            kind, text = rt.must_fail(crate, edit, flags)
        tried.append((kind, text))
    shutil.rmtree(seed or "", ignore_errors=True)
    return tried


def try_together(crate, edits, flags):
    """What the try of each edit comes to, as the toolchain's `must_fail` says it: the kind of answer, or whether it is refused, and a
    line."""
    tried = Crate(crate)
    wrongs = [it for it in map(tried.wrong_of, edits) if it]
    why = {}
    with tempfile.TemporaryDirectory(prefix="wrong-bodies-") as kept:
        for check in checks_of(tried, wrongs):
            why |= tried.refused(check, flags, kept)
        left = [it for it in edits if it not in why]
        begun = time.monotonic()
        alone = dict(zip(left, try_alone(crate, left, flags, kept)))
    if left:
        print(f"{crate.name}: checks of {len(left)} wrong bodies, each alone, took {time.monotonic() - begun:.0f} s", flush=True)
    said = lambda it: f"must-fail {crate.name}/{os.path.basename(it)}: refused, as it must be: {why[it][:160]}"
    return [alone[it] if it in alone else (REFUSED, said(it)) for it in edits]


def uncompiled(crate, edits):
    """The wrong bodies that do not compile, each with what is said of it. Most are read in one check with others, which proves nothing."""
    tried = Crate(crate)
    alone, wrongs, why = {}, [], {}
    for edit in edits:
        texts, said = rt.read_edit(edit, crate.folder)
        wrong = tried.wrong_of(edit) if texts else None
        if not texts:
            why[edit] = said
        elif wrong:
            wrongs.append(wrong)
        else:
            alone[edit] = texts
    with tempfile.TemporaryDirectory(prefix="wrong-bodies-") as kept:

        def error_in(texts):
            lines = tried.checked(texts, ["--jobs", "1", "--only", ""], kept).strip().split("\n")
            broken = next((it for it in lines if BROKEN.search(it) or rt.unread(it, texts)), None)
            return broken or (None if lines[-1].startswith("only=") else f"the check did not end: {lines[-1]}")

        for check in checks_of(tried, wrongs):
            together = tried.together(check)
            if error_in(together.texts | together.proofs):
                alone |= {it.edit: it.texts for it in check}
        said = {edit: error_in(texts) for edit, texts in alone.items()}
    return why | {edit: line for edit, line in said.items() if line}


def compile_all(names):
    """Says of each crate which of its wrong bodies do not compile. The status is 1 if one does not."""
    known, status = {}, 0
    for name in names:
        crate = rt.Crate(f"{TOP}/crates/{name}", TOP, known)
        edits, others = rt.edits_of(crate)
        broken = uncompiled(crate, edits)
        for file in others:
            print(f"must-fail {name}/{os.path.basename(file)}: is not the name of a wrong body", flush=True)
        for edit, line in broken.items():
            print(f"must-fail {name}/{os.path.basename(edit)}: does not compile: {line[:200]}", flush=True)
        print(f"{name}: {len(edits) - len(broken)} of {len(edits)} wrong bodies compile", flush=True)
        status |= bool(broken) or bool(others)
    return status


def add_edits(tasks, crate, edits, first, waits, is_well, kept, start=None, in_ci=True):
    """As the toolchain's call of that name: adds the task that tries a crate's wrong bodies once the crate is proved, and returns what gives
    its results, and what gives those of earlier runs on this machine, by their numbers."""
    task = crate.name, "edits", 0

    def names():
        stands_on = kept.key(crate) if in_ci else rt.stamp_of(crate, {})
        return [kept.of_edit(it, f"{OWN} {stands_on}") for it in edits]

    @functools.cache
    def known():
        return {at: told for at, told in enumerate(map(kept.tried, names())) if told}

    def try_new(given, jobs):
        new = [at for at in range(len(edits)) if at not in known()]
        if not is_well(given, len(new)):
            return None
        tried = dict(zip(new, try_together(crate, [edits[at] for at in new], ["--jobs", "1"])))
        if all(map(kept.is_untouched, [crate, *([] if in_ci else crate.below())])):
            for at, name in enumerate(names()):
                if at in tried and tried[at][0] in rt.SETTLED:
                    kept.keep_tried(name, *tried[at])
        return [known().get(at) or tried[at] for at in range(len(edits))]

    if edits:
        tasks[task] = (waits, crate.count(rb"\n"), rt.need(crate), try_new)
    return lambda given: given[task] if edits else [], known


def until_broken(in_lanes):
    """As a toolchain that keeps nothing runs tasks, but all proofs come before wrong bodies, if they can, and once a crate or its tests are
    not proved, it begins no other task. It says what it did not reach."""

    def run(tasks):
        broken, left = [], []

        def begun(key, call, given, jobs):
            name, part = key
            if broken:
                left.append(name)
                # of a crate that was proved without its tests the last line tells
                return {"proof": False, "tests": True, "edits": ([], [], [])}[part]
            result = call(given, jobs)
            if not result:
                broken.append(name)
            return result

        watched = {}
        for key, (waits, lines, needs, call) in tasks.items():
            # the tasks with the most lines come first
            watched[key] = waits, lines / LINES if key[1] == "edits" else lines, needs, functools.partial(begun, key, call)
        given = in_lanes(watched)
        if left:
            print(f"rt: {broken[0]} is not proved, so the gate ends early; not reached, or not wholly: {', '.join(dict.fromkeys(left))}", flush=True)
        return given

    return run


def main(words):
    if not words:
        print(__doc__, file=sys.stderr)
        return 5
    if KEEPS:
        rt.add_edits = add_edits
    elif FORGETS:
        rt.must_fail_all = try_together
        rt.in_lanes = until_broken(rt.in_lanes)
    else:
        print("this toolchain tries each wrong body in its own way", flush=True)
    if words[0] == "compile":
        rt.rtlib.guarded()
        return compile_all(words[1:])
    if words[0] != "ci":
        return rt.main(["must-fail", *words])
    # while wrong bodies wait for a processor, a second job of a proof costs more than it saves
    os.environ.setdefault("RT_JOBS", str(len(os.sched_getaffinity(0))))
    # one that keeps nothing proves all anew each time, and knows no word for it
    return rt.main(["ci"] if FORGETS else words)


if __name__ == "__main__":
    if sys.argv[1:] in (["-h"], ["--help"]):
        sys.exit(print(__doc__.strip()))
    sys.exit(main(sys.argv[1:]))
