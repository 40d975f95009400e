#!/usr/bin/env python3
"""Tries how wrong bodies are tried, over a small crate: each is refused in its own function, and what is right is let through. What an
earlier run on this machine came to is tried again only if something has changed.

The last line is 'N passed, M failed', with ', K skipped' after it if the toolchain tries them in its own way, or keeps nothing.
"""
import contextlib
import io
import os
import sys
import tempfile
from unittest import mock

import wrong_bodies
from wrong_bodies import rt

FILES = {
    "crates.txt": "few:\n",
    "HANDLES": "Handles allowed: none.\n",
    "crates/few/src/lib.rt": """//! A step.
#![tactic(auto)]
ghost use Rattle.std.specs.Prelude.{◌≡◌, ◌<◌, ◌+◌};

pub mod steps;

// How far a step goes.
const STEP: u8 = 1;

pub fn next(place: u8) -> u8
    requires { place < 200 }
    ensures { result ≡ place + 1 }
{
    place + STEP
}

pub fn same(seat: u8) -> u8
    ensures { result ≡ seat }
{
    seat
}
""",
    "crates/few/src/steps.rt": """//! More steps.
ghost use Rattle.std.specs.Prelude.{◌≡◌, ◌<◌, ◌+◌};

use crate::next;

#[inline(always)]
pub fn two_on(place: u8) -> u8
    requires { place < 200 }
    ensures { result ≡ place + 1 + 1 }
{
    let first = next(place);
    if first < 200 { next(first) } else { first + 1 }
}

pub struct Place {
    pub at: u8,
}

impl Place {
    pub fn at(&self) -> u8
        ensures { result ≡ self.now.at }
    {
        self.at
    }
}

pub trait Far {
    fn far(&self) -> u8
        ensures { result < 200 };
}

impl Far for Place {
    fn far(&self) -> u8 {
        100
    }
}

pub fn beyond(place: &Place) -> u8
    ensures { result < 201 }
{
    place.far() + 1
}
""",
    "crates/few/proofs/next/Answers.antt": """use Rattle.std.proofs.Common.{refl}
use Rattle.few.proofs.next.Goals as goal

pub returns : goal.returns
returns c = refl
""",
}
# What the toolchain calls the answers to a wrong body, and what it says of each.
REFUSED, LET_THROUGH, BAD = "REFUSED", "MISSED", "BAD"
SAID = {REFUSED: "refused, as it must be", LET_THROUGH: "NOT REFUSED", BAD: "BAD EDIT"}
# Each edit: the answer that it must get, its file, the text that goes, and the one that comes.
EDITS = {
    "lib.next.no-step": (REFUSED, "lib", "    place + STEP", "    place"),
    "lib.next.two-steps": (REFUSED, "lib", "    place + STEP", "    place + STEP + STEP"),
    "lib.next.longer-step": (REFUSED, "lib", "STEP: u8 = 1", "STEP: u8 = 2"),
    "steps.two_on.one-step": (REFUSED, "steps", "{ next(first) }", "{ first }"),
    "steps.two_on.from-the-start": (REFUSED, "steps", "{ next(first) }", "{ next(place) }"),
    "steps.beyond.too-far": (REFUSED, "steps", "place.far() + 1", "place.far() + 2"),
    "steps.at.half-way": (REFUSED, "steps", "        self.at", "        self.at / 2"),
    "steps.at.nowhere": (REFUSED, "steps", "        self.at", "        0"),
    "steps.far.too-far": (REFUSED, "steps", "        100", "        200"),
    "steps.far.much-too-far": (REFUSED, "steps", "        100", "        255"),
    "lib.next.right": (LET_THROUGH, "lib", "    place + STEP", "    let step = STEP; place + step"),
    "longer-step": (REFUSED, "lib", "STEP: u8 = 1", "STEP: u8 = 2"),
    "lib.same.right": (LET_THROUGH, "lib", "    seat", "    seat - 0"),
    "lib.same.no-such-text": (BAD, "lib", "    place - STEP", "    seat"),
    "lib.same.no-such-type": (BAD, "lib", "same(seat: u8)", "same(seat: u9)"),
}
# Edits that are tried in one run, those of them that the toolchain must try alone, and how many of them each check before that has.
RUNS = [
    (["lib.next.no-step", "lib.next.two-steps", "lib.next.longer-step", "lib.same.right", "steps.two_on.one-step", "steps.far.too-far", "steps.far.much-too-far"],
     ["lib.same.right"], [5, 1, 1]),
    # goals that wait for a callee are tried beside its wrong bodies; a callee without room for others is wrong in other checks
    (["lib.next.no-step", "steps.two_on.from-the-start", "steps.beyond.too-far", "steps.far.too-far"], [], [3, 1]),
    (["lib.next.no-step", "lib.next.right", "steps.at.half-way", "steps.at.nowhere", "lib.same.no-such-text"],
     ["lib.next.right", "lib.same.no-such-text"], [4]),
    (["lib.same.no-such-type", "longer-step"], ["lib.same.no-such-type", "longer-step"], [1]),
]
# The text of a function's wrong body, and whether it can stand beside another one of the function `far`.
ROOMS = [
    ("fn far(place: u8) -> u8 {\n    place.far() + near(place)\n}", True),
    ("fn far(place: u8) -> u8 {\n    near(far(place))\n}", False),
    ("fn far<T>(place: T) -> u8 {\n    near(far::<T>(place))\n}", False),
    ("fn far(&self) -> u8 {\n    self.far()\n}", False),
    ("fn far(&self) -> u8 {\n    Place::far(self)\n}", False),
    ('#[unsafe(no_mangle)]\npub extern "C" fn far(place: u8) -> u8 {\n    place\n}', False),
]


def name_of(edit):
    return os.path.basename(edit).removesuffix(".edit")


def write_crate(room, names, others={}):
    """Writes the crate with these edits, and other files. Returns the crate, and the edits' files."""
    texts = FILES | others | {f"crates/few/must-fail/{it}.edit": "file: src/{}.rt\nold: {}\nnew: {}\n".format(*EDITS[it][1:]) for it in names}
    for file, text in texts.items():
        os.makedirs(os.path.dirname(f"{room}/{file}"), exist_ok=True)
        with open(f"{room}/{file}", "w", encoding="utf-8") as out:
            out.write(text)
    crate = rt.Crate(f"{room}/crates/few", room, {})
    return crate, rt.edits_of(crate)[0]


def is_answer(answer, wanted):
    """Whether the answer to a wrong body is that. A toolchain that keeps nothing answers whether it is refused, and not the kind."""
    kind, said = answer
    return kind == getattr(rt, wanted) if wrong_bodies.KEEPS else kind == (wanted == REFUSED) and SAID[wanted] in said


@contextlib.contextmanager
def replaced(holder, name, other):
    """Puts another function in the place of one."""
    old = getattr(holder, name)
    setattr(holder, name, other)
    try:
        yield old
    finally:
        setattr(holder, name, old)


def misjudged(names, alone, together):
    """Tries these edits in one run. It returns what is wrong with the answers, with which edits the toolchain tried alone, or with how
    many the checks before had."""
    left, checks = [], []
    try_alone, refused = wrong_bodies.try_alone, wrong_bodies.Crate.refused
    with (
        replaced(wrong_bodies, "try_alone", lambda crate, edits, *others: left.extend(map(name_of, edits)) or try_alone(crate, edits, *others)),
        replaced(wrong_bodies.Crate, "refused", lambda crate, wrongs, *others: checks.append(len(wrongs)) or refused(crate, wrongs, *others)),
        tempfile.TemporaryDirectory() as room,
    ):
        crate, edits = write_crate(room, names)
        said = {name_of(edit): it for edit, it in zip(edits, wrong_bodies.try_together(crate, edits, ["--jobs", "1"]))}
    wrong = [f"{it}: {said[it][1]}" for it in names if not is_answer(said[it], EDITS[it][0])]
    if sorted(left) != sorted(alone):
        wrong.append(f"tried alone: {', '.join(left) or 'none'}; and to be tried so: {', '.join(alone) or 'none'}")
    if checks != together:
        wrong.append(f"the checks had {checks} wrong bodies, and should have {together}")
    return wrong


def misled():
    """What is wrong if a proof does not serve for another name: then nothing is known of a second wrong body, and it is tried alone."""
    spoilt = lambda crate, one, to: {it: text.replace("Goals", "Nothing") for it, text in proofs_of(crate, one, to).items()}
    with replaced(wrong_bodies.Crate, "proofs_of", spoilt) as proofs_of:
        return misjudged(["lib.next.no-step", "lib.next.two-steps"], ["lib.next.two-steps"], [2])


def crowded():
    """What is wrong with which wrong bodies have room beside another one."""
    wrong = []
    for text, has_room in ROOMS:
        function = wrong_bodies.Function("src/lib.rt", "far", 0, text.count("\n"))
        for is_of_trait in (False, True):
            it = wrong_bodies.Wrong("", {}, wrong_bodies.replace(function, is_of_trait=is_of_trait), tuple(text.split("\n")))
            if it.has_room() != (has_room and not is_of_trait):
                wrong.append(f"has room, of a trait {is_of_trait}: {it.has_room()}: {text}")
    return wrong


def tried_again(room, crate, edits):
    """Tries the edits as a gate does that finds what earlier ones kept in this room. It returns the numbers of those that it tried."""
    rt.STORE = f"{room}/store"
    kept, tasks = rt.Kept([crate]), {}
    results, known = wrong_bodies.add_edits(tasks, crate, edits, [], [], lambda given, new=0: True, kept)
    answers = results(rt.in_lanes(tasks))
    if not all(is_answer(answer, EDITS[name_of(it)][0]) for it, answer in zip(edits, answers)):
        return answers
    return [at for at in range(len(edits)) if at not in known()]


def forgotten():
    """What is wrong with what a second and a third run find of the first. Before the third an edit changes, and nothing else."""
    with tempfile.TemporaryDirectory() as room:
        crate, edits = write_crate(room, ["lib.next.no-step", "steps.at.half-way"])
        first, second = [tried_again(room, crate, edits) for _ in range(2)]
        with open(edits[1], "a", encoding="utf-8") as edit:
            edit.write("# once more\n")
        found = first, second, tried_again(room, crate, edits)
    wanted = [0, 1], [], [1]
    return [] if found == wanted else [f"three runs tried {found}, and had to try {wanted}"]


def unread():
    """What is wrong with which wrong bodies are said not to compile, of some in a check together, and of some alone."""
    with tempfile.TemporaryDirectory() as room:
        crate, edits = write_crate(room, ["lib.next.no-step", "lib.next.two-steps", "lib.same.no-such-type", "lib.same.no-such-text", "longer-step", "steps.far.too-far"])
        found = sorted(map(name_of, wrong_bodies.uncompiled(crate, edits)))
    wanted = ["lib.same.no-such-text", "lib.same.no-such-type"]
    return [] if found == wanted else [f"these do not compile: {found}; and should not: {wanted}"]


def unbegun():
    """What is wrong with what is said of a wrong body that compiles, if its check cannot begin, as a crate below is not built."""
    below = {"crates.txt": "low:\nfew: low\n", "crates/low/src/lib.rt": "//! Nothing.\n"}
    with tempfile.TemporaryDirectory() as room:
        crate, edits = write_crate(room, ["lib.next.no-step"], below)
        found = list(map(name_of, wrong_bodies.uncompiled(crate, edits)))
    return [] if found == ["lib.next.no-step"] else [f"these do not compile where nothing can be checked: {found}"]


def tasks_of(parts, tried):
    """Tasks as the toolchain's gate has them, each of whose parts gives what it is given here, and which note themselves when they begin.
    All wait for the first, and earlier ones have more lines."""
    first = next(iter(parts))
    task = lambda key, lines, result: ([first] if key != first else [], lines, 1, lambda given, jobs: tried.append(key) or result)
    return {key: task(key, len(parts) - at, result) for at, (key, result) in enumerate(parts.items())}


def ended(parts, reached, wanted, told):
    """What is wrong with a gate over these parts, one after the other: which it reaches, what it has of each, and what it prints."""
    tried, said = [], io.StringIO()
    with contextlib.redirect_stdout(said), mock.patch.dict(os.environ, RT_JOBS="1"):
        given = wrong_bodies.until_broken(rt.in_lanes)(tasks_of(parts, tried))
    found = tried, given, said.getvalue()
    return [] if found == (reached, wanted, told) else [f"a gate over {parts} reached, had and told {found}"]


def ended_early():
    """What is wrong with where a gate ends: all is tried where all is proved, wrong bodies last, and nothing more where the first crate or its
    tests are not."""
    low, tests, edits, high, others = ("low", "proof"), ("low", "tests"), ("low", "edits"), ("high", "proof"), ("high", "tests")
    none = [], [], []
    told = "rt: low is not proved, so the gate ends early; not reached, or not wholly: "
    return [
        *ended({low: True, high: True}, [low, high], {low: True, high: True}, ""),
        *ended({low: True, edits: none, high: True}, [low, high, edits], {low: True, edits: none, high: True}, ""),
        *ended({low: False, edits: none, high: True}, [low], {low: False, edits: none, high: False}, f"{told}high, low\n"),
        *ended({low: False, others: True}, [low], {low: False, others: True}, f"{told}high\n"),
        *ended({tests: False, high: True}, [tests], {tests: False, high: False}, f"{told}high\n"),
    ]


def main():
    if not wrong_bodies.is_known():
        print("wrong bodies in one check: skipped, since this toolchain tries them in its own way\n0 passed, 0 failed, 1 skipped")
        return 0
    rt.rtlib.guarded()
    passed = failed = 0
    more = ""
    tries = [crowded(), *(misjudged(*it) for it in RUNS), misled(), unread(), unbegun()]
    if wrong_bodies.KEEPS:
        tries.append(forgotten())
    else:
        print("what an earlier run came to: skipped, since this toolchain keeps nothing of it")
        more = ", 1 skipped"
        tries.append(ended_early())
    for wrong in tries:
        for it in wrong:
            print(f"wrong-bodies: failed: {it}")
        failed += bool(wrong)
        passed += not wrong
    print(f"{passed} passed, {failed} failed{more}")
    return bool(failed)


if __name__ == "__main__":
    if sys.argv[1:] in (["-h"], ["--help"]):
        sys.exit(print(__doc__.strip()))
    sys.exit(main())
