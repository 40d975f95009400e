#!/usr/bin/env python3
"""What a proof takes at least: processor seconds of a crate with one function that only adds, and of one with twenty.

usage: least.py [RUNS]        (one run by default; each crate's least time is printed)

The first is what a crate takes before its own functions. The difference is what a function takes that does next to nothing.
"""
import asked  # answers --help
import os
import resource
import shutil
import subprocess
import sys
import tempfile

KIT = os.path.dirname(os.path.dirname(os.path.realpath(shutil.which("rt") or sys.exit("there is no rt on the path"))))
sys.path.insert(0, f"{KIT}/bin")
import rtlib  # noqa: E402

HEAD = """//! Functions that add.
#![tactic(auto)]
ghost use Rattle.std.specs.Prelude.{◌≡◌, ◌+◌, ◌<◌};
"""
FUNCTION = """
/// Adds NUMBER.
pub fn add_NUMBER(n: u32) -> u32
    requires { n < 1000 }
    ensures { result ≡ n + NUMBER }
{
    n + NUMBER
}
"""


def seconds_of(top, functions):
    """The processor seconds in which a crate with this many functions is proved from nothing, in one job."""
    folder = f"{top}/crates/adds_{functions}"
    os.makedirs(f"{folder}/src", exist_ok=True)
    shutil.rmtree(f"{folder}/out", ignore_errors=True)
    os.makedirs(f"{folder}/out")
    with open(f"{folder}/src/lib.rt", "w", encoding="utf-8") as file:
        file.write(HEAD + "".join(FUNCTION.replace("NUMBER", str(number)) for number in range(1, functions + 1)))
    crate = rtlib.Crate(folder, top, {})
    words = [rtlib.RATTLE, "build", *crate.words(["--jobs", "1"]), "--statements", "-o", f"{folder}/out/adds.rlib"]
    before = resource.getrusage(resource.RUSAGE_CHILDREN)
    subprocess.run(words, cwd=folder, check=True, stdout=subprocess.DEVNULL, stderr=subprocess.DEVNULL)
    after = resource.getrusage(resource.RUSAGE_CHILDREN)
    return after.ru_utime + after.ru_stime - before.ru_utime - before.ru_stime


def main(words):
    runs = int(words[0]) if words else 1
    with tempfile.TemporaryDirectory() as top:
        with open(f"{top}/crates.txt", "w", encoding="utf-8") as file:
            file.write("adds_1:\nadds_20:\n")
        for functions in (1, 20):
            os.makedirs(f"{top}/crates/adds_{functions}/src")
        one, twenty = (min(seconds_of(top, functions) for _ in range(runs)) for functions in (1, 20))
    print("| functions | processor seconds |\n|---|---|")
    print(f"| 1 | {one:.1f} |\n| 20 | {twenty:.1f} |\n| each further one | {(twenty - one) / 19:.2f} |")


if __name__ == "__main__":
    sys.exit(main(sys.argv[1:]))
