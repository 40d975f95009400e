#!/usr/bin/env python3
"""Tries the pages: their dialogues, links, pictures, paths and sizes. The last line is 'N passed, M failed', with ', K skipped' after it.

usage: test-pages.py [--text | --commands] [PAGE ..]      all pages by default

With --text it runs no command, takes a second, and needs no program; with --commands it tries the dialogues alone.

A dialogue is a block with the mark `console`: a line `$ COMMAND`, and below it what that command writes. All dialogues run
one after the other in one scratch copy of the tree, each by a shell of its own at the top. A block with `file=NAME` in its mark is
written there when its turn comes. After `console` may come:

  any           what the commands write differs from run to run, and is not compared; their status is below 4
  skip          the commands are not run: they take long, change the machine, or want a tree that is built otherwise
  needs=A,B     the commands run if these tools and files are there

What is not run is named, and counted as skipped. A sentence of more than 25 words fails. First the tests are tried themselves: each
must find what is wrong with a small page.
"""
import contextlib
import io
import os
import pathlib
import re
import shutil
import subprocess
import sys
import tempfile

import api
import crates
import definitions
import graph
import inside
import pictures
from pages import BUILT, Block, Page, all_pages

TOP = crates.TOP
# How many lines the first page and that of a crate may have, and how many commands the first page: a screen.
README_LINES, CRATE_LINES, README_COMMANDS = 110, 40, 24
# The most words of a sentence, and the least of one that may not occur twice outside of tables.
WORDS, SAME_WORDS = 25, 4
# The least number of words that say what a picture shows.
PICTURE_WORDS = 10
# A file of code whose clauses cite what only proofs need: two for callers, and two others.
CITING = """ghost use Rattle.snap_grid.specs.inside.Kept.{IsKept,
    Other};
pub fn look(at: u32) -> u32
    ensures { IsKept result }
{
}
fn hidden(at: u32) -> u32
    ensures { IsKept result }
{
}
pub fn look(
    at: u32,
) -> u32 requires { at }
    ensures { (n : ℕ)
        → IsKept result }
{
    let kept = IsKept;
}
pub fn unseen() -> u32
    ensures { IsKept result }
{}
"""
# A page of which 20 words are read.
READ = """One [two three](four.md) `five`.

| six | 7 |
|---|---|

<!-- no word -->
```antt
-- eight
nine : {a : B} → (c × d)
nine = λ x. x ++ x
```
"""
# The pages whose commands are not run here, and the script that tries what they show.
LANGUAGES = ("c", "cpp", "go", "java", "python", "rust")
OF_RECORDERS = ["docs/OWN-OBJECT.md", "docs/RECORDING.md", *(f"docs/own-object/{it}.md" for it in LANGUAGES)]
ELSEWHERE = {**dict.fromkeys(OF_RECORDERS, "ffi/record/test.sh"), "docs/INSTALL.md": "share/test-package.sh"}
# The files that repeat the number of VERSION, each with its form there.
VERSIONED = {
    "CHANGELOG.md": "\n## {}\n",
    "docs/FORMAT.md": "version {},",
    "CITATION.cff": "\nversion: {}\n",
    "crates/snapjudge/src/version.rt": ' VERSION: &str = "{}";\n',
    "ffi/python/pyproject.toml": '\nversion = "{}"\n',
    "ffi/python/snapjudge_backend.py": 'VERSION = "snapjudge", "{}"\n',
    "ffi/rust/snapjudge/Cargo.toml": '\nversion = "{}"\n',
    "share/snapjudge.1": '"snapjudge {}"',
}
# The files that repeat the version of the library's calls, that of crates/snap_c/src/version.rt, each with its form there.
LIBRARY_VERSIONED = {
    "ffi/c/snapjudge.h": "#define SNAPJUDGE_VERSION {}\n",
    "ffi/python/snapjudge/library.py": "\nVERSION = {}\n",
    "ffi/rust/snapjudge/src/library.rs": "const VERSION: u32 = {};\n",
    "ffi/record/c/snapverdict.h": "version() != {})",
    "ffi/record/cpp/snapverdict.hpp": "version() == {})",
    "ffi/record/go/library.go": "version() == {} ",
    "ffi/record/python/snapdrive.py": "snapjudge_version() == {} ",
    "ffi/record/rust/snapverdict.rs": "(version() == {})",
}
MARK = "=== the next command of a page ==="
# How long a dialogue may take, in seconds: one compiles the program, on a machine that may be busy.
LONGEST = 600
# The least status that is not a verdict, and the least that a shell or a signal gives.
NO_VERDICT, NOT_RUN = 4, 126

# Small pages, each with what is wrong with it.
WRONG = {
    "another output": "```console\n$ echo one\ntwo\n```\n",
    "a line too few": "```console\n$ printf 'one\\ntwo\\n'\none\n```\n",
    "no such command": "```console\n$ no-such-command 2>/dev/null\n```\n",
    "a shell that ends": "```console\n$ exit\n```\n",
    "no verdict": "```console any\n$ sh -c 'exit 4'\n```\n",
    "a link to no file": "[no file](none.md)\n",
    "a link to no heading": "[no heading](README.md#none)\n",
    "a path of no file": "`share/none.py`\n",
    "a picture too wide": "![Twelve bars in three lanes, and three of them are hatched.](docs/pictures/recorded-1.svg)\n",
    "a picture without words": "![A picture.](docs/pictures/atomic-run.svg)\n",
    "a block without an end": "```\n",
    "commands without a mark": "```\n$ echo one\none\n```\n",
    "a line too many": "\n" * (README_LINES + 1),
    "a command too many": "```console any\n" + "$ true\n" * (README_COMMANDS + 1) + "```\n",
    "a sentence too long": "Word" + " word" * WORDS + ".\n",
    "a sentence too long around a colon": "Word" + " word" * 12 + ": 7" + " words" * 12 + ".\n",
    "a sentence twice": "This stands twice: 2.\n\n" * 2,
}

PICTURE = re.compile(r"!\[([^\[\]]*)\]\(([^()\s]+\.svg)\)")


class Count:
    """What passed, failed and was skipped."""

    def __init__(self):
        self.passed, self.failed, self.skipped = 0, 0, 0

    def expect(self, is_so, otherwise):
        self.passed += bool(is_so)
        self.failed += not is_so
        if not is_so:
            print(f"failed: {otherwise}")

    def skip(self, what):
        self.skipped += 1
        print(f"skipped: {what}")

    def end(self):
        more = f", {self.skipped} skipped" if self.skipped else ""
        print(f"{self.passed} passed, {self.failed} failed{more}")
        return 1 if self.failed else 0


def try_links(count, page, pages):
    """Each link leads to a file, and to a heading of it; each path of the tree is there."""
    for line, target in page.links():
        if re.match(r"[a-z]+:", target):
            continue
        file, _, anchor = target.partition("#")
        path = os.path.normpath(os.path.join(os.path.dirname(page.name), file)) if file else page.name
        if not (TOP / path).exists():
            count.expect(False, f"{page.name}:{line}: {target} leads nowhere")
        elif anchor:
            there = pages.get(path) or Page(path)
            count.expect(anchor in there.headings(), f"{page.name}:{line}: there is no heading #{anchor} in {path}")
        else:
            count.expect(True, "")
    for line, path in page.paths():
        is_built = path.startswith("ffi/build") or "/out" in path
        count.expect(is_built or (TOP / path).exists(), f"{page.name}:{line}: there is no {path}")


def try_pictures(count, page):
    """Each picture that a page shows can be read on a narrow page, and words say what is to be seen."""
    for line, text in page.prose:
        for words, target in PICTURE.findall(text):
            file = TOP / os.path.dirname(page.name) / target
            width = pictures.number(pictures.Picture(file.read_text(encoding="utf-8")).root, "width") if file.exists() else 0
            count.expect(width <= pictures.WIDEST, f"{page.name}:{line}: {target} is {width} wide, and may be {pictures.WIDEST}")
            count.expect(len(words.split()) >= PICTURE_WORDS, f"{page.name}:{line}: too few words say what {target} shows")


def try_form(count, page):
    """How long a page is, and the marks of its blocks."""
    count.expect(page.is_whole, f"{page.name}: a block has no end")
    for block in page.blocks:
        is_bare = block.words == [] and block.lines[:1] != [] and block.lines[0].startswith("$ ")
        if is_bare and page.name not in ELSEWHERE:
            count.expect(False, f"{page.name}:{block.line}: a block of commands has no mark `console`")
    crate = re.fullmatch(r"crates/\w+/README.md", page.name)
    most = README_LINES if page.name == "README.md" else CRATE_LINES if crate else None
    if page.name == "README.md":
        commands = sum(len(block.commands()) for block in page.blocks)
        count.expect(commands <= README_COMMANDS, f"{page.name} has {commands} commands, and may have {README_COMMANDS}")
    if most:
        count.expect(page.length <= most, f"{page.name} has {page.length} lines, and may have {most}")


def try_graph(count):
    """The page on the architecture shows the graph of crates.txt. Each crate has its page, and names no other crates than its line there."""
    shown = graph.in_page(graph.PAGE.read_text(encoding="utf-8"))
    count.expect(shown == graph.graph(), "docs/ARCHITECTURE.md shows another graph than crates.txt: run share/graph.py --write")
    for crate, (_, libraries) in crates.read().items():
        count.expect((TOP / f"crates/{crate}/README.md").exists(), f"crates/{crate} has no README.md")
        past = {"libc", "os"}.intersection(libraries)
        count.expect(not past, f"crates.txt lists {' and '.join(sorted(past))} for {crate}: these reach past the handles, and rt ci refuses them")
    for file, crate in crates.unnamed():
        count.expect(False, f"{file} names {crate}, and the line of its crate in crates.txt does not")


def try_definitions(count):
    """The page on the proof shows the very definitions of the theorems."""
    count.expect(definitions.in_page() == definitions.shown(), "docs/PROOF.md shows other definitions than the sources: run share/definitions.py --write")
    taken = definitions.minutes(definitions.page_rows())
    count.expect(taken <= definitions.MINUTES, f"docs/PROOF.md takes {taken:.1f} minutes up to what is trusted, and may take {definitions.MINUTES}")


def try_inside(count):
    """What callers read cites no definition that only proofs need."""
    for file, number, name in inside.all_cited():
        count.expect(False, f"{file.relative_to(TOP)}:{number}: {name} is in specs/inside/, and callers read this")
    count.expect(True, "")


def try_api(count):
    """The page of the calls that do not change shows them as the sources have them, and each has a caller."""
    for fault in api.faults():
        count.expect(False, fault)
    count.expect(True, "")


def unnamed_cases(guide):
    """The files that have a case for each kind of fault and that a guide does not name, and those that it names and that have none. Tests
    do not count."""
    files = [it for it in TOP.glob("crates/*/src/**/*.rt") if not re.search(r"crates/\w+_tests/|/snap_sweep/", str(it))]
    have = {it for it in files if re.search(r"\b(Kind|Fault)::Integrity\b|= integrity_part\(", it.read_text(encoding="utf-8"))}
    readers = [it for folder in ("ffi/cpp", "ffi/go", "ffi/python", "ffi/rust/snapjudge/src", "examples") for it in (TOP / folder).glob("**/*.*")]
    readers = [it for it in readers if it.suffix in (".hpp", ".cpp", ".go", ".py", ".rs") and not re.search(r"test|answers", it.name)]
    have |= {it for it in readers if re.search(r"\bproximity\b", it.read_text(encoding="utf-8"))}
    return {str(it.relative_to(TOP)) for it in have} ^ set(re.findall(r"`(crates/\S+\.rt|(?:ffi|examples)/\S+)`", guide))


def kinds_guide():
    lines = (TOP / "docs/ARCHITECTURE.md").read_text(encoding="utf-8").splitlines()
    return next(it for it in lines if it.startswith("- **A new kind of fault.**"))


def try_kinds(count):
    """The guide to a new kind of fault names all files of the product and of its readers that have a case for each kind."""
    for file in unnamed_cases(kinds_guide()):
        count.expect(False, f"docs/ARCHITECTURE.md, a new kind of fault: {file} has a case for each kind and is not named, or the other way")
    count.expect(True, "")


def try_version(count):
    library = re.search(r"VERSION: u32 = (\d+);", (TOP / "crates/snap_c/src/version.rt").read_text(encoding="utf-8"))[1]
    for version, forms in (((TOP / "VERSION").read_text(encoding="utf-8").strip(), VERSIONED), (library, LIBRARY_VERSIONED)):
        for name, form in forms.items():
            is_there = form.format(version) in (TOP / name).read_text(encoding="utf-8")
            count.expect(is_there, f"{name} does not name version {version}")


def try_sentences(count, pages):
    """No sentence is too long, and outside of tables none occurs twice in the top page and in docs/."""
    known = {}
    for page in pages:
        for line, sentence in page.sentences():
            words = len(sentence.split())
            if words > WORDS:
                count.expect(False, f"{page.name}:{line}: {words} words, and {WORDS} are the limit: {sentence}")
        if page.name != "README.md" and not page.name.startswith("docs/"):
            continue
        for line, sentence in page.sentences(with_tables=False):
            if len(sentence.split()) >= SAME_WORDS and sentence in known:
                count.expect(False, f"{page.name}:{line}: this stands at {known[sentence]} too: {sentence}")
            known.setdefault(sentence, f"{page.name}:{line}")
    count.expect(True, "")


def is_program_fresh():
    """Whether the program is built of what the sources are now. A launcher that finds it is not would build it."""
    with contextlib.suppress(FileNotFoundError):
        noted = (TOP / "built/sources").read_text(encoding="utf-8")
        ran = subprocess.run([TOP / "share/sources.sh", "sum"], cwd=TOP, capture_output=True, text=True, check=False)
        return ran.returncode == 0 and ran.stdout == noted and (TOP / "built/snapjudge").exists()
    return False


def run(block, room):
    """What each command of a dialogue writes, on both outputs, and its status; or none if the dialogue takes too long."""
    script = "".join(f"{command}\nprintf '%s %s\\n' '{MARK}' \"$?\"\n" for _, command, _ in block.commands())
    # what cargo and rustup keep stays where it is
    places = {"CARGO_HOME": os.path.expanduser("~/.cargo"), "RUSTUP_HOME": os.path.expanduser("~/.rustup")}
    env = {**places, **os.environ, "HOME": f"{room}/home", "LC_ALL": "C.UTF-8"}
    how = {"cwd": f"{room}/tree", "env": env, "stdin": subprocess.DEVNULL, "stdout": subprocess.PIPE, "stderr": subprocess.STDOUT}
    try:
        ran = subprocess.run(["sh", "-c", script], timeout=LONGEST, check=False, **how)
    except subprocess.TimeoutExpired:
        return None
    # a command may write no last line end, and then the mark comes after its text
    parts = re.split(rf"{MARK} (\d+)\n", ran.stdout.decode(errors="replace"))
    return list(zip(parts[::2], map(int, parts[1::2])))


def try_dialogue(count, block, room):
    ran = run(block, room)
    for place, (line, command, wanted) in enumerate(block.commands()):
        where = f"{block.page.name}:{line}: {command}"
        if ran is None or place >= len(ran):
            count.expect(False, f"{where}\n  it did not end, or a command before it did not")
            continue
        text, status = ran[place]
        lines = text.split("\n")
        lines = lines[:-1] if lines[-1] == "" else lines
        is_right = status < NO_VERDICT if "any" in block.words else status < NOT_RUN and lines == wanted
        count.expect(is_right, "\n".join([where, f"  it wrote, with status {status}:", *(f"  {it}" for it in lines)]))


def try_page(count, page, room):
    """Runs the dialogues of a page in the copy of the tree."""
    if page.name in ELSEWHERE:
        for block in filter(Block.commands, page.blocks):
            count.skip(f"{page.name}:{block.line}: {len(block.commands())} commands; {ELSEWHERE[page.name]} tries what they show")
        return
    for block in filter(lambda it: it.is_dialogue or it.file(), page.blocks):
        why = "skip" if "skip" in block.words else block.missing()
        if block.is_dialogue and why:
            for line, command, _ in block.commands():
                count.skip(f"{page.name}:{line}: {command}" + ("" if why == "skip" else f", since {why} is not here"))
        elif block.is_dialogue:
            try_dialogue(count, block, room)
        else:
            file = pathlib.Path(room, "tree", block.file())
            file.parent.mkdir(parents=True, exist_ok=True)
            file.write_text("".join(f"{it}\n" for it in block.lines), encoding="utf-8")


def try_tests(count):
    """Tries the tests on pages that are wrong."""
    for what, text in WRONG.items():
        page, found = Page("README.md", text), Count()
        with tempfile.TemporaryDirectory() as room, contextlib.redirect_stdout(io.StringIO()):
            os.mkdir(f"{room}/tree")
            try_form(found, page)
            try_links(found, page, {})
            try_pictures(found, page)
            try_sentences(found, [page])
            for block in filter(lambda it: it.is_dialogue, page.blocks):
                try_dialogue(found, block, room)
        count.expect(found.failed == 1, f"a page with {what} has {found.failed} failures")
    # where a link leads, marks and comments are no words
    count.expect(definitions.words(READ) == 20, f"definitions.py counts {definitions.words(READ)} words")
    found = definitions.rows(f"{READ}<!-- from here on -->\n## What is trusted\n\n{'word ' * 1700}\n\n## Next\n", {"Part": "word " * 270})
    count.expect([it[2] for it in found] == [270, 1703] and found[0][1] == 32, f"definitions.py finds {found}")
    count.expect(definitions.minutes(found) > definitions.MINUTES, "definitions.py lets a page of 2,003 words pass")
    count.expect(list(inside.cited_in(CITING, {"look"})) == [(4, "IsKept"), (15, "IsKept")], "inside.py overlooks a clause for callers")
    count.expect(unnamed_cases(re.sub(r"`crates/snap_json/\S+`", "", kinds_guide())) == {"crates/snap_json/src/faults.rt"}, "a file with a case for each kind is overlooked")
    count.expect(list(inside.imported_in(CITING)) == [(1, "IsKept, Other")], "inside.py overlooks an import")


def try_texts(count, pages):
    """Tries all that needs no program."""
    for page in pages.values():
        try_form(count, page)
        try_links(count, page, pages)
        try_pictures(count, page)
    try_graph(count)
    try_definitions(count)
    try_inside(count)
    try_api(count)
    try_kinds(count)
    try_version(count)
    try_sentences(count, pages.values())


def try_commands(count, pages):
    """Runs the dialogues of the pages in one copy of the tree."""
    if is_program_fresh():
        with tempfile.TemporaryDirectory() as room:
            os.mkdir(f"{room}/home")
            shutil.copytree(TOP, f"{room}/tree", ignore=shutil.ignore_patterns(*BUILT), symlinks=True)
            for page in pages.values():
                try_page(count, page, room)
    else:
        count.expect(False, "no command was tried: the program in built/ is not there, or not of these sources; run ./build")


def main(words):
    parts = [try_texts, try_commands]
    if words[:1] in (["--text"], ["--commands"]):
        parts = [try_texts if words[0] == "--text" else try_commands]
        words = words[1:]
    names = words or all_pages()
    count = Count()
    if not all((TOP / name).exists() for name in names):
        sys.exit(__doc__)
    try_tests(count)
    pages = {name: Page(name) for name in names}
    for part in parts:
        part(count, pages)
    return count.end()


if __name__ == "__main__":
    if sys.argv[1:] in (["-h"], ["--help"]):
        sys.exit(print(__doc__.strip()))
    sys.exit(main(sys.argv[1:]))
