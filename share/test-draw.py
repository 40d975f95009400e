#!/usr/bin/env python3
"""Tries `snapjudge draw` on each history of examples/. The last line is 'N passed, M failed', with ', K skipped' after it.

usage: test-draw.py [--write] [PROGRAM]      the program is ./snapjudge by default

What a picture must show is worked out here from the history's text and from the report that is kept beside it. The picture is
read as XML, and its numbers are compared. If chromium is here, the page is opened in it at two widths, light and dark. If
rsvg-convert or the module cairosvg is here too, they must give the parts of each picture the colours that chromium gives them. Pictures
are kept in docs/pictures as pages can show them: folded, and of a run that is too wide for a page its witness too. They must be what
the program draws today; with --write they are written. First the tests are tried themselves: each must find what is wrong with a
changed picture.
"""
import contextlib
import io
import itertools
import pathlib
import re
import shutil
import subprocess
import sys
import tempfile
import xml.etree.ElementTree as tree

from browser import Browser
from drawn_lines import WRONG as WRONG_LINES, WRONG_BESIDE, LinePicture, try_lines
from long_pictures import try_long, try_pieces
from pictures import SVG, WIDEST, Picture, bar_box, calls_of, faults_of, folded, kept_of, number, points_of, text_box
from rendered import try_colours
from wrong_pictures import WRONG, WRONG_COLOURS, WRONG_FOLDED, WRONG_ORDERS, WRONG_PAGES

TOP = pathlib.Path(__file__).resolve().parent.parent
PICTURES, ASKED = TOP / "docs/pictures", TOP / "share/test-draw.js"
# The widths and the schemes in which the page is opened, and how long the browser may take for an answer, in seconds.
WIDTHS, SCHEMES, LONGEST = (400, 1400), ("light", "dark"), 60
# What no one reads in a picture, and so may be pale: the ground, the lines of the lanes, the strip, and the pattern behind a fault.
PALE = {"ground", "line", "all", "hatch-ground"}
# The least contrast of everything else with the ground, from 1 to 21, as the guidelines for readable pages count it.
CONTRAST = 3
# The least size of a letter on the screen where the page opens.
SMALLEST = 7.5
# The most bytes that a page may have, for the longest history.
MOST_BYTES, MOST_EVENTS = 5_000_000, 65_536
# The most calls that are drawn on a page, and by lines.
MOST_CALLS, MOST_IN_LINES = 60, 12


class Count:
    """What passed, failed and was skipped."""

    def __init__(self):
        self.passed, self.failed, self.skipped = 0, 0, 0

    def expect(self, is_so, otherwise):
        self.passed += bool(is_so)
        self.failed += not is_so
        if not is_so:
            print(f"failed: {otherwise}")

    def same(self, found, wanted, what):
        self.expect(found == wanted, f"{what}: found {found}, wanted {wanted}")

    def skip(self, what):
        self.skipped += 1
        print(f"skipped: {what}")

    def end(self):
        print(f"{self.passed} passed, {self.failed} failed" + (f", {self.skipped} skipped" if self.skipped else ""))
        return 1 if self.failed else 0


def picture_of(count, name, text):
    """The picture that a text is; or none, if it is not XML."""
    try:
        return Picture(text)
    except tree.ParseError as wrong:
        count.expect(False, f"{name}: the picture can't be read: {wrong}")
        return None


def asked(program, *words, given=None):
    """The status of a command, and what it writes."""
    ran = subprocess.run([program, *words], input=given and given.encode(), capture_output=True, check=False)
    return ran.returncode, ran.stdout.decode()


def draw(program, path, *words):
    return asked(program, "draw", *words, path)


def told_of(said, at):
    """What an explanation says that a call does, if it has a line of it: of a wide view of a fault the entries that matter."""
    line = next((it for it in said if it.startswith(f"  call {at} of process ")), "")
    return line.partition(": ")[2]


def try_calls(count, name, picture, calls, faults, said):
    """Each call has its bar, in its lane, from its begin to its end, and no other call has one."""
    count.same(picture.ids("call-"), set(map(str, calls)), f"{name}: calls")
    count.same(picture.ids("lane-"), {call.process for call in calls.values()}, f"{name}: lanes")
    count.same(len(set(picture.all_ids)), len(picture.all_ids), f"{name}: an id stands twice")
    if picture.ids("call-") != set(map(str, calls)):
        return False
    lines = {process: points_of(picture.part(f"lane-{process}", "path").get("d")) for process in picture.ids("lane-")}
    heights = {process: line[0][1] for process, line in lines.items()}
    places = {}
    for at, call in calls.items():
        where, bar = f"{name}: call {at}", picture.bar(at)
        marks = {f"fault-{kind}" for kind, members in faults.items() if at in members}
        wanted = {"call", call.kind} | ({"pending"} if call.end is None else set()) | marks
        count.same(picture.classes(f"call-{at}"), wanted, f"{where}: classes")
        count.same(picture.text(f"call-{at}", "title"), call.title(at), f"{where}: title")
        count.same(picture.by[f"call-{at}"].get("data-records"), f"{call.begin}-{call.end or ''}", f"{where}: records")
        count.same(picture.by[f"call-{at}"].get("tabindex"), "0", f"{where}: a key gets to it")
        inside = {process for process, high in heights.items() if bar.top < high < bar.bottom}
        count.same(inside, {call.process}, f"{where}: lanes of its bar")
        count.same(set(picture.text(f"call-{at}", "text", "tag").split()), {it[len("fault-"):] for it in marks}, f"{where}: tag")
        label = picture.text(f"call-{at}", "text", "label")
        whole = f"{at} {told_of(said, at)}" if marks and told_of(said, at) else f"{at} {call.kind} {call.data}".strip()
        count.expect(label == whole or label.endswith("…") and whole.startswith(label[:-1]), f"{where}: its label is {label}")
        count.expect((picture.part(f"call-{at}", "path", "open") is not None) == (call.end is None), f"{where}: an open end")
        places[call.begin] = bar.left
        places[call.end or 2 * MOST_EVENTS + at] = bar.right + (call.end is None) * at / 1000
    across = [places[record] for record in sorted(places)]
    count.expect(all(one < next_one for one, next_one in zip(across, across[1:])), f"{name}: the order of the events is not kept: {across}")
    return True


def try_overlap(count, name, picture, calls):
    for (one, first), (two, second) in itertools.combinations(calls.items(), 2):
        if first.process == second.process:
            count.expect(not picture.bar(one).meets(picture.bar(two)), f"{name}: the bars of calls {one} and {two} overlap")
    for (one, box), (two, other) in itertools.combinations(picture.texts(), 2):
        count.expect(not box.meets(other), f"{name}: the text {one} covers {two}")
    right = number(picture.root, "width")
    count.expect(all(box.left >= 0 and box.right <= right for _, box in picture.texts()), f"{name}: a text leaves the picture")


def try_faults(count, name, picture, faults, said):
    """Each kind of fault has its sentence, as `explain` writes it, and its place in the strip."""
    count.same(picture.ids("fault-"), set(faults), f"{name}: kinds of faults")
    for kind in faults:
        for tag in ("title", "text"):
            sentence = picture.text(f"fault-{kind}", tag)
            count.expect(sentence in said, f"{name}: {kind}: its {tag} is {sentence}")
        count.expect(picture.part("strip", "path", f"fault-{kind}") is not None, f"{name}: {kind} is not in the strip")


def try_order(count, name, picture, order):
    """Each call of the printed order takes effect in its bar, one after the other, and the line leads through these points."""
    count.same(picture.ids("place-"), {str(place) for place in range(1, len(order) + 1)}, f"{name}: places")
    if not order or len(picture.ids("place-")) != len(order):
        return
    points = points_of(picture.part("order", "path", "line").get("d"))
    count.same(len(points), len(order), f"{name}: points of the line")
    count.expect(all(one[0] < two[0] for one, two in zip(points, points[1:])), f"{name}: the line goes back: {points}")
    for place, (call, (across, down)) in enumerate(zip(order, points), 1):
        bar, label = picture.bar(call), picture.by[f"place-{place}"]
        count.expect(bar.left < across < bar.right and bar.top < down < bar.bottom, f"{name}: place {place} is not in the bar of call {call}")
        count.expect(label.text == str(place) and number(label, "x") == across, f"{name}: the label of place {place}")


def try_backs(count, name, picture, order):
    """The line of an order leads through no label: behind each stands ground, which covers no bar."""
    if not order:
        return
    backs = [bar_box(it) for it in picture.by["backs"]] if "backs" in picture.by else []
    for it in picture.root.iter(SVG + "text"):
        kind = it.get("class")
        box = text_box(it, kind == "place")
        is_held = any(back.left <= box.left + 1 and box.right <= back.right + 1 and back.top <= box.top and box.bottom <= back.bottom for back in backs)
        count.expect(is_held or kind not in ("label", "place"), f"{name}: the line leads through {it.text}")
    bars = [picture.bar(call) for call in picture.ids("call-")]
    count.expect(not any(back.meets(bar) for back in backs for bar in bars), f"{name}: the ground behind a label covers a bar")


def try_alone(count, name, page):
    """A page names nothing that it would have to load."""
    bare = page.replace('xmlns="http://www.w3.org/2000/svg"', "")
    found = re.findall(r"https?:|\bsrc\s*=|\bhref\s*=|@import|url\((?!#)|@font-face|\bfetch\(|XMLHttpRequest", bare)
    count.same(found, [], f"{name}: what it would load")


def try_browser(count, browser, name, page, calls, faults):
    script = ASKED.read_text(encoding="utf-8")
    with tempfile.TemporaryDirectory() as room:
        path = pathlib.Path(room, "page.html")
        path.write_text(page, encoding="utf-8")
        for width, scheme in itertools.product(WIDTHS, SCHEMES):
            try_shown(count, f"{name}, {width} wide, {scheme}", browser.ask(path.as_uri(), width, scheme, script), width, scheme, calls, faults)


def try_shown(count, where, found, width, scheme, calls, faults):
    """What the browser answers on a page: what can be read, what the panel says of each call, and what the keys do."""
    if not found:
        count.expect(False, f"{where}: the page did not answer")
        return
    count.same((found["window"], found["isDark"]), (width, scheme == "dark"), f"{where}: the width, and whether it is dark")
    count.same(found["covered"], [], f"{where}: labels that cover others")
    count.same(found["barred"], [], f"{where}: labels that lie over bars")
    count.same(found["pale"], [], f"{where}: what is too pale")
    count.expect(found["smallest"] >= SMALLEST, f"{where}: letters are {found['smallest']} high")
    count.same(found["loaded"], 0, f"{where}: what was loaded")
    count.expect(found["page"] <= width, f"{where}: the page takes {found['page']}")
    count.expect(all(kind + ":" in found["faults"] for kind in faults), f"{where}: its faults are {found['faults']}")
    kinds = {call.kind for call in calls.values()} | {"pending" for call in calls.values() if call.end is None}
    count.same(set(found["legend"]), kinds | {"strip", "call" if faults else "order"}, f"{where}: what the legend explains")
    for at, call in calls.items():
        begin = f"record {call.begin}: begin,{call.process},{call.kind}," + (call.data if call.kind == "update" else "")
        end = f"record {call.end}: end,{call.process},{call.kind}," + (call.data if call.kind == "view" else "")
        wanted = [call.title(at), begin, end if call.end else "pending"]
        panel = found["shown"].get(f"call-{at}", "")
        count.expect(all(it in panel for it in wanted), f"{where}: of call {at} the panel shows {panel}")
    count.expect(found["isWhole"], f"{where}: 0 does not show the whole picture")
    count.expect(found["fitted"] < found["larger"] > found["smaller"] < found["wheeled"], f"{where}: larger and smaller are wrong: {found}")
    count.expect(found["moved"] > 0, f"{where}: an arrow does not move the picture")


def try_folded(count, name, shown, calls):
    """The lines of a folded picture have room in it, and say what its sentences say."""
    picture = Picture(shown)
    try_overlap(count, f"{name}, folded", picture, calls)
    high = number(picture.root, "height")
    count.expect(all(box.bottom <= high for _, box in picture.texts()), f"{name}, folded: a text is below the picture")
    for kind in picture.ids("fault-"):
        lines = " ".join(it.text for it in picture.by[f"fault-{kind}"].iter(SVG + "text"))
        count.same(lines, picture.text(f"fault-{kind}", "title"), f"{name}, folded: the sentence on {kind}")


def try_kept(count, browser, name, text, calls, is_written):
    """The picture in docs/pictures is the one that is drawn today, folded, and every program draws it. Its width is returned."""
    if not picture_of(count, name, text):
        return 0
    try_colours(count, browser, name, folded(text))
    shown, kept = folded(text), PICTURES / f"{name}.svg"
    if shown != text:
        try_folded(count, name, shown, calls)
    if is_written:
        kept.write_text(shown, encoding="utf-8")
    count.expect(kept.exists() and kept.read_text(encoding="utf-8") == shown, f"docs/pictures/{name}.svg is not what is drawn today: run share/test-draw.py --write")
    return number(Picture(shown).root, "width")


def try_witness(count, program, browser, path, is_written):
    """The picture of the witness of a history."""
    name, witness = f"{path.stem}-witness", asked(program, "shrink", path)[1]
    text, report, said = (asked(program, *words, given=witness)[1] for words in (("draw", "--svg"), ("check",), ("explain",)))
    try_picture(count, name, text, witness, report, said.splitlines())
    width = try_kept(count, browser, name, text, calls_of(witness), is_written)
    count.expect(width <= WIDEST, f"{name}: it is {width} wide")
    return name


def try_example(count, program, browser, path, is_written):
    """Everything that is tried on a history; the names of its pictures are returned."""
    name, history, report = path.stem, path.read_text(), path.with_suffix(".report").read_text()
    status, picture_text = draw(program, path, "--svg")
    count.same(status, subprocess.run([program, "check", path], capture_output=True, check=False).returncode, f"{name}: status")
    if report.startswith("refused"):
        explanation = subprocess.run([program, "explain", path], capture_output=True, text=True, check=False).stdout
        count.same(picture_text, explanation, f"{name}: what is written of a text that is not a history")
        return []
    page_status, page = draw(program, path)
    count.same(page_status, status, f"{name}: status of the page")
    count.expect(picture_text.strip() in page, f"{name}: the page has another picture")
    try_picture(count, name, picture_text, history, report, explained(program, path))
    try_alone(count, name, page)
    try_schemes(count, program, path, status, picture_text, page)
    try_text(count, program, path, status)
    calls = calls_of(history)
    if browser:
        try_browser(count, browser, name, page, calls, faults_of(report, calls)[0])
    else:
        count.skip(f"{name}: the page in a browser, since chromium is not here")
    is_wide = try_kept(count, browser, name, picture_text, calls, is_written) > WIDEST
    return [name, try_witness(count, program, browser, path, is_written)] if is_wide else [name]


def lightness(colour):
    """How light a colour is, as the guidelines for readable pages count it."""
    parts = [int(colour[at:at + 2], 16) / 255 for at in (1, 3, 5)]
    red, green, blue = (it / 12.92 if it <= 0.03928 else ((it + 0.055) / 1.055) ** 2.4 for it in parts)
    return 0.2126 * red + 0.7152 * green + 0.0722 * blue + 0.05


def try_scheme(count, where, picture, scheme):
    """The ground is light or dark, what is read stands out from it, and the only id names the scheme."""
    ground = next(it.get("fill") for it in picture.root.iter() if it.get("class") == "ground")
    count.same(lightness(ground) < 0.2, scheme == "dark", f"{where}: its ground is {ground}")
    count.same(picture.document_ids, {f"snapjudge-{scheme}"}, f"{where}: its ids")
    for it in picture.root.iter():
        for colour in {it.get("fill"), it.get("stroke")} - {None, "none", ground}:
            if colour.startswith("#") and not PALE & set(it.get("class", "").split()):
                low, high = sorted(map(lightness, (ground, colour)))
                count.expect(high / low >= CONTRAST, f"{where}: {it.get('class')} has {colour} on {ground}")


def without_colours(text):
    return re.sub("#[0-9a-f]{6}|snapjudge-(?:light|dark)", "", text)


def try_schemes(count, program, path, status, picture_text, page):
    """With --light and --dark a picture and a page are the same but for their colours, whatever the reader's system is."""
    for scheme in SCHEMES:
        where, word = f"{path.stem}, {scheme}", f"--{scheme}"
        svg_status, text = draw(program, path, "--svg", word)
        picture = picture_of(count, where, text)
        count.same(svg_status, status, f"{where}: status")
        count.same(without_colours(text), without_colours(picture_text), f"{where}: a picture with other shapes")
        if picture:
            try_scheme(count, where, picture, scheme)
        asked_status, asked_page = draw(program, path, word)
        count.same(asked_status, status, f"{where}: status of the page")
        count.same(re.findall("color-scheme: ([a-z ]+)", asked_page), [scheme, "light"], f"{where}: the schemes of its page, on a screen and on paper")
        count.same(asked_page.partition("</style>")[2], page.partition("</style>")[2], f"{where}: a page with another body")
    count.same(draw(program, path, "--svg", "--light")[1], picture_text, f"{path.stem}: a picture is light if nothing is asked")


def try_text(count, program, path, status):
    """The picture by lines, alone, below an explanation, and of a witness."""
    name, calls, said = f"{path.stem}, by lines", calls_of(path.read_text()), explained(program, path)
    faults, order = faults_of(path.with_suffix(".report").read_text(), calls)
    text_status, text = draw(program, path, "--text")
    count.same(text_status, status, f"{name}: status")
    count.same(text.split("\n")[0], said[0].split(":")[0], f"{name}: verdict")
    if len(calls) <= MOST_IN_LINES:
        try_lines(count, name, text, calls, faults, order, said)
    explanation = asked(program, "explain", path)[1]
    beside_status, beside = asked(program, "explain", "--draw", path)
    sentences = [line for line in said if line.split(":")[0] in faults]
    lanes = [line for line in text.split("\n\n", 1)[1].split("\n") if line and line not in sentences]
    count.same(beside_status, status, f"{name}: status of the explanation")
    count.expect(beside.startswith(explanation + "\n"), f"{name}: the explanation is not above the picture")
    count.same([line for line in beside[len(explanation):].split("\n") if line], lanes, f"{name}: the picture below the explanation")
    witness_status, witness = asked(program, "shrink", "--draw", path)
    count.same(witness_status, status, f"{name}: status of the picture of the witness")
    try_beside(count, program, name, path, witness)


def try_beside(count, program, name, path, text):
    """The picture of a witness: beside the numbers of its calls stand those of the run, and an atomic run is left whole."""
    sources = kept_of(path.with_suffix(".report").read_text(), calls_of(path.read_text()))
    witness = asked(program, "shrink", path)[1]
    report, said = (asked(program, word, given=witness)[1] for word in ("check", "explain"))
    faults, order = faults_of(report, calls_of(witness))
    if sources:
        count.same(text.split("\n")[0], said.split("\n")[0], f"{name}: verdict of its witness")
        try_lines(count, f"{name}, its witness", text, calls_of(witness), faults, order, said.splitlines(), sources)
    else:
        count.same(text, asked(program, "draw", "--text", path)[1], f"{name}: the picture of a run that is left whole")


def try_picture(count, name, text, history, report, said):
    """Everything that is said of a picture of a history."""
    calls = calls_of(history)
    faults, order = faults_of(report, calls)
    picture = picture_of(count, name, text)
    try_alone(count, name, text)
    if picture:
        count.same(picture.document_ids, {"snapjudge-light"}, f"{name}: ids, which two pictures of one document would share")
    if picture and try_calls(count, name, picture, calls, faults, said):
        try_overlap(count, name, picture, calls)
        try_faults(count, name, picture, faults, said)
        try_order(count, name, picture, order)
        try_backs(count, name, picture, order)


def explained(program, path):
    return subprocess.run([program, "explain", path], capture_output=True, text=True, check=False).stdout.splitlines()


def try_other_tests(count, program, browser):
    """The same on an order, and on colours."""
    path = TOP / "examples/atomic-run.csv"
    history, report = path.read_text(), path.with_suffix(".report").read_text()
    text, said = draw(program, path, "--svg")[1], explained(program, path)
    for what, (old, new) in WRONG_ORDERS.items():
        wrong, found = re.sub(old, new, text, count=1, flags=re.S), Count()
        with contextlib.redirect_stdout(io.StringIO()):
            try_picture(found, what, wrong, history, report, said)
        count.expect(wrong != text and found.failed > 0, f"a picture is not found wrong where {what}")
    text = draw(program, TOP / "examples/recorded-1.csv", "--svg")[1]
    for what, (old, new) in WRONG_COLOURS.items() if browser else ():
        wrong, found = re.sub(old, new, text, count=1, flags=re.S), Count()
        with contextlib.redirect_stdout(io.StringIO()):
            try_colours(found, browser, what, wrong)
        count.expect(wrong != text and (found.failed > 0 or found.skipped > 1), f"colours are not found wrong where {what}")


def try_tests(count, program, browser):
    """Tries the tests on pictures that are wrong."""
    path = TOP / "examples/new-old-inversion.csv"
    history, report = path.read_text(), path.with_suffix(".report").read_text()
    text, said, calls = draw(program, path, "--svg")[1], explained(program, path), calls_of(history)
    faults, order = faults_of(report, calls)
    for what, (old, new) in WRONG.items():
        wrong, found = re.sub(old, new, text, count=1, flags=re.S), Count()
        with contextlib.redirect_stdout(io.StringIO()):
            try_picture(found, what, wrong, history, report, said)
        count.expect(wrong != text and found.failed > 0, f"a picture is not found wrong where {what}")
    try_other_tests(count, program, browser)
    for what, (old, new) in WRONG_FOLDED.items():
        wrong, found = re.sub(old, new, folded(text), count=1, flags=re.S), Count()
        with contextlib.redirect_stdout(io.StringIO()):
            try_folded(found, what, wrong, calls)
        count.expect(wrong != folded(text) and found.failed > 0, f"a folded picture is not found wrong where {what}")
    page = draw(program, path)[1]
    for what, (old, new) in WRONG_PAGES.items() if browser else ():
        wrong, found = re.sub(old, new, page, count=1, flags=re.S), Count()
        with contextlib.redirect_stdout(io.StringIO()):
            try_browser(found, browser, what, wrong, calls, faults)
        count.expect(wrong != page and found.failed > 0, f"a page is not found wrong where {what}")
    lines = draw(program, path, "--text")[1]
    for what, (old, new) in WRONG_LINES.items():
        wrong, found = re.sub(old, new, lines, count=1, flags=re.S), Count()
        with contextlib.redirect_stdout(io.StringIO()):
            try_lines(found, what, wrong, calls, faults, order, said)
        count.expect(wrong != lines and found.failed > 0, f"lines are not found wrong where {what}")
    path = TOP / "examples/recorded-1.csv"
    lines = asked(program, "shrink", "--draw", path)[1]
    for what, (old, new) in WRONG_BESIDE.items():
        wrong, found = re.sub(old, new, lines, count=1, flags=re.S), Count()
        with contextlib.redirect_stdout(io.StringIO()):
            try_beside(found, program, what, path, wrong)
        count.expect(wrong != lines and found.failed > 0, f"the picture of a witness is not found wrong where {what}")


def try_longest(count, program):
    """A picture of the longest history is a window with the fault's calls in it, within the bytes that a page may have."""
    overlapping = "".join(f"begin,{1 + n % 2},view,\nend,{1 + n % 2},view,0:1:7\n" for n in range((MOST_EVENTS - 4) // 2))
    text = "event,process,op,data\nbegin,0,update,0:1:7\n" + overlapping + "begin,3,view,\nend,3,view,\nend,0,update,\n"
    with tempfile.TemporaryDirectory() as room:
        path = pathlib.Path(room, "long.csv")
        path.write_text(text)
        status, page = draw(program, path)
        picture = picture_of(count, "the longest history", draw(program, path, "--svg")[1])
        lines = LinePicture(draw(program, path, "--text")[1])
    if not picture:
        return
    last = (MOST_EVENTS - 4) // 2 + 2
    try_pieces(count, "the longest history", page, calls_of(text))
    marked = {it for it in picture.ids("call-") if "fault-read" in picture.classes(f"call-{it}")}
    count.same(status, 1, "the longest history: status")
    count.same(marked, {"1", "2", str(last)}, "the longest history: calls of the fault")
    count.expect(len(picture.ids("call-")) <= MOST_CALLS, f"the longest history: {len(picture.ids('call-'))} calls are drawn")
    cut = {line.split()[1] for line in lines.cut}
    drawn = {bar.label.split()[0] for bar in lines.bars} | cut
    count.expect(len(lines.bars) <= MOST_IN_LINES and {"1", "2", str(last)} <= drawn, f"the longest history: by lines {drawn} are drawn")
    count.same(lines.left_out, (len(lines.bars), last - len(lines.bars)), "the longest history: calls that the lines leave out")
    count.expect(len(page.encode()) <= MOST_BYTES, f"the longest history: its page has {len(page.encode())} bytes")


def main(words):
    is_written = words[:1] == ["--write"]
    program = pathlib.Path(words[is_written] if words[is_written:] else TOP / "snapjudge").resolve()
    count, chromium = Count(), shutil.which("chromium") or shutil.which("chromium-browser")
    browser = Browser(chromium, LONGEST) if chromium else None
    PICTURES.mkdir(exist_ok=True)
    try:
        try_tests(count, program, browser)
        try_long(count, lambda path, *words: draw(program, path, *words), browser, lambda *words: asked(program, *words))
        kept = [name for path in sorted((TOP / "examples").glob("*.csv")) for name in try_example(count, program, browser, path, is_written)]
    finally:
        if browser:
            browser.end()
    count.same(sorted(it.name for it in PICTURES.iterdir()), sorted(f"{name}.svg" for name in kept), "the files of docs/pictures")
    try_longest(count, program)
    return count.end()


if __name__ == "__main__":
    sys.exit(main(sys.argv[1:]))
