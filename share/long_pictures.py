"""Pictures of long histories, as test-draw.py tries them: which calls a window has, which a page holds, and how it goes through them."""
import contextlib
import io
import pathlib
import re
import tempfile

from pictures import Picture, calls_of, faults_of

TOP = pathlib.Path(__file__).resolve().parent.parent
ASKED = TOP / "share/test-draw-long.js"
# The usual number of calls on a page, and the most that it holds.
PAGE, MOST = 60, 2000
# How many calls the histories have, and the view of one that makes a fault.
CALLS, FAULT = 300, 201
PIECE = re.compile(r"<template data-first='(\d+)' data-last='(\d+)' data-from='(\d+)'>(<svg.*?</svg>\n)</template>\n", re.S)
HELD = re.compile(r"This page holds the calls (\d+) to (\d+) of (\d+), in pictures of (\d+)\. It leaves out (\d+) calls\.")

# What is changed in the page of a long history, so that it is wrong.
WRONG_LONG = {
    "a piece is left out": (r"<template data-first='61'.*?</template>\n", ""),
    "a piece says another first call": ("<template data-first='61'", "<template data-first='62'"),
    "a call of a piece is left out": (r"""(<template data-first='61'.*?)<g class="call[^>]*>.*?</g>\n""", r"\1"),
    "the page says that it holds fewer calls": ("It leaves out 0 calls", "It leaves out 1 calls"),
}
# The same in a browser, in a page with an order and in one with a fault.
WRONG_LONG_SHOWN = {
    False: {
        "later goes back": (r"turn\(1\)", "turn(-1)"),
        "an update of the order is left out": (r" \d+:0:8:\d+", ""),
    },
    True: {
        "the next fault is the one before": (r"seek\(1\)", "seek(-1)"),
        "a box hides nothing": (r"hidden\.add\(mark\.dataset\.id\)", "hidden.has(mark.dataset.id)"),
        "no reason is told": ("class='why'", "class='whom'"),
    },
}


def long_run(is_faulty):
    """A history of CALLS calls: pairs of an update and of a view that overlaps it. Two views of a faulty one see it the wrong way round."""
    rows, board = ["event,process,op,data"], {}
    shown = lambda: " ".join(f"{k}:{n}:{n * 7}" for k, n in sorted(board.items()))
    while len(rows) < 2 * CALLS:
        k, before = len(rows) // 4 % 3, shown()
        board[k] = board.get(k, 0) + 1
        rows += [f"begin,{k},update,{k}:{board[k]}:{board[k] * 7}", "begin,3,view,", f"end,3,view,{shown()}"]
        if is_faulty and len(rows) // 2 + 1 == FAULT:
            rows += ["begin,4,view,", f"end,4,view,{before}"]
        rows += [f"end,{k},update,"]
    return "\n".join(rows) + "\n"


def around(call, count, all_calls):
    """The calls of a window around a call."""
    first = max(0, min(call - 1 - count // 2, all_calls - count))
    return set(range(first + 1, min(first + count, all_calls) + 1))


def windows(all_calls):
    """Words that choose a window, and the calls that it has."""
    yield ("--from", "100", "--calls", "20"), set(range(100, 120))
    yield ("--from", str(all_calls)), {all_calls}
    yield ("--calls", "7", "--from", "1"), set(range(1, 8))
    yield ("--around", "100", "--calls", "40"), around(100, 40, all_calls)
    yield ("--around", "3"), set(range(1, PAGE + 1))
    yield ("--around", str(all_calls), "--calls", "21"), set(range(all_calls - 20, all_calls + 1))
    yield ("--calls", "2000"), set(range(1, all_calls + 1))


def try_windows(count, draw, path, all_calls):
    for words, wanted in windows(all_calls):
        picture = Picture(draw(path, "--svg", *words)[1])
        count.same(picture.ids("call-"), set(map(str, wanted)), f"{path.stem}: the calls of {words}")
    drawn = re.findall(r"[\[(]!?(\d+) ", draw(path, "--text", "--calls", "3", "--from", "7")[1])
    count.same(sorted(drawn[:3]), ["7", "8", "9"], f"{path.stem}: the calls of lines")
    for option in ("--from", "--around"):
        status, text = draw(path, option, str(all_calls + 1))
        count.same((status, text), (5, ""), f"{path.stem}: {option} a call that there is not")


def try_pieces(count, name, page, calls, most=MOST):
    """The pieces of a page are pictures of consecutive calls, and the page says which calls they have."""
    found = HELD.search(page)
    if not found:
        count.expect(False, f"{name}: the page does not say what it holds")
        return
    first, last, all_calls, size, left_out = map(int, found.groups())
    pieces = [(int(one), int(other), int(place), Picture(text)) for one, other, place, text in PIECE.findall(page)]
    count.same((all_calls, left_out), (len(calls), len(calls) - (last - first + 1)), f"{name}: calls, and those that are left out")
    count.expect(last - first + 1 <= most, f"{name}: it holds {last - first + 1} calls")
    count.expect(left_out == 0 or last - first + 1 == most, f"{name}: it holds only {last - first + 1} calls")
    count.same([it[:2] for it in pieces], [(it, min(it + size - 1, last)) for it in range(first, last + 1, size)], f"{name}: the pieces")
    for one, other, place, picture in pieces:
        count.same(picture.ids("call-"), {str(it) for it in range(one, other + 1)}, f"{name}: the calls from {one} to {other}")
        count.same(place, calls[one].begin - 2 if one in calls else None, f"{name}: where call {one} begins")


def boards_of(calls, order):
    """The board after each call of an order, as a page says it."""
    board, found = {}, {}
    for number in order:
        if calls[number].kind == "update":
            component = int(calls[number].data.split(":")[0])
            board[component] = calls[number].data
        found[str(number)] = "the board after it: " + (" ".join(it for _, it in sorted(board.items())) or "no entry")
    return found


def try_shown_long(count, browser, name, page, calls, faults, order):
    """What the script of a page does: it goes from piece to piece and from fault to fault, hides marks, and shows boards."""
    with tempfile.TemporaryDirectory() as room:
        path = pathlib.Path(room, "page.html")
        path.write_text(page, encoding="utf-8")
        found = browser.ask(path.as_uri(), 1400, "light", ASKED.read_text(encoding="utf-8"))
    if not found:
        count.expect(False, f"{name}: the page did not answer")
        return
    first, last = found["first"][0] - 1, found["first"][-1] - 1
    at = last // PAGE
    piece = lambda place: [f"calls {place * PAGE + 1} to {min(len(calls), place * PAGE + PAGE)} of {len(calls)}",
                           list(range(place * PAGE + 1, min(len(calls), place * PAGE + PAGE) + 1))]
    count.same(found["later"], piece(at), f"{name}: later")
    count.same(found["again"], piece(min(at + 1, (len(calls) - 1) // PAGE)), f"{name}: later once more")
    count.same(found["back"], ["the first picture", found["first"]], f"{name}: the first picture")
    count.same(found["earlier"], piece(first // PAGE), f"{name}: earlier")
    count.same(found["struck"], piece((len(calls) - 1) // PAGE), f"{name}: a click on the end of the strip")
    count.same(found["loaded"], 0, f"{name}: what was loaded")
    boards = boards_of(calls, order)
    count.same(found["boards"], {it: boards[it] for it in found["boards"]}, f"{name}: boards")
    count.same(set(found["boards"]), {it for it in map(str, found["looked"]) if it in boards}, f"{name}: calls with a board")
    marked = sorted({it for members in faults.values() for it in members})
    turns = [marked[at % len(marked)] for at in (0, 1, 2, 1)] if marked else []
    count.same(found["faults"], turns, f"{name}: next fault and previous fault")
    count.same(found["marked"], [len(marked), 0, len(marked)] if marked else [0, 0, 0], f"{name}: marks, hidden and shown")
    if marked:
        numbers = re.findall(r"component (\d+)", found["why"])
        count.expect(all(f"call {it} of process" in found["why"] for it in marked), f"{name}: the calls of the fault are not told: {found['why']}")
        count.expect(numbers and "update" in found["why"].split("view", 1)[1], f"{name}: the updates of the fault are not told: {found['why']}")


def try_wide(count, draw):
    """The label of a wide view of a fault has the entries that matter."""
    rows = "".join(f"begin,0,update,{k}:1:7\nend,0,update,\n" for k in range(20))
    shown = " ".join(f"{k}:1:{8 if k == 3 else 7}" for k in range(20))
    with tempfile.TemporaryDirectory() as room:
        path = pathlib.Path(room, "wide.csv")
        path.write_text(f"event,process,op,data\n{rows}begin,1,view,\nend,1,view,{shown}\n")
        picture = Picture(draw(path, "--svg")[1])
    count.same(picture.text("call-21", "text", "label"), "21 view 3:1:8 and 19 more entries", "a wide view: its label")
    count.expect(picture.text("call-21", "title").endswith(shown), "a wide view: its title")


def try_long(count, draw, browser, asked):
    """Tries long histories, and the tests of them on pages that are wrong."""
    try_wide(count, draw)
    for is_faulty in (False, True):
        name, text = "a long history with a fault" if is_faulty else "a long history", long_run(is_faulty)
        with tempfile.TemporaryDirectory() as room:
            path = pathlib.Path(room, f"{name}.csv")
            path.write_text(text)
            calls, page = calls_of(text), draw(path)[1]
            faults, order = faults_of(asked("check", path)[1], calls)
            try_windows(count, draw, path, len(calls))
        count.same((bool(faults), bool(order)), (is_faulty, not is_faulty), f"{name}: faults and order")
        try_pieces(count, name, page, calls)
        for what, (old, new) in WRONG_LONG.items():
            wrong, found = re.sub(old, new, page, count=1, flags=re.S), type(count)()
            with contextlib.redirect_stdout(io.StringIO()):
                try_pieces(found, what, wrong, calls)
            count.expect(wrong != page and found.failed > 0, f"{name}: a page is not found wrong where {what}")
        if not browser:
            count.skip(f"{name}: the page in a browser, since chromium is not here")
            continue
        try_shown_long(count, browser, name, page, calls, faults, order)
        for what, (old, new) in WRONG_LONG_SHOWN[is_faulty].items():
            wrong, found = re.sub(old, new, page, count=1, flags=re.S), type(count)()
            with contextlib.redirect_stdout(io.StringIO()):
                try_shown_long(found, browser, what, wrong, calls, faults, order)
            count.expect(wrong != page and found.failed > 0, f"{name}: a page is not found wrong where {what}")
