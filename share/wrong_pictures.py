"""Pictures that are wrong: what test-draw.py changes in right ones, each as a pattern and what comes in its place."""

# What is changed in the picture of new-old-inversion, so that it is wrong.
WRONG = {
    "a call is left out": (r'<g class="call[^>]*data-id="call-3".*?</g>', ""),
    "a call stands twice": (r'(<g class="call[^>]*data-id="call-2".*?</g>)', r"\1\1"),
    "a call has another number": (r'data-id="call-3"', 'data-id="call-4"'),
    "a bar ends at the next event": (r'(data-id="call-1".*?width=")\d+', r"\g<1>48"),
    "a bar begins too early": (r'(data-id="call-3".*?<rect class="bar" x=")\d+', r"\g<1>100"),
    "a bar lies in the lane of a neighbour": (r'(data-id="call-3".*?<rect[^>]*y=")\d+', r"\g<1>168"),
    "the second call of a fault is not marked": (r'call view fault-read" data-id="call-3"', 'call view" data-id="call-3"'),
    "the update that shows a fault is not marked": (r'call update fault-read" data-id="call-1"', 'call update" data-id="call-1"'),
    "a call is marked as one of a fault that there is not": (r'call update fault-read" data-id="call-1"', 'call update fault-read fault-write" data-id="call-1"'),
    "a marked call has no tag": (r'(data-id="call-3".*?)<text class="tag".*?</text>', r"\1"),
    "a call that ended is open": (r'call view fault-read" data-id="call-2"', 'call view pending fault-read" data-id="call-2"'),
    "a title has another entry": (r"view 0:1:7</title>", "view 0:1:8</title>"),
    "a call has other records": (r'data-records="3-4"', 'data-records="3-5"'),
    "a label covers another": (r'(<text class="label" x=")\d+(" y=")\d+(">3 view)', r"\g<1>136\g<2>163\3"),
    "a label leaves the picture": (r'(<text class="label" x=")\d+(" y="\d+">3 view)', r"\g<1>5000\2"),
    "a fault has no sentence": (r'<g class="mark".*?</g>', ""),
    "a fault has another sentence": (r">read: view 2 shows more of component 0", ">read: view 2 shows more of component 1"),
    "a fault is not in the strip": (r'<path class="tick[^>]*/>', ""),
    "an order is drawn of what has none": ("</svg>", '<text data-id="place-1" x="0" y="0">1</text></svg>'),
    "a font is loaded": ('<rect class="ground"', '<style>@import url(https://example.org/font.css);</style><rect class="ground"'),
}

# The same in the picture of atomic-run, which has an order.
WRONG_ORDERS = {
    "a call of no fault is marked": (r'call update" data-id="call-1"', 'call update fault-read" data-id="call-1"'),
    "no ground is behind the labels": (r'<g data-id="backs".*?</g>', ""),
    "no ground is behind one label": (r'(<g data-id="backs"[^>]*>)<rect[^>]*/>', r"\1"),
    "no ground is behind one place": (r'<rect[^>]*/></g>\n<g class="call', '</g>\n<g class="call'),
    "the ground behind a label covers a bar": (r'(<g data-id="backs".*?height=")13', r"\g<1>20"),
    "a place is not in its bar": (r"L 248 235", "L 248 177"),
}

# The colours of recorded-1 that no other program sees, or sees otherwise than the browser.
WRONG_COLOURS = {
    "a bar has its colour from a style": (r' fill="#2c69a8" stroke="#2c69a8"', ' style="fill: var(--none, #2c69a8)"'),
    "a sentence has its colour from a style": (r'(<g class="mark"[^>]*) fill="#b3261e"', r'\1 style="fill: var(--none, #b3261e)"'),
    "the edge of a fault has its colour from a style": (r' stroke="#b3261e" stroke-width="3.5"', ' style="stroke: var(--none, #b3261e)" stroke-width="3.5"'),
    "a mark in the strip has its colour from a style": (r'(class="tick[^>]*) stroke="#b3261e"', r'\1 style="stroke: var(--none, #b3261e)"'),
}

# What is changed in its folded picture.
WRONG_FOLDED = {
    "a line is left out": (r'<text x="8" y="\d+">[^<]*</text></g>', "</g>"),
    "a line covers another": (r'y="\d+">and had', 'y="296">and had'),
    "a line is too long": (r">and had ended[^<]*", ">and had ended before that view began, and this is more than fits"),
    "the picture is not higher": (r'height="326"', 'height="300"'),
}

# What is changed in the page of new-old-inversion, so that it is wrong at one width at least, or in one scheme.
WRONG_PAGES = {
    "a dark page has dark words": ("--quiet: #a3adb8", "--quiet: #444c55"),
    "a light page has light bars": ("--update: #2c69a8", "--update: #c3d9f0"),
    "no page is dark": ("prefers-color-scheme: dark", "prefers-color-scheme: none"),
    "a narrow page is too wide": ("#help {", "#help { width: 500px;"),
    "letters are too small": ("font: 11px", "font: 7px"),
    "a label lies over a bar": (r'(<text class="label" x="\d+" y=")\d+', r"\g<1>122"),
    "a legend is missing": (r"<li data-of='.view'>.*?</li>", ""),
    "the panel is wrong": ("said.match", "''.match"),
    "a page loads something": ("<h1 id", "<img src='no.png'><h1 id"),
    "a script fails": ("const by =", "const const by ="),
}
