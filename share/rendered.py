"""Pictures as programs draw them: their pixels, and which colours the parts of a picture have in them."""
import functools
import itertools
import pathlib
import shutil
import struct
import subprocess
import sys
import tempfile
import zlib

from pictures import SVG, Picture, bar_box, number, text_box

# Two programs may differ by this much in one of the three parts of a colour, from 0 to 255: of an even part, and of one that is no wider
# than its edges.
EVEN, THIN = 8, 80
MAKE = "import cairosvg, sys; sys.stdout.buffer.write(cairosvg.svg2png(bytestring=sys.stdin.buffer.read()))"


class Pixels:
    """The pixels of a PNG, of 8 bits and not interlaced, as the programs here write it."""

    def __init__(self, data):
        place, packed = 8, b""
        while place < len(data):
            size, kind = struct.unpack(">I4s", data[place:place + 8])
            body = data[place + 8:place + 8 + size]
            if kind == b"IHDR":
                self.width, self.height, depth, form, _, _, is_interlaced = struct.unpack(">IIBBBBB", body)
            packed += body if kind == b"IDAT" else b""
            place += size + 12
        if depth != 8 or is_interlaced or form not in (2, 6):
            raise ValueError(f"a PNG of {depth} bits and form {form}")
        self.each = 3 if form == 2 else 4
        self.rows = self.unpacked(zlib.decompress(packed))

    def unpacked(self, data):
        """The rows, of which each byte was written as its difference to its neighbours."""
        wide, rows, above = self.width * self.each, [], bytearray(self.width * self.each)
        for start in range(0, len(data), wide + 1):
            how, row = data[start], bytearray(data[start + 1:start + 1 + wide])
            for at in range(wide if how else 0):
                left, corner = (row[at - self.each], above[at - self.each]) if at >= self.each else (0, 0)
                row[at] = (row[at] + self.guess(how, left, above[at], corner)) & 255
            rows.append(row)
            above = row
        return rows

    @staticmethod
    def guess(how, left, up, corner):
        """What a byte is written as the difference to: of these kinds, 1 to 4, the last one takes the neighbour that fits best."""
        if how < 4:
            return (0, left, up, (left + up) // 2)[how]
        aim = left + up - corner
        return min((abs(aim - left), 0, left), (abs(aim - up), 1, up), (abs(aim - corner), 2, corner))[2]

    def at(self, across, down):
        """The colour of a pixel, over white."""
        place = int(across) * self.each
        red, green, blue, *alpha = self.rows[int(down)][place:place + self.each]
        shown = alpha[0] / 255 if alpha else 1
        return tuple(round(part * shown + 255 * (1 - shown)) for part in (red, green, blue))

    def strongest(self, box):
        """The colour of a box that differs most from white."""
        places = itertools.product(range(max(0, int(box.left)), min(self.width, int(box.right) + 1)), range(max(0, int(box.top)), min(self.height, int(box.bottom) + 1)))
        return min((self.at(*place) for place in places), key=sum)


def cairo_python():
    """A Python that has the module cairosvg, or none."""
    for python in (sys.executable, "/usr/bin/python3"):
        ran = subprocess.run([python, "-c", "import cairosvg"], capture_output=True, check=False) if shutil.which(python) else None
        if ran and ran.returncode == 0:
            return python
    return None


@functools.lru_cache(maxsize=None)
def programs():
    """The programs that draw a picture, by name; each takes SVG, and gives a PNG. None stands for one that is not here."""
    rsvg, cairo = shutil.which("rsvg-convert"), cairo_python()
    return {"rsvg": [rsvg] if rsvg else None, "cairosvg": [cairo, "-c", MAKE] if cairo else None}


def drawn_by(words, text):
    """The pixels of a picture by a program, or nothing if it can't draw it."""
    ran = subprocess.run(words, input=text.encode(), capture_output=True, check=False)
    return Pixels(ran.stdout) if ran.returncode == 0 else None


def colours_of(picture, pixels):
    """The colours of a picture's parts: of each bar its edge and what is in it, of each fault its sentence and its mark in the
    strip, and of each point of the order."""
    found = {}
    for call in picture.ids("call-"):
        box, part = picture.bar(call), picture.part(f"call-{call}", "rect", "bar")
        middle = (box.left + box.right) / 2
        is_dashed, is_hatched = part.get("stroke-dasharray"), bool({it for it in picture.classes(f"call-{call}") if it.startswith("fault-")})
        top = [pixels.at(across, box.top) for across in range(int(middle) - 5, int(middle) + 6)]
        found[f"call {call}, its edge"] = (min(top, key=sum) if is_dashed else pixels.at(middle, box.top), THIN)
        inside = [pixels.at(across, down) for across in range(int(middle) - 7, int(middle) + 7) for down in range(int(box.top) + 4, int(box.bottom) - 4)]
        mean = tuple(sum(part) // len(inside) for part in zip(*inside))
        found[f"call {call}, inside"] = (mean, THIN if is_hatched else EVEN)
    for kind in picture.ids("fault-"):
        sentence = picture.part(f"fault-{kind}", "text")
        found[f"{kind}, its sentence"] = (pixels.strongest(text_box(sentence, False)), THIN)
        tick = picture.part("strip", "path", f"fault-{kind}")
        across, top = map(float, tick.get("d").split()[1:3])
        found[f"{kind}, its mark"] = (pixels.at(across, top + 2), THIN)
    for place in picture.by.get("places", ()):
        if place.tag == SVG + "circle":
            found[f"the point at {place.get('cx')}"] = (pixels.at(number(place, "cx"), number(place, "cy")), EVEN)
    strip = bar_box(picture.part("strip", "rect", "all"))
    found["the strip"] = (pixels.at(strip.right - 1, (strip.top + strip.bottom) / 2), THIN)
    found["the verdict"] = (pixels.strongest(text_box(picture.by["verdict"], False)), THIN)
    return found


def differences(one, other):
    """The parts of a picture whose colours differ, by two answers of `colours_of`."""
    return [f"{part}: {colour} and {other[part][0]}" for part, (colour, may) in one.items() if max(abs(a - b) for a, b in zip(colour, other[part][0])) > may]


def shot(browser, text):
    """The pixels of a picture in the browser, or nothing."""
    with tempfile.TemporaryDirectory() as room:
        path = pathlib.Path(room, "picture.svg")
        path.write_text(text, encoding="utf-8")
        root = Picture(text).root
        data = browser.shot(path.as_uri(), int(number(root, "width")), int(number(root, "height")), "light")
    return data and Pixels(data)


def try_colours(count, browser, name, text):
    """Other programs draw the parts of a picture in the colours that the browser gives them."""
    pixels = browser and shot(browser, text)
    if browser and not pixels:
        count.expect(False, f"{name}: the browser did not draw it")
    for program, words in programs().items():
        if words and pixels:
            picture, drawn = Picture(text), drawn_by(words, text)
            found = drawn and differences(colours_of(picture, pixels), colours_of(picture, drawn))
            count.same(found, [], f"{name}: the colours of the browser, and of {program}")
        elif not browser or not words:
            count.skip(f"{name}: its colours by {program}, since {program if browser else 'chromium'} is not here")
