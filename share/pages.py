"""The pages and the notebooks of this tree: their blocks, links, paths and sentences."""
import json
import os
import pathlib
import re
import shutil

from crates import TOP

# What is not a page and goes into no copy.
BUILT = {".git", "out", "target", "dist", "__pycache__"}

FENCE = re.compile(r"^( *)```(.*)$")
LINK = re.compile(r"!?\[((?:[^\[\]]|\[[^\]]*\])*)\]\(([^()\s]+)\)")
CODE = re.compile(r"(`+)(.+?)\1")
PATH = re.compile(r"(?:(?:crates|docs|bench|ffi|sweep|examples)/[\w./-]*\w|share/[\w.-]*\w)")


class Block:
    """A fenced block of a page: the words of its mark, and its lines."""

    def __init__(self, page, line, words):
        self.page, self.line, self.words, self.lines = page, line, words, []

    @property
    def is_dialogue(self):
        return self.words[:1] == ["console"]

    def file(self):
        """The name of the file that it shows, or none."""
        return next((word.partition("=")[2] for word in self.words if word.startswith("file=")), None)

    def missing(self):
        """The first tool or file that its commands need and that is not there."""
        needs = [it for word in self.words if word.startswith("needs=") for it in word.partition("=")[2].split(",")]
        return next((it for it in needs if not shutil.which(it) and not (TOP / it).exists()), None)

    def commands(self):
        """Each command with its line and the lines that it shall write."""
        found = []
        for line, text in enumerate(self.lines, self.line + 1):
            if text.startswith("$ "):
                found.append((line, text[2:], []))
            elif found:
                found[-1][2].append(text)
        return found


def text_of(name):
    """The text of a page, or of the cells of text of a notebook."""
    text = (TOP / name).read_text(encoding="utf-8")
    if not name.endswith(".ipynb"):
        return text
    return "\n\n".join("".join(cell["source"]) for cell in json.loads(text)["cells"] if cell["cell_type"] == "markdown")


class Page:
    """A page: its blocks, and the text beside them."""

    def __init__(self, name, text=None):
        self.name, self.blocks, self.prose = name, [], []
        lines = (text_of(name) if text is None else text).splitlines()
        self.length = len(lines)
        inside = None
        for line, text in enumerate(lines, 1):
            fence = FENCE.match(text)
            if fence:
                indent = fence.group(1)
                inside = None if inside else Block(self, line, fence.group(2).split())
                self.blocks += [inside] if inside else []
            elif inside:
                inside.lines.append(text.removeprefix(indent))
            else:
                self.prose.append((line, text))
        self.is_whole = inside is None

    def headings(self):
        """The anchors of its headings, as they are made from their texts."""
        found = []
        for _, text in self.prose:
            if text.startswith("#"):
                plain = LINK.sub(r"\1", text.lstrip("#").strip()).replace("`", "").lower()
                anchor = re.sub(r"[^\w\- ]", "", plain).replace(" ", "-")
                times = sum(it == anchor or re.fullmatch(re.escape(anchor) + r"-\d+", it) is not None for it in found)
                found.append(f"{anchor}-{times}" if times else anchor)
        return found

    def links(self):
        for line, text in self.prose:
            for _, target in LINK.findall(CODE.sub(lambda it: "" if "](" in it.group(2) else it.group(), text)):
                yield line, target

    def paths(self):
        """The paths of the tree that it names in code."""
        for line, text in self.prose:
            for _, code in CODE.findall(text):
                if PATH.fullmatch(code):
                    yield line, code

    def sentences(self, with_tables=True):
        """Its sentences, each with a line: the cells of tables and the items of lists by themselves."""
        paragraph = []
        for line, text in [*self.prose, (self.length, "")]:
            starts = re.match(r"\s*(?:[-*] |\d+\. |\||#|<|$)", text)
            if starts and paragraph:
                yield from split(paragraph)
                paragraph = []
            if text.startswith("|"):
                for cell in text.strip("|").split("|") if with_tables else ():
                    yield from split([(line, cell)])
            elif text.strip() and not text.startswith(("#", "<")):
                paragraph.append((line, re.sub(r"^\s*(?:[-*] |\d+\. )", "", text)))


def split(paragraph):
    """The sentences of a paragraph: code counts as a word, and a colon ends none."""
    whole = " ".join(text.strip() for _, text in paragraph)
    whole = CODE.sub(lambda it: "`" + re.sub(r"[\s.:!?]", "_", it.group(2)) + "`", LINK.sub(r"\1", whole)).replace("**", "")
    for sentence in re.split(r"(?<=[.!?])[)*\"]* +(?=[\"(*]*[A-Z0-9_./`])", whole):
        if sentence.strip():
            yield paragraph[0][0], sentence.strip()


def all_pages():
    """The names of all pages and notebooks."""
    found = []
    for folder, folders, names in os.walk(TOP):
        at = pathlib.Path(folder).relative_to(TOP)
        # no part of a crate has a page, and what is built is not a page
        folders[:] = sorted(it for it in folders if it not in BUILT and not (at / it).as_posix() in ("ffi/build", "built"))
        if at.parts[:1] == ("crates",) and len(at.parts) == 2:
            folders[:] = []
        found += [(at / name).as_posix() for name in sorted(names) if name.endswith((".md", ".ipynb"))]
    return sorted(found)
