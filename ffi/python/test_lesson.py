"""Runs the lesson that is a notebook, examples/lesson.ipynb. What its cells show must be what its own text says, and pictures.

A block of text at the top of a cell of text is what the cell of code above it shows. A cell of code without such a block shows a picture
or nothing. The cells run here, one after the other with one set of names. If jupyter-nbconvert and a kernel are installed, they run the
notebook too.
"""
from __future__ import annotations

import ast
import contextlib
import io
import json
import os
import pathlib
import re
import shutil
import subprocess
import tempfile
import typing
import unittest
import xml.etree.ElementTree

HERE = pathlib.Path(__file__).resolve().parent
LESSON = HERE.parent.parent / "examples/lesson.ipynb"
METADATA = {"kernelspec": {"display_name": "Python 3", "language": "python", "name": "python3"}, "language_info": {"name": "python"}}
SVG = "{http://www.w3.org/2000/svg}svg"
# How long a kernel may take to start, and a cell to end, in seconds, on a machine that may be busy.
LONGEST = 600


class Wrong(AssertionError):
    """What is wrong with a notebook."""


class Shown(typing.NamedTuple):
    """What a cell shows: a text, and a picture or none."""

    text: str
    picture: str | None


def code_of(notebook):
    return [cell for cell in notebook["cells"] if cell["cell_type"] == "code"]


def judge_form(notebook):
    """It is clean: no output is stored, and nothing of the machine on which it was edited."""
    if (notebook["metadata"], notebook["nbformat"], notebook["nbformat_minor"]) != (METADATA, 4, 5):
        raise Wrong("other metadata")
    if len({cell["id"] for cell in notebook["cells"]}) != len(notebook["cells"]) or any(cell["metadata"] for cell in notebook["cells"]):
        raise Wrong("an id twice, or metadata of a cell")
    if any(cell["outputs"] or cell["execution_count"] is not None for cell in code_of(notebook)):
        raise Wrong("a stored output")


def told_after(cells, place):
    """The text that the block at the top of the next cell says."""
    after = "".join(cells[place + 1]["source"]) if place + 1 < len(cells) else ""
    block = re.match(r"```text\n(.*?)```$", after, re.DOTALL | re.MULTILINE)
    return block[1] if block else ""


def judge_shown(notebook, shown):
    """Each cell shows the text that the notebook says, and the cells that end with a verdict show its picture."""
    cells, found = notebook["cells"], iter(shown)
    for place, cell in enumerate(cells):
        if cell["cell_type"] != "code":
            continue
        it, wanted = next(found), told_after(cells, place)
        if it.text.rstrip("\n") != wanted.rstrip("\n"):
            raise Wrong(f"cell {cell['id']} shows {it.text!r}, and the notebook says {wanted!r}")
        is_drawn = it.picture is not None and xml.etree.ElementTree.fromstring(it.picture).tag == SVG
        if is_drawn != (cell["source"][-1] == "judged"):
            raise Wrong(f"the picture of cell {cell['id']}")


def run_cell(source, names):
    """What a cell of code shows, which may use and set these names."""
    parsed = ast.parse(source)
    last = parsed.body.pop() if isinstance(parsed.body[-1], ast.Expr) else None
    with contextlib.redirect_stdout(io.StringIO()) as written:
        exec(compile(parsed, "cell", "exec"), names)
        value = eval(compile(ast.Expression(last.value), "cell", "eval"), names) if last else None
    if hasattr(value, "_repr_svg_"):
        return Shown(written.getvalue(), value._repr_svg_())
    return Shown(written.getvalue() + ("" if value is None else repr(value)), None)


def run_here(notebook):
    names = {}
    return [run_cell("".join(cell["source"]), names) for cell in code_of(notebook)]


def shown_in(cell):
    """What a cell shows that a kernel has run."""
    data = [it["data"] for it in cell["outputs"] if it["output_type"] == "execute_result"]
    text = "".join(line for it in cell["outputs"] if it["output_type"] == "stream" for line in it["text"])
    picture = next(("".join(it["image/svg+xml"]) for it in data if "image/svg+xml" in it), None)
    return Shown(text + "".join(line for it in data if picture is None for line in it["text/plain"]), picture)


def in_home(room, *words):
    """Runs a command with a home of its own, and keeps what it writes."""
    path = os.pathsep.join(filter(None, [str(HERE), os.environ.get("PYTHONPATH")]))
    env = {**os.environ, "HOME": room, "PYTHONPATH": path, "PYTHONDONTWRITEBYTECODE": "1"}
    return subprocess.run(words, env=env, capture_output=True, text=True, check=False)


def has_kernel(room):
    """Whether jupyter-nbconvert is here, and a kernel for Python."""
    if not shutil.which("jupyter-nbconvert") or not shutil.which("jupyter"):
        return False
    ran = in_home(room, "jupyter", "--paths", "--json")
    return ran.returncode == 0 and any(pathlib.Path(it, "kernels/python3/kernel.json").exists() for it in json.loads(ran.stdout)["data"])


def run_by_kernel(room):
    """What the cells show when jupyter-nbconvert runs the notebook."""
    limits = [f"--ExecutePreprocessor.{it}={LONGEST}" for it in ("timeout", "startup_timeout")]
    into = ["--output-dir", room, "--output", "ran.ipynb"]
    ran = in_home(room, "jupyter-nbconvert", "--to", "notebook", "--execute", *limits, *into, str(LESSON))
    if ran.returncode != 0:
        raise Wrong(f"jupyter-nbconvert ends with {ran.returncode}: {ran.stderr}")
    return [shown_in(cell) for cell in code_of(json.loads(pathlib.Path(room, "ran.ipynb").read_text(encoding="utf-8")))]


class Lesson(unittest.TestCase):
    def setUp(self):
        self.text = LESSON.read_text(encoding="utf-8")
        self.notebook = json.loads(self.text)

    def test_it_is_clean(self):
        judge_form(self.notebook)
        self.assertEqual(self.text, json.dumps(self.notebook, indent=1, ensure_ascii=False) + "\n")

    def test_its_cells_show_what_it_says(self):
        shown = run_here(self.notebook)
        judge_shown(self.notebook, shown)
        self.assertEqual(sum(it.picture is not None for it in shown), 3)

    def test_a_kernel_shows_the_same(self):
        with tempfile.TemporaryDirectory() as room:
            if not has_kernel(room):
                self.skipTest("jupyter-nbconvert or a kernel is not here, and the cells ran without them")
            shown = run_by_kernel(room)
        judge_shown(self.notebook, shown)
        self.assertEqual(shown, run_here(self.notebook))

    def test_a_wrong_notebook_is_found(self):
        for old, new in (("atomic yes", "atomic no"), ("(3, 'view')", "(2, 'view')"), ("1 update {0: (1, 7)}", ""), ('"judged"', '"judged.status"'),
                         ("board.update(entries)", "pass"), ("end,2,view,0:1:3", "end,2,view,1:1:4")):
            self.assertIn(old, self.text)
            changed = json.loads(self.text.replace(old, new))
            with self.assertRaises(AssertionError, msg=new):
                judge_shown(changed, run_here(changed))
        for old, new in (('"outputs": []', '"outputs": [{}]'), ('"execution_count": null', '"execution_count": 1'), ('"id": "why"', '"id": "mine"'),
                         ('"name": "python3"', '"name": "other"')):
            self.assertIn(old, self.text)
            with self.assertRaises(Wrong, msg=new):
                judge_form(json.loads(self.text.replace(old, new)))


if __name__ == "__main__":
    unittest.main()
