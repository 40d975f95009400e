#!/usr/bin/env python3
"""Compares the objects of `check --format json` with the reports and the explanations of the same histories.

usage: compare-json.py PROGRAM FILE..

Says each difference on a line; the status is 1 if there is one.
"""
import json
import re
import subprocess
import sys

COMPARED = re.compile(r"^  view \d+ shows (.*); view \d+ shows (.*)$", re.MULTILINE)
KINDS = ("integrity", "proximity", "read", "write")
CALL = re.compile(
    r"  call (?P<call>\d+) of process (?P<process>\d+), (?:records (?P<begin>\d+) and (?P<end>\d+)|record (?P<only>\d+), pending): "
    r"(?P<op>update|view)(?P<entries>( \d+:\d+:\d+)*)"
)


def said(program, *words):
    """What the program writes, and its status."""
    run = subprocess.run([program, *words], stdin=subprocess.DEVNULL, capture_output=True, check=False)
    return run.stdout.decode(), run.returncode


def numbers(word):
    return [int(number) for number in word.split(":")]


def entry_of(word):
    return dict(zip(("component", "number", "value"), numbers(word)))


def call_of(line):
    """The call of a line of an explanation."""
    found = CALL.fullmatch(line)
    return {
        "call": int(found["call"]),
        "process": int(found["process"]),
        "op": found["op"],
        "begin": int(found["begin"] or found["only"]),
        "end": int(found["end"]) if found["end"] else None,
        "entries": [entry_of(word) for word in found["entries"].split()],
    }


def calls_by_kind(explanation):
    """The calls after each sentence of an explanation."""
    calls = {}
    for line in explanation.splitlines():
        kind, colon, _ = line.partition(":")
        if colon and kind in KINDS:
            calls[kind] = []
        elif line.startswith("  call ") and calls:
            calls[list(calls)[-1]].append(call_of(line))
    return calls


def named(word, call):
    component, number = numbers(word)
    return {"component": component, "number": number, "update": call}


def differences(compared, updates):
    """The objects of where two views differ, by the line that compares their numbers, and by the updates of these."""
    both = [[numbers(word) for word in shown.split(" and ")] for shown in compared]
    found = []
    for (component, number), (_, other) in zip(*both):
        of_greater = [it for it in updates if (it["entries"][0]["component"], it["entries"][0]["number"]) == (component, max(number, other))]
        update = of_greater[0] if of_greater else None
        found.append({"component": component, "view_number": number, "other_number": other, "update": update})
    return found


def fault_of(words, calls, compared):
    """The object of a fault, by the words of its line, by its calls, and by the line that compares its views."""
    fault = {"count": int(words[1]), "view": calls[0]}
    other = calls[1] if len(calls) > 1 else None
    if words[0] == "integrity":
        return fault | {"entry": entry_of(words[6]), "update": other}
    if words[0] == "proximity":
        component, number = numbers(words[6])
        return fault | {"component": component, "number": number, "side": words[7], "update": other}
    if words[0] == "read":
        return fault | {"other": other, "component": int(words[8]), "differs": differences(compared, calls[2:])}
    return fault | {"misses": named(words[6], other), "shows": named(words[8], calls[2])}


def wanted(program, name):
    """The object that the report and the explanation of a text ask for."""
    report, status = said(program, "check", name)
    explanation, _ = said(program, "explain", name)
    found = {"name": name, "status": status}
    lines = [line.split() for line in report.splitlines()]
    if lines[0][0] == "refused":
        return found | {"refused": {"record": int(lines[0][2].rstrip(":")), "fault": lines[0][3]}}
    found |= {key: int(number) for key, number in zip(lines[0][::2], lines[0][1::2])}
    found |= {words[0]: words[1] == "yes" for words in lines[1:4]}
    found |= dict.fromkeys(KINDS)
    calls = calls_by_kind(explanation)
    compared = COMPARED.search(explanation)
    shown = compared.groups() if compared else ()
    return found | {words[0]: fault_of(words, calls[words[0]], shown) for words in lines[4:] if words[0] in KINDS}


def main(program, *names):
    text, status = said(program, "check", "--format", "json", *names)
    objects = [json.loads(line) for line in text.splitlines()]
    differences = [] if len(objects) == len(names) else [f"{len(objects)} objects of {len(names)} files"]
    for name, found in zip(names, objects):
        if found != wanted(program, name):
            differences.append(f"{name}: {json.dumps(found)}")
    if status != max(found["status"] for found in objects):
        differences.append(f"status {status}")
    print("".join(f"{line}\n" for line in differences), end="")
    return 1 if differences else 0


if __name__ == "__main__":
    sys.exit(main(*sys.argv[1:]))
