#!/usr/bin/env python3
"""Compares the documents of `check --format junit` with the statuses, reports and explanations of the same histories.

usage: compare-junit.py PROGRAM FILE..

Says each difference on a line; the status is 1 if there is one.
"""
import os
import subprocess
import sys
import tempfile
import xml.etree.ElementTree

BAD = "\ufffd"
# names with what XML takes for markup, and with what it can't have
NAMES = ("a<b.csv", "a&amp;b.csv", 'say "a" > b.csv', "it's.csv", "]]>.csv", "tab\tand\nline\r.csv", "\x01\x1b[31m\x7f.csv", "back\\x41.csv", "日本 é 😀.csv", "\ufffe.csv", "a\uffff\ufffd.csv", "\uffee.csv")
BYTES = (b"\xff.csv", b"\xef\xbf\xbe\xff.csv", b"\xed\xa0\x80<&.csv")


def run(program, *words):
    """What the program writes and says, and its status."""
    ended = subprocess.run([program, *words], stdin=subprocess.DEVNULL, capture_output=True, check=False)
    return ended.stdout, ended.stderr.decode(), ended.returncode


def shown(name):
    """A name as reports show it."""
    try:
        text, is_text = name.decode(), True
    except UnicodeDecodeError:
        text, is_text = name.decode("latin-1"), False
    escapes = {"\\": "\\\\", "\n": "\\n", "\r": "\\r"}
    return "".join(escapes.get(c) or (c if " " <= c < "\x7f" or is_text and c > "\x7f" else f"\\x{ord(c):02x}") for c in text)


def in_xml(text):
    """The characters of a text that XML can have."""
    return text.replace("\ufffe", BAD).replace("\uffff", BAD)


def wanted(program, name, *options):
    """The element, the sentences and the status that the case of a name has."""
    out, told, status = run(program, "check", *options, name)
    if status in (1, 2):
        return "failure", run(program, "explain", name)[0].decode(), status
    if status == 3 and not out:
        return "failure", told, status
    if status == 3:
        return "error", run(program, "explain", name)[0].decode(), status
    if status == 4:
        return "error", told.rstrip("\n").rpartition(": ")[2], status
    return None, "", status


def differences(program, names, *options):
    """What differs between the document of some names and the answers for each."""
    out, told, status = run(program, "check", "--format", "junit", *options, *names)
    _, plainly, plain = run(program, "check", *options, *names)
    if told != plainly and len(names) > 1:
        yield f"standard error has {told!r}, and not {plainly!r}"
    suite = xml.etree.ElementTree.fromstring(out)
    answers = [wanted(program, name, *options) for name in names]
    kinds = [kind for kind, _, _ in answers]
    head = {"name": "snapjudge", "tests": str(len(names)), "failures": str(kinds.count("failure")), "errors": str(kinds.count("error"))}
    if suite.tag != "testsuite" or suite.attrib != head:
        yield f"the suite {suite.tag} {suite.attrib} is not {head}"
    if status != max(code for _, _, code in answers) or status != plain:
        yield f"the status {status}"
    if len(suite) != len(names):
        yield f"{len(suite)} cases of {len(names)} names"
    for name, case, (kind, said, _) in zip(names, suite, answers):
        attributes = {"classname": "snapjudge", "time": "0", "name": in_xml(shown(os.fsencode(name)))}
        if case.tag != "testcase" or case.attrib != attributes:
            yield f"{name!r}: the case {case.tag} {case.attrib}"
        if [child.tag for child in case] != ([kind] if kind else []):
            yield f"{name!r}: its case has {[child.tag for child in case]}, and not {kind}"
        for child in case:
            if child.text != in_xml(said) or child.attrib != {"message": in_xml(said).partition("\n")[0]}:
                yield f"{name!r}: {child.attrib} {child.text!r} is not {said!r}"


def main():
    program, *files = sys.argv[1:]
    program = os.path.abspath(program)
    files = [os.path.abspath(file) for file in files]
    found = [*differences(program, files), *differences(program, files, "--views", "2")]
    for file in files:
        found += differences(program, [file])
    with tempfile.TemporaryDirectory() as folder:
        os.chdir(folder)
        texts = [open(file, "rb").read() for file in files]
        names = [os.fsencode(name) for name in NAMES]
        for place, name in enumerate(names):
            with open(name, "wb") as file:
                file.write(texts[place % len(texts)])
        # fields with markup, with control bytes, and that are not UTF-8
        for name, field in (("markup.csv", b"<b>&\"'"), ("control.csv", b"\x01\x1b]\x7f"), ("bytes.csv", b"\xff\xef\xbf\xbf"), ("noncharacter.csv", "\uffff".encode())):
            with open(name, "wb") as file:
                file.write(b"event,process,op,data\nbegin,0,update," + field.replace(b'"', b"") + b"\n")
            names.append(os.fsencode(name))
        os.mkdir("folder")
        found += differences(program, [*names, *BYTES, b"none.csv", b"folder"])
    for difference in found:
        print(difference)
    return 1 if found else 0


if __name__ == "__main__":
    sys.exit(main())
