"""Makes histories for `snapjudge check` of histories that Jepsen recorded.

    python3 from_jepsen.py [--into DIR] [--initial WORD] [--versions [--writers WRITERS]] [--events N] HISTORY..

Two files, Python 3.8 or later, no dependencies: this one and merge_logs.py beside it. A HISTORY is EDN, one operation a line or in one
vector, or JSON with one operation a line. Each operation has `type`, `f`, `process` and `value`; nemesis operations are passed over.
docs/JEPSEN.md of snapjudge says which operations are taken.

    --into DIR      writes each history into DIR: one for each set of keys that are read together, NAME.csv or NAME-1.csv, NAME-2.csv
                    .. if a HISTORY has several such sets, with a file NAME.words beside it: lines KIND,NUMBER,WORD
    --initial WORD  what a read shows of a key that nobody has written; nil always counts as that too
    --versions      operations have `version`, by which the store orders the writes of a key: a number, or a map from keys to numbers;
                    a HISTORY in which no operation has one is taken without
    --writers many  with --versions: writes of a key may overlap in a history, which is for `snapjudge check --writers many`; with `one`,
                    the default, they are parted
    --events N      how many events a history may have, 65536 by default; `snapjudge check` then needs the same

Without --into the one history goes to standard output. Each HISTORY is taken by itself, and the status is the greatest of all. It
is 0 if all was written, and 1 if versions contradict time, so that the run is not atomic. It is 3 if a HISTORY is not taken:
standard error then has the file, the line and a sentence, and nothing of it is written. It is 4 if reading or writing failed, and
5 if the words of the command line were not taken.

SPDX-License-Identifier: 0BSD
Copyright (C) 2026 by the authors of snapjudge
Permission to use, copy, modify, and/or distribute this software for any purpose with or without fee is hereby granted.
THE SOFTWARE IS PROVIDED "AS IS" AND THE AUTHOR DISCLAIMS ALL WARRANTIES WITH REGARD TO THIS SOFTWARE INCLUDING ALL IMPLIED
WARRANTIES OF MERCHANTABILITY AND FITNESS. IN NO EVENT SHALL THE AUTHOR BE LIABLE FOR ANY SPECIAL, DIRECT, INDIRECT, OR
CONSEQUENTIAL DAMAGES OR ANY DAMAGES WHATSOEVER RESULTING FROM LOSS OF USE, DATA OR PROFITS, WHETHER IN AN ACTION OF
CONTRACT, NEGLIGENCE OR OTHER TORTIOUS ACTION, ARISING OUT OF OR IN CONNECTION WITH THE USE OR PERFORMANCE OF THIS SOFTWARE.
"""
import json
import os
import re
import sys

from merge_logs import COMPONENT_LIMIT, EVENT_LIMIT, MOST_EVENTS, PROCESS_LIMIT, Call, Contradiction, LogError, Parser, merge, number_below

TOKEN = re.compile(
    r"""(?:[\s,]|;[^\n]*|\#_)*                # blanks and comments; a discarded form is not looked for
    (?P<token>
      "(?:[^"\\]|\\.)*" | \\\S+               # a string; a character
    | \#\{ | [\[\](){}]                       # brackets
    | \#(?![{_])[^\s,\[\](){}"]+              # a tag
    | [^\s,\[\](){}"]+                        # a number, a keyword or a symbol
    )""",
    re.VERBOSE | re.DOTALL,
)
CLOSING = {"[": "]", "(": ")", "{": "}", "#{": "}"}


class NotTaken(Exception):
    """Why a history is not taken: the file, the line and a sentence."""

    def __init__(self, name, line, told):
        super().__init__(f"{name}:{line}: {told}")


class Edn:
    """Reads the forms of a text in EDN: maps as dicts, vectors, lists and sets as tuples, keywords and symbols as their names."""

    def __init__(self, name, text):
        self.name, self.text, self.place, self.line = name, text, 0, 1

    def fail(self, told):
        raise NotTaken(self.name, self.line, told)

    def token(self):
        found = TOKEN.match(self.text, self.place)
        if found is None:
            if self.text[self.place :].strip(" \t\r\n,"):
                self.fail("this is not EDN")
            return None
        self.line += self.text.count("\n", self.place, found.start("token"))
        self.place = found.end()
        return found["token"]

    def forms(self):
        """Each form at the top, with its line; those of one vector each by itself."""
        token = self.token()
        if token in ("[", "("):
            yield from self.until(CLOSING[token])
            return
        while token is not None:
            line = self.line
            yield line, self.form(token)
            token = self.token()

    def until(self, closing):
        """The forms up to a closing bracket, each with its line."""
        token = self.token()
        while token != closing:
            if token is None:
                self.fail("a bracket is not closed")
            line = self.line
            yield line, self.form(token)
            token = self.token()

    def form(self, token):
        if token in CLOSING:
            forms = tuple(form for _, form in self.until(CLOSING[token]))
            if token != "{":
                return forms
            if len(forms) % 2:
                self.fail("a key of a map has no value")
            return dict(zip(map(frozen, forms[::2]), forms[1::2]))
        if token in CLOSING.values():
            self.fail("a bracket closes that was not opened")
        if token[0] == "#":
            token = self.token()
            return self.form(token) if token is not None else self.fail("a tag has no form")
        if token[0] == '"':
            self.line += token.count("\n")
            return json.loads(token, strict=False)
        if re.fullmatch("[-+]?[0-9]+N?", token):
            return int(token.rstrip("N"))
        return {"nil": None, "true": True, "false": False}.get(token, token.lstrip(":"))


def frozen(form):
    """The form as a value that can be a key."""
    if isinstance(form, dict):
        return tuple(sorted(((frozen(key), frozen(value)) for key, value in form.items()), key=repr))
    return tuple(map(frozen, form)) if isinstance(form, (list, tuple)) else form


def operations(name, text):
    """The operations of a text in EDN or in lines of JSON, each with its line."""
    if re.match(r'\s*\[\s*\{\s*"', text):
        raise NotTaken(name, 1, "JSON has one operation a line here, and no list: `jq -c '.[]' FILE` writes such lines")
    if re.match(r'\s*\{\s*"', text):
        try:
            for line, written in enumerate(text.split("\n"), 1):
                if written.strip():
                    yield line, json.loads(written)
            return
        except ValueError:
            raise NotTaken(name, line, "this line is not JSON: put each operation on one line, as `jq -c . FILE` does") from None
    yield from Edn(name, text).forms()


class Converter:
    """Takes the operations of one history in their order, and has its calls."""

    def __init__(self, name, has_versions):
        self.name, self.has_versions = name, has_versions
        self.keys, self.processes, self.open, self.calls, self.place = {}, {}, {}, [], 0

    def fail(self, told):
        raise NotTaken(self.name, self.line, told)

    def take(self, line, operation, has_keys):
        """Takes an operation; `has_keys` says whether the values of plain reads and writes are pairs of a key and a value."""
        self.line = line
        process = operation.get("process")
        if not isinstance(process, int):
            return  # the nemesis
        self.place += 1
        kind = operation.get("type")
        if kind == "invoke":
            self.begin(process, operation, has_keys)
        elif kind in ("ok", "fail", "info"):
            call = self.open.pop(process, None)
            if call is None:
                self.fail("an operation ends that its process has not begun")
            if kind == "ok":
                call.ended = self.place
                self.end(call, operation, has_keys)
            if kind == "fail" or kind == "info" and call.op == "view":
                self.calls.remove(call)
        else:
            self.fail("the type of an operation is invoke, ok, fail or info")

    def begin(self, process, operation, has_keys):
        if process in self.open:
            self.fail("a process begins an operation, and its last one has not ended")
        op, entries = self.entries(operation, has_keys)
        number = self.processes.setdefault(process, len(self.processes))
        if number >= PROCESS_LIMIT:
            self.fail(f"there are more than {PROCESS_LIMIT} processes")
        shown = {self.component(key): spelled(value) for key, value in entries} if op == "update" else {}
        if None in shown.values():
            self.fail("a write of nil can't be told from no write: write another value")
        self.open[process] = Call(self.name, self.line, number, op, self.place, shown)
        self.calls.append(self.open[process])

    def end(self, call, operation, has_keys):
        op, entries = self.entries(operation, has_keys)
        if op != call.op:
            self.fail("an operation ends as another one than it began")
        shown = {self.component(key): spelled(value) for key, value in entries}
        versions = self.versions(operation, [key for key, _ in entries]) if self.has_versions else {}
        if op == "view":
            call.line, call.shown, call.versions = self.line, shown, versions
        elif shown != call.shown:
            self.fail("a write ends with another key or value than it began with")
        else:
            call.versions = versions

    def versions(self, operation, keys):
        """The versions that an operation has of its keys, by components."""
        version = operation.get("version")
        if version is None:
            return {}
        if not isinstance(version, dict):
            if len(keys) != 1:
                self.fail("an operation on several keys needs a map from these to versions")
            version = {keys[0]: version}
        if not all(isinstance(number, int) and number >= 0 for number in version.values()):
            self.fail("a version is a number without a sign")
        numbers = {word_of(key): number for key, number in version.items()}
        return {self.component(key): numbers[word_of(key)] for key in keys if word_of(key) in numbers}

    def entries(self, operation, has_keys):
        """Whether the operation is an update or a view, and its keys and values."""
        function, value = operation.get("f"), operation.get("value")
        if function in ("read", "write"):
            op = "view" if function == "read" else "update"
            entries = self.plain(value, has_keys)
        elif function == "txn":
            op, entries = self.transaction(value)
        else:
            self.fail(f"{function} is neither read, write nor txn: record an operation that reads, or one that writes one key")
        if op == "update" and len(entries) != 1:
            self.fail("one operation writes several keys: record writes of one key")
        return op, entries

    @staticmethod
    def plain(value, has_keys):
        if has_keys:
            return [(frozen(value[0]), value[1])]
        return [(frozen(key), entry) for key, entry in value.items()] if isinstance(value, dict) else [(None, value)]

    def transaction(self, value):
        if not isinstance(value, (list, tuple)) or not all(isinstance(step, (list, tuple)) and len(step) == 3 for step in value):
            self.fail("the value of a txn is a list of steps, each with a function, a key and a value")
        functions = {step[0] for step in value}
        if functions - {"r", "w"}:
            self.fail(f"a step of a txn is r or w, and no {sorted(map(str, functions - {'r', 'w'}))[0]}")
        if len(functions) != 1:
            self.fail("a txn that reads and writes is neither an update nor a view: record reads and writes apart")
        entries = [(frozen(key), entry) for _, key, entry in value]
        if len({key for key, _ in entries}) != len(entries):
            self.fail("a txn has one key twice")
        return ("view" if functions == {"r"} else "update"), entries

    def component(self, key):
        return self.keys.setdefault(key, len(self.keys))


def spelled(value):
    """The word of a value; nil is a first value."""
    return None if value is None else json.dumps(frozen(value))


def word_of(key):
    """A key as a word: the keys of a map in JSON are words, whatever they were."""
    return key if isinstance(key, str) else json.dumps(key)


def is_pair(value):
    return isinstance(value, (list, tuple)) and len(value) == 2


def convert(name, text, has_versions=False):
    """The calls of a history, its keys in the order of their components, and whether some operation of it has a version to be used."""
    taken = []
    for line, operation in operations(name, text):
        if not isinstance(operation, dict):
            raise NotTaken(name, line, "an operation is a map")
        taken.append((line, operation))
    has_versions = has_versions and any(it.get("version") is not None for _, it in taken)
    plain = [it["value"] for _, it in taken if isinstance(it.get("process"), int) and it.get("f") in ("read", "write") and it.get("value") is not None]
    has_keys = bool(plain) and all(map(is_pair, plain))
    converter = Converter(name, has_versions)
    for line, operation in taken:
        if has_keys and operation.get("f") in ("read", "write") and not is_pair(operation.get("value")):
            raise NotTaken(name, line, "the other reads and writes have a key and a value, and this one has none")
        converter.take(line, operation, has_keys)
    return converter.calls, list(converter.keys), has_versions


def histories(name, text, initial=None, has_versions=False, limit=EVENT_LIMIT, has_many=False):
    """Of each set of keys that are read together its keys, its history, its words, and what standard error is to say of it."""
    calls, keys, has_versions = convert(name, text, has_versions)
    parts = sorted({tuple(sorted(call.shown)) for call in calls if call.op == "view" and call.ended is not None})
    for part in parts:
        if len(part) > COMPONENT_LIMIT:
            raise NotTaken(name, 1, f"an operation reads more than {COMPONENT_LIMIT} keys")
        places = {component: place for place, component in enumerate(part)}
        merged = merge(list(placed(calls, places)), (initial,), None, True, limit, has_versions, has_versions and has_many)
        yield [keys[component] for component in part], *merged


def placed(calls, places):
    """The calls of a part of the keys, with the places of these as components."""
    for call in calls:
        if call.op == "update" and places.keys() >= call.shown.keys() or call.op == "view" and places.keys() <= call.shown.keys():
            shown = {places[component]: value for component, value in sorted(call.shown.items()) if component in places}
            versions = {places[component]: version for component, version in call.versions.items() if component in places}
            yield Call(call.log, call.line, call.process, call.op, call.begun, shown, call.ended, versions)


def words_of_command():
    def events(word):
        number = number_below(MOST_EVENTS + 1, word)
        return number or parser.error(f"{word} is not a number from 1 to {MOST_EVENTS}")

    def first_value(word):
        try:
            return spelled(next(Edn("--initial", word).forms())[1])
        except (NotTaken, StopIteration):
            return parser.error(f"{word!r} is not a value in EDN")

    parser = Parser(description="Makes histories for snapjudge of histories that Jepsen recorded.")
    parser.add_argument("--into", metavar="DIR", help="writes each history into DIR")
    parser.add_argument("--initial", metavar="WORD", type=first_value, help="what a read shows of a key that nobody has written, else nil")
    parser.add_versions("operations have `version`, by which the store orders writes")
    parser.add_argument("--events", metavar="N", type=events, default=EVENT_LIMIT, help=f"how many events a history may have, else {EVENT_LIMIT}")
    parser.add_argument("histories", metavar="HISTORY", nargs="+", help="a history in EDN or lines of JSON")
    words = parser.words()
    if words.into is None and len(words.histories) > 1:
        parser.error(f"{len(words.histories)} histories can't go to standard output: give --into DIR")
    return words


def write(path, text):
    with open(path, "w", encoding="utf-8") as file:
        file.write(text)


def take(name, words):
    """Writes the histories of one file."""
    with open(name, encoding="utf-8-sig", errors="surrogateescape") as file:
        made = list(histories(name, file.read(), words.initial, words.versions, words.events, words.has_many))
    if not made:
        raise NotTaken(name, 1, "no read has ended, so there is nothing to judge: let clients read too")
    if words.into is None and len(made) > 1:
        raise NotTaken(name, 1, f"{len(made)} histories can't go to standard output: give --into DIR")
    for at, (keys, history, table, told) in enumerate(made, 1):
        for line in told:
            print(f"{name}: {line}", file=sys.stderr)
        if words.into is None:
            sys.stdout.write(history)
            continue
        stem = os.path.splitext(os.path.relpath(name).replace("../", ""))[0].replace(os.sep, "-")
        path = os.path.join(words.into, stem + (f"-{at}" if len(made) > 1 else ""))
        os.makedirs(words.into, exist_ok=True)
        write(f"{path}.csv", history)
        lines = [f"key,{number},{json.dumps(key)}\n" for number, key in enumerate(keys)]
        write(f"{path}.words", "".join(lines + [f"value,{number},{word}\n" for word, number in table.items()]))


def status_of(step, *of):
    """The status of a step, after standard error said why it failed."""
    try:
        step(*of)
    except Contradiction as found:
        print(found, file=sys.stderr)
        return 1
    except (NotTaken, LogError) as error:
        print(error, file=sys.stderr)
        return 3
    except OSError as error:
        print(f"from_jepsen.py: {error.filename or 'standard output'}: {error.strerror or error}", file=sys.stderr)
        return 4
    return 0


def main():
    words = words_of_command()
    statuses = [status_of(take, name, words) for name in words.histories]
    return max(*statuses, status_of(sys.stdout.flush))


if __name__ == "__main__":
    sys.exit(main())
