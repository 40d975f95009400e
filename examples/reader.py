"""Reads histories for judge.py, as docs/FORMAT.md says, and names the first fault of a text that is not a history. It is not proved.

judge.py imports it, and `python3 judge.py FILE` runs both. It is not a program by itself.
"""
import csv, io, sys
PLAIN, STAMPED = ["event", "process", "op", "data"], ["at", "event", "process", "op", "data"]

class Refused(Exception):
    """The record at fault, and the fault by its word."""

def require(is_so, record, word):
    if not is_so:
        raise Refused(f"refused record {record}: {word}")

def is_number(field, limits):
    is_decimal = field.isascii() and field.isdigit() and (field == "0" or field[0] != "0")
    return is_decimal and len(field) <= 20 and limits[0] <= int(field) <= limits[1]

def is_data(event, op, data):
    least, most = {("begin", "update"): (1, 1), ("end", "view"): (0, 256)}.get((event, op), (0, 0))
    entries = [entry.split(":") for entry in data.split(" ")] if data else []
    are_entries = all(len(entry) == 3 and all(map(is_number, entry, [(0, 255), (1, 2**32 - 1), (0, 2**32 - 1)])) for entry in entries)
    components = [int(entry[0]) for entry in entries] if are_entries else []
    return are_entries and least <= len(entries) <= most and components == sorted(set(components))

def event_of(fields, header, record, stamps):
    require(len(fields) == len(header), record, "fields")
    require(record <= 65537, record, "toomany")
    at, event, process, op, data = fields if header == STAMPED else [str(record), *fields]
    for word, is_so in [("at", is_number(at, (0, 2**64 - 1))), ("event", event in ("begin", "end")), ("process", is_number(process, (0, 65535))),
                        ("op", op in ("update", "view")), ("data", is_data(event, op, data)), ("repeated", at not in stamps)]:
        require(is_so, record, word)
    stamps.add(at)
    return int(at), record, event, process, op, data

def events_of(text):
    """The events of a history, in their order: what happens, the process, what it does, and the data. Raises Refused."""
    require(len(text) <= 67108864, 0, "toolong")
    csv.field_size_limit(len(text) + 1)
    text = text[3:] if text.startswith(b"\xef\xbb\xbf") else text
    # Before Python 3.11 the module csv takes no zero byte, and no field of a history has one.
    lines = io.StringIO(text.decode("latin-1").replace("\0", "\u0100"), newline="")
    header, *records = [fields for fields in csv.reader(lines) if fields] or [[]]
    require(header in (PLAIN, STAMPED), 1, "header")
    stamps, opened, writers, numbers = set(), {}, {}, {}
    events = (event_of(fields, header, record, stamps) for record, fields in enumerate(records, 2))
    for _, record, event, process, op, data in sorted(events) if header == STAMPED else events:
        require(event == "end" or process not in opened, record, "busy")
        require(event == "begin" or process in opened, record, "idle")
        require(opened.pop(process, op) == op, record, "otherop")
        if event == "begin":
            opened[process] = op
        if event == "begin" and op == "update":
            component, number, _ = data.split(":")
            require(writers.setdefault(component, process) == process, record, "writer")
            require(int(number) == numbers.get(component, 0) + 1, record, "number")
            numbers[component] = int(number)
        yield event, process, op, data

def run(answer):
    """Writes the lines that answer the text of a file or of standard input, and ends with their status."""
    program, name = sys.argv[0].replace("\\", "/").split("/")[-1], sys.argv[1] if len(sys.argv) == 2 else 0
    if len(sys.argv) > 2 or sys.argv[-1].startswith("-"):
        is_asked = sys.argv[1:] in (["-h"], ["--help"])
        print(f"usage: {program} [FILE]", file=sys.stdout if is_asked else sys.stderr)
        sys.exit(0 if is_asked else 5)
    try:
        with open(name, "rb") as file:
            text = file.read()
        status, lines = answer(text)
    except OSError as error:
        print(f"{program}: {name or 'standard input'}: {error.strerror}", file=sys.stderr)
        sys.exit(4)
    except Refused as refused:
        status, lines = 3, [str(refused)]
    sys.stdout.buffer.write("".join(line + "\n" for line in lines).encode())
    sys.exit(status)
