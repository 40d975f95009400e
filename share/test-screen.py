"""Tries what `check` shows on a terminal: `test-screen.py PROGRAM EXAMPLES`. It runs the program with its output on a terminal of its
own, and in pipes. Each difference is a line; the status is 0 if there is none."""
import os
import pty
import subprocess
import sys
import tempfile

program, examples = map(os.path.abspath, sys.argv[1:])
GREEN, RED, PLAIN = b"\x1b[32m", b"\x1b[31m", b"\x1b[0m"
CLEAR = b"\r\x1b[K"
wrong = []


def on_terminal(words, streams, environment=None):
    """What the command writes to a terminal, and to pipes for the streams that are not on it; and its status."""
    leader, follower = pty.openpty()
    places = {name: follower if name in streams else subprocess.PIPE for name in ("stdout", "stderr")}
    known = {name: value for name, value in os.environ.items() if name != "NO_COLOR"}
    child = subprocess.Popen([program, "check", *words], stdin=subprocess.DEVNULL, env={**known, **(environment or {})}, **places)
    os.close(follower)
    shown = b""
    while True:
        try:
            data = os.read(leader, 65536)
        except OSError:
            break
        if not data:
            break
        shown += data
    os.close(leader)
    out, err = child.communicate()
    # a terminal shows a line feed as a carriage return and a line feed
    return shown.replace(b"\r\n", b"\n"), out, err, child.returncode


def expect(name, found, wanted):
    if found != wanted:
        wrong.append(f"{name}: {found!r}, wanted {wanted!r}")


def report_of(name):
    with open(f"{examples}/{name}.report", "rb") as file:
        return file.read()


def painted(report):
    """The report with its verdicts in colours, line by line."""
    lines = []
    for line in report.splitlines(keepends=True):
        verdict = line.rstrip(b"\n").split(b": ")[-1]
        color = {b"yes": GREEN, b"no": RED}.get(verdict.split(b" ")[-1]) if verdict.split(b" ")[0] in (b"regular", b"monotone", b"atomic") else None
        lines.append(color + line.rstrip(b"\n") + PLAIN + b"\n" if color else line)
    return b"".join(lines)


inversion, stale, atomic = (f"{examples}/{name}.csv" for name in ("new-old-inversion", "stale-view", "atomic-run"))
plain = report_of("new-old-inversion")
expect("colours on a terminal", on_terminal([inversion], ["stdout"]), (painted(plain), None, b"", 1))
expect("none in a pipe", on_terminal([inversion], []), (b"", plain, b"", 1))
expect("none where the environment asks for none", on_terminal([inversion], ["stdout"], {"NO_COLOR": "1"})[0], plain)
expect("an empty variable asks for nothing", on_terminal([inversion], ["stdout"], {"NO_COLOR": ""})[0], painted(plain))
expect("never", on_terminal(["--color", "never", inversion], ["stdout"])[0], plain)
expect("always, in a pipe", on_terminal(["--color=always", inversion], [], {"NO_COLOR": "1"})[1], painted(plain))
names = [f"{path}: ".encode() for path in (inversion, stale)]
both = b"".join(name + line for name, report in zip(names, (plain, report_of("stale-view"))) for line in report.splitlines(keepends=True))
expect("colours behind names", on_terminal([inversion, stale], ["stdout"])[0], painted(both))
objects = on_terminal(["--format", "json", "--color", "always", inversion], ["stdout"])[0]
expect("no colours in objects", b"\x1b" in objects, False)
sums = on_terminal(["--summary", inversion, stale], ["stdout", "stderr"])[0]
expect("no colours in sums", sums, b"files 2\natomic 0\nonly-regular 1 first %s\nnot-regular 1 first %s\nrefused 0\nfailed 0\n" % (inversion.encode(), stale.encode()))

with tempfile.TemporaryDirectory() as folder:
    # enough files that the work takes more than the tenth of a second between two lines
    large = f"{folder}/large.csv"
    with open(large, "w") as file:
        file.write("event,process,op,data\n")
        for number in range(1, 4001):
            file.write(f"begin,0,update,0:{number}:1\nend,0,update,\nbegin,1,view,\nend,1,view,0:{number}:1\n")
    many = [large] * 400
    shown, out, err, status = on_terminal(["--summary", *many, f"{folder}/none.csv"], ["stderr"])
    wanted = b"files 401\natomic 400 first %s\nonly-regular 0\nnot-regular 0\nrefused 0\nfailed 1 first %s/none.csv\n" % (large.encode(), folder.encode())
    expect("the sums beside a line of progress", (out, status), (wanted, 4))
    reason = b"snapjudge: %s/none.csv: no such file\n" % folder.encode()
    expect("a line of progress", b" of 401 files, " in shown, True)
    expect("the reason behind the cleared line", shown.endswith(CLEAR + reason) or (CLEAR + reason) in shown, True)
    # what is left on the line at the end: what comes after the last line feed and the last clearing
    expect("the line is cleared at the end", shown.rsplit(b"\n", 1)[1].rsplit(CLEAR, 1)[-1], b"")
    expect("no progress where it is not wanted", on_terminal(["--no-progress", "--summary", *many], ["stderr"])[0], b"")
    expect("none in a pipe", on_terminal(["--summary", *many], [])[2], b"")
    expect("none over few files that take no second", on_terminal(["--summary", atomic, stale], ["stderr"])[0], b"")

print("\n".join(wrong), end="\n" if wrong else "")
sys.exit(bool(wrong))
