"""Java's collections: a map of 64 entries, copied in four ways. usage: copies.py PROGRAM FOLDER [RUNS]; wants Java 16"""
import contextlib

from harness import HERE, RECORDERS, Companion, need, output, scratch, tabulate


@contextlib.contextmanager
def compiled(*more):
    """The folder of the classes, with those of more files."""
    files = [f"{RECORDERS}/java/SnapRecorder.java", f"{HERE}/Copies.java", *more]
    with scratch() as folder:
        output([need("javac"), "-Xlint:all", "-Werror", "-d", folder, *files])
        yield folder


def main():
    java = need("java")
    with compiled() as folder, contextlib.closing(Companion([java, "-cp", folder, "Copies"])) as running:
        ways = [line.strip() for line in running.answer()]

        def history(way, seed):
            return "".join(running.ask(f"{ways.index(way)} {seed}"))

        tabulate(output([java, "--version"]).splitlines()[0], ways, history)


if __name__ == "__main__":
    main()
