"""A file system: each worker renames a file of its own, and a view lists the folder. usage: files.py PROGRAM FOLDER [RUNS]

A file's name has its value: worker 2 renames 2-0 to 2-3000000, that to 2-3000001, and so on.
"""
import contextlib
import os
import platform
import tempfile

from harness import WORKERS, Board, need, output, record, scratch, tabulate

WAYS = {f"os.listdir, {others} other files": others for others in (0, 1500)}


class Files(Board):
    def __init__(self, folder):
        self.folder, self.last = folder, 0

    def names(self):
        return os.listdir(self.folder)

    def update(self, component, value):
        os.rename(f"{self.folder}/{component}-{self.last}", f"{self.folder}/{component}-{value}")
        self.last = value

    def view(self):
        values = [0] * WORKERS  # a file that is not listed counts as never renamed
        for name in self.names():
            worker, _, value = name.partition("-")
            if worker != "other":
                values[int(worker)] = max(values[int(worker)], int(value))
        return values


@contextlib.contextmanager
def boards(way, kind=Files):
    """A new folder, and a board for each worker."""
    with scratch() as folder:
        for name in [f"{k}-0" for k in range(WORKERS)] + [f"other-file-with-a-longer-name-{i:04}" for i in range(WAYS[way])]:
            open(f"{folder}/{name}", "w").close()
        yield [kind(folder) for _ in range(WORKERS)]


def history(way, seed):
    with boards(way) as opened:
        return record(opened, seed)


def file_system():
    """That of temporary files."""
    return output([need("findmnt"), "-no", "FSTYPE", "-T", tempfile.gettempdir()]).strip()


if __name__ == "__main__":
    tabulate(f"{file_system()} of Linux {platform.release().partition('-')[0]}", WAYS, history)
