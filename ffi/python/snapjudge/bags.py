"""What a worker does: it reads and judges each recording of a bag, as `snapjudge check` does."""
import errno
import typing

from snapjudge import STATUSES, report

# How many bytes a history may have for each event that it may have.
BYTES_AN_EVENT = 1024
# The most events that a history may have by default.
USUAL = 65_536
# How many bytes are read at once.
PIECE = 256 * 1024
# The exit statuses of the program that are no verdict.
REFUSED, FAILED = STATUSES.index("refused"), 4

# Why a file can't be opened, in the words of the program.
UNOPENED = {
    errno.ENOENT: "no such file",
    errno.ENOTDIR: "no such file",
    errno.EISDIR: "is a directory; check -r judges the files below it",
    errno.EACCES: "permission denied",
    errno.EPERM: "permission denied",
    errno.EMFILE: "too many open files",
    errno.ELOOP: "too many links",
    errno.ENAMETOOLONG: "the name is too long",
    errno.ENXIO: "is a socket, or its device is missing",
    errno.ENOMEM: "out of memory",
}


class Limits(typing.NamedTuple):
    """How many completed views a history has at least, how many events at most, and how many writers a component may have."""

    views: int = 0
    events: int = USUAL
    writers: str = "one"


def read_text(file, longest):
    """The bytes of a file. Of one that is too long for a history, one byte more than a history may have."""
    pieces, room = [], longest + 1
    while room and (piece := file.read(min(room, PIECE))):
        pieces.append(piece)
        room -= len(piece)
    return b"".join(pieces)


def judge_text(text, limits):
    """The answer for a text: its exit status, and why there is no verdict if the report does not say it."""
    status, told = report(text, limits.events, writers=limits.writers)
    code = STATUSES.index(status)
    if code != REFUSED and int(told.partition("\n")[0].rpartition(" ")[2]) < limits.views:
        return REFUSED, f"refused: fewer than {limits.views} views"
    return code, ""


def judge_file(path, limits):
    """The answer for a file, which is opened by its path."""
    try:
        with open(path, "rb", buffering=0) as file:
            try:
                text = read_text(file, limits.events * BYTES_AN_EVENT)
            except OSError:
                return FAILED, "read failed"
            return judge_text(text, limits)
    except MemoryError:
        return FAILED, "out of memory"
    except (OSError, ValueError) as error:
        return FAILED, UNOPENED.get(getattr(error, "errno", None), "can't be opened")


def judge_bag(paths, limits):
    """The answers for some files, in their order."""
    return [judge_file(path, limits) for path in paths]
