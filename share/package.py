"""Packs snapjudge for machines without Rattle: an archive, a Debian package, a Python wheel and a container image, and a file of their
checksums.

usage: package.py PREFIX LIBRARY PROVED SUM DIST

PREFIX has what is installed, and LIBRARY is the folder of libsnapjudge.a and libsnapjudge.so. PROVED says which program it is and who
proved it. SUM is that of the program's sources. Each file has the time at which the version was released. The names are sorted, and
owners and modes are the same everywhere: what is packed depends on nothing but these words and the files themselves. The image has the
C library of this machine too.
"""
import datetime
import hashlib
import os
import pathlib
import re
import sys
import tempfile

TOP = pathlib.Path(__file__).resolve().parent.parent
sys.path.insert(0, str(TOP / "ffi/python"))
import snapjudge_backend  # noqa: E402
from image import image_of, labels_of  # noqa: E402
from sums import bytes_of  # noqa: E402
from tars import gzip_of, tar_of  # noqa: E402

NAME = "snapjudge"
VERSION = (TOP / "VERSION").read_text().strip()
DOCUMENTS = "share/doc/snapjudge"
# What a recorder's folder may have besides, as a compiler or Python leaves it, is not packed.
RECORDERS = {".c", ".cpp", ".csv", ".go", ".h", ".hpp", ".java", ".mod", ".py", ".rs", ".sh"}
OUR_TESTS = {"test.sh", "listings.py", "choices.py", "commands.py", "guide.py", "turns.py"}
# Where a link of a page leads.
LINK = re.compile(r"\]\(([^()\s#]+)")

CONTROL = """Package: snapjudge
Version: {version}
Architecture: amd64
Maintainer: {maintainer}
Installed-Size: {kilobytes}
Depends: libc6 (>= {glibc})
Section: devel
Priority: optional
Description: judge of recorded histories of a single-writer board
 It says whether a recorded run of a store-collect object or of an atomic
 snapshot was atomic, only regular, or neither, and prints a legal order, or
 the first fault of each kind. What it says is proved. The judge as a library
 for C, C++ and Python and recorders to copy are with it.
"""


def cited(field):
    """A field of CITATION.cff that is one word."""
    return re.search(rf"^{field}: (\S+)$", (TOP / "CITATION.cff").read_text(), re.MULTILINE).group(1)


def released():
    """When this version was released, in seconds since 1970."""
    return int(datetime.datetime.fromisoformat(f"{cited('date-released')}T00:00:00+00:00").timestamp())


def glibc_of(*files):
    """The earliest version of the C library that has everything that these files call of it."""
    found = [int(it) for file in files for it in re.findall(rb"\0GLIBC_2\.(\d+)", file)]
    return f"2.{max(found)}"


def is_recorder(path):
    return path.is_file() and path.suffix in RECORDERS and path.name not in OUR_TESTS


def linked(page):
    """The files to which the links of a page lead; of a folder the sources in it, and the pictures."""
    places = [(page.parent / it).resolve() for it in LINK.findall(page.read_text(encoding="utf-8"))]
    inside = [file for place in places if place.is_dir() for file in place.rglob("*") if is_recorder(file) or file.suffix == ".svg"]
    return {*filter(pathlib.Path.is_file, places), *inside}


def documents():
    """The pages of the top and of docs/, the examples, and the files to which these pages lead."""
    pages = [*TOP.glob("*.md"), *TOP.glob("docs/**/*.md"), TOP / "examples/README.md"]
    named = {file for page in pages for file in linked(page)}
    return {*pages, *named, TOP / "LICENSE", *filter(pathlib.Path.is_file, TOP.glob("examples/*"))}


def tree_of(prefix, library, proved):
    """What is packed: the bytes of each file by its place under a prefix, all but the wheel and the checksums."""
    tree = {str(it.relative_to(prefix)): it.read_bytes() for it in prefix.rglob("*") if it.is_file()}
    for name in ("libsnapjudge.a", "libsnapjudge.so"):
        tree[f"lib/{name}"] = (library / name).read_bytes()
    for it in filter(is_recorder, (TOP / "ffi/record").rglob("*")):
        tree[f"share/snapjudge/record/{it.relative_to(TOP / 'ffi/record')}"] = it.read_bytes()
    for it in documents():
        tree[f"{DOCUMENTS}/{it.relative_to(TOP)}"] = bytes_of(it)
    tree[f"{DOCUMENTS}/PROVED"] = proved.encode()
    return tree


def sums_of(files):
    """The checksums of these files, as `sha256sum -c` reads them."""
    return "".join(f"{hashlib.sha256(data).hexdigest()}  {name}\n" for name, data in sorted(files.items())).encode()


def with_sums(tree):
    return {**tree, f"{DOCUMENTS}/SHA256SUMS": sums_of(tree)}


def is_executable(name):
    return name.endswith(".sh") or "bin" in name.split("/")


def archive_of(tree, front, date):
    """The compressed archive of a tree. Each name has the front before it."""
    return gzip_of(tar_of(tree, front, date, is_executable))


def deb_of(tree, glibc, date):
    """The Debian package of a tree, which is an archive of archives. Debian has a folder of its own for what completes in zsh."""
    tree = {name.replace("/zsh/site-functions/", "/zsh/vendor-completions/"): data for name, data in tree.items()}
    tree = with_sums(tree)
    holder = re.search(r"^Copyright \(c\) \d+ (.+)$", (TOP / "LICENSE").read_text(), re.MULTILINE).group(1)
    kilobytes = sum(len(it) + 1023 for it in tree.values()) // 1024
    control = CONTROL.format(version=VERSION, maintainer=holder, kilobytes=kilobytes, glibc=glibc).encode()
    members = {
        "debian-binary": b"2.0\n",
        "control.tar.gz": archive_of({"control": control}, "./", date),
        "data.tar.gz": archive_of({f"usr/{name}": data for name, data in tree.items()}, "./", date),
    }
    packed = b"!<arch>\n"
    for name, data in members.items():
        packed += f"{name:<16}{date:<12}{0:<6}{0:<6}{100644:<8}{len(data):<10}`\n".encode() + data + b"\n" * (len(data) % 2)
    return packed


def wheel_of(library, program, glibc, date):
    """The name and the bytes of the wheel, which pip takes wherever the C library is not older than what it calls."""
    platform = f"manylinux_{glibc.replace('.', '_')}_x86_64"
    with tempfile.TemporaryDirectory() as room:
        name = snapjudge_backend.write_wheel(room, library, program, platform, date)
        return name, pathlib.Path(room, name).read_bytes()


def main(words):
    prefix, library = map(pathlib.Path, words[:2])
    proved, total, date, dist = *words[2:4], released(), pathlib.Path(words[4])
    if snapjudge_backend.VERSION != VERSION:
        sys.exit(f"snapjudge: there is no package: ffi/python is of version {snapjudge_backend.VERSION}, and the program of {VERSION}")
    glibc = glibc_of((prefix / "bin/snapjudge").read_bytes(), (library / "libsnapjudge.so").read_bytes())
    tree = tree_of(prefix, library, f"{proved}\nsources {total}\nglibc {glibc} or later\n")
    name, wheel = wheel_of(library / "libsnapjudge.so", prefix / "bin/snapjudge", glibc, date)
    tree[f"share/snapjudge/{name}"] = wheel
    folder = f"{NAME}-{VERSION}-x86_64"
    labels = labels_of(NAME, VERSION, cited("license"), proved, total)
    made = {
        f"{folder}.tar.gz": archive_of({f"{folder}/{place}": data for place, data in with_sums(tree).items()}, "", date),
        f"{NAME}_{VERSION}_amd64.deb": deb_of(tree, glibc, date),
        name: wheel,
        f"{NAME}-{VERSION}-image.tar": image_of(prefix / "bin/snapjudge", NAME, VERSION, labels, date),
    }
    made["SHA256SUMS"] = sums_of(made)
    dist.mkdir(parents=True, exist_ok=True)
    for it, data in made.items():
        (dist / f"{it}.new").write_bytes(data)
    for it in made:
        os.replace(dist / f"{it}.new", dist / it)
        print(f"{dist / it}")


if __name__ == "__main__":
    main(sys.argv[1:])
