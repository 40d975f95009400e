"""Builds the wheel of snapjudge for pip: the module with the library, the program, the recorder and its driver, and what converts logs.

`./build` makes the program and the library. SNAPJUDGE_PROGRAM and SNAPJUDGE_LIBRARY name others.
"""
import base64
import hashlib
import os
import re
import sysconfig
import time
import zipfile

HERE = os.path.dirname(os.path.abspath(__file__))
LIBRARY = os.environ.get("SNAPJUDGE_LIBRARY") or os.path.join(HERE, "..", "build", "libsnapjudge.so")
PROGRAM = os.environ.get("SNAPJUDGE_PROGRAM") or os.path.join(HERE, "..", "..", "built", "snapjudge")
NAME, VERSION = "snapjudge", "1.0.0"
MODULES = ("__init__.py", "bags.py", "cluster.py", "follow.py", "library.py", "testing.py", "values.py", "windows.py", "py.typed")
# The files to copy into a harness are modules too, by these names. Their imports of one another name them so.
COPIED = {"recorder.py": "snaprecord.py", "driver.py": "snapdrive.py", "merge_logs.py": "merge_logs.py", "from_jepsen.py": "from_jepsen.py"}
IMPORT = re.compile(r"^from (snaprecord|merge_logs) import ", re.MULTILINE)
INFO = f"{NAME}-{VERSION}.dist-info"
SCRIPTS = f"{NAME}-{VERSION}.data/scripts"

METADATA = f"""Metadata-Version: 2.1
Name: {NAME}
Version: {VERSION}
Summary: The judge of recorded histories of a single-writer board
Requires-Python: >=3.9
"""

COMMANDS = """[console_scripts]
snapjudge-from-jepsen = snapjudge.from_jepsen:main
snapjudge-merge-logs = snapjudge.merge_logs:main

[pytest11]
snapjudge = snapjudge.testing
"""

WHEEL = """Wheel-Version: 1.0
Generator: snapjudge
Root-Is-Purelib: false
Tag: {tag}
"""
# The first day that a wheel can name.
FIRST_DAY = 315532800


def read(path):
    with open(path, "rb") as file:
        return file.read()


def copied(file):
    """A file to copy into a harness, as a module beside the others."""
    names = {source.partition(".")[0]: module.partition(".")[0] for module, source in COPIED.items()}
    text = read(os.path.join(HERE, "..", "record", "python", file)).decode()
    return IMPORT.sub(lambda found: f"from {NAME}.{names[found[1]]} import ", text).encode()


def write_wheel(folder, library, program, platform, date):
    """Writes the wheel with this library and program into a folder, and returns its name. The same words and files give the same bytes."""
    tag = f"py3-none-{platform}"
    files = {
        **{f"{NAME}/{module}": read(os.path.join(HERE, NAME, module)) for module in MODULES},
        **{f"{NAME}/{module}": copied(source) for module, source in COPIED.items()},
        f"{NAME}/libsnapjudge.so": read(library),
        f"{SCRIPTS}/{NAME}": read(program),
        f"{INFO}/entry_points.txt": COMMANDS.encode(),
        f"{INFO}/LICENSE": read(os.path.join(HERE, "..", "..", "LICENSE")),
        f"{INFO}/METADATA": METADATA.encode(),
        f"{INFO}/WHEEL": WHEEL.format(tag=tag).encode(),
    }
    record = ""
    for path, data in files.items():
        digest = base64.urlsafe_b64encode(hashlib.sha256(data).digest()).rstrip(b"=").decode()
        record += f"{path},sha256={digest},{len(data)}\n"
    files[f"{INFO}/RECORD"] = (record + f"{INFO}/RECORD,,\n").encode()
    wheel = f"{NAME}-{VERSION}-{tag}.whl"
    with zipfile.ZipFile(os.path.join(folder, wheel), "w") as archive:
        for path, data in files.items():
            member = zipfile.ZipInfo(path, time.gmtime(max(date, FIRST_DAY))[:6])
            member.external_attr = (0o100755 if path.startswith(SCRIPTS) else 0o100644) << 16
            archive.writestr(member, data, zipfile.ZIP_DEFLATED)
    return wheel


def build_wheel(wheel_directory, config_settings=None, metadata_directory=None):
    """Writes a wheel for this machine, as pip asks for it."""
    for made in (LIBRARY, PROGRAM):
        if not os.path.exists(made):
            raise SystemExit(f"{made} is not there: run ./build first")
    platform = sysconfig.get_platform().replace("-", "_").replace(".", "_")
    return write_wheel(wheel_directory, LIBRARY, PROGRAM, platform, FIRST_DAY)
