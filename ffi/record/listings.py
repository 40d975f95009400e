"""Names each listing of a guide that is not, line for line, in a file of its language. usage: listings.py GUIDE FOLDER
[LANGUAGE ..]. There must be a listing in each of these languages, or in all. If none is named, each listing has at most 15 lines
beside imports and lone brackets."""
import pathlib
import re
import sys

FOLDERS = {"c": "c", "cpp": "cpp", "rust": "rust", "java": "java", "python": "python", "go": "go"}

guide, folder = pathlib.Path(sys.argv[1]), pathlib.Path(sys.argv[2])
listings = re.findall(r"^```(\w+)\n(.*?)^```$", guide.read_text(), re.MULTILINE | re.DOTALL)
known = [(language, text) for language, text in listings if language in FOLDERS]
lost = [
    (language, text)
    for language, text in known
    if not any(text in file.read_text() for file in (folder / FOLDERS[language]).rglob("*.*") if file.is_file())
]


def own_lines(text):
    return [line for line in text.splitlines() if not re.fullmatch(r"[\s)}\]>;,]*|(use|mod|from|import) .*", line)]


long = [] if sys.argv[3:] else [(language, text) for language, text in known if len(own_lines(text)) > 15]
for language, text in long:
    print(f"{len(own_lines(text))} lines of {language} are more than 15:\n{text}")
for language, text in lost:
    print(f"no file of {language} has this listing:\n{text}")
print(f"{len(known) - len(lost)} of {len(known)} listings stand in their files")
sys.exit(bool(lost or long) or {language for language, _ in known} != (set(sys.argv[3:]) or set(FOLDERS)))
