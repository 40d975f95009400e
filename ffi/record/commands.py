"""Runs the commands of a guide, those after `$` in its blocks, in a folder, and compares what each block prints with what is there.
usage: commands.py GUIDE FOLDER"""
import pathlib
import re
import subprocess
import sys

guide, folder = pathlib.Path(sys.argv[1]), sys.argv[2]
blocks = re.findall(r"^```\n(\$ .*?)^```$", guide.read_text(), re.MULTILINE | re.DOTALL)
wrong = 0
for block in blocks:
    lines = block.splitlines()
    script = "\n".join(line[2:] for line in lines if line.startswith("$ "))
    done = subprocess.run(["sh", "-c", script], cwd=folder, stdout=subprocess.PIPE, stderr=subprocess.STDOUT, timeout=900)
    expected, printed = [line for line in lines if not line.startswith("$ ")], done.stdout.decode().splitlines()
    if expected != printed:
        wrong += 1
        print(f"{script}\nis to print\n{expected}\nand prints\n{printed}")
print(f"{len(blocks) - wrong} of {len(blocks)} blocks print what stands there")
sys.exit(wrong > 0 or not blocks)
