"""Compiles and runs the callers of docs/C.md and docs/PYTHON.md as the pages say, and compares what they print.

Usage: documented_callers.py PAGE.. FOLDER. A block of `c`, `cpp` or `python` is FOLDER/caller.c, .cpp or .py, and the block after it is a
command and its output. The last line is the counts, and the status is 0 if all outputs are those of the page.
"""
import pathlib
import re
import subprocess
import sys

*pages, folder = sys.argv[1:]
text = "".join(pathlib.Path(it).read_text(encoding="utf-8") for it in pages)
blocks = re.findall(r"^```(\w+)\n(.*?)^```\n+```\n\$ (.*?)\n(.*?)^```$", text, re.MULTILINE | re.DOTALL)
other = 0
for language, source, command, wanted in blocks:
    ending = {"c": "c", "cpp": "cpp", "python": "py"}[language]
    with open(f"{folder}/caller.{ending}", "w", encoding="utf-8") as it:
        it.write(source)
    ran = subprocess.run(["bash", "-c", command], cwd=folder, capture_output=True, text=True, check=False)
    if ran.stdout != wanted or ran.returncode != 0:
        other += 1
        print(f"{command}: status {ran.returncode}\n{ran.stdout}{ran.stderr}", file=sys.stderr)
print(f"callers: {len(blocks)}, {other} differ")
sys.exit(other != 0 or len(blocks) != 8)
