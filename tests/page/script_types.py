"""Checks the types of the page's scripts by TypeScript's compiler, and that no line has more than 120 characters. Usage: script_types.py WORK.
Its last line is the counts.

page.d.ts and worker.d.ts have what the compiler of Debian 12 does not know."""
from __future__ import annotations

import json
import os
import re
import shutil
import subprocess
import sys
from pathlib import Path

ROOT = Path(__file__).resolve().parents[2]
MADE = ("gs1.module.js", "shop.js")
STRICT = ("amounts.js", "archives.js", "columns.js", "encodings.js", "mending.js", "numbers.js", "ods.js", "openfile.js", "prices.js", "remarks.js",
          "spreadsheets.js", "xlsx.js")
"""Scripts whose types are complete, so the compiler's strict rules hold in them."""
MOST_SIGNS = 120


def errors_of(folder: str, is_strict: bool, library: list[str], types: str, *scripts: str) -> list[str]:
    """What the compiler says of scripts that share one scope."""
    options = {"allowJs": True, "checkJs": True, "noEmit": True, "strict": is_strict, "target": "es2022", "lib": ["es2022", *library], "types": []}
    files = [*(f"{ROOT}/page/{name}" for name in scripts), f"{ROOT}/tests/page/{types}"]
    with open(f"{folder}/tsconfig.json", "w", encoding="utf-8") as file:
        json.dump({"compilerOptions": options, "files": files}, file)
    told = subprocess.run(["tsc", "-p", folder], stdout=subprocess.PIPE, text=True).stdout
    return [line for line in told.splitlines() if " error TS" in line or line.startswith("error TS")]


def main() -> bool:
    folder = os.path.abspath(sys.argv[1])
    names = sorted(path.name for path in (ROOT / "page").glob("*.js"))
    texts = {name: (ROOT / "page" / name).read_text("utf-8") for name in names if name not in MADE}
    wrong = [f"{name} does not begin with // @ts-check" for name, text in texts.items() if not text.startswith("// @ts-check\n")]
    wrong += [f"{name}:{at}: {len(line)} characters" for name, text in texts.items() for at, line in enumerate(text.splitlines(), 1)
              if len(line) > MOST_SIGNS]
    is_there = shutil.which("tsc") is not None
    if is_there:
        page = [name for name in names if name != "worker.js"]
        wrong += errors_of(folder, False, ["dom", "dom.iterable"], "page.d.ts", *page)
        wrong += errors_of(folder, False, ["webworker"], "worker.d.ts", "worker.js")
        strict = errors_of(folder, True, ["dom", "dom.iterable"], "page.d.ts", *page)
        wrong += [it for it in strict if re.search(r"(?:^|/)([\w.]+)\(|$", it)[1] in STRICT]
    print("".join(f"{it}\n" for it in wrong), file=sys.stderr, end="")
    print(f"{len(texts)} scripts, {len(STRICT)} of them strictly, {len(wrong)} wrong" if is_there else
          f"{len(texts)} scripts, {len(wrong)} wrong; types skipped: no tsc (apt-get install node-typescript)")
    return bool(wrong or not texts)


if __name__ == "__main__":
    sys.exit(main())
