"""What the Python module, the page and the npm package are made of, as the bytes of each file by its name."""
from __future__ import annotations

import base64
import io
import json
import re
import runpy
import tempfile
import zipfile
import zlib
from functools import lru_cache
from pathlib import Path
from typing import Callable, Dict

from files import ROOT, SONAME, VERSION, file_of, sum_of_sources

Files = Dict[str, bytes]
Take = Callable[[str], bytes]
"""How a file of the program or of the library is taken: of these sources, or of the release whatever the sources are."""

_DATE = (1980, 1, 1, 0, 0, 0)
"""The date of all files in a zip."""
_LICENCES = ("LICENSE-APACHE", "LICENSE-MIT", "THIRD-PARTY.md")


def licences() -> Files:
    """The licences, and those of linked crates."""
    return {name: (ROOT / name).read_bytes() for name in _LICENCES}


def files_below(folder: Path) -> Files:
    """All files below a folder, without what Python keeps of modules."""
    return {path.relative_to(folder).as_posix(): path.read_bytes() for path in sorted(folder.rglob("*"))
            if path.is_file() and "__pycache__" not in path.parts}


def own_files(folder: Path) -> Files:
    """All files below a folder, except those that are made and git ignores."""
    made = [".gitignore", "build", "out", *(line.strip("/") for line in (folder / ".gitignore").read_text("ascii").splitlines())]
    return {name: data for name, data in files_below(folder).items() if name.split("/")[0] not in made}


def zipped(files: Files) -> bytes:
    """A zip of files by their names, the same bytes each time."""
    out = io.BytesIO()
    with zipfile.ZipFile(out, "w", zipfile.ZIP_DEFLATED) as packed:
        for name, data in files.items():
            told = zipfile.ZipInfo(name, _DATE)
            told.external_attr, told.create_system, told.compress_type = 0o100644 << 16, 3, zipfile.ZIP_DEFLATED
            packed.writestr(told, data)
    return out.getvalue()


@lru_cache(maxsize=None)
def gzipped(data: bytes, level: int = 9) -> bytes:
    """The same bytes with each Python: its own gzip writes the header in two ways. Debian wants documents at level 9."""
    packer = zlib.compressobj(level, zlib.DEFLATED, 31)
    return packer.compress(data) + packer.flush()


def _constant(name: str, data: bytes) -> str:
    """A file as a constant of JavaScript, in text, so bundlers need no configuration for it."""
    return f'const {name} = "{base64.b64encode(data).decode()}";\n'


def page_files(taken: Take = file_of) -> Files:
    """The page.

    :raises NoFile: there is no module of these sources.
    """
    return {**own_files(ROOT / "page"), **page_made(taken)}


def page_made(taken: Take = file_of) -> Files:
    """The files of the page that are made: the module for browsers, also with addresses of 32 bits, and the numbers and texts of tables/shop/."""
    modules = {"GS1_WASM": taken("wasm64/gs1_c.wasm"), "GS1_WASM_32": taken("wasm32/gs1_c.wasm")}
    constants = "".join(_constant(name, data) for name, data in modules.items())
    # Without the blanks that only people need.
    told = {path.stem: json.dumps(json.loads(path.read_text("utf-8")), ensure_ascii=False, separators=(",", ":"))
            for path in sorted((ROOT / "tables" / "shop").glob("*.json"))}
    # Files of languages have names of two letters.
    languages = "".join(f"TEXTS.{name} = {text};\n" for name, text in told.items() if len(name) == 2)
    others = "".join(f"const {name.upper()} = {text};\n" for name, text in told.items() if len(name) != 2)
    return {"gs1.module.js": f"// Made by page/build: the module of crates/gs1_c.\n{constants}".encode(),
            "shop.js": f"// Made by page/build: the numbers and texts of tables/shop/.\n{others}const TEXTS = {{}};\n{languages}".encode()}


def module_files(target: str) -> Files:
    """The Python module with everything that stands beside it.

    :raises NoFile: there is no library of these sources for this processor.
    """
    page = {f"page/{name}": data for name, data in page_files().items()}
    return {**own_files(ROOT / "bindings" / "python" / "noriladle"), **module_made(target), **page}


def module_made(target: str, taken: Take = file_of) -> Files:
    """The files of the Python module that are made: the library, the texts of errors, and those of tables/shop/."""
    shop = {f"shop/{path.name}": path.read_bytes() for path in (ROOT / "tables" / "shop").glob("*.json")}
    return {"libgs1.so": taken(f"{target}/libgs1.so"), "remedies.json": remedies("json"), **shop}


def remedies(form: str) -> bytes:
    """The texts of errors, for Python (json) or for JavaScript (js)."""
    script = runpy.run_path(str(ROOT / "tables" / "remedies"))
    rows = script["rows_of"]((ROOT / "tables" / "remedies.tsv").read_text("utf-8"))
    with tempfile.TemporaryDirectory() as folder:
        path = Path(folder, f"remedies.{form}")
        script["write_module"](rows, str(path))
        return path.read_bytes()


def npm_files() -> Files:
    """The npm package: the library's module with addresses of 32 bits, which every Node and browser has, the scripts of the page that call it, and
    the types.

    :raises NoFile: there is no module of these sources.
    """
    npm, page = ROOT / "bindings" / "npm", ROOT / "page"
    own = {name: (npm / name).read_bytes() for name in ("index.js", "advice.js", "elements.js", "texts.js", "detector.js", "reader.js", "worker.js", "index.d.ts", "texts.d.ts", "detector.d.ts", "reader.d.ts",
                                                           "README.md")}
    scripts = "".join((page / f"{name}.js").read_text("utf-8").replace("// @ts-check\n", "", 1).replace('"use strict";\n', "", 1) for name in ("gs1", "picture", "ais", "values", "mending", "typed"))
    module, version = _constant("MODULE", file_of("wasm32/gs1_c.wasm")), f'"{VERSION} (sources {sum_of_sources()[:12]})"'
    return {**own, **licences(), **_texts_only(version), "remedies.js": remedies("js"),
            "package.json": (npm / "package.json").read_text("utf-8").replace("@VERSION@", VERSION).encode(),
            "module.js": f"// The module of crates/gs1_c, with addresses of 32 bits. Made by bindings/npm/build.\nexport {module}export const VERSION = {version};\n".encode(),
            "page.js": f"// The scripts of the page that ask the module, make the grey values of pictures, and say what values mean and what to do about errors. Made by bindings/npm/build.\n{scripts}"
                       f"{_NPM_EXPORT}".encode()}


def _texts_only(version: str) -> Files:
    """The module of the entry for texts, packed, and the names of the errors and symbols that it answers."""
    script = runpy.run_path(str(ROOT / "tables" / "remedies"))
    rows = script["rows_of"]((ROOT / "tables" / "remedies.tsv").read_text("utf-8"))
    faults = {row.number: row.name for row in script["firsts"](rows) if row.number in (*range(1, 12), 40, 42)}
    symbols = re.search(r"static symbols = (\[[^]]*\]);", (ROOT / "page" / "gs1.js").read_text("utf-8"))
    assert symbols
    module = _constant("MODULE", gzipped(file_of("wasm32/gs1_texts.wasm")))
    return {"texts.module.js": f"// What texts need of the module, packed by gzip. Made by bindings/npm/build.\nexport {module}export const VERSION = {version};\n"
                               f"export const FAULTS = {json.dumps(faults)};\nexport const SYMBOLS = {symbols[1]};\n".encode()}


_NPM_EXPORT = """\
export {
  AIS, Gs1, RawAnswer, countriesOf, currencyOf, greyOf, gtinOf, numberOf, paddedGtin, placeOf, remedyAlone,
  isGtin, remedyOfDigits, remedyOfEither, remedyOfIdentified, remedyOfString, remedyOfTyped, stripped, symbolsShown, unitOf, usualRemedy,
  writtenOtherwise,
};

// The calls of the module that these scripts ask.
let core;
export const askFor = (calls) => { core = calls; };
const refusalOf = (line) => core.said(line);
"""


def c_files(target: str) -> Files:
    """The library for C.

    :raises NoFile: there is no library of these sources for this processor.
    """
    return {"libgs1.a": file_of(f"{target}/libgs1.a"), f"libgs1.so.{VERSION}": file_of(f"{target}/libgs1.so"),
            "gs1.h": (ROOT / "crates" / "gs1_c" / "gs1.h").read_bytes()}


def c_links() -> Dict[str, str]:
    """The names by which loaders and linkers find the shared library, and what each is a link to."""
    return {SONAME: f"libgs1.so.{VERSION}", "libgs1.so": SONAME}


def pkg_config(libraries: str, prefix: str) -> bytes:
    """gs1.pc for the library in this folder below its prefix."""
    told = (ROOT / "package" / "gs1.pc").read_text("ascii")
    for name, value in (("VERSION", VERSION), ("LIBRARY", libraries), ("PREFIX", prefix)):
        told = told.replace(f"@{name}@", value)
    return told.encode()
