"""Writes random lists of elements of every Application Identifier as texts of scanners and as links, reads them back, and compares the links with
those of a plain model; and compares the answers to many lines in one call with those to one line each:

    python3 tests/alike/written_and_read.py LIBRARY PACKAGE COUNT

LIBRARY is libgs1.so and PACKAGE the npm package. The last line is the counts.
"""
from __future__ import annotations

import ctypes
import importlib.machinery
import importlib.util
import itertools
import json
import pathlib
import random
import re
import struct
import subprocess
import sys
import types
from collections.abc import Callable, Iterable, Iterator
from typing import Any, Union
from urllib.parse import quote

ROOT = pathlib.Path(__file__).resolve().parents[2]
sys.path.insert(0, str(ROOT / "bindings" / "python"))
sys.dont_write_bytecode = True
import noriladle

YEAR, EVERY_AI, SIZE = 2026, 0x8000, 1068
TERMS = EVERY_AI | YEAR
Pairs = list[tuple[str, str]]
Told = tuple[int, int, int, int, bytes, bytes, bytes]
Kept = tuple[Pairs, str, Union[str, int], str, Union[str, int]]
HEAD, PLACE = struct.Struct("<2H4B4s192s"), struct.Struct("<3B15x")
IDENTIFIERS = ("]C1", "]e0", "]d2", "]Q3", "]J1")
STEMS = ("https://id.gs1.org", "https://example.com/", "http://x/01/a?".rstrip("?"), "HTTPS://shop.example/some/01/path")
# The keys of GS1 Digital Link, and behind each its qualifiers in their order.
KEYS: dict[str, tuple[str, ...]] = {ai: () for ai in "00 253 255 401 402 8003 8013".split()}
KEYS.update({"01": ("22", "10", "21", "235"), "8006": ("22", "10", "21"), "414": ("254", "7040"), "415": ("8020",), "417": ("7040",), "8004": ("7040",),
             "8010": ("8011",), "8017": ("8019",), "8018": ("8019",)})
PREDEFINED = re.compile("0[0-4]|1[1-9]|20|3[1-6]|41")


def loaded(name: str, path: pathlib.Path) -> types.ModuleType:
    loader = importlib.machinery.SourceFileLoader(name, str(path))
    spec = importlib.util.spec_from_loader(name, loader)
    assert spec
    module = importlib.util.module_from_spec(spec)
    sys.modules[name] = module
    loader.exec_module(module)
    return module


made = loaded("made", ROOT / "tests/ais/element_strings_of_all_ais.py")
ROWS = made.make.read(str(ROOT / "tables/ais.tsv"))
OF_LINKS = [row for row in ROWS if row.ais()[0] in {*KEYS, *itertools.chain(*KEYS.values())}]


def joined(pairs: Pairs) -> str:
    """The element string of pairs."""
    return "".join(ai + value + ("" if PREDEFINED.match(ai) else "\x1d") for ai, value in pairs[:-1]) + "".join(map("".join, pairs[-1:]))


def in_order(pairs: Pairs) -> tuple[Pairs, Pairs] | None:
    """The pairs of the path and of the query of a link; None without a key."""
    rest = list(pairs)
    key = next((pair for pair in rest if pair[0] in KEYS), None)
    if key is None:
        return None
    path = [key]
    rest.remove(key)
    for ai in KEYS[key[0]]:
        found = next((pair for pair in rest if pair[0] == ai), None)
        if found and not (ai == "235" and len(path) > 1):
            path.append(found)
            rest.remove(found)
    return path, rest


def link_of(pairs: Pairs, stem: str) -> str | int:
    """The link of pairs, or the number of the error."""
    order = in_order(pairs)
    if order is None:
        return 40
    path, query = order
    if len(joined(path + query)) > 192:
        return 11
    text = re.sub("/$", "", stem) + "".join(f"/{ai}/{quote(value, safe='')}" for ai, value in path)
    return text + "".join(f"{'&' if at else '?'}{ai}={quote(value, safe='')}" for at, (ai, value) in enumerate(query))


class Library:
    """The calls of the library."""

    def __init__(self, path: str) -> None:
        self.calls = ctypes.CDLL(path)
        self.raw, self.out, self.used = ctypes.create_string_buffer(SIZE), ctypes.create_string_buffer(1000), ctypes.c_size_t()
        for name in ("gs1_link", "gs1_scan_text", "gs1_read_messages", "gs1_read_gtins"):
            getattr(self.calls, name).restype = ctypes.c_size_t
        for name in ("gs1_link", "gs1_scan_text"):
            getattr(self.calls, name).argtypes = [ctypes.c_char_p, ctypes.c_char_p, ctypes.c_size_t, ctypes.c_uint16, ctypes.c_char_p, ctypes.c_size_t]
        for name in ("gs1_read_messages", "gs1_read_gtins"):
            getattr(self.calls, name).argtypes = [ctypes.c_char_p, ctypes.c_size_t, ctypes.c_uint16, ctypes.c_char_p, ctypes.c_size_t, ctypes.c_void_p]
        for name in ("gs1_read_message", "gs1_read_gtin"):
            getattr(self.calls, name).argtypes = [ctypes.c_char_p, ctypes.c_size_t, ctypes.c_uint16, ctypes.c_char_p]

    def read(self, text: bytes, call: str = "gs1_read_message") -> Told:
        """What a text says: the written bytes of the struct."""
        getattr(self.calls, call)(text, len(text), TERMS, self.raw)
        return told(self.raw.raw)

    def write(self, call: str, word: str) -> str | int:
        """What is written of the answer that was read last, as text or as the number of an error."""
        said = word.encode()
        size = getattr(self.calls, call)(self.raw, said, len(said), TERMS, self.out, 1000)
        line = self.out.raw[:size].decode()
        return int(line.split()[1]) if line.startswith("refused ") else line


def told(raw: bytes) -> Told:
    """The bytes of a struct that are written: without those behind its text and its elements."""
    fault, place, symbol, count, length, gtin, identifier, text = HEAD.unpack_from(raw)
    return fault, place, symbol, gtin, identifier, text[:length], raw[HEAD.size:HEAD.size + 18 * count]


def pairs_in(answer: Told) -> Pairs:
    """The elements of a struct."""
    text = answer[5].decode()
    return [(text[ai:value], text[value:end]) for ai, value, end in PLACE.iter_unpack(answer[6])]


def lists(chance: random.Random) -> Iterator[Pairs]:
    """Lists of one to five right elements, two thirds of them with a key or a qualifier, and some longer ones."""
    while True:
        few = chance.randint(1, 5) if chance.random() < 0.95 else chance.randint(6, 20)
        pairs = []
        for _ in range(few):
            row = chance.choice(OF_LINKS if chance.random() < 0.4 else ROWS)
            pairs.append((chance.choice(row.ais()), made.good(row.format)))
        if len(joined(pairs)) <= 192:
            yield pairs


def compare_written(library: Library, count: int) -> tuple[int, int, int, list[Kept]]:
    """Writes lists and reads them back. Returns how many were written, how many are wrong, and some of them for the npm package."""
    chance, links, wrong, unread = random.Random(11), 0, 0, 0
    kept: list[Kept] = []
    random.seed(11)
    for at, pairs in enumerate(itertools.islice(lists(chance), count)):
        text = ("]C1" + joined(pairs)).encode()
        answer = library.read(text)
        if answer[0]:
            unread += 1
            continue
        identifier, stem = chance.choice(IDENTIFIERS), chance.choice(STEMS)
        scan, link, wanted = library.write("gs1_scan_text", identifier), library.write("gs1_link", stem), link_of(pairs, stem)
        sent = library.read(str(scan).encode())
        is_right = scan == identifier + joined(pairs) and pairs_in(sent) == pairs and sent[4][:3] == identifier.encode() and link == wanted
        if isinstance(link, str):
            links += 1
            read = library.read(link.encode())
            is_right = is_right and read[0] == 0 and pairs_in(read) == [*itertools.chain(*in_order(pairs) or ())]
        if not is_right:
            wrong += 1
            print(f"{pairs}: {scan!r}, {link!r}, not {wanted!r}", file=sys.stderr)
        if at % 20 == 0:
            kept.append((pairs, identifier, scan, stem, link))
    return links, unread, wrong, kept


def lines_of(chance: random.Random, count: int) -> Iterator[bytes]:
    """Texts of scanners and of GTINs, many of them wrong."""
    every = lists(chance)
    for _ in range(count):
        digits = made.check_digit("".join(chance.choice("0123456789") for _ in range(chance.choice([8, 12, 13, 13, 14]))))
        pick = chance.random()
        text = digits if pick < 0.5 else chance.choice(IDENTIFIERS) + joined(next(every)) if pick < 0.8 else str(link_of(next(every), STEMS[0]))
        if chance.random() < 0.2:
            at = chance.randrange(len(text) + 1)
            text = text[:at] + chance.choice(["", "0", " ", "A", "\r", "^", "é"]) + text[at + chance.randrange(2):]
        yield text.encode()


def compare_lines(library: Library, count: int) -> tuple[int, int]:
    """Answers lines by both calls. Returns how many differ."""
    chance, differ, done = random.Random(12), 0, 0
    every = lines_of(chance, count)
    while some := list(itertools.islice(every, 1000)):
        ends = [chance.choice([b"\n", b"\n", b"\r\n"]) for _ in some]
        text = b"".join(map(b"".join, zip(some, ends)))
        if chance.random() < 0.3:
            text = text[:-len(ends[-1])] if some[-1] else text
        for call in ("gs1_read_message", "gs1_read_gtin"):
            at = begun = 0
            room = chance.choice([17, 400, 1000, 2000])
            raw = ctypes.create_string_buffer(SIZE * (room + 1))
            while begun < len(text):
                ctypes.memset(raw, 0x5a, len(raw))
                found = getattr(library.calls, f"{call}s")(text[begun:], len(text) - begun, TERMS, raw, room, ctypes.byref(library.used))
                answers = raw.raw
                rest = answers[SIZE * found:]
                lines = text[begun:begun + library.used.value].split(b"\n")
                lines = [line[:-1] if line.endswith(b"\r") and i < len(lines) - 1 else line for i, line in enumerate(lines)]
                lines = lines[:-1] if lines[-1] == b"" else lines
                is_right = len(lines) == found == min(room, len(some) - at) and rest == b"\x5a" * len(rest)
                differ += not is_right
                for i, line in enumerate(lines):
                    differ += told(answers[SIZE * i:SIZE * (i + 1)]) != library.read(line, call)
                at, begun, done = at + found, begun + library.used.value, done + found
    return done, differ


def one_by_one(ask: Callable[[str], Any], texts: Iterable[str]) -> Iterator[Any]:
    for text in texts:
        try:
            yield ask(text)
        except noriladle.Refusal as refusal:
            yield refusal


def same(one: object, other: object) -> bool:
    """Whether two answers or errors of Python are the same."""
    parts = [(str(it), it.before, it.ai, it._asked) if isinstance(it, noriladle.Refusal) else it for it in (one, other)]
    return parts[0] == parts[1]


def compare_python(count: int) -> int:
    texts = [text.decode("utf-8") for text in lines_of(random.Random(13), count)] + ["a\nb", "9501101530003\n", "9501101530003\r", ""]
    scans = zip(noriladle.read_scans(texts, YEAR), one_by_one(lambda it: noriladle.read_scan(it, YEAR), texts))
    gtins = zip(noriladle.read_gtins(texts), one_by_one(noriladle.read_gtin, texts))
    return sum(not same(one, other) for one, other in itertools.chain(scans, gtins))


def compare_npm(package: str, kept: list[Kept], count: int) -> int:
    """What the npm package writes, and how it answers many texts and one."""
    texts = [text.decode("utf-8") for text in lines_of(random.Random(14), count)]
    asked = json.dumps({"texts": [*texts, "a\nb", ""], "lists": [[pairs, identifier, stem] for pairs, identifier, _, stem, _ in kept]})
    said = subprocess.run(["node", str(ROOT / "tests/alike/npm_written.mjs"), package], input=asked, stdout=subprocess.PIPE, text=True, check=True)
    told = json.loads(said.stdout)
    wanted = [[scan, link] for _, _, scan, _, link in kept]
    differ: int = told["differ"]
    return differ + sum(one != other for one, other in zip(told["written"], wanted)) + abs(len(told["written"]) - len(wanted))


def main(path: str, package: str, count: int) -> int:
    library = Library(path)
    links, unread, wrong, kept = compare_written(library, count)
    done, differ = compare_lines(library, count)
    python, npm = compare_python(count // 10), compare_npm(package, kept, count // 10)
    assert links > count // 4 and unread < count // 4, (links, unread)
    print(f"{count - unread} texts of scanners and {links} links read back: {wrong} wrong; {done} lines: {differ} differ from one by one; "
          f"Python: {python} wrong; npm: {npm} wrong")
    return 1 if wrong or differ or python or npm else 0


if __name__ == "__main__":
    sys.exit(main(sys.argv[1], sys.argv[2], int(sys.argv[3])))
