"""Makes random texts of scanners, rows, noise and Digital Links, valid ones and every kind of damage. The same seed gives the same texts."""

from __future__ import annotations

import random
import re
import string
from typing import Sequence

from element_strings import ANY, CHECKED, DATE, PARTS, TIME, X, check_digit, is_predefined, lengths
from answer_model import QUALIFIERS
from rows import EAN8_ROW, GS1128_ROW, SYMBOL
from symbols import EAN13, ITF14, OTHER_UPCE, UPCE

AIS = list(PARTS)
IDENTIFIERS = [f"]{letter}{digit}" for letter in string.ascii_letters for digit in string.digits]
TAKEN = ["]E0", "]E4", "]I1", "]C1", "]e0", "]d2", "]Q3", "]J1", "]d1", "]Q1"]

# Bytes that stand between the parts of texts.
MARKS = b"\x1d^],%/?&=#;+: .\x00\x7f\x80\xff\t\r0159AZaz(~"


def digits(rng: random.Random, count: int) -> str:
    return "".join(rng.choices(string.digits, k=count))


def numbered(rng: random.Random, count: int) -> str:
    """This many digits; the last is mostly their check digit."""
    text = digits(rng, count - 1)
    return text + (check_digit(text) if rng.random() < 0.9 else rng.choice(string.digits))


def value(rng: random.Random, ai: str) -> str:
    """A value of an AI, mostly a right one."""
    length = rng.choice(lengths(ai))
    told = ""
    for part in PARTS[ai]:
        count = min(part.greatest, max(part.least, length - len(told)))
        if part.format == CHECKED:
            told += numbered(rng, count)
        elif part.format in (DATE, TIME):
            day = f"{rng.randrange(100):02}{rng.randrange(14):02}{rng.choice([0, 1, 28, 29, 30, 31, 32]):02}"
            told += (day + f"{rng.randrange(25):02}{rng.randrange(61):02}{rng.randrange(61):02}")[:count]
        else:
            told += "".join(rng.choices(X if part.format == ANY else string.digits, k=count))
    fault = rng.random()
    if fault < 0.04:
        told = told[: rng.randrange(len(told) + 1)]
    elif fault < 0.08:
        told += rng.choice(["1", "A", digits(rng, 30), 90 * "A"])
    return told


def damaged(rng: random.Random, text: bytes) -> bytes:
    """A text with a byte removed, inserted or replaced, a part repeated, or cut, at any place."""
    place, other = rng.randrange(len(text) + 1), rng.randrange(len(text) + 1)
    mark = bytes([rng.choice(MARKS) if rng.random() < 0.8 else rng.randrange(256)])
    return rng.choice([
        lambda: text[:place],
        lambda: text[:place] + mark + text[place:],
        lambda: text[:place] + mark + text[place + 1 :],
        lambda: text[:place] + text[place + 1 :],
        lambda: text[: max(place, other)] + text[min(place, other) :],
        lambda: text[place:] + text[:place],
    ])().replace(b"\n", b"\r")


def element_string(rng: random.Random) -> bytes:
    """An element string, sometimes with too many separators, or too few."""
    text = rng.choice(["", "", "", "^", "\x1d", "^^"])
    for ai in rng.choices(AIS, k=rng.choice([0, 1, 1, 2, 2, 3, 4, 8])):
        told = value(rng, ai)
        text += ai + told
        wants = not is_predefined(ai)
        if rng.random() < (0.95 if wants else 0.1):
            text += rng.choice("^\x1d")
        if rng.random() < 0.02:
            text += rng.choice(["^", "\x1d", digits(rng, 3)])
    return text.encode("latin-1")


def number(rng: random.Random) -> str:
    """The digits of a number of any kind, as the symbol shows them."""
    kind = rng.randrange(6)
    if kind == 0:
        six, gtin, _ = rng.choice(UPCE + OTHER_UPCE)
        return f"0{six}{gtin[-1]}"
    if kind == 1:
        return "0" + digits(rng, 7)
    if kind == 2:
        return digits(rng, rng.randrange(21))
    return numbered(rng, rng.choice([8, 8, 12, 13, 13, 14]))


def message(rng: random.Random) -> bytes:
    """A text of a scanner, one in ten damaged, with anything at its end."""
    kind = rng.random()
    front = rng.choice(TAKEN if rng.random() < 0.95 else IDENTIFIERS)
    if kind < 0.3:
        text = rng.choice([front, "]E0", "]E4", "]I1", ""]).encode() + number(rng).encode()
    elif kind < 0.7:
        text = rng.choice([front, "]C1", "]e0", "]d2", "]Q3", "]J1", "^", "\x1d"]).encode() + element_string(rng)
    elif kind < 0.9:
        text = rng.choice(["", "", "]Q1", "]d1", front]).encode() + link(rng)
    elif kind < 0.95:
        text = rng.choice([b"]", b"^", b"\x1d", b"12345678", b"https://"]) + bytes(rng.randrange(256) for _ in range(rng.randrange(40)))
    else:
        text = rng.choice([b"]C1", b"^", b"]E0", b"", b"http://h/"]) + rng.choice([b"91", b"1", b"01/"]) * rng.randint(60, 200)
    if rng.random() < 0.1:
        text = damaged(rng, text)
    text += rng.choice(["", "", "", "", "\x1d", "^", " ", "\t", "\f", "\r", "\v", "\x1d ", " \r\r"]).encode()
    return text.replace(b"\n", b"\r")


def coded(rng: random.Random, text: str, chance: float) -> str:
    """A text with some bytes as percent codes: delimiters of a URI mostly, others with this probability."""
    return "".join(
        f"%{ord(it):{rng.choice(['02x', '02X'])}}" if rng.random() < (0.97 if it in "/%?#&" else chance) else it for it in text
    )


def segments(rng: random.Random) -> list[str]:
    """A path from its key on."""
    key = rng.choice(list(QUALIFIERS)).decode() if rng.random() < 0.4 else "01"
    order = QUALIFIERS.get(key.encode(), b"").decode().split()
    behind = [it for it in order if rng.random() < 0.4]
    if rng.random() < 0.05:
        behind += rng.choices([*order, "10", "17", "01"], k=1)
    if rng.random() < 0.05:
        rng.shuffle(behind)
    parts = []
    for ai in [key, *behind]:
        told = value(rng, ai) if ai in PARTS else rng.choice(["A", "12345678901234", ""])
        if ai == "01" and rng.random() < 0.4:
            told = numbered(rng, rng.choice([8, 12, 13]))
        parts += [ai, coded(rng, told, rng.choice([0, 0, 0.3]))]
    return parts


def parameter(rng: random.Random) -> str:
    """A parameter of a query: mostly an AI."""
    if rng.random() < 0.3:
        return rng.choice(["linkType=gs1:pip", "utm_source=x", "", "=", "a", "10a=1", "context=%41", "k=a=b", "=10", "01+=1"])
    if rng.random() < 0.02:
        return rng.choice(["x%20=1", "a;b", "%31%30=A", ";"])
    others = ["7040", "0109", "03", "1", digits(rng, rng.randrange(7)), digits(rng, rng.choice([192, 193]))]
    ai = rng.choice(AIS) if rng.random() < 0.95 else rng.choice(others)
    told = coded(rng, value(rng, ai) if ai in PARTS else "A", rng.choice([0, 0, 0.2]))
    if rng.random() < 0.97:
        told = told.replace("+", "%2B").replace(";", "%3B")
    return ai + ("=" if rng.random() < 0.97 else rng.choice(["", "==", "%3D"])) + told


def link(rng: random.Random) -> bytes:
    """A Digital Link, or what looks like one."""
    scheme = some(rng, ["https://", "http://", "HTTP://", "hTTps://"], ["https:/", "ftp://", "", "https:///"])
    host = some(rng, ["id.gs1.org", "example.com", "h", "[2001:db8::1]:443", "u:p@h:8", "xn--bcher-kva.example", "H%41"], ["a#b", "", "h?", "\u00fc"])
    stems = [some(rng, ["", "s", "some", "01", "414", "00", "10", "%2F", "a.b", "21", "gtin"], ["%", "a b"]) for _ in range(rng.choice([0, 0, 0, 1, 2, 3]))]
    path = "/".join([*stems, *segments(rng)]) + some(rng, ["", "", "", "", "/"], ["//", "/x", "/%"])
    query = "?" + "&".join(parameter(rng) for _ in range(rng.choice([0, 1, 1, 2, 3, 6]))) if rng.random() < 0.5 else ""
    text = f"{scheme}{host}/{path}{query}" + some(rng, ["", "", "", "", "#", "#/01/1?10=A"], ["#%", "#\t"])
    data = text.encode("utf-8" if rng.random() < 0.5 else "latin-1")
    if rng.random() < 0.15:
        data = damaged(rng, data)
    return rare(rng, data) if rng.random() < 0.004 else data


def some(rng: random.Random, right: Sequence[str], wrong: Sequence[str]) -> str:
    """One of these, mostly a right one."""
    return rng.choice(right if rng.random() < 0.98 else wrong)


def rare(rng: random.Random, text: bytes) -> bytes:
    """A link with very many parts, or very long ones."""
    many = rng.choice([47, 48, 49, 192, 193, 1_000, 10_000])
    front, slash, behind = text.partition(b"/01/")
    mark = b"&" if b"?" in text else b"?"
    return rng.choice([
        lambda: front + many * rng.choice([b"/", b"/s", b"/01", b"/%41", b"/10"]) + slash + behind,
        lambda: text + mark + b"&".join(many * [rng.choice([b"30=1", b"30=", b"a=1", b"", b"10=A"])]),
        lambda: text + mark + b"91=" + many * rng.choice([b"A", b"%41", b"%00"]),
        lambda: text + many * rng.choice([b"/10/A", b"/", b"1", b"%"]),
        lambda: text + b"#" + many * b"f",
        lambda: text + mark + b"a=" + rng.randint(65_400, 65_600) * b"x",
        lambda: text[: rng.randrange(len(text) + 1)] + link(rng)[rng.randrange(9) :],
    ])()


def upce_row(six: str, check: str) -> str:
    """The widths of a UPC-E with its light ends, by the tables of ISO/IEC 15420."""
    return f"9 1 1 1 {' '.join(LEFT[int(digit)][letter == 'B'] for digit, letter in zip(six, PARITIES[int(check)]))} 1 1 1 1 1 1 7"


# Number set A, each character with the same one reversed, which is that of set B; and the sets of a UPC-E by its check digit.
LEFT = [(" ".join(it), " ".join(reversed(it))) for it in "3211 2221 2122 1411 1132 1231 1114 1312 1213 3112".split()]
PARITIES = "BBBAAA BBABAA BBAABA BBAAAB BABBAA BAABBA BAAABB BABABA BABAAB BAABAB".split()


def known_rows() -> list[tuple[str, str]]:
    """Rows whose symbols the standards print, with what they say."""
    rows = [(f"11 {' '.join(''.join(it.split()))} 7", f"]E0 (01){text.rjust(14, '0')}") for text, it in ((it[0], it[1]) for it in EAN13)]
    rows += [(f"9 {' '.join(''.join(it.split()))} 7", f"]E0 (01)00{text}") for _, text, it in UPCE + OTHER_UPCE]
    rows += [(f"10 {' '.join(''.join(it.split()))} 10", f"]I1 (01){text}") for text, it in ITF14]
    return [*rows, (f"11 {SYMBOL} 7", "]E0 (01)09501101530003"), (EAN8_ROW, "]E4 (01)00000096385074"), (GS1128_ROW, "]C1 (422)528")]


class Rows:
    """Rows whose answers are known, by their fields."""

    def __init__(self) -> None:
        self.known = known_rows()
        self.said = {b"100": "refused 19 Blank", b"0": "refused 19 Blank", b"0 65535 0": "refused 20 RunCount", b"7 1 7": "refused 20 RunCount"}

    def field(self, rng: random.Random) -> bytes:
        """A row, from either end, at 1 to 3 dots a module."""
        if rng.random() < 0.1:
            return rng.choice(list(self.said)[:4])
        widths, told = rng.choice(self.known)
        dots = rng.randint(1, 3)
        parts = [int(it) * dots for it in widths.split()]
        if rng.random() < 0.1:
            parts[0], told = 4 * dots, "refused 21 QuietZone"
        field = " ".join(map(str, parts[:: rng.choice([1, -1])])).encode()
        self.said[field] = told
        return field

    def answer(self, field: bytes, as_pairs: bool) -> str:
        """The answer to a field, also to one of noise: blank, or with too few runs for a symbol."""
        told = self.said.get(field)
        if told is None:
            count = field.count(b" ") + 1
            assert count < 25, field
            told = "refused 19 Blank" if count == 1 else "refused 20 RunCount"
        return re.sub(r"\((\d+)\)(\d+)", r"\1=\2", told) if as_pairs else told


def noise(rng: random.Random) -> bytes:
    """A line that is mostly neither a row nor a text."""
    kind = rng.randrange(5)
    if kind == 0:
        return bytes(rng.randrange(256) for _ in range(rng.randrange(60)))
    if kind == 1:
        return "".join(rng.choices("0011289 ,,\r]^", k=rng.randrange(20))).encode()
    if kind == 2:
        return rng.choice([b"", b"\r", b"0", b"0,", b",", b"0,,", b"0,1,1", b"0,5 3", b"0,65536", b"0,1 0 1", b"\xef\xbb\xbf0,100", b'0,"]E0"'])
    if kind == 3:
        return damaged(rng, b"0," + message(rng))
    return damaged(rng, b"1,10 1 1 1 7")


def record(rng: random.Random, rows: Rows) -> bytes:
    """A line of an input of `live`."""
    kind = rng.random()
    if kind < 0.1:
        line = noise(rng)
    else:
        lane = rng.choice(["0", "1", "2", "00", "01", "02"]) if rng.random() < 0.98 else rng.choice(["3", "16", "", "x", "+1", "002", "]E0"])
        line = lane.encode() + b"," + (rows.field(rng) if kind < 0.55 else message(rng))
    if rng.random() < 0.0002:
        line += rng.choice([0, 1, 2, 3, 10, 200_000]) * b" " + (65_536 - len(line) - rng.randrange(-3, 4)) * rng.choice([b" ", b"9", b"\r", b"/"])
    return line.replace(b"\n", b"\r") + rng.choice([b"\n", b"\n", b"\n", b"\r\n"])
