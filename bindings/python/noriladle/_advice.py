"""What to do about a text that a call refuses, by the call and by the text. The call reads each text that it proposes instead."""
from __future__ import annotations

import re
from typing import Callable, Dict, Iterator, NamedTuple, Optional

from . import _ANY_YEAR, _ELEMENT_STRINGS, Ais, Kind, Refusal, _remedies, check_digit, label_symbol, parse_elements, read_gtin, read_scan
from ._mending import Advice, Written, advice, is_number, meant
from ._texts import BRACKETED, LINK, ROUNDED, digits_of, is_elements, pairs_of, read_text, stripped
from ._values import ai_at

Reads = Callable[[str], bool]
"""Whether the call reads a text."""

_LENGTHS = {"]E0": "lengthEan", "]E4": "lengthEan8", "]I1": "lengthItf"}
"""The advice if an identifier is followed by another number of digits."""
_LINKS = ("]Q1", "]d1")
"""The identifiers of symbols that have a Digital Link."""
_ALONE = {5: "noAi", 6: "valueLength", 7: "valueCharacter", 10: "valueLength"}
"""The advice for an element that lacks its separator."""
_DAYS = ("11", "12", "13", "15", "16", "17")
"""The Application Identifiers of two digits whose values are days."""
_EITHER = ("read_text", "read_scan")
"""The calls for which eight digits that begin with 0 are an EAN-8 or a UPC-E."""
_WRITING = ("compose", "scan", "link", "stem", "conflicts")
"""The calls that are given elements; ``stem`` is a link whose stem is wrong."""
_OF_SYMBOLS = range(4, 12)
"""The refusals of what a symbol says."""


class Asked(NamedTuple):
    """What a call was asked, as text."""

    call: str
    """The call's name, or ``row`` and ``picture`` for all of these."""
    text: str = ""
    year: Optional[int] = None
    ais: Ais = "all"
    kind: str = ""
    """The kind of a label, or the Application Identifier of an element."""

    def reads(self, text: str) -> bool:
        """Whether the call reads another text."""
        try:
            _CALLS[self.call](self, text)
            return True
        except Refusal:
            return False


_CALLS: Dict[str, Callable[[Asked, str], object]] = {
    "read_text": lambda it, text: read_text(text, it.year, it.ais), "column": lambda _, text: read_text(text, _ANY_YEAR),
    "read_scan": lambda it, text: read_scan(text, it.year, ais=it.ais), "parse_elements": lambda it, text: parse_elements(text, it.year, ais=it.ais),
    "read_gtin": lambda _, text: read_gtin(text), "check_digit": lambda _, text: check_digit(text),
    "label": lambda it, text: label_symbol(it.kind, text, it.year, ais=it.ais)}
"""What reads a text for each call that was asked."""


def advice_of(refusal: Refusal, asked: Asked) -> Advice:
    """What to do about what a call was asked and refuses."""
    if refusal.number == 42:
        return Advice("42")
    of_calls = {"read_text": _of_typed, "read_scan": _of_scan, "parse_elements": _of_elements, "read_gtin": _of_digits,
                "check_digit": _of_check_digit, "label": _of_label, "column": _of_column, "row": _of_row, "picture": _of_picture,
                **dict.fromkeys(_WRITING, _of_written)}
    return of_calls.get(asked.call, _of_any)(refusal, asked)


def remedy_of(text: str, refusal: Refusal, year: int, ais: Ais = "all") -> Advice:
    """What to do about a text that :func:`read_text` refuses."""
    return advice_of(refusal, Asked("read_text", text, year, ais))


def _of_typed(refusal: Refusal, asked: Asked) -> Advice:
    if refusal.number > 11 and refusal.number != 40:
        return Advice(str(refusal.number))  # Of the label, the year or the machine.
    asked = asked._replace(text=stripped(asked.text))
    if asked.text[:1] == "]" or LINK.match(asked.text):
        return _of_identified(refusal, asked)
    if asked.text[:1] in BRACKETED:
        return _of_printed(refusal, asked)
    return _of_string(refusal, asked, asked.text, "^") if is_elements(asked.text) else _of_digits(refusal, asked)


def _of_scan(refusal: Refusal, asked: Asked) -> Advice:
    text = asked.text
    if text[:1] == "]" and refusal.number != 40 or text[:1] in ("^", "\x1d") or LINK.match(text):
        return _of_identified(refusal, asked)
    if re.fullmatch("[0-9]+", text):
        return _of_digits(refusal, asked)
    plain = _written_otherwise(asked)
    if plain or text[:1] != "]":
        return plain or Advice("notScanned")
    return _of_identified(refusal, asked)


def _of_identified(refusal: Refusal, asked: Asked) -> Advice:
    """What to do about a text with an identifier or a separator in front, or a Digital Link."""
    text, identifier = asked.text, asked.text[:3] if asked.text[:1] == "]" else ""
    if refusal.number == 40:
        key = _remedies()["identifiers"].get(identifier, "otherSymbol") if identifier not in ("", *_LINKS) else "noLink"
        return Advice(key, (identifier,) if key != "noLink" else ())
    if not identifier and LINK.match(text) or identifier in _LINKS:
        return _of_link(refusal)
    digits = text[len(identifier):]
    if refusal.number == 1 and identifier in _LENGTHS:
        return Advice(_LENGTHS[identifier])
    if refusal.number == 3:
        return advice(digits, _written(asked, identifier)) or Advice("3")
    return _of_string(refusal, asked, digits, "^")


def _of_link(refusal: Refusal) -> Advice:
    """What to do about an element of a link, whose place is its index."""
    if refusal.place is None:
        return Advice("fewerElements") if refusal.number == 11 else Advice(str(refusal.number))
    return Advice("inLink", (refusal.place + 1, _alone(refusal.number, "17" if refusal.number == 9 else "")))


def _of_string(refusal: Refusal, asked: Asked, text: str, separator: str) -> Advice:
    """What to do about an element string. Places do not count a separator at its beginning."""
    text = text[1:] if text[:1] in ("^", "\x1d") else text
    if refusal.place is None or refusal.number < 5:
        is_long = refusal.number == 11 and asked.call != "read_text"
        return Advice("fewerElements") if is_long else _usual(refusal.number, text, refusal.place, separator)
    rest = _behind(text, refusal.place)
    return Advice("at", (rest[:20].replace("\x1d", "^"), _usual(refusal.number, rest, 0, separator)))


def _of_printed(refusal: Refusal, asked: Asked) -> Advice:
    """What to do about an element string as it is printed, with the element that it is about."""
    text = asked.text
    try:
        pairs = pairs_of(text)
    except Refusal:
        number = meant(text)
        right = _written(asked)(number) if number else ""
        return Advice("parentheses" if text[0] == "(" else "brackets", (), (right,) if right else ())
    close, at = ")" if text[0] == "(" else "]", 0
    shown = [f"{text[0]}{ai}{close}{value}" for ai, value in pairs]
    for index, (ai, value) in enumerate(pairs):
        if at == refusal.place:
            right = _padded(ai, value)
            told = f"{text[0]}{ai}{close}{right}"
            whole = "".join([*shown[:index], told, *shown[index + 1:]])
            fixes = [whole] if right and asked.reads(whole) else []
            return Advice("at", (shown[index], Advice("padded", (told,)) if right else _alone(refusal.number, ai)), tuple(fixes))
        at += len(ai) + len(value) + 1
    return _usual(refusal.number, text, None, "^")


def _padded(ai: str, value: str) -> str:
    """A GTIN with the zeros that its Application Identifier needs, if it lacks them."""
    try:
        gtin = read_gtin(value) if ai in ("01", "02", "03") else ""
    except Refusal:
        return ""
    return gtin if gtin != value else ""


def _of_digits(refusal: Refusal, asked: Asked) -> Advice:
    """What to do about a number."""
    text, digits, written = asked.text, digits_of(asked.text), _written(asked)
    if digits and not digits.strip("0"):
        return Advice("zerosAlone") if refusal.number == 40 else Advice(str(refusal.number))
    eight = next((it for it in (digits, meant(text)) if re.fullmatch("0[0-9]{7}", it)), "")
    if eight and asked.call in _EITHER:
        both = tuple(it for it in (f"]E4{eight}", f"]E0{eight}") if asked.reads(it))
        if both:
            return Advice("eight", both, both) if len(both) == 2 else Advice("plainly", both, both)
    decimals = re.fullmatch(r"(\d{8,14})[.,]0+", digits)
    if decimals and written(decimals[1]):
        return Advice("decimals", (written(decimals[1]),), (written(decimals[1]),))
    told = advice(text, written) or _written_otherwise(asked)
    if told:
        return told
    if ROUNDED.fullmatch(digits):
        return Advice("rounded")
    string = f"^{digits if digits.isdecimal() else text}"
    if (len(digits) > 14 if digits.isdecimal() else refusal.number == 1) and asked.reads(string):
        return Advice("manyDigits", (string,), (string,))
    return Advice("1") if refusal.number == 40 else _usual(refusal.number, text if asked.call == "read_gtin" else digits, refusal.place, "^")


def _of_check_digit(refusal: Refusal, asked: Asked) -> Advice:
    digits = digits_of(asked.text)
    if asked.reads(digits):
        return Advice("plainly", (digits,), (digits,))
    return Advice("lengthDigits") if refusal.number == 1 else _usual(refusal.number, asked.text, refusal.place, "^")


def _of_label(refusal: Refusal, asked: Asked) -> Advice:
    kinds = [it.name.lower() for it in Kind]
    if asked.kind not in kinds:
        return Advice("noLabelKind", (asked.kind, ", ".join(kinds)))
    if refusal.number == 40:
        return _of_either(asked, f"01{read_gtin(asked.text)}")
    if refusal.number not in range(1, 12):
        return Advice(str(refusal.number))
    return _of_elements(refusal, asked) if asked.kind == "gs1128" else _of_digits(refusal, asked)


def _of_column(refusal: Refusal, asked: Asked) -> Advice:
    """What to do about the digits of a GTIN in a column of element strings."""
    return _of_either(asked, f"(01){read_gtin(asked.text)}")


def _of_either(asked: Asked, gtin: str) -> Advice:
    """The question which of two texts is meant, if both are read."""
    both = tuple(it for it in (gtin, f"^{asked.text}") if asked.reads(it))
    return Advice("gtinOrElements" if len(both) == 2 else "plainly", both, both)


def _of_elements(refusal: Refusal, asked: Asked) -> Advice:
    """What to do about an element string whose separator is byte 29 alone."""
    return _written_otherwise(asked) or _of_string(refusal, asked, asked.text, "byte 29")


def _of_written(refusal: Refusal, asked: Asked) -> Advice:
    """What to do about elements: about one of them, or about all."""
    ai, value = asked.kind, asked.text
    right = _padded(ai, value) if refusal.number == 6 else ""
    if refusal.number == 40:
        of_calls = {"scan": Advice("noIdentifier", (value, ", ".join(it.decode() for it in _ELEMENT_STRINGS))), "stem": Advice("noStem", (value,))}
        return of_calls.get(asked.call, Advice("noKey"))
    if not ai:
        return Advice({4: "noElements", 11: "fewerElements"}[refusal.number]) if refusal.number in (4, 11) else _alone(refusal.number, ai)
    return Advice("at", (f"({ai}){value}".replace("\x1d", "^"), Advice("padded", (f"({ai}){right}",)) if right else _alone(refusal.number, ai)))


def _of_row(refusal: Refusal, asked: Asked) -> Advice:
    if refusal.number in _OF_SYMBOLS:
        return Advice("wrongText")
    return Advice({17: "wideRow", 18: "shortRow"}.get(refusal.number, f"row{refusal.number}"))


def _of_picture(refusal: Refusal, asked: Asked) -> Advice:
    return Advice("wrongText" if refusal.number in _OF_SYMBOLS else str(refusal.number))


def _of_any(refusal: Refusal, asked: Asked) -> Advice:
    """What to do about an error whose text is not known."""
    return Advice("noDigit") if refusal.number == 2 else _usual(refusal.number, "", None, "^")


def _usual(number: int, text: str, place: Optional[int], separator: str) -> Advice:
    """The advice for the number of an error, with the character or the separator that it is about."""
    if number == 2:
        sign = _behind(text, place or 0)[:1]
        return Advice("2", (sign,)) if sign else Advice("noDigit")
    if number == 9:
        return _alone(number, ai_at(text[:4]) or "17")
    return Advice(str(number), (separator,) if number in (5, 7, 10) else ())


def _alone(number: int, ai: str) -> Advice:
    """The advice for a single element. Days of Application Identifiers of two digits may be 00."""
    if ai in _DAYS and number in _ALONE:
        return Advice("9")  # Such as (17)31.12.2026.
    return Advice("dayAndTime" if number == 9 and len(ai) != 2 else _ALONE.get(number, str(number)))


def _behind(text: str, place: int) -> str:
    """A text from a place on, which counts bytes."""
    return text.encode("utf-8", "surrogatepass")[place:].decode("utf-8", "replace")


def _written(asked: Asked, identifier: str = "") -> Written:
    """How the call takes a number: as it is, or with the identifier of an EAN-8 if it may be a UPC-E too."""
    def written(number: str) -> str:
        ways = (f"{identifier}{number}", *([f"]E4{number}"] if not identifier and asked.call in _EITHER else []))
        return next((it for it in ways if asked.reads(it)), "")
    return written


def _written_otherwise(asked: Asked) -> Optional[Advice]:
    """What to write for a text that is clear, but written as another call takes it."""
    for way in _ways(asked):
        if way != asked.text and asked.reads(way):
            is_string = asked.call == "parse_elements" or asked.kind == "gs1128"
            key = "byte29" if is_string and "^" in asked.text.strip("^") and "\x1d" in way else "plainly"
            return Advice(key, (way.replace("\x1d", "\\x1d"),), (way,))
    return None


def _ways(asked: Asked) -> Iterator[str]:
    """Texts that a text may stand for, if it has the marks of an element string, of a scan or of a number."""
    text = stripped(asked.text)
    behind = text[3:] if text[:1] == "]" else text
    yield text
    if asked.call == "read_scan":
        front = "^"
    elif asked.call == "parse_elements" or asked.kind == "gs1128":
        front = ""
        yield behind
    else:
        yield behind
        number = meant(text)
        if is_number(number):
            yield number
        return
    if is_elements(behind):
        try:
            string = "\x1d".join(f"{it.ai}{it.value}" for it in read_text(behind, asked.year, asked.ais))
        except Refusal:
            return
        yield f"^{string}".replace("\x1d", "^") if front else string
    elif front and meant(text):
        yield meant(text)
