"""Check a list of numbers, element strings and scanned texts

LIST is a CSV file with a heading or without, or has one text a line. A text is a GTIN, an element string as printed,
(01)09501101530003(17)261231, or with ^ for the separator, ^10AB^17261231, or what a scanner sends, ]C110AB. Prints for
each its line's number, the text, and what it says, or why it is refused, what to do, and the name of the article, with
tabs between. The last line is a sum, and the status is 1 if a line is refused. --fix writes the list with the numbers
that are clearly meant in place of ="4012345010008", 4.012345010008E+12, EAN: 4012345010008, an ISBN of ten digits, or a
number without its zeros in front.

A warning behind a line names elements that the standard does not let stand together, codes of no country or currency,
and numbers of no trade item: of a shop (02, 04, 2), of a coupon or a receipt (05, 980 to 984, 99), or zeros alone.
--strict refuses such a line. Behind the number of a book, of music or of a serial stands ISBN, ISMN or ISSN.

  $ noriladle check supplier.csv
  $ noriladle check supplier.csv --fix -o fixed.csv
  $ noriladle check supplier.csv --link https://id.gs1.org
"""
from __future__ import annotations

import argparse
import itertools
import json
import sys
from functools import lru_cache, reduce
from typing import Any, Dict, Iterable, Iterator, List, NamedTuple, Optional, Tuple

from .. import Ais, Answer, Conflict, Element, GtinUse, Refusal, _gtins, check_digit, conflicts, gtin_use
from .._columns import Table, table_of
from .._lists import Faults, Record
from .._plain import blocks_of, is_plain
from .._advice import remedy_of
from .._texts import in_column, read_text, short, stripped
from .._shop import count_text, counted, told, translated
from .._fixing import csv_of, fixed
from . import REFUSED, RIGHT, Progress, WrongWords, add_ais, add_year, data_of, tell, write_files
from ._lists import add_list, columns_of, file_of, first_of, name_of


_ZEROS = "0" * 14
_PUBLICATIONS: Tuple[GtinUse, ...] = ("isbn", "ismn", "issn")
_PLAIN = ("trade_item", *_PUBLICATIONS)
"""What a number may identify without a warning."""


def add_arguments(parser: argparse.ArgumentParser) -> None:
    """Adds the arguments of ``noriladle check``."""
    add_list(parser)
    parser.add_argument("--fix", action="store_true",
                        help="Write the list with its numbers corrected, as far as it is clear what they are")
    parser.add_argument("-o", "--output", metavar="FILE", help="File of the corrected list, or - for standard output")
    parser.add_argument("--refused", action="store_true", help="Print only the lines that are refused")
    parser.add_argument("--strict", action="store_true",
                        help="Refuse what is a warning otherwise")
    parser.add_argument("--link", metavar="STEM", help="Print the GS1 Digital Link of each text too, with this beginning")
    parser.add_argument("--json", action="store_true", help="Print a JSON object for each line")
    add_year(parser)
    add_ais(parser)


class Checked(NamedTuple):
    """A line of a list, and what it says or why it is refused."""

    line: int
    text: str
    answer: Optional[Answer]
    refusal: Optional[Refusal] = None
    remedy: str = ""
    fixes: Tuple[str, ...] = ()
    """Each text that may be meant."""
    article: str = ""
    """The article's name, if the list has one."""
    found: Tuple[Conflict, ...] = ()
    """What the answer's elements say against each other: a warning, unless --strict refuses it."""


def run(words: argparse.Namespace) -> int:
    """Prints what each line of the list says."""
    if words.fix != bool(words.output):
        raise WrongWords(translated("--fix and -o FILE go together: write both, as in --fix -o fixed.csv"))
    if words.link and not _link_of(Answer(None, (Element("01", _ZEROS),)), words):
        raise WrongWords(translated("--link takes the beginning of a web address, as https://id.gs1.org"))
    name, columns, progress, count, refused = name_of(words), columns_of(words), Progress(), 0, 0
    try:
        with file_of(words) as file:
            data = first_of(words, file)
            if not (words.fix or columns or words.encoding or words.link) and is_plain(data, words.year):
                printed = _printed_plain(blocks_of(data, file), words)
            else:
                table = table_of(data, words.year, columns, words.encoding or "")
                for note in table.notes():
                    tell(f"{name}: {note}")
                if words.fix:
                    return _fix(table, name, words)
                printed = (_printed(checked, words) for checked in checked_lines(table, words.year, words.ais))
            for line, rows, texts, faults in printed:
                if not sys.stdout.isatty():
                    progress(told("checking", count_text(line)))
                count, refused = count + texts, refused + faults
                sys.stdout.write(rows)
    except Faults as error:
        for fault in error.faults:
            tell(f"{name}:{fault.line}: {fault.said}")
        return REFUSED
    finally:
        progress.end()
        sys.stdout.flush()
    if count:
        tell(f"{name}: {counted('refusedOf', refused, count_text(count)) if refused else counted('allRight', count)}")
    return REFUSED if refused else RIGHT


class _Printed(NamedTuple):
    """What is printed of some lines."""

    line: int
    """The last of them."""
    rows: str
    texts: int
    refused: int


def _printed(checked: Checked, words: argparse.Namespace) -> _Printed:
    is_refused = not checked.answer or words.strict and bool(checked.found)
    if words.refused and not is_refused:
        return _Printed(checked.line, "", 1, 0)
    link = _link_of(checked.answer, words) if checked.answer and words.link else None
    row = json.dumps(_data(checked, link), ensure_ascii=False) if words.json else _row(checked, "refused" if is_refused else "warning", link)
    return _Printed(checked.line, f"{row}\n", 1, is_refused)


def _printed_plain(blocks: Iterable[Tuple[int, List[bytes]]], words: argparse.Namespace) -> Iterator[_Printed]:
    """The same of a list with one text a line, a block at a time. A number that stands alone contradicts nothing, if it is that of an article."""
    for line, texts in blocks:
        rows: List[str] = []
        others: List[_Printed] = []
        for line, text, digits in zip(itertools.count(line), map(bytes.decode, texts), _gtins(texts)):
            use = _use_of(digits) if digits and digits != _ZEROS else None
            if use in _PLAIN:
                named, cell = (f', "use": "{use}"', f"\t{use.upper()}") if use in _PUBLICATIONS else ("", "")
                rows.append(f'{{"line": {line}, "text": "{text}", "identifier": null, "gtin": "{digits}", '
                            f'"elements": [{{"ai": "01", "value": "{digits}"}}]{named}}}\n' if words.json else f"{line}\t{text}\t(01){digits}{cell}\n")
            elif text.strip():
                others.append(_printed(_checked(line, stripped(text), False, words.year, words.ais), words))
                rows.append(others[-1].rows)
        refused = sum(it.refused for it in others)
        yield _Printed(line, "".join(it.rows for it in others) if words.refused else "".join(rows), len(rows), refused)


def _use_of(gtin: str) -> GtinUse:
    """What a GTIN identifies that is not zeros alone: of the first ten digits if it was written with eight, else of five."""
    return _use_by(gtin[:10] if gtin.startswith("00000", 1) else gtin[:5])


@lru_cache(maxsize=None)
def _use_by(front: str) -> GtinUse:
    """What the GTINs identify that begin with these of their 14 digits."""
    digits = front.ljust(13, "1")
    return gtin_use(f"{digits}{check_digit(digits)}")


def _publication(answer: Answer) -> str:
    """The use of the answer's GTIN if it is that of a publication; or nothing."""
    use = _use_of(answer.gtin) if answer.gtin else None
    return use if use in _PUBLICATIONS else ""


def _fix(table: Table, name: str, words: argparse.Namespace) -> int:
    """Writes the corrected list, and reports what was changed and what is still refused."""
    for fault in table.faults:
        tell(f"{name}:{fault.line}: {fault.said}")
    if table.faults:
        return REFUSED
    list_of, changes = fixed(table, words.year)
    for line, before, after in changes:
        tell(f"{name}:{line}: {told('fixed', ' '.join(before.split()), after)}")
    refused = [checked for checked in checked_lines(list_of, words.year, words.ais) if not checked.answer]
    for checked in refused:
        tell(f"{name}:{checked.line}: {_named(checked)}{checked.refusal}: {checked.remedy}")
    text = csv_of(list_of)
    if words.output == "-":
        sys.stdout.write(text)
    else:
        write_files([(words.output, text.encode("utf-8-sig"))])
    tell(f"{counted('corrected', len(changes))}{'' if words.output == '-' else told('inFile', words.output)}")
    return REFUSED if refused else RIGHT


def checked_lines(table: Table, year: int, ais: Ais = "all") -> Iterator[Checked]:
    """What each text of a table says, line by line."""
    records = {record.line: record for record in table.records}
    faults = {fault.line: fault for fault in table.faults}
    for line in sorted({*records, *faults}):
        if line in faults:
            yield Checked(line, "", None, Refusal(39, "Csv"), faults[line].said)
        else:
            article = " ".join(table.cell(records[line], "name").split())
            for text, is_string in _texts(table, records[line]):
                yield _checked(line, text, is_string, year, ais)._replace(article=article)


def _texts(table: Table, record: Record) -> Iterator[Tuple[str, bool]]:
    """The texts of a record, and whether each is in a column of element strings: one, unless it has a number too."""
    number, elements = stripped(table.cell(record, "gtin")), stripped(table.cell(record, "gs1"))
    if number or not elements:
        yield number, False
    if elements:
        yield elements, True


def _checked(line: int, text: str, is_string: bool, year: int, ais: Ais) -> Checked:
    try:
        text = in_column(text) if is_string else text
    except Refusal as refusal:
        return Checked(line, text, None, refusal, refusal.remedy, refusal.fixes)
    try:
        answer = read_text(text, year, ais)
        return Checked(line, text, answer, found=tuple(conflicts(answer)))
    except Refusal as refusal:
        advice = remedy_of(text, refusal, year, ais)
        return Checked(line, text, None, refusal, str(advice), advice.fixes)


def _link_of(answer: Answer, words: argparse.Namespace) -> str:
    """The link of an answer; empty if it has no key."""
    try:
        return answer.link(words.link, words.year)
    except Refusal:
        return ""


def _row(checked: Checked, found: str, link: Optional[str]) -> str:
    """The cells of a line, with tabs between: the link if one is asked for, and this word before what is found in an answer."""
    text = " ".join(checked.text.replace("\x1d", "^").split())
    if checked.answer:
        identifier = checked.answer.identifier
        publication = _publication(checked.answer)
        said = ("" if link is None else f"\t{link}") + (f"\t{publication.upper()}" if publication else "") + (
            f"\t{found}: {'; '.join(map(_words, checked.found))}" if checked.found else "")
        return f"{checked.line}\t{text}\t{f'{identifier} ' if identifier else ''}{checked.answer.text}{said}"
    article = f"\t{checked.article}" if checked.article else ""
    return f"{checked.line}\t{text}\t{checked.refusal}\t{checked.remedy}{article}"


def _words(it: Conflict) -> str:
    """What a conflict is, in the language that is spoken."""
    ai = it.element.ai
    if it.other:
        return told("differs", ai, it.other.value, it.element.value) if it.kind == "differs" else told("excludes", ai, it.other.ai)
    if it.kind == "needs":
        return told("needs", ai, reduce(lambda ais, other: told("either", ais, other), it.text.split(",")))
    return told(gtin_use(it.text) if it.kind == "trade_item" else f"no{it.kind.title()}", ai, it.text)


def _named(checked: Checked) -> str:
    """The text of a line and its article, as an error begins with them."""
    shown = f"{short(checked.text)} ({checked.article})" if checked.article else short(checked.text)
    return f"{shown}: " if checked.text else ""


def _data(checked: Checked, link: Optional[str]) -> Dict[str, Any]:
    data: Dict[str, Any] = {"line": checked.line, "text": checked.text, **({"article": checked.article} if checked.article else {})}
    if checked.answer:
        publication = _publication(checked.answer)
        return {**data, **data_of(checked.answer), **({"use": publication} if publication else {}), **({"link": link} if link else {}),
                **({"conflicts": [str(it) for it in checked.found]} if checked.found else {})}
    refusal = checked.refusal
    assert refusal, "what is not read is refused"
    return {**data, "refused": refusal.number, "name": refusal.name, "place": refusal.place, "remedy": checked.remedy, "fixes": list(checked.fixes)}
