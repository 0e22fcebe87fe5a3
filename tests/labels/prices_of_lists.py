"""Tests that no list gets a wrong price: prices_of_lists.py LISTS WORK. LISTS.md says what the data mean.

Runs `noriladle labels` on each heading of headings.csv, each list of lists/ and each number of mistakes.csv, and with
the options that answer a question. Each answer is right, or a question, or wrong. Prints a line of counts for each
part. What is wrong stands on standard error.
"""
from __future__ import annotations

import csv
import io
import os
import re
import sys
from typing import Sequence

from printed import Run, cents_in_cell, labels_of, run

LISTS, WORK = sys.argv[1:]
FOLDER = os.path.join(LISTS, "lists")
SEPARATORS = {"comma": ",", "semicolon": ";", "tab": "\t", "pipe": "|"}
FAULTS = []


def rows_of(name: str) -> list[dict[str, str]]:
    with open(os.path.join(LISTS, name), encoding="utf-8", newline="") as file:
        return list(csv.DictReader(file, delimiter=";"))


def told(part: str, name: str, answer: str, done: Run) -> None:
    """Notes a wrong answer with what the command said."""
    FAULTS.append(
        f"{part}: {name}: {answer}; status {done.status}: {done.said[:4]}; "
        f"labels {[label.texts for label in done.labels[:2]]}"
    )


# ---- headings

GTIN, NAME = "4012345010008", "Biscuits"
PRICES = {
    "en": "Price", "de": "Preis", "fr": "Prix", "es": "Precio", "it": "Prezzo", "nl": "Prijs", "pl": "Cena",
    "pt": "Preço", "sv": "Pris", "da": "Pris", "cs": "Cena",
}
COSTS = {
    "en": "Purchase price", "de": "Einkaufspreis", "fr": "Prix d'achat", "es": "Precio de compra",
    "it": "Prezzo di acquisto", "nl": "Inkoopprijs", "pl": "Cena zakupu", "pt": "Preço de custo", "sv": "Inköpspris",
    "da": "Kostpris", "cs": "Nákupní cena",
}


def of_one_line(headings: Sequence[str], cells: Sequence[str]) -> Run:
    """Runs a list of one line with these columns behind the number and the name."""
    path = os.path.join(WORK, "list.csv")
    with open(path, "w", encoding="utf-8", newline="") as file:
        csv.writer(file, delimiter=";").writerows([["EAN", "Name", *headings], [GTIN, NAME, *cells]])
    return labels_of(path, WORK)


def answer_of(done: Run, heading: str, wanted: int | None) -> str:
    """`right` if the label has this price and no other, `asked` if this heading is asked about, or else `wrong`."""
    if done.status == 0:
        is_right = wanted is not None and [label.prices(NAME) for label in done.labels] == [[wanted]]
        return "right" if is_right else "wrong"
    return "asked" if done.status == 1 and not done.labels and done.names([heading]) else "wrong"


def heading_answer(row: dict[str, str]) -> str:
    """The answers of a list with this heading alone, and of a list that has another price before it and after it."""
    heading, kind, plain = row["heading"], row["is"], PRICES[row["language"]]
    # An old price is above the price.
    other = "12,31" if kind == "old" else "7,31"
    if kind in ("price", "price or ask"):
        cost = COSTS[row["language"]]
        trials = [(of_one_line([heading], ["7,31"]), 731)]
        if heading != cost:
            trials += [
                (of_one_line([cost, heading], ["4,18", "7,31"]), 731),
                (of_one_line([heading, cost], ["7,31", "4,18"]), 731),
            ]
    else:
        trials = [
            (of_one_line([heading], [other]), None),
            (of_one_line([heading, plain], [other, "9,87"]), 987),
            (of_one_line([plain, heading], ["9,87", other]), 987),
        ]
    answers = [answer_of(done, heading, wanted) for done, wanted in trials]
    for (done, _), answer in zip(trials, answers):
        if answer == "wrong":
            told("heading", f"{heading} ({kind})", answer, done)
    # A list that has only such a column is rightly asked about.
    if kind not in ("price", "price or ask") and answers[0] == "asked":
        answers[0] = "right"
    return "wrong" if "wrong" in answers else "asked" if "asked" in answers else "right"


def try_headings() -> None:
    answers = {"right": 0, "asked": 0, "wrong": 0}
    for row in rows_of("headings.csv"):
        answer = heading_answer(row)
        answers[answer] += 1
        if answer == "asked" and row["is"] == "price":
            FAULTS.append(f"heading: {row['heading']} is usual for a price, and was asked about")
    print(f"headings: {answers['right']} right, {answers['asked']} asked, {answers['wrong']} wrong")


# ---- whole lists


class Expected:
    """A list with what a person reads in it."""

    def __init__(self, row: dict[str, str]) -> None:
        self.path, self.decimals, self.name = os.path.join(FOLDER, row["file"]), row["decimals"], row["file"]
        self.may_ask, self.candidates = row["price"].endswith(" or ask"), []
        self.price = row["price"].removesuffix(" or ask")
        if self.price.startswith("ask: "):
            self.candidates, self.may_ask = self.price.removeprefix("ask: ").split(" / "), True
        with open(self.path, encoding=row["encoding"], newline="") as file:
            rows = list(csv.reader(io.StringIO(file.read(), newline=""), delimiter=SEPARATORS[row["separator"]]))
        at = next(number for number, cells in enumerate(rows) if row["gtin"] in cells)
        self.headings, self.lines = rows[at], rows[at + 1 :]
        self.gtin, self.called = self.headings.index(row["gtin"]), self.headings.index(row["name"])

    def wrong_with(self, done: Run, place: int) -> str:
        """What is wrong with the labels, if the price stands in this column; nothing if all is right."""
        numbers = [label.number for label in done.labels]
        for cells in self.lines:
            labels = [label for label in done.labels if label.number == cells[self.gtin]]
            if not labels:
                return f"{cells[self.gtin]} has no label: {numbers[:3]}"
            for label in labels:
                if cells[self.called] not in label.text and self.headings[self.called] not in done.names(self.headings):
                    return f"the name {cells[self.called]} is missing: {label.texts}"
                if label.prices(cells[self.called]) != [cents_in_cell(cells[place], self.decimals)]:
                    return f"{cells[place]} is wanted: {label.texts}"
        return self.silent(done, place, numbers)

    def silent(self, done: Run, place: int, numbers: list[str]) -> str:
        """A column with cells that are neither on the labels nor named as unused."""
        for at, heading in enumerate(self.headings):
            counted = all(str(numbers.count(cells[self.gtin])) == cells[at] for cells in self.lines)
            if at in (self.gtin, self.called, place) or counted or not any(cells[at] for cells in self.lines):
                continue
            printed = {label.number: label.text for label in done.labels}
            shown = [re.search(re.escape(it) + "|" + (re.sub(r"[^\d.,]", "", it) or "$^"), printed[cells[self.gtin]])
                     for cells in self.lines for it in [cells[at]] if re.search("[1-9]", it)]
            is_printed = shown and all(shown)
            if heading not in done.names(self.headings) and not is_printed:
                return f"the column '{heading}' is dropped in silence"
        return ""

    def answers(self, place: int) -> list[str]:
        """The options that answer every question of this list, with its price in this column."""
        pairs = [("gtin", self.gtin), ("name", self.called), ("price", place)]
        return [word for name, at in pairs for word in ("--column", f"{name}={self.column(at)}")]

    def column(self, at: int) -> str:
        return self.headings[at] if self.headings.count(self.headings[at]) == 1 else str(at + 1)

    def places(self) -> list[int]:
        """The columns that may be the answer."""
        wanted = self.candidates or [self.price]
        return [at for at, heading in enumerate(self.headings) if heading in wanted]


def list_answer(wanted: Expected) -> tuple[str, str, Run]:
    """The answer to a list, and what is wrong with it.

    A question must name its candidates, and each answer to it must be obeyed.
    """
    done = labels_of(wanted.path, WORK)
    if wanted.price == "none":
        is_right = not done.labels and len(done.said) == 1
        return ("right" if is_right else "wrong"), "one line must say that the list has no lines", done
    if done.status == 0:
        wrong = "it must ask" if wanted.candidates else wanted.wrong_with(done, wanted.places()[0])
        return ("wrong" if wrong else "right"), wrong, done
    missing = {wanted.headings[at] for at in wanted.places()} - done.names(wanted.headings)
    if done.status != 1 or done.labels or missing and wanted.price not in done.names(wanted.headings):
        return "wrong", f"the question does not name {sorted(missing)}", done
    for place in wanted.places():
        answered = labels_of(wanted.path, WORK, *wanted.answers(place))
        wrong = "an answered question" if answered.status else wanted.wrong_with(answered, place)
        if wrong:
            return "wrong", f"answered with {wanted.column(place)}: {wrong}", answered
    return "asked", "" if wanted.may_ask else "it has one price under a usual heading", done


def try_lists() -> None:
    with open(os.path.join(FOLDER, "expected.csv"), encoding="utf-8", newline="") as file:
        lists = [Expected(row) for row in csv.DictReader(file, delimiter=";")]
    answers = {"right": 0, "asked": 0, "wrong": 0}
    for wanted in lists:
        answer, why, done = list_answer(wanted)
        answers[answer] += 1
        if answer == "wrong" or answer == "asked" and why:
            told("list", wanted.name, f"{answer}: {why}", done)
    if answers["asked"] * 8 > len(lists):
        FAULTS.append(f"lists: {answers['asked']} of {len(lists)} are asked about, which is more than one in eight")
    print(f"lists: {answers['right']} right, {answers['asked']} asked, {answers['wrong']} wrong")


# ---- what stands outside the heading of the price


def try_remarks() -> None:
    """Lists whose titles, further lines or other columns say what the prices are, and lists that only look so."""
    answers = {"right": 0, "wrong": 0}
    path = os.path.join(WORK, "list.csv")
    with open(os.path.join(LISTS, "remarks.csv"), encoding="utf-8", newline="") as file:
        rows = list(csv.DictReader(file))
    for row in rows:
        with open(path, "w", encoding="utf-8") as file:
            file.write(row["list"].replace("|", "\n") + "\n")
        done = labels_of(path, WORK)
        is_none = row["is"] in ("ask", "refuse")
        wanted = None if is_none else cents_in_cell(row["is"], "," if "," in row["is"] else ".")
        prices = [label.prices("Haferkekse") for label in done.labels if label.number == GTIN]
        if is_none:
            asks = any("--no-price" in line for line in done.said)
            is_right = done.status == 1 and not done.labels and asks == (row["is"] == "ask")
        else:
            is_right = done.status == 0 and prices == [[wanted]]
        answers["right" if is_right else "wrong"] += 1
        if not is_right:
            told("remark", row["list"], f"it must be {row['is']}", done)
    print(f"remarks: {answers['right']} right, {answers['wrong']} wrong")


# ---- mistakes in numbers


def is_gtin(digits: str) -> bool:
    return (
        len(digits) in (8, 12, 13, 14)
        and sum(int(digit) * (1, 3)[at % 2] for at, digit in enumerate(reversed(digits))) % 10 == 0
    )


EXAMPLE = "09501101530003"  # The number of GS1's examples: advice may show it.


def numbers_in(text: str) -> set[str]:
    """The article numbers that a text names, in 14 digits."""
    return {digits.zfill(14) for digits in re.findall(r"(?:\]E\d)?(\d+)", text) if is_gtin(digits)} - {EXAMPLE}


class Mistake:
    """A cell with a mistake, what was meant, and which other numbers a person may think of."""

    def __init__(self, row: dict[str, str]) -> None:
        self.name = f"{row['mistake']} ({row['cell']})"
        self.cell = (
            re.sub(r"\\u(....)", lambda found: chr(int(found[1], 16)), row["cell"])
            .replace("\\t", "\t")
            .replace("\\n", "\n")
        )
        self.meant, self.also = (
            {number.zfill(14) for number in row[key].split(" / ") if number} for key in ("meant", "also")
        )
        self.may_correct = row["correct"] == "yes"
        self.path = os.path.join(WORK, "mistake.csv")
        with open(self.path, "w", encoding="utf-8", newline="") as file:
            csv.writer(file, delimiter=";").writerows(
                [["EAN", "Name", "Preis"], [self.cell, NAME, "2,49"], ["4012345010374", "Bread", "3,19"]]
            )

    def without_cell(self, line: str) -> str:
        """A line without the cell, where it stands by itself and not in a longer number."""
        return re.sub(rf"(?<!\d){re.escape(self.cell)}(?!\d)", "", line)

    def taken(self, number: str) -> str:
        """The answer, if the command takes this number for what was meant."""
        return "right" if self.may_correct and number.zfill(14) in self.meant else f"it took {number}"

    def by_labels(self) -> tuple[str, Run]:
        """What `labels` does: it prints the number that was meant, or names it, or asks without a number."""
        done = labels_of(self.path, WORK)
        printed = [label.number for label in done.labels if NAME in label.text]
        if printed:
            return self.taken(printed[0]), done
        if done.status == 0:
            return (
                "asked" if any("passed over" in line for line in done.said) else "its line is dropped in silence"
            ), done
        named = set().union(
            *(numbers_in(self.without_cell(line)) for line in done.said if line.startswith("LIST:2:"))
        )
        if not any(line.startswith("LIST:2:") for line in done.said):
            return "its line is not named", done
        if not named <= self.meant | self.also | numbers_in(self.cell):
            return f"the advice names {sorted(named)}", done
        if named and self.meant and not named & self.meant:
            return f"the advice lacks what was meant: {sorted(named)}", done
        return ("right" if named & self.meant else "asked"), done

    def by_check(self) -> tuple[str, Run]:
        """What `check --fix` writes: the number that was meant, or the cell as it was, with status 1."""
        fixed = os.path.join(WORK, "fixed.csv")
        if os.path.exists(fixed):
            os.remove(fixed)
        done = run(["check", self.path, "--fix", "-o", fixed, "--year", "2026"], WORK)
        if done.status not in (0, 1):
            return "check --fix fails", done
        if not os.path.exists(fixed):
            return ("asked" if done.status == 1 else "nothing was written"), done
        with open(fixed, encoding="utf-8-sig", newline="") as file:
            cell = next(cells[0] for cells in csv.reader(file, delimiter=";") if NAME in cells)
        if cell != self.cell or (cell.isdigit() and numbers_in(cell) & self.meant):
            return self.taken(cell), done
        is_asked = done.status == 1 or any("passed over" in line for line in done.said)
        return "asked" if is_asked else "it was left as it was, with status 0", done


def try_mistakes() -> None:
    answers = {"right": 0, "asked": 0, "wrong": 0}
    for row in rows_of("mistakes.csv"):
        mistake = Mistake(row)
        both = [mistake.by_labels(), mistake.by_check()]
        for answer, done in both:
            if answer not in ("right", "asked"):
                told("mistake", mistake.name, answer, done)
        said = {answer for answer, _ in both}
        answers["wrong" if said - {"right", "asked"} else "right" if "right" in said else "asked"] += 1
    print(f"mistakes: {answers['right']} right, {answers['asked']} asked, {answers['wrong']} wrong")


# ---- the options that answer a question

BAD = "4012345010374;Bread;on request"
# A list, the options, the status, the prices of its labels, and words that must be said. Lines end with |.
ANSWERS: list[tuple[str, list[str], int, list[list[int]], str]] = [
    ("EAN;Name;EK|4012345010008;Biscuits;4,18", [], 1, [], "EK"),
    ("EAN;Name;EK|4012345010008;Biscuits;4,18", ["--no-price"], 0, [[]], "EK"),
    ("EAN;Name;EK;VK|4012345010008;Biscuits;4,18;7,31", ["--column", "price=EK"], 0, [[418]], "VK"),
    ("EAN;Name;EK;VK|4012345010008;Biscuits;4,18;7,31", ["--column", "price=3"], 0, [[418]], "VK"),
    ("EAN;Name;EK;VK|4012345010008;Biscuits;4,18;7,31", ["--column", "price=VK-Preis"], 1, [], "VK-Preis"),
    ("EAN;Name;EK;VK|4012345010008;Biscuits;4,18;7,31", ["--column", "name=Artikel"], 1, [], "Artikel"),
    ("EAN;Name;Preis|4012345010008;Biscuits;0,00", [], 1, [], "LIST:2:"),
    ("EAN;Name;Preis|4012345010008;Biscuits;0,00", ["--free"], 0, [[0]], ""),
    ("EAN;Name;Preis|4012345010008;Biscuits;-1,00", ["--free"], 1, [], "LIST:2:"),
    (f"EAN;Name;Preis|4012345010008;Biscuits;7,31|{BAD}", [], 1, [], "LIST:3:"),
    (f"EAN;Name;Preis|4012345010008;Biscuits;7,31|{BAD}", ["--leave-out"], 1, [[731]], "LIST:3:"),
    ("EAN;Name;Preis|4012345010008;Biscuits;7,31", ["--leave-out"], 0, [[731]], ""),
    ("EAN;Name;VK in Cent|4012345010008;Biscuits;731", [], 0, [[731]], ""),
    ("EAN;Name;Preis|4012345010008;Biscuits;7,3 €", [], 0, [[730]], ""),
    ("EAN;Name;Preis|4012345010008;Biscuits;7 €", [], 0, [[700]], ""),
    ("EAN;Name;Preis|4012345010008;Biscuits;1.234,50 €", [], 0, [[123450]], ""),
]


def try_answers() -> None:
    right = 0
    for text, options, status, prices, words in ANSWERS:
        path = os.path.join(WORK, "list.csv")
        with open(path, "w", encoding="utf-8") as file:
            file.write(text.replace("|", "\n") + "\n")
        done = labels_of(path, WORK, *options)
        is_right = (done.status, [label.prices("Biscuits", "Bread") for label in done.labels]) == (
            status,
            prices,
        ) and any(words in line for line in done.said)
        right += is_right
        if not is_right:
            told("options", f"{text} {' '.join(options)}", "wrong", done)
    print(f"options: {right} of {len(ANSWERS)} as they must be")


def try_encodings() -> None:
    """A code page that --encoding names is taken, and an unknown one is refused."""
    right, names = 0, {
        "cp1250": "Żurek",
        "cp1252": "Müsli",
        "cp850": "Müsli",
        "mac_roman": "Müsli",
        "utf-16": "Żurek",
        "no-such-code": "Essig",
    }
    for encoding, name in names.items():
        path = os.path.join(WORK, "list.csv")
        with open(path, "wb") as file:
            file.write(
                f"EAN;Name;Preis\n{GTIN};{name};7,31\n".encode("utf-8" if encoding == "no-such-code" else encoding)
            )
        done = labels_of(path, WORK, "--encoding", encoding)
        is_right = (
            [label.texts[0] for label in done.labels] == [name]
            if encoding != "no-such-code"
            else done.status != 0 and not done.labels
        )
        right += is_right
        if not is_right:
            told("encoding", encoding, "wrong", done)
    print(f"encodings: {right} of {len(names)} as they must be")


def main() -> None:
    try_headings()
    try_lists()
    try_remarks()
    try_mistakes()
    try_answers()
    try_encodings()
    print("\n".join(FAULTS), file=sys.stderr, end="\n" if FAULTS else "")
    sys.exit(1 if FAULTS else 0)


main()
