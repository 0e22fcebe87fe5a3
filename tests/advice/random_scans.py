"""Random texts of scanners, many of them wrong, and element strings as they are printed, every other one with a wrong character."""
import random

import noriladle
from noriladle import _values

YEAR = 2026
CHARACTERS = "!\"%&'()*+,-./0123456789:;<=>?ABCDEFGHIJKLMNOPQRSTUVWXYZ_abcdefghijklmnopqrstuvwxyz"
DIGITS = "0123456789"
DAYS = ("11", "12", "13", "15", "16", "17", "7003", "7006", "7011", "4324", "4325", "4326", "8008")
TIMES = {"7003": ["1230", "2460"], "8008": ["12", "1230", "123059"], "4324": ["2359"], "4325": ["2359"], "7011": ["", "0000"]}
ELEMENT_STRINGS = ["]C1", "]d2", "]e0", "]Q3", "]J1", "^", "\x1d"]
# Identifiers of symbols that are none of GS1, or need a scanner that is set otherwise.
OTHERS = ["]E1", "]E2", "]E3", "]I0", "]C0", "]e1", "]e2", "]e3", "]A0", "]d0", "]d4", "]Q0", "]L0", "]z0"]


class Texts:
    """Makes texts from a seed."""

    def __init__(self, seed: int) -> None:
        self._chance = random.Random(seed)
        self._ais = list(_values.rows())

    def _some(self, letters: str, count: int) -> str:
        return "".join(self._chance.choice(letters) for _ in range(count))

    def gtin(self, count: int = 14) -> str:
        body = self._some(DIGITS, count - 1)
        return f"{body}{noriladle.check_digit(body)}"

    def _value(self, ai: str) -> str:
        chance = self._chance
        if ai in ("01", "02", "03"):
            return self.gtin(chance.choice([14, 14, 14, 13, 12]))
        if ai in DAYS and chance.random() < 0.8:
            day = f"{chance.randrange(100):02}{chance.randrange(14):02}{chance.randrange(33):02}"
            return day + chance.choice(TIMES.get(ai, [""]))
        if ai[:2] in ("31", "32", "33", "34", "35", "36"):
            return self._some(DIGITS, 6)
        if ai[:3] in ("391", "393", "421", "422", "424", "426", "703"):
            return chance.choice(["978", "840", "276", "528", "999"]) + self._some(DIGITS, chance.randrange(9))
        if chance.random() < 0.5:
            return self._some(DIGITS, chance.choice([1, 2, 3, 6, 6, 8, 9, 10, 12, 13, 17, 20]))
        return self._some(CHARACTERS, chance.randrange(1, 24))

    def _elements(self) -> str:
        chance, text = self._chance, self._chance.choice(ELEMENT_STRINGS)
        for _ in range(chance.choice([1, 1, 2, 3, 4])):
            ai = chance.choice(self._ais)
            text += ai + self._value(ai) + chance.choice(["\x1d", "^", "\x1d", ""])
        return text[:chance.randrange(len(text) + 1)] if chance.random() < 0.1 else text

    def _link(self) -> str:
        chance = self._chance
        path = chance.choice(["", "/10/A%2FB", "/22/x/10/y/21/z", "/21/z/10/y", "/98765/x"])
        query = chance.choice(["", "?17=261231", "?17=261331", "?3103=001250&x=y", "?10=A+B", "?99=%C3%BC"])
        front = chance.choice(["", "", "]Q1", "]d1", "]Q3"])
        return f"{front}https://{chance.choice(['id.gs1.org', 'a.b/x', 'x'])}/{chance.choice(['01', '01', '02', 'x'])}/{self.gtin()}{path}{query}"

    def _number(self) -> str:
        chance = self._chance
        digits = self.gtin(chance.choice([8, 12, 13, 14]))
        if chance.random() < 0.3:
            at = chance.randrange(len(digits))
            digits = digits[:at] + chance.choice(["", "0", "7", "O", " ", "-"]) + digits[at + 1:]
        return chance.choice(["", "]E0", "]E4", "]I1"]) + digits.lstrip(chance.choice(["", "", "0"]))

    def scan(self) -> str:
        """What a scanner may send, right or wrong."""
        chance = self._chance
        kind = chance.random()
        if kind < 0.55:
            return self._elements()
        if kind < 0.7:
            return self._link()
        if kind < 0.85:
            return self._number()
        if kind < 0.9:
            return chance.choice(OTHERS) + self.gtin(chance.choice([8, 13, 14]))
        return self._some("]C1E0dQ^\x1d0123456789AB() \té", chance.randrange(20))

    def printed(self) -> str:
        """The elements of a scan that is read, as they are printed; every other one with a wrong character."""
        chance = self._chance
        while True:
            try:
                text = noriladle.read_scan(self.scan(), YEAR).text
            except noriladle.Refusal:
                continue
            if chance.random() < 0.5:
                at = chance.randrange(len(text))
                text = text[:at] + chance.choice("0 9)(X^") + text[at + chance.randrange(2):]
            return text
