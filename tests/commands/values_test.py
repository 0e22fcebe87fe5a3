"""A good value of an AI of each line of tables/ais.tsv, and values that break one rule of it each.

The verdicts are those of the GS1 Syntax Dictionary, which zint 2.15 has; beyond the lists of countries, currencies and packages, which
others change. The numbers of refusals are those of docs/FAULTS.md.
"""

from __future__ import annotations

import csv
import itertools
import os
import re
from typing import Iterator

from element_strings import X, is_predefined
from program import CommandTest, field

AIS = os.path.join(os.path.dirname(os.path.abspath(__file__)), "..", "..", "tables", "ais.tsv")

NAMES = {6: "ValueLength", 7: "ValueCharacter", 8: "ValueCheckDigit", 9: "ValueDate"}

# An AI, a good value, and bad ones, each with the number of its refusal.
VALUES = """
00 018159083016613181 106658065173745908 8
01 69060443198293 51926947452500 8
02 43667640206794 44966053784775 8
03 44945443732337 14275562167876 8
10 - HGeB2#8 7
11 301207 180013 9
12 580907 709502 9
13 620416 902710 9
15 980718 920018 9
16 660527 041299 9
17 410416 450017 9
20 03 -2 7
21 -D2A5AGFf812J.4/10E2 D.#JB 7
22 .e84/4..EJFAb5956b/d # 7
235 0./5FD 0dGc3# 7
240 f8B84K4816e1Jb00JEJA1fD498b 7#cGA 7
241 1a54e15ae2Af7 # 7
242 9 / 7
243 . # 7
250 B.b9dC46b2F9f587fEJ-6K/B7e-9 # 7
251 4F8/aBEJ81f51.5d8CJcb6c09K.4DJ 8#C7f 7
253 0461297924637 6259118346543 8
254 fHCfb0.7f5G3/GG-fGK9 b#1e6 7
255 5014241190425723980 2444000698790 8
30 3 -5045 7
3100 723856 A28665 7
3110 011619 64766A 7
3120 182035 38397A 7
3130 832247 1951%3 7
3140 758797 2_6555 7
3150 880469 07_050 7
3160 717630 6748#4 7
3200 305928 28A433 7
3210 037033 63_015 7
3220 778536 A99310 7
3230 767300 14*805 7
3240 282626 649-10 7
3250 648416 9%4761 7
3260 649927 #20124 7
3270 559726 65152_ 7
3280 127678 797#89 7
3290 920507 367-51 7
3300 840306 163-25 7
3310 422387 3-3459 7
3320 353120 0640*2 7
3330 818673 87%201 7
3340 184840 94z197 7
3350 993758 7315#1 7
3360 145603 629/01 7
3370 242746 z98864 7
3400 602983 6071/6 7
3410 038846 1591z2 7
3420 655567 865z93 7
3430 740942 08*157 7
3440 190812 A34053 7
3450 656973 6-7713 7
3460 074999 3/2892 7
3470 227689 30%612 7
3480 640870 7z9726 7
3490 579117 _98432 7
3500 609986 /34133 7
3510 310522 83817% 7
3520 178353 04162z 7
3530 144052 710A51 7
3540 753683 35875/ 7
3550 370360 42002A 7
3560 324130 04/769 7
3570 638105 7565#3 7
3600 849625 82z890 7
3610 425883 085z27 7
3620 150866 z56440 7
3630 806962 39449/ 7
3640 300087 6020*5 7
3650 351179 841z20 7
3660 989597 7#3320 7
3670 888467 943#29 7
3680 567571 313-80 7
3690 232381 85%197 7
37 8 75_67 7
3903 34057275 % 7
3910 840570125158391688 97-53 7
3923 2366 46A34 7
3930 7567 756%1 7
3940 7322 4/16 7
3950 904063 53-996 7
400 4 # 7
401 9521234 952#234 7
402 16359708232587828 45360442845370029 8
403 E.7FA58HF137bGFCecAGb168CK94bE # 7
410 1199350776631 5549858722848 8
411 8150829069183 7014731909192 8
412 0820967444927 1684291403184 8
413 2556357468621 7811940703437 8
414 1225874774867 5721339165938 8
415 1387811597738 6850106924554 8
416 7023407810013 3286515170877 8
417 9105338286322 0180068040435 8
420 H9953EEEeC7HB2C38K32 # 7
421 840.3/EH1e-1 z40d2 7
422 056 27- 7
423 840528528528276 0A6 7 28840 6
424 056 5#8 7
425 840276056 *76056 7 56276 6
426 840 -56 7
427 1 # 7
4300 K8F9bf0539D9C0F3CcHEfF/3d01d7749.1 JJ37%J/b 7
4301 02f2H3b1 % 7
4302 H84.eHJ026aDae819506e3c5G2GE124EeeCHFJCd/9A-cdGAb % 7
4303 GDA/6cD/d0.2DbCK/33c.. JK%CH9 7
4304 C- % 7
4305 -B79cd. B/%7K 7
4306 K0H427Hdba3daAf164c7E.9G/FB553cDFG7721fHKeBD00aBJEaDKHefdKJ7J9H % 7
4307 DE #E 7
4308 2 # 7
4309 15982022720022132981 18000000010022132981 7 02211014114419453760 7
4310 D cCG3% 7
4311 7 % 7
4312 JK077fAC--3c/CF48Edf-DG0-E7AC11B6c0/7ab8bGd G4JF69EA2JJ%K4BFBGd.aF4CKda-a 7
4313 - % 7
4314 62-GfFaF9G.b14575A1FB16B596/--aD2beCF9a6/dE3a12c3-.8GFG9Fd58Fa32Fe1168 % 7
4315 9 % 7
4316 DJA6-F..5f4f3KEDKe2/A.ef8bH2e-GC/F-.5-D702d0-.bDaA3aF045FKe % 7
4317 NL N# 7
4318 DE-5ff607HedHaHJ3cH # 7
4319 b35G3CdJd5e9F0KF7Bbc2 # 7
4320 7e 0D9J7%J 7
4321 1 8 7
4322 1 8 7
4323 1 5 7
4324 4704020258 8318102102 9 6712100294 9
4325 5705100538 0200111148 9 4006052606 9
4326 710325 521060 9
4330 658085- 6760311 7
4331 784019- 3646879 7
4332 671487 4501800 7
4333 989505 466154% 7
7001 7248653077359 257623331/038 7
7002 7 45b#5G1- 7
7003 9202200143 1680252243 9 6903164328 9
7004 9740 z 7
7005 78Ga5 # 7
7006 120903 121314 9
7007 841124 820024 9 02035760615 6
7008 e # 7
7009 /7E9095J -bb#- 7
7010 b # 7
7011 1803200043 940009 9 3907033226 9 290822356 6
7020 /fAaC929dE6aDcA.A.1f B#f8K 7
7021 0C1a0A/EA5/5df5E625J #cd/C 7
7022 . 79cF# 7
7023 95212343ACBACCB1CCABC21A3CCAA3 95*1234 7
7030 5285 G408 7
7040 1B7A 7.3% 7
7041 CT B# 7
710 05/FBeDB9.bEcfe4E1Be EH5#b2 7
711 AEG13-c3CCKeC60bfA9- 2ae#1 7
712 b390Eb3 9A.c# 7
713 cHGJCGB.DGf26Ha20b/G # 7
714 KEA5Fb-7127FD1 3#8K1 7
715 4 # 7
716 - # 7
7236 A165cBb27KFe3J #7b 7
7240 a07.eJa1aFAH2c13B18E # 7
7241 98 42 7
7242 GG90d1D6A576b51.37a6C/ f2/6# 7
7250 19941003 20812128 9
7251 195503181436 207303000207 9 193601042634 9
7252 1 4 7
7253 dd91.G0b4e4a0d-EBca/J6b36B1EE5Jac8K3daAc -%6H8 7
7254 a % 7
7255 bJ9%AJK # 7
7256 / BK6e5e%Hf 7
7257 107C-C.-8JcG9/bCfadb86c8dE204FeF838K-/B0Gf.b8fA.KKF436G6.7dJE7G % 7
7258 3/9 a/2 7
7259 0 % 7
8001 55045963706616 00005963706616 7 23751168435474 7
8002 09 CJf3# 7
8003 040844596875069-8JeH57AHdB5c2/ 68616497928783 7 09090780695829 8
8004 9521934 /521234 7
8005 406772 /48738 7
8006 395186108152942679 037800321379033738 8 084370528634686405 7
8007 DE89370400440532013000 DE8937040044053203000 8
8008 560326022800 05632118 9 00100887 9 8804031180 9 571118075185 9 980126182 6
8009 EDEfC9cA1dc7ed0eaD2Ca//b7K11a87H1D2F1345-9KF1fe4E8 # 7
8010 9521234B31C13233BA121A4BACAA2C 9-21234 7
8011 49702990696 06 7
8012 Fff-CJG10 #D788 7
8013 1430948693 198765cHQ 8
8014 1987654Xtr1b116X 1876542F2 8 0062450067 7
8017 491095129384747609 735062366218507273 8
8018 992684028811896913 241680009471707684 8
8019 275363 _ 7
8020 * # 7
8026 608256435041022869 840520133309897599 8 401611527142405744 7
8030 J D.0G/ 7
8110 106141416543213150110120 106141416#43213150110120 7
8111 1556 82/0 7
8112 000000000000000000000 0000000000000#0000000 7
8200 .7K8B8.CB0F4E4KDB0H660CBD6B6ff5K7eeKdHCdcdcdb-6 # 7
90 HDddDJdaJfB3eG9GG76.3596H//7c7 # 7
91 8eK-dBaeCH-2-6FC9-HAF739cc86./fCb0cEDd75F722-7e7bHc8af/9D47/DK3/33Dd0f996ffJ11ebH.ef358KD0 19#-dF 7
"""


def cases() -> Iterator[tuple[str, str, list[tuple[str, int]]]]:
    """Each AI with its good value and the bad ones with their numbers."""
    for line in VALUES.strip().split("\n"):
        ai, good, *bad = line.split(" ")
        yield ai, good, list(zip(bad[::2], map(int, bad[1::2])))


def rows() -> Iterator[tuple[list[str], dict[str, str]]]:
    """The AIs of each line of the table, and the line."""
    with open(AIS, encoding="utf-8", newline="") as file:
        for row in csv.DictReader(file, delimiter="\t", quoting=csv.QUOTE_NONE):
            least, _, greatest = row["ai"].partition("-")
            yield [f"{it:0{len(least)}d}" for it in range(int(least), int(greatest or least) + 1)], row


def lines() -> Iterator[tuple[list[str], bool]]:
    """The AIs of each line of the table, and whether they are of the profile."""
    for ais, row in rows():
        yield ais, row["profile"] != "-"


def bounds(notation: str) -> tuple[int, int]:
    """The least and the greatest length of a format: N6 has six digits, N..6 one to six, and what is in brackets may be absent."""
    sizes = [re.fullmatch(r"(\[?)[NXYZ](\.\.)?(\d+)]?", it.split(",")[0]).groups() for it in notation.split(" ")]
    return sum(0 if absent else 1 if upto else int(most) for absent, upto, most in sizes), sum(int(most) for _, _, most in sizes)


def pair(model: str) -> str:
    """The check characters of a GMN (GS1 General Specifications, section 7.9.5)."""
    primes = [it for it in range(2, 90) if all(it % divisor for divisor in range(2, it))]
    total = sum(prime * X.index(character) for prime, character in zip(primes, reversed(model))) % 1021
    return "".join("23456789ABCDEFGHJKLMNPQRSTUVWXYZ"[it] for it in divmod(total, 32))


def outcomes(ai: str, good: str, bad: list[tuple[str, int]]) -> Iterator[tuple[str, str]]:
    """The records of an AI with their lines."""
    yield f"text,{field(ai + good)}", f"hri ({ai}){good}"
    for value, number in bad:
        yield f"text,{field(ai + value)}", f"refused {number} {NAMES[number]} 0"


class ValuesTest(CommandTest):
    def test_each_line_has_a_case(self) -> None:
        known = [ai for ai, _, _ in cases()]
        for ais, _ in lines():
            self.assertEqual(sum(it in known for it in ais), 1, ais)

    def test_every_ai(self) -> None:
        self.gives_lines("check --year 2026 --ais all", [it for case in cases() for it in outcomes(*case)])

    def test_the_profile(self) -> None:
        profile = {ai for ais, is_of_profile in lines() if is_of_profile for ai in ais}
        self.gives_lines("check --year 2026", [
            (record, line if ai in profile else "refused 5 UnknownAi 0")
            for ai, good, bad in cases()
            for record, line in outcomes(ai, good, bad)
        ])

    def test_dates_beside_the_rules(self) -> None:
        # Day 00 is the last of its month at some AIs alone, and what follows a day may be absent at some.
        self.gives_lines("check --year 2026 --ais all", [
            ("text,43242602002359", "hri (4324)2602002359"),
            ("text,43242602002400", "refused 9 ValueDate 0"),
            ("text,4326260200", "refused 9 ValueDate 0"),
            ("text,7006260200", "refused 9 ValueDate 0"),
            ("text,7007260228", "hri (7007)260228"),
            ("text,7007260228260301", "hri (7007)260228260301"),
            ("text,7007260228260300", "refused 9 ValueDate 0"),
            ("text,70072602282603", "refused 6 ValueLength 0"),
            ("text,7011260228", "hri (7011)260228"),
            ("text,70112602282359", "hri (7011)2602282359"),
            ("text,70112602282360", "refused 9 ValueDate 0"),
            ("text,701126022823", "refused 6 ValueLength 0"),
            ("text,725020240229", "hri (7250)20240229"),
            ("text,725020230229", "refused 9 ValueDate 0"),
            ("text,725020240200", "refused 9 ValueDate 0"),
            ("text,7251202402292359", "hri (7251)202402292359"),
            ("text,7251202402292460", "refused 9 ValueDate 0"),
        ])

    def test_bounds(self) -> None:
        self.gives_lines("check --year 2026 --ais all", [
            ("text,430918000000003600000000", "hri (4309)18000000003600000000"),
            ("text,430918000000013600000000", "refused 7 ValueCharacter 0"),
            ("text,430918000000003600000001", "refused 7 ValueCharacter 0"),
            ("text,72580/1", "refused 7 ValueCharacter 0"),
            ("text,72589/9", "hri (7258)9/9"),
            ("text,724120", "refused 7 ValueCharacter 0"),
            ("text,724110", "hri (7241)10"),
            ("text,724180", "hri (7241)80"),
            ("text,80110", "hri (8011)0"),
            ("text,801100", "refused 7 ValueCharacter 0"),
            ("text,80101234#-/A0", "hri (8010)1234#-/A0"),
            ("text,8010123#A", "refused 7 ValueCharacter 0"),
            ("text,8004123", "refused 7 ValueCharacter 0"),
            ("text,8004123A", "refused 7 ValueCharacter 0"),
            ("text,80041234", "hri (8004)1234"),
            ("text,8030abc_-=", "hri (8030)abc_-="),
            ("text,8030abc+", "refused 7 ValueCharacter 0"),
            ("text,4330000350-", "hri (4330)000350-"),
            ("text,43300003500", "refused 7 ValueCharacter 0"),
            ("text,80131987654Ad4X4bL5ttr2310c2K", "hri (8013)1987654Ad4X4bL5ttr2310c2K"),
            ("text,80131987654Ad4X4bL5ttr2310cK2", "refused 8 ValueCheckDigit 0"),
            ("text,8007DE89370400440532013000", "hri (8007)DE89370400440532013000"),
            ("text,8007DE88370400440532013000", "refused 8 ValueCheckDigit 0"),
        ])

    def test_each_character_in_a_gmn(self) -> None:
        self.gives_lines("check --year 2026 --ais all", [
            line
            for place, character in itertools.product(range(20), X)
            for model in ["1987654" + place * "7" + character + "a"]
            for right in [pair(model)]
            for other in ["22" if right != "22" else "23"]
            for line in [
                (f"text,{field('8013' + model + right)}", f"hri (8013){model}{right}"),
                (f"text,{field('8013' + model + other)}", "refused 8 ValueCheckDigit 0"),
            ]
            if len(model) <= 23
        ])

    def test_one_character_fewer_and_one_more(self) -> None:
        good = {ai: value for ai, value, _ in cases()}
        told = []
        for ais, row in rows():
            least, greatest = bounds(row["format"])
            ai = next(it for it in ais if it in good)
            told.append((f"text,{field(ai + good[ai][: least - 1])}", "refused 6 ValueLength 0"))
            if not is_predefined(ai):
                longer = good[ai] + (greatest + 1 - len(good[ai])) * good[ai][-1]
                told.append((f"text,{field(ai + longer)}", "refused 10 MissingSeparator 0"))
        self.gives_lines("check --year 2026 --ais all", told)

    def are_answered(self, cases: list[tuple[str, str, bool]]) -> None:
        """That values of AIs are good, or that a character of them is refused."""
        self.gives_lines("check --year 2026 --ais all", [
            (f"text,{ai}{value}", f"hri ({ai}){value}" if is_good else "refused 7 ValueCharacter 0") for ai, value, is_good in cases
        ])

    def test_the_codes_of_a_list(self) -> None:
        # Between these characters the codes that the format takes: all others of this length are refused.
        self.are_answered([
            (ai, front + code + back, code in codes)
            for ai, front, back, codes in [
                ("4321", "", "", "01"),
                ("4322", "", "", "01"),
                ("4323", "", "", "01"),
                ("7241", "", "", [f"{it:02d}" for it in [*range(1, 11), *range(80, 100)]]),
                ("7252", "", "", "0129"),
                ("8001", "123400005006", "7", "019"),
            ]
            for code in map("".join, itertools.product("0123456789", repeat=len(codes[0])))
        ])

    def test_two_numbers_that_are_compared(self) -> None:
        # A piece and the total of pieces: neither is 0, and the piece is no more than the total.
        edges = [0, 1, 2, 3, 9, 10, 98, 99]
        self.are_answered([
            (ai, f"09501101530003{piece:02d}{total:02d}", 0 < piece <= total)
            for ai, piece, total in itertools.product(["8006", "8026"], edges, edges)
        ])
        self.are_answered([("7258", f"{place}/{total}", 0 < place <= total) for place, total in itertools.product(range(10), repeat=2)])

    def test_lengths_of_an_iban(self) -> None:
        # Two letters, two check digits, and an account of at least one character.
        self.gives_lines("check --year 2026 --ais all", [
            ("text,8007", "refused 6 ValueLength 0"),
            ("text,8007A", "refused 8 ValueCheckDigit 0"),
            ("text,8007AA", "refused 8 ValueCheckDigit 0"),
            ("text,8007AA7", "refused 8 ValueCheckDigit 0"),
            ("text,8007AA75", "refused 8 ValueCheckDigit 0"),
            ("text,8007AA69B", "hri (8007)AA69B"),
            ("text,8007AA70B", "refused 8 ValueCheckDigit 0"),
            (f"text,8007AA34{30 * 'B'}", f"hri (8007)AA34{30 * 'B'}"),
            (f"text,8007AA34{31 * 'B'}", "refused 10 MissingSeparator 0"),
        ])
