"""Writes pictures of the seed to look at, and what each says.

Usage: /usr/bin/python3 tests/pictures/look.py FOLDER [KIND...]. Without kinds it writes all kinds, pictures without a
whole symbol, and pictures whose edge cuts a symbol. FOLDER then has says.tsv with each file and what it says, or `-`.
"""
import os
import sys

sys.path[:0] = [os.path.join(os.path.dirname(os.path.abspath(__file__)), "..", "page")]
import camera_kinds
import sets
import zint_pictures


def main() -> None:
    folder, *kinds = sys.argv[1:]
    os.makedirs(folder, exist_ok=True)
    with open(os.path.join(folder, "says.tsv"), "w", encoding="utf-8") as table:
        for kind in kinds or camera_kinds.KINDS:
            for symbol, path in camera_kinds.group(kind, camera_kinds.LOOK, folder):
                print(os.path.basename(path), symbol.says, sep="\t", file=table)
        if not kinds:
            for make, count in ((camera_kinds.without_symbol, sets.WITHOUT), (zint_pictures.cut_symbols, sets.CUTS)):
                for path in make(count, camera_kinds.LOOK, folder):
                    print(os.path.basename(path), "-", sep="\t", file=table)


if __name__ == "__main__":
    main()
