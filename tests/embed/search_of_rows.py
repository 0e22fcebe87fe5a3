"""Puts one to three rows beside each other, some in a frame, and writes what a search must find in them.

Usage: search_of_rows.py ROWS ANSWERS COUNT SEED INTO. ROWS has lines of `lanes`, and ANSWERS what each of its rows says. INTO.rows
gets such lines. INTO.wanted gets for each row a line for each symbol in it, with its first run and its number of runs, and then an
empty line.
"""
import random
import sys

# The width of a dark line between rows. It is wider than a bar, since a damaged row may lack exactly a bar at its end.
LINE = 40, 60

rows_file, answers_file, count, seed, into = sys.argv[1:]
with open(rows_file, encoding="ascii") as it:
    rows = [[int(width) for width in line.partition(",")[2].split()] for line in it]
with open(answers_file, encoding="ascii") as it:
    answers = [line.rstrip("\n") for line in it]
assert len(rows) == len(answers)
chance = random.Random(int(seed))
with open(f"{into}.rows", "w", encoding="ascii") as asked, open(f"{into}.wanted", "w", encoding="ascii") as wanted:
    for _ in range(int(count)):
        framed = chance.random() < 0.5
        widths = [chance.randint(0, 9), chance.randint(*LINE)] if framed else []
        lines = []
        for part in range(chance.randint(1, 3)):
            at = chance.randrange(len(rows))
            if part:
                widths.append(chance.randint(*LINE))
            if not answers[at].startswith("refused"):
                lines.append(f"{len(widths)} {len(rows[at])} {answers[at]}\n")
            widths += rows[at]
        if framed:
            widths += [chance.randint(*LINE), chance.randint(0, 9)]
        asked.write("0," + " ".join(str(width) for width in widths) + "\n")
        wanted.write("".join(lines) + "\n")
