#!/usr/bin/env python3
"""Writes the three tables of a round as a spreadsheet saves them, for runs of any size. It is no test.

    make_tables.py POOLS PROGRAMMES APPLICANTS CHOICES FOLDER [SEED [DEPTH SHARE [flat]]]

FOLDER gets pools.csv, programmes.csv and applications.csv. The same words write the same bytes. The files
begin with a byte order mark and have CRLF line ends; codes have accents, and every third pool has a comma
and double quotes in its name; the rows of applications are in no order. Each applicant has CHOICES choices
of different programmes.

With a DEPTH the first SHARE hundredths of the pools stand in chains of that many merit pools, each inside the
one before, and the scores there are merits: one for each applicant, and no two alike. With `flat` the same
programmes and scores come with pools of kind score that stand alone, to be compared with.
"""

import csv
import os
import sys

TOP_SCORE = 500
LONGEST_LIST = 64


class Numbers:
    """Numbers that follow from a seed alone, whatever the version of Python."""

    def __init__(self, seed):
        self.state = seed % 2**64

    def below(self, bound):
        self.state = (self.state * 6364136223846793005 + 1442695040888963407) % 2**64
        return (self.state >> 33) % bound

    def different(self, count, bound):
        chosen = {}  # keeps the order of drawing
        while len(chosen) < count:
            chosen[self.below(bound)] = True
        return list(chosen)

    def shuffle(self, rows):
        for last in range(len(rows) - 1, 0, -1):
            other = self.below(last + 1)
            rows[last], rows[other] = rows[other], rows[last]


def write(folder, name, header, rows):
    with open(os.path.join(folder, name), "w", encoding="utf-8-sig", newline="") as file:
        writer = csv.writer(file)  # CRLF, and quotes where they are needed
        writer.writerow(header.split(","))
        writer.writerows(rows)


def pool_code(pool):
    if pool % 3 == 0:
        return f'Kar "{pool + 1}", nappali'
    return f"Ö-{pool + 1}"


class Trees:
    """Which pools stand in trees: the first of all, in chains of one depth."""

    def __init__(self, depth=1, nested=0, flat=False):
        self.depth, self.nested, self.flat = depth, nested, flat

    def row(self, pool):
        """The parent and the kind of a pool."""
        if pool >= self.nested or self.flat:
            return "", "score"
        return ("", "merit") if pool % self.depth == 0 else (pool_code(pool - 1), "merit")

    def has(self, pool):
        return pool < self.nested


def pool_rows(numbers, pools, applicants, trees):
    # Places for about two thirds of the applicants, so that most pools are asked for by too many.
    greatest = max(1, 4 * applicants // (3 * pools))
    for pool in range(pools):
        yield pool_code(pool), 1 + numbers.below(greatest), *trees.row(pool)


def programme_rows(pools, programmes):
    for programme in range(programmes):
        yield f"Szak-{programme + 1}", pool_code(programme % pools)


def application_rows(numbers, pools, programmes, applicants, choices, trees):
    merits = list(range(applicants))
    numbers.shuffle(merits)
    for applicant in range(applicants):
        for place, programme in enumerate(numbers.different(choices, programmes)):
            score = numbers.below(TOP_SCORE + 1)
            if trees.has(programme % pools):
                score = merits[applicant]
            yield f"Á-{applicant + 1}", place + 1, f"Szak-{programme + 1}", score


def main(words):
    if len(words) not in (5, 6, 8, 9):
        sys.exit(__doc__)
    pools, programmes, applicants, choices = (int(word) for word in words[:4])
    folder = words[4]
    seed = int(words[5]) if len(words) > 5 else 1
    trees = Trees()
    if len(words) > 6:
        trees = Trees(int(words[6]), pools * int(words[7]) // 100, "flat" in words[8:])
    if min(pools, programmes, applicants, choices) < 1:
        sys.exit("each number is at least 1")
    if choices > min(programmes, LONGEST_LIST):
        sys.exit(f"a list has at most {LONGEST_LIST} choices, and each programme once")
    os.makedirs(folder, exist_ok=True)
    numbers = Numbers(seed)
    write(folder, "pools.csv", "pool,quota,parent,kind", pool_rows(numbers, pools, applicants, trees))
    write(folder, "programmes.csv", "programme,pool", programme_rows(pools, programmes))
    rows = list(application_rows(numbers, pools, programmes, applicants, choices, trees))
    numbers.shuffle(rows)
    write(folder, "applications.csv", "applicant,place,programme,score", rows)


if __name__ == "__main__":
    main(sys.argv[1:])
