#!/usr/bin/env python3
"""Amends many small rounds, and compares each with a clearing of the amended tables. It is no part of the test run.

    soak_amendments.py [ROUNDS [FIRST [PROGRAM]]]

ROUNDS tables, by default 1,000, are written as soak.py writes them, with the seeds from FIRST on, cleared by rule H
and by rule L in turn, and amended by up to four rows of any kind. Where the rows are accepted, the limits and
admissions must be those that `clear` finds over the tables that `table` prints, and `check` must say Yes to the
amended result over them. Where they are refused, `amend` and `table` must say the same. PROGRAM is as in soak.py. The
first round that fails is left where it is, and the status is 1.
"""

import csv
import os
import sys
import time

from make_tables import Numbers
from soak import records, rounds_of, run, time_since

KINDS = ("quota", "new", "add", "drop", "withdraw", "score")
HEADER = ("kind", "subject", "place", "programme", "number")


def rows_of(path):
    with open(path, encoding="utf-8-sig", newline="") as file:
        return list(csv.reader(file))[1:]


def write(folder, name, data):
    path = os.path.join(folder, name)
    with open(path, "wb") as file:
        file.write(data)
    return path


def row(numbers, count, pools, programmes, choices):
    """An amendment of a random kind; some are refused."""
    kind = KINDS[numbers.below(len(KINDS))]
    applicant, _, chosen, _ = choices[numbers.below(len(choices))]
    other = programmes[numbers.below(len(programmes))]
    if kind == "quota":
        return kind, pools[numbers.below(len(pools))], "", "", 1 + numbers.below(8)
    if kind == "new":
        return kind, f"new-{count}", 1, other, numbers.below(600_000)
    if kind == "add":
        return kind, applicant, 10 + numbers.below(50), other, numbers.below(501)
    if kind == "drop":
        return kind, applicant, "", chosen, ""
    if kind == "withdraw":
        return kind, applicant, "", "", ""
    return kind, applicant, "", chosen, numbers.below(501)


def write_amendments(folder, tables, numbers):
    pools, programmes, choices = (rows_of(table) for table in tables)
    codes = [code for code, *_ in pools], [code for code, *_ in programmes]
    path = os.path.join(folder, "amendments.csv")
    with open(path, "w", encoding="utf-8", newline="") as file:
        writer = csv.writer(file)
        writer.writerow(HEADER)
        writer.writerows(row(numbers, count, *codes, choices) for count in range(numbers.below(5)))
    return path


def fault(program, letter, workers, tables, folder, amendments):
    """Whether the rows were accepted, and what is wrong, or nothing."""
    document = write(folder, "result.csv", run([program, "clear", letter, "1", *tables]).stdout)
    amended = run([program, "amend", letter, str(workers), *tables, document, amendments])
    printed = [run([program, "table", name, *tables, amendments]) for name in ("pools", "applications")]
    if amended.returncode == 3:
        same = all(one.returncode == 3 and one.stderr == amended.stderr for one in printed)
        return False, None if same else "amend and table differ"
    if amended.returncode or any(one.returncode for one in printed):
        return True, f"status {amended.returncode} of amend, {[one.returncode for one in printed]} of table"
    pools, applications = (write(folder, f"amended-{name}.csv", one.stdout)
                           for name, one in zip(("pools", "applications"), printed))
    renewed = [pools, tables[1], applications]
    cleared = run([program, "clear", letter, "1", *renewed])
    if cleared.returncode or records(cleared.stdout) != records(amended.stdout):
        return True, f"another result than clearing the amended tables, whose status is {cleared.returncode}"
    document = write(folder, "amended-result.csv", amended.stdout)
    verdict = run([program, "check", letter, *renewed, document])
    if verdict.returncode or verdict.stdout != b"verdict,Yes,,\n":
        return True, f"check says {verdict.stdout!r}, status {verdict.returncode}"
    return True, None


def main(words):
    start = time.monotonic()
    rounds = 0
    accepted = 0
    for program, seed, folder, tables in rounds_of(words, "scorelimits-soak-amendments"):
        amendments = write_amendments(folder, tables, Numbers(seed * 40503))
        is_accepted, wrong = fault(program, "HL"[seed % 2], 1 + seed % 8, tables, folder, amendments)
        if wrong:
            sys.exit(f"seed {seed}, tables in {folder}: {wrong}")
        rounds += 1
        accepted += is_accepted
    print(f"{rounds} rounds, {accepted} amended and {rounds - accepted} refused: each as a clearing of its amended "
          f"tables ({time_since(start)})")


if __name__ == "__main__":
    main(sys.argv[1:])
