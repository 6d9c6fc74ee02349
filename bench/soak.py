#!/usr/bin/env python3
"""Clears many small rounds with one worker and with several, and checks each result. It is no part of the test run.

    soak.py [ROUNDS [FIRST [PROGRAM]]]

ROUNDS tables, by default 1,000, are written as make_tables.py writes them, with the seeds from FIRST on: pools of
kind score and chains of merit pools, with few places and many ties, by rule H and by rule L in turn. Each is
cleared with one worker and with 2 to 8. The two documents must have the same limits and the same admissions, and
`check` must say Yes to the second. Where bench/plain is built, by rule H its limits and admissions must be the
same, too. (By rule L it counts an applicant out of a pool who comes back by a later choice in the same one.)
PROGRAM is one that `rt run` in crates/scorelimits has built, by default the one that lies there. Each program may
run for a minute. The first round that fails is left where it is, and the status is 1.
"""

import os
import subprocess
import sys
import tempfile
import time

from make_tables import Numbers, main as make_tables
from measure import PLAIN, PROGRAM, TABLES

SECONDS = 60


def words_of(seed):
    """The words for make_tables.py: pools, programmes, applicants, choices, and the depth and share of chains."""
    numbers = Numbers(seed * 2654435761)
    pools = 1 + numbers.below(12)
    programmes = pools + numbers.below(12)
    applicants = 1 + numbers.below(80)
    choices = 1 + numbers.below(min(programmes, 6))
    return pools, programmes, applicants, choices, 1 + numbers.below(4), numbers.below(101)


def run(words):
    return subprocess.run(words, stdout=subprocess.PIPE, stderr=subprocess.PIPE, timeout=SECONDS, check=False)


def records(document):
    """The limits and admissions of a document."""
    return [line for line in document.splitlines() if line.startswith((b"limit,", b"admit,"))]


def fault(program, letter, workers, tables, folder):
    """What is wrong with the clearing of these tables, or nothing."""
    one = run([program, "clear", letter, "1", *tables])
    many = run([program, "clear", letter, str(workers), *tables])
    if one.returncode or many.returncode:
        return f"status {one.returncode} with one worker, {many.returncode} with {workers}"
    if records(one.stdout) != records(many.stdout):
        return f"another result with {workers} workers"
    plain = run([PLAIN, letter, *tables]) if letter == "H" and os.path.exists(PLAIN) else one
    if records(plain.stdout) != records(one.stdout):
        return "another result than that of the plain program"
    document = os.path.join(folder, "result.csv")
    with open(document, "wb") as file:
        file.write(many.stdout)
    verdict = run([program, "check", letter, *tables, document])
    if verdict.returncode or verdict.stdout != b"verdict,Yes,,\n":
        return f"check of {workers} workers says {verdict.stdout!r}, status {verdict.returncode}"
    return None


def rounds_of(words, name):
    """The rounds of a soak, each with its program, its seed, and the folder that its tables are written into."""
    rounds, first = (int(words[at]) if len(words) > at else default for at, default in ((0, 1000), (1, 1)))
    program = words[2] if len(words) > 2 else PROGRAM
    folder = os.path.join(tempfile.gettempdir(), name)
    for seed in range(first, first + rounds):
        pools, programmes, applicants, choices, depth, share = words_of(seed)
        sizes = [pools, programmes, applicants, choices, folder, seed, depth, share]
        make_tables([str(word) for word in sizes])
        yield program, seed, folder, [os.path.join(folder, name) for name in TABLES]


def time_since(start):
    return f"{time.monotonic() - start:.0f} s, {os.cpu_count()} cores"


def main(words):
    start = time.monotonic()
    rounds = 0
    for program, seed, folder, tables in rounds_of(words, "scorelimits-soak"):
        wrong = fault(program, "HL"[seed % 2], 2 + seed % 7, tables, folder)
        if wrong:
            sys.exit(f"seed {seed}, tables in {folder}: {wrong}")
        rounds += 1
    print(f"{rounds} rounds: the same results, and each checked ({time_since(start)})")


if __name__ == "__main__":
    main(sys.argv[1:])
