#!/usr/bin/env python3
"""Runs built programs over the tables of a folder, several times each in turn, and says how long they took and
how much memory they had. It is no test.

    measure.py FOLDER [LETTER [PROGRAM ..]]
    measure.py demo APPLICANTS [PROGRAM ..]

FOLDER has pools.csv, programmes.csv and applications.csv, as make_tables.py writes them; result.csv is written
into it. LETTER is H or L. A PROGRAM is one that `rt run` in crates/scorelimits has built, by default the one
that lies there; several are compared over the same tables in one run. Where bench/plain is built it runs beside
them, and ratios to it are said. The last program runs with 4 workers, too.

User time is what the processor worked; elapsed time goes by the clock. Of several runs the median is said, with
the least and the greatest. Memory is the most that a process had resident. Reading is what it takes to read the
tables and then to refuse an empty document; writing goes from the first byte of the result to the last; clearing,
with the admissions and counts, is what is left of a whole `clear`. The second form clears the generated round of
so many applicants with 1, 2, 4 and 8 workers.
"""

import os
import statistics
import subprocess
import sys
import time

RUNS = 5
HERE = os.path.dirname(os.path.abspath(__file__))
PROGRAM = os.path.join(HERE, "..", "crates", "scorelimits", "out", "scorelimits")
PLAIN = os.path.join(HERE, "plain", "target", "release", "plain")
TABLES = ("pools.csv", "programmes.csv", "applications.csv")
WORKERS = ("1", "2", "4", "8")


class Run:
    """One run of a program: its status, times in seconds, and memory in megabytes."""

    def __init__(self, words, result=os.devnull):
        start = time.monotonic()
        process = subprocess.Popen(words, stdout=subprocess.PIPE, stderr=subprocess.DEVNULL)
        self.first = None
        with open(result, "wb") as out:
            while piece := process.stdout.read(1 << 16):
                self.first = self.first or time.monotonic() - start
                out.write(piece)
        _, status, usage = os.wait4(process.pid, 0)
        process.stdout.close()
        self.elapsed = time.monotonic() - start
        self.first = self.first or self.elapsed
        self.status = os.waitstatus_to_exitcode(status)
        self.user = usage.ru_utime
        self.memory = usage.ru_maxrss / 1024


def in_turn(commands):
    """The runs of each command, one of each after another, so that a busy moment meets all of them."""
    runs = [[] for _ in commands]
    for _ in range(RUNS):
        for mine, words in zip(runs, commands):
            mine.append(Run(words))
    return runs


def spread(values):
    return f"{statistics.median(values):7.2f} s ({min(values):.2f} to {max(values):.2f})"


def median(runs, what):
    return statistics.median(getattr(run, what) for run in runs)


def say(name, runs):
    user, elapsed = ([getattr(run, what) for run in runs] for what in ("user", "elapsed"))
    print(f"{name:<24} user {spread(user)}  elapsed {spread(elapsed)} {median(runs, 'memory'):6.0f} MB")


def compare(name, runs, other, others):
    user, memory = (median(runs, what) / median(others, what) for what in ("user", "memory"))
    print(f"{name} beside {other}: {user:.2f} of the user time, {memory:.2f} of the memory")


def parts(program, letter, tables, document):
    """How long the parts of a command take, once each."""
    reading = Run([program, "check", letter, *tables, os.devnull])
    clear = Run([program, "clear", letter, "1", *tables], document)
    check = Run([program, "check", letter, *tables, document])
    print(f"reading {reading.elapsed:.2f} s, clearing {clear.first - reading.elapsed:.2f} s, "
          f"writing {clear.elapsed - clear.first:.2f} s (status {clear.status}); "
          f"checking the result {check.elapsed:.2f} s, {check.memory:.0f} MB (status {check.status})")


def demo(applicants, programs):
    """The generated round with each number of workers."""
    print(f"demo {applicants}: {os.cpu_count()} cores, {RUNS} runs each")
    commands = [[program, "demo", applicants, workers] for program in programs for workers in WORKERS]
    names = [f"{os.path.relpath(program, HERE)} {workers}" for program in programs for workers in WORKERS]
    if os.path.exists(PLAIN):
        commands.append([PLAIN, "demo", applicants])
        names.append("plain")
    measured = in_turn(commands)
    for name, runs in zip(names, measured):
        say(name, runs)
    if names[-1] == "plain":
        for name, runs in zip(names[:-1], measured):
            print(f"{name} beside plain: {median(runs, 'elapsed') / median(measured[-1], 'elapsed'):.2f} of the time")


def main(words):
    if not words:
        sys.exit(__doc__)
    if words[0] == "demo":
        return demo(words[1], words[2:] or [PROGRAM])
    folder, letter = words[0], words[1] if len(words) > 1 else "H"
    programs = words[2:] or [PROGRAM]
    tables = [os.path.join(folder, name) for name in TABLES]
    with open(tables[2], "rb") as rows:
        count = sum(1 for _ in rows) - 1
    print(f"{folder}, rule {letter}: {count} choices; {os.cpu_count()} cores, {RUNS} runs each")
    parts(programs[-1], letter, tables, os.path.join(folder, "result.csv"))
    commands = [[program, "clear", letter, "1", *tables] for program in programs]
    names = [os.path.relpath(program, HERE) for program in programs]
    commands.append([programs[-1], "clear", letter, "4", *tables])
    names.append(f"{names[-1]} with 4")
    if os.path.exists(PLAIN):
        commands.append([PLAIN, letter, *tables])
        names.append("plain")
    measured = in_turn(commands)
    for name, runs in zip(names, measured):
        say(name, runs)
    for at in range(1, len(programs)):
        compare(names[at], measured[at], names[0], measured[0])
    if names[-1] == "plain":
        for at in range(len(programs)):
            compare(names[at], measured[at], "plain", measured[-1])


if __name__ == "__main__":
    main(sys.argv[1:])
