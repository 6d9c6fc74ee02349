#!/usr/bin/env python3
"""Measures how the time and the memory of a clearing grow with the number of applicants, and draws both. It is
no test.

    growth.py PICTURE [PROGRAM]
    growth.py demo PICTURE [PROGRAM]

The first form clears tables that make_tables.py writes, with 7 choices for each applicant and a pool for each 80
of them, by rule H; the second the generated round. Both work with one worker. User time and memory are medians of
several runs, as in measure.py; PICTURE is the SVG file that is written. Near-linear growth is near the grey line
through the largest size.
"""

import os
import subprocess
import sys
import tempfile

from measure import HERE, PROGRAM, RUNS, TABLES, Run, median

CLEARED = (10_000, 50_000, 100_000, 200_000, 350_000, 490_000)
GENERATED = (1_000, 10_000, 50_000, 100_000, 200_000, 350_000, 500_000)
CHOICES = 7
APPLICANTS_A_POOL = 80
WIDTH, HEIGHT, MARGIN = 320, 240, 48


def table_words(program, applicants):
    """The words that clear tables of so many applicants, which another process writes first: what this one has
    resident counts as memory of the programs that it starts."""
    folder = os.path.join(tempfile.gettempdir(), f"scorelimits-growth-{applicants}")
    pools = applicants // APPLICANTS_A_POOL
    words = [os.path.join(HERE, "make_tables.py"), pools, 2 * pools, applicants, CHOICES, folder]
    subprocess.run([sys.executable, *map(str, words)], check=True)
    return [program, "clear", "H", "1", *(os.path.join(folder, name) for name in TABLES)]


def demo_words(program, applicants):
    return [program, "demo", str(applicants), "1"]


def measured(words):
    runs = [Run(words) for _ in range(RUNS)]
    return median(runs, "user"), median(runs, "memory")


def panel(left, title, sizes, values):
    """A chart of the values over the sizes, both from 0."""
    top_size, top_value = max(sizes), max(values)

    def point(size, value):
        x = left + MARGIN + size / top_size * (WIDTH - 2 * MARGIN)
        y = HEIGHT - MARGIN - value / top_value * (HEIGHT - 2 * MARGIN)
        return f"{x:.1f},{y:.1f}"

    def text(size, value, words, shift):
        x, y = point(size, value).split(",")
        return f'<text x="{x}" y="{float(y) + shift:.1f}" text-anchor="middle">{words}</text>'

    corner = " ".join((point(0, top_value), point(0, 0), point(top_size, 0)))
    line = " ".join(point(size, value) for size, value in zip(sizes, values))
    parts = [
        f'<polyline points="{corner}" stroke="black"/>',
        f'<polyline points="{point(0, 0)} {point(sizes[-1], values[-1])}" stroke="silver"/>',
        f'<polyline points="{line}" stroke="navy"/>',
        text(top_size / 2, top_value, title, -16),
        text(0, top_value, f"{top_value:.3g}", -6),
        text(top_size, 0, f"{top_size:,}", 16),
        text(top_size / 2, 0, "applicants", 16),
        text(0, 0, "0", 16),
    ]
    for size, value in zip(sizes, values):
        x, y = point(size, value).split(",")
        parts.append(f'<circle cx="{x}" cy="{y}" r="3" fill="navy"/>')
    return parts


def picture(sizes, times, memories):
    parts = panel(0, "user time, seconds", sizes, times) + panel(WIDTH, "memory, megabytes", sizes, memories)
    head = f'<svg xmlns="http://www.w3.org/2000/svg" width="{2 * WIDTH}" height="{HEIGHT}" fill="none" font-size="12">'
    style = "<style>text { fill: black; font-family: sans-serif }</style>"
    back = '<rect width="100%" height="100%" fill="white"/>'
    return "\n".join([head, style, back, *parts, "</svg>", ""])


def main(words):
    generated = words[:1] == ["demo"]
    rest = words[1:] if generated else words
    if not rest:
        sys.exit(__doc__)
    program = rest[1] if len(rest) > 1 else PROGRAM
    sizes, words_for = (GENERATED, demo_words) if generated else (CLEARED, table_words)
    print(f"{os.cpu_count()} cores, {RUNS} runs each")
    found = []
    for size in sizes:
        found.append(measured(words_for(program, size)))
        print(f"{size:>9,} applicants: user {found[-1][0]:.3f} s, {found[-1][1]:.0f} MB")
    with open(rest[0], "w", encoding="utf-8") as file:
        file.write(picture(sizes, *zip(*found)))


if __name__ == "__main__":
    main(sys.argv[1:])
