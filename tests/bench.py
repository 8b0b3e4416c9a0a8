#!/usr/bin/env python3
"""Times the programs against their models in one run, on the same tables, and compares what they write.

    tests/bench.py EXPLORE MODEL NEARLY MODEL

Each table is run many times, program and model in turn; the figure is the median of the times of a whole run, and beside it the
time of a run on the smallest table, which is what starting a process costs here.
"""
import random
import statistics
import subprocess
import sys
import time

import tables


def scattered(n, rows, density, seed):
    rnd = random.Random(seed)
    return tables.numbered(n, ["".join("X" if rnd.random() < density else "." for _ in range(n)) for _ in range(rows)])


EXPLORED = {
    "smallest": tables.numbered(1, []),
    "costly, n = 16": tables.costly(16),
    "costly, n = 20": tables.costly(20),
    "costly, n = 22": tables.costly(22),
    "512 random rows, n = 12, many rules": scattered(12, 512, 0.3, 1),
    "512 random rows, n = 12": scattered(12, 512, 0.5, 1),
    "512 random rows, n = 16": scattered(16, 512, 0.7, 3),
    "512 random rows, n = 18": scattered(18, 512, 0.8, 1),
    "512 random rows, n = 20": scattered(20, 512, 0.85, 1),
}

LISTED = {
    "smallest": tables.numbered(1, []),
    "document 01's example": tables.example(),
    "512 rows, n = 64, every mark a yes": tables.numbered(64, ["X" * 64] * 512),
    "512 random rows, n = 64, half of them yes": scattered(64, 512, 0.5, 1),
    "512 random rows, n = 64, 90 % of them yes": scattered(64, 512, 0.9, 1),
}


def run(program, file):
    start = time.perf_counter()
    out = subprocess.run([program], input=file, capture_output=True, check=True).stdout
    return time.perf_counter() - start, out


def last_line(out):
    return out.splitlines()[-1].decode()


def lines(out):
    listed = [line.split()[2] for line in out.splitlines()]
    return "%d, of which %d list something" % (len(listed), sum(b"X" in line for line in listed))


def compare(name, program, model, files, end):
    """A line for each table, and at the end of it what `end` says of the output."""
    print("%-42s %10s %10s %7s  %s" % (name, "program", "model", "ratio", end.__name__.replace("_", " ")))
    for name, file in files.items():
        ours, theirs = [], []
        once = run(program, file)[0]
        for _ in range(max(5, min(200, int(2 / once)))):
            time_ours, out_ours = run(program, file)
            time_theirs, out_theirs = run(model, file)
            assert out_ours == out_theirs, name
            ours.append(time_ours)
            theirs.append(time_theirs)
        a, b = statistics.median(ours), statistics.median(theirs)
        print("%-42s %7.2f ms %7.2f ms %7.2f  %s" % (name, a * 1e3, b * 1e3, a / b, end(out_ours)))


def main():
    explore, explore_model, nearly, nearly_model = sys.argv[1:]
    compare("explore", explore, explore_model, EXPLORED, last_line)
    compare("nearly", nearly, nearly_model, LISTED, lines)


main()
