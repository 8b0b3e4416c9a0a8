#!/usr/bin/env python3
"""The runs of the program interview_runs: its table files, and what it has to write.

    tests/interview_runs.py MODEL            compare data, args and stdout of crates/interview_runs with what is worked out here
    tests/interview_runs.py MODEL --write    write them anew

MODEL is the program of tests/model/explore.rs, which was written from the scope document alone.
"""
import os
import subprocess
import sys

import tables

HERE = os.path.join(os.path.dirname(os.path.abspath(__file__)), "..", "crates", "interview_runs")


def many_rules(n):
    """Two properties to a row: every pair is had by some row, no three are, so that each three imply all the rest."""
    return tables.numbered(n, ["".join("X" if j in (a, b) else "." for j in range(n)) for a in range(n) for b in range(a)])


def chain(n, rows):
    """Row i has the first i properties, i counted around: few sets are visited, however many properties there are."""
    return tables.numbered(n, ["X" * (i % n) + "." * (n - i % n) for i in range(rows)])


FILES = {
    "example": tables.example(),
    "example-crlf": tables.example("\r\n"),
    "example-no-last-feed": tables.example()[:-1],
    "no-rows": tables.numbered(4, []),
    "one-property": tables.numbered(1, [".", "X"]),
    # the reader's edges, complete
    "properties-64": chain(64, 40),
    "properties-64-rows-512": chain(64, 512),
    "rows-512": tables.numbered(9, [format(i, "09b").replace("0", ".").replace("1", "X") for i in range(512)]),
    # refusals of the file
    "refused-21": tables.example() + b"\n" * 65536,
    "refused-22": b"b" + tables.example()[1:],
    "refused-23": tables.example().replace(b"4\n3\n", b"4 \n3\n"),
    "refused-24": tables.example().replace(b"4\n3\n", b"513\n3\n"),
    "refused-25": tables.example().replace(b"3\n\n1\n", b"3\n-\n1\n"),
    "refused-26": tables.example().replace(b"a\nb\n", b"a\n" + b"b" * 81 + b"\n"),
    "refused-27": tables.example().replace(b".XX\n", b".XY\n"),
    "refused-28": tables.example() + b"\n \n",
    "refused-29": tables.example().replace(b".XX\n", b".X?\n"),
    # lines that end in carriage returns alone, and in each of the three ends
    "example-cr": tables.example("\r"),
    "example-cr-no-last-end": tables.example("\r")[:-1],
    "example-mixed": b"".join(line + end for line, end in zip(tables.example().split(b"\n"), [b"\n", b"\r", b"\r\n"] * 6)),
    "refused-29-cr": tables.example("\r").replace(b".XX\r", b".X?\r"),
    # more rules than places
    "rules-run-out": many_rules(13),
    # every set is visited
    **{"costly-%d" % n: tables.costly(n) for n in (1, 2, 3, 5, 8, 12, 16)},
    # published bases
    **{name: tables.from_sets(properties, rows) for name, (properties, rows, _) in tables.PUBLISHED.items()},
}


def output(model, file, places):
    return subprocess.run([model, *places], input=file, capture_output=True, check=True).stdout


def wanted(model):
    files = {"args": "".join(name + "\n" for name in FILES).encode()}
    stdout = b""
    for name, file in FILES.items():
        files[os.path.join("data", name)] = file
        stdout += name.encode() + b"\n" + output(model, file, [])
        stdout += name.encode() + b", 2 places for rows and 1 for rules\n" + output(model, file, ["2", "1"])
    files["stdout"] = stdout
    return files


def main():
    differ = 0
    for name, content in wanted(sys.argv[1]).items():
        path = os.path.join(HERE, name)
        if "--write" in sys.argv:
            os.makedirs(os.path.dirname(path), exist_ok=True)
            open(path, "wb").write(content)
        elif not os.path.exists(path) or open(path, "rb").read() != content:
            print("differs:", name)
            differ += 1
    print("%d table files, %d differences" % (len(FILES), differ))
    sys.exit(differ > 0)


main()
