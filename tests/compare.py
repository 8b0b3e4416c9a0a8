#!/usr/bin/env python3
"""Compares the programs with their models on random and damaged tables, every byte of the output.

    tests/compare.py EXPLORE MODEL NEARLY MODEL [SEED] [COUNT]

Both programs run on every table, but for tables with many rows and many properties, which `nearly` alone gets unless they are refused.
Of a file that both refuse they say the same on standard error, of any other `nearly` says nothing.
"""
import collections
import random
import subprocess
import sys

import tables


def scattered(rnd, n, rows):
    """Random marks, some rows more than once."""
    density = rnd.choice([0.1, 0.3, 0.5, 0.7, 0.9, 0.95, 1])
    lines = ["".join("X" if rnd.random() < density else "." for _ in range(n)) for _ in range(rows)]
    return [rnd.choice(lines) if rnd.random() < 0.1 else line for line in lines]


def near_limit(rnd, n, rows):
    """Marks in which many a property has exactly 80 per cent of the rows with one other or two, or a row more or less."""
    columns = [set(rnd.sample(range(rows), rows - rows % 5))]
    while len(columns) < n:
        having = set.intersection(*rnd.sample(columns, min(len(columns), rnd.choice([1, 1, 2]))))
        count = min(max(len(having) * 4 // 5 + rnd.choice([0, 0, 0, 1, -1]), 0), len(having))
        others = set(range(rows)) - having
        more = rnd.randint(0, len(others))
        # 80 per cent of a multiple of five is a number of rows.
        more = min(more + -(count + more) % 5, len(others))
        columns.append(set(rnd.sample(sorted(having), count) + rnd.sample(sorted(others), more)))
    rnd.shuffle(columns)
    return ["".join("X" if row in column else "." for column in columns) for row in range(rows)]


def at_limit(n, lines):
    """Whether some property has exactly 80 per cent of the rows with one or two others."""
    columns = [sum(1 << row for row, line in enumerate(lines) if line[i] in "Xx") for i in range(n)]
    for i in range(n):
        for j in range(i, n):
            having = columns[i] & columns[j]
            limit = 4 * having.bit_count()
            others = columns[:i] + columns[i + 1 : j] + columns[j + 1 :]
            if limit and any(5 * (having & other).bit_count() == limit for other in others):
                return True
    return False


def random_marks(rnd, large):
    """Few rows or few properties, else large: an interview over many of both may take longer than there is time."""
    if large:
        n, rows = rnd.choice([rnd.randint(11, 64), 64]), rnd.choice([rnd.randint(12, 512), 500, 512])
    elif rnd.random() < 0.7:
        n, rows = rnd.randint(1, 10), rnd.choice([0, 1, 2, 5, 20, 100, 512])
    else:
        n, rows = rnd.randint(11, 64), rnd.randint(0, 11)
    lines = rnd.choice([scattered, near_limit])(rnd, n, rows)
    # In a third of the tables some marks are unknown, in half of these no yes is lost.
    unknown, lost = rnd.choice([0, 0, rnd.choice([0.01, 0.1, 0.5])]), rnd.choice([".", ".X"])
    changed = lambda mark: "?" if mark in lost and rnd.random() < unknown else "x" if mark == "X" and rnd.random() < 0.1 else mark
    return n, ["".join(map(changed, line)) for line in lines]


def random_table(rnd, n, lines):
    end = rnd.choice(["\n", "\n", "\r\n", "\r"])
    title = "t" * rnd.choice([0, 0, 1, 80])
    file = tables.table(["row %d" % i for i in range(len(lines))], ["p%d" % i for i in range(n)], lines, end, title)
    return mixed(rnd, file.split(end.encode())) if rnd.random() < 0.2 else file


def mixed(rnd, lines):
    """The lines, each with one of the three ends, but no line feed alone right behind a carriage return; the last, empty one with none."""
    file = b""
    for line in lines[:-1]:
        file += line
        file += rnd.choice([b"\r\n", b"\r"] if file.endswith(b"\r") else [b"\n", b"\r\n", b"\r"])
    return file


def damaged(rnd, file):
    """A table file with one thing or more done to it."""
    for _ in range(rnd.choice([1, 1, 2])):
        at = rnd.randrange(len(file) + 1) if rnd.random() < 0.5 else rnd.randrange(min(20, len(file) + 1))
        kind = rnd.randrange(8)
        if kind == 0:
            file = file[:at]
        elif kind == 1:
            file = file[:at] + bytes([rnd.choice(b"?\r\n.Xx0129B \xff\x00")]) + file[at:]
        elif kind == 2:
            file = file[:at] + bytes([rnd.choice(b"?\r\n.Xx0129B \xff\x00")]) + file[at + 1 :]
        elif kind == 3:
            file = file[:at] + file[at + rnd.randint(1, 5) :]
        elif kind == 4:
            end = b"\n" if b"\n" in file else b"\r"
            lines = file.split(end)
            k = rnd.randrange(len(lines))
            lines[k : k + 1] = rnd.choice([[], [lines[k], lines[k]], [b""], [b"y" * 81], [b"9999"], [b"0"], [b"65"]])
            file = end.join(lines)
        elif kind == 5:
            # The longest file, and two that are too long, are among them.
            rest = 65535 - len(file)
            file += rnd.choice([b"\n", b"\n\n", b"\r\n", b"\r", b"\r\r\n", b" \n", b"z", b"\n" * rest, b"\n" * (rest + 1), b"\n" * 65536])
        elif kind == 6:
            file = file.replace(b".", b"?", 1) if rnd.random() < 0.5 else file[::-1].replace(b"X", b"?", 1)[::-1]
        else:
            file = file.rstrip(rnd.choice([b"\n", b"\r", b"\r\n"]))
    return file


def run(program, file):
    done = subprocess.run([program], input=file, capture_output=True, check=True)
    return done.stdout, done.stderr


def same(k, file, what, ours, theirs):
    if ours != theirs:
        open("differs.table", "wb").write(file)
        print("%s of table %d differs; it stands in differs.table" % (what, k))
        print("program:", ours[-200:])
        print("wanted:", theirs[-200:])
        sys.exit(1)


def last(out):
    words = out.splitlines()[-1].split()
    return b" ".join(words[:2]).decode() if words[0] == b"E" else words[0].decode()


def main():
    explore, explore_model, nearly, nearly_model = sys.argv[1:5]
    seed = int(sys.argv[5]) if len(sys.argv) > 5 else random.randrange(1 << 32)
    count = int(sys.argv[6]) if len(sys.argv) > 6 else 5000
    print("seed", seed, "tables", count)
    rnd = random.Random(seed)
    explored, listed, lines_of = collections.Counter(), collections.Counter(), collections.Counter()
    limits = 0
    for k in range(count):
        large, whole = rnd.random() < 0.1, rnd.random() < 0.5
        n, lines = random_marks(rnd, large)
        file = random_table(rnd, n, lines)
        if not whole:
            file = damaged(rnd, file)
        out, said = run(nearly, file)
        same(k, file, "the listing", out, run(nearly_model, file)[0])
        refused = out.startswith(b"E ")
        listed[last(out)] += 1
        lines_of.update("some" if b"X" in line.split()[2] else "none" for line in out.splitlines() if line.startswith(b"N "))
        limits += whole and at_limit(n, lines)
        wanted = b""
        if refused or not large:
            out, explained = run(explore, file)
            same(k, file, "the interview", out, run(explore_model, file)[0])
            explored[last(out)] += 1
            wanted = explained if refused else b""
        same(k, file, "what is said", said, wanted)
    for name, ends in [("explore", explored), ("nearly", listed)]:
        print("%s: every byte equal; the last lines:" % name, ", ".join("%s %d times" % end for end in sorted(ends.items())))
    print("nearly: %(some)d lines list something, %(none)d nothing;" % lines_of, "exactly 80 per cent in %d tables" % limits)


main()
