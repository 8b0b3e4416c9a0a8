#!/usr/bin/env python3
"""Works out what the program written_runs has to write, from request 2/13 alone, and says whether the stored files agree.

    tests/written_runs.py            compare the data, args and stdout of crates/written_runs with what is worked out here
    tests/written_runs.py --write    write them anew
"""
import os
import sys

HERE = os.path.join(os.path.dirname(os.path.abspath(__file__)), "..", "crates", "written_runs")
MOST = 65535


def file(rows, properties, marks, title=b"", width=0, end=b"\n", last=True):
    """A table file: names, lines of marks, counts with leading zeros up to a width, and its last line with or without an end."""
    lines = [b"B", title, b"%0*d" % (width, len(rows)), b"%0*d" % (width, len(properties)), b"", *rows, *properties, *marks]
    return end.join(lines) + (end if last else b"")


def text(rows, properties, marks):
    """What is written of it: no title, no leading zeros, X for x, and every line closed by a line feed."""
    return file(rows, properties, [line.upper() for line in marks])


def numbers(prefix, count):
    return [b"%s%d" % (prefix, i) for i in range(count)]


def pattern(rows, properties, marks=b"X.?"):
    return [bytes(marks[(i + j) % len(marks)] for j in range(properties)) for i in range(rows)]


def padded(size):
    """Names and marks of a table of 512 rows and 64 properties whose text has so many bytes."""
    rows, properties, marks = numbers(b"r", 512), numbers(b"p", 64), pattern(512, 64)
    short = size - len(text(rows, properties, marks))
    for i, name in enumerate(rows):
        more = min(short, 80 - len(name))
        rows[i], short = name + b"-" * more, short - more
    return rows, properties, marks


bytes_names = [bytes(b for b in range(start, start + 64)) for start in (0x80, 0xc0)]
cases = [
    ("no-rows", [], [b"p"], [], {}),
    ("no-rows-no-end", [], [b"p", b"q"], [], {"last": False, "end": b"\r\n"}),
    ("one-row", [b"r"], [b"p"], [b"?"], {"title": b"a title", "width": 4}),
    ("small-x", [b"r", b"s"], [b"p", b"q", b"t"], [b"xX.", b"?x?"], {"end": b"\r"}),
    ("last-end-lost", [b"r"], [b"p", b"q"], [b"X."], {"last": False, "end": b"\r"}),
    ("bytes-above-127", bytes_names, [b"\x00", b" "], [b"X.", b".X"], {}),
    ("names-80", [b"n" * 80, b"m" * 80], [b"a" * 80], [b"X", b"."], {"title": b"t" * 80, "end": b"\r\n"}),
    ("properties-64", numbers(b"r", 2), numbers(b"p", 64), pattern(2, 64), {}),
    ("rows-512", numbers(b"r", 512), [b"p"], pattern(512, 1), {"width": 4}),
    ("rows-512-properties-64", numbers(b"r", 512), numbers(b"p", 64), pattern(512, 64), {}),
    ("longest", *padded(MOST), {}),
    ("one-byte-too-long", *padded(MOST + 1), {"last": False}),
]

files, out = {}, b""
for name, rows, properties, marks, form in cases:
    files["data/" + name] = file(rows, properties, marks, **form)
    assert len(files["data/" + name]) <= MOST
    written = text(rows, properties, marks)
    out += name.encode() + (b" %d\n%sthe same\n" % (len(written), written) if len(written) <= MOST else b" E 30 0\n")
files["data/no-table"] = b"b\n"
out += b"no-table E 22 0\n"
files["args"] = ("\n".join([case[0] for case in cases] + ["no-table"]) + "\n").encode()
files["stdout"] = out

if "--write" in sys.argv:
    for name, content in files.items():
        with open(os.path.join(HERE, name), "wb") as stored:
            stored.write(content)
there = {"data/" + name for name in os.listdir(os.path.join(HERE, "data"))} | {"args", "stdout"}
bad = sorted(there ^ set(files))
for name, content in files.items():
    if name in there:
        with open(os.path.join(HERE, name), "rb") as stored:
            if stored.read() != content:
                bad.append(name)
print("\n".join("differs: " + name for name in bad) if bad else f"{len(files) - 2} table files, all as worked out")
sys.exit(1 if bad else 0)
