#!/usr/bin/env python3
"""Runs a program on files with each refusal and each mistake, and checks what it says on standard error, beside the E line.

    python3 tests/reports.py PROGRAM

The program is explore or nearly, by its name; nearly takes unknown marks and has no list to fill. With nothing but a terminal on standard
input it says how it is used.
"""
import os
import pty
import subprocess
import sys

import tables


def sentences():
    """The sentences of the refusal numbers, as the library's source has them."""
    with open("crates/refusal_words/src/lib.rt") as source:
        text = source.read()
    return text[text.index('b"') + 2:text.rindex('"')].split("\n")


SENTENCES = sentences()
LONG = "n" * 81
ROWS, PROPERTIES, MARKS = ["1", "2"], ["a", "b", "c"], ["XX.", ".X."]


def table(rows=ROWS, properties=PROPERTIES, marks=MARKS, **others):
    return tables.table(rows, properties, marks, **others)


def lines(*texts):
    return "\n".join(texts).encode()


# number, place, the line and what is said of it, the file
REFUSED = [
    (21, 65535, "line 9: no more than 65,535 bytes expected", lines("B", "", "1", "1", "", "r", "p", "X", "") + b"z" * 65535),
    (21, 65535, "line 65536: no more than 65,535 bytes expected", b"\n" * 70000),
    (22, 0, "line 1: B alone expected; the file is empty", b""),
    (22, 0, "line 1: B alone expected; the file begins with a byte-order mark", b"\xef\xbb\xbf" + table()),
    (22, 0, "line 1: B alone expected; the file looks like UTF-16", b"\xff\xfe" + table().decode().encode("utf-16-le")),
    (22, 0, "line 1: B alone expected; the file looks like UTF-16", b"\xfe\xff" + table().decode().encode("utf-16-be")),
    (22, 0, "line 1: B alone expected; it is a small b", b"b" + table()[1:]),
    (22, 0, "line 1: B alone expected; it is a small b", b"b" + table(end="\r\n")[1:]),
    (22, 0, "line 1: B alone expected; it is a small b", b"b" + table(end="\r")[1:]),
    (22, 0, "line 1: B alone expected; it is a small b", b"b"),
    (22, 0, "line 1: B alone expected; the file looks like another format", b"<xml/>\n"),
    (22, 0, "line 1: B alone expected; the file looks like another format", b"\n" + table()),
    (22, 0, "line 1: B alone expected; the file looks like another format", b"bread\n"),
    (22, 0, "line 1: B alone expected; the file looks like another format", b"\xef\xbb"),
    (23, 3, "line 3: 1 to 4 digits expected", lines("B", "", "00002", "3")),
    (23, 5, "line 4: 1 to 4 digits expected", lines("B", "", "2", "x")),
    (23, 3, "line 3: 1 to 4 digits expected", b"B\n\n"),
    (23, 3, "line 3: 1 to 4 digits expected", b"B\r\r"),
    (23, 5, "line 3: 1 to 4 digits expected", b"B\r\n\r\n"),
    (23, 4, "line 4: 1 to 4 digits expected", b"B\n\n2"),
    (23, 5, "line 4: 1 to 4 digits expected", b"B\n\n2\n"),
    (24, 3, "line 3: at most 512 rows, 1 to 64 properties expected", lines("B", "", "513", "3")),
    (24, 5, "line 4: at most 512 rows, 1 to 64 properties expected", lines("B", "", "2", "65")),
    (25, 2, "line 2: a title of at most 80 bytes, an empty line 5 expected", table(title=LONG)),
    (25, 7, "line 5: a title of at most 80 bytes, an empty line 5 expected", lines("B", "", "2", "3", "row")),
    (25, 1, "line 2: a title of at most 80 bytes, an empty line 5 expected", b"B"),
    (25, 2, "line 2: a title of at most 80 bytes, an empty line 5 expected", b"B\r"),
    (26, 10, "line 7: a name of 1 to 80 bytes expected", table(rows=["1", ""])),
    (26, 12, "line 8: a name of 1 to 80 bytes expected", table(properties=[LONG, "b", "c"])),
    (27, 18, "line 11: 3 marks out of X x . ? expected", table(marks=["XX", ".X."])),
    (27, 22, "line 12: 3 marks out of X x . ? expected", table(marks=["XX.", ".X.X"])),
    (27, 22, "line 12: 3 marks out of X x . ? expected", table(marks=["XX."])),
    (27, 21, "line 12: 3 marks out of X x . ? expected", table(marks=["XX."])[:-1]),
    (27, 32, "line 11: 3 marks out of X x . ? expected", table(marks=["XX/", ".X."], end="\r\n", title="xxxx")),
    (27, 27, "line 11: 3 marks out of X x . ? expected", table(rows=["1", "2\rx"], end="\r\n")),
    (28, 27, "line 14: the end of the file expected", table() + b"\nX"),
    (28, 29, "line 15: the end of the file expected", table(end="\r") + b"\r\n\rX"),
    (29, 22, "line 12: marks out of X x . expected", table(marks=["XX.", ".X?"])),
    (29, 22, "line 12: marks out of X x . expected", table(marks=["XX.", ".X?"], end="\r")),
]


def run(program, file):
    done = subprocess.run([program], input=file, capture_output=True)
    return done.stdout.decode(), done.stderr.decode(), done.returncode


def refusals(program, files):
    for number, place, line, file in files:
        wanted = f"E {number} {place}\n", f"{line}\n{SENTENCES[number]}\n", 0
        found = run(program, file)
        if found != wanted:
            sys.exit(f"{file[:200]!r}\nfound  {found}\nwanted {wanted}")
        assert len(found[1]) < 260


def quiet(program, last, files):
    """Tables that are taken: nothing is said."""
    for file in files:
        out, err, status = run(program, file)
        assert out.splitlines()[-1].startswith(last) and err == "" and status == 0, (out, err)


def full(program):
    out, err, status = run(program, SINGLE)
    assert out.endswith("\nE 12 0\n") and err == SENTENCES[12] + "\n" and status == 0, (out, err)


def terminal(program, name):
    leader, follower = pty.openpty()
    done = subprocess.run([program], stdin=follower, capture_output=True, timeout=10)
    os.close(leader)
    os.close(follower)
    assert done.stdout == b"" and done.stderr.startswith(b"usage: %s < TABLE\n" % name.encode()), done
    assert done.stderr.count(b"\n") == 2 and done.stderr.endswith(b"\n"), done


COMPLETE = [table(), table(end="\r\n"), table(end="\r"), table()[:-1], table(end="\r\n")[:-1], tables.numbered(1, []), tables.costly(5)]
# Rows with one property each: every pair has all, and 276 rules have no place.
SINGLE = tables.numbered(24, ["".join("X" if j == i else "." for j in range(24)) for i in range(24)])


def main():
    program = sys.argv[1]
    name = os.path.basename(program)
    if name == "explore":
        refused = REFUSED
        quiet(program, "END ", COMPLETE)
        full(program)
    else:
        refused = [each for each in REFUSED if each[0] != 29]
        quiet(program, "N ", COMPLETE + [SINGLE] + [file for number, _, _, file in REFUSED if number == 29])
    refusals(program, refused)
    terminal(program, name)
    more = ", and a list that is full" if name == "explore" else ", and nothing said of unknown marks"
    print(f"{name}: {len(refused)} refused files explained{more}; a terminal gets the usage")


if __name__ == "__main__":
    main()
