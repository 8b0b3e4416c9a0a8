"""Runs both example programs through what a person can do and what can be refused, and checks what they say and their exit status,
and that both say the same.

    python3 tests/examples.py PROGRAM...
"""
import os
import random
import subprocess
import sys
import tempfile

PETS = "examples/tables/pets"
WAYS = "4 marks: X yes, . no, ? unknown; or mark, a row, a property and yes or no; or list; or holds and a rule"
HINT = f"Write yes, or no, row or test and {WAYS}.\n"
LATE_HINT = f"Write row and {WAYS}; or an empty line.\n"
ANOTHER = "Finished. Another row or mark, or an empty line: "
REFUTES = "It refutes the question.\n"
NO_PROPERTY = "No property is called so.\n"
NO_ROW = "No row is called so: write its name, or row and its number.\n"
SEVERAL = "More than one mark is called so: write row and the row's number.\n"


def sentences():
    """The sentences of the refusal numbers, as the library's source has them."""
    with open("crates/refusal_words/src/lib.rt") as source:
        text = source.read()
    return text[text.index('b"') + 2:text.rindex('"')].split("\n")


SENTENCES = sentences()


def refused(number):
    return f"Refused with {number}. {SENTENCES[number]}\n"


def table(rows, properties, marks, title="title"):
    return f"B\n{title}\n{len(rows)}\n{len(properties)}\n\n" + "".join(line + "\n" for line in rows + properties + marks)


class Runs:
    def __init__(self, program, folder):
        self.program, self.folder, self.shown = program, folder, []

    def path(self, name, text):
        path = os.path.join(self.folder, name)
        with open(path, "wb") as out:
            out.write(text if isinstance(text, bytes) else text.encode())
        return path

    def run(self, arguments, replies, status, out=None, err=None, part=None):
        """One run; `out` is how standard output ends, or that it is empty, `err` all of standard error, `part` a part of it."""
        replies = replies if isinstance(replies, bytes) else replies.encode()
        done = subprocess.run([self.program, *arguments], input=replies, capture_output=True)
        said, wrong = done.stdout.decode(), done.stderr.decode()
        fine = done.returncode == status
        fine = fine and (out is None or (said.endswith(out) if out else not said))
        fine = fine and (err is None or wrong == err) and (part is None or part in wrong)
        if not fine:
            sys.exit(f"{self.program} {arguments}: exit {done.returncode}, wanted {status}\n{said}\n{wrong}\nwanted {out!r} {err!r} {part!r}")
        shown = [text.replace(self.folder, "") for text in [*arguments, said, wrong]]
        self.shown.append((shown, done.returncode))
        return said

    def save(self, arguments, replies, status, wanted, out=None, err=None):
        """One run that saves the table `wanted`; what was saved is read again, and saved once more with the same bytes."""
        saved, again = os.path.join(self.folder, "saved"), os.path.join(self.folder, "again")
        said = self.run([*arguments, "--save", saved], replies, status, out=out, err=err)
        self.run([saved, "--save", again], "", 1, err="")
        for path in [saved, again]:
            self.holds(path, wanted)
            os.remove(path)
        return said

    def holds(self, path, wanted):
        with open(path, "rb") as text:
            text = text.read()
        if text != (wanted if isinstance(wanted, bytes) else wanted.encode()):
            sys.exit(f"{self.program}: {path} has {text!r}, wanted {wanted!r}")


def uses(runs):
    usage = runs.run(["--help"], "", 0, err="")
    assert usage.startswith("usage: interview ")
    for arguments in [[], ["--log"], ["--save"], ["--color", PETS], [PETS, PETS], [PETS, "--background"]]:
        runs.run(arguments, "", 2, out="", err=usage)
    runs.run(["nowhere"], "", 2, err="nowhere: cannot be read\n")
    runs.run([PETS, "--background", "nowhere"], "", 2, err="nowhere: cannot be read\n")
    runs.run([PETS, "--log", "nowhere/log"], "", 2, err="nowhere/log: cannot be written\n")


def files(runs):
    good = table(["r"], ["p", "q"], ["X?"])
    long = good + "\n" * 65536
    wrong = {
        21: (long, 1 + long[:65535].count("\n")),
        22: ("b" + good[1:], 1),
        23: (good.replace("\n2\n", "\ntwo\n"), 4),
        24: (good.replace("\n2\n", "\n65\n"), 4),
        25: (good.replace("title", "t" * 81), 2),
        26: (good.replace("\np\n", "\n\n"), 7),
        27: (good.replace("X?", "X"), 9),
        28: (good + "more", 10),
    }
    for number, (text, line) in wrong.items():
        for end in ["\n"] if number == 21 else ["\n", "\r\n", "\r"]:
            path = runs.path(f"wrong{number}", text.replace("\n", end))
            runs.run([path], "", 1, out="", err=f"{path}, line {line}: {refused(number)}")
    for name, text in [("bom", "\ufeff" + good), ("utf16", good.encode("utf-16")), ("empty", "")]:
        runs.run([runs.path(name, text)], "", 1, out="", part=refused(22))


def interviews(runs):
    with open("tests/interview.replies") as replies, open("tests/interview.list") as wanted:
        replies, wanted = replies.read(), wanted.read()
    with open(PETS) as table_file:
        pets = table_file.read()
    said = runs.run([PETS], replies, 0, out=f"? {ANOTHER}\n{wanted}", err=HINT + refused(10))
    assert said.startswith("Does every row have breathes air? ") and "Does every row with flies have breathes air? " in said
    for end in ["\r\n", "\r"]:
        assert runs.run([runs.path("ended", pets.replace("\n", end))], replies, 0, out=wanted) == said
    loose = replies.replace("yes", " Y ").replace("no ", "N  ").replace("\n", "\r\n")
    runs.run([PETS], loose.replace(" Y ", "YES", 1).rstrip("\r\n"), 0, out=wanted)
    runs.run([PETS], "", 1, out="\n0 rules, 3 rows, not finished\n", err="")
    runs.run([PETS], "no X...X\nyes please\n\n", 1, err=HINT * 3)
    lines = replies.splitlines(keepends=True)
    log = os.path.join(runs.folder, "log")
    runs.run([PETS, "--log", log], "".join(lines[:6]), 1, part=refused(10))
    runs.run([PETS, "--log", log], "".join(lines[6:]), 0, out=wanted, err="")
    runs.run([PETS, "--log", log], "", 0, out=wanted, err="")
    other = runs.path("other", table(["r"], ["p", "q", "s", "t"], ["XXXX"]))
    runs.run([other, "--log", log], "", 2, err=f"{log}: was written over another table or background\n")
    runs.run(["examples/tables/triangles", "--log", runs.path("notes", "hello\n")], "", 2, part="notes: is no log of this table\n")

    # The roof's log mark is unknown; since raw means log, it has it, and nothing is asked that it refutes by that.
    asked = f"Does every row with raw have log? {ANOTHER}\n1 rules, 5 rows\nraw -> log\n"
    assert runs.run(["examples/tables/raw_recordings"], "yes\n", 0, err="") == asked
    asked = f"{ANOTHER}\n0 rules, 5 rows\n"
    assert runs.run(["examples/tables/raw_recordings", "--background", runs.path("agreed", "raw -> log\n")], "", 0, err="") == asked


def refusals(runs):
    unsure = runs.path("unsure", table(["r"], ["a", "b", "c"], ["X?."]))
    rules = runs.path("rules", "a -> b\n\n")
    runs.run([unsure, "--background", runs.path("unknown", "a -> d\n")], "", 2, part="unknown, line 1: not a rule")
    runs.run([unsure, "--background", runs.path("no-arrow", "a, b\n")], "", 2, part="no-arrow, line 1: not a rule")
    runs.run([unsure, "--background", runs.path("against", "a -> b\r\nb -> c\r\n")], "", 1, err=refused(6)
             + "It is row 1 (r): it has a, so by the rules it would have c, which it lacks.\n")
    runs.run([unsure, "--background", rules], "no X.?\n", 1, err=refused(11))
    runs.run([unsure, "--background", rules], "no ...\nyes\nyes\n", 0, out="\n2 rules, 2 rows\nc -> a, b\nb -> a\n", err="")
    both = [runs.path("both", table(["r"], ["a", "b", "c", "d"], ["X??."])), "--background", runs.path("three", "a, b, c -> d\n")]
    why = "It is row 1 (r): it has a, so by the rules it would have d, which it lacks.\n"
    why += "It lacks at least one of b, c. If it is right, answer with a dot for each that it lacks: no X??.\n"
    runs.run(both, "yes\nno X??.\nno X.?.\n", 1, out="\n0 rules, 2 rows, not finished\n", err=refused(11) + why + refused(10))
    full = runs.path("full", table([str(i) for i in range(512)], ["a", "b"], ["??"] * 512))
    runs.run([full], "no .?\n", 1, err=refused(12))
    source = random.Random(1)
    marks = ["".join("X" if source.random() < 0.3 else "." for _ in range(14)) for _ in range(400)]
    many = runs.path("many", table([f"row {i}" for i in range(400)], [f"property {i}" for i in range(14)], marks))
    runs.run([many], "yes\n" * 257, 1, err=refused(12))


def saves(runs):
    with open("tests/interview.replies") as replies, open("tests/interview.list") as wanted:
        replies, wanted = replies.read(), wanted.read()
    with open(PETS) as pets:
        pets = pets.read()
    filed = ["..X.", "X..X", "..XX", ".XXX", "X.XX", "XX.X"]

    def saved(*given, marks=filed):
        """The table with some rows more, each with its name or the one that it gets."""
        rows = ["cat", "parrot", "goldfish"] + [name or f"row {number}" for number, name in enumerate(given, 4)]
        properties = ["has fur", "flies", "swims", "breathes air"]
        return table(rows, properties, ["X?.X", ".X.X", "..X?", *marks[:len(given)]], title="")

    def named(given):
        """The replies with names, and with white space around them."""
        text = replies
        for marks, name in zip(filed, given):
            text = text.replace(f"no {marks}\n", f" N\t{marks}  {name} \t\r\n", 1)
        return text

    said = runs.save([PETS], replies, 0, saved(*[""] * 6), out=wanted)
    names = ["shark", "guinea  pig", "X..X", "no", "\u00e9" * 40, "n" * 80]
    mixed = ["", "yes", "", "", "bat", ""]
    for given in [names, mixed]:
        assert runs.save([PETS], named(given), 0, saved(*given), out=wanted) == said
    for end in ["\r\n", "\r"]:
        path = runs.path("ended", pets.replace("\n", end))
        runs.save([path], named(mixed), 0, saved(*mixed), out=wanted)
        runs.save([path], "", 1, saved())
        runs.save([runs.path("open", pets.rstrip("\n").replace("\n", end))], "no ..X. shark", 1, saved("shark"))
        runs.save([runs.path("more", pets.replace("\n", end) + end * 3)], "no ..X.", 1, saved(""))
    runs.save([PETS], "no ???. unsure\n", 1, saved("unsure", marks=["???."]), err="")
    # Marks that the rules imply may stay unknown, and are saved as they were given.
    fewer, unknown = replies, {".XXX": ".XX?", "X.XX": "X.X?", "XX.X": "XX.?"}
    for marks, left in unknown.items():
        fewer = fewer.replace(f"no {marks}\n", f"no {left}\n")
    runs.save([PETS], fewer, 0, saved(*[""] * 6, marks=[unknown.get(marks, marks) for marks in filed]), out=wanted)
    runs.save([runs.path("none", table([], ["p", "q"], []))], "", 1, table([], ["p", "q"], [], title=""))
    runs.save([runs.path("none", table([], ["p", "q"], []))], "no .?\n", 1, table(["row 1"], ["p", "q"], [".?"], title=""))
    long = "A name has at most 80 bytes.\n"
    runs.save([PETS], "no ..X. " + "n" * 81 + "\nno ..X. " + "\u00e9" * 41 + "\n", 1, saved(), err=long * 2)
    runs.save([PETS], "no ..X. a\rb\nno ..X.shark\n", 1, saved(), err=HINT * 2)

    # A log keeps the names; one without names is taken as before.
    lines = named(mixed).splitlines(keepends=True)
    log = os.path.join(runs.folder, "named-log")
    runs.save([PETS, "--log", log], "".join(lines[:4]), 1, saved(*mixed[:3]))
    runs.save([PETS, "--log", log], "".join(lines[4:]), 0, saved(*mixed), out=wanted)
    runs.save([PETS, "--log", log], "", 0, saved(*mixed), out=wanted, err="")
    with open(log) as text:
        text = text.read()
    assert "no ..X.\n" in text and "no X..X yes\n" in text
    log = os.path.join(runs.folder, "bytes-log")
    for given in [b"no ..X. \xe9\xff\n", b""]:
        runs.save([PETS, "--log", log], given, 1, saved("name").encode().replace(b"name", b"\xe9\xff"), err="")
    old = runs.path("old-log", "no ..X.\nstep\nno X..X\r\n")
    runs.save([PETS, "--log", old], "no ..XX seal\n", 1, saved("", "", "seal"), err="")
    for wrong in [f"no ..X. {'n' * 81}\n", "no ..X. a\rb\n", "yes please\n"]:
        wrong = runs.path("wrong-log", wrong)
        runs.run([PETS, "--log", wrong], "", 2, out="", err=f"{wrong}: is no log of this table\n")

    # A row that was given is spoken of by its name.
    none, rules = runs.path("none", table([], ["a", "b", "c", "d"], [])), runs.path("cases", "a, b, c -> d\n")
    for name, shown in [(" early", "early"), ("", "the 1. of your rows")]:
        why = f"It is row 1 ({shown}): it has a, so by the rules it would have d, which it lacks.\n"
        for call in ["no", "row"]:
            runs.run([none, "--background", rules], f"{call} X??.{name}\nyes\n", 1, part=refused(11) + why)

    # Over the table itself, and where nothing can be written.
    path = runs.path("own", pets)
    runs.run([path, "--save", path], "no ..X.\n", 1, err="")
    runs.holds(path, saved(""))
    for path in ["nowhere/saved", "/dev/full"]:
        runs.run([PETS, "--save", path], replies, 2, out=wanted, part=f"{path}: cannot be written\n")
    path = os.path.join(runs.folder, "refused")
    runs.run([runs.path("empty", ""), "--save", path], "", 1, part=refused(22))
    assert not os.path.exists(path)

    # The longest text, and one byte more: a row of 64 marks and a name of 79 bytes fit.
    marks = ["?" * 64] * 511
    letters = 65535 - 65 - 80 - len(table([""] * 511, [""] * 64, marks, title=""))
    each = ["n" * (letters // 575 + (i < letters % 575)) for i in range(575)]
    nearly = runs.path("long", table(each[:511], each[511:], marks, title=""))
    longest = table(each[:511] + ["r" * 79], each[511:], marks + ["." * 64], title="")
    assert len(longest) == 65535
    runs.save([nearly], f"no {'.' * 64} {'r' * 79}\n", 1, longest, err="")
    runs.run([nearly, "--save", path], f"no {'.' * 64} {'r' * 80}\n", 1, out="\n0 rules, 512 rows, not finished\n", err=refused(30))
    assert not os.path.exists(path)


def filings(runs):
    with open("tests/interview.replies") as replies, open("tests/interview.list") as wanted:
        replies, wanted = replies.read(), wanted.read()
    filed = ["..X.", "X..X", "..XX", ".XXX", "X.XX", "XX.X"]
    first = "Does every row have breathes air? "

    def saved(given):
        """The table with some rows more, given as marks and names."""
        rows, marks = ["cat", "parrot", "goldfish", *given.values()], ["X?.X", ".X.X", "..X?", *given]
        return table(rows, ["has fur", "flies", "swims", "breathes air"], marks, title="")

    # A row that refutes the question does what a no does, and a test before it does nothing.
    said = runs.run([PETS], replies, 0)
    rows, tests = replies, replies
    for marks in filed:
        rows = rows.replace(f"no {marks}\n", f"row {marks}\n")
        tests = tests.replace(f"no {marks}\n", f"test {marks}\nno {marks}\n")
    assert runs.run([PETS], rows, 0, out=wanted, err=HINT + refused(10)) == said
    loose = rows.replace("row ", " R\t").replace("\n", "\r\n")
    assert runs.run([PETS], loose, 0, out=wanted, err=HINT + refused(10)) == said
    plain, log = os.path.join(runs.folder, "untested-log"), os.path.join(runs.folder, "tested-log")
    runs.run([PETS, "--log", plain], replies, 0)
    tested = runs.run([PETS, "--log", log], tests.replace("test X", "T X"), 0, out=wanted, err=HINT + refused(10))
    questions = tested.split(REFUTES)
    assert len(questions) == 7 and tested.startswith(first + REFUTES + first)
    assert all(one.endswith(other.split("? ")[0] + "? ") for one, other in zip(questions, questions[1:]))
    with open(plain) as text:
        runs.holds(log, text.read())
    runs.run([PETS], "test X..X\ntest ..X?\n", 1, out=first * 3 + "\n0 rules, 3 rows, not finished\n", err=refused(10) * 2)
    runs.run([PETS], "test ..X. shark\ntest ..X\ntest\nrow\nrow ..X\nrows ..X.\n", 1, out="\n0 rules, 3 rows, not finished\n", err=HINT * 6)

    # Rows before the first reply, between the replies and when the interview is finished, with names and without.
    lines = replies.replace("maybe\n", "").replace("no .X.?\n", "").splitlines(keepends=True)
    early, late = "row X??X dog\nrow ????\n", "row ..?X frog\nROW XX?? a bat\n"
    given = {"X??X": "dog", "????": "row 5", "..X.": "row 6", "?.?.": "stone", "X..X": "row 8", "..XX": "row 9", ".XXX": "row 10", "X.XX": "row 11",
             "XX.X": "row 12", "..?X": "frog", "XX??": "a bat"}
    whole = early + lines[0] + "r ?.?.  stone \n" + "".join(lines[1:])
    ended = wanted.replace("9 rows", "14 rows")
    said = runs.save([PETS], whole + late, 0, saved(given), out=f"{ANOTHER * 3}\n{ended}", err="")
    assert said.startswith(first * 3)
    assert runs.save([PETS], whole + late + "\nrow XXXX unread\n", 0, saved(given), out=ended, err="") == said
    assert runs.save([PETS], whole + late + " \t\r\n", 0, saved(given), out=ended, err="") == said

    # The log has them in their order, and is taken up at every line.
    log = os.path.join(runs.folder, "filed-log")
    for line in (whole + late).splitlines(keepends=True):
        done = runs.run([PETS, "--log", log], line, int(line not in late and line != lines[-1]), err="")
    assert done.endswith(f"{ANOTHER * 2}\n{ended}")
    runs.save([PETS, "--log", log], "", 0, saved(given), out=f"{ANOTHER}\n{ended}", err="")
    with open(log) as text:
        text = text.read()
    assert text.startswith("row X??X dog\nrow ????\n") and "no ..X.\nstep\nrow ?.?. stone\n" in text
    assert text.endswith("step\nrow ..?X frog\nrow XX?? a bat\n")
    for wrong in ["row\n", "row ..X\n", "row ..X. a\rb\n", f"row ..X. {'n' * 81}\n", "test ..X.\n"]:
        wrong = runs.path("wrong-log", wrong)
        runs.run([PETS, "--log", wrong], "", 2, out="", err=f"{wrong}: is no log of this table\n")
    against = runs.path("against-log", "row X??.\n")
    runs.run([PETS, "--log", against, "--background", runs.path("furry", "has fur -> breathes air\n")], "", 2, out="",
             err=f"{against}: was written over another table or background\n")

    # What is refused, at a question and when the interview is finished.
    long = "A name has at most 80 bytes.\n"
    runs.save([PETS], f"row ..X. {'n' * 81}\nrow ..X. a\rb\nrow ..X. {'n' * 80}\n", 1, saved({"..X.": "n" * 80}), err=long + HINT)
    wrong = ["yes", "no ..X.", "test ..X.", "row ..X", "row", "?"]
    runs.save([PETS], replies + "\n".join(wrong) + f"\nrow ?X?. stone\nrow ..X. {'n' * 81}\n", 0,
              saved({marks: f"row {number}" for number, marks in enumerate(filed, 4)}), out=f"{ANOTHER * 9}\n{wanted}",
              err=HINT + refused(10) + LATE_HINT * 6 + refused(11) + long)
    unsure = [runs.path("unsure", table(["r"], ["a", "b", "c"], ["X?."])), "--background", runs.path("rules", "a -> b\n")]
    runs.run(unsure, "row X.?\n", 1, out="\n0 rules, 1 rows, not finished\n", err=refused(11))
    # A row that contradicts lacks everything: it refutes, and is not filed.
    runs.run(unsure, "test X.?\nno X.?\n", 1, out=f"{REFUTES}Does every row have a, b? Does every row have a, b? \n0 rules, 1 rows, not finished\n",
             err=refused(11))
    full = [runs.path("full", table([str(i) for i in range(512)], ["a", "b"], ["??"] * 512)), "--background", runs.path("cases", "a -> b\n")]
    runs.run(full, "row .?\nrow X.\ntest .?\n", 1, out=f"? {REFUTES}Does every row have a, b? \n0 rules, 512 rows, not finished\n",
             err=refused(12) + refused(11))
    full = runs.path("full", table([str(i) for i in range(512)], ["a"], ["."] * 512))
    assert runs.run([full], "row ?\n", 0, err=refused(12)) == f"{ANOTHER * 2}\n0 rules, 512 rows\n"

    # A row that takes the question away.
    one = runs.path("one", table(["r"], ["a"], ["?"]))
    assert runs.run([one], "row .\n", 0, err="") == f"Does every row have a? {ANOTHER}\n0 rules, 2 rows\n"


def fillings(runs):
    with open("tests/interview.replies") as replies, open("tests/interview.list") as wanted:
        replies, wanted = replies.read(), wanted.read()
    first, having = "Does every row have breathes air? ", ["has fur", "flies", "swims", "breathes air"]
    pets = {"cat": "X?.X", "parrot": ".X.X", "goldfish": "..X?"}
    filed = ["..X.", "X..X", "..XX", ".XXX", "X.XX", "XX.X"]

    def saved(rows):
        return table(list(rows), having, list(rows.values()), title="")

    # A mark of a row of the table answers the question as a row does.
    said = runs.run([PETS], replies, 0).replace("9 rows", "8 rows")
    marked = replies.replace("no ..X.\n", "mark goldfish breathes air no\n", 1)
    rows = {**pets, "goldfish": "..X.", **{f"row {number}": marks for number, marks in enumerate(filed[1:], 4)}}
    loose = marked.replace("mark goldfish breathes air no\n", " M\tgoldfish \t breathes air\t N \r\n")
    for given in [marked, loose]:
        assert runs.save([PETS], given, 0, saved(rows), err=HINT + refused(10)) == said
    one = runs.path("one", table(["r"], ["a"], ["?"]))
    assert runs.run([one], "mark r a no\n", 0, err="") == f"Does every row have a? {ANOTHER}\n0 rules, 1 rows\n"
    said = runs.run([one], "mark r a yes\nmark r a yes\nyes\nMARK r a Yes\n", 0, err="")
    assert said == "Does every row have a? " * 3 + f"{ANOTHER * 2}\n1 rules, 1 rows\nnothing -> a\n"

    # Marks before the first reply, between the replies and when the interview is finished, of rows of the table and of rows given, with
    # names and without; also such as the row has.
    lines = replies.replace("maybe\n", "").replace("no .X.?\n", "").splitlines(keepends=True)
    early = "mark cat has fur yes\nrow X??X dog\nmark dog swims no\nrow ????\nmark row 5 has fur no\n"
    late = "mark cat flies no\nmark dog flies yes\nmark goldfish breathes air yes\n"
    late += "mark row 5 flies yes\nmark row 3 breathes air yes\nmark row 5 breathes air y\n"
    rows = {**pets, "cat": "X..X", "goldfish": "..XX", "dog": "XX.X", "row 5": ".X?X"}
    rows |= {f"row {number}": marks for number, marks in enumerate(filed, 6)}
    whole = early + lines[0] + "mark row 6 has fur no\n" + "".join(lines[1:]) + late
    ended = wanted.replace("9 rows", "11 rows")
    said = runs.save([PETS], whole, 0, saved(rows), out=f"{ANOTHER * 7}\n{ended}", err="")
    assert said.startswith(first * 6 + "Does every row with")

    # The log has them in their order, and is taken up at every line.
    log, at_once = os.path.join(runs.folder, "filled-log"), os.path.join(runs.folder, "filled-at-once")
    runs.run([PETS, "--log", at_once], whole, 0, out=f"{ANOTHER * 7}\n{ended}", err="")
    ends = lines[-1:] + late.splitlines(keepends=True)
    for line in whole.splitlines(keepends=True):
        done = runs.run([PETS, "--log", log], line, int(line not in ends), err="")
    assert done.endswith(f"{ANOTHER * 2}\n{ended}")
    shown = nearly_shown(list(rows), having, list(rows.values()), 60)
    assert runs.run([PETS, "--log", log, "--nearly", "60"], "", 0, err="") == f"{shown}{ANOTHER}\n{ended}"
    runs.save([PETS, "--log", log], "", 0, saved(rows), out=f"{ANOTHER}\n{ended}", err="")
    with open(log) as text:
        text = text.read()
    runs.holds(at_once, text)
    assert text.startswith("mark X??? 1\nrow X??X dog\nmark ??.? 4\nrow ????\nmark .??? 5\nno ..X.\nstep\nmark .??? 6\n")
    assert text.endswith("step\nmark ?.?? 1\nmark ?X?? 4\nmark ???X 3\nmark ?X?? 5\nmark ???X 3\nmark ???X 5\n")
    several = runs.path("several-log", "row ????\nmark ..X. 3\r\nmark X.?? 04\n")
    runs.save([PETS, "--log", several], "", 1, saved({**pets, "goldfish": "..X.", "row 4": "X.??"}), err="")
    for wrong in ["", " ???.", " 3", " 3 ???.", " ???. cat", " ???. 3 4", " ???. -3", " ???. +3", " ??. 3"]:
        wrong = runs.path("wrong-log", f"mark{wrong}\n")
        runs.run([PETS, "--log", wrong], "", 2, out="", err=f"{wrong}: is no log of this table\n")
    others = ["mark .??? 1\n", "mark ???. 4\nrow ????\n", "row ???.\nmark X??? 4\n"]
    for other in others + [f"mark ???. {number}\n" for number in [0, 4, 2**63 + 1, 2**64, 2**64 + 3]]:
        other = runs.path("other-log", other)
        runs.run([PETS, "--log", other, "--background", runs.path("furry", "has fur -> breathes air\n")], "", 2, out="",
                 err=f"{other}: was written over another table or background\n")

    # What is refused, at a question and when the interview is finished.
    wrong = [
        ("cat has fur no", refused(33)), ("goldfish flies yes", refused(33)), ("row 3 swims no", refused(33)),
        ("Cat flies no", NO_ROW), ("dog flies no", NO_ROW), ("row 0 flies no", NO_ROW), ("row 99 flies no", NO_ROW), ("row flies no", NO_ROW),
        ("3 flies no", NO_ROW), ("row 01 flies no", NO_ROW), ("flies no", NO_ROW), ("breathes air no", NO_ROW),
        ("cat fly no", NO_PROPERTY), ("cat Flies no", NO_PROPERTY), ("catflies no", NO_PROPERTY), ("cat breathes  air no", NO_PROPERTY),
        ("cat no", NO_PROPERTY), ("cat flies no no", NO_PROPERTY),
        ("cat flies", None), ("cat flies maybe", None), ("cat flies .", None), ("no", None), ("", None),
    ]
    given = "".join(f"mark {text}\n" for text, _ in wrong) + "marks cat flies no\n"
    why = [said for _, said in wrong] + [None]
    runs.save([PETS], given, 1, saved(pets), out=first * (len(why) + 1) + "\n0 rules, 3 rows, not finished\n",
              err="".join(said or HINT for said in why))
    rows = {**pets, **{f"row {number}": marks for number, marks in enumerate(filed, 4)}}
    runs.save([PETS], replies + given, 0, saved(rows), out=f"{ANOTHER * (len(why) + 1)}\n{wanted}",
              err=HINT + refused(10) + "".join(said or LATE_HINT for said in why))
    # By the rules agreed to a stone that does not breathe has no fur and does not fly.
    stone = "row ???. stone\nmark stone flies yes\nmark stone has fur yes\nmark stone flies no\nmark stone swims yes\n"
    runs.save([PETS], replies + stone, 0, saved({**rows, "stone": "?.X."}), out=f"{ANOTHER * 6}\n{wanted.replace('9 rows', '10 rows')}",
              err=HINT + refused(10) + refused(11) * 2)
    unsure = [runs.path("unsure", table(["r"], ["a", "b", "c"], ["X?."])), "--background", runs.path("rules", "a -> b\n")]
    runs.save(unsure[:1], "mark r b no\n", 1, table(["r"], ["a", "b", "c"], ["X.."], title=""), err="")
    asked = "Does every row have a, b? " * 4
    said = runs.run(unsure, "mark r b no\nmark r b yes\nmark r c yes\n", 1, err=refused(11) + refused(33))
    assert said == asked + "\n0 rules, 1 rows, not finished\n"
    # Of a row that contradicts with a yes, what it lacks is filled in.
    both = [runs.path("both", table(["r"], ["a", "b", "c", "d"], ["X??."])), "--background", runs.path("three", "a, b, c -> d\n")]
    why = "It is row 1 (r): it has a, so by the rules it would have d, which it lacks.\n"
    why += "It lacks at least one of b, c. If it is right, answer with a dot for each that it lacks: no X??.\n"
    asked = "Does every row have a, b, c? " * 2 + "Does every row have a, c? "
    assert runs.run(both, "yes\nmark r b no\n", 1, err=refused(11) + why) == asked + "\n0 rules, 1 rows, not finished\n"
    full = runs.path("full", table([str(i) for i in range(512)], ["a"], ["?"] * 512))
    said = runs.run([full], "mark 511 a yes\nmark row 512 a no\nmark row 513 a no\nmark 0 a no\n", 0, err=refused(33) + NO_ROW)
    assert said == "Does every row have a? " * 4 + f"{ANOTHER}\n0 rules, 512 rows\n"

    # Names with spaces, names that several rows have or that look like a number, a row by its number where the name does not tell.
    def fills(rows, properties, before, after, given, said=""):
        path = runs.path("names", table(rows, properties, before))
        runs.save([path], given, 1, table(rows, properties, after, title=""), err=said)

    fills(["the cat", "the"], ["cat flies", "flies", "x"], ["???", "???"], ["?.?", "X??"],
          "mark the cat flies no\nmark row 1 flies no\nmark row 2 cat flies yes\n", SEVERAL)
    fills(["cat", "cat", "x"], ["a", "b"], ["??", "??", "??"], ["??", "X?", "??"], "mark cat a yes\nmark row 2 a yes\n", SEVERAL)
    fills(["row 2", "x"], ["a", "b"], ["??", "??"], ["X?", ".?"], "mark row 2 a yes\nmark row 1 a yes\nmark x a no\n", SEVERAL)
    fills(["r", "s"], ["a", "a", "b"], ["???", "???"], ["???", "???"], "mark r a yes\nmark row 2 a no\n", SEVERAL * 2)
    fills(["s, t", "mark", "r: x", "a -> b"], ["a, b", "->", "b"], ["???"] * 4, ["X??", "?.?", ".??", "?X?"],
          "mark s, t a, b yes\nmark mark -> no\nmark r: x a, b no\nmark a -> b -> yes\n")
    fills(["yes", "no"], ["yes", "no", "maybe"], ["???", "???"], [".??", "?X?"], "mark yes yes no\nmark no no yes\n")
    long = ["\u00e9" * 40, "n" * 80, "p" * 80]
    fills(long[:2], [long[2], "\u00e8"], ["??", "??"], ["X?", "??"], f"mark {long[0]} {long[2]} yes\nmark {long[1][1:]} {long[2]} no\n", NO_ROW)
    bytes_in = [text.encode().replace(b"name", b"\xe9\xff").replace(b"given", b"\xfe") for text in [
        table(["name", "r"], ["a", "b"], ["??", "??"]), "mark name a yes\nrow ?? given\nmark given a no\nmark name given a no\n",
        table(["name", "r", "given"], ["a", "b"], ["X?", "??", ".?"], title="")]]
    runs.save([runs.path("bytes", bytes_in[0])], bytes_in[1], 1, bytes_in[2], err=NO_ROW)

    # Random marks: those that are unknown or the same are taken, with no rules in force. The last property keeps the question.
    source = random.Random(7)
    for _ in range(12):
        count, n, given, said = source.randrange(1, 9), source.randrange(2, 7), "", ""
        rows, properties = [f"the row {i}" for i in range(count)], [f"property {i}" for i in range(n)]
        before = ["".join(source.choice("X.????") for _ in range(n - 1)) + "?" for _ in rows]
        after = [list(marks) for marks in before]
        for _ in range(30):
            row, number, mark = source.randrange(count), source.randrange(n - 1), source.choice("X.")
            called = source.choice([rows[row], f"row {row + 1}"])
            given += f"mark {called} {properties[number]} {'yes' if mark == 'X' else 'no'}\n"
            if after[row][number] in ["?", mark]:
                after[row][number] = mark
            else:
                said += refused(33)
        fills(rows, properties, before, ["".join(marks) for marks in after], given, said)


FOLLOWS, OPEN, REFUTED = "It follows from the rules.\n", "It is open.\n", "It is refuted by row "


def known(said):
    """What was said of rules, one after the other."""
    lines = [line[max(line.rfind("It follows"), line.rfind("It is ")):] + "\n" for line in said.splitlines() if "? It " in line or ": It " in line]
    assert all(line in [FOLLOWS, OPEN] or line.startswith(REFUTED) for line in lines)
    return lines


def stays(before, now):
    """Whether what was said of a rule stays: that it follows, or that a row refutes it, with this row or an earlier one."""
    numbers = [int(said[len(REFUTED):].split(" ")[0]) for said in [before, now] if said.startswith(REFUTED)]
    return before == OPEN or before == now == FOLLOWS or (len(numbers) == 2 and numbers[1] <= numbers[0])


def results(runs):
    """The rules so far, and what is known of a rule so far, at a question and when the interview is finished."""
    with open("tests/interview.replies") as replies, open("tests/interview.list") as wanted:
        replies, wanted = replies.read(), wanted.read()
    lines = replies.replace("maybe\n", "").replace("no .X.?\n", "").splitlines(keepends=True)
    said = runs.run([PETS], "".join(lines), 0, out=wanted, err="")
    rules, first, ended = wanted.splitlines()[1:], "Does every row have breathes air? ", "\n0 rules, 3 rows, not finished\n"

    # The list before every reply is the rules that were agreed to until then, and nothing of it comes into the log.
    plain, log = os.path.join(runs.folder, "unshown-log"), os.path.join(runs.folder, "shown-log")
    runs.run([PETS, "--log", plain], "".join(lines), 0)
    shown = runs.run([PETS, "--log", log], "".join("list\n" + line for line in lines) + " L \n", 0, out=wanted, err="")
    with open(plain) as text:
        runs.holds(log, text.read())
    count, rows = 0, 3
    for line in lines:
        listed = f"{count} rules, {rows} rows, not finished\n" + "".join(rule + "\n" for rule in rules[:count])
        asked, after = shown.split(listed, 1)
        shown = asked[:asked.rindex("Does every row")] + after
        count, rows = count + line.startswith("yes"), rows + line.startswith("no")
    assert shown == said.replace(ANOTHER, ANOTHER + wanted + ANOTHER) and count == len(rules)

    # What is said of rules before each reply stays, and in the end nothing is open.
    having = ["has fur", "flies", "swims", "breathes air"]
    sets = having + [f"{a}, {b}" for a in having for b in having if a < b] + ["nothing"]
    asked = "".join(f"holds {premise} -> {conclusion}\n" for premise in sets for conclusion in sets)
    before = [OPEN] * len(sets) ** 2
    for taken in range(len(lines) + 1):
        now = known(runs.run([PETS], "".join(lines[:taken]) + asked, int(taken < len(lines)), err=""))
        assert len(now) == len(before) and all(map(stays, before, now)), (taken, before, now)
        before = now
    assert OPEN not in before and FOLLOWS in before and any(line.startswith(REFUTED) for line in before)

    # Letters, names of rows, and what is no rule.
    runs.run([PETS], "HOLDS  nothing ->  breathes air \r\nh flies -> has fur\nh swims, flies -> swims\n", 1, err="",
             out=f"{first}{OPEN}{first}{REFUTED}2 (parrot).\n{first}{FOLLOWS}{first}{ended}")
    given = known(runs.run([PETS], "row X..X dog\nrow ..X.\nh has fur -> swims\nh has fur -> flies\nh swims -> breathes air\n", 1, err=""))
    assert given == [f"{REFUTED}1 (cat).\n", f"{REFUTED}4 (dog).\n", f"{REFUTED}5 (the 2. of your rows).\n"]
    # With the mark that becomes known an earlier row refutes it, and that is named.
    given = known(runs.run([PETS], "row X..X dog\nholds has fur -> flies\nmark cat flies no\nholds has fur -> flies\n", 1, err=""))
    assert given == [f"{REFUTED}4 (dog).\n", f"{REFUTED}1 (cat).\n"]
    for wrong in ["holds", "holds flies", "holds flies -> ", "holds -> flies", "holds flies -> walks", "hold flies -> swims", "list all", "lists"]:
        runs.run([PETS], wrong + "\n", 1, out=first * 2 + ended, err=HINT)
        runs.run([PETS], replies + wrong + "\n", 0, out=f"{ANOTHER * 2}\n{wanted}", err=HINT + refused(10) + LATE_HINT)
    # What the background says follows from the start.
    furry = runs.path("furry", "has fur -> breathes air\n")
    assert known(runs.run([PETS, "--background", furry], "holds has fur -> breathes air\n", 1, err="")) == [FOLLOWS]


def table_parts(text):
    """The names of the rows and of the properties, and the lines of marks."""
    lines = text.splitlines()
    rows, properties = int(lines[2]), int(lines[3])
    lines = lines[5:]
    return lines[:rows], lines[rows:rows + properties], lines[rows + properties:]


def nearly_shown(rows, properties, marks, percent):
    """What is shown with --nearly, from the names and the lines of marks."""
    lines = []
    for premise, first in enumerate(properties):
        having = [(name, line.upper()) for name, line in zip(rows, marks) if line[premise] in "Xx"]
        for other, second in enumerate(properties):
            yes = [name for name, line in having if line[other] == "X"]
            if other == premise or 100 * len(yes) <= percent * len(having):
                continue
            in_way = []
            for words, mark in [("but not: ", "."), ("not known for: ", "?")]:
                names = [name for name, line in having if line[other] == mark]
                in_way += [words + ", ".join(names)] if names else []
            lines.append(f"{first} -> {second}, {'; '.join(in_way) or 'always so far'}\n")
    return f"Nearly always (more than {percent} per cent):" + ("\n" + "".join(lines) if lines else " nothing so far\n") + "\n"


def listings(runs):
    def lists(path, text, percents, replies=""):
        """Runs with and without the list over a table file: the list comes first, and the rest is the same."""
        rest = runs.run([path], replies, 1, err="")
        for percent in percents:
            shown = nearly_shown(*table_parts(text), percent)
            assert runs.run([path, "--nearly", str(percent)], replies, 1, err="") == shown + rest, (path, percent, shown)

    # The tables of the examples, and two lines worked out by hand.
    for name in ["pets", "quadrilaterals", "raw_recordings", "recordings", "triangles"]:
        with open(f"examples/tables/{name}") as text:
            lists(f"examples/tables/{name}", text.read(), [0, 50, 60, 99])
    said = runs.run(["--nearly", "80", "examples/tables/recordings"], "", 1)
    assert said.startswith("Nearly always (more than 80 per cent):\nraw -> log, but not: stairs\nlog -> raw, always so far\n")
    said = runs.run(["--nearly", "20", "examples/tables/recordings"], "", 1)
    assert "\nraw -> handheld, but not: harbour at dawn, harbour from above, street at night, bridge; not known for: roof\n" in said

    # No rows, one property, marks that are all unknown, ends of lines, small x; exactly the percentage is not more than it.
    hundred = [str(i) for i in range(100)]
    texts = [
        table([], ["a", "b"], []), table(["r"], ["a"], ["X"]), table(["r", "s"], ["a", "b"], ["??", "??"]),
        table(["r", "s"], ["a", "b"], ["XX", "X."]), table(["r", "s"], ["a", "b"], ["xX", "x?"]),
        table(["r", "s, t", "u"], ["a", "b", "a, b"], ["xx?", "X?.", "x.x"]), table(["\u00e9" * 40], ["n" * 80, "->"], ["XX"]),
        table(hundred, ["a", "b"], ["XX"] * 99 + ["X?"]), table([*hundred, "last"], ["a", "b"], ["XX"] * 100 + ["X."]),
        table(["all", "all but the last"], [f"p{i}" for i in range(64)], ["X" * 64, "X" * 63 + "."]),
    ]
    for text in texts:
        for end in ["\n", "\r\n", "\r"]:
            lists(runs.path("listed", text.replace("\n", end)), text, [0, 50, 98, 99] if end == "\n" else [49])
    source = random.Random(2)
    for marks in ["X.", "X?", "X.?", "XX.?"] * 5:
        count, n = source.randrange(1, 12), source.randrange(4, 9)
        lines = ["".join(source.choice(marks) for _ in range(n)) for _ in range(count)]
        text = table([f"row {i}" for i in range(count)], [f"property {i}" for i in range(n)], lines)
        lists(runs.path("listed", text), text, source.sample(range(100), 3))

    # What is no number, and what is none of the percentages.
    usage = runs.run(["--help"], "", 0, err="")
    assert "[--nearly PERCENT]" in usage
    runs.run(["--nearly", PETS], "", 2, out="", err=usage)
    runs.run([PETS, "--nearly"], "", 2, out="", err=usage)
    for percent in ["", "many", "-1", "+1", "5.5", "50%", " 5", "5 ", "0x10"]:
        runs.run([PETS, "--nearly", percent], "", 2, out="", err=usage)
    for percent in [100, 101, 2**32 + 50, 2**64 - 1, 2**64 + 50, 10**40]:
        runs.run([PETS, "--nearly", str(percent)], "yes\n", 1, out="", err=refused(31))
    said = runs.run([PETS, "--nearly", "50"], "", 1)
    for arguments in [["--nearly", "050", PETS], ["--nearly", "99", PETS, "--nearly", "50"]]:
        assert runs.run(arguments, "", 1) == said

    # With the rows of a log; log, table and questions are as without the list.
    with open("tests/interview.replies") as replies, open("tests/interview.list") as wanted, open(PETS) as pets:
        replies, wanted, pets = replies.read().splitlines(keepends=True), wanted.read(), pets.read()
    replies[0] = "no ..X. shark\n"
    rows, properties, marks = table_parts(pets)
    plain, log, saved = [os.path.join(runs.folder, name) for name in ["plain-log", "nearly-log", "nearly-saved"]]
    for first, last, status, names, filed in [
        (0, 4, 1, [], []),
        (4, 6, 1, ["shark", "row 5", "row 6"], ["..X.", "X..X", "..XX"]),
        (6, len(replies), 0, ["shark", "row 5", "row 6"], ["..X.", "X..X", "..XX"]),
        (0, 0, 0, ["shark", "row 5", "row 6", "row 7", "row 8", "row 9"], ["..X.", "X..X", "..XX", ".XXX", "X.XX", "XX.X"]),
    ]:
        given, percent = "".join(replies[first:last]), 10 + 5 * last
        rest = runs.run([PETS, "--log", plain, "--save", saved], given, status)
        with open(saved) as text:
            text = text.read()
        os.remove(saved)
        said = runs.run([PETS, "--nearly", str(percent), "--log", log, "--save", saved], given, status)
        assert said == nearly_shown(rows + names, properties, marks + filed, percent) + rest
        runs.holds(saved, text)
        os.remove(saved)
        with open(plain) as text:
            runs.holds(log, text.read())
    assert rest.endswith(wanted)
    with open(plain) as text:
        runs.run([PETS, "--log", log, "--save", saved, "--nearly", "100"], "", 1, out="", err=refused(31))
        runs.holds(log, text.read())
    assert not os.path.exists(saved)

    # What is refused at the opening is refused first.
    unsure, against = runs.path("unsure", table(["r"], ["a", "b", "c"], ["X?."])), runs.path("against", "a -> c\n")
    for percent in ["50", "100"]:
        runs.run([unsure, "--background", against, "--nearly", percent], "", 1, out="", part=refused(6))
        runs.run([unsure, "--log", log, "--nearly", percent], "", 2, out="", err=f"{log}: is no log of this table\n")


def main():
    shown = []
    for program in sys.argv[1:]:
        with tempfile.TemporaryDirectory() as folder:
            runs = Runs(os.path.abspath(program), folder)
            for part in [uses, files, interviews, refusals, saves, filings, fillings, results, listings]:
                part(runs)
            shown.append(runs.shown)
            print(f"{program}: {len(runs.shown)} runs say what they have to")
    for program, others in zip(sys.argv[2:], shown[1:]):
        for one, other in zip(shown[0], others, strict=True):
            if one != other:
                sys.exit(f"{sys.argv[1]}: {one}\n{program}: {other}")


main()
