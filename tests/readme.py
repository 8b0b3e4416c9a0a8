"""Holds the README's first screen to what the programs do: the table file, the program's output, the interviews, what nearly holds, the refusals in words.

    python3 tests/readme.py EXPLORE INTERVIEW NEARLY
"""
import re
import subprocess
import sys


def blocks(text):
    """The indented blocks of the README, without their indent."""
    found = re.findall(r"(?:^    .*\n|^\n(?=    ))+", text, flags=re.M)
    return [re.sub(r"^    ", "", block, flags=re.M).strip("\n") + "\n" for block in found]


def run(program, arguments, given):
    return subprocess.run([program, *arguments], input=given, capture_output=True, check=True).stdout


def named_before(text, line):
    """The table named last before a line."""
    return re.findall(r"examples/tables/\w+", text[:text.index(line)])[-1]


def parted(line):
    """What is asked in a line, with the space behind it, and the reply; the line alone where nothing is asked."""
    asked = re.match(r"(Does .*?\?|Finished\..*?:)(?: (.*))?$", line)
    return (asked[1] + " ", asked[2] or "") if asked else (line, None)


def holds(interview, table, said):
    """Whether an interview over a table with the replies shown says what is shown."""
    lines = [parted(line) for line in said]
    replies = "".join(reply + "\n" for _, reply in lines if reply is not None)
    held = run(interview, [table], replies.encode()).decode()
    return held.replace("\n", "") == "".join(asked for asked, _ in lines)


def main():
    explore, interview, nearly = sys.argv[1:]
    with open("README.md") as readme:
        text = readme.read()
    shown = blocks(text)
    with open("examples/tables/quadrilaterals", "rb") as table:
        table = table.read()
    written = run(explore, [], table).decode()
    dialogues = [block.splitlines() for block in shown if block.startswith("Does every row")]
    held = all(holds(interview, named_before(text, lines[0]), lines) for lines in dialogues)
    recordings = "examples/tables/recordings"
    with open(recordings, "rb") as given:
        listed = run(nearly, [], given.read()).decode()
    # The interview ends where its replies do, with another status than 0.
    shown_first = subprocess.run([interview, "--nearly", "80", recordings], input=b"", capture_output=True).stdout.decode().split("\n\n")[0] + "\n"
    with open("crates/refusal_words/src/lib.rt") as source:
        source = source.read()
    sentences = source[source.index('b"') + 2:source.rindex('"')].split("\n")
    rows = "".join(f"| {number} | {sentence} |\n" for number, sentence in enumerate(sentences) if sentence)
    wrong = [
        name
        for name, fine in [
            ("the table file", table.decode() in shown),
            ("its output", written in shown),
            ("the interviews", dialogues and held),
            ("what nearly always comes", listed in shown),
            ("what the interview shows first", shown_first in shown),
            ("the refusals in words", rows in text),
        ]
        if not fine
    ]
    if wrong:
        sys.exit(f"the README shows something else: {', '.join(wrong)}")
    print("the README shows what the programs do")


main()
