#!/usr/bin/env python3
"""Spells the repository's own names as docs/PORT.md says: definitions, fields and lemmas that were in camel case are in snake case, and a
definition or a field has no dash.

usage: spell_names.py [--check] FOLDER

FOLDER is the repository, right after the kit's port.py has turned it. Rewrites specs/, proofs/, the clauses of src/, the must-fail edits, and
what README.md and docs/ have between backquotes. Names of functions of src/, of modules and types, and of goals stay. With --check it writes
nothing. It prints names that fall together, and exits with 1 if there are any.
"""

import collections
import glob
import os
import re
import sys

NAME = r"[^\s(){}.;,@\"«»\[\]\\`]+"
HEAD = re.compile(r"(\s*)((?:abbrev |unfoldable |pub |opaque )*)(" + NAME + r") :(?= |$)")
RECORD = re.compile(r"(\s*)(?:pub )?record ")
# Names that would fall together with another one.
APART = {
    "in-turn": "as_in_turn",
    "noPlace": "no_place_refusal",
    "rowWords": "words_of_rows",
    "sameLayout": "equal_layouts",
    "toEnd": "kinds_to_end",
    "list-after": "list_later",
    "mark-lines": "lines_of_marks",
    "most-attributes": "attributes_at_most",
    "opened-complete": "complete_opened",
    "opening-state": "state_opened",
    "rows-after": "rows_later",
    "with-attribute": "one_attribute",
}
OF_RATTLE = re.compile(r"(invariant|decreases|measure|iterator)-|μ")


def snake(name):
    name = re.sub(r"(?<=[a-z0-9])([A-Z])", lambda m: "_" + m.group(1).lower(), name)
    return name


def declared(files):
    """The names of each kind: definitions, fields, other names."""
    definitions, fields, others = set(), set(), set()
    for path in files:
        inside = None
        for line in open(path, encoding="utf-8"):
            record = RECORD.match(line)
            if record:
                inside = len(record.group(1))
                continue
            indent = len(line) - len(line.lstrip())
            if inside is not None and line.strip() and indent <= inside and line.strip()[0] not in "(-":
                inside = None
            head = HEAD.match(line)
            if not head:
                continue
            words, name = head.group(2), head.group(3)
            if "abbrev" in words or "unfoldable" in words:
                definitions.add(name)
            elif inside is not None:
                fields.add(name)
            else:
                others.add(name)
    return definitions, fields, others


def renamings(definitions, fields, others):
    to = {}
    for name in sorted(definitions | fields | others):
        if OF_RATTLE.match(name) or not re.match(r"[a-z]", name):
            continue
        new = APART.get(name, name)
        if re.search(r"[a-z0-9][A-Z]", new):
            new = snake(new)
        if name in definitions or name in fields:
            new = re.sub(r"-(?=[A-Za-z0-9])", "_", new)
        if new != name:
            to[name] = new
    return to


def turned(text, to, words):
    return words.sub(lambda m: to.get(m.group(0), m.group(0)), text)


def between_backquotes(text, to, words):
    return re.sub(r"`[^`\n]+`", lambda m: turned(m.group(0), to, words), text)


def main(argv):
    check = "--check" in argv
    root = [a for a in argv if a != "--check"][0]
    crates = os.path.join(root, "crates")
    files = sorted(p for p in glob.glob(crates + "/**/*.antt", recursive=True) if "/out/" not in p)
    definitions, fields, others = declared(files)
    to = renamings(definitions, fields, others)
    known = definitions | fields | others
    together = collections.defaultdict(set)
    for old, new in to.items():
        together[new].add(old)
        if new in known:
            together[new].add(new)
    bad = {new: olds for new, olds in together.items() if len(olds) > 1}
    for new, olds in sorted(bad.items()):
        print(f"fall together: {new}: {' '.join(sorted(olds))}")
    words = re.compile(NAME)
    camel = {k: v for k, v in to.items() if re.search(r"[a-z0-9][A-Z]", k)}
    changed = 0

    def write(path, old, new):
        nonlocal changed
        if old == new:
            return
        changed += 1
        if not check:
            with open(path, "w", encoding="utf-8", newline="") as f:
                f.write(new)

    for path in files:
        old = open(path, encoding="utf-8", newline="").read()
        lines = []
        for line in old.split("\n"):
            code, mark, note = line.partition("-- ") if not line.startswith("--") else ("", "", line)
            lines.append(turned(code, to, words) + mark + between_backquotes(turned(note, camel, words), to, words))
        write(path, old, "\n".join(lines))
    for path in sorted(glob.glob(crates + "/*/src/**/*.rt", recursive=True)):
        old = open(path, encoding="utf-8", newline="").read()
        lines, clause = [], 0
        for line in old.split("\n"):
            opens = re.match(r"\s*(ghost use|ghost |requires|ensures)", line)
            if opens or clause > 0:
                clause = max(clause, 0) + line.count("{") - line.count("}")
                lines.append(turned(line, to, words))
            else:
                lines.append(turned(line, camel, words) if line.lstrip().startswith("//") else line)
        write(path, old, "\n".join(lines))
    for path in sorted(glob.glob(crates + "/*/must-fail/*.edit")):
        old = open(path, encoding="utf-8", newline="").read()
        write(path, old, turned(old, to if "specs/" in old else camel, words))
    for path in [os.path.join(root, "README.md"), *sorted(glob.glob(root + "/docs/**/*.md", recursive=True))]:
        if os.path.basename(path) == "PORT.md":
            continue
        old = open(path, encoding="utf-8", newline="").read()
        write(path, old, between_backquotes(old, to, words))
    print(f"{len(to)} names, {changed} files")
    return 1 if bad else 0


if __name__ == "__main__":
    raise SystemExit(main(sys.argv[1:]))
