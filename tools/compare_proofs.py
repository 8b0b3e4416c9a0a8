#!/usr/bin/env python3
"""Lays the public statements of proofs/ at a commit beside those of the working tree: which are gone, and which say other words.

    python3 tools/compare_proofs.py COMMIT
"""
import re
import subprocess
import sys

commit = sys.argv[1]


def git(*words):
    return subprocess.run(["git", *words], capture_output=True, text=True, check=True).stdout


def statements(paths, text):
    """Each public statement by crate and name: its type in one line, and the file it stands in."""
    found = {}
    for path in paths:
        crate = path.split("/")[1]
        for block in re.finditer(r"^( *)(?:abbrev |unfoldable )?pub (?!use|mod|record)(\S+) :(.*(?:\n\1[ \t]+.*)*)", text(path), flags=re.M):
            name, statement = block.group(2), re.sub(r"\s+", " ", block.group(3)).strip()
            found.setdefault((crate, name), []).append((statement, path))
    return found


def proof_files(names):
    """Files of laws and theorems, without those that answer for one function."""
    return [n for n in names if re.search(r"^crates/[^/]+/proofs/.*\.antt$", n) and not re.search(r"/(Proof|Answers|Invariants)\.antt$", n)]


old = statements(proof_files(git("ls-tree", "-r", "--name-only", commit).splitlines()), lambda p: git("show", f"{commit}:{p}"))
new = statements(proof_files(git("ls-files").splitlines()), lambda p: open(p, encoding="utf-8").read())
same = changed = 0
for key in sorted(old):
    crate, name = key
    for statement, path in old[key]:
        now = [s for s, _ in new.get(key, [])]
        if statement in now:
            same += 1
        elif now:
            changed += 1
            print(f"- `{crate}` `{name}`\n  - old: `{statement}`\n  - new: `{now[0]}`")
        else:
            print(f"- `{crate}` `{name}` is gone (it stood in {'/'.join(path.split('/')[3:])}): `{statement}`")
print(f"\n{same} the same to the word, {changed} with other words, {sum(k not in old for k in new)} new names")
