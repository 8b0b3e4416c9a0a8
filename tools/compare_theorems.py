#!/usr/bin/env python3
"""Compares what two trees state: every declaration of specs/ of the first, by its crate and name, with that of specs/ or proofs/ of the second.

usage: compare_theorems.py OLD NEW

OLD and NEW are folders that have crates/. A declaration is its signature; of a definition, also what it is. It prints what is not found
again, and each whose words differ, old and new.
"""

import glob
import os
import re
import sys

WORD = r"[^\s(){}.;,@\"«»\[\]\\]+"
HEAD = re.compile(r"^(\s*)((?:abbrev |unfoldable |pub |opaque )*)(" + WORD + r") :(?= |$)|^(\s*)(?:pub )?(?:record|data) (" + WORD + ")")


def declarations(path):
    """(name, kind, text) of each declaration of a file."""
    lines = open(path, encoding="utf-8").read().split("\n")
    found, i = [], 0
    while i < len(lines):
        m = HEAD.match(lines[i])
        if not m:
            i += 1
            continue
        indent = len(m.group(1) if m.group(3) else m.group(4))
        name = m.group(3) or m.group(5)
        words = m.group(2) or "record"
        defines = not m.group(3) or "abbrev" in words or "unfoldable" in words
        text = [lines[i]]
        j = i + 1
        while j < len(lines) and (lines[j].strip() == "" or len(lines[j]) - len(lines[j].lstrip()) > indent or (defines and m.group(3) and re.match(r"\s*" + re.escape(name) + r"(?![\w'-])", lines[j]))):
            if lines[j].strip() == "" and not m.group(5):
                if not (defines and j + 1 < len(lines) and re.match(r"\s*" + re.escape(name) + r"(?![\w'-])", lines[j + 1])):
                    break
            text.append(lines[j])
            j += 1
        if m.group(3) and not defines:
            # the signature alone
            text = [t for t in text if not re.match(r"\s*unfolding ", t)]
        found.append((name, words.strip(), " ".join(" ".join(t.split("-- ")[0] if not t.strip().startswith("--") else "" for t in text).split())))
        i = i + 1 if not m.group(5) else i + 1
    return found


def crate(root, name, folders):
    all_ = {}
    for f in folders:
        for p in sorted(glob.glob(f"{root}/crates/{name}/{f}/**/*.antt", recursive=True)):
            if re.search(r"/(Proof|Answers|Invariants)\.antt$", p) and f == "proofs" and re.match(r"[a-z+]", os.path.basename(os.path.dirname(p))):
                continue
            for n, k, t in declarations(p):
                all_.setdefault(n, []).append((k, re.sub(r"Rattle\.(\w+)\.proofs\.", r"Rattle.\1.specs.", t)))
    return all_


def main(argv):
    old, new = argv
    same = gone = changed = 0
    for name in sorted(os.listdir(old + "/crates")):
        if not os.path.isdir(f"{old}/crates/{name}/specs"):
            continue
        a, b = crate(old, name, ["specs"]), crate(new, name, ["specs", "proofs"])
        for n, entries in sorted(a.items()):
            here = [t for _, t in b.get(n, [])]
            for k, t in entries:
                if t in here:
                    same += 1
                elif not here:
                    gone += 1
                    print(f"gone: {name} {n}: {t[:200]}")
                else:
                    changed += 1
                    print(f"changed: {name} {n}\n    - {t}\n    + {here[0]}")
    print(f"{same} the same, {changed} changed, {gone} gone")
    return 0


if __name__ == "__main__":
    raise SystemExit(main(sys.argv[1:]))
