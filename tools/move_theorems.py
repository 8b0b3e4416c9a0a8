#!/usr/bin/env python3
"""Moves the files of specs/ that only prove to proofs/, where a wrong definition is refused by them.

usage: move_theorems.py FOLDER

A file stays where it declares a definition or a record for others, where a contract cites it, or where a file that stays cites it. The others
go from crates/C/specs/M.antt to crates/C/proofs/M.antt, and every `use` line, README.md and docs/ follow. It prints what it moved.
"""

import glob
import os
import re
import sys

DEFINES = re.compile(r"(?m)^\s*(?:abbrev pub|pub abbrev|unfoldable pub|pub unfoldable|pub record|pub data|pub use|pub ruleset)\b")
# Files of these names prove, whatever they define on the way.
PROVES = ("Laws", "Cases", "Theorem", "Proof", "Rank", "Refused", "Kept", "Passed", "Walks", "Beats", "Conclusion", "Ends")
ALSO = ("attribute_set Words", "call_logs Replay.Loop", "mark_reading Marks.Loop", "written_tables Settled.Reading", "table_walk Walk.Lines", "demands Demand3.Invariant")
APART = ("walks", "walks_for_c")


def read(path):
    with open(path, encoding="utf-8", newline="") as f:
        return f.read()


def write(path, text):
    os.makedirs(os.path.dirname(path), exist_ok=True)
    with open(path, "w", encoding="utf-8", newline="") as f:
        f.write(text)


def main(argv):
    root = argv[0]
    moved = {}
    clauses = "\n".join(re.sub(r"(Rattle\.\w+\.specs\.[\w.]+?)\.\{", r"\1.", read(p)) for p in glob.glob(root + "/crates/*/src/**/*.rt", recursive=True))
    for crate in sorted(os.listdir(root + "/crates")):
        base = f"{root}/crates/{crate}"
        if crate in APART or not os.path.isdir(base + "/specs"):
            continue
        files = {}
        for p in glob.glob(base + "/specs/**/*.antt", recursive=True):
            name = os.path.relpath(p, base + "/specs")[:-5].replace("/", ".")
            if name != "Lib":
                files[name] = p
        texts = {n: read(p) for n, p in files.items()}
        cites = {n: set(re.findall(r"(?m)^(?:pub )?use Rattle\." + crate + r"\.specs\.([\w.]+?)(?:\.\{| as |$)", t)) for n, t in texts.items()}
        stay = {n for n, t in texts.items() if DEFINES.search(t) and n.rpartition(".")[2] not in PROVES and f"{crate} {n}" not in ALSO}
        for p in glob.glob(base + "/src/**/*.rt", recursive=True):
            stay |= set(re.findall(r"Rattle\." + crate + r"\.specs\.([\w.]+?)\.\{", read(p))) & set(files)
        stay |= {n for n in files if f"Rattle.{crate}.specs.{n}." in clauses}
        todo = list(stay)
        while todo:
            n = todo.pop()
            for m in cites[n] & set(files):
                if m not in stay:
                    print(f"stays, as {crate} {n} cites it: {m}")
                    stay.add(m)
                    todo.append(m)
            parent = n.rpartition(".")[0]
            if parent and parent not in stay:
                stay.add(parent)
                todo.append(parent)
        for n in sorted(set(files) - stay):
            moved[f"Rattle.{crate}.specs.{n}"] = f"Rattle.{crate}.proofs.{n}"
            write(f"{base}/proofs/{n.replace('.', '/')}.antt", texts[n])
            os.remove(files[n])
        nodes = {}
        for n in sorted(set(files) - stay):
            parent, _, last = n.rpartition(".")
            nodes.setdefault(parent, []).append(last)
            # the file above no longer declares it
            above = f"{base}/specs/{parent.replace('.', '/')}.antt" if parent else f"{base}/specs/Lib.antt"
            if os.path.exists(above):
                write(above, re.sub(r"(?m)^(?:pub )?mod " + last + r"\n", "", read(above)))
            while parent:
                up, _, name = parent.rpartition(".")
                if name not in nodes.setdefault(up, []):
                    nodes[up].append(name)
                parent = up
        for parent, lasts in nodes.items():
            node = f"{base}/proofs/{parent.replace('.', '/')}.antt" if parent else f"{base}/proofs/Lib.antt"
            old = read(node) if os.path.exists(node) else ""
            lines = [f"pub mod {x}" for x in sorted(lasts) if not re.search(r"(?m)^(?:pub )?mod " + x + "$", old)]
            if lines:
                if old and parent:
                    # behind the head's comment and the use lines
                    at = max([m.end() for m in re.finditer(r"(?m)^(?:pub )?(?:use|mod) .*\n", old)] or [0])
                    write(node, old[:at] + "\n".join(lines) + "\n" + old[at:])
                else:
                    write(node, old + "\n".join(lines) + "\n")
        for folder, _, names in sorted(os.walk(base + "/specs"), reverse=True):
            if not os.listdir(folder):
                os.rmdir(folder)
    if not moved:
        return 0
    paths = re.compile("|".join(re.escape(m) + r"(?![\w]|\.[A-Z])" for m in sorted(moved, key=len, reverse=True)))
    for pattern in ("/crates/*/specs/**/*.antt", "/crates/*/proofs/**/*.antt", "/crates/*/src/**/*.rt"):
        for p in glob.glob(root + pattern, recursive=True):
            old = read(p)
            new = paths.sub(lambda m: moved[m.group(0)], old)
            if new != old:
                write(p, new)
    for p in [root + "/README.md", *glob.glob(root + "/docs/**/*.md", recursive=True)]:
        old = new = read(p)
        for m in moved:
            _, crate, _, n = m.split(".", 3)
            f = n.replace(".", "/")
            new = new.replace(f"crates/{crate}/specs/{f}.antt", f"crates/{crate}/proofs/{f}.antt")
        if new != old:
            write(p, new)
    for m in sorted(moved):
        print(m)
    print(f"{len(moved)} files moved")
    return 0


if __name__ == "__main__":
    raise SystemExit(main(sys.argv[1:]))
