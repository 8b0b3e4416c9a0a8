#!/usr/bin/env python3
"""Counts the places of src/ that docs/DESIGN-PASS.md speaks of, point by point: at a commit, or in the working tree.

    python3 tools/count_places.py [COMMIT] [--list]
"""
import collections
import re
import subprocess
import sys

commit = next((a for a in sys.argv[1:] if not a.startswith("--")), None)
listed = "--list" in sys.argv


def git(*words):
    return subprocess.run(["git", *words], capture_output=True, text=True, check=True).stdout


def paths(pattern):
    names = git("ls-tree", "-r", "--name-only", commit) if commit else git("ls-files", "-co", "--exclude-standard")
    return [p for p in names.splitlines() if re.search(pattern, p)]


def text(path):
    return git("show", f"{commit}:{path}") if commit else open(path, encoding="utf-8").read()


def functions(source):
    """Name, head and body of each function: its parameters, contract and result stand in the head."""
    source = re.sub(r"//[^\n]*", "", source)
    for found in re.finditer(r"\bfn (\w+)", source):
        at = source.find("\n{\n", found.end())
        brace = source.find("{", found.end())
        newline = source.find("\n", found.end())
        at = at + 1 if at >= 0 and not 0 <= brace < newline else brace
        depth, end = 0, at
        while end < len(source):
            depth += {"{": 1, "}": -1}.get(source[end], 0)
            end += 1
            if depth == 0:
                break
        yield found.group(1), source[found.start():at], source[at:end]


def shape(head, body):
    """The function with each name, number and text replaced by its place of first use."""
    seen = {}
    types = re.sub(r"\b(ensures|requires)\b.*", "", head, flags=re.S)
    for token in re.findall(r'b?"(?:[^"\\]|\\.)*"|b?\'.[^\']*\'|\w+|[^\s\w]', types + body):
        if token in ("fn", "if", "else", "while", "for", "in", "match", "return", "let", "mut", "loop", "usize", "u64", "u8", "bool"):
            yield token
        elif re.match(r'\w|b?["\']', token):
            yield seen.setdefault(token, f"#{len(seen)}")
        else:
            yield token


counts = collections.OrderedDict()


def place(point, where):
    counts.setdefault(point, []).append(where)


sources = {p: text(p) for p in paths(r"^crates/[^/]+/src/.*\.rt$")}
shapes = collections.defaultdict(list)
groups = {
    "session, rows, list, background": ("session", "rows", "list", "background"),
    "background, list, rules (or count)": ("background", "list", "rules"),
    "yes, no": ("yes", "no"),
    "premise, conclusion": ("premise", "conclusion"),
    "n, used, rows": ("n", "used", "rows"),
}
facts = collections.defaultdict(list)
for path, source in sources.items():
    crate = path.split("/")[1]
    for kind in re.findall(r"enum (\w+)[^{]*\{[^}]*\b(?:Refused|Failed)\(\s*(?:session::)?Refusal\s*\)", source):
        place("1 enums of the shape of Result", f"{crate}::{kind}")
    for kind, body in re.findall(r"enum (\w+)[^{]*\{([^}]*)\}", re.sub(r"//[^\n]*", "", source)):
        if len(re.findall(r"\w+(?:\([^)]*\))?,", body)) == 2 and "Refus" not in body:
            place("1 enums of two cases of the shape of Option", f"{crate}::{kind}")
    for kind, body in re.findall(r"pub struct (\w+)[^{]*\{([^}]*)\}", source):
        for flag in re.findall(r"pub (\w+): bool", body):
            place("1 flags with a value beside them", f"{crate}::{kind}.{flag}")
    for name in re.findall(r"pub const (\w+): u64 = \d+;", source):
        if name != "PERCENT":
            place("1 numbers for kinds: constants", f"{crate}::{name}")
    for name, head, body in functions(source):
        where = f"{crate}::{name}"
        result = re.search(r"\)\s*->\s*([^\n{]*)", head)
        if re.search(r"refused: &mut u64", head):
            place("1 refusal numbers put where the caller says", where)
        if result and result.group(1).strip() == "u64" and re.search(r"([a-z]{3}t_of|fault_of|mistake_of|refusal_of|fault|refuse_unless|looks_like)$", name) \
                and not re.search(r"\b(set|words|digit)", head):
            place("1 numbers for refusals or kinds: functions", where)
        if len(body.split()) > 8:
            shapes[tuple(shape(head, body))].append(where)
        for condition, inner in re.findall(r"while ([^{]*)\{(.*)", body, flags=re.S):
            step = re.search(r"^\s+(\w+) [+-]= 1;", inner, flags=re.M)
            if step and re.search(rf"\b{step.group(1)}\b", condition):
                place("3 loops that count an index", where)
                break
        if len(re.findall(r"\ba\.\w+ [!=]= b\.\w+", body)) > 1:
            place("4 equality written by hand", where)
        if re.match(r"answer_of|answer_as", name) or re.search(r"_of_refusal$", name):
            place("4 conversions written by hand", where)
        if re.search(r"^put(_refusal)?<W", head[3:]):
            place("4 printing written by hand", where)
        if re.search(r"\bmin\b|smaller", name):
            place("4 library methods written by hand", where)
        parameters = re.findall(r"(\w+): ", re.sub(r"\b(ensures|requires)\b.*", "", head, flags=re.S))
        for group, wanted in groups.items():
            for i in range(len(parameters)):
                if tuple(parameters[i:i + len(wanted)]) in (wanted, tuple("count" if w == "rules" else w for w in wanted)):
                    place(f"5 parameters that travel together: {group}", where)
                    break
        for fact in re.findall(r"\brequires(?: \w+)? \{ (.*) \}", head):
            facts[re.sub(r"\b\w+\.(now|old)\b", "words", fact)].append(where)
        if re.search(r"out: &mut \[u8\],\s+at: usize", head):
            place("6 a buffer with the offset of its end beside it", where)
        if re.search(r"\[u8; \w+\],\s+size: usize", head):
            place("6 a buffer with its length beside it", where)
        if re.search(r"rows: &(mut )?\[u64\],\s+(count|used): usize", head) or re.search(r"list: &\[u64\],\s+(count|rules): usize", head) \
                or re.search(r"used: usize,\s+rows: &", head):
            place("6 flat words with the number of those in use beside them", where)
        if re.search(r"match kind\b|if kind == ", body):
            place("7 switches on which step to run", where)
for alike in shapes.values():
    if len(alike) > 1:
        place("2 functions that differ only in a type, a size or a constant (groups)", " = ".join(alike))
for fact, where in facts.items():
    if len(where) > 2:
        place("5 facts that stand in three contracts or more", f"{fact}: {', '.join(where)}")
walked = paths(r"^crates/[^/]+/proofs/.*/Proof\.antt$")
counts["8 proofs that walk the code by hand (files)"] = walked
answers = paths(r"^crates/[^/]+/proofs/.*/(Answers|Invariants)\.antt$")
counts["8 answers and invariants (files)"] = answers
lines = sum(text(p).count("\n") for p in paths(r"^crates/[^/]+/proofs/.*\.antt$"))
for point in sorted(counts):
    print(f"{len(counts[point]):4}  {point}")
    if listed and not point.startswith("8"):
        for where in counts[point]:
            print(f"        {where}")
print(f"{lines:4}  8 lines of proofs/")
print(f"{sum(s.count(chr(10)) for s in sources.values()):4}  lines of src/")
