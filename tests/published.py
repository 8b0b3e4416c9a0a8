#!/usr/bin/env python3
"""Compares the lists in which the program ends with the published bases in tests/tables.py.

    tests/published.py PROGRAM

The attributes stand in the published order. The published rules are compared as sets of pairs of sets: our order of rules is the
interview's, and theirs is each author's own. A published conclusion leaves out its premise, as ours does.
"""
import subprocess
import sys

import tables


def rule(text):
    premise, conclusion = text.split("->")
    return frozenset(premise.split()), frozenset(conclusion.split())


def found(program, properties, rows):
    out = subprocess.run([program], input=tables.from_sets(properties, rows), capture_output=True, check=True).stdout.decode()
    named = lambda marks: frozenset(p for p, mark in zip(properties, marks) if mark == "X")
    rules = [tuple(named(marks) for marks in line.split()[1:]) for line in out.splitlines() if line.startswith("L ")]
    assert len(set(rules)) == len(rules), "a rule is listed twice"
    assert out.splitlines()[-1].startswith("END %d " % len(rules)), "the output does not end in END"
    return set(rules)


failed = 0
for name, (properties, rows, base) in tables.PUBLISHED.items():
    wanted = {rule(text) for text in base}
    got = found(sys.argv[1], properties, rows)
    print(name, "%d rules, as published" % len(wanted) if got == wanted else "DIFFERS: %s" % sorted(map(str, got ^ wanted)))
    failed += got != wanted
sys.exit(failed > 0)
