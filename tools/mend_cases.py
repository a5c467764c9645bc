#!/usr/bin/env python3
"""Writes the clauses that today's antt asks for in lemmas by cases: those that rt check prints under "write the clause".

usage: rt check 2>&1 | tools/mend_cases.py      in a crate's folder
"""
import re
import sys

said = sys.stdin.read().split("\n")
todo = {}
i = 0
while i < len(said):
    m = re.match(r"\./(\S+\.antt):(\d+):\d+: error: `([^`]+)`: write the clauses?(?: `(.*)`)?", said[i])
    i += 1
    if not m:
        continue
    got = [m[4]] if m[4] else []
    while not m[4] and i < len(said) and said[i].startswith("  "):
        if re.match(rf"  (?:.*: )?{re.escape(m[3])}[ ]", said[i]) or re.match(r"  \S+ .* = ", said[i]):
            got.append(said[i].strip())
        i += 1
    todo.setdefault(m[1], []).append((int(m[2]), m[3], got))
for p, items in todo.items():
    with open(p, encoding="utf-8") as f:
        lines = f.read().split("\n")
    for at, name, got in sorted(items, reverse=True):
        # the last line of the last clause of the name from here on
        sig = lines[at - 1]
        ind = len(sig) - len(sig.lstrip())
        end = at
        k = at
        while k < len(lines):
            l = lines[k]
            li = len(l) - len(l.lstrip())
            if l.strip() and li <= ind and not re.match(rf"\s*({re.escape(name)}|unfolding)(?![^\s])", l):
                break
            if l.strip():
                end = k + 1
            k += 1
        # trailing comment lines belong to what follows
        while lines[end - 1].strip().startswith("--"):
            end -= 1
        lines[end:end] = [" " * ind + g for g in got]
        print(f"{p}:{at}: {name}: {len(got)}")
    with open(p, "w", encoding="utf-8") as f:
        f.write("\n".join(lines))
