#!/usr/bin/env python3
"""Prints the places of crates/*/src that docs/DESIGN-PASS.md counts, a line each, by point.

usage: tools/places.py [POINT]     at the top of the checkout; POINT is a number from 1 to 8; without one, the counts alone
"""
import collections
import glob
import os
import re
import sys


def sources():
    for p in sorted(glob.glob("crates/*/src/*.rt")):
        with open(p) as f:
            yield p, f.read().split("\n")


def code(line):
    return line.split("//")[0]


def functions():
    """(path, line, name, signature, clauses, body) of each function"""
    for p, lines in sources():
        i = 0
        while i < len(lines):
            m = re.match(r"\s*(?:pub )?(?:unsafe )?(?:extern \"C\" )?fn (\w+)", lines[i])
            if not m:
                i += 1
                continue
            indent = re.match(r" *", lines[i]).group(0)
            j = i
            sig, clauses = "", []
            while j < len(lines) and not re.match(re.escape(indent) + r"\{", lines[j]) and not (j == i and lines[j].endswith("{")) and not lines[j].startswith(indent + ") ->") | False:
                if re.match(r"\s*(requires|ensures)\b", lines[j]):
                    clauses.append(lines[j].strip())
                elif not clauses:
                    sig += " " + lines[j].strip()
                j += 1
                if lines[j - 1].rstrip().endswith(" {") and not re.match(r"\s*(requires|ensures)", lines[j - 1]):
                    break
            if j < len(lines) and lines[j].startswith(indent + ") ->"):
                sig += " " + lines[j].strip()
                j += 1
                while j < len(lines) and not re.match(re.escape(indent) + r"\{", lines[j]):
                    if re.match(r"\s*(requires|ensures)\b", lines[j]):
                        clauses.append(lines[j].strip())
                    j += 1
            k = j
            while k < len(lines) and lines[k] != indent + "}":
                k += 1
            yield p, i + 1, m.group(1), sig.strip(), clauses, lines[j:k]
            i = max(k, i + 1)


def enums():
    for p, lines in sources():
        for i, l in enumerate(lines):
            m = re.match(r"(?:pub )?enum (\w+)", l)
            if m:
                j = i + 1
                variants = []
                while not lines[j].startswith("}"):
                    v = re.match(r"    (\w+)(.*),?$", code(lines[j]).rstrip().rstrip(","))
                    if v and code(lines[j]).strip():
                        variants.append((v.group(1), v.group(2).strip()))
                    j += 1
                yield p, i + 1, m.group(1), variants


def point1():
    # own enums of two variants: one with nothing beside it is an Option's shape, two with something a Result's
    for p, n, name, variants in enums():
        if len(variants) == 2:
            yield p, n, "an enum of two: %s" % name
    # a number or a bool in a struct that says which of the other fields count
    for p, lines in sources():
        for i, l in enumerate(lines):
            if re.match(r"    (?:pub )?(number|half): (u64|bool),", l):
                yield p, i + 1, "a field that says whether the others count: %s" % l.strip()
    for p, n, name, sig, clauses, body in functions():
        if "-> bool" in sig and "out: &mut [u64; 4]" in sig:
            yield p, n, "a bool beside a value in words: fn %s" % name
    # a refusal's number in the code
    for p, lines in sources():
        for i, l in enumerate(lines):
            if "/replay/" not in p and re.search(r"(Refused|Bad|No|plain|unread|refused|put_stopped)\((?:out, \w+, )?[0-9]+|number: [1-9][0-9]*,|Fault\(", code(l)):
                yield p, i + 1, "a refusal by its number: %s" % l.strip()


def shape(body):
    """the body with its names and numbers taken out"""
    text = " ".join(code(l).strip() for l in body[1:])
    names = {}
    def name(m):
        w = m.group(0)
        if w in ("let", "mut", "if", "else", "while", "for", "in", "return", "match", "as", "true", "false", "Some", "None", "Ok", "Err"):
            return w
        return names.setdefault(w, "n%d" % len(names))
    return re.sub(r"[A-Za-z_]\w*", name, re.sub(r"\b(?:0x)?[0-9A-F_]+\b", "0", text))


def point2():
    by = collections.defaultdict(list)
    for p, n, name, sig, clauses, body in functions():
        s = shape(body)
        if len(s) > 30 and "/replay/" not in p:
            by[s].append((p, n, name))
    for s, fs in by.items():
        if len(fs) > 1:
            for p, n, name in fs:
                yield p, n, "of one shape with %s: fn %s" % (", ".join(f for _, _, f in fs if f != name) or "another of its name", name)


def point3():
    for p, lines in sources():
        for i, l in enumerate(lines):
            if re.match(r"\s*(?:'\w+: )?(while|loop) ?", code(l)):
                yield p, i + 1, l.strip()


def point4():
    for p, lines in sources():
        for i, l in enumerate(lines):
            if re.match(r"\s*(?:pub )?fn (eq|cmp|clone|from|into|of|words|answer|low|wide|same_\w+|less_\w+|put_digits?|put_number|same)\b", l):
                yield p, i + 1, l.strip()


def point5():
    # a fact that three or more functions require, its arguments taken out
    facts = collections.defaultdict(set)
    groups = collections.defaultdict(set)
    for p, n, name, sig, clauses, body in functions():
        for c in clauses:
            if c.startswith("requires"):
                for w in re.findall(r"\b([A-Z]\w+)\b", re.sub(r"^requires (\w+ )?\{|\}$", "", c)):
                    facts[w].add((p, n, name))
        ps = re.findall(r"(\w+): (&?(?:mut )?[\w\[\]; ]+)", sig)
        for size in (3, 4, 5):
            for i in range(len(ps) - size + 1):
                groups[tuple(x for x, _ in ps[i : i + size])].add((p, n, name))
    for w, fs in sorted(facts.items()):
        if len(fs) >= 3:
            yield "crates", 0, "required by %d functions: %s" % (len(fs), w)
    for g, fs in sorted(groups.items()):
        if len(fs) >= 3 and not any(set(g) < set(h) and len(hs) >= len(fs) for h, hs in groups.items()):
            yield "crates", 0, "travel together through %d functions: %s" % (len(fs), ", ".join(g))


def point6():
    for p, lines in sources():
        for i, l in enumerate(lines):
            if re.search(r"\[0(u8|u64|usize)?; \w+\]", code(l)):
                yield p, i + 1, l.strip()


def point7():
    for p, lines in sources():
        for i, l in enumerate(lines):
            if re.search(r"\bmatch \w*(stage|step|state|turn|numeric)|: (&'?\w* ?)?(\[)?fn\(|if numeric\b", code(l)):
                yield p, i + 1, l.strip()


def point8():
    for p in sorted(glob.glob("crates/*/proofs/**/Proof.antt", recursive=True)):
        with open(p) as f:
            yield p, len(f.read().split("\n")), "a walk of the code by hand"


POINTS = [point1, point2, point3, point4, point5, point6, point7, point8]


def main():
    if not os.path.isdir("crates"):
        raise SystemExit("tools/places.py: begin at the top of the checkout")
    wanted = [int(sys.argv[1])] if len(sys.argv) > 1 else range(1, 9)
    for k in wanted:
        places = list(POINTS[k - 1]())
        if len(sys.argv) > 1:
            for p, n, what in places:
                print("%s:%d: %s" % (p, n, what))
        print("point %d: %d places" % (k, len(places)))


main()
