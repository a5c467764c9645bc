#!/usr/bin/env python3
"""Spells the repository's own definitions, lemmas, fields and locals in snake case: nameAt and name-at become name_at.

usage: tools/respell.py            at the top, once, behind port.py: rewrites crates/*/{specs,proofs,src} in place
       tools/respell.py --check    writes nothing, says which names would fall together

Names that a file brings in from a library stay, and so do the names that Rattle makes (goals, and labels of the places of a walk).
"""
import collections
import os
import re
import sys

TOKEN = re.compile(r'[^\s(){}.;,@"«»]+')
DECLARED = re.compile(r"^ *(?:(?:pub|abbrev|unfoldable|opaque|private|record|data|syntax) )*([^\s(){}.;,@\"«»]+)(?: \{[^{}\n]*\}| \([^()\n]*\))* :(?= )")
USE = re.compile(r"\b(?:ghost |pub )?use ([^\s;{]+?)\.?\{([^{}]*)\}")
OURS = re.compile(r"Rattle\.(\w+)")
# The generated modules of a function's proof, whose names are Rattle's.
MADE = {"tie", "goal", "Tie", "Goals", "Given"}
# Where two names would fall together, the new name of one of them: file (or *), old name, new name.
APART = {("*", n): n.replace("-", "_") + "_lem" for n in """at-type as-type clear-byte short-mark paths-before head-end kind-of entry-parts with-field with-variant
    expr-parts found-at cases-in default-in part-or parameter-tree entry-of find-key parameter-name expr-of first-view head-of item-or make-expr
    make-thing no-type part-view rest-view type-of types-of variants-in ref-parts not-empty words-for in-range""".split()}
APART.update({
    ("crates/resolved_parts/specs/Types.antt", "name-at"): "name_place",
    ("crates/builder_structs/specs/Next.antt", "prefix-end"): "so_far",
    ("crates/compat/proofs/Worked.antt", "old-set"): "old_zones",
    ("crates/compat/proofs/Worked.antt", "new-set"): "new_zones",
    ("crates/compat/proofs/Worked.antt", "old-layout"): "old_zones_layout",
    ("crates/compat/proofs/Worked.antt", "new-layout"): "new_zones_layout",
    ("crates/compat/proofs/OldAndNew.antt", "old-layout"): "old_layout_read_written",
    ("crates/compat/proofs/OldAndNew.antt", "new-layout"): "new_layout_read_written",
})
# Lemmas that had their new spelling already, beside a definition that gets it.
LEMMAS = {
    "node_in": ("interpreter_context", "interpreter_leaves", "interpreter_eval"),
    "no_names": ("builder_paths",),
    "fields_in": ("builder_texts",),
    "owner_of": ("builder_texts",),
    "count_at": ("builder_arrays",),
}


def odd(name):
    return bool(name[:1].islower() and re.search(r"[a-z0-9][A-Z]", name) or re.search(r"(?<=[\w'])-(?=[\w'])", name))


def snake(name):
    if name.endswith("-spec") and name.startswith("+"):
        return name
    name = re.sub(r"(?<=[a-z0-9])([A-Z])(?=[a-z])", lambda m: "_" + m[1].lower(), name) if name[:1].islower() else name
    return name.replace("-", "_")


def crates(top):
    with open(os.path.join(top, "crates.txt"), encoding="utf-8") as f:
        return [l.split(":")[0].strip() for l in f if ":" in l and not l.startswith("#")]


def files(top):
    for c in crates(top):
        for d, subs, names in os.walk(os.path.join(top, "crates", c)):
            subs[:] = sorted(s for s in subs if s != "out")
            for n in sorted(names):
                if n.endswith((".antt", ".rt")):
                    yield os.path.join(d, n)


def walk(path):
    return "/proofs/" in path and os.path.basename(path) in ("Proof.antt", "Answers.antt", "Invariants.antt")


def code_and_comments(text):
    """Pieces of the text, each with whether it is a comment."""
    at = 0
    for m in re.finditer(r"(?<![^\s(){}.;,])--[^\n]*|//[^\n]*|\"(?:[^\"\\\n]|\\.)*\"", text):
        yield text[at : m.start()], False
        yield m[0], True
        at = m.end()
    yield text[at:], False


def main():
    top = os.getcwd()
    write = "--check" not in sys.argv
    own = set(crates(top))
    texts = {p: open(p, encoding="utf-8").read() for p in files(top)}
    declared = collections.defaultdict(set)
    for p, t in texts.items():
        if p.endswith(".antt"):
            for line in t.split("\n"):
                m = DECLARED.match(line)
                if m and not line.lstrip().startswith("--"):
                    declared[m[1]].add(p)
                m = re.match(r" *(?:pub )?ruleset (\S+)", line)
                if m:
                    declared[m[1]].add(p)
    # names declared somewhere but as answers
    turns = {n for n, ps in declared.items() if odd(n) and any(not walk(p) for p in ps)}
    met = 0
    for p, t in texts.items():
        library, here = set(), set()
        for m in USE.finditer(t):
            o = OURS.match(m[1])
            names = [x.strip() for x in m[2].split(",")]
            for n in names:
                n, _, a = n.partition(" as ")
                if not (o and o[1] in own):
                    library.add(a or n)
        if walk(p):
            here = {n for n in declared if p in declared[n]}
        clauses = p.endswith(".rt")

        def turned(tok, before):
            if tok in LEMMAS and p.split("/crates/")[1].split("/")[0] in LEMMAS[tok] and not clauses and tok not in library and not before.endswith("."):
                return tok + "_lem"
            if not odd(tok) or tok in library:
                return tok
            if before.endswith("."):
                head = re.search(r"([^\s(){};,@\"«»]+)\.$", before)
                steps = head[1].split(".") if head else []
                if steps and steps[0] in MADE:
                    return tok
                # a constructor, behind its type
                return snake(tok) if tok in turns or steps and steps[-1][:1].isupper() and "-" not in tok and not walk(p) else tok
            if tok in here:
                return snake(tok) if re.search(r"-spec$", tok) and not tok.startswith("+") else tok
            if clauses or walk(p):
                return snake(tok) if tok in turns else tok
            return snake(tok)

        new, seen = [], {}
        for piece, comment in code_and_comments(t):
            if comment:
                if piece.startswith('"'):
                    new.append(piece)
                    continue
                new.append(re.sub(r"`([^`\n]+)`", lambda m: "`" + TOKEN.sub(lambda k: snake(k[0]) if k[0] in turns else k[0], m[1]) + "`", piece))
                continue
            out, at = [], 0
            for m in TOKEN.finditer(piece):
                out.append(piece[at : m.start()])
                n = turned(m[0], piece[max(0, m.start() - 200) : m.start()])
                n = APART.get((os.path.relpath(p, top), m[0]), APART.get(("*", m[0]), n)) if n != m[0] and odd(m[0]) else n
                out.append(n)
                if not clauses or n != m[0]:
                    seen.setdefault(n, set()).add(m[0])
                at = m.end()
            out.append(piece[at:])
            new.append("".join(out))
        for n, olds in sorted(seen.items()):
            if len(olds) > 1:
                met += 1
                print(f"falls together: {os.path.relpath(p, top)}: {', '.join(sorted(olds))} -> {n}")
        new = "".join(new).replace("◌andThen◌", "◌and_then◌")
        if write and new != t:
            with open(p, "w", encoding="utf-8") as f:
                f.write(new)
    print(f"{len(turns)} names turn; {met} places where names fall together")


main()
