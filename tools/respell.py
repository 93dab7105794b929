#!/usr/bin/env python3
"""Turns the repository's own definitions and lemmas to snake case: boundingBox becomes bounding_box, findStep-below find_step_below.

usage: tools/respell.py [-n]     in the repository, after port.py; -n tells what would change

A name is changed where it is declared in a .antt file of specs/ or of proofs/ outside a function's folder, or has a capital after its first
letter. A dash stays between two names of definitions (length-drop). A lemma that would have a definition's name ends in _lem.
Strings keep their text; types, modules and functions of src/ keep their names.
"""
import collections
import os
import re
import sys

WORD = re.compile(r"[A-Za-zℕ_][A-Za-z0-9_'ℕℤ]*(?:-[A-Za-z0-9_'ℕℤ*]+)*")
ID = r"[^\s(){}\[\],;.:→@\"`|]+"
SIG = re.compile(r"^\s*(?:(?:abbrev|unfoldable|pub|opaque)\s+)*((?:%s\s+)*?%s)\s+:(?:\s|$)" % (ID, ID))
STRING = re.compile(r'b?"(?:[^"\\\n]|\\.)*"')
# lemmas of a file that a renamed definition would share its name with
BESIDE = {
    "crates/mot_fault/proofs/Theorem.antt": {"by_tests": "by_tests_lem"},
    "crates/mot_line/proofs/Theorem.antt": {"by_tests": "by_tests_lem"},
    "crates/trackbox_io/proofs/Handing.antt": {"has_room": "has_room_lem"},
    "crates/lapjv_definition/proofs/ScanLaws.antt": {"scan_step": "scan_step_lem"},
}


def files(ends):
    for d, ds, fs in os.walk("crates"):
        ds[:] = sorted(x for x in ds if x not in ("out", "must-fail", "data"))
        for f in sorted(fs):
            if f.endswith(ends):
                yield os.path.join(d, f)


def bare(t):
    return re.sub(r"(?m)(^|\s)--(?![-A-Za-z]).*$", r"\1", t)


def snake(w):
    w = re.sub(r"([A-Z])([A-Z][a-z])", r"\1_\2", w)
    w = re.sub(r"(?<=[a-z0-9'])([A-Z])", lambda m: "_" + m.group(1).lower(), w)
    w = re.sub(r"_([A-Z])", lambda m: "_" + m.group(1).lower(), w)
    return re.sub(r"(?<=[a-z_])([A-Z])(?=[a-z0-9_]|$)", lambda m: m.group(1).lower(), w)


def main():
    dry = "-n" in sys.argv
    words, declared, defs = collections.Counter(), set(), set()
    for p in files(".antt"):
        text = bare(open(p, encoding="utf-8").read())
        words.update(WORD.findall(text))
        function = os.path.exists(os.path.join(os.path.dirname(p), "Proof.antt"))
        if function:
            continue
        for line in text.split("\n"):
            m = SIG.match(line)
            if m:
                names = m.group(1).split()
                declared.update(names)
                if "/specs/" in p:
                    defs.update(names)
    for p in files((".rt",)):
        for line in re.findall(r"ghost use [^;]*;", open(p, encoding="utf-8").read()):
            words.update(w for w in WORD.findall(line) if w not in words)
    known = {n for n in defs if "-" not in n} | {"length", "get_or", "take", "drop", "set", "map", "append", "eqb", "ltb"}
    new = {}
    for w in words:
        if not w[0].islower():
            continue
        camel = re.search(r"[A-Z]", w) is not None
        if not camel and not ("-" in w and w in declared):
            continue
        if "-" in w and w not in declared:
            continue
        parts = w.split("-")
        out = snake(parts[0])
        for a, b in zip(parts, parts[1:]):
            out += ("-" if a in known and b in known else "_") + snake(b)
        if out != w:
            new[w] = out
    # a lemma that would have a definition's name, or that of another lemma
    count = collections.Counter(new.values())
    for w, n in sorted(new.items()):
        if "-" in w and (count[n] > 1 or n in words):
            new[w] = n + "_lem"
            print(f"falls together: {w} -> {new[w]}")
    rx = re.compile(r"(?<![A-Za-z0-9_'ℕℤ·-])(" + "|".join(re.escape(w) for w in sorted(new, key=len, reverse=True)) + r")(?![A-Za-z0-9_'ℕℤ-])")
    # in a function's proof a step has the name of what is called or bound: those stay
    steps = set()
    for p in files((".rt",)):
        steps.update(x.replace("_", "-") for x in re.findall(r"[a-z_][a-z0-9_]*", open(p, encoding="utf-8").read()))
    own = "|".join(sorted(os.listdir("crates")))
    theirs = re.compile(r"(?m)^\s*(?:pub |ghost )*use (?!Rattle\.(?:%s)\.)[^\s{]*\.\{([^}]*)\}" % own)
    hits = 0
    for p in files((".antt", ".rt")):
        t = open(p, encoding="utf-8").read()
        # a name of the library keeps its spelling in a file that imports it
        kept = {w for m in theirs.finditer(t) for w in WORD.findall(re.sub(r" as [^,}]*", "", m.group(1)))}
        def respelled(k, kept=kept):
            return k.group() if k.group(1) in kept else new[k.group(1)]
        for old, with_end in BESIDE.get(p, {}).items():
            t = re.sub(r"(?<![A-Za-z0-9_'.-])" + old + r"(?![A-Za-z0-9_'.-])", with_end, t)
        if p.endswith(".rt"):
            out, at = [], 0
            for m in STRING.finditer(t):
                out.append(rx.sub(respelled, t[at:m.start()]))
                out.append(m.group())
                at = m.end()
            out.append(rx.sub(respelled, t[at:]))
            u = "".join(out)
        else:
            proof = os.path.basename(p) == "Proof.antt"
            u = rx.sub(lambda k: k.group() if proof and k.group(1) in steps and t[k.start() - 1 : k.start()] == "." else respelled(k), t)
        if u != t:
            hits += 1
            if not dry:
                open(p, "w", encoding="utf-8").write(u)
    print(f"{len(new)} names, {hits} files")
    if dry:
        for w in sorted(new):
            print("  ", w, new[w])


main()
