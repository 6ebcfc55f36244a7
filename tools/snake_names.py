#!/usr/bin/env python3
"""Brings the names of definitions and lemmas of an older Rattle to today's spelling: words in snake case.

usage: tools/snake_names.py [--list]      at the top of the repository, after the kit's own upgrade, once
A camelCase name of an .antt file becomes camel_case wherever it stands: in specs/, proofs/, the clauses and comments
of src/, must-fail edits and pages. A name with dashes that specs/ or a lemma file of proofs/ declares gets underscores,
unless the library has it under that very spelling. Names of src/, strings, inputs and outputs keep theirs.
With --list nothing is written: the new names that fall together with another are named.
"""

import collections
import os
import re
import sys

LIBRARY = os.path.join(os.path.dirname(os.path.dirname(os.path.realpath(os.popen("command -v rt").read().strip() or "/usr"))), "rattle")
TOKEN = re.compile(r"[^\s(){}\[\];,.\"λ`]+")
NAME = re.compile(r"[a-z][A-Za-z0-9_'₀-₉-]*")
SIGNATURE = re.compile(r"^\s*(?:abbrev pub|unfoldable pub|pub abbrev|pub unfoldable|pub|abbrev|unfoldable)?\s*([a-z][A-Za-z0-9_'₀-₉-]*)\s*:(?![:=])", re.M)
# names whose snake form another name has: what they are called instead
OTHERWISE = {
    "allOne": "is_all_one",
    "inBytes": "held_in_bytes",
    "inOrder": "is_in_order",
    "leftOut": "left_out_mask",
    "passedOver": "passed_over_by",
    "placeAt": "place_found_at",
    "set-up": "set_up",
    "step-in-order": "step_in_order",
    "targetAt": "target_found_at",
}
# words of the library that a script before this one left
LEFT = {"toBits"}


def read(path):
    with open(path, encoding="utf-8") as f:
        return f.read()


def walk(top, ends):
    for folder, dirs, files in os.walk(top):
        dirs[:] = sorted(d for d in dirs if d not in ("out", ".git"))
        for f in sorted(files):
            if f.endswith(ends):
                yield os.path.join(folder, f)


def code(text):
    return re.sub(r"--.*", "", text)


def snake(name):
    name = re.sub(r"(?<=[a-z0-9'])([A-Z])", lambda m: "_" + m[1].lower(), name)
    return name.replace("-", "_").lower() if re.search("[A-Z]", name) else name.replace("-", "_")


def library_names():
    out = set()
    for p in walk(LIBRARY, (".antt",)):
        if "/examples/" in p or "/tests/" in p:
            continue
        for t in TOKEN.findall(code(read(p))):
            if "-" in t or re.search("[A-Z]", t):
                out.add(t)
    return out


def main():
    library = library_names()
    camel, dashed, tokens = set(), set(), collections.Counter()
    for p in walk("crates", (".antt",)):
        text = code(read(p))
        for t in TOKEN.findall(text):
            tokens[t] += 1
            if NAME.fullmatch(t) and re.search("[A-Z]", t) and "-" not in t and t not in library:
                camel.add(t)
        lemma_file = os.path.basename(p) not in ("Proof.antt", "Answers.antt", "Invariants.antt")
        if lemma_file:
            for m in SIGNATURE.finditer(text):
                t = m[1]
                if ("-" in t or re.search("[A-Z]", t)) and t not in library:
                    (dashed if "-" in t else camel).add(t)
    camel -= LEFT
    plain = {snake(t) for t in camel} | {t for t in tokens if "-" not in t}
    new = {t: OTHERWISE.get(t) or snake(t) + ("_lem" if t in dashed and snake(t) in plain else "") for t in camel | dashed}
    by = collections.defaultdict(set)
    for old, now in new.items():
        by[now].add(old)
        if now in tokens:
            by[now].add(now)
    clash = {now: olds for now, olds in by.items() if len(olds) > 1}
    fields = set()
    for p in walk("crates", (".rt",)):
        fields |= set(re.findall(r"^\s+(?:pub )?([a-z_0-9]+): [A-Za-z&\[]", read(p), re.M))
    if "--list" in sys.argv:
        for now, olds in sorted(clash.items()):
            print("together:", now, sorted(olds), {o: tokens[o] for o in olds})
        for now in sorted(set(new.values()) & fields):
            print("a field or variable of src too:", now, sorted(by[now]))
        print(len(camel), "camel,", len(dashed), "dashed,", len(clash), "together")
        return

    def turn(text, dashes):
        return TOKEN.sub(lambda m: new[m[0]] if m[0] in camel or (dashes and m[0] in dashed) else m[0], text)

    def in_ticks(text):
        text = turn(text, False)
        return re.sub(r"`[^`\n]*`", lambda m: turn(m[0], True), text)

    for p in walk("crates", (".antt", ".rt", ".edit")):
        out = []
        for line in read(p).split("\n"):
            mark = "--" if p.endswith(".antt") else "//"
            i = line.find(mark)
            a, b = (line, "") if i < 0 else (line[:i], line[i:])
            if p.endswith(".antt"):
                a = turn(a, True)
            else:
                parts = re.split(r'("(?:[^"\\]|\\.)*")', a)
                a = "".join(x if k % 2 else turn(x, True) for k, x in enumerate(parts))
            out.append(a + in_ticks(b))
        text = "\n".join(out)
        if text != read(p):
            with open(p, "w", encoding="utf-8") as f:
                f.write(text)
    for p in ["README.md", "ARCHITECTURE.md", *walk("docs", (".md",)), *walk("oracle", (".md",))]:
        text = in_ticks(read(p))
        if text != read(p):
            with open(p, "w", encoding="utf-8") as f:
                f.write(text)


main()
