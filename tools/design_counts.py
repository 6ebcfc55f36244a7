#!/usr/bin/env python3
"""Counts, in crates/*/src, the places where an older form could stand (docs/DESIGN-PASS.md).

    tools/design_counts.py [TOP] [--list]

TOP is the repository's folder (.). With --list each place is named.
"""
import collections
import difflib
import glob
import os
import re
import sys

args = [a for a in sys.argv[1:] if not a.startswith("--")]
listed = "--list" in sys.argv
top = args[0] if args else "."
files = {f[len(top) + 1 :]: open(f).read() for f in sorted(glob.glob(os.path.join(top, "crates/*/src/*.rt")))}


def bare(text):
    return re.sub(r"//[^\n]*", "", text)


def functions():
    """Each function: its file, name, parameters, clauses and body."""
    for f, text in files.items():
        text = bare(text)
        for m in re.finditer(r"(?m)^[ \t]*(?:pub )?(?:unsafe )?(?:extern \"C\" )?fn (\w+)[^(\n]*\(", text):
            i, depth = m.end(), 1
            while depth:
                depth += (text[i] == "(") - (text[i] == ")")
                i += 1
            start = re.compile(r"(?m)^[ \t]*\{$|\{$").search(text, i)
            j = start.end() if start else len(text)
            k, depth = j, 1
            while k < len(text) and depth:
                depth += (text[k] == "{") - (text[k] == "}")
                k += 1
            yield f, m.group(1), text[m.end() : i - 1], text[i : j - 1], text[j:k]


def show(point, what, places):
    print(f"{point:3} {len(places):4}  {what}")
    if listed:
        for p in places:
            print("         ", p)


def lines(pattern):
    found = []
    for f, text in files.items():
        for n, line in enumerate(bare(text).split("\n"), 1):
            if re.search(pattern, line):
                found.append(f"{f}:{n}: {line.strip()}")
    return found


every = list(functions())
show("1a", "enums of the repository's own", lines(r"^\s*(pub )?enum "))
show("1b", "structs with an answer beside a value", lines(r"^\s*(pub )?answer: \w+,$"))
show("1c", "the largest number in a value's place", lines(r"18446744073709551615|u(64|size)::MAX"))
show("1d", "functions that ask whether an answer is finished work", [f"{f}: {n}" for f, n, *_ in every if n == "is_finished"])

shape = []
for f, n, p, c, b in every:
    words = re.findall(r"\w+|[^\w\s]", b)
    same = []
    for w in words:
        if re.fullmatch(r"[0-9][\w.]*", w):
            w = "N"
        elif re.fullmatch(r"(u8|u16|u32|u64|usize|f32|f64|F32|F64)", w):
            w = "T"
        same.append(re.sub(r"(32|64|_float)$", "", w))
    if len(same) >= 20:
        shape.append((f, n, same))
twins = []
for i in range(len(shape)):
    for j in range(i):
        a, b = shape[i][2], shape[j][2]
        if min(len(a), len(b)) / max(len(a), len(b)) > 0.85 and difflib.SequenceMatcher(None, a, b).ratio() >= 0.88:
            twins.append(f"{shape[j][0]}: {shape[j][1]}, {shape[i][0]}: {shape[i][1]}")
show("2", "pairs of functions whose bodies are alike but for types, sizes and constants", twins)

show("3a", "loops by `while`", lines(r"^\s*while "))
show("3b", "loops over a range of numbers", lines(r"^\s*for \w+ in [^{]*\.\."))

table = []
for f, n, p, c, b in every:
    arms = re.fullmatch(r"\s*match [^{]*\{(.*)\}\s*\}", b, re.S)
    if arms:
        rows = [r for r in re.findall(r"=>\s*([^,]+),", arms.group(1))]
        if rows and all(re.fullmatch(r"[0-9][\w.]*|true|false|\w+::\w+", r.strip()) for r in rows):
            table.append(f"{f}: {n}")
show("4a", "functions that are a table from cases to constants", table)
names = r"^(is_linear|flag|shorter|drainable|tail_run|shape_of|shape_word|number|refusal_number|same_value)$"
show("4b", "comparison or conversion in a function of its own", [f"{f}: {n}" for f, n, *_ in every if re.match(names, n)])

clauses, runs = collections.defaultdict(set), collections.defaultdict(set)
for f, n, p, c, b in every:
    here = f"{f}: {n}"
    for text in re.findall(r"requires(?:\s+\w+)?\s*\{(.*?)\}\s*(?=\n|$)", c, re.S):
        clauses[re.sub(r"\.(old|now)\b", "", " ".join(text.split()))].add(here)
    ps = [" ".join(x.split()) for x in p.split(",") if x.strip()]
    for size in range(4, 8):
        for k in range(len(ps) - size + 1):
            runs[", ".join(ps[k : k + size])].add(here)
show("5a", "`requires` clauses that stand in three or more functions", [f"{len(w)} {t}" for t, w in sorted(clauses.items()) if len(w) >= 3])
wide = {t: w for t, w in runs.items() if len(w) >= 3}
longest = [t for t in wide if not any(t != o and t in o and wide[t] <= wide[o] for o in wide)]
show("5b", "runs of four or more parameters in three or more functions", [f"{len(wide[t])} {t}" for t in sorted(longest)])
show("5c", "functions of more than eight parameters", [f"{f}: {n} {len(p.split(','))}" for f, n, p, *_ in every if len([x for x in p.split(',') if x.strip()]) > 8])

show("6", "a length or a place beside its buffer", lines(r"\b(count|len|at|left): usize\b.*|\[\w+; 8\], count"))
show("7", "a step picked by a value: `Change`, `Direction`, function pointers, `dyn`", lines(r"\bChange::|\bDirection::|: fn\(|\bdyn\b"))
