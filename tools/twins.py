#!/usr/bin/env python3
"""Twins in src/: functions, structs and enums that are the same but for names and literals.

usage: python3 tools/twins.py [FOLDER]    (FOLDER: the top of a checkout, here by default)

Comments, clauses and ghost lines are left out, then every name and every literal of an item becomes one sign; items of 20
signs or more whose signs are the same stand in one group. A group is a hint to be read, not a verdict.
"""
import glob, re, sys

TOP = sys.argv[1] if len(sys.argv) > 1 else "."
KEEP = set("fn pub mut let if else match while for in loop return struct enum impl self Self as break continue true false".split())


def items(text):
    text = re.sub(r"//[^\n]*", "", text)
    text = re.sub(r"^ghost use[^\n]*\n", "", text, flags=re.M)
    text = re.sub(r"^\s*(requires|ensures)( \w+)? \{.*\}\n", "", text, flags=re.M)
    for m in re.finditer(r"^([ \t]*)(?:pub )?(?:extern \"C\" )?(fn|struct|enum) (\w+)", text, flags=re.M):
        k, depth = m.end(), 0
        while k < len(text) and not (text[k] in "{;" and depth == 0):
            depth += (text[k] in "([") - (text[k] in ")]")
            k += 1
        if k >= len(text) or text[k] == ";":
            continue
        d, e = 1, k + 1
        while d:
            d += (text[e] == "{") - (text[e] == "}")
            e += 1
        yield m.group(2), m.group(3), text[m.start():e]


def skeleton(body):
    out = []
    for token in re.findall(r"\w+|[^\w\s]", body):
        if token in KEEP or not re.match(r"\w", token):
            if token != ",":
                out.append(token)
        else:
            out.append("0" if token[0].isdigit() else "x")
    return " ".join(out)


groups = {}
for file in sorted(glob.glob(f"{TOP}/crates/*/src/*.rt")):
    crate = file.split("/crates/")[1].split("/")[0]
    for kind, name, body in items(open(file).read()):
        signs = skeleton(body)
        if len(signs.split()) >= 20:
            groups.setdefault((kind, signs), []).append(f"{crate}::{name}")
count = 0
for (kind, _), names in sorted(groups.items(), key=lambda g: g[1]):
    if len(names) > 1:
        count += 1
        print(kind, ", ".join(names))
print(f"{count} groups")
