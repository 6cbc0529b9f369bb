#!/usr/bin/env python3
"""Old forms in src/, by docs/DESIGN-PASS.md's points: how many places, and where.

usage: python3 tools/forms.py [FOLDER] [POINT]    (FOLDER: the top of a checkout, here by default)

What a pattern finds is a place to be read, not a verdict: the page says of each that is left why it stays.
"""
import glob, re, subprocess, sys

TOP = sys.argv[1] if len(sys.argv) > 1 else "."
ONLY = sys.argv[2] if len(sys.argv) > 2 else None
FILES = sorted(glob.glob(f"{TOP}/crates/*/src/*.rt"))


def code(file):
    for n, line in enumerate(open(file).read().split("\n"), 1):
        s = line.strip()
        if s.startswith("//") or s.startswith("ghost use") or re.match(r"(requires|ensures)\b", s) or s.startswith("ghost "):
            continue
        yield n, line


def short(file):
    return file.split("/crates/")[1].replace("/src/lib.rt", "").replace("/src/", "/")


def lines(pattern, conversions=True):
    out = []
    for file in FILES:
        inside = False
        for n, line in code(file):
            if re.match(r"impl ", line):
                inside = re.match(r"impl (Try)?From<", line)
            elif re.match(r"\}", line):
                inside = False
            if re.search(pattern, line) and (conversions or not inside):
                out.append(f"{short(file)}:{n} {line.strip()}")
    return out


def types():
    for file in FILES:
        text = open(file).read()
        for m in re.finditer(r"^(?:pub )?(enum|struct) (\w+)[^;{]*\{\n(.*?)^\}", text, flags=re.M | re.S):
            fields = [l.strip() for l in m.group(3).split("\n") if l.strip() and not l.strip().startswith("//")]
            yield file, m.group(1), m.group(2), fields


GOOD = r"^(Done|Wrote|Port|Command|Payload|Frame|Value|Count|Whole|On|Off|Sends|Waits|Queued|LsfPending|Nothing|Missing|End|Lsf|Packet|Stream|Preamble|EndOfTransmission|Ignored)\b"
BAD = r"^(NoRoom|Malformed\w*|Unsupported\w*|PayloadTooBig|LsfWrongSize|OutOfRange|NumberOver9|Full|WrongStore|OutOfBounds|IndexOver5|Nothing|Missing|Answer)\b"
FLAG = r"^(pub )?(answer: \w+,$|valid: bool|whole: bool|number: u8)"


def shaped():
    out = []
    for file, kind, name, fields in types():
        if kind == "enum" and any(re.match(GOOD, f) for f in fields) and any(re.match(BAD, f) for f in fields):
            out.append(f"{short(file)} enum {name}")
    return out


def flagged():
    out = []
    for file, kind, name, fields in types():
        value = [f for f in fields if not re.match(r"(pub )?(buffer|queue|tnc|channel|radio|host|outgoing|collection|saved|reader|after|ptt|state|sending|going)\b", f)]
        if kind == "struct" and any(re.match(FLAG, f) for f in value) and len(value) > 1:
            out.append(f"{short(file)} struct {name}")
    return out


def numbered():
    out = lines(r"^\s*match (kind|value|bit|bits|v|number)\b", False) + lines(r"=> (return )?[0-9]+,$", False)
    return out + lines(r"const \w+: usize = ([1-9] \* )?65536;")


def twins():
    return subprocess.run([sys.executable, "tools/twins.py", TOP], capture_output=True, text=True).stdout.strip().split("\n")[:-1]


def requires():
    counts = {}
    for file in FILES:
        for line in open(file):
            m = re.match(r"\s*requires (?:\w+ )?\{ (.*) \}", line)
            if m:
                for fact in re.split(r"\) × \(", m.group(1).strip("()")):
                    counts.setdefault((short(file), re.sub(r"\w+\.(old|now)", "x", fact)), 0)
                    counts[(short(file), re.sub(r"\w+\.(old|now)", "x", fact))] += 1
    return [f"{c}: {fact} ({n} functions)" for (c, fact), n in sorted(counts.items()) if n >= 3]


def together():
    out = []
    for file in FILES:
        text = open(file).read()
        for m in re.finditer(r"^[ \t]*(?:pub )?(?:extern \"C\" )?fn (\w+)[^(]*\(([^)]*)\)", text, flags=re.M):
            stores = re.findall(r"(\w+): &mut \[u8", m.group(2))
            if len(stores) >= 3:
                out.append(f"{short(file)}::{m.group(1)} {', '.join(stores)}")
    return out


POINTS = [
    ("1 enums of the shape of Option or Result", shaped),
    ("1 a flag or an answer with a value beside it", flagged),
    ("1 numbers for kinds or refusals", numbered),
    ("2 twins", twins),
    ("3 loops", lambda: lines(r"\b(while|loop)\b.*\{$") + lines(r"for \w+ in 0\.\.\w+ \{")),
    ("4 bytes copied by the repository's own function", lambda: lines(r"store::copy_in\(")),
    ("4 numbers put together and taken apart by hand", lambda: lines(r"(/|%|\*) 256")),
    ("4 enums without derives", lambda: [f"{short(f)} enum {n}" for f, k, n, _ in types() if k == "enum" and not re.search(r"#\[derive\([^)]*PartialEq[^)]*\)\](\n#\[repr\(C\)\])?\n(pub )?enum " + n + r"\b", open(f).read())]),
    ("5 facts in the clauses of three functions or more of a crate", requires),
    ("5 functions that are lent three stores or more", together),
    ("6 buffers with a length beside them", lambda: lines(r"pub (filled|held|len|read|next|curr): usize,")),
    ("7 closures, dyn and function pointers in use", lambda: lines(r"\bdyn \w|\bfn\(|impl Fn|: Fn")),
]
for name, find in POINTS:
    if ONLY and not name.startswith(ONLY):
        continue
    found = find()
    print(f"{name}: {len(found)}")
    for place in found:
        print(f"    {place}")
