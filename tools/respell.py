#!/usr/bin/env python3
"""Brings this repository's own definitions and lemmas to the spelling of today's Rattle: snake case, a dash only between two names.

usage: python3 tools/respell.py          at the top of the repository, once, right after port.py
       python3 tools/respell.py --list   prints what would be renamed, and changes nothing

Renamed are definitions, lemmas, fields and constructors that specs/ and proofs/ declare. Types, facts and constants keep their capitals;
names from src/, exported names, strings, inputs and outputs keep their spelling, and so do names of std.
"""
import collections
import glob
import re
import sys

TOKEN = re.compile(r"[^\s(){};,.`\[\]⟦⟧«»‵?]+")
DECL = re.compile(r"^(?:abbrev |unfoldable |pub )*(?P<name>[^\s:(){}]+) :(?= |$)")
TYPE = re.compile(r"^(?:pub )?(?:data|record) (\S+)")
# names that would fall together: a definition goes before a lemma and a constructor of its name
OTHERWISE = {"in-packets": "is_in_packets", "keyed-up": "is_keyed_up", "txDelay": "set_tx_delay", "fullDuplex": "set_full_duplex"}
LEMMAS = {"after_next", "all_sound", "by_count", "laid_out", "left_after"}
PART = re.compile(r"^  (?:pub )?([^\s:(){}]+) :(?= |$)")


def files():
    return sorted(glob.glob("crates/*/specs/*.antt") + glob.glob("crates/*/proofs/**/*.antt", recursive=True))


def declared(paths):
    """name -> set of 'specs', 'proofs', 'part'"""
    found = collections.defaultdict(set)
    for p in paths:
        inside = module = False
        for line in open(p, encoding="utf-8").read().split("\n"):
            if TYPE.match(line):
                inside = True
                continue
            m = DECL.match(line)
            if m and not line.startswith((" ", "--")):
                found[m["name"]].add("specs" if "/specs/" in p else "proofs")
            if line.startswith("use "):
                for alias in re.findall(r" as ([\w'-]+)", line):
                    found[alias].add("specs" if "/specs/" in p else "proofs")
            if line and not line.startswith((" ", "--")):
                inside = False
            if line and not line.startswith((" ", "--")):
                module = line.startswith("module ")
            m = re.match(r"^(?:  )+(?:abbrev |unfoldable |pub )*([^\s:(){}]+) :(?= |$)", line)
            if module and m:
                found[m[1]].add("specs" if "/specs/" in p else "proofs")
            m = PART.match(line)
            if inside and m:
                found[m[1]].add("part")
    return found


def imported(paths):
    """Names that come from outside this repository, in any file."""
    own = {p.split("/")[1] for p in glob.glob("crates/*/src")}
    names = set()
    for p in paths + glob.glob("crates/*/src/*.rt"):
        for m in re.finditer(r"^(?:ghost |pub )*use ([^\s{]+)\.\{([^}]*)\}", open(p, encoding="utf-8").read(), re.M):
            parts = m[1].split(".")
            if parts[0] == "Rattle" and parts[1] in own and not ("declared" in parts or "contracts" in parts):
                continue
            names |= {n.strip().split(" as ")[0] for n in m[2].split(",")}
    return names


def snake(word):
    """camelCase to snake_case; a part with a leading capital, a fact or a type, stays."""
    if not word or not (word[0].islower()) or not re.search(r"[a-z0-9][A-Z]", word):
        return word
    return re.sub(r"(?<=[a-z0-9])([A-Z]+)", lambda m: "_" + m[1].lower(), word)


def joined(name, names):
    """A lemma's name: a dash stays between two names, and before or behind a name of several words; else `_`."""
    parts = name.split("-")
    words = [snake(w) for w in parts]
    if len(words) == 2 and (set(words) <= names or words != parts):
        return "-".join(words)
    return "_".join(words)


def plan():
    paths = files()
    found = declared(paths)
    outside = imported(paths)
    skip = {"Lib"}
    specs = {n for n, k in found.items() if k & {"specs", "part"}}
    names = {snake(n).replace("-", "_") for n in found if "specs" in found[n]} | {n for n in outside if re.fullmatch(r"[\w']+", n)}
    new = {}
    for n, kinds in sorted(found.items()):
        if n in outside or n in skip or not re.fullmatch(r"[A-Za-z][\w'-]*", n):
            continue
        if kinds & {"specs", "part"}:
            to = OTHERWISE[n] if n in OTHERWISE else snake(n) if n[0].isupper() else "_".join(snake(w) for w in n.split("-"))
        else:
            to = n + "_lem" if n in LEMMAS else joined(n, names)
        if to != n:
            new[n] = to
    new["decodedRoom"] = "decoded_room"  # a variable of one statement
    # names that fall together: the lemma's gets `_lem`
    taken = (set(found) - set(new)) | outside
    for n in sorted(set(new) - {"decodedRoom"}, key=lambda n: (found[n] == {"proofs"}, "-" in n, n)):
        while new[n] in taken:
            new[n] += "_lem" if found[n] == {"proofs"} else "_of"
        taken.add(new[n])
    return new, found


def turned(text, new, rust):
    out = []
    for line in text.split("\n"):
        comment = line.lstrip().startswith("//" if rust else "--")
        if comment:
            line = re.sub(r"(?<![\w-])[A-Za-z][\w'-]*", lambda m: new[m[0]] if m[0] in new and (re.search(r"[a-z][A-Z]", m[0]) or line[m.start() - 1 : m.start()] == "`") else m[0], line)
        elif rust:
            line = re.sub(r"(?<![\w'-])[a-z][\w']*[A-Z][\w']*", lambda m: new.get(m[0], m[0]), line)
        else:
            line = TOKEN.sub(lambda m: new.get(m[0], m[0]), line)
        out.append(line)
    return "\n".join(out)


def main():
    new, found = plan()
    if "--list" in sys.argv:
        for n in sorted(new):
            print(n, new[n], ",".join(sorted(found[n])))
        return
    for p in files() + sorted(glob.glob("crates/*/src/*.rt")):
        text = open(p, encoding="utf-8").read()
        to = turned(text, new, p.endswith(".rt"))
        if to != text:
            open(p, "w", encoding="utf-8").write(to)


main()
