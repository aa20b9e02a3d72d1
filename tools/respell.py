#!/usr/bin/env python3
"""Brings the repository's own names to today's spelling, once, after the kit's port.py.

usage: python3 tools/respell.py        at the top of the repository, on what port.py left

Definitions, lemmas, fields and variables of specs/ and proofs/ get snake case, and an apostrophe for a prime. A dash stays in a lemma's
name where it joins two names that are defined (as in `length-append`), and is an underscore else. Types get camel case. Names of src/,
of the library, and what stands in strings, keep their spelling. Two names never fall together: a lemma that would get the name of a
definition gets `_lem` after it. It prints each name that it turned.
"""

import collections
import glob
import os
import re
import sys

SEP = re.compile(r"([\s(){}\[\];,.:\"`|]+)")
MARKS = r"^\s*(?:(?:pattern|unfoldable|abbrev|pub|axiom)\s+)*"
TYPE = re.compile(MARKS + r"(?:record|data)\s+([^\s(){}:]+)")
NAME = re.compile(MARKS + r"([^\s(){}\[\];,.:\"`|=]+)\s*:\s")
IS_TYPE = re.compile(r"(?:→|:)\s*Type(?: \d)?\s*$")
# port.py gave these lemmas the spelling of a definition: `same-bytes` beside `sameBytes`, and so on
# fields, which are named beside definitions of the same spelling, and types
CHOSEN = {"local-no": "local_no", "type-no": "type_no", "in-range": "in_range", "Field-of": "IsFieldOf", "Source-of": "IsSourceOf", "Local-at": "IsLocalAt"}
TWINS = ["same_bytes", "entry_in", "fields_in", "all_types", "is_open", "kept_of", "at_table", "is_ok", "flat_in"]


def antt():
    return sorted(glob.glob("crates/*/specs/**/*.antt", recursive=True) + glob.glob("crates/*/proofs/**/*.antt", recursive=True))


def read(p):
    with open(p, encoding="utf-8") as f:
        return f.read()


def defined():
    """The names that the repository defines, with their files, and which of them are types."""
    names, types = collections.defaultdict(set), set()
    for p in antt():
        if p.endswith("/Proof.antt"):
            continue
        for line in read(p).splitlines():
            if line.lstrip().startswith("--"):
                continue
            m = TYPE.match(line)
            if m:
                names[m.group(1)].add(p)
                types.add(m.group(1))
                continue
            m = NAME.match(line)
            if m:
                names[m.group(1)].add(p)
                if IS_TYPE.search(line):
                    types.add(m.group(1))
    return names, types


def imported():
    """The names that files import from the library."""
    own = set(os.listdir("crates"))
    words = set()
    for p in antt():
        for path, items in re.findall(r"^use\s+([^\s{}]+?)\.\{([^}]*)\}", read(p), re.M):
            parts = path.split(".")
            if not (parts[0] == "Rattle" and parts[1] in own):
                words.update(w.strip().split(" as ")[-1] for w in items.split(","))
                words.update(w.strip().split(" as ")[0] for w in items.split(","))
    return words


def rust_names():
    found = set()
    for p in glob.glob("crates/*/src/**/*.rt", recursive=True):
        found.update(re.findall(r"\b(?:fn|struct|enum|const|mod)\s+(\w+)", read(p)))
    return found


def snake(t):
    t = t.replace("′", "'").replace("getD", "get_or")
    return re.sub(r"([a-z0-9])([A-Z])", lambda m: m.group(1) + "_" + m.group(2).lower(), t)


def camel(t):
    return "".join(w[:1].upper() + w[1:] for w in t.split("-"))


def lower_dashes(t, known):
    """A dash between two known names stays, any other becomes an underscore."""
    parts = t.split("-")
    out = parts[0]
    left = parts[0]
    for word in parts[1:]:
        if left in known and word in known:
            out += "-" + word
            left = word
        else:
            out += "_" + word
            left = left + "_" + word
    return out


def mapping():
    names, types = defined()
    lib = imported()
    rust = rust_names()
    everywhere = set()
    for p in antt():
        for line in read(p).splitlines():
            if not line.lstrip().startswith("--"):
                everywhere.update(SEP.split(line))
    # definitions and constructors of specs/, functions of src/, and plain words of the library join by a dash
    specs = {n for n in names if any("/specs/" in p for p in names[n]) and len(names[n]) >= 1}
    joined = {snake(n) for n in specs if "-" not in n} | {"length", "append", "map", "take", "drop", "set", "sets", "get_or", "replicate"}
    to = {}
    for n in sorted(names):
        if n in types and n[0].isupper():
            new = camel(n) if "-" in n else n.replace("′", "'")
        elif n in types:
            new = snake(n)
            new = new[:1].upper() + re.sub(r"_(\w)", lambda m: m.group(1).upper(), new[1:]) if re.search(r"[A-Z]", n) else n
        else:
            new = n
            if re.match(r"^S\d+-", n):
                new = n[0].lower() + n[1:]
            new = snake(new).replace("-", "_") if n in specs else lower_dashes(snake(new), joined)
        if new != n:
            to[n] = new
    # variables and fields, which no signature declares on a line of its own
    for t in sorted(everywhere):
        if t not in to and re.match(r"^[a-zλ]", t) and (re.search(r"[a-z0-9][A-Z]", t) or "′" in t) and "tie" not in t and not t.startswith("Need"):
            to[t] = snake(t)
    return to, names, everywhere, lib, rust


def settle(to, everywhere, lib):
    """Takes names of the library out, and keeps names apart that would fall together."""
    for t in list(to):
        if t in lib:
            del to[t]
    for t in CHOSEN:
        to.pop(t, None)
    for t in TWINS:
        if t in everywhere:
            to[t] = t + "_lem"
    by = collections.defaultdict(list)
    for a, b in to.items():
        by[b].append(a)
    for b, olds in sorted(by.items()):
        # a definition, in camel case, gets the name before a lemma, with dashes; where the name stands already, a lemma gets another
        taken = b in everywhere and b not in to
        olds.sort(key=lambda a: ("-" in a, a))
        for i, a in enumerate(olds):
            if (i == 0 and not taken) or (i == 0 and "-" not in a):
                continue
            fresh, n = b + "_lem", 2
            while fresh in everywhere or fresh in by:
                fresh, n = f"{b}_lem{n}", n + 1
            to[a] = fresh
            everywhere.add(fresh)
    to.update(CHOSEN)
    return to


def turn_code(text, to):
    return "".join(to.get(t, t) for t in SEP.split(text))


def turn_comment(text, to):
    return re.sub(r"`[^`]*`", lambda m: turn_code(m.group(0), to), text)


def turn_antt(text, to):
    out = []
    for line in text.split("\n"):
        m = re.match(r"^(\s*)--(.*)$", line)
        out.append(m.group(1) + "--" + turn_comment(m.group(2), to) if m else turn_code(line, to))
    return "\n".join(out)


def turn_rt(text, to):
    """Ghost lines and the braces of clauses; code and strings stay."""
    out = []
    for line in text.split("\n"):
        s = line.strip()
        if s.startswith("//"):
            out.append(turn_comment(line, to))
        elif s.startswith("ghost ") or re.match(r"^(requires|ensures)\b", s):
            out.append(turn_code(line, to))
        else:
            out.append(line)
    return "\n".join(out)


def write(p, text):
    with open(p, "w", encoding="utf-8") as f:
        f.write(text)


def main():
    to, names, everywhere, lib, rust = mapping()
    to = settle(to, everywhere, lib)
    to = {a: b for a, b in to.items() if a != b}
    for p in antt():
        t = read(p)
        n = turn_antt(t, to)
        if n != t:
            write(p, n)
    for p in sorted(glob.glob("crates/*/src/**/*.rt", recursive=True)):
        t = read(p)
        n = turn_rt(t, to)
        if n != t:
            write(p, n)
    for a, b in sorted(to.items()):
        print(f"{a}\t{b}")


if __name__ == "__main__":
    sys.exit(main())
