#!/usr/bin/env python3
"""Counts the older forms that docs/DESIGN-PASS.md speaks of, in crates/*/src and crates/*/proofs.

usage: tools/count_forms.py [TREE] [--places]    the checkout that this file is in, if no tree is named;
                                                 with --places each place on a line of its own
"""
import collections
import glob
import os
import re
import sys

NUMBER = r"(?:u8|u16|u32|u64|usize|i64|bool)"


def sources(tree):
    for path in sorted(glob.glob(f"{tree}/crates/*/src/**/*.rt", recursive=True)):
        yield path, open(path).read()


def line_of(text, at):
    return text.count("\n", 0, at) + 1


def enums(text):
    """Each enum with its variants: name, line, [(variant, has fields)]."""
    for m in re.finditer(r"^(?:pub )?enum (\w+)[^{]*\{\n(.*?)^\}", text, re.M | re.S):
        variants = re.findall(r"^    (\w+)(\(|\s*\{|,| =)", m[2], re.M)
        yield m[1], line_of(text, m.start()), [(v, after.strip() in ("(", "{")) for v, after in variants]


def functions(text):
    """Each function: name, line, head, body."""
    for m in re.finditer(r"^( *)(?:pub )?(?:extern \"C\" )?fn (\w+)", text, re.M):
        end = re.compile(rf"^{m[1]}\}}", re.M).search(text, m.start())
        whole = text[m.start() : end.end() if end else len(text)]
        at = re.search(rf"^{m[1]}\{{|\{{\n", whole, re.M)
        if at:
            yield m[2], line_of(text, m.start()), whole[: at.start()], whole[at.end() : -1]


def point1(tree):
    """Enums of the shape of Option or Result; a flag with a value beside it; numbers for kinds or refusals."""
    for path, text in sources(tree):
        for name, line, variants in enums(text):
            names = [v for v, _ in variants]
            if any(v in ("Fault", "Refused", "Unread") for v in names):
                yield path, line, f"enum {name} has a refusal among its variants"
            elif len(variants) == 2 and [f for _, f in variants].count(False) == 1:
                yield path, line, f"enum {name} is an Option"
        for m in re.finditer(r"(?:Fault|refusal_at|refused|Refused)\((\d+)\b", text):
            yield path, line_of(text, m.start()), f"refusal {m[1]} as a number"
        for m in re.finditer(r"^    pub (?:number|verdict|mutable|refusal): \w+", text, re.M):
            yield path, line_of(text, m.start()), "a field that says a kind by a number, or a flag beside a value"
        for m in re.finditer(r"\brefusal: u8|\bn: u8\)|\bk: u8\b", text):
            yield path, line_of(text, m.start()), f"a parameter that says a kind by a number: {m[0]}"


def shape(body):
    """A body without what twins differ in: types, numbers, constants."""
    body = re.sub(r"//.*", "", body)
    body = re.sub(r"\b[A-Z]\w*\b", "T", body)
    body = re.sub(rf"\b{NUMBER}\b", "T", body)
    body = re.sub(r"\b(?:0x[0-9A-Fa-f_]+|\d[\d_]*)\b", "0", body)
    return re.sub(r"\s+", " ", body).strip()


def point2(tree):
    """Functions that differ only in a type, a size or a constant."""
    groups = collections.defaultdict(list)
    for path, text in sources(tree):
        if "/main.rt" in path:
            continue
        for name, line, _, body in functions(text):
            s = shape(body.replace(name, "SELF"))
            if len(s) > 60:
                groups[s].append((path, line, name))
    for places in groups.values():
        if len(places) > 1:
            for path, line, name in places:
                others = ", ".join(n for _, _, n in places if n != name)
                yield path, line, f"{name} is as {others or 'its namesake'}"


def point3(tree):
    """Loops that count by hand."""
    for path, text in sources(tree):
        for m in re.finditer(r"^( *)(while|loop)\b.*\{\n", text, re.M):
            end = re.compile(rf"^{m[1]}\}}", re.M).search(text, m.end())
            body = text[m.end() : end.start()]
            if re.search(r"\b\w+(?:\.\w+)* (?:\+|-)= 1;", body):
                yield path, line_of(text, m.start()), m[0].strip(" {\n")


def point4(tree):
    """Equality, copying, conversion and printing by hand: functions that only compare, cast, name or print."""
    for path, text in sources(tree):
        for name, line, head, body in functions(text):
            if name == "from":
                continue
            flat = re.sub(r"\s+", " ", re.sub(r"//.*", "", body)).strip()
            if re.fullmatch(rf"\w+(?:\.\w+)? as {NUMBER}", flat):
                yield path, line, f"{name} is a cast"
            elif re.fullmatch(r"match \w+ \{ (?:[\w:]+(?:\([_, ]*\))? => (?:0x)?[\w:]+, )+\}", flat) and re.search(rf"-> {NUMBER}", head):
                yield path, line, f"{name} gives each variant a number"
            elif re.fullmatch(r"if \w+ \{ return \d+; \} \d+", flat):
                yield path, line, f"{name} is a bool as a number"
            elif re.match(r"(?:same|refused|eq)$", name):
                yield path, line, f"{name} compares or prints by hand"
        for m in re.finditer(r"space_code\(\w+\) == ", text):
            yield path, line_of(text, m.start()), "spaces compared by their numbers"


def clauses(head):
    for m in re.finditer(r"^ *requires(?: \w+)? \{ (.*) \}$", head, re.M):
        depth, part = 0, ""
        for c in m[1] + " × ":
            depth += c in "({"
            depth -= c in ")}"
            if c == "×" and depth == 0:
                yield part.strip().removeprefix("(").removesuffix(")")
                part = ""
            else:
                part += c


def point5(tree):
    """Facts that stand in the requires of three or more functions; parameters that travel together."""
    facts, params = collections.defaultdict(list), collections.defaultdict(list)
    for path, text in sources(tree):
        for name, line, head, _ in functions(text):
            for fact in set(clauses(head)):
                facts[re.sub(r"\.(now|old)\b", "", fact)].append((path, line, name))
            args = re.findall(r"(\w+): (&(?:mut )?\[[^\]]*\]|[\w:<>]+)", head.split("ensures")[0].split("requires")[0])
            names = [n for n, _ in args]
            for pair in (("s", "work"), ("work", "out"), ("out", "at"), ("sizes", "counts"), ("strict", "names")):
                if set(pair) <= set(names):
                    params[pair].append((path, line, name))
    for fact, places in facts.items():
        if len(places) >= 3:
            yield places[0][0], places[0][1], f"required by {len(places)} functions: {fact}"
    for pair, places in params.items():
        yield places[0][0], places[0][1], f"{len(places)} functions take {' and '.join(pair)}"


def point6(tree):
    """Buffers with a length beside them, parallel arrays, tables searched by hand, indices into an arena."""
    for path, text in sources(tree):
        for m in re.finditer(r"\[\d?u?\d*\w*; *(?:kept::)?SECTIONS\]|sizes: &mut \[u64\], ", text):
            yield path, line_of(text, m.start()), "parallel arrays"
        for name, line, head, _ in functions(text):
            if re.search(r"base: usize,\s+count: usize", head):
                yield path, line, f"{name}: a table as a base and a count"
            if re.search(r"\bhere: usize\b.*\bleft: u32\b|\bat: usize, (?:left|count|n): u32\b", head):
                yield path, line, f"{name}: a list as a place and a count"
        for m in re.finditer(r"^    let (?:link|place) = .*(?:link|work\[)", text, re.M):
            yield path, line_of(text, m.start()), "a tree of indices in the work area"


def point7(tree):
    """A switch on which step to run: an enum of steps that a caller passes, and a match that runs them."""
    for path, text in sources(tree):
        for name, line, variants in enums(text):
            if name in ("Elem", "Refers", "Target", "Often", "After", "Took"):
                yield path, line, f"enum {name} says which step to run"


def point8(tree):
    """Answers that only search, in proof files."""
    for path in sorted(glob.glob(f"{tree}/crates/*/proofs/*/**/Answers.antt", recursive=True)):
        text = open(path).read()
        goals = re.findall(r"^pub (\S+) : goal\.", text, re.M)
        for goal in goals:
            m = re.search(rf"^{re.escape(goal)} .*= (.*)$", text, re.M)
            if m and m[1].startswith("search"):
                yield path, line_of(text, m.start()), f"{goal} only searches"


POINTS = (point1, point2, point3, point4, point5, point6, point7, point8)


def main():
    args = [a for a in sys.argv[1:] if not a.startswith("--")]
    tree = args[0] if args else os.path.join(os.path.dirname(os.path.abspath(__file__)), "..")
    for number, point in enumerate(POINTS, 1):
        places = list(point(tree))
        print(f"{number}: {len(places)}  {point.__doc__.splitlines()[0]}")
        if "--places" in sys.argv:
            for path, line, what in places:
                print(f"   {os.path.relpath(path, tree)}:{line}: {what}")


main()
