#!/usr/bin/env python3
"""Whether the layout of the work area is said once, and the same everywhere.

usage: check_layout.py

The constants of crates/area/src/lib.rt, those of crates/area/specs/Layout.antt (and
of the definition, for the two ends that it names) and the table in
docs/ARCHITECTURE.md must agree, the parts must stand one after the other, and no
other .rt or .antt file may have one of the numbers above 8 outside its comments.
"""
import os
import re
import sys

ROOT = os.path.join(os.path.dirname(os.path.abspath(__file__)), '..')
CODE = 'crates/area/src/lib.rt'
MODEL = 'crates/area/specs/Layout.antt'
DEFINITION = 'crates/definition/specs/Assemble.antt'
TABLE = 'docs/ARCHITECTURE.md'

# Where a number of the layout stands for something else.
ELSEWHERE = {
    'crates/assembler/src/lib.rt': (8192, 65536),       # how long the kept bytes are
    'crates/binary_types/src/lib.rt': (65536,),         # a page
    'crates/definition/specs/Deinline.antt': (65536,),  # a page
    'crates/definition/proofs/Samples.antt': (65536,),  # an output
    'crates/renaming/proofs/Demand3.antt': (65536,),    # an output
    'crates/renaming/proofs/Examples.antt': (65536,),   # an output
    'crates/name_table/src/name.rt': (65536,),          # a tag's weight
    'crates/name_table/specs/Area.antt': (65536,),      # a tag's weight
    'crates/name_table/proofs/Walk.antt': (65536,),     # a tag's weight
    'crates/console/src/lib.rt': (16384, 65536),        # what the programs lend
    'crates/leb_table/src/main.rt': (16384,),           # a power of 128
}


def lines(path):
    with open(os.path.join(ROOT, path)) as opened:
        return opened.read().split('\n')


def without_comment(path, line):
    return re.sub(r'//.*' if path.endswith('.rt') else r'(^|\s)--.*', '', line)


def constants_of_code():
    found = (re.match(r'pub const (\w+): \w+ = (\w+);', line) for line in lines(CODE))
    return {one[1]: int(one[2]) for one in found if one}


def constants_of_model(path, known):
    """The names of an antt file that are a number, or a name that is known."""
    found = (re.match(r'(\w+) = (\w+)$', line) for line in lines(path))
    return {one[1]: known.get(one[2]) if one[2] in known else int(one[2])
            for one in found if one and (one[2].isdigit() or one[2] in known)}


def rows():
    """The table of the work area: first and last word, and the constant's name or ''."""
    for line in lines(TABLE):
        row = re.match(r'\| (\d+)(?: to (\d+))? \| (?:`(\w+)`)? *\|', line)
        if row:
            yield int(row[1]), int(row[2] or row[1]), row[3] or ''


def sources():
    """The .rt and .antt files of the crates, without what rt keeps in out/."""
    for folder, folders, files in os.walk(os.path.join(ROOT, 'crates')):
        folders[:] = sorted(one for one in folders if one != 'out')
        for file in sorted(files):
            if file.endswith(('.rt', '.antt')):
                yield os.path.relpath(os.path.join(folder, file), ROOT)


def faults():
    code = constants_of_code()
    definition = constants_of_model(DEFINITION, {})
    model = constants_of_model(MODEL, definition)
    for name in sorted(code.keys() | model.keys()):
        if code.get(name) != model.get(name):
            yield '%s is %s in %s and %s in %s' % (name, code.get(name), CODE, model.get(name), MODEL)
    for name, named in ('BYTES', 'longest_stream'), ('WORDS', 'least_work'):
        if code.get(name) != definition.get(named):
            yield '%s is %s in %s, and %s is %s in %s' % (
                name, code.get(name), CODE, named, definition.get(named), DEFINITION)
    at, told = 0, {}
    for first, last, name in rows():
        if first != at:
            yield '%s: a part begins at word %d and not at %d' % (TABLE, first, at)
        at = last + 1
        if name:
            told[name] = first
    if at != code.get('WORDS'):
        yield '%s: the table ends before word %d, the area before %s' % (TABLE, at, code.get('WORDS'))
    for name in sorted(code.keys() - {'WORDS', 'BYTES', 'DECLARED', 'TABLE', 'MARK'} | told.keys()):
        if code.get(name) != told.get(name):
            yield '%s is %s in %s and %s in %s' % (name, code.get(name), CODE, told.get(name), TABLE)
    for first, each, after in ('NAMES', code.get('TABLE', 0), 'DEFINERS'), ('DEFINERS', 256, 'LOCALS'):
        if code.get(first, 0) + 7 * each != code.get(after):
            yield '%s: seven times %d from %s on does not end at %s' % (CODE, each, first, after)
    numbers = re.compile(r"(?<![\w'.])(%s)(?![\w'])" % '|'.join(str(n) for n in sorted(set(code.values())) if n > 8))
    for path in sources():
        if path in (CODE, MODEL, DEFINITION):
            continue
        for number, line in enumerate(lines(path), 1):
            for found in numbers.findall(without_comment(path, line)):
                if int(found) not in ELSEWHERE.get(path, ()):
                    yield '%s:%d: %s stands here, and not by its name' % (path, number, found)


def main():
    if len(sys.argv) != 1:
        sys.exit(__doc__)
    found = list(faults())
    for fault in found:
        print('check_layout: ' + fault)
    if found:
        sys.exit(1)
    print('check_layout: the layout is the same in code, model, definition and table')


if __name__ == '__main__':
    main()
