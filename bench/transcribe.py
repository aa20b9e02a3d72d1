#!/usr/bin/env python3
"""Writes the assembler's sources as a Rust crate, to try what a change would
bring before it is proved.

usage: transcribe.py FOLDER

Without its contracts a .rt file is Rust as it stands: the clauses `requires` and
`ensures`, the ghost imports and the attributes for the prover are dropped, and each
crate becomes a module. What rustc makes of it is faster than what the proved library's back end makes (a tenth
or so), so compare a variant with the transcription, not with the library.
"""
import os
import re
import sys

HERE = os.path.dirname(os.path.abspath(__file__))
CRATES = os.path.join(HERE, '..', 'crates')
CLAUSE = re.compile(r'^\s*(requires|ensures)(\s+\w+)?\s*\{', re.M)
FOR_THE_PROVER = re.compile(r'^\s*#!?\[(tactic|cycle|unsafe\(no_mangle)\b.*\]\n', re.M)


def closing(text, at):
    """The place of the brace that closes the one at a place."""
    depth = 0
    for place in range(at, len(text)):
        depth += {'{': 1, '}': -1}.get(text[place], 0)
        if depth == 0:
            return place
    raise ValueError('a clause without its end')


def without_contracts(text):
    """A source as Rust."""
    text = '\n'.join(line for line in text.split('\n') if not line.lstrip().startswith('ghost '))
    while True:
        clause = CLAUSE.search(text)
        if not clause:
            break
        text = text[:clause.start()] + text[closing(text, clause.end() - 1) + 1:]
    return FOR_THE_PROVER.sub('', text)


def transcribed(text, crate, others, modules):
    """A file of a crate, with the paths of a module."""
    text = re.sub(r'\bcrate::', 'crate::%s::' % crate, without_contracts(text))
    for other in others - {crate} - modules:
        text = re.sub(r'(?<![\w:.])%s::' % other, 'crate::%s::' % other, text)
    return re.sub(r'^pub use (?!crate)', 'pub use self::', text, flags=re.M)


def main():
    if len(sys.argv) != 2:
        sys.exit(__doc__)
    folder = os.path.join(sys.argv[1], 'src')
    libraries = {crate for crate in os.listdir(CRATES) if os.path.exists(os.path.join(CRATES, crate, 'src', 'lib.rt'))}
    libraries -= {'console'}
    for crate in sorted(libraries):
        source = os.path.join(CRATES, crate, 'src')
        modules = {file[:-3] for file in os.listdir(source)} - {'lib'}
        os.makedirs(os.path.join(folder, crate), exist_ok=True)
        for file in os.listdir(source):
            with open(os.path.join(source, file)) as opened:
                text = transcribed(opened.read(), crate, libraries, modules)
            name = 'mod.rs' if file == 'lib.rt' else file[:-3] + '.rs'
            with open(os.path.join(folder, crate, name), 'w') as opened:
                opened.write(text)
    with open(os.path.join(folder, 'lib.rs'), 'w') as opened:
        opened.write('#![allow(warnings)]\n' + ''.join('pub mod %s;\n' % crate for crate in sorted(libraries)))
    with open(os.path.join(sys.argv[1], 'Cargo.toml'), 'w') as opened:
        opened.write('[package]\nname = "transcribed"\nversion = "0.0.0"\nedition = "2021"\n\n[profile.release]\nopt-level = 3\n')


if __name__ == '__main__':
    main()
