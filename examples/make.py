#!/usr/bin/env python3
"""Makes the example: a parcel notice, as a carrier's template would be.

usage: make.py [--check] [--program PROGRAM] [--oracle PROGRAM]

Writes notice.stream from the description below, notice.md (the stream record
by record, as tools/account.py reads it back) and notice.wasm, assembled by the
program; crates/assemble/out/assemble if no other is named. tools/models/model.py, and the
oracle where it is named, must give the same module. With --check nothing is
written, and the exit status is 1 if a stored file is not what would be written.
"""
import argparse
import os
import subprocess
import sys

HERE = os.path.dirname(os.path.abspath(__file__))
sys.path.insert(0, os.path.join(HERE, '..', 'tools'))
import paths
import account
import model
from records import (access, block, code, const, else_, end, export, func, global_, i32, if_, import_, inline_memory,
                     loop, type, use)

PROGRAM = os.path.join(paths.ROOT, 'crates', 'assemble', 'out', 'assemble')

# ---- the text, and where its parts stand in memory ----

PARTS = DEAR, PARCEL, DAY, DAYS, PLACE = 'Dear ', ', your parcel will wait ', ' day', ' days', ' at Harbour Street 5.\n'
TEXT = ''.join(PARTS)
DIGIT = len(TEXT)       # where the number of days is written, one digit
NAME = 128              # where the host puts the recipient's name, with a 0 after it


def say(part):
    """Prints a part of the text."""
    return code('i32.const %d' % TEXT.index(part), 'i32.const %d' % len(part), 'call say')


# ---- the stream ----

FIELDS = (
    # Who is written to and how many days the parcel waits; gives the length of the notice.
    type('letter', [i32, i32], [i32]),
    import_('env', 'print', 'func', 'print', use(params=[('at', i32), ('length', i32)])),
    inline_memory('text', TEXT.encode(), exports=['memory']),
    global_('name', i32, 0, const(i32, NAME), exports=['name']),
    global_('printed', i32, 1, const(i32, 0)),

    func('say', use(params=[('at', i32), ('length', i32)]), body=code(
        'local.get at', 'local.get length', 'call print',
        'global.get printed', 'local.get length', 'i32.add', 'global.set printed')),

    # How many bytes stand before the next 0.
    func('measure', use(params=[('at', i32)], results=[i32]), locals=[('count', i32)], body=code(
        block('done'),
        loop('next'),
        'local.get at', 'local.get count', 'i32.add', access('i32.load8_u'), 'i32.eqz', 'br_if done',
        'local.get count', 'i32.const 1', 'i32.add', 'local.set count',
        'br next',
        end('next'),
        end('done'),
        'local.get count')),

    func('say_days', use(params=[('days', i32)]), body=code(
        'i32.const %d' % DIGIT, 'local.get days', 'i32.const %d' % ord('0'), 'i32.add', access('i32.store8'),
        'i32.const %d' % DIGIT, 'i32.const 1', 'call say',
        'local.get days', 'i32.const 1', 'i32.eq',
        if_('one'), say(DAY), else_('one'), say(DAYS), end('one'))),

    # The case that started all this: the parameters come from the declared
    # type alone, so they have no names here, and the local must come after
    # them. Were `length` number 0, it would take the place of the name.
    func('notice', use('letter'), locals=[('length', i32)], body=code(
        'i32.const 0', 'global.set printed',
        'local.get 0', 'call measure', 'local.set length',
        say(DEAR),
        'local.get 0', 'local.get length', 'call say',
        say(PARCEL),
        'local.get 1', 'call say_days',
        say(PLACE),
        'global.get printed')),

    export('notice', 'func', 'notice'),
)

ACCOUNT = '''# The records of notice.stream

Written by `python3 examples/make.py`, which has the description that the stream is made from. Offsets
and record numbers count from 0, bytes are in hex. `barrizuppa account STREAM` shows any stream so, and
`python3 tools/account.py < STREAM` does, too; docs/STREAM.md says what the bytes mean.

```
%s
```
'''


def assembled(program, stream):
    """The module that the program writes; a refusal ends the run."""
    module = subprocess.run([program], input=stream, stdout=subprocess.PIPE, check=True).stdout
    if not module.startswith(b'\0asm'):
        sys.exit('make.py: %s says: %s' % (program, module.decode(errors='replace').strip()))
    return module


def judged(oracle, stream):
    """The oracle's module, by its line `ok HEX`."""
    said = subprocess.run([oracle], input=stream, stdout=subprocess.PIPE, check=True).stdout.decode().split()
    return bytes.fromhex(said[1]) if said[0] == 'ok' else b''


def differing(stream, module, oracle):
    """Who gives another module than the program."""
    others = {'tools/models/model.py': model.assemble(stream)[1]}
    if oracle:
        others[oracle] = judged(oracle, stream)
    return [name for name, other in others.items() if other != module]


def stored(name):
    """A stored file's bytes; None if there is none."""
    path = os.path.join(HERE, name)
    if not os.path.exists(path):
        return None
    with open(path, 'rb') as file:
        return file.read()


def main():
    parser = argparse.ArgumentParser(description=__doc__, formatter_class=argparse.RawDescriptionHelpFormatter)
    parser.add_argument('--check', action='store_true')
    parser.add_argument('--program', default=PROGRAM)
    parser.add_argument('--oracle')
    options = parser.parse_args()
    stream = b''.join(FIELDS)
    module = assembled(options.program, stream)
    files = {'notice.stream': stream, 'notice.md': (ACCOUNT % '\n'.join(account.lines(stream))).encode(),
             'notice.wasm': module}
    wrong = ['%s gives another module' % name for name in differing(stream, module, options.oracle)]
    for name, content in files.items():
        if not options.check:
            with open(os.path.join(HERE, name), 'wb') as file:
                file.write(content)
        elif stored(name) != content:
            wrong.append('%s is not what would be written' % name)
    for what in wrong:
        print('make.py: ' + what)
    if not wrong:
        print('%d records, %d bytes; a module of %d bytes' % (len(list(account.told(stream))), len(stream), len(module)))
    sys.exit(1 if wrong else 0)


if __name__ == '__main__':
    main()
