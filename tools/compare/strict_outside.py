#!/usr/bin/env python3
"""Numbers that point nowhere (document 02, §8): what wasm-validate says of them.

usage: strict_outside.py [--streams N] [--seed S] [--driver PROGRAM] [--without-library]

Makes N streams rich in numbers (generate.py, sort `numbers`), asks the plain and
the strict call of each, in the library (by tools/driver) and in the model, which
must agree, and has wasm-validate (wabt 1.0.32) look at what the plain call writes:
  - what the strict call writes is what the plain call writes, and wasm-validate
    has no message of an index that is out of range; others, such as of types that
    do not fit, it may have;
  - what the strict call refuses 20 and the plain call writes, wasm-validate
    refuses, by such a message, or seldom by messages of other faults alone; these
    are counted, and more than one in a hundred is wrong;
  - any other answer of the strict call is the plain call's.
A line for each sort of use shows how often it was accepted and how often it was
the one that was refused 20, by a number and where the index is absent. One
message is no fault: wasm-validate knows, in a global's constant, only the globals
before it, and says of a later one that it is out of range; such a number lies below
the count. Those are counted. Exit status 1 if anything is otherwise, or if a sort
of use was not seen on both sides.
"""
import argparse
import os
import re
import subprocess
import sys
import tempfile
from collections import Counter
from concurrent.futures import ThreadPoolExecutor

sys.path.insert(0, os.path.join(os.path.dirname(os.path.abspath(__file__)), '..'))
import paths
import compare
import generate
import model
from reading_model import SPACES, record_starts

PIECE = 500             # streams that are asked at once
FLAGS = ('--enable-multi-memory', '--enable-memory64')

# wasm-validate's words for an index that is out of range. It has some of its own where there is no memory at all;
# and of a block's type it reads 32 bits, and cannot read a number that takes more.
OUT_OF_RANGE = re.compile(
    r'variable out of range|invalid depth: |memory index \d+ out of range|load/store memory \d+ out of range'
    r'|no memory to copy data to|unable to read i32 leb128: \w+ signature type')
GLOBAL = re.compile(r'global variable out of range: (\d+) \(max \d+\)')

# Sorts of use, by the record's first byte.
USES = {0x02: 'import', 0x03: 'function', 0x04: 'inline table', 0x06: 'global', 0x07: 'export',
        0x08: 'start', 0x09: 'element segment', 0x0A: 'data segment'}
CODE = {0x02: 'block', 0x03: 'loop', 0x04: 'if', 0x0C: 'br', 0x0D: 'br_if', 0x0E: 'br_table',
        0x10: 'call', 0x11: 'call_indirect', 0x20: 'local.get', 0x21: 'local.set', 0x22: 'local.tee',
        0x23: 'global.get', 0x24: 'global.set', 0x3F: 'memory.size', 0x40: 'memory.grow',
        0xD2: 'ref.func'}
BULK = {model.INIT: 'memory.init', model.DROP: 'data.drop', model.COPY: 'memory.copy', model.FILL: 'memory.fill'}


class Uses(generate.Counting):
    """What each index of a stream is: (sort of use, space, is it absent), with
    whether it lies within its count."""

    def __init__(self, stream):
        super().__init__(stream)
        self.stream = stream
        self.starts = record_starts(stream)
        self.bodies = {at for _, field in self.fields if type(field) is model.Func for at, _, _ in field.body}
        self.space = None               # of the item that is asked for
        self.seen = []

    def number(self, record, space, index):
        """An item's number."""
        self.space = SPACES[space]
        try:
            return super().number(record, space, index)
        finally:
            self.space = None

    def resolved(self, record, index, names, count):
        """Notes an index by a number, and one that is absent."""
        if index is None or isinstance(index, generate.Number):
            use = self.use(record)
            space = self.space or ('local' if use.startswith('local') else 'label')
            self.seen.append(((use, space, index is None), (index or 0) < count))
        return super().resolved(record, index, names, count)

    def use(self, record):
        """The sort of use that a record is."""
        at = self.starts[record]
        if record not in self.bodies:
            return USES.get(self.stream[at], 'item')
        at += self.stream[at] == model.FOLDED           # the operator's
        first = self.stream[at]
        if 0x28 <= first <= 0x3E:
            return 'load' if first < 0x36 else 'store'
        if first == model.BULK:
            return BULK[self.stream[at + 1]]
        return CODE[first]


def complaints(modules):
    """wasm-validate's messages of each module; None for one that it takes."""
    with tempfile.TemporaryDirectory() as folder:
        def said(numbered):
            file = os.path.join(folder, '%d.wasm' % numbered[0])
            with open(file, 'wb') as opened:
                opened.write(numbered[1])
            done = subprocess.run(['wasm-validate', *FLAGS, file], stdout=subprocess.PIPE, stderr=subprocess.STDOUT)
            if done.returncode not in (0, 1):
                return ['wasm-validate ended with status %d' % done.returncode]
            lines = done.stdout.decode(errors='replace').splitlines()
            return [line for line in lines if 'error: ' in line] if done.returncode else None
        with ThreadPoolExecutor(2) as several:
            return list(several.map(said, enumerate(modules)))


def of_indices(messages, globals_count):
    """The messages of an index out of range, and how many are of a global that
    only comes later."""
    some = [message for message in messages or () if OUT_OF_RANGE.search(message)]
    later = [message for message in some
             if GLOBAL.search(message) and int(GLOBAL.search(message).group(1)) < globals_count]
    return [message for message in some if message not in later], len(later)


def kind_of(message):
    """A message without its place and its numbers."""
    return re.sub(r'\d+', 'N', message.split('error: ')[-1]).split(' (max')[0]


class Tally:
    """What was seen."""

    def __init__(self):
        self.answers = Counter()        # (plain, strict)
        self.within = Counter()         # of each sort of use, in streams that are accepted
        self.beyond = Counter()         # of each, where it is the one refused 20
        self.messages = Counter()
        self.later = 0
        self.other = 0                  # refused 20, and by wasm-validate for another fault
        self.wrong = []


def judge(tally, stream, plain, strict, messages):
    """One stream with the two calls' lines and wasm-validate's messages."""
    uses = Uses(stream).run()
    wrong = lambda what: tally.wrong.append('%s: %s; plain %s, strict %s; %s'
                                            % (what, stream.hex(' ').upper(), plain[:60], strict[:60], messages))
    tally.answers[compare.sort_of(plain), compare.sort_of(strict)] += 1
    refused = strict.startswith('refused 20 at ')
    if not refused and strict != plain:
        wrong('the strict call differs')
    if not plain.startswith('ok '):
        return
    named, later = of_indices(messages, uses.counts[model.GLOBAL])
    tally.later += later
    first = next((use for use, within in uses.seen if not within), None)
    if refused:
        tally.messages.update(set(map(kind_of, named)))
        tally.beyond[first] += 1
        if messages is None:
            wrong('wasm-validate takes it')
        tally.other += not named
    else:
        tally.within.update(use for use, _ in uses.seen)
        if named:
            wrong('wasm-validate has an index out of range')


def main():
    parser = argparse.ArgumentParser(description=__doc__, formatter_class=argparse.RawDescriptionHelpFormatter)
    parser.add_argument('--streams', type=int, default=10000, metavar='N')
    parser.add_argument('--seed', type=int, default=1)
    parser.add_argument('--driver', default=paths.DRIVER, metavar='PROGRAM')
    parser.add_argument('--without-library', action='store_true', help='the model alone')
    options = parser.parse_args()
    driver = None if options.without_library else options.driver
    if driver and not os.path.exists(driver):
        parser.error('%s is not there; see docs/TESTING.md' % driver)
    calls = [compare.Judges(None, driver, strict=strict) for strict in (False, True)]
    tally = Tally()
    for first in range(0, options.streams, PIECE):
        streams = [generate.stream('numbers', options.seed, number)
                   for number in range(first, min(first + PIECE, options.streams))]
        told = [judges.ask(streams, model.WORK, model.ROOM) for judges in calls]
        for stream, answers in zip(streams * 2, told[0] + told[1]):
            if compare.differ(answers):
                tally.wrong.append('the judges differ: %s: %s' % (stream.hex(' ').upper(), answers))
        plain, strict = ([answers['model'] for answers in some] for some in told)
        written = [number for number, line in enumerate(plain) if line.startswith('ok ')]
        said = dict(zip(written, complaints([bytes.fromhex(plain[number][3:]) for number in written])))
        for number, stream in enumerate(streams):
            judge(tally, stream, plain[number], strict[number], said.get(number))
    report(tally, options)


def report(tally, options):
    """What was seen, and the exit status."""
    for (use, space, absent) in sorted(set(tally.within) | set(tally.beyond)):
        one = use, space, absent
        print('%-16s %-7s %-7s accepted %6d, refused 20 %5d'
              % (use, space, 'absent' if absent else '', tally.within[one], tally.beyond[one]))
        if not tally.within[one] or not tally.beyond[one]:
            tally.wrong.append('not seen on both sides: %s %s%s' % (use, space, ' absent' if absent else ''))
    print("wasm-validate's words: " + '; '.join('%s (%d)' % one for one in tally.messages.most_common()))
    print('a global that comes later, in a constant: %d' % tally.later)
    print('refused 20, and by wasm-validate by another message: %d' % tally.other)
    if 100 * tally.other > sum(tally.beyond.values()):
        tally.wrong.append('too many without a message of an index')
    print('answers: ' + ', '.join('%s and strictly %s: %d' % (*pair, count)
                                  for pair, count in sorted(tally.answers.items())))
    for what in tally.wrong[:10]:
        print(what[:1500])
    print('%d streams, seed %d, %d sorts of use, %d wrong'
          % (options.streams, options.seed, len(set(tally.within) | set(tally.beyond)), len(tally.wrong)))
    sys.exit(1 if tally.wrong else 0)


if __name__ == '__main__':
    main()
