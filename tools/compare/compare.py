#!/usr/bin/env python3
"""Holds the assembler to the crate's own code and to a plain model.

usage: compare.py [--strict] [--names] [--streams N] [--seed S] [--sort SORT] [--without-library] [...]

Makes N streams (generate.py), in pieces, and asks three judges of each:
  library   the assembler, through tools/driver
  oracle    the crate's own code (oracle/); of a stream outside the comparison
            it says so, and what its own reading of document 01 refuses it by
  model     tools/models/model.py
A line is printed for each sort of streams. Where two judges disagree, the
stream is made smaller and shown in hex with the answers, one for each pair of
sorts of answers. Most pieces are lent 16,384 words and 65,536 bytes; some fewer
words (10) or bytes (18), some more. With --sort all are of one sort. Exit status
1 on any disagreement.

With --names it is the call that also writes the name section (document 02, §1),
and the streams are rich in names. There the crate has one known difference
(docs/DIFFERENCES.md): it must then say, byte for byte, what the model says with
that difference. Such streams are counted, and one is shown.

With --strict it is the strict call (document 02, §8), with or without --names, and
the streams are rich in numbers. The crate has no such call: library and model
are compared, what the model says other than 20 must be what it says of the plain
call, and that is what the oracle judges.
"""
import argparse
import os
import subprocess
import sys
import time
from collections import Counter

sys.path.insert(0, os.path.join(os.path.dirname(os.path.abspath(__file__)), '..'))
import paths
import batch
import generate
import model
import shrink

PIECE = 500             # streams in a piece
PATIENCE = 60           # seconds for a program's answer to one piece

# Of each hundred pieces, how many are of a sort.
SHARES = (('rich', 26), ('faulty', 28), ('damaged', 22), ('edges', 4), ('folded', 20))
NAME_SHARES = (('names', 56), ('rich', 12), ('faulty', 10), ('damaged', 8), ('edges', 4), ('folded', 10))
STRICT_SHARES = (('numbers', 56), ('rich', 10), ('faulty', 10), ('damaged', 10), ('edges', 4), ('folded', 10))

# The model with the crate's known difference; of the plain call, where it is the strict one.
AS_CRATE = 'as crate'
PLAIN = 'plain'

# (words, bytes) lent; the first to nearly all pieces.
LENDINGS = ((16384, 65536),) * 12 + ((16383, 65536), (0, 65536), (16384, 60), (16384, 0), (16384, 200),
                                     (20000, 65537), (65536, 131072))


def run(command, streams):
    """A program's lines, or a line that says how it failed. Where it fails on
    a set, the halves are tried, so that only the stream that stops it is
    blamed."""
    try:
        done = subprocess.run(command, input=batch.pack(streams), stdout=subprocess.PIPE, stderr=subprocess.DEVNULL,
                              timeout=PATIENCE)
        lines, status = done.stdout.decode('ascii', 'replace').splitlines(), done.returncode
    except subprocess.TimeoutExpired:
        lines, status = [], 'none in %d s' % PATIENCE
    if len(lines) == len(streams) and status == 0:
        return lines
    if len(streams) == 1:
        return ['failed with status %s: %s' % (status, ' '.join(lines)[:200])]
    half = len(streams) // 2
    return run(command, streams[:half]) + run(command, streams[half:])


class Judges:
    """Those who are asked; the model always is."""

    def __init__(self, oracle, driver, names=False, strict=False):
        self.oracle = oracle
        self.driver = driver                    # None without the library
        self.names = names                      # whether it is the call with names
        self.strict = strict                    # whether it is the strict call

    def ask(self, streams, work, room):
        """For each stream the judges' answers, as {judge: line}."""
        modelled = lambda **call: [model.line(model.assemble(stream, work, room, self.names, **call))
                                   for stream in streams]
        named, strictly = ['--names'] * self.names, ['--strict'] * self.strict
        told = {'model': modelled(strict=self.strict)}
        if self.strict:
            told[PLAIN] = modelled()
        if self.oracle and work >= model.WORK:
            if self.names:
                told[AS_CRATE] = modelled(as_crate=True)
            told['oracle'] = run([self.oracle, '--batch', '--room', str(room), *named], streams)
        if self.driver:
            told['library'] = run([self.driver, '--work', str(work), '--room', str(room), *named, *strictly], streams)
        return [dict(zip(told, lines)) for lines in zip(*told.values())]


def differ(answers):
    """Whether the judges disagree; 'ours' is the oracle's word for a refusal
    that the crate does not have. The oracle is held to the model of the plain call,
    with the known difference, where there is one."""
    right = answers['model']
    plain = answers.get(PLAIN, right)
    of_crate = answers.get(AS_CRATE, plain)
    return (answers.get('library', right) != right
            or right != plain and not right.startswith('refused 20 at ')
            or answers.get('oracle', of_crate).replace('ours', 'refused') != of_crate)


def known(answers):
    """Whether the crate says something else because of the known difference."""
    plain = answers.get(PLAIN, answers['model'])
    return not differ(answers) and answers.get(AS_CRATE, plain) != plain


def sort_of(line):
    """An answer's first part: `ok`, or the refusal's number."""
    return 'ok' if line.startswith('ok') else line.split(' at ')[0]


def pieces(count, shares):
    """(sort, first number, size, words, bytes) of each piece. Each sort has
    its share of the streams, and has some of all lendings."""
    for sort, share in shares:
        wanted = count * share // 100
        for number, first in enumerate(range(0, wanted, PIECE)):
            yield (sort, first, min(PIECE, wanted - first)) + LENDINGS[number % len(LENDINGS)]


def pair_of(answers):
    """The sorts of the judges' answers, by which disagreements are told apart."""
    return tuple(map(sort_of, answers.values()))


def show(judges, is_like, stream, work, room):
    """The smallest stream found whose answers are like this one's, and the
    answers."""
    like = lambda some: [one for one, answers in zip(some, judges.ask(some, work, room)) if is_like(answers)]
    stream = shrink.smaller(stream, like)
    print('  lent %d words and %d bytes: %s' % (work, room, stream.hex(' ').upper() or '-'))
    for judge, line in judges.ask([stream], work, room)[0].items():
        print('    %-8s %s' % (judge, line if len(line) < 400 else line[:400] + '...'), flush=True)


def main():
    parser = argparse.ArgumentParser(description=__doc__, formatter_class=argparse.RawDescriptionHelpFormatter)
    parser.add_argument('--names', action='store_true', help='the call that also writes the name section')
    parser.add_argument('--strict', action='store_true', help='the strict call')
    parser.add_argument('--streams', type=int, default=20000, metavar='N')
    parser.add_argument('--seed', type=int, default=1)
    parser.add_argument('--sort', choices=generate.SORTS, help='streams of this sort alone (generate.py)')
    parser.add_argument('--oracle', default=paths.ORACLE, metavar='PROGRAM')
    parser.add_argument('--driver', default=paths.DRIVER, metavar='PROGRAM')
    parser.add_argument('--without-library', action='store_true', help='model and oracle alone')
    parser.add_argument('--without-oracle', action='store_true', help='model and library alone')
    parser.add_argument('--findings', type=int, default=5, metavar='N', help='disagreements to shrink for each sort')
    options = parser.parse_args()
    judges = Judges(None if options.without_oracle else options.oracle,
                    None if options.without_library else options.driver, options.names, options.strict)
    shares = STRICT_SHARES if options.strict else NAME_SHARES if options.names else SHARES
    if options.sort:
        shares = ((options.sort, 100),)
    for program in (judges.oracle, judges.driver):
        if program and not os.path.exists(program):
            parser.error('%s is not there; see docs/TESTING.md' % program)
    if not judges.oracle and not judges.driver:
        parser.error('nobody to compare the model with')
    start = time.monotonic()
    tallies = {sort: Counter() for sort, _ in shares}
    found = {sort: {} for sort, _ in shares}    # pair of answers -> (stream, work, room), the shortest
    bad = Counter()
    differences = []                            # (stream, work, room) with the known difference
    for sort, first, size, work, room in pieces(options.streams, shares):
        if not judges.driver:
            work = max(work, model.WORK)        # the oracle knows no 10
        streams = [generate.stream(sort, options.seed, number) for number in range(first, first + size)]
        for stream, answers in zip(streams, judges.ask(streams, work, room)):
            tallies[sort][sort_of(answers['model'])] += 1
            if known(answers):
                differences.append((stream, work, room))
            if differ(answers):
                bad[sort] += 1
                pair = pair_of(answers)
                if pair not in found[sort] or len(stream) < len(found[sort][pair][0]):
                    found[sort][pair] = stream, work, room
    for sort, tally in tallies.items():
        counts = ', '.join('%s: %d' % one for one in sorted(tally.items(), key=lambda one: (len(one[0]), one)))
        print('%s: %d streams, %d disagree (%s)' % (sort, sum(tally.values()), bad[sort], counts), flush=True)
        for pair, case in sorted(found[sort].items(), key=lambda one: len(one[1][0]))[:options.findings]:
            show(judges, lambda answers: differ(answers) and pair_of(answers) == pair, *case)
    if differences:
        print('known difference from the crate: %d streams, such as' % len(differences))
        show(judges, known, *min(differences, key=lambda case: (-case[2], len(case[0]))))
    print('%d streams, seed %d, %d disagree, %d s' % (sum(map(lambda tally: sum(tally.values()), tallies.values())),
                                                      options.seed, sum(bad.values()), time.monotonic() - start))
    sys.exit(1 if bad else 0)


if __name__ == '__main__':
    main()
