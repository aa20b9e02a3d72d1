#!/usr/bin/env python3
"""Folded streams beside their flat ones (document 02, §4).

usage: check_folded.py [--streams N] [--seed S] [--strict] [--names] [--without-library] [...]

Makes N streams rich in folded records (generate.py, sort `folded`). Of each that can
be read it makes the flat stream: every F0 with its count is taken out, and each
operator moved after its operands. The two have the same answer: the same module, or
the same refusal at the record that stands at another place in the other. This is
asked of the library (by tools/driver), the oracle and the model. Exit status 1 if
anything is otherwise.
"""
import argparse
import os
import re
import sys
from collections import Counter

sys.path.insert(0, os.path.join(os.path.dirname(os.path.abspath(__file__)), '..'))
import paths
import compare
import generate
import model
import reading_model

PIECE = 500             # streams that are asked at once


def records_of(stream):
    """The bytes of each record."""
    starts = reading_model.record_starts(stream)
    return [stream[start:end] for start, end in zip(starts, starts[1:])]


def flattened(records):
    """The records in flat order, each with its number in the stream. The count of
    operands is a folded record's last byte."""
    flat, waiting = [], []              # waiting: how many operands, number, operator
    for number, record in enumerate(records):
        if record[0] != model.FOLDED:
            flat.append((number, record))
            continue
        waiting.append([record[-1], number, record[1:-1]])
        while waiting and waiting[-1][0] == 0:
            flat.append(tuple(waiting.pop()[1:]))
            if waiting:
                waiting[-1][0] -= 1
    return flat


def in_stream(line, flat):
    """The flat stream's answer with the record numbers of the folded one; that of 18
    is the count of records."""
    number = lambda found: found.group(1) + str([*flat, (len(flat), b'')][int(found.group(2))][0])
    return re.sub(r'( at )(\d+)', number, line)


def main():
    parser = argparse.ArgumentParser(description=__doc__, formatter_class=argparse.RawDescriptionHelpFormatter)
    parser.add_argument('--names', action='store_true', help='the call that also writes the name section')
    parser.add_argument('--strict', action='store_true', help='the strict call')
    parser.add_argument('--streams', type=int, default=10000, metavar='N')
    parser.add_argument('--seed', type=int, default=1)
    parser.add_argument('--oracle', default=paths.ORACLE, metavar='PROGRAM')
    parser.add_argument('--driver', default=paths.DRIVER, metavar='PROGRAM')
    parser.add_argument('--without-library', action='store_true', help='model and oracle alone')
    options = parser.parse_args()
    judges = compare.Judges(options.oracle, None if options.without_library else options.driver,
                            options.names, options.strict)
    for program in (judges.oracle, judges.driver):
        if program and not os.path.exists(program):
            parser.error('%s is not there; see docs/TESTING.md' % program)
    tally, wrong, count, moved = Counter(), [], 0, 0
    for first in range(0, options.streams, PIECE):
        made = [generate.stream('folded', options.seed, number)
                for number in range(first, min(first + PIECE, options.streams))]
        folded = [stream for stream in made
                  if reading_model.read(stream)[0] == 'ok' and any(one[0] == model.FOLDED for one in records_of(stream))]
        flat = [flattened(records_of(stream)) for stream in folded]
        answers = [judges.ask(streams, model.WORK, model.ROOM)
                   for streams in (folded, [b''.join(record for _, record in one) for one in flat])]
        for stream, one, of_folded, of_flat in zip(folded, flat, *answers):
            count += 1
            tally[compare.sort_of(of_folded['model'])] += 1
            moved += of_folded['model'] != of_flat['model']
            if of_folded != {judge: in_stream(line, one) for judge, line in of_flat.items()} or compare.differ(of_folded):
                wrong.append('%s\n    folded %s\n    flat   %s' % (stream.hex(' ').upper()[:600], of_folded, of_flat))
    for what in wrong[:5]:
        print(what)
    print(', '.join('%s: %d' % one for one in sorted(tally.items(), key=lambda one: (len(one[0]), one))))
    print('%d folded streams of %d, seed %d, %d refused at a record that has another number in the flat one, %d wrong'
          % (count, options.streams, options.seed, moved, len(wrong)))
    sys.exit(1 if wrong else 0)


if __name__ == '__main__':
    main()
