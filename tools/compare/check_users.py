#!/usr/bin/env python3
"""Compares the Rust crate's reader, writer and account with the Python ones.

usage: check_users.py [--streams N] [--seed S] --program PROGRAM

PROGRAM is the crate's example `accounts`. Streams of all sorts of generate.py
are read by both: the answers (reading_model.py) and the accounts (account.py)
must be the same, but for how a float is written and what is said of a fault; and
what the crate reads it must write as the same bytes. Exit status 1 if anything
differs.
"""
import argparse
import os
import subprocess
import sys

sys.path.insert(0, os.path.join(os.path.dirname(os.path.abspath(__file__)), '..'))
import paths
import account
import batch
import generate
import reading_model

SET = 200               # streams in one question


def answers(program, streams):
    """For each stream its first line and its account's lines."""
    out = subprocess.run([program], input=batch.pack(streams), stdout=subprocess.PIPE, check=True).stdout.decode()
    for one in out.split('\n\n')[:-1]:
        first, *lines = one.split('\n')
        yield first, lines


def comparable(line):
    """A line without what may differ."""
    for float_ in ('f32.const', 'f64.const'):
        if float_ in line:
            return line.split(float_)[0]
    return line.split(': at byte ')[0].rstrip()


def main():
    parser = argparse.ArgumentParser(description=__doc__, formatter_class=argparse.RawDescriptionHelpFormatter)
    parser.add_argument('--streams', type=int, default=2000, metavar='N')
    parser.add_argument('--seed', type=int, default=1)
    parser.add_argument('--program', required=True)
    options = parser.parse_args()
    count = wrong = 0
    for sort in generate.SORTS:
        for first in range(0, options.streams // len(generate.SORTS), SET):
            streams = [generate.stream(sort, options.seed, number) for number in range(first, first + SET)]
            for number, (stream, (line, lines)) in enumerate(zip(streams, answers(options.program, streams), strict=True)):
                count += 1
                expected = reading_model.line(reading_model.read(stream))
                told = [comparable(one) for one in account.lines(stream)]
                if line != expected or [comparable(one) for one in lines] != told:
                    wrong += 1
                    pairs = [pair for pair in zip(told, map(comparable, lines)) if pair[0] != pair[1]]
                    print('%s, seed %d, number %d: %s, expected %s; %s' % (
                        sort, options.seed, first + number, line, expected, pairs[:1]))
    print('%d streams, %d differ' % (count, wrong))
    sys.exit(1 if wrong else 0)


if __name__ == '__main__':
    main()
