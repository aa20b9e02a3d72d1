#!/usr/bin/env python3
"""Compares a program that reads record streams with reading_model.py.

usage: compare_reading.py [--random N] [--seed S] [--count N] PROGRAM [ARGUMENT ...]

PROGRAM reads streams in the batch form from standard input and prints a line
for each, `records N` or `refused N at R`. It is run on the lists of streams.py
(samples, valid, ceilings, faults, damage) and on N random streams. For each
list that disagrees, the smallest stream is made smaller and shown with both
answers. Exit status 1 on any disagreement.
"""
import argparse
import os
import subprocess
import sys
import time

sys.path.insert(0, os.path.join(os.path.dirname(os.path.abspath(__file__)), '..'))
import paths
import batch
import reading_model as model
import streams

PIECE = 1 << 20         # bytes of streams for one run of the program
PATIENCE = 20           # seconds for one run
SHRINKING = 60          # seconds for making one stream smaller


def answers(command, some):
    """(stream, model's line, program's line) for each. Where the program does
    not answer a set with as many lines and status 0, the halves of the set are
    tried, so that only the stream that stops it is blamed."""
    try:
        done = subprocess.run(command, input=batch.pack(some), stdout=subprocess.PIPE, timeout=PATIENCE)
        lines, status = done.stdout.decode('ascii', 'replace').splitlines(), done.returncode
    except subprocess.TimeoutExpired:
        lines, status = [], 'none in %d s' % PATIENCE
    if len(lines) == len(some) and status == 0:
        for stream, said in zip(some, lines):
            yield stream, model.line(model.read(stream)), said
    elif len(some) == 1:
        yield some[0], model.line(model.read(some[0])), '%s (%d lines, status %s)' % (lines[:1], len(lines), status)
    else:
        half = len(some) // 2
        yield from answers(command, some[:half])
        yield from answers(command, some[half:])


def smaller(command, found):
    """Drops pieces, long ones first, as long as the answers still differ; a
    piece may leave a 0 in its place, so that a name goes with its length."""
    end = time.monotonic() + SHRINKING
    size = max(1, len(found[0]) // 2)
    while size > 0:
        stream = found[0]
        step = 1 if size <= 16 else size
        candidates = (stream[:at] + left + stream[at + size:] for at in range(0, len(stream), step)
                      for left in ((b'', b'\0') if size > 1 else (b'',)))
        better = None
        for piece in in_pieces(candidates):
            differ = [one for one in answers(command, piece) if one[1] != one[2]]
            if differ:
                better = min(differ, key=lambda one: len(one[0]))
            if differ or time.monotonic() > end:
                break
        if better:
            found = better
        else:
            size = size - 1 if size <= 16 else size // 2
        if time.monotonic() > end:
            break
    return found


def in_pieces(some):
    """Streams in sets of about PIECE bytes."""
    piece, size = [], 0
    for stream in some:
        piece.append(stream)
        size += len(stream) + 1
        if size >= PIECE:
            yield piece
            piece, size = [], 0
    if piece:
        yield piece


def main():
    parser = argparse.ArgumentParser(description=__doc__, formatter_class=argparse.RawDescriptionHelpFormatter)
    parser.add_argument('--random', type=int, default=10000, metavar='N')
    parser.add_argument('--seed', type=int, default=1)
    parser.add_argument('--count', type=int, default=48, help='valid streams, also those that are damaged')
    parser.add_argument('command', nargs=argparse.REMAINDER, metavar='PROGRAM')
    options = parser.parse_args()
    if not options.command:
        parser.error('which program?')
    seed, count = options.seed, options.count
    bad = False
    for what, cases in [
            ('samples', streams.samples()),
            ('valid', streams.valid(seed, count)),
            ('ceilings', streams.ceilings()),
            ('faults', streams.faults()),
            ('damage', streams.damage(streams.valid(seed, count))),
            ('random', streams.randoms(seed, options.random))]:
        total, differ, tally = 0, [], {}
        for piece in in_pieces(case.stream for case in cases):
            for stream, ours, said in answers(options.command, piece):
                total += 1
                sort = ours.split(' at ')[0] if ours.startswith('refused') else 'accepted'
                tally[sort] = tally.get(sort, 0) + 1
                if ours != said:
                    differ.append((stream, ours, said))
        counts = ', '.join('%s: %d' % one for one in sorted(tally.items()))
        print('%s: %d streams, %d disagree (%s)' % (what, total, len(differ), counts), flush=True)
        if differ:
            bad = True
            stream, ours, said = smaller(options.command, min(differ, key=lambda one: len(one[0])))
            print('  smallest found: %s' % (stream.hex().upper() or '-'))
            print('  model: %s\n  program: %s' % (ours, said), flush=True)
    sys.exit(1 if bad else 0)


if __name__ == '__main__':
    main()
