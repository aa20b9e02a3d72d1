#!/usr/bin/env python3
"""How long a program takes over streams that are made to be slow.

usage: slow_streams.py PROGRAM [WORD ..]

  calls    256 functions whose names differ in their last bytes, and calls of
           the last of them
  labels   128 open blocks of such names, and branches to the outermost
  types    255 types that differ in their last parameters, and uses of the last
  bucket   types in one bucket of the index over types, on the longest way through
           its tree that some seconds of search find, and uses of the last of them
Each is a stream of nearly 65,536 bytes, the last of as many records as there
may be. PROGRAM reads it from standard input, as crates/assemble/out/assemble and
`barrizuppa assemble` do. What counts is the processor's time, the best of all
runs, less that of an empty stream.
"""
import os
import re
import resource
import subprocess
import sys

sys.path.insert(0, os.path.join(os.path.dirname(os.path.abspath(__file__)), '..'))
import paths
import model
import records as r
from reading_model import RECORDS, STREAM

RUNS = 25
INDEX = os.path.join(paths.ROOT, 'crates', 'type_table', 'src', 'index.rt')

# The signatures that are searched have so many parameters at most, the one that is used so many.
PARAMETERS = 9
USED = 5


def name(number):
    """64 bytes, most of them shared by all."""
    return 'x' * 60 + '%04d' % number


def filled(before, one, after):
    """As many of `one` between two parts as a stream has room for."""
    return before + one * ((STREAM - len(before) - len(after)) // len(one)) + after


def calls():
    """The callee is the last in the table."""
    functions = b''.join(r.func(name(number)) for number in range(model.TYPES))
    return filled(functions[:-1], r.code('call ' + name(model.TYPES - 1)), b'\xFF')


def labels():
    """The label is the last that a search from the innermost block meets."""
    blocks = 128
    head = r.func('f')[:-1] + b''.join(r.block(name(number)) for number in range(blocks))
    return filled(head, r.code('br ' + name(0)), r.end() * blocks + b'\xFF')


def types():
    """The caller's own type is the 256th."""
    four = (r.i32, r.i64, r.f32, r.f64)
    parameters = [[r.i32] * 60 + [four[number >> shift & 3] for shift in (6, 4, 2, 0)]
                  for number in range(model.TYPES - 1)]
    head = b''.join(r.type(None, some) for some in parameters) + r.func('f')[:-1]
    return filled(head, r.call_indirect(r.use(None, parameters[-1])), b'\xFF')


def buckets():
    """All short signatures without results, each after its hash, by the numbers that the code has."""
    with open(INDEX) as source:
        said = dict(re.findall(r'^const (\w+): u64 = (\w+);', source.read(), re.M))
    half, start, spread, other, count = (int(said[word], 0) for word in ('HALF', 'START', 'SPREAD', 'OTHER', 'BUCKETS'))

    def mix(before, value):
        a, b = (before % half + value * spread) % half, (before // half + other) % half
        return a * b + a + b

    found = [[] for _ in range(count)]
    longest = [(start, ())]
    for _ in range(PARAMETERS):
        longest = [(mix(total, value), some + (value,)) for total, some in longest for value in (r.i32, r.i64, r.f32, r.f64)]
        for total, some in longest:
            ended = mix(total, 0)
            found[ended // half % count].append((ended, some))
    return found


def way(types, bit=0):
    """The longest way through a tree of some types, to one that is short enough to be used often. A
    tree branches by the bits of the hash, so what stands before a type has its bits up to there."""
    if len(types) < 2 or bit == 64:
        return [one for one in types if len(one[1]) <= USED][:1]
    sides = ([one for one in types if one[0] >> bit & 1 == side] for side in (0, 1))
    end = max((way(side, bit + 1) for side in sides), key=len)
    return end and [one for one in types if one not in end][:1] + end


def bucket():
    """The last type that was declared is the last on its way."""
    parameters = [some for _, some in max(map(way, buckets()), key=len)]
    head = b''.join(r.type(None, some) for some in parameters) + r.func('f')[:-1]
    uses = RECORDS - len(parameters) - 2
    return head + r.call_indirect(r.use(None, parameters[-1])) * uses + b'\xFF'


def seconds(program, stream):
    """The processor's time for one run."""
    before = resource.getrusage(resource.RUSAGE_CHILDREN)
    subprocess.run(program, input=stream, stdout=subprocess.DEVNULL, check=True)
    after = resource.getrusage(resource.RUSAGE_CHILDREN)
    return after.ru_utime - before.ru_utime + after.ru_stime - before.ru_stime


def best(program, stream):
    return min(seconds(program, stream) for _ in range(RUNS))


def main():
    program = sys.argv[1:]
    if not program:
        sys.exit(__doc__)
    start = best(program, b'')
    for sort in (calls, labels, types, bucket):
        stream = sort()
        assert model.assemble(stream)[0] == 'ok'
        took = best(program, stream) - start
        print('%s: %d bytes, %.1f ms, %.0f ns/byte' % (sort.__name__, len(stream), took * 1e3, took * 1e9 / len(stream)))


if __name__ == '__main__':
    main()
