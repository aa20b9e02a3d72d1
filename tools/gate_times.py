#!/usr/bin/env python3
"""Where the gate's time goes: when each crate was done, and what became of its edits.

usage: .ci/run 2>&1 | gate_times.py --stamp > FILE       while the gate runs
       gate_times.py FILE                                afterwards

rt says nothing of time, so with --stamp each line of the gate gets the second at
which it came, counted from the first. FILE may also be a log without seconds; then
only what became of crates and edits is shown.

Crates are proved side by side and their edits are tried beside them, so the seconds
say when a crate's proof, its tests' proof and the first of its edits came, and not
how long each took. What an earlier run on this machine proved is kept, and takes no
time: `rt ci --anew` proves all.
"""
import re
import sys
import time

STAMPED = re.compile(r'^ *(\d+) s \| (.*)$')
PROVED = re.compile(r'^rt: (\w+)(: its tests are)? (proved|NOT PROVED)\b')
KEPT = re.compile(r'^rt: (\w+) is kept: ')
BEGUN = re.compile(r'^rt: (\w+): trying its must-fail edits \((\d+)\)$')
EARLIER = re.compile(r'^rt: (\w+): (\d+) of its (\d+) must-fail edits were tried by an earlier run')
EDIT = re.compile(r'^rt: must-fail (\w+)/([^:\s]+): (.*)$')
RAN = re.compile(r'^rt: \w+(?: ran\b|: its tests passed)')
WRONG = re.compile(r'^rt: (?:.*\b(?:NOT PROVED|FAILED|NOT REFUSED|NOT TRIED|BAD EDIT)\b'
                   r'|\w+[^:]*: (?:the program |what the program wrote))')
OK = re.compile(r'^rt: ok\b')
LAST = re.compile(r'^(\d+) passed, (\d+) failed\b')


def stamp():
    """Each line of standard input with its second."""
    first = None
    for line in sys.stdin:
        now = time.monotonic()
        first = now if first is None else first
        print('%6d s | %s' % (now - first, line.rstrip('\n')), flush=True)


def read(path):
    """The lines of a log, each with its second or None."""
    with open(path, errors='replace') as opened:
        for line in opened:
            found = STAMPED.match(line.rstrip('\n'))
            yield (int(found[1]), found[2]) if found else (None, line.rstrip('\n'))


def told(at, what):
    """What a column shows of a proof: its second, or that it is there, or a dash."""
    return '-' if what != 'proved' else what if at is None else str(at)


def main():
    if sys.argv[1:] == ['--stamp']:
        return stamp()
    if len(sys.argv) != 2 or sys.argv[1].startswith('-'):
        sys.exit(__doc__)
    crates, tests, begun, edits, wrong = {}, {}, {}, {}, []
    earlier, ran, ok, last, end = 0, 0, None, None, None
    for at, line in read(sys.argv[1]):
        end = at if at is not None else end
        proved, kept, edit = PROVED.match(line), KEPT.match(line), EDIT.match(line)
        tries, tried = BEGUN.match(line), EARLIER.match(line)
        if proved:
            (tests if proved[2] else crates)[proved[1]] = told(at, proved[3])
        elif kept:
            crates[kept[1]] = 'kept'
        elif tries:
            begun[tries[1]] = at
        elif tried:
            earlier += int(tried[2])
        elif edit:
            edits.setdefault(edit[1], []).append(edit[3].startswith('refused'))
        elif RAN.match(line):
            ran += 1
        elif OK.match(line):
            ok = line
        elif LAST.match(line):
            last = line
        if WRONG.match(line):
            wrong.append(line)
    if not crates:
        sys.exit('no crate is proved in ' + sys.argv[1])
    print('%-16s %8s %8s %8s %6s %8s' % ('crate', 'proof', 'tests', 'edits at', 'edits', 'refused'))
    for crate in crates:
        tried = edits.get(crate, [])
        since = begun.get(crate)
        print(('%-16s %8s %8s %8s %6s %8s' % (
            crate, crates[crate], tests.get(crate, ''), '' if since is None else since,
            len(tried) or '', sum(tried) if tried else '')).rstrip())
    count, refused = sum(map(len, edits.values())), sum(map(sum, edits.values()))
    print('\n%d crates, %d of them kept; %d edits, %d of them tried earlier, %d refused; %d runs of programs and tests%s' % (
        len(crates), sum(one == 'kept' for one in crates.values()), count, earlier, refused, ran,
        '' if end is None else '; %d seconds' % end))
    for line in wrong:
        print(line)
    if ok:
        print(ok)
    print(last or 'the last line, N passed, M failed, is missing')


if __name__ == '__main__':
    main()
