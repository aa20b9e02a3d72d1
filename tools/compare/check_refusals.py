#!/usr/bin/env python3
"""Has the assembler refuse every stream of docs/REFUSALS.md.

usage: check_refusals.py [--program PROGRAM] [--driver PROGRAM] [--document FILE] [--smallest]

The document has a heading `## N: ...` for each refusal, and under it lines

    STREAM  refused N at R  WHAT IT IS      (of 13 `refused 13 at R, first at F`)

A stream is in hex; `3 × (01 02)` stands for three copies, `empty` for nothing.
`lent 7 bytes:` or `lent 9 words:` before it says that a call is lent so much
output or work area: such a line needs the library and is asked of tools/driver,
built as docs/TESTING.md says. `strict:` says that the strict call is meant. With
--smallest the first stream of each heading is compared with shorter ones, by
tools/models/model.py. Exit status 1 if anything is wrong or was not asked.
"""
import argparse
import itertools
import os
import re
import subprocess
import sys
from collections import namedtuple

sys.path.insert(0, os.path.join(os.path.dirname(os.path.abspath(__file__)), '..'))
import paths
import batch
import model
import reading_model

DOCUMENT = os.path.join(paths.ROOT, 'docs', 'REFUSALS.md')
NUMBERS = range(1, 21)

TRIED = 3               # bytes: every stream up to this length is tried
STRUCK = 17             # bytes: up to this length every part is tried

HEADING = re.compile(r'## (\d+): ')
LINE = re.compile(r'    (?:lent ([\d,]+) (bytes|words): )?(strict: )?(\S.*?)'
                  r'  +(refused (\d+) at \d+(?:, first at \d+)?)  +\S')
COPIES = re.compile(r'([\d,]+) × \(([^)]*)\)')

# lent: the driver's option and its value, or nothing. strict: whether it is the strict call. answer: the line that
# the program prints.
Case = namedtuple('Case', 'number lent strict stream answer')


def amount(text):
    """A number with commas."""
    return int(text.replace(',', ''))


def bytes_of(text):
    """The stream that the document writes so."""
    if text == 'empty':
        return b''
    return bytes.fromhex(COPIES.sub(lambda found: found.group(2) * amount(found.group(1)), text))


def cases(document):
    """The lines of the document under their headings; a slip in its form ends the run."""
    number = 0
    for row in document.splitlines():
        heading = HEADING.match(row)
        if heading:
            number = int(heading.group(1))
        found = LINE.match(row)
        if found:
            count, what, strict, stream, answer, answered = found.groups()
            if int(answered) != number:
                sys.exit('check_refusals.py: under %d: %s' % (number, row.strip()))
            lent = ('--room' if what == 'bytes' else '--work', str(amount(count))) if count else ()
            yield Case(number, lent, bool(strict), bytes_of(stream), answer)
        elif number and row.startswith('    ') and 'refused' in row:
            sys.exit('check_refusals.py: not understood: ' + row.strip())


def said(case, program, driver):
    """What the program or the library says, as a line; None if it cannot be asked."""
    strictly = ['--strict'] * case.strict
    if not case.lent:
        out = subprocess.run([program, *strictly], input=case.stream, stdout=subprocess.PIPE, check=True).stdout
        return out.decode(errors='replace').rstrip('\n')
    if not os.path.exists(driver):
        return None
    asked = subprocess.run([driver, *case.lent, *strictly], input=batch.pack([case.stream]),
                           stdout=subprocess.PIPE, check=True)
    return asked.stdout.decode().rstrip('\n')


def number_of(stream, strict=False):
    """The refusal that the model gives, 0 for none."""
    answer = model.assemble(stream, strict=strict)
    return answer[1] if answer[0] == 'refused' else 0


def may_go_on(stream):
    """Whether more bytes can change the answer: there is no reading fault, or
    the stream only ends too early."""
    answer = reading_model.read(stream)
    return answer[0] == 'ok' or answer[1] == 2


def short_streams():
    """Every stream of at most TRIED bytes that can have an answer of its own."""
    going = [b'']
    for _ in range(TRIED):
        longer = [stream + bytes([byte]) for stream in going for byte in range(256)]
        yield from longer
        going = filter(may_go_on, longer)


def parts(stream):
    """The stream with some bytes struck out, in every way."""
    for length in range(len(stream)):
        yield from map(bytes, itertools.combinations(stream, length))


def shorter(first):
    """Shorter streams with the same refusal as the first of a heading."""
    smallest = {number: len(case.stream) for number, case in first.items() if not case.lent}
    tried = [short_streams()] + [parts(first[number].stream) for number in smallest if smallest[number] <= STRUCK]
    for stream in itertools.chain(*tried):
        for number in {number_of(stream), number_of(stream, True)}:
            if len(stream) >= smallest.get(number, 0):
                continue
            smallest[number] = len(stream)
            yield '%d: %s is shorter' % (number, stream.hex(' ').upper())


def main():
    parser = argparse.ArgumentParser(description=__doc__, formatter_class=argparse.RawDescriptionHelpFormatter)
    parser.add_argument('--program', default=paths.ASSEMBLE)
    parser.add_argument('--driver', default=paths.DRIVER)
    parser.add_argument('--document', default=DOCUMENT)
    parser.add_argument('--smallest', action='store_true')
    options = parser.parse_args()
    with open(options.document, encoding='utf-8') as file:
        some = list(cases(file.read()))
    first = {case.number: case for case in reversed(some)}
    wrong = ['%d: the document has no stream' % number for number in NUMBERS if number not in first]
    for case in some:
        line = said(case, options.program, options.driver)
        if line is None:
            wrong.append('%d: not asked, there is no %s' % (case.number, options.driver))
        elif line != case.answer:
            shown = case.stream[:20].hex(' ').upper()
            wrong.append('%d: %s gives: %s' % (case.number, shown, line if line.isprintable() else 'a module'))
    if options.smallest:
        wrong += shorter(first)
    for what in wrong:
        print(what)
    print('%d streams, %d wrong' % (len(some), len(wrong)))
    sys.exit(1 if wrong else 0)


if __name__ == '__main__':
    main()
