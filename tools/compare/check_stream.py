#!/usr/bin/env python3
"""Compares the examples of docs/STREAM.md with the model.

usage: check_stream.py [--stream FILE] [DOCUMENT]

The bytes of the stream stand at the head of the lines in the fenced blocks
after the first, under the heading of the example; those of the module at the
head of its indented lines. Said are the counts, which the text must have, too.
With --stream the stream is also written to FILE. The two fenced blocks under Folded
records must be bodies of the same module. The lines of Python must make a stream
that is accepted. Exit status 1 if anything is wrong.
"""
import argparse
import os
import re
import sys

sys.path.insert(0, os.path.join(os.path.dirname(os.path.abspath(__file__)), '..'))
import paths
import account
import model
from records import func

DOCUMENT = os.path.join(paths.ROOT, 'docs', 'STREAM.md')

BYTES = re.compile(r'[0-9A-F]{2}(?: [0-9A-F]{2})*(?= |$)')


def bytes_of(lines):
    """The bytes at the head of the lines."""
    return b''.join(bytes.fromhex(BYTES.match(line).group()) for line in lines)


def main():
    parser = argparse.ArgumentParser(description=__doc__, formatter_class=argparse.RawDescriptionHelpFormatter)
    parser.add_argument('--stream', metavar='FILE')
    parser.add_argument('document', nargs='?', default=DOCUMENT)
    options = parser.parse_args()
    with open(options.document, encoding='utf-8') as file:
        page = file.read()
    example, python = page.split('\n## An example, record by record\n')[1].split('\n## Written from Python\n')
    folding = page.split('\n### Folded records\n')[1].split('\n## ')[0]
    text, *fences = re.findall(r'```\n(.*?)\n```', example, re.DOTALL)
    stream = bytes_of(line for fence in fences for line in fence.splitlines())
    module = bytes_of(re.findall(r'^    ([0-9A-F]{2} .*)', example, re.MULTILINE))
    told = list(account.told(stream))
    wrong = []
    if model.assemble(stream) != ('ok', module):
        wrong.append('the model gives another module')
    for what in ('%d bytes, %d records' % (len(stream), len(told)), 'has %d bytes' % len(module)):
        if what not in example:
            wrong.append('it does not say: ' + what)
    for number, (_, _, said) in enumerate(told):
        plain = re.sub(r'[()]|param |\s+', '', said)
        if plain not in re.sub(r'[()]|param |\s+', '', text):
            wrong.append('record %d is not in the text: %s' % (number, said))
    with_code = lambda fence: model.assemble(func(body=bytes_of(fence.splitlines())))
    folded, flat = re.findall(r'```\n(.*?)\n```', folding, re.DOTALL)
    if with_code(folded) != with_code(flat) or with_code(flat)[0] != 'ok':
        wrong.append('the folded records are not the flat ones')
    made = {}
    exec(re.search(r'```python\n(.*?)\nopen\(', python, re.DOTALL).group(1), made)
    if model.assemble(made['stream'])[0] != 'ok':
        wrong.append('the stream made in Python is refused')
    for what in wrong:
        print('check_stream.py: ' + what)
    if options.stream:
        with open(options.stream, 'wb') as file:
            file.write(stream)
    print('%d bytes, %d records, a module of %d bytes' % (len(stream), len(told), len(module)))
    sys.exit(1 if wrong else 0)


if __name__ == '__main__':
    main()
