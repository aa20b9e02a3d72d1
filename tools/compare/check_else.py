#!/usr/bin/env python3
"""An else belongs to an if (document 02, §3): what outside engines say of it.

usage: check_else.py [--bodies N] [--seed S] [--oracle PROGRAM] [--driver PROGRAM] [--without-library]

Makes N functions with ifs whose bodies are valid by the standard, and of each a
copy with an else where none may be: in a block, in a loop, or a second one. Of
the first none may be refused, by anyone: library, oracle and model write the same
module, and node and wasm-validate take it. Of the copies each is refused 8 at that
else by all three; and node and wasm-validate do not take the module that document
01's rule, any open block will do, would have written. Exit status 1 if anything
is otherwise.
"""
import argparse
import json
import os
import random
import subprocess
import sys
import tempfile
from collections import Counter
from concurrent.futures import ThreadPoolExecutor

sys.path.insert(0, os.path.join(os.path.dirname(os.path.abspath(__file__)), '..'))
import paths
import compare
import model
import records
from reading_model import BLOCK, ELSE, END, IF, LOOP
from records import f64, i32, i64

PIECE = 500             # streams that the judges are asked at once
NAMES = {i32: 'i32', i64: 'i64', f64: 'f64'}
LOCALS = [('n', i32), ('m', i64), ('d', f64)]
NODE = '''
const given = JSON.parse(require("fs").readFileSync(0, "utf8"));
console.log(JSON.stringify(given.map(hex => WebAssembly.validate(Buffer.from(hex, "hex")))));
'''


class Bodies:
    """A valid body, as a list of records: every part leaves what it says on the
    stack, and nothing of it is read before."""

    def __init__(self, chance):
        self.chance = chance
        self.pick = chance.choice
        self.labels = []                # of the open blocks: (label, what a branch to it takes)

    def line(self, words):
        """One instruction without a block."""
        return [records.line(words)]

    def within(self, opening, using, taken, *parts):
        """A block, loop or if around parts; between two parts stands an else."""
        label = self.pick((None, None, 'a', 'b', 'c'))
        again = lambda: label if self.chance.random() < 0.4 else None
        self.labels.append((label, taken))
        code = [opening(label, using)]
        for number, part in enumerate(parts):
            code += [records.else_(again())] if number else []
            code += part()
        self.labels.pop()
        return code + [records.end(again())]

    def value(self, one, size):
        """Leaves a value of this type."""
        inner, type_name = size - 1, NAMES[one]
        part = lambda: self.statements(inner) + self.value(one, inner)
        way = self.chance.randrange(10) if size > 0 else self.chance.randrange(2)
        if way == 0:
            return self.line('%s.const %d' % (type_name, self.chance.randrange(-100, 100)))
        if way == 1:
            return self.line('local.get %s' % {i32: 'n', i64: 'm', f64: 'd'}[one])
        if way == 2:
            return self.value(one, inner) + self.value(one, inner) + self.line(type_name + '.add')
        if way == 3:
            return self.within(records.block, records.use(results=[one]), one, part)
        if way == 4:
            return self.within(records.loop, records.use(results=[one]), None, part)
        if way == 5:                    # the value goes in and out again
            opening = self.pick((records.block, records.loop, records.if_))
            condition = self.value(i32, inner) if opening is records.if_ else []
            elses = self.pick((1, 2)) if opening is records.if_ else 1
            return (self.value(one, inner) + condition
                    + self.within(opening, records.use(params=[one], results=[one]), one,
                                  *[lambda: self.statements(inner)] * elses))
        if way == 6:
            label = self.branch(one)
            if label:
                return self.value(one, inner) + self.value(i32, inner) + self.line('br_if ' + label)
        return self.value(i32, inner) + self.within(records.if_, records.use(results=[one]), one, part, part)

    def statement(self, size):
        """Leaves nothing."""
        inner = size - 1
        part = lambda: self.statements(inner)
        way = self.chance.randrange(8) if size > 0 else 0
        if way == 0:
            return self.line('nop')
        if way == 1:
            return self.value(i64, inner) + self.line(self.pick(('drop', 'local.set m')))
        if way == 2:
            return self.within(records.block, None, None, part)
        if way == 3:
            return self.within(records.loop, None, None, part)
        if way == 4:
            label = self.branch(None)
            if label:
                return self.value(i32, inner) + self.line('br_if ' + label)
        if way == 5:                    # what follows in its block cannot be reached
            return self.within(records.block, None, None, lambda: part() + self.line('unreachable') + part())
        return self.value(i32, inner) + self.within(records.if_, None, None, *[part] * self.pick((1, 2)))

    def statements(self, size):
        """Some of them, seldom many."""
        return [record for _ in range(self.pick((0, 0, 1, 1, 2))) for record in self.statement(size)]

    def branch(self, taken):
        """A label that takes this, or None."""
        fit = [depth for depth, (_, what) in enumerate(reversed(self.labels)) if what == taken]
        return str(self.pick(fit)) if fit else None

    def body(self):
        """At least one if is in it."""
        while True:
            code = self.statements(4) + self.statement(5) + self.statements(3)
            if any(record[0] == IF for record in code) and len(code) < 1000:
                return code


def forbidden(code):
    """Where the first else stands that §3 forbids, and why; None if there is none."""
    blocks = []                         # of each open one: its opcode, ELSE once an if has had it
    for at, record in enumerate(code):
        if record[0] in (BLOCK, LOOP, IF):
            blocks.append(record[0])
        elif record[0] == END:
            blocks.pop()
        elif record[0] == ELSE:
            if blocks[-1] != IF:
                return at, {BLOCK: 'in a block', LOOP: 'in a loop', ELSE: 'a second one'}[blocks[-1]]
            blocks[-1] = ELSE
    return None


def spoiled(chance, code):
    """A copy with one else more, or two where one more is allowed, and where the
    forbidden one stands. Each stands in a block, which is what document 01 asks."""
    depths = [0]
    for record in code:
        depths.append(depths[-1] + {BLOCK: 1, LOOP: 1, IF: 1, END: -1}.get(record[0], 0))
    at = chance.choice([at for at, depth in enumerate(depths) if depth])
    for elses in (1, 2):
        copy = code[:at] + [records.else_()] * elses + code[at:]
        if forbidden(copy):
            return copy, forbidden(copy)


def stream(code):
    """A function with this body; its record is 0."""
    return records.func(None, None, LOCALS, b''.join(code), exports=['f'])


def by_document_01(some):
    """The module of a stream, as if any open block would do: no reading rule is
    asked, and after reading none looks at an else."""
    assembler = model.Assembler(model.Parser(some).whole())
    assembler.run()
    return assembler.module()


def taken_by_node(modules):
    """Whether node's engine takes each."""
    asked = json.dumps([module.hex() for module in modules]).encode()
    return json.loads(subprocess.run(['node', '-e', NODE], input=asked, stdout=subprocess.PIPE, check=True).stdout)


def taken_by_wabt(modules):
    """Whether wasm-validate takes each."""
    with tempfile.TemporaryDirectory() as folder:
        def taken(numbered):
            file = os.path.join(folder, '%d.wasm' % numbered[0])
            with open(file, 'wb') as opened:
                opened.write(numbered[1])
            return subprocess.run(['wasm-validate', file], stdout=subprocess.DEVNULL,
                                  stderr=subprocess.DEVNULL).returncode == 0
        with ThreadPoolExecutor(2) as several:
            return list(several.map(taken, enumerate(modules)))


def main():
    parser = argparse.ArgumentParser(description=__doc__, formatter_class=argparse.RawDescriptionHelpFormatter)
    parser.add_argument('--bodies', type=int, default=10000, metavar='N')
    parser.add_argument('--seed', type=int, default=1)
    parser.add_argument('--oracle', default=paths.ORACLE, metavar='PROGRAM')
    parser.add_argument('--driver', default=paths.DRIVER, metavar='PROGRAM')
    parser.add_argument('--without-library', action='store_true', help='model and oracle alone')
    options = parser.parse_args()
    judges = compare.Judges(options.oracle, None if options.without_library else options.driver)
    for program in (judges.oracle, judges.driver):
        if program and not os.path.exists(program):
            parser.error('%s is not there; see docs/TESTING.md' % program)
    wrong, sorts = [], Counter()
    for first in range(0, options.bodies, PIECE):
        chances = [random.Random('else %d %d' % (options.seed, number))
                   for number in range(first, min(first + PIECE, options.bodies))]
        good = [Bodies(chance).body() for chance in chances]
        bad = [spoiled(chance, code) for chance, code in zip(chances, good)]
        streams = [stream(code) for code in good] + [stream(code) for code, _ in bad]
        told = judges.ask(streams, model.WORK, model.ROOM)
        for code, answers in zip(streams[:len(good)], told):
            if compare.differ(answers) or not answers['model'].startswith('ok '):
                wrong.append('%s: %s' % (code.hex(' ').upper(), answers))
        for code, (_, (at, why)), answers in zip(streams[len(good):], bad, told[len(good):]):
            sorts[why] += 1
            if compare.differ(answers) or answers['model'] != 'refused 8 at %d' % (at + 1):
                wrong.append('%s: %s' % (code.hex(' ').upper(), answers))
        modules = list(map(by_document_01, streams))
        expected = [True] * len(good) + [False] * len(bad)
        for who, taken in (('node', taken_by_node(modules)), ('wasm-validate', taken_by_wabt(modules))):
            wrong += ['%s %s: %s' % (who, 'takes' if is_taken else 'refuses', module.hex(' ').upper())
                      for module, is_taken, right in zip(modules, taken, expected) if is_taken != right]
    for what in wrong[:10]:
        print(what)
    print('%d bodies; as many with a forbidden else: %s; %d wrong'
          % (options.bodies, ', '.join('%s %d' % one for one in sorted(sorts.items())), len(wrong)))
    sys.exit(1 if wrong else 0)


if __name__ == '__main__':
    main()
