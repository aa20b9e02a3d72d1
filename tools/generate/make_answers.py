#!/usr/bin/env python3
"""Chooses a fixed list of streams and writes the oracle's answers to them.

usage: make_answers.py [--oracle PROGRAM] [--seed S] FOLDER

The streams of samples.py come first, all of them, and must have the answers that
document 01 gives. Then streams of generate.py, and those of tests/modules, are
taken in turn, short ones first; one is kept if it shows something that no stream
before it shows:
  an opcode, a form of a field, an index, a constant or limits, in a module
  a refusal at a record that begins with this byte
  one of the slips of slips.py
After them come streams for the call that also writes the name section (document
02, §1), each kept for:
  which names there are, with imports before them and without
  a form of a function's type use, and which of its parameters and locals are
  named; a number or a size of two groups; a longest identifier
  a refusal; a module that just fits, and one that does not for its names
  one of the slips below
The list is always the same for a seed. FOLDER/stdin has the streams, each after
its length in seven-bit groups (the batch form of batch.py), and
FOLDER/stdout two answers to each, a line without names and one with them: `ok HEX`,
`refused N at R` or `refused 13 at R, first at F`. They are
the crate's; for our own refusals (1 to 9, 12, 18, 19) they are those on which the
oracle's front and model.py agree. Where the crate's name section has its known
difference (docs/DIFFERENCES.md) they are the model's.
"""
import argparse
import os
import sys
from collections import Counter, namedtuple
from functools import partial
from types import SimpleNamespace

sys.path.insert(0, os.path.join(os.path.dirname(os.path.abspath(__file__)), '..'))
import paths
import batch
import compare
import generate
import model
import modules
import reading_model
import samples
import slips

LONGEST = 700           # bytes; longer ones only for what nothing shorter shows
RECORDS = [bytes([byte]) for byte in reading_model.FIELDS + reading_model.OPCODES] + [b'\xF0', b'\xFF']
SLIP_STREAMS = 15000
FROM = (('rich', 4000), ('faulty', 16000), ('damaged', 16000), ('edges', 4000), ('folded', 6000))

# Where an operator's operands have another form than those of the opcodes before it.
FORMS = (0x00, 0x0C, 0x0E, 0x0F, 0x10, 0x11, 0x1A, 0x20, 0x23, 0x28, 0x3F, 0x41, 0x42, 0x43, 0x44, 0x45, 0xD0, 0xD1, 0xD2,
         model.BULK)
NESTINGS = (1, 2, 3, reading_model.NESTING - 1, reading_model.NESTING)
NAMES_FROM = (('names', 8000), ('damaged', 2000), ('edges', 2000))

# Slips of the name section: (file, what, old text, new text), as in slips.py.
NAME_SLIPS = [('model.py',) + slip for slip in [
    ('a function with locals numbered without the imports', 'enumerate(self.locals, self.imported_functions)',
     'enumerate(self.locals)'),
    ('a function with a name numbered without the imports', 'functions = name_map(self.names[FUNC])',
     'functions = name_map({name: abs(number - self.imported_functions)\n'
     '                              for name, number in self.names[FUNC].items()})'),
    ('imports without their names', 'functions = name_map(self.names[FUNC])',
     'functions = name_map({name: number for name, number in self.names[FUNC].items()\n'
     '                              if number >= self.imported_functions})'),
    ('the names of tables', 'functions = name_map(self.names[FUNC])', 'functions = name_map(self.names[TABLE])'),
    ('the names of types too', 'functions = name_map(self.names[FUNC])',
     'functions = name_map({**self.names[TYPE], **self.names[FUNC]})'),
    ('local names of imports', 'self.imported_functions += 1',
     'self.locals.append(({name: place\n'
     '                                 for place, (name, _) in enumerate(field.description.parameters) if name}, False))'),
    ('a local one too far', 'vector(name_map(names))',
     'vector(name_map({name: place + 1 for name, place in names.items()}))'),
    ('parameters without their names', 'self.locals.append((names,',
     'self.locals.append(({name: place for name, place in names.items()\n'
     '                                 if place >= len(signature(field.use)[0])},'),
    ('parameters alone', 'self.locals.append((names,',
     'self.locals.append(({name: place for name, place in names.items()\n'
     '                                 if place < len(signature(field.use)[0])},'),
    ('locals of named functions alone', 'if names and not (beyond',
     'if names and number in self.names[FUNC].values() and not (beyond'),
    ('no locals where the type number is out of range', '(beyond and as_crate)', 'beyond'),
    ('functions without named locals', 'if names and not (beyond', 'if not (beyond'),
    ('sorted by name', 'sorted((number, name) for name, number in names.items())',
     '[(names[name], name) for name in sorted(names)]'),
    ('an empty subsection 1', '(2, of_each)) if entries]', '(2, of_each)) if entries or number == 1 and of_each]'),
    ('an empty subsection 2', '(2, of_each)) if entries]', '(2, of_each)) if entries or number == 2 and functions]'),
    ('an empty section', "if subsections else b''", "if True else b''"),
    ('the subsections the other way round', '((1, functions), (2, of_each))', '((2, of_each), (1, functions))'),
    ('the section before the others', 'assembler.module() + (assembler.name_section(as_crate) if names else b\'\')',
     'assembler.module()[:8] + assembler.name_section(as_crate) + assembler.module()[8:]'),
    ('the names without room', 'if len(module) > room', 'if len(assembler.module()) > room'),
    ("the section's size in one group", "b'\\0' + sized(sized(b'name')",
     "b'\\0' + (lambda content: bytes([len(content) & 127]) + content)(sized(b'name')"),
    ("a subsection's size in one group", 'bytes([number]) + sized(vector(entries))',
     'bytes([number, len(vector(entries)) & 127]) + vector(entries)'),
    ("a subsection's count in one group", 'bytes([number]) + sized(vector(entries))',
     "bytes([number]) + sized(bytes([len(entries) & 127]) + b''.join(entries))"),
    ('a function with locals in one group', 'groups(number) + vector(name_map(names))',
     'bytes([number & 127]) + vector(name_map(names))'),
    ('a function with a name in one group', '[groups(number) + sized(name)', '[bytes([number & 127]) + sized(name)'),
]]


class Shown(model.Parser):
    """Notes the forms that a stream has."""

    def __init__(self, stream):
        super().__init__(stream)
        self.shown = set()
        self.where = None
        self.nesting = 0

    def field(self, first):
        self.where = first
        super().field(first)

    def index(self):
        form = self.stream[self.at]
        self.shown.add(('index', self.where, form))
        return super().index()

    def limits(self):
        self.shown.add(('limits', self.where, self.stream[self.at]))
        return super().limits()

    def constant(self):
        self.shown.add(('constant', self.where, self.stream[self.at]))
        return super().constant()

    def place(self):
        self.shown.add(('active', self.where, self.stream[self.at]))
        return super().place()

    def inline(self, kind, identifier, number):
        self.shown.add(('inline', kind, self.stream[self.at]))
        super().inline(kind, identifier, number)

    def put(self, field, record=None):
        self.shown.add(('field', self.where, type(field).__name__))
        super().put(field, record)

    def operands(self, opcode):
        self.where = opcode
        self.shown.add(('opcode', opcode))
        return super().operands(opcode)

    def folded(self):
        self.nesting += 1
        self.shown.add(('folded', max(form for form in FORMS if form <= self.stream[self.at])))
        self.shown.add(('nesting', max(nesting for nesting in NESTINGS if nesting <= self.nesting)))
        flat = super().folded()
        self.nesting -= 1
        return flat

    def bulk(self, second):
        self.where = model.BULK, second
        self.shown.add(('bulk', second))
        return super().bulk(second)


def shown(stream, answer):
    """What a stream shows."""
    if answer[0] == 'ok':
        parser = Shown(stream)
        parser.whole()
        sections = {('section', number) for number in section_numbers(answer[1])}
        return parser.shown | sections
    _, number, record, _ = answer
    starts = reading_model.record_starts(stream[:reading_model.STREAM])[:-1]
    begins = starts[record] if record < len(starts) else len(stream)
    first = stream[begins:begins + 1]
    seen = {('refused', number, first if first in RECORDS else None)}
    if number == 13:
        seen.add(('first', first, stream[starts[answer[3]]]))
    return seen


def section_numbers(binary):
    """A module's sections, by their numbers."""
    at = 8
    while at < len(binary):
        yield binary[at]
        size, shift, at = 0, 0, at + 1
        while True:
            size |= (binary[at] & 0x7F) << shift
            shift, at = shift + 7, at + 1
            if binary[at - 1] < 0x80:
                break
        at += size


def some_named(variables):
    """Which of a function's parameters or locals have a name."""
    named = sum(name is not None for name, _ in variables)
    return 'none there' if not variables else 'all' if named == len(variables) else 'some' if named else 'none'


def names_shown(stream, answer):
    """What a stream shows of the name section."""
    plain = model.assemble(stream)
    if answer[0] != 'ok':
        return {('refused', answer[1], plain[0])}
    assembler = model.Assembler(model.Parser(stream).whole())
    assembler.run()
    imports, named = assembler.imported_functions, assembler.names[model.FUNC].values()
    own = [field for _, field in assembler.fields if type(field) is model.Func]
    others = any(assembler.names[space] for space in range(7) if space != model.FUNC)
    seen = {('names', bool(named), any(names for names, _ in assembler.locals), min(imports, 2), others),
            ('size', len(reading_model.groups(len(answer[1]) - len(plain[1]))))}
    if len(answer[1]) == model.ROOM:
        seen.add(('just fits',))
    for number, (field, (names, beyond)) in enumerate(zip(own, assembler.locals), imports):
        use = field.use
        seen.add(('function', type(use.index).__name__, len(use.results) > 0, beyond, some_named(use.parameters),
                  some_named(field.locals)))
        seen.add(('number', number in named, bool(names), len(reading_model.groups(number))))
        seen.update(('local', place) for place in names.values() if place in (0, 1, 63, 64, 127))
        seen.update(('length', len(name)) for name in names if len(name) in (1, 63, 64))
    return seen


def candidates(seed, sources):
    """Streams of all sources, short ones first."""
    streams = {one.stream for one in modules.all_modules()}
    for sort, count in sources:
        streams.update(generate.stream(sort, seed, number) for number in range(count))
    return sorted(streams, key=lambda stream: (len(stream) > LONGEST, len(stream), stream))


# What a list is chosen by: whose names, the streams that come first, from which sources, for what and which slips.
List = namedtuple('List', 'names first sources shown slips')
PLAIN = List(False, samples.SAMPLES, FROM, shown, slips.SLIPS)
NAMED = List(True, (), NAMES_FROM, names_shown, NAME_SLIPS)


def is_right(answer, expected):
    """An answer is what samples.py expects."""
    line = model.line(answer).lower()
    if expected.startswith('refused'):
        return line == expected
    return line.startswith('ok ') and expected in line


def showing(slip, answers, names):
    """The shortest of the first few streams that show a slip; None if the slip
    is in what a caller lends, which is always the same here."""
    file, _, old, new = slip
    slipped = slips.with_slip(file, old, new)
    asked = SimpleNamespace(assemble=partial(slipped.assemble, names=names))
    found = []
    for stream, right in answers:
        if slips.answer(asked, stream, model.WORK, model.ROOM) != right:
            found.append(stream)
            if len(found) == 4:
                break
    return min(found, key=len, default=None)


def slip_streams(seed, names):
    """Streams in which a slip is looked for, if none of those chosen shows it."""
    if names:
        return (generate.stream('names', seed, number) for number in range(SLIP_STREAMS))
    return (case[0] for case in slips.cases(seed, SLIP_STREAMS))


def choose(seed, by, there):
    """The streams of a list beside those that are there, what all of them show, and
    the slips that they do not."""
    answered = lambda streams: [(stream, model.assemble(stream, names=by.names)) for stream in streams]
    kept, seen = [], set()
    for stream, answer in answered(there):
        seen |= by.shown(stream, answer)
    for name, stream, expected in by.first:
        [(_, answer)] = answered([stream])
        assert is_right(answer, expected), name
        seen |= by.shown(stream, answer)
        kept.append(stream)
    for stream, answer in answered(candidates(seed, by.sources)):
        new = by.shown(stream, answer) - seen
        if new:
            seen |= new
            kept.append(stream)
    chosen, more = answered(there + kept), answered(slip_streams(seed, by.names))
    unseen = []
    for slip in by.slips:
        stream = showing(slip, chosen, by.names) or showing(slip, more, by.names)
        if stream is None:
            unseen.append(slip[1])
        elif stream not in there + kept:
            kept.append(stream)
    return kept, seen, unseen


def write(folder, streams, lines):
    """The list as the gate's program reads it, and what it must print."""
    os.makedirs(folder, exist_ok=True)
    with open(os.path.join(folder, 'stdin'), 'wb') as file:
        file.write(batch.pack(streams))
    with open(os.path.join(folder, 'stdout'), 'w') as file:
        file.writelines(line + '\n' for line in lines)


def ask(oracle, streams, names):
    """The answers on which oracle and model agree, but for the known difference."""
    answers = compare.Judges(oracle, None, names).ask(streams, model.WORK, model.ROOM)
    for stream, said in zip(streams, answers):
        assert not compare.differ(said), (stream.hex(), said)
    if names:
        print('%d with the known difference from the crate' % sum(map(compare.known, answers)))
    return [said['model'] for said in answers]


def shows_all(seen, opcodes):
    """Every refusal but 10 and, in a plain list, every opcode."""
    numbers = {one[1] for one in seen if one[0] == 'refused'}
    missing = set(range(1, 20)) - {10} - numbers
    if missing or opcodes and not {('opcode', one) for one in opcodes} <= seen:
        sys.exit('not shown: refusals %s' % sorted(missing))


def main():
    parser = argparse.ArgumentParser(description=__doc__, formatter_class=argparse.RawDescriptionHelpFormatter)
    parser.add_argument('--oracle', default=paths.ORACLE)
    parser.add_argument('--seed', type=int, default=1)
    parser.add_argument('folder')
    options = parser.parse_args()
    kept = []
    for by, opcodes in ((PLAIN, reading_model.OPCODES), (NAMED, ())):
        streams, seen, unseen = choose(options.seed, by, kept)
        shows_all(seen, opcodes)
        kept += streams
        print('%d streams; %d slips, of which they cannot show: %s' % (len(streams), len(by.slips), ', '.join(unseen) or 'none'))
    plain, named = (ask(options.oracle, kept, names) for names in (False, True))
    write(options.folder, kept, [line for pair in zip(plain, named) for line in pair])
    tally = Counter(map(compare.sort_of, plain))
    print('%d streams, %d bytes' % (len(kept), sum(map(len, kept))))
    print(', '.join('%s: %d' % one for one in sorted(tally.items(), key=lambda one: (len(one[0]), one))))


if __name__ == '__main__':
    main()
