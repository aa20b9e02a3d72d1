#!/usr/bin/env python3
"""Record streams of document 01 for tests of the reading pass: the same ones
for the same seed.

usage: streams.py [WHAT ...] [--list] [--seed S] [--count N]
  --valid      rich streams without a reading fault (the default); --count N
  --samples    S1, S7, S8, S9 and S11 of document 01
  --damage     each valid stream with each byte changed, and cut at each length
  --ceilings   each ceiling, exactly at it and just past it
  --faults     refusals 2 to 9 and 19 at each place of each kind of record
  --random N   N streams, changed in a few places at random
Writes the batch form (batch.py), or with --list lines of text:
  HEX  EXPECTED  # what it is           (HEX is - for the empty stream)

EXPECTED is reading_model's answer. Where this file knows the answer by how it
made the stream, it stops if the model says something else.
"""
import argparse
import os
import random
import sys
from collections import namedtuple

sys.path.insert(0, os.path.join(os.path.dirname(os.path.abspath(__file__)), '..'))
import paths
import batch
import reading_model as model
from reading_model import groups

VALUE_TYPES = model.VALUE_TYPES
U32, U64 = 2**32 - 1, 2**64 - 1

Case = namedtuple('Case', 'what stream expected')       # expected: a line, or None


def hexed(text):
    return bytes.fromhex(text)


def padded(value, width=32):
    """A number in as many groups as its width allows."""
    size = (width + 6) // 7
    return bytes(value >> 7 * i & 0x7F | 0x80 for i in range(size - 1)) + bytes([value >> 7 * (size - 1)])


def longer(value):
    """A number in one group more than needed."""
    short = groups(value)
    return short[:-1] + bytes([short[-1] | 0x80, 0])


def accepted(count):
    return 'records %d' % count


def refused(number, record):
    return 'refused %d at %d' % (number, record)


# ---------------------------------------------------------------------------
# Records as lists of tokens. A token knows what can be wrong with it, so that
# one fault can be put at each place of a record in turn.

Token = namedtuple('Token', 'sort data extra')


class Maker:
    """Makes the parts of records."""

    def byte(self, value, *wrong):
        return [Token('byte', bytes([value]), wrong)]

    def number(self, value, width=32):
        return [Token('number', groups(value), width)]

    def count(self, value, ceiling):
        return [Token('count', groups(value), ceiling)]

    def identifier(self, name=b'', needed=False):
        return [Token('identifier', groups(len(name)) + name, needed)]

    def string(self, text):
        return [Token('string', groups(len(text)) + text, None)]

    def raw(self, data):
        return [Token('raw', data, None)]

    def data(self, data):
        return [Token('length', groups(len(data)), None)] + self.raw(data)

    def index(self, what, optional=False):
        """what: None, a number, or a name."""
        wrong = (3, 0xFF) if optional else (0, 3, 0xFF)
        if what is None:
            return self.byte(0, *wrong)
        if isinstance(what, int):
            return self.byte(1, *wrong) + self.number(what)
        return self.byte(2, *wrong) + self.identifier(what, needed=True)

    def indices(self, indices, ceiling=1024, extra=0):
        tokens = self.count(len(indices) - extra, ceiling)
        for what in indices:
            tokens += self.index(what)
        return tokens

    def value_type(self, value_type):
        return self.byte(value_type, 0x00, 0x6E, 0x71, 0x7B, 0x80, 0xFF)

    def reference(self, value_type):
        return self.byte(value_type, 0x7F, 0x6E, 0x71, 0x00)

    def value_types(self, types, ceiling):
        tokens = self.count(len(types), ceiling)
        for value_type in types:
            tokens += self.value_type(value_type)
        return tokens

    def named_types(self, pairs, ceiling=64):
        tokens = self.count(len(pairs), ceiling)
        for name, value_type in pairs:
            tokens += self.identifier(name) + self.value_type(value_type)
        return tokens

    def use(self, index=None, parameters=(), results=()):
        return (self.index(index, optional=True) + self.named_types(parameters)
                + self.value_types(results, 16))

    def limits(self, flags, low, high=0):
        width = 64 if flags & 4 else 32
        tokens = self.byte(flags, 2, 3, 6, 8) + self.number(low, width)
        return tokens + self.number(high, width) if flags & 1 else tokens

    def table_type(self, reference, *limits):
        return self.reference(reference) + self.limits(*limits)

    def global_type(self, value_type, mutable):
        return self.value_type(value_type) + self.byte(mutable, 2, 0xFF)

    def constant(self, kind, value):
        return self.byte(kind, 7, 0xFF) + self.operand(kind, value)

    def operand(self, kind, value):
        if kind == 0:
            return self.number(value, 32)
        if kind == 1:
            return self.number(value, 64)
        if kind in (2, 3):
            return self.raw(value)
        return self.reference(value) if kind == 5 else self.index(value)

    # Field records

    def first(self, byte):
        return self.byte(byte, 0x00, 0x0B, 0xFF)

    def type(self, name, parameters, results):
        return (self.first(1) + self.identifier(name) + self.value_types(parameters, 64)
                + self.value_types(results, 16))

    def imported(self, module, field, kind, name, description):
        return (self.first(2) + self.string(module) + self.string(field) + self.byte(kind, 4, 0xFF)
                + self.identifier(name) + description)

    def item(self, byte, name, exports, form, strings=()):
        """The head of 03 to 06 up to the form and its two strings."""
        wrong = (3, 0xFF) if byte in (4, 5) else (2, 0xFF)
        tokens = self.first(byte) + self.identifier(name) + self.count(len(exports), 8)
        for text in exports:
            tokens += self.string(text)
        tokens += self.byte(form, *wrong)
        for text in strings:
            tokens += self.string(text)
        return tokens

    def function(self, name, exports, use, local_variables=()):
        return self.item(3, name, exports, 0) + use + self.named_types(local_variables)

    def segment(self, byte, name, place=None):
        """place: None for passive, else the tokens of index and constant."""
        tokens = self.first(byte) + self.identifier(name) + self.byte(0 if place is None else 1, 2, 0xFF)
        return tokens + (place or [])

    # Instruction records

    def code(self, opcode, *operands):
        return self.byte(opcode, 0x06, 0x0A, 0x12, 0x19, 0x1C, 0x1F, 0x25, 0x27,
                         0xC5, 0xCF, 0xD3, 0xFE) + sum(operands, [])

    def block(self, opcode, label, use):
        return self.code(opcode, self.identifier(label), use)

    def folded(self, count, opcode, *operands, due=False):
        """F0, an instruction and the count of its operands, itself one that is due
        or not. What may not be folded is a wrong opcode."""
        first = self.byte(model.FOLDED, *((0x01, 0x02, 0x05, 0x0B, 0xFF) if due else (0x06, 0xEF, 0xF1)))
        wrong = (0x02, 0x03, 0x04, 0x05, 0x0B, 0xF0, 0xFF, 0x06, 0xFE)
        return first + self.byte(opcode, *wrong) + sum(operands, []) + self.count(count, model.OPERANDS)

    def bulk(self, second, *indices):
        """After FC; indices as those of `index`."""
        optional = [space == 'memory' for space in model.BULK_INDICES[second]]
        return self.code(model.BULK, self.byte(second, 0x07, 0x0C, 0x00, 0x88), *map(self.index, indices, optional))


def whole(record):
    return b''.join(token.data for token in record)


def joined(records):
    return b''.join(map(whole, records))


# ---------------------------------------------------------------------------
# Rich valid streams

class Rich:
    """One random valid stream, as a list of records."""

    def __init__(self, chance):
        self.chance = chance
        self.make = Maker()
        self.records = []

    def some(self, most, ceiling=None):
        """A small count, seldom one up to the ceiling."""
        if ceiling and self.chance.random() < 0.01:
            return self.chance.randint(most, ceiling)
        return self.chance.randint(0, most)

    def name(self, least=0):
        length = self.chance.choice([least, least, 1, 1, 2, 3, 5, 8])
        if self.chance.random() < 0.01:
            length = 64
        return bytes(self.chance.choice(model.IDCHARS) for _ in range(length))

    def text(self):
        return bytes(self.chance.randint(0x20, 0x7E) for _ in range(self.some(5, 60)))

    def texts(self):
        return [self.text() for _ in range(self.chance.choice([0, 0, 1, 2]))]

    def bytes(self, count):
        return bytes(self.chance.getrandbits(8) for _ in range(count))

    def value(self, bits=32):
        top = 2**bits - 1
        return self.chance.choice([0, 1, 2, 63, 64, 127, 128, 300, top, top // 2 + 1, self.chance.getrandbits(bits)])

    def what(self, optional=False):
        form = self.chance.choice([0, 1, 2] if optional else [1, 2, 2])
        return None if form == 0 else self.value() if form == 1 else self.name(1)

    def index(self, optional=False):
        return self.make.index(self.what(optional), optional)

    def whats(self, most, extra=0):
        return [self.what() for _ in range(self.some(most, 40) + extra)]

    def value_type(self):
        return self.chance.choice(VALUE_TYPES)

    def reference(self):
        return self.chance.choice(model.REFERENCE_TYPES)

    def types(self, most, ceiling):
        return [self.value_type() for _ in range(self.some(most, ceiling))]

    def pairs(self, most):
        return [(self.name(), self.value_type()) for _ in range(self.some(most, 64))]

    def use(self):
        index = self.what(optional=True)
        if self.chance.random() < 0.4:
            return self.make.use(index)
        return self.make.use(index, self.pairs(2), self.types(2, 16))

    def limits(self):
        flags = self.chance.choice([0, 1, 4, 5])
        bits = 64 if flags & 4 else 32
        return flags, self.value(bits), self.value(bits)

    def constant_value(self, kind):
        return {0: self.value, 1: lambda: self.value(64), 2: lambda: self.bytes(4),
                3: lambda: self.bytes(8), 5: self.reference}.get(kind, self.what)()

    def constant(self):
        kind = self.chance.randrange(7)
        return self.make.constant(kind, self.constant_value(kind))

    def description(self, kind):
        if kind == 0:
            return self.use()
        if kind == 1:
            return self.make.table_type(self.reference(), *self.limits())
        if kind == 2:
            return self.make.limits(*self.limits())
        return self.make.global_type(self.value_type(), self.chance.randrange(2))

    def put(self, *tokens):
        self.records.append(sum(tokens, []))

    def field(self, byte):
        make, chance = self.make, self.chance
        if byte == 1:
            self.put(make.type(self.name(), self.types(3, 64), self.types(2, 16)))
        elif byte == 2:
            kind = chance.randrange(4)
            self.put(make.imported(self.text(), self.text(), kind, self.name(), self.description(kind)))
        elif byte == 3 and chance.random() < 0.8:
            self.put(make.function(self.name(), self.texts(), self.use(), self.pairs(3)))
            self.body(self.some(8))
        elif byte in (3, 4, 5, 6) and (byte == 3 or chance.random() < 0.3):
            self.put(make.item(byte, self.name(), self.texts(), 1, (self.text(), self.text())),
                     self.description(byte - 3))
        elif byte in (4, 5) and chance.random() < 0.5:
            inside = make.indices(self.whats(3)) if byte == 4 else make.data(self.bytes(self.some(9, 300)))
            self.put(make.item(byte, self.name(), self.texts(), 2), make.byte(chance.choice([0, 4])), inside)
        elif byte in (4, 5):
            self.put(make.item(byte, self.name(), self.texts(), 0), self.description(byte - 3))
        elif byte == 6:
            self.put(make.item(byte, self.name(), self.texts(), 0), self.description(3), self.constant())
        elif byte == 7:
            self.put(make.first(7), make.string(self.text()), make.byte(chance.randrange(4)), self.index())
        elif byte == 8:
            self.put(make.first(8), self.index())
        else:
            place = self.index(optional=True) + self.constant() if chance.random() < 0.7 else None
            inside = make.indices(self.whats(3)) if byte == 9 else make.data(self.bytes(self.some(9, 300)))
            self.put(make.segment(byte, self.name(), place), inside)

    def body(self, size):
        blocks = []                     # the open ones, each with whether an else may come
        for _ in range(size):
            opcode = self.chance.choice(
                self.chance.choice([[2, 3, 4], [5, 0x0B], [0x0B], [0x0C, 0x0D, 0x0E], [0x10, 0x11],
                                    [0x20, 0x21, 0x22, 0x23, 0x24], range(0x28, 0x41),
                                    [0x41, 0x42, 0x43, 0x44], [0xD0, 0xD1, 0xD2, model.BULK], model.OPCODES]))
            if opcode == model.ELSE and not (blocks and blocks[-1]):
                opcode = model.IF
            if opcode == model.END and not blocks:
                opcode = model.BLOCK
            if opcode in (model.BLOCK, model.LOOP, model.IF):
                blocks.append(opcode == model.IF)
            elif opcode == model.ELSE:
                blocks[-1] = False
            elif opcode == model.END:
                blocks.pop()
            self.put(self.instruction(opcode))
            if self.chance.random() < 0.1:
                self.folded(self.chance.choice([1, 2, 3, 5]))
        for _ in blocks:
            self.put(self.instruction(0x0B))
        self.put(self.make.byte(0xFF))

    def instruction(self, opcode):
        """The tokens of one."""
        make = self.make
        if opcode in (2, 3, 4):
            return make.block(opcode, self.name(), self.use())
        if opcode in (5, 0x0B):
            return make.code(opcode, make.identifier(self.name()))
        if opcode == 0x0E:
            return make.code(opcode, make.indices(self.whats(3, 1), extra=1))
        if opcode == 0x11:
            return make.code(opcode, self.index(optional=True), self.use())
        if 0x28 <= opcode <= 0x3E:
            align = self.chance.choice([0, 0, 1, 2, 3, 32, self.chance.randint(0, 32)])
            return make.code(opcode, make.byte(align), make.number(self.value()), self.index(optional=True))
        if opcode in (0x3F, 0x40):
            return make.code(opcode, self.index(optional=True))
        if 0x41 <= opcode <= 0x44:
            kind = opcode - 0x41
            return make.code(opcode, make.operand(kind, self.constant_value(kind)))
        if opcode == 0xD0:
            return make.code(opcode, make.reference(self.reference()))
        if opcode == model.BULK:
            second = self.chance.choice(list(model.BULK_INDICES))
            optional = [space == 'memory' for space in model.BULK_INDICES[second]]
            return make.bulk(second, *map(self.what, optional))
        if opcode in (0x0C, 0x0D, 0x10, 0xD2) or 0x20 <= opcode <= 0x24:
            return make.code(opcode, self.index())
        return make.code(opcode)

    def folded(self, nesting):
        """A folded record and its operands, so deep at most."""
        count = self.chance.choice([0, 0, 1, 1, 2, 3]) if nesting > 1 else 0
        self.put(self.make.byte(model.FOLDED), self.instruction(self.chance.choice(model.FOLDABLE)),
                 self.make.count(count, model.OPERANDS))
        for _ in range(count):
            self.folded(nesting - 1)

    def fields(self, count):
        plan = self.chance.choices(range(1, 11), [3, 3, 5, 2, 2, 3, 2, 0, 2, 2], k=count)
        if self.chance.random() < 0.3:
            plan.insert(self.chance.randint(0, count), 8)
        for byte in plan:
            self.field(byte)

    def every_opcode(self):
        """A function with each opcode, all blocks closed."""
        self.put(self.make.function(self.name(), self.texts(), self.use(), self.pairs(3)))
        opcodes = [opcode for opcode in model.OPCODES if opcode != 0x0B]
        for opcode in opcodes + [0x0B] * 3:
            self.put(self.instruction(opcode))
        self.put(self.make.byte(0xFF))

    def every_folded(self):
        """A function with each opcode that may be folded, some on those before it."""
        self.put(self.make.function(self.name(), self.texts(), self.use(), self.pairs(3)))
        due = 0
        for opcode in model.FOLDABLE:
            count = self.chance.choice([0, 1, 2, 16]) if due == 0 else 0
            self.put(self.make.byte(model.FOLDED), self.instruction(opcode), self.make.count(count, model.OPERANDS))
            due = count or max(due - 1, 0)
        for _ in range(due):
            self.folded(1)
        self.put(self.make.byte(0xFF))


def valid(seed, count):
    chance = random.Random('valid %d' % seed)
    for number in range(count):
        maker = Rich(chance)
        if number == 0:
            maker.every_opcode()
        elif number == 1:
            for byte in range(1, 11):
                maker.field(byte)
        elif number == 2:
            maker.every_folded()
        else:
            maker.fields(chance.choice([1, 1, 2, 3, 4, 6, 9]))
        yield Case('valid %d' % number, joined(maker.records), accepted(len(maker.records)))


def samples():
    head = '03 00 00 00 00 00 00 00 '
    blocks = lambda count: hexed(head) + hexed('02 00 00 00 00') * count + hexed('0B 00') * count + b'\xFF'
    return [
        Case('S1', b'', accepted(0)),
        Case('S7', hexed('03 00 01 01 66 00 00 01 01 78 7F 01 7F 00 20 02 01 78 FF'), accepted(3)),
        Case('S7 with 79, which is read',
             hexed('03 00 01 01 66 00 00 01 01 78 7F 01 7F 00 20 02 01 79 FF'), accepted(3)),
        Case('S8', hexed('01 00 02 7F 7E 00 03 00 00 00 01 00 00 00 01 01 6C 7F 20 02 01 6C FF'), accepted(4)),
        Case('S9', hexed('05 00 00 02 00 03 61 62 63'), accepted(1)),
        Case('S11: 128 nested blocks', blocks(128), accepted(258)),
        Case('S11: the 129th', blocks(129), refused(7, 129)),
    ]


# ---------------------------------------------------------------------------
# One record of each kind, with each part present

def kinds():
    """(what, records before, the record, bytes after that make it whole)"""
    m = Maker()
    use = m.use(b'sig', [(b'x', 0x7F), (b'', 0x6F)], [0x7E, 0x7D])
    bare = m.use(None, [(b'', 0x7C)], [])
    numbered = m.use(7, [], [0x70])
    two = (b'env', b'f n')
    fields = [
        ('type', m.type(b'sig', [0x7F, 0x6F], [0x7C, 0x70])),
        ('import func', m.imported(*two, 0, b'f', use)),
        ('import table', m.imported(*two, 1, b't', m.table_type(0x70, 1, 1, 9))),
        ('import table, 64-bit', m.imported(*two, 1, b'', m.table_type(0x6F, 5, 1, U64))),
        ('import memory', m.imported(*two, 2, b'm', m.limits(0, 300))),
        ('import memory, 64-bit', m.imported(*two, 2, b'm', m.limits(4, 2**32))),
        ('import global', m.imported(*two, 3, b'g', m.global_type(0x7F, 1))),
        ('func import', m.item(3, b'f', [b'a', b'bc'], 1, two) + use),
        ('table', m.item(4, b't', [b'a', b'bc'], 0) + m.table_type(0x70, 0, 5)),
        ('table import', m.item(4, b't', [b'a'], 1, two) + m.table_type(0x6F, 1, 5, 6)),
        ('table inline', m.item(4, b't', [b'a'], 2) + m.byte(4, 1, 5) + m.indices([b'f', 300])),
        ('memory', m.item(5, b'm', [b'a'], 0) + m.limits(1, 1, 2)),
        ('memory import', m.item(5, b'm', [b'a'], 1, two) + m.limits(5, 1, 2)),
        ('memory inline', m.item(5, b'm', [b'a'], 2) + m.byte(0, 1, 5) + m.data(b'abc\0')),
        ('global import', m.item(6, b'g', [b'a'], 1, two) + m.global_type(0x7D, 0)),
        ('export', m.first(7) + m.string(b'out') + m.byte(2, 4, 0xFF) + m.index(b'm')),
        ('start', m.first(8) + m.index(b'f')),
        ('start by number', m.first(8) + m.index(1)),
        ('elem passive', m.segment(9, b'e') + m.indices([1, b'f'])),
        ('elem active', m.segment(9, b'e', m.index(b't', True) + m.constant(0, 1)) + m.indices([b'f'])),
        ('data passive', m.segment(10, b'd') + m.data(b'\xFFxyz')),
        ('data active', m.segment(10, b'd', m.index(None, True) + m.constant(1, 1)) + m.data(b'xyz')),
    ]
    constants = [0x80, 0x80, b'1234', b'12345678', b'g', 0x6F, b'f']
    for kind, value in enumerate(constants):
        fields.append(('global, constant %d' % kind, m.item(6, b'g', [b'a'], 0) + m.global_type(0x70, 0)
                       + m.constant(kind, value)))
    for what, record in fields:
        yield what, [], record, b''
    head = m.function(b'f', [b'a', b'bc'], use, [(b'l', 0x7F), (b'', 0x7E)])
    yield 'func', [], head, b'\xFF'
    yield 'func, bare use', [], m.function(b'', [], bare), b'\xFF'
    yield 'func, numbered use', [], m.function(b'', [], numbered, [(b'', 0x7F)]), b'\xFF'
    end = hexed('0B 00 FF')
    opened = m.block(model.IF, b'', m.use())
    for opcode in (2, 3, 4):
        yield 'block %02X' % opcode, [head], m.block(opcode, b'lab', use), end
    yield 'block, numbered use', [head], m.block(2, b'', numbered), end
    yield 'else', [head, opened], m.code(5, m.identifier(b'lab')), end
    yield 'end', [head, opened], m.code(0x0B, m.identifier(b'lab')), b'\xFF'
    yield 'br_table', [head], m.code(0x0E, m.indices([b'lab', 3, b'x'], extra=1)), b'\xFF'
    yield 'br_table of one', [head], m.code(0x0E, m.indices([300], extra=1)), b'\xFF'
    for opcode in (0x0C, 0x0D, 0x10, 0x20, 0x21, 0x22, 0x23, 0x24, 0xD2):
        yield '%02X by name' % opcode, [head], m.code(opcode, m.index(b'nm')), b'\xFF'
        yield '%02X by number' % opcode, [head], m.code(opcode, m.index(200)), b'\xFF'
    yield 'call_indirect', [head], m.code(0x11, m.index(b't', True), use), b'\xFF'
    yield 'call_indirect, table 0', [head], m.code(0x11, m.index(None, True), bare), b'\xFF'
    for opcode in (0x28, 0x35, 0x36, 0x3E):
        access = m.byte(3, 33, 0x80, 0xFF) + m.number(200) + m.index(b'm', True)
        yield 'load or store %02X' % opcode, [head], m.code(opcode, access), b'\xFF'
    yield 'load, memory 0', [head], m.code(0x28, m.byte(0, 33), m.number(0), m.index(None, True)), b'\xFF'
    for opcode in (0x3F, 0x40):
        yield '%02X' % opcode, [head], m.code(opcode, m.index(b'm', True)), b'\xFF'
    for kind in range(4):
        yield 'constant %02X' % (0x41 + kind), [head], m.code(0x41 + kind, m.operand(kind, constants[kind])), b'\xFF'
    yield 'ref.null', [head], m.code(0xD0, m.reference(0x70)), b'\xFF'
    for what, second, indices in (('memory.init', 0x08, (b'd', b'm')), ('memory.init, memory 0', 0x08, (200, None)),
                                  ('data.drop', 0x09, (b'd',)), ('memory.copy', 0x0A, (b'm', 3)),
                                  ('memory.copy, memory 0', 0x0A, (None, None)), ('memory.fill', 0x0B, (b'm',))):
        yield what, [head], m.bulk(second, *indices), b'\xFF'
    for opcode in (0x00, 0x01, 0x0F, 0x1A, 0x1B, 0x45, 0xC4, 0xD1):
        yield 'plain %02X' % opcode, [head], m.code(opcode), b'\xFF'
    leaf = hexed('F0 01 00')
    memory = m.byte(0) + m.number(200) + m.index(None, True)
    yield 'folded, no operand', [head], m.folded(0, 0x41, m.number(0x80)), b'\xFF'
    yield 'folded, two operands', [head], m.folded(2, 0x36, memory), leaf * 2 + b'\xFF'
    yield 'folded call_indirect', [head], m.folded(1, 0x11, m.index(b't', True), use), leaf + b'\xFF'
    yield 'folded bulk memory', [head], m.folded(3, model.BULK, m.bulk(0x08, b'd', None)[1:]), leaf * 3 + b'\xFF'
    yield 'folded, an operand', [head, m.folded(1, 0x1A)], m.folded(1, 0x10, m.index(b'f'), due=True), leaf + b'\xFF'
    yield 'folded, a last operand', [head, m.folded(2, 0x6A), m.folded(0, 0x01)], m.folded(0, 0x20, m.index(1), due=True), b'\xFF'


def variants(token):
    """(refusal, or None where it stays valid; what; the token's bytes changed)"""
    sort, data, extra = token
    if sort == 'byte':
        for wrong in extra:
            yield 4, 'byte %02X' % wrong, bytes([wrong])
    if sort in ('number', 'count', 'length'):
        width = extra if sort == 'number' else 32
        for refusal, what, number in wide(width):
            yield refusal, what, number
    if sort == 'number':
        yield None, 'greatest', groups(2**extra - 1)
    if sort in ('number', 'count', 'length'):
        value = sum((byte & 0x7F) << 7 * i for i, byte in enumerate(data))
        if len(data) < (width + 6) // 7:
            yield 19, 'one group too many', longer(value)
            yield 19, 'padded', padded(value, width)
    if sort == 'count':
        yield 7, 'count past its ceiling', groups(extra + 1)
        yield 19, 'count past its ceiling, padded', padded(extra + 1)
        yield 7, 'greatest count', groups(U32)
    if sort == 'length':
        yield 2, 'greatest length', groups(U32)
    if sort in ('identifier', 'string'):
        refusal, most, bad = (5, 64, b' ') if sort == 'identifier' else (6, 255, b'\x7F')
        text = data[1:]
        for number, what, length in wide(32):
            yield number, what + ' in the length', length + text
        yield None, 'longest', groups(most) + b'a' * most
        yield 19, 'one group too many in the length', longer(len(text)) + text
        yield 19, 'padded length', padded(len(text)) + text
        yield 19, 'too long, padded', padded(most + 1) + b'a' * (most + 1)
        yield refusal, 'too long', groups(most + 1) + b'a' * (most + 1)
        yield refusal, 'greatest length', groups(U32) + text
        yield refusal, 'wrong first byte', groups(len(text) + 1) + bad + text
        yield refusal, 'wrong last byte', groups(len(text) + 1) + text + bad
        if sort == 'identifier' and extra:
            yield 5, 'empty', b'\0'
            yield 19, 'empty, padded', padded(0)


def wide(width):
    size = (width + 6) // 7
    over = 1 << width - 7 * (size - 1)
    yield 3, 'number past the width', b'\xFF' * (size - 1) + bytes([over])
    yield 3, 'number of too many groups', b'\x80' * size + b'\0'


def places():
    """Each variant of each token of each kind of record: the refusal and the
    case. A record before and one after, so that the fault is neither first
    nor last in the stream."""
    front = hexed('01 00 00 00')
    back = hexed('07 00 00 01 00')
    for what, before, record, rest in kinds():
        begun = front + joined(before)
        number = 1 + len(before)
        good = begun + whole(record) + rest + back
        records = model.read(good)[1]
        yield None, Case(what, good, accepted(records))
        for at, token in enumerate(record):
            for refusal, change, data in variants(token):
                stream = (begun + whole(record[:at]) + data + whole(record[at + 1:]) + rest + back)
                case = '%s, token %d: %s' % (what, at, change)
                yield refusal, Case(case, stream, refused(refusal, number) if refusal else accepted(records))
        size = len(whole(record))
        for keep in sorted({1, size - 1} - {0, size}):
            yield 2, Case('%s cut after %d of %d bytes' % (what, keep, size), begun + whole(record)[:keep],
                          refused(2, number))


def sweeps():
    """Each value of a byte, at one place of each sort."""
    func = '03 00 00 00 00 00 00 00 '
    for what, before, after in [
            ('first byte of a field', '', ''),
            ('first byte of a field, zeros after', '', '00 00 00 00 00 00'),
            ('first byte of an instruction', func, ''),
            ('first byte of an instruction, FF after', func, 'FF'),
            ('first byte of an instruction, an index after', func, '01 00 FF'),
            ('first byte of an instruction in a block', func + '02 00 00 00 00', '00 0B 00 FF'),
            ('first byte of an instruction in an if', func + '04 00 00 00 00', '00 0B 00 FF'),
            ('first byte of an instruction after an else', func + '04 00 00 00 00 05 00', '00 0B 00 FF'),
            ('parameter of a type', '01 00 01', '00'),
            ('result of a type', '01 00 00 01', ''),
            ('parameter of a use', '03 00 00 00 00 01 00', '00 00 FF'),
            ('local', '03 00 00 00 00 00 00 01 00', 'FF'),
            ('type of a global', '06 00 00 01 00 00', '00'),
            ('mutability', '06 00 00 01 00 00 7F', ''),
            ('type of a table', '04 00 00 00', '00 00'),
            ('limits of a table', '04 00 00 00 70', '00 00'),
            ('limits of a memory', '05 00 00 00', '00'),
            ('64-bit byte of an inline table', '04 00 00 02', '00'),
            ('64-bit byte of an inline memory', '05 00 00 02', '00'),
            ('kind of an import', '02 00 00', '00 00 00 00'),
            ('kind of an export', '07 00', '01 00'),
            ('form of a function', '03 00 00', '00 00 00 00 00 FF'),
            ('form of a table', '04 00 00', '00 00 70 00 00'),
            ('form of a memory', '05 00 00', '00 00 00 00'),
            ('form of a global', '06 00 00', '7F 00 00 00'),
            ('passive or active elem', '09 00', '00 00 00 00'),
            ('passive or active data', '0A 00', '00 00 00 00'),
            ('constant', '06 00 00 00 7F 00', '01 01 00'),
            ('type of ref.null', func + 'D0', 'FF'),
            ('type of a constant ref.null', '06 00 00 00 70 00 05', ''),
            ('index', func + '10', '01 61 FF'),
            ('optional index', func + '3F', '01 61 FF'),
            ('alignment', func + '28', '00 00 FF'),
            ('second byte of bulk memory', func + 'FC', '01 00 FF'),
            ('operator', func + 'F0', '00 FF'),
            ('first byte of an operand', func + 'F0 1A 01', '01 00 FF'),
            ('identifier byte', '01 01', '00 00'),
            ('last byte of an identifier in an index', '08 02 02 61', ''),
            ('identifier length', '01', '00 00'),
            ('string byte', '07 01', '00 01 00'),
            ('string length', '07', '61 00 01 00'),
            ('count of exports', '03', '00 00 00 00 00 00 FF'),
            ('last group of a u32', func + '41 FF FF FF FF', 'FF'),
            ('fourth group of a u32', func + '41 80 80 80', '00 FF'),
            ('last group of a u64', func + '42 FF FF FF FF FF FF FF FF FF', 'FF'),
            ('ninth group of a u64', func + '42 80 80 80 80 80 80 80 80', '00 FF'),
            ('raw byte', '0A 00 00 01', ''),
    ]:
        for value in range(256):
            yield Case('%s is %02X' % (what, value), hexed(before) + bytes([value]) + hexed(after), None)


def faults():
    for refusal, case in places():
        if refusal:
            yield case
    func = hexed('03 00 00 00 00 00 00 00')
    block, loop, if_ = hexed('02 00 00 00 00'), hexed('03 00 00 00 00'), hexed('04 00 00 00 00')
    else_, end = hexed('05 00'), hexed('0B 00')
    start, fold = hexed('08 01 00'), hexed('F0 01 00 FF')
    for what, text, answer in [
            # 2 between records
            ('ends after a function\'s head', func, refused(2, 1)),
            ('ends after an instruction', func + b'\x01', refused(2, 2)),
            ('ends in an open block', func + block, refused(2, 2)),
            ('ends after a block is closed', func + block + end, refused(2, 3)),
            ('the second body has no end', func + b'\xFF' + func, refused(2, 3)),
            # 2 and a wrong byte: the wrong byte comes first
            ('identifier cut', hexed('01 03 61'), refused(2, 0)),
            ('identifier cut, wrong byte before', hexed('01 03 61 20'), refused(5, 0)),
            ('string cut', hexed('07 03 61'), refused(2, 0)),
            ('string cut, wrong byte before', hexed('07 03 61 7F'), refused(6, 0)),
            ('identifier too long, then the end', hexed('01 41'), refused(5, 0)),
            ('string too long, then the end', hexed('07 80 02'), refused(6, 0)),
            ('count too large, then the end', hexed('03 00 09'), refused(7, 0)),
            ('empty name in an index, then the end', hexed('08 02 00'), refused(5, 0)),
            ('data one byte short', hexed('0A 00 00 04 61 62 63'), refused(2, 0)),
            ('number cut in its last group', func + hexed('41 80 80 80 80'), refused(2, 1)),
            # 3 before what the place makes of the value
            ('identifier length past u32', hexed('01 FF FF FF FF 10'), refused(3, 0)),
            ('string length past u32', hexed('07 FF FF FF FF 1F'), refused(3, 0)),
            ('count past u32', hexed('03 00 FF FF FF FF 7F'), refused(3, 0)),
            ('data length past u32', hexed('0A 00 00 80 80 80 80 80'), refused(3, 0)),
            # 19: after 2 and 3, before what the place makes of the value
            ('identifier longer than needed and too long', hexed('01 C1 00'), refused(19, 0)),
            ('the same in five groups', hexed('01 C1 80 80 80 00'), refused(19, 0)),
            ('the same, the fifth group with its high bit', hexed('01 C1 80 80 80 80'), refused(3, 0)),
            ('the same, cut before its last group', hexed('01 C1 80'), refused(2, 0)),
            ('string longer than needed and too long', hexed('07 80 82 00'), refused(19, 0)),
            ('count longer than needed and too large', hexed('03 00 89 00'), refused(19, 0)),
            ('empty name in an index, longer than needed', hexed('08 02 80 00'), refused(19, 0)),
            ('data length longer than needed and too large', hexed('0A 00 00 84 00 61'), refused(19, 0)),
            ('a second number longer than needed', func + hexed('41 80 01 41 80 00'), refused(19, 2)),
            # 8
            ('else first in a body', func + hexed('05 00 FF'), refused(8, 1)),
            ('end first in a body', func + hexed('0B 00 FF'), refused(8, 1)),
            ('else, then the end of the stream', func + hexed('05'), refused(8, 1)),
            ('end, then the end of the stream', func + hexed('0B'), refused(8, 1)),
            ('end with a wrong identifier, no block', func + hexed('0B 01 20'), refused(8, 1)),
            ('else after the block is closed', func + block + end + hexed('05 00 FF'), refused(8, 3)),
            ('end after the block is closed', func + block + end + end + b'\xFF', refused(8, 3)),
            ('FF in a block', func + block + b'\xFF', refused(8, 2)),
            ('FF after else', func + if_ + else_ + b'\xFF', refused(8, 3)),
            ('FF in the outer of two blocks', func + block * 2 + end + b'\xFF', refused(8, 4)),
            ('FF in 128 blocks', func + block * 128 + b'\xFF', refused(8, 129)),
            ('end in the second function', func + b'\xFF' + func + end, refused(8, 3)),
            ('end in the second function, blocks in the first',
             func + block + end + b'\xFF' + func + end, refused(8, 5)),
            # 8: an else belongs to an if
            ('else of an if', func + if_ + else_ + end + b'\xFF', accepted(5)),
            ('else of a block', func + block + else_ + end + b'\xFF', refused(8, 2)),
            ('else of a loop', func + loop + else_ + end + b'\xFF', refused(8, 2)),
            ('second else', func + if_ + else_ * 2 + end + b'\xFF', refused(8, 3)),
            ('else of a block, then the end of the stream', func + block + b'\x05', refused(8, 2)),
            ('else of a block with a wrong identifier', func + block + hexed('05 01 20'), refused(8, 2)),
            ('else after the inner end', func + if_ + block + end + else_ + end + b'\xFF', accepted(7)),
            ('else after the end of an inner if with its else',
             func + if_ + if_ + else_ + end + else_ + end + b'\xFF', accepted(8)),
            ('second else after the end of an inner if',
             func + if_ + else_ + if_ + else_ + end + else_ + end + b'\xFF', refused(8, 6)),
            ('second else after the end of an inner if without else',
             func + if_ + else_ + if_ + end + else_ + end + b'\xFF', refused(8, 5)),
            ('else of a block after the end of an inner if', func + block + if_ + end + else_, refused(8, 4)),
            ('else of an inner block in an if', func + if_ + block + else_ + end * 2 + b'\xFF', refused(8, 3)),
            ('else of an inner loop in an if', func + if_ + loop + else_ + end * 2 + b'\xFF', refused(8, 3)),
            ('else of a block in an else', func + if_ + else_ + block + else_ + end * 2 + b'\xFF', refused(8, 4)),
            ('two ifs, one after the other', func + (if_ + else_ + end) * 2 + b'\xFF', accepted(8)),
            ('a block after an if', func + if_ + end + block + else_, refused(8, 4)),
            ('an if after an if with its else, at the same depth', func + if_ + else_ + end + if_ + else_ + end + b'\xFF',
             accepted(8)),
            ('an if in the second function', (func + if_ + else_ + end + b'\xFF') * 2, accepted(10)),
            ('an else in the second function', func + if_ + end + b'\xFF' + func + else_, refused(8, 5)),
            # 4, 7 and 2 in and around folded records
            ('folded', func + fold, accepted(3)),
            ('folded in a block', func + block + fold[:-1] + end + b'\xFF', accepted(5)),
            ('F0 outside a body', hexed('F0 01 00'), refused(4, 0)),
            ('F0, then the end of the stream', func + b'\xF0', refused(2, 1)),
            ('an operator, then the end', func + hexed('F0 01'), refused(2, 1)),
            ('an operator without its operand, then the end', func + hexed('F0 41'), refused(2, 1)),
            ('an operand is due, then the end', func + hexed('F0 1A 01'), refused(2, 2)),
            ('the second operand is due, then the end', func + hexed('F0 6A 02 F0 01 00'), refused(2, 3)),
            ('an operand of an operand is due, then the end', func + hexed('F0 6A 02 F0 1A 01'), refused(2, 3)),
            ('a block is folded', func + hexed('F0 02 00 00 00 00 00 FF'), refused(4, 1)),
            ('an else is folded, no block open', func + hexed('F0 05'), refused(4, 1)),
            ('an else is folded in an if', func + if_ + hexed('F0 05 00 00'), refused(4, 2)),
            ('an end is folded in a block', func + block + hexed('F0 0B 00 00'), refused(4, 2)),
            ('FF is folded', func + hexed('F0 FF 00'), refused(4, 1)),
            ('F0 is folded', func + hexed('F0 F0 01 00 00'), refused(4, 1)),
            ('an operand without F0', func + hexed('F0 1A 01 01 FF'), refused(4, 2)),
            ('an operand after an operand with operands, without F0', func + hexed('F0 6A 02 F0 1A 01 F0 01 00 01'), refused(4, 4)),
            ('FF where an operand is due', func + hexed('F0 1A 01 FF'), refused(4, 2)),
            ('end where an operand is due, in a block', func + block + hexed('F0 1A 01 0B 00'), refused(4, 3)),
            ('FF where the second operand is due', func + hexed('F0 6A 02 F0 01 00 FF'), refused(4, 3)),
            ('17 operands, then the end', func + hexed('F0 1A 11'), refused(7, 1)),
            ('17 operands in an operand', func + hexed('F0 1A 01 F0 1A 11'), refused(7, 2)),
            ('a barred operator and a wrong count', func + hexed('F0 02 00 00 00 00 11'), refused(4, 1)),
            ('a padded count past 16', func + hexed('F0 1A 91 00'), refused(19, 1)),
            ('a folded record after another', func + fold[:-1] * 3 + b'\xFF', accepted(5)),
            ('an instruction after a folded one', func + hexed('F0 1A 01 F0 01 00 01 FF'), accepted(5)),
            ('FF after an operand, a block open', func + block + hexed('F0 1A 01 F0 01 00 FF'), refused(8, 4)),
            ('an else after a folded record', func + if_ + fold[:-1] + else_ + end + b'\xFF', accepted(6)),
            ('a body that ends in a folded one, then another', (func + hexed('F0 1A 01 F0 01 00 FF')) * 2, accepted(8)),
            # 9
            ('second start', start + start, refused(9, 1)),
            ('second start, then the end', start + b'\x08', refused(9, 1)),
            ('second start with a wrong index', start + hexed('08 00'), refused(9, 1)),
            ('second start, last of many', start + func + b'\x01\xFF' + hexed('01 00 00 00') + start, refused(9, 5)),
            ('third start is never seen', start * 3, refused(9, 1)),
            ('fault in the first start', hexed('08 00') + start, refused(4, 0)),
            # 4: a field in a body, a body's byte outside
            ('FF outside a body', b'\xFF', refused(4, 0)),
            ('FF after a body', func + b'\xFF\xFF', refused(4, 2)),
            ('a field in a body', func + hexed('07 00 00 01 00'), refused(4, 1)),
            ('start in a body', start + func + b'\x08', refused(4, 2)),
            ('an opcode outside a body', b'\x41\x00', refused(4, 0)),
    ]:
        yield Case(what, text, answer)
    yield from sweeps()


# ---------------------------------------------------------------------------
# Ceilings

def ceilings():
    func = hexed('03 00 00 00 00 00 00 00')
    in_body = lambda code: func + code + b'\xFF'

    # 65,536 bytes
    data = lambda size: b'\x0A\0\0' + groups(size - 6) + b'\xFF' * (size - 6)
    yield Case('65,536 bytes', data(65536), accepted(1))
    yield Case('65,537 bytes', data(65537), refused(1, 0))
    yield Case('65,537 bytes, a fault in record 2', hexed('01 00 00 00') * 2 + b'\0' * 65529, refused(1, 0))
    yield Case('65,536 bytes, a fault in record 2', hexed('01 00 00 00') * 2 + b'\0' * 65528, refused(4, 2))
    yield Case('65,536 bytes, cut', data(65537)[:65536], refused(2, 0))

    # 4,096 records
    export, start = hexed('07 00 00 01 00'), hexed('08 01 00')
    block = hexed('02 00 00 00 00')
    yield Case('4,096 records, fields', export * 4096, accepted(4096))
    yield Case('4,097 records, fields', export * 4097, refused(7, 4096))
    yield Case('4,096 records in a body', in_body(b'\x01' * 4094), accepted(4096))
    full = func + b'\x01' * 4095
    yield Case('4,097th is FF', full + b'\xFF', refused(7, 4096))
    yield Case('4,097th is an instruction', full + b'\x01\xFF', refused(7, 4096))
    yield Case('4,097th is no opcode', full + b'\x06', refused(4, 4096))
    yield Case('4,097th is else, no block open', full + b'\x05', refused(7, 4096))
    yield Case('4,097th is end, no block open', full + b'\x0B', refused(7, 4096))
    yield Case('4,097th is cut in its operand', full + b'\x41', refused(7, 4096))
    yield Case('4,096 records, then the end in a body', full, refused(2, 4096))
    yield Case('4,097th is FF in a block', func + block + b'\x01' * 4094 + b'\xFF', refused(7, 4096))
    ended = in_body(b'\x01' * 4094)
    yield Case('4,097th is no field', ended + b'\xFF', refused(4, 4096))
    yield Case('4,097th is a field cut', ended + b'\x01', refused(7, 4096))
    yield Case('4,097th is a second start', start + in_body(b'\x01' * 4093) + start, refused(7, 4096))
    yield Case('4,096th is a second start', start + in_body(b'\x01' * 4092) + start, refused(9, 4095))
    yield Case('4,096th is FF in a block', func + block + b'\x01' * 4093 + b'\xFF', refused(8, 4095))

    yield from item_ceilings(func)

    # Signatures and locals
    types = lambda count: groups(count) + b'\x7F' * count
    named = lambda count: groups(count) + b'\0\x7E' * count
    for what, before, after, record, records in [
            ('a type', hexed('01 00'), b'', 0, 1),
            ('an import', hexed('02 00 00 00 00 00'), b'', 0, 1),
            ('a function', hexed('03 00 00 00 00'), b'\0\xFF', 0, 2),
            ('an imported function', hexed('03 00 00 01 00 00 00'), b'', 0, 1),
            ('a block', func + hexed('02 00 00'), hexed('0B 00 FF'), 1, 4),
            ('call_indirect', func + hexed('11 00 00'), b'\xFF', 1, 3)]:
        parameters = types if what == 'a type' else named
        make = lambda p, r: before + parameters(p) + types(r) + after
        yield Case('64 parameters, 16 results in ' + what, make(64, 16), accepted(records))
        yield Case('65 parameters in ' + what, make(65, 0), refused(7, record))
        yield Case('17 results in ' + what, make(0, 17), refused(7, record))
        yield Case('65 parameters in %s, cut at the count' % what, before + b'\x41', refused(7, record))
        yield Case('17 results in %s, cut at the count' % what, before + b'\0\x11', refused(7, record))
    locals_ = lambda p, count: hexed('03 00 00 00 00') + named(p) + b'\0' + named(count) + b'\xFF'
    yield Case('64 locals', locals_(0, 64), accepted(2))
    yield Case('64 parameters and 64 locals', locals_(64, 64), accepted(2))
    yield Case('65 locals', locals_(0, 65), refused(7, 0))

    # 128 open blocks; S11 is among the samples
    end = hexed('0B 00')
    for opcode in b'\x02\x03\x04':
        one = bytes([opcode]) + hexed('00 00 00 00')
        nest = one * 128
        yield Case('128 open %02X' % opcode, in_body(nest + end * 128), accepted(258))
        yield Case('129 open %02X' % opcode, in_body(nest + one + end * 129), refused(7, 129))
        yield Case('129 open %02X, cut at the opcode' % opcode, func + nest + bytes([opcode]), refused(7, 129))
        yield Case('129 open %02X, wrong label' % opcode, func + nest + bytes([opcode]) + hexed('01 20'),
                   refused(7, 129))
    yield Case('128 open blocks twice, one closed between',
               in_body(block * 128 + end + block + end * 128), accepted(260))
    yield Case('128 open blocks, closed, again', in_body((block * 128 + end * 128) * 2), accepted(514))
    yield Case('128 open blocks in each of two functions', in_body(block * 128 + end * 128) * 2, accepted(516))
    one_if, one_else = hexed('04 00 00 00 00'), hexed('05 00')
    yield Case('else closes no block: 129 open', func + block * 127 + one_if + one_else + block, refused(7, 130))
    for depth in (1, 2, 63, 64, 65, 126, 127, 128):
        outer = (block, hexed('03 00 00 00 00'))[depth % 2] * (depth - 1)
        yield Case('else of an if at depth %d' % depth, in_body(outer + one_if + one_else + end * depth),
                   accepted(2 * depth + 3))
        yield Case('second else of an if at depth %d' % depth, func + outer + one_if + one_else * 2,
                   refused(8, depth + 2))
        yield Case('else of a block at depth %d, all others ifs' % depth, func + one_if * (depth - 1) + block + one_else,
                   refused(8, depth + 1))
        yield Case('%d ifs, each with its else' % depth,
                   in_body(one_if * depth + (one_else + end) * depth), accepted(3 * depth + 2))
        yield Case('%d ifs, an else of the outermost, a block elsewhere' % depth,
                   in_body(one_if + block * (depth - 1) + end * (depth - 1) + one_else + end), accepted(2 * depth + 3))

    yield from folded_ceilings(func)

    # 1,024 in a count
    indices = lambda count: b'\1\0' * count
    for what, before, extra, after, record, records in [
            ('an elem', hexed('09 00 00'), 0, b'', 0, 1),
            ('an active elem', hexed('09 00 01 00 00 00'), 0, b'', 0, 1),
            ('an inline table', hexed('04 00 00 02 00'), 0, b'', 0, 1),
            ('an inline 64-bit table', hexed('04 00 00 02 04'), 0, b'', 0, 1),
            ('a br_table', func + b'\x0E', 1, b'\xFF', 1, 3)]:
        make = lambda count: before + groups(count) + indices(count + extra) + after
        yield Case('1,024 in ' + what, make(1024), accepted(records))
        yield Case('1,025 in ' + what, make(1025), refused(7, record))
        yield Case('1,025 in %s, cut at the count' % what, before + groups(1025), refused(7, record))
        yield Case('1,024 in %s, one missing' % what,
                   before + groups(1024) + indices(1023 + extra), refused(2, record))

    # Exports, alignment, the ends of names and strings at their own places
    for byte, rest, records in [(3, '00 00 00 00 00 FF', 2), (4, '00 70 00 00', 1), (5, '00 00 00', 1),
                                (6, '01 00 00 7F 00', 1)]:
        make = lambda count: bytes([byte, 0, count]) + b'\0' * count + hexed(rest)
        yield Case('8 exports of %02X' % byte, make(8), accepted(records))
        yield Case('9 exports of %02X' % byte, make(9), refused(7, 0))
    for opcode in range(0x28, 0x3F):
        yield Case('alignment 32 of %02X' % opcode, in_body(bytes([opcode, 32, 0, 0])), accepted(3))
        yield Case('alignment 33 of %02X' % opcode, in_body(bytes([opcode, 33, 0, 0])), refused(4, 1))
    for size in (0, 1, 63, 64, 65):
        for what, before, after, record, records in [
                ('type', b'\x01', b'\0\0', 0, 1), ('label', func + b'\x02', hexed('00 00 00 0B 00 FF'), 1, 4),
                ('index', hexed('08 02'), b'', 0, 1)]:
            bad = size > 64 or size == 0 and what == 'index'
            name = (model.IDCHARS * 2)[:size]
            yield Case('identifier of %d: %s' % (size, what), before + groups(size) + name + after,
                       refused(5, record) if bad else accepted(records))
    for size in (0, 1, 127, 128, 255, 256, 257):
        text = (bytes(range(0x20, 0x7F)) * 3)[:size]
        for what, before, after in [
                ('export', b'\x07', hexed('00 01 00')),
                ('import module', b'\x02', hexed('00 02 00 00 00')),
                ('import field', hexed('02 00'), hexed('02 00 00 00'))]:
            yield Case('string of %d: %s' % (size, what), before + groups(size) + text + after,
                       refused(6, 0) if size > 255 else accepted(1))

    # The ends of u32 and u64, and where they take a group more
    for width, opcode in ((32, 0x41), (64, 0x42)):
        size = (width + 6) // 7
        ends = {2**bits for bits in range(0, width, 7)} | {2**bits - 1 for bits in range(0, width, 7)}
        for value in sorted(ends | {2**(width - 1) - 1, 2**(width - 1), 2**width - 1}):
            yield Case('u%d %d' % (width, value), in_body(bytes([opcode]) + groups(value)), accepted(3))
            for length in range(len(groups(value)) + 1, size + 1):
                more = groups(value | 1 << 7 * (length - 1))[:-1] + b'\0'
                yield Case('u%d %d in %d groups' % (width, value, length), in_body(bytes([opcode]) + more), refused(19, 1))
        yield Case('u%d one past' % width, in_body(bytes([opcode]) + groups(2**width)), refused(3, 1))
        yield Case('u%d, all bits' % width, in_body(bytes([opcode]) + b'\xFF' * size), refused(3, 1))
        yield Case('u%d zero in one group too many' % width,
                   in_body(bytes([opcode]) + b'\x80' * size + b'\0'), refused(3, 1))
        yield Case('u%d cut at the last group' % width, func + bytes([opcode]) + b'\x80' * (size - 1), refused(2, 1))
        yield Case('u%d past the width, cut there' % width, func + bytes([opcode]) + b'\x80' * size, refused(3, 1))

    # At the end of each number, name, string and count of each record
    for refusal, case in places():
        if refusal is None:
            yield case


def folded_ceilings(func):
    """16 operands, 32 deep, and both among 4,096 records and 128 blocks."""
    in_body = lambda code: func + code + b'\xFF'
    fold = lambda *operands: hexed('F0 01') + groups(len(operands)) + b''.join(operands)
    leaf = fold()
    block, end = hexed('02 00 00 00 00'), hexed('0B 00')

    def chain(depth, before=0, after=0):
        """One in the other, with operands beside each."""
        tree = leaf
        for _ in range(depth - 1):
            tree = fold(*[leaf] * before, tree, *[leaf] * after)
        return tree

    for count in (15, 16, 17):
        answer = accepted(count + 3) if count < 17 else refused(7, 1)
        yield Case('%d operands' % count, in_body(fold(*[leaf] * count)), answer)
        inner = accepted(count + 4) if count < 17 else refused(7, 2)
        yield Case('%d operands of an operand' % count, in_body(fold(fold(*[leaf] * count))), inner)
    yield Case('16 operands, each with 16', in_body(fold(*[fold(*[leaf] * 16)] * 16)), accepted(275))
    yield Case('16 operands, one missing', in_body(fold(*[leaf] * 16)[:-3]), refused(4, 17))
    yield Case('16 operands, one more after them', in_body(fold(*[leaf] * 16) + leaf), accepted(20))
    for depth in (31, 32, 33):
        fine = depth < 33
        for before, after in ((0, 0), (1, 0), (0, 1), (2, 1), (0, 2), (0, 15), (3, 12)):
            records = depth + (depth - 1) * (before + after)
            refusal = refused(7, 33 + 31 * before)
            yield Case('%d deep, %d operands before and %d after' % (depth, before, after),
                       in_body(chain(depth, before, after)), accepted(records + 2) if fine else refusal)
        yield Case('%d deep, twice' % depth, in_body(chain(depth) * 2), accepted(2 * depth + 2) if fine else refused(7, 33))
        yield Case('%d deep, after an operand of 31' % depth, in_body(fold(chain(31), chain(depth - 1))),
                   accepted(depth + 33) if fine else refused(7, 64))
        yield Case('%d deep in 128 blocks' % depth, in_body(block * 128 + chain(depth) + end * 128),
                   accepted(258 + depth) if fine else refused(7, 161))
        yield Case('%d deep, the last a block' % depth, func + chain(depth)[:-3] + hexed('F0 02'),
                   refused(4, depth) if fine else refused(7, 33))
    deep = chain(33)[:-3]
    yield Case('33 deep, cut at its F0', func + deep + b'\xF0', refused(7, 33))
    yield Case('33 deep, no F0 there', func + deep + b'\x01', refused(4, 33))
    yield Case('33 deep, nothing there', func + deep, refused(2, 33))

    # 16 operands each, the first nested: up to hundreds are due at once
    nops = lambda count: b'\x01' * count
    for depth in (4, 5, 6, 12):
        records = depth + (depth - 1) * 15
        heads = hexed('F0 01 10') * (depth - 1)
        yield Case('%d deep and wide, one more after them' % depth, in_body(chain(depth, 0, 15) + leaf), accepted(records + 3))
        yield Case('%d deep and wide, one missing' % depth, in_body(chain(depth, 0, 15)[:-3]), refused(4, records))
        for what, last, number in (('nothing', b'', 2), ('no F0', b'\x01', 4), ('FF', b'\xFF', 4), ('a block folded', hexed('F0 02'), 4),
                                   ('17 operands', hexed('F0 01 11'), 7)):
            yield Case('%d deep and wide, the innermost %s' % (depth, what), func + heads + last, refused(number, depth))
        for what, last, number in (('an operand', b'\xF0', 7), ('none', b'\x01', 4), ('nothing', b'', 2)):
            yield Case('%d deep and wide, the 4,097th is %s' % (depth, what), func + nops(4096 - depth) + heads + last, refused(number, 4096))

    # the 4,096th record and the next
    due = fold(leaf)[:-3]
    yield Case('4,096 records, the last folded', in_body(nops(4092) + fold(leaf)), accepted(4096))
    yield Case('4,097 records, the last but one an operand', in_body(nops(4093) + fold(leaf)), refused(7, 4096))
    for what, last, answer in (('an operand', b'\xF0', 7), ('none', b'\x01', 4), ('FF', b'\xFF', 4), ('an end', b'\x0B', 4), ('nothing', b'', 2)):
        yield Case('4,097th is %s where an operand is due' % what, func + nops(4094) + due + last, refused(answer, 4096))
    yield Case('4,097th is F0', func + nops(4095) + b'\xF0', refused(7, 4096))


def item_ceilings(func):
    """256 items in each of the seven index spaces, made by each form in turn,
    and the 257th by each form."""
    own_function = (func + b'\xFF').hex()
    inline_table, inline_memory = '04 00 00 02 00 00', '05 00 00 02 00 00'
    # (a record, the length of the part that ends with the byte that shows it)
    forms = {
        'func': [('02 00 00 00 00 00 00 00', 4), ('03 00 00 01 00 00 00 00 00', 1), (own_function, 1)],
        'table': [('02 00 00 01 00 70 00 00', 4), ('04 00 00 01 00 00 70 01 00 00', 1), ('04 00 00 00 6F 00 00', 1),
                  (inline_table, 1)],
        'memory': [('02 00 00 02 00 00 00', 4), ('05 00 00 01 00 00 00 00', 1), ('05 00 00 00 04 00', 1),
                   (inline_memory, 1)],
        'global': [('02 00 00 03 00 7F 00', 4), ('06 00 00 01 00 00 7F 01', 1), ('06 00 00 00 7F 00 00 00', 1)],
        'type': [('01 00 00 00', 1)],
        'elem': [('09 00 00 00', 1), ('09 00 01 00 00 00 00', 1), (inline_table, 4)],
        'data': [('0A 00 00 00', 1), ('0A 00 01 00 00 00 00', 1), (inline_memory, 4)],
    }
    for space, ways in forms.items():
        ways = [(hexed(record), shown) for record, shown in ways]
        full = b''.join(ways[i % len(ways)][0] for i in range(256))
        count = sum(2 if record[0] == 3 and record[-1] == 0xFF else 1 for record, _ in
                    (ways[i % len(ways)] for i in range(256)))
        yield Case('256 of ' + space, full, accepted(count))
        for number, (record, shown) in enumerate(ways):
            what = '257 of %s, the last by way %d' % (space, number)
            yield Case(what, full + record, refused(7, count))
            yield Case(what + ', cut at the byte that shows it', full + record[:shown], refused(7, count))
            if shown > 1:
                yield Case(what + ', cut before it', full + record[:shown - 1], refused(2, count))
        for other, others in forms.items():
            record, _ = others[0]
            if other != space:
                yield Case('256 of %s, then one of %s' % (space, other), full + hexed(record), accepted(count + 1))
    all_full = b''.join(hexed(record) * 256 for record in (
        forms['type'][0][0], forms['func'][0][0], inline_table, inline_memory, forms['global'][2][0]))
    yield Case('256 of each at once', all_full + hexed('08 01 00 07 00 00 01 00'), accepted(1282))
    for space, ways in forms.items():
        yield Case('256 of each, then one of ' + space, all_full + hexed(ways[0][0]), refused(7, 1280))


# ---------------------------------------------------------------------------
# Damage and chance

def damage(cases):
    for what, stream, _ in cases:
        for at, byte in enumerate(stream):
            for new in sorted({byte ^ 0x01, byte ^ 0x80, byte ^ 0xFF, 0x00, 0xFF} - {byte}):
                changed = stream[:at] + bytes([new]) + stream[at + 1:]
                yield Case('%s, byte %d made %02X' % (what, at, new), changed, None)
            if byte < 0x80:
                yield Case('%s, byte %d with a group after it' % (what, at), stream[:at] + longer(byte) + stream[at + 1:], None)
        for size in range(len(stream)):
            yield Case('%s, cut to %d' % (what, size), stream[:size], None)


def randoms(seed, count):
    """Rich streams, most with one to four changes: a byte changed, put in, left
    out or made a group that another follows, a piece of a stream left out,
    doubled or moved in."""
    chance = random.Random('random %d' % seed)
    for number in range(count):
        maker = Rich(chance)
        maker.fields(chance.choice([1, 2, 4, 8, 12]))
        stream = bytearray(joined(maker.records))
        for _ in range(chance.choice([0, 1, 1, 2, 4])):
            at = chance.randint(0, len(stream))
            piece = chance.randint(1, 12)
            change = chance.randrange(7)
            if change == 0 and at < len(stream):
                stream[at] = chance.getrandbits(8)
            elif change == 1:
                stream.insert(at, chance.choice([0, 1, 2, 5, 0x0B, 0x7F, 0x80, 0xFF, chance.getrandbits(8)]))
            elif change == 2:
                del stream[at:at + 1]
            elif change == 3:
                del stream[at:at + piece]
            elif change == 4:
                stream[at:at] = stream[at:at + piece]
            elif change == 5:
                other = chance.randint(0, len(stream))
                stream[at:at] = stream[other:other + piece]
            elif change == 6 and at < len(stream):
                stream[at:at + 1] = bytes([stream[at] | 0x80]) + b'\x80' * chance.choice([0, 0, 1, 3]) + b'\0'
        yield Case('random %d' % number, bytes(stream), None)


# ---------------------------------------------------------------------------

def answered(cases):
    """Each case with the model's answer, which must be the one foreseen."""
    for what, stream, expected in cases:
        answer = model.line(model.read(stream))
        if expected not in (None, answer):
            sys.exit('streams: %s: the model says %s, foreseen was %s: %s'
                     % (what, answer, expected, stream.hex()[:400]))
        yield Case(what, stream, answer)


def chosen(options):
    if options.samples:
        yield from samples()
    if options.valid:
        yield from valid(options.seed, options.count)
    if options.ceilings:
        yield from ceilings()
    if options.faults:
        yield from faults()
    if options.damage:
        yield from damage(valid(options.seed, options.count))
    if options.random:
        yield from randoms(options.seed, options.random)


def main():
    parser = argparse.ArgumentParser(description=__doc__, formatter_class=argparse.RawDescriptionHelpFormatter)
    for what in ('valid', 'samples', 'damage', 'ceilings', 'faults', 'list'):
        parser.add_argument('--' + what, action='store_true')
    parser.add_argument('--random', type=int, default=0, metavar='N')
    parser.add_argument('--seed', type=int, default=1)
    parser.add_argument('--count', type=int, default=48)
    options = parser.parse_args()
    if not (options.samples or options.damage or options.ceilings or options.faults or options.random):
        options.valid = True
    for what, stream, answer in answered(chosen(options)):
        if options.list:
            print('%s  %s  # %s' % (stream.hex().upper() or '-', answer, what))
        else:
            sys.stdout.buffer.write(batch.pack([stream]))


if __name__ == '__main__':
    main()
