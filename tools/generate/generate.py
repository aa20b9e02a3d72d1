#!/usr/bin/env python3
"""Seeded streams for the whole assembler, from chance alone: no answer is
foreseen here.

usage: generate.py [--sort SORT] [--seed S] [--first N] [--count N] [--hex]

Sorts:
  rich      valid modules: every record form and opcode, names, numbers and
            absences, uses before and after what they name
  faulty    the same with two or three sorts of faults (11 to 17) in one stream
  edges     a ceiling, an end of a number's form or the output's end, one below,
            at and one above it
  damaged   a stream of these sorts with bytes changed, cut, moved or padded
  names     rich in names: functions, parameters and locals with and without
            identifiers, after imports, and every form of a type use; some
            faulty, with records moved, or at an end of the name section's form
  numbers   rich in numbers, for the strict call: below, at and above the count of
            what they point to, in every sort of use; absences where there is an
            item and where there is none; some with names that nothing has
  folded    rich in folded records (the others have some too): trees of all shapes,
            with uses that add types in operands and faults whose flat order is not
            that of the stream; up to and past 16 operands and 32 deep; some folded
            badly

A stream is known by its sort, seed and number alone. Writes the batch form
(batch.py), or with --hex a line for each stream.
"""
import argparse
import os
import random
import sys
from collections import namedtuple

sys.path.insert(0, os.path.join(os.path.dirname(os.path.abspath(__file__)), '..'))
import paths
import batch
import model
from reading_model import IDCHARS, NESTING, OPCODES, OPERANDS, groups, record_starts

SORTS = ('rich', 'faulty', 'edges', 'damaged', 'names', 'numbers', 'folded')

I32, I64, F32, F64, FUNCREF, EXTERNREF = 0x7F, 0x7E, 0x7D, 0x7C, 0x70, 0x6F
VALUE_TYPES = (I32, I64, F32, F64, FUNCREF, EXTERNREF)
FUNC, TABLE, MEMORY, GLOBAL, TYPE, ELEM, DATA = range(7)

# Short ones that are easily taken for one another, one that starts another,
# the name of the crate's own symbols, and a longest one.
NAMES = [b'a', b'b', b'c', b'd', b'aa', b'ab', b'ba', b'aab', b'x', b'l', b'f', b'0', b'1', b'gensym', b'gensyn',
         b'x' * 63, b'x' * 64, b'x' * 63 + b'y', bytes(IDCHARS[-24:]), b'$', b'A']

NUMBERS = (0, 0, 0, 1, 1, 2, 3, 5, 63, 64, 127, 128, 255, 256, 8191, 8192, 16383, 16384, 2**20, 2**21 - 1, 2**21,
           2**27, 2**28 - 1, 2**28, 2**31 - 1, 2**31, 2**32 - 1)

BLOCK, LOOP, IF, ELSE, END = b'\x02', b'\x03', b'\x04', b'\x05', b'\x0B'
FOLDED = bytes([model.FOLDED])

# A block that is open: its label or None, and whether it is an if without else.
Open = namedtuple('Open', 'label awaits_else')

WITHOUT_OPERAND = [opcode for opcode in OPCODES
                   if opcode in (0x00, 0x01, 0x0F, 0x1A, 0x1B, 0xD1) or 0x45 <= opcode <= 0xC4]


def edge_numbers(width):
    """Where the signed and unsigned forms of a width get longer."""
    ends = [0, 1, 2**width - 1, 2**width - 2, 2**(width - 1), 2**(width - 1) - 1, 2**(width - 1) + 1]
    for bits in range(6, width, 7):
        for power in (2**bits, 2**(bits + 1)):
            ends += [value % 2**width for value in (power - 1, power, -power, -power - 1)]
    return tuple(value for value in ends if value < 2**width)


EDGES32, EDGES64 = edge_numbers(32), edge_numbers(64)


class Maker:
    """One stream. `faults` gives, for a refusal, how often a place that can
    have it gets it; 4 is in bulk memory, 8 an else where none may be, 13 is for
    items, 'local' for a function's names, 'folded' for a record folded badly.
    `unnamed` gives for both how often there is no name, and `pool` has the names."""

    unnamed = {13: 0.35, 'local': 0.35}
    pool = NAMES
    local_counts = (0, 0, 1, 2, 4)
    reach = 1                           # how much of `instruction` there is; blocks come first
    foldings = (0, 0, 0, 0.1, 0.5)      # how often an instruction is folded, in a stream

    def __init__(self, chance, faults=None):
        self.chance = chance
        self.random = chance.random
        self.pick = chance.choice
        self.faults = faults or {}
        self.out = []
        self.names = [[] for _ in range(7)]
        self.declared = []              # the names of the declared types
        self.types = []                 # as interning will number them
        self.folds = self.pick(self.foldings)
        self.depth = self.pick((1, 2, 3, 4, 8, NESTING))        # how deep they nest

    def fault(self, number):
        """Whether this place gets this fault."""
        return number in self.faults and self.random() < self.faults[number]

    # ---- parts ----

    def number(self, value, width=32):
        """Shortest; with fault 19 in more groups than needed."""
        short, most = groups(value), (width + 6) // 7
        if len(short) == most or not self.fault(19):
            return short
        size = self.chance.randint(len(short) + 1, most)
        return short[:-1] + bytes([short[-1] | 0x80]) + b'\x80' * (size - len(short) - 1) + b'\0'

    def identifier(self, name):
        """A name, or none."""
        return self.number(len(name or b'')) + (name or b'')

    def string(self):
        """With characters that would need an escape in a text."""
        size = self.pick((0, 1, 1, 2, 3, 5)) if self.random() < 0.99 else self.pick((127, 128, 255))
        return self.number(size) + bytes(self.chance.choices(b'abc "\\~xyz{}', k=size))

    def fresh(self, taken, refusal=13):
        """None, a name that is not taken, or with that fault one that is."""
        if taken and self.fault(refusal):
            return self.pick(taken)
        if self.random() < self.unnamed[refusal]:
            return None
        for _ in range(3):
            name = self.pick(self.pool)
            if name not in taken:
                return name
        return None

    def index(self, names, optional=False, likely=0.75):
        """By a name that is there, by a number, or absent. With fault 14 by a
        name that is not there, though it may be in another space."""
        if self.fault(14):
            name = self.pick(NAMES)
            if name not in names:
                return b'\2' + self.identifier(name)
        if optional and self.random() < 0.4:
            return b'\0'
        if names and self.random() < likely:
            return b'\2' + self.identifier(self.pick(names))
        return b'\1' + self.number(self.pick(NUMBERS))

    def indices(self, names, count):
        """A count and as many indices."""
        return self.number(count) + b''.join([self.index(names) for _ in range(count)])

    def value_type(self):
        """Mostly integers, so that signatures meet again."""
        return self.pick(VALUE_TYPES) if self.random() < 0.4 else self.pick((I32, I64))

    def signature(self):
        """Often one of the few that this stream uses again and again."""
        if self.types and self.random() < 0.5:
            return self.pick(self.types)
        parameters, results = self.pick((0, 0, 1, 1, 2, 3)), self.pick((0, 0, 1, 1, 2))
        if self.random() < 0.01:
            parameters, results = self.chance.randint(0, 64), self.chance.randint(0, 16)
        return (bytes([self.value_type() for _ in range(parameters)]),
                bytes([self.value_type() for _ in range(results)]))

    def differing(self, signature):
        """Another signature, close to this one."""
        parameters, results = signature
        way = self.chance.randrange(6)
        if way == 0 and parameters:
            return parameters[:-1], results
        if way == 1 and results:
            return parameters, results[:-1]
        if way == 2 and parameters and len(results) < 16:
            return parameters[:-1], parameters[-1:] + results
        if way == 3 and results and len(parameters) < 64:
            return parameters + results[:1], results[1:]
        if way == 4 and parameters:
            return bytes([I64 if parameters[0] == I32 else I32]) + parameters[1:], results
        return (parameters + bytes([I32]))[:64], results

    def use(self, taken=None, block=False):
        """A type use; `taken` collects the names of a function's parameters."""
        way = self.random()
        index, signature = b'\0', (b'', b'')
        if way < 0.2:
            index = self.index(self.names[TYPE])
        elif way < 0.3 and self.types:
            index = b'\1' + self.number(self.chance.randrange(len(self.types)))
        elif way < 0.6 or not self.types:
            signature = self.signature()
        elif way < 0.85:
            number = self.chance.randrange(len(self.types))
            signature = self.types[number]
            name = self.declared[number] if number < len(self.declared) else None
            if name and self.random() < 0.6:
                index = b'\2' + self.identifier(name)
            else:
                index = b'\1' + self.number(number)
            if self.fault(15):
                index = b'\1' + self.number(len(self.types) + self.pick((0, 1, 2, 3, 6, 2**32 - 300)))
            elif self.fault(16):
                signature = self.differing(signature)
        if index == b'\0' and not (block and not signature[0] and len(signature[1]) < 2):
            if signature not in self.types:
                self.types.append(signature)
        parts = [index, self.number(len(signature[0]))]
        for value_type in signature[0]:
            if taken is None:
                name = self.pick(NAMES) if self.random() < 0.3 else None
            else:
                name = self.fresh(taken, 'local')
                if name and name not in taken:
                    taken.append(name)
            parts.append(self.identifier(name) + bytes([value_type]))
        return b''.join(parts) + self.number(len(signature[1])) + signature[1]

    def limits(self):
        """All four forms, with long and short numbers."""
        flags = self.pick((0, 1, 4, 5))
        edges, width = (EDGES64, 64) if flags & 4 else (EDGES32, 32)
        low, high = (self.pick(edges) if self.random() < 0.5 else self.chance.randrange(20) for _ in range(2))
        return bytes([flags]) + self.number(low, width) + (self.number(high, width) if flags & 1 else b'')

    def operand(self, kind):
        """A constant without its first byte."""
        if kind < 2:
            width = 64 if kind else 32
            value = self.pick(EDGES64 if kind else EDGES32) if self.random() < 0.8 else self.chance.getrandbits(width)
            return self.number(value, width)
        if kind < 4:
            return self.chance.randbytes(4 if kind == 2 else 8)
        if kind == 5:
            return bytes([self.pick((FUNCREF, EXTERNREF))])
        return self.index(self.names[GLOBAL if kind == 4 else FUNC])

    def constant(self):
        """A constant with its first byte."""
        kind = self.pick((0, 0, 0, 1, 2, 3, 4, 4, 5, 6))
        return bytes([kind]) + self.operand(kind)

    def description(self, kind):
        """What an import describes, by its kind."""
        if kind == FUNC:
            return self.use()
        if kind == TABLE:
            return bytes([self.pick((FUNCREF, EXTERNREF))]) + self.limits()
        if kind == MEMORY:
            return self.limits()
        return bytes([self.value_type(), self.chance.randrange(2)])

    def data(self):
        """A length and bytes."""
        size = self.pick((0, 1, 3, 8)) if self.random() < 0.97 else self.pick((127, 128, 300))
        return self.number(size) + self.chance.randbytes(size)

    # ---- fields ----

    def planned_fields(self):
        """What fields there are, in order."""
        own = ['type', 'func', 'table', 'memory', 'global', 'export', 'elem', 'data']
        head = ['import'] * self.pick((0, 0, 1, 2, 5)) + ['type'] * self.pick((0, 1, 2, 4))
        head += self.chance.choices(['export', 'elem', 'data'], k=self.pick((0, 0, 0, 1, 2)))
        self.chance.shuffle(head)
        fields = head + self.chance.choices(own, (3, 8, 2, 2, 3, 2, 2, 2), k=self.pick((0, 1, 2, 4, 7)))
        if self.random() < 0.3:
            fields.insert(self.chance.randint(0, len(fields)), 'start')
        if self.fault(11):
            fields.insert(self.chance.randint(0, len(fields)), 'import')
        return fields

    def imported_kind(self):
        """The kind of an import."""
        return self.chance.randrange(4)

    def plan(self):
        """The fields, in order: (what, space or None, name)."""
        spaces = {'func': FUNC, 'table': TABLE, 'memory': MEMORY, 'global': GLOBAL, 'type': TYPE, 'elem': ELEM,
                  'data': DATA}
        planned = []
        for what in self.planned_fields():
            space = self.imported_kind() if what == 'import' else spaces.get(what)
            name = None
            if space is not None:
                name = self.fresh(self.names[space])
                if name:
                    self.names[space].append(name)
            planned.append((what, space, name))
        return planned

    def stream(self):
        """All fields; names are planned first, so that uses may come before."""
        planned = self.plan()
        self.declared = [name for what, _, name in planned if what == 'type']
        for _ in self.declared:
            self.types.append(self.signature())
        signatures = iter(self.types[:])
        for what, space, name in planned:
            if what == 'type':
                parameters, results = next(signatures)
                self.out.append(b'\1' + self.identifier(name) + self.number(len(parameters)) + parameters
                                + self.number(len(results)) + results)
            else:
                getattr(self, WRITERS[what])(space, name)
        return b''.join(self.out)

    def exports(self):
        """None, some, or as many as may be."""
        count = self.pick((0, 0, 0, 1, 1, 2, 8))
        return self.number(count) + b''.join([self.string() for _ in range(count)])

    def start(self, _space, _name):
        """Record 08."""
        self.out.append(b'\x08' + self.index(self.names[FUNC]))

    def export(self, _space, _name):
        """Record 07."""
        kind = self.chance.randrange(4)
        self.out.append(b'\x07' + self.string() + bytes([kind]) + self.index(self.names[kind]))

    def imported(self, kind, name):
        """Record 02, or an item in form 1."""
        if self.random() < 0.5:
            head = b'\x02' + self.string() + self.string() + bytes([kind]) + self.identifier(name)
        else:
            head = bytes([3 + kind]) + self.identifier(name) + self.exports() + b'\1' + self.string() + self.string()
        self.out.append(head + self.description(kind))

    def head(self, kind, name, form):
        """Identifier, exports and form of an item."""
        return bytes([3 + kind]) + self.identifier(name) + self.exports() + bytes([form])

    def table(self, kind, name):
        """Own or inline."""
        if self.random() < 0.5:
            self.out.append(self.head(kind, name, 0) + self.description(kind))
        else:
            count = self.pick((0, 1, 1, 3))
            self.out.append(self.head(kind, name, 2) + self.pick((b'\0', b'\4'))
                            + self.indices(self.names[FUNC], count))

    def memory(self, kind, name):
        """Own or inline."""
        if self.random() < 0.5:
            self.out.append(self.head(kind, name, 0) + self.description(kind))
        else:
            self.out.append(self.head(kind, name, 2) + self.pick((b'\0', b'\4')) + self.data())

    def global_item(self, kind, name):
        """An own global."""
        self.out.append(self.head(kind, name, 0) + self.description(kind) + self.constant())

    def segment(self, first, space, name):
        """The head of a segment, passive or active."""
        place = b'\0'
        if self.random() < 0.7:
            place = b'\1' + self.index(self.names[space], True) + self.constant()
        return bytes([first]) + self.identifier(name) + place

    def elem(self, _space, name):
        """Record 09."""
        count = self.pick((0, 1, 1, 3))
        self.out.append(self.segment(0x09, TABLE, name) + self.indices(self.names[FUNC], count))

    def data_segment(self, _space, name):
        """Record 0A."""
        self.out.append(self.segment(0x0A, MEMORY, name) + self.data())

    def func(self, kind, name):
        """An own function with its body."""
        names = []
        head = self.head(kind, name, 0) + self.use(names)
        count = self.pick(self.local_counts) if self.random() < 0.99 else self.chance.randint(0, 64)
        parts = [head, self.number(count)]
        last = I32
        for _ in range(count):
            last = last if self.random() < 0.4 else self.value_type()
            local = self.fresh(names, 'local')
            if local and local not in names:
                names.append(local)
            parts.append(self.identifier(local) + bytes([last]))
        self.out.append(b''.join(parts))
        self.body(names, self.pick((0, 1, 2, 4, 8, 16)))

    # ---- instructions ----

    def body(self, local_names, size):
        """Some instructions, all blocks closed, and FF."""
        blocks = []
        for _ in range(size):
            if self.random() < self.folds:
                self.out.append(self.folded(local_names, blocks))
            else:
                self.out.append(self.instruction(local_names, blocks))
        while blocks:
            self.out.append(self.end(blocks))
        self.out.append(b'\xFF')

    def repeated(self, label, blocks):
        """The label on an else or end: the block's or none; with fault 17
        another's, or one where there is none."""
        said = label if self.random() < 0.4 else None
        if self.fault(17):
            said = self.pick(NAMES[:6] + [other.label for other in blocks if other.label])
        return self.identifier(said)

    def end(self, blocks):
        """The end of the innermost block."""
        label = blocks.pop().label
        return END + self.repeated(label, blocks)

    def else_(self, blocks):
        """The else of the innermost block."""
        blocks[-1] = blocks[-1]._replace(awaits_else=False)
        return ELSE + self.repeated(blocks[-1].label, blocks)

    def instruction(self, local_names, blocks):
        """One instruction; `blocks` are the open ones."""
        way = self.random() * self.reach
        if way < 0.14:
            label = self.pick(NAMES[:5]) if self.random() < 0.6 else None
            use = self.use(block=True)
            opcode = self.pick((BLOCK, LOOP, IF, IF))
            blocks.append(Open(label, opcode == IF))
            return opcode + self.identifier(label) + use
        if way < 0.26 and blocks:
            if self.fault(8) or blocks[-1].awaits_else and self.random() < 0.5:
                return self.else_(blocks)
            return self.end(blocks)
        return self.plain(way, local_names, blocks)

    def operator(self, local_names, blocks):
        """One that may be folded."""
        return self.plain(self.chance.uniform(0.26, 1), local_names, blocks)

    def folded(self, local_names, blocks, nesting=1):
        """A folded record, nested so deep, and its operands: made in flat order, as
        types are numbered, and put in stream order."""
        inner, count = nesting + 1, self.pick((0, 0, 1, 2, 2, 3) if self.depth < 5 else (0, 1, 1, 1, 1, 2))
        if nesting >= self.depth:
            count = 0
        elif self.random() < 0.01:
            inner, count = self.depth, self.chance.randint(4, OPERANDS)         # they have none themselves
        operands = [self.folded(local_names, blocks, inner) for _ in range(count)]
        operator = self.operator(local_names, blocks)
        if self.fault('folded'):
            return self.badly_folded(operator, operands)
        return FOLDED + operator + self.number(count) + b''.join(operands)

    def badly_folded(self, operator, operands):
        """An operator that may not be folded, a wrong count, or an operand that is
        not folded."""
        count, way = len(operands), self.random()
        if way < 0.4:
            opened = self.identifier(None) + use()
            operator = self.pick((BLOCK + opened, LOOP + opened, IF + opened, ELSE + b'\0', END + b'\0', FOLDED, b'\xFF',
                                  FOLDED + operator + b'\0', b'\x06', b'\x08'))
        elif way < 0.7:
            count = self.pick((count + 1, count - 1, OPERANDS, OPERANDS + 1, OPERANDS + 2, 127, 128, 2**32 - 1)) % 2**32
        else:
            operands.append(self.pick((operator, b'\xFF', END + b'\0', BLOCK, b'\x01')))
            count += 1
        return FOLDED + operator + self.number(count) + b''.join(operands)

    def plain(self, way, local_names, blocks):
        """One that opens and closes no block."""
        names = self.names
        if way < 0.38:
            return bytes([self.pick((0x20, 0x21, 0x22))]) + self.index(local_names)
        if way < 0.46:
            shown = [block.label for block in blocks if block.label]
            if self.random() < 0.6:
                return bytes([self.pick((0x0C, 0x0D))]) + self.index(shown)
            count = self.pick((0, 1, 2, 4))
            return b'\x0E' + self.indices(shown, count) + self.index(shown)
        if way < 0.52:
            return self.pick((b'\x10', b'\xD2')) + self.index(names[FUNC])
        if way < 0.60:
            return b'\x11' + self.index(names[TABLE], True) + self.use()
        if way < 0.65:
            return self.pick((b'\x23', b'\x24')) + self.index(names[GLOBAL])
        if way < 0.75:
            alignment = self.pick((0, 0, 0, 1, 2, 3, 4, 31, 32))
            return (bytes([self.chance.randint(0x28, 0x3E), alignment]) + self.number(self.pick(NUMBERS))
                    + self.index(names[MEMORY], True))
        if way < 0.78:
            return self.pick((b'\x3F', b'\x40')) + self.index(names[MEMORY], True)
        if way < 0.83:
            return self.bulk(self.pick(tuple(model.BULK_SPACES)))
        if way < 0.90:
            kind = self.chance.randrange(4)
            return bytes([0x41 + kind]) + self.operand(kind)
        if way < 0.92:
            return b'\xD0' + self.operand(5)
        return bytes([self.pick(WITHOUT_OPERAND)])

    def bulk(self, second):
        """FC, the second byte, and its indices; that of a memory may be absent. With
        fault 4 that of data too, or the second byte is another, or a number of two."""
        begun = bytes([second])
        if self.fault(4):
            begun = self.pick((b'\x07', b'\x0C', begun + b'\0', bytes([second | 0x80, 0])))
        return bytes([model.BULK]) + begun + b''.join(
            self.index(self.names[space], space == MEMORY) for space in model.BULK_SPACES[second])


# The method that writes a field.
WRITERS = {'import': 'imported', 'func': 'func', 'table': 'table', 'memory': 'memory', 'global': 'global_item',
           'export': 'export', 'start': 'start', 'elem': 'elem', 'data': 'data_segment'}


class Brancher(Maker):
    """Functions of blocks above all."""

    reach = 0.4

    def planned_fields(self):
        """Some types and functions."""
        return ['type'] * self.pick((0, 1, 2)) + ['func'] * self.pick((1, 1, 2, 4))


class Copier(Maker):
    """Bulk memory above all: memories and data segments, names of one space in the
    other, and functions with instructions for both, for one, or for none."""

    pool = NAMES[:5]

    def __init__(self, chance, faults=None):
        super().__init__(chance, faults)
        self.seconds = self.pick((tuple(model.BULK_SPACES), (model.COPY, model.FILL), (model.INIT,), (model.DROP,)))

    def planned_fields(self):
        """Memories, data segments and functions in any order; data count without one too."""
        own = ['memory'] * self.pick((0, 1, 2, 4)) + ['data'] * self.pick((0, 1, 2, 4)) + ['func'] * self.pick((1, 1, 2))
        self.chance.shuffle(own)
        return ['import'] * self.pick((0, 0, 1)) + own

    def imported_kind(self):
        """Memories, which count before the own ones."""
        return MEMORY

    def instruction(self, local_names, blocks):
        """Seldom another one."""
        if self.random() < 0.7:
            return self.bulk(self.pick(self.seconds))
        return super().instruction(local_names, blocks)

    def operator(self, local_names, blocks):
        """The same, folded."""
        if self.random() < 0.7:
            return self.bulk(self.pick(self.seconds))
        return super().operator(local_names, blocks)


def rich(chance):
    """A stream without a fault."""
    way = chance.random()
    return (Brancher if way < 0.1 else Copier if way < 0.2 else Maker)(chance).stream()


def faulty(chance):
    """Two to four sorts of faults compete in one stream."""
    sorts = chance.sample((11, 13, 'local', 14, 15, 16, 17), chance.choice((2, 3, 4)))
    maker = Copier if chance.random() < 0.1 else Maker
    return maker(chance, {number: chance.choice((0.05, 0.2, 0.5)) for number in sorts}).stream()


# ---------------------------------------------------------------------------
# Edges. Each gives a stream from a source of chance.

FUNCTION = bytes.fromhex('03 00 00 00 00 00 00 00')
ENDED = END + b'\0'              # without a label


def near(chance, ceiling):
    """A ceiling, one less or one more."""
    return ceiling + chance.choice((-1, 0, 0, 1))


def sized(text):
    """A name, a string or a list of value types."""
    return groups(len(text)) + text


def named(number):
    """A name for each number."""
    return b'n%d' % number


def in_function(code):
    """Instructions as the body of a function without type or locals."""
    return FUNCTION + code + b'\xFF'


def signature_number(number):
    """A signature of its own for each number: its digits in six types."""
    digits = b''
    while number:
        digits += bytes([VALUE_TYPES[number % 6]])
        number //= 6
    return digits


def type_record(name, parameters, results=b''):
    """A declared type."""
    return b'\1' + sized(name) + sized(parameters) + sized(results)


def use(parameters=b'', results=b'', index=b'\0'):
    """A type use with nameless parameters."""
    return index + groups(len(parameters)) + b''.join(b'\0' + bytes([one]) for one in parameters) + sized(results)


def many_items(chance):
    """About 256 items of one space in all forms, the last used by name."""
    space = chance.randrange(7)
    count = near(chance, 256)
    imports = chance.choice((0, 1, 100, count))
    two = b'\1m\1n'
    short = {FUNC: b'\0\0\0', TABLE: b'\x70\0\0', MEMORY: b'\0\0', GLOBAL: b'\x7F\0'}
    out = []
    for number in range(count):
        name = sized(named(number))
        if space == TYPE:
            out.append(type_record(named(number), b''))
        elif space == ELEM:
            out.append(chance.choice((b'\x09' + name + b'\0\0', b'\x04\0\0\2\0\0')))
        elif space == DATA:
            out.append(chance.choice((b'\x0A' + name + b'\0\0', b'\x05\0\0\2\0\0')))
        elif number < imports:
            first = bytes([3 + space])
            head = chance.choice((b'\2' + two + bytes([space]) + name, first + name + b'\0\1' + two))
            out.append(head + short[space])
        elif space == FUNC:
            out.append(b'\3' + name + b'\0\0' + short[FUNC] + b'\0\xFF')
        elif space == GLOBAL:
            out.append(b'\6' + name + b'\0\0' + short[GLOBAL] + b'\0\0')
        else:
            out.append(bytes([3 + space]) + name + b'\0\0' + short[space])
    if space < TYPE:
        out.append(b'\x07\1e' + bytes([space]) + b'\2' + sized(named(chance.choice((0, 127, 128, count - 1, count)))))
    return b''.join(out)


def many_types(chance):
    """Declared types and uses that bring them to about 256."""
    declared = chance.choice((0, 200, 250, 255, 256))
    total = near(chance, 256)
    out = [type_record(b'', signature_number(number)) for number in range(declared)]
    body = []
    for number in range(declared, total):
        way = chance.randrange(3)
        signature = signature_number(number)
        if way == 0:
            out.append(b'\2\1m\1n\0\0' + use(signature))
        elif way == 1:
            body.append(b'\x11\0' + use(signature))
        else:
            body.append(b'\2\0' + use(signature, b'\x7F\x7F') + ENDED)
    own = use(signature_number(chance.randrange(300)))
    out.append(b'\3\0\0\0' + own + b'\0' + b''.join(body) + b'\xFF')
    # first or last, something for 11, 13 or 14 to say
    out.insert(chance.choice((0, len(out))),
               chance.choice((b'', b'', b'\2\1m\1n\2\0\0\0', b'\x0A\1d\0\0' * 2, b'\x08\2\1q')))
    return b''.join(out)


def wide_signature(chance):
    """A signature or a list of locals at its ceiling."""
    parameters = bytes(chance.choices(VALUE_TYPES, k=near(chance, 64)))
    results = bytes(chance.choices(VALUE_TYPES, k=near(chance, 16)))
    count = near(chance, 64)
    variables = groups(count) + b''.join(sized(named(number)) + b'\x7F' for number in range(count))
    return chance.choice((
        type_record(b't', parameters, results),
        b'\3\0\0\0' + use(parameters, results) + variables + b'\x20\2' + sized(b'n63') + b'\xFF',
        type_record(b't', parameters) + b'\3\0\0\0\2\1t\0\0' + variables + b'\x22\2' + sized(b'n62') + b'\xFF',
        in_function(b'\x11\0' + use(parameters, results)),
        in_function(b'\4\0' + use(parameters[:5], results) + ENDED),
        b'\2\0\0\0\0' + use(parameters, results)))


def deep_blocks(chance):
    """About 128 open blocks, some with a name, and branches to them."""
    count = near(chance, 128)
    labels = [chance.choice((b'', b'a', b'b', named(number))) for number in range(count)]
    code = b''.join(b'\2' + sized(label) + use() for label in labels)
    code += b'\x0C\2' + sized(labels[0] or b'a') + b'\x0D\2' + sized(labels[-1] or b'b') + b'\x0C\2\1a'
    ends = b''.join(b'\x0B' + sized(label if chance.random() < 0.5 else b'') for label in reversed(labels))
    return in_function(code + ends + chance.choice((b'', b'', ENDED)))


def deep_elses(chance):
    """Blocks, loops and ifs, up to 128 open, and an else on the way out where
    one may stand; seldom one where none may, or one too many."""
    count = chance.choice((1, 2, 3, 63, 64, 65, 127, 128))
    openings = chance.choices((BLOCK, LOOP, IF), chance.choice(((1, 1, 1), (1, 1, 20), (20, 20, 1))), k=count)
    said = ELSE + b'\0'
    code = [opening + b'\0' + use() for opening in openings]
    for opening in reversed(openings):
        elses = int(opening == IF and chance.random() < 0.7)
        if chance.random() < 1 / (2 * count):
            elses += 1
        code.append(said * elses + ENDED)
        if opening == IF and not elses and chance.random() < 0.1:
            code[-1] = BLOCK + b'\0' + use() + ENDED + said + ENDED       # after another's end
    return in_function(b''.join(code))


def long_lists(chance):
    """An element, inline table or br_table count at its ceiling."""
    count = near(chance, 1024)
    indices = b''.join(b'\1' + groups(chance.randrange(300)) for _ in range(count))
    return chance.choice((b'\x09\0\0' + groups(count) + indices,
                          b'\x04\0\0\2\4' + groups(count) + indices,
                          in_function(b'\x0E' + groups(count) + indices + b'\1\0')))


def many_records(chance):
    """About 4,096 records, in a body or as fields."""
    count = near(chance, 4096)
    export = bytes.fromhex('07 00 00 01 00')
    fields = chance.choice((0, 1, 100))
    return chance.choice((export * fields + in_function(b'\x01' * (count - fields - 2)), export * count))


def long_stream(chance):
    """About 65,536 bytes, the last record cut or whole."""
    size = near(chance, 65536)
    data = b'\x0A\0\0' + groups(size - 6) + chance.randbytes(8) * 8192
    return data[:size]


def long_module(chance):
    """A module of about 65,536 bytes, which is what the program lends: 17 and
    the data of a passive segment."""
    size = near(chance, 65536) - 17
    return b'\x0A\0\0' + groups(size) + (chance.randbytes(16) * 4096)[:size]


def long_texts(chance):
    """An identifier, a string, exports or an alignment at its ceiling."""
    name = b'i' * near(chance, 64)
    text = b's' * near(chance, 255)
    return chance.choice((
        type_record(name, b''), b'\x08\2' + sized(name), b'\x07' + sized(text) + b'\0\1\0',
        b'\2' + sized(text) + sized(text) + b'\0\0' + use(),
        b'\5\0' + groups(near(chance, 8)) + b'\1e' * near(chance, 8) + b'\0\0\0',
        in_function(bytes([0x28, near(chance, 32), 0, 0]))))


def sizes(chance):
    """Sizes of bodies, sections and data where their number gets longer."""
    size = chance.choice((127, 128, 16383, 16384)) + chance.randint(-16, 3)
    return chance.choice((
        in_function(b'\x43\0\0\0\0' * (size // 5) + b'\x01' * (size % 5)),
        b'\x0A\0\0' + groups(size) + b'd' * size,
        b'\5\0\0\2\0' + groups(size) + b'd' * size,
        b'\x09\0\0' + groups(min(size, 1024)) + b'\1\0' * min(size, 1024)))


def wide_numbers(chance):
    """The last groups of a number: within its width, past it, or open."""
    short = b'\xFF\xFF\xFF\xFF' + bytes([chance.choice((0, 0x0E, 0x0F, 0x10, 0x1F, 0x7F, 0x80, 0x8F))])
    long = b'\x80' * 9 + bytes([chance.choice((0, 1, 2, 3, 0x7F, 0x80, 0x81))])
    tail = chance.choice((b'', b'\0', b'\xFF'))
    return chance.choice((
        in_function(b'\x41' + short), in_function(b'\x42' + long), in_function(b'\x10\1' + short),
        in_function(b'\x28\0' + short + b'\0'), b'\5\0\0\0\1\0' + short, b'\5\0\0\0\4' + long, b'\1' + short,
        b'\x07' + short, b'\1\0' + short, b'\x0A\0\0' + short)) + tail


def two_in_one(chance):
    """Two faults in one record, or in one function."""
    missing, there = b'\2\1q', b'\2\1a'
    table, constant, function = (chance.choice((missing, there, b'\1\0')) for _ in range(3))
    wrong_use = chance.choice((use(b'\x7F', b'', missing), use(b'\x7F', b'', b'\1\x09'), use(b'\x7E', b'', b'\1\0'),
                               use(b'\x7F', b'', b'\1\0'), use(b'', b'', missing), use(b'', b'', b'\1\x09')))
    twice = b'\2\1v\x7F\1v\x7F'
    items = type_record(b'a', b'\x7F') + b'\4\1a\0\0\x70\0\0' + b'\5\1a\0\0\0\0' + b'\6\1a\0\0\x7F\0\0\0'
    return items + chance.choice((
        in_function(b'\x11' + table + wrong_use),
        b'\x09\1e\1' + table + b'\4' + constant + b'\1' + function,
        b'\x0A\1d\1' + table + b'\4' + constant + b'\0',
        b'\3\1f\0\0' + wrong_use + chance.choice((twice, b'\0')) + chance.choice((b'', b'\x20' + missing)) + b'\xFF',
        in_function(b'\2\1l' + wrong_use + b'\x0B' + chance.choice((b'\0', b'\1l', b'\1k'))),
        in_function(b'\2\1l' + use() + b'\x0E\2\2\1l' + function + table + ENDED)))


def starts(chance):
    """One start or two, with faults that come before or after."""
    start = chance.choice((b'\x08\1\0', b'\x08\2\1a'))
    fields = [start, chance.choice((start, b'\x08', b'')), in_function(chance.choice((b'', ENDED, ELSE))), b'\1\0\0\0']
    chance.shuffle(fields)
    return b''.join(fields)


def all_constants(chance):
    """Every end of the signed forms, in a body and as globals."""
    code = b''.join(b'\x41' + groups(value) for value in EDGES32)
    code += b''.join(b'\x42' + groups(value) for value in EDGES64)
    value = chance.choice(EDGES64)
    return b'\6\0\0\0\x7E\0\1' + groups(value) + in_function(code)


def block_types(chance):
    """Blocks of types around 64, where the signed form gets longer."""
    count = chance.choice((63, 64, 65, 66, 129))
    out = [type_record(named(number), signature_number(number), b'\x7F\x7E') for number in range(count)]
    code = b''
    for number in (0, 62, 63, 64, 65, 127, 128, 129, 8191, 8192, 2**32 - 1):
        way = chance.randrange(3)
        if way == 0 or number >= count:
            code += bytes([chance.choice((2, 3, 4)), 0]) + use(index=b'\1' + groups(number)) + ENDED
        elif way == 1:
            code += b'\3\0' + use(index=b'\2' + sized(named(number))) + ENDED
        else:
            code += b'\4\0' + use(signature_number(number), b'\x7F\x7E') + ENDED
    return b''.join(out) + in_function(code)


def all_opcodes(chance):
    """A function with each opcode."""
    maker = Maker(chance)
    maker.func(FUNC, None)
    maker.out.pop()
    operands = {0x05: b'\0', 0x0B: b'\0', 0x0E: b'\1\1\0\1\0', 0x11: b'\0' + use(), 0xD0: b'\x70',
                0x43: b'abcd', 0x44: b'abcdefgh', 0x41: b'\1', 0x42: b'\1', 0x3F: b'\0', 0x40: b'\1\1'}
    for opcode in OPCODES:
        if opcode == model.BULK:
            continue
        if opcode in operands:
            code = operands[opcode]
        elif 2 <= opcode <= 4:
            code = b'\0' + use()
        elif 0x28 <= opcode <= 0x3E:
            code = bytes([chance.randint(0, 32), chance.randrange(128)])
            code += chance.choice((b'\0', b'\1\0', b'\1\1', b'\1\x80\1'))
        elif opcode in WITHOUT_OPERAND:
            code = b''
        else:
            code = b'\1' + groups(chance.choice(NUMBERS))
        maker.out.append(bytes([opcode]) + code)
    for second in model.BULK_SPACES:
        maker.out.append(maker.bulk(second))
    return b''.join(maker.out) + ENDED * 2 + b'\xFF'


def data_counts(chance):
    """Data segments about where their count gets longer, inline ones too, and an
    instruction that names the last one, the next, or none; before or after them."""
    count = chance.choice((0, 1, near(chance, 128), near(chance, 256)))
    out = [chance.choice((b'\x0A' + sized(named(number)) + b'\0\0', b'\5' + sized(named(number)) + b'\0\2\0\0'))
           for number in range(count)]
    index = chance.choice((b'\2' + sized(named(max(count - 1, 0))), b'\1' + groups(max(count - 1, 0)), b'\1' + groups(count)))
    code = chance.choice((b'\x08' + index + b'\0', b'\x09' + index, b'\x0A\0\0', b'\x0B' + index))
    out.insert(chance.choice((0, len(out))), in_function(bytes([model.BULK]) + code))
    return b''.join(out)


EDGES = (many_items, many_types, wide_signature, deep_blocks, long_lists, many_records, long_stream, long_module, sizes,
         all_constants, block_types, all_opcodes, data_counts) * 2 + (long_texts, wide_numbers, two_in_one, starts, many_types,
                                                         wide_signature, deep_elses) * 4


def edges(chance):
    """One of the streams at an end."""
    return chance.choice(EDGES)(chance)


# ---------------------------------------------------------------------------
# Names, for the call that writes the name section

class Namer(Maker):
    """Functions above all. A stream has names for nearly all of its items, or
    for some or none; and so for its parameters and locals."""

    def __init__(self, chance, faults=None):
        super().__init__(chance, faults)
        often = (0, 0.2, 0.5, 0.8, 1)
        self.unnamed = {13: self.pick(often), 'local': self.pick(often)}
        self.pool = NAMES + [named(number) for number in range(self.pick((0, 10, 300)))]

    def planned_fields(self):
        """Seldom more functions than numbers of one group."""
        count = self.pick((0, 1, 1, 2, 4, 8)) if self.random() < 0.98 else self.pick((120, 127, 128, 129, 200))
        head = ['import'] * self.pick((0, 0, 1, 3, 9)) + ['type'] * self.pick((0, 1, 3))
        others = ['type', 'table', 'memory', 'global', 'export', 'elem', 'data']
        own = ['func'] * count + self.chance.choices(others, k=self.pick((0, 0, 1, 3)))
        self.chance.shuffle(head)
        self.chance.shuffle(own)
        if self.fault(11):
            own.insert(self.chance.randint(0, len(own)), 'import')
        return head + own

    def imported_kind(self):
        """Mostly functions, which count before the own ones."""
        return FUNC if self.random() < 0.6 else super().imported_kind()


def names_filling(size, most):
    """Distinct names that take `size` bytes in name maps of at most so many
    entries, each with its number and its length."""
    some = []
    while size > 2:
        head = len(groups(len(some) % most)) + 1
        length = min(64, size - head)
        if 0 < size - head - length < 4:
            length -= 4                         # leaves enough for one more
        some.append(named(len(some)).ljust(length, b'x') if length > 4 else b'x' * length)
        size -= head + length
    return some


def name_sizes(chance):
    """A subsection or the section where its size gets longer."""
    size = chance.choice((128, 16384)) - chance.randint(0, 16)
    if chance.random() < 0.5:
        return b''.join(b'\3' + sized(name) + FUNCTION[2:] + b'\xFF' for name in names_filling(size, 256))
    some = names_filling(size, 64)
    out = []
    for first in range(0, len(some), 64):
        variables = [sized(name) + bytes([I32]) for name in some[first:first + 64]]
        out.append(FUNCTION[:-1] + groups(len(variables)) + b''.join(variables) + b'\xFF')
    return b''.join(out)


def long_named_module(chance):
    """A module of about 65,536 bytes with its name section: 46 and the data of
    a passive segment. Without the section it has room."""
    size = near(chance, 65536) - 46
    return b'\3\1f' + FUNCTION[2:] + b'\xFF' + b'\x0A\0\0' + groups(size) + (chance.randbytes(16) * 4096)[:size]


def far_locals(chance):
    """Locals after many parameters, named or not; or after a type that is not
    there."""
    parameters = bytes(chance.choices(VALUE_TYPES, k=chance.choice((0, 1, 63, 64))))
    declared = type_record(b't', parameters)
    variables = groups(64) + b''.join(sized(named(number)) + b'\x7F' for number in range(64))
    given = b''.join(sized(b'p%d' % number) + bytes([one]) for number, one in enumerate(parameters))
    inline = groups(len(parameters)) + given + b'\0'
    using = chance.choice((b'\0' + inline, b'\2\1t' + inline, b'\2\1t\0\0', b'\1\0\0\0',
                           b'\1' + groups(chance.choice((1, 2, 2**32 - 1))) + b'\0\0'))
    imports = b'\2\1m\1n\0\0' + use() if chance.random() < 0.5 else b''
    return declared + imports + b'\3\0\0\0' + using + variables + b'\x20\2' + sized(b'n63') + b'\xFF'


def names(chance):
    """Rich in names."""
    way = chance.random()
    if way < 0.75:
        return Namer(chance).stream()
    if way < 0.85:
        return Namer(chance, {chance.choice((11, 13, 'local', 14, 15, 16, 17)): 0.2}).stream()
    if way < 0.95:
        return moved(chance, Namer(chance).stream())
    return chance.choice((name_sizes, name_sizes, long_named_module, far_locals, far_locals))(chance)


# ---------------------------------------------------------------------------
# Numbers, for the strict call

class Number(int):
    """A number in an index, with the place of its groups in the stream."""


class Placing(model.Parser):
    """The model's fields, in which each number of an index has its place."""

    def index(self):
        """As it is read, with its place."""
        index = super().index()
        if not isinstance(index, int):
            return index
        number = Number(index)
        number.place = slice(self.at - len(groups(index)), self.at)
        return number


class Counting(model.Assembler):
    """The model's passes, with what each index of the stream is resolved among."""

    def __init__(self, stream):
        super().__init__(Placing(stream).whole())
        self.resolutions = []           # (record, index, count), in order
        self.of_types = []              # the indices of type uses
        self.inline = []                # those that stand beside an inline type

    def type_number(self, record, use):
        """Remembers what sort of index it is."""
        self.of_types.append(use.index)
        if use.parameters or use.results:
            self.inline.append(use.index)
        return super().type_number(record, use)

    def resolved(self, record, index, names, count):
        """Remembers the count, and goes on where no such name is."""
        self.resolutions.append((record, index, count))
        try:
            return super().resolved(record, index, names, count)
        except model.Refused:
            return 0

    def run(self):
        """As far as another fault lets it."""
        try:
            super().run()
        except model.Refused:
            pass
        return self


class Pointer(Maker):
    """Numbers above all, and mostly something of each sort that they can point
    to. Nothing else in it keeps an engine from looking at them."""

    unnamed = {13: 0.7, 'local': 0.7}
    local_counts = (1, 2, 4)

    def planned_fields(self):
        """One of each sort, seldom without one, and some more."""
        sorts = ['type', 'func', 'table', 'memory', 'global', 'data']
        more = ['func', 'func', 'func', 'export', 'export', 'elem']
        if self.random() < 0.3:
            sorts.remove(self.pick(sorts + ['memory', 'memory']))
        own = sorts + self.chance.choices(sorts + more, k=self.pick((1, 3, 6)))
        if self.random() < 0.4:
            own.append('start')
        self.chance.shuffle(own)
        return ['import'] * self.pick((0, 0, 1, 2, 5)) + own

    def limits(self):
        """Small ones."""
        low = self.chance.randrange(20)
        return self.pick((b'\0' + groups(low), b'\1' + groups(low) + groups(low + self.chance.randrange(20))))

    def table(self, kind, name):
        """Own or inline, of 32 bits."""
        if self.random() < 0.5:
            self.out.append(self.head(kind, name, 0) + bytes([FUNCREF]) + self.limits())
        else:
            self.out.append(self.head(kind, name, 2) + b'\0' + self.indices(self.names[FUNC], self.pick((0, 1, 3))))

    def segment(self, first, space, name):
        """Often passive."""
        if self.random() < 0.4:
            return bytes([first]) + self.identifier(name) + b'\0'
        return super().segment(first, space, name)


def pointed(chance, stream, often, types):
    """The stream with its type numbers, or its others, so often beyond the count
    of what they point to, and else below it. Those beside an inline type stay, or
    are beyond."""
    counting = Counting(stream).run()
    is_one = lambda index, some: any(index is one for one in some)
    for _, index, count in reversed(sorted((one for one in counting.resolutions if isinstance(one[1], Number)),
                                           key=lambda one: one[1].place.start)):
        if is_one(index, counting.of_types) != types:
            continue
        beyond = count + chance.choice((0, 0, 0, 1, 2, 63, 2**14, 2**31)), 2**32 - 1
        below = count - 1, count - 1, 0, chance.randrange(max(count, 1))
        if count == 0 or chance.random() < often:
            number = chance.choice(beyond)
        elif not is_one(index, counting.inline):
            number = chance.choice(below)
        else:
            continue
        stream = stream[:index.place.start] + groups(number) + stream[index.place.stop:]
    return stream


def several_indices(chance):
    """One record with several indices, by a name that is there or not, a number
    that is there or not, or absent; and some of what they may mean."""
    there = lambda record: record if chance.random() < 0.8 else b''
    index = lambda: chance.choice((b'\1' + groups(chance.choice((0, 0, 1, 5))), b'\2\1a', b'\2\1z'))
    optional = lambda: index() if chance.random() < 0.7 else b'\0'
    offset = chance.choice((b'\0\0', b'\4' + index(), b'\6' + index()))
    items = [there(type_record(b'a', b'\x7F')), there(b'\4\1a\0\0\x70\0\1'), there(b'\5\1a\0\0\0\1'),
             there(b'\6\1a\0\0\x7F\0\0\0'), there(b'\3\1a' + FUNCTION[2:] + b'\xFF'), there(b'\x0A\1a\0\0')]
    chance.shuffle(items)
    field = chance.choice((
        in_function(b'\2\1a' + use() + b'\x0E\2' + index() + index() + index() + ENDED),
        in_function(b'\x11' + optional() + use(chance.choice((b'', b'\x7F')), b'', index())),
        in_function(bytes([model.BULK, model.INIT]) + index() + optional()),
        in_function(bytes([model.BULK, model.COPY]) + optional() + optional()),
        b'\x09\0\1' + optional() + offset + b'\2' + index() + index(),
        b'\x0A\0\1' + optional() + offset + b'\0',
        b'\3\0\0\0' + use(b'', b'', index()) + b'\2\1l\x7F\1' + chance.choice((b'l', b'm')) + b'\x7F\x20'
        + index() + b'\xFF'))
    at = chance.randint(0, len(items))
    return b''.join(items[:at]) + field + b''.join(items[at:])


def numbers(chance):
    """Rich in numbers."""
    if chance.random() < 0.1:
        return several_indices(chance)
    sorts = (14, 14, 14, 'local', 16, 17)
    faults = {chance.choice(sorts): chance.choice((0.02, 0.1, 0.4))} if chance.random() < 0.2 else {}
    stream = Pointer(chance, faults).stream()
    types_often, often = (chance.choice((0, 0, 0, 0.02, 0.1, 0.5)) for _ in range(2))
    return pointed(chance, pointed(chance, stream, types_often, True), often, False)


# ---------------------------------------------------------------------------
# Folded records

class Folder(Maker):
    """Functions of folded records above all, among them many uses of types."""

    foldings = (0.3, 0.7, 1)

    def planned_fields(self):
        """Something of each sort that an operand can name, and functions."""
        sorts = ['type', 'type', 'table', 'memory', 'global', 'data']
        own = self.chance.sample(sorts, self.pick((0, 1, 3))) + ['func'] * self.pick((1, 1, 2, 3))
        self.chance.shuffle(own)
        return ['import'] * self.pick((0, 0, 1)) + own

    def operator(self, local_names, blocks):
        """Often one that may add a type."""
        if self.random() < 0.25:
            return b'\x11' + self.index(self.names[TABLE], True) + self.use()
        return super().operator(local_names, blocks)


def fold(operator, *operands):
    """A folded record with its operands, which are folded."""
    return FOLDED + operator + groups(len(operands)) + b''.join(operands)


NOP = b'\x01'
LEAF = fold(NOP)


def deep_folds(chance):
    """About 32 deep, by the first, the last or any operand; and about 128 blocks
    around it, or an operand that ends a chain before."""
    depth = near(chance, NESTING)
    tree = fold(chance.choice((NOP, b'\x20\2\1q', b'\x11\0' + use(b'\x7F'))))
    if chance.random() < 0.3:
        tree = chance.choice((BLOCK, LOOP, ELSE, END, b'\xFF', FOLDED + FOLDED, NOP, FOLDED, b''))
    width = chance.choice((1, 1, 1, 2, 3, OPERANDS))
    for _ in range(depth - 1):
        place = chance.choice((0, width - 1, chance.randrange(width)))
        tree = fold(NOP, *[LEAF] * place, tree, *[LEAF] * (width - 1 - place))
    code = chance.choice((b'', tree, LEAF)) + tree + chance.choice((b'', NOP, LEAF))
    blocks = chance.choice((0, 0, 1, 127, 128))
    return in_function((BLOCK + b'\0' + use()) * blocks + code + ENDED * blocks)


def wide_folds(chance):
    """About 16 operands, at the top or inside, some of them with operands."""
    some = [chance.choice((LEAF, LEAF, fold(NOP, LEAF), fold(b'\x41\x80\1'), fold(b'\xFC\x0B\0')))
            for _ in range(near(chance, OPERANDS))]
    tree = fold(chance.choice((NOP, b'\x0E\1\1\0\1\0')), *some)
    for _ in range(chance.choice((0, 0, 1, 3))):
        tree = fold(NOP, *[LEAF] * chance.randrange(2), tree, *[LEAF] * chance.randrange(2))
    if chance.random() < 0.2:
        tree = tree[:chance.randint(1, len(tree))]              # an operand is due
    return in_function(tree)


def trees(chance, operators):
    """Folded records of these operators, in flat order."""
    done = []                           # operands that wait for an operator
    for operator in operators:
        count = chance.choice((0, 0, 1, 2, 3, len(done)))
        count = min(count, len(done), OPERANDS)
        operands = done[len(done) - count:]
        height = 1 + max((height for height, _ in operands), default=0)
        if height > NESTING:
            operands, height = [], 1
        del done[len(done) - len(operands):]
        done.append((height, fold(operator, *(tree for _, tree in operands))))
    return b''.join(tree for _, tree in done)


def many_folded_types(chance):
    """Declared types and folded uses that bring them to about 256."""
    declared = chance.choice((0, 200, 250, 255, 256))
    uses = [b'\x11\0' + use(signature_number(number)) for number in range(declared, near(chance, 256))]
    for _ in range(chance.choice((0, 3, 20))):
        uses.insert(chance.randint(0, len(uses)), b'\x11\0' + use(signature_number(chance.randrange(300))))
    out = [type_record(b'', signature_number(number)) for number in range(declared)]
    return b''.join(out) + in_function(trees(chance, uses))


def many_folded_records(chance):
    """About 4,096 records, the last ones folded; the next an operand, or something
    else where one is due."""
    count = near(chance, 4096)
    last = chance.choice((1, 2, 17, 400))
    body = NOP * (count - 2 - last) + trees(chance, [NOP] * last)
    if chance.random() < 0.5:
        body = NOP * (count - 3) + FOLDED + NOP + b'\2' + chance.choice((LEAF, NOP, b'\xFF', FOLDED, b'')) * 2
        return FUNCTION + body
    return in_function(body)


def two_in_a_tree(chance):
    """Several faults in one tree, whose order is another in the stream."""
    missing, there = b'\2\1q', b'\2\1a'
    wrong_uses = (use(b'\x7F', b'', missing), use(b'\x7F', b'', b'\1\x09'), use(b'\x7E', b'', b'\1\0'))
    operators = [b'\x20' + missing, b'\x21\1\x63', b'\x23' + missing, b'\x10' + missing, b'\x0C' + missing, b'\xFC\x09' + missing,
                 b'\x0C' + there, b'\x23' + there, NOP, NOP, b'\x41\5', b'\x11' + missing + use(),
                 b'\x11\0' + chance.choice(wrong_uses), b'\x11\0' + use(b'\x7F'), b'\x11\0' + use(b'\x7D\x7D')]
    items = type_record(b'a', b'\x7F') + b'\4\1a\0\0\x70\0\1' + b'\6\1a\0\0\x7F\0\0\0'
    code = trees(chance, chance.choices(operators, k=chance.choice((2, 3, 5, 9))))
    wrong_end = chance.choice((ENDED, END + b'\1a', END + b'\1b'))
    return items + in_function(BLOCK + b'\1a' + use() + code + wrong_end)


FOLDS = (deep_folds, wide_folds, many_folded_types, many_folded_records, two_in_a_tree, two_in_a_tree)


def folded(chance):
    """Rich in folded records."""
    way = chance.random()
    if way < 0.45:
        return Folder(chance).stream()
    if way < 0.65:
        sorts = chance.sample((11, 13, 'local', 14, 14, 15, 16, 17), chance.choice((1, 2, 3)))
        return Folder(chance, {number: chance.choice((0.05, 0.2, 0.5)) for number in sorts}).stream()
    if way < 0.75:
        return Folder(chance, {'folded': chance.choice((0.02, 0.1)), 19: 0.001}).stream()
    if way < 0.8:
        return moved(chance, Folder(chance).stream())
    return chance.choice(FOLDS)(chance)


# ---------------------------------------------------------------------------

def damaged(chance):
    """Bytes changed, mostly refused while reading; numbers in too many groups;
    an else where none may be; bulk memory otherwise; or whole records moved."""
    way = chance.random()
    if way < 0.08:
        return Maker(chance, {19: chance.choice((0.003, 0.02, 0.2))}).stream()
    if way < 0.16:
        return Brancher(chance, {8: chance.choice((0.03, 0.1, 0.5))}).stream()
    if way < 0.24:
        return Copier(chance, {4: chance.choice((0.03, 0.1, 0.5))}).stream()
    stream = bytearray(chance.choice((rich, rich, faulty, edges if chance.random() < 0.05 else rich))(chance))
    if chance.random() < 0.4:
        return moved(chance, bytes(stream))
    for _ in range(chance.choice((1, 1, 2, 4))):
        if not stream:
            stream += bytes([chance.randrange(256)])
        damage(chance, stream, chance.randrange(len(stream)))
    return bytes(stream)


def damage(chance, stream, at):
    """One change at this byte, or at another of its sort."""
    way = chance.randrange(10)
    letters = [place for place, byte in enumerate(stream) if byte in b'abcdx']
    if way == 0:
        stream[at] = chance.randrange(256)
    elif way == 1:
        stream[at] = stream[at] + chance.choice((-1, 1, 128)) & 0xFF
    elif way == 2:
        del stream[at:at + chance.choice((1, 1, 2, 5, 20))]
    elif way == 3:
        stream[at:at] = chance.randbytes(chance.choice((1, 1, 2, 5)))
    elif way == 4:
        del stream[at:]
    elif way == 5:
        other = chance.randrange(len(stream))
        stream[at:at] = stream[other:other + chance.choice((1, 3, 10, 40))]
    elif way == 6:
        stream[at] |= 0x80
        stream[at + 1:at + 1] = b'\x80' * chance.choice((0, 1, 3, 8, 9)) + bytes([chance.choice((0, 0, 1, 0x10, 0x80))])
    elif way == 7 and letters:
        stream[chance.choice(letters)] = chance.choice(b'abcdx')
    elif way == 8 and letters:
        stream[chance.choice(letters)] = chance.choice(b' ,;"()[]{}\x1F\x7F\x80')
    else:
        # another value type, an empty name, or another instruction of bulk memory
        places = [place for place, byte in enumerate(stream[:-1]) if byte in VALUE_TYPES + (2, model.BULK)]
        if places:
            at = chance.choice(places)
            if stream[at] == model.BULK:
                stream[at + 1] = chance.choice((*range(0x10), *(second | 0x80 for second in model.BULK_SPACES)))
            else:
                stream[at:at + 2] = [2, 0] if stream[at] == 2 else [chance.choice(VALUE_TYPES), stream[at + 1]]


def moved(chance, stream):
    """Records dropped, doubled or put elsewhere."""
    starts = record_starts(stream)
    records = [stream[start:end] for start, end in zip(starts, starts[1:])]
    for _ in range(chance.choice((1, 1, 2, 4))):
        if records:
            at = chance.randrange(len(records))
            record = records[at] if chance.random() < 0.4 else records.pop(at)
            if chance.random() < 0.8:
                records.insert(chance.randint(0, len(records)), record)
    return b''.join(records)


MAKERS = {'rich': rich, 'faulty': faulty, 'edges': edges, 'damaged': damaged, 'names': names, 'numbers': numbers,
          'folded': folded}


def stream(sort, seed, number):
    """The stream with this number."""
    return MAKERS[sort](random.Random('%s %d %d' % (sort, seed, number)))


def main():
    parser = argparse.ArgumentParser(description=__doc__, formatter_class=argparse.RawDescriptionHelpFormatter)
    parser.add_argument('--sort', choices=SORTS, default='rich')
    parser.add_argument('--seed', type=int, default=1)
    parser.add_argument('--first', type=int, default=0)
    parser.add_argument('--count', type=int, default=1)
    parser.add_argument('--hex', action='store_true')
    options = parser.parse_args()
    for number in range(options.first, options.first + options.count):
        made = stream(options.sort, options.seed, number)
        if options.hex:
            print(made.hex().upper() or '-')
        else:
            sys.stdout.buffer.write(batch.pack([made]))


if __name__ == '__main__':
    main()
