#!/usr/bin/env python3
"""A plain model of the whole of document 01, and of document 02's call with
names (§1), rule of else (§3), folded records (§4), one spelling (§5), first holder
of a name (§6), strict call (§8) and bulk memory instructions (§11): what a call
says of a stream.

It says what the documents and the standard's chapter 5 and appendix (the name
section) say, in their order, and shares nothing with the definition, the proved
code or the crate; but whoever wrote it had read the crate's passes. The reading
rules (2 to 9 and 19) are those of reading_model.py. What document 01 leaves to oracle
runs is as the oracle answered (docs/DECISIONS.md, 13 and 14).

As a module:   assemble(stream) -> ('ok', module)
                               or ('refused', number, record, first)
As a program:  reads streams in the batch form (batch.py) from standard input and
prints a line for each, `ok HEX`, `refused N at R` or `refused 13 at R, first at F`.
With --names each module has its name section, and with --strict it is the strict
call.
"""
import sys
from collections import namedtuple

import batch
import reading_model
from reading_model import groups

WORK = 16384              # words, at least
ROOM = 65536              # bytes of output that the program lends
TYPES = 256

FUNC, TABLE, MEMORY, GLOBAL = range(4)          # kinds, also of an export
TYPE, ELEM, DATA = range(4, 7)                  # the other index spaces

NATURAL = (2, 3, 2, 3, 0, 0, 1, 1, 0, 0, 1, 1, 2, 2, 2, 3, 2, 3, 0, 1, 0, 1, 2)

FOLDED = 0xF0

# Bulk memory: FC, a second byte, and an index of each of these, in the record and in the module.
BULK = 0xFC
INIT, DROP, COPY, FILL = range(0x08, 0x0C)
BULK_SPACES = {INIT: (DATA, MEMORY), DROP: (DATA,), COPY: (MEMORY, MEMORY), FILL: (MEMORY,)}

# In which order sections stand; 12, the data count, tells the code how many data segments follow.
SECTIONS = (1, 2, 3, 4, 5, 6, 7, 8, 9, 12, 10, 11)

Use = namedtuple('Use', 'index parameters results')     # parameters: (identifier, value type)
Limits = namedtuple('Limits', 'flags low high')

# Fields after de-inlining. An index is None, a number or a name (bytes).
Type = namedtuple('Type', 'identifier signature')
Import = namedtuple('Import', 'module name kind identifier description')
Func = namedtuple('Func', 'identifier use locals body')
Table = namedtuple('Table', 'identifier element limits')
Memory = namedtuple('Memory', 'identifier limits')
Global = namedtuple('Global', 'identifier type mutable constant')
Export = namedtuple('Export', 'name kind index')
Start = namedtuple('Start', 'index')
Elem = namedtuple('Elem', 'identifier place functions')  # place: None, or (table, constant)
Data = namedtuple('Data', 'identifier place data')       # place: None, or (memory, constant)

SPACE_OF = {Type: TYPE, Func: FUNC, Table: TABLE, Memory: MEMORY, Global: GLOBAL, Elem: ELEM, Data: DATA}
OWN_ITEMS = (Func, Table, Memory, Global)


class Refused(Exception):
    """The number, the record, and on 13 the record of the first holder."""

    def __init__(self, number, record, first=None):
        super().__init__(number, record, record if first is None else first)


# ---------------------------------------------------------------------------
# From bytes to fields. The stream has passed the reading rules, so nothing is
# checked here.

class Parser:
    """Gives (record, field) for each field, inline parts taken apart."""

    def __init__(self, stream):
        self.stream = stream
        self.at = 0
        self.record = 0
        self.items = [0] * 7
        self.fields = []

    def byte(self):
        """The next byte."""
        self.at += 1
        return self.stream[self.at - 1]

    def number(self):
        """A number of any width."""
        value = shift = 0
        while True:
            group = self.byte()
            value |= (group & 0x7F) << shift
            if group < 0x80:
                return value
            shift += 7

    def raw(self, length):
        """Bytes as they are."""
        self.at += length
        return self.stream[self.at - length:self.at]

    def text(self):
        """A length and bytes: a string, a name, data."""
        return self.raw(self.number())

    def identifier(self):
        """A name, or None."""
        return self.text() or None

    def index(self):
        """None, a number or a name."""
        form = self.byte()
        return None if form == 0 else self.number() if form == 1 else self.identifier()

    def many(self, one):
        """A count and as many of something."""
        return [one() for _ in range(self.number())]

    def indices(self):
        """A list of indices."""
        return self.many(self.index)

    def value_types(self):
        """A list of value types, as bytes."""
        return self.raw(self.number())

    def variable(self):
        """A parameter or a local."""
        return self.identifier(), self.byte()

    def use(self):
        """A type use."""
        return Use(self.index(), self.many(self.variable), self.value_types())

    def limits(self):
        """The maximum is None if there is none."""
        flags = self.byte()
        return Limits(flags, self.number(), self.number() if flags & 1 else None)

    def constant(self):
        """A constant with its first byte."""
        return self.operand(self.byte())

    def operand(self, kind):
        """A constant (kind, value); a float's value is its bytes."""
        if kind < 2:
            return kind, self.number()
        if kind < 4:
            return kind, self.raw(4 if kind == 2 else 8)
        return kind, self.byte() if kind == 5 else self.index()

    def place(self):
        """None for a passive segment, else index and constant."""
        return (self.index(), self.constant()) if self.byte() == 1 else None

    def description(self, kind):
        """What is imported, by its kind."""
        if kind == FUNC:
            return self.use()
        if kind == TABLE:
            return self.byte(), self.limits()
        if kind == MEMORY:
            return self.limits()
        return self.byte(), self.byte()

    def put(self, field, record=None):
        """One more field, and one more item if it is one."""
        self.fields.append((self.record if record is None else record, field))
        space = field.kind if type(field) is Import else SPACE_OF.get(type(field))
        if space is not None:
            self.items[space] += 1

    def whole(self):
        """All fields."""
        while self.at < len(self.stream):
            self.field(self.byte())
            self.record += 1
        return self.fields

    def field(self, first):
        """The field that begins with this byte."""
        if first == 0x01:
            self.put(Type(self.identifier(), (self.value_types(), self.value_types())))
        elif first == 0x02:
            module, name, kind = self.text(), self.text(), self.byte()
            self.put(Import(module, name, kind, self.identifier(), self.description(kind)))
        elif first <= 0x06:
            self.item(first - 0x03)
        elif first == 0x07:
            self.put(Export(self.text(), self.byte(), self.index()))
        elif first == 0x08:
            self.put(Start(self.index()))
        elif first == 0x09:
            self.put(Elem(self.identifier(), self.place(), self.indices()))
        else:
            self.put(Data(self.identifier(), self.place(), self.text()))

    def item(self, kind):
        """Records 03 to 06: exports before their item, in their order; then
        inline data or elements at offset 0; then the item."""
        identifier = self.identifier()
        number = self.items[kind]
        for name in self.many(self.text):
            self.put(Export(name, kind, number))
        form = self.byte()
        if form == 1:
            self.put(Import(self.text(), self.text(), kind, identifier, self.description(kind)))
        elif form == 2:
            self.inline(kind, identifier, number)
        elif kind == FUNC:
            record = self.record
            self.put(Func(identifier, self.use(), self.many(self.variable), self.body()), record)
        elif kind == TABLE:
            self.put(Table(identifier, self.byte(), self.limits()))
        elif kind == MEMORY:
            self.put(Memory(identifier, self.limits()))
        else:
            self.put(Global(identifier, self.byte(), self.byte(), self.constant()))

    def inline(self, kind, identifier, number):
        """Form 2: the segment that fills the item, then the item."""
        is64 = self.byte()
        place = number, (1 if is64 else 0, 0)
        if kind == TABLE:
            functions = self.indices()
            self.put(Elem(None, place, functions))
            self.put(Table(identifier, 0x70, Limits(is64 | 1, len(functions), len(functions))))
        else:
            data = self.text()
            pages = (len(data) + 65536 - 1) // 65536
            self.put(Data(None, place, data))
            self.put(Memory(identifier, Limits(is64 | 1, pages, pages)))

    def body(self):
        """The instructions in flat order, each (record, opcode, operands)."""
        body = []
        while True:
            self.record += 1
            opcode = self.byte()
            if opcode == 0xFF:
                return body
            if opcode == FOLDED:
                body += self.folded()
            else:
                body.append((self.record, opcode, self.operands(opcode)))

    def folded(self):
        """After F0: its operands from left to right, and then its operator, each
        with the number that its record has in the stream."""
        record, opcode = self.record, self.byte()
        operator = record, opcode, self.operands(opcode)
        before = []
        for _ in range(self.number()):
            self.record += 1
            self.byte()                         # F0 again
            before += self.folded()
        return before + [operator]

    def operands(self, opcode):
        """What follows an opcode; None if nothing does, or if it is an absent index."""
        if opcode in (0x02, 0x03, 0x04):
            return self.identifier(), self.use()
        if opcode in (0x05, 0x0B):
            return self.identifier()
        if opcode == 0x0E:
            return self.indices() + [self.index()]
        if opcode == 0x11:
            return self.index(), self.use()
        if 0x28 <= opcode <= 0x3E:
            alignment = self.byte()
            exponent = NATURAL[opcode - 0x28] if alignment == 0 else alignment - 1
            return exponent, self.number(), self.index()
        if 0x41 <= opcode <= 0x44:
            return self.operand(opcode - 0x41)[1]
        if opcode == 0xD0:
            return self.byte()
        if opcode == BULK:
            return self.bulk(self.byte())
        if opcode in (0x0C, 0x0D, 0x10, 0x3F, 0x40, 0xD2) or 0x20 <= opcode <= 0x24:
            return self.index()
        return None

    def bulk(self, second):
        """After FC: the second byte, and the indices."""
        return second, [self.index() for _ in BULK_SPACES[second]]


# ---------------------------------------------------------------------------
# Bytes of the binary format

def signed(value, bits):
    """The shortest signed form of a bit pattern."""
    if value >> bits - 1:
        value -= 1 << bits
    out = bytearray()
    while not -64 <= value < 64:
        out.append(value & 0x7F | 0x80)
        value >>= 7
    out.append(value & 0x7F)
    return bytes(out)


def vector(parts):
    """The standard's list: its length, then its elements."""
    return groups(len(parts)) + b''.join(parts)


def sized(content):
    """Bytes after their length: a name, a section, a body, value types."""
    return groups(len(content)) + content


def limits(given):
    """The flags are those of the stream."""
    high = b'' if given.high is None else groups(given.high)
    return bytes([given.flags]) + groups(given.low) + high


def locals_in_runs(variables):
    """Equal neighbours in one run."""
    runs = []
    for _, value_type in variables:
        if runs and runs[-1][1] == value_type:
            runs[-1][0] += 1
        else:
            runs.append([1, value_type])
    return vector([groups(count) + bytes([value_type]) for count, value_type in runs])


def name_map(names):
    """Numbers with their names, sorted by number, from names to numbers."""
    return [groups(number) + sized(name) for number, name in sorted((number, name) for name, number in names.items())]


# ---------------------------------------------------------------------------
# The passes

def is_short(use):
    """A block's type without index, parameter and second result."""
    return use.index is None and not use.parameters and len(use.results) <= 1


def signature(use):
    """A use's parameter and result types."""
    return bytes(value_type for _, value_type in use.parameters), use.results


class Assembler:
    """The passes over the fields of one stream."""

    def __init__(self, fields, strict=False):
        self.fields = fields
        self.strict = strict                    # must each number point to something?
        self.types = []                         # signatures, by number
        self.first_of = {}                      # a signature's first number
        self.names = [{} for _ in range(7)]
        self.counts = [0] * 7                   # items of each space, but for the types
        self.holders = [{} for _ in range(7)]   # the record that defined each name
        self.imported_functions = 0
        self.locals = []                        # of each own function: names to numbers, and is_beyond
        self.sections = {number: [] for number in SECTIONS}

    def run(self):
        """The passes in document 01's order."""
        self.import_order()
        self.intern()
        self.register()
        for record, field in self.fields:
            self.resolve(record, field)

    def import_order(self):
        """11: imports come before own items."""
        own = False
        for record, field in self.fields:
            if isinstance(field, OWN_ITEMS):
                own = True
            if type(field) is Import and own:
                raise Refused(11, record)

    def intern(self):
        """Declared types first, wherever they stand; then uses in order."""
        for _, field in self.fields:
            if type(field) is Type:
                self.add_type(field.signature)
        for record, field in self.fields:
            if type(field) is Import and field.kind == FUNC:
                self.see(record, field.description)
            elif type(field) is Func:
                self.see(record, field.use)
                for at, opcode, operands in field.body:
                    if opcode == 0x11:
                        self.see(at, operands[1])
                    elif 0x02 <= opcode <= 0x04 and not is_short(operands[1]):
                        self.see(at, operands[1])

    def add_type(self, one):
        """The first equal signature wins."""
        self.first_of.setdefault(one, len(self.types))
        self.types.append(one)

    def see(self, record, use):
        """A use without index adds its type if there is none like it."""
        if use.index is None and signature(use) not in self.first_of:
            if len(self.types) == TYPES:
                raise Refused(12, record)
            self.add_type(signature(use))

    def register(self):
        """13: names of items, over the whole stream."""
        for record, field in self.fields:
            space = field.kind if type(field) is Import else SPACE_OF.get(type(field))
            if space is None:
                continue
            if field.identifier is not None:
                if field.identifier in self.names[space]:
                    raise Refused(13, record, self.holders[space][field.identifier])
                self.names[space][field.identifier] = self.counts[space]
                self.holders[space][field.identifier] = record
            self.counts[space] += 1

    def resolved(self, record, index, names, count):
        """The number that an index stands for, among so many; absent means 0.
        14: no such name. 20, in a strict call alone: no such number."""
        if isinstance(index, bytes):
            if index not in names:
                raise Refused(14, record)
            return names[index]
        number = index or 0
        if self.strict and number >= count:
            raise Refused(20, record)
        return number

    def number(self, record, space, index):
        """An item's number. Added types count too, wherever they are added."""
        count = len(self.types) if space == TYPE else self.counts[space]
        return self.resolved(record, index, self.names[space], count)

    def type_number(self, record, use):
        """Index (14 or 20), then 15, then 16; without one the type is interned."""
        if use.index is None:
            return self.first_of[signature(use)]
        number = self.number(record, TYPE, use.index)
        if use.parameters or use.results:
            if number >= len(self.types):
                raise Refused(15, record)
            if self.types[number] != signature(use):
                raise Refused(16, record)
        return number

    def constant(self, record, given):
        """A constant expression, with its end."""
        kind, value = given
        if kind < 2:
            code = signed(value, 64 if kind else 32)
        elif kind < 4:
            code = value
        elif kind == 5:
            code = bytes([value])
        else:
            code = groups(self.number(record, GLOBAL if kind == 4 else FUNC, value))
        return bytes([(0x41, 0x42, 0x43, 0x44, 0x23, 0xD0, 0xD2)[kind]]) + code + b'\x0B'

    def functions(self, record, indices):
        """The functions of a segment."""
        return vector([groups(self.number(record, FUNC, index)) for index in indices])

    def resolve(self, record, field):
        """One field: its refusals in order, and its bytes into its section."""
        sections = self.sections
        sort = type(field)
        if sort is Type:
            pass                                # all types are written at once
        elif sort is Import:
            sections[2].append(self.imported(record, field))
        elif sort is Func:
            number = self.type_number(record, field.use)
            variables = self.variables(field, number)
            names = self.local_names(record, variables)
            self.locals.append((names, self.is_beyond(field.use, number)))
            code = locals_in_runs(field.locals) + Body(self, names, len(variables)).code(field.body) + b'\x0B'
            sections[3].append(groups(number))
            sections[10].append(sized(code))
            if any(opcode == BULK and operands[0] in (INIT, DROP) for _, opcode, operands in field.body):
                sections[12] = [groups(self.counts[DATA])]
        elif sort is Table:
            sections[4].append(bytes([field.element]) + limits(field.limits))
        elif sort is Memory:
            sections[5].append(limits(field.limits))
        elif sort is Global:
            head = bytes([field.type, field.mutable])
            sections[6].append(head + self.constant(record, field.constant))
        elif sort is Export:
            number = self.number(record, field.kind, field.index)
            sections[7].append(sized(field.name) + bytes([field.kind]) + groups(number))
        elif sort is Start:
            sections[8].append(groups(self.number(record, FUNC, field.index)))
        elif sort is Elem:
            sections[9].append(self.elem(record, field))
        else:
            sections[11].append(self.data(record, field))

    def imported(self, record, field):
        """An import section's entry."""
        if field.kind == FUNC:
            self.imported_functions += 1
            description = groups(self.type_number(record, field.description))
        elif field.kind == TABLE:
            element, size = field.description
            description = bytes([element]) + limits(size)
        elif field.kind == MEMORY:
            description = limits(field.description)
        else:
            description = bytes(field.description)
        return sized(field.module) + sized(field.name) + bytes([field.kind]) + description

    def elem(self, record, field):
        """Form 1 passive, 0 without a table index, 2 with one, 0 included."""
        if field.place is None:
            return b'\x01\x00' + self.functions(record, field.functions)
        index, constant = field.place
        table = self.number(record, TABLE, index)
        offset = self.constant(record, constant)
        functions = self.functions(record, field.functions)
        if index is None:
            return b'\x00' + offset + functions
        return b'\x02' + groups(table) + offset + b'\x00' + functions

    def data(self, record, field):
        """Form 1 passive, 0 on memory 0, 2 on another."""
        if field.place is None:
            return b'\x01' + sized(field.data)
        memory = self.number(record, MEMORY, field.place[0])
        offset = self.constant(record, field.place[1])
        form = b'\x00' if memory == 0 else b'\x02' + groups(memory)
        return form + offset + sized(field.data)

    def variables(self, field, number):
        """A function's parameters and locals, each by its identifier or None.
        With an inline type the parameters bring their identifiers; else the named
        type's parameters take nameless places."""
        use = field.use
        if use.parameters or use.results:
            parameters = [identifier for identifier, _ in use.parameters]
        elif number < len(self.types):
            parameters = [None] * len(self.types[number][0])
        else:
            parameters = []
        return parameters + [identifier for identifier, _ in field.locals]

    def local_names(self, record, variables):
        """Each name's local; 13 if two have it."""
        names = {}
        for place, name in enumerate(variables):
            if name is not None:
                if name in names:
                    raise Refused(13, record)
                names[name] = place
        return names

    def module(self):
        """The sections in order, empty ones left out; 8 and 12 are one number."""
        out = [b'\0asm\1\0\0\0']
        signatures = [b'\x60' + sized(parameters) + sized(results) for parameters, results in self.types]
        self.sections[1] = signatures
        for number, entries in self.sections.items():
            if entries:
                content = entries[0] if number in (8, 12) else vector(entries)
                out.append(bytes([number]) + sized(content))
        return b''.join(out)

    def is_beyond(self, use, number):
        """A use by its index only, whose number is out of range."""
        return not use.parameters and not use.results and number >= len(self.types)

    def name_section(self, as_crate):
        """Document 02, §1: a custom section (number 0) after all others, with
        functions and locals, or nothing. Imports are functions too, so own
        functions are counted after them; they bring no local names."""
        functions = name_map(self.names[FUNC])
        of_each = [groups(number) + vector(name_map(names))
                   for number, (names, beyond) in enumerate(self.locals, self.imported_functions)
                   if names and not (beyond and as_crate)]
        subsections = [bytes([number]) + sized(vector(entries))
                       for number, entries in ((1, functions), (2, of_each)) if entries]
        return b'\0' + sized(sized(b'name') + b''.join(subsections)) if subsections else b''


class Body:
    """One function's instructions: its parameters and locals, by name and how many
    they are, and its open blocks' labels."""

    def __init__(self, assembler, names, variables):
        self.assembler = assembler
        self.names = names
        self.variables = variables
        self.labels = []

    def code(self, body):
        """All instructions, without the end that closes the body."""
        return b''.join(bytes([opcode]) + self.operand(record, opcode, operands)
                        for record, opcode, operands in body)

    def depth(self, record, index):
        """From the innermost block outward, the first that carries the name. The
        body itself is the outermost, and has none."""
        depths = {}
        for depth, label in enumerate(reversed(self.labels)):
            depths.setdefault(label, depth)
        return groups(self.assembler.resolved(record, index, depths, len(self.labels) + 1))

    def local(self, record, index):
        """A local's number."""
        return groups(self.assembler.resolved(record, index, self.names, self.variables))

    def block_type(self, record, use):
        """Short, or a type number."""
        if is_short(use):
            return use.results or b'\x40'
        # A number, so never negative, in the signed form of 33 bits.
        return signed(self.assembler.type_number(record, use), 33)

    def operand(self, record, opcode, given):
        """The bytes after an opcode, or a refusal at its record."""
        number = self.assembler.number
        if given is None and opcode not in (0x05, 0x0B, 0x3F, 0x40):
            return b''
        if 0x02 <= opcode <= 0x04:
            label, use = given
            self.labels.append(label)
            return self.block_type(record, use)
        if opcode == 0x05 or opcode == 0x0B:
            label = self.labels[-1]
            if opcode == 0x0B:
                self.labels.pop()
            if given is not None and given != label:
                raise Refused(17, record)
            return b''
        if opcode == 0x0C or opcode == 0x0D:
            return self.depth(record, given)
        if opcode == 0x0E:
            return groups(len(given) - 1) + b''.join(self.depth(record, index) for index in given)
        if opcode == 0x10 or opcode == 0xD2:
            return groups(number(record, FUNC, given))
        if opcode == 0x11:
            table = number(record, TABLE, given[0])
            return groups(self.assembler.type_number(record, given[1])) + groups(table)
        if 0x20 <= opcode <= 0x22:
            return self.local(record, given)
        if opcode == 0x23 or opcode == 0x24:
            return groups(number(record, GLOBAL, given))
        if 0x28 <= opcode <= 0x3E:
            exponent, offset, index = given
            memory = number(record, MEMORY, index)
            if memory == 0:
                return groups(exponent) + groups(offset)
            return groups(exponent + 64) + groups(memory) + groups(offset)
        if opcode == 0x3F or opcode == 0x40:
            return groups(number(record, MEMORY, given))
        if opcode == 0x41:
            return signed(given, 32)
        if opcode == 0x42:
            return signed(given, 64)
        if opcode == 0xD0:
            return bytes([given])
        if opcode == BULK:
            second, indices = given
            return bytes([second]) + b''.join(groups(number(record, space, index))
                                              for space, index in zip(BULK_SPACES[second], indices))
        return given                            # a float's bytes


def refused(number, record):
    """A refusal that has no other record to tell."""
    return 'refused', number, record, record


def assemble(stream, work=WORK, room=ROOM, names=False, as_crate=False, strict=False):
    """What a call says, with this much work area (words) and output (bytes). A
    refusal other than 13 tells its record twice.
    With `names` it is the call that also writes the name section; `as_crate`
    gives it the one known difference of the crate's (docs/DIFFERENCES.md): no
    locals of a function whose type number is out of range. With `strict` it is
    the strict call (document 02, §8)."""
    if len(stream) > reading_model.STREAM:
        return refused(1, 0)
    if work < WORK:
        return refused(10, 0)
    read = reading_model.read(stream)
    if read[0] == 'refused':
        return refused(*read[1:])
    assembler = Assembler(Parser(stream).whole(), strict)
    try:
        assembler.run()
    except Refused as fault:
        return ('refused',) + fault.args
    module = assembler.module() + (assembler.name_section(as_crate) if names else b'')
    if len(module) > room:
        return refused(18, read[1])
    return 'ok', module


def line(answer):
    """An answer as the programs print it."""
    if answer[0] == 'ok':
        return 'ok ' + answer[1].hex().upper()
    _, number, record, first = answer
    return 'refused %d at %d%s' % (number, record, ', first at %d' % first if number == 13 else '')


def main():
    options = sys.argv[1:]
    if not set(options) <= {'--names', '--strict'}:
        sys.exit('usage: model.py [--strict] [--names]')
    for stream in batch.unpack(sys.stdin.buffer.read()):
        print(line(assemble(stream, names='--names' in options, strict='--strict' in options)))


if __name__ == '__main__':
    main()
