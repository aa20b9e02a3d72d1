#!/usr/bin/env python3
"""A reading of document 01's record stream, refusals 1 to 9, with document 02's
one spelling (19, §5), its rule of else (8, §3), its bulk memory instructions
(§11) and its folded records (§4), written from the documents, to be compared with
the proved code.

As a module:   read(stream) -> ('ok', count of records)
                            or ('refused', number, record)
               record_starts(stream) -> where its records begin
As a program:  reads streams in the batch form (batch.py) from standard input and
prints a line for each, `records N` or `refused N at R`. Where the batch is
broken, the lines up to there are printed, and the exit status is 1.
"""
import sys

# Ceilings of document 01: the ceiling itself is accepted, one more refused.
STREAM = 65536            # bytes
RECORDS = 4096
ITEMS = 256               # in each index space; of types, the declared ones
PARAMETERS = 64           # in any signature
RESULTS = 16
LOCALS = 64               # parameters not counted
OPEN_BLOCKS = 128
FUNCTIONS = 1024          # in an element or inline table count
LABELS = 1024             # in a br_table count, the last label comes on top
EXPORTS = 8
IDENTIFIER = 64           # bytes
STRING = 255              # bytes
ALIGNMENT = 32            # the byte: 0 natural, else exponent 0 to 31 plus 1
OPERANDS = 16             # of a folded record
NESTING = 32              # of folded records, the outermost counting 1

VALUE_TYPES = bytes([0x7F, 0x7E, 0x7D, 0x7C, 0x70, 0x6F])
REFERENCE_TYPES = bytes([0x70, 0x6F])
IDCHARS = (b'0123456789ABCDEFGHIJKLMNOPQRSTUVWXYZabcdefghijklmnopqrstuvwxyz'
           b"!#$%&'*+-./:<=>?@\\^_`|~")
STRING_BYTES = bytes(range(0x20, 0x7F))

FIELDS = bytes(range(0x01, 0x0B))
BODY_END = 0xFF
BLOCK, LOOP, IF, ELSE, END = 0x02, 0x03, 0x04, 0x05, 0x0B
FOLDED = 0xF0
BULK = 0xFC                                 # and a second byte
OPCODES = bytes([*range(0x00, 0x06), *range(0x0B, 0x12), 0x1A, 0x1B,
                 *range(0x20, 0x25), *range(0x28, 0xC5), *range(0xD0, 0xD3), BULK])
FOLDABLE = bytes(opcode for opcode in OPCODES if opcode not in (BLOCK, LOOP, IF, ELSE, END))
SPACES = ('func', 'table', 'memory', 'global', 'type', 'elem', 'data')

# Bulk memory instructions, by their second byte: of which spaces their indices are.
BULK_INDICES = {0x08: ('data', 'memory'),   # memory.init
                0x09: ('data',),            # data.drop
                0x0A: ('memory', 'memory'), # memory.copy
                0x0B: ('memory',)}          # memory.fill


class Refused(Exception):
    """The refusal with this number, at the record being read."""


class Reader:
    """One running place (byte, record number, open blocks), and what the
    ceilings and refusal 9 need to know of the records before. Of each open
    block it is known whether an else may still come: it is an if, and has had
    none."""

    def __init__(self, stream):
        self.stream = stream
        self.at = 0
        self.record = 0
        self.open_blocks = []           # the innermost last
        self.items = dict.fromkeys(SPACES, 0)
        self.started = False

    # Bytes and numbers

    def byte(self):
        if self.at == len(self.stream):
            raise Refused(2)
        self.at += 1
        return self.stream[self.at - 1]

    def one_of(self, allowed):
        byte = self.byte()
        if byte not in allowed:
            raise Refused(4)
        return byte

    def number(self, width):
        """Refusal 3 at the group that passes the width, or that has its high
        bit set as the last allowed: both make it more than the bits left.
        Refusal 19 at a last group without which the number is the same."""
        value = 0
        for shift in range(0, width, 7):
            group = self.byte()
            bits_left = width - shift
            if bits_left < 7 and group >= 1 << bits_left:
                raise Refused(3)
            value += (group & 0x7F) << shift
            if group == 0 and shift > 0:
                raise Refused(19)
            if group < 0x80:
                return value

    def u32(self):
        return self.number(32)

    def u64(self):
        return self.number(64)

    def up_to(self, ceiling, refusal=7):
        """A count or length; past its ceiling it is refused at its last byte."""
        value = self.u32()
        if value > ceiling:
            raise Refused(refusal)
        return value

    def raw(self, length):
        if length > len(self.stream) - self.at:
            raise Refused(2)
        self.at += length

    # Identifiers, strings, indices

    def text(self, length, allowed, refusal):
        """Byte by byte, so that a wrong byte comes before an early end."""
        for _ in range(length):
            if self.byte() not in allowed:
                raise Refused(refusal)

    def identifier(self):
        self.text(self.up_to(IDENTIFIER, 5), IDCHARS, 5)

    def string(self):
        self.text(self.up_to(STRING, 6), STRING_BYTES, 6)

    def two_strings(self):
        self.string()
        self.string()

    def optional_index(self):
        self.index_form(self.one_of(b'\0\1\2'))

    def index(self):
        self.index_form(self.one_of(b'\1\2'))

    def index_form(self, form):
        if form == 1:
            self.u32()
        elif form == 2:
            length = self.up_to(IDENTIFIER, 5)
            if length == 0:
                raise Refused(5)
            self.text(length, IDCHARS, 5)

    def indices(self, count):
        for _ in range(count):
            self.index()

    # Types, limits, constants

    def value_type(self):
        self.one_of(VALUE_TYPES)

    def value_types(self, ceiling):
        for _ in range(self.up_to(ceiling)):
            self.value_type()

    def named_value_types(self, ceiling):
        for _ in range(self.up_to(ceiling)):
            self.identifier()
            self.value_type()

    def type_use(self):
        self.optional_index()
        self.named_value_types(PARAMETERS)
        self.value_types(RESULTS)

    def limits(self):
        flags = self.one_of(b'\0\1\4\5')
        bound = self.u64 if flags & 4 else self.u32
        bound()
        if flags & 1:
            bound()

    def table_type(self):
        self.one_of(REFERENCE_TYPES)
        self.limits()

    def global_type(self):
        self.value_type()
        self.one_of(b'\0\1')

    def constant(self):
        kind = self.one_of(b'\0\1\2\3\4\5\6')
        if kind < 4:
            self.plain_constant(kind)
        elif kind == 5:
            self.one_of(REFERENCE_TYPES)
        else:
            self.index()

    def plain_constant(self, kind):
        if kind == 0:
            self.u32()
        elif kind == 1:
            self.u64()
        else:
            self.raw(4 if kind == 2 else 8)

    # Records

    def begin(self, allowed):
        """The first byte of a record. The 4,097th record is refused 7 there,
        but a byte that no form allows is 4, the smaller number."""
        first = self.one_of(allowed)
        if self.record == RECORDS:
            raise Refused(7)
        return first

    def item(self, space):
        """One more item, at the byte that has just been read and shows it."""
        if self.items[space] == ITEMS:
            raise Refused(7)
        self.items[space] += 1

    def whole_stream(self):
        if len(self.stream) > STREAM:
            raise Refused(1)            # record 0: nothing is read yet
        while self.at < len(self.stream):
            self.field()
        return self.record

    def field(self):
        first = self.begin(FIELDS)
        has_body = False
        if first == 0x01:
            self.item('type')
            self.identifier()
            self.value_types(PARAMETERS)
            self.value_types(RESULTS)
        elif first == 0x02:
            self.two_strings()
            kind = self.one_of(b'\0\1\2\3')
            self.item(SPACES[kind])
            self.identifier()
            (self.type_use, self.table_type, self.limits, self.global_type)[kind]()
        elif first == 0x03:
            has_body = self.function()
        elif first == 0x04:
            self.table()
        elif first == 0x05:
            self.memory()
        elif first == 0x06:
            form = self.item_head('global', b'\0\1')
            self.global_type()
            if form == 0:
                self.constant()
        elif first == 0x07:
            self.string()
            self.one_of(b'\0\1\2\3')
            self.index()
        elif first == 0x08:
            if self.started:
                raise Refused(9)
            self.started = True
            self.index()
        elif first == 0x09:
            self.segment_head('elem')
            self.indices(self.up_to(FUNCTIONS))
        elif first == 0x0A:
            self.segment_head('data')
            self.raw(self.u32())
        self.record += 1
        if has_body:
            self.body()

    def item_head(self, space, forms):
        """Identifier, exports, form, and the two strings of form 1."""
        self.item(space)
        self.identifier()
        for _ in range(self.up_to(EXPORTS)):
            self.string()
        form = self.one_of(forms)
        if form == 1:
            self.two_strings()
        return form

    def function(self):
        """The function's own record; says whether a body follows."""
        form = self.item_head('func', b'\0\1')
        self.type_use()
        if form == 0:
            self.named_value_types(LOCALS)
        return form == 0

    def table(self):
        if self.item_head('table', b'\0\1\2') < 2:
            self.table_type()
        else:
            self.item('elem')
            self.one_of(b'\0\4')
            self.indices(self.up_to(FUNCTIONS))

    def memory(self):
        if self.item_head('memory', b'\0\1\2') < 2:
            self.limits()
        else:
            self.item('data')
            self.one_of(b'\0\4')
            self.raw(self.u32())

    def segment_head(self, space):
        self.item(space)
        self.identifier()
        if self.one_of(b'\0\1') == 1:
            self.optional_index()
            self.constant()

    def body(self):
        while True:
            first = self.begin(OPCODES + bytes([FOLDED, BODY_END]))
            if first == BODY_END:
                if self.open_blocks:
                    raise Refused(8)
                self.record += 1
                return
            if first == FOLDED:
                self.folded(1)
            else:
                self.instruction(first)
                self.record += 1

    def folded(self, nesting):
        """After F0, nested so deep: one instruction and the count of its operands
        are the record, and the operands are folded records again."""
        if nesting > NESTING:
            raise Refused(7)
        self.instruction(self.one_of(FOLDABLE))
        count = self.up_to(OPERANDS)
        self.record += 1
        for _ in range(count):
            self.begin(bytes([FOLDED]))
            self.folded(nesting + 1)

    def instruction(self, opcode):
        if opcode in (BLOCK, LOOP, IF):
            if len(self.open_blocks) == OPEN_BLOCKS:
                raise Refused(7)
            self.open_blocks.append(opcode == IF)
            self.identifier()
            self.type_use()
        elif opcode == ELSE:
            if not self.open_blocks or not self.open_blocks[-1]:
                raise Refused(8)
            self.open_blocks[-1] = False
            self.identifier()
        elif opcode == END:
            if not self.open_blocks:
                raise Refused(8)
            self.open_blocks.pop()
            self.identifier()
        elif opcode == 0x0E:                        # br_table
            self.indices(self.up_to(LABELS) + 1)
        elif opcode == 0x11:                        # call_indirect
            self.optional_index()
            self.type_use()
        elif 0x28 <= opcode <= 0x3E:                # loads and stores
            self.one_of(range(ALIGNMENT + 1))
            self.u32()
            self.optional_index()
        elif opcode == 0x3F or opcode == 0x40:      # memory.size, memory.grow
            self.optional_index()
        elif 0x41 <= opcode <= 0x44:                # constants
            self.plain_constant(opcode - 0x41)
        elif opcode == 0xD0:                        # ref.null
            self.one_of(REFERENCE_TYPES)
        elif opcode == BULK:                        # that of a memory may be absent
            for space in BULK_INDICES[self.one_of(BULK_INDICES)]:
                self.optional_index() if space == 'memory' else self.index()
        elif opcode in (0x0C, 0x0D, 0x10, 0xD2) or 0x20 <= opcode <= 0x24:
            self.index()                            # br, br_if, call, ref.func,
                                                    # locals, globals
        # all others have no operand


def read(stream):
    reader = Reader(stream)
    try:
        return 'ok', reader.whole_stream()
    except Refused as refused:
        return 'refused', refused.args[0], reader.record


def line(answer):
    """An answer as the programs print it."""
    return 'records %d' % answer[1] if answer[0] == 'ok' else 'refused %d at %d' % answer[1:]


def groups(value):
    """The shortest seven-bit groups, low first."""
    out = bytearray()
    while value >= 0x80:
        out.append(value & 0x7F | 0x80)
        value >>= 7
    return bytes(out) + bytes([value])


class Starts(Reader):
    """Notes where each record begins, up to the first fault."""

    def __init__(self, stream):
        super().__init__(stream)
        self.starts = []

    def begin(self, allowed):
        self.starts.append(self.at)
        return super().begin(allowed)


def record_starts(stream):
    """Where the records begin, and where the stream ends."""
    reader = Starts(stream)
    try:
        reader.whole_stream()
    except Refused:
        pass
    return reader.starts + [len(stream)]


def main():
    import batch                    # which needs `groups` of this module
    for stream in batch.unpack(sys.stdin.buffer.read()):
        print(line(read(stream)))


if __name__ == '__main__':
    main()
