#!/usr/bin/env python3
"""Shows a stream record by record: number, offset, bytes and what it says.

usage: account.py < STREAM

A record is said in the standard's text notation (chapter 6); operands of a folded
record are indented, and the last one closes its bracket. Only the bytes are read,
so the account says what is there and not what was meant. A stream that the reading
rules refuse is shown up to the record at fault, with the refusal (docs/REFUSALS.md).
"""
import struct
import sys

import paths
import model
import reading_model
import records
from reading_model import BODY_END, record_starts

WIDTH = 16              # bytes on a line
LEFT = 4 * WIDTH        # bytes that are shown after a fault

VALUE_TYPES = {0x7F: 'i32', 0x7E: 'i64', 0x7D: 'f32', 0x7C: 'f64', 0x70: 'funcref', 0x6F: 'externref'}
HEAP_TYPES = {0x70: 'func', 0x6F: 'extern'}
CONSTANTS = ('i32.const', 'i64.const', 'f32.const', 'f64.const', 'global.get', 'ref.null', 'ref.func')
OPCODES = {0x02: 'block', 0x03: 'loop', 0x04: 'if', 0x05: 'else', 0x0B: 'end', 0x0E: 'br_table',
           0x11: 'call_indirect', 0x3F: 'memory.size', 0x40: 'memory.grow', 0xD0: 'ref.null'}
OPCODES.update({opcode: name for name, opcode in [*records.PLAIN.items(), *records.INDEXED.items()]})
OPCODES.update({0x28 + at: name for at, name in enumerate(records.ACCESSES)})
OPCODES.update({0x41 + at: name for at, name in enumerate(CONSTANTS[:4])})
BULK = {model.INIT: 'memory.init', model.DROP: 'data.drop', model.COPY: 'memory.copy', model.FILL: 'memory.fill'}


def joined(*parts):
    """The parts that are there, with a blank between them."""
    return ' '.join(filter(None, parts))


def bracket(*parts):
    """The same in brackets."""
    return '(%s)' % joined(*parts)


def word(index):
    """A name, a number, or nothing."""
    if index is None:
        return ''
    return str(index) if isinstance(index, int) else '$' + index.decode()


def words(indices):
    """Some of them."""
    return joined(*map(word, indices))


def quoted(text):
    """A string or data; other bytes than a string may have in hex."""
    return '"%s"' % ''.join('\\' + chr(byte) if byte in b'"\\' else chr(byte) if 0x20 <= byte < 0x7F
                            else '\\%02x' % byte for byte in text)


def variables(what, some):
    """Parameters, results or locals, each in its brackets."""
    return joined(*(bracket(what, word(name), VALUE_TYPES[value_type]) for name, value_type in some))


def nameless(what, some):
    """The same of value types alone."""
    return variables(what, [(None, value_type) for value_type in some])


def use(given):
    """A type use."""
    index = bracket('type', word(given.index)) if given.index is not None else ''
    return joined(index, variables('param', given.parameters), nameless('result', given.results))


def constant(kind, value):
    """A constant instruction, the bit patterns of integers signed."""
    if kind < 2:
        value = str(value - (value >> (63 if kind else 31) << (64 if kind else 32)))
    elif kind < 4:
        value = str(struct.unpack('<d' if kind == 3 else '<f', value)[0])
    else:
        value = HEAP_TYPES[value] if kind == 5 else word(value)
    return joined(CONSTANTS[kind], value)


def bulk(second, indices):
    """A bulk memory instruction. In the text memory.init has its memory first, and
    memory.copy has both memories or none."""
    if second == model.INIT:
        indices = reversed(indices)
    if second == model.COPY and indices != [None, None]:
        indices = [index or 0 for index in indices]
    return joined(BULK[second], words(indices))


def limits(given):
    """Minimum and maximum, after i64 where they are of 64 bits."""
    return joined('i64' if given.flags & 4 else '', str(given.low), word(given.high))


def description(kind, given):
    """What an imported or own item is, without its name."""
    if kind == model.FUNC:
        return use(given)
    if kind == model.TABLE:
        return joined(limits(given[1]), VALUE_TYPES[given[0]])
    if kind == model.MEMORY:
        return limits(given)
    value_type = VALUE_TYPES[given[0]]
    return bracket('mut', value_type) if given[1] else value_type


class Teller(model.Parser):
    """Reads one record and says it."""

    opens_body = False
    operand_count = None                # of a folded record

    def tell_field(self):
        """A field record; of an own function, its head."""
        first = self.byte()
        if first == 0x01:
            name = word(self.identifier())
            function = bracket('func', nameless('param', self.value_types()), nameless('result', self.value_types()))
            return bracket('type', name, function)
        if first == 0x02:
            module, field, kind = quoted(self.text()), quoted(self.text()), self.byte()
            item = bracket(records.KINDS[kind], word(self.identifier()), description(kind, self.description(kind)))
            return bracket('import', module, field, item)
        if first <= 0x06:
            return self.tell_item(first - 0x03)
        if first == 0x07:
            return bracket('export', quoted(self.text()), bracket(records.KINDS[self.byte()], word(self.index())))
        if first == 0x08:
            return bracket('start', word(self.index()))
        if first == 0x09:
            return bracket('elem', word(self.identifier()), self.tell_place('table'), 'func', words(self.indices()))
        return bracket('data', word(self.identifier()), self.tell_place('memory'), quoted(self.text()))

    def tell_place(self, of):
        """Where an active segment goes."""
        place = self.place()
        if place is None:
            return ''
        return joined('' if place[0] is None else bracket(of, word(place[0])), bracket(constant(*place[1])))

    def tell_item(self, kind):
        """Records 03 to 06. An own function's bracket closes with its body."""
        name = word(self.identifier())
        exports = joined(*(bracket('export', quoted(text)) for text in self.many(self.text)))
        form = self.byte()
        start = joined(records.KINDS[kind], name, exports)
        if form == 1:
            start = joined(start, bracket('import', quoted(self.text()), quoted(self.text())))
        if form == 2:
            is64 = 'i64' if self.byte() else ''
            if kind == model.TABLE:
                return bracket(start, is64, 'funcref', bracket('elem', words(self.indices())))
            return bracket(start, is64, bracket('data', quoted(self.text())))
        start = joined(start, description(kind, self.description(kind)))
        if kind == model.FUNC and form == 0:
            self.opens_body = True
            return '(' + joined(start, variables('local', self.many(self.variable)))
        if kind == model.GLOBAL and form == 0:
            return bracket(start, bracket(constant(*self.constant())))
        return bracket(start)

    def tell_in_body(self):
        """A record of a body; of a folded one, its operator."""
        first = self.byte()
        if first == BODY_END:
            return ')'
        if first != model.FOLDED:
            return self.tell_instruction(first)
        operator = self.tell_instruction(self.byte())
        self.operand_count = self.number()
        return operator

    def tell_instruction(self, opcode):
        """An instruction with what stands after its opcode."""
        given = self.operands(opcode)
        if opcode == model.BULK:
            return bulk(*given)
        name = OPCODES[opcode]
        if 0x02 <= opcode <= 0x04 or opcode == 0x11:
            return joined(name, word(given[0]), use(given[1]))
        if opcode == 0x0E:
            return joined(name, words(given))
        if 0x28 <= opcode <= 0x3E:
            exponent, offset, memory = given
            natural = exponent == model.NATURAL[opcode - 0x28]
            return joined(name, word(memory), 'offset=%d' % offset if offset else '',
                          '' if natural else 'align=%d' % 2**exponent)
        if 0x41 <= opcode <= 0x44:
            return constant(opcode - 0x41, given)
        return joined(name, HEAP_TYPES[given] if opcode == 0xD0 else word(given))


class Tree:
    """The folded records that wait for operands, by how many each waits for."""

    def __init__(self):
        self.due = []

    def tell(self, operator, count):
        """A folded record among the others, with the brackets that it closes."""
        text = '  ' * len(self.due) + '(' + operator
        self.due.append(count)
        while self.due and self.due[-1] == 0:
            text += ')'
            self.due.pop()
            if self.due:
                self.due[-1] -= 1
        return text


def told(stream):
    """For each record its offset, its bytes and what it says. At a reading
    fault the last is the refusal, beside the first bytes of what is left."""
    answer = reading_model.read(stream)
    whole = answer[1] if answer[0] == 'ok' else answer[2]
    at = 0
    in_body = False
    tree = Tree()
    for stop in record_starts(stream)[1:whole + 1]:
        record = stream[at:stop]
        teller = Teller(record)
        said = teller.tell_in_body() if in_body else teller.tell_field()
        yield at, record, said if teller.operand_count is None else tree.tell(said, teller.operand_count)
        in_body = record[0] != BODY_END if in_body else teller.opens_body
        at = stop
    if answer[0] == 'refused':
        yield at, stream[at:at + LEFT], reading_model.line(answer)


def lines(stream):
    """The account as lines of text."""
    row = '%6s %6s  %-' + str(3 * WIDTH - 1) + 's  %s'
    yield (row % ('record', 'offset', 'bytes', 'what it says')).rstrip()
    for number, (start, record, said) in enumerate(told(stream)):
        rows = [record[at:at + WIDTH].hex(' ').upper() for at in range(0, len(record), WIDTH)] or ['']
        yield row % (number, start, rows[0], said)
        for more in rows[1:]:
            yield (row % ('', '', more, '')).rstrip()


def main():
    for line in lines(sys.stdin.buffer.read()):
        print(line)


if __name__ == '__main__':
    main()
