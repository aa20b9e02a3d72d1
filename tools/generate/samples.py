"""Streams with an answer that document 01 or 02 itself gives: the samples of 01,
for each of the refusals 11 to 17, and 19, streams with two faults that compete,
bulk memory, and folded records.

SAMPLES is a list of (what it is, stream, answer). An answer is 'refused N at R',
or bytes in hex that the module must hold: the resolved numbers where they stand.
"""
from records import (access, block, call_indirect, code, const, data, data_drop, elem, end, export, f32, f64, folded, func,
                     funcref, global_, i32, i64, import_, inline_memory, limits, memory, memory_copy, memory_fill,
                     memory_init, start, table, type, use)

PREAMBLE = '0061736d01000000'


# S5: open from outside in a, b, unnamed, a
def labelled(index):
    """A branch inside S5's four blocks."""
    return func(None, None, (), code(block('a'), block('b'), block(), block('a'), 'br %s' % index,
                                     end(), end(), end(), end()))


S6 = (type(None, [i32]) + type() + type(None, [i32])
      + func(None, use(None, [i32])) + func(None, use(None, [i64])) + func() + func(None, use(None, [i64])))
S7 = func(None, use(None, [('x', i32)], [i32]), (), code('local.get x'), ['f'])
S7_OTHER = func(None, use(None, [('x', i32)], [i32]), (), code('local.get y'), ['f'])
S8 = type(None, [i32, i64]) + func(None, use(0), [('l', i32)], code('local.get l', 'drop'))


def nested(count):
    """So many blocks, one in the other."""
    return func(None, None, (), block() * count + end() * count)


# 256 declared types, no two of them equal: at most four parameters of four types
def many_types(count):
    """So many different declared types."""
    signatures = [[]]
    for one in signatures:
        if len(signatures) >= count:
            break
        signatures += [one + [t] for t in (i32, i64, f32, f64)]
    return b''.join(type(None, one) for one in signatures[:count])


FULL = many_types(256)
NEW_USE = use(None, [i32] * 9)
IMPORT = import_('m', 'n', 'func', None, use())

DOCUMENT = [
    ('S1', b'', PREAMBLE),
    ('S5, a', labelled('a'), '0c00'),
    ('S5, b', labelled('b'), '0c02'),
    ('S5, c', labelled('c'), 'refused 14 at 5'),
    ('S5, 9', labelled('9'), '0c09'),
    ('S6', S6, '03050400030103'),
    ('S7', S7, PREAMBLE + '010601' + '60017f017f' + '03020100' + '0705010166' + '0000' + '0a0601040020000b'),
    ('S7, y', S7_OTHER, 'refused 14 at 1'),
    ('S8', S8, '2002'),
    ('S9', inline_memory(None, b'abc'), PREAMBLE + '050401010101' + '0b0901004100' + '0b03616263'),
    ('S11, 128 blocks', nested(128), '02400240'),
    ('S11, 129 blocks', nested(129), 'refused 7 at 129'),
]

COMPETING = [
    # 11 over the whole stream before 12, 13 and 14
    ('11 and a name taken before it', func('a') + func('a') + IMPORT, 'refused 11 at 4'),
    ('11 and a 257th type before it', FULL + func(None, NEW_USE) + IMPORT, 'refused 11 at 258'),
    ('11 and a missing name before it', export('e', 'func', 'f') + func() + IMPORT, 'refused 11 at 3'),
    ('two late imports', memory(None, limits(1)) + IMPORT + IMPORT, 'refused 11 at 1'),
    # 12 over the whole stream before 13 and 14
    ('12 and a name taken before it', FULL + func('a') + func('a') + func(None, NEW_USE), 'refused 12 at 260'),
    ('12 in a body and a missing name before it', FULL + func(None, None, (), code('call f', block(None, NEW_USE), end())),
     'refused 12 at 258'),
    ('12 and a late declaration', func(None, NEW_USE) + FULL, 'refused 12 at 0'),
    # 13 of items over the whole stream before the fields
    ('13 and a missing name before it', export('e', 'func', 'f') + func('a') + func('a'),
     'refused 13 at 3, first at 1'),
    ('13 twice', func('a') + func('a') + memory('m', limits(1)) + memory('m', limits(1)),
     'refused 13 at 2, first at 0'),
    ('13 of three, and the name in another space before', memory('a', limits(1)) + func('a') + func('a') + func('a'),
     'refused 13 at 3, first at 1'),
    ('13 and a type that differs before it', type('t', [i32]) + func(None, use('t', [i64])) + type('t'),
     'refused 13 at 3, first at 0'),
    ('one name in two spaces is no fault, a taken local is', func('a') + table('a', funcref, limits(1))
     + func(None, use(None, [('p', i32)]), [('p', i32)]), 'refused 13 at 3, first at 3'),
    # fields in order: in a function the type use, the locals, the body
    ('14 in a function before 13 in the next', func(None, None, (), code('call f')) + func(None, None, [('l', i32), ('l', i32)]),
     'refused 14 at 1'),
    ('13 of locals before 14 in the body', func(None, None, [('l', i32), ('l', i32)], code('local.get m')),
     'refused 13 at 0, first at 0'),
    ('14 in the type use before 13 of locals', func(None, use('t'), [('l', i32), ('l', i32)]), 'refused 14 at 0'),
    ('14 of a table before 14 of a function', elem(None, ['f'], const(i32, 0), 't') + start('s'), 'refused 14 at 0'),
    ('14 of the offset before the functions', elem(None, ['f'], const('global.get', 'g')), 'refused 14 at 0'),
    ('14 of a memory before the offset', data(None, b'', const('global.get', 'g'), 'm'), 'refused 14 at 0'),
    ('14 and 17 in one body', func(None, None, (), code(block('a'), 'br b', end('c'))), 'refused 14 at 2'),
    ('14 in a global before 13 of locals', global_(None, i32, 0, const('global.get', 'g')) + func(None, None, [('l', i32), ('l', i32)]),
     'refused 14 at 0'),
    ('a label that has ended', func(None, None, (), code(block('a'), end(), 'br a')), 'refused 14 at 3'),
    # in a type use the index, then 15, then 16
    ('15 before 13 of locals', func(None, use(9, [i32]), [('l', i32), ('l', i32)]), 'refused 15 at 0'),
    ('15 counts added types', func(None, use(1, [i32])) + func(None, use(None, [i64])), 'refused 15 at 0'),
    ('15 in call_indirect after its table', table('t', funcref, limits(1))
     + func(None, None, (), code(call_indirect(use(9, [i32]), 'u'))), 'refused 14 at 2'),
    ('15 in call_indirect', table('t', funcref, limits(1)) + func(None, None, (), code(call_indirect(use(9, [i32]), 't'), 'call f')),
     'refused 15 at 2'),
    ('16 before 13 of locals', type(None, [i32]) + func(None, use(0, [i64]), [('l', i32), ('l', i32)]), 'refused 16 at 1'),
    ('16 before 15', type(None, [i32]) + func(None, use(0, [i64]), (), code(block(None, use(9, [i32])), end())), 'refused 16 at 1'),
    ('16 in a result only', type(None, [], [i32]) + func(None, use(0, [], [i64]), (), code('call f')), 'refused 16 at 1'),
    # 17 where it stands
    ('17 before 14', func(None, None, (), code(block('a'), end('b'), 'call f')), 'refused 17 at 2'),
    ('17 on an unnamed block before 16', type(None, [i32]) + func(None, None, (), code(block(), end('b'), block(None, use(0, [i64])), end())),
     'refused 17 at 3'),
    ('17 of the outer block', func(None, None, (), code(block('a'), block('b'), end('b'), end('b'), 'br 0')), 'refused 17 at 4'),
]

# document 02, §5: a number longer than needed, at its last byte, after 2 and 3 and before 4 to 7
SPELLED = [
    ('a count of two groups', bytes.fromhex('01 00 80 00 00'), 'refused 19 at 0'),
    ('an index of two groups', start(0)[:-1] + b'\x80\0', 'refused 19 at 0'),
    ('an index that takes two groups', start(128), '08028001'),
    ('a constant of ten groups', func(None, None, (), b'\x42' + b'\x80' * 9 + b'\0'), 'refused 19 at 1'),
    ('19 before 5', bytes.fromhex('01 C1 80 80 80 00'), 'refused 19 at 0'),
    ('3 before 19', bytes.fromhex('01 C1 80 80 80 80 00'), 'refused 3 at 0'),
    ('2 before 19', bytes.fromhex('01 C1 80'), 'refused 2 at 0'),
    ('19 before an empty name', bytes.fromhex('08 02 80 00'), 'refused 19 at 0'),
    ('19 before 6', bytes.fromhex('07 80 82 00'), 'refused 19 at 0'),
    ('19 before 7', bytes.fromhex('03 00 89 00'), 'refused 19 at 0'),
    ('19 and a name taken before it', func('a') + func('a') + bytes.fromhex('01 80 00 00 00'), 'refused 19 at 4'),
]

# document 02, §11: FC and a second byte; section 12 between 9 and 10 where a body has memory.init or data.drop
TWO_MEMORIES = memory('a', limits(0)) + memory('b', limits(0))


def with_code(*parts):
    """A function of type 0, which is its own."""
    return func(None, None, (), code(*parts))


BULK = [
    ('all four', TWO_MEMORIES + elem(None, []) + data('d', b'a')
     + with_code(memory_init('d', 1), data_drop(0), memory_copy('b', 'a'), memory_fill()),
     '0904010100' + '00' + '0c0101' + '0a12011000' + 'fc080001' + 'fc0900' + 'fc0a0100' + 'fc0b00' + '0b' + '0b0401010161'),
    ('memory.copy and memory.fill, no section 12', data('d', b'a') + with_code(memory_copy(), memory_fill()),
     '03020100' + '0a0b010900' + 'fc0a0000' + 'fc0b00' + '0b'),
    ('data.drop where there is no data', with_code(data_drop(7)), '03020100' + '0c0100' + '0a07010500' + 'fc0907' + '0b'),
    ('section 12 by the first of two functions', with_code(memory_init(0)) + with_code() + data(None, b''),
     '0c0101' + '0a0b02' + '0600fc080000' + '0b' + '02000b'),
    ('an inline segment counts and comes before', inline_memory('m', b'') + data('d', b'') + with_code(data_drop('d')),
     '0c0102' + '0a07010500' + 'fc0901' + '0b'),
    ('a destination alone', TWO_MEMORIES + with_code(memory_copy('b')), 'fc0a0100'),
    ('a source alone', TWO_MEMORIES + with_code(memory_copy(None, 'b')), 'fc0a0001'),
    ('a memory has the name, no data has it', memory('d', limits(0)) + with_code(data_drop('d')), 'refused 14 at 2'),
    ('data has the name, no memory has it', data('d', b'') + with_code(memory_fill('d')), 'refused 14 at 2'),
    ('a data name that nothing has, and a late one', with_code(memory_init('d'), 'call f'), 'refused 14 at 1'),
    ('data before a memory', data('d', b'') + with_code('nop', memory_init('d', 'm')), 'refused 14 at 3'),
    ('another second byte', with_code(b'\xFC\x0C'), 'refused 4 at 1'),
    ('no second byte', with_code(b'\xFC')[:-1], 'refused 2 at 1'),
    ('a second byte of two groups', with_code(b'\xFC\x88\0' + memory_init(0)[2:]), 'refused 4 at 1'),
    ('data.drop of nothing', with_code(data_drop(None)), 'refused 4 at 1'),
    ('memory.init of nothing', with_code(memory_init(None, 0)), 'refused 4 at 1'),
]



# document 02, §4: F0, an operator and a count; operands from left to right, and then the operator
def deep(count):
    """So many folded nops, one in the other."""
    tree = folded('nop')
    for _ in range(count - 1):
        tree = folded('nop', tree)
    return tree


FOLDED = [
    ('operands of operands, then the operators',
     with_code(folded(access('i32.store'), folded('i32.add', 'i32.const 1', 'i32.const 2'), 'i32.const 3'),
               folded('drop', folded('call 0')), 'nop'), '4101' + '4102' + '6a' + '4103' + '360200' + '1000' + '1a' + '01' + '0b'),
    ('three operands from left to right', with_code(folded('select', 'i32.const 1', 'i32.const 2', 'i32.const 3')),
     '4101' + '4102' + '4103' + '1b' + '0b'),
    ('no operand', with_code('nop', folded('i32.const 7'), 'drop'), '01' + '4107' + '1a' + '0b'),
    ('in a block, a branch by its label', with_code(block('a'), folded('br_if a', 'i32.const 0'), end('a')), '0240' + '4100' + '0d00' + '0b'),
    ('memory.init as an operator brings section 12', with_code(folded(memory_init(0), 'nop')), '0c0100' + '0a09010700' + '01' + 'fc080000'),
    ('memory.init as an operand brings section 12', with_code(folded('nop', folded(memory_init(0)))), '0c0100' + '0a09010700' + 'fc080000' + '01'),
    ('an operand adds its type before its operator',
     func(None, None, (), folded(call_indirect(use(None, [i64])), folded(call_indirect(use(None, [i32]))))),
     '010c03' + '600000' + '60017f00' + '60017e00' + '03020100' + '0a0a010800' + '110100' + '110200' + '0b'),
    ('12 at the operator, whose operand adds the last type',
     many_types(255) + func(None, None, (), folded(call_indirect(NEW_USE), folded(call_indirect(use(None, [i64] * 9))))),
     'refused 12 at 256'),
    ("an operand's fault before its operator's", with_code(folded('local.set a', folded('local.get b'))), 'refused 14 at 2'),
    ("a later operand's fault before its operator's",
     type(None, [i32]) + with_code(folded('call f', 'nop', folded('drop', folded(call_indirect(use(0, [i64])))))), 'refused 16 at 5'),
    ("an operator's fault before the next operand's",
     with_code(folded('nop', folded('call f', 'nop'), folded('call g'))), 'refused 14 at 2'),
    ('a fault after a tree', with_code(folded('nop', 'nop', 'nop'), 'call f'), 'refused 14 at 4'),
    ('16 operands', with_code(folded('nop', *['unreachable'] * 16)), '00' * 17 + '01' + '0b'),
    ('17 operands', with_code(folded('nop', *['nop'] * 17)), 'refused 7 at 1'),
    ('32 deep', with_code(deep(32)), '0a24012200' + '01' * 32 + '0b'),
    ('33 deep', with_code(deep(33)), 'refused 7 at 33'),
    ('a block is folded', with_code(folded(block())), 'refused 4 at 1'),
    ('F0 is folded', with_code(folded(folded('nop'))), 'refused 4 at 1'),
    ('an operand without F0', with_code(folded('nop', code('nop'))), 'refused 4 at 2'),
    ('the body ends where an operand is due', with_code(folded('nop', b'')), 'refused 4 at 2'),
    ('the stream ends where an operand is due', with_code(folded('nop', 'nop', b''))[:-1], 'refused 2 at 3'),
]

SAMPLES = DOCUMENT + COMPETING + SPELLED + BULK + FOLDED
