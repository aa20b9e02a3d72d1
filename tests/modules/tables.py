"""Tables, element segments, call_indirect, references."""
from modules import module
from records import (call_indirect, code, const, elem, export, externref, func, funcref, i32, i64, inline_table, limits,
                     ref_null, table, type, use)

ANSWERS = [func('f%d' % number, use('answer'), body=code('i32.const %d' % (10 + number))) for number in range(3)]
OTHER = func('other', use(params=[i64], results=[i64]), body=code('local.get 0'))


def calls_by(using, at=None):
    return use(params=[('n', i32)], results=[i32]), code('local.get n', call_indirect(using, at))


def caller(name, using, at=None):
    head, body = calls_by(using, at)
    return func(None, head, body=body, exports=[name])


MODULES = [
    module(
        'call_indirect by name, by number, inline and by nothing',
        type('answer', [], [i32]),
        table('t', funcref, limits(6), exports=['table']),
        elem('e', ['f0', 'f1', 'f2', 'other'], at=const(i32, 1), table='t'),
        *ANSWERS, OTHER,
        caller('by_name', use('answer')),
        caller('by_number', use(0)),
        caller('inline', use(results=[i32])),
        caller('both', use('answer', results=[i32]), 't'),
        func('nothing', body=b''),
        func(None, use(params=[('n', i32)]), exports=['no_type'], body=code('local.get n', call_indirect(use()))),
        calls='''
            by_name 1 = 10
            by_name 3 = 12
            by_number 2 = 11
            inline 2 = 11
            both 3 = 12
            by_name 0 = trap
            by_name 4 = trap
            by_name 6 = trap
            no_type 1 = trap''',
        otherwise='a segment that names table 0 takes form 0'),
    module(
        'two tables, an inline one among them; segments with and without a table',
        type('answer', [], [i32]),
        table('first', funcref, limits(2, 4)),
        inline_table('second', ['f2', 1, 'f0'], exports=['second']),
        elem(None, ['f1'], at=const(i32, 0)),
        elem(None, ['f0'], at=const(i32, 1), table=0),
        *ANSWERS,
        caller('in_first', use('answer')),
        caller('in_second', use('answer'), 'second'),
        caller('in_1', use('answer'), 1),
        calls='''
            in_first 0 = 11
            in_first 1 = 10
            in_second 0 = 12
            in_second 1 = 11
            in_1 2 = 10
            in_second 3 = trap''',
        otherwise='a segment that names table 0 takes form 0'),
    module(
        'a passive segment, a table of externref, references',
        type('answer', [], [i32]),
        table('x', externref, limits(1)),
        table('t', funcref, limits(1)),
        elem('passive', ['f0']),
        *ANSWERS,
        func(None, use(results=[i32]), exports=['null'], body=code(ref_null(funcref), 'ref.is_null')),
        func(None, use(results=[i32]), exports=['null_extern'], body=code(ref_null(externref), 'ref.is_null')),
        func(None, use(results=[i32]), exports=['not_null'], body=code('ref.func f0', 'ref.is_null')),
        func(None, use(params=[('r', externref)], results=[externref]), exports=['same'], body=code('local.get r')),
        export('t', 'table', 't'),
        calls='''
            null = 1
            null_extern = 1
            not_null = 0
            same 5 = 5'''),
    module(
        'a segment that does not fit',
        table(None, funcref, limits(1)),
        func('f', body=b''),
        elem(None, ['f', 'f'], at=const(i32, 0)),
        calls='instantiate = trap'),
    # No engine here knows 64-bit tables: the bytes by hand, from chapter 5.
    module(
        'a 64-bit inline table',
        func('f', body=b''),
        inline_table('t', ['f'], is64=True),
        features=['table64'],
        expect='0061736D01000000' '0104' '01600000' '0302' '0100' '0405' '0170050101' '0909' '01020042000B000100' '0A04' '0102000B'),
]
