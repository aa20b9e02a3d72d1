"""Folded bodies: what a tool writes that has trees."""
from modules import module
from records import (access, block, br_table, call_indirect, code, const, data, else_, end, f64, folded, func, global_, i32,
                     i64, if_, inline_table, limits, loop, memory, memory_copy, memory_fill, use)


def sum_of(numbers):
    """A chain of additions, each the second operand of the one before."""
    first, *rest = numbers
    return folded('i32.add', 'i32.const %d' % first, sum_of(rest)) if rest else folded('i32.const %d' % first)


BINARY = use(params=[('x', i32), ('y', i32)], results=[i32])

MODULES = [
    module(
        'expressions',
        func(None, BINARY, exports=['difference'], body=folded('i32.sub', 'local.get x', 'local.get y')),
        func(None, BINARY, exports=['square'], body=folded(
            'i32.mul', folded('i32.sub', 'local.get x', 'local.get y'), folded('i32.sub', 'local.get x', 'local.get y'))),
        func(None, BINARY, exports=['smaller'], body=folded(
            'select', 'local.get x', 'local.get y', folded('i32.lt_s', 'local.get x', 'local.get y'))),
        func(None, use(results=[i32]), exports=['deep'], body=sum_of(range(32))),
        func(None, use(params=[('x', f64)], results=[f64]), exports=['mean'], body=folded(
            'f64.div', folded('f64.add', 'local.get x', 'f64.const 2.5'), folded('f64.convert_i32_s', 'i32.const 2'))),
        calls='''
            difference 7 5 = 2
            difference 5 7 = -2
            square 5 8 = 9
            smaller 5 8 = 5
            smaller 8 5 = 5
            deep = 496
            mean 1.5 = 2.0'''),
    module(
        'calls with many operands, direct and by a table',
        func('sixteen', use(params=[i32] * 16, results=[i32]), body=folded(
            'i32.sub', 'local.get 0', folded('i32.add', 'local.get 14', 'local.get 15'))),
        inline_table('t', ['sixteen', 'twice']),
        func('twice', use(params=[('x', i64)], results=[i64]), body=folded('i64.mul', 'local.get x', 'i64.const 2')),
        func(None, use(results=[i32]), exports=['call'], body=folded(
            'call sixteen', *['i32.const %d' % number for number in range(100, 116)])),
        func(None, use(params=[('x', i64)], results=[i64]), exports=['twice'], body=folded(
            call_indirect(use(params=[i64], results=[i64]), 't'), 'local.get x',
            folded('i32.add', 'i32.const 0', 'i32.const 1'))),
        calls='''
            call = -129
            twice 21n = 42n''',
        otherwise='a segment that names table 0 takes form 0'),
    module(
        'in blocks, with branches, stores and globals',
        memory(None, limits(1)),
        data(None, b'abcd', at=const(i32, 0)),
        global_('steps', i32, 1, const(i32, 0), exports=['steps']),
        func(None, use(params=[('n', i32)], results=[i32]), [('sum', i32)], exports=['up_to'], body=code(
            block('done'), loop('next'),
            folded('br_if done', folded('i32.eqz', 'local.get n')),
            folded('local.set sum', folded('i32.add', 'local.get sum', 'local.get n')),
            folded('local.set n', folded('i32.sub', 'local.get n', 'i32.const 1')),
            folded('global.set steps', folded('i32.add', 'global.get steps', 'i32.const 1')),
            folded('br next'), end('next'), end('done'), 'local.get sum')),
        func(None, use(params=[('n', i32)], results=[i32]), exports=['chosen'], body=code(
            block('c'), block('b'), block('a'), folded(br_table('a', 'b', 'c'), 'local.get n'), end(),
            folded('return', 'i32.const 10'), end(), folded('return', 'i32.const 20'), end(), folded('i32.const 30'))),
        func(None, use(params=[('n', i32)], results=[i32]), exports=['sign'], body=code(
            folded('i32.lt_s', 'local.get n', 'i32.const 0'), if_(None, use(results=[i32])), folded('i32.const -1'), else_(),
            folded('i32.ne', 'local.get n', 'i32.const 0'), end())),
        func(None, use(results=[i32]), exports=['copied'], body=code(
            folded(memory_copy(), 'i32.const 8', 'i32.const 0', 'i32.const 4'),
            folded(memory_fill(), 'i32.const 9', 'i32.const 65', 'i32.const 2'),
            folded(access('i32.store8'), 'i32.const 8', folded(access('i32.load8_u'), 'i32.const 3')),
            folded(access('i32.load'), 'i32.const 8'))),
        calls='''
            up_to 10 = 55
            global steps = 10
            chosen 0 = 10
            chosen 1 = 20
            chosen 2 = 30
            sign -5 = -1
            sign 0 = 0
            sign 5 = 1
            copied = 1681998180'''),
]
