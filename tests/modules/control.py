"""Blocks, branches, calls; block types with parameters and several results."""
from modules import module
from records import (block, br_table, code, else_, end, f64, func, i32, i64, if_, loop, start, type, use)

x = ('x', i32)
y = ('y', i32)

MODULES = [
    module(
        'if, else, loop',
        func('max', use(params=[x, y], results=[i32]), exports=['max'], body=code(
            'local.get x', 'local.get y', 'i32.gt_s',
            if_('which', use(results=[i32])), 'local.get x', else_('which'), 'local.get y', end('which'))),
        func('sum', use(params=[x], results=[i32]), locals=[('all', i32)], exports=['sum'], body=code(
            loop('again'),
            'local.get x', 'local.get all', 'i32.add', 'local.set all',
            'local.get x', 'i32.const 1', 'i32.sub', 'local.tee x', 'br_if again',
            end(), 'local.get all')),
        func('one_armed', use(params=[x], results=[i32]), exports=['one_armed'], body=code(
            'local.get x', if_(), 'i32.const 7', 'return', end(), 'i32.const 8')),
        func('fact', use(params=[('n', i64)], results=[i64]), exports=['fact'], body=code(
            'local.get n', 'i64.eqz', if_(None, use(results=[i64])), 'i64.const 1',
            else_(), 'local.get n', 'local.get n', 'i64.const 1', 'i64.sub', 'call fact', 'i64.mul', end())),
        calls='''
            max 3 5 = 5
            max 5 3 = 5
            max -1 1 = 1
            sum 4 = 10
            sum 100 = 5050
            one_armed 1 = 7
            one_armed 0 = 8
            fact 5n = 120n
            fact 20n = 2432902008176640000n'''),
    module(
        'br_table',
        func('pick', use(params=[x], results=[i32]), exports=['pick'], body=code(
            block('default'), block('two'), block('one'), block('zero'),
            'local.get x', br_table('zero', 'one', 'two', 'default'),
            end('zero'), 'i32.const 10', 'return',
            end('one'), 'i32.const 11', 'return',
            end('two'), 'i32.const 12', 'return',
            end('default'), 'i32.const 99')),
        func('only_default', use(params=[x], results=[i32]), exports=['only_default'], body=code(
            block('out', use(results=[i32])), 'i32.const 4', 'local.get x', br_table('out'), end(), 'i32.const 1', 'i32.add')),
        calls='''
            pick 0 = 10
            pick 1 = 11
            pick 2 = 12
            pick 3 = 99
            pick -1 = 99
            only_default 7 = 5'''),
    module(
        'labels: the innermost of a name, unnamed blocks counted',
        func(None, use(params=[x], results=[i32]), exports=['inner'], body=code(
            block('a'), block('b'), block(None), block('a'),
            'local.get x', 'br_if a',              # depth 0: leaves the inner a alone
            'i32.const 1', 'return',
            end('a'), 'i32.const 2', 'return',
            end(), 'i32.const 3', 'return', end('b'), 'i32.const 4', 'return', end('a'), 'i32.const 5')),
        func(None, use(params=[x], results=[i32]), exports=['middle'], body=code(
            block('a'), block('b'), block(None), block('a'),
            'local.get x', 'br_if b',              # depth 2
            'i32.const 1', 'return',
            end(), 'i32.const 2', 'return',
            end(), 'i32.const 3', 'return', end(), 'i32.const 4', 'return', end(), 'i32.const 5')),
        func(None, use(params=[x], results=[i32]), exports=['by_number'], body=code(
            block('a'), block('b'), block(None), block('a'),
            'local.get x', 'br_if 3',
            'i32.const 1', 'return',
            end(), 'i32.const 2', 'return',
            end(), 'i32.const 3', 'return', end(), 'i32.const 4', 'return', end(), 'i32.const 5')),
        calls='''
            inner 0 = 1
            inner 1 = 2
            middle 1 = 4
            by_number 1 = 5'''),
    module(
        'block types: several results, parameters, by index, by name, inline',
        type('pair', [], [i32, i64]),
        type('one', [], [i32]),
        func(None, use(results=[i32, i64]), exports=['pair'], body=code(
            block(None, use('pair')), 'i32.const 1', 'i64.const 2', end())),
        func(None, use(results=[i64, i32]), locals=[('n', i32), ('l', i64)], exports=['swapped'], body=code(
            block(None, use(results=[i32, i64])), 'i32.const 1', 'i64.const 2', end(),
            'local.set l', block(None, use(params=[('ignored', i32)], results=[i64, i32])),
            'local.set n', 'local.get l', 'local.get n', end())),
        func(None, use(results=[i32]), exports=['indexed_short'], body=code(
            block(None, use('one')), 'i32.const 6', end())),
        func(None, use(results=[i32]), exports=['both'], body=code(
            block(None, use('one', results=[i32])), 'i32.const 9', end())),
        func(None, use(params=[x], results=[i32]), exports=['loop_parameter'], body=code(
            'local.get x',
            loop('again', use(params=[i32], results=[i32])),
            'i32.const 3', 'i32.add', 'local.tee x', 'local.get x', 'i32.const 10', 'i32.lt_s', 'br_if again', end())),
        func(None, use(params=[x], results=[i32, f64]), exports=['if_pair'], body=code(
            'local.get x', if_(None, use(results=[i32, f64])), 'i32.const 1', 'f64.const 0.5',
            else_(), 'i32.const 2', 'f64.const 2.5', end())),
        calls='''
            pair = 1 2n
            swapped = 2n 1
            indexed_short = 6
            both = 9
            loop_parameter 0 = 12
            if_pair 1 = 1 0.5
            if_pair 0 = 2 2.5''',
        otherwise='a block with an index is short'),
    module(
        'a block of type 64, whose number takes two signed groups',
        *[type('t%d' % number, [i32] * (number % 8) + [i64] * (number // 8)) for number in range(64)],
        type('t64', [], [i32, i32, i32]),
        func(None, use(results=[i32]), exports=['by_name'], body=code(
            block(None, use('t64')), 'i32.const 1', 'i32.const 2', 'i32.const 3', end(), 'i32.add', 'i32.add')),
        func(None, use(results=[i32]), exports=['inline'], body=code(
            block(None, use(results=[i32, i32, i32])), 'i32.const 1', 'i32.const 2', 'i32.const 4', end(), 'i32.add', 'i32.add')),
        func(None, use(results=[i32]), exports=['by_number'], body=code(
            block(None, use(64)), 'i32.const 1', 'i32.const 2', 'i32.const 5', end(), 'i32.add', 'i32.add')),
        calls='''
            by_name = 6
            inline = 7
            by_number = 8'''),
    module(
        'unreachable, nop, drop, select, return, start',
        func('init', body=code('nop')),
        start('init'),
        func(None, use(params=[x, y, ('c', i32)], results=[i32]), exports=['select'], body=code(
            'local.get x', 'local.get y', 'local.get c', 'select')),
        func(None, use(params=[x], results=[i32]), exports=['stop'], body=code(
            'local.get x', if_(), 'unreachable', end(), 'i32.const 1', 'i32.const 2', 'drop')),
        calls='''
            select 4 5 1 = 4
            select 4 5 0 = 5
            stop 0 = 1
            stop 1 = trap'''),
    module(
        '128 open blocks',
        func(None, use(results=[i32]), exports=['deep'], body=code(
            block('outer', use(results=[i32])), *[block('b%d' % number) for number in range(127)],
            'i32.const 5', 'br outer', *[end()] * 127, 'i32.const 6', end('outer'))),
        calls='deep = 5'),
]
