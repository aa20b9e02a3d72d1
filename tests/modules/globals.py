"""Globals, imports and exports, start."""
from modules import module
from records import (access, call_indirect, code, const, data, elem, export, externref, f32, f64, func, funcref, global_, i32, i64,
                     import_, limits, memory, start, table, type, use)

ENV = 'env'

MODULES = [
    module(
        'each value type, get and set',
        global_('a', i32, 1, const(i32, -5), exports=['a']),
        global_('b', i64, 0, const(i64, 2**63 - 1), exports=['b', 'b_again']),
        global_('c', f32, 0, const(f32, 1.5), exports=['c']),
        global_('d', f64, 1, const(f64, -0.0), exports=['d']),
        global_('n', funcref, 0, const('ref.null', funcref)),
        global_('x', externref, 0, const('ref.null', externref), exports=['x']),
        global_('f', funcref, 0, const('ref.func', 'get')),
        func('get', use(results=[i32]), exports=['get'], body=code('global.get a')),
        func(None, use(params=[('v', i32)]), exports=['set'], body=code('local.get v', 'global.set a')),
        func(None, use(results=[i32]), exports=['refs'], body=code(
            'global.get n', 'ref.is_null', 'global.get f', 'ref.is_null', 'i32.sub', 'global.get x', 'ref.is_null', 'i32.add')),
        func(None, use(results=[i64]), exports=['by_number'], body=code('global.get 1')),
        calls='''
            get = -5
            set 8 =
            get = 8
            global a = 8
            global b = 9223372036854775807n
            global b_again = 9223372036854775807n
            global c = 1.5f
            global d = -0.0
            refs = 2
            by_number = 9223372036854775807n'''),
    module(
        'imports of all kinds, by record and by form, then own items',
        type('unary', [i32], [i32]),
        import_(ENV, 'twice', 'func', 'twice', use('unary')),
        func('thrice', use(params=[('ignored', i32)], results=[i32]), imported=(ENV, 'thrice'), exports=['thrice']),
        import_(ENV, 'table', 'table', 't', bytes([funcref]) + limits(10)),
        import_(ENV, 'memory', 'memory', 'm', limits(1)),
        import_(ENV, 'seven', 'global', 'seven', bytes([i32, 0])),
        global_('big', i64, 0, imported=(ENV, 'big'), exports=['big']),
        global_('own', i32, 0, const('global.get', 'seven'), exports=['own']),
        elem(None, ['twice', 'thrice', 'own'], at=const(i32, 3), table='t'),
        data(None, b'\x2A', at=const('global.get', 'seven'), memory='m'),
        func('own', use('unary'), exports=['own_func'], body=code('local.get 0', 'call thrice', 'call twice')),
        func(None, use(params=[('n', i32), ('v', i32)], results=[i32]), exports=['indirect'], body=code(
            'local.get v', 'local.get n', call_indirect(use('unary'), 't'))),
        func(None, use(results=[i32]), exports=['byte'], body=code('i32.const 7', access('i32.load8_u'))),
        export('f', 'func', 1), export('t', 'table', 't'), export('m', 'memory', 0), export('g', 'global', 'own'),
        calls='''
            thrice 5 = 15
            f 5 = 15
            own_func 5 = 30
            indirect 3 5 = 10
            indirect 4 5 = 15
            indirect 5 5 = 30
            indirect 6 5 = trap
            byte = 42
            global own = 7
            global g = 7
            global big = 123456789012n''',
        otherwise='a segment that names table 0 takes form 0'),
    module(
        'items imported by form 1',
        table('t', funcref, limits(10), exports=['t'], imported=(ENV, 'table')),
        memory('m', limits(1), exports=['m'], imported=(ENV, 'memory')),
        func(None, use(results=[i32]), exports=['size'], body=bytes.fromhex('3F 00')),
        calls='size = 1'),
    module(
        'start runs once, before the first call',
        global_('n', i32, 1, const(i32, 40)),
        start('go'),
        func('go', body=code('global.get n', 'i32.const 2', 'i32.add', 'global.set n')),
        func(None, use(results=[i32]), exports=['n'], body=code('global.get n')),
        calls='n = 42'),
    module(
        'a start that traps',
        func('go', body=code('unreachable')),
        start(0),
        calls='instantiate = trap'),
    module('nothing at all', calls=''),
    module(
        'an export of each item in its order, before the record of its own',
        func('f', use(results=[i32]), body=code('i32.const 1'), exports=['one', 'two', 'three']),
        export('four', 'func', 'f'),
        func('g', use(results=[i32]), body=code('i32.const 2'), exports=['five']),
        calls='''
            exports = one two three four five
            three = 1
            four = 1
            five = 2'''),
]
