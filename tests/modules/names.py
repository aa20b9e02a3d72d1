"""Names bound to the right locals."""
from modules import module
from records import code, func, i32, i64, type, use

MODULES = [
    # The case that started all this: a function of a declared type, by index
    # only, with a named local. Were the local's number 0, `l` would be the
    # first parameter, and the letter would carry another name.
    module(
        'a declared type, an index only, a named local',
        type('letter', [i32, i64], [i32, i32]),
        func('f', use('letter'), locals=[('l', i32)], exports=['f'], body=code(
            'i32.const 42', 'local.set l', 'local.get l', 'local.get 0')),
        func('g', use(0), locals=[i32, ('l', i32), i32], exports=['g'], body=code(
            'i32.const 42', 'local.set l', 'local.get 3', 'local.get 0')),
        calls='''
            f 7 8n = 42 7
            g 7 8n = 42 7'''),
    module(
        'the local keeps apart from each parameter',
        type('three', [i32, i32, i32], [i32]),
        func(None, use('three'), locals=[('l', i32)], exports=['sum'], body=code(
            'i32.const 1000', 'local.set l',
            'local.get 0', 'local.get 1', 'i32.add', 'local.get 2', 'i32.add', 'local.get l', 'i32.add')),
        calls='sum 1 20 300 = 1321'),
    module(
        'the same with an inline type: the parameters bring their names',
        type('two', [i32, i32], [i32]),
        func(None, use('two', params=[('a', i32), ('b', i32)], results=[i32]), locals=[('c', i32)], exports=['both'], body=code(
            'i32.const 100', 'local.set c', 'local.get a', 'local.get b', 'i32.sub', 'local.get c', 'i32.add')),
        func(None, use(params=[('b', i32), ('a', i32)], results=[i32]), locals=[('c', i32)], exports=['inline'], body=code(
            'i32.const 100', 'local.set c', 'local.get a', 'local.get b', 'i32.sub', 'local.get c', 'i32.add')),
        func(None, use(params=[i32, ('b', i32)], results=[i32]), exports=['one_named'], body=code('local.get b')),
        calls='''
            both 9 4 = 105
            inline 9 4 = 95
            one_named 1 2 = 2'''),
    module(
        'one name in many spaces',
        type('n', [i32], [i32]),
        func('n', use('n', params=[('n', i32)], results=[i32]), exports=['n'], body=code('local.get n', 'i32.const 1', 'i32.add')),
        func('m', use('n'), locals=[('n', i32)], exports=['m'], body=code(
            'i32.const 5', 'local.set n', 'local.get 0', 'call n', 'local.get n', 'i32.add')),
        calls='''
            n 1 = 2
            m 1 = 7'''),
    module(
        'locals in runs keep their numbers',
        func(None, use(params=[('p', i32)], results=[i64]),
             locals=[('a', i32), ('b', i32), ('c', i64), ('d', i32), ('e', i64), ('f', i64)], exports=['last'], body=code(
                 'i64.const 5', 'local.set f', 'i64.const 7', 'local.set c', 'local.get f', 'local.get c', 'i64.sub')),
        calls='last 1 = -2n'),
    module(
        '64 parameters and 64 locals',
        func(None, use(params=[('p%d' % number, i32) for number in range(64)], results=[i32]),
             locals=[('l%d' % number, i32) for number in range(64)], exports=['far'], body=code(
                 'i32.const 77', 'local.set l63', 'local.get p63', 'local.get l63', 'i32.add')),
        calls='far %s = 140' % ' '.join(map(str, range(64)))),
]
