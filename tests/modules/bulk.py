"""Bulk memory: copy, fill, data that is copied at run time, and data that is dropped."""
from modules import module
from records import (access, code, const, data, data_drop, func, i32, i64, inline_memory, limits, memory, memory_copy,
                     memory_fill, memory_init, use)

ADDRESS = b'Harbour Street 5'


def three(name, instruction, types=(i32, i32, i32)):
    """An instruction on its function's three parameters."""
    return func(None, use(params=types), exports=[name],
                body=code('local.get 0', 'local.get 1', 'local.get 2', instruction))


def byte(address=i32):
    """The byte of memory 0 at its parameter."""
    return func(None, use(params=[('at', address)], results=[i32]), exports=['byte'],
                body=code('local.get at', access('i32.load8_u')))


def result(name, *parts):
    """A function without parameters that gives an i32."""
    return func(None, use(results=[i32]), exports=[name], body=code(*parts))


MODULES = [
    module(
        'an address block is copied, and room is filled',
        memory('m', limits(1)),
        data('address', ADDRESS, at=const(i32, 16)),
        byte(), three('copy', memory_copy()), three('copy_by_name', memory_copy('m', 'm')),
        three('fill', memory_fill(0)),
        calls='''
            copy 100 16 16 =
            byte 100 = 72
            byte 115 = 53
            byte 116 = 0
            copy 17 16 4 =
            byte 16 = 72
            byte 17 = 72
            byte 20 = 98
            copy_by_name 16 17 4 =
            byte 18 = 114
            copy 65520 100 16 =
            byte 65535 = 53
            copy 65521 100 16 = trap
            byte 65521 = 97
            copy 0 65521 16 = trap
            copy 65536 65536 0 =
            copy 65537 0 0 = trap
            fill 200 298 3 =
            byte 199 = 0
            byte 202 = 42
            byte 203 = 0
            fill 65535 1 1 =
            fill 65535 7 2 = trap
            byte 65535 = 1
            fill 65536 7 0 ='''),
    module(
        'all four: data is copied when it is asked for, dropped, and then it traps',
        memory('m', limits(1)),
        data('other', b'xyz'),
        data('address', ADDRESS),
        byte(), three('init', memory_init('address')), three('other', memory_init(0, 'm')),
        three('copy', memory_copy('m')), three('fill', memory_fill('m')),
        func(None, use(), exports=['drop'], body=data_drop('address')),
        calls='''
            byte 8 = 0
            init 8 0 16 =
            byte 8 = 72
            byte 23 = 53
            init 40 8 6 =
            byte 40 = 83
            byte 46 = 0
            init 0 1 16 = trap
            init 65530 0 16 = trap
            init 0 16 0 =
            init 0 17 0 = trap
            copy 64 8 16 =
            fill 8 46 16 =
            byte 64 = 72
            byte 8 = 46
            drop =
            byte 64 = 72
            init 0 0 0 =
            init 0 0 1 = trap
            drop =
            other 1 0 3 =
            byte 3 = 122'''),
    module(
        'active data is gone once it lies in the memory',
        inline_memory('m', ADDRESS),
        data('d', b'abc', at=const(i32, 32)),
        byte(), three('init', memory_init('d')), three('init_inline', memory_init(0)),
        func(None, use(), exports=['drop'], body=data_drop(1)),
        calls='''
            byte 0 = 72
            byte 34 = 99
            init 0 0 0 =
            init 0 0 1 = trap
            init_inline 0 0 1 = trap
            drop ='''),
    module(
        'from one memory into another',
        memory('a', limits(1)), memory('b', limits(1)),
        data('p', b'pq'), data(None, b'aaaa', at=const(i32, 0)),
        result('into_b', 'i32.const 8', 'i32.const 0', 'i32.const 4', memory_copy('b', 'a'),
               'i32.const 11', access('i32.load8_u', memory='b')),
        result('not_into_a', 'i32.const 8', access('i32.load8_u')),
        result('fill_b', 'i32.const 20', 'i32.const 33', 'i32.const 2', memory_fill('b'),
               'i32.const 20', access('i32.load8_u', memory='b'), 'i32.const 20', access('i32.load8_u'), 'i32.sub'),
        result('init_b', 'i32.const 30', 'i32.const 0', 'i32.const 2', memory_init('p', 'b'), data_drop('p'),
               'i32.const 31', access('i32.load8_u', memory=1)),
        result('into_a', 'i32.const 40', 'i32.const 30', 'i32.const 2', memory_copy(None, 'b'),
               'i32.const 40', access('i32.load8_u')),
        features=['multi-memory'],
        otherwise='wabt writes the data of memory.init before its memory, and reads them the other way round',
        calls='''
            into_b = 97
            not_into_a = 0
            fill_b = 33
            init_b = 113
            into_a = 112'''),
    module(
        'in a 64-bit memory',
        memory('m', limits(1, is64=True)),
        data('d', ADDRESS),
        byte(i64), three('copy', memory_copy(), (i64, i64, i64)), three('fill', memory_fill(), (i64, i32, i64)),
        three('init', memory_init('d'), (i64, i32, i32)),
        features=['memory64'],
        calls='''
            init 8n 0 16 =
            copy 100n 8n 16n =
            byte 115n = 53
            fill 100n 1 2n =
            byte 101n = 1
            byte 102n = 114
            copy 65536n 0n 1n = trap'''),
]
