"""Loads and stores, sizes, data segments; several memories; 64-bit memories."""
import struct

from modules import module
from records import (ACCESSES, access, code, const, data, export, f32, f64, func, i32, i64, inline_memory, limits,
                     memory, memory_grow, memory_size, use)

TYPES = {'i32': i32, 'i64': i64, 'f32': f32, 'f64': f64}
CONTENT = bytes([0x80, 0xFF, 0x7F, 0x3F, 0x02, 0x03, 0xF4, 0x3F])
LOADS = [name for name in ACCESSES if '.load' in name and name[0] == 'i']


def loaded(name):
    """What an integer load of CONTENT gives, as a call's result."""
    kind, what = name.split('.')
    bits = ''.join(character for character in what if character.isdigit()) or kind[1:]
    value = int.from_bytes(CONTENT[:int(bits) // 8], 'little', signed=not what.endswith('_u'))
    return '%d%s' % (value, 'n' if kind == 'i64' else '')


def load(name):
    """Reads at its parameter plus 8, an offset of 8."""
    return func(None, use(params=[('at', i32)], results=[TYPES[name[:3]]]), exports=[name],
                body=code('local.get at', access(name, offset=8)))


def stored(name):
    """Stores -2 (or -2.0) at 100 over zeros and loads all 8 bytes."""
    kind = name[:3]
    value = kind + ('.const -2' if kind[0] == 'i' else '.const -2.0')
    return func(None, use(results=[i64]), exports=[name],
                body=code('i32.const 100', 'i64.const 0', access('i64.store', align=1),
                          'i32.const 60', value, access(name, offset=40, align=1), 'i32.const 100', access('i64.load')))


MODULES = [
    module(
        'loads and stores',
        memory('m', limits(1, 2), exports=['mem']),
        data('d', CONTENT, at=const(i32, 16), memory='m'),
        *map(load, LOADS + ['f32.load', 'f64.load']),
        *[stored(name) for name in ACCESSES if '.store' in name],
        calls='\n'.join('%s 8 = %s' % (name, loaded(name)) for name in LOADS) + '''
            f32.load 8 = %rf
            f64.load 8 = %r
            i32.load -8 = trap
            i32.store = 4294967294n
            i64.store = -2n
            f32.store = 3221225472n
            f64.store = -4611686018427387904n
            i32.store8 = 254n
            i32.store16 = 65534n
            i64.store8 = 254n
            i64.store16 = 65534n
            i64.store32 = 4294967294n''' % (struct.unpack('<f', CONTENT[:4]) + struct.unpack('<d', CONTENT))),
    module(
        'size and grow, up to the maximum',
        memory(None, limits(1, 3)),
        func(None, use(results=[i32]), exports=['size'], body=memory_size()),
        func(None, use(params=[('n', i32)], results=[i32]), exports=['grow'], body=code('local.get n', memory_grow())),
        calls='''
            size = 1
            grow 1 = 1
            size = 2
            grow 5 = -1
            size = 2'''),
    module(
        'inline data, its size and its bytes',
        inline_memory('m', b'abc', exports=['mem']),
        func(None, use(params=[('at', i32)], results=[i32]), exports=['byte'], body=code('local.get at', access('i32.load8_u'))),
        func(None, use(results=[i32]), exports=['size'], body=memory_size('m')),
        func(None, use(results=[i32]), exports=['grow'], body=code('i32.const 1', memory_grow(0))),
        calls='''
            byte 0 = 97
            byte 2 = 99
            byte 3 = 0
            byte 65536 = trap
            size = 1
            grow = -1'''),
    module(
        'passive data and data past the end',
        memory(None, limits(1)),
        data('p', b'passive'),
        data('q', b'x', at=const(i32, 65536)),
        calls='instantiate = trap'),
    module(
        'three memories',
        memory('a', limits(1)), memory('b', limits(2)), inline_memory('c', b'ccc'),
        data('da', b'a', at=const(i32, 0)), data('db', b'b', at=const(i32, 0), memory='b'),
        func(None, use(results=[i32]), exports=['from_a'], body=code('i32.const 0', access('i32.load8_u'))),
        func(None, use(results=[i32]), exports=['from_b'], body=code('i32.const 0', access('i32.load8_u', memory='b'))),
        func(None, use(results=[i32]), exports=['from_c'], body=code('i32.const 0', access('i32.load8_u', offset=2, memory=2))),
        func(None, use(results=[i32]), exports=['size_b'], body=memory_size('b')),
        func(None, use(results=[i32]), exports=['write_b'], body=code(
            'i32.const 9', 'i32.const 5', access('i32.store', memory='b', align=1),
            'i32.const 9', access('i32.load', memory='a'), 'i32.const 9', access('i32.load', memory='b'), 'i32.sub')),
        export('mb', 'memory', 'b'),
        features=['multi-memory'],
        calls='''
            from_a = 97
            from_b = 98
            from_c = 99
            size_b = 2
            write_b = -5'''),
    module(
        'a 64-bit memory',
        memory('m', limits(1, 2, is64=True)),
        data(None, CONTENT, at=const(i64, 16), memory='m'),
        func(None, use(params=[('at', i64)], results=[i32]), exports=['get'], body=code('local.get at', access('i32.load8_u'))),
        func(None, use(results=[i64]), exports=['size'], body=memory_size('m')),
        features=['memory64'],
        calls='''
            get 16n = 128
            get 17n = 255
            get 24n = 0
            size = 1n'''),
    module(
        'a 64-bit memory with inline data',
        inline_memory('m', b'xyz', is64=True),
        func(None, use(results=[i32]), exports=['last'], body=code('i64.const 0', access('i32.load8_u', offset=2))),
        features=['memory64'],
        calls='last = 122'),
]
