"""Writes record streams (docs/STREAM.md). This file is all that it needs.

    stream = func('f', use(params=[('x', i32)], results=[i32]), exports=['f'],
                  body=code('local.get x'))

A stream is the sum of its fields; a body is the sum of its instructions, made by
`code(...)` of lines such as 'local.get x', 'i32.const -1' or 'i32.add', and of
`block`, `access`, `folded` and the others below. An index is a number, a name or
None (absent). Nothing is checked: that is the assembler's part.
"""
import struct

i32, i64, f32, f64, funcref, externref = 0x7F, 0x7E, 0x7D, 0x7C, 0x70, 0x6F
KINDS = ('func', 'table', 'memory', 'global')


def _family(kind, names):
    """The instructions of one type."""
    return [kind + '.' + name for name in names.split()]


_INTEGER_TESTS = 'eqz eq ne lt_s lt_u gt_s gt_u le_s le_u ge_s ge_u'
_FLOAT_TESTS = 'eq ne lt gt le ge'
_INTEGER = 'clz ctz popcnt add sub mul div_s div_u rem_s rem_u and or xor shl shr_s shr_u rotl rotr'
_FLOAT = 'abs neg ceil floor trunc nearest sqrt add sub mul div min max copysign'

# The standard's names for 45 to C4 (chapter 5, numeric instructions), in order.
NUMERIC = (_family('i32', _INTEGER_TESTS) + _family('i64', _INTEGER_TESTS) + _family('f32', _FLOAT_TESTS)
           + _family('f64', _FLOAT_TESTS) + _family('i32', _INTEGER) + _family('i64', _INTEGER)
           + _family('f32', _FLOAT) + _family('f64', _FLOAT)
           + '''i32.wrap_i64 i32.trunc_f32_s i32.trunc_f32_u i32.trunc_f64_s i32.trunc_f64_u
                i64.extend_i32_s i64.extend_i32_u i64.trunc_f32_s i64.trunc_f32_u i64.trunc_f64_s i64.trunc_f64_u
                f32.convert_i32_s f32.convert_i32_u f32.convert_i64_s f32.convert_i64_u f32.demote_f64
                f64.convert_i32_s f64.convert_i32_u f64.convert_i64_s f64.convert_i64_u f64.promote_f32
                i32.reinterpret_f32 i64.reinterpret_f64 f32.reinterpret_i32 f64.reinterpret_i64
                i32.extend8_s i32.extend16_s i64.extend8_s i64.extend16_s i64.extend32_s'''.split())
# 28 to 3E.
ACCESSES = '''i32.load i64.load f32.load f64.load i32.load8_s i32.load8_u i32.load16_s i32.load16_u
              i64.load8_s i64.load8_u i64.load16_s i64.load16_u i64.load32_s i64.load32_u
              i32.store i64.store f32.store f64.store i32.store8 i32.store16
              i64.store8 i64.store16 i64.store32'''.split()
PLAIN = {'unreachable': 0x00, 'nop': 0x01, 'return': 0x0F, 'drop': 0x1A, 'select': 0x1B, 'ref.is_null': 0xD1}
PLAIN.update({name: 0x45 + at for at, name in enumerate(NUMERIC)})
INDEXED = {'br': 0x0C, 'br_if': 0x0D, 'call': 0x10, 'local.get': 0x20, 'local.set': 0x21, 'local.tee': 0x22,
           'global.get': 0x23, 'global.set': 0x24, 'ref.func': 0xD2}


# ---- parts ----

def groups(value):
    """A number: seven-bit groups, the lowest first, as few as will do."""
    out = bytearray()
    while value >= 0x80:
        out.append(value & 0x7F | 0x80)
        value >>= 7
    return bytes(out) + bytes([value])


def text(name):
    """A name or string after its length; None is empty."""
    name = (name or '').encode()
    return groups(len(name)) + name


def index(what):
    """Absent, a number or a name."""
    if what is None:
        return b'\0'
    return b'\1' + groups(what) if isinstance(what, int) else b'\2' + text(what)


def types(some):
    """A list of value types."""
    return groups(len(some)) + bytes(some)


def variables(some):
    """Each a value type, or a name and a value type."""
    pairs = [one if isinstance(one, tuple) else (None, one) for one in some]
    return groups(len(pairs)) + b''.join(text(name) + bytes([value_type]) for name, value_type in pairs)


def use(type=None, params=(), results=()):
    """A type use."""
    return index(type) + variables(params) + types(results)


def limits(low, high=None, is64=False):
    """Limits of a table or memory."""
    flags = (4 if is64 else 0) | (0 if high is None else 1)
    return bytes([flags]) + groups(low) + (b'' if high is None else groups(high))


def const(kind, value):
    """kind: i32, i64, f32, f64, 'global.get', 'ref.null' or 'ref.func'."""
    number = {i32: 0, i64: 1, f32: 2, f64: 3, 'global.get': 4, 'ref.null': 5, 'ref.func': 6}[kind]
    return bytes([number]) + operand(number, value)


def operand(number, value):
    """A constant without its first byte."""
    if number < 2:
        return groups(value % 2**(64 if number else 32))
    if number < 4:
        return struct.pack('<d' if number == 3 else '<f', value)
    return bytes([value]) if number == 5 else index(value)


def exported(names):
    """An item's exports."""
    return groups(len(names)) + b''.join(map(text, names))


def head(first, name, exports, form, strings=()):
    """The head of records 03 to 06."""
    return bytes([first]) + text(name) + exported(exports) + bytes([form]) + b''.join(map(text, strings))


# ---- fields; `imported` gives the two strings of an item's import form ----

def type(name=None, params=(), results=()):
    """Record 01."""
    return b'\1' + text(name) + types(params) + types(results)


def import_(module, field, kind, name, description):
    """Record 02; description: use(), bytes([type]) + limits(), limits() or bytes([type, mutable])."""
    return b'\2' + text(module) + text(field) + bytes([KINDS.index(kind)]) + text(name) + description


def func(name=None, using=None, locals=(), body=b'', exports=(), imported=None):
    """Record 03 and its body."""
    using = using or use()
    if imported:
        return head(3, name, exports, 1, imported) + using
    return head(3, name, exports, 0) + using + variables(locals) + body + b'\xFF'


def table(name, element, size, exports=(), imported=None):
    """Record 04, own or imported."""
    return head(4, name, exports, 1 if imported else 0, imported or ()) + bytes([element]) + size


def inline_table(name, functions, exports=(), is64=False):
    """Record 04 with its functions."""
    functions = groups(len(functions)) + b''.join(map(index, functions))
    return head(4, name, exports, 2) + (b'\4' if is64 else b'\0') + functions


def memory(name, size, exports=(), imported=None):
    """Record 05, own or imported."""
    return head(5, name, exports, 1 if imported else 0, imported or ()) + size


def inline_memory(name, content, exports=(), is64=False):
    """Record 05 with its data."""
    return head(5, name, exports, 2) + (b'\4' if is64 else b'\0') + groups(len(content)) + content


def global_(name, value_type, mutable, init=None, exports=(), imported=None):
    """Record 06."""
    start = head(6, name, exports, 1 if imported else 0, imported or ())
    return start + bytes([value_type, mutable]) + (b'' if imported else init)


def export(name, kind, what):
    """Record 07."""
    return b'\7' + text(name) + bytes([KINDS.index(kind)]) + index(what)


def start(what):
    """Record 08."""
    return b'\x08' + index(what)


def elem(name, functions, at=None, table=None):
    """Passive, or active at the constant `at`."""
    place = b'\0' if at is None else b'\1' + index(table) + at
    return b'\x09' + text(name) + place + groups(len(functions)) + b''.join(map(index, functions))


def data(name, content, at=None, memory=None):
    """Record 0A, passive or active."""
    place = b'\0' if at is None else b'\1' + index(memory) + at
    return b'\x0A' + text(name) + place + groups(len(content)) + content


# ---- instructions ----

def block(label=None, using=None):
    """Opcode 02."""
    return b'\2' + text(label) + (using or use())


def loop(label=None, using=None):
    """Opcode 03."""
    return b'\3' + text(label) + (using or use())


def if_(label=None, using=None):
    """Opcode 04."""
    return b'\4' + text(label) + (using or use())


def else_(label=None):
    """Opcode 05."""
    return b'\5' + text(label)


def end(label=None):
    """Opcode 0B."""
    return b'\x0B' + text(label)


def br_table(*labels):
    """The last is the default."""
    return b'\x0E' + groups(len(labels) - 1) + b''.join(map(index, labels))


def call_indirect(using, table=None):
    """Opcode 11."""
    return b'\x11' + index(table) + using


def access(name, offset=0, align=None, memory=None):
    """A load or store; align in bytes, natural if none is given."""
    byte = 0 if align is None else align.bit_length()
    return bytes([0x28 + ACCESSES.index(name), byte]) + groups(offset) + index(memory)


def memory_size(memory=None):
    """Opcode 3F."""
    return b'\x3F' + index(memory)


def memory_grow(memory=None):
    """Opcode 40."""
    return b'\x40' + index(memory)


def memory_init(data, memory=None):
    """FC 08: from a data segment into a memory."""
    return b'\xFC\x08' + index(data) + index(memory)


def data_drop(data):
    """FC 09."""
    return b'\xFC\x09' + index(data)


def memory_copy(destination=None, source=None):
    """FC 0A: into a memory from a memory."""
    return b'\xFC\x0A' + index(destination) + index(source)


def memory_fill(memory=None):
    """FC 0B."""
    return b'\xFC\x0B' + index(memory)


def ref_null(heap):
    """Opcode D0."""
    return b'\xD0' + bytes([heap])


def line(words):
    """One instruction from its words."""
    name, *rest = words.split()
    if name in PLAIN:
        return bytes([PLAIN[name]])
    if name in INDEXED:
        return bytes([INDEXED[name]]) + index(int(rest[0]) if rest[0].isdigit() else rest[0])
    number = ('i32.const', 'i64.const', 'f32.const', 'f64.const').index(name)
    return bytes([0x41 + number]) + operand(number, int(rest[0], 0) if number < 2 else float(rest[0]))


def code(*parts):
    """Instructions, as lines or as bytes of the helpers above."""
    return b''.join(part if isinstance(part, bytes) else line(part) for part in parts)


def folded(operator, *operands):
    """F0: an instruction on its operands, from left to right. An operand is a folded
    record again, or a line for one without operands."""
    operands = [one if isinstance(one, bytes) else folded(one) for one in operands]
    return b'\xF0' + code(operator) + groups(len(operands)) + b''.join(operands)
