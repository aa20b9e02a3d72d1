"""Every numeric instruction, 45 to C4: one function each, called with values
whose result the standard's chapter 4.3 fixes."""
import re

from modules import module
from records import NUMERIC, code, f32, f64, func, i32, i64, use

TYPES = {'i32': i32, 'i64': i64, 'f32': f32, 'f64': f64}
UNARY = 'eqz clz ctz popcnt abs neg ceil floor trunc nearest sqrt extend8_s extend16_s extend32_s'.split()
TESTS = 'eqz eq ne lt gt le ge lt_s lt_u gt_s gt_u le_s le_u ge_s ge_u'.split()


def signature(name):
    """The parameters and the result of an instruction, from its name."""
    kind, what = name.split('.')
    source = re.search(r'_([if](32|64))', what)
    if source:
        return [TYPES[source.group(1)]], [TYPES[kind]]
    return [TYPES[kind]] * (1 if what in UNARY else 2), [i32 if what in TESTS else TYPES[kind]]


def function(name):
    params, results = signature(name)
    body = code(*['local.get %d' % at for at in range(len(params))], name)
    return func(None, use(params=params, results=results), body=body, exports=[name])


MODULES = [module('45 to C4', *map(function, NUMERIC), calls='''
    i32.eqz 0 = 1
    i32.eqz 5 = 0
    i32.eq 5 5 = 1
    i32.ne 5 5 = 0
    i32.lt_s -1 1 = 1
    i32.lt_u -1 1 = 0
    i32.gt_s -1 1 = 0
    i32.gt_u -1 1 = 1
    i32.le_s 2 1 = 0
    i32.le_u 1 -1 = 1
    i32.ge_s -1 1 = 0
    i32.ge_u -1 1 = 1
    i64.eqz 0n = 1
    i64.eq 5n 4294967301n = 0
    i64.ne 5n 4294967301n = 1
    i64.lt_s -1n 1n = 1
    i64.lt_u -1n 1n = 0
    i64.gt_s -1n 1n = 0
    i64.gt_u -1n 1n = 1
    i64.le_s 2n 1n = 0
    i64.le_u 1n -1n = 1
    i64.ge_s -1n 1n = 0
    i64.ge_u -1n 1n = 1
    f32.eq 1.5 1.5 = 1
    f32.ne nan nan = 1
    f32.lt 1.0 2.0 = 1
    f32.gt 1.0 2.0 = 0
    f32.le 2.0 2.0 = 1
    f32.ge 1.0 2.0 = 0
    f64.eq nan nan = 0
    f64.ne 1.5 1.5 = 0
    f64.lt 1.0 2.0 = 1
    f64.gt 1.0 2.0 = 0
    f64.le 2.0 2.0 = 1
    f64.ge 1.0 2.0 = 0
    i32.clz 1 = 31
    i32.ctz 8 = 3
    i32.popcnt 255 = 8
    i32.add 2147483647 1 = -2147483648
    i32.sub 0 1 = -1
    i32.mul 65536 65537 = 65536
    i32.div_s -7 2 = -3
    i32.div_s 1 0 = trap
    i32.div_s -2147483648 -1 = trap
    i32.div_u -7 2 = 2147483644
    i32.rem_s -7 2 = -1
    i32.rem_u -7 3 = 0
    i32.and 12 10 = 8
    i32.or 12 10 = 14
    i32.xor 12 10 = 6
    i32.shl 1 33 = 2
    i32.shr_s -8 1 = -4
    i32.shr_u -8 1 = 2147483644
    i32.rotl 2147483649 1 = 3
    i32.rotr 3 1 = 2147483649
    i64.clz 1n = 63n
    i64.ctz 8n = 3n
    i64.popcnt 255n = 8n
    i64.add 9223372036854775807n 1n = -9223372036854775808n
    i64.sub 0n 1n = -1n
    i64.mul 4294967296n 4294967297n = 4294967296n
    i64.div_s -7n 2n = -3n
    i64.div_u -7n 2n = 9223372036854775804n
    i64.rem_s -7n 2n = -1n
    i64.rem_u -7n 4n = 1n
    i64.and 12n 10n = 8n
    i64.or 12n 10n = 14n
    i64.xor 12n 10n = 6n
    i64.shl 1n 65n = 2n
    i64.shr_s -8n 1n = -4n
    i64.shr_u -8n 1n = 9223372036854775804n
    i64.rotl 9223372036854775809n 1n = 3n
    i64.rotr 3n 1n = 9223372036854775809n
    f32.abs -1.5 = 1.5f
    f32.neg 1.5 = -1.5f
    f32.ceil 1.2 = 2.0f
    f32.floor -1.2 = -2.0f
    f32.trunc -1.7 = -1.0f
    f32.nearest 2.5 = 2.0f
    f32.sqrt 2.0 = 1.4142135623730951f
    f32.add 0.1 0.2 = 0.3f
    f32.sub 1.0 0.25 = 0.75f
    f32.mul 1.5 1.5 = 2.25f
    f32.div 1.0 3.0 = 0.3333333333333333f
    f32.min -0.0 0.0 = -0.0f
    f32.max -0.0 0.0 = 0.0f
    f32.copysign 1.5 -2.0 = -1.5f
    f64.abs -1.5 = 1.5
    f64.neg 1.5 = -1.5
    f64.ceil 1.2 = 2.0
    f64.floor -1.2 = -2.0
    f64.trunc -1.7 = -1.0
    f64.nearest 3.5 = 4.0
    f64.sqrt 2.0 = 1.4142135623730951
    f64.add 0.1 0.2 = 0.30000000000000004
    f64.sub 1.0 0.25 = 0.75
    f64.mul 1.5 1.5 = 2.25
    f64.div 1.0 3.0 = 0.3333333333333333
    f64.min -0.0 0.0 = -0.0
    f64.max nan 0.0 = nan
    f64.copysign 1.5 -2.0 = -1.5
    i32.wrap_i64 4294967297n = 1
    i32.trunc_f32_s -1.7 = -1
    i32.trunc_f32_s nan = trap
    i32.trunc_f32_u 3000000000.0 = 3000000000
    i32.trunc_f64_s -2147483648.9 = -2147483648
    i32.trunc_f64_u 4294967295.9 = 4294967295
    i64.extend_i32_s -1 = -1n
    i64.extend_i32_u -1 = 4294967295n
    i64.trunc_f32_s -1.7 = -1n
    i64.trunc_f32_u 9223372036854775808.0 = 9223372036854775808n
    i64.trunc_f64_s -1.7 = -1n
    i64.trunc_f64_u 1e19 = 10000000000000000000n
    f32.convert_i32_s -1 = -1.0f
    f32.convert_i32_u -1 = 4294967296.0f
    f32.convert_i64_s -1n = -1.0f
    f32.convert_i64_u -1n = 18446744073709551616.0f
    f32.demote_f64 0.1 = 0.1f
    f64.convert_i32_s -1 = -1.0
    f64.convert_i32_u -1 = 4294967295.0
    f64.convert_i64_s -1n = -1.0
    f64.convert_i64_u -1n = 18446744073709551616.0
    f64.promote_f32 0.1 = 0.10000000149011612
    i32.reinterpret_f32 1.0 = 1065353216
    i64.reinterpret_f64 1.0 = 4607182418800017408n
    f32.reinterpret_i32 1065353216 = 1.0f
    f64.reinterpret_i64 4607182418800017408n = 1.0
    i32.extend8_s 255 = -1
    i32.extend16_s 65535 = -1
    i64.extend8_s 255n = -1n
    i64.extend16_s 65535n = -1n
    i64.extend32_s 4294967295n = -1n
''')]

# Constants at the ends of the signed forms, and floats with their sign.
VALUES32 = (0, 63, 64, 127, 128, 8191, 8192, 2**31 - 1, -1, -64, -65, -8192, -8193, -2**31)
VALUES64 = VALUES32 + (2**62, 2**63 - 1, -2**62 - 1, -2**63)
CONSTANTS = ([('i32', 'i32.const %d' % value, '%d' % value) for value in VALUES32]
             + [('i64', 'i64.const %d' % value, '%dn' % value) for value in VALUES64]
             + [('f32', 'f32.const %r' % value, '%rf' % value) for value in (0.0, -0.0, 1.5, float('inf'))]
             + [('f64', 'f64.const %r' % value, '%r' % value) for value in (0.1, -0.0, 1e300, float('-inf'))])
MODULES.append(module(
    'constants',
    *[func(None, use(results=[TYPES[kind]]), body=code(text), exports=['c%d' % number])
      for number, (kind, text, _) in enumerate(CONSTANTS)],
    calls='\n'.join('c%d = %s' % (number, value) for number, (_, _, value) in enumerate(CONSTANTS))))
