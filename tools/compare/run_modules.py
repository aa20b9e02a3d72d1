#!/usr/bin/env python3
"""Assembles the modules of tests/modules and lets outside engines judge them.

usage: run_modules.py [--oracle PROGRAM] [--program PROGRAM] [--verbose]

Each module is assembled by the oracle and by model.py, and by the assembler's
own program where it is given: all bytes must be the same. wasm-validate must
accept them, with and without the name section; a broken copy must be refused.
wabt's own writer must give the same bytes again from its text of the module,
but where the module says otherwise. Then the calls are made: in node, or in
wabt's wasm-interp where node lacks the feature. Exit status 1 if anything is wrong.
"""
import argparse
import json
import os
import re
import subprocess
import sys
import tempfile

sys.path.insert(0, os.path.join(os.path.dirname(os.path.abspath(__file__)), '..'))
import paths
import batch
import model
import modules

NODE = ['node', '--experimental-wasm-memory64', os.path.join(paths.TOOLS, 'compare', 'run_in_node.js')]
WABT_FLAGS = {'multi-memory': '--enable-multi-memory', 'memory64': '--enable-memory64'}
NOT_IN_NODE = ('multi-memory',)
NOWHERE = ('table64',)


def oracle_lines(oracle, streams, *options):
    """The oracle's answers."""
    return subprocess.run([oracle, '--batch', *options], input=batch.pack(streams), stdout=subprocess.PIPE,
                          check=True).stdout.decode().splitlines()


def program_line(program, stream):
    """The program writes the module itself, or the line of a refusal."""
    said = subprocess.run([program], input=stream, stdout=subprocess.PIPE).stdout
    return said.decode().strip() if said.startswith(b'refused') else 'ok ' + said.hex().upper()


def wabt(tool, module, binary, *options):
    """A tool of wabt on a module: its exit status and what it prints."""
    flags = [WABT_FLAGS[feature] for feature in module.features]
    with tempfile.NamedTemporaryFile(suffix='.wasm') as file:
        file.write(binary)
        file.flush()
        done = subprocess.run([tool, *flags, *options, file.name], stdout=subprocess.PIPE, stderr=subprocess.STDOUT)
    return done.returncode, done.stdout.decode('utf-8', 'replace').strip()


def interpreted(module, binary):
    """What is wrong with the calls in wasm-interp. It calls every export in
    order, so a call here has no argument."""
    printed = wabt('wasm-interp', module, binary, '--run-all-exports')[1]
    wrong = []
    for line in module.calls:
        name, result = (part.strip() for part in line.split('='))
        found = re.search(r'^%s\(\) => i32:(\d+)$' % re.escape(name), printed, re.M)
        if not found or (int(found.group(1)) - int(result)) % 2**32:
            wrong.append('%s: %s' % (line, found.group(0) if found else printed))
    return wrong


def rewritten(module, binary):
    """Whether wabt writes the same bytes from its own text of the module."""
    flags = [WABT_FLAGS[feature] for feature in module.features]
    with tempfile.TemporaryDirectory() as folder:
        there, text, again = (os.path.join(folder, name) for name in ('a.wasm', 'a.wat', 'b.wasm'))
        with open(there, 'wb') as file:
            file.write(binary)
        subprocess.run(['wasm2wat', *flags, there, '-o', text], check=True)
        subprocess.run(['wat2wasm', *flags, text, '-o', again], check=True)
        with open(again, 'rb') as file:
            same = file.read() == binary
    if same == (module.otherwise is None):
        return []
    return ['wabt writes other bytes' if not same else 'wabt writes the same bytes, though: ' + module.otherwise]


def validated(module, binary, named):
    """What wasm-validate has against the module. A copy whose last section has
    lost its last byte shows that it looks at all."""
    wrong = []
    for what, some in (('validate', binary), ('validate with names', named)):
        status, printed = wabt('wasm-validate', module, some)
        if status:
            wrong.append('%s: %s' % (what, printed))
    if len(binary) > 8 and wabt('wasm-validate', module, binary[:-1])[0] == 0:
        wrong.append('validate: a cut module is accepted')
    return wrong


def main():
    parser = argparse.ArgumentParser(description=__doc__, formatter_class=argparse.RawDescriptionHelpFormatter)
    parser.add_argument('--oracle', default=paths.ORACLE)
    parser.add_argument('--program', help='the assembler\'s program')
    parser.add_argument('--verbose', action='store_true')
    options = parser.parse_args()
    some = list(modules.all_modules())
    streams = [one.stream for one in some]
    plain = oracle_lines(options.oracle, streams)
    named = oracle_lines(options.oracle, streams, '--names')
    wrong = {one.name: [] for one in some}
    in_node = []
    calls = 0
    for one, line, with_names in zip(some, plain, named):
        lines = {'oracle': line, 'model': model.line(model.assemble(one.stream))}
        if options.program:
            lines['program'] = program_line(options.program, one.stream)
        if len(set(lines.values())) > 1 or not line.startswith('ok '):
            wrong[one.name].append('assembled: %s' % lines)
            continue
        binary, binary_named = (bytes.fromhex(text[3:]) for text in (line, with_names))
        if one.expect and binary != one.expect:
            wrong[one.name].append('expected %s, got %s' % (one.expect.hex(), binary.hex()))
        if any(feature in NOWHERE for feature in one.features):
            continue
        wrong[one.name] += validated(one, binary, binary_named)
        if not wrong[one.name]:
            wrong[one.name] += rewritten(one, binary)
        calls += len(one.calls)
        if any(feature in NOT_IN_NODE for feature in one.features):
            wrong[one.name] += interpreted(one, binary)
        else:
            in_node.append((one, binary))
    asked = json.dumps([{'hex': binary.hex(), 'calls': one.calls} for one, binary in in_node])
    told = json.loads(subprocess.run(NODE, input=asked.encode(), stdout=subprocess.PIPE, check=True).stdout)
    for (one, _), said in zip(in_node, told):
        wrong[one.name] += said
    for one in some:
        if wrong[one.name] or options.verbose:
            print('%s: %s' % (one.name, 'ok, %d calls' % len(one.calls) if not wrong[one.name] else 'WRONG'))
        for what in wrong[one.name]:
            print('    ' + what)
    bad = sum(map(bool, wrong.values()))
    print('%d modules, %d calls, %d modules wrong' % (len(some), calls, bad))
    sys.exit(1 if bad else 0)


if __name__ == '__main__':
    main()
