#!/usr/bin/env python3
"""Whether the streams of generate.py would show a slip.

usage: slips.py [--streams N] [--seed S] [--shrink]

Each slip is one edit of the model's text (model.py or reading_model.py), such
as an assembler might have it. For each, the streams are gone through until one
has another answer. A slip that no stream shows is a hole in the generator:
exit status 1. The slips of the strict call (document 02, §8) are looked for in its
answers. With --shrink the smallest stream that shows it is printed.
"""
import argparse
import os
import sys
import types

sys.path.insert(0, os.path.join(os.path.dirname(os.path.abspath(__file__)), '..'))
import paths
import generate
import model
import shrink

SHARES = (('rich', 0.2), ('faulty', 0.35), ('damaged', 0.2), ('edges', 0.12), ('folded', 0.13))
STRICT_SHARES = (('numbers', 0.65), ('rich', 0.1), ('faulty', 0.15), ('folded', 0.1))
ROOMS = (65536, 65536, 65536, 60, 200)

# A body resolved in the order of its records, and written in flat order.
RESOLVED = ("return b''.join(bytes([opcode]) + self.operand(record, opcode, operands)\n"
            '                        for record, opcode, operands in body)',
            'made = {record: bytes([opcode]) + self.operand(record, opcode, operands)\n'
            '                for record, opcode, operands in sorted(body, key=lambda one: one[0])}\n'
            "        return b''.join(made[record] for record, _, _ in body)")

# (what, old text, new text), once in model.py
MODEL = [
    ('locals from 0 with an index only', 'parameters = [None] * len(self.types[number][0])', 'parameters = []'),
    ('locals from 0 with an inline type', 'return parameters + [', 'return [None] * 0 + ['),
    ('results counted as places', '[None] * len(self.types[number][0])',
     "[None] * len(b''.join(self.types[number]))"),
    ('the outermost block of a name', 'depths.setdefault(label, depth)', 'depths[label] = depth'),
    ('only named blocks counted', 'enumerate(reversed(self.labels))',
     'enumerate(filter(None, reversed(self.labels)))'),
    ('labels found by their first letter', 'depths.setdefault(label, depth)',
     'depths.setdefault(index if label and isinstance(index, bytes) and label[:1] == index[:1] else label, depth)'),
    ('labels found by their length', 'depths.setdefault(label, depth)',
     'depths.setdefault(index if label and isinstance(index, bytes) and len(label) == len(index) else label, depth)'),
    ('else closes its block', 'if opcode == 0x0B:\n                self.labels.pop()',
     'if True:\n                self.labels.pop()'),
    ('any label on an unnamed block', 'given is not None and given != label',
     'None not in (given, label) and given != label'),
    ('no label taken for another', 'given is not None and given != label', 'given != label'),
    ('labels on ends unchecked', 'raise Refused(17, record)', 'pass'),
    ('a block of one result adds a type', 'and not is_short(operands[1]):', ':'),
    ('a block of no result adds a type', 'len(use.results) <= 1', 'len(use.results) == 1'),
    ('a block of two results is short', 'len(use.results) <= 1', 'len(use.results) <= 2'),
    ('an indexed block is short', 'return use.index is None and not', 'return not'),
    ('a block type number unsigned', 'signed(self.assembler.type_number(record, use), 33)',
     'groups(self.assembler.type_number(record, use))'),
    ('a block type number in 32 bits', 'type_number(record, use), 33)', 'type_number(record, use), 32)'),
    ('the last equal signature', 'self.first_of.setdefault(one, len(self.types))',
     'self.first_of[one] = len(self.types)'),
    ('declared types where they stand',
     '        for _, field in self.fields:\n'
     '            if type(field) is Type:\n'
     '                self.add_type(field.signature)\n'
     '        for record, field in self.fields:\n'
     '            if type(field) is Import',
     '        for record, field in self.fields:\n'
     '            if type(field) is Type:\n'
     '                self.add_type(field.signature)\n'
     '            elif type(field) is Import'),
    ('a body before its function',
     '                self.see(record, field.use)\n                for at, opcode, operands in field.body:',
     '                field = field._replace(body=field.body + [(record, 0x11, (None, field.use))])\n'
     '                for at, opcode, operands in field.body:'),
    ('call_indirect adds no type', 'if opcode == 0x11:\n                        self.see',
     'if False:\n                        self.see'),
    ('results do not tell types apart', 'value_type in use.parameters), use.results',
     'value_type in use.parameters), use.results[:1]'),
    ('a 256th type refused', 'len(self.types) == TYPES', 'len(self.types) == TYPES - 1'),
    ('a 257th type added', 'len(self.types) == TYPES', 'len(self.types) == TYPES + 1'),
    ('15 among the declared types', 'number >= len(self.types):\n                raise',
     'number >= sum(type(field) is Type for _, field in self.fields):\n                raise'),
    ('15 one late', 'number >= len(self.types):\n                raise Refused(15',
     'number > len(self.types):\n                raise Refused(15'),
    ('16 over parameters and results in one row', 'self.types[number] != signature(use)',
     "b''.join(self.types[number]) != b''.join(signature(use))"),
    ('16 over parameters alone', 'self.types[number] != signature(use)',
     'self.types[number][0] != signature(use)[0]'),
    ('16 unchecked', 'raise Refused(16, record)', 'pass'),
    ('an index out of range refused without an inline type',
     'if use.parameters or use.results:\n            if number',
     'if True:\n            if number'),
    ('12 before 11', 'self.import_order()\n        self.intern()', 'self.intern()\n        self.import_order()'),
    ('13 before 12', 'self.intern()\n        self.register()', 'self.register()\n        self.intern()'),
    ('13 before 11', 'self.import_order()\n        self.intern()\n        self.register()',
     'self.register()\n        self.import_order()\n        self.intern()'),
    ('an import after a memory', 'OWN_ITEMS = (Func, Table, Memory, Global)', 'OWN_ITEMS = (Func, Table, Global)'),
    ('an import after a global', 'OWN_ITEMS = (Func, Table, Memory, Global)', 'OWN_ITEMS = (Func, Table, Memory)'),
    ('an import after a segment refused', 'OWN_ITEMS = (Func, Table, Memory, Global)',
     'OWN_ITEMS = (Func, Table, Memory, Global, Elem)'),
    ('segments without names', 'if field.identifier is not None:\n',
     'if field.identifier is not None and space < ELEM:\n'),
    ('the later of two names', 'raise Refused(13, record, self.holders[space][field.identifier])', 'pass'),
    ('the later record told as first', 'Refused(13, record, self.holders[space][field.identifier])',
     'Refused(13, record)'),
    ('the first item told by its number', 'self.holders[space][field.identifier] = record',
     'self.holders[space][field.identifier] = self.counts[space]'),
    ('the first holder in any space', 'self.holders[space][field.identifier])',
     'min(holders[field.identifier] for holders in self.holders if field.identifier in holders))'),
    ('the last holder in any space', 'self.holders[space][field.identifier])',
     'max(holders[field.identifier] for holders in self.holders if field.identifier in holders))'),
    ('the first of all items told as first', 'self.holders[space][field.identifier])',
     'min(self.holders[space].values()))'),
    ('two locals told as record 0', 'raise Refused(13, record)\n                names[name]',
     'raise Refused(13, record, 0)\n                names[name]'),
    ('two locals told where the first function is', 'raise Refused(13, record)\n                names[name]',
     'raise Refused(13, record, next(at for at, one in self.fields if type(one) is Func))\n'
     '                names[name]'),
    ('one space for tables and memories',
     'self.names[space][field.identifier] = self.counts[space]',
     'self.names[space][field.identifier] = self.counts[space]\n'
     '                self.names[MEMORY].setdefault(field.identifier, 0)'),
    ('a missing name is 0', 'return self.resolved(record, index, self.names[space], count)',
     'return self.resolved(record, index, {index: 0, **self.names[space]}, count)'),
    ('a missing local is 0', 'resolved(record, index, self.names, self.variables)',
     'resolved(record, index, {index: 0, **self.names}, self.variables)'),
    ('locals may be named twice', 'raise Refused(13, record)\n                names[name]',
     'pass\n                names[name]'),
    ('locals before the type use',
     'number = self.type_number(record, field.use)\n            variables',
     'self.local_names(record, self.variables(field, 0))\n'
     '            number = self.type_number(record, field.use)\n'
     '            variables'),
    ('the type before the table',
     '            table = number(record, TABLE, given[0])\n            return',
     '            self.assembler.type_number(record, given[1])\n'
     '            table = number(record, TABLE, given[0])\n'
     '            return'),
    ('type and table of call_indirect the other way round',
     'return groups(self.assembler.type_number(record, given[1])) + groups(table)',
     'return groups(table) + groups(self.assembler.type_number(record, given[1]))'),
    ('ref.func among globals',
     'opcode == 0x10 or opcode == 0xD2:\n            return groups(number(record, FUNC',
     'opcode == 0x10 or opcode == 0xD2:\n            return groups(number(record, GLOBAL if opcode == 0xD2 else FUNC'),
    ('exports backwards', 'for name in self.many(self.text)', 'for name in reversed(self.many(self.text))'),
    ('an export of the item before', 'self.put(Export(name, kind, number))',
     'self.put(Export(name, kind, max(number - 1, 0)))'),
    ('naming table 0 takes form 0', 'if index is None:\n            return', 'if not table:\n            return'),
    ('naming memory 0 takes form 2', "form = b'\\x00' if memory == 0", "form = b'\\x00' if field.place[0] is None"),
    ('an inline segment at an i32 offset always', '(1 if is64 else 0, 0)', '(0, 0)'),
    ('pages rounded down', '(len(data) + 65536 - 1) // 65536', 'len(data) // 65536'),
    ('pages rounded up one more', '(len(data) + 65536 - 1) // 65536', '(len(data) + 65536) // 65536'),
    ('an inline table as large as its first group', 'Limits(is64 | 1, len(functions), len(functions))',
     'Limits(is64 | 1, len(functions), 127 & len(functions))'),
    ('locals one by one', 'runs[-1][1] == value_type', 'False'),
    ('64 in one signed group', 'not -64 <= value < 64', 'not -64 <= value <= 64'),
    ('-65 in one signed group', 'not -64 <= value < 64', 'not -65 <= value < 64'),
    ('63 in two signed groups', 'not -64 <= value < 64', 'not -64 <= value < 63'),
    ('i32 constants unsigned', 'return signed(given, 32)', 'return groups(given)'),
    ('i64 constants of 32 bits', 'return signed(given, 64)', 'return signed(given & 0xFFFFFFFF, 32)'),
    ('an exponent', 'NATURAL = (2, 3, 2, 3, 0, 0, 1, 1', 'NATURAL = (2, 3, 2, 3, 0, 0, 1, 0'),
    ('the last exponent', '0, 1, 0, 1, 2)', '0, 1, 0, 1, 3)'),
    ('an alignment byte not lessened', 'else alignment - 1', 'else alignment'),
    ('a memory index wherever one is given', 'if memory == 0:\n                return groups(exponent)',
     'if index is None:\n                return groups(exponent)'),
    ('40 not set', 'groups(exponent + 64)', 'groups(exponent)'),
    ('offset before memory', 'groups(memory) + groups(offset)', 'groups(offset) + groups(memory)'),
    ('memory.size without its memory', 'return groups(number(record, MEMORY, given))', "return b'\\0'"),
    ('br_table counts its default', 'groups(len(given) - 1)', 'groups(len(given))'),
    ('the start section as a list', 'entries[0] if number in (8, 12) else', 'entries[0] if number == 12 else'),
    ('empty sections written', 'if entries:', 'if entries or number == 3:'),
    ('destination and source swapped', 'in zip(BULK_SPACES[second], indices))',
     'in zip(BULK_SPACES[second], indices[::-1] if second == COPY else indices))'),
    ('memory.init with its memory first', 'in zip(BULK_SPACES[second], indices))',
     'in list(zip(BULK_SPACES[second], indices))[::1 - 2 * (second == INIT)])'),
    ('the last memory of two is 0', 'in zip(BULK_SPACES[second], indices))',
     'in zip(BULK_SPACES[second], indices[:1] + [None]))'),
    ('a data name looked up among the memories', '{INIT: (DATA, MEMORY), DROP: (DATA,)',
     '{INIT: (MEMORY, MEMORY), DROP: (MEMORY,)'),
    ('a data name looked up among the element segments', '{INIT: (DATA, MEMORY), DROP: (DATA,)',
     '{INIT: (ELEM, MEMORY), DROP: (ELEM,)'),
    ('section 12 after section 10', '9, 12, 10, 11)', '9, 10, 12, 11)'),
    ('section 12 in its number\'s place', '9, 12, 10, 11)', '9, 10, 11, 12)'),
    ('section 12 for memory.copy alone', 'operands[0] in (INIT, DROP)', 'operands[0] in (INIT, DROP, COPY)'),
    ('section 12 for memory.fill alone', 'operands[0] in (INIT, DROP)', 'operands[0] in (INIT, DROP, FILL)'),
    ('no section 12 for memory.init', 'operands[0] in (INIT, DROP)', 'operands[0] == DROP'),
    ('no section 12 for data.drop', 'operands[0] in (INIT, DROP)', 'operands[0] == INIT'),
    ('section 12 wherever there is data', 'for _, opcode, operands in field.body):',
     'for _, opcode, operands in field.body) or self.counts[DATA]:'),
    ('no section 12 without data', 'for _, opcode, operands in field.body):',
     'for _, opcode, operands in field.body) and self.counts[DATA]:'),
    ('section 12 by the last function alone', 'sections[10].append(sized(code))',
     'sections[10].append(sized(code))\n            sections[12] = []'),
    ('section 12 counts the data before it', 'groups(self.counts[DATA])', 'groups(len(sections[11]))'),
    ('section 12 counts the data with names', 'groups(self.counts[DATA])', 'groups(len(self.names[DATA]))'),
    ('section 12 counts the memories', 'groups(self.counts[DATA])', 'groups(self.counts[MEMORY])'),
    ('section 12 as a list', 'entries[0] if number in (8, 12) else', 'entries[0] if number == 8 else'),
    ('an operator before its operands', 'return before + [operator]', 'return [operator] + before'),
    ('operands from right to left', 'before += self.folded()', 'before = self.folded() + before'),
    ('an operator after its first operand', 'return before + [operator]',
     'return [before[0], operator] + before[1:] if len(before) == 2 else before + [operator]'),
    ('an operator at the record of its last operand', 'return before + [operator]',
     'return before + [(self.record,) + operator[1:]]'),
    ('operands at the record of their operator', 'before += self.folded()',
     'before += [(record,) + one[1:] for one in self.folded()]'),
    ('a record numbered in flat order', 'if opcode == 0xFF:\n                return body',
     'if opcode == 0xFF:\n'
     '                return [(self.record - len(body) + at,) + one[1:] for at, one in enumerate(body)]'),
    ('a type added in stream order', 'for at, opcode, operands in field.body:',
     'for at, opcode, operands in sorted(field.body, key=lambda one: one[0]):'),
    ('resolved in stream order', *RESOLVED),
    ('the output one too long', 'len(module) > room', 'len(module) > room + 1'),
    ('the output one too short', 'len(module) > room', 'len(module) >= room'),
    ('a work area one too short', 'work < WORK:', 'work < WORK - 1:'),
]

# The same in reading_model.py: each ceiling one too high and one too low, and
READING = [
    ('padded numbers read', 'if group == 0 and shift > 0:', 'if False:'),
    ('padded numbers too large', 'raise Refused(19)', 'raise Refused(3)'),
    ('a last group of 0 with more before it refused early', 'if group == 0 and shift > 0:',
     'if group & 0x7F == 0 and shift > 0:'),
    ('a u32 of 33 bits', 'group >= 1 << bits_left', 'group >= 1 << bits_left + 1'),
    ('an empty name in an index', 'raise Refused(5)\n            self.text', 'pass\n            self.text'),
    ('FF with a block open', 'if self.open_blocks:\n                    raise Refused(8)',
     'if False:\n                    raise Refused(8)'),
    ('an else in any open block', 'not self.open_blocks or not self.open_blocks[-1]', 'not self.open_blocks'),
    ('an else in a loop', 'append(opcode == IF)', 'append(opcode != BLOCK)'),
    ('an else in a block', 'append(opcode == IF)', 'append(opcode != LOOP)'),
    ('a second else', 'self.open_blocks[-1] = False', 'pass'),
    ('the else of an outer if', 'not self.open_blocks[-1]', 'not any(self.open_blocks)'),
    ('no else after the end of an inner block', 'self.open_blocks.pop()',
     'self.open_blocks.pop()\n            self.open_blocks = [False] * len(self.open_blocks)'),
    ('an else again after the end of an inner block', 'self.open_blocks.pop()',
     'self.open_blocks[-2:] = [True] * (len(self.open_blocks) > 1)'),
    ('only 64 marks of blocks', 'append(opcode == IF)', 'append(opcode == IF and len(self.open_blocks) < 64)'),
    ('an else at the record after', 'if not self.open_blocks or not self.open_blocks[-1]:\n                raise',
     'if not self.open_blocks or not self.open_blocks[-1]:\n                self.record += 1\n                raise'),
    ("data.drop's index optional", "0x09: ('data',)", "0x09: ('memory',)"),
    ("memory.init's data index optional", "0x08: ('data', 'memory')", "0x08: ('memory', 'memory')"),
    ("memory.init's memory index needed", "0x08: ('data', 'memory')", "0x08: ('data', 'data')"),
    ('memory.init with its memory first', "0x08: ('data', 'memory')", "0x08: ('memory', 'data')"),
    ("memory.copy's destination needed", "0x0A: ('memory', 'memory')", "0x0A: ('data', 'memory')"),
    ("memory.copy's source needed", "0x0A: ('memory', 'memory')", "0x0A: ('memory', 'data')"),
    ('memory.copy with one index', "0x0A: ('memory', 'memory')", "0x0A: ('memory',)"),
    ("memory.fill's memory index needed", "0x0B: ('memory',)", "0x0B: ('data',)"),
    ('memory.fill without an index', "0x0B: ('memory',)", '0x0B: ()'),
    ('the second byte of bulk memory as a number', 'for space in BULK_INDICES[self.one_of(BULK_INDICES)]:',
     'second = self.u32()\n'
     '            if second not in BULK_INDICES:\n'
     '                raise Refused(4)\n'
     '            for space in BULK_INDICES[second]:'),
    ('nesting counted over all operands', 'self.folded(nesting + 1)', 'nesting += 1\n            self.folded(nesting)'),
    ('no end of nesting', 'self.folded(nesting + 1)', 'self.folded(nesting)'),
    ('33 deep told at its operator', 'count = self.up_to(OPERANDS)\n',
     'count = self.up_to(OPERANDS)\n        if count and nesting == NESTING:\n            raise Refused(7)\n'),
    ('the count before the operator', 'self.instruction(self.one_of(FOLDABLE))\n        count = self.up_to(OPERANDS)',
     'count = self.up_to(OPERANDS)\n        self.instruction(self.one_of(FOLDABLE))'),
    ('a count past 16 at the next record', 'count = self.up_to(OPERANDS)\n        self.record += 1',
     'self.record += 1\n        count = self.up_to(OPERANDS)'),
    ('F0 folded', 'self.one_of(FOLDABLE)', 'self.one_of(FOLDABLE + bytes([FOLDED]))'),
    ('FF folded', 'self.one_of(FOLDABLE)', 'self.one_of(FOLDABLE + bytes([BODY_END]))'),
    ('a barred operator at the next record', 'self.instruction(self.one_of(FOLDABLE))',
     'self.record += self.at < len(self.stream) and self.stream[self.at] not in FOLDABLE\n'
     '        self.instruction(self.one_of(FOLDABLE))'),
    ('an operand without F0', 'self.begin(bytes([FOLDED]))\n            self.folded(nesting + 1)',
     'first = self.begin(OPCODES + bytes([FOLDED]))\n'
     '            if first == FOLDED:\n'
     '                self.folded(nesting + 1)\n'
     '            else:\n'
     '                self.instruction(first)\n'
     '                self.record += 1'),
    ('FF where an operand is due told as 8', 'self.begin(bytes([FOLDED]))\n',
     'if self.begin(bytes([FOLDED, BODY_END])) == BODY_END:\n                raise Refused(8)\n'),
    ('what is due told at its operator',
     'self.record += 1\n        for _ in range(count):\n'
     '            self.begin(bytes([FOLDED]))\n            self.folded(nesting + 1)\n',
     'for _ in range(count):\n'
     '            self.begin(bytes([FOLDED]))\n            self.folded(nesting + 1)\n        self.record += 1\n'),
    ('operands past 4,096 records', 'self.begin(bytes([FOLDED]))', 'self.one_of(bytes([FOLDED]))'),
    ('an operand too many before its byte', 'self.begin(bytes([FOLDED]))',
     'if self.record == RECORDS and self.at < len(self.stream):\n'
     '                raise Refused(7)\n            self.begin(bytes([FOLDED]))'),
    ('a second start', 'raise Refused(9)', 'pass'),
    ('the end of a body at the record before', 'self.record += 1\n        if has_body',
     'if not has_body:\n            self.record += 1\n        if has_body'),
    ('a comma in an identifier', '"!#$%&', '"!,#$%&'),
    ('7F in a string', 'range(0x20, 0x7F)', 'range(0x20, 0x80)'),
]
CEILINGS = ('STREAM = 65536', 'RECORDS = 4096', 'ITEMS = 256', 'PARAMETERS = 64', 'RESULTS = 16', 'LOCALS = 64',
            'OPEN_BLOCKS = 128', 'FUNCTIONS = 1024', 'LABELS = 1024', 'EXPORTS = 8', 'IDENTIFIER = 64', 'STRING = 255',
            'ALIGNMENT = 32', 'OPERANDS = 16', 'NESTING = 32')
for ceiling in CEILINGS:
    name, value = ceiling.split(' = ')
    for other in (int(value) - 1, int(value) + 1):
        READING.append(('%s %d' % (name.lower().replace('_', ' '), other), '\n' + ceiling, '\n%s = %d' % (name, other)))

# Each instruction that may not be folded, folded; and some that may, not.
BARRED = ['BLOCK', 'LOOP', 'IF', 'ELSE', 'END']
for what, others in [(one.lower() + ' folded', [other for other in BARRED if other != one]) for one in BARRED] + [
        ('call_indirect not folded', BARRED + ['0x11']), ('bulk memory not folded', BARRED + ['BULK']),
        ('branches not folded', BARRED + ['0x0C', '0x0D', '0x0E'])]:
    READING.append((what, 'not in (%s))' % ', '.join(BARRED), 'not in (%s))' % ', '.join(others)))

# Of the strict call, in model.py.
COUNT = 'count = len(self.types) if space == TYPE else self.counts[space]'
NUMBER_20 = 'if self.strict and number >= count:'
STRICT = [
    ('at most the count', NUMBER_20, 'if self.strict and number > count:'),
    ('one below the count refused', NUMBER_20, 'if self.strict and number + 1 >= count:'),
    ('absent indices unchecked', NUMBER_20, 'if self.strict and index is not None and number >= count:'),
    ('numbers checked as 31 bits', NUMBER_20, 'if self.strict and number % 2**31 >= count:'),
    ('numbers checked as a byte', NUMBER_20, 'if self.strict and number % 256 >= count:'),
    ('names checked alone', NUMBER_20, 'if False:'),
    ('20 told as 14', 'raise Refused(20, record)', 'raise Refused(14, record)'),
    ('20 told as 15', 'raise Refused(20, record)', 'raise Refused(15, record)'),
    ('20 at the record after', 'raise Refused(20, record)', 'raise Refused(20, record + 1)'),
    ('a label equal to the open blocks refused', 'len(self.labels) + 1)', 'len(self.labels))'),
    ('a label one beyond', 'len(self.labels) + 1)', 'len(self.labels) + 2)'),
    ('only named blocks checked', 'len(self.labels) + 1)', 'len(depths) + 1)'),
    ('locals alone', 'Body(self, names, len(variables))', 'Body(self, names, len(field.locals))'),
    ('parameters alone', 'Body(self, names, len(variables))',
     'Body(self, names, len(variables) - len(field.locals))'),
    ('named locals alone', 'Body(self, names, len(variables))', 'Body(self, names, len(names))'),
    ('inline parameters alone', 'Body(self, names, len(variables))',
     'Body(self, names, len(field.use.parameters) + len(field.locals))'),
    ('declared types alone', COUNT, 'count = self.counts[space]'),
    ('own items alone', COUNT,
     COUNT + ' - sum(type(one) is Import and one.kind == space for _, one in self.fields)'),
    ('imported items alone', COUNT, COUNT.replace(
        'self.counts[space]', '(sum(type(one) is Import and one.kind == space for _, one in self.fields)\n'
        '                                                             if space < TYPE else self.counts[space])')),
    ('numbers resolved in stream order', *RESOLVED),
    ('named items alone', COUNT, COUNT.replace('self.counts[space]', 'len(self.names[space])')),
    ('data segments among the memories', COUNT, COUNT.replace('[space]', '[MEMORY if space == DATA else space]')),
    ('items so far', COUNT, 'count = len(self.types) if space == TYPE else sum(\n'
     '            at <= record and space == (one.kind if type(one) is Import else SPACE_OF.get(type(one)))\n'
     '            for at, one in self.fields)'),
    ('15 before 20', 'number = self.number(record, TYPE, use.index)',
     'number = (use.index if isinstance(use.index, int) and (use.parameters or use.results)\n'
     '                  else self.number(record, TYPE, use.index))'),
    ('an index without an inline type unchecked', 'number = self.number(record, TYPE, use.index)',
     'number = (use.index if isinstance(use.index, int) and not use.parameters and not use.results\n'
     '                  else self.number(record, TYPE, use.index))'),
    ("br_table's default first", "groups(len(given) - 1) + b''.join(",
     "self.depth(record, given[-1])[:0] + groups(len(given) - 1) + b''.join("),
    ('the type before the table, strictly', 'table = number(record, TABLE, given[0])',
     'table = (self.assembler.type_number(record, given[1]), number(record, TABLE, given[0]))[1]'),
    ('13 of locals before 20 of the type use', 'number = self.type_number(record, field.use)\n            variables',
     'self.local_names(record, self.variables(field, 0))\n'
     '            number = self.type_number(record, field.use)\n            variables'),
]
# Two indices of bulk memory resolved the other way round.
for what, name in (('the source before the destination', 'COPY'), ('the memory before the data', 'INIT')):
    STRICT.append((what, 'second, indices = given\n',
                   'second, indices = given\n'
                   '            for one in list(zip(BULK_SPACES[second], indices))[::-1] if second == %s else ():\n'
                   '                number(record, *one)\n' % name))
# One sort of use unchecked: (what, the call, its index).
for what, call, index in (
        ('exports', 'self.number(record, field.kind, field.index)', 'field.index'),
        ('start', 'self.number(record, FUNC, field.index)', 'field.index'),
        ('constants', 'self.number(record, GLOBAL if kind == 4 else FUNC, value)', 'value'),
        ("a segment's functions", 'self.number(record, FUNC, index)', 'index'),
        ("an element segment's table", 'self.number(record, TABLE, index)', 'index'),
        ("a data segment's memory", 'self.number(record, MEMORY, field.place[0])', 'field.place[0]'),
        ('call and ref.func', 'number(record, FUNC, given)', 'given'),
        ('the table of call_indirect', 'number(record, TABLE, given[0])', 'given[0]'),
        ('global.get and global.set', 'number(record, GLOBAL, given)', 'given'),
        ('loads and stores', 'number(record, MEMORY, index)', 'index'),
        ('memory.size and memory.grow', 'number(record, MEMORY, given)', 'given'),
        ('bulk memory', 'number(record, space, index)', 'index'),
        ('labels', 'self.assembler.resolved(record, index, depths, len(self.labels) + 1)', 'index'),
        ('locals', 'self.assembler.resolved(record, index, self.names, self.variables)', 'index')):
    STRICT.append((what + ' unchecked', call, '(%s if isinstance(%s, int) else %s)' % (index, index, call)))
for what, call, index in (
        ("an element segment's absent table", 'self.number(record, TABLE, index)', 'index'),
        ("a data segment's absent memory", 'self.number(record, MEMORY, field.place[0])', 'field.place[0]'),
        ('the absent table of call_indirect', 'number(record, TABLE, given[0])', 'given[0]'),
        ('the absent memory of loads and stores', 'number(record, MEMORY, index)', 'index'),
        ('the absent memory of memory.size and memory.grow', 'number(record, MEMORY, given)', 'given'),
        ('the absent memory of bulk memory', 'number(record, space, index)', 'index')):
    STRICT.append((what + ' unchecked', call, '(0 if %s is None else %s)' % (index, call)))
STRICT_SLIPS = [('model.py',) + slip for slip in STRICT]

SLIPS = [('model.py',) + slip for slip in MODEL] + [('reading_model.py',) + slip for slip in READING]


def text_of(file):
    """A module of the models as it stands."""
    with open(os.path.join(paths.TOOLS, 'models', file)) as opened:
        return opened.read()


def edited(file, old, new):
    """A module's text with one edit, which must fit at one place."""
    text = text_of(file)
    assert text.count(old) == 1, 'fits %d times in %s: %s' % (text.count(old), file, old)
    return text.replace(old, new)


def load(name, text):
    """A module from its text."""
    module = types.ModuleType(name)
    exec(compile(text, name, 'exec'), module.__dict__)
    return module


def with_slip(file, old, new):
    """The model with the slip."""
    text = edited(file, old, new)
    if file == 'model.py':
        return load('model_with_slip', text)
    right = sys.modules['reading_model']
    try:
        sys.modules['reading_model'] = load('reading_model', text)
        return load('model_with_slip', text_of('model.py'))
    finally:
        sys.modules['reading_model'] = right


def answer(module, stream, work, room, **call):
    """What the model says, or that it stumbled."""
    try:
        return module.assemble(stream, work, room, **call)
    except Exception as error:          # a slip may also make it stumble
        return 'stumbled', repr(error)


def cases(seed, count, shares=SHARES, **call):
    """(stream, words, bytes, the right answer), sorts mixed; lent a little
    less than is needed, or just enough, now and then."""
    numbers = dict.fromkeys(generate.SORTS, 0)
    chance = generate.random.Random(seed)
    names, weights = zip(*shares)
    for sort in chance.choices(names, weights, k=count):
        stream = generate.stream(sort, seed, numbers[sort])
        numbers[sort] += 1
        work, room = chance.choice((16384,) * 30 + (16383,)), chance.choice(ROOMS)
        right = model.assemble(stream, work, room, **call)
        if right[0] == 'ok' and chance.random() < 0.1:
            room = len(right[1]) - chance.randrange(2)
            right = model.assemble(stream, work, room, **call)
        yield stream, work, room, right


def main():
    parser = argparse.ArgumentParser(description=__doc__, formatter_class=argparse.RawDescriptionHelpFormatter)
    parser.add_argument('--streams', type=int, default=20000, metavar='N')
    parser.add_argument('--seed', type=int, default=1)
    parser.add_argument('--shrink', action='store_true')
    options = parser.parse_args()
    unseen = (gone_through(SLIPS, list(cases(options.seed, options.streams)), options)
              + gone_through(STRICT_SLIPS, list(cases(options.seed, options.streams, STRICT_SHARES, strict=True)),
                             options, strict=True))
    print('%d slips, %d not seen in %d streams, seed %d'
          % (len(SLIPS) + len(STRICT_SLIPS), unseen, options.streams, options.seed))
    sys.exit(1 if unseen else 0)


def gone_through(some, known, options, **call):
    """A line for each slip; how many the streams do not show."""
    unseen = 0
    for file, what, old, new in some:
        slipped = with_slip(file, old, new)
        for number, (stream, work, room, right) in enumerate(known, 1):
            if answer(slipped, stream, work, room, **call) != right:
                break
        else:
            unseen += 1
            print('NOT SEEN in %d streams: %s' % (len(known), what), flush=True)
            continue
        shown = ''
        if options.shrink:
            wrong = lambda some: [one for one in some if answer(slipped, one, work, room, **call)
                                  != model.assemble(one, work, room, **call)]
            shown = ': ' + (shrink.smaller(stream, wrong).hex(' ').upper()[:300] or '-')
        print('%6d  %s%s' % (number, what, shown), flush=True)
    return unseen


if __name__ == '__main__':
    main()
