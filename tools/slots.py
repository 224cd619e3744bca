#!/usr/bin/env python3
"""Prints the order in which the members of each kind's object are written, from the table of kinds (kinds.py).

usage: slots.py CRATES

Written is the table of `es_writing/src/slots.rt`, below the line `// ---- the table`. `rt fmt` lays it out; the gate proves that
each row is the members of its kind in the order of their bytes.
"""
import os
import sys

from kinds import *

FIXED = [('type', 'Type'), ('node', 'Number'), ('start', 'Start'), ('end', 'End')]
LITERAL_SLOTS = [('value', 'Value'), ('raw', 'Raw'), ('bigint', 'BigInt'), ('regex', 'RegExp')]
MORE = {'UnaryExpression': [('prefix', 'Prefix')], 'ArrowFunctionExpression': [('expression', 'Expression')]}
OWN = {'Literal': LITERAL_SLOTS, 'TemplateElement': [('value', 'Strings'), ('tail', 'Tail')], 'Foreign': []}
LISTS = [('generated', 'Generated'), ('warnings', 'Warnings'), ('outside', 'Outside')]
MARK = '// ---- the table\n'


def in_order(slots): return '&[' + ', '.join('Slot::' + slot for _, slot in sorted(slots, key=lambda s: s[0].encode())) + ']'


def slots_of(kind, members):
    row = OWN.get(kind, [(m[0], f'At({i})') for i, m in enumerate(members)])
    return FIXED + row + MORE.get(kind, [])


rows = [(kind, slots_of(kind, row[-1])) for row in ROWS.values() for kind in row[1]]
program = next(slots for kind, slots in rows if kind == 'Program')
table = f'''
/// The members of the object of a node of this kind, in the order of their bytes.
pub fn slots(kind: Kind) -> &'static [Slot]
    ensures {{ result.now ≡ slots_of kind }}
{{
    match kind {{
''' + ''.join(f'        Kind::{kind} => {in_order(slots)},\n' for kind, slots in rows) + f'''    }}
}}

/// The members of the object of a lowered program.
pub fn program_slots() -> &'static [Slot]
    ensures {{ result.now ≡ program_slots }}
{{
    {in_order(program + LISTS)}
}}
'''
path = os.path.join(sys.argv[1], 'es_writing', 'src', 'slots.rt')
with open(path) as f:
    head = f.read().split(MARK)[0]
with open(path, 'w') as f:
    f.write(head + MARK + table)
