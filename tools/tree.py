#!/usr/bin/env python3
"""Prints the repetitive parts of the crates of the tree from the table of kinds (kinds.py).

usage: tree.py CRATES

CRATES is the folder of the crates. Written are
- in `es_base` the kinds, the words and the table (src/kind.rt, operator.rt, word.rt, table.rt, specs/Table.antt, Words.antt,
  proofs/WordLemmas.antt);
- in `es_node` how parts are read, taken apart and put together (src/parts.rt, room.rt);
- in `es_expression`, `es_declaration`, `es_statement` and `es_tree` the typed layer: a module for each of kinds.py's, with the
  trees by their members in specs.
`rt fmt` lays them out; the gate proves them.
"""
from print_layer import write_layer
from print_parts import write_parts, write_room
from print_table import KINDS, write_table

write_table()
write_parts()
write_room()
write_layer()
print(len(KINDS), 'kinds')
