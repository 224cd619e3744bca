"""Where the printed files go, and how they begin."""
import os
import re
import sys

CRATES = sys.argv[1]
BASE, NODE, LAYER = 'es_base', 'es_node', 'es_tree'


def snake(name): return re.sub(r'(?<!^)(?=[A-Z])', '_', name).lower()


def code_head(what): return f'// Printed by tools/tree.py from tools/kinds.py.\n// {what}\n'


def spec_head(what): return f'-- Printed by tools/tree.py from tools/kinds.py.\n-- {what}\n'


def write(path, content, crate):
    path = os.path.join(CRATES, crate, path)
    os.makedirs(os.path.dirname(path), exist_ok=True)
    with open(path, 'w') as f:
        f.write(content)
