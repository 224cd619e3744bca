"""Prints the typed layer over `Node`: for each kind its tree by its members (specs), a struct of them, owned and borrowed,
and a maker (code)."""
import re
from files import BASE, LAYER, NODE, code_head, snake, spec_head, write
from kinds import FIXED_WORDS, ROWS, WORDS
from print_parts import NUMBERS, SHAPES

WIDTH, NO_BREAK = 100, '\u00a0'

# module of kinds.py: (its crate, what its file has)
MODULES = {
    'program': (LAYER, 'The root.'),
    'foreign': (LAYER, 'What the trees here do not describe.'),
    'expression': ('es_expression', 'Expressions.'),
    'identifier': ('es_expression', 'Identifiers.'),
    'literal': ('es_expression', 'Literals.'),
    'class': ('es_declaration', 'Classes and their elements.'),
    'function': ('es_declaration', 'Functions.'),
    'pattern': ('es_declaration', 'Patterns that declare, and patterns that are assigned to.'),
    'module': ('es_declaration', 'Imports and exports.'),
    'statement': ('es_statement', 'Statements.'),
}
# sort of a member: the name of its shape in `es_node`
SHAPE_OF = {
    'Child': 'child', 'Key': 'child', 'Nullable': 'nullable', 'List': 'list', 'NonEmptyList': 'list', 'ListWithHoles': 'list_with_holes',
    'Name': 'string', 'Raw': 'string', 'Type': 'string', 'NullableString': 'nullable_string', 'Cooked': 'nullable_string',
    'Boolean': 'boolean', 'Literal': 'literal',
}
# shape: (its type in specs, its part in code)
PARTS = {
    'child': ('Tree', 'Part::Child({})'), 'nullable': ('Option Tree', 'nullable_part({})'),
    'list': ('List Tree', 'Part::List({})'), 'list_with_holes': ('List (Option Tree)', 'Part::Holes({})'),
    'string': ('List ℕ', 'Part::String({})'), 'nullable_string': ('Option (List ℕ)', 'nullable_string_part({})'),
    'boolean': ('Bool', 'Part::Boolean({})'), 'literal': ('LiteralValue', 'Part::Literal({})'),
}


class Member:
    """A member: how it is read (`as_..` and `into_..` of `Part`), what holds it, and its part in specs and in code."""

    def __init__(self, estree, field, sort):
        self.is_field, self.name = field is not None, field or estree
        if sort[0] == 'Word':
            word = sort[1]
            self.method, self.owned, self.borrowed, self.spec_type = snake(word), word, word, word
            self.spec_part, self.code_part = f'string ({snake(word)}_string {{}})', f'Part::Word(Word::{word}({{}}))'
        elif sort[0] == 'Only':
            word = sort[1]
            self.method, self.spec_part, self.code_part = snake(word), f'string (codes "{FIXED_WORDS[word][0]}")', f'Part::Word(Word::{word})'
        elif sort[0] == 'False':
            self.method, self.spec_part, self.code_part = 'false', 'boolean false', 'Part::Boolean(false)'
        else:
            self.method = SHAPE_OF[sort[0]]
            _, lent, self.owned, tree, _, _ = SHAPES[self.method]
            self.borrowed = lent.replace('&', "&'a ")
            self.spec_part = tree.replace('literal', 'literal_part')
            self.spec_type, self.code_part = PARTS[self.method]

    def seen(self, value):
        """what the borrowed member is to a contract"""
        if self.borrowed.startswith('&'): return f'{value}.now'
        return unbroken(f'(option_map (λ x. x.now) {value})') if '&' in self.borrowed else value


class NodeKind:
    """A kind with its members."""

    def __init__(self, kind, row):
        self.kind, self.name, self.ref = kind, snake(kind), f'{kind}Ref'
        _, self.kinds, bears, self.doc, members = row
        self.id, self.id_type = bears or (None, None)
        self.members = [Member(*m) for m in members]
        self.fields = [m for m in self.members if m.is_field]
        self.count = NUMBERS[len(members)]
        # a program has the numbers of its foreign nodes beside its tree
        self.has_foreign = kind == 'Program'

    def number(self): return self.id.replace('_id', '_number')

    def tree(self, value, seen=lambda m, x: x):
        """the tree of a struct's value"""
        semantic_id = [unbroken(f'({self.number()} {value}.{self.id})')] if self.id else []
        return ' '.join([self.name, f'{value}.node_id.0', unbroken(f'(span_of {value}.span)')] + semantic_id + [seen(m, f'{value}.{m.name}') for m in self.fields])

    def seen_tree(self, value): return self.tree(value, Member.seen)


def unbroken(text): return text.replace(' ', NO_BREAK)


def wrapped(text, indent, deeper):
    """the text in lines of at most WIDTH characters"""
    lines = [indent]
    for piece in text.split(' '):
        if len(lines[-1]) + len(piece) > WIDTH: lines.append(deeper)
        lines[-1] += piece + ' '
    return '\n'.join(line.rstrip(' ') for line in lines).replace(NO_BREAK, ' ')


def clause(name, fact, indent=' ' * 8): return wrapped(f'{unbroken(name + " { ")}{fact}{NO_BREAK}}}', indent, indent + '    ')


def documented(text): return wrapped(text, '/// ', '/// ')


def spec(node_kind):
    arguments = [('node_id', 'ℕ'), ('span', 'Option (ℕ × ℕ)')] + ([(node_kind.id, 'Option ℕ')] if node_kind.id else []) + [(m.name, m.spec_type) for m in node_kind.fields]
    parts = ''.join(unbroken(f'(more ({m.spec_part.format(m.name)})') + ' ' for m in node_kind.members) + 'end' + ')' * len(node_kind.members)
    node = f'Node Kind.{node_kind.kind} node_id span {node_kind.id or "None"} {parts}'
    return f'''
{wrapped(node_kind.doc, '-- ', '-- ')}
{wrapped(f"abbrev pub {node_kind.name} : {' → '.join(unbroken(t) for _, t in arguments)} → Tree".replace('→ ', '→' + NO_BREAK), '', '    ')}
{node_kind.name} {' '.join(n for n, _ in arguments)} =
{wrapped(node, '    ', '      ')}
'''


def clauses(node_kind, tree, foreign):
    """the clauses of a conversion: of the tree, and for a program of its foreign nodes too"""
    if not node_kind.has_foreign: return clause('ensures', tree)
    return clause('ensures tree', tree) + '\n' + clause('ensures foreign', foreign)


def struct_fields(node_kind, types, foreign):
    out = '    pub node_id: NodeId,\n    pub span: Option<Span>,\n'
    if node_kind.id: out += f'    pub {node_kind.id}: Option<{node_kind.id_type}>,\n'
    out += ''.join(f'    pub {m.name}: {t},\n' for m, t in zip(node_kind.fields, types))
    if node_kind.has_foreign: out += f'    /// The numbers of its foreign nodes.\n    pub foreign: {foreign},\n'
    return out


def owned(node_kind):
    names = ', '.join(m.name for m in node_kind.members)
    pattern = names if len(node_kind.members) == 1 else f'({names})'
    constants = ''.join(f'        {m.name}.into_{m.method}();\n' for m in node_kind.members if not m.is_field)
    semantic_id = f'{node_kind.id}: {node_kind.id}_of(contents.semantic_id), ' if node_kind.id else ''
    fields = ''.join(f'{m.name}: {m.name}.into_{m.method}(), ' for m in node_kind.fields)
    parts = ', '.join(m.code_part.format(f'self.{m.name}') for m in node_kind.members)
    node = f'Node::new(Kind::{node_kind.kind}, Contents {{ node_id: self.node_id, span: self.span, semantic_id: {f"{node_kind.number()}(self.{node_kind.id})" if node_kind.id else "None"}, parts }})'
    parameter, given, answer, result, also, back = '', '', 'Node', 'result', '', ''
    if node_kind.has_foreign:
        parameter, given, answer, result = ', foreign: List<NodeId>', 'foreign, ', '(Node, List<NodeId>)', 'result.0'
        also, back = '; `foreign` has the numbers of its foreign nodes', ', with the numbers of its foreign nodes'
        node = f'({node}, self.foreign)'
    return f'''
{documented(node_kind.doc)}
#[derive(Drop)]
pub struct {node_kind.kind} {{
{struct_fields(node_kind, [m.owned for m in node_kind.fields], 'List<NodeId>')}    emptied_parts: List<Part>,
    ghost part_count: {{ length emptied_parts ≡ {len(node_kind.members)} }},
}}

impl {node_kind.kind} {{
    /// Takes a node of this kind apart{also}.
    pub fn from_node(node: Node{parameter}) -> {node_kind.kind}
        requires {{ kind_of node ≡ Kind.{node_kind.kind} }}
{clauses(node_kind, f'node ≡ {node_kind.tree("result")}', 'result.foreign ≡ foreign')}
    {{
        let contents = node.into_contents();
        let mut emptied_parts = contents.parts;
        let {pattern} = take_{node_kind.count}(&mut emptied_parts);
{constants}        {node_kind.kind} {{ node_id: contents.node_id, span: contents.span, {semantic_id}{fields}{given}emptied_parts }}
    }}

    /// Puts the node together again{back}. Takes no memory.
    pub fn into_node(self) -> {answer}
{clauses(node_kind, f'{result} ≡ {node_kind.tree("self")}', 'result.1 ≡ self.foreign')}
    {{
        let mut parts = self.emptied_parts;
        put_{node_kind.count}(&mut parts, {parts});
        {node}
    }}
{into_expression(node_kind)}}}
'''


def into_expression(node_kind):
    """a declaration as an expression"""
    if not node_kind.kind.endswith('Declaration') or len(node_kind.kinds) != 2: return ''
    to = NodeKind(node_kind.kinds[1], (None, node_kind.kinds, (node_kind.id, node_kind.id_type), node_kind.doc, []))
    to.fields = node_kind.fields
    names = ['node_id', 'span'] + ([node_kind.id] if node_kind.id else []) + [m.name for m in node_kind.fields] + ['emptied_parts']
    return f'''
    /// The same as an expression: the kind alone changes.
    pub fn into_expression(self) -> {to.kind}
{clause('ensures', f"{to.tree('result')} {unbroken(f'≡ of_kind Kind.{to.kind}')} ({node_kind.tree('self')})")}
    {{
        {to.kind} {{ {', '.join(f'{n}: self.{n}' for n in names)} }}
    }}
'''


def borrowed(node_kind):
    names = ', '.join(m.name for m in node_kind.members)
    constants = ''.join(f'                {m.name}.as_{m.method}();\n' for m in node_kind.members if not m.is_field)
    semantic_id = f'{node_kind.id}: {node_kind.id}_of(node.semantic_id()), ' if node_kind.id else ''
    fields = ''.join(f'{m.name}: {m.name}.as_{m.method}(), ' for m in node_kind.fields)
    parameter, given = (", foreign: &'a [NodeId]", 'foreign, ') if node_kind.has_foreign else ('', '')
    value = f'{node_kind.ref} {{ node_id: node.node_id(), span: node.span(), {semantic_id}{fields}{given}}}'
    arm = f'{{\n{constants}                {value}\n            }}' if constants else value
    return f'''
/// `{node_kind.kind}`, borrowed.
#[derive(Clone, Copy)]
pub struct {node_kind.ref}<'a> {{
{struct_fields(node_kind, [m.borrowed for m in node_kind.fields], "&'a [NodeId]")}}}

impl<'a> {node_kind.ref}<'a> {{
    /// Reads a node of this kind.
    pub fn from_node(node: &'a Node{parameter}) -> {node_kind.ref}<'a>
        requires {{ kind_of node.now ≡ Kind.{node_kind.kind} }}
{clauses(node_kind, f'node.now ≡ {node_kind.seen_tree("result")}', 'result.foreign.now ≡ foreign.now')}
    {{
        match node.parts() {{
            [{names}] => {arm},
            _ => unreachable!(),
        }}
    }}
}}
'''


def maker(node_kind):
    tree = ' '.join([node_kind.name, 'unnumbered', 'None'] + (['None'] if node_kind.id else []) + [m.name for m in node_kind.fields])
    parts = ', '.join(m.code_part.format(m.name) for m in node_kind.members)
    return f'''
{documented(f'Makes a node of this kind, which has no number yet: {node_kind.doc[:1].lower() + node_kind.doc[1:]} Fails on allocation failure alone.')}
pub fn make_{node_kind.name}(alloc: Global{''.join(f', {m.name}: {m.owned}' for m in node_kind.fields)}) -> Result<Node, AllocError>
{clause('ensures', f'IfOk result (λ t. t ≡ {tree})', '    ')}
{{
    let parts = {f'vec![in alloc; {parts}]?' if parts else 'Vec::new(alloc)'};
    Ok(Node::new(Kind::{node_kind.kind}, Contents {{ node_id: NodeId::DUMMY, span: None, semantic_id: None, parts: List::from_vec(parts) }}))
}}
'''


def pattern_of(name):
    """what a name that is imported looks like where it is used"""
    return rf"\b{re.escape(name.split(' as ')[-1])}\b" if name[0].isalnum() else re.escape(name.strip('◌'))


def import_lines(body, sources, line):
    """the lines of the names that the body has"""
    out = ''
    for path, names in sources:
        used = [n for n in names if re.search(pattern_of(n), body)]
        if used: out += line(path, used)
    return out


def code_imports(body, specs_of, node_kinds):
    numbers = ['scope_number', 'symbol_number', 'reference_number']
    ghost = import_lines('\n'.join(re.findall(r'(?:requires|ensures|ghost) [^{]*\{[^}]*\}', body)), [
        ('Rattle.std.specs.Prelude', ['◌≡◌', 'IfOk', 'None', 'length', 'option_map']),
        (f'Rattle.{BASE}.specs.Carried', ['span_of'] + numbers),
        (f'Rattle.{BASE}.specs.Numbered', ['unnumbered']),
        (f'Rattle.{BASE}.specs.Tree', ['of_kind']),
        (f'Rattle.{BASE}.specs.declared.kind.Kind', ['Kind']),
        (f'Rattle.{NODE}.specs.View', ['kind_of']),
        (specs_of, [node_kind.name for node_kind in node_kinds]),
    ], lambda path, names: f'ghost use {path}.{{{", ".join(names)}}};\n')
    ids = ['NodeId', 'Span', 'ScopeId', 'SymbolId', 'ReferenceId']
    code = import_lines(body, [
        ('es_base::ids', ids), ('es_base::kind', ['Kind']), ('es_base::list', ['List']), ('es_base::literal', ['LiteralValue']), ('es_base::name', ['Name']),
        ('es_base::operator', sorted(list(WORDS) + ['Word'])), ('es_node::node', ['Contents', 'Node', 'Part']),
        ('es_node::parts', ['nullable_part', 'nullable_string_part']),
        ('es_node::room', [f'{way}_{n}' for way in ('put', 'take') for n in NUMBERS]),
        ('es_node::semantic_ids', [f'{x}_id_of' for x in ('scope', 'symbol', 'reference')] + [f'{n}(' for n in numbers]),
        ('std::alloc', ['AllocError', 'Global']),
    ], lambda path, names: f'use {path}::{{{", ".join(n.strip("(") for n in names)}}};\n')
    return ghost + '\n' + code


def spec_imports(body):
    declared = f'Rattle.{BASE}.specs.declared'
    return import_lines(body, [
        ('Rattle.std.specs.Prelude', ['ℕ', 'List', 'Bool', 'false', 'Option', 'None', 'codes']),
        (f'Rattle.{BASE}.specs.Tree', ['Tree', 'Node', 'end', 'more', 'child', 'list', 'string', 'boolean', 'literal as literal_part', 'trees', 'nullable_trees', 'nullable', 'nullable_string']),
        (f'Rattle.{BASE}.specs.Words', [f'{snake(w)}_string' for w in WORDS]),
        (f'{declared}.kind.Kind', ['Kind']), (f'{declared}.literal.LiteralValue', ['LiteralValue']),
    ] + [(f'{declared}.operator.{w}', [w]) for w in WORDS], lambda path, names: f'use {path}.{{{", ".join(names)}}}\n')


def write_layer():
    for module, (crate, what) in MODULES.items():
        node_kinds = [NodeKind(kind, row) for row in ROWS.values() if row[0] == module for kind in row[1]]
        file = module.capitalize()
        specs = ''.join(map(spec, node_kinds))
        head = spec_head(what[:-1] + ': the tree of each kind by its members (ESTree; the order of members is our own).')
        without_comments = '\n'.join(line for line in specs.split('\n') if not line.startswith('--'))
        write(f'specs/{file}.antt', head + spec_imports(without_comments) + specs, crate)
        code = ''.join((owned(k) + borrowed(k) if k.members else '') + maker(k) for k in node_kinds)
        head = wrapped(what + " Each kind has a struct of its members, which keeps the emptied list of its node's parts, the same borrowed, and a maker.", '', '// ')
        write(f'src/{module}.rt', code_head(head) + '\n' + code_imports(code, f'Rattle.{crate}.specs.{file}', node_kinds) + code, crate)
