"""Prints how parts of a node are read, taken apart and put together (`es_node`): what the typed layer is made of."""
from files import NODE, code_head, snake, write
from kinds import FIXED_WORDS, WORDS

# method: (test of the shape, what is read by reference, what is taken, how the tree has it, arms, doc)
SHAPES = {
    'child': ('is_child', '&Node', 'Node', 'child {}', [('Part::Child(node)', 'node', 'node')], 'The node.'),
    'nullable': ('is_nullable', 'Option<&Node>', 'Option<Node>', 'nullable {}',
                 [('Part::Child(node)', 'Some(node)', 'Some(node)'), ('Part::Absent', 'None', 'None')], 'The node, if there is one.'),
    'list': ('is_list', '&[Node]', 'List<Node>', 'list (trees {})', [('Part::List(nodes)', 'nodes.as_slice()', 'nodes')], 'The nodes of a list.'),
    'list_with_holes': ('is_list_with_holes', '&[Option<Node>]', 'List<Option<Node>>', 'list (nullable_trees {})',
                        [('Part::Holes(nodes)', 'nodes.as_slice()', 'nodes')], 'The nodes of a list that may have holes.'),
    'string': ('is_string', '&Name', 'Name', 'string {}', [('Part::String(name)', 'name', 'name')], 'The string.'),
    'nullable_string': ('is_nullable_string', 'Option<&Name>', 'Option<Name>', 'nullable_string {}',
                        [('Part::String(name)', 'Some(name)', 'Some(name)'), ('Part::NoString', 'None', 'None')], 'The string, if there is one.'),
    'boolean': ('is_boolean', 'bool', 'bool', 'boolean {}', [('Part::Boolean(value)', '*value', 'value')], 'The boolean.'),
    'literal': ('is_literal', '&LiteralValue', 'LiteralValue', 'literal {}', [('Part::Literal(value)', 'value', 'value')], 'The value of a literal.'),
}
NUMBERS = ['zero', 'one', 'two', 'three', 'four', 'five', 'six']
ORDINALS = ['first', 'second', 'third', 'fourth', 'fifth', 'sixth']


def method(name, receiver, answer, test, as_tree, arms, doc, argument):
    fails = '            _ => unreachable!(),\n'
    return f'''
    /// {doc}
    pub fn {name}({receiver}) -> {answer}
        requires {{ IsTrue ({test} {argument}) }}
        ensures {{ part_of {argument} ≡ {as_tree} }}
    {{
        match self {{
{''.join(f'            {pattern} => {value},{chr(10)}' for pattern, value in arms)}{fails}        }}
    }}
'''


def methods():
    out = ''
    for name, (test, lent, taken, tree, arms, doc) in SHAPES.items():
        result = 'result.now' if lent.startswith('&') else '(option_map (λ x. x.now) result)' if 'Option<&' in lent else 'result'
        out += method(f'as_{name}', '&self', lent, test, tree.format(result), [(p, a) for p, a, _ in arms], doc, 'self.now')
        out += method(f'into_{name}', 'self', taken, test, tree.format('result'), [(p, i) for p, _, i in arms], doc, 'self')
    for word in WORDS:
        name = snake(word)
        out += method(f'as_{name}', '&self', word, f'is_word Words.{word}', f'string ({name}_string result)', [(f'Part::Word(Word::{word}(word))', '*word')], 'The word of this set.', 'self.now')
        out += method(f'into_{name}', 'self', word, f'is_word Words.{word}', f'string ({name}_string result)', [(f'Part::Word(Word::{word}(word))', 'word')], 'The word of this set.', 'self')
    for word in FIXED_WORDS:
        name, string = snake(word), FIXED_WORDS[word][0]
        for way, receiver, argument in [('as', '&self', 'self.now'), ('into', 'self', 'self')]:
            out += f'''
    /// Nothing: it is the word `{string}`.
    pub fn {way}_{name}({receiver})
        requires {{ IsTrue (is_word Words.{word} {argument}) }}
        ensures {{ part_of {argument} ≡ string (codes "{string}") }}
    {{
        match self {{
            Part::Word(Word::{word}) => (),
            _ => unreachable!(),
        }}
    }}
'''
    for way, receiver, argument in [('as', '&self', 'self.now'), ('into', 'self', 'self')]:
        out += f'''
    /// Nothing: it is `false`.
    pub fn {way}_false({receiver})
        requires {{ IsTrue (is_false {argument}) }}
        ensures {{ part_of {argument} ≡ boolean false }}
    {{
        match self {{
            Part::Boolean(false) => (),
            _ => unreachable!(),
        }}
    }}
'''
    return out


def write_parts():
    strings = ', '.join(snake(w) + '_string' for w in WORDS)
    write('src/parts.rt', code_head('Reading parts, taking them apart, and making them.') + f'''
ghost use Rattle.std.specs.Prelude.{{◌≡◌, IsTrue, option_map, false, codes}};
ghost use Rattle.es_base.specs.Tree.{{child, list, string, boolean, literal, trees, nullable_trees, nullable, nullable_string}};
ghost use Rattle.es_base.specs.Words.{{{strings}}};
ghost use Rattle.es_base.specs.declared.table.Words.{{Words}};
ghost use Rattle.es_node.specs.View.{{is_child, is_nullable, is_list, is_list_with_holes, is_string, is_nullable_string, is_word, is_boolean, is_false, is_literal, part_of}};

use crate::node::{{Node, Part}};
use es_base::list::List;
use es_base::literal::LiteralValue;
use es_base::name::Name;
use es_base::operator::{{{', '.join(sorted(list(WORDS) + ['Word']))}}};

impl Part {{{methods()}}}

/// The part of a node that may be absent.
pub fn nullable_part(node: Option<Node>) -> Part
    ensures shape {{ IsTrue (is_nullable result) }}
    ensures value {{ part_of result ≡ nullable node }}
{{
    match node {{
        Some(node) => Part::Child(node),
        None => Part::Absent,
    }}
}}

/// The part of a string that may be absent.
pub fn nullable_string_part(name: Option<Name>) -> Part
    ensures shape {{ IsTrue (is_nullable_string result) }}
    ensures value {{ part_of result ≡ nullable_string name }}
{{
    match name {{
        Some(name) => Part::String(name),
        None => Part::NoString,
    }}
}}
''', NODE)


def write_room():
    out = code_head('Taking parts out of a list that keeps its capacity, and putting parts back without allocating.') + '''
ghost use Rattle.std.specs.Prelude.{◌≡◌, ◌∷◌, [], length};

use crate::node::Part;
use es_base::list::List;
use std::mem;
'''
    for n in range(1, 7):
        names = ORDINALS[:n]
        answer = 'Part' if n == 1 else '(' + ', '.join(['Part'] * n) + ')'
        was = ' ∷ '.join((['result'] if n == 1 else [f'result.{i}' for i in range(n)]) + ['[]'])
        parameters, arguments = ', '.join(f'{x}: Part' for x in names), ', '.join(names)
        if n < 6:
            taken = ', '.join(f'mem::replace({x}, Part::Absent)' for x in names)
            body = f'''    match parts {{
        [{arguments}] => {taken if n == 1 else '(' + taken + ')'},
        _ => unreachable!(),
    }}'''
        else:
            # a pattern of six items is not covered
            body = '''    match parts {
        [first, rest @ ..] => {
            let first = mem::replace(first, Part::Absent);
            let (second, third, fourth, fifth, sixth) = five_taken(rest);
            (first, second, third, fourth, fifth, sixth)
        }
        _ => unreachable!(),
    }'''
        writes = '\n'.join(f'    parts[{i}] = {x};' for i, x in enumerate(names))
        out += f'''
fn {NUMBERS[n]}_taken(parts: &mut [Part]) -> {answer}
    requires {{ length parts.old ≡ {n} }}
    ensures was {{ parts.old ≡ {was} }}
    ensures length {{ length parts.new ≡ {n} }}
{{
{body}
}}

/// Takes out the {NUMBERS[n]} part{'s' if n > 1 else ''} of a list; its capacity stays.
pub fn take_{NUMBERS[n]}(parts: &mut List<Part>) -> {answer}
    requires {{ length parts.old ≡ {n} }}
    ensures was {{ parts.old ≡ {was} }}
    ensures length {{ length parts.new ≡ {n} }}
{{
    {NUMBERS[n]}_taken(parts.as_mut_slice())
}}

fn {NUMBERS[n]}_put(parts: &mut [Part], {parameters})
    requires {{ length parts.old ≡ {n} }}
    ensures {{ parts.new ≡ {' ∷ '.join(names + ['[]'])} }}
{{
{writes}
}}

/// Puts {NUMBERS[n]} part{'s' if n > 1 else ''} into a list of that length.
pub fn put_{NUMBERS[n]}(parts: &mut List<Part>, {parameters})
    requires {{ length parts.old ≡ {n} }}
    ensures {{ parts.new ≡ {' ∷ '.join(names + ['[]'])} }}
{{
    {NUMBERS[n]}_put(parts.as_mut_slice(), {arguments});
}}
'''
    write('src/room.rt', out, NODE)
