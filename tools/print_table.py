"""Prints the kinds, the words and their table, in code and in specs."""
from files import BASE, code_head, snake, spec_head, write
from kinds import *

KINDS = []
for k, v in ROWS.items():
    for kind in v[1]: KINDS.append((kind, k))
ALL_WORDS = list(WORDS) + list(FIXED_WORDS)
SORTS = {
    'Child': ('A node.', 'Place'), 'Nullable': ('A node or null.', 'Place'),
    'Key': ('A node of this place, or an expression where `computed` is true.', 'Place'),
    'List': ('A list of nodes.', 'Place'), 'NonEmptyList': ('A list of at least one node.', 'Place'),
    'ListWithHoles': ('A list of nodes and nulls.', 'Place'),
    'Name': ('A string that is not empty.', None), 'NullableString': ('A string or nothing.', None),
    'Boolean': ('A boolean, false where it is absent.', None), 'False': ('A boolean that is false.', None),
    'Word': ('One of a set of words.', 'Words'),
    'Literal': ('The value of a literal, which other members of the node decide too.', None),
    'Raw': ('The string `raw` of the object `value`.', None), 'Cooked': ('The string `cooked` of the object `value`, or null.', None),
    'Type': ('The string of `type`.', None),
}


def sort_code(s, sep):
    tag = 'Word' if s[0] == 'Only' else s[0]
    if len(s) == 1: return f'Sort{sep}{tag}'
    inner = ('Words' if tag == 'Word' else 'Place') + sep + s[1]
    return f'Sort::{tag}({inner})' if sep == '::' else f'(Sort.{tag} {inner})'


def estree(kind): return ESTREE.get(kind, kind)


def write_table():
    text = f'''/// What a node is. A kind tells apart what one name of ESTree does not: declarations from expressions,
/// an identifier that is a reference, a binding or a mere name, private members, and patterns that
/// declare from those that are assigned to.
#[derive(Debug, Clone, Copy, PartialEq, Eq)]
pub enum Kind {{
''' + ''.join(f'    {k},\n' for k, _ in KINDS) + f'''}}

/// The string of a node's `type` (ESTree); empty for a foreign node, which keeps its own.
pub fn estree_name(kind: Kind) -> &'static str
    ensures {{ result.now ≡ name_of kind }}
{{
    match kind {{
''' + ''.join(f'        Kind::{k} => "{estree(k)}",\n' for k, _ in KINDS) + '    }\n}\n'
    # kind.rt has the enum alone: a contract that cites specs naming the enum stands in another file
    i = text.index('/// The string of a node')
    enum_part = text[text.index('/// What a node is'):i].rstrip() + '\n'
    write('src/kind.rt', code_head('The kinds of nodes.') + '\n' + enum_part, BASE)
    name_fn = text[i:]
    out = code_head('The table of kinds, as data: reading, writing and conformity are read off it.') + f'''
ghost use Rattle.std.specs.Prelude.{{◌≡◌, map}};
ghost use Rattle.{BASE}.specs.Table.{{name_of, members_of, field_of, stands_in, is_statement, is_expression, is_pattern, is_target, kinds}};

use crate::kind::Kind;

/// Where a node stands.
#[derive(Debug, Clone, Copy, PartialEq, Eq)]
pub enum Place {{
''' + ''.join(f'    /// {d[0]}\n    {p},\n' for p, d in PLACES.items()) + '''}

/// A set of words.
#[derive(Debug, Clone, Copy, PartialEq, Eq)]
pub enum Words {
''' + ''.join(f'    {w},\n' for w in ALL_WORDS) + '''}

/// What a member holds.
#[derive(Debug, Clone, Copy, PartialEq, Eq)]
pub enum Sort {
''' + ''.join(f'    /// {d}\n    {s}{"(" + a + ")" if a else ""},\n' for s, (d, a) in SORTS.items()) + '''}

/// A member of a node: its name in ESTree, and what it holds.
#[derive(Debug, Clone, Copy)]
pub struct Member {
    pub name: &'static str,
    pub sort: Sort,
}

''' + name_fn + '''
/// The members of a node in preorder (ESTree; the order is our own).
pub fn members(kind: Kind) -> &'static [Member]
    ensures { map field_of result.now ≡ members_of kind }
{
    match kind {
'''
    for kind, s in KINDS:
        out += f'        Kind::{kind} => &[' + ', '.join(f'Member {{ name: "{n}", sort: {sort_code(so, "::")} }}' for n, _, so in ROWS[s][4]) + '],\n'
    out += '''    }
}

/// Whether a node of this kind may stand at the place (ECMA-262, over ESTree's kinds).
pub fn fits(place: Place, kind: Kind) -> bool
    ensures { result ≡ stands_in place kind }
{
    match place {
'''
    groups = {S: ('statement', STATEMENTS), E: ('expression', EXPRESSIONS), P: ('pattern', PATTERNS), T: ('target', TARGETS)}

    def place_test(p):
        if p in groups: return f'fits_{groups[p][0]}(kind)'
        _, also, ks = PLACES[p]
        parts = []
        for a in also: parts.append(f'fits_{groups[a][0]}(kind)' if a in groups else place_test(a))
        parts.append('matches!(kind, ' + ' | '.join(f'Kind::{x}' for x in ks) + ')')
        return ' || '.join(parts)
    for p in PLACES: out += f'        Place::{p} => {place_test(p)},\n'
    out += '    }\n}\n'
    for p, (g, ks) in groups.items():
        # in groups, since the check of one large pattern stops at a limit
        groups_of = [ks[i:i + 14] for i in range(0, len(ks), 14)]
        out += f'''
fn fits_{g}(kind: Kind) -> bool
    ensures {{ result ≡ is_{g} kind }}
{{
    match kind {{
''' + ''.join(f"        {' | '.join(f'Kind::{x}' for x in part)} => true,\n" for part in groups_of) + '''        _ => false,
    }
}
'''
    out += '''
/// Every kind, once.
pub fn all_kinds() -> &'static [Kind]
    ensures { result.now ≡ kinds }
{
    &[''' + ', '.join(f'Kind::{k}' for k, _ in KINDS) + ''']
}
'''
    write('src/table.rt', out, BASE)
    D = f'Rattle.{BASE}.specs.declared'
    o = spec_head("The table of kinds: names, members in preorder, places (ESTree's kinds up to ES2022; the order of members is our own).") + f'''use Rattle.std.specs.Prelude.{{ℕ, List, [], ◌∷◌, map, Bool, true, false, codes}}
use {D}.kind.Kind.{{Kind}}
use {D}.table.Place.{{Place}}
use {D}.table.Words.{{Words}}
use {D}.table.Sort.{{Sort}}
use {D}.table.Member.{{Member}}
use Rattle.{BASE}.specs.Words.{{word_string, all_of_set}}
'''
    o += '''
-- a member: its name and what it holds
pub record Field : Type 0 where
  pub name : List ℕ
  pub sort : Sort

abbrev pub field_of : Member → Field
field_of m = record { name = m.name.now; sort = m.sort }

abbrev field : List ℕ → Sort → Field
field s t = record { name = s; sort = t }

-- the string of `type`; a foreign node has its own
abbrev pub name_of : Kind → List ℕ
''' + ''.join(f'name_of Kind.{k} = ' + (f'codes "{estree(k)}"' if estree(k) else '[]') + '\n' for k, _ in KINDS) + '''
-- the members in preorder
abbrev pub members_of : Kind → List Field
'''
    for kind, s in KINDS:
        o += f'members_of Kind.{kind} = ' + ''.join(f'field (codes "{n}") {sort_code(so, ".")} ∷ ' for n, _, so in ROWS[s][4]) + '[]\n'
    o += '\n-- the strings of the words of a set\nabbrev pub words_of : Words → List (List ℕ)\nwords_of set = map word_string (all_of_set set)\n'
    for p, (g, ks) in groups.items():
        o += f'\nabbrev pub is_{g} : Kind → Bool\n' + ''.join(f'is_{g} Kind.{x} = true\n' for x in ks) + f'is_{g} _ = false\n'
    o += '\n-- which kinds stand in a place\nabbrev pub stands_in : Place → Kind → Bool\n'
    done = set()

    def spec_lines(p, top):
        if p in groups: return f'is_{groups[p][0]} k'
        return None
    for p, (doc, also, ks) in PLACES.items():
        if p in groups:
            o += f'stands_in Place.{p} k = is_{groups[p][0]} k\n'
            continue
        chain, extra = also, list(ks)
        while chain and chain[0] not in groups:
            extra += PLACES[chain[0]][2]
            chain = PLACES[chain[0]][1]
        for x in extra: o += f'stands_in Place.{p} Kind.{x} = true\n'
        o += f'stands_in Place.{p} k = ' + (f'is_{groups[chain[0]][0]} k' if chain else 'false') + '\n'
    o += '\n-- every kind, once\nabbrev pub kinds : List Kind\nkinds = ' + ''.join(f'Kind.{k} ∷ ' for k, _ in KINDS) + '[]\n'
    write('specs/Table.antt', o, BASE)
    write_words()


def write_words():
    """the words: an enum for each set, an enum of all sets, and their strings"""
    D = f'Rattle.{BASE}.specs.declared'
    enums = code_head('Operators, and the other small sets of words that members hold.')
    for name, (doc, variants) in WORDS.items():
        enums += f'\n/// {doc}\n#[derive(Debug, Clone, Copy, PartialEq, Eq)]\npub enum {name} {{\n' + ''.join(f'    /// `{t}`\n    {v},\n' for v, t in variants) + '}\n'
    enums += '''
/// A word of the table, in its set.
#[derive(Debug, Clone, Copy, PartialEq, Eq)]
pub enum Word {
''' + ''.join(f'    {w}({w}),\n' for w in WORDS) + ''.join(f'    /// `{FIXED_WORDS[w][0]}`, the one word of its set\n    {w},\n' for w in FIXED_WORDS) + '}\n'
    write('src/operator.rt', enums, BASE)

    spec = spec_head('The words that members hold (ECMA-262, and ESTree for the kinds of declarations and members).')
    spec += 'use Rattle.std.specs.Prelude.{ℕ, List, [], ◌∷◌, Bool, true, false, codes}\n' + ''.join(f'use {D}.operator.{x}.{{{x}}}\n' for x in WORDS) + f'use {D}.operator.Word.{{Word}}\nuse {D}.table.Words.{{Words}}\n'
    for name, (_, variants) in WORDS.items():
        s = snake(name) + '_string'
        spec += f'\nabbrev pub {s} : {name} → List ℕ\n' + ''.join(f'{s} {name}.{v} = codes "{t}"\n' for v, t in variants)
    spec += '\n-- the string that a word is written as\nabbrev pub word_string : Word → List ℕ\n'
    spec += ''.join(f'word_string (Word.{w} w) = {snake(w)}_string w\n' for w in WORDS) + ''.join(f'word_string Word.{w} = codes "{FIXED_WORDS[w][0]}"\n' for w in FIXED_WORDS)
    spec += '\n-- whether a word is of this set\nabbrev pub is_of_set : Words → Word → Bool\n'
    spec += ''.join(f'is_of_set Words.{w} (Word.{w} w) = true\n' for w in WORDS) + ''.join(f'is_of_set Words.{w} Word.{w} = true\n' for w in FIXED_WORDS) + 'is_of_set set w = false\n'
    spec += '\n-- the words of a set\nabbrev pub all_of_set : Words → List Word\n'
    for w in WORDS:
        spec += f'all_of_set Words.{w} = ' + ''.join(f'Word.{w} {w}.{v} ∷ ' for v, _ in WORDS[w][1]) + '[]\n'
    for w in FIXED_WORDS: spec += f'all_of_set Words.{w} = Word.{w} ∷ []\n'
    write('specs/Words.antt', spec, BASE)

    code = code_head('The strings of words, and the words of strings.') + f'''
ghost use Rattle.std.specs.Prelude.{{◌≡◌, map}};
ghost use Rattle.{BASE}.specs.Words.{{word_string, all_of_set, is_of_set, {', '.join(snake(w) + '_string' for w in WORDS)}}};

use crate::operator::{{{', '.join(sorted(list(WORDS) + ['Word']))}}};
use crate::table::Words;

'''
    for name, (_, variants) in WORDS.items():
        s = snake(name) + '_str'
        code += f'''fn {s}(word: {name}) -> &'static str
    ensures {{ result.now ≡ {snake(name)}_string word }}
{{
    match word {{
''' + ''.join(f'        {name}::{v} => "{t}",\n' for v, t in variants) + '    }\n}\n\n'
    code += '''/// The string that a word is written as.
pub fn word_str(word: Word) -> &'static str
    ensures { result.now ≡ word_string word }
{
    match word {
''' + ''.join(f'        Word::{w}(word) => {snake(w)}_str(word),\n' for w in WORDS) + ''.join(f'        Word::{w} => "{FIXED_WORDS[w][0]}",\n' for w in FIXED_WORDS) + '''    }
}

/// The words of a set.
pub fn all_of_set(set: Words) -> &'static [Word]
    ensures { result.now ≡ all_of_set set }
{
    match set {
'''
    for w in WORDS:
        code += f'        Words::{w} => &[' + ', '.join(f'Word::{w}({w}::{v})' for v, _ in WORDS[w][1]) + '],\n'
    for w in FIXED_WORDS: code += f'        Words::{w} => &[Word::{w}],\n'
    code += '    }\n}\n'
    write('src/word.rt', code, BASE)
    lemmas = spec_head('The characters of a word are its bytes: words are ASCII.')
    lemmas += 'use Rattle.std.proofs.Common.{◌≡◌, refl}\nuse Rattle.std.specs.Str.{chars}\nuse Rattle.es_base.specs.Words.{word_string}\n' + ''.join(f'use {D}.operator.{x}.{{{x}}}\n' for x in WORDS) + f'use {D}.operator.Word.{{Word}}\n'
    lemmas += '\npub chars-word_string : (w : Word) → chars (word_string w) ≡ word_string w\nunfolding chars\n'
    for w in WORDS: lemmas += ''.join(f'chars-word_string (Word.{w} {w}.{v}) = refl\n' for v, _ in WORDS[w][1])
    for w in FIXED_WORDS: lemmas += f'chars-word_string Word.{w} = refl\n'
    write('proofs/WordLemmas.antt', lemmas, BASE)
