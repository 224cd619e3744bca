// The table of kinds of tools/kinds.py, and trees of its kinds. A node here is ESTree's object with three members more: `nodeKind`
// (its kind of the table), `num` (its number, or null) and `path` (where it stands).
const { execFileSync } = require('child_process');
const path = require('path');

const read = 'import json, kinds as k; print(json.dumps([k.ROWS, k.PLACES, k.ESTREE, k.FIXED_WORDS]))';
const [ROWS, PLACES, ESTREE, FIXED_WORDS] = JSON.parse(execFileSync('python3', ['-c', read], { cwd: path.join(__dirname, '..') }));

// kind -> its members in preorder, each with the name in ESTree and the sort
const MEMBERS = {};
for (const [, kinds, , , members] of Object.values(ROWS)) for (const kind of kinds) MEMBERS[kind] = members.map(([name, , [sort, of]]) => ({ name, sort, of }));

const kindsOf = place => [...PLACES[place][1].flatMap(kindsOf), ...PLACES[place][2]];
const estreeName = kind => ESTREE[kind] ?? kind;
const isPrivateName = n => n && n.type === 'PrivateIdentifier';

// the kind of an ESTree node at a place
function kindAt(n, place, parent) {
  let kinds = kindsOf(place).filter(kind => estreeName(kind) === n.type);
  if (n.type === 'MemberExpression') kinds = kinds.filter(kind => (kind === 'PrivateField') === isPrivateName(n.property));
  if (n.type === 'BinaryExpression') kinds = kinds.filter(kind => (kind === 'PrivateIn') === isPrivateName(n.left));
  if (place === 'ExportLocal' && n.type === 'Identifier') kinds = [parent.source ? 'IdentifierName' : 'IdentifierReference'];
  if (kinds.length !== 1) throw new Error(`${n.type} in the place ${place}: ${kinds.join(' or ') || 'no kind'}`);
  return kinds[0];
}

// the child nodes of a member, with its place
const placeOf = ({ sort, of }, n) => (sort === 'Key' && n.computed ? 'Expression' : of);
const NODES = new Set(['Child', 'Nullable', 'Key']), LISTS = new Set(['List', 'NonEmptyList', 'ListWithHoles']);

// an ESTree node as a node of the table, at a place
function annotate(n, place, at = '', parent = null) {
  const kind = kindAt(n, place, parent);
  const node = { type: n.type, nodeKind: kind, num: Number.isInteger(n.node) ? n.node : null, path: at };
  for (const m of MEMBERS[kind]) {
    const v = n[m.name], here = at ? `${at}.${m.name}` : m.name;
    if (NODES.has(m.sort)) node[m.name] = v ? annotate(v, placeOf(m, n), here, kind === 'ExportSpecifier' ? parent : n) : null;
    else if (LISTS.has(m.sort)) node[m.name] = v.map((x, i) => x && annotate(x, placeOf(m, n), `${here}.${i}`, n));
    else if (m.sort === 'Literal') node.literal = literalOf(n);
    else if (m.sort === 'Raw') node.raw = n.value.raw;
    else if (m.sort === 'Cooked') node.cooked = n.value.cooked ?? null;
    else if (m.sort === 'NullableString') node[m.name] = v ?? null;
    else if (m.sort === 'Boolean' || m.sort === 'False') node[m.name] = !!v;
    else if (m.sort === 'Only') { node[m.name] = FIXED_WORDS[m.of][0]; if (v !== node[m.name]) throw new Error(`${kind}: ${m.name}`); }
    else node[m.name] = v;
  }
  return node;
}

// docs/JSON.md, "Literals"
function literalOf(n) {
  if (n.regex) return { tag: 'RegExp', pattern: n.regex.pattern, flags: n.regex.flags };
  if (typeof n.bigint === 'string') return { tag: 'BigInt', digits: n.bigint };
  if (typeof n.value === 'string') return { tag: 'String', value: n.value, raw: n.raw ?? null };
  if (typeof n.value === 'boolean') return { tag: 'Boolean', value: n.value };
  if (n.raw === 'null') return { tag: 'Null' };
  return { tag: 'Number', raw: n.raw ?? String(n.value) };
}

// the children of a node in preorder
function children(n) {
  const out = [];
  for (const m of MEMBERS[n.nodeKind]) {
    if (NODES.has(m.sort)) { if (n[m.name]) out.push(n[m.name]); }
    else if (LISTS.has(m.sort)) out.push(...n[m.name].filter(x => x));
  }
  return out;
}
function preorder(n, out = []) {
  out.push(n);
  for (const c of children(n)) preorder(c, out);
  return out;
}

module.exports = { MEMBERS, NODES, LISTS, annotate, children, preorder };
