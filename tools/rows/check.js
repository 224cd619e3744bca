// What is asked of a numbered pair beside its matching, and the kinds of the generated names that the matching left open.
const { MEMBERS, children, preorder } = require('./table.js');
const { resolve } = require('./scopes.js');

const isClass = n => /^Class(Declaration|Expression)$/.test(n.nodeKind);
const isFunction = n => /^(Function(Declaration|Expression)|ArrowFunctionExpression)$/.test(n.nodeKind);
const isStatement = n => /Statement$|Declaration$/.test(n.nodeKind);
const GROUPS = [isClass, isFunction, ...['CallExpression', 'NewExpression', 'TaggedTemplateExpression'].map(type => n => n.type === type)];

function parents(program) {
  const up = new Map();
  for (const n of preorder(program)) for (const c of children(n)) up.set(c, n);
  return up;
}

// the new declaring identifiers of the output, with their kinds: those that the matching noted, rests and parameters of new
// functions, and temporaries; sorted by the bytes of the name
function ledgerOf(output, noted, first) {
  const up = parents(output), kinds = new Map(noted.map(e => [e.name, e]));
  const old = new Set(preorder(output).filter(n => n.nodeKind === 'BindingIdentifier' && n.num < first).map(n => n.name));
  const seen = new Set();
  for (const id of preorder(output).filter(n => n.nodeKind === 'BindingIdentifier' && n.num >= first)) {
    const parent = up.get(id);
    // a class expression that was a declaration has its name again
    if (isClass(parent) && old.has(id.name)) continue;
    if (seen.has(id.name)) throw new Error(`${id.name} is declared twice`);
    seen.add(id.name);
    if (kinds.has(id.name)) continue;
    if (parent.nodeKind === 'RestElement') kinds.set(id.name, { name: id.name, kind: 'Args' });
    else if (isFunction(parent)) kinds.set(id.name, { name: id.name, kind: 'Param' });
    else if (parent.nodeKind === 'VariableDeclarator' && !parent.init) kinds.set(id.name, { name: id.name, kind: 'Temp' });
    else throw new Error(`the kind of ${id.name} is not known`);
  }
  for (const { name } of noted) if (!name.startsWith('#') && !seen.has(name)) throw new Error(`${name} is noted and not declared`);
  return [...kinds.values()].sort((a, b) => Buffer.compare(Buffer.from(a.name), Buffer.from(b.name)) || a.number - b.number);
}

function check(source, output, ledger, options) {
  const before = preorder(source), after = preorder(output), first = before.length;
  const at = new Map();
  for (const n of after) { if (at.has(n.num)) throw new Error(`the number ${n.num} stands twice`); at.set(n.num, n); }
  // the new ones in preorder
  after.filter(n => n.num >= first).forEach((n, i) => { if (n.num !== first + i) throw new Error(`the new number ${n.num} where ${first + i} is next`); });
  // classes, functions, calls, `new` and tagged templates
  for (const n of before) {
    const group = GROUPS.find(is => is(n));
    if (group && !at.has(n.num)) throw new Error(`${n.type} ${n.num} has no number in the output`);
    if (group && !group(at.get(n.num))) throw new Error(`${n.type} ${n.num} is carried by ${at.get(n.num).type}`);
  }
  // statements that no lowered class touches
  const up = parents(source), lowered = loweredClasses(source, options);
  const holds = new Set(), stands = n => { for (let m = n; m; m = up.get(m)) if (lowered.has(m)) return true; return false; };
  for (const c of lowered) for (let n = c; n; n = up.get(n)) holds.add(n);
  for (const n of before) if (isStatement(n) && !holds.has(n) && !stands(n)) {
    if (!at.has(n.num)) throw new Error(`the statement ${n.num} does not stand`);
    if (JSON.stringify(shape(n)) !== JSON.stringify(shape(at.get(n.num)))) throw new Error(`the statement ${n.num} is changed`);
  }
  names(source, output, ledger, first, at);
}
const shape = n => [n.nodeKind, n.num, n.name, n.literal, MEMBERS[n.nodeKind].map(m => (typeof n[m.name] === 'object' ? 0 : n[m.name])), children(n).map(shape)];

function loweredClasses(source, { classProperties, staticBlocks }) {
  const isPrivate = e => e.key && e.key.type === 'PrivateIdentifier';
  return new Set(preorder(source).filter(n => isClass(n) && n.body.body.some(e =>
    (classProperties && (e.type === 'PropertyDefinition' || isPrivate(e))) || (staticBlocks && e.type === 'StaticBlock'))));
}

// every name means in the output what it meant in the source; generated names mean their declarations
function names(source, output, ledger, first, at) {
  const meant = resolve(source), means = resolve(output), kinds = new Map(ledger.map(e => [e.name, e]));
  const byNum = new Map(preorder(source).map(n => [n.num, n])), up = parents(output);
  const oldClass = id => { const c = id && [...byNum.values()].find(n => isClass(n) && n.id === id); return c ? c.num : null; };
  // the class that an identifier of the output names
  const newClass = id => {
    if (!id) return null;
    const e = kinds.get(id.name), parent = up.get(id);
    if (e && e.kind === 'ClassTemp') return e.number;
    return isClass(parent) ? parent.num : null;
  };
  for (const [r, id] of means) {
    const s = r.num < first ? byNum.get(r.num) : null;
    if (kinds.has(r.name) && (!id || id.num < first)) throw new Error(`${r.name} ${r.num} does not mean its declaration`);
    if (!s || s.nodeKind !== 'IdentifierReference') {
      if (!s && id && id.num >= first && !kinds.has(r.name) && !isClass(up.get(id))) throw new Error(`${r.name} ${r.num} means a new binding that is not generated`);
      continue;
    }
    const was = meant.get(s);
    const ok = (was === null && id === null && s.name === r.name) || (was && id && was.num === id.num) || (was && oldClass(was) !== null && oldClass(was) === newClass(id));
    if (!ok) throw new Error(`${r.name} ${r.num} means ${id ? id.num : 'nothing'} where ${s.name} meant ${was ? was.num : 'nothing'}`);
  }
}

module.exports = { check, ledgerOf };
