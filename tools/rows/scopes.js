// What each reference of a program means: a map from its node to the first declaring identifier that the nearest scope holds
// for its spelling, or to null where the name is free (docs/MEANING.md; ECMA-262, 8 and 9.1).
const { children } = require('./table.js');

const FUNCTIONS = new Set(['FunctionDeclaration', 'FunctionExpression', 'ArrowFunctionExpression']);
const BLOCKS = new Set(['BlockStatement', 'ForStatement', 'ForInStatement', 'ForOfStatement', 'SwitchStatement', 'CatchClause', 'ClassDeclaration', 'ClassExpression']);

function bindings(pattern, out = []) {
  if (!pattern) return out;
  if (pattern.nodeKind === 'BindingIdentifier') out.push(pattern);
  else if (pattern.nodeKind === 'AssignmentPattern') bindings(pattern.left, out);
  else if (pattern.nodeKind === 'BindingProperty') bindings(pattern.value, out);
  else for (const c of children(pattern)) bindings(c, out);
  return out;
}

class Scope {
  constructor(up, hoists) { this.up = up; this.hoist = hoists ? this : up.hoist; this.names = new Map(); this.bodyNames = new Set(); }
  declare(id) { if (!this.names.has(id.name)) this.names.set(id.name, id); }
}

function resolve(program) {
  const scopes = new Map();
  declare(program, null, 'program');

  // the scopes, and what they hold
  function declare(n, scope, role) {
    let inner = scope;
    if (n.nodeKind === 'Program' || n.nodeKind === 'StaticBlock' || FUNCTIONS.has(n.nodeKind)) inner = new Scope(scope, true);
    else if (BLOCKS.has(n.nodeKind) && role !== 'function body') inner = new Scope(scope, false);
    scopes.set(n, inner);
    if (n.nodeKind === 'VariableDeclaration') for (const d of n.declarations) for (const id of bindings(d.id)) (n.kind === 'var' ? scope.hoist : scope).declare(id);
    if (n.nodeKind === 'FunctionDeclaration' || n.nodeKind === 'ClassDeclaration') { if (n.id) scope.declare(n.id); }
    if (n.nodeKind === 'ClassExpression' && n.id) inner.declare(n.id);
    if (n.nodeKind === 'CatchClause') bindings(n.param).forEach(id => inner.declare(id));
    if (/^Import.*Specifier$/.test(n.nodeKind)) scope.declare(n.local);
    if (FUNCTIONS.has(n.nodeKind)) {
      for (const p of n.params) bindings(p).forEach(id => inner.declare(id));
      const parameters = new Set(inner.names.keys());
      for (const c of children(n)) declare(c, inner, c === n.body && c.nodeKind === 'BlockStatement' ? 'function body' : '');
      for (const name of inner.names.keys()) if (!parameters.has(name)) inner.bodyNames.add(name);
      if (n.nodeKind === 'FunctionExpression' && n.id) inner.declare(n.id);
      return;
    }
    for (const c of children(n)) declare(c, inner, '');
  }

  const means = new Map();
  look(program, null, []);
  // `hidden`: the functions whose parameters the node stands in
  function look(n, scope, hidden) {
    const inner = scopes.get(n);
    if (n.nodeKind === 'IdentifierReference') {
      let s = scope;
      while (s && !(s.names.has(n.name) && !(hidden.includes(s) && s.bodyNames.has(n.name)))) s = s.up;
      means.set(n, s ? s.names.get(n.name) : null);
    }
    for (const c of children(n)) {
      const isParameter = FUNCTIONS.has(n.nodeKind) && n.params.includes(c);
      look(c, n.nodeKind === 'SwitchStatement' && c === n.discriminant ? scope : inner, isParameter ? [...hidden, inner] : hidden);
    }
  }
  return means;
}

module.exports = { resolve };
