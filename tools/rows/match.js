// Matches a lowered program with its source: which node of the output carries the number of which node of the source.
//
// A node that still stands carries its own number, and what replaces a node carries its number by the table of carriers. The
// matcher walks both trees from the top. It tries every reading of every form and gives all answers (`solutions`), so that a
// caller sees where there is more than one. Each method ends by calling its last argument, once for each way to go on; what it
// noted before is undone when that call returns.
const { MEMBERS, NODES, LISTS, preorder } = require('./table.js');

const CLASSES = new Set(['ClassDeclaration', 'ClassExpression']);
const FUNCTIONS = new Set(['FunctionExpression', 'ArrowFunctionExpression']);
const isClass = n => n && CLASSES.has(n.nodeKind);
const isType = (n, type) => n && n.type === type;
const isIdentifier = (n, name) => isType(n, 'Identifier') && (name === undefined || n.name === name);
const isString = (n, s) => isType(n, 'Literal') && n.literal.tag === 'String' && (s === undefined || n.literal.value === s);
const isMember = (n, name) => isType(n, 'MemberExpression') && !n.computed && isIdentifier(n.property, name);
const isAssignment = n => isType(n, 'AssignmentExpression') && n.operator === '=';
const isVoid = n => isType(n, 'UnaryExpression') && n.operator === 'void' && isType(n.argument, 'Literal');
const isBlockStatement = n => isType(n, 'BlockStatement');
const expressionOf = n => (isType(n, 'ExpressionStatement') ? n.expression : n);

// the arguments of `babelHelpers.name(..)`, of which there are n
function helper(n, name, count) {
  const ok = isType(n, 'CallExpression') && isMember(n.callee, name) && isIdentifier(n.callee.object, 'babelHelpers');
  return ok && (count === undefined || n.arguments.length === count) ? n.arguments : null;
}
// the arguments of `o.name(..)`, with o
function methodCall(n, name) { return isType(n, 'CallExpression') && isMember(n.callee, name) ? { object: n.callee.object, args: n.arguments } : null; }
// the body of `(() => { .. })()`, or of the expression of `(() => e)()`
function calledArrow(n, count = 0) { return isType(n, 'CallExpression') && isType(n.callee, 'ArrowFunctionExpression') && n.arguments.length === count ? n.callee : null; }

// equal but for numbers
const bare = n => JSON.stringify(n, (key, v) => (key === 'num' || key === 'path' || key === 'nodeKind' ? undefined : v));
const same = (a, b) => bare(a) === bare(b);

class Matcher {
  constructor(source, output, options, hints = {}) {
    Object.assign(this, { source, output, options, hints });
    this.names = new Set(preorder(source).filter(n => n.name !== undefined && n.type === 'Identifier').map(n => n.name));
    this.byPath = new Map(preorder(output).map(n => [n.path, n]));
    this.used = new Set();
    this.ledger = new Map();
    this.found = new Map();
    this.deepest = { count: -1, at: '' };
  }

  solutions() {
    this.match(this.source, this.output, () => {
      const numbers = [...this.byPath.values()].filter(n => n.num !== null).map(n => [n.path, n.num]);
      const ledger = [...this.ledger].map(([name, kind]) => ({ name, ...kind }));
      this.found.set(JSON.stringify([numbers, ledger]), { numbers: new Map(numbers), ledger });
      if (this.found.size > 2000) throw new Error('more than 2000 answers');
    });
    return [...this.found.values()];
  }

  // ---- what is noted

  // o carries the number of s
  give(o, s, k) {
    if (o.num !== null || this.used.has(s.num)) return;
    if (this.hints[s.num] !== undefined && this.hints[s.num] !== o.path) return;
    o.num = s.num; this.used.add(s.num);
    k();
    o.num = null; this.used.delete(s.num);
  }
  // the generated name has this kind
  record(name, kind, k) {
    const old = this.ledger.get(name);
    if (old) { if (JSON.stringify(old) === JSON.stringify(kind)) k(); return; }
    if (!this.isGenerated(name)) return;
    this.ledger.set(name, kind); k(); this.ledger.delete(name);
  }
  isGenerated(name) { return !this.names.has(name) && /^_/.test(name); }
  isTemporary(n) { return isIdentifier(n) && this.isGenerated(n.name); }
  // `_t = e`
  isKept(n) { return isAssignment(n) && this.isTemporary(n.left); }

  // one after the other
  all(steps, k) { return steps.length ? steps[0](() => this.all(steps.slice(1), k)) : k(); }
  zip(ss, os, k) { if (ss.length === os.length) this.all(ss.map((s, i) => next => this.nullable(s, os[i], next)), k); }
  nullable(s, o, k) { if (!s && !o) k(); else if (s && o) this.match(s, o, k); }

  // ---- nodes

  match(s, o, k) {
    if (this.used.size > this.deepest.count) this.deepest = { count: this.used.size, at: `${s.type} ${s.num} and ${o.path || 'the program'} (${o.type})` };
    if (s.hole) { if (same(s.hole, o)) k(); return; }
    if (isClass(s)) return this.classExpression(s, o, [], k);
    if (s.nodeKind === o.nodeKind && !this.isReplacedWrite(s, o)) this.structure(s, o, k);
    this.replaced(s, o, k);
  }

  // the same kind of node with matching members
  structure(s, o, k) { this.give(o, s, () => this.members(s, o, MEMBERS[s.nodeKind], k)); }
  members(s, o, members, k) {
    this.all(members.map(m => next => this.member(s, o, m, next)), k);
  }
  member(s, o, { name, sort, of }, k) {
    const a = s[name], b = o[name];
    if (NODES.has(sort)) return this.nullable(a, b, k);
    if (LISTS.has(sort) && of === 'Statement') return this.statements(a, b, null, k);
    if (LISTS.has(sort)) return this.zip(a, b, k);
    if (sort === 'Literal') { if (this.sameLiteral(s.literal, o.literal)) k(); return; }
    if (sort === 'Name' && s.type === 'Identifier') { if (a === b || this.isRenamed(s, a, b)) k(); return; }
    if (a === b) k();
  }
  sameLiteral(a, b) { return a.tag === 'String' ? b.tag === 'String' && a.value === b.value : JSON.stringify(a) === JSON.stringify(b); }
  // a binding that clashed has another name, and a class may be known by its temporary; which is which, the check of names tells
  isRenamed(s, a, b) { return s.nodeKind !== 'IdentifierName' && this.isGenerated(b) && b.replace(/^_+|\d+$/g, '') === a.replace(/^_+|\d+$/g, ''); }

  // what stands in the place of a node that was replaced
  replaced(s, o, k) {
    switch (s.nodeKind) {
      case 'ThisExpression': if (this.isTemporary(o) || isIdentifier(o)) this.give(o, s, k); break;
      case 'MetaProperty': if (s.property.name === 'target' && isVoid(o)) k(); break;
      case 'PrivateField': this.reads(s, o, r => this.give(r.outer, s, () => this.operand(s, [r.operand], k))); this.targets(s, o, k); break;
      case 'MemberExpression': if (isType(s.object, 'Super')) this.reads(s, o, r => this.give(r.outer, s, () => this.operand(s, [r.operand], k))); break;
      case 'PrivateIn': this.privateIn(s, o, k); break;
      case 'AssignmentExpression': if (this.isReplacedTarget(s.left)) this.assignment(s, o, k); break;
      case 'UpdateExpression': if (this.isReplacedTarget(s.argument)) this.update(s, o, k); break;
      case 'CallExpression': this.call(s, o, k); break;
      case 'TaggedTemplateExpression': this.tagged(s, o, k); break;
      case 'UnaryExpression': this.unary(s, o, k); break;
      case 'ChainExpression': if (isType(o, 'ConditionalExpression')) this.chain(s, s, o, 'chain', k); break;
    }
    this.wrapped(s, o, k);
  }
  // `o.#x = v` where `#x` is lowered: the write alone is carried, by the outermost node of its form
  isReplacedWrite(s, o) { return s.nodeKind === 'AssignmentExpression' && s.operator === '=' && this.isReplacedTarget(s.left) && o.left.nodeKind !== s.left.nodeKind; }
  isReplacedTarget(n) { return n.nodeKind === 'PrivateField' || (n.nodeKind === 'MemberExpression' && isType(n.object, 'Super')); }

  // `(() => { return e; })()`, `babelHelpers.setFunctionName(f, k)` and `_key = babelHelpers.toPropertyKey(k)`
  wrapped(s, o, k) {
    const arrow = calledArrow(o), named = helper(o, 'setFunctionName', 2);
    if (arrow && isBlockStatement(arrow.body)) {
      const body = arrow.body.body, last = body[body.length - 1];
      if (isType(last, 'ReturnStatement') && last.argument && body.slice(0, -1).every(n => this.isBareDeclaration(n))) this.match(s, last.argument, k);
    }
    const key = this.isKept(o) && helper(o.right, 'toPropertyKey', 1);
    if (key) this.match(s, key[0], k);
    if (named && FUNCTIONS.has(s.nodeKind)) this.match(s, named[0], k);
  }

  // ---- private members, and members of `super`

  // the readings of o as a read of the private member or member of `super` s: { outer, operand }, operand null where it is dropped
  reads(s, o, k) {
    let a, c;
    if (s.nodeKind === 'MemberExpression') {
      if ((a = helper(o, 'superPropGet', 3))) k({ outer: o, operand: a[1] });
      return;
    }
    if ((a = helper(o, 'classPrivateFieldGet2', 2))) k({ outer: o, operand: a[1] });
    if (isMember(o, '_') && (a = helper(o.object, 'assertClassBrand', 3))) k({ outer: o, operand: a[1] });
    if (isMember(o, '_') && this.isTemporary(o.object)) k({ outer: o, operand: null });
    if ((a = helper(o, 'assertClassBrand', 3))) k({ outer: o, operand: a[1] });
    if (this.isTemporary(o)) k({ outer: o, operand: null });
    if ((c = methodCall(o, 'call')) && this.isTemporary(c.object) && c.args.length === 1) k({ outer: o, operand: this.branded(c.args[0]) });
    if (isType(o, 'SequenceExpression') && o.expressions.length === 2 && helper(o.expressions[1], 'writeOnlyError', 1)) k({ outer: o, operand: o.expressions[0] });
    if ((a = this.loose(o))) k({ outer: o, operand: a });
  }
  // o of `babelHelpers.assertClassBrand(Q, o)`, or else o
  branded(n) { const a = helper(n, 'assertClassBrand', 2); return a ? a[1] : n; }
  // o of `babelHelpers.classPrivateFieldLooseBase(o, L)[L]`
  loose(n) {
    const a = isType(n, 'MemberExpression') && n.computed && helper(n.object, 'classPrivateFieldLooseBase', 2);
    return a && isIdentifier(n.property) && isIdentifier(a[1], n.property.name) ? a[0] : null;
  }
  // o of `A.bind(babelHelpers.assertClassBrand(Q, o))` or `A.bind(o)`
  setterOf(n) {
    const a = helper(n, 'toSetter', 1), c = a && methodCall(a[0], 'bind');
    return c && this.isTemporary(c.object) && c.args.length === 1 ? this.branded(c.args[0]) : null;
  }

  // the readings of o as a write: { outer, operand, value }
  writes(s, o, k) {
    let a;
    if (s.nodeKind === 'MemberExpression') {
      if ((a = helper(o, 'superPropSet', 5))) k({ outer: o, operand: a[1], value: a[2] });
      return;
    }
    if ((a = helper(o, 'classPrivateFieldSet2', 3))) k({ outer: o, operand: a[1], value: a[2] });
    if (isType(o, 'SequenceExpression') && o.expressions.length === 3 && helper(o.expressions[2], 'readOnlyError', 1)) k({ outer: o, operand: o.expressions[0], value: o.expressions[1] });
    if (!isAssignment(o)) return;
    if (isMember(o.left, '_') && this.isTemporary(o.left.object)) {
      if ((a = helper(o.right, 'assertClassBrand', 3))) k({ outer: o, operand: a[1], value: a[2] });
      k({ outer: o, operand: null, value: o.right });
    }
    if (isMember(o.left, '_') && (a = this.setterOf(o.left.object))) k({ outer: o, operand: a, value: o.right });
    if ((a = this.loose(o.left))) k({ outer: o, operand: a, value: o.right });
  }

  // what a pattern writes to in the place of a private member
  targets(s, o, k) {
    if (!isMember(o, '_')) return;
    const a = helper(o.object, 'toSetter', 2), list = a && helperValue(a[0], 'classPrivateFieldSet2') && isType(a[1], 'ArrayExpression') && a[1].elements;
    if (list && list.length === 2) this.give(o, s, () => this.operand(s, [list[1]], k));
    const setter = this.setterOf(o.object);
    if (setter) this.give(o, s, () => this.operand(s, [setter], k));
    const all = isType(o.object, 'SequenceExpression') && o.object.expressions;
    if (all && all.length === 2 && helper(all[1], 'readOnlyError', 1)) this.give(o, s, () => this.operand(s, [all[0]], k));
  }

  // the places of the operand of a private member (its object) or of a member of `super` (its key), in preorder
  operand(s, places, k) {
    if (s.nodeKind !== 'MemberExpression') return this.duplicates(s.object, places, k);
    if (s.computed) return this.duplicates(s.property, places, k);
    if (places.every(n => isString(n, s.property.name))) k();
  }
  // an expression in places that stand for it: the first carries it, or keeps it in a temporary that the others read
  duplicates(s, places, k) {
    const [first, ...rest] = places.filter(n => n);
    if (!first) { if (isIdentifier(s) || isType(s, 'ThisExpression')) k(); return; }
    if (this.isKept(first) && rest.every(n => isIdentifier(n, first.left.name))) this.match(s, first.right, k);
    if (rest.every(n => same(n, first)) && (!rest.length || isCopied(first))) this.match(s, first, k);
  }

  assignment(s, o, k) {
    const operator = s.operator.slice(0, -1);
    if (operator === '') return this.writes(s.left, o, w => this.give(w.outer, s, () => this.operand(s.left, [w.operand], () => this.match(s.right, w.value, k))));
    if (['||', '&&', '??'].includes(operator)) {
      // `R(o1) op X(o2, v)`
      if (!isType(o, 'LogicalExpression') || o.operator !== operator) return;
      return this.reads(s.left, o.left, r => this.writes(s.left, o.right, w => this.give(o, s, () => this.give(r.outer, s.left, () =>
        this.operand(s.left, [r.operand, w.operand], () => this.match(s.right, w.value, k))))));
    }
    // `X(o1, R(o2) op v)`
    this.writes(s.left, o, w => {
      const sum = w.value;
      if (!isType(sum, 'BinaryExpression') || sum.operator !== operator) return;
      this.reads(s.left, sum.left, r => this.give(sum, s, () => this.give(r.outer, s.left, () =>
        this.operand(s.left, [w.operand, r.operand], () => this.match(s.right, sum.right, k)))));
    });
  }

  update(s, o, k) {
    const isUpdate = (n, t) => isType(n, 'UpdateExpression') && n.operator === s.operator && n.prefix === s.prefix && isIdentifier(n.argument, t);
    const parts = isType(o, 'SequenceExpression') ? o.expressions : [];
    // `(X(o1, (t = R(o2), u = t++, t)), u)`, `X(o1, (t = R(o2), ++t))`
    const write = s.prefix ? o : parts.length === 2 && this.isTemporary(parts[1]) ? parts[0] : null;
    if (!write) return;
    this.writes(s.argument, write, w => {
      const list = isType(w.value, 'SequenceExpression') ? w.value.expressions : [];
      if (!list.length || !this.isKept(list[0])) return;
      const t = list[0].left.name;
      let carrier = null;
      if (s.prefix && list.length === 2 && isUpdate(list[1], t)) carrier = list[1];
      if (!s.prefix && list.length === 3 && this.isKept(list[1]) && isIdentifier(parts[1], list[1].left.name) && isUpdate(list[1].right, t) && isIdentifier(list[2], t)) carrier = list[1].right;
      if (carrier) this.reads(s.argument, list[0].right, r => this.give(carrier, s, () => this.give(r.outer, s.argument, () => this.operand(s.argument, [w.operand, r.operand], k))));
    });
  }

  call(s, o, k) {
    if (!isType(o, 'CallExpression')) return;
    // `_super(a)`, `_super.call(super(a))`
    if (isType(s.callee, 'Super')) {
      if (this.isTemporary(o.callee)) this.give(o, s, () => this.zip(s.arguments, o.arguments, k));
      const c = methodCall(o, 'call'), inner = c && this.isTemporary(c.object) && c.args.length === 1 && c.args[0];
      if (isType(inner, 'CallExpression') && isType(inner.callee, 'Super')) this.give(o, s, () => this.match(s.callee, inner.callee, () => this.zip(s.arguments, inner.arguments, k)));
      return;
    }
    // `superPropGet(H, k, r, 2)([a])`
    if (s.callee.nodeKind === 'MemberExpression' && isType(s.callee.object, 'Super')) {
      const a = helper(o.callee, 'superPropGet', 4), list = o.arguments.length === 1 && isType(o.arguments[0], 'ArrayExpression') && o.arguments[0].elements;
      if (a && list) this.give(o, s, () => this.give(o.callee, s.callee, () => this.operand(s.callee, [a[1]], () => this.zip(s.arguments, list, k))));
      return;
    }
    // `R(o1).call(o2, a)`
    if (s.callee.nodeKind === 'PrivateField') {
      const c = methodCall(o, 'call');
      if (c && o.callee.optional === s.optional) this.reads(s.callee, c.object, r => this.give(o, s, () => this.give(r.outer, s.callee, () =>
        this.operand(s.callee, [r.operand, c.args[0]], () => this.zip(s.arguments, c.args.slice(1), k)))));
      return;
    }
    // a chain in parentheses that is called: `(T ? void 0 : r.bind(o))(a)`
    if (isType(s.callee, 'ChainExpression') && isType(o.callee, 'ConditionalExpression'))
      this.give(o, s, () => this.chain(s.callee, s.callee, o.callee, 'bound', () => this.zip(s.arguments, o.arguments, k)));
  }

  tagged(s, o, k) {
    if (!isType(o, 'TaggedTemplateExpression') || s.tag.nodeKind !== 'PrivateField') return;
    const c = methodCall(o.tag, 'bind');
    if (c) this.reads(s.tag, c.object, r => this.give(o, s, () => this.give(r.outer, s.tag, () => this.operand(s.tag, [r.operand, c.args[0]], () => this.match(s.quasi, o.quasi, k)))));
  }

  privateIn(s, o, k) {
    const c = methodCall(o, 'has'), a = c && this.isTemporary(c.object) && c.args.length === 1 && helper(c.args[0], 'checkInRHS', 1);
    if (a) this.give(o, s, () => this.match(s.right, a[0], k));
    const b = isType(o, 'BinaryExpression') && o.operator === '===' && helper(o.left, 'checkInRHS', 1);
    if (b) this.give(o, s, () => this.match(s.right, b[0], k));
  }

  unary(s, o, k) {
    if (s.operator !== 'delete') return;
    if (isType(s.argument, 'ThisExpression') && isType(o, 'Literal') && o.literal.value === true) k();
    if (isType(s.argument, 'ChainExpression') && isType(o, 'ConditionalExpression')) this.chain(s, s.argument, o, 'delete', k);
  }

  // `T ? void 0 : r`, `T ? true : delete r`; s is the chain, or the `delete` of it
  chain(s, chain, o, role, k) {
    const tested = this.tested(o.test), isDelete = role === 'delete';
    const middle = isDelete ? isType(o.consequent, 'Literal') && o.consequent.literal.value === true : isVoid(o.consequent);
    if (!tested || !middle) return;
    const parts = [];
    for (let n = chain.expression; n; n = n.object || n.callee || null) parts.push(n);
    for (const part of parts.filter(n => n.optional)) {
      const e = part.object || part.callee, last = tested[tested.length - 1], copy = this.isKept(last) ? last.left : last;
      const rest = spine(chain.expression, part, { hole: copy, type: e.type, nodeKind: e.nodeKind, num: e.num });
      let r = o.alternate;
      if (isDelete) { if (!isType(r, 'UnaryExpression') || r.operator !== 'delete') return; r = r.argument; }
      if (role === 'bound') { const c = methodCall(r, 'bind'); if (!c || c.args.length !== 1) return; r = c.object; }
      this.give(o, s, () => this.duplicates(e, tested, () => this.match(rest, r, k)));
    }
  }
  // what a test for null or undefined tests
  tested(n) {
    const isNull = m => isType(m, 'Literal') && m.literal.tag === 'Null', isTest = (m, op) => isType(m, 'BinaryExpression') && m.operator === op;
    if (isTest(n, '==') && isNull(n.right)) return [n.left];
    if (isType(n, 'LogicalExpression') && n.operator === '||' && isTest(n.left, '===') && isNull(n.left.right) && isTest(n.right, '===') && isVoid(n.right.right)) return [n.left.left, n.right.left];
    return null;
  }

  // ---- lists of statements

  // `frame`: of the class whose constructor has this body
  statements(ss, os, frame, k) {
    const anchors = [];
    const place = (i, from) => {
      if (i === ss.length) return this.anchored(ss, os, [...anchors], frame, k);
      for (let j = from; j <= os.length - (ss.length - i); j++) if (this.fits(ss[i], os[j])) { anchors.push(j); place(i + 1, j + 1); anchors.pop(); }
    };
    place(0, 0);
  }
  // whether a statement of the output may stand for one of the source
  fits(s, o) {
    if (s.type === 'ClassDeclaration' && isType(o, 'VariableDeclaration')) return o.kind === 'let' && o.declarations.length === 1 && s.id && isIdentifier(o.declarations[0].id, s.id.name);
    if (s.type !== o.type) return false;
    if (s.type === 'ClassDeclaration' || s.type === 'FunctionDeclaration') return !s.id || !o.id || s.id.name === o.id.name;
    if (s.type === 'VariableDeclaration') return s.kind === o.kind && s.declarations.length === o.declarations.length;
    if (s.type.startsWith('Export')) return !s.declaration || (!!o.declaration && this.fits(s.declaration, o.declaration));
    return true;
  }
  anchored(ss, os, anchors, frame, k) {
    const gaps = [...anchors, os.length].map((end, i) => os.slice(i ? anchors[i - 1] + 1 : 0, end).filter(n => !this.isBareDeclaration(n)));
    const initial = frame ? gaps.flatMap(gap => gap.filter(n => this.isInitializing(n))) : [];
    const left = frame ? gaps.map(gap => gap.filter(n => !this.isInitializing(n))) : gaps;
    const hasClass = n => n && (isClass(n) || (n.declaration && isClass(n.declaration)));
    // the statements that stand behind a class, and those in front of the next
    const split = (g, before, after) => {
      if (g === left.length) return this.anchoredItems(ss, os, anchors, before, after, () => this.initializers(initial, 0, frame, k));
      for (let cut = 0; cut <= left[g].length; cut++) {
        const behind = left[g].slice(0, cut), front = left[g].slice(cut);
        if (behind.length && g === 0) continue;
        if (front.length && !hasClass(ss[g])) continue;
        split(g + 1, [...before, front], [...after, behind]);
      }
    };
    split(0, [], []);
  }
  anchoredItems(ss, os, anchors, before, after, k) {
    this.all(ss.map((s, i) => next => {
      const o = os[anchors[i]], items = [...before[i], ...after[i + 1]];
      if (isClass(s)) return this.classStatement(s, o, items, next);
      if (s.declaration && isClass(s.declaration)) return this.give(o, s, () => this.members(s, o, MEMBERS[s.nodeKind].filter(m => m.name !== 'declaration'), () => this.classStatement(s.declaration, o.declaration, items, next)));
      // functions of the private methods of a class expression in this statement
      if (items.length && !items.every(n => n.type === 'FunctionDeclaration')) return;
      this.behind = [...(this.behind || []), items];
      const left = this.behind;
      this.match(s, o, () => { if (this.behind[left.length - 1].length === 0) { const saved = this.behind; this.behind = saved.slice(0, left.length - 1); next(); this.behind = saved; } });
      this.behind = left.slice(0, -1);
    }), k);
  }

  // `var _t;`, `var _x = new WeakMap();`
  isBareDeclaration(n) {
    return isType(n, 'VariableDeclaration') && n.declarations.every(d => this.isTemporary(d.id) && (!d.init || this.isStore(d.init)));
  }
  isStore(n) { return (isType(n, 'NewExpression') && isIdentifier(n.callee) && /^Weak(Map|Set)$/.test(n.callee.name)) || !!helper(n, 'classPrivateFieldLooseKey', 1); }

  // ---- constructors

  isInitializing(n) {
    const d = isType(n, 'VariableDeclaration') && n.declarations.length === 1 && n.declarations[0];
    return (d && this.isTemporary(d.id) && isType(d.init, 'ArrowFunctionExpression')) || this.definesThis(n);
  }
  definesThis(n) {
    const e = expressionOf(n), isThis = m => isType(m, 'ThisExpression');
    const a = helper(e, 'defineProperty', 3) || helper(e, 'classPrivateFieldInitSpec', 3) || helper(e, 'classPrivateMethodInitSpec', 2);
    if (a) return isThis(a[0]);
    const c = methodCall(e, 'defineProperty');
    if (c && isIdentifier(c.object, 'Object')) return isThis(c.args[0]);
    return isAssignment(e) && isType(e.left, 'MemberExpression') && isThis(e.left.object);
  }
  // the definitions of instance fields, one for one
  initializers(items, i, frame, k) {
    if (i === items.length) return k();
    const e = expressionOf(items[i]), next = () => this.initializers(items, i + 1, frame, k);
    if (isType(e, 'VariableDeclaration')) return this.innerSuper(e.declarations[0], frame, next);
    const brand = helper(e, 'classPrivateMethodInitSpec', 2);
    if (brand) return this.record(brand[1].name, { kind: 'Brand', number: frame.class.num }, next);
    const field = frame.fields[frame.defined];
    if (!field) return;
    frame.defined++;
    this.definition(field, e, next);
    frame.defined--;
  }
  // `var _super = (..._args) => (super(..._args), definitions, this)`
  innerSuper(d, frame, k) {
    const list = isType(d.init.body, 'SequenceExpression') ? d.init.body.expressions : [], last = list[list.length - 1];
    if (list.length < 2 || !isType(last, 'ThisExpression') || !this.isSuperOfAll(list[0])) return;
    this.record(d.id.name, { kind: 'SuperFn', number: frame.class.num }, () => this.record(list[0].arguments[0].argument.name, { kind: 'Args' }, () => this.initializers(list.slice(1, -1), 0, frame, k)));
  }
  isSuperOfAll(n) { return isType(n, 'CallExpression') && isType(n.callee, 'Super') && n.arguments.length === 1 && isType(n.arguments[0], 'SpreadElement') && this.isTemporary(n.arguments[0].argument); }
  // `function() { "use strict"; definitions; return this; }`
  outerSuper(name, f, frame, k) {
    const body = f.body.body, last = body[body.length - 1];
    if (f.params.length || !isType(last, 'ReturnStatement') || !isType(last.argument, 'ThisExpression')) return;
    const list = body.slice(body[0].directive ? 1 : 0, -1);
    if (list.every(n => this.definesThis(n))) this.record(name, { kind: 'SuperFn', number: frame.class.num }, () => this.initializers(list, 0, frame, k));
  }
  // a constructor that the source lacks
  newConstructor(o, frame, k) {
    if (o.kind !== 'constructor') return;
    const body = o.value.body.body, parent = body.length && this.isSuperOfAll(expressionOf(body[0]));
    const go = () => this.initializers(body.slice(parent ? 1 : 0), 0, frame, k);
    if (!parent) return o.value.params.length ? undefined : go();
    this.record(expressionOf(body[0]).arguments[0].argument.name, { kind: 'Args' }, go);
  }
  oldConstructor(s, o, frame, k) {
    const f = s.value, g = o.value;
    this.give(o, s, () => this.members(s, o, MEMBERS.MethodDefinition.filter(m => m.name !== 'value'), () => this.give(g, f, () =>
      this.zip(f.params, g.params, () => this.give(g.body, f.body, () => this.statements(f.body.body, g.body.body, frame, k))))));
  }

  // ---- classes

  classStatement(s, o, items, k) {
    if (isClass(o)) return this.matchClass(s, o, items, k);
    // `let C = ..`
    const d = isType(o, 'VariableDeclaration') && o.declarations[0];
    if (d && d.init) this.give(d.id, s.id, () => this.classExpression(s, d.init, items, k));
    else if (o.type !== 'VariableDeclaration') this.classExpression(s, o, items, k);
  }

  // a class, and the forms that it stands in; items: what stands around it
  classExpression(s, o, items, k) {
    if (isClass(o)) return this.matchClass(s, o, items, k);
    if (isType(o, 'SequenceExpression')) {
      o.expressions.forEach((part, i) => { if (holdsClass(part)) this.classExpression(s, part, [...o.expressions.slice(0, i), ...o.expressions.slice(i + 1), ...items], k); });
    }
    if (this.isKept(o)) this.record(o.left.name, { kind: 'ClassTemp', number: s.num }, () => this.classExpression(s, o.right, items, k));
    // `({ "C": class })["C"]`
    if (isType(o, 'MemberExpression') && o.computed && isType(o.object, 'ObjectExpression') && o.object.properties.length === 1) this.classExpression(s, o.object.properties[0].value, items, k);
    // `((_name, _object) => _object[_name])(_key, { [_key]: class })`
    const named = calledArrow(o, 2);
    if (named && isType(o.arguments[1], 'ObjectExpression') && o.arguments[1].properties.length === 1)
      this.record(named.params[0].name, { kind: 'Param' }, () => this.record(named.params[1].name, { kind: 'Param' }, () => this.classExpression(s, o.arguments[1].properties[0].value, items, k)));
    const arrow = calledArrow(o), body = arrow && isBlockStatement(arrow.body) && arrow.body.body, last = body && body[body.length - 1];
    if (body && isType(last, 'ReturnStatement') && last.argument && body.slice(0, -1).every(n => this.isBareDeclaration(n))) this.classExpression(s, last.argument, items, k);
  }

  matchClass(s, o, items, k) {
    this.give(o, s, () => this.classNames(s, o, () => this.nullable(s.superClass, o.superClass, () => this.give(o.body, s.body, () => {
      if (this.options.classProperties) this.lowered(s, o, items, k);
      else if (items.every(n => this.isClosureCall(n))) this.elements(s.body.body, o.body.body, s, k);
    }))));
  }
  classNames(s, o, k) {
    if (!s.id && !o.id) return k();
    if (!s.id) return this.record(o.id.name, { kind: 'ClassTemp', number: s.num }, k);
    if (!o.id || o.id.name !== s.id.name) return;
    // the name of the `let` has the number
    if (this.used.has(s.id.num)) return k();
    this.match(s.id, o.id, k);
  }

  // with class properties on
  lowered(s, o, items, k) {
    const isField = e => e.type === 'PropertyDefinition', isPrivate = e => e.key && e.key.type === 'PrivateIdentifier';
    const { removes, sets } = this.options, blocks = this.options.staticBlocks;
    const all = s.body.body, dropped = e => removes && sets && !isPrivate(e) && !e.value;
    const frame = {
      class: s, name: o.id && o.id.name, defined: 0, fields: all.filter(e => isField(e) && !e.static && !dropped(e)),
      pieces: [
        ...all.filter(e => isField(e) && e.computed).map(field => ({ key: field })),
        ...all.filter(e => (isField(e) && e.static && !dropped(e)) || (blocks && e.type === 'StaticBlock')).map(e => (isField(e) ? { field: e } : { block: e })),
      ],
      at: 0, methods: all.filter(e => e.type === 'MethodDefinition' && isPrivate(e)), moved: 0,
    };
    const stay = all.filter(e => !isField(e) && !isPrivate(e) && !(blocks && e.type === 'StaticBlock'));
    let out = o.body.body;
    const isConstructor = e => e.type === 'MethodDefinition' && e.kind === 'constructor';
    const fresh = !stay.some(isConstructor) && out.length && isConstructor(out[0]) ? out[0] : null;
    if (fresh) out = out.slice(1);
    if (out.length !== stay.length) return;
    this.region(items, 0, frame, () => {
      const rest = () => this.all(stay.map((e, i) => next => (isConstructor(e) ? this.oldConstructor(e, out[i], frame, next) : this.match(e, out[i], next))), () => { if (frame.defined === frame.fields.length) k(); });
      if (fresh) this.newConstructor(fresh, frame, rest); else rest();
    });
  }

  // what stands around a class: keys, static elements, functions of private methods, and what is new
  region(items, i, frame, k) {
    const piece = frame.pieces[frame.at];
    // a key that stays in the definition of its field
    if (piece && piece.key) {
      frame.at++; piece.key.inPlace = true;
      this.region(items, i, frame, k);
      frame.at--; piece.key.inPlace = false;
    }
    if (i === items.length) { if (!piece) this.functionsBehind(frame, k); return; }
    const item = items[i], next = () => this.region(items, i + 1, frame, k);
    this.freshItem(item, frame, next);
    this.functionItem(item, frame, next);
    if (!piece) return;
    frame.at++;
    if (piece.key) this.keyItem(piece.key, expressionOf(item), next);
    else if (piece.field) this.definition(piece.field, expressionOf(item), next);
    else this.blockItem(piece.block, item, next);
    frame.at--;
  }
  freshItem(item, frame, k) {
    const e = expressionOf(item);
    if (this.isTemporary(e)) return k();
    if (!this.isKept(e)) return;
    if (this.isStore(e.right)) k();
    // `_C = C`
    if (frame.name && isIdentifier(e.right, frame.name)) this.record(e.left.name, { kind: 'ClassTemp', number: frame.class.num }, k);
  }
  // `function _m() {}`, `_m = function() {}`, `let _super = function() {}`
  functionItem(item, frame, k) {
    const e = expressionOf(item), d = isType(e, 'VariableDeclaration') && e.declarations.length === 1 && e.declarations[0];
    const f = isType(e, 'FunctionDeclaration') ? e : d ? d.init : this.isKept(e) ? e.right : null;
    if (!f || !/^Function/.test(f.type)) return;
    const name = (f === e ? f.id : d ? d.id : e.left).name;
    if (f !== e) this.outerSuper(name, f, frame, k);
    if (!d) this.movedMethod(name, f, frame, k);
  }
  movedMethod(name, f, frame, k) {
    const m = frame.methods[frame.moved];
    if (!m) return;
    frame.moved++;
    const g = m.value;
    this.record(name, { kind: 'Method', number: m.key.num }, () => this.give(f, g, () => this.members(g, f, MEMBERS.FunctionExpression.filter(x => x.name !== 'id'), k)));
    frame.moved--;
  }
  // the functions of a class expression's private methods may stand behind the statement
  functionsBehind(frame, k) {
    if (frame.moved === frame.methods.length) return k();
    if (!this.behind) return;
    for (let i = this.behind.length - 1; i >= 0; i--) if (this.behind[i].length) {
      const saved = this.behind, f = saved[i][0];
      this.behind = saved.map((l, j) => (j === i ? l.slice(1) : l));
      this.movedMethod(f.id.name, f, frame, () => this.functionsBehind(frame, k));
      this.behind = saved;
      return;
    }
  }
  // `_k = key`, or the key alone
  keyItem(field, e, k) {
    if (this.isKept(e)) this.match(field.key, e.right, k);
    this.match(field.key, e, k);
  }

  // the definition of a field
  definition(field, e, k) {
    const isPrivate = field.key.type === 'PrivateIdentifier';
    const value = (v, next) => { if (!field.value) { if (isVoid(v)) next(); } else this.match(field.value, v, next); };
    if (!isPrivate) {
      const a = helper(e, 'defineProperty', 3);
      if (a) this.keyPlace(field, a[1], () => value(a[2], k));
      if (isAssignment(e) && isType(e.left, 'MemberExpression')) {
        if (e.left.computed) this.keyPlace(field, e.left.property, () => value(e.right, k));
        else if (!field.computed && isIdentifier(field.key, e.left.property.name)) value(e.right, k);
      }
      return;
    }
    const d = field.key.num, init = helper(e, 'classPrivateFieldInitSpec', 3);
    if (init) return this.record(init[1].name, { kind: 'WeakMap', number: d }, () => value(init[2], k));
    const c = methodCall(e, 'defineProperty');
    if (c && isIdentifier(c.object, 'Object')) return this.record(c.args[1].name, { kind: 'LooseKey', number: d }, () => value(c.args[2].properties[1].value, k));
    const declarator = isType(e, 'VariableDeclaration') && e.declarations.length === 1 && e.declarations[0];
    const [name, object] = declarator ? [declarator.id, declarator.init] : this.isKept(e) ? [e.left, e.right] : [];
    if (isType(object, 'ObjectExpression') && object.properties.length === 1 && isIdentifier(object.properties[0].key, '_')) this.record(name.name, { kind: 'StaticField', number: d }, () => value(object.properties[0].value, k));
  }
  keyPlace(field, o, k) {
    if (!field.computed && isType(field.key, 'Identifier')) { if (isString(o, field.key.name)) k(); return; }
    if (!field.computed || field.inPlace) return this.match(field.key, o, k);
    if (this.isTemporary(o)) k();
  }

  // a static block as an expression or as a statement
  blockItem(block, item, k) {
    const [first] = block.body;
    if (block.body.length === 1 && isType(first, 'ExpressionStatement') && isType(item, 'ExpressionStatement')) return this.match(first, item, k);
    this.blockExpression(block, expressionOf(item), k);
  }
  blockExpression(block, e, k) {
    if (block.body.length === 1 && isType(block.body[0], 'ExpressionStatement')) return this.match(block.body[0].expression, e, k);
    const arrow = calledArrow(e);
    if (arrow && isBlockStatement(arrow.body)) this.statements(block.body, arrow.body.body, null, k);
  }

  // ---- static blocks alone are lowered

  isClosureCall(n) { const e = expressionOf(n); return isType(e, 'CallExpression') && this.isTemporary(e.callee) && !e.arguments.length; }
  elements(ss, os, s, k) {
    const kept = this.options.staticBlocks ? ss.filter(e => e.type !== 'StaticBlock') : ss;
    const isStaticField = e => e.type === 'PropertyDefinition' && e.static;
    const last = ss.map(isStaticField).lastIndexOf(true);
    const blocksIn = (from, to) => (this.options.staticBlocks ? ss.slice(from, to).filter(e => e.type === 'StaticBlock') : []);
    const trailing = blocksIn(last + 1), extra = trailing.length && last < 0 ? 1 : 0;
    if (os.length !== kept.length + extra) return;
    let from = 0;
    const before = new Map(), behind = new Map();
    ss.forEach((e, i) => { if (isStaticField(e)) { before.set(e, blocksIn(from, i)); from = i; behind.set(e, i === last ? trailing : []); } });
    const steps = kept.map((e, i) => next => {
      if (isStaticField(e) && before.get(e).length + behind.get(e).length) this.fieldWithBlocks(e, os[i], before.get(e), behind.get(e), next);
      else this.match(e, os[i], next);
    });
    if (extra) steps.push(next => this.extraElement(os[os.length - 1], trailing, s, next));
    this.all(steps, k);
  }
  fieldWithBlocks(s, o, before, behind, k) {
    if (o.type !== 'PropertyDefinition' || !o.value) return;
    this.give(o, s, () => this.members(s, o, MEMBERS.PropertyDefinition.filter(m => m.name !== 'value'), () => {
      const value = (e, next) => {
        const list = before.length && isType(e, 'SequenceExpression') ? e.expressions : [e];
        if (list.length !== before.length + 1) return;
        const v = list[list.length - 1];
        this.all(before.map((b, i) => go => this.blockExpression(b, list[i], go)), () => { if (s.value) this.match(s.value, v, next); else if (isVoid(v)) next(); });
      };
      if (!behind.length) return value(o.value, k);
      // `((_value) => (_staticBlock = () => (blocks, this), _value))(v)`
      const arrow = calledArrow(o.value, 1), list = arrow && isType(arrow.body, 'SequenceExpression') ? arrow.body.expressions : [];
      if (list.length === 2 && isIdentifier(list[1], arrow.params[0].name)) this.record(list[1].name, { kind: 'Param' }, () => value(o.value.arguments[0], () => this.closure(list[0], behind, k)));
    }));
  }
  // `_staticBlock = () => (blocks, this)`
  closure(e, blocks, k) {
    const list = this.isKept(e) && isType(e.right, 'ArrowFunctionExpression') && isType(e.right.body, 'SequenceExpression') ? e.right.body.expressions : [];
    if (list.length !== blocks.length + 1 || !isType(list[blocks.length], 'ThisExpression')) return;
    this.record(e.left.name, { kind: 'Closure' }, () => this.all(blocks.map((b, i) => next => this.blockExpression(b, list[i], next)), k));
  }
  // `static #_ = _staticBlock = () => (blocks, this)`
  extraElement(o, blocks, s, k) {
    if (o.type !== 'PropertyDefinition' || !o.static || o.key.type !== 'PrivateIdentifier') return;
    const name = '#' + o.key.name;
    if (this.ledger.has(name)) return;
    this.ledger.set(name, { kind: 'Private', number: s.num });
    this.closure(o.value, blocks, k);
    this.ledger.delete(name);
  }
}

// what may stand twice: it has no event
function isCopied(n) { return ['Identifier', 'ThisExpression', 'Literal'].includes(n.type) || (isType(n, 'TemplateLiteral') && !n.expressions.length); }
// the helper itself, not called
function helperValue(n, name) { return isMember(n, name) && isIdentifier(n.object, 'babelHelpers'); }
// whether a class stands in a form, outside functions
function holdsClass(n) {
  if (isClass(n)) return true;
  if (isAssignment(n)) return holdsClass(n.right);
  if (isType(n, 'SequenceExpression')) return n.expressions.some(holdsClass);
  if (isType(n, 'MemberExpression') && isType(n.object, 'ObjectExpression')) return n.object.properties.some(p => holdsClass(p.value));
  if (isType(n, 'CallExpression') && isType(n.callee, 'ArrowFunctionExpression')) return true;
  return false;
}
// the chain n in which the part has no `?.` and the object or callee `hole`
function spine(n, part, hole) {
  const name = n.object ? 'object' : 'callee';
  return { ...n, optional: n === part ? false : n.optional, [name]: n === part ? hole : spine(n[name], part, hole) };
}

module.exports = { Matcher };
