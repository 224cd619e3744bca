// A pair for the checker, made by hand for any number of classes: each extends the one before it, and has a private field, a static field and a
// method that reads the private field.
//
//   class C1 extends C0 { #x = 1; static s = C1; m(o) { return o.#x; } }
//
// becomes, behind `var _C, _C2, ..;` at the head of the program,
//
//   var _x2 = new WeakMap();
//   class C1 extends C0 {
//     constructor(..._args) { super(..._args); babelHelpers.classPrivateFieldInitSpec(this, _x2, 1); }
//     m(o) { return babelHelpers.classPrivateFieldGet2(_x2, o); }
//   }
//   _C2 = C1;
//   babelHelpers.defineProperty(C1, 's', _C2);
//
// The members of each node stand in reading order (docs/JSON.md). Nodes of the output that stand for one of the source have its number; the others
// are numbered behind those of the source, in preorder.
'use strict';

const identifier = (name, node) => ({ type: 'Identifier', node, name });
const privateName = name => ({ type: 'PrivateIdentifier', name });
const number = (k, node) => ({ type: 'Literal', node, value: null, raw: String(k) });
const member = (object, property) => ({ type: 'MemberExpression', object, property, computed: false, optional: false });
const call = (callee, args, node) => ({ type: 'CallExpression', node, callee, arguments: args, optional: false });
const helper = (name, args, node) => call(member(identifier('babelHelpers'), identifier(name)), args, node);
const statement = expression => ({ type: 'ExpressionStatement', expression });
const fn = (params, body, node, block) => ({ type: 'FunctionExpression', node, id: null, params, body: { type: 'BlockStatement', node: block, body }, async: false, generator: false });
const method = (name, kind, value, node, key) => ({ type: 'MethodDefinition', node, key: identifier(name, key), value, kind, computed: false, static: false });
const field = (key, value, isStatic) => ({ type: 'PropertyDefinition', key, value, computed: false, static: isStatic });
const variable = declarations => ({ type: 'VariableDeclaration', kind: 'var', declarations });
const declarator = (name, init) => ({ type: 'VariableDeclarator', id: identifier(name), init });
const numbered = (base, k) => (k === 1 ? base : base + k);

// m(o) { return o.#x; }
const readOf = read => method('m', 'method', fn([identifier('o')], [{ type: 'ReturnStatement', argument: read }]));

function sourceClass(c) {
  const elements = [
    field(privateName('x'), number(c), false),
    field(identifier('s'), identifier(`C${c}`), true),
    readOf({ type: 'MemberExpression', object: identifier('o'), property: privateName('x'), computed: false, optional: false }),
  ];
  return { type: 'ClassDeclaration', id: identifier(`C${c}`), superClass: c > 0 ? identifier(`C${c - 1}`) : null, body: { type: 'ClassBody', body: elements } };
}

// where the class with number c begins in the source, and behind its heritage
const start = c => (c === 0 ? 1 : 19 * c);
const behind = c => 19 * c + 3;

function loweredClass(c) {
  const own = start(c), body = behind(c), map = numbered('_x', c + 1), args = numbered('_args', c);
  const initializer = statement(helper('classPrivateFieldInitSpec', [{ type: 'ThisExpression' }, identifier(map), number(c, body + 3)]));
  const parent = statement(call({ type: 'Super' }, [{ type: 'SpreadElement', argument: identifier(args) }]));
  const made = c === 0 ? fn([], [initializer]) : fn([{ type: 'RestElement', argument: identifier(args) }], [parent, initializer]);
  const read = helper('classPrivateFieldGet2', [identifier(map), identifier('o', body + 14)], body + 13);
  const reading = fn([identifier('o', body + 10)], [{ type: 'ReturnStatement', node: body + 12, argument: read }], body + 9, body + 11);
  const elements = [method('constructor', 'constructor', made), method('m', 'method', reading, body + 7, body + 8)];
  return {
    type: 'ClassDeclaration', node: own, id: identifier(`C${c}`, own + 1), superClass: c > 0 ? identifier(`C${c - 1}`, own + 2) : null,
    body: { type: 'ClassBody', node: body, body: elements },
  };
}

function loweredStatements(c) {
  const temp = numbered('_C', c + 1), key = { type: 'Literal', value: 's' };
  return [
    variable([declarator(numbered('_x', c + 1), { type: 'NewExpression', callee: identifier('WeakMap'), arguments: [] })]),
    loweredClass(c),
    statement({ type: 'AssignmentExpression', operator: '=', left: identifier(temp), right: identifier(`C${c}`) }),
    statement(helper('defineProperty', [identifier(`C${c}`), key, identifier(temp, behind(c) + 6)])),
  ];
}

// gives the nodes without a number the next ones, in preorder
function numberNew(node, next) {
  if (node.node === undefined) node.node = next.number++;
  for (const value of Object.values(node)) {
    for (const child of Array.isArray(value) ? value : [value]) if (child !== null && typeof child === 'object') numberNew(child, next);
  }
}

function chain(classes) {
  const all = Array.from({ length: classes }, (_, c) => c);
  const source = { type: 'Program', sourceType: 'script', body: all.map(sourceClass) };
  numberNew(source, { number: 0 });
  const temps = variable(all.map(c => declarator(numbered('_C', c + 1), null)));
  const lowered = { type: 'Program', node: 0, sourceType: 'script', body: [temps, ...all.flatMap(loweredStatements)] };
  numberNew(lowered, { number: 19 * classes });
  lowered.generated = [
    ...all.map(c => ({ name: numbered('_C', c + 1), kind: 'class', class: start(c) })),
    ...all.slice(1).map(c => ({ name: numbered('_args', c), kind: 'args' })),
    ...all.map(c => ({ name: numbered('_x', c + 1), kind: 'weakmap', member: behind(c) + 2 })),
  ];
  return [source, { ...lowered, warnings: [], outside: [] }];
}

module.exports = { chain };
