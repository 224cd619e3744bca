// Whether two builds of the program answer alike, byte for byte: 2,000 inputs are made, the answers of one build are
// recorded in a file, and those of another are held against it. For a change that is to keep every answer. Not in the gate.
//
//   node tools/mutants.js record PROGRAM FILE [FOLDER]     runs PROGRAM on each input and writes FILE: a line for each, with
//                                                          its index, the status, and the first 16 hex digits of the SHA-256
//                                                          of what was printed. FOLDER gets what was printed, as NNNN.out
//   node tools/mutants.js compare PROGRAM FILE [FOLDER]    runs PROGRAM on each input, and prints how many answers agree with
//                                                          FILE, and with the bytes in FOLDER, and the first that do not.
//                                                          The status is 1 if any differs
//   node tools/mutants.js show INDEX                       prints how an input was made, its arguments and its text
//
// An input is a seed with 0 to 3 mutations. The seeds are valid ESTree programs that stand in this file: scripts of classes
// of which each field has a string, a number, a truth value, null, a name or nothing as value, and programs with every other
// kind of node. A mutation changes the tree (a member removed, renamed, repeated, swapped or made anew, a subtree put
// elsewhere, another `type`, odd numbers, depth) or the text (cut, other bytes, white space). A fifth of the inputs goes
// through all members of all kinds, one after another, and removes or replaces one. Nothing else is read, and every choice
// comes from numbers that are made of an input's index, so the inputs are the same on every machine. An edit of a seed or of
// a mutation changes them: then the answers are to be recorded anew, by a build of before.
const { spawn } = require('child_process');
const crypto = require('crypto');
const fs = require('fs');
const path = require('path');

const INPUTS = 2000;
const AT_A_TIME = 4;
const SECONDS = 60;
const SHOWN = 10;

// ---- numbers that look random: the same sequence for the same seed

class Random {
  constructor(seed) {
    this.state = Math.imul(seed + 1, 0x9e3779b1) >>> 0;
  }

  // mulberry32: a whole number below 2^32
  next() {
    this.state = (this.state + 0x6d2b79f5) >>> 0;
    let mixed = Math.imul(this.state ^ (this.state >>> 15), this.state | 1);
    mixed ^= mixed + Math.imul(mixed ^ (mixed >>> 7), mixed | 61);
    return (mixed ^ (mixed >>> 14)) >>> 0;
  }

  below(count) {
    return Math.floor((this.next() / 0x100000000) * count);
  }

  between(least, most) {
    return least + this.below(most - least + 1);
  }

  chance(percent) {
    return this.below(100) < percent;
  }

  pick(list) {
    return list[this.below(list.length)];
  }

  // of pairs of a weight and a thing
  weighted(pairs) {
    let left = this.below(pairs.reduce((sum, [weight]) => sum + weight, 0));
    for (const [weight, thing] of pairs) {
      if (left < weight) return thing;
      left -= weight;
    }
  }

  shuffle(list) {
    for (let k = list.length - 1; k > 0; k--) {
      const other = this.below(k + 1);
      [list[k], list[other]] = [list[other], list[k]];
    }
  }
}

// ---- nodes of ESTree

const node = (type, members = {}) => ({ type, ...members });
const name = text => node('Identifier', { name: text });
const privateName = text => node('PrivateIdentifier', { name: text });

const literal = (value, raw) => node('Literal', { value, raw });
const string = text => literal(text, `'${text}'`);
const truth = value => literal(value, String(value));
const nothing = () => literal(null, 'null');
// the `value` of a number that is no whole one is left null, since a float is refused
const number = raw => literal(Number.isSafeInteger(Number(raw)) ? Number(raw) : null, raw);
const bigint = digits => ({ ...literal(null, `${digits}n`), bigint: digits });
const regexp = (pattern, flags) => ({ ...literal({}, `/${pattern}/${flags}`), regex: { pattern, flags } });

const field = (key, value, more) => node('PropertyDefinition', { static: false, computed: false, key, value, ...more });
const method = (key, value, more) => node('MethodDefinition', { static: false, computed: false, key, kind: 'method', value, ...more });
const staticBlock = (...body) => node('StaticBlock', { body });
const classBody = body => node('ClassBody', { body });
const classOf = (id, elements, superClass = null) =>
  node('ClassDeclaration', { id: id && name(id), superClass, body: classBody(elements) });
const classExpression = (...parts) => ({ ...classOf(...parts), type: 'ClassExpression' });

const expression = it => node('ExpressionStatement', { expression: it });
const empty = () => node('EmptyStatement');
const block = (...body) => node('BlockStatement', { body });
const returns = argument => node('ReturnStatement', { argument });
// with a block as its body, where no other is given
const bodied = (type, members) => node(type, { body: block(), ...members });
const declarator = (id, init = null) => node('VariableDeclarator', { id, init });
const declares = (kind, ...declarations) => node('VariableDeclaration', { kind, declarations });
const functionOf = (id, params, body, more) =>
  node('FunctionDeclaration', { id: id && name(id), params, body: block(...body), async: false, generator: false, expression: false, ...more });
const functionExpression = (params = [], body = [], more = {}) => ({ ...functionOf(null, params, body, more), type: 'FunctionExpression' });
const arrow = (params, body, async = false) =>
  node('ArrowFunctionExpression', { id: null, params, body, async, generator: false, expression: body.type !== 'BlockStatement' });

const member = (object, property, computed, optional) => node('MemberExpression', { object, property, computed, optional });
const dot = (object, text, optional = false) => member(object, typeof text === 'string' ? name(text) : text, false, optional);
const item = (object, property, optional = false) => member(object, property, true, optional);
const call = (callee, ...args) => node('CallExpression', { callee, arguments: args, optional: false });
const construct = (callee, ...args) => node('NewExpression', { callee, arguments: args });
const chain = it => node('ChainExpression', { expression: it });
const binary = (left, operator, right) => node('BinaryExpression', { left, operator, right });
const logical = (left, operator, right) => node('LogicalExpression', { left, operator, right });
const unary = (operator, argument) => node('UnaryExpression', { operator, prefix: true, argument });
const update = (operator, argument, prefix) => node('UpdateExpression', { operator, prefix, argument });
const assign = (left, right, operator = '=') => node('AssignmentExpression', { left, operator, right });
const array = (...elements) => node('ArrayExpression', { elements });
const object = (...properties) => node('ObjectExpression', { properties });
const property = (key, value, more) =>
  node('Property', { key, value, kind: 'init', method: false, shorthand: false, computed: false, ...more });
const spread = argument => node('SpreadElement', { argument });
const rest = argument => node('RestElement', { argument });
const quasi = (raw, tail, cooked = raw) => node('TemplateElement', { value: { raw, cooked }, tail });
const template = (quasis, ...expressions) => node('TemplateLiteral', { quasis, expressions });
const objectPattern = (...properties) => node('ObjectPattern', { properties });
const arrayPattern = (...elements) => node('ArrayPattern', { elements });
const byDefault = (left, right) => node('AssignmentPattern', { left, right });
const self = () => node('ThisExpression');
const foreign = type => node(type);

const scriptOf = (...body) => node('Program', { body, sourceType: 'script' });
const moduleOf = (...body) => node('Program', { body, sourceType: 'module' });

// ---- seeds: scripts of classes with fields alone, which are lowered

const a = () => name('a');
const x = () => name('x');
const one = () => number('1');
const times = (count, make) => Array.from({ length: count }, (_, k) => make(k));
const fieldsOf = values => Object.entries(values).map(([key, value]) => field(name(key), value));
const classWith = values => scriptOf(classOf('C', fieldsOf(values)));
const fourValues = k => [null, number(String(k)), string(`text ${k}`), name('elsewhere')][k % 4];

const classSeeds = {
  'the example': () => scriptOf(classOf('Point', fieldsOf({ x: number('0'), y: number('0'), label: null }))),
  'no statement': () => scriptOf(),
  'a class without elements': () => scriptOf(classOf('C', [])),
  'a string': () => classWith({ x: string('a') }),
  'strings': () => classWith({
    empty: string(''),
    quotes: literal('"\'`\\', '"\\"\'`\\\\"'),
    controls: literal('\u0000\b\t\n\f\r\u001f\u007f\u2028', "'..'"),
    letters: string('é ß Ω 漢 𠮷 \u{1f600}'),
    noRaw: node('Literal', { value: 'a' }),
    long: string('abc'.repeat(200)),
  }),
  'a number': () => classWith({ x: one() }),
  'numbers': () => classWith({
    zero: number('0'), fraction: number('.5'), hex: number('0x1F'), separated: number('1_000'), large: number('9007199254740993'),
    exponent: number('1e400'), legacy: number('010'), noRaw: node('Literal', { value: 42 }), noValue: node('Literal', { raw: '7' }),
  }),
  'truth values': () => classWith({ yes: truth(true), no: truth(false), noRaw: node('Literal', { value: true }) }),
  'null': () => classWith({ x: nothing(), noRaw: node('Literal', { value: null }) }),
  'names': () => classWith({ x: name('y'), y: x(), z: name('undefined'), u: name('NaN') }),
  'no values': () => classWith({ x: null, y: null }),
  'members that are absent': () => scriptOf({
    ...classOf('C', [node('PropertyDefinition', { key: x() }), node('PropertyDefinition', { key: name('y') })]),
    superClass: undefined,
  }),
  'each sort of value': () => classWith({ a: string('s'), b: number('3'), c: truth(true), d: nothing(), e: name('elsewhere'), f: null }),
  'one name twice': () => scriptOf(classOf('C', [field(x(), one()), field(x(), number('2'))])),
  'names of keys': () => scriptOf(classOf('C', [
    'static', 'get', 'set', 'async', 'prototype', 'name', '__proto__', '$', '_', 'ünïcode', '𠮷', 'class', 'C', 'Object', 'arguments',
  ].map(text => field(name(text), one())))),
  'two classes': () => scriptOf(classOf('C', [field(x(), one())]), classOf('D', [field(name('y'), string('a'))])),
  'classes with fields and without': () => scriptOf(
    classOf('A', []), classOf('B', [field(x(), null)]), classOf('C', []), classOf('D', fieldsOf({ x: a(), y: nothing() })), classOf('E', []),
  ),
  'many classes': () => scriptOf(...times(12, k => classOf(`Class${k}`, times(k % 5, f => field(name(`field${f}`), number(String(k * f))))))),
  'many fields': () => scriptOf(classOf('Wide', times(40, k => field(name(`f${k}`), fourValues(k))))),
  'a large program': () => scriptOf(...times(40, k => classOf(`Large${k}`, times(10, f => field(name(`field${f}`), fourValues(k + f)))))),
};

const fieldNames = ['x', 'y', 'z', 'count', 'label', 'next', 'of', 'type', 'value', 'ä', 'static', 'toString', 'length'];
const valueMakers = [
  random => string(random.pick(['', 'a', 'text', 'ö', '\u{1f600}', 'a\nb', '</script>', '\\'])),
  random => number(random.pick(['0', '1', '7', '255', '1.5', '.25', '0b11', '0o17', '0xFF', '1e3', '123456789012'])),
  random => truth(random.chance(50)),
  () => nothing(),
  random => name(random.pick(['undefined', 'elsewhere', 'a', 'b', 'globalThis', 'Infinity'])),
  () => null,
];
const madeField = random => field(name(random.pick(fieldNames)), random.pick(valueMakers)(random));
const madeClass = (random, id) => classOf(id, times(random.below(6), () => madeField(random)));
const madeClasses = (random, prefix) => times(random.between(1, 5), k => madeClass(random, `${prefix}${k}`));

// ---- seeds: every other kind of node

const sum = () => binary(a(), '+', one());
const get = (key, ...body) => method(key, functionExpression([], body), { kind: 'get' });
const short = text => property(name(text), name(text), { shorthand: true });
const inFunction = (...body) => scriptOf(functionOf('f', [], body));
const inGenerator = (...body) => scriptOf(functionOf('f', [], body, { generator: true }));
const inAsync = (...body) => scriptOf(functionOf('f', [], body, { async: true }));
const elements = (...list) => scriptOf(classOf('C', list));
const valued = value => classWith({ x: value });
const inMethod = (...body) => elements(field(privateName('p'), null), method(name('m'), functionExpression([], body)));
const expressions = (...list) => scriptOf(...list.map(expression));
const privateP = of => dot(of, privateName('p'));

const binaryOperators = [
  '==', '!=', '===', '!==', '<', '<=', '>', '>=', '<<', '>>', '>>>', '+', '-', '*', '/', '%', '**', '|', '^', '&', 'in', 'instanceof',
];
const assignmentOperators = ['=', '+=', '-=', '*=', '/=', '%=', '**=', '<<=', '>>=', '>>>=', '|=', '^=', '&=', '||=', '&&=', '??='];

const otherSeeds = {
  // classes that are nearly of the form
  'a class that extends': () => scriptOf(classOf('C', [field(x(), one())], name('B'))),
  'a class that extends null': () => scriptOf(classOf('C', [], nothing())),
  'a class of a name that is taken': () => scriptOf(classOf('C', []), classOf('C', [field(x(), null)])),
  'classes named as helpers': () => scriptOf(classOf('Object', [field(x(), null)]), classOf('WeakMap', [])),
  'a field named constructor': () => elements(field(name('constructor'), one())),
  'a value that names a class': () => scriptOf(classOf('C', [field(x(), name('D'))]), classOf('D', [])),
  'a value that names arguments': () => valued(name('arguments')),
  'static fields': () => elements(field(x(), one(), { static: true }), field(name('y'), null)),
  'keys that are literals': () => elements(field(string('x y'), null), field(one(), null), field(bigint('2'), null)),
  'computed keys': () => elements(
    field(name('k'), one(), { computed: true }), field(sum(), null, { computed: true }),
    method(item(a(), name('b')), functionExpression(), { computed: true }),
  ),
  'private members': () => elements(
    field(privateName('p'), one()), field(privateName('s'), null, { static: true }), method(privateName('m'), functionExpression()),
    get(privateName('g'), returns(privateP(self()))), method(name('has'), functionExpression([name('o')], [returns(binary(privateName('p'), 'in', name('o')))])),
  ),
  'static blocks': () => elements(staticBlock(), staticBlock(expression(assign(dot(self(), 'x'), one())))),
  'methods': () => elements(
    method(name('constructor'), functionExpression([a()]), { kind: 'constructor' }), method(name('m'), functionExpression([], [], { generator: true })),
    get(name('g'), returns(one())), method(name('s'), functionExpression([name('v')]), { kind: 'set', static: true }),
  ),
  'super': () => scriptOf(classOf('C', [
    method(name('constructor'), functionExpression([], [expression(call(node('Super')))]), { kind: 'constructor' }),
    method(name('m'), functionExpression([], [returns(dot(node('Super'), 'm'))])),
  ], name('B'))),
  'a value that is a call': () => valued(call(name('f'), a(), spread(name('b')))),
  'a value that is this': () => valued(self()),
  'a value that is a function': () => valued(functionExpression([a()], [returns(a())])),
  'a value that is an arrow': () => valued(arrow([a()], sum())),
  'a value that is a regular expression': () => valued(regexp('a.b', 'gi')),
  'a value that is a bigint': () => valued(bigint('12345678901234567890')),
  'a value that is an object': () => valued(object(property(a(), one()), spread(name('b')))),
  'a value that is a template': () => valued(template([quasi('a', false), quasi('b', true)], name('c'))),
  'a value with an operator': () => valued(unary('-', one())),
  'classes below statements': () => scriptOf(block(classOf('C', [field(x(), null)]))),
  'class expressions': () => expressions(assign(a(), classExpression('B', [field(x(), one())])), classExpression(null, [], call(name('mixin')))),
  // statements
  'expressions and directives': () => scriptOf({ ...expression(string('use strict')), directive: 'use strict' }, expression(a()), expression(string('b'))),
  'small statements': () => scriptOf(empty(), node('DebuggerStatement'), block(), block(empty())),
  'with': () => scriptOf(bodied('WithStatement', { object: a() })),
  'return and throw': () => inFunction(node('ThrowStatement', { argument: construct(name('Error')) }), returns(null), returns(sum())),
  'labels': () => scriptOf(node('LabeledStatement', {
    label: name('l'),
    body: bodied('WhileStatement', {
      test: truth(true),
      body: block(...['BreakStatement', 'ContinueStatement'].flatMap(type => [node(type, { label: name('l') }), node(type, { label: null })])),
    }),
  })),
  'if': () => scriptOf(
    node('IfStatement', { test: a(), consequent: expression(name('b')), alternate: null }),
    node('IfStatement', { test: a(), consequent: block(), alternate: empty() }),
  ),
  'switch': () => scriptOf(node('SwitchStatement', {
    discriminant: a(),
    cases: [
      node('SwitchCase', { test: one(), consequent: [expression(name('b')), node('BreakStatement', { label: null })] }),
      node('SwitchCase', { test: null, consequent: [] }),
    ],
  })),
  'try': () => scriptOf(
    node('TryStatement', { block: block(), handler: node('CatchClause', { param: name('e'), body: block() }), finalizer: null }),
    node('TryStatement', { block: block(), handler: node('CatchClause', { param: null, body: block() }), finalizer: block(expression(a())) }),
    node('TryStatement', { block: block(), handler: node('CatchClause', { param: objectPattern(short('message')), body: block() }) }),
  ),
  'while': () => scriptOf(bodied('WhileStatement', { test: a(), body: empty() }), bodied('DoWhileStatement', { test: a() })),
  'for': () => scriptOf(
    bodied('ForStatement', {
      init: declares('let', declarator(name('i'), number('0'))), test: binary(name('i'), '<', number('9')), update: update('++', name('i'), false),
    }),
    bodied('ForStatement', { init: null, test: null, update: null, body: empty() }),
    bodied('ForStatement', { init: assign(name('i'), number('0')), test: null, update: null }),
  ),
  'for in': () => scriptOf(
    bodied('ForInStatement', { left: declares('const', declarator(name('k'))), right: name('o') }),
    bodied('ForInStatement', { left: dot(a(), 'b'), right: name('o'), body: empty() }),
  ),
  'for of': () => scriptOf(
    bodied('ForOfStatement', { left: declares('var', declarator(arrayPattern(name('k'), name('v')))), right: name('o'), await: false }),
    bodied('ForOfStatement', { left: arrayPattern(a(), dot(name('b'), 'c')), right: name('o'), await: false }),
  ),
  'for await': () => inAsync(bodied('ForOfStatement', { left: declares('const', declarator(name('k'))), right: name('o'), await: true })),
  'variables': () => scriptOf(
    declares('var', declarator(a()), declarator(name('b'), one())), declares('let', declarator(name('c'))), declares('const', declarator(name('d'), string('x'))),
  ),
  'functions': () => scriptOf(
    functionOf('f', [a(), byDefault(name('b'), one()), rest(name('c'))], [returns(a())]), functionOf('g', [], [], { async: true, generator: true }),
  ),
  'arrows': () => expressions(arrow([], block()), arrow([objectPattern(), rest(arrayPattern(a()))], object(), true)),
  'yield': () => inGenerator(...[null, a()].map(argument => expression(node('YieldExpression', { argument, delegate: argument !== null })))),
  'await': () => inAsync(expression(node('AwaitExpression', { argument: a() }))),
  // patterns
  'patterns that declare': () => scriptOf(declares('let',
    declarator(objectPattern(
      short('a'), property(string('b'), byDefault(name('c'), one())), property(name('k'), arrayPattern(), { computed: true }), rest(name('d')),
    ), name('o')),
    declarator(arrayPattern(name('e'), null, byDefault(objectPattern(), object()), rest(name('f'))), name('o')),
  )),
  'patterns that assign': () => expressions(
    assign(objectPattern(property(a(), dot(name('b'), 'c')), property(name('d'), byDefault(name('d'), one()), { shorthand: true }), rest(name('e'))), name('o')),
    assign(arrayPattern(a(), null, item(name('b'), one()), byDefault(arrayPattern(name('c')), array()), rest(dot(name('d'), 'e'))), name('o')),
  ),
  // expressions
  'arrays': () => expressions(array(one(), null, spread(a()), array())),
  'objects': () => expressions(object(
    short('a'), property(string('b'), one()), property(number('2'), number('3')), property(sum(), truth(true), { computed: true }),
    property(name('m'), functionExpression(), { method: true }), property(name('g'), functionExpression(), { kind: 'get' }),
    property(name('s'), functionExpression([name('v')]), { kind: 'set' }), spread(name('r')),
  )),
  'literals': () => expressions(string('a b'), number('.5'), truth(false), nothing(), bigint('0x1f'), regexp('[a-z]+', 'u')),
  'templates': () => expressions(
    template([quasi('', true)]), template([quasi('a', false), quasi('\\n', true, '\n')], sum()),
    node('TaggedTemplateExpression', { tag: name('t'), quasi: template([quasi('\\u', true, null)]) }),
  ),
  'members and calls': () => expressions(
    dot(a(), 'b'), item(a(), string('b')), call(dot(a(), 'b'), name('c')), construct(dot(a(), 'B'), one(), spread(name('c'))),
  ),
  'chains': () => expressions(
    chain(dot(a(), 'b', true)), chain({ ...call(dot(a(), 'b', true)), optional: true }), chain(item(dot(a(), 'b', true), one())),
  ),
  'unary operators': () => expressions(...['-', '+', '!', '~', 'typeof', 'void', 'delete'].map(operator => unary(operator, a()))),
  'updates': () => expressions(update('++', a(), true), update('--', dot(a(), 'b'), false), update('++', item(a(), one()), false)),
  'binary operators': () => expressions(...binaryOperators.map(operator => binary(a(), operator, name('b')))),
  'logical operators': () => expressions(...['||', '&&', '??'].map(operator => logical(a(), operator, name('b')))),
  'assignments': () => expressions(...assignmentOperators.map(operator => assign(a(), one(), operator))),
  'conditions and sequences': () => expressions(
    node('ConditionalExpression', { test: a(), consequent: name('b'), alternate: name('c') }), node('SequenceExpression', { expressions: [a(), sum(), self()] }),
  ),
  'calls of import': () => expressions(node('ImportExpression', { source: string('m'), options: null })),
  'new.target': () => inFunction(returns(node('MetaProperty', { meta: name('new'), property: name('target') }))),
  'private names': () => inMethod(
    expression(assign(privateP(self()), one())), expression(update('++', privateP(self()), false)),
    expression(chain(dot(name('o'), privateName('p'), true))), returns(binary(privateName('p'), 'in', name('o'))),
  ),
  'private names in patterns': () => inMethod(
    expression(assign(arrayPattern(privateP(self())), name('o'))), expression(assign(objectPattern(property(a(), privateP(self()))), name('o'))),
  ),
  'foreign nodes': () => scriptOf(
    foreign('TSInterfaceDeclaration'), classOf('C', [foreign('AccessorProperty'), field(name('y'), foreign('TSAsExpression'))]),
    expression(foreign('JSXElement')), functionOf('f', [foreign('TSParameterProperty')], []),
  ),
  'members that are foreign': () => scriptOf(
    { ...classOf('C', [{ ...field(x(), one()), typeAnnotation: foreign('TSTypeAnnotation') }]), decorators: [node('Decorator', { expression: a() })] },
    expression(node('ImportExpression', { source: string('m'), options: object() })),
  ),
  // modules
  'an empty module': () => moduleOf(),
  'a module of a class': () => moduleOf(classOf('C', [field(x(), one())])),
  'imports': () => moduleOf(
    node('ImportDeclaration', { specifiers: [], source: string('m') }),
    node('ImportDeclaration', { specifiers: [node('ImportNamespaceSpecifier', { local: name('n') })], source: string('m') }),
    node('ImportDeclaration', {
      specifiers: [
        node('ImportDefaultSpecifier', { local: name('d') }), node('ImportSpecifier', { imported: a(), local: a() }),
        node('ImportSpecifier', { imported: string('b c'), local: name('b') }),
      ],
      source: string('m'), attributes: [],
    }),
  ),
  'exports of declarations': () => moduleOf(
    node('ExportNamedDeclaration', { declaration: classOf('C', [field(x(), null)]), specifiers: [], source: null }),
    node('ExportNamedDeclaration', { declaration: declares('const', declarator(a(), one())), specifiers: [], source: null }),
  ),
  'exports by default': () => moduleOf(
    ...[classOf(null, []), functionOf(null, [], []), sum(), arrow([], block())].map(declaration => node('ExportDefaultDeclaration', { declaration })),
  ),
  'exports of names': () => moduleOf(
    node('ExportNamedDeclaration', { declaration: null, specifiers: [node('ExportSpecifier', { local: a(), exported: name('b') })], source: null }),
    node('ExportNamedDeclaration', {
      declaration: null,
      specifiers: [node('ExportSpecifier', { local: a(), exported: string('b') }), node('ExportSpecifier', { local: string('c'), exported: name('d') })],
      source: string('m'),
    }),
  ),
  'exports of all': () => moduleOf(
    ...[null, name('n'), string('s')].map(exported => node('ExportAllDeclaration', { exported, source: string('m') })),
    node('ExportAllDeclaration', { exported: null, source: string('m'), attributes: [node('ImportAttribute')] }),
  ),
  'what modules have alone': () => moduleOf(
    expression(node('MetaProperty', { meta: name('import'), property: name('meta') })), expression(node('AwaitExpression', { argument: a() })),
    bodied('ForOfStatement', { left: declares('const', declarator(name('k'))), right: name('o'), await: true }),
  ),
};

// ---- what parsers write beside, and in which order

function eachNode(value, visit) {
  if (value === null || typeof value !== 'object') return;
  if (typeof value.type === 'string') visit(value);
  for (const below of Object.values(value)) eachNode(below, visit);
}

function withSpans(tree) {
  let at = 0;
  const walk = value => {
    if (value === null || typeof value !== 'object') return;
    const start = at++;
    for (const below of Object.values(value)) walk(below);
    if (typeof value.type === 'string') Object.assign(value, { start, end: at++ });
  };
  walk(tree);
}

function withNumbers(tree) {
  let next = 0;
  eachNode(tree, it => (it.node = next++));
}

function withPlaces(tree) {
  eachNode(tree, it => Object.assign(it, { loc: { start: { line: 1, column: 0 }, end: { line: 1, column: 9 } }, range: [0, 9] }));
}

// as parsers write that know TypeScript
function withEmptyTypes(tree) {
  const extras = {
    PropertyDefinition: { decorators: [], declare: false, override: false, optional: false, definite: false, readonly: false, typeAnnotation: null },
    ClassDeclaration: { decorators: [], typeParameters: null, superTypeArguments: null, implements: [], abstract: false, declare: false },
    Identifier: { decorators: [], optional: false, typeAnnotation: null },
    Program: { hashbang: null, comments: [] },
  };
  eachNode(tree, it => Object.assign(it, { ...extras[it.type], ...it }));
}

function withMembersInOrder(tree, order) {
  eachNode(tree, it => {
    const entries = Object.entries(it);
    for (const [key] of entries) delete it[key];
    order(entries);
    for (const [key, value] of entries) it[key] = value;
  });
}

const withSortedMembers = tree => withMembersInOrder(tree, entries => entries.sort(([first], [second]) => (first < second ? -1 : 1)));
const withShuffledMembers = (tree, random) => withMembersInOrder(tree, entries => random.shuffle(entries));

const dressings = [
  [32, []],
  [16, [withSpans]],
  [10, [withNumbers]],
  [10, [withSpans, withNumbers]],
  [5, [withPlaces]],
  [5, [withEmptyTypes]],
  [4, [withEmptyTypes, withSpans, withPlaces]],
  [6, [withSpans, withNumbers, withSortedMembers]],
  [12, [withSpans, withShuffledMembers]],
];

// ---- documents: JSON that is written as it stands, with members that repeat and numbers of any form

// an object is { members: [[the text of its key, value], ..] }, a list { items: [value, ..] }, and all else { text }
const bare = text => ({ text });
const quoted = text => bare(JSON.stringify(text));
const listed = (...items) => ({ items });

function documentOf(value) {
  if (Array.isArray(value)) return listed(...value.map(documentOf));
  if (value === null || typeof value !== 'object') return bare(JSON.stringify(value));
  const entries = Object.entries(value).filter(([, below]) => below !== undefined);
  return { members: entries.map(([key, below]) => [JSON.stringify(key), documentOf(below)]) };
}

function copyOf(it) {
  if (it.items) return listed(...it.items.map(copyOf));
  return it.members ? { members: it.members.map(([key, below]) => [key, copyOf(below)]) } : bare(it.text);
}

function write(it) {
  if (it.items) return `[${it.items.map(write).join(',')}]`;
  return it.members ? `{${it.members.map(([key, below]) => `${key}:${write(below)}`).join(',')}}` : it.text;
}

const memberAt = (it, key) => it.members.find(([found]) => found === JSON.stringify(key));

function put(it, key, value) {
  const found = memberAt(it, key);
  if (found) found[1] = value;
  else it.members.push([JSON.stringify(key), value]);
}

function remove(it, ...gone) {
  it.members = it.members.filter(([key]) => !gone.includes(JSON.parse(key)));
}

// the text `type` of a node
function typeOf(it) {
  const found = it.members && memberAt(it, 'type');
  return found && found[1].text && found[1].text.startsWith('"') ? JSON.parse(found[1].text) : null;
}

// the places below it where a value stands
function spotsIn(it, found = []) {
  const add = (holder, key) => {
    found.push({ get: () => holder[key], set: value => (holder[key] = value) });
    spotsIn(holder[key], found);
  };
  if (it.items) it.items.forEach((_, k) => add(it.items, k));
  if (it.members) it.members.forEach(pair => add(pair, 1));
  return found;
}

const valuesIn = root => [root, ...spotsIn(root).map(spot => spot.get())];
const nodesIn = (root, type = null) => valuesIn(root).filter(it => typeOf(it) && (type === null || typeOf(it) === type));
const listsIn = (root, least = 0) => valuesIn(root).filter(it => it.items && it.items.length >= least);
const isWithin = (it, other) => valuesIn(other).includes(it);

// ---- what mutations put in

const kindNames = [...new Set([...Object.values(classSeeds), ...Object.values(otherSeeds)].flatMap(seed => nodesIn(documentOf(seed())).map(typeOf)))].sort();
const foreignNames = [
  'TSFoo', 'TS', 'TSAsExpression', 'JSXElement', 'JSX', 'JSXText', 'Decorator', 'AccessorProperty', 'ImportAttribute', 'TSX', 'JSXFragment',
];
const unknownNames = [
  'ParenthesizedExpression', 'Foo', '', 'program', 'Identifiers', 'ClassProperty', 'StringLiteral', 'ts', 'tsFoo', 'T', 'JS', 'Decorators',
  'PrivateName', 'File', 'Identifier ', 'BindingIdentifier', 'PrivateField',
];
const oddNumbers = [
  '1.5', '0.5', '-1.5', '1e3', '1E2', '1e-7', '1e308', '1e400', '-1e400', '1.0', '0.0', '-0', '-0.0', '0', '-1', '-9', '4294967294', '4294967295',
  '4294967296', '2147483648', '9007199254740993', '9223372036854775807', '9223372036854775808', '18446744073709551615', '18446744073709551616',
  '-9223372036854775808', '-9223372036854775809', '123456789012345678901234567890', '0.1e1', '100000000000000000000e-20',
];
const smallNumbers = ['0', '1', '2', '3', '5', '8', '40', '77', '4294967295'];
const namesOfMeaning = [
  'x', 'y', 'C', 'D', 'a', 'arguments', 'constructor', 'babelHelpers', 'WeakMap', 'WeakSet', 'Object', 'prototype', '__proto__', 'eval', 'undefined',
  '', ' ', 'a b', '#x', 'π', '\u0000', '\u2028', '\u{1f600}', 'constructor ', 'Arguments', 'n'.repeat(300),
];
const texts = [
  '', 'a', '"', '\\', '\n', '\u0000', '\u001f', '\u007f', 'é', '\u2029', '\u{10ffff}', 'null', 'true', '0', '1', '.5', '1n', "'x'", 'script', 'module',
  'init', 'get', 'constructor', 'method', 'var', '=', '+', 'in', '!', '++', '&&', '</script>', 'x'.repeat(1000),
];
const keys = [
  'type', 'name', 'value', 'raw', 'body', 'id', 'key', 'static', 'computed', 'superClass', 'sourceType', 'start', 'end', 'node', 'regex', 'bigint', 'kind',
  'expression', 'argument', 'left', 'right', 'operator', 'elements', 'properties', 'params', 'Type', 'nam', 'values', '', 'type ', '__proto__',
];
const operators = ['typeof', 'delete', '++', '--', '===', '>>>', '*', 'in', '&&', '??', '=', '+=', '??=', '|>', ''];

// members outside the rows that are dropped without more
const droppedMembers = [
  ['loc', { start: { line: 1, column: 0 }, end: null }], ['range', [0, 4]], ['parent', null], ['parent', node('Identifier')], ['declare', true],
  ['optional', true], ['definite', false], ['readonly', true], ['accessibility', 'private'], ['decorators', []], ['typeAnnotation', null],
  ['typeParameters', null], ['implements', []], ['comments', [{ type: 'Line', value: 'a' }]], ['hashbang', '#!node'], ['extra', { parenthesized: true }],
  ['options', null], ['list', [[foreign('TSFoo')]]], ['attributes', []], ['below', { a: foreign('TSFoo') }], ['', 1], ['constructor', 'x'],
  ['tsType', 'TSFoo'], ['innerComments', [1, null, 'TS', {}]], ['kinds', { type: 'Ts' }],
];
// and such as tell of TypeScript, JSX and import attributes, or may not be there
const tellingMembers = [
  ['typeAnnotation', node('TSTypeAnnotation', { typeAnnotation: foreign('TSStringKeyword') })], ['decorators', [node('Decorator', { expression: a() })]],
  ['decorators', [null, 1, foreign('Decorator')]], ['implements', [foreign('TSClassImplements')]], ['typeParameters', foreign('TSTypeParameterDeclaration')],
  ['attributes', [foreign('ImportAttribute')]], ['options', object()], ['options', true], ['anything', foreign('JSXText')], ['anything', { type: 'TS' }],
  ['anything', foreign('AccessorProperty')], ['directive', 'use strict'], ['directive', 3], ['computed', true], ['static', true], ['optional', true],
  ['superClass', name('B')], ['range', [0, 1.5]], ['loc', { start: { line: 1, column: 0.5 } }], ['extra', { a: [[{ b: 1e-9 }]] }],
  ['regex', { pattern: 'a', flags: '' }], ['bigint', '1'],
];
const madeElements = () => [
  field(x(), null, { static: true }), field(string('x'), null), field(x(), null, { computed: true }), field(privateName('x'), one()), field(x(), self()),
  field(regexp('a', ''), null), field(nothing(), null), method(name('m'), functionExpression()), staticBlock(), empty(), foreign('AccessorProperty'),
  foreign('TSIndexSignature'),
];

const otherValue = random => random.weighted([
  [4, () => quoted(random.pick(texts))],
  [3, () => bare(random.pick(oddNumbers))],
  [3, () => bare(random.pick(['true', 'false']))],
  [3, () => bare('null')],
  [2, () => documentOf(name('z'))],
  ...[() => listed(), () => listed(bare('null')), () => documentOf({}), () => documentOf([expression(name('z'))]), () => documentOf([foreign('TSFoo')]),
    () => documentOf({ a: 1.5 })].map(make => [1, make]),
])();

function ofSameSort(random, it) {
  if (it.text.startsWith('"')) return quoted(random.pick(texts));
  if (it.text === 'true' || it.text === 'false') return turned(it);
  return bare(it.text === 'null' ? 'null' : random.pick([...oddNumbers, ...smallNumbers]));
}
const turned = it => bare(it.text === 'true' ? 'false' : 'true');

function wrapped(depth, inside, wrap) {
  let it = inside;
  for (let k = 0; k < depth; k++) it = wrap(it);
  return it;
}
const inList = it => listed(it);
const inMember = it => ({ members: [['"a"', it]] });
// depths about the most that the format allows are as likely as all others
const depthOf = random => (random.chance(50) ? random.between(1, 110) : random.between(111, 130));

function roleOf(type) {
  if (/(Statement|Declaration)$/.test(type)) return 'statement';
  return /(Expression|Literal)$|^Identifier$/.test(type) ? 'expression' : type;
}

// ---- mutations of the tree: each answers whether it could be made

// changes one of these
function change(random, list, by) {
  if (!list.length) return false;
  by(random.pick(list));
  return true;
}

// changes a node: each `type` that occurs is as likely as another
function changeNode(random, root, by, fits = () => true) {
  const nodes = nodesIn(root).filter(fits);
  const type = random.pick([...new Set(nodes.map(typeOf))]);
  return change(random, nodes.filter(it => typeOf(it) === type), by);
}

const changeList = (random, root, least, by) => change(random, listsIn(root, least).map(it => it.items), by);
const insert = (random, list, it) => list.splice(random.below(list.length + 1), 0, it);
const fieldsIn = root => nodesIn(root, 'PropertyDefinition');
const listsOfElements = root => nodesIn(root, 'ClassBody').map(it => (memberAt(it, 'body') || [])[1]).filter(it => it && it.items);
const bodyIn = root => (root.members ? [memberAt(root, 'body')] : []).filter(found => found && found[1].items).map(([, list]) => list.items);
const spotsOfNodes = (root, role = null) => spotsIn(root).filter(it => typeOf(it.get()) && (role === null || roleOf(typeOf(it.get())) === role));

// such as leave most programs valid
const gentleTree = {
  'members in another order': (random, root) => changeNode(random, root, it => random.shuffle(it.members)),
  'a member that is dropped': (random, root) => changeNode(random, root, it => {
    const [key, value] = random.pick(droppedMembers);
    insert(random, it.members, [JSON.stringify(key), documentOf(value)]);
  }),
  'a deep member that is dropped': (random, root) => changeNode(random, root, it => {
    const inside = bare(random.pick(['null', '1', '"a"', '[]', '{}', '-7', '1.5']));
    insert(random, it.members, ['"deep"', wrapped(depthOf(random), inside, random.pick([inList, inMember]))]);
  }),
  'a member repeated as it is': (random, root) => changeNode(random, root, it => {
    const [key, value] = random.pick(it.members);
    insert(random, it.members, [key, copyOf(value)]);
  }),
  'a member repeated in front, with another value': (random, root) => changeNode(random, root, it => {
    const at = random.below(it.members.length);
    it.members.splice(random.below(at + 1), 0, [it.members[at][0], otherValue(random)]);
  }),
  'numbers of nodes'(random, root) {
    const same = random.pick(smallNumbers);
    const odd = ['-1', '4294967296', '"3"', 'null', 'true', '[]', '{}', same];
    const way = random.pick([() => same, () => random.pick(smallNumbers), () => random.pick(odd)]);
    for (const it of nodesIn(root)) if (random.chance(70)) put(it, 'node', bare(way()));
    return true;
  },
  'a span': (random, root) => changeNode(random, root, it => {
    const ends = [...smallNumbers, '-1', '4294967296', 'null', '"1"', '18446744073709551615'];
    for (const key of ['start', 'end']) if (random.chance(85)) put(it, key, bare(random.pick(ends)));
  }),
  'a span removed': (random, root) => changeNode(random, root, it => remove(it, ...random.pick([['start'], ['end'], ['start', 'end']])),
    it => memberAt(it, 'start')),
  'the value of a field': (random, root) => change(random, fieldsIn(root), it => put(it, 'value', documentOf(random.pick(valueMakers)(random)))),
  'the key of a field': (random, root) => change(random, fieldsIn(root), it =>
    put(it, 'key', documentOf(name(random.pick([...fieldNames, 'babelHelpers', 'WeakMap', 'arguments', '\u0000', '"', '\u{1f600}']))))),
  'a literal of another sort': (random, root) => change(random, nodesIn(root, 'Literal'), it => {
    const raws = ['0', '1', '08', '1_0', '.0', '0xAbC', '9e9'];
    const value = random.pick([string(random.pick(texts)), number(random.pick(raws)), truth(random.chance(50)), nothing()]);
    const values = [random.pick(texts), random.pick([0, 1, 255, 2 ** 32, 2 ** 53]), random.chance(50), null];
    it.members = documentOf(random.chance(60) ? value : node('Literal', { value: random.pick(values) })).members;
  }),
  'a field more': (random, root) => change(random, listsOfElements(root), it => insert(random, it.items, documentOf(madeField(random)))),
  'a class more': (random, root) => change(random, bodyIn(root), items =>
    insert(random, items, documentOf(madeClass(random, random.pick(['New', 'Made', 'Ö', '$', 'let_', 'C']))))),
  'a field repeated': (random, root) => change(random, listsOfElements(root).filter(it => it.items.length), it =>
    insert(random, it.items, copyOf(random.pick(it.items)))),
  'an item of a list removed': (random, root) => changeList(random, root, 1, items => items.splice(random.below(items.length), 1)),
  'a list in another order': (random, root) => changeList(random, root, 2, items => random.shuffle(items)),
};

// such as make a program refused, one way or another
const harshTree = {
  'a member removed': (random, root) => changeNode(random, root, it => it.members.splice(random.below(it.members.length), 1)),
  'a member renamed': (random, root) => changeNode(random, root, it => {
    const pair = random.pick(it.members);
    const text = JSON.parse(pair[0]);
    pair[0] = JSON.stringify(random.pick([random.pick(keys), text.toUpperCase(), `${text}s`, text.slice(1), `${text} `, `\u0000${text}`]));
  }),
  'a member repeated behind, with another value': (random, root) => changeNode(random, root, it =>
    it.members.push([random.pick(it.members)[0], otherValue(random)])),
  'a member with another value': (random, root) => changeNode(random, root, it => (random.pick(it.members)[1] = otherValue(random))),
  'a member with another value of its sort': (random, root) => changeNode(random, root, it =>
    change(random, it.members.filter(([, value]) => value.text), pair => (pair[1] = ofSameSort(random, pair[1])))),
  'another text, number or other small value': (random, root) => change(random, spotsIn(root).filter(it => it.get().text), spot =>
    spot.set(random.chance(50) ? otherValue(random) : ofSameSort(random, spot.get()))),
  'the values of two members exchanged': (random, root) => changeNode(random, root, ({ members }) => {
    const [first, second] = [random.pick(members), random.pick(members)];
    [first[1], second[1]] = [second[1], first[1]];
  }),
  'two subtrees exchanged': (random, root) => change(random, spotsOfNodes(root), spot => {
    const it = spot.get();
    const apart = spotsOfNodes(root).filter(other => !isWithin(it, other.get()) && !isWithin(other.get(), it));
    change(random, apart, other => {
      spot.set(other.get());
      other.set(it);
    });
  }),
  'a subtree of another seed': (random, root) => change(random, spotsOfNodes(root), spot => {
    const others = nodesIn(documentOf(random.pick(Object.values(otherSeeds))()));
    const alike = others.filter(it => roleOf(typeOf(it)) === roleOf(typeOf(spot.get())));
    spot.set(random.pick(alike.length && random.chance(75) ? alike : others));
  }),
  'a subtree repeated below itself': (random, root) => change(random, spotsOfNodes(root), spot => {
    const copy = copyOf(spot.get());
    change(random, spotsOfNodes(spot.get()), below => below.set(copy));
  }),
  'an item of a list repeated': (random, root) => changeList(random, root, 1, items => insert(random, items, copyOf(random.pick(items)))),
  'null in a list': (random, root) => changeList(random, root, 0, items => items.splice(random.below(items.length + 1), random.below(2), bare('null'))),
  'another value in a list': (random, root) => changeList(random, root, 0, items => insert(random, items, otherValue(random))),
  'a list made empty': (random, root) => changeList(random, root, 1, items => items.splice(0)),
  'a node in place of its list, or a list of a node': (random, root) => change(random, spotsIn(root).filter(it => !it.get().text), spot => {
    const it = spot.get();
    spot.set(it.items ? it.items[0] || bare('null') : listed(it));
  }),
  'a member that tells': (random, root) => changeNode(random, root, it => {
    const [key, value] = random.pick(tellingMembers);
    put(it, key, documentOf(value));
  }),
  'the type of another kind': (random, root) => changeNode(random, root, it => put(it, 'type', quoted(random.pick(kindNames)))),
  'a foreign type': (random, root) => changeNode(random, root, it => put(it, 'type', quoted(random.pick(foreignNames)))),
  'an unknown type': (random, root) => changeNode(random, root, it => {
    const type = typeOf(it);
    put(it, 'type', quoted(random.pick([...unknownNames, type.toLowerCase(), `${type}s`, type.slice(0, -1)])));
  }),
  'an odd number in place of a value': (random, root) => change(random, spotsIn(root), spot => spot.set(bare(random.pick(oddNumbers)))),
  'an odd number at a node': (random, root) => changeNode(random, root, it =>
    put(it, random.pick(['node', 'start', 'end', 'value', 'range', 'column', 'loc']), bare(random.pick(oddNumbers)))),
  'a name of meaning': (random, root) => change(random, nodesIn(root).filter(it => memberAt(it, 'name')), it =>
    put(it, 'name', quoted(random.pick(namesOfMeaning)))),
  'an operator': (random, root) => changeNode(random, root, it => put(it, 'operator', quoted(random.pick(operators))), it => memberAt(it, 'operator')),
  'a truth value turned': (random, root) => change(random, spotsIn(root).filter(it => /^(true|false)$/.test(it.get().text)), spot => spot.set(turned(spot.get()))),
  'the members of a literal': (random, root) => change(random, nodesIn(root, 'Literal'), it => random.pick([
    () => put(it, 'raw', quoted(random.pick(texts))),
    () => put(it, 'raw', otherValue(random)),
    () => put(it, 'value', otherValue(random)),
    () => put(it, 'value', bare(random.pick(oddNumbers))),
    () => put(it, 'bigint', otherValue(random)),
    () => put(it, 'regex', documentOf(random.pick([{ pattern: 'a', flags: 'g' }, { pattern: 'a' }, { pattern: 1, flags: '' }, null, 'a']))),
    () => remove(it, 'raw'),
    () => remove(it, 'value'),
  ])()),
  'an element of a class': (random, root) => change(random, listsOfElements(root), it => insert(random, it.items, documentOf(random.pick(madeElements())))),
  'another statement': (random, root) => change(random, bodyIn(root), items => {
    const others = random.pick(Object.values(otherSeeds))().body;
    if (others.length) insert(random, items, documentOf(random.pick(others)));
  }),
  'another sort of program': (random, root) => change(random, nodesIn(root, 'Program'), it =>
    put(it, 'sourceType', quoted(random.pick(['module', 'module', 'script', 'commonjs', 'Script'])))),
  'deep expressions': (random, root) => change(random, spotsOfNodes(root, 'expression'), spot => {
    const wrap = random.pick([
      it => ({ members: [['"type"', quoted('UnaryExpression')], ['"operator"', quoted('!')], ['"argument"', it]] }),
      it => ({ members: [['"type"', quoted('MemberExpression')], ['"object"', it], ['"property"', documentOf(name('p'))]] }),
      it => ({ members: [['"argument"', it], ['"type"', quoted('AwaitExpression')]] }),
    ]);
    spot.set(wrapped(depthOf(random), spot.get(), wrap));
  }),
  'deep statements': (random, root) => change(random, spotsOfNodes(root, 'statement'), spot => {
    const label = it => ({ members: [['"type"', quoted('LabeledStatement')], ['"label"', documentOf(name('l'))], ['"body"', it]] });
    const braces = it => ({ members: [['"type"', quoted('BlockStatement')], ['"body"', listed(it)]] });
    const depth = depthOf(random);
    spot.set(random.chance(50) ? wrapped(depth, spot.get(), label) : wrapped(Math.ceil(depth / 2), spot.get(), braces));
  }),
  'a deep value': (random, root) => change(random, spotsIn(root), spot => spot.set(wrapped(depthOf(random), bare('1'), random.pick([inList, inMember])))),
};

// ---- mutations of the text, of which each character stands for a byte

const latin = text => Buffer.from(text, 'utf8').toString('latin1');
const notUtf8 = ['\xff', '\xfe', '\xc3', '\x80', '\xc0\xaf', '\xed\xa0\x80', '\xf4\x90\x80\x80', '\xe2\x82', '\xf0\x9f\x98', '\xef\xbf'];
const someBytes = [...'{}[]:,"\'\\09e-+.a /#\n\x00\x01\x1f\x7f'];
const blanks = [' ', '\n', '\t', '\r\n', '  ', '\r'];
const goodEscapes = ['\\ud83d\\ude00', '\\u00e9', '\\/', '\\b\\f\\n\\r\\t', '\\u0000', '\\"', '\\\\', '\\u2028', '\\uFFFF', '\\u0061'];
const badEscapes = ['\\x41', '\\u12', '\\ud800', '\\udc00', '\\ud800\\u0041', '\\', '\\U0041', '\\uD83D', '\\u{41}', '\\0', '\n', '\t', '\x00', '\x7f'];
const badNumbers = ['01', '+1', '1.', '.5', '0x10', '1e', '1e+', '-', '--1', '1_0', '00', '-01', '1.e1', '1n', '1.5', '1E400', '-0'];
const badWords = ['undefined', 'nul', 'NaN', 'Infinity', '-Infinity', 'truefalse', 'TRUE', 'Null', '"null"'];
const otherTexts = [
  '', ' ', '\n', 'null', '3', '-1.5', '"a"', 'true', '[]', '{}', '[{}]', '{"type":1}', '{"type":"Program"}', '{"type":null,"body":[]}', '[[]', '\x00', '\xff',
  '"', 'nul', '{"type":"Program","body":[],"sourceType":"script"}{}', '1e999', '[1.5]', '{"type":"Identifier","name":"a"}', '{"type":"ClassDeclaration"}',
  '{"type":"TSFoo"}', '{"a":1.5}',
];

const splice = (text, at, less, more) => text.slice(0, at) + more + text.slice(at + less);
const somewhere = (random, text) => random.below(text.length + 1);
// one of what the pattern finds is replaced; where it finds nothing, the text stays
function replaceOne(random, text, pattern, by) {
  const found = [...text.matchAll(pattern)];
  if (!found.length) return text;
  const it = random.pick(found);
  return splice(text, it.index, it[0].length, by(it[0]));
}

// such as change nothing that the text means, but for a name or a text
const gentleText = {
  'white space'(random, text) {
    const share = random.pick([10, 50, 100]);
    const blank = () => (random.chance(60) ? random.pick(blanks) : '');
    return text.replace(/"(?:[^"\\]|\\.)*"|[{}[\]:,]/gs, token => (token.length > 1 || !random.chance(share) ? token : blank() + token + blank()));
  },
  'white space around': (random, text) => random.pick(blanks).repeat(random.between(1, 40)) + text + random.pick(blanks).repeat(random.between(1, 40)),
  'a letter escaped': (random, text) => replaceOne(random, text, /(?<=")[A-Za-z]/g, letter => `\\u00${letter.charCodeAt(0).toString(16)}`),
  'an escape in a name or text': (random, text) => replaceOne(random, text, /(?<="(?:name|value)":")/g, () => random.pick(goodEscapes)),
};

// such as may make it no JSON
const harshText = {
  'the text cut': (random, text) => text.slice(0, somewhere(random, text)),
  'the front cut off': (random, text) => text.slice(somewhere(random, text)),
  'a byte more': (random, text) => splice(text, somewhere(random, text), 0, random.pick(someBytes)),
  'a byte less': (random, text) => splice(text, somewhere(random, text), 1, ''),
  'another byte': (random, text) => splice(text, somewhere(random, text), 1, random.pick(someBytes)),
  'bytes that are no UTF-8': (random, text) => splice(text, somewhere(random, text), 0, random.pick(notUtf8)),
  'bytes that are no UTF-8, in a text': (random, text) => replaceOne(random, text, /(?<=[:,]")/g, () => random.pick(notUtf8)),
  'a part left out': (random, text) => splice(text, somewhere(random, text), random.between(1, 60), ''),
  'a part repeated'(random, text) {
    const at = somewhere(random, text);
    return splice(text, at, 0, text.slice(at, at + random.between(1, 60)));
  },
  'something in front': (random, text) => random.pick(['\xef\xbb\xbf', '\x0b', '\x0c', '\xc2\xa0', 'x', '{}', ',', '//\n', '\x00']) + text,
  'something behind': (random, text) => text + random.pick(['x', '{}', ',', '}', ']', '/**/', 'null', '\x00', '\x1a', '\xc2\xa0', ' 1']),
  'a key repeated': (random, text) => replaceOne(random, text, /"\w+":(?:"\w*"|\w+)(?=[,}])/g, pair =>
    `${pair},${pair.slice(0, pair.indexOf(':'))}:${random.pick(['null', '1', '"a"', '[]', '"Program"', 'true'])}`),
  'a mark that is wrong': (random, text) => random.pick([
    () => replaceOne(random, text, /,/g, () => random.pick([',,', ';', ', ,', ''])),
    () => replaceOne(random, text, /:/g, () => random.pick(['=', '::', ' ', '=>'])),
    () => replaceOne(random, text, /[}\]]/g, mark => random.pick([`,${mark}`, '', mark === '}' ? ']' : '}'])),
    () => replaceOne(random, text, /"/g, () => random.pick(['\'', '', '`', '""'])),
    () => replaceOne(random, text, /[{[]/g, mark => random.pick([`${mark},`, '', mark + mark])),
  ])(),
  'a word that is wrong': (random, text) => replaceOne(random, text, /\b(true|false|null)\b/g, () => random.pick(badWords)),
  'a number that is wrong': (random, text) => replaceOne(random, text, /(?<=[:,[])\d+|(?<=:)null/g, () => random.pick(badNumbers)),
  'an escape': (random, text) => replaceOne(random, text, /(?<=[:,]")/g, () => random.pick([...badEscapes, ...goodEscapes])),
  'another text': random => random.pick(otherTexts),
  'depth of lists'(random) {
    const depth = random.between(120, 135);
    return '['.repeat(depth) + ']'.repeat(random.chance(80) ? depth : depth - 1);
  },
};

// ---- inputs

const treeMutations = { ...gentleTree, ...harshTree };
const textMutations = { ...gentleText, ...harshText };

// what is likelier than others
const weights = {
  'a member that is dropped': 4, 'the value of a field': 4, 'a literal of another sort': 3, 'a field more': 3, 'a class more': 2, 'the key of a field': 2,
  'a member repeated in front, with another value': 2, 'members in another order': 2, 'numbers of nodes': 2, 'a span': 2,
  'a member removed': 3, 'a member with another value': 3, 'a member with another value of its sort': 2, 'the type of another kind': 3, 'a foreign type': 2,
  'a member that tells': 3, 'a subtree of another seed': 2, 'two subtrees exchanged': 2, 'an odd number at a node': 2, 'a name of meaning': 2,
  'null in a list': 2, 'the members of a literal': 3, 'an element of a class': 2, 'an operator': 2,
  'a key repeated': 3, 'an escape': 3, 'a number that is wrong': 3,
};
const weighed = mutations => Object.keys(mutations).map(title => [weights[title] || 1, title]);
const gentle = [[82, weighed(gentleTree)], [18, weighed(gentleText)]];
const harsh = [[86, weighed(harshTree)], [14, weighed(harshText)]];

const seedOf = (random, seeds, titles = Object.keys(seeds)) => {
  const title = random.pick(titles);
  return [title, seeds[title]()];
};
const classSeed = random => (random.chance(45) ? ['made classes', scriptOf(...madeClasses(random, 'Class'))] : seedOf(random, classSeeds));
// some with classes in front, so that the node that is refused has other numbers
const otherSeed = (random, titles) => {
  const [title, tree] = seedOf(random, otherSeeds, titles);
  if (random.chance(70)) return [title, tree];
  return [`${title}, behind classes`, { ...tree, body: [...madeClasses(random, 'Front'), ...tree.body] }];
};
const anySeed = random => (random.chance(50) ? classSeed(random) : otherSeed(random));

// which seed, which mutations, and how many
const ways = [
  [43, { seed: classSeed, sorts: [[1, gentle]], counts: [[1, 0], [4, 1], [3, 2], [3, 3]] }],
  [19, { seed: otherSeed, sorts: [[1, gentle]], counts: [[3, 0], [4, 1], [2, 2], [1, 3]] }],
  [10, { seed: classSeed, sorts: [[1, harsh]], counts: [[6, 1], [2, 2], [1, 3]] }],
  [20, { seed: otherSeed, sorts: [[1, harsh]], counts: [[6, 1], [2, 2], [1, 3]] }],
  [8, { seed: anySeed, sorts: [[1, gentle], [1, harsh]], counts: [[1, 2], [1, 3]] }],
];

// every member of every kind: the type, the key, and the seeds that have it
const rows = (() => {
  const found = new Map();
  for (const [title, seed] of Object.entries(otherSeeds)) {
    eachNode(seed(), it => {
      for (const key of Object.keys(it)) {
        const row = `${it.type}.${key}`;
        if (!found.has(row)) found.set(row, { type: it.type, key, titles: [] });
        found.get(row).titles.push(title);
      }
    });
  }
  return [...found.values()];
})();

// removes that member of one of the nodes of that kind, or gives it another value
function mutateRow(random, root, { type, key }) {
  const it = random.pick(nodesIn(root, type).filter(found => memberAt(found, key)));
  const isRemoved = random.chance(60);
  if (isRemoved) remove(it, key);
  else put(it, key, otherValue(random));
  return `${key} of ${type} ${isRemoved ? 'removed' : 'with another value'}`;
}

const argumentLists = [
  [840, ['--class-properties']],
  [80, []],
  [30, ['--class-properties', '--class-properties']],
  [10, ['--class-properties', '--class-properties', '--class-properties']],
  ...[
    ['--help'], [''], ['-'], ['--class-properties '], ['--class-propertie'], ['--Class-Properties'], ['--class-properties=true'], ['class-properties'], ['é'],
    ['--class-properties', '--loose'], ['--loose', '--class-properties'], ['--class-properties', ''],
  ].map(words => [3, words]),
];

function inputOf(index) {
  const random = new Random(index);
  const words = random.weighted(argumentLists);
  const row = index % 5 === 0 ? rows[(index / 5) % rows.length] : null;
  const way = random.weighted(ways);
  const [seed, tree] = row ? otherSeed(random, row.titles) : way.seed(random);
  for (const dress of random.weighted(dressings)) dress(tree, random);
  // the root stands in a list, so that it can be replaced too
  const holder = listed(documentOf(tree));
  const mutations = row ? [mutateRow(random, holder, row)] : [];
  const ofText = [];
  const wanted = row ? 0 : random.weighted(way.counts);
  for (let tries = 0; mutations.length + ofText.length < wanted && tries < 50; tries++) {
    const title = random.weighted(random.weighted(random.weighted(way.sorts)));
    if (textMutations[title]) {
      ofText.push(title);
    } else if (nodesIn(holder).length) {
      const root = random.chance(97) && nodesIn(holder.items[0]).length ? holder.items[0] : holder;
      if (treeMutations[title](random, root)) mutations.push(title);
    }
  }
  let text = latin(holder.items.map(write).join(','));
  for (const title of ofText) text = textMutations[title](random, text);
  return { seed, mutations: [...mutations, ...ofText], words, bytes: Buffer.from(text, 'latin1') };
}

// ---- runs

function run(command, { words, bytes }) {
  return new Promise((resolve, reject) => {
    const child = spawn(path.resolve(command), words, { stdio: ['pipe', 'pipe', 'ignore'], timeout: SECONDS * 1000, killSignal: 'SIGKILL' });
    const parts = [];
    child.on('error', reject);
    child.stdout.on('data', part => parts.push(part));
    child.stdin.on('error', () => {}); // where the program ends before it has read all
    child.on('close', (status, signal) => resolve({ status: signal || String(status), printed: Buffer.concat(parts) }));
    child.stdin.end(bytes);
  });
}

async function runAll(command) {
  const answers = [];
  let next = 0;
  const work = async () => {
    while (next < INPUTS) {
      const index = next++;
      answers[index] = await run(command, inputOf(index));
    }
  };
  await Promise.all(times(AT_A_TIME, work));
  return answers;
}

const numeral = index => String(index).padStart(4, '0');
const digest = bytes => crypto.createHash('sha256').update(bytes).digest('hex').slice(0, 16);
const lineOf = ({ status, printed }, index) => `${numeral(index)} ${status} ${digest(printed)}`;
const fileOf = (folder, index) => path.join(folder, `${numeral(index)}.out`);

// what an answer says, without the number of the node
function causeOf({ status, printed }) {
  const text = printed.toString('latin1');
  if (status !== '0') return text.replace(/ at \d+/, ' at N').trim();
  if (text.includes('"name":"defineProperty"')) return 'a tree with lowered fields';
  return text.includes('"type":"PropertyDefinition"') ? 'a tree with fields as they were' : 'a tree without fields';
}

function printTable(answers) {
  const table = new Map();
  for (const answer of answers) {
    const key = `${answer.status.padEnd(8)}${causeOf(answer)}`;
    table.set(key, [...(table.get(key) || []), digest(answer.printed)]);
  }
  console.log('inputs  distinct answers  status  answer');
  for (const [key, digests] of [...table].sort()) {
    console.log(`${String(digests.length).padStart(6)}  ${String(new Set(digests).size).padStart(16)}  ${key}`);
  }
}

async function record(command, file, folder) {
  const answers = await runAll(command);
  fs.writeFileSync(file, answers.map((answer, index) => `${lineOf(answer, index)}\n`).join(''));
  if (folder) {
    fs.mkdirSync(folder, { recursive: true });
    answers.forEach(({ printed }, index) => fs.writeFileSync(fileOf(folder, index), printed));
  }
  printTable(answers);
}

async function compare(command, file, folder) {
  const recorded = fs.readFileSync(file, 'utf8').trimEnd().split('\n');
  if (recorded.length !== INPUTS) throw new Error(`${file} has ${recorded.length} lines, and not ${INPUTS}`);
  const answers = await runAll(command);
  const agrees = index => lineOf(answers[index], index) === recorded[index]
    && (!folder || fs.readFileSync(fileOf(folder, index)).equals(answers[index].printed));
  const differing = [...answers.keys()].filter(index => !agrees(index));
  printTable(answers);
  console.log(`${INPUTS - differing.length} of ${INPUTS} agree`);
  for (const index of differing.slice(0, SHOWN)) {
    const start = JSON.stringify(answers[index].printed.toString('latin1').slice(0, 200));
    console.log(`recorded ${recorded[index]}\nnow      ${lineOf(answers[index], index)}  ${start}`);
  }
  return differing.length ? 1 : 0;
}

function show(index) {
  const { seed, mutations, words, bytes } = inputOf(index);
  console.log(`seed: ${seed}\nmutations: ${mutations.join('; ') || 'none'}\narguments: ${JSON.stringify(words)}\ntext:`);
  process.stdout.write(bytes);
  process.stdout.write('\n');
}

async function main([verb, ...rest]) {
  if (verb === 'record' && rest.length >= 2) {
    await record(...rest);
  } else if (verb === 'compare' && rest.length >= 2) {
    process.exitCode = await compare(...rest);
  } else if (verb === 'show' && /^\d+$/.test(rest[0]) && Number(rest[0]) < INPUTS) {
    show(Number(rest[0]));
  } else {
    console.error('usage: node tools/mutants.js record PROGRAM FILE [FOLDER] | compare PROGRAM FILE [FOLDER] | show INDEX');
    process.exitCode = 2;
  }
}

main(process.argv.slice(2));
