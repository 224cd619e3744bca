// Holds each worked pair (tools/rows/pairs) against the checker, and then each pair with one change in its lowered tree that
// makes another program of it.
//
//   node tools/pairs.js PROGRAM [--changes] [--show] [NAME..]
//   node tools/pairs.js --write FOLDER [NAME..]        writes the inputs as files, each NAME beside NAME.args with its arguments
//
// PROGRAM is the built checker (README.md). A pair without shapes has to agree; one with shapes has to meet the clauses, so that
// at most its meaning differs. With `--changes` each kind of change below is made at each place where it can be made, up to
// MOST_OF_A_KIND for a pair, and each changed tree has to differ, with a part and a node. New nodes are numbered anew in preorder,
// so that no change is told by its numbers alone. `--show` prints every answer. The status is 1 if any answer is another one.
'use strict';
const { spawnSync } = require('child_process');
const fs = require('fs');
const path = require('path');
const { annotate, preorder } = require('./rows/table.js');

const FOLDER = path.join(__dirname, 'rows', 'pairs');
const MOST_OF_A_KIND = 3;
const SECONDS = 120;

const rows = ['rows.json', 'forms.json'].flatMap(name => JSON.parse(fs.readFileSync(path.join(__dirname, 'rows', name), 'utf8')));
const readPair = name => ['source', 'output'].map(part => JSON.parse(fs.readFileSync(path.join(FOLDER, `${name}.${part}.json`), 'utf8')));
const copy = value => JSON.parse(JSON.stringify(value));

// ---- places in a tree: the nodes of ESTree with their kinds and the objects and members in which they stand

const at = (program, steps) => steps.reduce((value, step) => value[step], program);
const stepsOf = place => (place === '' ? [] : place.split('.'));

function placesOf(program) {
  return preorder(annotate(program, 'Program')).map(n => ({ kind: n.nodeKind, number: n.num, steps: stepsOf(n.path) }));
}

// puts a node at a place; without a node the item of the list goes
function put(program, steps, node) {
  const [last, around] = [steps[steps.length - 1], at(program, steps.slice(0, -1))];
  if (node === undefined) around.splice(Number(last), 1);
  else around[last] = node;
}

// numbers the nodes from `first` on anew, in preorder
function renumber(program, first) {
  let next = first;
  for (const { steps } of placesOf(program)) {
    const node = at(program, steps);
    if (!(node.node < first)) node.node = next++;
  }
}

// ---- changes: each gives, for a place, what changes the tree there, or nothing where it does not fit

const ENDS = new Set(['ReturnStatement', 'ThrowStatement', 'BreakStatement', 'ContinueStatement']);
const identifier = name => ({ type: 'Identifier', name });
// extra();
const call = () => ({ type: 'ExpressionStatement', expression: { type: 'CallExpression', callee: identifier('extra'), arguments: [], optional: false } });
// extra() {}
const method = isStatic => ({
  type: 'MethodDefinition', key: identifier('extra'), kind: 'method', computed: false, static: isStatic,
  value: { type: 'FunctionExpression', id: null, params: [], body: { type: 'BlockStatement', body: [] }, async: false, generator: false },
});

const LISTS_OF_STATEMENTS = new Set(['Program', 'BlockStatement', 'StaticBlock']);
const BRANDS = new Set(['assertClassBrand', 'checkInRHS']);
const OPPOSITES = { '+': '-', '-': '+', '*': '+', '===': '!==', '!==': '===', '==': '!=', '<': '>=', '&&': '||', '||': '&&', '??': '&&' };

const isHelper = (n, names) => n.type === 'CallExpression' && n.callee.type === 'MemberExpression' && n.callee.object.name === 'babelHelpers' && names.has(n.callee.property.name);
const same = (a, b) => JSON.stringify(a, (k, v) => (k === 'node' ? undefined : v)) === JSON.stringify(b, (k, v) => (k === 'node' ? undefined : v));

const CHANGES = {
  'an argument is dropped': n => (n.type === 'CallExpression' || n.type === 'NewExpression') && n.arguments.length > 0 && (m => m.arguments.pop()),
  'an operand is dropped': (n, place) => (n.type === 'BinaryExpression' || n.type === 'LogicalExpression') && n.left.type !== 'PrivateIdentifier' && ((m, program) => put(program, place.steps, m.left)),
  'a part of a sequence is dropped': n => n.type === 'SequenceExpression' && n.expressions.length > 2 && !isQuiet(n.expressions[0]) && (m => m.expressions.splice(0, 1)),
  'two statements are exchanged': (n, place, names, named, idle) => LISTS_OF_STATEMENTS.has(n.type) && exchanged(n.body, idle),
  'two arguments are exchanged': n => n.type === 'CallExpression' && n.arguments.length > 1 && !same(n.arguments[0], n.arguments[1]) && (m => m.arguments.splice(0, 2, m.arguments[1], m.arguments[0])),
  'a statement is dropped': n => LISTS_OF_STATEMENTS.has(n.type) && n.body.length > 0 && n.body[n.body.length - 1].type !== 'FunctionDeclaration' && (m => m.body.pop()),
  'a name is another one': (n, place, names) => place.kind === 'IdentifierReference' && names.find(name => name !== n.name) && (m => { m.name = names.find(name => name !== n.name); }),
  'a brand test is left out': (n, place) => isHelper(n, BRANDS) && ((m, program) => put(program, place.steps, m.arguments[m.arguments.length > 2 ? 2 : m.arguments.length - 1])),
  'a literal is another one': (n, place, names, named) => n.type === 'Literal' && !named.has(n.node) && anotherLiteral(n),
  'an initialization is moved': (n, place, names, named, idle) => LISTS_OF_STATEMENTS.has(n.type) && n.body.length > 1 && n.body[0].type === 'VariableDeclaration' && n.body[0].declarations.some(d => d.init && !idle.has(d)) && (m => m.body.push(m.body.shift())),
  'an async is dropped': n => n.async === true && (m => { m.async = false; }),
  'an operator is another one': n => typeof OPPOSITES[n.operator] === 'string' && !(n.type === 'UnaryExpression') && (m => { m.operator = OPPOSITES[m.operator]; }),
  'a member is another one': n => n.type === 'MemberExpression' && !n.computed && n.property.type === 'Identifier' && (m => { m.property.name += 'x'; }),
  'a key is another one': n => (n.type === 'MethodDefinition' || n.type === 'Property') && !n.computed && n.key.type === 'Identifier' && n.key.name !== 'constructor' && (m => { m.key.name += 'x'; }),
  'a statement is added in front': n => LISTS_OF_STATEMENTS.has(n.type) && !n.body[0]?.directive && (m => m.body.unshift(call())),
  'a statement is added behind': n => LISTS_OF_STATEMENTS.has(n.type) && !ENDS.has(n.body[n.body.length - 1]?.type) && (m => m.body.push(call())),
  'a heritage is added': n => /^Class(Declaration|Expression)$/.test(n.type) && !n.superClass && (m => { m.superClass = identifier('extra'); }),
  'a method is added': n => n.type === 'ClassBody' && (m => m.body.push(method(false))),
  'a static method is added': n => n.type === 'ClassBody' && (m => m.body.push(method(true))),
  'an argument is added': n => n.type === 'CallExpression' && n.callee.type !== 'Super' && (m => m.arguments.push(identifier('extra'))),
  'a method is static': n => n.type === 'MethodDefinition' && n.kind === 'method' && (m => { m.static = !m.static; }),
};

// what does nothing as a part of a sequence
const isQuiet = e => e.type === 'ThisExpression' || e.type === 'Literal';

// what does nothing where it stands: functions, and `var a;`
const doesNothing = (s, idle) => s.type === 'FunctionDeclaration' || s.type === 'EmptyStatement' || (s.type === 'VariableDeclaration' && s.kind === 'var' && s.declarations.every(d => !d.init || idle.has(d)));

function exchanged(list, idle) {
  const i = list.findIndex((x, k) => k + 1 < list.length && !same(x, list[k + 1]) && !doesNothing(x, idle) && !doesNothing(list[k + 1], idle));
  return i >= 0 && (m => m.body.splice(i, 2, m.body[i + 1], m.body[i]));
}

function anotherLiteral(n) {
  if (typeof n.value === 'string') return m => { m.value += 'x'; delete m.raw; };
  if (typeof n.value === 'boolean') return m => { m.value = !m.value; m.raw = String(m.value); };
  if (/^[0-9]/.test(n.raw ?? '')) return m => { m.raw = `1${m.raw}`; m.value = null; };
  return undefined;
}

// the literals that only tell a reader something: the names that `setFunctionName` gives, messages, and descriptions of keys. A
// meaning does not tell them (docs/MEANING.md)
const TELLS = new Set(['setFunctionName', 'readOnlyError', 'writeOnlyError', 'classPrivateFieldLooseKey']);
function givenNames(output, places) {
  const calls = places.map(p => at(output, p.steps)).filter(n => isHelper(n, TELLS));
  return new Set(calls.flatMap(n => n.arguments.map(a => a.node)));
}

// the declarators of functions that nothing reads, which do nothing wherever they stand and whatever they do
function unread(output, places) {
  const nodes = places.map(p => at(output, p.steps));
  const read = new Set(places.filter(p => p.kind === 'IdentifierReference').map(p => at(output, p.steps).name));
  return new Set(nodes.filter(n => n.type === 'VariableDeclarator' && n.init && /Function/.test(n.init.type) && !read.has(n.id.name)));
}

const within = (tree, node) => tree === node || (tree !== null && typeof tree === 'object' && Object.values(tree).some(below => within(below, node)));

// the changed trees of a pair
function* changesOf(source, output) {
  const first = placesOf(source).length, places = placesOf(output);
  const named = givenNames(output, places), idle = unread(output, places);
  const inIdle = place => [...idle].some(d => within(d, at(output, place.steps)));
  const names = [...new Set(places.filter(p => p.kind === 'BindingIdentifier').map(p => at(output, p.steps).name))];
  for (const [what, changeOf] of Object.entries(CHANGES)) {
    let made = 0;
    for (const place of places) {
      if (made === MOST_OF_A_KIND) break;
      const change = !inIdle(place) && changeOf(at(output, place.steps), place, names, named, idle);
      if (!change) continue;
      const changed = copy(output);
      change(at(changed, place.steps), changed);
      renumber(changed, first);
      made += 1;
      yield { what: `${what} at ${place.number}`, changed };
    }
  }
}

// ---- runs

function answerOf(program, options, source, output) {
  const run = spawnSync(program, options, { input: JSON.stringify([source, output]), encoding: 'utf8', timeout: SECONDS * 1000, maxBuffer: 1 << 26 });
  return run.error ? `no answer: ${run.error.message}` : run.stdout.trim();
}

const isMeaning = answer => /^differs: (Program|Entry|Function|Class|Construction|Private|Declaration|Export) at \d+$/.test(answer);
const isWanted = (row, answer) => answer === 'agreed' || (row.outside.length > 0 && isMeaning(answer));
const isTold = answer => /^differs: .+ at \d+$/.test(answer);

// the inputs of a row: the pair, and its changed ones
function* inputsOf(row) {
  const [source, output] = readPair(row.name);
  yield { what: 'as it is', source, output };
  for (const { what, changed } of changesOf(source, output)) yield { what, source, output: changed };
}

function write(folder, wanted) {
  fs.mkdirSync(folder, { recursive: true });
  for (const row of wanted) for (const { what, source, output } of inputsOf(row)) {
    const file = path.join(folder, `${row.name}-${what.replace(/ /g, '_')}`);
    fs.writeFileSync(file, JSON.stringify([source, output]));
    fs.writeFileSync(`${file}.args`, row.options.map(option => `${option}\n`).join(''));
  }
  return 0;
}

function main(args) {
  const [program, ...rest] = args;
  if (program === '--write') return write(rest[0], rows.filter(r => rest.length === 1 || rest.slice(1).includes(r.name)));
  const flags = new Set(rest.filter(a => a.startsWith('--'))), wanted = rest.filter(a => !a.startsWith('--'));
  let right = 0, wrong = 0;
  const tell = (name, what, answer, isRight) => {
    isRight ? right++ : wrong++;
    if (!isRight || flags.has('--show')) console.log(`${isRight ? ' ' : '!'} ${name}: ${what}: ${answer}`);
  };
  for (const row of rows.filter(r => wanted.length === 0 || wanted.includes(r.name))) {
    const [source, output] = readPair(row.name);
    const answer = answerOf(program, row.options, source, output);
    tell(row.name, 'as it is', answer, isWanted(row, answer));
    if (!flags.has('--changes')) continue;
    for (const { what, changed } of changesOf(source, output)) {
      const other = answerOf(program, row.options, source, changed);
      tell(row.name, what, other, isTold(other));
    }
  }
  console.log(`${right} as wanted, ${wrong} not`);
  return wrong === 0 ? 0 : 1;
}

module.exports = { answerOf, at, copy, isHelper, isTold, placesOf, put, readPair, renumber, rows };

if (require.main === module) process.exit(main(process.argv.slice(2)));
