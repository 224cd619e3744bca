// Holds what wrong lowerings would make of worked sources (tools/rows/pairs) against the checker: each has to differ, with a part
// and a node. A wrong lowering is written as what it does to the lowered tree of a right one.
//
//   node tools/wrong.js PROGRAM [--show]
//
// PROGRAM is the built checker (README.md). `--show` prints every answer. The status is 1 if a wrong lowering is not told.
'use strict';
const { answerOf, at, copy, isHelper, isTold, placesOf, put, readPair, renumber, rows } = require('./pairs.js');

const DEFINES = new Set(['defineProperty']);
const isDefinition = n => n.type === 'ExpressionStatement' && isHelper(n.expression, DEFINES);

// all nodes with the steps to them
const nodesOf = program => placesOf(program).map(({ kind, steps }) => ({ kind, steps, node: at(program, steps) }));
const first = (program, test) => nodesOf(program).find(({ node }) => test(node));
const bodies = program => nodesOf(program).filter(({ node }) => Array.isArray(node.body) && node.body.some(isDefinition)).map(({ node }) => node);

// moves the first item of a list that fits behind the last
const moveLast = (list, test) => list.push(...list.splice(list.findIndex(test), 1));
const isAssignmentTo = name => n => n.type === 'ExpressionStatement' && n.expression.type === 'AssignmentExpression' && n.expression.left.name === name;

// each wrong lowering: the worked source, and what becomes of the right output
const WRONG = [
  // class C { x = 1 }  -->  class C {}
  ['fields are dropped', 'instance_field', program => { for (const body of bodies(program)) body.body = body.body.filter(s => !isDefinition(s)); }],
  // B.defineProperty(this, "x", 1); B.defineProperty(this, "x", 1);
  ['fields are defined twice', 'instance_field', program => { for (const body of bodies(program)) body.body = body.body.flatMap(s => (isDefinition(s) ? [s, copy(s)] : [s])); }],
  // B.defineProperty(this, "y", z); B.defineProperty(this, "x", void 0);
  ['fields change their order', 'two_fields', program => { for (const body of bodies(program)) body.body.reverse(); }],
  // B.defineProperty(this, "x", 2);
  ['a field has another value', 'instance_field', program => { const { node } = first(program, n => n.type === 'Literal' && n.raw === '1'); node.raw = '2'; node.value = 2; }],
  // B.defineProperty(this, "y", 1);
  ['a field has another key', 'instance_field', program => { const { node } = first(program, n => n.type === 'Literal' && n.value === 'x'); node.value = 'y'; delete node.raw; }],
  // a program with a shape that loses all of its statements
  ['a program outside the theorem is dropped', 'super_in_branches', program => { program.body = []; }],
  // class A { w(v) { .. } }
  ['a private method is dropped', 'private_method_written', program => { program.body = program.body.filter(s => s.type !== 'FunctionDeclaration'); }],
  // let _foo; _foo = foo(); class C {} bar(); B.defineProperty(C, _foo, 1);
  ['static blocks run in front of static fields', 'static_key_and_block', program => moveLast(program.body, isDefinition)],
  // .. bar(); bar();
  ['a static block runs twice', 'static_key_and_block', program => { program.body.push(copy(program.body[program.body.length - 1])); }],
  // constructor(..._args) { B.defineProperty(this, "x", 1); super(..._args); }
  ['initializers stand in front of super()', 'derived_class', program => { for (const body of bodies(program)) body.body.reverse(); }],
  // class A { constructor(y) { B.defineProperty(this, "x", y); this.z = y; } }
  ['a name is captured', 'clashing_parameter', program => { for (const { node } of nodesOf(program)) if (node.name === '_y') node.name = 'y'; }],
  // class A { constructor(_y) { B.defineProperty(this, "x", _y); this.z = _y; } }
  ['an initializer means the parameter', 'clashing_parameter', program => { for (const { node } of nodesOf(program)) if (node.name === 'y') node.name = '_y'; }],
  // let _k, _k2; _k2 = k(); class C { .. }
  ['the temporary of a key is never assigned', 'two_keys', program => { program.body = program.body.filter(s => !isAssignmentTo('_k')(s)); }],
  // let _foo; class C {} B.defineProperty(C, _foo, 1); bar(); _foo = foo();
  ['the temporary of a key is assigned behind the static fields', 'static_key_and_block', program => moveLast(program.body, isAssignmentTo('_foo'))],
  // _k2 = k(); _k = k();
  ['keys are evaluated in another order', 'two_keys', program => { const i = program.body.findIndex(isAssignmentTo('_k')); program.body.splice(i, 2, program.body[i + 1], program.body[i]); }],
  // let D = (class { constructor() { B.defineProperty(this, k(), 1); } });
  ['a key is evaluated for each instance', 'key_of_expression', program => {
    const { node, steps } = first(program, n => n.type === 'SequenceExpression');
    const [assignment, lowered] = node.expressions;
    const use = nodesOf(program).find(({ node: n, steps: s }) => n.name === '_k' && s.includes('arguments'));
    put(program, use.steps, assignment.right);
    put(program, steps, lowered);
  }],
];

function main([program, ...flags]) {
  let right = 0, wrong = 0;
  for (const [what, name, change] of WRONG) {
    const row = rows.find(r => r.name === name);
    const [source, output] = readPair(name);
    const changed = copy(output);
    change(changed);
    renumber(changed, placesOf(source).length);
    const answer = answerOf(program, row.options, source, changed);
    const told = isTold(answer) && JSON.stringify(changed) !== JSON.stringify(output);
    told ? right++ : wrong++;
    if (!told || flags.includes('--show')) console.log(`${told ? ' ' : '!'} ${what} (${name}): ${answer}`);
  }
  console.log(`wrong lowerings: ${right} told, ${wrong} not`);
  return wrong === 0 ? 0 : 1;
}

process.exit(main(process.argv.slice(2)));
