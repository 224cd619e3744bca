// Makes a program that is told as not lowered yet as small as it stays so, to show what is in the way.
//
//   node tools/reduce.js PROGRAM SEED..
//
// PROGRAM is the built lowering program (README.md), SEED a number of `tools/made.js` whose program is told so at node 0. Needs acorn and
// escodegen, as made.js does. Parts are left out, one after another, as long as the program is told so still; what stays is printed, with
// the arguments: a field as a method `field` that has its key and its value, a static block as a static method `block`.
'use strict';
const { escodegen, lower, madeOf, parse, withValue } = require('./made.js');

const MOST_RUNS = 2000;
const copy = tree => structuredClone(tree);

// escodegen knows neither fields nor static blocks
const method = (name, isStatic, body) => ({
  type: 'MethodDefinition', kind: 'method', computed: false, static: isStatic, key: { type: 'Identifier', name },
  value: { type: 'FunctionExpression', id: null, params: [], generator: false, async: false, body: { type: 'BlockStatement', body } },
});
const statement = expression => ({ type: 'ExpressionStatement', expression });
function printable(key, v) {
  if (v?.type === 'PropertyDefinition') return method('field', v.static, [v.key, v.value].filter(Boolean).map(statement));
  if (v?.type === 'StaticBlock') return method('block', true, v.body);
  return withValue(key, v);
}
const textOf = tree => escodegen.generate(JSON.parse(JSON.stringify(tree), printable));
const valueAt = (tree, steps) => steps.reduce((value, step) => value[step], tree);
const zero = () => ({ type: 'Literal', value: 0, raw: '0' });

const MAY_BE_ABSENT = new Set(['superClass', 'init', 'value', 'id', 'alternate', 'finalizer', 'handler']);
const isExpression = node => /Expression$|^Identifier$|^TemplateLiteral$/.test(node.type);
// the statements that stand in a statement
const INNER = {
  BlockStatement: s => s.body,
  ForStatement: s => [s.body],
  IfStatement: s => [s.consequent],
  TryStatement: s => s.block.body,
  SwitchStatement: s => s.cases.flatMap(c => c.consequent),
};

// each member that holds a node, and each place in a list of nodes
function* places(node, steps = []) {
  if (!node || typeof node !== 'object') return;
  for (const [key, value] of Object.entries(node)) {
    if (Array.isArray(value)) {
      for (let i = 0; i < value.length; i++) yield { steps, key, index: i };
      for (let i = 0; i < value.length; i++) yield* places(value[i], [...steps, key, i]);
    } else if (value && value.type) {
      yield { steps, key };
      yield* places(value, [...steps, key]);
    }
  }
}

// what may stand in the place of a node of a list
function inList(value) {
  const out = [[]];
  if (!value) return out;
  if (INNER[value.type]) out.push(INNER[value.type](value));
  if (isExpression(value)) out.push([zero()]);
  return out;
}

// what may be a member instead
function inMember(key, value) {
  const out = MAY_BE_ABSENT.has(key) ? [null] : [];
  if (isExpression(value)) out.push(zero());
  if (value.type === 'CallExpression' && value.arguments.length > 0) out.push(value.arguments.at(-1));
  if (value.type === 'ArrowFunctionExpression' && value.expression) out.push(value.body);
  for (const part of ['test', 'consequent', 'alternate', 'left', 'right']) if (isExpression(value) && value[part]?.type) out.push(value[part]);
  return out;
}

// the smaller trees that differ at one place
function* smaller(tree) {
  for (const { steps, key, index } of places(tree)) {
    const value = index === undefined ? valueAt(tree, steps)[key] : valueAt(tree, steps)[key][index];
    for (const other of index === undefined ? inMember(key, value) : inList(value)) {
      const changed = copy(tree), around = valueAt(changed, steps);
      if (index === undefined) around[key] = copy(other);
      else around[key].splice(index, 1, ...copy(other));
      if (JSON.stringify(changed).length < JSON.stringify(tree).length) yield changed;
    }
  }
}

function reduce(tree, isTold) {
  let runs = 0, best = tree;
  for (let found = true; found && runs < MOST_RUNS; ) {
    found = false;
    for (const changed of smaller(best)) {
      runs++;
      if (isTold(changed)) { best = changed; found = true; break; }
    }
  }
  return best;
}

function main([program, ...seeds]) {
  if (seeds.length === 0) {
    console.error('usage: node tools/reduce.js PROGRAM SEED..');
    return 2;
  }
  for (const seed of seeds) {
    const { options, source } = madeOf(Number(seed));
    const isTold = tree => lower(program, options, tree).stdout === 'refused: NotYet at 0\n';
    const tree = parse(source);
    if (!isTold(tree)) { console.log(`${seed}: told otherwise`); continue; }
    console.log(`${seed} ${options.join(' ')}\n    ${textOf(reduce(tree, isTold)).replace(/\s+/g, ' ')}`);
  }
  return 0;
}

process.exitCode = main(process.argv.slice(2));
