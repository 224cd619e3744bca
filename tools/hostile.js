// Gives the checker pairs that are hard on it, or lie: each has to be answered by its cause, in time.
//
//   node tools/hostile.js PROGRAM [--show] [--all]
//
// PROGRAM is the built checker (README.md). The status is 1 if any answer is another one than the case asks for. With `--all` the
// pairs of 60 MB are tried too.
'use strict';
const { spawnSync } = require('child_process');
const fs = require('fs');
const path = require('path');

const FOLDER = path.join(__dirname, 'rows', 'pairs');
const SECONDS = 600;
const MB = 1e6;
const MOST_BYTES = 67108864;

const readPair = name => ['source', 'output'].map(part => JSON.parse(fs.readFileSync(path.join(FOLDER, `${name}.${part}.json`), 'utf8')));
const changed = (name, change) => {
  const [source, output] = readPair(name);
  change(output, source);
  return JSON.stringify([source, output]);
};

const node = (type, members) => ({ type, ...members });
const program = body => node('Program', { sourceType: 'script', body });
const identifier = name => node('Identifier', { name });
const statement = expression => node('ExpressionStatement', { expression });

// numbers the nodes in preorder, where no member has nodes in front of those of an earlier one
function numbered(tree) {
  let next = 0;
  const go = value => {
    if (Array.isArray(value)) value.forEach(go);
    else if (value && typeof value === 'object') {
      value.node = next++;
      Object.entries(value).filter(([key]) => key !== 'node').forEach(([, below]) => go(below));
    }
  };
  go(tree);
  return tree;
}

// a pair of a program and itself
function same(tree) {
  const lowered = numbered(JSON.parse(JSON.stringify(tree)));
  lowered.generated = [];
  return JSON.stringify([tree, lowered]);
}

// !!..!a, with so many operators; JSON nests at most 127 deep
const negations = count => program([statement(Array.from({ length: count }).reduce(argument => node('UnaryExpression', { operator: '!', prefix: true, argument }), identifier('a')))]);

// (a.b.b..)
const members = count => Array.from({ length: count }).reduce(object => node('MemberExpression', { object, property: identifier('b'), computed: false, optional: false }), identifier('a'));

const reads = count => program(Array.from({ length: count }, () => statement(identifier('a'))));
const repeated = (text, bytes) => text.repeat(Math.floor(bytes / text.length));

const DIFFERS = /^differs: .+ at \d+$/;
const CASES = [
  // ---- no pairs
  ['nothing', () => '', [], /^not a pair$/, 3],
  ['no JSON', () => '[{]', [], /^not a pair$/, 3],
  ['bytes that are no UTF-8', () => Buffer.from([0x5b, 0xff, 0x5d]), [], /^not a pair$/, 3],
  ['an empty list', () => '[]', [], /^not a pair$/, 3],
  ['a list of three', () => '[{},{},{}]', [], /^not a pair$/, 3],
  ['lists 200 deep', () => '['.repeat(200) + ']'.repeat(200), [], /^not a pair$/, 3],
  ['an open list a million deep', () => '['.repeat(1e6), [], /^not a pair$/, 3],
  ['a source alone', () => JSON.stringify([reads(1)]), [], /^not a pair$/, 3],
  ['a lowered program without numbers', () => JSON.stringify([reads(1), { ...reads(1), generated: [] }]), [], /^not a pair$/, 3],
  ['a lowered program without generated names', () => JSON.stringify([reads(1), numbered(reads(1))]), [], /^not a pair$/, 3],
  ['a number that is no u32', () => changed('instance_field', o => { o.node = 4294967296; }), ['--class-properties'], /^not a pair$/, 3],
  ['a number that is a float', () => changed('instance_field', o => { o.node = 0.5; }), ['--class-properties'], /^not a pair$/, 3],
  ['a number below 0', () => changed('instance_field', o => { o.node = -1; }), ['--class-properties'], /^not a pair$/, 3],
  ['arguments of another grammar', () => same(reads(1)), ['--fields'], /^bad words$/, 2],
  ['more than 64 MiB', () => ' '.repeat(MOST_BYTES + 1), [], /^too long$/, 7],
  // ---- deep ones
  ['an expression as deep as JSON allows', () => same(negations(60)), ['--class-properties'], /^agreed$/, 0],
  ['members as deep as JSON allows', () => same(program([statement(members(60))])), ['--class-properties'], /^agreed$/, 0],
  ['an expression deeper than JSON allows', () => same(negations(200)), [], /^not a pair$/, 3],
  // ---- numbers that lie
  ['a number that stands twice', () => changed('two_fields', o => { o.body[0].body.node = o.body[0].id.node; }), ['--class-properties'], DIFFERS, 1],
  ['the greatest number', () => changed('instance_field', o => { o.body[0].body.body[0].node = 4294967295; }), ['--class-properties'], DIFFERS, 1],
  ['new nodes out of order', () => changed('instance_field', o => { const e = o.body[0].body.body[0]; [e.node, e.key.node] = [e.key.node, e.node]; }), ['--class-properties'], DIFFERS, 1],
  ['the number of another node', () => changed('two_fields', (o, s) => { o.body[0].id.node = 1; o.body[0].node = 2; }), ['--class-properties'], DIFFERS, 1],
  // ---- lists of names that lie
  ['a name without a declaration', () => changed('static_own_name', o => { o.generated.push({ kind: 'temp', name: '_nowhere' }); }), ['--class-properties'], DIFFERS, 1],
  ['a name that is not told', () => changed('static_own_name', o => { o.generated = []; }), ['--class-properties'], DIFFERS, 1],
  ['a name told twice', () => changed('static_own_name', o => { o.generated.push(o.generated[0]); }), ['--class-properties'], DIFFERS, 1],
  ['a name of another class', () => changed('static_own_name', o => { o.generated[0].class = 3; }), ['--class-properties'], DIFFERS, 1],
  ['a name of another kind', () => changed('static_own_name', o => { o.generated[0] = { kind: 'temp', name: '_C' }; }), ['--class-properties'], DIFFERS, 1],
  ['a name of no class', () => changed('static_own_name', o => { o.generated[0].class = 4294967295; }), ['--class-properties'], DIFFERS, 1],
  ['a name of the source', () => changed('static_own_name', o => { o.generated.push({ kind: 'temp', name: 'C' }); }), ['--class-properties'], DIFFERS, 1],
  ['a kind that is none', () => changed('static_own_name', o => { o.generated[0].kind = 'name'; }), ['--class-properties'], /^not a pair$/, 3],
  ['a name that is half a character', () => changed('static_own_name', o => { o.generated.push({ kind: 'temp', name: '\ud800' }); }), ['--class-properties'], /^(not a pair|differs: .+ at \d+)$/, undefined],
  ['ten thousand names', () => changed('static_own_name', o => { for (let i = 0; i < 1e4; i++) o.generated.push({ kind: 'temp', name: `_a${i}` }); }), ['--class-properties'], DIFFERS, 1],
  // ---- other programs
  ['programs exchanged', () => JSON.stringify((([s, o]) => [numbered(o), { ...s, generated: [] }])(readPair('instance_field'))), ['--class-properties'], DIFFERS, 1],
  ['nothing for something', () => JSON.stringify([readPair('instance_field')[0], { ...numbered(program([])), generated: [] }]), ['--class-properties'], DIFFERS, 1],
];
const LARGE = [
  ['60 MB of objects', () => `[${repeated('{"":0},', 60 * MB)}0]`, [], /^not a pair$/, 3],
  ['60 MB of a string', () => `["${repeated('a', 60 * MB)}",0]`, [], /^not a pair$/, 3],
  ['60 MB of statements', () => same(reads(Math.floor(60 * MB / 190))), ['--class-properties'], /^agreed$/, 0],
];

function answerOf(run, input, options) {
  const ran = spawnSync(run, options, { input, timeout: SECONDS * 1000, maxBuffer: 1 << 26 });
  return { status: ran.status, line: ran.error ? `no answer: ${ran.error.message}` : ran.stdout.toString().trim() };
}

function main([run, ...flags]) {
  let wrong = 0;
  for (const [name, input, options, wanted, status] of flags.includes('--all') ? [...CASES, ...LARGE] : CASES) {
    const start = Date.now();
    const answer = answerOf(run, input(), options);
    const right = wanted.test(answer.line) && (status === undefined || answer.status === status);
    if (!right) wrong++;
    if (!right || flags.includes('--show')) console.log(`${right ? ' ' : '!'} ${name}: ${answer.line} (${answer.status}, ${((Date.now() - start) / 1000).toFixed(1)} s)`);
  }
  console.log(`${wrong} answers not as wanted`);
  return wrong === 0 ? 0 : 1;
}

process.exit(main(process.argv.slice(2)));
