// Processor time and peak memory of the checker on pairs of growing size, beside what reading the two trees takes. Not in the gate.
//
//   node bench/pairs.js CHECKER LOWERER [RUNS [CLASSES..]]
//
// CHECKER and LOWERER are the built programs (README.md). Two kinds of pairs, each of so many CLASSES: a chain of classes with private
// members and what it is lowered to (chain.js), and classes of ten fields, lowered by the second program. Reading is that of the same
// pair behind a statement that is not valid, so that nothing is compared. The run in the middle of RUNS (3).
'use strict';
const { spawnSync } = require('child_process');
const fs = require('fs');
const os = require('os');
const path = require('path');
const { chain } = require('./chain.js');

const [, , checker, lowerer, runs = '3', ...sizes] = process.argv;
if (!lowerer) {
  console.error('usage: node bench/pairs.js CHECKER LOWERER [RUNS [CLASSES..]]');
  process.exit(2);
}
const CLASSES = sizes.length > 0 ? sizes.map(Number) : [50, 100, 200, 400];
const folder = fs.mkdtempSync(path.join(os.tmpdir(), 'pairs-'));

// class Class0 { field0 = 0; field1 = 'text 1'; field2 = elsewhere; field3; .. }
const identifier = name => ({ type: 'Identifier', name });
const literal = raw => ({ type: 'Literal', value: raw[0] === "'" ? raw.slice(1, -1) : null, raw });
const VALUES = [k => literal(String(k)), k => literal(`'text ${k}'`), () => identifier('elsewhere'), () => null];
const field = (c, k) => ({ type: 'PropertyDefinition', key: identifier(`field${k}`), value: VALUES[(c + k) % 4](k), computed: false, static: false });
const classOf = c => ({
  type: 'ClassDeclaration', id: identifier(`Class${c}`), superClass: null,
  body: { type: 'ClassBody', body: Array.from({ length: 10 }, (_, k) => field(c, k)) },
});
const sourceOf = classes => ({ type: 'Program', sourceType: 'script', body: Array.from({ length: classes }, (_, c) => classOf(c)) });
// return;
const INVALID = { type: 'ReturnStatement', argument: null };

function run(program, text) {
  const file = path.join(folder, 'input.json');
  fs.writeFileSync(file, text);
  const one = () => {
    const ran = spawnSync('/usr/bin/time', ['-f', '%U %S %M', program, '--class-properties'], { stdio: [fs.openSync(file, 'r'), 'pipe', 'pipe'], maxBuffer: 1 << 30 });
    const [user, system, memory] = ran.stderr.toString().trim().split('\n').pop().split(' ').map(Number);
    return { seconds: user + system, memory: memory / 1024, output: ran.stdout.toString() };
  };
  return Array.from({ length: Number(runs) }, one).sort((a, b) => a.seconds - b.seconds)[Number(runs) >> 1];
}

// of a tree the nodes without their numbers, as of one that was not read before
const bare = source => JSON.stringify(source, (key, value) => (key === 'node' ? undefined : value));
const fields = classes => {
  const source = sourceOf(classes);
  return [source, run(lowerer, JSON.stringify(source)).output];
};
const linked = classes => {
  const [source, lowered] = chain(classes);
  return [source, JSON.stringify(lowered)];
};

const nodes = text => (text.match(/"type":/g) || []).length;
function line(classes, [source, lowered]) {
  const pair = `[${bare(source)},${lowered}]`;
  const reading = run(checker, `[${bare({ ...source, body: [...source.body, INVALID] })},${lowered}]`);
  const checking = run(checker, pair);
  console.log([
    String(classes).padStart(7), String(nodes(pair)).padStart(8), (pair.length / 1e6).toFixed(2).padStart(8), reading.seconds.toFixed(2).padStart(10),
    checking.seconds.toFixed(2).padStart(11), (checking.seconds / reading.seconds).toFixed(1).padStart(6), Math.round(checking.memory).toString().padStart(7), ` ${checking.output.trim()}`,
  ].join(' '));
}

for (const [kind, pairOf] of [['a chain of classes', linked], ['classes of ten fields', fields]]) {
  console.log(kind);
  console.log('classes    nodes       MB  reading s  checking s  ratio     MiB  answer');
  for (const classes of CLASSES) line(classes, pairOf(classes));
}
