// Processor time and peak memory of the program, beside node's JSON.parse and JSON.stringify of the same bytes: in a process
// that did the same before (warm), and as a whole process. Not in the gate.
//
//   NODE_PATH=/usr/share/nodejs node bench/bench.js crates/lower_cli/out/lower_cli [RUNS]
//
// The inputs have 0.5, 5 and 50 MB: trees made here, without spans, and the trees that acorn gives for the source of such
// classes, with spans. Then come inputs that are hard on a reader: an object with 100,000 members in falling order, one
// with 100,000 equal members, each also of twice that size, and 30 and 60 MB of `{"":0}`. Each is run RUNS times (5), and the
// run in the middle is printed. Without acorn its trees are left out.
const { spawnSync } = require('child_process');
const fs = require('fs');
const os = require('os');
const path = require('path');

const [, , program, runs = '5'] = process.argv;
if (!program) {
  console.error('usage: node bench/bench.js PROGRAM [RUNS]');
  process.exit(2);
}
const RUNS = Number(runs);
const SIZES = [0.5, 5, 50];

// ---- inputs

// class Class0 { field0 = 0; field1 = 'text 1'; field2 = elsewhere; field3; .. }
const VALUES = [k => String(k), k => `'text ${k}'`, () => 'elsewhere', () => ''];
const valueOf = (c, k) => VALUES[(c + k) % 4](k);
const sourceOf = classes => Array.from({ length: classes }, (_, c) =>
  `class Class${c} { ${Array.from({ length: 10 }, (_, k) => `field${k}${valueOf(c, k) && ' = '}${valueOf(c, k)};`).join(' ')} }`).join('\n');

const identifier = name => ({ type: 'Identifier', name });
const literal = raw => ({ type: 'Literal', value: raw[0] === "'" ? raw.slice(1, -1) : null, raw });
const made = raw => (raw === '' ? null : raw === 'elsewhere' ? identifier(raw) : literal(raw));
const field = (c, k) => ({
  type: 'PropertyDefinition', key: identifier(`field${k}`), value: made(valueOf(c, k)), computed: false, static: false,
});
const classOf = c => ({
  type: 'ClassDeclaration', id: identifier(`Class${c}`), superClass: null,
  body: { type: 'ClassBody', body: Array.from({ length: 10 }, (_, k) => field(c, k)) },
});
const madeTree = classes => JSON.stringify({
  type: 'Program', sourceType: 'script', body: Array.from({ length: classes }, (_, c) => classOf(c)),
});

let acorn = null;
try {
  acorn = require('acorn');
} catch {
  console.log('no acorn (NODE_PATH): its trees are left out');
}
const withoutNumber = (key, value) => (key === 'value' && typeof value === 'number' ? null : value);
const acornTree = classes => JSON.stringify(acorn.parse(sourceOf(classes), { ecmaVersion: 2022 }), withoutNumber);

// as many classes as make this many MB
function sized(treeOf, megabytes) {
  const few = treeOf(1000).length / 1000;
  return treeOf(Math.round((megabytes * 1e6) / few));
}

const members = (count, keyOf) => `{${Array.from({ length: count }, (_, i) => `"${keyOf(i)}":0`).join(',')}}`;
const falling = count => members(count, i => `k${String(count - i).padStart(7, '0')}`);
const equal = count => members(count, () => 'key');
const objects = megabytes => `[${Array(Math.round((megabytes * 1e6) / 7)).fill('{"":0}').join(',')}]`;

// ---- measures

const middle = all => all.sort((a, b) => a.processor - b.processor)[all.length >> 1];

// a whole process, under /usr/bin/time
function whole(command, words, file) {
  const one = () => {
    const run = spawnSync('/usr/bin/time', ['-f', '%U %S %M', command, ...words], {
      stdio: [fs.openSync(file, 'r'), fs.openSync('/dev/null', 'w'), 'pipe'],
    });
    const [user, system, memory] = run.stderr.toString().trim().split('\n').pop().split(' ').map(Number);
    return { processor: user + system, memory: memory / 1024, status: run.status };
  };
  return middle(Array.from({ length: RUNS }, one));
}

const folder = fs.mkdtempSync(path.join(os.tmpdir(), 'bench-'));
const parse = path.join(folder, 'parse.js');
fs.writeFileSync(parse, "process.stdout.write(JSON.stringify(JSON.parse(require('fs').readFileSync(0, 'utf8'))));");
const warm = path.join(folder, 'warm.js');
fs.writeFileSync(warm, `
const text = require('fs').readFileSync(process.argv[2]);
const once = () => {
  const before = process.cpuUsage();
  Buffer.from(JSON.stringify(JSON.parse(text.toString())));
  const { user, system } = process.cpuUsage(before);
  return (user + system) / 1e6;
};
once();
once();
console.log(Array.from({ length: ${RUNS} }, once).sort((a, b) => a - b)[${RUNS >> 1}]);
`);
const warmSeconds = file => Number(spawnSync(process.execPath, ['--max-old-space-size=8000', warm, file]).stdout);

const HEAD = ['input', 'MB', 'nodes', 'status', 's', 'MiB', 'KB/node', 'B/byte', 'x before', 'warm node s', 'ratio', 'node s', 'ratio', 'node MiB'];
const WIDTHS = [26, 6, 8, 7, 7, 6, 8, 7, 9, 12, 6, 7, 6, 9];
const print = row => console.log(row.map((cell, i) => (i ? String(cell).padStart(WIDTHS[i]) : String(cell).padEnd(WIDTHS[i]))).join(' '));

// prints a line for an input, and gives the program's processor time. `before` is that of a step before, if there was one
function line(name, text, before) {
  const file = path.join(folder, 'input.json');
  fs.writeFileSync(file, text);
  const bytes = fs.statSync(file).size;
  const nodes = (text.match(/"type":/g) || []).length;
  const own = whole(program, ['--class-properties'], file);
  const node = whole(process.execPath, ['--max-old-space-size=8000', parse], file);
  const floor = warmSeconds(file);
  print([
    name, (bytes / 1e6).toFixed(1), nodes, own.status, own.processor.toFixed(2), Math.round(own.memory),
    nodes > 100 ? ((own.memory * 1024) / nodes).toFixed(2) : '', ((own.memory * 1048576) / bytes).toFixed(1), before ? (own.processor / before).toFixed(1) : '',
    floor.toFixed(3), (own.processor / floor).toFixed(2), node.processor.toFixed(2), (own.processor / node.processor).toFixed(2), Math.round(node.memory),
  ]);
  return own.processor;
}

print(HEAD);
for (const [name, treeOf] of [['made classes', madeTree], ...(acorn ? [["acorn's classes, spans", acornTree]] : [])]) {
  for (const size of SIZES) line(name, sized(treeOf, size));
  let before = 0;
  for (const size of [6.25, 12.5, 25, 50]) before = line(`${name}, doubling`, sized(treeOf, size), before);
}
for (const [name, textOf, size] of [['members in falling order', falling, 100000], ['equal members', equal, 100000], ['{"":0}', objects, 30]]) {
  const before = line(name, textOf(size));
  line(name, textOf(2 * size), before);
}
fs.rmSync(folder, { recursive: true });
