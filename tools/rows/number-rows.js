// Numbers worked rows: of each it prints the source and what it is lowered to, as trees with their numbers (README.md).
//
//   node number-rows.js [ROWS] [--out FOLDER] [--only NAME] [--show] [--list]
//   node number-rows.js --table FILE ..   the same with FILE in place of rows.json
const fs = require('fs');
const path = require('path');
const { annotate, preorder } = require('./table.js');
const parse = require('./parse.js');
const { Matcher } = require('./match.js');
const { check, ledgerOf } = require('./check.js');
const { json, compact, generatedJson, moduleText, readModule, plain } = require('./print.js');

function optionsOf(words) {
  const has = w => words.includes(w), at = words.indexOf('--assume');
  const assumptions = at < 0 ? {} : JSON.parse(words[at + 1]);
  const loose = has('--loose');
  return { classProperties: has('--class-properties'), staticBlocks: has('--static-block'), loose, removes: has('--remove-fields'), sets: loose || !!assumptions.setPublicClassFields, assumptions };
}

// the output with its numbers: those of the answer, and the new nodes from `first` in preorder
function numbered(output, answer, first) {
  let next = first;
  for (const n of preorder(output)) {
    n.num = answer.numbers.has(n.path) ? answer.numbers.get(n.path) : next++;
    if (n.num >= first && n.literal && n.literal.tag === 'String') n.literal.raw = null;
  }
}

// where the answers differ: a hint for one of these numbers decides
function differences(answers) {
  const places = new Map();
  for (const a of answers) for (const [at, num] of a.numbers) { if (!places.has(num)) places.set(num, new Set()); places.get(num).add(at); }
  const lines = [...places].filter(([num, set]) => set.size > 1 || answers.some(a => ![...a.numbers.values()].includes(num))).map(([num, set]) => `    ${num}: ${[...set].join(' or ')}`);
  return lines.length ? lines.join('\n') : answers.map(a => '    ' + JSON.stringify(a.ledger)).join('\n');
}

function numberRow(row, told) {
  const type = row.type || 'script', options = optionsOf(row.words), text = row.out.replace(/\bB\./g, 'babelHelpers.');
  const source = annotate(parse(row.input, type), 'Program'), output = annotate(parse(text, type), 'Program');
  const nodes = preorder(source);
  nodes.forEach((n, i) => { n.num = i; });
  const matcher = new Matcher(source, output, options, told.places);
  const answers = matcher.solutions();
  if (!answers.length) throw new Error(`no answer; the farthest match was at ${matcher.deepest.at}, with ${matcher.deepest.count} numbers`);
  if (answers.length > 1) throw new Error(`${answers.length} answers; a hint is needed:\n${differences(answers)}`);
  numbered(output, answers[0], nodes.length);
  for (const n of preorder(output)) if (n.num < nodes.length && n.literal && n.literal.tag === 'String') n.literal.raw = nodes[n.num].literal ? nodes[n.num].literal.raw : null;
  const ledger = ledgerOf(output, answers[0].ledger, nodes.length);
  check(source, output, ledger, options);
  return { name: told.name, nodes: nodes.length, source, output, ledger, options, outside: outsideOf(row, told), warnings: row.warnings || [] };
}

const equal = (a, b) => JSON.stringify(a) === JSON.stringify(b);
function outsideOf(row, told) {
  const given = row.outside ? [row.outside] : row.outsideBy ? Object.values(row.outsideBy) : null;
  if (given && !given.some(list => equal(list, told.outside))) throw new Error(`outside ${JSON.stringify(told.outside)} where the row has ${JSON.stringify(given)}`);
  return told.outside;
}
const sortedMembers = v => v.map(e => Object.fromEntries(Object.entries(e).sort()));

function texts(row, r, table) {
  const generated = r.ledger.map(generatedJson);
  if (row.generated && !equal(sortedMembers(row.generated), sortedMembers(generated))) throw new Error(`generated ${JSON.stringify(generated)}`);
  const lowered = { ...json(r.output), generated, warnings: r.warnings, outside: r.outside };
  const name = r.name.replace(/(^|_)(\w)/g, (_, __, c) => c.toUpperCase());
  const out = {
    [`${r.name}.source.json`]: compact(json(r.source)),
    [`${r.name}.output.json`]: compact(lowered),
    [`specs/rows/${name}.antt`]: moduleText({ name: r.name, table, source: row.input, output: row.out }, r),
  };
  if (row.text && row.text !== out[`${r.name}.output.json`]) throw new Error('the text differs from that of the row');
  // the module and the JSON are the same trees
  const again = readModule(out[`specs/rows/${name}.antt`]);
  for (const what of ['source', 'output']) {
    const tree = plain(annotate(JSON.parse(out[`${r.name}.${what}.json`]), 'Program'));
    if (!equal(tree, again[what])) throw new Error(`the module and the JSON differ in the ${what}`);
  }
  return out;
}

// the rows of rows.json, with what the file `given` has of them
function rowsOf(given, tableName) {
  const table = JSON.parse(fs.readFileSync(path.resolve(__dirname, tableName), 'utf8'));
  if (!given) return table.map(told => [told.name, asGiven(told), told]);
  const file = path.resolve(given), value = file.endsWith('.json') ? JSON.parse(fs.readFileSync(file, 'utf8')) : require(file);
  const key = (words, input, type) => JSON.stringify([words, input, type || 'script']);
  const names = new Map(table.map(told => [key(told.options, told.source, told.type), told]));
  const withTrees = (Array.isArray(value) ? value : value.rows).filter(row => typeof row.input === 'string' && row.out);
  return withTrees.map(row => [row.id, row, names.get(key(row.words, row.input, row.type))]);
}
const asGiven = told => ({ words: told.options, input: told.source, out: told.output, type: told.type, generated: told.generated, warnings: told.warnings, text: told.text });

function write(folder, files) {
  for (const [name, text] of Object.entries(files)) {
    const at = path.join(folder, name);
    fs.mkdirSync(path.dirname(at), { recursive: true });
    fs.writeFileSync(at, text);
  }
}
const line = r => `${preorder(r.source).length} -> ${preorder(r.output).length} nodes, generated ${r.ledger.map(e => `${e.name} ${e.kind}${e.number === undefined ? '' : ' ' + e.number}`).join(', ') || 'none'}`;
// the nodes of both trees with their numbers and places
function show(r) {
  for (const what of ['source', 'output']) {
    console.log(what);
    for (const n of preorder(r[what])) console.log(`  ${String(n.num).padStart(3)} ${n.nodeKind} ${n.name ?? n.operator ?? (n.literal ? n.literal.value ?? n.literal.raw : '')}  ${n.path}`);
  }
}

function main() {
  const args = process.argv.slice(2), option = name => { const i = args.indexOf(name); return i < 0 ? null : args.splice(i, 2)[1]; };
  const folder = option('--out'), only = option('--only'), table = option('--table') || 'rows.json', has = flag => args.includes(flag);
  let failed = 0;
  const modules = [];
  for (const [id, row, told] of rowsOf(args.find(a => !a.startsWith('--')), table)) {
    if (!told) { if (!only) console.log(`${id}: rows.json has no name for it`); continue; }
    if (only && told.name !== only) continue;
    if (has('--list')) { console.log(`${id}: ${told.name}`); continue; }
    try {
      if (told.output !== row.out) throw new Error('the output differs from that of rows.json');
      const r = numberRow(row, told), files = texts(row, r, table);
      if (folder) write(folder, files);
      if (has('--show')) show(r);
      modules.push(path.basename(Object.keys(files)[2], '.antt'));
      console.log(`${id}: ${told.name}: ${line(r)}`);
    } catch (e) { failed++; console.log(`${id}: ${told.name}: FAILED: ${process.env.TRACE ? e.stack : e.message}`); }
  }
  if (folder && modules.length) {
    const all = fs.readdirSync(path.join(folder, 'specs', 'rows')).sort();
    write(folder, { 'specs/rows.antt': all.map(f => `pub mod ${path.basename(f, '.antt')}\n`).join('') });
  }
  console.log(`${modules.length} printed, ${failed} failed`);
  process.exit(failed ? 1 : 0);
}
if (require.main === module) main();
module.exports = { numberRow, optionsOf };
