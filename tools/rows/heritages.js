// Programs with heritages, as definitions for specs/ and as laws: of each class with a heritage, in preorder, whether that has
// events. The answers are worked out by hand; crates/es_heritages proves that the form of the heritage and its evaluation both
// give them.
//
//   node heritages.js crates/es_heritages
const fs = require('fs');
const path = require('path');
const { annotate, preorder } = require('./table.js');
const parse = require('./parse.js');
const { optionsOf } = require('./number-rows.js');
const { term, imports, optionsTerm } = require('./print.js');

const fields = ['--class-properties'];
const removed = ['--class-properties', '--loose', '--remove-fields'];
const blocks = ['--class-properties', '--static-block'];
// one class for each heritage
const each = heritages => heritages.map(h => `class A${heritages.indexOf(h)} extends ${h} {}`).join(' ');
const programs = [
  { name: 'bindings', source: `var x; let y = 1; y = 2; class B {} function f() {} let C = class {}; ${each(['x', 'y', 'z', 'B', 'f', 'C', '(A6)'])}`, events: [false, true, true, false, false, false, false] },
  { name: 'caught_names', source: 'try { f(); } catch (e) { class A extends e {} } function g(p, q = 1) { q = 2; class B extends p {} class C extends q {} }', events: [false, false, true] },
  { name: 'written_class', source: 'class B { m() { class A extends B {} return class extends (class extends B {}) {}; } } B = 0; class C extends B {}', events: [false, false, false, true] },
  { name: 'own_name', source: 'f(class B { m() { B = 1; return class extends B {}; } });', events: [false] },
  { name: 'shadowed_class', source: 'class B { m(B) { B = 1; class A extends B {} } } B = 0;', events: [true] },
  { name: 'imports', type: 'module', source: `import d, { p } from "m"; let q; ${each(['d', 'p', 'q', 'import.meta'])}`, events: [true, true, false, true] },
  { name: 'arguments_of_functions', source: 'class A extends arguments {} function f() { return class extends arguments {}; } g(() => class extends arguments {}); class B { m() { return () => class extends arguments {}; } x = () => class extends this {}; }', events: [true, false, true, false, false] },
  { name: 'written_arguments', source: 'function f() { arguments = 1; return class extends arguments {}; }', events: [true] },
  { name: 'declared_arguments', source: 'function f(arguments) { return class extends arguments {}; }', events: [true] },
  { name: 'constants', source: each(['null', '1', '2n', '"s"', 'true', '/r/', 'this']), events: [false, false, false, false, false, true, false] },
  { name: 'targets', source: 'function f() { return class extends new.target {}; }', events: [false] },
  { name: 'templates', source: each(['`a`', '`a${b}`', 't`a`']), events: [false, true, true] },
  { name: 'unary', source: each(['(void 0)', '(void x)', '(void void 0)', '(void `a`)', '(delete this)', '(void delete this)', '(delete delete this)', '(delete x.y)', '(typeof x)', '(-1)', '(!0)']), events: [false, true, true, true, false, false, true, true, true, true, true] },
  { name: 'sequences', source: each(['(0, null)', '(0, f())', '(f(), 0)', '(0, (1, 2))']), events: [false, true, true, false] },
  { name: 'functions', source: each(['(function () { f(); })', '(() => f())', '(async () => f())', '(function* () { yield f(); })', '(function F() {})']), events: [false, false, false, false, false] },
  { name: 'operations', source: `let x, o; ${each(['f()', 'o.p', '(o?.p)', 'o[1]', '(new F)', '[]', '({})', '(1 + 2)', '(1 && 2)', '(1 ? 2 : 3)', '(x = 1)', '(x++)', '(x += 1)', '(x ||= 1)', '([x] = o)', '(1 in o)', '(import("m"))'])}`, events: Array(17).fill(true) },
  { name: 'members', source: 'class P { #x; m(o) { return [class extends super.m {}, class extends (#x in o) {}, class extends o.#x {}]; } }', events: [true, true, true] },
  { name: 'suspended', source: 'function* g() { return class extends (yield) {}; } async function h() { return class extends (await x) {}; }', events: [true, true] },
  { name: 'nested_heritages', source: each(['(class extends null {})', '(class extends f() {})', '(class extends (class extends g() {}) {})']), events: [false, false, true, true, true, true, true] },
  { name: 'keys', source: each(['(class { k() {} })', '(class { [k()]() {} })', '(class { ["k"]() {} })', '(class { [k()] = 1; })', '(class { ["k"] = f(); })', '(class { static [k()]() {} })', '(class { get [this]() { return f(); } })', '(class { "k"() {} 1() {} 2n() {} })']), events: [false, true, false, true, false, true, false, false] },
  { name: 'names_in_heads', source: each(['(class D { [() => D]() {} })', '(class D { m() { return D; } })', '(class D extends (() => D) {})', '(class D { static [0]() { return D; } })']), events: [true, false, true, false, false] },
  { name: 'elements', source: each(['(class { x = f(); #y = g(); #m() {} static #s() {} get #g() { return 1; } constructor() { h(); } })', '(class { static x = 1; })', '(class { static x; })', '(class { static #x; })', '(class { x; })']), events: [false, true, true, true, false] },
  { name: 'removed_fields', options: removed, source: each(['(class { static x; })', '(class { static x = 1; })', '(class { static #x; })', '(class { static [f()]; })', '(class { static "name"; })']), events: [false, true, true, true, false] },
  { name: 'set_fields', options: ['--class-properties', '--loose'], source: each(['(class { static x; })', '(class { x; })']), events: [true, false] },
  { name: 'blocks', source: each(['(class { static {} })', '(class { static { f(); } })', '(class { static { 1; ; {} } })', '(class { static { var x; function g() {} } })', '(class { static { var x = 1; } })', '(class { static { let { a } = b; } })']), events: [false, true, false, false, true, true] },
  { name: 'functions_in_blocks', source: each(['(class { static { { function g() {} } } })', '(class { static { { async function g() {} function* h() {} } } })', '(class { static { { { let x; } } } })']), events: [true, true, true] },
  { name: 'statements_in_blocks', options: blocks, source: each(['(class { static { class D {} } })', '(class { static { (class D {}); } })', '(class { static { debugger; } })', '(class { static { if (1) 2; } })', '(class { static { l: 1; } })', '(class { static { for (;;) {} } })', '(class { static { (class { static x = 1; }); } })', '(class { static { throw 1; } })', '(class { static { try {} catch {} } })']), events: [true, false, true, true, true, true, true, true, true] },
  { name: 'names_in_blocks', source: 'f(class B { static { B = 1; (class extends B {}); } m() { return class extends (class { static { B; z; } }) {}; } n() { return class extends (class { static { B; } }) {}; } });', events: [false, true, false] },
];

const list = (items, one) => items.map(x => `${one(x)} ∷ `).join('') + '[]';
const define = (what, name, type, value) => `abbrev pub ${what}_${name} : ${type}\n${what}_${name} = ${value}\n`;
function definitions(p) {
  const t = annotate(parse(p.source, p.type || 'script'), 'Program');
  preorder(t).forEach((n, i) => { n.num = i; });
  const classes = preorder(t).filter(n => /^Class(Declaration|Expression)$/.test(n.type) && n.superClass);
  if (classes.length !== p.events.length) throw new Error(`${p.name}: ${classes.length} heritages`);
  const heritages = classes.map((n, i) => [n.num, p.events[i]]);
  return [`-- \`${p.source}\`\n${define('source', p.name, 'Tree', term(t))}`, define('options', p.name, 'Options', optionsTerm(optionsOf(p.options || fields))), define('heritages', p.name, 'List (ℕ × Bool)', list(heritages, ([n, b]) => `(${n}, ${b})`))].join('\n');
}

function main() {
  const crate = process.argv[2], body = programs.map(definitions).join('\n');
  const lines = imports(body).replace(/use Rattle.es_base.specs.declared.ledger.LedgerEntry.\{LedgerEntry\}\n/, '').replace('{ℕ, List,', '{ℕ, List, Bool,');
  fs.writeFileSync(path.join(crate, 'specs', 'Programs.antt'), `-- Programs with heritages. Printed by tools/rows/heritages.js.\n${lines}\n\n${body}`);
  const cited = programs.flatMap(p => ['source', 'options', 'heritages'].map(w => `${w}_${p.name}`)).join(', ');
  const ensures = programs.map(p => `    ensures ${p.name} { HasHeritages options_${p.name} source_${p.name} heritages_${p.name} }\n`).join('');
  fs.writeFileSync(path.join(crate, 'src', 'law.rt'), `// Heritages by their form and by their evaluation. Printed by tools/rows/heritages.js.\n\nghost use Rattle.es_heritages.specs.Agreement.{HasHeritages};\nghost use Rattle.es_heritages.specs.Programs.{${cited}};\n\n/// Of each class with a heritage in these programs, in preorder, whether that has events: the same by its\n/// form as by evaluation. Does nothing.\npub fn heritages_have_events()\n${ensures}{}\n`);
  const at = path.join(crate, 'proofs', 'law', 'heritages_have_events');
  fs.mkdirSync(at, { recursive: true });
  fs.writeFileSync(path.join(at, 'Answers.antt'), `use Rattle.std.specs.Prelude.{refl}\nuse Rattle.es_heritages.proofs.law.heritages_have_events.Goals as goal\n${programs.map(p => `\npub returns-clause-${p.name} : goal.returns-clause-${p.name}\nreturns-clause-${p.name} c = (refl, refl, refl)\n`).join('')}`);
  console.log(`${programs.length} programs, ${programs.reduce((n, p) => n + p.events.length, 0)} heritages`);
}
main();
