// What is asked of a tree, beside reading it from the text of its JSON: whether it is valid, its shapes and warnings, its scope
// table. In milliseconds, for made inputs: classes of 19 nodes, classes with nothing to lower, and one scope with many names; each
// at three sizes, to see how time grows. Not in the gate.
//
//   node bench/scopes.js
//
// It copies the crates into a folder of its own, adds the program below, and has `rt run` prove and build it.
const { execFileSync, spawnSync } = require('child_process');
const fs = require('fs');
const os = require('os');
const path = require('path');

const main = `
//! Reads a program from a file, and asks all that is asked of one; prints the milliseconds of each.
#![tactic(auto)]

use es_binding_faults::check::check_valid;
use es_json::read::read_program;
use es_outside::outside::outside_shapes;
use es_reading::count::is_countable;
use es_scopes_build::build::build;
use es_shapes::warnings::warnings;
use es_steps::options::{ClassPropertiesOptions, ES2022Options, Options};
use serde_json::Value;
use std::fs;
use std::time::Instant;

fn main(rt: HostRuntime) -> anyhow::Result<()> {
    let alloc = rt.alloc();
    let options = Options {
        es2022: ES2022Options {
            class_properties: Some(ClassPropertiesOptions { loose: false }),
            top_level_await: true,
            ..ES2022Options::default()
        },
        ..Options::default()
    };
    let text = fs::read_to_string(&rt, "tree.json")?;
    let start = Instant::now(&rt)?;
    let value = Value::from_str(alloc, text.as_str())?;
    if is_countable(&value) {
        let (mut program, foreign) = read_program(alloc, &value)?.into_node();
        let read = start.elapsed(&rt)?.as_millis();
        if program.has_at_most(u32::MAX) {
            let start = Instant::now(&rt)?;
            let is_valid = check_valid(alloc, &program, foreign.as_slice(), &options).is_ok();
            let checked = start.elapsed(&rt)?.as_millis();
            let start = Instant::now(&rt)?;
            let shapes = outside_shapes(alloc, &program, &options)?;
            let warnings = warnings(alloc, &program, &options)?;
            let told = start.elapsed(&rt)?.as_millis();
            let start = Instant::now(&rt)?;
            let scoping = build(alloc, &mut program)?;
            let built = start.elapsed(&rt)?.as_millis();
            let room = scoping.has_room();
            let count = shapes.len();
            let warned = warnings.len();
            println!(rt; "{read} {checked} {told} {built} {is_valid} {count} {warned} {room}")?;
        }
    }
    Ok(())
}
`;

const identifier = name => ({ type: 'Identifier', name });
const literal = value => ({ type: 'Literal', value, raw: String(value) });
const privateName = name => ({ type: 'PrivateIdentifier', name });
const field = (key, value, isStatic) => ({ type: 'PropertyDefinition', key, value, computed: false, static: isStatic });
const member = (object, property) => ({ type: 'MemberExpression', object, property, computed: false, optional: false });

// class Ci extends Cp { #x = i; static s = Ci; m(o) { return o.#x; } }
const method = {
  type: 'MethodDefinition', key: identifier('m'), kind: 'method', computed: false, static: false,
  value: {
    type: 'FunctionExpression', id: null, generator: false, async: false, params: [identifier('o')],
    body: { type: 'BlockStatement', body: [{ type: 'ReturnStatement', argument: member(identifier('o'), privateName('x')) }] },
  },
};
const classOf = i => ({
  type: 'ClassDeclaration', id: identifier(`C${i}`), superClass: i ? identifier(`C${i - 1}`) : null,
  body: { type: 'ClassBody', body: [field(privateName('x'), literal(i), false), field(identifier('s'), identifier(`C${i}`), true), method] },
});
// class Ci extends Cp { m(o) { return o.x; } }
const plainMethod = {
  ...method,
  value: {
    ...method.value,
    body: { type: 'BlockStatement', body: [{ type: 'ReturnStatement', argument: member(identifier('o'), identifier('x')) }] },
  },
};
const plainClassOf = i => ({ ...classOf(i), body: { type: 'ClassBody', body: [plainMethod] } });
// let n0; let n1; ..
const nameOf = i => ({
  type: 'VariableDeclaration', kind: 'let', declarations: [{ type: 'VariableDeclarator', id: identifier(`n${i}`), init: null }],
});
const programOf = (count, statement) => JSON.stringify({
  type: 'Program', sourceType: 'script', body: Array.from({ length: count }, (_, i) => statement(i)),
});

// the program, built in a copy of the repository
const top = path.join(__dirname, '..');
const folder = fs.mkdtempSync(path.join(os.tmpdir(), 'scopes-'));
for (const name of ['crates', 'crates.txt', 'HANDLES']) execFileSync('cp', ['-r', path.join(top, name), folder]);
const crate = path.join(folder, 'crates', 'scopes_bench');
fs.mkdirSync(path.join(crate, 'src'), { recursive: true });
fs.mkdirSync(path.join(crate, 'data'));
fs.writeFileSync(path.join(crate, 'src', 'main.rt'), main.trimStart());
fs.appendFileSync(path.join(folder, 'crates.txt'), 'scopes_bench: es_base es_node es_tree es_reading es_json es_steps es_scopes es_scopes_build es_validity es_binding_faults es_shapes es_outside serde_json anyhow\n');
fs.writeFileSync(path.join(crate, 'data', 'tree.json'), programOf(1, nameOf));
execFileSync('rt', ['run'], { cwd: crate, stdio: ['ignore', 'ignore', 'inherit'] });
const program = path.join(crate, 'out', 'scopes_bench');

// the middle of five runs, by all that is asked
function measure(text) {
  fs.writeFileSync(path.join(folder, 'tree.json'), text);
  const runs = Array.from({ length: 5 }, () => spawnSync(program, { cwd: folder, encoding: 'utf8' }).stdout.split(' ').slice(0, 4).map(Number));
  const asked = ([, checked, told, built]) => checked + told + built;
  return runs.sort((a, b) => asked(a) - asked(b))[2];
}

console.log('input  size  read  validity  shapes and warnings  scopes (ms)');
for (const [what, sizes, statement] of [['classes', [4000, 8000, 16000], classOf], ['nothing to lower', [4000, 8000, 16000], plainClassOf], ['names', [50000, 100000, 200000], nameOf]]) {
  for (const size of sizes) console.log([what, size, ...measure(programOf(size, statement))].join('  '));
}
fs.rmSync(folder, { recursive: true });
