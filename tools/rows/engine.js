// node tools/rows/engine.js [--show] [NAME..]: runs the source and the output of each worked row in this engine, and tells where
// what can be seen of them differs. Free names are functions that log how they are called; then each class that the
// program declares or gives to a free name is constructed, and its methods are called, with instances of it and with
// other values. (A program of a module is run as a script, without `export`; one that awaits at its top is left out.)
'use strict';
const fs = require('fs');
const path = require('path');
const vm = require('vm');
const acorn = require('acorn');

const helpers = fs.readFileSync(path.join(__dirname, '../../helpers/babelHelpers.js'), 'utf8');
const rows = ['rows.json', 'forms.json'].flatMap(name => JSON.parse(fs.readFileSync(path.join(__dirname, name), 'utf8')));

// All spellings of identifiers in a tree.
const spellings = node => {
  const found = new Set();
  JSON.stringify(node, (key, value) => {
    if (value?.type === 'Identifier') found.add(value.name);
    return typeof value === 'bigint' ? null : value;
  });
  return found;
};

// What one run logs: primitives as they are, objects and functions by the order in which they are first seen.
class Log {
  constructor() {
    this.lines = [];
    this.seen = new Map();
  }

  show(value) {
    if (typeof value === 'symbol') return String(value);
    if (Object(value) !== value) return typeof value === 'string' ? JSON.stringify(value) : String(value);
    if (!this.seen.has(value)) this.seen.set(value, `${typeof value}${this.seen.size}`);
    return this.seen.get(value);
  }

  line(text) {
    this.lines.push(text);
  }

  // What a free name logs. A program that goes on without end is cut off, the source as the output.
  told(text) {
    if (this.lines.length >= 2000) throw new RangeError('too many lines');
    this.line(text);
  }

  attempt(text, action) {
    try {
      const value = action();
      this.line(`${text}: ${this.show(value)}`);
      return value;
    } catch (error) {
      this.line(`${text} throws ${error?.constructor?.name ?? this.show(error)}`);
      return undefined;
    }
  }
}

// A free name: it logs its calls, can be a heritage, and has the members that the rows ask for.
const stub = (name, log) => {
  let calls = 0;
  const stubbed = function (...args) {
    log.told(`${new.target ? 'new ' : ''}${name}(${args.map(value => log.show(value)).join(', ')})`);
    calls += 1;
    return new.target ? undefined : `${name}${calls}`;
  };
  stubbed.p = `static ${name}.p`;
  stubbed.prototype.p = `${name}.p`;
  stubbed.prototype.f = function (...args) {
    log.told(`${name}.f(${args.map(value => log.show(value)).join(', ')}) on ${log.show(this)}`);
    return this;
  };
  return stubbed;
};

const isClass = value => typeof value === 'function' && /^class\b/.test(Function.prototype.toString.call(value));

const members = (log, object) => {
  for (const key of Reflect.ownKeys(object)) {
    if (['name', 'length', 'prototype', 'constructor'].includes(key) || /^__private_/.test(String(key))) continue;
    const { value, get, set, ...flags } = Object.getOwnPropertyDescriptor(object, key);
    log.line(`  ${String(key)} ${JSON.stringify(flags)} ${log.show(value)} ${typeof get} ${typeof set}`);
  }
};

const call = (log, object, key, args, driven) => {
  const method = Object.getOwnPropertyDescriptor(object, key)?.value;
  if (typeof method !== 'function' || key === 'constructor') return;
  for (const [receiver, arg] of args) {
    const given = log.attempt(`${String(key)}(${log.show(arg)})`, () => Reflect.apply(method, receiver, [arg, 7]));
    drive(log, `${String(key)}()`, given, driven);
  }
};

const drive = (log, name, made, driven) => {
  if (!isClass(made) || driven.has(made)) return;
  driven.add(made);
  log.line(`class ${name}`);
  members(log, made);
  const instance = log.attempt('new', () => new made(1));
  if (Object(instance) === instance) members(log, instance);
  const other = log.attempt('new', () => new made());
  const values = [instance, {}, undefined, made, null, 3];
  for (const key of Reflect.ownKeys(made)) call(log, made, key, values.map(value => [made, value]), driven);
  for (const key of Reflect.ownKeys(made.prototype)) {
    call(log, made.prototype, key, values.map(value => [instance, value]).concat([[{}, other]]), driven);
  }
  for (const key of Reflect.ownKeys(made)) drive(log, `${name}.${String(key)}`, made[key], driven);
};

const observe = (text, names) => {
  const log = new Log();
  const context = vm.createContext({});
  vm.runInContext(helpers, context);
  const isOwn = name => vm.runInContext(`typeof ${name}`, context) !== 'undefined';
  for (const name of names) if (!isOwn(name)) context[name] = stub(name, log);
  log.attempt('program', () => void vm.runInContext(text, context));
  const driven = new Set();
  for (const name of names) {
    const made = log.attempt(name, () => vm.runInContext(name, context));
    drive(log, name, made, driven);
    if (typeof made === 'function' && !isClass(made) && !driven.has(made)) {
      const given = log.attempt(`${name}()`, () => made());
      drive(log, `${name}()`, given, driven);
    }
  }
  return log.lines;
};

// `export` is left out, `export default` becomes a `let`, and an imported name is a free one.
const withoutExports = text => {
  const { body } = acorn.parse(text, { ecmaVersion: 2022, sourceType: 'module' });
  const slice = ({ start, end }) => text.slice(start, end);
  const scripts = {
    ImportDeclaration: () => '',
    ExportNamedDeclaration: item => slice(item.declaration),
    ExportDefaultDeclaration: item => `let _default = ${slice(item.declaration)};`,
  };
  return body.map(item => (scripts[item.type] ?? slice)(item)).join('\n');
};

const asScript = (text, type) => {
  const program = text.replace(/\bB\./g, 'babelHelpers.');
  return type === 'module' ? withoutExports(program) : program;
};

const only = process.argv.slice(2).filter(argument => argument !== '--show');
let differing = 0;
let run = 0;
for (const { name, source, output, outside, type } of rows) {
  if (only.length > 0 && !only.includes(name)) continue;
  if (/^await |^for await/m.test(source)) continue;
  const texts = [asScript(source, type), asScript(output, type)];
  const names = [...spellings(acorn.parse(texts[0], { ecmaVersion: 2022 }))].filter(spelling => !/^(arguments|new|super)$/.test(spelling));
  const [want, have] = texts.map(text => observe(text, names));
  run += 1;
  if (process.argv.includes('--show')) console.log(name, want);
  const at = want.findIndex((line, i) => line !== have[i]);
  if (at < 0 && want.length === have.length) continue;
  differing += 1;
  console.log(`${name} (outside: ${outside}):\n  source: ${want[at]}\n  output: ${have[at]}`);
}
console.log(`${run} rows run, ${differing} differ`);
process.exitCode = differing === 0 ? 0 : 1;
