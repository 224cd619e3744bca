// Makes programs with classes, runs each in node as it is and as it is lowered, and compares what they log.
//
//   node tools/made.js PROGRAM [COUNT [SEED]] [--show]
//
// PROGRAM is the built lowering program (README.md). Needs acorn and escodegen (`apt-get install -y node-acorn node-escodegen`).
// Programs are made from SEED (1) on, one for each number: the same number makes the same program. One that is told as not lowered
// yet is counted by the kind of the node that is named; one that has a shape may log something else. The status is 1 if any other
// one does, or is refused for another reason. `--show` prints the programs that do.
'use strict';
const { spawnSync } = require('child_process');
const fs = require('fs');
const Module = require('module');
const path = require('path');
const vm = require('vm');
const { annotate, preorder } = require('./rows/table.js');

// where Debian has them
process.env.NODE_PATH = [process.env.NODE_PATH, '/usr/share/nodejs'].filter(Boolean).join(path.delimiter);
Module._initPaths();
const acorn = require('acorn');
const escodegen = require('escodegen');
const helpers = fs.readFileSync(path.join(__dirname, '..', 'helpers', 'babelHelpers.js'), 'utf8');

// ---- programs

// mulberry32
function random(seed) {
  let a = seed >>> 0;
  return () => {
    a = (a + 0x6d2b79f5) >>> 0;
    let t = Math.imul(a ^ (a >>> 15), a | 1);
    t ^= t + Math.imul(t ^ (t >>> 7), t | 61);
    return ((t ^ (t >>> 14)) >>> 0) / 4294967296;
  };
}

// escodegen prints no static blocks, so they are made where they are lowered. With `--loose` fields are set, which accessors and methods
// of the same key would tell from defining them, so there are none.
class Maker {
  constructor(seed, options) {
    this.next = random(seed);
    this.hasBlocks = options.includes('--static-block');
    this.hasAccessors = !options.includes('--loose');
    this.count = 0;
    this.classes = 0;
  }

  below(n) { return Math.floor(this.next() * n); }
  chance(p) { return this.next() < p; }
  pick(list) { return list[this.below(list.length)]; }
  many(most, make) { return Array.from({ length: this.below(most + 1) }, make); }
  mark() { return ++this.count; }

  // a member of `super` in static code of a class with a heritage, read, called and written; `q` logs
  superText(scope) {
    const key = this.pick(['s', 'q']), member = this.pick([`super.${key}`, `super[t(${this.mark()}, '${key}')]`]);
    return this.pick([
      () => `t(${this.mark()}, ${member})`,
      () => `super.f(${this.expression(scope)})`,
      () => `t(${this.mark()}, ${member} ${this.pick(['=', '+=', '**=', '??=', '&&=', '||='])} ${this.expression(scope)})`,
      () => `t(${this.mark()}, ${member}${this.pick(['++', '--'])})`,
      () => `t(${this.mark()}, ${this.pick(['++', '--'])}${member})`,
      () => `t(${this.mark()}, delete this)`,
    ])();
  }

  // an expression that logs; `scope` has the names that can be read, what `this` is, and how deep it may go
  expression(scope) {
    const forms = [
      () => `t(${this.mark()}, ${this.below(10)})`,
      () => `t(${this.mark()}, 'text')`,
      () => `t(${this.mark()}, ${this.pick(scope.names)})`,
    ];
    if (scope.hasThis) forms.push(() => `t(${this.mark()}, this)`, () => `(() => t(${this.mark()}, this))()`);
    if (scope.hasTarget) forms.push(() => `t(${this.mark()}, new.target)`);
    if (scope.depth > 0) {
      const inner = { ...scope, depth: scope.depth - 1 };
      const own = { ...inner, hasThis: true, hasTarget: true, hasSuper: false };
      if (scope.hasSuper) forms.push(() => this.superText(inner), () => this.superText(inner));
      forms.push(
        () => `[${this.many(3, () => this.expression(inner)).join(', ')}]`,
        () => `{ a: ${this.expression(inner)} }`.replace(/^/, '(').replace(/$/, ')'),
        () => `(${this.expression(inner)}, ${this.expression(inner)})`,
        () => `(${this.expression(inner)} ? ${this.expression(inner)} : ${this.expression(inner)})`,
        () => `((a) => [a, ${this.expression({ ...inner, names: [...inner.names, 'a'] })}])(${this.expression(inner)})`,
        () => `(function (b) { return ${this.expression({ ...own, names: [...own.names, 'b'] })}; }).call({}, ${this.expression(inner)})`,
        () => this.classText(inner, '', false),
        () => `new (${this.classText(inner, '', false)})()`,
      );
    }
    return this.pick(forms)();
  }

  key(scope) {
    const name = `k${this.below(6)}`;
    return this.pick([
      () => name, () => name, () => `'${name} s'`, () => String(this.below(5)), () => `['${name}']`,
      () => `[t(${this.mark()}, '${name}')]`, () => `[t(${this.mark()}, ${this.pick(scope.names)}) && '${name}']`,
    ])();
  }

  element(scope, name, extended) {
    const fields = { ...scope, names: name ? [...scope.names, name] : scope.names, hasThis: true, hasTarget: true, hasSuper: false };
    const statics = { ...fields, hasSuper: extended };
    const value = (use = fields) => (this.chance(0.85) ? ` = ${this.expression(use)}` : '');
    const blocks = [
      () => `static { ${this.expression(statics)}; }`,
      () => `static { var v = ${this.expression(statics)}; { let w = v; ${this.expression({ ...statics, names: [...fields.names, 'v', 'w'] })}; } }`,
    ];
    return this.pick([
      ...(this.hasBlocks ? blocks : []),
      () => `${this.key(scope)}${value()};`,
      () => `${this.key(scope)}${value()};`,
      () => `static ${this.key(scope)}${value(statics)};`,
      () => `${this.pick(['', 'static ', 'async '])}${this.hasAccessors ? this.key(scope) : `m${this.below(6)}`}() { return ${this.expression({ ...fields, hasTarget: true })}; }`,
      ...(this.hasAccessors ? [() => `get ${this.key(scope)}() { return ${this.expression(fields)}; }`] : []),
    ])();
  }

  // names of outer bindings are taken again on purpose
  constructorText(scope, name, extended) {
    const parameter = this.pick(['x', 'y', 'z', 'p']);
    const names = [...scope.names, parameter];
    const inside = { ...scope, names, hasThis: true, hasTarget: true, hasSuper: false };
    const before = { ...inside, hasThis: !extended };
    const statement = use => `${this.expression(use)};`;
    const local = this.chance(0.3) ? `let ${this.pick(['x', 'y', 'z'].filter(n => n !== parameter))} = ${this.below(9)}; ` : '';
    const head = this.chance(0.15) ? `${parameter} = ${this.expression(before)}` : parameter;
    if (extended && this.chance(0.2)) return this.constructorWithSuperInParameters(parameter, before, inside);
    if (!extended) return `constructor(${head}) { ${local}${this.many(2, () => statement(inside)).join(' ')} }`;
    const call = () => `super(${this.chance(0.5) ? this.expression(before) : ''})`;
    const body = this.pick([
      () => `${call()};`,
      () => `${this.many(1, () => statement(before)).join('')} ${call()};`,
      () => `if (t(${this.mark()}, ${this.below(2)})) ${call()}; else ${call()};`,
      () => `const s = () => ${call()}; s();`,
      () => `[${call()}];`,
      () => `try { ${call()}; } finally { t(${this.mark()}, 0); }`,
    ])();
    return `constructor(${head}) { ${local}${body} ${this.many(2, () => statement(inside)).join(' ')} }`;
  }

  // classes are constructed with two arguments, so the default value of a third parameter is taken
  constructorWithSuperInParameters(parameter, before, inside) {
    const call = () => `super(${this.chance(0.5) ? this.expression(before) : ''})`;
    const head = this.pick([
      () => `${parameter} = ${call()}`,
      () => `${parameter} = () => ${call()}`,
      () => `${parameter} = [${this.expression(before)}, ${call()}]`,
    ])();
    const first = this.chance(0.5) ? `try { ${call()}; } catch (e) { t(${this.mark()}, e); } ` : '';
    return `constructor(w, v, ${head}) { if (typeof ${parameter} === 'function') ${parameter}(); ${first}${this.many(2, () => `${this.expression(inside)};`).join(' ')} }`;
  }

  classText(scope, name, isDeclaration) {
    const own = isDeclaration ? name : this.pick(['', `N${this.classes++}`]);
    const inner = { ...scope, depth: scope.depth - 1 };
    const extended = this.chance(0.4);
    const heritage = extended ? ` extends ${this.chance(0.8) ? 'P' : `t(${this.mark()}, P)`}` : '';
    const elements = this.many(4, () => this.element(inner, own, extended));
    if (this.chance(0.4)) elements.splice(this.below(elements.length + 1), 0, this.constructorText(inner, own, extended));
    return `class ${own}${heritage} { ${elements.join(' ')} }`;
  }

  statement(scope) {
    const name = `C${this.classes++}`;
    const inner = { ...scope, hasThis: true };
    const uses = n => `show(${n}); try { show(new ${n}(1, 2)); } catch (e) { t(${this.mark()}, e); }`;
    return this.pick([
      () => `${this.classText(inner, name, true)} ${uses(name)}`,
      () => `${this.classText(inner, name, true)} ${uses(name)}`,
      () => `let ${name} = ${this.classText(inner, '', false)}; ${uses(name)}`,
      () => `for (let i = 0; i < 2; i++) { ${this.classText({ ...inner, names: [...inner.names, 'i'] }, name, true)} ${uses(name)} }`,
      () => `function f${name}(x, c = ${this.classText({ ...inner, names: [...inner.names, 'x'], hasTarget: true }, '', false)}) { ${uses('c')} } f${name}(5);`,
      () => `switch (1) { case 1: ${this.classText(inner, name, true)} ${uses(name)} }`,
      () => `{ const y = 3; ${this.classText({ ...inner, names: [...inner.names, 'y'] }, name, true)} ${uses(name)} }`,
    ])();
  }

  program() {
    const scope = { names: ['x', 'y', 'z'], hasThis: true, hasTarget: false, depth: 3 };
    const strict = this.chance(0.3) ? "'use strict';\n" : '';
    const statements = Array.from({ length: 1 + this.below(3) }, () => this.statement(scope));
    return `${strict}var x = 'x', z = 'z'; let y = 'y';\nclass P { constructor(a) { t('P', a); t('target', new.target); } m() { return t('m', this); } static get q() { return t('q', 2); } static set q(v) { t('set q', v); } static f(a) { return t('f', this) && a; } }\nP.s = 1;\n${statements.join('\n')}\n`;
  }
}

// ---- runs

// what a program logs: marks with what their values are, objects by when they were first seen
function logOf(text) {
  const log = [], seen = new Map();
  const told = value => {
    if (value === null || (typeof value !== 'object' && typeof value !== 'function')) return `${typeof value} ${String(value)}`;
    if (value instanceof Error || Object.prototype.toString.call(value) === '[object Error]') return `error ${value.name}`;
    if (!seen.has(value)) seen.set(value, seen.size);
    return `${typeof value} #${seen.get(value)}`;
  };
  const t = (mark, value) => { log.push(`${mark}: ${told(value)}`); return value; };
  const show = value => {
    const names = Reflect.ownKeys(value).filter(k => !['name', 'length', 'prototype', 'arguments', 'caller'].includes(k));
    for (const key of names) {
      const d = Object.getOwnPropertyDescriptor(value, key);
      log.push(`  ${String(key)} ${'value' in d ? told(d.value) : 'accessor'} ${d.writable} ${d.enumerable} ${d.configurable}`);
    }
  };
  const context = vm.createContext({ t, show });
  // the source text of a function is not what a lowering keeps
  vm.runInContext("Function.prototype.toString = () => 'function';", context);
  vm.runInContext(helpers, context);
  try {
    vm.runInContext(text, context, { timeout: 2000 });
  } catch (e) {
    log.push(`thrown ${e && e.name}`);
  }
  return log.join('\n');
}

const isUnfit = value => typeof value === 'number' || typeof value === 'bigint' || value instanceof RegExp;
const withoutValue = (key, value) => (key === 'value' && isUnfit(value) ? null : value);
const withValue = (key, node) => (node?.type === 'Literal' && /^[0-9.]/.test(node.raw ?? '') ? { ...node, value: Number(node.raw) } : node);

function kindOf(tree, number) {
  return preorder(annotate(tree, 'Program'))[number]?.nodeKind ?? 'none';
}

const OPTIONS = [['--class-properties'], ['--class-properties', '--static-block'], ['--class-properties', '--loose'], ['--class-properties', '--loose', '--static-block']];

// the program of a number, and what it is lowered under
function madeOf(seed) {
  const options = OPTIONS[seed % OPTIONS.length];
  return { options, source: new Maker(seed, options).program() };
}

const parse = source => acorn.parse(source, { ecmaVersion: 2022, sourceType: 'script' });
const lower = (program, options, tree) => spawnSync(program, options, { input: JSON.stringify(tree, withoutValue), encoding: 'utf8', maxBuffer: 1 << 28, timeout: 120000 });

function outcomeOf(program, seed) {
  const { options, source } = madeOf(seed);
  let tree;
  try {
    tree = parse(source);
  } catch (e) {
    return { outcome: 'no program', source, detail: e.message };
  }
  const run = lower(program, options, tree);
  if (run.error) return { outcome: 'no answer', source, options, detail: run.error.message };
  const line = run.stdout.trim();
  const notYet = /^refused: NotYet at (\d+)$/.exec(line);
  if (notYet) return { outcome: `NotYet ${kindOf(tree, Number(notYet[1]))}`, source, options };
  if (run.status !== 0) return { outcome: `refused ${line}`, source, options };
  const lowered = JSON.parse(line, withValue);
  const text = escodegen.generate(lowered);
  const [before, behind] = [logOf(source), logOf(text)];
  if (before === behind) return { outcome: 'same' };
  return { outcome: lowered.outside.length > 0 ? 'other, with a shape' : 'OTHER', source, options, text, before, behind };
}

function main([program, ...rest]) {
  const [count = '1000', seed = '1'] = rest.filter(a => !a.startsWith('--'));
  const show = rest.includes('--show'), tally = new Map();
  let wrong = 0;
  for (let i = 0; i < Number(count); i++) {
    const made = outcomeOf(program, Number(seed) + i);
    tally.set(made.outcome, (tally.get(made.outcome) ?? 0) + 1);
    const isWrong = made.outcome === 'OTHER' || made.outcome === 'no answer' || made.outcome.startsWith('refused');
    if (isWrong) wrong++;
    if (show && (isWrong || rest.includes(`--${made.outcome.replace(/ /g, '-')}`))) {
      console.log(`---- ${Number(seed) + i} ${made.outcome} ${(made.options ?? []).join(' ')}\n${made.source}\n${made.text ?? made.detail ?? ''}`);
      if (made.before !== undefined) {
        const [a, b] = [made.before.split('\n'), made.behind.split('\n')], at = a.findIndex((line, k) => line !== b[k]);
        console.log(`line ${at}: ${a[at]} | ${b[at]}`);
      }
    }
  }
  for (const [outcome, times] of [...tally].sort((a, b) => b[1] - a[1])) console.log(`${String(times).padStart(6)} ${outcome}`);
  return wrong === 0 ? 0 : 1;
}

module.exports = { escodegen, lower, madeOf, parse, withValue };

if (require.main === module) process.exit(main(process.argv.slice(2)));
