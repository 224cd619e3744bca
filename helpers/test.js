// node helpers/test.js [--show]: each helper does in a lowered program what the engine does for the source. A case has a source,
// what it is lowered to, and expressions whose values, or the names of the errors that they throw, must be the same in both.
'use strict';
const vm = require('vm');
const fs = require('fs');
const path = require('path');

const helpers = fs.readFileSync(path.join(__dirname, 'babelHelpers.js'), 'utf8');

const cases = [
  {
    helper: 'defineProperty',
    source: 'class P { set x(v) { throw 0; } } class C extends P { x = 1; [Symbol.iterator] = 2; }',
    lowered: `class P { set x(v) { throw 0; } } class C extends P { constructor(...args) { super(...args);
      babelHelpers.defineProperty(this, "x", 1); babelHelpers.defineProperty(this, Symbol.iterator, 2); } }`,
    shows: ['Object.getOwnPropertyDescriptors(new C())', 'new C()[Symbol.iterator]'],
  },
  {
    helper: 'defineProperty',
    source: 'class P { constructor() { return Object.freeze({}); } } class C extends P { x = 1; }',
    lowered: `class P { constructor() { return Object.freeze({}); } }
      class C extends P { constructor(...args) { super(...args); babelHelpers.defineProperty(this, "x", 1); } }`,
    shows: ['new C()'],
  },
  {
    helper: 'classPrivateFieldInitSpec, classPrivateFieldGet2, classPrivateFieldSet2',
    source: `class P { constructor(o) { return o; } }
      class C extends P { #x = 1; static get(o) { return o.#x; } static set(o, v) { return o.#x = v; } }
      const o = {}; new C(o);`,
    lowered: `var _x = new WeakMap(); class P { constructor(o) { return o; } }
      class C extends P { constructor(...args) { super(...args); babelHelpers.classPrivateFieldInitSpec(this, _x, 1); }
        static get(o) { return babelHelpers.classPrivateFieldGet2(_x, o); }
        static set(o, v) { return babelHelpers.classPrivateFieldSet2(_x, o, v); } }
      const o = {}; new C(o);`,
    shows: ['C.get(o)', 'C.set(o, 2)', 'C.get(o)', 'C.set(o, undefined)', 'C.get(o)', 'C.get({})', 'C.set({}, 1)',
      'C.get(1)', 'C.get(null)', 'new C(o)', 'Reflect.ownKeys(o).length'],
  },
  {
    helper: 'classPrivateFieldSet2, toSetter',
    source: 'class C { #x = 0; static f(o) { [o.#x] = [5]; return o.#x; } }',
    lowered: `var _x = new WeakMap(); class C { constructor() { babelHelpers.classPrivateFieldInitSpec(this, _x, 0); }
      static f(o) { [babelHelpers.toSetter(babelHelpers.classPrivateFieldSet2, [_x, o])._] = [5];
        return babelHelpers.classPrivateFieldGet2(_x, o); } }`,
    shows: ['C.f(new C())', 'C.f({})'],
  },
  {
    helper: 'classPrivateMethodInitSpec, assertClassBrand, toSetter',
    source: `class P { constructor(o) { return o || this; } }
      class C extends P { #v; get #a() { return this.#v; } set #a(v) { this.#v = v; } #m() { return this; }
        static f(o) { o.#a = 3; return [o.#a, o.#m() === o]; } }
      const o = new C();`,
    lowered: `class P { constructor(o) { return o || this; } }
      var _v = new WeakMap(); var _C_brand = new WeakSet();
      class C extends P { constructor(...args) { super(...args); babelHelpers.classPrivateMethodInitSpec(this, _C_brand);
          babelHelpers.classPrivateFieldInitSpec(this, _v, void 0); }
        static f(o) { babelHelpers.toSetter(_set_a.bind(babelHelpers.assertClassBrand(_C_brand, o)))._ = 3;
          return [_get_a.call(babelHelpers.assertClassBrand(_C_brand, o)),
            babelHelpers.assertClassBrand(_C_brand, o, _m).call(o) === o]; } }
      function _get_a() { return babelHelpers.classPrivateFieldGet2(_v, this); }
      function _set_a(v) { babelHelpers.classPrivateFieldSet2(_v, this, v); }
      function _m() { return this; }
      const o = new C();`,
    shows: ['C.f(o)', 'C.f({})', 'C.f(1)', 'new C(o)'],
  },
  {
    helper: 'assertClassBrand',
    source: 'class C { static #p = 1; static g(o) { return o.#p; } static s(o) { o.#p = 2; } } class D extends C {}',
    lowered: `class C { static g(o) { return babelHelpers.assertClassBrand(C, o, _p)._; }
      static s(o) { _p._ = babelHelpers.assertClassBrand(C, o, 2); } } var _p = { _: 1 }; class D extends C {}`,
    shows: ['C.g(C)', 'C.s(C)', 'C.g(C)', 'C.g(D)', 'C.s(D)', 'C.g({})', 'C.g(undefined)'],
  },
  {
    helper: 'checkInRHS',
    source: 'class C { #x; static s = 1; static #s = 1; static h(o) { return #x in o; } static k(o) { return #s in o; } }',
    lowered: `var _x = new WeakMap(); class C { constructor() { babelHelpers.classPrivateFieldInitSpec(this, _x, void 0); }
      static h(o) { return _x.has(babelHelpers.checkInRHS(o)); } static k(o) { return babelHelpers.checkInRHS(o) === C; } }
      babelHelpers.defineProperty(C, "s", 1); var _s = { _: 1 };`,
    shows: ['C.h(new C())', 'C.h({})', 'C.h(C)', 'C.k(C)', 'C.k({})', 'C.h(1)', 'C.h(null)', 'C.k("s")', 'C.h(Symbol())'],
  },
  {
    helper: 'readOnlyError, writeOnlyError',
    source: `class C { #m() {} get #g() {} set #s(v) {}
      static a(o) { o.#m = 1; } static b(o) { o.#g = 1; } static c(o) { return o.#s; } }`,
    lowered: `class C { static a(o) { o, 1, babelHelpers.readOnlyError("#m"); }
      static b(o) { o, 1, babelHelpers.readOnlyError("#g"); } static c(o) { return o, babelHelpers.writeOnlyError("#s"); } }`,
    shows: ['C.a(new C())', 'C.b(new C())', 'C.c(new C())'],
  },
  {
    helper: 'superPropGet, superPropSet',
    source: `class P { get r() { return this; } m(a, b) { return [this === o, a, b]; } set s(v) { this.t = v; } get fixed() { return 1; } }
      P.prototype.n = 1;
      class C extends P { #r() { return super.r; } #m(...a) { return super.m(...a); } #n() { return super.n(); }
        #s(v) { return super.s = v; } #w(v) { super.fixed = v; } #own(v) { super.own = v; return this.own; }
        static r(o) { return o.#r(); } static m(o, ...a) { return o.#m(...a); } static n(o) { return o.#n(); }
        static s(o, v) { return [o.#s(v), o.t]; } static w(o) { o.#w(2); } static own(o) { return o.#own(4); } }
      const o = new C();`,
    lowered: `class P { get r() { return this; } m(a, b) { return [this === o, a, b]; } set s(v) { this.t = v; } get fixed() { return 1; } }
      P.prototype.n = 1;
      class C extends P { static r(o) { return _r.call(o); } static m(o, ...a) { return _m.call(o, ...a); } static n(o) { return _n.call(o); }
        static s(o, v) { return [_s.call(o, v), o.t]; } static w(o) { _w.call(o, 2); } static own(o) { return _own.call(o, 4); } }
      function _r() { return babelHelpers.superPropGet(C.prototype, "r", this); }
      function _m(...a) { return babelHelpers.superPropGet(C.prototype, "m", this, 2)([...a]); }
      function _n() { return babelHelpers.superPropGet(C.prototype, "n", this, 2)([]); }
      function _s(v) { return babelHelpers.superPropSet(C.prototype, "s", v, this, 1); }
      function _w(v) { babelHelpers.superPropSet(C.prototype, "fixed", v, this, 1); }
      function _own(v) { babelHelpers.superPropSet(C.prototype, "own", v, this, 1); return this.own; }
      const o = new C();`,
    shows: ['C.r(o) === o', 'C.m(o, 1, 2)', 'C.n(o)', 'C.s(o, 3)', 'C.w(o)', 'C.own(o)'],
  },
  {
    helper: 'classPrivateFieldLooseKey, classPrivateFieldLooseBase',
    source: 'class C { #x = 1; static f(o) { o.#x += 2; o.#x++; return o.#x; } } class D { #x = 2; static g(o) { return o.#x; } }',
    lowered: `var _x = babelHelpers.classPrivateFieldLooseKey("x"); class C { constructor() {
        Object.defineProperty(this, _x, { writable: true, value: 1 }); }
      static f(o) { babelHelpers.classPrivateFieldLooseBase(o, _x)[_x] += 2; babelHelpers.classPrivateFieldLooseBase(o, _x)[_x]++;
        return babelHelpers.classPrivateFieldLooseBase(o, _x)[_x]; } }
      var _x2 = babelHelpers.classPrivateFieldLooseKey("x"); class D { constructor() {
        Object.defineProperty(this, _x2, { writable: true, value: 2 }); }
      static g(o) { return babelHelpers.classPrivateFieldLooseBase(o, _x2)[_x2]; } }`,
    shows: ['C.f(new C())', 'C.f({})', 'C.f(new D())', 'D.g(new D())', 'D.g(new C())', 'Object.keys(new C())', 'C.f(null)'],
  },
  {
    helper: 'setFunctionName, toPropertyKey',
    source: `const told = []; const key = { toString() { told.push('key'); return 'k'; } };
      class C { static [key] = () => 1; static [Symbol('s')] = function() {}; static [1n] = () => 1; static [Symbol()] = () => 1; static [0.5] = class {}; }`,
    lowered: `const told = []; const key = { toString() { told.push('key'); return 'k'; } };
      let _k, _k2, _k3, _k4, _k5; _k = babelHelpers.toPropertyKey(key); _k2 = babelHelpers.toPropertyKey(Symbol('s'));
      _k3 = babelHelpers.toPropertyKey(1n); _k4 = babelHelpers.toPropertyKey(Symbol()); _k5 = babelHelpers.toPropertyKey(0.5);
      class C {} babelHelpers.defineProperty(C, _k, babelHelpers.setFunctionName(() => 1, _k));
      babelHelpers.defineProperty(C, _k2, babelHelpers.setFunctionName(function() {}, _k2));
      babelHelpers.defineProperty(C, _k3, babelHelpers.setFunctionName(() => 1, _k3));
      babelHelpers.defineProperty(C, _k4, babelHelpers.setFunctionName(() => 1, _k4));
      babelHelpers.defineProperty(C, _k5, babelHelpers.setFunctionName(class {}, _k5));`,
    shows: ['Reflect.ownKeys(C).map(String)', 'told', 'Reflect.ownKeys(C).filter(k => typeof C[k] === "function").map(k => C[k].name)',
      'Object.getOwnPropertyDescriptor(C.k, "name")'],
  },
  {
    helper: 'toPropertyKey',
    source: 'const keyOf = k => Reflect.ownKeys(class { static [k] = 0; }).find(x => !["length", "name", "prototype"].includes(x));',
    lowered: 'const keyOf = k => babelHelpers.toPropertyKey(k);',
    shows: ['keyOf(1)', 'keyOf(-0)', 'keyOf(null)', 'keyOf({ [Symbol.toPrimitive]: hint => hint })', 'keyOf("__proto__")',
      'keyOf(Symbol.iterator) === Symbol.iterator', 'keyOf({ toString: () => ({}), valueOf: () => 7 })', 'keyOf(Object.create(null))'],
  },
];

const show = value => (typeof value === 'function' ? `function ${value.name}` : JSON.stringify(value, (key, part) => (part === undefined ? 'undefined' : typeof part === 'bigint' ? `${part}n` : part)));

const outcome = (text, context) => {
  try {
    return show(vm.runInContext(text, context));
  } catch (error) {
    return `throws ${error?.name ?? error}`;
  }
};

const results = (program, shows) => {
  const context = vm.createContext({});
  vm.runInContext(helpers, context);
  vm.runInContext(program, context);
  return shows.map(text => outcome(text, context));
};

let failed = 0;
for (const { helper, source, lowered, shows } of cases) {
  const want = results(source, shows);
  const have = results(lowered, shows);
  if (process.argv.includes('--show')) console.log(helper, want);
  shows.forEach((text, i) => {
    if (want[i] === have[i]) return;
    failed += 1;
    console.log(`${helper}: ${text} is ${want[i]} in the source, ${have[i]} as lowered`);
  });
}
const shown = cases.reduce((sum, { shows }) => sum + shows.length, 0);
console.log(`${shown - failed} passed, ${failed} failed`);
process.exitCode = failed === 0 ? 0 : 1;
