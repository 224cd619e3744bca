// The helpers that a lowered program calls, as members of the global `babelHelpers`.
//
// In a page or a worker: load this file as a script before the program. In node: `require` it, which sets the global and
// gives the same object. The names and arguments are those of Babel's external helpers, so that either serves.
'use strict';

(() => {
  // ECMA-262 7.3.4 CreateDataPropertyOrThrow: what a public field definition does (15.7.10, DefineField).
  const defineProperty = (object, key, value) =>
    Object.defineProperty(object, key, { value, enumerable: true, configurable: true, writable: true });

  // 7.3.28 PrivateFieldAdd, 7.3.29 PrivateMethodOrAccessorAdd: an object gets an element once.
  const assertNew = (object, holder) => {
    if (holder.has(object)) throw new TypeError('Cannot initialize the same private elements twice on an object');
  };
  // o gets the private field whose values weakMap holds: #x = value
  const classPrivateFieldInitSpec = (object, weakMap, value) => {
    assertNew(object, weakMap);
    weakMap.set(object, value);
  };
  // o gets the private methods of a class, whose objects weakSet holds
  const classPrivateMethodInitSpec = (object, weakSet) => {
    assertNew(object, weakSet);
    weakSet.add(object);
  };

  // 7.3.30 PrivateGet, 7.3.31 PrivateSet: the object is what `brand` tells (the class itself, for static elements), or it
  // throws. Gives `value`, or the object where there is none.
  function assertClassBrand(brand, object, value) {
    const isBranded = typeof brand === 'function' ? brand === object : brand.has(object);
    if (!isBranded) throw new TypeError('Private element is not present on this object');
    return arguments.length < 3 ? object : value;
  }
  // o.#x
  const classPrivateFieldGet2 = (weakMap, object) => weakMap.get(assertClassBrand(weakMap, object));
  // o.#x = value
  const classPrivateFieldSet2 = (weakMap, object, value) => {
    weakMap.set(assertClassBrand(weakMap, object), value);
    return value;
  };
  // `toSetter(set, [a, b])._ = value` is `set(a, b, value)`: a private setter, or a private field as a target of a pattern
  const toSetter = (set, args = []) => ({
    set _(value) {
      Reflect.apply(set, undefined, [...args, value]);
    },
  });

  // #x in value: 13.10.1, step 4
  const checkInRHS = value => {
    if (Object(value) !== value) {
      throw new TypeError(`right-hand side of 'in' should be an object, got ${value === null ? 'null' : typeof value}`);
    }
    return value;
  };
  // a write of a private method, or of a private accessor without setter: 7.3.31, steps 4 and 5
  const readOnlyError = name => {
    throw new TypeError(`"${name}" is read-only`);
  };
  // a read of a private accessor without getter: 7.3.30, step 5
  const writeOnlyError = name => {
    throw new TypeError(`"${name}" is write-only`);
  };

  // super.key: 13.3.7.3 MakeSuperPropertyReference. `home` is the class or its prototype, 2 in `flags` asks for a function
  // that takes the arguments of a call as a list: super.key(...args)
  const superPropGet = (home, key, receiver, flags) => {
    const value = Reflect.get(Object.getPrototypeOf(home), key, receiver);
    return flags & 2 && typeof value === 'function' ? args => value.apply(receiver, args) : value;
  };
  // super.key = value
  const superPropSet = (home, key, value, receiver, isStrict) => {
    if (!Reflect.set(Object.getPrototypeOf(home), key, value, receiver) && isStrict) {
      throw new TypeError(`Cannot assign to property '${String(key)}'`);
    }
    return value;
  };

  // In loose mode a private element is a property with a key of its own.
  let keys = 0;
  const classPrivateFieldLooseKey = name => `__private_${keys++}_${name}`;
  const classPrivateFieldLooseBase = (object, key) => {
    if (!Object.prototype.hasOwnProperty.call(object, key)) {
      throw new TypeError('attempted to use private field on non-instance');
    }
    return object;
  };

  // 7.1.19 ToPropertyKey: a symbol, or the string that an object property of this key has
  const toPropertyKey = value => {
    const [key] = Reflect.ownKeys({ [value]: 0 });
    return key;
  };
  // 10.2.9 SetFunctionName
  const setFunctionName = (target, key) => {
    const nameOf = symbol => (symbol.description === undefined ? '' : `[${symbol.description}]`);
    return Object.defineProperty(target, 'name', {
      value: typeof key === 'symbol' ? nameOf(key) : key,
      configurable: true,
    });
  };

  const babelHelpers = {
    assertClassBrand, checkInRHS, classPrivateFieldGet2, classPrivateFieldInitSpec, classPrivateFieldLooseBase,
    classPrivateFieldLooseKey, classPrivateFieldSet2, classPrivateMethodInitSpec, defineProperty, readOnlyError,
    setFunctionName, superPropGet, superPropSet, toPropertyKey, toSetter, writeOnlyError,
  };
  globalThis.babelHelpers = babelHelpers;
  if (typeof module === 'object' && module.exports) module.exports = babelHelpers;
})();
