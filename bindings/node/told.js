'use strict';
// What resolvers give, as the JSON that the library reads. A value is a leaf as it stands, an object of the caller's as
// `{"object":7,"type":"Book"}` by the number that it has here, or a failure as `{"__error":"text"}`. What has no such JSON is a failure
// too, so that one value never spoils the others.

const { bytesOf, textOf } = require('./bytes.js');

// A text of answers is nested at most 127 deep, and a value stands in the list of answers and in its answer.
const DEEPEST = 125;
const LEAST = -(2n ** 63n);
const BEYOND = 2n ** 64n;
const SURROGATE = /[\ud800-\udfff]/;

/** The JSON of a text. A half of a surrogate pair, which no UTF-8 has, is U+FFFD. */
const textJson = (value) => JSON.stringify(SURROGATE.test(value) ? textOf(bytesOf(value)) : value);

const failureJson = (message) => `{"__error":${textJson(message)}}`;

/** A value has no JSON that the library reads. */
class Untold extends Error {}

function numberJson(value) {
  if (Number.isSafeInteger(value)) return String(value === 0 ? 0 : value);
  if (typeof value === 'number' && !Number.isInteger(value)) throw new Untold(`${value} is no whole number`);
  const whole = BigInt(value);
  if (whole < LEAST || whole >= BEYOND) throw new Untold('a number does not fit 64 bits');
  return String(whole);
}

/** The JSON of a value nested at most so deep. */
function valueJson(value, levels) {
  if (value != null && typeof value.toJSON === 'function') value = value.toJSON();
  if (value == null) return 'null';
  if (typeof value === 'string') return textJson(value);
  if (typeof value === 'boolean') return String(value);
  if (typeof value === 'number' || typeof value === 'bigint') return numberJson(value);
  if (typeof value !== 'object') throw new Untold(`a ${typeof value} has no JSON`);
  if (levels === 0) throw new Untold('a value is nested too deep');
  if (Array.isArray(value)) return `[${value.map((item) => valueJson(item, levels - 1)).join(',')}]`;
  const members = Object.entries(value).filter(([, member]) => member !== undefined && typeof member !== 'function');
  return `{${members.map(([name, member]) => `${textJson(name)}:${valueJson(member, levels - 1)}`).join(',')}}`;
}

function leafJson(value, type) {
  try {
    return valueJson(value, DEEPEST - type.lists);
  } catch (error) {
    if (error instanceof Untold) return failureJson(error.message);
    throw error;
  }
}

/** The items of a list; `null` where the value is none. */
function itemsOf(value) {
  if (Array.isArray(value)) return value;
  return typeof value === 'object' && typeof value[Symbol.iterator] === 'function' ? Array.from(value) : null;
}

/** An error, whatever was thrown. */
const errorOf = (thrown) => (thrown instanceof Error ? thrown : new Error(String(thrown)));

/** Tells the values of one request, and keeps its objects by their numbers. The root is 0. */
class Teller {
  /** `typeOf` and `errorMessage` are the caller's, and `isType` is whether a type has resolvers. */
  constructor(root, { typeOf, errorMessage = (error) => error.message || error.name }, isType) {
    Object.assign(this, { objects: [root], numbers: new Map(), typeOf, errorMessage, isType });
  }

  /** From now on objects have new numbers: what was told of them is asked again. */
  forget() {
    this.numbers.clear();
  }

  /** The value of a field of that type. */
  told(value, type) {
    try {
      return this.at(value, type, type.lists);
    } catch (thrown) {
      // An iterator's, or that of a function of the caller's.
      return this.failed(errorOf(thrown));
    }
  }

  failed(error) {
    return failureJson(String(this.errorMessage(error)));
  }

  at(value, type, lists) {
    if (value == null) return 'null';
    if (value instanceof Error) return this.failed(value);
    if (lists === 0) return type.composite ? this.composite(value, type) : leafJson(value, type);
    const items = itemsOf(value);
    return items === null ? leafJson(value, type) : `[${items.map((item) => this.at(item, type, lists - 1)).join(',')}]`;
  }

  /** A value at an object, an interface or a union type. */
  composite(value, type) {
    // A list, and so none of its items, where there should be an object.
    if (Array.isArray(value)) return '[]';
    if (typeof value.__error === 'string') return failureJson(value.__error);
    const name = this.nameOf(value, type);
    const isPlain = typeof value !== 'object' && typeof value !== 'function';
    return isPlain && !this.isType(name) ? leafJson(value, type) : this.object(value, name);
  }

  /** The name of an object's type. */
  nameOf(value, type) {
    const told = type.abstract && this.typeOf ? this.typeOf(value) : undefined;
    if (told != null) return String(told);
    if (typeof value.__typename === 'string') return value.__typename;
    const made = type.abstract ? value.constructor : undefined;
    return typeof made !== 'function' || made === Object ? type.name : made.name;
  }

  object(value, name) {
    // As another type it is another object: the fields of the two may have the same names.
    if (!this.numbers.has(name)) this.numbers.set(name, new Map());
    const numbers = this.numbers.get(name);
    let number = numbers.get(value);
    if (number === undefined) {
      number = this.objects.push(value) - 1;
      numbers.set(value, number);
    }
    return `{"object":${number},"type":${textJson(name)}}`;
  }
}

module.exports = { Teller, errorOf };
