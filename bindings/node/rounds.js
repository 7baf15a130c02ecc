'use strict';
// Requests in rounds: all that can be asked, answered by resolvers, until there is a response.

const { Teller, errorOf } = require('./told.js');

// How an ask begins, up to its arguments. Names need no escapes.
const START = /\{"object":(\d+),"type":"(\w+)","field":"(\w+)","arguments":/y;
const PIECE = /"[^"\\]*(?:\\.[^"\\]*)*"|[{}]/g;

/** Where the object ends that begins there. */
function endOf(text, at) {
  let depth = 0;
  PIECE.lastIndex = at;
  do {
    const [piece] = PIECE.exec(text);
    if (piece === '{') depth++;
    if (piece === '}') depth--;
  } while (depth > 0);
  return PIECE.lastIndex;
}

/** The asks of a round. Arguments are kept as they were written, since a number here may be another than a number there. */
function readAsks(text) {
  const asks = [];
  for (let at = 1; text[at] === '{'; ) {
    START.lastIndex = at;
    const [, object, type, field] = START.exec(text);
    const end = endOf(text, START.lastIndex);
    asks.push({ object: Number(object), type, field, written: text.slice(START.lastIndex, end) });
    at = end + 2;
  }
  return asks;
}

/** What is given for a field without a resolver: what the object itself has, called with the arguments if it can be. */
function member(field) {
  return (source, given) => {
    if (source == null || (typeof source !== 'object' && typeof source !== 'function')) return null;
    const value = source[field];
    if (value === undefined || value === Object.prototype[field]) return null;
    return typeof value === 'function' ? source[field](given) : value;
  };
}

/** A resolver of a field for all objects of a round at once. */
class Many {
  constructor(resolve) {
    this.resolve = resolve;
  }
}

const many = (resolve) => new Many(resolve);

/** The resolvers by types and fields. `TypeError` where one is of what the schema lacks. */
function readResolvers(given, types) {
  const resolvers = new Map(Object.entries(given).map(([name, fields]) => [name, new Map(Object.entries(fields))]));
  for (const [name, fields] of resolvers) {
    if (!types.has(name)) throw new TypeError(`there are resolvers of \`${name}\`, which is no object type of the schema`);
    for (const field of fields.keys()) {
      if (!types.get(name).has(field)) throw new TypeError(`there is a resolver of \`${name}.${field}\`, which is no field of the schema`);
    }
  }
  return resolvers;
}

/** What a function gives, or the error that it throws. */
function called(resolve, ...given) {
  try {
    return resolve(...given);
  } catch (thrown) {
    return errorOf(thrown);
  }
}

/** Whether a value is a promise, or an item of it, so many lists deep. */
function isLate(value, levels) {
  if (Array.isArray(value)) return levels > 0 && value.some((item) => isLate(item, levels - 1));
  return value != null && typeof value.then === 'function';
}

/** What comes of a value, and of its items, so many lists deep; of what fails, the error. */
async function comeOf(value, levels) {
  try {
    const made = await value;
    return isLate(made, levels) ? await Promise.all(made.map((item) => comeOf(item, levels - 1))) : made;
  } catch (thrown) {
    return errorOf(thrown);
  }
}

/** All that a round asks of one field, and what came of it. */
class Group {
  constructor(type, field, resolver, fieldType) {
    Object.assign(this, { name: `${type}.${field}`, resolver, fieldType, starts: [], asks: [], outcomes: [] });
  }

  add(ask, object) {
    this.starts.push(`{"object":${ask.object},"field":"${ask.field}","arguments":${ask.written},"value":`);
    this.asks.push([object, JSON.parse(ask.written)]);
  }

  start(context) {
    const { resolver, asks } = this;
    const more = context === undefined ? [] : [context];
    this.outcomes = resolver instanceof Many ? [called(resolver.resolve, asks, ...more)] : asks.map((ask) => called(resolver, ...ask, ...more));
  }

  /** Those outcomes that are awaited, each put in its place. */
  awaited() {
    const levels = this.fieldType.lists + (this.resolver instanceof Many ? 1 : 0);
    const settle = async (outcome, at) => {
      this.outcomes[at] = await comeOf(outcome, levels);
    };
    return this.outcomes.flatMap((outcome, at) => (isLate(outcome, levels) ? [settle(outcome, at)] : []));
  }

  /** The answers, once nothing is awaited. */
  answers(teller) {
    const values = this.resolver instanceof Many ? this.values() : this.outcomes;
    return this.starts.map((start, at) => `${start}${teller.told(values[at], this.fieldType)}}`);
  }

  /** What a resolver for many gave, one by one. */
  values() {
    const [given] = this.outcomes;
    const count = this.asks.length;
    if (given instanceof Error) return Array(count).fill(given);
    const values = Array.isArray(given) ? given : [];
    if (values.length === count) return values;
    return Array(count).fill(new Error(`the resolver of ${this.name} gives ${values.length} values for ${count}`));
  }
}

/**
 * A request by resolvers. `step()` gives what is asked, as a text, or the response, as a buffer, and `add(text)` adds answers. Where it is
 * `serial`, as a mutation is, a field of the root is asked once nothing else is.
 */
class Rounds {
  constructor({ step, add, types, serial }, root, resolvers, options) {
    const read = readResolvers(resolvers, types);
    const { context, meter } = options;
    Object.assign(this, { step, add, types, serial, resolvers: read, context, meter, last: null });
    this.teller = new Teller(root, options, (name) => read.has(name));
  }

  async run() {
    for (;;) {
      const told = this.meter ? this.meter.timed(this.step) : this.step();
      if (typeof told !== 'string') return told;
      if (told === this.last) throw new Error('the library asks once more for what it was told');
      this.last = told;
      const asks = this.due(readAsks(told));
      this.meter?.round(asks.length);
      const groups = this.groups(asks);
      for (const group of groups) group.start(this.context);
      const awaited = groups.flatMap((group) => group.awaited());
      if (awaited.length > 0) await Promise.all(awaited);
      this.add(`[${groups.flatMap((group) => group.answers(this.teller)).join(',')}]`);
    }
  }

  /** Those asks that may be answered now. */
  due(asks) {
    if (!this.serial) return asks;
    const below = asks.filter((ask) => ask.object !== 0);
    if (below.length > 0) return below;
    // What was read of an object before this field is resolved may be another value after it.
    this.teller.forget();
    return asks.slice(0, 1);
  }

  groups(asks) {
    const groups = new Map();
    for (const ask of asks) {
      const { type, field } = ask;
      const key = `${type}.${field}`;
      if (!groups.has(key)) groups.set(key, new Group(type, field, this.resolver(type, field), this.types.get(type).get(field)));
      groups.get(key).add(ask, this.teller.objects[ask.object]);
    }
    return [...groups.values()];
  }

  resolver(type, field) {
    return this.resolvers.get(type)?.get(field) ?? member(field);
  }
}

module.exports = { Rounds, many, readAsks };
