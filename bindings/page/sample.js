'use strict';
// Data for a query, made up from the schema: the engine tells what the query asks, and what is made up for it are the data.

const { innerName, nullable } = require('./schema.js');

const ITEMS = 2;

/** Makes up values for one query. */
class Sample {
  constructor(schema) {
    Object.assign(this, { schema, counts: new Map() });
  }

  /** The next number of a name. */
  count(name) {
    const count = (this.counts.get(name) ?? 0) + 1;
    this.counts.set(name, count);
    return count;
  }

  value(type, field) {
    const plain = nullable(type);
    if (plain.kind === 'LIST') return Array.from({ length: ITEMS }, () => this.value(plain.ofType, field));
    const named = this.schema.type(innerName(plain));
    if (named.kind === 'ENUM') return named.enumValues[(this.count(named.name) - 1) % named.enumValues.length].name;
    if (named.kind === 'SCALAR') return this.leaf(named.name, field);
    const objects = this.schema.objectsOf(named);
    const name = objects[(this.count(named.name) - 1) % objects.length];
    return named.kind === 'OBJECT' ? {} : { __typename: name };
  }

  leaf(name, field) {
    const count = this.count(name === 'ID' ? 'ID' : `${name} ${field}`);
    if (name === 'Int' || name === 'Float') return count;
    if (name === 'Boolean') return count % 2 === 1;
    return name === 'ID' ? String(count) : `${field} ${count}`;
  }

  /** A resolver for each field, which notes in its object what it makes up. */
  resolvers() {
    const all = {};
    for (const { kind, name, fields } of this.schema.types.values()) {
      if (kind !== 'OBJECT' || name.startsWith('__')) continue;
      all[name] = Object.fromEntries(fields.map((field) => [field.name, (source) => (source[field.name] ??= this.value(field.type, field.name))]));
    }
    return all;
  }
}

/** An object from which the query is answered: rejected where it is refused. */
async function sampleData(schema, query, options) {
  const root = {}, sample = new Sample(schema);
  await query.resolve(root, sample.resolvers(), { ...options, typeOf: (it) => it.__typename });
  return root;
}

module.exports = { sampleData };
