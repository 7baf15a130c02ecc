'use strict';
// Queries that were read, kept by their texts; and persisted queries, by their SHA-256.

const { createHash } = require('node:crypto');
const { Fault } = require('./http_rules.js');
const { lookAt } = require('./http_depth.js');

const sumOf = (text) => createHash('sha256').update(text).digest('hex');

/** Values by keys that together have at most so much room: the least recently used goes first. */
class Kept {
  constructor(room, sizeOf) {
    Object.assign(this, { room, sizeOf, size: 0, map: new Map() });
  }

  get(key) {
    const value = this.map.get(key);
    if (value === undefined) return undefined;
    this.map.delete(key);
    this.map.set(key, value);
    return value;
  }

  put(key, value) {
    if (!this.map.has(key)) this.size += this.sizeOf(value);
    this.map.set(key, value);
    for (const [oldest, its] of this.map) {
      if (this.size <= this.room) return;
      this.map.delete(oldest);
      this.size -= this.sizeOf(its);
    }
  }
}

// What a query that was read is reckoned to hold: so many bytes, and so many times the bytes of its text.
const OWN = 12_000;
const TIMES = 100;

/** The queries of a schema that were asked last. */
class ReadQueries {
  constructor(schema, limits, room) {
    Object.assign(this, { schema, limits, read: 0, found: 0 });
    this.kept = new Kept(room, ({ text }) => OWN + TIMES * text.length);
  }

  get(text) {
    const kept = this.kept.get(text);
    if (kept !== undefined) {
      this.found++;
      return kept;
    }
    const made = { text, query: this.schema.query(text), operations: new Map() };
    this.read++;
    this.kept.put(text, made);
    return made;
  }

  /** What is known of an operation: its name, kind, depth and cost. `TooCostly` where that is above the limit. */
  operation(read, name) {
    const known = read.operations.get(name);
    if (known !== undefined) return known;
    const kind = read.query.kind(name);
    if (kind === null) return { name: null, kind, depth: 0, cost: null };
    const { nodes, items } = this.limits;
    const cost = nodes === null ? null : read.query.cost({ items, limit: nodes, operationName: name });
    const made = { kind, cost, ...lookAt(read.text, name) };
    read.operations.set(name, made);
    return made;
  }
}

/** Texts in memory, in all at most `room` bytes. Any store has such a `get` and `put`, which may give promises. */
class MemoryDocuments {
  constructor({ room = 16 << 20 } = {}) {
    this.kept = new Kept(room, (text) => 4 * text.length + 400);
  }

  get(key) {
    return this.kept.get(key) ?? null;
  }

  put(key, text) {
    this.kept.put(key, text);
  }
}

/** The texts that are listed, and no other. */
class ListedDocuments {
  constructor(texts) {
    this.isClosed = true;
    this.texts = new Map(Array.from(texts, (text) => [sumOf(text), text]));
  }

  get(key) {
    return this.texts.get(key) ?? null;
  }

  put() {}
}

/** The sum that a request names, or null. `Fault` (400) where it names none rightly. */
function named({ extensions }) {
  const given = extensions.persistedQuery;
  if (given === undefined) return null;
  const key = given?.version === 1 ? given.sha256Hash : null;
  if (typeof key !== 'string' || !/^[0-9a-f]{64}$/.test(key)) {
    throw new Fault(400, '`persistedQuery` is no version 1 with a `sha256Hash` of 64 digits');
  }
  return key;
}

function notKnown(documents) {
  if (documents.isClosed) return new Fault(403, 'only listed queries are answered', { code: 'QUERY_NOT_LISTED' });
  return new Fault(null, 'PersistedQueryNotFound', { code: 'PERSISTED_QUERY_NOT_FOUND' });
}

/** The text that is asked. `Fault` where it is not known, is not listed, or has another sum than the one that is named. */
async function textOf(documents, asked) {
  const { query } = asked;
  if (documents === null && query !== null) return query;
  if (documents === null) throw new Fault(null, 'PersistedQueryNotSupported', { code: 'PERSISTED_QUERY_NOT_SUPPORTED' });
  const key = named(asked);
  if (query === null) {
    const found = await documents.get(key);
    if (typeof found !== 'string' || sumOf(found) !== key) throw notKnown(documents);
    return found;
  }
  if (documents.isClosed && (await documents.get(sumOf(query))) === null) throw notKnown(documents);
  if (key !== null && key !== sumOf(query)) throw new Fault(400, 'the query has another SHA-256 than the one that is named');
  return query;
}

/** Keeps the text of a query that was read. */
async function keep(documents, { query, extensions }) {
  if (documents !== null && query !== null && extensions.persistedQuery !== undefined) await documents.put(sumOf(query), query);
}

module.exports = { ListedDocuments, MemoryDocuments, ReadQueries, keep, textOf };
