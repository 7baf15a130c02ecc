'use strict';
// What the engine in the page says of the page's texts.

const { faultOfObject, spanAt, spanAtByte } = require('./faults.js');
const { INTROSPECTION, SchemaModel } = require('./schema.js');

const LOST = 'The engine needed more stack than this browser gives. It begins anew with the next change.';

/** What was found: what is wrong in each text, what is wrong at no place, the response, and the cost. */
class Findings {
  constructor() {
    Object.assign(this, { schema: [], query: [], variables: [], data: [], elsewhere: [], response: null, cost: null });
  }

  /** Adds an error of the engine, at its places in a text. */
  add(pane, text, error) {
    const where = error.path ? ` (${error.path.join('.')})` : '';
    const places = error.locations ?? [];
    if (places.length === 0) this.elsewhere.push({ message: error.message + where });
    for (const place of places) this[pane].push({ ...spanAt(text, place), message: error.message + where, place: `${place.line}:${place.column}` });
  }
}

class Workspace {
  constructor(sunwaket) {
    Object.assign(this, { sunwaket, schema: null, query: null, model: null, schemaText: null, queryText: null });
  }

  /** Looks through all texts. `data` is undefined where somebody else answers. */
  look({ schema, query, variables, data, operation, items }) {
    const findings = new Findings();
    const faults = { variables: faultOfObject(variables), data: data === undefined ? null : faultOfObject(data) };
    for (const [pane, fault] of Object.entries(faults)) if (fault) findings[pane].push(fault);
    try {
      if (!this.readSchema(schema, findings) || !this.readQuery(query, findings)) return findings;
      const options = { operationName: operation || undefined, variables: variables.trim() || undefined, introspection: true };
      if (items !== undefined) findings.cost = this.cost(items, options);
      if (data !== undefined && !faults.variables && !faults.data) this.answer({ query, variables, data: data.trim() || '{}', options }, findings);
    } catch (error) {
      this.forget();
      findings.elsewhere.push({ message: error.code === 'GQL_LOST' ? LOST : String(error.message) });
    }
    return findings;
  }

  forget() {
    Object.assign(this, { schema: null, query: null, schemaText: null, queryText: null });
  }

  readSchema(text, findings) {
    if (text === this.schemaText) {
      for (const error of this.schemaErrors) findings.add('schema', text, error);
      return this.schema !== null;
    }
    this.query?.close();
    this.schema?.close();
    Object.assign(this, { schema: null, query: null, queryText: null, schemaText: text, schemaErrors: [] });
    try {
      this.schema = new this.sunwaket.Schema(text);
      this.model = this.readModel();
      return true;
    } catch (error) {
      if (!(error instanceof this.sunwaket.SchemaRefused)) throw error;
      this.schemaErrors = error.errors;
      for (const each of error.errors) findings.add('schema', text, each);
      return false;
    }
  }

  /** What the schema tells of itself. */
  readModel() {
    const query = this.schema.query(INTROSPECTION);
    try {
      return new SchemaModel(JSON.parse(query.executeSync({}, { introspection: true }).toString()).data.__schema);
    } finally {
      query.close();
    }
  }

  readQuery(text, findings) {
    if (this.query && text === this.queryText) return true;
    this.query?.close();
    Object.assign(this, { query: null, queryText: text });
    if (text.trim() === '') return false;
    try {
      this.query = this.schema.query(text);
      return true;
    } catch (error) {
      if (!(error instanceof this.sunwaket.QueryRefused)) throw error;
      for (const each of error.errors) findings.add('query', text, each);
      return false;
    }
  }

  /** The cost of the operation; null where there is no such one. */
  cost(items, { operationName }) {
    try {
      return this.query.cost({ items, operationName });
    } catch (error) {
      if (error instanceof this.sunwaket.TooCostly) return Infinity;
      if (error instanceof this.sunwaket.RequestRefused) return null;
      throw error;
    }
  }

  answer({ query, variables, data, options }, findings) {
    const root = new this.sunwaket.Data(data);
    try {
      findings.response = this.query.executeSync(root, options).toString();
      for (const error of JSON.parse(findings.response).errors ?? []) findings.add('query', query, error);
    } catch (error) {
      if (!(error instanceof this.sunwaket.RequestRefused)) throw error;
      findings.response = error.json.toString();
      for (const each of error.errors) this.refused(each, query, variables, findings);
    } finally {
      root.close();
    }
  }

  /** An error of a request that is refused, which may be one of the variables' JSON. */
  refused(error, query, variables, findings) {
    const byte = /^variables: .* at byte (\d+)$/.exec(error.message);
    if (byte) findings.variables.push({ ...spanAtByte(variables, Number(byte[1])), message: error.message });
    else findings.add('query', query, error);
  }
}

module.exports = { Workspace };
