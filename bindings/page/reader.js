'use strict';
// Reads the tokens of a document against a schema as far as they go: what each of them names, and what may come next. It never fails:
// what it does not expect it passes over.

const { nullable } = require('./schema.js');

const OPERATIONS = ['query', 'mutation', 'subscription'];

// Thrown where the tokens end: `here` of the reader is what is expected there.
const END = Symbol('end');

class Reader {
  /** `schema` may be null: then tokens have no types. */
  constructor(schema, tokens) {
    Object.assign(this, { schema, tokens: tokens.filter((it) => it.kind !== 'comment'), at: 0, here: null });
    Object.assign(this, { notes: new Map(), operations: [], fragments: new Map(), variables: new Map() });
  }

  read() {
    try {
      for (;;) this.definition();
    } catch (end) {
      if (end !== END) throw end;
    }
    return this;
  }

  /** The text of the next token, where `here` is expected. */
  look(here) {
    this.here = here;
    if (this.at >= this.tokens.length) throw END;
    return this.tokens[this.at].text;
  }

  take() {
    return this.tokens[this.at++];
  }

  /** Takes a token of which something is known. */
  note(known) {
    const token = this.take();
    this.notes.set(token.start, known);
    return token;
  }

  isName() {
    return this.tokens[this.at]?.kind === 'name';
  }

  /** Takes the next token if it is this one. */
  skip(text, here = { kind: 'none' }) {
    if (this.look(here) !== text) return false;
    this.take();
    return true;
  }

  definition() {
    const text = this.look({ kind: 'definition' });
    if (text === '{' || OPERATIONS.includes(text)) this.operation(text);
    else if (text === 'fragment') this.fragment();
    else this.take();
  }

  operation(text) {
    const kind = text === '{' ? 'query' : text;
    const operation = { kind, name: undefined, start: this.tokens[this.at].start, end: Infinity };
    this.operations.push(operation);
    this.variables = new Map();
    if (text !== '{') this.head(operation);
    if (this.look({ kind: 'none' }) === '{') this.selections(this.schema?.type(this.schema.roots[kind]));
    operation.end = this.tokens[this.at - 1].end;
  }

  head(operation) {
    this.note({ kind: 'keyword' });
    this.look({ kind: 'none' });
    if (this.isName()) operation.name = this.note({ kind: 'operation' }).text;
    if (this.look({ kind: 'none' }) === '(') this.definitions();
    this.applied({ kind: 'none' }, operation.kind.toUpperCase());
  }

  fragment() {
    this.note({ kind: 'keyword' });
    this.look({ kind: 'none' });
    const name = this.isName() ? this.note({ kind: 'fragment' }).text : undefined;
    this.look({ kind: 'on' });
    if (this.skip('on')) this.notes.set(this.tokens[this.at - 1].start, { kind: 'keyword' });
    const type = this.condition(null);
    if (name !== undefined) this.fragments.set(name, type);
    this.applied({ kind: 'none' }, 'FRAGMENT_DEFINITION');
    if (this.look({ kind: 'none' }) === '{') this.selections(type);
  }

  /** The type of a fragment that stands where the other type does. */
  condition(within) {
    const name = this.look({ kind: 'condition', type: within });
    if (!this.isName()) return undefined;
    const type = this.schema?.type(name);
    this.note({ kind: 'type', type });
    return type;
  }

  selections(type) {
    this.take();
    for (;;) {
      const text = this.look({ kind: 'selection', type });
      if (text === '}') {
        this.take();
        return;
      }
      if (text === '...') this.spread(type);
      else if (this.isName()) this.field(type);
      else this.take();
    }
  }

  field(type) {
    const here = { kind: 'selection', type };
    let token = this.take();
    if (this.tokens[this.at]?.text === ':') {
      this.notes.set(token.start, { kind: 'alias' });
      this.take();
      this.look(here);
      if (!this.isName()) return;
      token = this.take();
    }
    const field = this.schema?.fieldsOf(type).find((it) => it.name === token.text);
    this.notes.set(token.start, { kind: 'field', type, field });
    if (this.look(here) === '(') this.given(field?.args, { type, field });
    this.applied(here, 'FIELD');
    if (this.look(here) === '{') this.selections(this.schema?.inner(field?.type));
  }

  spread(type) {
    this.take();
    const text = this.look({ kind: 'spread', type });
    if (text === 'on') {
      this.note({ kind: 'keyword' });
      this.inline(this.condition(type));
    } else if (text === '@' || text === '{') {
      this.inline(type);
    } else if (this.isName()) {
      this.note({ kind: 'spread', name: text });
      this.applied({ kind: 'selection', type }, 'FRAGMENT_SPREAD');
    }
  }

  inline(type) {
    this.applied({ kind: 'none' }, 'INLINE_FRAGMENT');
    if (this.look({ kind: 'none' }) === '{') this.selections(type);
  }

  /** Directives, where they or something else may stand. */
  applied(here, location) {
    while (this.look(here) === '@') {
      this.take();
      const name = this.look({ kind: 'directive', location });
      if (!this.isName()) continue;
      const directive = this.schema?.directives.get(name);
      this.note({ kind: 'directive', directive });
      if (this.look(here) === '(') this.given(directive?.args, { directive });
    }
  }

  /** Arguments. */
  given(args, of) {
    this.take();
    for (;;) {
      const text = this.look({ kind: 'argument', args, of });
      if (text === '{' || text === '}') return;
      if (this.isName()) {
        const argument = args?.find((it) => it.name === text);
        this.note({ kind: 'argument', argument, of });
        if (this.skip(':')) this.value(argument?.type);
      } else {
        this.take();
        if (text === ')') return;
      }
    }
  }

  value(type) {
    const text = this.look({ kind: 'value', type });
    const plain = type && nullable(type);
    if (text === '$') this.variable(type);
    else if (text === '[') this.items(plain?.kind === 'LIST' ? plain.ofType : type);
    else if (text === '{') this.object(this.schema?.inner(plain));
    else if (this.isName()) {
      const named = this.schema?.inner(plain);
      const known = named?.enumValues?.find((it) => it.name === text);
      this.note(known ? { kind: 'enum', type: named, value: known } : { kind: 'keyword' });
    } else if (text !== ')' && text !== '}' && text !== ']') this.take();
  }

  variable(type) {
    this.take();
    const name = this.look({ kind: 'variable', type });
    if (this.isName()) this.note({ kind: 'variable', name, written: this.variables.get(name)?.written });
  }

  items(type) {
    this.take();
    for (;;) {
      const text = this.look({ kind: 'value', type });
      if (text === ')' || text === '}') return;
      if (text === ']') {
        this.take();
        return;
      }
      this.value(type);
    }
  }

  object(type) {
    this.take();
    for (;;) {
      const text = this.look({ kind: 'argument', args: type?.inputFields, of: { type } });
      if (text === '(' || text === ')') return;
      if (this.isName()) {
        const argument = type?.inputFields?.find((it) => it.name === text);
        this.note({ kind: 'argument', argument, of: { type } });
        if (this.skip(':')) this.value(argument?.type);
      } else {
        this.take();
        if (text === '}') return;
      }
    }
  }

  /** Definitions of variables. */
  definitions() {
    this.take();
    for (;;) {
      const text = this.look({ kind: 'none' });
      if (text === '{' || text === '}') return;
      this.take();
      if (text === ')') return;
      if (text === '$') this.defined();
    }
  }

  defined() {
    const name = this.look({ kind: 'none' });
    if (!this.isName()) return;
    const token = this.take();
    if (!this.skip(':')) return;
    const type = this.typeReference();
    const written = this.tokens.slice(this.tokens.indexOf(token) + 2, this.at).map((it) => it.text).join('');
    this.variables.set(name, { type, written });
    this.notes.set(token.start, { kind: 'variable', name, written });
    if (this.skip('=')) this.value(type);
    this.applied({ kind: 'none' }, 'VARIABLE_DEFINITION');
  }

  typeReference() {
    const text = this.look({ kind: 'inputType' });
    let type;
    if (text === '[') {
      this.take();
      type = { kind: 'LIST', name: null, ofType: this.typeReference() };
      this.skip(']');
    } else if (this.isName()) {
      const named = this.schema?.type(text);
      this.note({ kind: 'type', type: named });
      type = { kind: named?.kind ?? 'SCALAR', name: text };
    }
    if (type && this.skip('!')) type = { kind: 'NON_NULL', name: null, ofType: type };
    return type;
  }
}

/** All that the tokens of a document name, by the places where they begin, with its operations and fragments. */
const readDocument = (schema, tokens) => new Reader(schema, tokens).read();

/** What may stand at a place: what is expected there, and where the name begins that is being typed there. */
function expectedAt(schema, tokens, place) {
  const inside = tokens.find((it) => it.start < place && place <= it.end && it.kind !== 'sign');
  if (inside && inside.kind !== 'name') return null;
  const start = inside ? inside.start : place;
  const reader = new Reader(schema, tokens.filter((it) => it.end <= start)).read();
  return { here: reader.here, start, end: inside ? inside.end : place, variables: reader.variables };
}

module.exports = { readDocument, expectedAt };
